//! Typed texts: sheets as a person may type them, and what may go wrong in them.

use crate::second::random::{self, Random};
use crate::second::sheet::{Sheet, FIELDS, TABLE};
use crate::second::typed::{self, Kind, Row, LONGEST, ROWS};

/// A sheet's lines without their ends: the one that begins it, then its rows.
type Lines = Vec<Vec<u8>>;

fn lines_of(figures: &[i64; FIELDS]) -> Lines {
    let sheet = Sheet { figures: *figures };
    let rows = ROWS.iter().map(|row| typed::line_in(row, &sheet));
    let lines = std::iter::once("sheet".to_string()).chain(rows);
    lines.map(String::into_bytes).collect()
}

fn text_of(lines: &[Vec<u8>]) -> Vec<u8> {
    let mut text = Vec::new();
    for line in lines {
        text.extend(line);
        text.push(b'\n');
    }
    text
}

pub fn sheet_text(figures: &[i64; FIELDS]) -> Vec<u8> {
    text_of(&lines_of(figures))
}

/// The sheet with another line in the place of a row's; places are counted from 0.
fn with_row(lines: &Lines, place: usize, line: &str) -> Vec<u8> {
    let mut changed = lines.clone();
    changed[place + 1] = line.as_bytes().to_vec();
    text_of(&changed)
}

/// Puts the texts of sheets one behind another, into as few texts as can be read.
pub fn joined(sheets: &[Vec<u8>]) -> Vec<Vec<u8>> {
    let mut texts: Vec<Vec<u8>> = vec![];
    for sheet in sheets {
        match texts.last_mut() {
            Some(text) if text.len() + sheet.len() <= LONGEST => text.extend(sheet),
            _ => texts.push(sheet.clone()),
        }
    }
    texts
}

// Sheets that are right.

/// Bytes of any kind that do not end a line.
fn bytes_in_line(rng: &mut Random, most: usize) -> Vec<u8> {
    let some = (0..rng.below(most + 1)).map(|_| rng.draw() as u8);
    some.filter(|&byte| byte != b'\n').collect()
}

fn spaces(rng: &mut Random) -> Vec<u8> {
    (0..rng.below(6)).map(|_| rng.pick(b" \t")).collect()
}

/// A blank line or a comment.
fn passed_over(rng: &mut Random) -> Vec<u8> {
    let blank = spaces(rng);
    match rng.below(4) {
        0 => blank,
        1 => [&blank[..], b"# sheet"].concat(),
        _ => [blank, b"#".to_vec(), bytes_in_line(rng, 80)].concat(),
    }
}

/// The line that begins a sheet.
fn beginning(rng: &mut Random) -> Vec<u8> {
    match rng.below(4) {
        0 => b"sheet".to_vec(),
        1 => format!("sheet the {}th stretch # 7", rng.below(1_000)).into_bytes(),
        _ => [b"sheet ".to_vec(), bytes_in_line(rng, 70)].concat(),
    }
}

/// A sheet behind the line that begins it, with lines that are passed over, and ends of either kind.
pub fn dressed(rng: &mut Random, beginning: Vec<u8>, figures: &[i64; FIELDS]) -> Vec<u8> {
    let mut lines = lines_of(figures);
    lines[0] = beginning;
    let (between, returns) = (rng.pick(&[0, 2, 20]), rng.pick(&[0, 50, 100]));
    let mut text = Vec::new();
    for line in lines {
        while rng.below(100) < between {
            text.extend(passed_over(rng));
            text.push(b'\n');
        }
        text.extend(line);
        if rng.below(100) < returns {
            text.push(b'\r');
        }
        text.push(b'\n');
    }
    text
}

/// A text of right sheets; its end is of any kind.
pub fn right_text(rng: &mut Random, sheets: usize) -> Vec<u8> {
    let mut text = Vec::new();
    for _ in 0..sheets {
        let figures = random::valid_sheet(rng);
        let beginning = beginning(rng);
        text.extend(dressed(rng, beginning, &figures));
    }
    match rng.below(4) {
        0 => drop(text.pop()),
        1 => text.extend(passed_over(rng)),
        2 => text.extend(b"\t\r\n\n#"),
        _ => {}
    }
    text
}

/// Every figure of every field, but every sixteenth deadweight and every sixth channel length; the level of every eleventh
/// sheet is off the record.
pub fn every_figure() -> Vec<Vec<u8>> {
    let sheets = 40_000;
    let text = |number: i64| {
        let mut figures = [0; FIELDS];
        for (figure, field) in figures.iter_mut().zip(&TABLE) {
            let count = field.greatest - field.least + 1;
            let step = count / sheets + 1;
            *figure = field.least + number * step % count;
        }
        figures[25] = match figures[24] {
            0 => 0,
            _ => 1 + number % 20_000,
        };
        figures[26] = i64::from(number % 11 != 0);
        figures[27] *= figures[26];
        sheet_text(&figures)
    };
    (0..sheets).map(text).collect()
}

// Figures and units.

/// The lines of a row at and past the ends of its range, of all its words, of all levels and some more.
fn edge_lines(row: &Row) -> Vec<String> {
    let (least, greatest) = typed::range(row);
    let numbers: Vec<i64> = match row.kind {
        Kind::Decimal(_) => {
            let about = |figure: i64| (figure - 1).max(0)..=figure + 1;
            about(least).chain(about(greatest)).collect()
        }
        Kind::Words(_) => (least..=greatest).collect(),
        Kind::Level => (least - 20..=greatest + 20).collect(),
    };
    let lines = numbers.iter().map(|&number| typed::line_of(row, number));
    lines.collect()
}

pub fn edges(figures: &[i64; FIELDS]) -> Vec<Vec<u8>> {
    let lines = lines_of(figures);
    let mut sheets = Vec::new();
    for (place, row) in ROWS.iter().enumerate() {
        let edges = edge_lines(row);
        sheets.extend(edges.iter().map(|line| with_row(&lines, place, line)));
    }
    sheets
}

/// Turn and radius, each 0, least, greatest and past it.
pub fn turns(figures: &[i64; FIELDS]) -> Vec<Vec<u8>> {
    let mut sheets = Vec::new();
    for turn in [0, 1, 180, 181] {
        for radius in [0, 1, 20_000, 20_001] {
            let mut bend = *figures;
            (bend[24], bend[25]) = (turn, radius);
            sheets.push(sheet_text(&bend));
        }
    }
    sheets
}

/// What may be typed for a figure.
#[rustfmt::skip]
const ODD_FIGURES: &[&str] = &[
    "", " ", "_", "?", "x", "0", "00", "000", "1", "01", "007", "-", "-0", "-1", "--1", "+1", "1-", "1.", ".1", ".", "/", "1.0",
    "1.00", "1.000", "0.0", "0.00", "0.000", "0.5", "0.05", "0.005", "1/2", "1/", "/1", "1e3", "1E3", "1,5", "1,000", "1 000",
    "1_000", "1'000", "0x10", "NaN", "inf", "\u{661}", "\u{ff11}", "\u{2212}1", "2147483648", "4294967296", "4294967297",
    "4294967304", "18446744073709551617", "18446744073709551624", "12345678", "99999999", "100000000", "123456789",
    "999999999", "1000000000", "9999999999", "12345678901", "1234567890123456789012345", "0000000001",
    "0123456789012", "0000000000000000000000001", "1000000.00", "9999999.99", "10000000.00", "10000000.0", "99999999.9",
    "100000000.0", "100000000.", "12345678.", "record", "Record", "recorded", "given", "given ", "given 1", "given -1",
    "given -0", "given --1", "given +1", "given -501", "given 1501", "given -100000000", "given 01", "given 1.0",
    "given record", "given  1", "given 4294967297", "given -4294967297",
];

/// What may be typed for a unit, beside those of the rows.
const ODD_UNITS: &[&str] = &[
    "", " ", "T", "CM", "c", "cmm", "m/", "/", "x", "cm cm", "#", "\t",
];

/// Every word of every row.
fn words() -> Vec<&'static str> {
    let of_row = |row: &Row| match row.kind {
        Kind::Words(words) => words,
        _ => &[],
    };
    ROWS.iter().flat_map(of_row).copied().collect()
}

/// What stands behind the row's name in a sheet: the figure, and the unit where it has one.
fn figure_and_unit<'a>(row: &Row, line: &'a str) -> (&'a str, &'a str) {
    let behind = line.split_once(' ').expect("a name").1;
    match behind.strip_suffix(row.unit) {
        Some(figure) if !row.unit.is_empty() => (figure.trim_end(), row.unit),
        _ => (behind, ""),
    }
}

/// Figures that are none of the row's, and its own with something beside it.
fn odd_figures(row: &Row, figure: &str) -> Vec<String> {
    let mut figures: Vec<String> = ODD_FIGURES.iter().map(|odd| odd.to_string()).collect();
    figures.extend(words().iter().map(|word| word.to_string()));
    for before in [" ", "0", "-", "+", ".", "\t", "x"] {
        figures.push(format!("{before}{figure}"));
    }
    for behind in [" ", "0", ".", ".0", "/", "/1", "e0", "-", ",0", "\t", "x"] {
        figures.push(format!("{figure}{behind}"));
    }
    if let Kind::Level = row.kind {
        for level in ["-0", "00", "-00", "-01", "01", "-1.", "1/", "-500x", "0-1"] {
            figures.push(format!("given {level}"));
        }
    }
    figures.push(figure.to_uppercase());
    figures
}

/// Each row's line with each odd figure, with its unit and without, and with each other unit.
pub fn odd_lines(figures: &[i64; FIELDS]) -> Vec<Vec<u8>> {
    let lines = lines_of(figures);
    let units: Vec<&str> = ROWS.iter().map(|row| row.unit).collect();
    let mut sheets = Vec::new();
    for (place, row) in ROWS.iter().enumerate() {
        let line = String::from_utf8_lossy(&lines[place + 1]);
        let (figure, unit) = figure_and_unit(row, &line);
        let mut put = |line: &str| sheets.push(with_row(&lines, place, line));
        for odd in odd_figures(row, figure) {
            put(&typed::line_with(row, &odd, unit));
            put(&typed::line_with(row, &odd, ""));
        }
        for other in units.iter().chain(ODD_UNITS) {
            put(&format!("{} {figure} {other}", row.name));
            put(&format!("{} {figure}{other}", row.name));
            put(&format!("{} {figure}  {other}", row.name));
            put(&format!("{} {figure} {unit}{other}", row.name));
        }
    }
    sheets
}

/// Digits, points, strokes and signs in any order.
fn some_figure(rng: &mut Random) -> String {
    let kinds = ["0123456789", "0123456789.", "00001.", "0159./", "01.-/ x"];
    let bytes = rng.pick(&kinds).as_bytes();
    let length = rng.pick(&[1, 2, 3, 4, 5, 6, 8, 9, 10, 12]);
    let mut figure: Vec<u8> = (0..length).map(|_| rng.pick(bytes)).collect();
    if length > 3 && rng.below(2) == 0 {
        figure[length - 1 - rng.below(4)] = b'.';
    }
    figure.into_iter().map(char::from).collect()
}

/// The rows that have no words, with such figures.
pub fn random_figures(rng: &mut Random, figures: &[i64; FIELDS], count: usize) -> Vec<Vec<u8>> {
    let lines = lines_of(figures);
    let mut sheets = Vec::new();
    for (place, row) in ROWS.iter().enumerate() {
        let befores: &[&str] = match row.kind {
            Kind::Words(_) => continue,
            Kind::Decimal(_) => &[""],
            Kind::Level => &["given ", "given -", "given ", "given -", "record", "given"],
        };
        for _ in 0..count {
            let figure = rng.pick(befores).to_string() + &some_figure(rng);
            let unit = rng.pick(&[row.unit, row.unit, row.unit, ""]);
            let line = typed::line_with(row, &figure, unit);
            sheets.push(with_row(&lines, place, &line));
        }
    }
    sheets
}

// Bytes and lines.

/// What a byte is changed into, and what is put between two.
const CHANGES: &[u8] = b"\0\t\n\r\x1f !\"#+,-./01589:As_\x7f\x80\xff";

/// Every byte changed, taken away, and others put before it.
pub fn byte_changes(figures: &[i64; FIELDS]) -> Vec<Vec<u8>> {
    let text = sheet_text(figures);
    let mut sheets = Vec::new();
    for place in 0..text.len() {
        let (before, behind) = (&text[..place], &text[place + 1..]);
        let neighbours = [1, 2, 32, 128].map(|bit| text[place] ^ bit);
        sheets.push([before, behind].concat());
        for &change in CHANGES.iter().chain(&neighbours) {
            sheets.push([before, &[change], behind].concat());
            sheets.push([before, &[change], &text[place..]].concat());
        }
    }
    sheets
}

/// Two lines exchanged, one in the place of another, before it or behind the last, one taken away, and all from one on.
pub fn line_changes(figures: &[i64; FIELDS]) -> Vec<Vec<u8>> {
    let lines = lines_of(figures);
    let mut sheets = Vec::new();
    for one in 0..lines.len() {
        sheets.push(text_of(&[&lines[..], &lines[one..=one]].concat()));
        sheets.push(text_of(&[&lines[..one], &lines[one + 1..]].concat()));
        sheets.push(text_of(&lines[..one]));
        for other in 0..lines.len() {
            let (mut exchanged, mut replaced, mut put) =
                (lines.clone(), lines.clone(), lines.clone());
            exchanged.swap(one, other);
            replaced[one] = lines[other].clone();
            put.insert(one, lines[other].clone());
            sheets.extend([exchanged, replaced, put].map(|changed| text_of(&changed)));
        }
    }
    sheets
}

/// Each line with bytes behind it, up to and past the length that a message shows.
pub fn wide_lines(figures: &[i64; FIELDS]) -> Vec<Vec<u8>> {
    let lines = lines_of(figures);
    let mut sheets = Vec::new();
    for place in 0..lines.len() {
        for length in 58..=63 {
            for byte in *b" x\x7f\xff" {
                let mut changed = lines.clone();
                changed[place].resize(length, byte);
                sheets.push(text_of(&changed));
            }
        }
    }
    sheets
}

/// A line for each byte.
pub fn every_byte() -> Vec<Vec<u8>> {
    let line = |byte: u8| vec![b'x', byte, b'y'];
    let sheet = |byte: u8| text_of(&[b"sheet".to_vec(), line(byte)]);
    (0..=255).map(sheet).collect()
}

/// Lines of sheets in their order, but for some that are any others.
pub fn disordered(rng: &mut Random, lines: usize) -> Vec<u8> {
    let mut text = Vec::new();
    let mut sheet = lines_of(&random::valid_sheet(rng));
    let mut place = 0;
    for _ in 0..lines {
        let line = match rng.below(200) {
            0 => beginning(rng),
            1 => bytes_in_line(rng, 70),
            2 => rng
                .pick(&["sheets", " sheet", "sheet\t1", "Sheet", "sheet#"])
                .into(),
            3..=5 => sheet[rng.below(sheet.len())].clone(),
            6..=20 => passed_over(rng),
            _ => {
                place += 1;
                sheet[place - 1].clone()
            }
        };
        text.extend(line);
        text.push(b'\n');
        if place == sheet.len() || rng.below(300) == 0 {
            sheet = lines_of(&random::valid_sheet(rng));
            place = 0;
        }
    }
    text
}

/// Some bytes changed, taken away, or put between others.
pub fn damage(rng: &mut Random, text: &mut Vec<u8>, count: usize) {
    for _ in 0..count {
        let place = rng.below(text.len());
        let byte = match rng.below(2) {
            0 => rng.draw() as u8,
            _ => rng.pick(CHANGES),
        };
        match rng.below(3) {
            0 => text[place] = byte,
            1 => drop(text.remove(place)),
            _ => text.insert(place, byte),
        }
    }
}

pub fn random_bytes(rng: &mut Random, length: usize) -> Vec<u8> {
    (0..length).map(|_| rng.draw() as u8).collect()
}

/// Names, figures, units and ends of lines in any order.
pub fn random_tokens(rng: &mut Random, count: usize) -> Vec<u8> {
    let mut tokens: Vec<&[u8]> = vec![
        b"sheet", b"#", b" ", b" ", b" ", b"\n", b"\n", b"\r", b"\t", b"given ", b"record",
    ];
    tokens.extend(
        ROWS.iter()
            .flat_map(|row| [row.name.as_bytes(), row.unit.as_bytes()]),
    );
    tokens.extend(ODD_FIGURES.iter().map(|figure| figure.as_bytes()));
    (0..count)
        .flat_map(|_| rng.pick(&tokens))
        .copied()
        .collect()
}
