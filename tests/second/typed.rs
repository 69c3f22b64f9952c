//! The typed sheet: a text read into the bytes of its sheets, bytes shown as text, and the empty form.

use super::sheet::{self, Sheet, BYTES, FIELDS, TABLE};
use Kind::{Decimal, Level, Words};

/// How a row's figure is typed.
#[derive(Clone, Copy)]
pub enum Kind {
    /// In decimal, with so many digits behind a point.
    Decimal(usize),
    /// "Words stand for the codes 0, 1, 2 and so on."
    Words(&'static [&'static str]),
    /// "`record`, or `given` and a level."
    Level,
}

/// One row of a typed sheet; the level's field is the first of its two.
pub struct Row {
    pub field: usize,
    pub name: &'static str,
    pub kind: Kind,
    pub unit: &'static str,
}

const fn row(field: usize, name: &'static str, kind: Kind, unit: &'static str) -> Row {
    Row {
        field,
        name,
        kind,
        unit,
    }
}

const INTERVALS: &[&str] = &["0.25", "0.33", "0.50", "1.00", "2.00", "3.00"];
const BANKS: &[&str] = &["sloping", "steep"];

/// "Row, fields, name, figure, unit": place 0 is row 1.
#[rustfmt::skip]
pub const ROWS: [Row; 28] = [
    row(1, "deadweight", Decimal(0), "t"),
    row(2, "draft", Decimal(0), "cm"),
    row(3, "length", Decimal(0), "cm"),
    row(4, "beam", Decimal(0), "cm"),
    row(5, "speed", Decimal(0), "kn"),
    row(6, "natural-bed", Decimal(0), "cm"),
    row(7, "soil", Words(&["mud", "deposited", "dense", "grade-3"]), ""),
    row(8, "wave-allowance", Decimal(0), "cm"),
    row(9, "silting", Decimal(0), "per-mille/yr"),
    row(10, "interval", Words(INTERVALS), "yr"),
    row(11, "lanes", Words(&["by-traffic", "one", "two"]), ""),
    row(12, "channel-length", Decimal(0), "m"),
    row(13, "ships", Decimal(2), "/day"),
    row(14, "water", Words(&["open", "sheltered"]), ""),
    row(15, "handling", Words(&["good", "fair", "poor"]), ""),
    row(16, "cross-wind", Decimal(0), "kn"),
    row(17, "cross-current", Decimal(1), "kn"),
    row(18, "along-current", Decimal(1), "kn"),
    row(19, "wave-height", Decimal(0), "cm"),
    row(20, "aids", Words(&["complete", "good", "middle", "poor"]), ""),
    row(21, "bottom", Words(&["soft", "hard-smooth", "hard-rough"]), ""),
    row(22, "cargo", Words(&["low-danger", "middle-danger", "high-danger"]), ""),
    row(23, "left-bank", Words(BANKS), ""),
    row(24, "right-bank", Words(BANKS), ""),
    row(25, "turn", Decimal(0), "deg"),
    row(26, "radius", Decimal(0), "m"),
    row(27, "level", Level, "cm"),
    row(29, "side-slope", Decimal(0), "m/m"),
];

const TURN: usize = 25;
const RADIUS: usize = 26;

/// The given levels, in cm.
const LEAST_LEVEL: i64 = -500;
const GREATEST_LEVEL: i64 = 1_500;

/// "The words of the numbers": place 0 is T1.
const NUMBERS: [&str; 9] = [
    "stands in no sheet",
    "a row is missing",
    "no such name",
    "stands twice",
    "misplaced",
    "no such figure",
    "no such unit",
    "outside its range",
    "turn and radius disagree",
];

/// The bytes of a line that a message shows.
const SHOWN: usize = 60;

// Lines.

/// A line with its number, or the end of the text, whose number is that of the line behind the last.
#[derive(Clone, Copy)]
struct Line<'a> {
    number: usize,
    bytes: Option<&'a [u8]>,
}

/// "A blank line, of spaces and tabs or nothing", or a comment, "whose first byte other than a space or a tab is `#`".
fn is_passed_over(line: &[u8]) -> bool {
    let first = line.iter().find(|byte| !b" \t".contains(byte));
    matches!(first, None | Some(b'#'))
}

/// "A line `sheet`, or `sheet`, a space and any name."
fn begins_sheet(line: &[u8]) -> bool {
    line == b"sheet" || line.starts_with(b"sheet ")
}

/// The lines that are not passed over, and behind them the end. "All lines are counted, from 1."
fn lines_of(text: &[u8]) -> Vec<Line<'_>> {
    let mut lines = Vec::new();
    let mut number = 0;
    for piece in text.split_inclusive(|&byte| byte == b'\n') {
        number += 1;
        let line = piece.strip_suffix(b"\n").unwrap_or(piece);
        // "a carriage return right before that is no part of it"
        let line = line.strip_suffix(b"\r").unwrap_or(line);
        if !is_passed_over(line) {
            let bytes = Some(line);
            lines.push(Line { number, bytes });
        }
    }
    let (number, bytes) = (number + 1, None);
    lines.push(Line { number, bytes });
    lines
}

// Figures.

/// What a row's figure comes to.
#[derive(Clone, Copy)]
enum Figure {
    Of(i64),
    OffRecord,
}

/// A number that has come to this takes no further byte.
const FULL: i64 = 100_000_000;

/// What the digits of a run mean together; none where they are too many.
fn number_of(run: &[u8]) -> Option<i64> {
    let mut number = 0;
    for &byte in run {
        if number >= FULL {
            return None;
        }
        if byte.is_ascii_digit() {
            number = 10 * number + i64::from(byte - b'0');
        }
    }
    Some(number)
}

/// The longest front of bytes of some kind.
fn front(text: &[u8], kind: impl Fn(&u8) -> bool) -> &[u8] {
    let length = text.iter().take_while(|byte| kind(byte)).count();
    &text[..length]
}

/// How many bytes a figure at the front takes: digits "with no 0 before", then a point and its digits.
fn length_of_figure(text: &[u8], decimals: usize) -> Option<usize> {
    let whole = match text.first()? {
        b'0' => 1,
        b'1'..=b'9' => front(text, u8::is_ascii_digit).len(),
        _ => return None,
    };
    if decimals == 0 {
        return Some(whole);
    }
    let behind = text[whole..].strip_prefix(b".")?;
    let digits = front(behind, u8::is_ascii_digit).len();
    (digits >= decimals).then_some(whole + 1 + decimals)
}

/// A figure at the front, and what stands behind it. Digits, points and strokes that stand together mean one number, 0
/// where they are too many: 12.5 does not begin with the whole figure 12.
fn take_decimal(text: &[u8], decimals: usize) -> Option<(i64, &[u8])> {
    let run = front(text, |byte| (b'.'..=b'9').contains(byte));
    let (figure, behind) = text.split_at(length_of_figure(text, decimals)?);
    let number = number_of(figure)?;
    (number == number_of(run).unwrap_or(0)).then_some((number, behind))
}

/// A word at the front, by its code, and what stands behind it.
fn take_word<'a>(text: &'a [u8], words: &[&str]) -> Option<(i64, &'a [u8])> {
    let taken = |(code, word): (usize, &&str)| {
        let behind = text.strip_prefix(word.as_bytes())?;
        Some((code as i64, behind))
    };
    words.iter().enumerate().find_map(taken)
}

/// A given level, "with `-` before a negative one": not before 0, and not before what no level comes down to.
fn take_level(text: &[u8]) -> Option<(i64, &[u8])> {
    let Some(below) = text.strip_prefix(b"-") else {
        return take_decimal(text, 0);
    };
    let (number, behind) = take_decimal(below, 0)?;
    (LEAST_LEVEL..0)
        .contains(&-number)
        .then_some((-number, behind))
}

/// The figure at the front as the row has it, what stands behind it, and the unit that is to stand there.
fn take_figure<'a>(row: &Row, text: &'a [u8]) -> Option<(Figure, &'a [u8], &'static str)> {
    let (number, behind) = match row.kind {
        Decimal(decimals) => take_decimal(text, decimals)?,
        Words(words) => take_word(text, words)?,
        Level => match text.strip_prefix(b"given ") {
            Some(given) => take_level(given)?,
            // "A level off the record is `level record`, with no unit"
            None => return Some((Figure::OffRecord, text.strip_prefix(b"record")?, "")),
        },
    };
    Some((Figure::Of(number), behind, row.unit))
}

// Reading.

/// The first line of a sheet that is turned away; the place of the row that was to stand there, or none where a sheet was
/// to begin; and what stood there, or none where the text ends.
#[derive(Clone, Debug, PartialEq, Eq)]
pub struct Fault {
    pub line: usize,
    pub number: usize,
    pub place: Option<usize>,
    pub stood: Option<Vec<u8>>,
}

fn fault(number: usize, line: &Line, place: Option<usize>) -> Fault {
    Fault {
        line: line.number,
        number,
        place,
        stood: line.bytes.map(<[u8]>::to_vec),
    }
}

/// "A line has a row's name when it begins with the name and a space": the row's place, and what stands behind.
fn named(line: &[u8]) -> Option<(usize, &[u8])> {
    let space = line.iter().position(|&byte| byte == b' ')?;
    let (name, behind) = (&line[..space], &line[space + 1..]);
    let place = ROWS.iter().position(|row| row.name.as_bytes() == name)?;
    Some((place, behind))
}

/// The least and the greatest figure of a row.
pub fn range(row: &Row) -> (i64, i64) {
    match row.kind {
        Level => (LEAST_LEVEL, GREATEST_LEVEL),
        _ => (TABLE[row.field - 1].least, TABLE[row.field - 1].greatest),
    }
}

/// "Turn and radius are both 0, or both not", asked where the radius stands.
fn disagrees(row: &Row, figures: &[i64; FIELDS], number: i64) -> bool {
    row.field == RADIUS && (figures[TURN - 1] == 0) != (number == 0)
}

/// Whether it is nothing, or a space and a unit.
fn is_unit(behind: &[u8], unit: &str) -> bool {
    match unit {
        "" => behind.is_empty(),
        _ => behind.strip_prefix(b" ") == Some(unit.as_bytes()),
    }
}

/// Reads the line of the row at a place into the figures, or gives the first number of T3 to T9 that holds.
fn read_row(line: &[u8], place: usize, figures: &mut [i64; FIELDS]) -> Result<(), usize> {
    let (found, behind) = named(line).ok_or(3_usize)?;
    if found != place {
        return Err(if found < place { 4 } else { 5 });
    }
    let row = &ROWS[place];
    let (figure, behind, unit) = take_figure(row, behind).ok_or(6_usize)?;
    if !is_unit(behind, unit) {
        return Err(7);
    }
    let Figure::Of(number) = figure else {
        (figures[26], figures[27]) = (0, 0);
        return Ok(());
    };
    let (least, greatest) = range(row);
    if number < least || number > greatest {
        return Err(8);
    }
    if disagrees(row, figures, number) {
        return Err(9);
    }
    match row.kind {
        Level => (figures[26], figures[27]) = (1, number - LEAST_LEVEL),
        _ => figures[row.field - 1] = number,
    }
    Ok(())
}

/// One sheet: the lines behind the one that begins it, and what stands behind those, the next sheet's or the end.
fn read_sheet(lines: &[Line], next: &Line) -> Result<[i64; FIELDS], Fault> {
    let mut figures = [0; FIELDS];
    for place in 0..ROWS.len() {
        let missing = || fault(2, next, Some(place));
        let line = lines.get(place).ok_or_else(missing)?;
        let bytes = line.bytes.expect("the end is the last");
        read_row(bytes, place, &mut figures).map_err(|number| fault(number, line, Some(place)))?;
    }
    match lines.get(ROWS.len()) {
        Some(line) => Err(fault(1, line, None)),
        None => Ok(figures),
    }
}

/// "A text with a fault has no sheets": the bytes of all, or the faults.
pub fn read(text: &[u8]) -> Result<Vec<u8>, Vec<Fault>> {
    let lines = lines_of(text);
    let ends_sheet = |line: &Line| line.bytes.is_none_or(begins_sheet);
    let ends: Vec<usize> = (0..lines.len())
        .filter(|&k| ends_sheet(&lines[k]))
        .collect();
    let mut faults = Vec::new();
    if ends[0] > 0 {
        faults.push(fault(1, &lines[0], None));
    }
    let mut bytes = Vec::new();
    for pair in ends.windows(2) {
        match read_sheet(&lines[pair[0] + 1..pair[1]], &lines[pair[1]]) {
            Ok(figures) => bytes.extend(sheet::pack(&figures)),
            Err(fault) => faults.push(fault),
        }
    }
    if faults.is_empty() {
        Ok(bytes)
    } else {
        Err(faults)
    }
}

/// The name of each sheet of a text, empty where it has none: what stands behind `sheet` and a space.
pub fn names(text: &[u8]) -> Vec<Vec<u8>> {
    let beginnings = lines_of(text).into_iter().filter_map(|line| line.bytes);
    let named = beginnings.filter(|line| begins_sheet(line));
    named
        .map(|line| line.strip_prefix(b"sheet ").unwrap_or_default().to_vec())
        .collect()
}

/// The bytes of all sheets, or a message for each faulty one.
pub fn read_text(text: &[u8]) -> Result<Vec<u8>, Vec<Vec<u8>>> {
    read(text).map_err(|faults| faults.iter().map(message).collect())
}

// Printing.

/// A figure as its row has it; a level is a given one.
fn written(row: &Row, number: i64) -> String {
    match row.kind {
        Decimal(0) => number.to_string(),
        Decimal(decimals) => {
            let parts = 10_i64.pow(decimals as u32);
            format!("{}.{:0decimals$}", number / parts, number % parts)
        }
        Words(words) => words[number as usize].to_string(),
        Level => format!("given {number}"),
    }
}

/// "The row's name, a space, the figure, and, where the row has a unit, a space and the unit."
pub fn line_with(row: &Row, figure: &str, unit: &str) -> String {
    match unit {
        "" => format!("{} {figure}", row.name),
        _ => format!("{} {figure} {unit}", row.name),
    }
}

/// The line of a figure; a level is a given one.
pub fn line_of(row: &Row, number: i64) -> String {
    line_with(row, &written(row, number), row.unit)
}

/// The line of a row in a sheet.
pub fn line_in(row: &Row, sheet: &Sheet) -> String {
    match (row.kind, sheet.given_level()) {
        (Level, Some(level)) => line_of(row, level),
        (Level, None) => line_with(row, "record", ""),
        _ => line_of(row, sheet.figures[row.field - 1]),
    }
}

/// "The row's line with its least figure, ` .. `, and the line with its greatest; the lines of all its words."
pub fn expected(row: &Row) -> String {
    let (least, greatest) = range(row);
    let from_to = || format!("{} .. {}", line_of(row, least), line_of(row, greatest));
    match row.kind {
        Decimal(_) => from_to(),
        Words(words) => {
            let lines = words.iter().map(|word| line_with(row, word, row.unit));
            lines.collect::<Vec<_>>().join(" | ")
        }
        Level => format!("level record | {}", from_to()),
    }
}

/// "The line's first 60 bytes between quotes, with `..` behind the second where it has more, and `?` for a byte under 32
/// and for 127."
fn quoted(line: &[u8]) -> Vec<u8> {
    let plain = |&byte: &u8| match byte {
        0..=31 | 127 => b'?',
        _ => byte,
    };
    let mut quoted = vec![b'"'];
    quoted.extend(line.iter().take(SHOWN).map(plain));
    quoted.push(b'"');
    if line.len() > SHOWN {
        quoted.extend(b"..");
    }
    quoted
}

/// The message of a fault, without its newline; a line may have any bytes, so it is no string.
pub fn message(fault: &Fault) -> Vec<u8> {
    let words = NUMBERS[fault.number - 1];
    let stood = match &fault.stood {
        Some(line) => quoted(line),
        None => b"the text ends".to_vec(),
    };
    let expected = match fault.place {
        Some(place) => expected(&ROWS[place]),
        None => "sheet".to_string(),
    };
    [
        format!("line {}: T{} {words}: ", fault.line, fault.number).as_bytes(),
        &stood,
        format!("; expected: {expected}").as_bytes(),
    ]
    .concat()
}

/// "Bytes are cut into sheets of 28, the last maybe shorter." Each line ends with a newline.
pub fn show(bytes: &[u8]) -> Vec<u8> {
    let mut text = String::new();
    for (before, sheet) in bytes.chunks(BYTES).enumerate() {
        text += &format!("sheet {}\n", before + 1);
        match sheet::read(sheet) {
            Ok(sheet) => {
                for row in &ROWS {
                    text += &line_in(row, &sheet);
                    text.push('\n');
                }
            }
            Err(refusal) => text += &format!("refused {} {}\n", refusal.number, refusal.field),
        }
    }
    text.into_bytes()
}

/// "For each row a comment with what is expected, as in a message, and its line with `_` for the figure."
pub fn form() -> Vec<u8> {
    let mut text = "# Put a figure or a word in the place of each _; the line above says which. \
                    A name may stand behind sheet.\nsheet\n"
        .to_string();
    for row in &ROWS {
        // "the level's has no unit"
        let unit = match row.kind {
            Level => "",
            _ => row.unit,
        };
        let line = line_with(row, "_", unit);
        text += &format!("# {}\n{line}\n", expected(row));
    }
    text.into_bytes()
}

// The command `type`.

/// The longest text that it reads.
pub const LONGEST: usize = 4_194_304;

/// What is said of an input that is too long.
pub fn too_long(input: &[u8]) -> Option<Vec<u8>> {
    let said = || format!("standard input: longer than {LONGEST} bytes\n").into_bytes();
    (input.len() > LONGEST).then(said)
}

/// What it writes to standard output and to standard error.
pub fn type_text(text: &[u8]) -> (Vec<u8>, Vec<u8>) {
    if let Some(said) = too_long(text) {
        return (vec![], said);
    }
    match read(text) {
        Ok(bytes) => (bytes, vec![]),
        Err(faults) => (vec![], said_of(&faults)),
    }
}

/// The messages of faults, each with a newline.
pub fn said_of(faults: &[Fault]) -> Vec<u8> {
    let mut said = Vec::new();
    for fault in faults {
        said.extend(message(fault));
        said.push(b'\n');
    }
    said
}
