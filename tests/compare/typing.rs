//! The typed sheet: texts typed, and bytes shown as text, byte for byte, beside the second program.

use crate::figures::S;
use crate::program::{forget, written, written_from_pipe, Written};
use crate::report::{hex, Report};
use crate::second::random::{self, Random};
use crate::second::sheet::{self, BYTES, FIELDS, TABLE};
use crate::second::typed::{self, Fault, Kind, LONGEST, ROWS};
use crate::texts;
use crate::typed_figures;
use std::collections::HashSet;
use std::process::exit;

/// The numbers T1 to T9, by their number.
const NUMBERS: usize = 10;

/// A place for each row, and one for where a sheet was to begin.
const PLACES: usize = ROWS.len() + 1;

/// How the program gets its input.
type Run = fn(&str, &str, &[u8]) -> Written;

/// What a word writes to standard output, cut so that a piece is a sheet or a line of text.
fn pieces(word: &str, out: &[u8]) -> Vec<String> {
    match word {
        "type" => out.chunks(BYTES).map(hex).collect(),
        _ => lines(out),
    }
}

fn lines(text: &[u8]) -> Vec<String> {
    let lines = text.split(|&byte| byte == b'\n');
    lines.map(|line| line.escape_ascii().to_string()).collect()
}

/// Holds what the program wrote to the second program's: stops at a difference, and keeps the input.
fn hold(name: &str, word: &str, input: &[u8], proved: &Written, second: &Written) {
    if proved == second {
        return forget(name);
    }
    let show = |stream: &str, proved: Vec<String>, second: Vec<String>| {
        let same = proved.iter().zip(&second).take_while(|(a, b)| a == b);
        let place = same.count();
        let nothing = "nothing".to_string();
        println!("{name}: `{word}`: piece {} of {stream}", place + 1);
        println!("  proved  {}", proved.get(place).unwrap_or(&nothing));
        println!("  second  {}", second.get(place).unwrap_or(&nothing));
    };
    if proved.0 != second.0 {
        let stream = "standard output differs";
        show(stream, pieces(word, &proved.0), pieces(word, &second.0));
    }
    if proved.1 != second.1 {
        let stream = "standard error differs";
        show(stream, lines(&proved.1), lines(&second.1));
    }
    let file = format!("target/printing/{name}/input");
    std::fs::write(&file, input).expect("the input is kept");
    println!("  the input is {file}");
    exit(1);
}

struct Typing {
    report: Report,
    /// How often each number was seen in the place of each row.
    seen: [[u64; PLACES]; NUMBERS],
}

impl Typing {
    fn see(&mut self, faults: &[Fault]) {
        for fault in faults {
            self.seen[fault.number][fault.place.unwrap_or(ROWS.len())] += 1;
        }
    }

    /// One text, which is not too long; its cases are its sheets that are right, or its faults.
    fn text_by(&mut self, run: Run, name: &str, text: &[u8]) {
        assert!(text.len() <= LONGEST, "{name} is {} bytes", text.len());
        let proved = run(name, "type", text);
        let (second, cases) = match typed::read(text) {
            Ok(bytes) => {
                let sheets = bytes.len() / BYTES;
                ((bytes, vec![]), sheets)
            }
            Err(faults) => {
                self.see(&faults);
                ((vec![], typed::said_of(&faults)), faults.len())
            }
        };
        hold(name, "type", text, &proved, &second);
        self.report.add(cases.max(1) as u64);
    }

    fn text(&mut self, name: &str, text: &[u8]) {
        self.text_by(written, name, text);
    }

    /// One that has no fault, so that its bytes are compared.
    fn right_by(&mut self, run: Run, name: &str, text: &[u8]) {
        assert!(typed::read(text).is_ok(), "{name} has no fault");
        self.text_by(run, name, text);
    }

    /// Sheets, some right and some not: all together, for their messages, and the right ones alone, for their bytes.
    fn sheets(&mut self, name: &str, sheets: &[Vec<u8>]) {
        let is_right = |sheet: &&Vec<u8>| sheet.ends_with(b"\n") && typed::read(sheet).is_ok();
        let right: Vec<Vec<u8>> = sheets.iter().filter(is_right).cloned().collect();
        for text in texts::joined(sheets) {
            self.text(name, &text);
        }
        for text in texts::joined(&right) {
            self.right_by(written, name, &text);
        }
    }

    /// Each number is seen wherever it can be.
    fn saw_all(&self) {
        for (place, row) in ROWS.iter().enumerate() {
            let mut numbers = vec![2, 3, 6, 7];
            if place > 0 {
                numbers.push(4);
            }
            if place + 1 < ROWS.len() {
                numbers.push(5);
            }
            if !matches!(row.kind, Kind::Words(_)) {
                numbers.push(8);
            }
            if row.name == "radius" {
                numbers.push(9);
            }
            for number in numbers {
                let seen = self.seen[number][place];
                assert!(seen > 3, "T{number} is seen at {}: {seen}", row.name);
            }
        }
        let sums: Vec<u64> = self.seen.iter().map(|places| places.iter().sum()).collect();
        println!("typing: T1 to T9 seen {:?}", &sums[1..]);
        assert!(sums[1..].iter().all(|&seen| seen > 100), "each is seen");
    }
}

/// Figures mostly at the ends of their ranges, a bend, and a level off the record.
const BEND: [i64; FIELDS] = [
    7, 2_500, 2_000, 500, 12, 3_000, 3, 300, 900, 5, 0, 200_000, 5, 1, 2, 99, 60, 1, 0, 3, 2, 2, 1,
    1, 180, 20_000, 0, 0, 30,
];

/// The same at a level of -123 cm.
fn below_datum() -> [i64; FIELDS] {
    let mut figures = BEND;
    (figures[26], figures[27]) = (1, 377);
    figures
}

/// Each change of three sheets.
fn changes(typing: &mut Typing, rng: &mut Random) {
    for base in [S, BEND, below_datum()] {
        typing.sheets("typing-edges", &texts::edges(&base));
        typing.sheets("typing-turns", &texts::turns(&base));
        typing.sheets("typing-odd-lines", &texts::odd_lines(&base));
        typing.sheets(
            "typing-random-figures",
            &texts::random_figures(rng, &base, 200),
        );
        typing.sheets("typing-byte-changes", &texts::byte_changes(&base));
        typing.sheets("typing-line-changes", &texts::line_changes(&base));
        typing.sheets("typing-wide-lines", &texts::wide_lines(&base));
    }
}

/// Many right sheets with names, comments and blank lines, through a file and a pipe; then damaged more and more.
fn random_texts(typing: &mut Typing, rng: &mut Random) {
    for number in 0..12 {
        let mut text = texts::right_text(rng, 2_800);
        let run: Run = match number % 4 {
            0 => written_from_pipe,
            _ => written,
        };
        typing.right_by(run, "typing-right", &text);
        texts::damage(rng, &mut text, 1 << number);
        typing.text_by(run, "typing-damaged", &text);
    }
    for number in 0..8 {
        typing.text("typing-disordered", &texts::disordered(rng, 60_000));
        typing.text("typing-tokens", &texts::random_tokens(rng, 200_000));
        typing.text(
            "typing-random-bytes",
            &texts::random_bytes(rng, 300_000 * (number % 2) + 1_000),
        );
    }
}

#[rustfmt::skip]
const SMALL_TEXTS: [&[u8]; 30] = [
    b"", b"\n", b"\r", b"\r\n", b"\n\r", b" ", b"\t\n ", b"#", b"# sheet", b" # sheet\n", b"\0", b"\n\n\n#\n",
    b"sheet", b"sheet\n", b"sheet\r", b"sheet ", b"sheet \n\n", b" sheet\n", b"sheets", b"sheet\t1", b"Sheet",
    b"\xef\xbb\xbfsheet\n", b"sheet\r\r\n", b"sheet\nsheet\nx\nsheet", b"\r\r\n", b" \r ", b"\r#", b"\x0b\n", b"\x0c",
    b"\xc2\xa0",
];

/// Small texts, and S ended at the end of each line and beside it.
fn small_texts(typing: &mut Typing) {
    for text in SMALL_TEXTS {
        typing.text("typing-small", text);
    }
    let text = texts::sheet_text(&S);
    for place in 0..text.len() {
        if text[place] == b'\n' {
            for end in [place - 1, place, place + 1] {
                typing.text("typing-ended", &text[..end]);
            }
            typing.text("typing-ended", &[&text[..place], b"\r"].concat());
            typing.text(
                "typing-ended",
                &[&text[..=place], b"\n# the end\n\n"].concat(),
            );
        }
    }
}

/// Lines of a million bytes, and of all that can be read.
#[rustfmt::skip]
fn long_lines(typing: &mut Typing) {
    let many = |byte: u8| vec![byte; 1_000_000];
    let (x, zeros, spaces, tabs) = (many(b'x'), many(b'0'), many(b' '), many(b'\t'));
    let s = texts::sheet_text(&S);
    let rows = &s[b"sheet\n".len()..];
    let texts: [&[&[u8]]; 16] = [
        &[b"#", &x, b"\n", &s],
        &[&s, b" #", &many(b'\r')],
        &[&spaces, b"\n", &s],
        &[&tabs, b"x\n", &s],
        &[&x, b"\n", &s],
        &[&s, &many(0)],
        &[b"sheet ", &x, b"\n", rows],
        &[b"sheet ", &x, b"\r\n", rows, b"sheet ", &spaces],
        &[b"sheet\n", &x, b"\n", rows],
        &[b"sheet\ndeadweight ", &zeros, b" t\n", rows],
        &[b"sheet\ndeadweight 1", &zeros, b" t\n", rows],
        &[b"sheet\ndeadweight 0 t", &zeros, b" t\n", rows],
        &[b"sheet\ndeadweight 40000 t", &spaces, b"\n", rows],
        &[b"sheet\ndraft ", &zeros, b" cm\n", rows],
        &[b"sheet\n", &x, b"\nsheet ", &x, b"\n", &x, b"\n", rows],
        &[&b"sheet\n".repeat(100_000)],
    ];
    for text in texts {
        typing.text("typing-long-line", &text.concat());
    }
    for byte in [b'x', b' ', b'#', b'\r', b'\n'] {
        typing.text("typing-long-line", &vec![byte; LONGEST]);
        typing.text("typing-long-line", &[&vec![byte; LONGEST - 1], &b"x"[..]].concat());
    }
}

/// Texts that end at and beside the ends of the blocks in which a program may read, and at the greatest length.
fn lengths(typing: &mut Typing, rng: &mut Random) {
    let sheets: Vec<Vec<u8>> = (0..LONGEST / 400)
        .map(|_| texts::sheet_text(&random::valid_sheet(rng)))
        .collect();
    let all = sheets.concat();
    for block in [4_096, 65_520, 65_536, 131_040, 131_072, LONGEST - 1] {
        for length in [block - 1, block, block + 1] {
            let text = padded(&sheets, length);
            typing.right_by(written, "typing-length", &text);
            typing.right_by(written_from_pipe, "typing-length", &text);
            typing.text_by(written, "typing-length", &all[..length]);
        }
    }
    for length in [LONGEST + 1, LONGEST + 2, LONGEST + 65_536, 2 * LONGEST] {
        for run in [written as Run, written_from_pipe] {
            for text in [padded(&sheets, length), vec![b'\n'; length]] {
                let proved = run("typing-too-long", "type", &text);
                hold(
                    "typing-too-long",
                    "type",
                    &text,
                    &proved,
                    &typed::type_text(&text),
                );
                typing.report.add(1);
            }
        }
    }
}

/// As many whole sheets as a length has room for, and a comment up to it.
fn padded(sheets: &[Vec<u8>], length: usize) -> Vec<u8> {
    let mut text = Vec::new();
    for sheet in sheets {
        if text.len() + sheet.len() > length {
            break;
        }
        text.extend(sheet);
    }
    text.resize(length, b'#');
    text
}

/// The proved program, asked for the definition's examples.
struct Proved;

impl typed_figures::Program for Proved {
    fn typed(&self, text: &[u8]) -> Written {
        let typed = written("typed-figures", "type", text);
        forget("typed-figures");
        typed
    }

    fn shown(&self, bytes: &[u8]) -> Vec<u8> {
        let (text, said) = written("typed-figures", "show", bytes);
        forget("typed-figures");
        assert!(said.is_empty(), "nothing is said of what is shown");
        text
    }

    fn form(&self) -> Vec<u8> {
        let (form, said) = written("typed-figures", "form", &[]);
        forget("typed-figures");
        assert!(said.is_empty(), "nothing is said of the form");
        form
    }
}

pub fn typing() {
    if !typed_figures::right_in("typed figures proved", &Proved) {
        exit(1);
    }
    let mut rng = Random::new(15);
    let mut typing = Typing {
        report: Report::new("typing", 100_000),
        seen: [[0; PLACES]; NUMBERS],
    };
    small_texts(&mut typing);
    for text in texts::joined(&texts::every_figure()) {
        typing.right_by(written, "typing-every-figure", &text);
    }
    typing.sheets("typing-every-byte", &texts::every_byte());
    changes(&mut typing, &mut rng);
    random_texts(&mut typing, &mut rng);
    long_lines(&mut typing);
    lengths(&mut typing, &mut rng);
    typing.saw_all();
    typing.report.end();
}

// Showing.

/// The count, and the numbers and fields that bytes were turned away by.
struct Showing {
    report: Report,
    seen: HashSet<(u32, u32)>,
}

impl Showing {
    /// Bytes, shown by both.
    fn bytes_by(&mut self, run: Run, name: &str, bytes: &[u8]) -> Vec<u8> {
        let proved = run(name, "show", bytes);
        hold(name, "show", bytes, &proved, &(typed::show(bytes), vec![]));
        let sheets = bytes.chunks(BYTES);
        self.report.add(sheets.len().max(1) as u64);
        let refusals = sheets.filter_map(|sheet| sheet::read(sheet).err());
        self.seen
            .extend(refusals.map(|refusal| (refusal.number, refusal.field)));
        proved.0
    }

    fn bytes(&mut self, name: &str, bytes: &[u8]) {
        self.bytes_by(written, name, bytes);
    }

    /// Right sheets, which are the same when they are typed as they are shown.
    fn there_and_back(&mut self, sheets: &[u8]) {
        let name = "showing-right";
        let text = self.bytes_by(written, name, sheets);
        let back = written(name, "type", &text);
        hold(name, "type", &text, &back, &(sheets.to_vec(), vec![]));
        self.report.add(1);
    }

    /// 1, 2, and 3 for each field that can be bad.
    fn saw_all(&self) {
        let can_be_bad =
            |&field: &usize| [26, 28].contains(&field) || !random::one_past(field).is_empty();
        let fields = (1..=FIELDS).filter(can_be_bad);
        let wanted = [(1, 0), (2, 0)]
            .into_iter()
            .chain(fields.map(|field| (3, field as u32)));
        for refusal in wanted {
            assert!(self.seen.contains(&refusal), "{refusal:?} is seen");
        }
    }
}

fn right_sheets(rng: &mut Random, count: usize) -> Vec<u8> {
    let sheets = (0..count).map(|_| random::valid_sheet(rng));
    sheets.flat_map(|figures| sheet::pack(&figures)).collect()
}

/// Sheets of which a part is damaged, and none is out of step; but the last may be of any length.
fn mixed_sheets(rng: &mut Random, count: usize) -> Vec<u8> {
    let mut bytes = Vec::new();
    while bytes.len() < BYTES * count {
        let sheet = match rng.below(4) {
            0 => random::damaged(rng),
            _ => sheet::pack(&random::valid_sheet(rng)).to_vec(),
        };
        if sheet.len() == BYTES {
            bytes.extend(sheet);
        }
    }
    bytes.extend(random::damaged(rng));
    bytes
}

/// Each field at and past its ends, and each bit changed.
fn around(figures: &[i64; FIELDS]) -> Vec<u8> {
    let mut bytes = Vec::new();
    for (place, field) in TABLE.iter().enumerate() {
        let ends = [field.least, field.greatest].into_iter();
        for figure in ends.chain(random::one_past(place + 1)) {
            let mut changed = *figures;
            changed[place] = figure;
            bytes.extend(sheet::pack(&changed));
        }
    }
    for bit in 0..8 * BYTES {
        let mut changed = sheet::pack(figures);
        changed[bit / 8] ^= 1 << (bit % 8);
        bytes.extend(changed);
    }
    bytes
}

/// Every length of a last sheet, and the ends of the blocks in which a program may read and write.
fn shown_lengths(showing: &mut Showing, rng: &mut Random) {
    let sheets = right_sheets(rng, 4_700);
    let blocks = [4_096, 65_520, 65_536, 131_040, 131_072];
    let about = blocks.into_iter().flat_map(|block| block - 1..=block + 1);
    for length in (0..=2 * BYTES).chain(about) {
        showing.bytes("showing-length", &sheets[..length]);
    }
}

/// The form, and that it is turned away as long as it is not filled in.
fn forms(report: &mut Report) {
    let name = "showing-form";
    let form = written(name, "form", &[]);
    hold(name, "form", &[], &form, &(typed::form(), vec![]));
    let unfilled = written(name, "type", &form.0);
    hold(name, "type", &form.0, &unfilled, &typed::type_text(&form.0));
    let said = String::from_utf8_lossy(&unfilled.1);
    let place = said.split(" no such figure").next();
    report.case(place, Some("line 4: T6"), || "the form, typed".to_string());
    report.add(2);
}

pub fn showing() {
    let mut rng = Random::new(16);
    let mut showing = Showing {
        report: Report::new("showing", 100_000),
        seen: HashSet::new(),
    };
    for count in [1, 2, 100, 2_340, 2_341, 5_000, 8_000] {
        showing.there_and_back(&right_sheets(&mut rng, count));
    }
    shown_lengths(&mut showing, &mut rng);
    for base in [S, BEND, below_datum()] {
        showing.bytes("showing-around", &around(&base));
    }
    for run in [written as Run, written_from_pipe] {
        showing.bytes_by(run, "showing-many", &mixed_sheets(&mut rng, 40_000));
        showing.bytes_by(
            run,
            "showing-random",
            &texts::random_bytes(&mut rng, 300_000),
        );
    }
    forms(&mut showing.report);
    showing.saw_all();
    showing.report.end();
}
