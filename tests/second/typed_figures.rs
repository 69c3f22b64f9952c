//! The definition's examples of the typed sheet, and each number that turns a line away: asked of the second program here, of
//! the proved one in the comparison `typing`.

use crate::figures::{Tally, S};
use crate::second::random::{self, Random};
use crate::second::sheet;
use crate::second::typed;

/// S, typed.
pub const S_TEXT: &str = "\
sheet 1
deadweight 40000 t
draft 1000 cm
length 20000 cm
beam 3000 cm
speed 8 kn
natural-bed 500 cm
soil mud
wave-allowance 30 cm
silting 0 per-mille/yr
interval 1.00 yr
lanes one
channel-length 20000 m
ships 24.00 /day
water open
handling good
cross-wind 20 kn
cross-current 1.0 kn
along-current 1.0 kn
wave-height 150 cm
aids good
bottom soft
cargo low-danger
left-bank sloping
right-bank sloping
turn 0 deg
radius 0 m
level given 0 cm
side-slope 0 m/m
";

const CROSS_CURRENT: &str = "cross-current 0.0 kn .. cross-current 6.0 kn";
const SIDE_SLOPE: &str = "side-slope 0 m/m .. side-slope 30 m/m";
const SOIL: &str = "soil mud | soil deposited | soil dense | soil grade-3";
const RADIUS: &str = "radius 0 m .. radius 20000 m";
const LEVEL: &str = "level record | level given -500 cm .. level given 1500 cm";

/// A row's name, a number that turns its line away, and what then stands behind the name.
#[rustfmt::skip]
const FIGURES: &[(&str, &str, &[&str])] = &[
    ("deadweight", "T6", &["", " 7 t", "- t", "-7 t", "+7 t", "_ t", "t", "07 t", "000007 t", "7.0 t", "7.5 t", "7/2 t"]),
    ("deadweight", "T6", &[".7 t", "/7 t", "1000000000 t", "100000000. t", "1234567890123456789012345 t"]),
    ("deadweight", "T7", &["7", "7t", "7 ", "7  t", "7 T", "7 cm", "7 t ", "7 tt", "7\tt", "7. t", "7/ t", "7-7 t", "7,000 t"]),
    ("deadweight", "T7", &["7e3 t", "00 t", "0.0 t", "01000000000 t", "100000000", "12345678. t"]),
    ("deadweight", "T8", &["0 t", "600001 t", "100000000 t", "999999999 t"]),
    ("cross-current", "T6", &["1 kn", "10 kn", ".1 kn", "1. kn", "01.0 kn", "1.00 kn", "1,0 kn", "0.01 kn", "-0.1 kn"]),
    ("cross-current", "T6", &["100000000.0 kn"]),
    ("cross-current", "T7", &["1.0", "1.0kn", "1.0. kn", "0.00 kn", "1.0 /day"]),
    ("cross-current", "T8", &["6.1 kn", "10.0 kn", "99999999.9 kn"]),
    ("ships", "T6", &["24 /day", "24.0 /day", "24.000 /day", "2400 /day", "024.00 /day", "24.00/7"]),
    ("ships", "T7", &["24.00", "24.00/day", "24.00 day", "0.000 /day"]),
    ("ships", "T8", &["200.01 /day", "1000000.00 /day"]),
    ("level", "T6", &["", "0 cm", "given", "given ", "given cm", "given -0 cm", "given -501 cm", "given --1 cm"]),
    ("level", "T6", &["given +1 cm", "given record", "given  1 cm", "Record", "recor", "given - 1 cm", "given 1.5 cm"]),
    ("level", "T6", &["given -01 cm"]),
    ("level", "T7", &["record cm", "records", "record ", "given 1", "given 1 m", "given -1", "given 00 cm"]),
    ("level", "T8", &["given 1501 cm", "given 999999999 cm"]),
    ("interval", "T6", &["1 yr", "1.0 yr", "0.2 yr", "3 yr"]),
    ("interval", "T7", &["1.00", "1.000 yr", "0.25yr", "0.33 y"]),
];

const RANDOM_SHEETS: usize = 20_000;

/// A program that types and shows sheets.
pub trait Program {
    /// What it writes to standard output and to standard error.
    fn typed(&self, text: &[u8]) -> (Vec<u8>, Vec<u8>);
    fn shown(&self, bytes: &[u8]) -> Vec<u8>;
    fn form(&self) -> Vec<u8>;
}

struct Second;

impl Program for Second {
    fn typed(&self, text: &[u8]) -> (Vec<u8>, Vec<u8>) {
        typed::type_text(text)
    }

    fn shown(&self, bytes: &[u8]) -> Vec<u8> {
        typed::show(bytes)
    }

    fn form(&self) -> Vec<u8> {
        typed::form()
    }
}

/// S with some fields changed: (number, figure).
fn s_bytes(changes: &[(usize, i64)]) -> Vec<u8> {
    let mut figures = S;
    for &(number, figure) in changes {
        figures[number - 1] = figure;
    }
    sheet::pack(&figures).to_vec()
}

/// S typed with another line in the place of one of its rows.
fn s_text(name: &str, line: &str) -> String {
    let row = S_TEXT.lines().find(|row| row.starts_with(name));
    let row = row.expect("a row of S has the name");
    S_TEXT.replace(&format!("{row}\n"), &format!("{line}\n"))
}

/// What it says of a text; "a text with a fault has no sheets".
fn said(program: &impl Program, text: &[u8]) -> String {
    let (bytes, said) = program.typed(text);
    let said = String::from_utf8_lossy(&said).into_owned();
    match bytes.len() {
        0 => said,
        count => format!("{count} bytes beside {said:?}"),
    }
}

/// Texts of S and of sheets like it, and their bytes.
fn sheets(program: &impl Program, tally: &mut Tally) {
    let mut read = |what: &str, text: &str, bytes: Vec<u8>| {
        let as_wanted = program.typed(text.as_bytes()) == (bytes, vec![]);
        tally.check(what, as_wanted, true);
    };
    let s = s_bytes(&[]);
    read("S", S_TEXT, s.clone());
    read("no sheet", "", vec![]);
    read("no sheet but comments", "# sheet\n\n \t\n\t# sheet", vec![]);
    read("S, CRLF", &S_TEXT.replace('\n', "\r\n"), s.clone());
    read("S, no last newline", S_TEXT.trim_end(), s.clone());
    let last = S_TEXT.trim_end().to_string() + "\r";
    read("S, a last carriage return", &last, s.clone());
    let between = S_TEXT.replace('\n', "\n\n# a comment\n \t # sheet\n\t\n");
    read("S, comments and blank lines", &between, s.clone());
    for name in [
        "sheet",
        "sheet ",
        "sheet a name",
        "sheet # 1",
        "sheet sheet ",
    ] {
        read(name, &s_text("sheet", name), s.clone());
    }
    let below = s_bytes(&[(28, 488)]);
    let level = s_text("level", "level given -12 cm");
    read("level given -12 cm", &level, below.clone());
    let record = s_text("level", "level record");
    read("level record", &record, s_bytes(&[(27, 0), (28, 0)]));
    let lowest = s_text("level", "level given -500 cm");
    read("level given -500 cm", &lowest, s_bytes(&[(28, 0)]));
    let two = level.replace("sheet 1", "sheet") + S_TEXT;
    read("two sheets", &two, [below, s].concat());
}

/// "line 18: T6 ..", "line 30: T2 ..": word for word.
fn messages(program: &impl Program, tally: &mut Tally) {
    let mut check = |what: &str, text: &str, wanted: &[String]| {
        let said = said(program, text.as_bytes());
        let lines: Vec<String> = said.lines().map(str::to_string).collect();
        tally.check(what, lines, wanted.to_vec());
    };
    let one = |line: usize, words: &str, expected: &str| {
        vec![format!("line {line}: {words}; expected: {expected}")]
    };
    let no_figure = s_text("cross-current", "cross-current 1 kn");
    let t6 = r#"T6 no such figure: "cross-current 1 kn""#;
    check("T6", &no_figure, &one(18, t6, CROSS_CURRENT));
    let short = "# S\n".to_string() + S_TEXT.trim_end_matches("side-slope 0 m/m\n");
    let t2 = "T2 a row is missing: the text ends";
    check("T2 at the end", &short, &one(30, t2, SIDE_SLOPE));
    let t1 = |line| format!(r#"T1 stands in no sheet: "{line}""#);
    let before = "deadweight 40000 t\nnor this\n".to_string() + S_TEXT;
    check(
        "T1 before",
        &before,
        &one(1, &t1("deadweight 40000 t"), "sheet"),
    );
    let behind = S_TEXT.to_string() + "# this\nradius 0 m\nnor this";
    check("T1 behind", &behind, &one(31, &t1("radius 0 m"), "sheet"));
    let soil = |words: &str, line| one(8, &format!("{words}: \"{line}\""), SOIL);
    for (words, line) in [
        ("T3 no such name", "Soil mud"),
        ("T3 no such name", "soil"),
        ("T3 no such name", " soil mud"),
        ("T3 no such name", "refused 3 7"),
        ("T4 stands twice", "beam 3000 cm"),
        ("T5 misplaced", "wave-allowance 30 cm"),
        ("T6 no such figure", "soil "),
        ("T6 no such figure", "soil 0"),
        ("T6 no such figure", "soil  mud"),
        ("T7 no such unit", "soil muddy"),
        ("T7 no such unit", "soil mud "),
    ] {
        check(words, &s_text("soil", line), &soil(words, line));
    }
    let t8 = r#"T8 outside its range: "cross-current 6.1 kn""#;
    let fast = s_text("cross-current", "cross-current 6.1 kn");
    check("T8", &fast, &one(18, t8, CROSS_CURRENT));
    let t8 = r#"T8 outside its range: "level given 1501 cm""#;
    let high = s_text("level", "level given 1501 cm");
    check("T8, a level", &high, &one(28, t8, LEVEL));
    let t9 = |line| format!(r#"T9 turn and radius disagree: "{line}""#);
    let alone = s_text("radius", "radius 1 m");
    check("T9", &alone, &one(27, &t9("radius 1 m"), RADIUS));
    let turned = s_text("turn", "turn 1 deg");
    check("T9, a turn", &turned, &one(27, &t9("radius 0 m"), RADIUS));
}

/// "Each faulty sheet is told once", and a sheet begins where a row of another is missing.
fn many_faults(program: &impl Program, tally: &mut Tally) {
    let faulty = s_text("turn", "turn 181 deg\nsoil").replace("soil mud", "soil muddy");
    let missing = S_TEXT.replace("radius 0 m\nlevel given 0 cm\nside-slope 0 m/m\n", "\n");
    let text = faulty + &missing + "sheet last\r\n" + "# the end";
    let wanted = format!(
        "line 8: T7 no such unit: \"soil muddy\"; expected: {SOIL}\n\
         line 58: T2 a row is missing: \"sheet last\"; expected: {RADIUS}\n\
         line 60: T2 a row is missing: the text ends; expected: deadweight 1 t .. deadweight 600000 t\n"
    );
    let said = said(program, text.as_bytes());
    tally.check("three faulty sheets", said.as_str(), wanted.as_str());
}

/// "The line's first 60 bytes between quotes."
fn quotes(program: &impl Program, tally: &mut Tally) {
    let mut check = |line: &[u8], quoted: &[u8]| {
        let wanted = [
            b"line 1: T1 stands in no sheet: ",
            quoted,
            b"; expected: sheet\n",
        ]
        .concat();
        let right = program.typed(line) == (vec![], wanted);
        tally.check(&format!("quoted: {}", quoted.escape_ascii()), right, true);
    };
    let long = "sheets  ".repeat(9).into_bytes();
    let full = [b"\"", &long[..60], b"\""].concat();
    check(&long[..60], &full);
    check(&long[..61], &[&full, &b".."[..]].concat());
    check(
        b"a\0\x1f \"\x7e\x7f\x80\xff\r\r\n",
        b"\"a?? \"~?\x80\xff?\"",
    );
}

/// What begins with a figure as its row has it, and what does not: all in one text.
fn figures(program: &impl Program, tally: &mut Tally) {
    let mut text = String::new();
    let mut numbers = Vec::new();
    for (name, number, figures) in FIGURES {
        for figure in *figures {
            let line = format!("{name} {figure}");
            text += &s_text(&format!("{name} "), &line);
            numbers.push((line, *number));
        }
    }
    let said = said(program, text.as_bytes());
    tally.check("messages", said.lines().count(), numbers.len());
    for (message, (line, number)) in said.lines().zip(&numbers) {
        let told = message.split(' ').nth(2);
        tally.check(line, told, Some(*number));
    }
}

/// Bytes shown, and what is shown typed again.
fn showing(program: &impl Program, tally: &mut Tally) {
    let s = s_bytes(&[]);
    let shown = |bytes: &[u8]| String::from_utf8_lossy(&program.shown(bytes)).into_owned();
    tally.check("S shown", shown(&s) == S_TEXT, true);
    tally.check("nothing shown", shown(&[]).as_str(), "");
    let below = shown(&s_bytes(&[(28, 488)]));
    let wanted = s_text("level", "level given -12 cm");
    tally.check("level -12 shown", below == wanted, true);
    let record = shown(&s_bytes(&[(27, 0), (28, 0)]));
    let wanted = s_text("level", "level record");
    tally.check("level off the record shown", record == wanted, true);
    let mut spare = s.clone();
    spare[27] |= 1;
    let pair = s_bytes(&[(25, 1)]);
    let bytes = [&spare, &pair, &s, &s[..27]].concat();
    let text = shown(&bytes);
    let third = S_TEXT.replace("sheet 1", "sheet 3");
    let wanted =
        format!("sheet 1\nrefused 2 0\nsheet 2\nrefused 3 26\n{third}sheet 4\nrefused 1 0\n");
    tally.check("refused by 2, 3, 1", text == wanted, true);
    let refused = said(program, text.as_bytes());
    let places = refused
        .lines()
        .map(|line| line.split(" no such name").next());
    let wanted = ["line 2: T3", "line 4: T3", "line 35: T3"].map(Some);
    tally.check(
        "what is refused is no row",
        places.collect(),
        wanted.to_vec(),
    );
}

fn forms(program: &impl Program, tally: &mut Tally) {
    let form = String::from_utf8_lossy(&program.form()).into_owned();
    let first = "# Put a figure or a word in the place of each _; the line above says which. A name may stand behind sheet.
sheet
# deadweight 1 t .. deadweight 600000 t
deadweight _ t
";
    tally.check("the form begins", form.starts_with(first), true);
    let last = format!("# {LEVEL}\nlevel _\n# {SIDE_SLOPE}\nside-slope _ m/m\n");
    tally.check("the form ends", form.ends_with(&last), true);
    let soil = form.contains(&format!(
        "\n# {SOIL}\nsoil _\n# wave-allowance 0 cm .. wave-allowance 300 cm\n"
    ));
    tally.check("a row of words in the form", soil, true);
    tally.check("the form's lines", form.lines().count(), 58);
    let said = said(program, form.as_bytes());
    let wanted = "line 4: T6 no such figure: \"deadweight _ t\"; expected: deadweight 1 t .. deadweight 600000 t\n";
    tally.check("the form typed", said.as_str(), wanted);
    // each `_` by what S has
    let figures = S_TEXT
        .lines()
        .skip(1)
        .map(|line| line.split_once(' ').expect("a name"));
    let filled = figures.fold(form, |form, (name, behind)| {
        let row = form
            .lines()
            .find(|line| line.starts_with(&format!("{name} _")));
        let row = row.expect("a row of the form").to_string();
        form.replace(&row, &format!("{name} {behind}"))
    });
    let read = program.typed(filled.as_bytes()) == (s_bytes(&[]), vec![]);
    tally.check("the form filled as S", read, true);
}

/// The longest text, and one longer, which the command does not read.
fn long_texts(program: &impl Program, tally: &mut Tally) {
    let padded = |length: usize| {
        let mut text = S_TEXT.as_bytes().to_vec();
        text.resize(length, b'#');
        text
    };
    let read = program.typed(&padded(typed::LONGEST)) == (s_bytes(&[]), vec![]);
    tally.check("S and a comment, 4,194,304 bytes", read, true);
    let said = said(program, &padded(typed::LONGEST + 1));
    let wanted = "standard input: longer than 4194304 bytes\n";
    tally.check("a byte more", said.as_str(), wanted);
}

/// What is shown of sheets is typed as the same sheets.
fn random_sheets(tally: &mut Tally) {
    let mut rng = Random::new(14);
    let bytes: Vec<u8> = (0..RANDOM_SHEETS)
        .flat_map(|_| sheet::pack(&random::valid_sheet(&mut rng)))
        .collect();
    let read = typed::read_text(&typed::show(&bytes));
    tally.check("random sheets shown and typed", read == Ok(bytes), true);
}

/// Asks every example of a program, with a line for each, and says whether all are right.
pub fn right_in(name: &str, program: &impl Program) -> bool {
    let mut tally = Tally::default();
    sheets(program, &mut tally);
    messages(program, &mut tally);
    many_faults(program, &mut tally);
    quotes(program, &mut tally);
    figures(program, &mut tally);
    showing(program, &mut tally);
    forms(program, &mut tally);
    long_texts(program, &mut tally);
    tally.end(name)
}

/// Whether the second program has them right, and its own claim.
pub fn all_right() -> bool {
    let right = right_in("typed figures", &Second);
    let mut tally = Tally::default();
    random_sheets(&mut tally);
    tally.end("the second program's claim of typed sheets") && right
}
