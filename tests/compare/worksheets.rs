//! The worksheet's pages, byte for byte: many sheets over many level records, as bytes and typed with names, beside the second
//! program. Every page keeps to its size, and every line that the definition has for a page comes up.

use crate::figures::S;
use crate::parts::in_parts;
use crate::printing::{damaged_whole, levels_of};
use crate::program::{forget, set_levels, written, written_from_pipe, Written};
use crate::report::{hex, Report};
use crate::second::random::{self, Random};
use crate::second::sheet::{self, FIELDS, TABLE};
use crate::second::typed::{self, LONGEST};
use crate::second::worksheet::{self, Named};
use crate::second::{gauge, print};
use crate::texts;
use std::process::exit;
use std::sync::atomic::{AtomicU64, Ordering};

const PARTS: u64 = 64;
const SHEETS: usize = 120;

/// "At most 66 lines of at most 72 bytes."
const LINES: usize = 66;
const COLUMNS: usize = 72;

/// How the program gets its input.
type Run = fn(&str, &str, &[u8]) -> Written;

type Figures = [i64; FIELDS];

// What both programs write.

fn pages_of(text: &[u8]) -> Vec<&[u8]> {
    text.split(|&byte| byte == b'\x0c').collect()
}

fn lines_of(page: &[u8]) -> Vec<&[u8]> {
    page.split(|&byte| byte == b'\n').collect()
}

/// The first place where two lists differ, and what each has there.
fn first_other<'a>(ours: &[&'a [u8]], theirs: &[&'a [u8]]) -> (usize, &'a [u8], &'a [u8]) {
    let same = ours.iter().zip(theirs).take_while(|(a, b)| a == b);
    let place = same.count();
    let at = |list: &[&'a [u8]]| list.get(place).copied().unwrap_or(b"nothing");
    (place, at(ours), at(theirs))
}

/// Shows the first line that differs with its sheet, and stops; the inputs are kept.
fn stop_at_difference(name: &str, sheets: &[Named], proved: &Written, second: &Written) -> ! {
    let (page, ours, theirs) = first_other(&pages_of(&proved.0), &pages_of(&second.0));
    let (line, ours, theirs) = first_other(&lines_of(ours), &lines_of(theirs));
    let sheet = sheets.get(page).map_or("the route".to_string(), |sheet| {
        format!("{} \"{}\"", hex(&sheet.1), sheet.0.escape_ascii())
    });
    println!("{name}: page {}, line {} differs", page + 1, line + 1);
    println!("  sheet   {sheet}");
    println!("  proved  {}", ours.escape_ascii());
    println!("  second  {}", theirs.escape_ascii());
    println!("  said    {}", proved.1.escape_ascii());
    println!("  wanted  {}", second.1.escape_ascii());
    println!("  the inputs are in target/printing/{name}");
    exit(1);
}

/// Stops at a page that does not keep to its size.
fn hold_to_size(name: &str, text: &[u8]) {
    for (place, page) in pages_of(text).into_iter().enumerate() {
        let lines = lines_of(page);
        let widest = lines.iter().map(|line| line.len()).max().unwrap_or(0);
        // what stands behind the last newline is no line
        if lines.len() - 1 > LINES || widest > COLUMNS {
            let lines = lines.len() - 1;
            println!(
                "{name}: page {} has {lines} lines, {widest} bytes wide",
                place + 1
            );
            println!("  the inputs are in target/printing/{name}");
            exit(1);
        }
    }
}

/// How many pages have each text that is wanted, over all parts.
struct Seen([AtomicU64; WANTED.len()]);

impl Seen {
    fn new() -> Seen {
        Seen(std::array::from_fn(|_| AtomicU64::new(0)))
    }

    fn add(&self, page: &[u8]) {
        let page = String::from_utf8_lossy(page);
        for (count, wanted) in self.0.iter().zip(WANTED) {
            if page.contains(wanted) {
                count.fetch_add(1, Ordering::Relaxed);
            }
        }
    }

    fn saw_all(&self) {
        for (count, wanted) in self.0.iter().zip(WANTED) {
            let seen = count.load(Ordering::Relaxed);
            assert!(seen > 0, "no page has {wanted:?}");
            if wanted.starts_with("CLASSES") || wanted.starts_with("REFUSED") {
                println!("worksheets: {seen} pages with {wanted:?}");
            }
        }
    }
}

/// What the pages must have at some place: each refusal that an input can have, each outcome, and the words of each band.
#[rustfmt::skip]
const WANTED: [&str; 100] = [
    "CLASSES ", "REFUSED 1:", "REFUSED 2:", "REFUSED 3:", "REFUSED 5:", "REFUSED 6:", "REFUSED 7:", "REFUSED 8:", "REFUSED 13:",
    "REFUSED 14: no depth, as silt is", "REFUSED 14: no depth, as all that", "REFUSED 15:", "REFUSED 16:", "REFUSED 17:", "REFUSED 18:",
    "  turn and radius are both 0, or neither\n", "  a level off the record has no figure\n",
    ", given on the sheet\n", "D takes H100\n", "D takes H99\n", "D takes H98\n", "D takes H97\n", "design level -",
    "LANES named on the sheet\n  one lane\n", "LANES named on the sheet\n  two lanes\n",
    "the second is greater: one lane\n", "they are equal: two lanes\n", "the first is greater: two lanes\n",
    "\n  1   A ", "\n  2   B ", "\n  2   C ", "\n  3   C ", " A   stays\n", " B   stays\n", " C   stays\n", "moves to B\n", "moves to C\n",
    "unusable: no squat entry at 11 kn\n", "unusable: no squat entry at 12 kn\n", "unusable: silt over 120\n", "unusable: silts up whole\n",
    "unusable: cut over 3000\n", "column B has entries up to 11 kn", "column C has entries up to 10 kn", "datum depth -",
    "moderate speed, open water\n", "slow speed, open water\n", "moderate speed, sheltered water\n", "slow speed, sheltered water\n",
    "good handling", "fair handling", "poor handling", "under 15 kn", "15 to 33 kn", "over 33 kn", "under 0.2 kn", "0.2 to 0.5 kn",
    "over 0.5 to 1.5 kn", "over 1.5 kn", "under 1.5 kn", "1.5 to 3 kn", "over 3 kn", "to 1 m", "over 1 to 3 m", "over 3 m",
    "(f)      aids            complete", "(f)      aids            good", "(f)      aids            middle", "(f)      aids            poor",
    "(g)      bed             s from 1.5 drafts on", "soft  ", "hard, smooth", "hard, rough",
    "(h)      sailing depth   s from 1.5 drafts on", "s from 1.25 drafts on", "s under 1.25 drafts", "s from 1.15 drafts on",
    "s under 1.15 drafts", "low danger", "middle danger", "high danger", "once", "twice", "sloping, sloping", "sloping, steep",
    "steep, sloping", "steep, steep", "to 1 ship an hour", "over 1 to 3 an hour", "over 3 an hour", "  straight\n", ": too tight\n",
    ", widening 0 cm\n", ", widening 1", "V' none", "V'' none", "critical none", "     4      none",
    " none t\n", " none cm\n",
];

/// Runs of both programs over one record.
struct Runs<'a> {
    name: &'a str,
    levels: Option<&'a [u8]>,
    seen: &'a Seen,
}

impl Runs<'_> {
    /// One input by one word; counts its pages.
    fn both(&self, run: Run, word: &str, input: &[u8], sheets: &[Named]) -> u64 {
        set_levels(self.name, self.levels);
        std::fs::write(format!("target/printing/{}/input", self.name), input)
            .expect("the input is kept");
        let proved = run(self.name, word, input);
        let second = match word {
            "worksheet" => worksheet::of_bytes(self.levels, input),
            _ => worksheet::of_text(self.levels, input),
        };
        if proved != second {
            stop_at_difference(self.name, sheets, &proved, &second);
        }
        hold_to_size(self.name, &proved.0);
        let pages = pages_of(&proved.0);
        pages.iter().for_each(|page| self.seen.add(page));
        forget(self.name);
        pages.len() as u64
    }

    fn bytes(&self, run: Run, input: &[u8]) -> u64 {
        self.both(run, "worksheet", input, &worksheet::unnamed(input))
    }

    /// A text; one with a fault has no pages, and counts once.
    fn text(&self, run: Run, text: &[u8]) -> u64 {
        let sheets = match typed::read(text) {
            Ok(bytes) => worksheet::named(text, &bytes),
            Err(_) => vec![],
        };
        self.both(run, "worksheet-text", text, &sheets)
    }
}

// Sheets.

/// Sheets that come to what random ones seldom do: figures changed in one that has no bad field.
fn seldom(rng: &mut Random, figures: &mut Figures) {
    match rng.below(5) {
        // both sides of the lane rule are equal
        0 => (figures[10], figures[11], figures[12]) = (0, 44_448, 100 * figures[4]),
        // all that is dug silts up
        1 => (figures[5], figures[8], figures[9]) = (rng.between(0, 700), 900, 5),
        // fast in a cut that is mostly dug
        2 => (figures[4], figures[5]) = (rng.pick(&[11, 12]), rng.between(0, 700)),
        // deep and far from silted
        3 => (figures[1], figures[7], figures[8]) = (2_500, 300, rng.between(0, 20)),
        // a cut that ends above chart datum, or a little below
        _ => (figures[26], figures[27]) = (1, rng.between(1_500, 2_000)),
    }
}

/// Figures with no bad field; at times its level is off the record.
fn some_figures(rng: &mut Random, record: Result<i32, u32>) -> Figures {
    let mut figures = random::valid_sheet(rng);
    if rng.below(5) == 0 {
        seldom(rng, &mut figures);
    }
    match rng.below(4) {
        0 => random::off_record(&figures, record),
        _ => figures,
    }
}

/// Sheets, one in six damaged.
fn some_bytes(rng: &mut Random, count: usize, record: Result<i32, u32>) -> Vec<u8> {
    let sheet = |_| match rng.below(6) {
        0 => damaged_whole(rng),
        _ => sheet::pack(&some_figures(rng, record)).to_vec(),
    };
    (0..count).flat_map(sheet).collect()
}

/// Letters of one byte to four.
const LETTERS: [&str; 8] = ["a", " ", "#", "é", "ồ", "水", "🌊", "\u{1}"];

fn letters(rng: &mut Random, most: usize) -> Vec<u8> {
    let mut name = String::new();
    let length = rng.below(most + 1);
    while name.len() < length {
        name += rng.pick(&LETTERS);
    }
    name.into_bytes()
}

/// The line that begins a sheet: with no name, an empty one, letters, or bytes of any kind, about as long as is shown or longer.
fn beginning(rng: &mut Random) -> Vec<u8> {
    let name = match rng.below(7) {
        0 => return b"sheet".to_vec(),
        1 => vec![],
        2 => b"km 3 to 4, off the mole of the old port".to_vec(),
        3 => vec![b'n'; rng.between(32, 40) as usize],
        4 => letters(rng, 12),
        5 => letters(rng, 60),
        _ => texts::random_bytes(rng, 60),
    };
    let in_line = name.into_iter().filter(|&byte| byte != b'\n');
    b"sheet ".iter().copied().chain(in_line).collect()
}

/// A text without faults.
fn some_text(rng: &mut Random, count: usize, record: Result<i32, u32>) -> Vec<u8> {
    let mut text = Vec::new();
    for _ in 0..count {
        let (line, figures) = (beginning(rng), some_figures(rng, record));
        text.extend(texts::dressed(rng, line, &figures));
    }
    if rng.below(4) == 0 {
        text.pop();
    }
    text
}

/// What the record gives to a sheet that asks for its level.
fn level_of(levels: Option<&[u8]>) -> Result<i32, u32> {
    let mut table = gauge::empty();
    print::add_file(&mut table, levels.unwrap_or(&[]));
    gauge::design_level(&table)
}

// The comparison.

/// Bytes with an end of any length, and a text, over one record; at times through a pipe, which hands them over in pieces.
fn part(number: u64, seen: &Seen) -> u64 {
    let mut rng = Random::new(1_700 + number);
    let levels = levels_of(number, &mut rng);
    let record = level_of(levels.as_deref());
    let name = format!("worksheets-{number}");
    let runs = Runs {
        name: &name,
        levels: levels.as_deref(),
        seen,
    };
    let run: Run = match number % 3 {
        0 => written_from_pipe,
        _ => written,
    };
    let mut bytes = some_bytes(&mut rng, SHEETS, record);
    bytes.extend(random::damaged(&mut rng));
    let text = some_text(&mut rng, SHEETS, record);
    runs.bytes(run, &bytes) + runs.text(run, &text)
}

/// Routes that end at and beside the end of a page, and none.
fn routes(runs: &Runs, rng: &mut Random) -> u64 {
    let mut pages = 0;
    for count in [0, 1, 2, 49, 50, 51, 99, 100, 101, 151] {
        let record = level_of(runs.levels);
        pages += runs.bytes(written, &some_bytes(rng, count, record));
        pages += runs.text(written, &some_text(rng, count, record));
        let refused = sheet::pack(&[0; FIELDS]).repeat(count);
        pages += runs.bytes(written, &refused);
    }
    pages
}

/// S with each field at and past its ends, each bit changed, and every length of a last sheet.
fn around_s(runs: &Runs) -> u64 {
    let mut bytes = Vec::new();
    for (place, field) in TABLE.iter().enumerate() {
        let ends = [field.least, field.greatest].into_iter();
        for figure in ends.chain(random::one_past(place + 1)) {
            let mut changed = S;
            changed[place] = figure;
            bytes.extend(sheet::pack(&changed));
        }
    }
    let mut pages = runs.bytes(written, &bytes);
    let s = sheet::pack(&S);
    let changed = |bit: usize| {
        let mut bytes = s;
        bytes[bit / 8] ^= 1 << (bit % 8);
        bytes
    };
    let bits: Vec<u8> = (0..8 * s.len()).flat_map(changed).collect();
    pages += runs.bytes(written, &bits);
    for length in 1..s.len() {
        pages += runs.bytes(written, &s[..length]);
    }
    pages
}

/// S under names of every length about the longest that is shown, with a letter of each kind behind so many bytes.
fn names(runs: &Runs) -> u64 {
    let mut text = Vec::new();
    let rows = texts::sheet_text(&S);
    let rows = &rows[b"sheet\n".len()..];
    let mut add = |name: &[u8], end: &[u8]| {
        text.extend([b"sheet ", name, end, rows].concat());
    };
    for length in 28..=40 {
        for letter in LETTERS {
            let name = [&b"n".repeat(length), letter.as_bytes(), b"nnnnnnnn"].concat();
            add(&name, b"\n");
            add(&name[..length + letter.len()], b"\r\n");
        }
    }
    for byte in 0..=255 {
        if byte != b'\n' {
            add(&[byte], b"\n");
            add(&[byte; 50], b"\r\n");
            add(&[b"name ", &[byte; 2][..]].concat(), b"\r\n");
        }
    }
    runs.text(written, &text)
}

/// More sheets than an index of three digits has, with names as long as are shown: the widest heads.
fn wide_heads(runs: &Runs) -> u64 {
    let rows = texts::sheet_text(&S);
    let sheet = [b"sheet ", &[b'n'; 60][..], &rows[b"sheet".len()..]].concat();
    runs.text(written, &sheet.repeat(1_001))
}

/// Texts with faults, of which no page is written, and inputs about the longest.
fn turned_away(runs: &Runs, rng: &mut Random) -> u64 {
    let mut pages = 0;
    for number in 0..10 {
        let mut text = some_text(rng, 30, level_of(runs.levels));
        texts::damage(rng, &mut text, 1 << number);
        pages += runs.text(written, &text);
    }
    for length in [LONGEST - 1, LONGEST, LONGEST + 1, LONGEST + 65_536] {
        let comment = [&texts::sheet_text(&S)[..], &vec![b'#'; length]].concat();
        for run in [written as Run, written_from_pipe] {
            pages += runs.text(run, &comment[..length]);
        }
    }
    for length in [LONGEST, LONGEST + 1, 2 * LONGEST] {
        // the pages of zeros, which are all alike, count once
        pages += runs.bytes(written_from_pipe, &vec![0; length]).min(1);
    }
    pages
}

pub fn worksheets() {
    let seen = Seen::new();
    let mut rng = Random::new(17);
    let mut report = Report::new("worksheets", 20_000);
    let enough = levels_of(10, &mut rng);
    let runs = Runs {
        name: "worksheets-edges",
        levels: enough.as_deref(),
        seen: &seen,
    };
    report.add(routes(&runs, &mut rng));
    report.add(around_s(&runs));
    report.add(names(&runs));
    report.add(wide_heads(&runs));
    report.add(turned_away(&runs, &mut rng));
    report.add(in_parts("worksheets", PARTS, |number| part(number, &seen)));
    seen.saw_all();
    report.end();
}
