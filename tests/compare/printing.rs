//! The printing program's text, byte for byte, in both its forms: the definition's figures as they stand in it, then many
//! sheets over many level records beside the second program.

use crate::parts::in_parts;
use crate::program::{forget, printed, set_levels, written};
use crate::report::{hex, Report};
use crate::second::print;
use crate::second::random::{self, Random};
use crate::second::sheet::{self, BYTES, FIELDS};
use std::process::exit;
use std::sync::atomic::{AtomicU64, Ordering};

const RECORDS: u64 = 64;
const SHEETS: usize = 16_000;

/// Sheets of a record in the second form, whose plain engine is slow: more than a block of input, or of output, holds.
const SHEETS_OF_BOTH: usize = 3_000;

/// The sheet of a line, counted from 0; the first line is the record's.
fn sheet_of(input: &[u8], line: usize) -> String {
    let sheet = line.checked_sub(1).and_then(|k| input.chunks(BYTES).nth(k));
    sheet.map_or("no sheet".to_string(), hex)
}

/// Shows the first line that differs with its sheet, and stops.
fn stop_at_difference(name: &str, input: &[u8], proved: &[u8], second: &[u8]) -> ! {
    let newline = |byte: &u8| *byte == b'\n';
    let (mut ours, mut theirs) = (proved.split(newline), second.split(newline));
    let mut line = 0;
    loop {
        let (proved, second) = (ours.next(), theirs.next());
        if proved != second {
            let shown = |text: Option<&[u8]>| {
                String::from_utf8_lossy(text.unwrap_or(b"nothing")).into_owned()
            };
            println!("{name}: line {} differs", line + 1);
            println!("  sheet   {}", sheet_of(input, line));
            println!("  proved  {}", shown(proved));
            println!("  second  {}", shown(second));
            println!("  the inputs are in target/printing/{name}");
            exit(1);
        }
        line += 1;
    }
}

/// One run beside the second program; counts its sheets.
fn both(name: &str, levels: Option<&[u8]>, input: &[u8]) -> u64 {
    let proved = printed(name, levels, input);
    let second = print::text(levels, input);
    if proved != second.as_bytes() {
        stop_at_difference(name, input, &proved, second.as_bytes());
    }
    forget(name);
    input.chunks(BYTES).count() as u64
}

/// The codes that the second form must show, those of the depth and behind it among them.
const CODES: [usize; 14] = [0, 1, 2, 3, 5, 6, 7, 8, 13, 14, 15, 16, 17, 18];

/// How often each code was seen in the second form, over all records.
struct Seen([AtomicU64; 32]);

impl Seen {
    fn new() -> Seen {
        Seen(std::array::from_fn(|_| AtomicU64::new(0)))
    }

    fn add(&self, text: &[u8]) {
        for line in lines_of(text) {
            self.0[line[CODE] as usize].fetch_add(1, Ordering::Relaxed);
        }
    }

    fn saw_all(&self) {
        let counts = CODES.map(|code| (code, self.0[code].load(Ordering::Relaxed)));
        println!("printing: (code, sheets) in the second form: {counts:?}");
        assert!(counts.iter().all(|&(_, sheets)| sheets > 10));
    }
}

/// One run in the second form; the second program's engines must agree too, so that nothing is said.
fn both_engines(name: &str, levels: Option<&[u8]>, input: &[u8], seen: &Seen) -> u64 {
    set_levels(name, levels);
    let (proved, said) = written(name, "both", input);
    let (second, differ) = print::both(levels, input);
    if proved != second.as_bytes() {
        stop_at_difference(name, input, &proved, second.as_bytes());
    }
    let said = String::from_utf8_lossy(&said);
    assert_eq!((&*said, &*differ), ("", ""), "{name}: what is said");
    forget(name);
    seen.add(&proved);
    input.chunks(BYTES).count() as u64
}

/// 30,000 readings with a hundredth at each of three low levels, one at a fourth, and the rest `d` above the lowest.
fn record_of_range(d: i32, lowest: i32) -> Vec<i32> {
    let counts = [(0, 300), (1, 300), (2, 300), (3, 1), (d, 29_099)];
    let some = |&(above, count): &(i32, usize)| vec![lowest + above; count];
    counts.iter().flat_map(some).collect()
}

/// A record of two levels.
fn two_levels(low: usize, high: usize) -> Vec<i32> {
    [vec![0; low], vec![60; high]].concat()
}

/// More readings of one level than a slot holds, and enough missing hours to see that they do not count.
fn past_a_full_slot() -> Vec<i32> {
    [vec![7; 1_000_003], vec![-9_999; 5], vec![8; 2]].concat()
}

/// D at and beside each limit of the frequency table.
const RANGES: [i32; 16] = [
    0, 1, 34, 35, 36, 69, 70, 71, 104, 105, 106, 139, 140, 141, 142, 500,
];

/// The level file of a record: none, empty, an odd byte, the definition's, a full slot, each range, and random ones.
pub fn levels_of(record: u64, rng: &mut Random) -> Option<Vec<u8>> {
    let readings = match record {
        1 => return None,
        2 => vec![],
        3 => return Some(vec![0]),
        4 => two_levels(262, 26_018),
        5 => two_levels(263, 26_017),
        6 => past_a_full_slot(),
        7..=22 => record_of_range(RANGES[record as usize - 7], 60 * record as i32 - 900),
        _ => random::record(rng),
    };
    let mut bytes = random::levels_bin(&readings);
    if record % 5 == 0 {
        bytes.push(rng.draw() as u8);
    }
    Some(bytes)
}

fn valid(rng: &mut Random) -> Vec<u8> {
    sheet::pack(&random::valid_sheet(rng)).to_vec()
}

/// A damaged sheet of 28 bytes, so that those behind it stay where they are.
pub fn damaged_whole(rng: &mut Random) -> Vec<u8> {
    loop {
        let bytes = random::damaged(rng);
        if bytes.len() == BYTES {
            return bytes;
        }
    }
}

/// Sheets, one in eight damaged. Each fourth stream is out of step from some sheet on; the end is of any length.
fn stream(record: u64, sheets: usize, rng: &mut Random) -> Vec<u8> {
    let shift_at = match record % 4 {
        0 => rng.below(sheets),
        _ => sheets,
    };
    let mut bytes = Vec::new();
    for number in 0..sheets {
        bytes.extend(match rng.below(8) {
            0 => damaged_whole(rng),
            _ => valid(rng),
        });
        if number == shift_at {
            bytes.push(rng.draw() as u8);
        }
    }
    bytes.extend(random::damaged(rng));
    bytes
}

fn record(number: u64) -> u64 {
    let mut rng = Random::new(700 + number);
    let levels = levels_of(number, &mut rng);
    let input = stream(number, SHEETS, &mut rng);
    both(&format!("record-{number}"), levels.as_deref(), &input)
}

/// Other sheets over such a record in the second form, and inputs of no sheet, of a part of one and of a little more.
fn record_of_both(number: u64, seen: &Seen) -> u64 {
    let mut rng = Random::new(900 + number);
    let levels = levels_of(number, &mut rng);
    let input = stream(number, SHEETS_OF_BOTH, &mut rng);
    let lengths = [0, 1, BYTES - 1, BYTES, BYTES + 1, input.len()];
    let name = format!("both-{number}");
    let one = |&length: &usize| both_engines(&name, levels.as_deref(), &input[..length], seen);
    lengths.iter().map(one).sum()
}

/// Files that end at and beside the ends of the blocks in which a program may read and write.
fn block_ends(rng: &mut Random) -> u64 {
    let sheets: Vec<u8> = (0..4_700).flat_map(|_| valid(rng)).collect();
    let readings: Vec<i32> = (0..70_000).map(|_| rng.between(0, 60) as i32).collect();
    let levels = random::levels_bin(&readings);
    let mut counted = 0;
    for block in [4_096, 65_520, 65_536, 131_040, 131_072] {
        for length in [block - 1, block, block + 1] {
            counted += both(
                &format!("block-{length}"),
                Some(&levels[..length]),
                &sheets[..length],
            );
        }
    }
    counted
}

/// S, field by field.
const S: [i64; FIELDS] = [
    40_000, 1_000, 20_000, 3_000, 8, 500, 0, 30, 0, 3, 1, 20_000, 2_400, 0, 0, 20, 10, 10, 150, 1,
    0, 0, 0, 0, 0, 0, 1, 500, 0,
];

const S_PRINTED: &str = "L 0 0 0\n1 0 0 0 1 1170 1170 1170 14400 0 2 0 0 1\nR 1 1 0\n";
const S_PRINTED_BY_BOTH: &str =
    "L 0 0 0\n1 0 0 0 1 1170 1170 1170 14400 0 2 0 0 1 0 1170 1170\nR 1 1 0 1\n";

/// Places in a sheet's line.
const CODE: usize = 1;
const LEVEL: usize = 3;
const LANES: usize = 4;
const SAILING: usize = 5;
const CUT: usize = 6;
const WIDTH: usize = 8;
const WIDENING: usize = 9;
const COLUMNS: usize = 10;

/// Fields changed in S: (number, figure); and what its line then has: (place, figure).
type Figures = (&'static [(usize, i64)], &'static [(usize, i64)]);

const FIGURES: &[Figures] = &[
    (&[(11, 2)], &[(CODE, 0), (CUT, 1_210), (WIDTH, 30_600)]),
    (&[(9, 100)], &[(CODE, 0), (SAILING, 1_170), (CUT, 1_245)]),
    (&[(6, 0)], &[(CODE, 0), (CUT, 1_180)]),
    (
        &[(8, 31), (6, 578)],
        &[(CODE, 0), (CUT, 1_156), (COLUMNS, 1)],
    ),
    (&[(8, 31), (6, 577)], &[(CODE, 0), (CUT, 1_171)]),
    (&[(5, 12), (6, 610)], &[(CODE, 0), (CUT, 1_220)]),
    (&[(5, 12), (6, 600)], &[(CODE, 13), (CUT, 0)]),
    (&[(25, 30), (26, 1_500)], &[(CODE, 0), (WIDENING, 1_915)]),
    (&[(25, 30), (26, 2_000)], &[(CODE, 0), (WIDENING, 0)]),
    (&[(25, 30), (26, 999)], &[(CODE, 7), (WIDENING, 0)]),
    (&[(3, 6_000), (4, 4_000)], &[(CODE, 18), (CUT, 0)]),
    (&[(3, 11_999), (4, 4_000)], &[(CODE, 18), (CUT, 0)]),
    (
        &[(3, 12_000), (4, 4_000)],
        &[(CODE, 0), (CUT, 1_150), (WIDTH, 19_200)],
    ),
    (
        &[(29, 8)],
        &[(CODE, 0), (SAILING, 1_170), (CUT, 1_170), (WIDTH, 14_400)],
    ),
    (&[(29, 13)], &[(CODE, 16), (CUT, 0)]),
    (&[(6, 1_200), (29, 3)], &[(CODE, 0), (CUT, 1_155)]),
    (&[(4, 1_200), (6, 100), (29, 4)], &[(CODE, 17), (CUT, 0)]),
    (&[(4, 1_200), (6, 200), (29, 4)], &[(CODE, 0), (CUT, 1_180)]),
    (&[(11, 2), (29, 8)], &[(CODE, 16), (WIDTH, 0)]),
    (&[(11, 0), (13, 1_777)], &[(CODE, 0), (LANES, 1)]),
    (&[(11, 0), (13, 1_778)], &[(CODE, 0), (LANES, 2)]),
    (
        &[(11, 0), (12, 44_448), (13, 800)],
        &[(CODE, 0), (LANES, 2)],
    ),
];

fn s_with(changes: &[(usize, i64)]) -> [u8; BYTES] {
    let mut figures = S;
    for &(number, figure) in changes {
        figures[number - 1] = figure;
    }
    sheet::pack(&figures)
}

/// The numbers of each sheet's line.
fn lines_of(text: &[u8]) -> Vec<Vec<i64>> {
    let text = String::from_utf8_lossy(text);
    let numbers = |line: &str| {
        line.split(' ')
            .map(|word| word.parse().expect("a number"))
            .collect()
    };
    let sheets = text.lines().filter(|line| !line.starts_with(['L', 'R']));
    sheets.map(numbers).collect()
}

/// "S: as printed", and the case of each line of the figures.
fn figures(report: &mut Report) {
    let text = printed("figures", None, &s_with(&[]));
    let text = String::from_utf8_lossy(&text);
    report.case(&*text, S_PRINTED, || "S, no levels.bin".to_string());
    let input: Vec<u8> = FIGURES
        .iter()
        .flat_map(|(changes, _)| s_with(changes))
        .collect();
    let lines = lines_of(&printed("figures", None, &input));
    report.case(lines.len(), FIGURES.len(), || "a line a sheet".to_string());
    for (line, (changes, wanted)) in lines.iter().zip(FIGURES) {
        let got: Vec<(usize, i64)> = wanted
            .iter()
            .map(|&(place, _)| (place, line[place]))
            .collect();
        report.case(&got[..], wanted, || {
            format!("S with (field, figure) {changes:?}")
        });
    }
}

/// Fields changed in S, and what the line of the second form then has: the code, and the plain engine's three numbers.
const FIGURES_OF_BOTH: &[(&[(usize, i64)], [i64; 4])] = &[
    (&[], [0, 0, 1_170, 1_170]),
    (&[(9, 100)], [0, 0, 1_170, 1_245]),
    (&[(8, 31), (6, 578)], [0, 0, 1_156, 1_156]),
    (&[(5, 12), (6, 600)], [13, 13, 0, 0]),
    (&[(9, 900)], [14, 14, 0, 0]),
    (&[(2, 2_500), (8, 300)], [15, 15, 0, 0]),
    (&[(29, 13)], [16, 0, 1_170, 1_170]),
    (&[(4, 1_200), (6, 100), (29, 4)], [17, 0, 1_180, 1_180]),
    (&[(3, 6_000), (4, 4_000)], [18, 0, 0, 0]),
    (&[(25, 30), (26, 999)], [7, 0, 0, 0]),
];

/// The text of the second form, beside which nothing is said.
fn printed_by_both(input: &[u8]) -> String {
    let (text, said) = written("figures", "both", input);
    assert_eq!(String::from_utf8_lossy(&said), "", "the engines agree");
    String::from_utf8(text).expect("the text is plain")
}

/// The second form: S as printed, and the case of each line; all but the last two come to a depth.
fn figures_of_both(report: &mut Report) {
    let text = printed_by_both(&s_with(&[]));
    report.case(&*text, S_PRINTED_BY_BOTH, || {
        "S in the second form".to_string()
    });
    let changed = FIGURES_OF_BOTH.iter();
    let input: Vec<u8> = changed.flat_map(|(changes, _)| s_with(changes)).collect();
    let text = printed_by_both(&input);
    report.case(text.lines().last(), Some("R 10 3 0 8"), || {
        "the route in the second form".to_string()
    });
    for (line, (changes, wanted)) in lines_of(text.as_bytes()).iter().zip(FIGURES_OF_BOTH) {
        let plain = &line[line.len() - 3..];
        let got = [line[CODE], plain[0], plain[1], plain[2]];
        report.case(got, *wanted, || {
            format!("S with (field, figure) {changes:?}, in the second form")
        });
    }
}

/// "262 readings of 0 and 26,018 of 60: level 60. 263 and 26,017: level 0."
fn levels(report: &mut Report) {
    let off_record = s_with(&[(27, 0), (28, 0)]);
    for (low, high, level) in [(262, 26_018, 60), (263, 26_017, 0)] {
        let file = random::levels_bin(&two_levels(low, high));
        let line = &lines_of(&printed("figures", Some(&file), &off_record))[0];
        report.case((line[CODE], line[LEVEL]), (0, level), || {
            format!("{low} readings of 0, {high} of 60")
        });
    }
    forget("figures");
}

pub fn printing() {
    let cases = FIGURES.len() + FIGURES_OF_BOTH.len();
    let mut checked = Report::new("figures printed", cases as u64 + 6);
    figures(&mut checked);
    figures_of_both(&mut checked);
    levels(&mut checked);
    checked.end();
    let mut report = Report::new("printing", 1_000_000);
    report.add(block_ends(&mut Random::new(7)));
    report.add(in_parts("printing", RECORDS, record));
    report.end();
    let (mut of_both, seen) = (Report::new("printing, second form", 192_000), Seen::new());
    let part = |number| record_of_both(number, &seen);
    of_both.add(in_parts("printing, second form", RECORDS, part));
    seen.saw_all();
    of_both.end();
}
