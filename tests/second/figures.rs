//! The definition's figures to hold a program to, and every refusal number: the second program here, the proved one in the
//! comparison `figures-proved`. The second program is held to its own claims too.

use crate::second::depth::{self, Inputs};
use crate::second::design::{design, design_at, plan, Answer};
use crate::second::gauge::{self, AddAnswer};
use crate::second::random::{self, Random};
use crate::second::sheet::{self, Refusal, Sheet, FIELDS};
use crate::second::speed::{self, Section};
use crate::second::{class, print, width};
use std::fmt::Debug;

/// S, field by field.
pub const S: [i64; FIELDS] = [
    40_000, 1_000, 20_000, 3_000, 8, 500, 0, 30, 0, 3, 1, 20_000, 2_400, 0, 0, 20, 10, 10, 150, 1,
    0, 0, 0, 0, 0, 0, 1, 500, 0,
];

const S_PRINTED: &str = "L 0 0 0\n1 0 0 0 1 1170 1170 1170 14400 0 2 0 0 1\nR 1 1 0\n";

const RANDOM_SHEETS: usize = 20_000;

/// A program that the figures are asked of.
pub trait Program {
    fn design(&self, bytes: &[u8], table: &[u32]) -> Answer;
    fn plan(&self, bytes: &[u8], place: &mut [u8]) -> u32;
    fn design_level(&self, table: &[u32]) -> Result<i32, u32>;
    fn add(&self, table: &mut [u32], reading: i32) -> AddAnswer;
    fn read(&self, bytes: &[u8]) -> Result<Sheet, Refusal>;
    /// Writes good figures, with a field set to another figure where one is given.
    fn write(&self, good: &Figures, set: Option<(usize, i64)>, place: &mut [u8]) -> Written;
    fn printed(&self, levels: Option<&[u8]>, sheets: &[u8]) -> String;
    fn ship_class(&self, deadweight: i64) -> i64;
    fn width_class(&self, width: i64, lanes: i64) -> i64;
    fn depth_class(&self, s: i64) -> i64;
}

pub type Figures = [i64; FIELDS];
pub type Written = Result<(), Refusal>;

struct Second;

impl Program for Second {
    fn design(&self, bytes: &[u8], table: &[u32]) -> Answer {
        design(bytes, table)
    }

    fn plan(&self, bytes: &[u8], place: &mut [u8]) -> u32 {
        plan(bytes, place)
    }

    fn design_level(&self, table: &[u32]) -> Result<i32, u32> {
        gauge::design_level(table)
    }

    fn add(&self, table: &mut [u32], reading: i32) -> AddAnswer {
        gauge::add(table, reading)
    }

    fn read(&self, bytes: &[u8]) -> Result<Sheet, Refusal> {
        sheet::read(bytes)
    }

    fn write(&self, good: &Figures, set: Option<(usize, i64)>, place: &mut [u8]) -> Written {
        let mut figures = *good;
        if let Some((field, figure)) = set {
            figures[field - 1] = figure;
        }
        sheet::write(&Sheet { figures }, place)
    }

    fn printed(&self, levels: Option<&[u8]>, sheets: &[u8]) -> String {
        print::text(levels, sheets)
    }

    fn ship_class(&self, deadweight: i64) -> i64 {
        class::ship_class(deadweight)
    }

    fn width_class(&self, width: i64, lanes: i64) -> i64 {
        class::width_class(width, lanes)
    }

    fn depth_class(&self, s: i64) -> i64 {
        class::depth_class(s)
    }
}

#[derive(Default)]
pub struct Tally {
    right: u32,
    wrong: u32,
}

impl Tally {
    pub fn check<T: Debug + PartialEq>(&mut self, what: &str, got: T, wanted: T) {
        if got == wanted {
            self.right += 1;
            println!("right: {what}: {got:?}");
        } else {
            self.wrong += 1;
            println!("wrong: {what}: {got:?}, not {wanted:?}");
        }
    }

    /// Says how many were right, and whether all were.
    pub fn end(&self, name: &str) -> bool {
        println!("{name}: {} right, {} wrong", self.right, self.wrong);
        self.wrong == 0
    }
}

/// S with some fields changed: (number, figure).
fn s_with(changes: &[(usize, i64)]) -> [i64; FIELDS] {
    let mut figures = S;
    for &(number, figure) in changes {
        figures[number - 1] = figure;
    }
    figures
}

fn answer(program: &impl Program, changes: &[(usize, i64)]) -> Answer {
    program.design(&sheet::pack(&s_with(changes)), &gauge::empty())
}

fn code_and_field(program: &impl Program, bytes: &[u8], table: &[u32]) -> (i64, i64) {
    let answer = program.design(bytes, table);
    let refused = Answer {
        code: answer.code,
        field: answer.field,
        ..Answer::default()
    };
    assert!(answer.code == 0 || answer == refused, "all 0 when refused");
    (answer.code, answer.field)
}

fn table_of(counts: &[(i32, u32)]) -> Vec<u32> {
    let mut table = gauge::empty();
    for &(level, count) in counts {
        table[(level - gauge::LOWEST) as usize] += count;
    }
    table
}

/// "S: as printed." to "*999: refusal 7."
fn starred(program: &impl Program, tally: &mut Tally) {
    let s = sheet::pack(&S);
    let printed = program.printed(None, &s);
    tally.check("S, printed", printed.as_str(), S_PRINTED);
    let two = answer(program, &[(11, 2)]);
    tally.check("S, two lanes: cut", two.cut, 1_210);
    tally.check("S, two lanes: width", two.width, 30_600);
    let silted = answer(program, &[(9, 100)]);
    tally.check("S, P 100: s", silted.s, 1_170);
    tally.check("S, P 100: cut", silted.cut, 1_245);
    let cuts: Vec<_> = (0..6)
        .map(|interval| answer(program, &[(9, 100), (10, interval)]))
        .map(|silted| (silted.code, silted.cut))
        .collect();
    let by_interval = [
        (0, 1_188),
        (0, 1_193),
        (0, 1_206),
        (0, 1_245),
        (14, 0),
        (14, 0),
    ];
    tally.check("S, P 100, each interval", cuts, by_interval.to_vec());
    tally.check("S, bed 0: cut", answer(program, &[(6, 0)]).cut, 1_180);
    let one_column = answer(program, &[(8, 31), (6, 578)]);
    tally.check("S, z2 31, bed 578: cut", one_column.cut, 1_156);
    tally.check("S, z2 31, bed 578: columns", one_column.columns_tried, 1);
    let bed_577 = answer(program, &[(8, 31), (6, 577)]);
    tally.check("S, z2 31, bed 577: cut", bed_577.cut, 1_171);
    let fast = |bed| answer(program, &[(5, 12), (6, bed)]);
    tally.check("S, speed 12, bed 610: cut", fast(610).cut, 1_220);
    tally.check("S, speed 12, bed 600: code", fast(600).code, 13);
    let bend = |radius| answer(program, &[(25, 30), (26, radius)]);
    let widening = |radius| (bend(radius).code, bend(radius).widening);
    tally.check("S, turn 30, radius 1,500", widening(1_500), (0, 1_915));
    tally.check("S, turn 30, radius 2,000", widening(2_000), (0, 0));
    tally.check("S, turn 30, radius 999", widening(999), (7, 0));
    let ship = |length| answer(program, &[(3, length), (4, 4_000)]);
    let code = |length| ship(length).code;
    tally.check("S, length 6,000, beam 4,000: code", code(6_000), 18);
    tally.check("S, length 11,999, beam 4,000: code", code(11_999), 18);
    tally.check("S, length 12,000, beam 4,000: code", code(12_000), 0);
    let figures = (ship(12_000).cut, ship(12_000).width);
    tally.check("S, length 12,000, beam 4,000", figures, (1_150, 19_200));
}

/// By how much the cut grows with a centimetre of draft, a centimetre of wave allowance and a second lane: by as much as it
/// must, and by more.
fn growths(program: &impl Program, tally: &mut Tally) {
    let cut = |changes: &[(usize, i64)]| answer(program, changes).cut;
    let drafts = [999, 1_000, 1_001].map(|draft| cut(&[(2, draft)]));
    tally.check("S, drafts 999 to 1,001", drafts, [1_169, 1_170, 1_172]);
    let waves = [30, 31].map(|z2| cut(&[(8, z2)]));
    tally.check("S, z2 30 and 31", waves, [1_170, 1_171]);
    let waves = [31, 32].map(|z2| cut(&[(6, 578), (8, z2)]));
    tally.check("S, bed 578, z2 31 and 32", waves, [1_156, 1_172]);
    let lanes = |speed| [1, 2].map(|lanes| cut(&[(5, speed), (11, lanes)]));
    tally.check("S, speed 2, one lane and two", lanes(2), [1_130, 1_130]);
    tally.check("S, one lane and two", lanes(8), [1_170, 1_210]);
}

/// "S, lanes 0", and the levels of two records.
fn lanes_and_levels(program: &impl Program, tally: &mut Tally) {
    let by_traffic = |ships| answer(program, &[(11, 0), (13, ships)]).lanes;
    tally.check("S, lanes 0, ships 1,777", by_traffic(1_777), 1);
    tally.check("S, lanes 0, ships 1,778", by_traffic(1_778), 2);
    let equal = answer(program, &[(11, 0), (12, 44_448), (13, 800)]);
    tally.check("S, lanes 0, 44,448 m, ships 800", equal.lanes, 2);
    let level = |low, high| program.design_level(&table_of(&[(0, low), (60, high)]));
    tally.check("262 of 0, 26,018 of 60", level(262, 26_018), Ok(60));
    tally.check("263 of 0, 26,017 of 60", level(263, 26_017), Ok(0));
    let record = table_of(&[(0, 262), (60, 26_018)]);
    let off_record = sheet::pack(&s_with(&[(27, 0), (28, 0)]));
    let given = sheet::pack(&s_with(&[(28, 560)]));
    let same = program.design(&off_record, &record) == program.design(&given, &[]);
    tally.check("a level off the record is as one given", same, true);
}

/// Numbers 1, 2, 3.
fn bad_bytes(program: &impl Program, tally: &mut Tally) {
    let s = sheet::pack(&S);
    let code = |bytes: &[u8]| code_and_field(program, bytes, &gauge::empty());
    let longer = [&s[..], &[0]].concat();
    let short = (code(&[]), code(&s[..27]), code(&longer));
    tally.check("1: 0, 27, 29 bytes", short, ((1, 0), (1, 0), (1, 0)));
    let spare = (0..7).all(|place| {
        let mut bytes = sheet::pack(&s_with(&[(1, 0)]));
        bytes[27] |= 1 << place;
        code(&bytes) == (2, 0)
    });
    tally.check("2: each spare bit, before 3", spare, true);
    for number in 1..=FIELDS {
        for figure in random::one_past(number) {
            // Field 29 last: the first bad field's number is given.
            let bytes = sheet::pack(&s_with(&[(29, 31), (number, figure)]));
            let what = format!("3: {} {figure}", sheet::TABLE[number - 1].name);
            tally.check(&what, code(&bytes), (3, number as i64));
        }
    }
    let changed = |changes: &[(usize, i64)]| code(&sheet::pack(&s_with(changes)));
    tally.check("3: turn alone", changed(&[(25, 1)]), (3, 26));
    tally.check("3: radius alone", changed(&[(26, 1)]), (3, 26));
    tally.check("3: bad turn, no radius", changed(&[(25, 181)]), (3, 25));
    tally.check("3: record and figure", changed(&[(27, 0)]), (3, 28));
    let both = changed(&[(27, 0), (29, 31)]);
    tally.check("3: record and figure, slope 31", both, (3, 28));
}

/// "The first five spare bits become field 29": the last bits of byte 26, counted from 0, and the first of byte 27.
fn slope_bits(program: &impl Program, tally: &mut Tally) {
    for (slope, last) in [(1, [0x40, 0x80]), (2, [0x41, 0]), (30, [0x4f, 0])] {
        let mut bytes = sheet::pack(&S);
        bytes[26..].copy_from_slice(&last);
        let read = program.read(&bytes).map(|sheet| sheet.slope());
        tally.check("slope by its bits", read, Ok(slope));
        let mut place = [7; 28];
        let written = program.write(&s_with(&[(29, slope)]), None, &mut place);
        tally.check("slope written", (written, place == bytes), (Ok(()), true));
    }
}

/// Numbers 4, 5, 6, for source 0 only.
fn bad_tables(program: &impl Program, tally: &mut Tally) {
    let off_record = sheet::pack(&s_with(&[(27, 0), (28, 0)]));
    let code = |table: &[u32]| code_and_field(program, &off_record, table);
    let mut over = gauge::empty();
    over[0] = gauge::FULL + 1;
    let given = code_and_field(program, &sheet::pack(&S), &over);
    tally.check("4: not asked of a given level", given, (0, 0));
    tally.check("4: 2,000 slots", code(&[0; 2_000]), (4, 0));
    tally.check("4: 2,002 slots", code(&[0; 2_002]), (4, 0));
    tally.check("4: a slot over 1,000,000", code(&over), (4, 0));
    over[0] = gauge::FULL;
    tally.check("4: a slot at 1,000,000", code(&over), (0, 0));
    tally.check("5: none", code(&gauge::empty()), (5, 0));
    tally.check("5: 26,279", code(&table_of(&[(0, 26_279)])), (5, 0));
    tally.check("5: 26,280", code(&table_of(&[(0, 26_280)])), (0, 0));
    // Of 30,000 readings, 300 are below 1, 600 below 2, 900 below 3, and 901 below D.
    let level = |d| {
        let low = [(0, 300), (1, 300), (2, 300), (3, 1)];
        program.design_level(&table_of(&[&low[..], &[(d, 29_099)]].concat()))
    };
    for (row, ends) in [(0, [4, 35]), (1, [36, 70]), (2, [71, 105]), (3, [106, 140])] {
        let what = format!("D {} and {}", ends[0], ends[1]);
        tally.check(&what, ends.map(level), [Ok(row), Ok(row)]);
    }
    tally.check("6: D 141", level(141), Err(6));
}

/// Number 18: in a design, straight after 3 and before 4, and not in reading or writing.
fn short_ships(program: &impl Program, tally: &mut Tally) {
    let code = |changes: &[(usize, i64)], table: &[u32]| {
        let short = [&[(3, 6_000), (4, 4_000)], changes].concat();
        code_and_field(program, &sheet::pack(&s_with(&short)), table)
    };
    let empty = gauge::empty();
    tally.check("18: given level", code(&[], &empty), (18, 0));
    tally.check("3 before 18", code(&[(28, 2_001)], &empty), (3, 28));
    let off_record = [(27, 0), (28, 0)];
    tally.check("18 before 4", code(&off_record, &[0; 2_000]), (18, 0));
    tally.check("18 before 5", code(&off_record, &empty), (18, 0));
    let bend = [(25, 30), (26, 100)];
    tally.check("18 before 7", code(&bend, &empty), (18, 0));
    let pairs = [(2_000, 666), (2_000, 667), (20_999, 7_000), (21_000, 7_000)];
    let ship = |(length, beam)| code(&[(3, length), (4, beam)], &empty).0;
    tally.check("18: least and greatest", pairs.map(ship), [0, 18, 18, 0]);
    let ships = [(6_000, 2_000), (7_000, 2_333), (2_000, 500)];
    let exchanged = |(length, beam)| ship((beam, length));
    tally.check("three ships", ships.map(ship), [0, 0, 0]);
    tally.check(
        "length and beam exchanged",
        ships.map(exchanged),
        [18, 18, 3],
    );
    let short = s_with(&[(3, 6_000), (4, 4_000)]);
    let mut place = [7; 28];
    let written = program.write(&short, None, &mut place);
    tally.check("18 is not of writing", written, Ok(()));
    let sheet = Sheet { figures: short };
    tally.check("18 is not of reading", program.read(&place), Ok(sheet));
}

/// Numbers 7, 8, 13, 14, 15, and their order.
fn bad_designs(program: &impl Program, tally: &mut Tally) {
    let code = |changes: &[(usize, i64)]| {
        let bytes = sheet::pack(&s_with(changes));
        code_and_field(program, &bytes, &gauge::empty()).0
    };
    for (turn, lengths) in [
        (24, 3),
        (25, 5),
        (34, 5),
        (35, 8),
        (54, 8),
        (55, 10),
        (180, 10),
    ] {
        let radius = 200 * lengths;
        let tight = code(&[(25, turn), (26, radius - 1)]);
        let enough = code(&[(25, turn), (26, radius)]);
        let what = format!("7: turn {turn}, {lengths} lengths");
        tally.check(&what, (tight, enough), (7, 0));
    }
    tally.check("8: wave 101", code(&[(14, 1), (19, 101)]), 8);
    tally.check("8: cross 16", code(&[(14, 1), (17, 16), (19, 100)]), 8);
    tally.check("8: neither", code(&[(14, 1), (17, 15), (19, 100)]), 0);
    tally.check("13: no entry", code(&[(5, 12), (6, 600)]), 13);
    let silt = |p| answer(program, &[(9, p), (10, 5), (6, 670)]);
    let silted = (silt(66).cut, silt(66).code, silt(67).code);
    tally.check("14: z4 over 120", silted, (1_275, 0, 14));
    // every cut silts up whole, but where nothing is dug
    let whole = |p, code, bed| answer(program, &[(9, p), (10, code), (6, bed)]);
    let filled = (whole(500, 4, 1_154).code, whole(900, 5, 1_154).code);
    tally.check("14: a product of 100,000 or more", filled, (14, 14));
    let not_dug = (whole(500, 4, 1_155).cut, whole(900, 5, 1_155).cut);
    tally.check(
        "a product of 100,000 or more, s = N",
        not_dug,
        (1_155, 1_155),
    );
    let deep = |z2| answer(program, &[(2, 2_500), (6, 3_000), (7, 3), (8, z2), (5, 9)]);
    let deepest = (deep(230).cut, deep(231).code);
    tally.check("15: over 3,000", deepest, (3_000, 15));
    // column A has too much silt; that the later columns have no entry is not looked at
    let both = code(&[(5, 12), (6, 0), (9, 900), (10, 0)]);
    tally.check("the first column that cannot be used", both, 14);
    let all = [(25, 30), (26, 999), (14, 1), (5, 12), (6, 600)];
    let orders = (code(&all), code(&all[2..]), code(&all[3..]));
    tally.check("7 before 8 before 13", orders, (7, 8, 13));
    let on_record = [(27, 0), (28, 0), (25, 30), (26, 999)];
    tally.check("5 before 7", code(&on_record), 5);
}

/// The figures of the critical speed: 16, 17 and the answers of before.
fn speeds(program: &impl Program, tally: &mut Tally) {
    let same = |changes: &[(usize, i64)], slope| {
        let sloped = [changes, &[(29, slope)]].concat();
        answer(program, &sloped).numbers() == answer(program, changes).numbers()
    };
    let code = |changes: &[(usize, i64)]| answer(program, changes).code;
    tally.check("S, slope 8: as before", same(&[], 8), true);
    tally.check("S, slope 13: code", code(&[(29, 13)]), 16);
    let not_dug = answer(program, &[(6, 1_200), (29, 3)]);
    tally.check("S, bed 1,200, slope 3: cut", not_dug.cut, 1_155);
    tally.check("the same: as before", same(&[(6, 1_200)], 3), true);
    let narrow = |bed| answer(program, &[(4, 1_200), (6, bed), (29, 4)]);
    let found = (narrow(100).code, narrow(200).code, narrow(200).cut);
    tally.check("S, beam 1,200, slope 4", found, (17, 0, 1_180));
    tally.check("S, two lanes, slope 8", code(&[(11, 2), (29, 8)]), 16);
    // the natural depth is the bed's with the level
    let level = |bed, plus_500| code(&[(4, 1_200), (6, bed), (28, plus_500), (29, 4)]);
    let codes = [level(0, 600), level(0, 700), level(300, 300)];
    tally.check("the same by the level", codes, [17, 0, 17]);
    // 9 knots are 4.63 m/s, and the joined speed of the middle one is 463/90 m/s
    let equal = [(3, 6_800), (4, 1_250), (5, 9), (29, 4)];
    let beside = |bed| code(&[&equal[..], &[(6, bed)]].concat());
    let codes = [319, 320, 321].map(beside);
    tally.check("17: equal is allowed", codes, [17, 0, 0]);
}

/// 16 and 17 come last, and 16 before 17.
fn speeds_in_order(program: &impl Program, tally: &mut Tally) {
    let code = |changes: &[(usize, i64)]| {
        let bytes = sheet::pack(&s_with(changes));
        code_and_field(program, &bytes, &gauge::empty()).0
    };
    let sloped = |changes: &[(usize, i64)]| code(&[changes, &[(29, 13)]].concat());
    let earlier: [(i64, &[(usize, i64)]); 7] = [
        (18, &[(3, 6_000), (4, 4_000)]),
        (5, &[(27, 0), (28, 0)]),
        (7, &[(25, 30), (26, 999)]),
        (8, &[(14, 1)]),
        (13, &[(5, 12), (6, 600)]),
        (14, &[(9, 67), (10, 5), (6, 670)]),
        (15, &[(2, 2_500), (6, 3_000), (7, 3), (8, 231), (5, 9)]),
    ];
    for (number, changes) in earlier {
        let what = format!("{number} before 16");
        tally.check(&what, sloped(changes), number);
    }
    let fast = |slope| code(&[(4, 1_200), (6, 100), (29, slope)]);
    let codes = [0, 3, 4, 13, 31].map(fast);
    tally.check("slopes 0, 3, 4, 13, 31", codes, [0, 16, 17, 16, 3]);
}

/// A point of the table is needed exactly when it has a weight.
fn needed_points(program: &impl Program, tally: &mut Tally) {
    let code = |changes: &[&[(usize, i64)]]| answer(program, &changes.concat()).code;
    // 250 m, slope 12 and a cut of 16 m, and past each
    let last = [(2, 1_400), (4, 5_000), (8, 44), (15, 1), (29, 12)];
    let with = |field, figure| code(&[&last, &[(field, figure)]]);
    let corner = answer(program, &last);
    let found = (corner.code, corner.cut, corner.width);
    tally.check("the last lines", found, (0, 1_600, 25_000));
    let past = (with(4, 5_001), with(8, 45), with(29, 13));
    tally.check("16: past the last lines", past, (16, 16, 16));
    // s stays on the line, and the silt takes the cut past it
    tally.check("16: the cut with its silt", with(9, 1), 16);
    // 50 m and slope 4, and before each
    let first = [(4, 1_000), (15, 1), (29, 4)];
    let with = |field, figure| code(&[&first, &[(field, figure)]]);
    tally.check("the first lines", with(29, 4), 0);
    let before = (with(4, 999), with(29, 3));
    tally.check("16: before the first lines", before, (16, 16));
    // the blank at 250 m, slope 12 and 7 m
    let near = [(2, 700), (3, 15_000), (4, 5_000), (5, 7), (15, 1), (22, 1)];
    let blank = |z2, slope| code(&[&near, &[(8, z2), (29, slope)]]);
    let codes = [(8, 12), (9, 12), (8, 9), (8, 8)].map(|(z2, slope)| blank(z2, slope));
    tally.check(
        "16: a blank, and the lines beside it",
        codes,
        [16, 0, 16, 0],
    );
    // nothing is dug, and a centimetre
    let dug = |bed, lanes| code(&[&[(6, bed), (11, lanes), (29, 30)]]);
    let codes = [dug(1_155, 1), dug(1_154, 1), dug(1_300, 2)];
    tally.check("no full section where nothing is dug", codes, [0, 16, 0]);
    let shallow = |z2| code(&[&[(2, 1_400), (6, 3_000), (8, z2), (29, 30)]]);
    let codes = (shallow(59), shallow(60));
    tally.check("16: not dug, 16 m and past it", codes, (0, 16));
    // with a part of the shallow row neither would be too fast
    let all = |beam| code(&[&[(4, beam), (6, 0), (29, 4)]]);
    let codes = (all(1_678), all(1_679));
    tally.check("no shallow row where all is dug", codes, (17, 0));
    // with the widening each would fall on the other side of a limit
    let bend = |beam| code(&[&[(4, beam), (25, 30), (26, 1_500), (29, 8)]]);
    let codes = (bend(1_000), bend(5_200));
    tally.check("the width without widening", codes, (16, 0));
}

/// A greater figure can cure 16 and 17.
fn cured_speeds(program: &impl Program, tally: &mut Tally) {
    let code = |changes: &[(usize, i64)]| answer(program, changes).code;
    let wider = |beam| code(&[(4, beam), (6, 200), (29, 4)]);
    let codes = (wider(1_000), wider(1_200));
    tally.check("a greater beam cures 16", codes, (16, 0));
    let wider = |beam| code(&[(4, beam), (6, 100), (29, 4)]);
    let codes = (wider(1_200), wider(1_400));
    tally.check("a greater beam cures 17", codes, (17, 0));
}

/// Numbers 4, 10, 11 of adding; a refused addition changes no slot.
fn adding(program: &impl Program, tally: &mut Tally) {
    let refused = AddAnswer::Refused;
    let mut table = gauge::empty();
    table[500] = gauge::FULL;
    table[501] = gauge::FULL + 1;
    let before = table.clone();
    tally.check("-9999", program.add(&mut table, -9_999), AddAnswer::Missing);
    tally.check("10: -501", program.add(&mut table, -501), refused(10));
    tally.check("10: 1,501", program.add(&mut table, 1_501), refused(10));
    tally.check("11: at", program.add(&mut table, 0), refused(11));
    tally.check("11: over", program.add(&mut table, 1), refused(11));
    let wrong = program.add(&mut [0; 2_000], -9_999);
    tally.check("4 before -9999", wrong, refused(4));
    tally.check("no slot changed", table == before, true);
    let ends = (
        program.add(&mut table, -500),
        program.add(&mut table, 1_500),
    );
    tally.check("-500, 1,500", ends, (AddAnswer::Added, AddAnswer::Added));
    tally.check("their slots", (table[0], table[2_000]), (1, 1));
}

fn bad_field(field: u32) -> Refusal {
    Refusal { number: 3, field }
}

/// Number 12 of writing and planning.
fn writing(program: &impl Program, tally: &mut Tally) {
    let s = Sheet { figures: S };
    let fast = Some((5, 13));
    let mut place = [7; 60];
    let twelve = program.write(&S, None, &mut place[..27]);
    tally.check("12: 27 bytes", twelve, Err(sheet::refusal(12)));
    let twelve = program.write(&S, fast, &mut place[..27]);
    tally.check("12 before 3", twelve, Err(sheet::refusal(12)));
    let three = program.write(&S, fast, &mut place);
    tally.check("3: speed 13, written", three, Err(bad_field(5)));
    tally.check("no byte changed", place == [7; 60], true);
    tally.check("S written", program.write(&S, None, &mut place), Ok(()));
    let (first, later) = place.split_at(28);
    tally.check("S read back", program.read(first), Ok(s));
    tally.check("later bytes stay", later == [7; 32], true);
}

fn planning(program: &impl Program, tally: &mut Tally) {
    let s = sheet::pack(&S);
    let mut place = [7; 60];
    tally.check("12: 51 bytes", program.plan(&s[..3], &mut place[..51]), 12);
    tally.check("nothing written", place == [7; 60], true);
    tally.check("S planned", program.plan(&s, &mut place), 0);
    let words = place[..52].chunks(4).map(|four| {
        let four = [four[0], four[1], four[2], four[3]];
        i64::from(i32::from_be_bytes(four))
    });
    let numbers: Vec<i64> = words.collect();
    let wanted = vec![0, 0, 0, 1, 1170, 1170, 1170, 14400, 0, 2, 0, 0, 1];
    tally.check("thirteen numbers", numbers, wanted);
    tally.check("later bytes stay", place[52..] == [7; 8], true);
    let off_record = sheet::pack(&s_with(&[(27, 0), (28, 0)]));
    tally.check("4: no table", program.plan(&off_record, &mut place), 4);
    tally.check("its code", place[..8] == [0, 0, 0, 4, 0, 0, 0, 0], true);
    tally.check("1: planned", program.plan(&s[..3], &mut place), 1);
    let short = sheet::pack(&s_with(&[(3, 6_000), (4, 4_000), (27, 0), (28, 0)]));
    tally.check("18 before 4", program.plan(&short, &mut place), 18);
    let steep = sheet::pack(&s_with(&[(29, 13)]));
    tally.check("16: planned", program.plan(&steep, &mut place), 16);
}

/// The printing program's other rules.
fn printing(program: &impl Program, tally: &mut Tally) {
    let empty = program.printed(None, &[]);
    tally.check("no input", empty.as_str(), "L 0 0 0\nR 0 0 5\n");
    let levels = random::levels_bin(&[0, -9_999, 1_501, -500]);
    let short = program.printed(Some(&levels[..7]), &sheet::pack(&S)[..27]);
    let wanted = "L 1 1 2\n1 1 0 0 0 0 0 0 0 0 0 0 0 0\nR 1 0 5\n";
    tally.check("odd byte, short sheet", short.as_str(), wanted);
    // The first is refused (13), so only the others' ships count.
    let refused = s_with(&[(1, 600_000), (5, 12), (6, 0)]);
    let route = [refused, s_with(&[(1, 5_000)]), s_with(&[(1, 20_000)])];
    let bytes: Vec<u8> = route.iter().flat_map(sheet::pack).collect();
    let text = program.printed(None, &bytes);
    tally.check("route class", text.lines().last(), Some("R 3 2 1"));
}

/// Each class limit.
fn classes(program: &impl Program, tally: &mut Tally) {
    let ship = [40_000, 39_999, 20_000, 19_999, 10_000, 9_999, 5_000, 4_999];
    let steps = [0, 1, 1, 2, 2, 3, 3, 4];
    tally.check(
        "ship classes",
        ship.map(|ship| program.ship_class(ship)),
        steps,
    );
    let depth = [1_400, 1_399, 1_100, 1_099, 900, 899, 800, 799];
    tally.check(
        "depth classes",
        depth.map(|s| program.depth_class(s)),
        steps,
    );
    let one = [11_000, 10_999, 9_000, 8_999, 7_000, 6_999, 5_000, 4_999];
    let one = one.map(|width| program.width_class(width, 1));
    tally.check("width classes, one lane", one, steps);
    let two = [
        24_000, 23_999, 20_000, 19_999, 16_000, 15_999, 12_000, 11_999,
    ];
    let two = two.map(|width| program.width_class(width, 2));
    tally.check("width classes, two lanes", two, steps);
}

/// The worksheet gives the tried cut, at the s of the cut's column, in 1 to 3 columns.
fn worksheet_agrees(figures: &[i64; FIELDS], record: i64) -> bool {
    let sheet = Sheet { figures: *figures };
    let level = sheet.given_level().unwrap_or(record);
    let inputs = Inputs::of(&sheet, level, width::lanes(&sheet));
    let worksheet = depth::worksheet(&inputs);
    let cut = depth::cut(&inputs);
    let s = cut.and_then(|d| depth::sailing_depth(&inputs, depth::column_of(&inputs, d)));
    let last_s = worksheet.tries.last().map(|last| last.s);
    worksheet.cut.ok() == cut
        && (cut.is_none() || last_s == s)
        && (cut.is_none() || (1..=3).contains(&worksheet.columns_tried()))
}

/// The definition's own claims, over random sheets.
fn random_sheets(tally: &mut Tally) {
    let mut rng = Random::new(1);
    let (mut valid, mut back, mut agree) = (0, 0, 0);
    let mut codes = [0; 32];
    let mut columns = [0; 4];
    for _ in 0..RANDOM_SHEETS {
        let figures = random::valid_sheet(&mut rng);
        let sheet = Sheet { figures };
        let level = rng.between(-500, 1_500);
        let answer = design_at(&sheet::pack(&figures), Ok(level as i32));
        valid += usize::from(sheet::first_bad(&sheet).is_none());
        back += usize::from(sheet::read(&sheet::pack(&figures)) == Ok(sheet));
        agree += usize::from(worksheet_agrees(&figures, level));
        codes[answer.code as usize] += 1;
        columns[answer.columns_tried as usize] += 1;
    }
    tally.check("random sheets valid", valid, RANDOM_SHEETS);
    tally.check("random sheets read back", back, RANDOM_SHEETS);
    tally.check("worksheet's cut and s as tried", agree, RANDOM_SHEETS);
    println!("codes {codes:?}, columns tried {columns:?}");
    let wanted = [0, 7, 8, 13, 14, 15, 16, 17, 18];
    let met = wanted.iter().all(|&code| codes[code] > 0);
    tally.check("0, 7, 8, 13 to 18 met", met, true);
    tally.check("9 never", codes[9], 0);
    let met = columns.iter().all(|&count| count > 0);
    tally.check("1, 2, 3 columns met", met, true);
}

/// A section at a point of the table's grid, in cm.
fn at_point(width: i64, slope: i64, depth: i64, natural_depth: i64) -> Section {
    Section {
        cut: 100 * depth,
        natural_depth,
        width: 100 * width,
        slope,
    }
}

/// At a point of the table the joined speed is its figure, and where nothing is dug the shallow water's.
fn speeds_at_points(tally: &mut Tally) {
    let (mut full, mut shallow, mut filled) = (0, 0, 0);
    for width in (0..=300).step_by(50) {
        for slope in (0..=16).step_by(4) {
            for depth in 1..=20 {
                let whole = |figure: Option<i64>| figure.map(|figure| (i128::from(figure), 1));
                let figure = whole(speed::full_at(width, slope, depth));
                let dug = speed::joined(&at_point(width, slope, depth, 0));
                full += usize::from(dug == figure);
                filled += usize::from(figure.is_some());
                let not_dug = speed::joined(&at_point(width, slope, depth, 100 * depth));
                shallow += usize::from(not_dug == whole(speed::shallow_at(depth)));
            }
        }
    }
    tally.check("the speed at each point, all dug", full, 700);
    tally.check("the speed at each point, not dug", shallow, 700);
    tally.check("points that are filled", filled, 173);
}

/// The stretch of annex IV of the procedure, 9.2 m deep with 6.2 m dug: joined speeds in mm a second, and none with a slope of 3.
fn speeds_of_annex(tally: &mut Tally) {
    let joined = |width, slope| {
        let section = Section {
            cut: 920,
            natural_depth: 300,
            width,
            slope,
        };
        speed::joined(&section).map(|(above, below)| 100 * above / below)
    };
    let by_width = [10_000, 13_100, 16_400].map(|width| joined(width, 4));
    let wanted = [Some(5_645), Some(5_946), Some(6_228)];
    tally.check("annex IV, slope 4", by_width, wanted);
    tally.check("annex IV, slope 3", joined(10_000, 3), None);
}

/// The weights of the points add up to 1.
fn weights_of_points(tally: &mut Tally) {
    let mut rng = Random::new(2);
    let whole = (0..RANDOM_SHEETS).filter(|_| {
        let section = Section {
            cut: rng.between(1, 2_000),
            natural_depth: rng.between(0, 2_000),
            width: rng.between(0, 40_000),
            slope: rng.between(0, 30),
        };
        speed::whole_weight(&section) == (1, 1)
    });
    tally.check("weights add up to 1", whole.count(), RANDOM_SHEETS);
}

/// A figure that the second program's sheet can hold, and no other's.
fn below_zero(tally: &mut Tally) {
    let mut place = [7; 60];
    let three = Second.write(&S, Some((7, -1)), &mut place);
    tally.check("3: soil -1, written", three, Err(bad_field(7)));
    tally.check("no byte changed", place == [7; 60], true);
}

/// Asks every figure of a program, with a line for each, and says whether all are right.
pub fn right_in(name: &str, program: &impl Program) -> bool {
    let mut tally = Tally::default();
    starred(program, &mut tally);
    growths(program, &mut tally);
    lanes_and_levels(program, &mut tally);
    bad_bytes(program, &mut tally);
    slope_bits(program, &mut tally);
    bad_tables(program, &mut tally);
    short_ships(program, &mut tally);
    bad_designs(program, &mut tally);
    speeds(program, &mut tally);
    speeds_in_order(program, &mut tally);
    needed_points(program, &mut tally);
    cured_speeds(program, &mut tally);
    adding(program, &mut tally);
    writing(program, &mut tally);
    planning(program, &mut tally);
    printing(program, &mut tally);
    classes(program, &mut tally);
    tally.end(name)
}

/// Whether the second program has them right, and its own claims.
pub fn all_right() -> bool {
    let right = right_in("figures", &Second);
    let mut tally = Tally::default();
    below_zero(&mut tally);
    speeds_at_points(&mut tally);
    speeds_of_annex(&mut tally);
    weights_of_points(&mut tally);
    random_sheets(&mut tally);
    tally.end("the second program's claims") && right
}
