//! Demand 3, of pairs of sheets that differ in one figure: the one with the greater figure is no easier to design, at given
//! levels and over tables. A longer ship can cure 18, so two lengths are compared only where the shorter passes it. A deeper or
//! wider cut can cure 16 and 17, so a sheet that one of them refuses may be answered with the greater figure. With draft and
//! wave allowance the cut grows by as many centimetres or more, and two lanes that are named never make it shallower.

use crate::gauges::shown;
use crate::handles::{Handle, Handles, NUMBERS};
use crate::parts::in_parts;
use crate::report::{hex, Report};
use crate::second::random::{self, Random};
use crate::second::sheet::{self, Sheet, BYTES, FIELDS, TABLE};
use crate::second::{design, gauge, width};

const PARTS: u64 = 16;
const SHEETS: usize = 2_500;

/// The tables of a part that have a level, those that have none, and the sheets over each.
const TABLES: usize = 40;
const BAD_TABLES: usize = 4;
const SHEETS_OVER: usize = 30;

/// The call's place: what it returned, then what it is lent.
const RETURNED: usize = 4;
const LENT: usize = 4 * NUMBERS;
const PART: usize = RETURNED + 96;

/// Where the thirteen numbers have the cut and the width.
const CUT: usize = 5;
const WIDTH: usize = 7;

/// The fields that have draft, length, wave allowance and lanes.
const DRAFT: usize = 2;
const LENGTH: usize = 3;
const ALLOWANCE: usize = 8;
const LANES: usize = 11;

/// Each figure that makes a sheet harder, by its field's number, and what it never lessens.
const HARDENINGS: [(usize, usize); 12] = [
    (DRAFT, CUT),
    (LENGTH, CUT),
    (5, CUT),
    (ALLOWANCE, CUT),
    (9, CUT),
    (7, CUT),
    (4, WIDTH),
    (16, WIDTH),
    (17, WIDTH),
    (18, WIDTH),
    (19, WIDTH),
    (LANES, CUT),
];

/// Two sheets, the figure of the design that is compared, and by how much it grows at least.
struct Pair {
    easy: [u8; BYTES],
    hard: [u8; BYTES],
    kept: usize,
    least: i64,
}

/// What a pair showed: both answered, with a cut that grew by just as much as draft or allowance or by more, or of the
/// other figures with one that rose or stayed; refused for the harder alone; both refused; or answered for the harder
/// alone where the easier has 16 or 17.
#[derive(Debug, Default)]
struct Seen {
    rose: u64,
    as_much: u64,
    more: u64,
    stayed: u64,
    lost: u64,
    refused: u64,
    cured_16: u64,
    cured_17: u64,
}

type Numbers = [i64; NUMBERS];

fn numbers(part: &[u8]) -> Numbers {
    let number = |k: usize| {
        let word = &part[RETURNED + 4 * k..RETURNED + 4 * k + 4];
        i64::from(i32::from_be_bytes(word.try_into().expect("four bytes")))
    };
    std::array::from_fn(number)
}

fn of(figures: &[i64; FIELDS]) -> Sheet {
    sheet::read(&sheet::pack(figures)).expect("a sheet")
}

fn lanes(figures: &[i64; FIELDS]) -> i64 {
    width::lanes(&of(figures))
}

/// A greater figure of a field: the next, or any; of the lanes the greatest, which names two.
fn greater(rng: &mut Random, figure: i64, number: usize) -> i64 {
    let greatest = TABLE[number - 1].greatest;
    let anywhere = rng.between(figure + 1, greatest);
    match number {
        LANES => greatest,
        _ => rng.pick(&[figure + 1, anywhere]),
    }
}

/// The pair of a field, where its figure can be greater, the lanes stay unless they are named, and of two lengths the
/// shorter passes 18.
fn raised(rng: &mut Random, figures: &[i64; FIELDS], number: usize, kept: usize) -> Option<Pair> {
    let figure = figures[number - 1];
    let short = number == LENGTH && design::under_three_beams(&of(figures));
    if figure == TABLE[number - 1].greatest || short {
        return None;
    }
    let mut harder = *figures;
    harder[number - 1] = greater(rng, figure, number);
    if number != LANES && lanes(figures) != lanes(&harder) {
        return None;
    }
    let least = match number {
        DRAFT | ALLOWANCE => harder[number - 1] - figure,
        _ => 0,
    };
    Some(Pair {
        easy: sheet::pack(figures),
        hard: sheet::pack(&harder),
        kept,
        least,
    })
}

/// The pairs of a sheet, one for each figure that can be greater.
fn pairs_of(rng: &mut Random, figures: &[i64; FIELDS]) -> Vec<Pair> {
    let pair = |&(number, kept): &(usize, usize)| raised(rng, figures, number, kept);
    HARDENINGS.iter().filter_map(pair).collect()
}

/// The easy sheet and the hard one of each pair in turn.
fn sheets_of(pairs: &[Pair]) -> Vec<[u8; BYTES]> {
    pairs
        .iter()
        .flat_map(|pair| [pair.easy, pair.hard])
        .collect()
}

/// By the call from C, which has no table.
fn planned(handles: &mut Handles, pairs: &[Pair]) -> Vec<Numbers> {
    let (mut input, mut place) = (Vec::new(), Vec::new());
    for bytes in sheets_of(pairs) {
        input.extend([BYTES as u8, LENT as u8]);
        input.extend(bytes);
        place.extend([0; PART]);
    }
    let done = handles.call(Handle::Plans, &input, &mut place);
    assert_eq!(done as usize, 2 * pairs.len(), "every design is done");
    place.chunks_exact(PART).map(numbers).collect()
}

/// Over one table.
fn designed(handles: &mut Handles, table: &[u32], pairs: &[Pair]) -> Vec<Numbers> {
    let designs = handles.designs(table, &sheets_of(pairs));
    designs.into_iter().map(|(_, numbers)| numbers).collect()
}

impl Seen {
    /// Whether two answers are as far apart as they must be.
    fn grown(&mut self, least: i64, growth: i64) -> bool {
        match growth - least {
            0 if least > 0 => self.as_much += 1,
            1.. if least > 0 => self.more += 1,
            0 => self.stayed += 1,
            1.. => self.rose += 1,
            _ => return false,
        }
        true
    }

    /// Whether the harder sheet is no easier to design.
    fn judge(&mut self, pair: &Pair, easy: &Numbers, hard: &Numbers) -> bool {
        match (easy[0], hard[0]) {
            (0, 0) => return self.grown(pair.least, hard[pair.kept] - easy[pair.kept]),
            (16, 0) => self.cured_16 += 1,
            (17, 0) => self.cured_17 += 1,
            (_, 0) => return false,
            (0, _) => self.lost += 1,
            _ => self.refused += 1,
        }
        true
    }

    /// Each kind of pair more than a hundred times, and each cure, which is rarer, more than three times.
    fn enough(&self) -> bool {
        let kinds = [
            self.rose,
            self.as_much,
            self.more,
            self.stayed,
            self.lost,
            self.refused,
        ];
        let cures = [self.cured_16, self.cured_17];
        kinds.iter().all(|&pairs| pairs > 100) && cures.iter().all(|&pairs| pairs > 3)
    }
}

fn judge_all(
    report: &mut Report,
    seen: &mut Seen,
    pairs: &[Pair],
    designs: &[Numbers],
    level: impl Fn() -> String,
) {
    assert_eq!(designs.len(), 2 * pairs.len(), "two designs a pair");
    for (pair, designs) in pairs.iter().zip(designs.chunks_exact(2)) {
        let no_easier = seen.judge(pair, &designs[0], &designs[1]);
        report.case(no_easier, true, || {
            let (easy, hard) = (hex(&pair.easy), hex(&pair.hard));
            format!("sheets {easy} and {hard}, {}: {designs:?}", level())
        });
    }
}

/// As often one whose speed is checked as one of any kind.
fn some_sheet(rng: &mut Random) -> [i64; FIELDS] {
    match rng.below(2) {
        0 => random::checked_sheet(rng),
        _ => random::valid_sheet(rng),
    }
}

/// Sheets whose level is given, and some whose level is off a record that is not there.
fn given_levels(handles: &mut Handles, report: &mut Report, rng: &mut Random) {
    let mut seen = Seen::default();
    for _ in 0..SHEETS {
        let figures = some_sheet(rng);
        let pairs = pairs_of(rng, &figures);
        let designs = planned(handles, &pairs);
        judge_all(report, &mut seen, &pairs, &designs, || "no table".into());
    }
    assert!(seen.enough(), "each kind of pair is seen: {seen:?}");
}

/// A table that has a level, or one that has none.
fn table_with(rng: &mut Random, a_level: bool) -> (Vec<u32>, Result<i32, u32>) {
    loop {
        let table = random::table(rng);
        let record = gauge::design_level(&table);
        if record.is_ok() == a_level {
            return (table, record);
        }
    }
}

/// Sheets whose level is off the record.
fn levels_off_tables(handles: &mut Handles, report: &mut Report, rng: &mut Random) {
    let mut seen = Seen::default();
    for number in 0..TABLES + BAD_TABLES {
        let (table, record) = table_with(rng, number < TABLES);
        let mut pairs = Vec::new();
        for _ in 0..SHEETS_OVER {
            let figures = random::off_record(&some_sheet(rng), record);
            pairs.extend(pairs_of(rng, &figures));
        }
        let designs = designed(handles, &table, &pairs);
        let answered = designs.iter().any(|numbers| numbers[0] == 0);
        assert_eq!(answered, record.is_ok(), "answered over a level alone");
        judge_all(report, &mut seen, &pairs, &designs, || shown(&table));
    }
    assert!(seen.enough(), "each kind of pair is seen: {seen:?}");
}

fn part(seed: u64) -> u64 {
    let mut handles = Handles::start();
    let mut rng = Random::new(900 + seed);
    let mut report = Report::new("harder", 0);
    given_levels(&mut handles, &mut report, &mut rng);
    levels_off_tables(&mut handles, &mut report, &mut rng);
    report.cases()
}

pub fn harder() {
    let mut report = Report::new("harder", 640_000);
    report.add(in_parts("harder", PARTS, part));
    report.end();
}
