//! A design over a count table: its code and its thirteen numbers.

use crate::gauges::{shown, table_of};
use crate::handles::Handles;
use crate::parts::in_parts;
use crate::report::{hex, Report};
use crate::second::random::{self, Random};
use crate::second::sheet::{self, BYTES};
use crate::second::{design, gauge};

const PARTS: u64 = 16;
const TABLES: usize = 60;
const SHEETS: usize = 250;

/// The codes that are each to be seen, of the sheets whose level is off the record.
const CODES: [usize; 15] = [0, 1, 2, 3, 4, 5, 6, 7, 8, 13, 14, 15, 16, 17, 18];

/// The serving program, the count, and how often each code was seen off the record and at a given level.
struct Designs {
    handles: Handles,
    report: Report,
    off_record: [u64; 32],
    given: [u64; 32],
}

impl Designs {
    fn start() -> Designs {
        Designs {
            handles: Handles::start(),
            report: Report::new("designs", 0),
            off_record: [0; 32],
            given: [0; 32],
        }
    }

    /// The sheets over a table whose level, or 4, 5, 6, is the second program's.
    fn over(&mut self, table: &[u32], record: Result<i32, u32>, sheets: &[Vec<u8>]) {
        let proved = self.handles.designs(table, sheets);
        for (sheet, proved) in sheets.iter().zip(proved) {
            let answer = design::design_at(sheet, record);
            let second = (answer.code as u32, answer.numbers());
            self.report.case(proved, second, || {
                format!("sheet {} over {}", hex(sheet), shown(table))
            });
            let given = sheet::read(sheet).is_ok_and(|sheet| sheet.given_level().is_some());
            let seen = match given {
                true => &mut self.given,
                false => &mut self.off_record,
            };
            seen[answer.code as usize] += 1;
        }
    }
}

/// Mostly a level off the record, else one that is given, or a damaged sheet.
fn some_sheet(rng: &mut Random, record: Result<i32, u32>) -> Vec<u8> {
    let figures = random::valid_sheet(rng);
    match rng.below(8) {
        0 => random::damaged(rng),
        1 | 2 => sheet::pack(&figures).to_vec(),
        _ => sheet::pack(&random::off_record(&figures, record)).to_vec(),
    }
}

/// Each bit flipped, and each length from 0 to 64.
fn around(rng: &mut Random, record: Result<i32, u32>) -> Vec<Vec<u8>> {
    let bytes = sheet::pack(&random::off_record(&random::valid_sheet(rng), record));
    let flipped = (0..8 * BYTES).map(|bit| {
        let mut flipped = bytes.to_vec();
        flipped[bit / 8] ^= 1 << (bit % 8);
        flipped
    });
    let cycled = |length| bytes.iter().copied().cycle().take(length).collect();
    flipped.chain((0..=64).map(cycled)).collect()
}

/// Tables at the limits: of their length, of a slot, of the readings, and of D with each share of low readings.
fn edge_tables() -> Vec<Vec<u32>> {
    let lengths = [0, 1, 2_000, 2_001, 2_002, 4_002];
    let mut tables: Vec<Vec<u32>> = lengths.iter().map(|&slots| vec![20; slots]).collect();
    for count in [26_279, 26_280, 1_000_000, 1_000_001, u32::MAX] {
        for level in [-500, 0, 1_500] {
            tables.push(table_of(&[(level, count)]));
            tables.push(table_of(&[(7, 26_280), (level, count)]));
        }
    }
    for d in [0, 35, 36, 70, 71, 105, 106, 140, 141, 2_000] {
        for low in [1, 262, 263, 525, 526, 788, 789, 13_140, 13_141] {
            tables.push(table_of(&[(-500, low), (d - 500, 26_280 - low)]));
        }
    }
    tables
}

fn part(seed: u64) -> u64 {
    let mut designs = Designs::start();
    let mut rng = Random::new(1_000 + seed);
    let edges = edge_tables();
    let of_part = edges.iter().skip(seed as usize - 1).step_by(PARTS as usize);
    let mut tables: Vec<Vec<u32>> = of_part.cloned().collect();
    tables.extend((0..TABLES).map(|_| random::table(&mut rng)));
    for table in &tables {
        let record = gauge::design_level(table);
        let sheets: Vec<_> = (0..SHEETS).map(|_| some_sheet(&mut rng, record)).collect();
        designs.over(table, record, &sheets);
        designs.over(table, record, &around(&mut rng, record));
    }
    let (off_record, given) = (designs.off_record, designs.given);
    assert!(
        CODES.iter().all(|&code| off_record[code] > 10),
        "each code is seen off the record: {off_record:?}"
    );
    assert!(
        given[0] > 100 && given[4..=6] == [0; 3],
        "a given level does not ask the table: {given:?}"
    );
    designs.report.cases()
}

pub fn designs() {
    let mut report = Report::new("designs", 500_000);
    report.add(in_parts("designs", PARTS, part));
    report.end();
}
