//! Adding readings, and the design level.

use crate::handles::{bytes_of, numbers_of, Handle, Handles};
use crate::report::Report;
use crate::second::gauge::{self, AddAnswer};
use crate::second::random::{self, Random};

/// The answers to a string of additions in one number, as the handle mixes them.
fn mixed(answers: u32, answer: AddAnswer) -> u32 {
    let number = match answer {
        AddAnswer::Added => 1,
        AddAnswer::Missing => 2,
        AddAnswer::Refused(number) => number,
    };
    (answers * 31 + number) % 65_521
}

fn add_both(handles: &mut Handles, report: &mut Report, readings: &[i32], table: &[u32]) {
    let mut by_second = table.to_vec();
    let answers = readings
        .iter()
        .map(|&reading| gauge::add(&mut by_second, reading))
        .fold(0, mixed);
    let input: Vec<u8> = readings.iter().flat_map(|r| r.to_le_bytes()).collect();
    let mut place = bytes_of(table);
    let number = handles.call(Handle::AddReadings, &input, &mut place);
    report.case((number, numbers_of(&place)), (answers, by_second), || {
        format!("readings {readings:?} into {}", shown(table))
    });
}

fn level_both(handles: &mut Handles, report: &mut Report, table: &[u32]) {
    let second = match gauge::design_level(table) {
        Ok(level) => (level + 500) as u32,
        Err(number) => 10_000 + number,
    };
    let proved = handles.call(Handle::DesignLevel, &bytes_of(table), &mut []);
    report.case(proved, second, || shown(table));
}

/// A table by its slots that are not 0.
pub fn shown(table: &[u32]) -> String {
    let counts = table.iter().enumerate().filter(|(_, &count)| count != 0);
    let slots: Vec<String> = counts
        .map(|(k, n)| format!("{}: {n}", k as i32 - 500))
        .collect();
    format!("{} slots, {}", table.len(), slots.join(", "))
}

/// A table with counts at some levels.
pub fn table_of(counts: &[(i32, u32)]) -> Vec<u32> {
    let mut table = gauge::empty();
    for &(level, count) in counts {
        table[(level + 500) as usize] = count;
    }
    table
}

pub fn adding() {
    let mut report = Report::new("adding readings", 100_000);
    let mut handles = Handles::start();
    let mut rng = Random::new(3);
    // every reading of 16 bits, one by one in strings, into an empty and into a nearly full table
    for full in [0, 999_999, 1_000_000, 1_000_001] {
        let table = vec![full; gauge::SLOTS];
        let all: Vec<i32> = (i32::from(i16::MIN)..=i32::from(i16::MAX)).collect();
        for readings in all.chunks(64) {
            add_both(&mut handles, &mut report, readings, &table);
        }
    }
    for length in [0, 1, 2_000, 2_002, 4_002] {
        for reading in [-9_999, -501, -500, 0, 1_500, 1_501] {
            add_both(&mut handles, &mut report, &[reading], &vec![7; length]);
        }
    }
    for _ in 0..100_000 {
        let readings: Vec<i32> = (0..1 + rng.below(4))
            .map(|_| random::reading(&mut rng))
            .collect();
        add_both(
            &mut handles,
            &mut report,
            &readings,
            &random::table(&mut rng),
        );
    }
    report.end();
}

pub fn levels() {
    let mut report = Report::new("design levels", 40_000);
    let mut handles = Handles::start();
    let mut rng = Random::new(4);
    for length in [0, 1, 2_000, 2_001, 2_002] {
        level_both(&mut handles, &mut report, &vec![0; length]);
        level_both(&mut handles, &mut report, &vec![20; length]);
    }
    for count in [
        26_279,
        26_280,
        26_281,
        999_999,
        1_000_000,
        1_000_001,
        u32::MAX,
    ] {
        for level in [-500, 0, 1_500] {
            level_both(&mut handles, &mut report, &table_of(&[(level, count)]));
        }
    }
    // the definition's own figures, and D at each limit with each share of low readings
    level_both(
        &mut handles,
        &mut report,
        &table_of(&[(0, 262), (60, 26_018)]),
    );
    level_both(
        &mut handles,
        &mut report,
        &table_of(&[(0, 263), (60, 26_017)]),
    );
    for d in [0, 1, 35, 36, 70, 71, 105, 106, 140, 141, 2_000] {
        for low in [
            1, 262, 263, 525, 526, 788, 789, 1_051, 1_052, 13_140, 13_141,
        ] {
            let table = table_of(&[(-500, low), (d - 500, 26_280 - low)]);
            level_both(&mut handles, &mut report, &table);
        }
    }
    for _ in 0..40_000 {
        level_both(&mut handles, &mut report, &random::table(&mut rng));
    }
    report.end();
}
