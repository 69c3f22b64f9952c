//! Reading sheets, making them of figures, and writing them.

use crate::handles::{bytes_of, numbers_of, Handle, Handles};
use crate::report::{hex, Report};
use crate::second::random::{self, Random};
use crate::second::sheet::{self, Refusal, Sheet, BYTES, FIELDS, TABLE};

/// Number plus a hundred times the field, as the handles tell it.
fn told(refusal: Refusal) -> u32 {
    refusal.number + 100 * refusal.field
}

fn read_by_second(bytes: &[u8]) -> (u32, Vec<i64>) {
    match sheet::read(bytes) {
        Ok(sheet) => (0, sheet.figures.to_vec()),
        Err(refusal) => (told(refusal), vec![-1; FIELDS]),
    }
}

/// The place is filled beforehand, so that a refused reading shows if it stored anything.
fn read_by_proved(handles: &mut Handles, bytes: &[u8]) -> (u32, Vec<i64>) {
    let mut place = [0xff; 4 * FIELDS];
    let number = handles.call(Handle::ReadSheet, bytes, &mut place);
    let figures = numbers_of(&place).into_iter();
    (
        number,
        figures.map(|figure| i64::from(figure as i32)).collect(),
    )
}

fn read_both(handles: &mut Handles, report: &mut Report, bytes: &[u8]) {
    let proved = read_by_proved(handles, bytes);
    report.case(proved, read_by_second(bytes), || hex(bytes));
}

/// Each bit flipped, each field at and past both its ends, each length from 0 to 64.
fn around(handles: &mut Handles, report: &mut Report, figures: [i64; FIELDS]) {
    let bytes = sheet::pack(&figures);
    read_both(handles, report, &bytes);
    for bit in 0..8 * BYTES {
        let mut flipped = bytes;
        flipped[bit / 8] ^= 1 << (bit % 8);
        read_both(handles, report, &flipped);
    }
    for (field, row) in TABLE.iter().enumerate() {
        for figure in [row.least, row.least - 1, row.greatest, row.greatest + 1] {
            if (0..1 << row.bits).contains(&figure) {
                let mut changed = figures;
                changed[field] = figure;
                read_both(handles, report, &sheet::pack(&changed));
            }
        }
    }
    for length in 0..=64 {
        let longer: Vec<u8> = bytes.iter().copied().cycle().take(length).collect();
        read_both(handles, report, &longer);
    }
}

pub fn reading() {
    let mut report = Report::new("reading sheets", 400_000);
    let mut handles = Handles::start();
    let mut rng = Random::new(1);
    for _ in 0..300 {
        around(&mut handles, &mut report, random::valid_sheet(&mut rng));
    }
    for _ in 0..150_000 {
        read_both(
            &mut handles,
            &mut report,
            &sheet::pack(&random::valid_sheet(&mut rng)),
        );
        read_both(&mut handles, &mut report, &random::damaged(&mut rng));
    }
    for _ in 0..50_000 {
        let bytes: Vec<u8> = (0..BYTES).map(|_| rng.draw() as u8).collect();
        read_both(&mut handles, &mut report, &bytes);
    }
    report.end();
}

/// The second program refuses to write what is no sheet's figures.
fn made_by_second(figures: [i64; FIELDS]) -> (u32, Vec<i64>) {
    match sheet::write(&Sheet { figures }, &mut [0; BYTES]) {
        Ok(()) => (0, figures.to_vec()),
        Err(refusal) => (told(refusal), vec![-1; FIELDS]),
    }
}

fn make_both(handles: &mut Handles, report: &mut Report, figures: [i64; FIELDS]) {
    let handed: Vec<u32> = figures.iter().map(|&figure| figure as u32).collect();
    let mut place = [0xff; 4 * FIELDS];
    let number = handles.call(Handle::MakeSheet, &bytes_of(&handed), &mut place);
    let made = numbers_of(&place).into_iter();
    let proved = (
        number,
        made.map(|figure| i64::from(figure as i32)).collect(),
    );
    report.case(proved, made_by_second(figures), || format!("{figures:?}"));
}

/// Figures of any size: at and past both ends of their field, of its bits, and of the types that may hold it.
pub fn making() {
    let mut report = Report::new("making sheets of figures", 200_000);
    let mut handles = Handles::start();
    let mut rng = Random::new(13);
    for _ in 0..100 {
        let figures = random::valid_sheet(&mut rng);
        make_both(&mut handles, &mut report, figures);
        for (field, row) in TABLE.iter().enumerate() {
            let tried = [
                row.least - 1,
                row.least,
                row.greatest,
                row.greatest + 1,
                (1 << row.bits) - 1,
                1 << row.bits,
                figures[field] + (1 << row.bits),
                figures[field] + (1 << 8),
                figures[field] + (1 << 16),
                (1 << 32) - 1,
            ];
            for figure in tried {
                if figure >= 0 {
                    let mut changed = figures;
                    changed[field] = figure;
                    make_both(&mut handles, &mut report, changed);
                }
            }
        }
    }
    for _ in 0..180_000 {
        let mut figures = random::valid_sheet(&mut rng);
        for _ in 0..rng.below(3) {
            let field = rng.below(FIELDS);
            let greatest = rng.pick(&[TABLE[field].greatest + 2, (1 << 32) - 1]);
            figures[field] = rng.between(0, greatest);
        }
        make_both(&mut handles, &mut report, figures);
    }
    report.end();
}

/// The fields that the handle sets in a good sheet, and the greatest figure of each one's type.
const SET: [(usize, i64); 5] = [
    (1, (1 << 32) - 1),
    (2, 65_535),
    (5, 255),
    (6, 30_000),
    (25, 255),
];

/// Writes a good sheet, with one field set to another figure where one is given.
fn write_both(
    handles: &mut Handles,
    report: &mut Report,
    good: [i64; FIELDS],
    set: Option<(usize, i64)>,
    space: usize,
) {
    let mut figures = good;
    let mut handed: Vec<u32> = good.iter().map(|&figure| figure as u32).collect();
    if let Some((field, figure)) = set {
        figures[field - 1] = figure;
        // A bed may lie above chart datum: it is handed over plus 10,000.
        let shift = if field == 6 { 10_000 } else { 0 };
        handed.extend([field as u32, (figure + shift) as u32]);
    }
    let before: Vec<u8> = (0..space).map(|k| (k * 37 + 11) as u8).collect();
    let mut proved_place = before.clone();
    let proved = handles.call(Handle::WriteSheet, &bytes_of(&handed), &mut proved_place);
    let mut second_place = before;
    let second = sheet::write(&Sheet { figures }, &mut second_place).map_or_else(told, |()| 0);
    report.case((proved, proved_place), (second, second_place), || {
        format!("{figures:?} into {space} bytes")
    });
}

pub fn writing() {
    let mut report = Report::new("writing sheets", 200_000);
    let mut handles = Handles::start();
    let mut rng = Random::new(2);
    for _ in 0..100 {
        let figures = random::valid_sheet(&mut rng);
        for space in 0..=64 {
            write_both(&mut handles, &mut report, figures, None, space);
        }
        for (field, held) in SET {
            let row = &TABLE[field - 1];
            for figure in [row.least, row.greatest, row.greatest + 1, held] {
                let set = Some((field, figure));
                write_both(&mut handles, &mut report, figures, set, 30);
            }
            if row.least > 0 || field == 6 {
                let set = Some((field, row.least - 1));
                write_both(&mut handles, &mut report, figures, set, 28);
            }
        }
    }
    for _ in 0..200_000 {
        let figures = random::valid_sheet(&mut rng);
        let (field, held) = rng.pick(&SET);
        let least = if field == 6 { -10_000 } else { 0 };
        let set = (rng.below(3) == 0).then(|| (field, rng.between(least, held)));
        let space = rng.pick(&[27, 28, 29, 40]);
        write_both(&mut handles, &mut report, figures, set, space);
    }
    report.end();
}
