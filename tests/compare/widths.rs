//! Widths with their items, bends and classes.

use crate::handles::{bytes_of, numbers_of, Handle, Handles};
use crate::report::Report;
use crate::second::random::{self, Random};
use crate::second::sheet::Sheet;
use crate::second::{class, width};

/// The figures that a width is worked from, as the handle takes them.
fn figures(sheet: &Sheet, lanes: i64, s: i64) -> Vec<u8> {
    bytes_of(
        &[
            sheet.beam(),
            sheet.draft(),
            sheet.speed(),
            sheet.water(),
            sheet.handling(),
            sheet.wind(),
            sheet.cross(),
            sheet.along(),
            sheet.wave(),
            sheet.aids(),
            sheet.bed(),
            sheet.cargo(),
            sheet.left_bank(),
            sheet.right_bank(),
            sheet.ships(),
            lanes,
            s,
        ]
        .map(|figure| figure as u32),
    )
}

/// The items of the second program; passing and traffic count in two lanes only.
fn items_by_second(sheet: &Sheet, lanes: i64, s: i64) -> (u32, Vec<i64>) {
    match width::items(sheet, lanes, s) {
        Err(number) => (number, vec![0; 12]),
        Ok(items) => {
            let ground = [items.bed, items.depth, items.cargo, items.banks];
            let first = [
                items.lane,
                items.wind,
                items.cross,
                items.along,
                items.wave,
                items.aids,
            ];
            (
                0,
                [&first[..], &ground[..], &[items.passing, items.traffic]].concat(),
            )
        }
    }
}

/// The number with the items, and with the width and the two classes.
type Found = [(u32, Vec<i64>); 2];

fn by_proved(handles: &mut Handles, sheet: &Sheet, lanes: i64, s: i64) -> Found {
    let mut place = [0; 60];
    let number = handles.call(Handle::Width, &figures(sheet, lanes, s), &mut place);
    let mut items: Vec<i64> = numbers_of(&place).into_iter().map(i64::from).collect();
    let width = items.split_off(12);
    if lanes == 1 {
        items[10] = 0;
        items[11] = 0;
    }
    [(number, items), (number, width)]
}

fn width_by_second(sheet: &Sheet, lanes: i64, s: i64) -> (u32, Vec<i64>) {
    match width::width(sheet, lanes, s) {
        Err(number) => (number, vec![0; 3]),
        Ok(cm) => {
            let classes = [class::width_class(cm, lanes), class::depth_class(s)];
            (0, vec![cm, classes[0] as i64, classes[1] as i64])
        }
    }
}

fn width_both(handles: &mut Handles, report: &mut Report, sheet: &Sheet, lanes: i64, s: i64) {
    let shown = || format!("{:?}, {lanes} lanes, s {s}", sheet.figures);
    let [items, width] = by_proved(handles, sheet, lanes, s);
    report.case(items, items_by_second(sheet, lanes, s), shown);
    report.case(width, width_by_second(sheet, lanes, s), shown);
}

fn bend_both(handles: &mut Handles, report: &mut Report, sheet: &Sheet, lanes: i64) {
    let asked = [
        sheet.turn(),
        sheet.radius(),
        sheet.length(),
        sheet.speed(),
        lanes,
        sheet.deadweight(),
    ];
    let mut place = [0; 8];
    let input = bytes_of(&asked.map(|figure| figure as u32));
    let number = handles.call(Handle::Bend, &input, &mut place);
    let proved = (number, numbers_of(&place));
    let ship = class::ship_class(sheet.deadweight()) as u32;
    let second = if width::too_tight(sheet) {
        (7, vec![0, ship])
    } else {
        (0, vec![width::widening(sheet, lanes) as u32, ship])
    };
    report.case(proved, second, || format!("bend {asked:?}"));
}

/// A sailing depth at, beside and away from the limits that the draft sets.
fn some_s(rng: &mut Random, draft: i64) -> i64 {
    let limits = [
        3 * draft / 2,
        5 * draft / 4,
        23 * draft / 20,
        800,
        900,
        1_100,
        1_400,
    ];
    rng.pick(&limits) + rng.pick(&[-1, 0, 0, 1, 2, 40])
}

fn changed(sheet: &Sheet, field: usize, figure: i64) -> Sheet {
    let mut figures = sheet.figures;
    figures[field - 1] = figure;
    Sheet { figures }
}

/// The limits of each band, of each water and speed.
fn at_each_limit(handles: &mut Handles, report: &mut Report, rng: &mut Random) {
    let bands: [(usize, &[i64]); 4] = [
        (16, &[0, 14, 15, 16, 32, 33, 34, 99]),
        (17, &[0, 1, 2, 3, 4, 5, 6, 14, 15, 16, 60]),
        (18, &[0, 14, 15, 16, 29, 30, 31, 60]),
        (19, &[0, 99, 100, 101, 299, 300, 301, 1_500]),
    ];
    for water in 0..=1 {
        for speed in [2, 7, 8, 12] {
            for (field, limits) in bands {
                for &figure in limits {
                    let sheet = Sheet {
                        figures: random::valid_sheet(rng),
                    };
                    let sheet = changed(&changed(&sheet, 14, water), 5, speed);
                    let sheet = changed(&sheet, field, figure);
                    let s = some_s(rng, sheet.draft());
                    width_both(handles, report, &sheet, 1, s);
                    width_both(handles, report, &sheet, 2, s);
                }
            }
        }
    }
}

/// The items and the width of every number that a band's type holds, past the sheet's ranges too.
fn every_number(handles: &mut Handles, report: &mut Report, rng: &mut Random) {
    for water in 0..=1 {
        for speed in [7, 8] {
            for (field, last) in [(16, 255), (17, 255), (18, 255), (19, 65_535)] {
                let sheet = Sheet {
                    figures: random::valid_sheet(rng),
                };
                let sheet = changed(&changed(&sheet, 14, water), 5, speed);
                // a cross current and a wave with entries, so that only the number tried can be refused
                let sheet = changed(&changed(&sheet, 17, 15), 19, 100);
                let s = some_s(rng, sheet.draft());
                for figure in 0..=last {
                    let sheet = changed(&sheet, field, figure);
                    width_both(handles, report, &sheet, 2, s);
                }
            }
        }
    }
}

pub fn widths() {
    let mut report = Report::new("widths", 1_100_000);
    let mut handles = Handles::start();
    let mut rng = Random::new(6);
    for _ in 0..20 {
        at_each_limit(&mut handles, &mut report, &mut rng);
    }
    every_number(&mut handles, &mut report, &mut rng);
    for _ in 0..200_000 {
        let sheet = Sheet {
            figures: random::valid_sheet(&mut rng),
        };
        let lanes = width::lanes(&sheet);
        let s = some_s(&mut rng, sheet.draft());
        width_both(&mut handles, &mut report, &sheet, lanes, s);
        bend_both(&mut handles, &mut report, &sheet, lanes);
    }
    for turn in 0..=180 {
        for lengths in [3, 5, 8, 10] {
            for beside in -1..=1 {
                let sheet = Sheet {
                    figures: random::valid_sheet(&mut rng),
                };
                let radius = (lengths * sheet.length() / 100 + beside).max(1);
                let radius = if turn == 0 { 0 } else { radius };
                let sheet = changed(&changed(&sheet, 25, turn), 26, radius);
                bend_both(&mut handles, &mut report, &sheet, 1);
                bend_both(&mut handles, &mut report, &sheet, 2);
            }
        }
    }
    report.end();
}
