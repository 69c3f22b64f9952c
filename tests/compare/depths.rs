//! The depth and its worksheet, and the plain engine: the second program tries each cut from 1 to 3,000.

use crate::handles::{bytes_of, numbers_of, Handle, Handles};
use crate::report::Report;
use crate::second::depth::{self, Column, Inputs, Numbers};
use crate::second::random::{self, Random};
use crate::second::sheet::Sheet;
use crate::second::width;

/// The mark of no entry in the worksheet's data.
const NONE: i64 = 9_999;

/// The mark of a column in which every cut silts up whole, in the 32 bits that a handle gives.
const ENDLESS: i64 = 999_999_999_999 % (1 << 32);

/// The lines of a worksheet.
const LINES: usize = 3;

/// What the worksheet's depth must be where the tries of each cut come to `plain`: number, cut, sailing depth, columns tried.
fn by_second(inputs: &Inputs, plain: Numbers) -> [u32; 4] {
    let [number, s, cut] = plain.map(|number| number as u32);
    match number {
        0 => {
            let columns = depth::worksheet(inputs).columns_tried();
            [0, cut, s, columns as u32]
        }
        _ => [number, 0, 0, 0],
    }
}

fn figures(inputs: &Inputs) -> Vec<u8> {
    bytes_of(
        &[
            inputs.draft,
            inputs.length,
            inputs.soil,
            inputs.z2,
            inputs.silting,
            inputs.interval,
            depth::natural_depth(inputs),
            inputs.speed,
            inputs.lanes,
        ]
        .map(|figure| figure as u32),
    )
}

fn by_proved(handles: &mut Handles, inputs: &Inputs) -> [u32; 4] {
    let mut place = [0; 12];
    let number = handles.call(Handle::Depth, &figures(inputs), &mut place);
    let found = numbers_of(&place);
    [number, found[0], found[1], found[2]]
}

fn plain_by_proved(handles: &mut Handles, inputs: &Inputs) -> Numbers {
    let mut place = [0xee; 8];
    let number = handles.call(Handle::Plain, &figures(inputs), &mut place);
    let found = numbers_of(&place);
    [number, found[0], found[1]].map(i64::from)
}

fn column_number(column: Column) -> i64 {
    match column {
        Column::A => 0,
        Column::B => 1,
        Column::C => 2,
    }
}

/// A line of the worksheet's data: column, z3, s, z4, figure and the column that the figure falls in.
type Line = [i64; 6];

/// A column without an entry: what stands behind the mark means nothing.
fn no_entry(column: i64) -> Line {
    [column, NONE, 0, 0, 0, 0]
}

/// A column without a figure, likewise.
fn no_figure(column: i64, z3: i64, s: i64) -> Line {
    [column, z3, s, ENDLESS, 0, 0]
}

/// The second program has no try for a column without an entry: it is the one that the try before fell in.
fn tries_by_second(inputs: &Inputs) -> (usize, Vec<Line>) {
    let shown = |tried: &depth::Try| {
        let (column, z3, s) = (column_number(tried.column), tried.z3, tried.s);
        tried.figure.map_or(no_figure(column, z3, s), |figure| {
            [
                column,
                z3,
                s,
                figure.z4,
                figure.cut,
                column_number(figure.falls_in),
            ]
        })
    };
    let worksheet = depth::worksheet(inputs);
    let mut lines: Vec<Line> = worksheet.tries.iter().map(shown).collect();
    if worksheet.cut == Err(13) {
        let column = lines.last().map_or(0, |last| last[5]);
        lines.push(no_entry(column));
    }
    let count = lines.len();
    lines.resize(LINES, [0; 6]);
    (count, lines)
}

/// The count of tries, and all lines of the worksheet's data: those that were not needed are blank.
fn tries_by_proved(handles: &mut Handles, inputs: &Inputs) -> (usize, Vec<Line>) {
    let mut place = [0xee; 24 * LINES];
    let count = handles.call(Handle::Worksheet, &figures(inputs), &mut place) as usize;
    let found: Vec<i64> = numbers_of(&place).into_iter().map(i64::from).collect();
    let line = |six: &[i64]| match six[..] {
        [column, NONE, ..] => no_entry(column),
        [column, z3, s, ENDLESS, ..] => no_figure(column, z3, s),
        _ => std::array::from_fn(|k| six[k]),
    };
    (count, found.chunks_exact(6).map(line).collect())
}

/// The refusals of a depth, and none.
const KINDS: [usize; 4] = [0, 13, 14, 15];

/// What came up: how often each column was tried that has no entry, and one that has no figure; of the plain engine how often
/// each refusal and none; and how often a cut or its silt was at its limit.
#[derive(Default)]
struct Seen {
    no_entry: [u64; 3],
    no_figure: u64,
    plain: [u64; 16],
    deepest: u64,
    most_silt: u64,
}

impl Seen {
    fn tries(&mut self, lines: &[Line]) {
        for line in lines.iter().filter(|line| line[1] == NONE) {
            self.no_entry[line[0] as usize] += 1;
        }
        self.no_figure += lines.iter().filter(|line| line[3] == ENDLESS).count() as u64;
    }

    fn plain(&mut self, inputs: &Inputs, [number, s, cut]: Numbers) {
        self.plain[number as usize] += 1;
        self.deepest += u64::from(cut == 3_000);
        self.most_silt += u64::from(number == 0 && depth::z4(inputs, s, cut) == 120);
    }

    /// Stretches of sheets have come up with each kind of answer.
    fn of_sheets(&self) {
        let [in_a, in_b, in_c] = self.no_entry;
        assert!(
            in_a == 0 && in_b > 1_000 && in_c > 1_000,
            "columns without an entry are tried: {in_a} {in_b} {in_c}"
        );
        assert!(
            self.no_figure > 1_000,
            "columns without a figure are tried: {}",
            self.no_figure
        );
        assert!(
            KINDS.iter().all(|&number| self.plain[number] > 1_000),
            "the plain engine's refusals, and none: {:?}",
            self.plain
        );
    }

    /// And others with a column A that has no entry, and with cuts and silt at their limits.
    fn of_all(&self) {
        assert!(
            self.no_entry[0] > 1_000 && self.deepest > 100 && self.most_silt > 100,
            "no entry in A, cuts of 3,000, silt of 120: {} {} {}",
            self.no_entry[0],
            self.deepest,
            self.most_silt
        );
    }
}

/// The serving program, the count, and what came up.
struct Depths {
    handles: Handles,
    report: Report,
    seen: Seen,
}

impl Depths {
    /// The worksheet.
    fn worksheet(&mut self, inputs: &Inputs, plain: Numbers) {
        let proved = by_proved(&mut self.handles, inputs);
        let second = by_second(inputs, plain);
        self.report.case(proved, second, || format!("{inputs:?}"));
        let (count, lines) = tries_by_second(inputs);
        self.seen.tries(&lines);
        let proved = tries_by_proved(&mut self.handles, inputs);
        self.report.case(proved, (count, lines), || {
            format!("worksheet of {inputs:?}")
        });
    }

    /// The plain engine.
    fn plain(&mut self, inputs: &Inputs, plain: Numbers) {
        let proved = plain_by_proved(&mut self.handles, inputs);
        self.report
            .case(proved, plain, || format!("the plain engine, {inputs:?}"));
        self.seen.plain(inputs, plain);
    }

    fn both(&mut self, inputs: &Inputs) {
        let plain = depth::by_tries(inputs);
        self.worksheet(inputs, plain);
        self.plain(inputs, plain);
    }
}

fn some_inputs(rng: &mut Random) -> Inputs {
    let sheet = Sheet {
        figures: random::valid_sheet(rng),
    };
    let level = sheet
        .given_level()
        .unwrap_or_else(|| rng.between(-500, 1_500));
    Inputs::of(&sheet, level, width::lanes(&sheet))
}

/// Natural depths about half the cut and a fifth of it, and about the sailing depth.
fn near_columns(inputs: &Inputs, rng: &mut Random) -> Inputs {
    let s = depth::sailing_depth(inputs, Column::A).unwrap_or(1_000);
    let natural = rng.pick(&[s / 2, s / 5, s, s - 30]) + rng.between(-3, 12);
    Inputs {
        natural_bed: natural.max(0),
        level: 0,
        ..*inputs
    }
}

/// Sailing depths and silt about their limits, so that the cut is about 3,000 or a little less.
fn near_limits(inputs: &Inputs, rng: &mut Random) -> Inputs {
    let bare = Inputs {
        z2: 0,
        interval: 0,
        ..*inputs
    };
    let column = rng.pick(&[Column::A, Column::B, Column::C]);
    let least = depth::sailing_depth(&bare, column).unwrap_or(1_000);
    let s = rng.pick(&[least, 2_880, 3_000]) + rng.between(-2, 2);
    // the quarter of a year makes 4,000 parts of what is dug
    let dug = (s + 120 - depth::natural_depth(inputs)).max(1);
    let silting = rng.pick(&[0, 120 * 4_000 / dug]) + rng.between(0, 2);
    Inputs {
        z2: (s - least).max(0),
        silting: silting.min(4_000),
        ..bare
    }
}

/// Some figures outside the ranges of a sheet, which the rooms take too. The silting has few figures, as the second program's
/// search for the figure of a column goes far where nearly all that is dug silts up.
fn outside(inputs: &Inputs, rng: &mut Random) -> Inputs {
    let silting = rng.pick(&[0, 10, 100, 901, 65_535]);
    let natural = depth::natural_depth(inputs);
    let mut some = |within: i64, others: &[i64]| match rng.below(4) {
        0 => rng.pick(others),
        _ => within,
    };
    Inputs {
        draft: some(inputs.draft, &[0, 1, 699, 2_501, 65_535]),
        length: some(inputs.length, &[0, 1, 1_999, 40_001, 65_535]),
        speed: some(inputs.speed, &[0, 1, 13, 255]),
        natural_bed: some(natural, &[0, 4_501, 65_535]),
        level: 0,
        soil: some(inputs.soil, &[4, 20, 255]),
        z2: some(inputs.z2, &[301, 2_000, 65_535]),
        silting,
        ..*inputs
    }
}

/// Every speed, lanes, soil and interval of a sheet.
fn named(mut each: impl FnMut(i64, i64, i64, i64)) {
    for speed in 2..=12 {
        for lanes in 1..=2 {
            for soil in 0..=3 {
                for interval in 0..=5 {
                    each(speed, lanes, soil, interval);
                }
            }
        }
    }
}

pub fn depths() {
    let mut depths = Depths {
        handles: Handles::start(),
        report: Report::new("depths", 730_000),
        seen: Seen::default(),
    };
    let mut rng = Random::new(5);
    named(|speed, lanes, soil, interval| {
        for _ in 0..20 {
            let inputs = Inputs {
                speed,
                lanes,
                soil,
                interval,
                ..some_inputs(&mut rng)
            };
            depths.both(&inputs);
            depths.both(&near_columns(&inputs, &mut rng));
        }
    });
    // the plain engine is slow, so that it is asked for only some of these
    for _ in 0..30_000 {
        depths.both(&some_inputs(&mut rng));
    }
    for _ in 0..260_000 {
        let inputs = some_inputs(&mut rng);
        depths.worksheet(&inputs, depth::by_tries(&inputs));
    }
    depths.seen.of_sheets();
    for _ in 0..10_000 {
        let inputs = some_inputs(&mut rng);
        depths.both(&near_limits(&inputs, &mut rng));
        depths.both(&outside(&inputs, &mut rng));
    }
    depths.seen.of_all();
    depths.report.end();
}
