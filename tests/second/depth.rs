//! Depth, below the design level; all figures in cm.

use super::rounded_up;
use super::sheet::Sheet;

/// What the depth is worked from.
#[derive(Clone, Copy, Debug)]
pub struct Inputs {
    pub draft: i64,
    pub length: i64,
    pub speed: i64,
    pub natural_bed: i64,
    pub level: i64,
    pub soil: i64,
    pub z2: i64,
    pub silting: i64,
    pub interval: i64,
    pub lanes: i64,
}

impl Inputs {
    pub fn of(sheet: &Sheet, level: i64, lanes: i64) -> Inputs {
        Inputs {
            draft: sheet.draft(),
            length: sheet.length(),
            speed: sheet.speed(),
            natural_bed: sheet.natural_bed(),
            level,
            soil: sheet.soil(),
            z2: sheet.wave_allowance(),
            silting: sheet.silting(),
            interval: sheet.interval(),
            lanes,
        }
    }
}

#[derive(Clone, Copy, Debug, PartialEq, Eq)]
pub enum Column {
    A,
    B,
    C,
}

const NONE: i64 = -1;

/// The procedure's squat table, speeds 2 to 12: A lone, A passing, B lone, B passing,
/// C lone, C passing.
const SQUAT: [[i64; 11]; 6] = [
    [5, 10, 10, 15, 20, 25, 35, 45, 60, 80, 100],
    [10, 20, 20, 25, 35, 45, 65, 80, 110, 145, 180],
    [10, 10, 15, 20, 25, 35, 50, 65, 90, 120, NONE],
    [10, 20, 25, 35, 45, 65, 90, 120, 160, 215, NONE],
    [10, 15, 20, 25, 35, 45, 60, 80, 100, NONE, NONE],
    [20, 25, 35, 40, 65, 80, 110, 145, 200, NONE, NONE],
];

/// "0–5 for 25, 33, 50, 100, 200, 300 hundredths of a year."
const INTERVAL: [i64; 6] = [25, 33, 50, 100, 200, 300];

/// "Natural depth N = bed + level, or 0 if negative."
pub fn natural_depth(inputs: &Inputs) -> i64 {
    (inputs.natural_bed + inputs.level).max(0)
}

/// "z0 = length / 400", rounded up by itself.
pub fn z0(inputs: &Inputs) -> i64 {
    rounded_up(inputs.length, 400)
}

/// "z1 = draft × (4 + soil grade) / 100", rounded up by itself.
pub fn z1(inputs: &Inputs) -> i64 {
    rounded_up(inputs.draft * (4 + inputs.soil), 100)
}

/// "One lane reads lone, two read passing." None where the table has no entry, or not the speed.
pub fn z3(inputs: &Inputs, column: Column) -> Option<i64> {
    let row = match (column, inputs.lanes) {
        (Column::A, 1) => SQUAT[0],
        (Column::A, _) => SQUAT[1],
        (Column::B, 1) => SQUAT[2],
        (Column::B, _) => SQUAT[3],
        (Column::C, 1) => SQUAT[4],
        (Column::C, _) => SQUAT[5],
    };
    let entry = *row.get(usize::try_from(inputs.speed - 2).ok()?)?;
    if entry == NONE {
        None
    } else {
        Some(entry)
    }
}

/// "For a cut d, let h = d - N, or 0 if negative: column A when 10h ≤ 5d, B when 10h ≤ 8d,
/// else C."
pub fn column_of(inputs: &Inputs, d: i64) -> Column {
    let h = (d - natural_depth(inputs)).max(0);
    if 10 * h <= 5 * d {
        Column::A
    } else if 10 * h <= 8 * d {
        Column::B
    } else {
        Column::C
    }
}

/// "Sailing depth s = draft + z0 + z1 + z2 + z3."
pub fn sailing_depth(inputs: &Inputs, column: Column) -> Option<i64> {
    let squat = z3(inputs, column)?;
    Some(inputs.draft + z0(inputs) + z1(inputs) + inputs.z2 + squat)
}

/// "z4 is P × interval × (cut - N, or 0 if negative) / 100,000 rounded up, 0 when s ≤ N."
pub fn z4(inputs: &Inputs, s: i64, cut: i64) -> i64 {
    let n = natural_depth(inputs);
    if s <= n {
        return 0;
    }
    rounded_up(product(inputs) * (cut - n).max(0), 100_000)
}

/// P × interval.
pub fn product(inputs: &Inputs) -> i64 {
    inputs.silting * INTERVAL[inputs.interval as usize]
}

/// "An entry at its column, z4 at most 120, and d at least s + z4", the z4 of d.
pub fn meets(inputs: &Inputs, d: i64) -> bool {
    match sailing_depth(inputs, column_of(inputs, d)) {
        None => false,
        Some(s) => z4(inputs, s, d) <= 120 && d >= s + z4(inputs, s, d),
    }
}

/// "The cut is the least d from 1 to 3,000" that meets: each is tried.
pub fn cut(inputs: &Inputs) -> Option<i64> {
    (1..=3_000).find(|&d| meets(inputs, d))
}

/// "Each column's figure is now the least cut for that column's s": each is tried, from s on, as
/// none less is enough. "A product P × interval of 100,000 or more" leaves none "whenever s exceeds N".
fn figure(inputs: &Inputs, s: i64) -> Option<i64> {
    if product(inputs) >= 100_000 && s > natural_depth(inputs) {
        return None;
    }
    (s..).find(|&d| d >= s + z4(inputs, s, d))
}

/// A column's figure, its silt and the column that it falls in.
#[derive(Clone, Copy, Debug, PartialEq, Eq)]
pub struct Figure {
    pub cut: i64,
    pub z4: i64,
    pub falls_in: Column,
}

/// One column tried on the worksheet.
#[derive(Clone, Copy, Debug, PartialEq, Eq)]
pub struct Try {
    pub column: Column,
    pub z3: i64,
    pub s: i64,
    pub figure: Option<Figure>,
}

/// The tries in order, and what the worksheet ends in: the cut, or the number that says why there is none.
#[derive(Clone, Debug, PartialEq, Eq)]
pub struct Worksheet {
    pub tries: Vec<Try>,
    pub cut: Result<i64, u32>,
}

impl Worksheet {
    /// "The number of columns tried is reported, 1 to 3."
    pub fn columns_tried(&self) -> i64 {
        self.tries.len() as i64
    }
}

/// A column without an entry has no figures.
fn try_column(inputs: &Inputs, column: Column) -> Option<Try> {
    let s = sailing_depth(inputs, column)?;
    let found = figure(inputs, s).map(|cut| Figure {
        cut,
        z4: z4(inputs, s, cut),
        falls_in: column_of(inputs, cut),
    });
    Some(Try {
        column,
        z3: z3(inputs, column)?,
        s,
        figure: found,
    })
}

/// What the worksheet comes to in a column: it ends in a cut or a number, or moves to another column.
enum Found {
    Ends(Result<i64, u32>),
    Moves(Column),
}

fn found(tried: Option<Try>) -> Found {
    let Some(tried) = tried else {
        return Found::Ends(Err(13));
    };
    match tried.figure {
        None => Found::Ends(Err(14)),
        Some(figure) if figure.z4 > 120 => Found::Ends(Err(14)),
        Some(figure) if figure.cut > 3_000 => Found::Ends(Err(15)),
        Some(figure) if figure.falls_in == tried.column => Found::Ends(Ok(figure.cut)),
        Some(figure) => Found::Moves(figure.falls_in),
    }
}

/// "The worksheet begins in column A and moves to the column its figure falls in until it
/// stays", or to the first column that it cannot use: "13 no squat entry, then 14 silt over
/// 120, then 15 cut over 3,000, tested in that order within a column."
pub fn worksheet(inputs: &Inputs) -> Worksheet {
    let mut tries = Vec::new();
    let mut column = Column::A;
    loop {
        let tried = try_column(inputs, column);
        tries.extend(tried);
        match found(tried) {
            Found::Ends(cut) => return Worksheet { tries, cut },
            Found::Moves(next) => column = next,
        }
    }
}

/// Why there is no cut.
pub fn reason(inputs: &Inputs) -> u32 {
    worksheet(inputs).cut.err().unwrap_or(0)
}

/// A depth in three numbers: its refusal, 0 where it has a cut, its sailing depth and its cut, 0 where it has none.
pub type Numbers = [i64; 3];

/// The plain engine: "tries each cut from 1 to 3,000", "takes the first that meets" the definition, "and finds its reason
/// for a refusal from the column rules".
pub fn by_tries(inputs: &Inputs) -> Numbers {
    let Some(cut) = cut(inputs) else {
        return [i64::from(reason(inputs)), 0, 0];
    };
    let s = sailing_depth(inputs, column_of(inputs, cut));
    [0, s.expect("a cut's column has an entry"), cut]
}

/// The worksheet: the cut that it ends in, and the s of its last try.
pub fn by_worksheet(inputs: &Inputs) -> Numbers {
    let worksheet = worksheet(inputs);
    let s = worksheet.tries.last().map_or(0, |last| last.s);
    match worksheet.cut {
        Ok(cut) => [0, s, cut],
        Err(number) => [i64::from(number), 0, 0],
    }
}
