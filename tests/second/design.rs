//! A design, and the planning program's call.

use super::sheet::{read, refusal, Refusal, Sheet};
use super::{class, depth, gauge, speed, width};

/// "The answer is 0 or the number, the field (0 unless 3), and the figures, all 0 when
/// refused", in the printed line's order.
#[derive(Clone, Copy, Debug, Default, PartialEq, Eq)]
pub struct Answer {
    pub code: i64,
    pub field: i64,
    pub level: i64,
    pub lanes: i64,
    pub s: i64,
    pub cut: i64,
    pub datum_depth: i64,
    pub width: i64,
    pub widening: i64,
    pub columns_tried: i64,
    pub ship_class: i64,
    pub width_class: i64,
    pub depth_class: i64,
}

impl Answer {
    /// The thirteen numbers.
    pub fn numbers(&self) -> [i64; 13] {
        [
            self.code,
            self.field,
            self.level,
            self.lanes,
            self.s,
            self.cut,
            self.datum_depth,
            self.width,
            self.widening,
            self.columns_tried,
            self.ship_class,
            self.width_class,
            self.depth_class,
        ]
    }
}

fn refused(refusal: Refusal) -> Answer {
    Answer {
        code: i64::from(refusal.number),
        field: i64::from(refusal.field),
        ..Answer::default()
    }
}

/// The level of a sheet: "4, 5, 6 only for source 0".
fn level_of(sheet: &Sheet, record: Result<i32, u32>) -> Result<i64, Refusal> {
    match sheet.given_level() {
        Some(level) => Ok(level),
        None => record.map(i64::from).map_err(refusal),
    }
}

/// "A sheet whose length is under three beams."
pub fn under_three_beams(sheet: &Sheet) -> bool {
    sheet.length() < 3 * sheet.beam()
}

/// "A design checks 1, 2, 3, then 18, then 4 to 8": the sheet, and what its depth is worked from.
fn come_to_depth(
    bytes: &[u8],
    record: Result<i32, u32>,
) -> Result<(Sheet, depth::Inputs), Refusal> {
    let sheet = read(bytes)?;
    if under_three_beams(&sheet) {
        return Err(refusal(18));
    }
    let level = level_of(&sheet, record)?;
    if width::too_tight(&sheet) {
        return Err(refusal(7));
    }
    if width::no_entry(&sheet) {
        return Err(refusal(8));
    }
    let inputs = depth::Inputs::of(&sheet, level, width::lanes(&sheet));
    Ok((sheet, inputs))
}

/// What the depth is worked from, where no number before the depth's turns the sheet away.
pub fn depth_inputs(bytes: &[u8], record: Result<i32, u32>) -> Option<depth::Inputs> {
    let (_, inputs) = come_to_depth(bytes, record).ok()?;
    Some(inputs)
}

/// "Then the depth's 13, 14, 15", then 16 and 17.
fn work(bytes: &[u8], record: Result<i32, u32>) -> Result<Answer, Refusal> {
    let (sheet, inputs) = come_to_depth(bytes, record)?;
    let (level, lanes) = (inputs.level, inputs.lanes);
    let cut = depth::cut(&inputs).ok_or_else(|| refusal(depth::reason(&inputs)))?;
    // "The s of that column is the sailing depth."
    let column = depth::column_of(&inputs, cut);
    let s = depth::sailing_depth(&inputs, column).ok_or(refusal(13))?;
    let width = width::width(&sheet, lanes, s).map_err(refusal)?;
    // "Bottom width is the width without widening; depth is the cut."
    let section = speed::Section {
        cut,
        natural_depth: depth::natural_depth(&inputs),
        width,
        slope: sheet.slope(),
    };
    match speed::number(&section, sheet.speed()) {
        0 => {}
        number => return Err(refusal(number)),
    }
    Ok(Answer {
        code: 0,
        field: 0,
        level,
        lanes,
        s,
        cut,
        datum_depth: cut - level, // "Datum depth = cut - level, signed."
        width,
        widening: width::widening(&sheet, lanes),
        columns_tried: depth::worksheet(&inputs).columns_tried(),
        ship_class: class::ship_class(sheet.deadweight()),
        width_class: class::width_class(width, lanes),
        depth_class: class::depth_class(s),
    })
}

/// A design at what the record gave: a level, or 4, 5, 6.
pub fn design_at(bytes: &[u8], record: Result<i32, u32>) -> Answer {
    work(bytes, record).unwrap_or_else(refused)
}

/// A design over a count table.
pub fn design(bytes: &[u8], table: &[u32]) -> Answer {
    design_at(bytes, gauge::design_level(table))
}

/// "A place of 52 bytes or more. 12 is tested first and nothing is written. Otherwise the
/// code is returned and the first 52 bytes get thirteen signed 32-bit numbers, most
/// significant byte first. It has no table, so source 0 gives 4."
pub fn plan(sheet_bytes: &[u8], place: &mut [u8]) -> u32 {
    if place.len() < 52 {
        return 12;
    }
    let answer = design_at(sheet_bytes, Err(4));
    for (index, number) in answer.numbers().into_iter().enumerate() {
        let bytes = (number as i32).to_be_bytes();
        place[4 * index..4 * index + 4].copy_from_slice(&bytes);
    }
    answer.code as u32
}
