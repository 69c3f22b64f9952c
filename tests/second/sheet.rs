//! The sheet: 28 bytes, fields packed most significant bit first.

/// A sheet's bytes, and its fields.
pub const BYTES: usize = 28;
pub const FIELDS: usize = 29;

/// A number that turns a call away, and the field (0 unless the number is 3).
#[derive(Clone, Copy, Debug, PartialEq, Eq)]
pub struct Refusal {
    pub number: u32,
    pub field: u32,
}

/// Any number but 3.
pub fn refusal(number: u32) -> Refusal {
    Refusal { number, field: 0 }
}

/// One row of the definition's list of fields.
pub struct Field {
    pub name: &'static str,
    pub bits: u32,
    pub least: i64,
    pub greatest: i64,
}

const fn field(name: &'static str, bits: u32, least: i64, greatest: i64) -> Field {
    Field {
        name,
        bits,
        least,
        greatest,
    }
}

/// "Number, field, bits, allowed values": row 0 is field 1.
pub const TABLE: [Field; FIELDS] = [
    field("deadweight t", 20, 1, 600_000),
    field("draft cm", 12, 700, 2_500),
    field("length cm", 16, 2_000, 40_000),
    field("beam cm", 13, 500, 7_000),
    field("speed knots", 4, 2, 12),
    field("natural bed below chart datum cm", 12, 0, 3_000),
    field("soil grade", 2, 0, 3),
    field("wave allowance z2 cm", 9, 0, 300),
    field("silting P per mille a year", 10, 0, 900),
    field("dredging interval", 3, 0, 5),
    field("lanes", 2, 0, 2),
    field("channel length m", 18, 1, 200_000),
    field("ships a day in hundredths", 15, 0, 20_000),
    field("water", 1, 0, 1),
    field("handling", 2, 0, 2),
    field("cross wind knots", 7, 0, 99),
    field("cross current tenths of a knot", 6, 0, 60),
    field("along current tenths", 6, 0, 60),
    field("wave height cm", 11, 0, 1_500),
    field("aids", 2, 0, 3),
    field("bed", 2, 0, 2),
    field("cargo", 2, 0, 2),
    field("left bank", 1, 0, 1),
    field("right bank", 1, 0, 1),
    field("turn degrees", 8, 0, 180),
    field("radius m", 15, 0, 20_000),
    field("level source", 1, 0, 1),
    field("level plus 500 cm", 11, 0, 2_000),
    field("side slope", 5, 0, 30),
];

/// The 29 figures as they stand in the fields.
#[derive(Clone, Copy, Debug, PartialEq, Eq)]
pub struct Sheet {
    pub figures: [i64; FIELDS],
}

macro_rules! figures_by_name {
    ($($number:literal $name:ident)*) => {
        impl Sheet {
            $(pub fn $name(&self) -> i64 { self.figures[$number - 1] })*
        }
    };
}

figures_by_name! {
    1 deadweight 2 draft 3 length 4 beam 5 speed 6 natural_bed 7 soil 8 wave_allowance
    9 silting 10 interval 11 lanes 12 channel_length 13 ships 14 water 15 handling 16 wind
    17 cross 18 along 19 wave 20 aids 21 bed 22 cargo 23 left_bank 24 right_bank
    25 turn 26 radius 27 source 28 level_plus_500 29 slope
}

impl Sheet {
    /// "A level is either read off the record or given with its figure": None is the record.
    pub fn given_level(&self) -> Option<i64> {
        if self.source() == 0 {
            None
        } else {
            Some(self.level_plus_500() - 500)
        }
    }
}

/// Whether field `number` (1 to 29) is bad.
fn is_bad(sheet: &Sheet, number: usize) -> bool {
    let row = &TABLE[number - 1];
    let figure = sheet.figures[number - 1];
    let outside = figure < row.least || figure > row.greatest;
    match number {
        // "Turn and radius are both 0 (straight) or both not; else field 26 is bad."
        26 => outside || (sheet.turn() == 0) != (sheet.radius() == 0),
        // "Source 0 demands field 28 be 0, else field 28 is bad."
        28 => outside || (sheet.source() == 0 && figure != 0),
        _ => outside,
    }
}

/// "A bad field; the first one's number is given."
pub fn first_bad(sheet: &Sheet) -> Option<u32> {
    (1..=FIELDS)
        .find(|&number| is_bad(sheet, number))
        .map(|number| number as u32)
}

fn bit(bytes: &[u8], position: usize) -> i64 {
    let from_the_right = 7 - position % 8;
    i64::from((bytes[position / 8] >> from_the_right) & 1)
}

fn set_bit(bytes: &mut [u8], position: usize, value: i64) {
    let from_the_right = 7 - position % 8;
    bytes[position / 8] &= !(1 << from_the_right);
    bytes[position / 8] |= (value as u8) << from_the_right;
}

/// Reads a sheet: numbers 1, 2, 3 in order.
pub fn read(bytes: &[u8]) -> Result<Sheet, Refusal> {
    if bytes.len() != BYTES {
        return Err(refusal(1));
    }
    let mut figures = [0; FIELDS];
    let mut position = 0;
    for (figure, row) in figures.iter_mut().zip(&TABLE) {
        for _ in 0..row.bits {
            *figure = *figure * 2 + bit(bytes, position);
            position += 1;
        }
    }
    // "Seven spare bits remain."
    if (position..8 * BYTES).any(|spare| bit(bytes, spare) == 1) {
        return Err(refusal(2));
    }
    let sheet = Sheet { figures };
    match first_bad(&sheet) {
        Some(field) => Err(Refusal { number: 3, field }),
        None => Ok(sheet),
    }
}

/// Packs figures with no test of their ranges: each field's bits, then the spare bits, zero.
pub fn pack(figures: &[i64; FIELDS]) -> [u8; BYTES] {
    let mut bytes = [0; BYTES];
    let mut position = 0;
    for (figure, row) in figures.iter().zip(&TABLE) {
        for place in (0..row.bits).rev() {
            set_bit(&mut bytes, position, (figure >> place) & 1);
            position += 1;
        }
    }
    bytes
}

/// "Writing checks 12, then 3." "Written sheets fill the first 28 bytes only."
pub fn write(sheet: &Sheet, place: &mut [u8]) -> Result<(), Refusal> {
    if place.len() < BYTES {
        return Err(refusal(12));
    }
    if let Some(field) = first_bad(sheet) {
        return Err(Refusal { number: 3, field });
    }
    place[..BYTES].copy_from_slice(&pack(&sheet.figures));
    Ok(())
}
