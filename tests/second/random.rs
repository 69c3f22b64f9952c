//! Test inputs, the same for the same seed.

use super::depth::{self, Column, Inputs};
use super::sheet::{self, Sheet, BYTES, FIELDS, TABLE};
use super::speed::{self, Section};
use super::{gauge, rounded_up, width};

/// splitmix64.
pub struct Random {
    state: u64,
}

impl Random {
    pub fn new(seed: u64) -> Random {
        Random { state: seed }
    }

    pub fn draw(&mut self) -> u64 {
        self.state = self.state.wrapping_add(0x9E37_79B9_7F4A_7C15);
        let mut z = self.state;
        z = (z ^ (z >> 30)).wrapping_mul(0xBF58_476D_1CE4_E5B9);
        z = (z ^ (z >> 27)).wrapping_mul(0x94D0_49BB_1331_11EB);
        z ^ (z >> 31)
    }

    /// From 0 to `count` - 1.
    pub fn below(&mut self, count: usize) -> usize {
        (self.draw() % count as u64) as usize
    }

    /// Both ends included.
    pub fn between(&mut self, least: i64, greatest: i64) -> i64 {
        least + self.below((greatest - least + 1) as usize) as i64
    }

    pub fn pick<T: Copy>(&mut self, choices: &[T]) -> T {
        choices[self.below(choices.len())]
    }

    /// -1, 0 or 1.
    pub fn about(&mut self) -> i64 {
        self.between(-1, 1)
    }
}

// Sheets.

/// The figures on both sides of each limit that the rules put inside a field's range.
fn limits(number: usize) -> &'static [i64] {
    match number {
        1 => &[4_999, 5_000, 9_999, 10_000, 19_999, 20_000, 39_999, 40_000],
        5 => &[7, 8, 10, 11],
        13 => &[2_400, 2_401, 7_200, 7_201],
        16 => &[14, 15, 33, 34],
        17 => &[1, 2, 5, 6, 15, 16],
        18 => &[14, 15, 30, 31],
        19 => &[100, 101, 300, 301],
        25 => &[24, 25, 34, 35, 54, 55],
        28 => &[499, 500, 501],
        _ => &[],
    }
}

/// A figure within field `number`: at its ends, beside a limit, or anywhere.
fn figure(rng: &mut Random, number: usize) -> i64 {
    let row = &TABLE[number - 1];
    match (rng.below(5), limits(number)) {
        (0, _) => rng.pick(&[row.least, row.greatest]),
        (1 | 2, beside) if !beside.is_empty() => rng.pick(beside),
        _ => rng.between(row.least, row.greatest),
    }
}

fn within(number: usize, figure: i64) -> i64 {
    figure.clamp(TABLE[number - 1].least, TABLE[number - 1].greatest)
}

/// The pair rules: a radius exactly with a turn, a level exactly with source 1.
fn keep_pairs(rng: &mut Random, figures: &mut [i64; FIELDS]) {
    if rng.below(3) == 0 {
        figures[24] = 0;
    }
    if figures[24] == 0 {
        figures[25] = 0;
    } else {
        figures[25] = figures[25].max(1);
    }
    if figures[26] == 0 {
        figures[27] = 0;
    }
}

/// Takes away 18: a beam of at most a third of the length.
fn keep_ship(figures: &mut [i64; FIELDS]) {
    figures[3] = figures[3].min(figures[2] / 3);
}

/// Takes away the commonest reasons for 7, 8 and no depth.
fn calm(rng: &mut Random, figures: &mut [i64; FIELDS]) {
    if figures[13] == 1 {
        figures[16] = figures[16].min(rng.pick(&[1, 2, 5, 6, 15]));
        figures[18] = figures[18].min(100);
    }
    if figures[24] != 0 {
        figures[25] = within(26, figures[2] / 10 + rng.between(-1, 100));
    }
    figures[8] = rng.between(0, 200);
    figures[9] = rng.between(0, 3);
    figures[1] = rng.between(700, 2_300);
}

/// The sheet's depth inputs; a level off the record is taken as 0.
fn inputs(figures: &[i64; FIELDS]) -> Inputs {
    let sheet = Sheet { figures: *figures };
    Inputs::of(
        &sheet,
        sheet.given_level().unwrap_or(0),
        width::lanes(&sheet),
    )
}

/// s of some column tried on the worksheet, the last one mostly.
fn some_s(rng: &mut Random, inputs: &Inputs) -> i64 {
    let tries = depth::worksheet(inputs).tries;
    let last = tries[tries.len() - 1];
    rng.pick(&[tries[0], last, last]).s
}

/// The length about three beams.
fn near_three_beams(rng: &mut Random, figures: &mut [i64; FIELDS]) {
    figures[2] = within(3, 3 * figures[3] + rng.about());
}

/// The radius about a limit of the bend rules.
fn near_radius(rng: &mut Random, figures: &mut [i64; FIELDS]) {
    if figures[24] != 0 {
        let lengths = rng.pick(&[width::least_lengths(figures[24]), 10]);
        figures[25] = within(26, lengths * figures[2] / 100 + rng.about()).max(1);
    }
}

/// Traffic about the lane rule's limit, or at it.
fn near_lanes(rng: &mut Random, figures: &mut [i64; FIELDS]) {
    figures[10] = 0;
    if rng.below(2) == 0 {
        let share = rng.pick(&[1, 2, 3, 4, 6, 8, 12]);
        figures[11] = 44_448 / share;
        figures[12] = within(13, 100 * share * figures[4] + rng.about());
    } else {
        figures[12] = within(13, 4_444_800 * figures[4] / figures[11] + rng.about());
    }
}

/// The silt of a column's figure in one step, so as to come near a limit: it answers nothing.
fn silt_about(inputs: &Inputs, s: i64) -> i64 {
    let dug = (s - depth::natural_depth(inputs)).max(0);
    let product = depth::product(inputs);
    rounded_up(product * dug, (100_000 - product).max(1))
}

/// The least natural depth at which a column's figure falls in it, or in a lesser column.
fn natural_limit(inputs: &Inputs, column: Column, share: i64) -> i64 {
    let falls = |natural: &i64| {
        let shifted = Inputs {
            natural_bed: *natural,
            level: 0,
            ..*inputs
        };
        match depth::sailing_depth(&shifted, column) {
            Some(s) => s + silt_about(&shifted, s) <= share * natural,
            None => true,
        }
    };
    (0..=3_000).find(falls).unwrap_or(3_000)
}

/// The natural depth about column A's limit, half the cut, or column B's, a fifth.
fn near_column(rng: &mut Random, figures: &mut [i64; FIELDS]) {
    let (column, share) = rng.pick(&[(Column::A, 2), (Column::A, 5), (Column::B, 5)]);
    let natural = natural_limit(&inputs(figures), column, share) + rng.about();
    set_natural(rng, figures, natural);
}

/// The bed, and with it a given level, of a natural depth.
fn set_natural(rng: &mut Random, figures: &mut [i64; FIELDS], natural: i64) {
    let mut level = 0;
    if figures[26] == 1 {
        level = rng.between(-500, natural.clamp(0, 1_500));
        figures[27] = level + 500;
    }
    figures[5] = within(6, natural - level);
}

/// The silting about z4's limit of 120.
fn near_silt(rng: &mut Random, figures: &mut [i64; FIELDS]) {
    let mut inputs = inputs(figures);
    let s = some_s(rng, &inputs);
    inputs.silting = 0;
    while inputs.silting < 900 && silt_about(&inputs, s) <= 120 {
        inputs.silting += 1;
    }
    figures[8] = within(9, inputs.silting + rng.between(-2, 1));
}

/// s, by z2, about a limit of the width items or of the depth class, or the greatest cut.
fn near_s(rng: &mut Random, figures: &mut [i64; FIELDS]) {
    if rng.below(2) == 0 {
        figures[1] -= figures[1] % 20; // so that the ratios can be met exactly
    }
    let inputs = inputs(figures);
    let s = some_s(rng, &inputs);
    let draft = inputs.draft;
    let ratios = [3 * draft / 2, 5 * draft / 4, 23 * draft / 20];
    let class = rng.pick(&[800, 900, 1_100, 1_400]);
    let deepest = 3_000 - silt_about(&inputs, s);
    let wanted = match rng.below(5) {
        0 => class,
        1 => deepest,
        _ => rng.pick(&ratios),
    };
    let z2 = inputs.z2 + wanted - s + rng.about();
    if !(0..=300).contains(&z2) {
        // z2 cannot carry it, so the draft comes nearer.
        figures[1] = within(2, draft + (wanted - s) * 25 / 27);
    }
    figures[7] = within(8, z2);
}

/// The beam about that of a width.
fn set_width(rng: &mut Random, figures: &mut [i64; FIELDS], cm: i64) {
    let sheet = Sheet { figures: *figures };
    let lanes = width::lanes(&sheet);
    let s = some_s(rng, &inputs(figures));
    if let Ok(items) = width::items(&sheet, lanes, s) {
        let beam = 10 * cm / width::tenths(&items, lanes);
        figures[3] = within(4, beam + rng.about());
    }
}

/// The beam about a limit of the width class.
fn near_width(rng: &mut Random, figures: &mut [i64; FIELDS]) {
    let limit = match width::lanes(&Sheet { figures: *figures }) {
        1 => rng.pick(&[5_000, 7_000, 9_000, 11_000]),
        _ => rng.pick(&[12_000, 16_000, 20_000, 24_000]),
    };
    set_width(rng, figures, limit);
}

fn near_some_limit(rng: &mut Random, figures: &mut [i64; FIELDS]) {
    match rng.below(7) {
        0 => near_radius(rng, figures),
        1 => near_lanes(rng, figures),
        2 => near_column(rng, figures),
        3 => near_silt(rng, figures),
        4 => near_s(rng, figures),
        5 => near_three_beams(rng, figures),
        _ => near_width(rng, figures),
    }
}

/// Figures with no bad field, and no slope.
fn unchecked_sheet(rng: &mut Random) -> [i64; FIELDS] {
    let mut figures = [0; FIELDS];
    for number in 1..=FIELDS {
        figures[number - 1] = figure(rng, number);
    }
    figures[28] = 0;
    keep_pairs(rng, &mut figures);
    if rng.below(16) != 0 {
        keep_ship(&mut figures);
    }
    if rng.below(3) != 0 {
        calm(rng, &mut figures);
    }
    for _ in 0..rng.below(4) {
        near_some_limit(rng, &mut figures);
    }
    figures
}

/// Mostly a line of the critical speed's table, or between two; else any.
fn some_slope(rng: &mut Random) -> i64 {
    match rng.below(8) {
        0 => rng.between(1, 30),
        1..=3 => rng.between(3, 13),
        _ => rng.pick(&[4, 8, 12]),
    }
}

/// The section that the worksheet comes to; the tries of every cut would take too long here.
fn section(figures: &[i64; FIELDS]) -> Option<Section> {
    let sheet = Sheet { figures: *figures };
    let inputs = inputs(figures);
    let worksheet = depth::worksheet(&inputs);
    let cut = worksheet.cut.ok()?;
    let s = worksheet.tries.last()?.s;
    Some(Section {
        cut,
        natural_depth: depth::natural_depth(&inputs),
        width: width::width(&sheet, inputs.lanes, s).ok()?,
        slope: sheet.slope(),
    })
}

/// Figures whose section is mostly in the table, and a speed that is at times too great there.
fn keep_to_table(rng: &mut Random, figures: &mut [i64; FIELDS]) {
    calm(rng, figures);
    figures[1] = rng.between(700, 1_150);
    figures[4] = rng.pick(&[figures[4], 8, 9, 10, 10]);
    figures[8] = rng.between(0, 100);
    let natural = rng.between(0, 1_200);
    set_natural(rng, figures, natural);
    let widest = rng.pick(&[8_000, 12_000, 26_000]);
    let width = rng.between(4_500, widest);
    set_width(rng, figures, width);
    figures[2] = figures[2].max(within(3, 3 * figures[3]));
}

/// The beam about a line of the table's widths, on and outside it.
fn near_width_line(rng: &mut Random, figures: &mut [i64; FIELDS]) {
    let line = rng.pick(&[5_000, 5_000, 10_000, 15_000, 20_000, 25_000, 25_000, 30_000]);
    set_width(rng, figures, line);
}

/// The cut, by z2, about a whole metre.
fn near_depth_line(rng: &mut Random, figures: &mut [i64; FIELDS]) {
    if let Some(section) = section(figures) {
        let below = section.cut % 100;
        let up = rng.pick(&[-below, 100 - below]) + rng.about();
        figures[7] = within(8, figures[7] + up);
    }
}

/// The natural depth about the cut, so that little or nothing is dug, or at 0, so that all is.
fn near_dug(rng: &mut Random, figures: &mut [i64; FIELDS]) {
    if let Some(section) = section(figures) {
        let natural = rng.pick(&[0, 1, section.cut, section.cut]) + rng.about();
        set_natural(rng, figures, natural);
    }
}

/// The natural depth about the least at which the speed is not too great, which is found by halving: it answers nothing.
fn near_too_fast(rng: &mut Random, figures: &mut [i64; FIELDS]) {
    let Some(section) = section(figures) else {
        return;
    };
    let too_fast = |natural_depth| {
        let tried = Section {
            natural_depth,
            ..section
        };
        speed::number(&tried, figures[4]) == 17
    };
    let (mut least, mut most) = (0, section.cut);
    while least < most {
        let middle = (least + most) / 2;
        match too_fast(middle) {
            true => least = middle + 1,
            false => most = middle,
        }
    }
    let natural = least + rng.about();
    set_natural(rng, figures, natural);
}

/// Figures with no bad field, of a sheet whose speed is checked.
pub fn checked_sheet(rng: &mut Random) -> [i64; FIELDS] {
    let mut figures = unchecked_sheet(rng);
    figures[28] = some_slope(rng);
    if rng.below(8) != 0 {
        keep_to_table(rng, &mut figures);
    }
    for _ in 0..rng.below(3) {
        match rng.below(5) {
            0 => near_width_line(rng, &mut figures),
            1 => near_depth_line(rng, &mut figures),
            2 => near_dug(rng, &mut figures),
            _ => near_too_fast(rng, &mut figures),
        }
    }
    figures
}

/// Figures with no bad field; one sheet in four has its speed checked.
pub fn valid_sheet(rng: &mut Random) -> [i64; FIELDS] {
    match rng.below(4) {
        0 => checked_sheet(rng),
        _ => unchecked_sheet(rng),
    }
}

/// The figures with the level off the record. Over a record with a level the bed is moved, so that the natural depth
/// stays, and the limits that it lies near.
pub fn off_record(figures: &[i64; FIELDS], record: Result<i32, u32>) -> [i64; FIELDS] {
    let given = Sheet { figures: *figures }.given_level().unwrap_or(0);
    let mut moved = *figures;
    if let Ok(level) = record {
        moved[5] = within(6, figures[5] + given - i64::from(level));
    }
    (moved[26], moved[27]) = (0, 0);
    moved
}

/// Packs figures, bad ones too: each figure's lowest bits.
pub fn pack(figures: &[i64; FIELDS]) -> [u8; BYTES] {
    sheet::pack(figures)
}

/// The figures one past an end of a field's range that the field's bits can hold.
pub fn one_past(number: usize) -> Vec<i64> {
    let row = &TABLE[number - 1];
    let ends = [row.least - 1, row.greatest + 1];
    let held = |figure: &i64| (0..1 << row.bits).contains(figure);
    ends.into_iter().filter(held).collect()
}

fn flip(bytes: &mut [u8], position: usize) {
    bytes[position / 8] ^= 1 << (7 - position % 8);
}

fn bytes_of_any_kind(rng: &mut Random, length: usize) -> Vec<u8> {
    (0..length).map(|_| rng.draw() as u8).collect()
}

fn with_one_past(rng: &mut Random) -> Vec<u8> {
    let mut figures = valid_sheet(rng);
    for _ in 0..=rng.below(2) {
        let number = rng.between(1, FIELDS as i64) as usize;
        let past = one_past(number);
        if !past.is_empty() {
            figures[number - 1] = rng.pick(&past);
        }
    }
    pack(&figures).to_vec()
}

fn with_broken_pair(rng: &mut Random) -> Vec<u8> {
    let mut figures = valid_sheet(rng);
    match rng.below(3) {
        0 => (figures[24], figures[25]) = (0, rng.between(1, 20_000)),
        1 => (figures[24], figures[25]) = (rng.between(1, 180), 0),
        _ => (figures[26], figures[27]) = (0, rng.between(1, 2_000)),
    }
    pack(&figures).to_vec()
}

/// Bytes that seldom are a sheet.
pub fn damaged(rng: &mut Random) -> Vec<u8> {
    let kind = rng.below(8);
    let mut bytes = pack(&valid_sheet(rng)).to_vec();
    match kind {
        0 => {
            let length = rng.below(65);
            bytes = bytes_of_any_kind(rng, length);
        }
        1 => bytes = bytes_of_any_kind(rng, BYTES),
        2 => flip(&mut bytes, rng.below(8 * BYTES)),
        3 => flip(&mut bytes, 8 * BYTES - 1 - rng.below(7)),
        4 => bytes = with_one_past(rng),
        5 => bytes = with_broken_pair(rng),
        6 => bytes.truncate(rng.below(BYTES)),
        _ => bytes.resize(BYTES + 1 + rng.below(36), rng.draw() as u8),
    }
    bytes
}

// Level records.

/// D at and beside each limit of the frequency table.
const D: [i64; 16] = [
    0, 1, 34, 35, 36, 69, 70, 71, 104, 105, 106, 139, 140, 141, 142, 500,
];

/// Levels with counts: mostly D as chosen, the low readings about a frequency's limit.
fn shape(rng: &mut Random, n: i64) -> Vec<(i64, i64)> {
    let d = rng.pick(&D);
    let low = rng.between(-500, 1_500 - d);
    let hundredths = rng.pick(&[0, 1, 2, 3, 4, 50]);
    let lowest = (n * hundredths / 100 + rng.about()).clamp(1, n);
    let between = rng.between(0, (n - lowest).min(n / 50));
    let above = rng.between(0, (n - lowest - between).min(n / 3));
    let rest = n - lowest - between - above;
    let inner = rng.between(low, low + d);
    let high = rng.between(low + d, 1_500);
    vec![
        (low, lowest),
        (inner, between),
        (low + d, rest),
        (high, above),
    ]
}

/// About 26,280 readings, or a round number, or few.
fn some_n(rng: &mut Random) -> i64 {
    match rng.below(8) {
        0 => rng.between(1, 26_279),
        1 => 26_279,
        2 | 3 => 26_280,
        4 => 26_281,
        5 => 26_300,
        6 => 30_000,
        _ => rng.between(26_280, 40_000),
    }
}

/// One reading of any kind.
pub fn reading(rng: &mut Random) -> i32 {
    let edges = [-9_999, -9_998, -10_000, -501, -500, 1_500, 1_501];
    match rng.below(8) {
        0 => rng.pick(&edges),
        1 => {
            let any = rng.draw() as i32;
            rng.pick(&[i32::MIN, i32::MAX, any])
        }
        _ => rng.between(-520, 1_520) as i32,
    }
}

/// Readings in any order, missing hours and readings outside the table among them; each
/// fits 16 bits.
pub fn record(rng: &mut Random) -> Vec<i32> {
    let mut readings = Vec::new();
    if rng.below(16) != 0 {
        let n = some_n(rng);
        for (level, count) in shape(rng, n) {
            readings.extend((0..count).map(|_| level as i32));
        }
    }
    for _ in 0..rng.below(20) {
        readings.push(gauge::MISSING);
        let outside = [-501, 1_501, -9_998, -10_000, 32_767, -32_768];
        readings.push(rng.pick(&outside));
    }
    for place in (1..readings.len()).rev() {
        readings.swap(place, rng.below(place + 1));
    }
    readings
}

/// The bytes of `levels.bin` for readings that fit 16 bits.
pub fn levels_bin(readings: &[i32]) -> Vec<u8> {
    let bytes = |&reading: &i32| (reading as i16).to_be_bytes();
    readings.iter().flat_map(bytes).collect()
}

fn table_of(shape: &[(i64, i64)]) -> Vec<u32> {
    let mut table = gauge::empty();
    for &(level, count) in shape {
        table[(level + 500) as usize] += count as u32;
    }
    table
}

/// A slot's count about the most that it holds.
fn near_full(rng: &mut Random) -> u32 {
    rng.pick(&[999_999, 1_000_000, 1_000_001, u32::MAX])
}

/// Count tables: of a shape, near full, any counts, empty, or of a wrong length.
pub fn table(rng: &mut Random) -> Vec<u32> {
    match rng.below(10) {
        0 => vec![rng.below(20) as u32; rng.pick(&[0, 1, 2_000, 2_002, 4_000])],
        1 => gauge::empty(),
        2 => gauge::empty()
            .iter()
            .map(|_| rng.below(30) as u32)
            .collect(),
        3 => vec![near_full(rng); gauge::SLOTS],
        4 => {
            let n = rng.between(1_000_000, 2_000_000);
            table_of(&shape(rng, n))
        }
        5 => {
            let n = some_n(rng);
            let mut table = table_of(&shape(rng, n));
            table[rng.below(gauge::SLOTS)] = near_full(rng);
            table
        }
        _ => {
            let n = some_n(rng);
            table_of(&shape(rng, n))
        }
    }
}
