//! Lanes, the width in tenths of the beam, and the bend.

use super::rounded_up;
use super::sheet::Sheet;

/// "One lane exactly when channel length × ships (hundredths) < 4,444,800 × knots; equal
/// means two. Field 11 at 1 or 2 overrides."
pub fn lanes(sheet: &Sheet) -> i64 {
    if sheet.lanes() != 0 {
        sheet.lanes()
    } else if sheet.channel_length() * sheet.ships() < 4_444_800 * sheet.speed() {
        1
    } else {
        2
    }
}

/// Tenths of the beam: the lane and the added W of one lane, and what stands beside lanes.
#[derive(Clone, Copy, Debug, PartialEq, Eq)]
pub struct Items {
    pub lane: i64,
    pub wind: i64,
    pub cross: i64,
    pub along: i64,
    pub wave: i64,
    pub aids: i64,
    pub bed: i64,
    pub depth: i64,
    pub cargo: i64,
    pub banks: i64,
    pub passing: i64,
    pub traffic: i64,
}

/// "Speed 8–12 is moderate, under 8 slow. Written moderate/slow."
fn pair(sheet: &Sheet, moderate: i64, slow: i64) -> i64 {
    if sheet.speed() >= 8 {
        moderate
    } else {
        slow
    }
}

/// "Water, 0 open, 1 sheltered."
fn open(sheet: &Sheet) -> bool {
    sheet.water() == 0
}

/// "Lane 13, 15, 18 by handling."
fn lane(sheet: &Sheet) -> i64 {
    [13, 15, 18][sheet.handling() as usize]
}

/// "Wind under 15: 0; 15–33: 4/5; over 33: 8/10."
fn wind(sheet: &Sheet) -> i64 {
    match sheet.wind() {
        knots if knots < 15 => 0,
        knots if knots <= 33 => pair(sheet, 4, 5),
        _ => pair(sheet, 8, 10),
    }
}

/// "Cross current under 2: 0; to 5: open 2/3, sheltered 1/2; to 15: open 7/10, sheltered
/// 5/8; over 15: open 10/13, sheltered no entry."
fn cross(sheet: &Sheet) -> Option<i64> {
    match (sheet.cross(), open(sheet)) {
        (tenths, _) if tenths < 2 => Some(0),
        (tenths, true) if tenths <= 5 => Some(pair(sheet, 2, 3)),
        (tenths, false) if tenths <= 5 => Some(pair(sheet, 1, 2)),
        (tenths, true) if tenths <= 15 => Some(pair(sheet, 7, 10)),
        (tenths, false) if tenths <= 15 => Some(pair(sheet, 5, 8)),
        (_, true) => Some(pair(sheet, 10, 13)),
        (_, false) => None,
    }
}

/// "Along current under 15: 0; to 30: 1/2; over: 2/4."
fn along(sheet: &Sheet) -> i64 {
    match sheet.along() {
        tenths if tenths < 15 => 0,
        tenths if tenths <= 30 => pair(sheet, 1, 2),
        _ => pair(sheet, 2, 4),
    }
}

/// "Wave to 100: 0; to 300: open 10/5; over: open 22/15; sheltered over 100: no entry."
fn wave(sheet: &Sheet) -> Option<i64> {
    match (sheet.wave(), open(sheet)) {
        (height, _) if height <= 100 => Some(0),
        (_, false) => None,
        (height, true) if height <= 300 => Some(pair(sheet, 10, 5)),
        (_, true) => Some(pair(sheet, 22, 15)),
    }
}

/// "Aids 0, 1, 2, 5."
fn aids(sheet: &Sheet) -> i64 {
    [0, 1, 2, 5][sheet.aids() as usize]
}

/// "Bed, if 2s < 3 drafts: 1, 1, 2; else 0."
fn bed(sheet: &Sheet, s: i64) -> i64 {
    if 2 * s < 3 * sheet.draft() {
        [1, 1, 2][sheet.bed() as usize]
    } else {
        0
    }
}

/// "Depth: 0 if 2s ≥ 3 drafts; open 1 if 4s ≥ 5 drafts, else 2; sheltered 2 if 20s ≥ 23
/// drafts, else 4."
fn depth(sheet: &Sheet, s: i64) -> i64 {
    let draft = sheet.draft();
    if 2 * s >= 3 * draft {
        0
    } else if open(sheet) {
        if 4 * s >= 5 * draft {
            1
        } else {
            2
        }
    } else if 20 * s >= 23 * draft {
        2
    } else {
        4
    }
}

/// "Cargo: open 0, 5, 10; sheltered 0, 4, 8."
fn cargo(sheet: &Sheet) -> i64 {
    let row = if open(sheet) { [0, 5, 10] } else { [0, 4, 8] };
    row[sheet.cargo() as usize]
}

/// "Each bank: sloping 5/3, steep 10/5."
fn bank(sheet: &Sheet, steep: i64) -> i64 {
    if steep == 1 {
        pair(sheet, 10, 5)
    } else {
        pair(sheet, 5, 3)
    }
}

/// "Passing (open 16/12, sheltered 14/10)", for two lanes.
fn passing(sheet: &Sheet, lanes: i64) -> i64 {
    match (lanes, open(sheet)) {
        (1, _) => 0,
        (_, true) => pair(sheet, 16, 12),
        (_, false) => pair(sheet, 14, 10),
    }
}

/// "Traffic (ships to 2,400: 0; to 7,200: 2; over: open 5, sheltered 4)", for two lanes.
fn traffic(sheet: &Sheet, lanes: i64) -> i64 {
    if lanes == 1 || sheet.ships() <= 2_400 {
        0
    } else if sheet.ships() <= 7_200 {
        2
    } else if open(sheet) {
        5
    } else {
        4
    }
}

/// Number 8: "no width entry".
pub fn no_entry(sheet: &Sheet) -> bool {
    cross(sheet).is_none() || wave(sheet).is_none()
}

/// The items at a sailing depth, or 8.
pub fn items(sheet: &Sheet, lanes: i64, s: i64) -> Result<Items, u32> {
    Ok(Items {
        lane: lane(sheet),
        wind: wind(sheet),
        cross: cross(sheet).ok_or(8u32)?,
        along: along(sheet),
        wave: wave(sheet).ok_or(8u32)?,
        aids: aids(sheet),
        bed: bed(sheet, s),
        depth: depth(sheet, s),
        cargo: cargo(sheet),
        banks: bank(sheet, sheet.left_bank()) + bank(sheet, sheet.right_bank()),
        passing: passing(sheet, lanes),
        traffic: traffic(sheet, lanes),
    })
}

/// "One lane: lane + W + banks. Two: twice lane and W, banks, passing, traffic."
pub fn tenths(items: &Items, lanes: i64) -> i64 {
    let currents = items.cross + items.along;
    let weather = items.wind + items.wave;
    let ground = items.bed + items.depth;
    let w = weather + currents + items.aids + ground + items.cargo;
    if lanes == 1 {
        items.lane + w + items.banks
    } else {
        2 * (items.lane + w) + items.banks + items.passing + items.traffic
    }
}

/// "Times beam / 10, rounded up once": cm, or 8.
pub fn width(sheet: &Sheet, lanes: i64, s: i64) -> Result<i64, u32> {
    let items = items(sheet, lanes, s)?;
    Ok(rounded_up(tenths(&items, lanes) * sheet.beam(), 10))
}

/// "A straight has no least radius and no widening."
fn straight(sheet: &Sheet) -> bool {
    sheet.turn() == 0
}

/// "3 lengths under 25°, 5 under 35°, 8 under 55°, else 10."
pub fn least_lengths(turn: i64) -> i64 {
    match turn {
        degrees if degrees < 25 => 3,
        degrees if degrees < 35 => 5,
        degrees if degrees < 55 => 8,
        _ => 10,
    }
}

/// The radius is in m, the length in cm.
fn radius_under(sheet: &Sheet, lengths: i64) -> bool {
    100 * sheet.radius() < lengths * sheet.length()
}

/// Number 7: "bend too tight".
pub fn too_tight(sheet: &Sheet) -> bool {
    !straight(sheet) && radius_under(sheet, least_lengths(sheet.turn()))
}

/// "A bend under 10 lengths adds, apart, 9144 × turn × knots² × length² × lanes /
/// (2,446,000,000 × radius) cm, rounded up."
pub fn widening(sheet: &Sheet, lanes: i64) -> i64 {
    if straight(sheet) || !radius_under(sheet, 10) {
        return 0;
    }
    let knots = i128::from(sheet.speed());
    let length = i128::from(sheet.length());
    let turn = i128::from(sheet.turn());
    let above = 9_144 * turn * knots * knots * length * length * i128::from(lanes);
    let below = 2_446_000_000 * i128::from(sheet.radius());
    let whole = above / below;
    let rounded = if whole * below == above {
        whole
    } else {
        whole + 1
    };
    rounded as i64
}
