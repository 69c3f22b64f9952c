//! The critical speed in a dug section, and the numbers that a design speed is refused by. The joined speed is a sum over
//! the points of the table's grid, each times its weight, in exact fractions.

/// What the speed is worked from: lengths in cm, and the m of a side slope of 1/m.
#[derive(Clone, Copy, Debug)]
pub struct Section {
    pub cut: i64,
    pub natural_depth: i64,
    pub width: i64,
    pub slope: i64,
}

const NONE: i64 = -1;

/// The depths that the table has a figure for, in m.
const DEPTHS: [i64; 13] = [4, 5, 6, 7, 8, 9, 10, 11, 12, 13, 14, 15, 16];

/// A row of the table: the bottom width in m, the m of the slope, and a figure for each depth.
struct Row(i64, i64, [i64; DEPTHS.len()]);

/// The procedure's table 2a for full sections, V'', in tenths of a metre a second.
#[rustfmt::skip]
const FULL: [Row; 15] = [
    Row(50, 4, [37, 38, 38, 38, 39, 39, 39, 39, 39, 39, 40, 41, 41]),
    Row(50, 8, [38, 41, 41, 43, 45, 45, 47, 47, 47, 47, 48, 49, 49]),
    Row(50, 12, [39, 43, 44, 46, 48, 50, 50, 50, 50, 52, 54, 55, 56]),
    Row(100, 4, [45, 45, 45, 47, 49, 50, 50, 50, 50, 51, 52, 53, 53]),
    Row(100, 8, [45, 46, 48, 50, 53, 54, 55, 55, 55, 56, 57, 57, 58]),
    Row(100, 12, [46, 49, 51, 55, 57, 58, 61, 61, 61, 61, 61, 61, 62]),
    Row(150, 4, [NONE, 51, 51, 52, 56, 57, 58, 58, 58, 59, 60, 60, 60]),
    Row(150, 8, [NONE, NONE, 53, 54, 57, 59, 61, 62, 62, 62, 62, 63, 64]),
    Row(150, 12, [NONE, NONE, 55, 56, 60, 61, 64, 65, 65, 67, 67, 68, 68]),
    Row(200, 4, [NONE, NONE, 55, 57, 59, 62, 64, 64, 64, 64, 64, 65, 65]),
    Row(200, 8, [NONE, NONE, 56, 58, 60, 64, 64, 65, 66, 67, 68, 69, 70]),
    Row(200, 12, [NONE, NONE, NONE, 59, 62, 65, 68, 67, 69, 70, 72, 73, 74]),
    Row(250, 4, [NONE, NONE, NONE, 60, 63, 65, 66, 67, 67, 68, 69, 69, 70]),
    Row(250, 8, [NONE, NONE, NONE, 61, 64, 66, 67, 68, 70, 71, 73, 73, 73]),
    Row(250, 12, [NONE, NONE, NONE, NONE, 65, 68, 69, 70, 72, 73, 75, 76, 77]),
];

/// Its row for shallow water, V'.
const SHALLOW: [i64; DEPTHS.len()] = [46, 51, 56, 61, 65, 69, 73, 76, 80, 83, 86, 89, 92];

/// The figure of a row at a depth in m; None where it is blank or outside.
fn at_depth(row: &[i64; DEPTHS.len()], depth: i64) -> Option<i64> {
    let place = DEPTHS.iter().position(|&line| line == depth)?;
    (row[place] != NONE).then_some(row[place])
}

/// V' at a line of the grid.
pub fn shallow_at(depth: i64) -> Option<i64> {
    at_depth(&SHALLOW, depth)
}

/// V'' at a point of the grid: width and depth in m.
pub fn full_at(width: i64, slope: i64, depth: i64) -> Option<i64> {
    let row = FULL.iter().find(|row| row.0 == width && row.1 == slope)?;
    at_depth(&row.2, depth)
}

/// An exact fraction that is not negative, in its least terms.
#[derive(Clone, Copy, Debug, PartialEq, Eq)]
struct Fraction {
    above: i128,
    below: i128,
}

fn fraction(above: i128, below: i128) -> Fraction {
    assert!(above >= 0 && below > 0, "a fraction {above} / {below}");
    let (mut divisor, mut rest) = (below, above % below);
    while rest != 0 {
        (divisor, rest) = (rest, divisor % rest);
    }
    Fraction {
        above: above / divisor,
        below: below / divisor,
    }
}

impl Fraction {
    fn is_zero(self) -> bool {
        self.above == 0
    }

    fn plus(self, other: Fraction) -> Fraction {
        let above = self.above * other.below + other.above * self.below;
        fraction(above, self.below * other.below)
    }

    fn times(self, other: Fraction) -> Fraction {
        fraction(self.above * other.above, self.below * other.below)
    }

    fn is_more_than(self, other: Fraction) -> bool {
        self.above * other.below > other.above * self.below
    }
}

/// A share of a whole, from 0 to 1.
fn share(part: i64, whole: i64) -> Fraction {
    fraction(i128::from(part), i128::from(whole))
}

/// "Values between points are found by straight lines": a line of the grid has all the weight for a figure on it, and less
/// the farther the figure is, down to none at the next line. The lines with a weight, of all from 0 to past the figure.
fn lines(figure: i64, step: i64) -> Vec<(i64, Fraction)> {
    (0..=figure / step + 1)
        .map(|line| (line, (figure - line * step).abs()))
        .filter(|&(_, away)| away < step)
        .map(|(line, away)| (line, share(step - away, step)))
        .collect()
}

/// The grid's steps, in and outside the table: 50 m and 1 m in cm, and 4 of the slope.
const WIDTH_STEP: i64 = 5_000;
const SLOPE_STEP: i64 = 4;
const DEPTH_STEP: i64 = 100;

/// The figure of a point, None where it is blank or outside, and its weight in the joined speed.
type Point = (Option<i64>, Fraction);

/// "Formula (2) that joins them by dug depth over cut": V' has the share of what is not dug, V'' that of what is.
fn points(section: &Section) -> Vec<Point> {
    let dug = (section.cut - section.natural_depth).max(0);
    let of_shallow = share(section.cut - dug, section.cut);
    let of_full = share(dug, section.cut);
    let widths = lines(section.width, WIDTH_STEP);
    let slopes = lines(section.slope, SLOPE_STEP);
    let mut points = Vec::new();
    for (depth, by_depth) in lines(section.cut, DEPTH_STEP) {
        points.push((shallow_at(depth), by_depth.times(of_shallow)));
        for &(width, by_width) in &widths {
            for &(slope, by_slope) in &slopes {
                let figure = full_at(50 * width, SLOPE_STEP * slope, depth);
                let weight = by_depth.times(by_width).times(by_slope).times(of_full);
                points.push((figure, weight));
            }
        }
    }
    points
}

/// "A point with no weight in the joined speed isn't needed."
fn needed(section: &Section) -> Vec<Point> {
    let mut points = points(section);
    points.retain(|(_, weight)| !weight.is_zero());
    points
}

/// The weights of all points together, above and below the line of the fraction.
pub fn whole_weight(section: &Section) -> (i128, i128) {
    let weights = points(section).into_iter().map(|(_, weight)| weight);
    let sum = weights.fold(share(0, 1), Fraction::plus);
    (sum.above, sum.below)
}

/// The joined speed of a cut over 0, in tenths of a metre a second; None where "a needed table point is blank or outside".
fn speed(section: &Section) -> Option<Fraction> {
    let none_yet = share(0, 1);
    needed(section)
        .into_iter()
        .try_fold(none_yet, |sum, (figure, weight)| {
            let figure = share(figure?, 1);
            Some(sum.plus(figure.times(weight)))
        })
}

/// The joined speed by what stands above the line of the fraction and what stands below.
pub fn joined(section: &Section) -> Option<(i128, i128)> {
    speed(section).map(|speed| (speed.above, speed.below))
}

/// "At most nine tenths of it, with 1 knot as 1,852 m in 3,600 s."
fn too_fast(knots: i64, critical: Fraction) -> bool {
    let tenths_of_a_metre = share(10 * 1_852 * knots, 3_600);
    tenths_of_a_metre.is_more_than(share(9, 10).times(critical))
}

/// 16 or 17, 0 where neither holds: "0 means no check", then "16 a needed table point is blank or outside", then "17 too fast".
pub fn number(section: &Section, knots: i64) -> u32 {
    if section.slope == 0 {
        return 0;
    }
    match speed(section) {
        None => 16,
        Some(critical) if too_fast(knots, critical) => 17,
        Some(_) => 0,
    }
}
