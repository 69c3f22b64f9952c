//! The critical speed: the number of a section, and its joined speed as a fraction. The second program adds up the points of
//! the table.

use crate::handles::{bytes_of, numbers_of, Handle, Handles};
use crate::report::Report;
use crate::second::random::Random;
use crate::second::speed::{self, Section};

/// What a joined speed is a fraction of in the handle's place, for each centimetre of the cut: the steps of the grid.
const WHOLE: i128 = 5_000 * 4 * 100;

/// Cut, natural depth, width, slope and knots, as the handle takes them.
type Asked = [u32; 5];

/// The handle takes a cut and a natural depth of 16 bits, and a slope and knots of 8.
fn section(asked: &Asked) -> (Section, i64) {
    let [cut, natural_depth, width, slope, knots] = asked.map(i64::from);
    let section = Section {
        cut: cut % 65_536,
        natural_depth: natural_depth % 65_536,
        width,
        slope: slope % 256,
    };
    (section, knots % 256)
}

/// The greatest knots that are not over nine tenths of the joined speed, and whether they are equal to them.
fn limit(section: &Section) -> Option<(i64, bool)> {
    if section.cut == 0 {
        return None;
    }
    let (above, below) = speed::joined(section)?;
    // a knot is 463/90 tenths of a metre a second
    let (most, one) = (9 * 90 * above, 10 * 463 * below);
    Some(((most / one) as i64, most % one == 0))
}

/// The serving program, the count, how often each number was seen, and how often knots at the limit itself.
struct Speeds {
    handles: Handles,
    report: Report,
    numbers: [u64; 18],
    equal: u64,
}

impl Speeds {
    fn both(&mut self, asked: Asked) {
        let mut place = [0xee; 8];
        let number = self
            .handles
            .call(Handle::Speed, &bytes_of(&asked), &mut place);
        let found = numbers_of(&place);
        let proved = i128::from(found[1]) * (1 << 32) + i128::from(found[0]);
        let (section, knots) = section(&asked);
        let report = &mut self.report;
        if section.cut == 0 {
            // no design has such a cut, and a fraction of it means nothing
            return report.case(proved, 0, || format!("{asked:?}"));
        }
        let (above, below) = speed::joined(&section).unwrap_or((0, 1));
        let whole = WHOLE * i128::from(section.cut);
        assert_eq!(whole % below, 0, "every weight is a part of the whole");
        let second = speed::number(&section, knots);
        report.case((number, proved), (second, above * (whole / below)), || {
            format!("{section:?}, {knots} knots")
        });
        self.numbers[second as usize] += 1;
        let at_limit = section.slope != 0 && limit(&section) == Some((knots, true));
        self.equal += u64::from(at_limit);
    }

    /// At knots about the limit, or any where there is none.
    fn about_limit(&mut self, rng: &mut Random, figures: [i64; 4]) {
        let [cut, natural, width, slope] = figures.map(|figure| figure as u32);
        let (section, _) = section(&[cut, natural, width, slope, 0]);
        let any = rng.between(0, 255);
        let knots = match limit(&section) {
            Some((most, _)) => rng.pick(&[most, most, most + 1, any]),
            None => any,
        };
        self.both([cut, natural, width, slope, knots as u32]);
    }
}

/// Natural depths for which nothing of a cut is dug, a part of it, or all.
fn naturals(cut: i64) -> [i64; 7] {
    [0, 1, cut / 3, cut - 1, cut, cut + 1, cut + 300].map(|natural| natural.max(0))
}

/// Each point of the grid, in the table and around it.
fn at_points(speeds: &mut Speeds, rng: &mut Random) {
    for width in 0..=7 {
        for slope in 0..=5 {
            for depth in 0..=18 {
                beside_point(speeds, rng, [5_000 * width, 4 * slope, 100 * depth]);
            }
        }
    }
}

/// At a point, and a step of one to each side of it.
fn beside_point(speeds: &mut Speeds, rng: &mut Random, [width, slope, cut]: [i64; 3]) {
    for place in 0..27 {
        let step = |nth: u32| place / 3i64.pow(nth) % 3 - 1;
        let (cut, width) = ((cut + step(0)).max(0), (width + step(1)).max(0));
        let slope = (slope + step(2)).max(0);
        for natural in naturals(cut) {
            speeds.about_limit(rng, [cut, natural, width, slope]);
        }
    }
}

/// Mostly a section in the table, or near it.
fn some_section(rng: &mut Random) -> [i64; 4] {
    let deepest = rng.pick(&[1_700, 1_700, 1_700, 65_535]);
    let cut = rng.between(300, deepest);
    let part = rng.between(0, cut);
    let natural = rng.pick(&[0, cut, part, part, part]);
    let widest = rng.pick(&[12_000, 27_000, 27_000, 150_000]);
    let between_lines = rng.between(3, 13);
    let any = rng.between(0, 255);
    let slope = rng.pick(&[4, 8, 12, between_lines, between_lines, any]);
    [cut, natural, rng.between(4_500, widest), slope]
}

/// Sections with nine tenths of the joined speed equal to whole knots: knots, cut, natural depth, width and slope.
const EQUAL: [[i64; 5]; 12] = [
    [8, 405, 236, 10_000, 4],
    [8, 405, 80, 10_000, 10],
    [8, 1_458, 84, 6_075, 4],
    [9, 513, 402, 14_750, 4],
    [9, 540, 435, 10_000, 4],
    [9, 1_134, 105, 6_125, 8],
    [9, 1_152, 320, 6_000, 4],
    [9, 1_152, 112, 5_472, 9],
    [11, 1_134, 578, 5_040, 9],
    [12, 1_161, 770, 9_000, 5],
    [12, 1_161, 701, 10_724, 6],
    [12, 1_161, 731, 7_344, 9],
];

/// At them, and beside them by one of each figure.
fn at_equal(speeds: &mut Speeds) {
    for [knots, cut, natural, width, slope] in EQUAL {
        let asked = [cut, natural, width, slope, knots].map(|figure| figure as u32);
        speeds.both(asked);
        for place in 0..asked.len() {
            for beside in [asked[place] - 1, asked[place] + 1] {
                let mut moved = asked;
                moved[place] = beside;
                speeds.both(moved);
            }
        }
    }
}

/// Every number of knots that their type holds.
fn every_knot(speeds: &mut Speeds, rng: &mut Random) {
    for _ in 0..200 {
        let [cut, natural, width, slope] = some_section(rng).map(|figure| figure as u32);
        for knots in 0..=255 {
            speeds.both([cut, natural, width, slope, knots]);
        }
    }
}

/// Figures that are too great for their types, and any of 32 bits.
fn great_figures(speeds: &mut Speeds, rng: &mut Random) {
    for _ in 0..2_000 {
        let [cut, natural, width, slope] = some_section(rng).map(|figure| figure as u32);
        let knots = rng.between(0, 14) as u32;
        let times = rng.between(1, 9) as u32;
        let asked = [
            cut + 65_536 * times,
            natural + 65_536 * times,
            width,
            slope + 256 * times,
            knots + 256 * times,
        ];
        speeds.both(asked);
    }
    for _ in 0..500 {
        speeds.both(std::array::from_fn(|_| rng.draw() as u32));
    }
}

pub fn speeds() {
    let mut speeds = Speeds {
        handles: Handles::start(),
        report: Report::new("speeds", 400_000),
        numbers: [0; 18],
        equal: 0,
    };
    let mut rng = Random::new(29);
    at_points(&mut speeds, &mut rng);
    at_equal(&mut speeds);
    every_knot(&mut speeds, &mut rng);
    great_figures(&mut speeds, &mut rng);
    for _ in 0..200_000 {
        let section = some_section(&mut rng);
        speeds.about_limit(&mut rng, section);
    }
    let numbers = speeds.numbers;
    assert!(
        [0, 16, 17].iter().all(|&number| numbers[number] > 50_000),
        "0, 16 and 17 are each seen: {numbers:?}"
    );
    assert!(
        speeds.equal >= EQUAL.len() as u64,
        "the limit itself is met: {}",
        speeds.equal
    );
    speeds.report.end();
}
