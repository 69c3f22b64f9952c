//! The call from C: what it returns, and the whole place afterwards.

use crate::handles::{Handle, Handles};
use crate::parts::in_parts;
use crate::report::{hex, Report};
use crate::second::design;
use crate::second::random::{self, Random};
use crate::second::sheet::{self, BYTES, FIELDS, TABLE};

const PARTS: u64 = 16;
const RANDOM_PLANS: usize = 60_000;
const BATCH: usize = 2_000;

/// The bytes of a case in a request's place: what the call returned, and what it is lent with bytes behind.
const RETURNED: usize = 4;
const HELD: usize = 96;
const PART: usize = RETURNED + HELD;

/// The longest place that is lent.
const LONGEST: i64 = 80;

struct Case {
    sheet: Vec<u8>,
    lent: usize,
}

/// The serving program, the cases that wait for a request, and the count.
struct Plans {
    handles: Handles,
    report: Report,
    waiting: Vec<Case>,
}

/// What a place holds beforehand: bytes that differ from their neighbours and from case to case.
fn pattern(case: usize) -> [u8; HELD] {
    std::array::from_fn(|k| (k * 37 + case * 11 + 5) as u8)
}

impl Plans {
    fn start() -> Plans {
        Plans {
            handles: Handles::start(),
            report: Report::new("plans", 0),
            waiting: Vec::new(),
        }
    }

    fn case(&mut self, sheet: &[u8], lent: usize) {
        let sheet = sheet.to_vec();
        self.waiting.push(Case { sheet, lent });
        if self.waiting.len() == BATCH {
            self.compare();
        }
    }

    /// All waiting cases, in one request.
    fn compare(&mut self) {
        let (mut input, mut place) = (Vec::new(), Vec::new());
        for (number, case) in self.waiting.iter().enumerate() {
            input.extend([case.sheet.len() as u8, case.lent as u8]);
            input.extend(&case.sheet);
            place.extend([0xee; RETURNED]);
            place.extend(pattern(number));
        }
        let done = self.handles.call(Handle::Plans, &input, &mut place);
        assert_eq!(done as usize, self.waiting.len(), "every case is done");
        let waiting = std::mem::take(&mut self.waiting);
        for ((number, case), part) in waiting.iter().enumerate().zip(place.chunks_exact(PART)) {
            self.judge(number, case, part);
        }
    }

    fn judge(&mut self, number: usize, case: &Case, part: &[u8]) {
        let mut held = pattern(number);
        let code = design::plan(&case.sheet, &mut held[..case.lent]);
        let second = [&code.to_le_bytes()[..], &held].concat();
        self.report.case(part, &second, || {
            format!("sheet {}, {} bytes lent", hex(&case.sheet), case.lent)
        });
    }
}

/// Mostly a place that is long enough.
fn some_lent(rng: &mut Random) -> usize {
    let least = rng.pick(&[0, 51, 52, 52]);
    rng.between(least, LONGEST) as usize
}

/// Each bit flipped, each field at and past both its ends, each length from 0 to 64, each place.
fn around(plans: &mut Plans, figures: [i64; FIELDS]) {
    let bytes = sheet::pack(&figures);
    for bit in 0..8 * BYTES {
        let mut flipped = bytes;
        flipped[bit / 8] ^= 1 << (bit % 8);
        plans.case(&flipped, 52);
    }
    for (field, row) in TABLE.iter().enumerate() {
        for figure in [row.least, row.least - 1, row.greatest, row.greatest + 1] {
            if (0..1 << row.bits).contains(&figure) {
                let mut changed = figures;
                changed[field] = figure;
                plans.case(&sheet::pack(&changed), 60);
            }
        }
    }
    for length in 0..=64 {
        let longer: Vec<u8> = bytes.iter().copied().cycle().take(length).collect();
        plans.case(&longer, 80);
        plans.case(&longer, 51);
    }
    for lent in 0..=LONGEST as usize {
        plans.case(&bytes, lent);
    }
}

fn part(seed: u64) -> u64 {
    let mut plans = Plans::start();
    let mut rng = Random::new(600 + seed);
    for _ in 0..10 {
        around(&mut plans, random::valid_sheet(&mut rng));
    }
    for number in 0..RANDOM_PLANS {
        let sheet = match number % 4 {
            0 => random::damaged(&mut rng),
            _ => sheet::pack(&random::valid_sheet(&mut rng)).to_vec(),
        };
        let lent = some_lent(&mut rng);
        plans.case(&sheet, lent);
    }
    plans.compare();
    plans.report.cases()
}

pub fn plans() {
    let mut report = Report::new("plans", 1_000_000);
    report.add(in_parts("plans", PARTS, part));
    report.end();
}
