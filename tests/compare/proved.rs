//! The proved program, asked for the definition's figures: through the handles, and what it prints.

use crate::figures::{self, Figures, Program, Written};
use crate::handles::{bytes_of, numbers_of, Handle, Handles};
use crate::program;
use crate::second::design::Answer;
use crate::second::gauge::AddAnswer;
use crate::second::sheet::{Refusal, Sheet, FIELDS};
use std::cell::RefCell;

/// The folder of its runs.
const NAME: &str = "figures-proved";

/// The call's part of a request's place: what it returned, and what it is lent with bytes behind.
const RETURNED: usize = 4;
const HELD: usize = 96;

struct Proved {
    handles: RefCell<Handles>,
}

impl Proved {
    fn call(&self, handle: Handle, input: &[u8], place: &mut [u8]) -> u32 {
        self.handles.borrow_mut().call(handle, input, place)
    }

    /// The classes by deadweight, width, lanes and sailing depth.
    fn classes(&self, figures: [i64; 4]) -> [i64; 3] {
        let mut place = [0xee; 12];
        let input = bytes_of(&figures.map(|figure| figure as u32));
        self.call(Handle::Classes, &input, &mut place);
        let classes = numbers_of(&place);
        std::array::from_fn(|k| i64::from(classes[k]))
    }
}

/// A number and a hundred times the field, as the handles tell it.
fn refusal(told: u32) -> Refusal {
    Refusal {
        number: told % 100,
        field: told / 100,
    }
}

fn answer_of(numbers: [i64; 13]) -> Answer {
    let [code, field, level, lanes, s, cut, datum_depth, width, widening, ..] = numbers;
    let [.., columns_tried, ship_class, width_class, depth_class] = numbers;
    Answer {
        code,
        field,
        level,
        lanes,
        s,
        cut,
        datum_depth,
        width,
        widening,
        columns_tried,
        ship_class,
        width_class,
        depth_class,
    }
}

impl Program for Proved {
    fn design(&self, bytes: &[u8], table: &[u32]) -> Answer {
        let (code, numbers) = self.handles.borrow_mut().designs(table, &[bytes])[0];
        let answer = answer_of(numbers);
        assert_eq!(answer.code, i64::from(code), "the code is the first number");
        answer
    }

    fn plan(&self, bytes: &[u8], place: &mut [u8]) -> u32 {
        let mut part = [0xee; RETURNED + HELD];
        let behind = RETURNED + place.len();
        part[RETURNED..behind].copy_from_slice(place);
        let input = [&[bytes.len() as u8, place.len() as u8], bytes].concat();
        let done = self.call(Handle::Plans, &input, &mut part);
        assert_eq!(done, 1, "the plan is done");
        assert!(part[behind..].iter().all(|&byte| byte == 0xee));
        place.copy_from_slice(&part[RETURNED..behind]);
        numbers_of(&part[..RETURNED])[0]
    }

    fn design_level(&self, table: &[u32]) -> Result<i32, u32> {
        match self.call(Handle::DesignLevel, &bytes_of(table), &mut []) {
            number @ 10_000.. => Err(number - 10_000),
            level => Ok(level as i32 - 500),
        }
    }

    fn add(&self, table: &mut [u32], reading: i32) -> AddAnswer {
        let mut place = bytes_of(table);
        let number = self.call(Handle::AddReadings, &reading.to_le_bytes(), &mut place);
        table.copy_from_slice(&numbers_of(&place));
        match number {
            1 => AddAnswer::Added,
            2 => AddAnswer::Missing,
            _ => AddAnswer::Refused(number),
        }
    }

    fn read(&self, bytes: &[u8]) -> Result<Sheet, Refusal> {
        let mut place = [0xee; 4 * FIELDS];
        match self.call(Handle::ReadSheet, bytes, &mut place) {
            0 => {
                let read = numbers_of(&place);
                let figures = std::array::from_fn(|k| i64::from(read[k]));
                Ok(Sheet { figures })
            }
            told => Err(refusal(told)),
        }
    }

    fn write(&self, good: &Figures, set: Option<(usize, i64)>, place: &mut [u8]) -> Written {
        let mut handed: Vec<u32> = good.iter().map(|&figure| figure as u32).collect();
        if let Some((field, figure)) = set {
            handed.extend([field as u32, figure as u32]);
        }
        match self.call(Handle::WriteSheet, &bytes_of(&handed), place) {
            0 => Ok(()),
            told => Err(refusal(told)),
        }
    }

    fn printed(&self, levels: Option<&[u8]>, sheets: &[u8]) -> String {
        let text = program::printed(NAME, levels, sheets);
        program::forget(NAME);
        String::from_utf8(text).expect("the text is plain")
    }

    fn ship_class(&self, deadweight: i64) -> i64 {
        self.classes([deadweight, 0, 1, 0])[0]
    }

    fn width_class(&self, width: i64, lanes: i64) -> i64 {
        self.classes([0, width, lanes, 0])[1]
    }

    fn depth_class(&self, s: i64) -> i64 {
        self.classes([0, 0, 1, s])[2]
    }
}

pub fn figures() {
    let handles = RefCell::new(Handles::start());
    if !figures::right_in("figures proved", &Proved { handles }) {
        std::process::exit(1);
    }
}
