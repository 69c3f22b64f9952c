//! The proved rooms, called through a process that serves the static library's handles.

use std::io::{Read, Write};
use std::process::{Child, ChildStdin, ChildStdout, Command, Stdio};

/// The handles, in the order of their numbers there.
#[derive(Clone, Copy)]
pub enum Handle {
    ReadSheet,
    WriteSheet,
    AddReadings,
    DesignLevel,
    Depth,
    Plain,
    Worksheet,
    Plans,
    Width,
    Bend,
    MakeSheet,
    Designs,
    Classes,
    Speed,
}

/// How many numbers a design has.
pub const NUMBERS: usize = 13;

/// What a design's call returned, and its numbers.
pub type Design = (u32, [i64; NUMBERS]);

pub struct Handles {
    _process: Child,
    requests: ChildStdin,
    replies: ChildStdout,
}

impl Handles {
    /// Starts the process named by the words of the variable HANDLES.
    pub fn start() -> Handles {
        let words = std::env::var("HANDLES").expect("HANDLES names the serving program");
        let mut words = words.split_whitespace();
        let mut process = Command::new(words.next().expect("HANDLES is empty"))
            .args(words)
            .stdin(Stdio::piped())
            .stdout(Stdio::piped())
            .spawn()
            .expect("the serving program starts");
        let requests = process.stdin.take().expect("its input");
        let replies = process.stdout.take().expect("its output");
        Handles {
            _process: process,
            requests,
            replies,
        }
    }

    /// Calls a handle on an input and a place; the place then holds what the call left there.
    pub fn call(&mut self, handle: Handle, input: &[u8], place: &mut [u8]) -> u32 {
        let mut request = vec![handle as u8];
        for part in [input, &*place] {
            request.extend((part.len() as u32).to_le_bytes());
            request.extend(part);
        }
        self.requests
            .write_all(&request)
            .expect("a request is taken");
        let mut result = [0; 4];
        self.replies.read_exact(&mut result).expect("a reply comes");
        self.replies
            .read_exact(place)
            .expect("the place comes back");
        u32::from_le_bytes(result)
    }

    /// The designs of sheets over one table, in one request.
    pub fn designs<S: AsRef<[u8]>>(&mut self, table: &[u32], sheets: &[S]) -> Vec<Design> {
        let mut input = bytes_of(&[table.len() as u32]);
        input.extend(bytes_of(table));
        for sheet in sheets.iter().map(AsRef::as_ref) {
            input.push(sheet.len() as u8);
            input.extend(sheet);
        }
        let mut place = vec![0xee; 4 * (1 + NUMBERS) * sheets.len()];
        let done = self.call(Handle::Designs, &input, &mut place);
        assert_eq!(done as usize, sheets.len(), "every design is done");
        let design = |words: &[u32]| {
            let number = |k: usize| i64::from(words[1 + k] as i32);
            (words[0], std::array::from_fn(number))
        };
        numbers_of(&place)
            .chunks_exact(1 + NUMBERS)
            .map(design)
            .collect()
    }
}

/// Numbers as the bytes that a handle takes.
pub fn bytes_of(numbers: &[u32]) -> Vec<u8> {
    numbers.iter().flat_map(|n| n.to_le_bytes()).collect()
}

/// And back.
pub fn numbers_of(bytes: &[u8]) -> Vec<u32> {
    let number = |four: &[u8]| u32::from_le_bytes([four[0], four[1], four[2], four[3]]);
    bytes.chunks_exact(4).map(number).collect()
}
