//! Makes the benchmark's inputs, the same on every machine: `inputs KIND COUNT` writes them to standard output.
//! `valid` sheets have no bad field, and one in four has a side slope; `mixed` ones are damaged one time in four; `record` is
//! a level file of made tides.

#[path = "../tests/second/second.rs"]
mod second;

use second::random::{self, Random};
use second::sheet::{self, BYTES};
use std::io::{self, BufWriter, Write};

fn valid(rng: &mut Random) -> Vec<u8> {
    sheet::pack(&random::valid_sheet(rng)).to_vec()
}

/// Damaged ones keep their 28 bytes, so that those behind them stay where they are.
fn mixed(rng: &mut Random) -> Vec<u8> {
    let mut bytes = match rng.below(4) {
        0 => random::damaged(rng),
        _ => valid(rng),
    };
    bytes.resize(BYTES, 0);
    bytes
}

/// A tide of 12.4 hours and a moon of 354 in straight lines, with a little noise; one hour in a thousand is missing.
fn reading(rng: &mut Random, hour: u64) -> Vec<u8> {
    let wave = |period: u64, height: u64| {
        let part = hour * 10 % period;
        let rise = part.min(period - part);
        (2 * height * rise / period) as i64
    };
    let level = match hour % 1_000 {
        17 => -9_999,
        _ => 100 + wave(124, 140) + wave(3_540, 50) + rng.between(-5, 5),
    };
    (level as i16).to_be_bytes().to_vec()
}

fn main() -> io::Result<()> {
    let words: Vec<String> = std::env::args().collect();
    let [_, kind, count] = words.as_slice() else {
        panic!("inputs KIND COUNT");
    };
    let count: u64 = count.parse().expect("a count");
    let mut rng = Random::new(8);
    let mut out = BufWriter::new(io::stdout().lock());
    for number in 0..count {
        out.write_all(&match kind.as_str() {
            "valid" => valid(&mut rng),
            "mixed" => mixed(&mut rng),
            "record" => reading(&mut rng, number),
            _ => panic!("no inputs are called {kind}"),
        })?;
    }
    out.flush()
}
