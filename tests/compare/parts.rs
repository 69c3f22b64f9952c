//! A comparison in parts, each with a seed of its own, over the machine's cores: the same cases on every machine.

use std::sync::atomic::{AtomicU64, Ordering};

/// Does the parts 1 to `parts`, and gives the sum of what they count.
pub fn in_parts(name: &str, parts: u64, part: impl Fn(u64) -> u64 + Sync) -> u64 {
    let next = AtomicU64::new(1);
    let sum = AtomicU64::new(0);
    let work = || loop {
        let number = next.fetch_add(1, Ordering::Relaxed);
        if number > parts {
            break;
        }
        sum.fetch_add(part(number), Ordering::Relaxed);
        if number % (parts / 8).max(1) == 0 {
            println!("{name}: part {number} of {parts} is done");
        }
    };
    let cores = std::thread::available_parallelism().map_or(1, |cores| cores.get());
    std::thread::scope(|scope| {
        for _ in 0..cores {
            scope.spawn(work);
        }
    });
    sum.into_inner()
}
