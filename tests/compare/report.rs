//! What a comparison says: its count while it works, the first difference, and the end.

pub struct Report {
    name: &'static str,
    cases: u64,
    wanted: u64,
}

impl Report {
    pub fn new(name: &'static str, wanted: u64) -> Report {
        Report {
            name,
            cases: 0,
            wanted,
        }
    }

    /// One case: both answers, and how to show the input where they differ.
    pub fn case<T: PartialEq + std::fmt::Debug>(
        &mut self,
        proved: T,
        second: T,
        input: impl Fn() -> String,
    ) {
        if proved != second {
            println!("{}: case {} differs", self.name, self.cases);
            println!("  input   {}", input());
            println!("  proved  {proved:?}");
            println!("  second  {second:?}");
            std::process::exit(1);
        }
        self.cases += 1;
        if self.cases % 100_000 == 0 {
            println!("{}: {} cases so far", self.name, self.cases);
        }
    }

    /// How many cases there were.
    pub fn cases(&self) -> u64 {
        self.cases
    }

    /// Cases that a part of the comparison has counted.
    pub fn add(&mut self, cases: u64) {
        self.cases += cases;
    }

    pub fn end(&self) {
        if self.cases < self.wanted {
            println!(
                "{}: only {} cases ran of {}",
                self.name, self.cases, self.wanted
            );
            std::process::exit(1);
        }
        println!("{}: {} cases, all equal", self.name, self.cases);
    }
}

pub fn hex(bytes: &[u8]) -> String {
    bytes.iter().map(|byte| format!("{byte:02x}")).collect()
}
