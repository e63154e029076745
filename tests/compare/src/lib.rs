//! The count that both binaries keep.

use std::collections::BTreeMap;
use std::fmt::Debug;

/// What was compared, and what differed; how often each number occurred.
#[derive(Default)]
pub struct Tally {
    pub passed: usize,
    pub failed: usize,
    pub numbers: BTreeMap<u8, usize>,
}

impl Tally {
    pub fn note<T: PartialEq + Debug>(&mut self, what: &str, ours: T, wanted: T, input: &[&[u8]]) {
        if ours == wanted {
            self.passed += 1;
            return;
        }
        self.failed += 1;
        if self.failed <= 10 {
            println!("{what}: ours {ours:?}, wanted {wanted:?}");
            for part in input {
                println!("  {}", String::from_utf8_lossy(part).escape_debug());
            }
        }
    }

    /// Prints the count; every one of the numbers must have occurred.
    pub fn end(self, numbers: &[u8]) -> ! {
        println!("numbers: {:?}", self.numbers);
        for number in numbers {
            assert!(self.numbers.contains_key(number), "number {number} never occurred");
        }
        println!("{} passed, {} failed", self.passed, self.failed);
        std::process::exit((self.failed != 0) as i32);
    }
}
