//! Families of calls: how many were made, which failed.

use crate::outside;
use std::fmt::Debug;

/// The most failures of a family that are shown one by one.
const SHOWN: usize = 20;

/// The fewest calls that a run makes.
const CALLS: usize = 100_000;

/// What is wrong with a call, nothing if it is as expected.
pub type Complaints = Vec<String>;

/// The complaint that `got` is not `due`.
pub fn differing<T: PartialEq + Debug>(due: T, got: T) -> Complaints {
    (due != got).then(|| format!("expected {due:?}, got {got:?}")).into_iter().collect()
}

/// A family: its name, the calls made and the calls that failed.
struct Family {
    name: String,
    calls: usize,
    failures: usize,
}

/// The families so far; the last one is under way.
#[derive(Default)]
pub struct Tests {
    families: Vec<Family>,
}

impl Tests {
    /// Begins the family `name`.
    pub fn family(&mut self, name: &str) {
        outside::watch(name);
        self.families.push(Family { name: String::from(name), calls: 0, failures: 0 });
    }

    /// Counts a call of the family under way, described by `what`.
    pub fn call(&mut self, what: impl Fn() -> String, complaints: Complaints) {
        self.families.last_mut().expect("a family").calls += 1;
        if !complaints.is_empty() {
            self.failed(&what(), &complaints);
        }
    }

    /// Fails the family under way unless `holds`.
    pub fn require(&mut self, what: &str, holds: bool) {
        if !holds {
            self.failed(what, &[String::from("does not hold")]);
        }
    }

    /// Counts a failure and shows it.
    fn failed(&mut self, what: &str, complaints: &[String]) {
        let family = self.families.last_mut().expect("a family");
        family.failures += 1;
        if family.failures <= SHOWN {
            println!("failed {}: {what}: {}", family.name, complaints.join("; "));
        }
    }

    /// Shows the counts, the number of families that passed and failed last; whether all passed.
    pub fn close(self) -> bool {
        let mut passed = 0;
        let mut failed = 0;
        for Family { name, calls, failures } in &self.families {
            println!("{name}: {calls} calls, {failures} failed");
            if *failures == 0 && *calls > 0 {
                passed += 1;
            } else {
                failed += 1;
            }
        }
        let calls: usize = self.families.iter().map(|f| f.calls).sum();
        println!("{calls} calls in {} families", self.families.len());
        if calls < CALLS {
            println!("failed: fewer than {CALLS} calls");
            failed += 1;
        }
        println!("{passed} passed, {failed} failed");
        failed == 0
    }
}
