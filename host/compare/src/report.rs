//! Named tests, what each compared, and the count at the end.

use std::fmt::Debug;
use std::panic::{catch_unwind, AssertUnwindSafe};
use std::process::ExitCode;

/// A named test. `planned` is how many comparisons it makes: one that makes fewer or more fails, so
/// that a loop that never ran does not look green.
pub struct Test {
    name: String,
    planned: u64,
    body: Box<dyn Fn(&mut Tally)>,
}

pub fn test(name: impl Into<String>, planned: u64, body: impl Fn(&mut Tally) + 'static) -> Test {
    Test {
        name: name.into(),
        planned,
        body: Box::new(body),
    }
}

/// What one test compared.
#[derive(Default)]
pub struct Tally {
    compared: u64,
    different: u64,
    first: Option<String>,
}

impl Tally {
    /// Compares what the product gave with what is right; `place` says where, if they differ.
    pub fn same<T: PartialEq + Debug>(
        &mut self,
        place: impl FnOnce() -> String,
        product: T,
        right: T,
    ) {
        self.compared += 1;
        if product == right {
            return;
        }
        self.different += 1;
        if self.first.is_none() {
            self.first = Some(format!(
                "{}: product {product:x?}, right {right:x?} (in hex)",
                place()
            ));
        }
    }

    /// Takes in what another thread compared of the same test.
    pub fn join(&mut self, other: Tally) {
        self.compared += other.compared;
        self.different += other.different;
        self.first = self.first.take().or(other.first);
    }
}

/// Runs the tests in order and prints how each went.
pub fn run_all(tests: &[Test]) -> ExitCode {
    let mut passed = 0;
    let mut failed = 0;
    for test in tests {
        match run(test) {
            Ok(compared) => {
                passed += 1;
                println!("ok    {}: {compared} compared", test.name);
            }
            Err(why) => {
                failed += 1;
                println!("FAIL  {}: {why}", test.name);
            }
        }
    }
    println!("{passed} passed, {failed} failed");
    if failed == 0 && passed > 0 {
        ExitCode::SUCCESS
    } else {
        ExitCode::FAILURE
    }
}

fn run(test: &Test) -> Result<u64, String> {
    let mut tally = Tally::default();
    let ended = catch_unwind(AssertUnwindSafe(|| (test.body)(&mut tally)));
    if ended.is_err() {
        return Err("panicked".to_string());
    }
    if let Some(first) = tally.first {
        return Err(format!(
            "{} of {} differ; first at {first}",
            tally.different, tally.compared
        ));
    }
    if tally.compared != test.planned {
        return Err(format!(
            "{} compared, {} planned",
            tally.compared, test.planned
        ));
    }
    Ok(tally.compared)
}
