//! The self-test: counts what passes and what fails, and calls the tests of each part.

use crate::{
    test_addresses, test_bundle, test_cases, test_faults, test_form, test_lists, test_texts,
    test_totals,
};
use std::fmt::Debug;

#[derive(Default)]
pub struct Bench {
    passed: usize,
    failed: usize,
}

impl Bench {
    pub fn holds(&mut self, name: &str, right: bool) {
        if right {
            self.passed += 1;
        } else {
            self.failed += 1;
            println!("failed: {name}");
        }
    }

    pub fn same<T: PartialEq<U> + Debug, U: Debug>(&mut self, name: &str, found: T, due: U) {
        let right = found == due;
        self.holds(name, right);
        if !right {
            println!("  found {found:?}\n  due   {due:?}");
        }
    }
}

/// Runs all tests and says whether none failed.
pub fn run() -> bool {
    let mut bench = Bench::default();
    test_form::run(&mut bench);
    test_texts::run(&mut bench);
    test_faults::run(&mut bench);
    test_addresses::run(&mut bench);
    test_totals::run(&mut bench);
    test_lists::run(&mut bench);
    test_bundle::run(&mut bench);
    test_cases::run(&mut bench);
    println!("{} passed, {} failed", bench.passed, bench.failed);
    bench.failed == 0
}
