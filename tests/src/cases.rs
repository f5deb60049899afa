//! Cases worked out by hand, counted as they agree.

use crate::report::differs;
use std::fmt::Debug;

#[derive(Default)]
pub struct Cases(pub u32);

impl Cases {
    /// Ends the program if a case is not as worked out.
    pub fn same<T: PartialEq + Debug>(&mut self, name: &str, got: T, expected: T) {
        if got != expected {
            differs("worked cases", &[("case", name.to_string())], &expected, &got);
        }
        self.0 += 1;
    }
}
