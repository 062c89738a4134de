//! Says which case panicked.

use std::fmt::Display;
use std::thread;

/// Says its kind of case and the case when it is dropped by a panic.
pub struct Telling<T: Display> {
    pub kind: &'static str,
    pub case: T,
}

impl<T: Display> Drop for Telling<T> {
    fn drop(&mut self) {
        if thread::panicking() {
            eprintln!("this was the {} {}", self.kind, self.case);
        }
    }
}
