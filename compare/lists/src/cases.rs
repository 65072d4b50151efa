//! Cases in the order they were made, each once.

use std::collections::HashSet;

#[derive(Default)]
pub struct Cases {
    made: Vec<Vec<u8>>,
    seen: HashSet<Vec<u8>>,
}

impl Cases {
    pub fn add(&mut self, case: impl Into<Vec<u8>>) {
        let case = case.into();
        if self.seen.insert(case.clone()) {
            self.made.push(case);
        }
    }

    pub fn into_vec(self) -> Vec<Vec<u8>> {
        self.made
    }
}
