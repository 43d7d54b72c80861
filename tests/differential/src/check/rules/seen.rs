//! Which codes were seen before: few as a rule, and then in a list.

use crate::check::code::Code;
use std::collections::HashSet;

const FEW: usize = 8;

#[derive(Default)]
pub struct Seen {
    few: Vec<Code>,
    many: HashSet<Code>,
}

impl Seen {
    /// Notes a code; whether it was seen before.
    pub fn again(&mut self, code: Code) -> bool {
        if self.few.contains(&code) {
            return true;
        }
        if self.few.len() < FEW {
            self.few.push(code);
            return false;
        }
        !self.many.insert(code)
    }

    pub fn clear(&mut self) {
        self.few.clear();
        if !self.many.is_empty() {
            self.many = HashSet::new();
        }
    }
}
