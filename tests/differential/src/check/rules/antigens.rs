//! The antigens of an II, with their counts.

use super::seen::Seen;
use crate::check::code::Code;

/// The IE lines of one II so far.
#[derive(Default)]
pub struct Antigens {
    given: Seen,
    lines: usize,
    /// The antigens with counts of the lines where both are sound.
    list: Vec<(Code, u32)>,
}

impl Antigens {
    pub fn clear(&mut self) {
        self.given.clear();
        self.lines = 0;
        self.list.clear();
    }

    pub fn is_empty(&self) -> bool {
        self.lines == 0
    }

    /// Notes an IE line; whether its antigen was already given.
    pub fn add(&mut self, antigen: Option<Code>, count: Option<u32>) -> bool {
        self.lines += 1;
        if let (Some(antigen), Some(count)) = (antigen, count) {
            self.list.push((antigen, count));
        }
        antigen.is_some_and(|antigen| self.given.again(antigen))
    }

    fn all_are_sound(&self) -> bool {
        self.list.len() == self.lines
    }
}

/// The antigens of the first II of a block.
#[derive(Default)]
pub struct First {
    are_sound: bool,
    list: Vec<(Code, u32)>,
    is_sorted: bool,
}

impl First {
    /// Takes over the antigens of an II.
    pub fn take(&mut self, antigens: &mut Antigens) {
        self.are_sound = antigens.all_are_sound();
        self.is_sorted = false;
        std::mem::swap(&mut self.list, &mut antigens.list);
    }

    /// Whether another II's are not the same set, if all are sound. Most are the
    /// same list.
    pub fn differs(&mut self, antigens: &mut Antigens) -> bool {
        if !self.are_sound || !antigens.all_are_sound() || self.list == antigens.list {
            return false;
        }
        if !self.is_sorted {
            to_set(&mut self.list);
            self.is_sorted = true;
        }
        to_set(&mut antigens.list);
        self.list != antigens.list
    }
}

/// Puts a list in order, each member once.
fn to_set(list: &mut Vec<(Code, u32)>) {
    list.sort_unstable();
    list.dedup();
}
