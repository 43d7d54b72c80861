//! Blocks: which II belongs to which, what their first II has, and how their
//! events stand to each other and to the ledger.

use super::antigens::{Antigens, First};
use super::seen::Seen;
use super::{Empty, Field, Given};
use crate::check::code::Code;
use crate::check::findings::Finding;
use crate::check::forms::Submission;
use crate::check::ledger::{Edit, Lent, Name};

#[derive(Clone, Copy, PartialEq)]
struct Block {
    name: Name,
    submission: Submission,
}

/// An II that is in a block, by the block's number.
struct Member {
    line: u32,
    block: u32,
}

#[derive(Default)]
pub struct Blocks {
    all: Vec<Block>,
    members: Vec<Member>,
    /// Whether the last II is in the last block, and whether it is its first.
    is_in_block: bool,
    is_first: bool,
    /// The antigens of the block's first II.
    first: First,
    /// The sound lots of the block so far.
    lots: Seen,
}

/// What the blocks come to, when the file is read.
#[derive(Default)]
pub struct Settled {
    pub findings: Vec<Finding>,
    pub edits: Vec<Edit>,
    pub added: u32,
    pub changed: u32,
    pub deleted: u32,
}

impl Blocks {
    /// What comes next joins no block before it.
    pub fn leave(&mut self) {
        self.is_in_block = false;
    }

    /// An II that is in a block; whether rule 14 finds its lot in the block.
    pub fn enter(
        &mut self,
        line: u32,
        name: Name,
        submission: Submission,
        lot: Field<Code>,
    ) -> bool {
        let block = Block { name, submission };
        self.is_first = !self.is_in_block || self.all.last() != Some(&block);
        if self.is_first {
            self.is_in_block = true;
            self.all.push(block);
            self.lots.clear();
        }
        let block = self.all.len() as u32 - 1;
        self.members.push(Member { line, block });
        match lot {
            Given(lot) => self.lots.again(lot),
            Empty => self.lots.again(Code::EMPTY),
            _ => false,
        }
    }

    /// The end of an II's antigens: its line if rule 13 finds that they are not
    /// those of the block's first II.
    pub fn end_immunization(&mut self, antigens: &mut Antigens) -> Option<u32> {
        if !self.is_in_block {
            return None;
        }
        if self.is_first {
            self.first.take(antigens);
            return None;
        }
        let line = self.members.last()?.line;
        self.first.differs(antigens).then_some(line)
    }

    /// Rules 15 to 18, and the edits of the ledger: the blocks in the order of
    /// their events, along the ledger as lent.
    pub fn settle(&self, lent: &Lent) -> Settled {
        let mut settled = Settled::default();
        let mut rules = vec![Rules::default(); self.all.len()];
        let mut slot = 0;
        let mut before = None;
        for number in self.by_event() {
            let Block { name, submission } = self.all[number];
            while lent.live.get(slot).is_some_and(|live| *live < name) {
                slot += 1;
            }
            let is_live = lent.live.get(slot) == Some(&name);
            rules[number] = Rules {
                is_repeat: before == Some(name),
                of_ledger: ledger_rule(submission, is_live),
            };
            before = Some(name);
            match submission {
                Submission::Add => {
                    settled.added += 1;
                    settled.edits.push(Edit::Add(slot, name));
                }
                Submission::Change => settled.changed += 1,
                Submission::Delete => {
                    settled.deleted += 1;
                    settled.edits.push(Edit::Delete(slot));
                }
            }
        }
        settled.findings = self.findings(&rules);
        settled
    }

    /// The blocks' numbers in the order of their events, those of one event in
    /// the order of the file.
    fn by_event(&self) -> Vec<usize> {
        let mut order: Vec<(u64, usize)> = self
            .all
            .iter()
            .enumerate()
            .map(|(number, block)| (block.name.uli_and_date, number))
            .collect();
        order.sort_unstable();
        for same in order.chunk_by_mut(|one, other| one.0 == other.0) {
            if same.len() > 1 {
                same.sort_by_key(|&(_, number)| self.all[number].name.vaccine);
            }
        }
        order.into_iter().map(|(_, number)| number).collect()
    }

    /// On each II of a block what the block's rules say, in the list's order.
    fn findings(&self, rules: &[Rules]) -> Vec<Finding> {
        let mut findings = Vec::new();
        for &Member { line, block } in &self.members {
            let Rules {
                is_repeat,
                of_ledger,
            } = rules[block as usize];
            if let Some(rule) = of_ledger {
                findings.push(Finding {
                    line,
                    field: 4,
                    rule,
                });
            }
            if is_repeat {
                findings.push(Finding {
                    line,
                    field: 8,
                    rule: 15,
                });
            }
        }
        findings
    }
}

/// What rules 15 to 18 say of a block.
#[derive(Clone, Copy, Default)]
struct Rules {
    is_repeat: bool,
    of_ledger: Option<u8>,
}

fn ledger_rule(submission: Submission, is_live: bool) -> Option<u8> {
    match (submission, is_live) {
        (Submission::Add, true) => Some(16),
        (Submission::Change, false) => Some(17),
        (Submission::Delete, false) => Some(18),
        _ => None,
    }
}
