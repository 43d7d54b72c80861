//! The ledger: slots of 38 bytes, the live ones first and ascending strictly,
//! free ones after them.

use super::code::Code;
use super::{date, forms, words};

pub const SLOT_WIDTH: usize = 38;
pub const SLOTS_MOST: usize = 100_000;
pub const KIND_FREE: u8 = 0;
pub const KIND_LIVE: u8 = 1;

/// ULI 9, date 8, vaccine 20 padded: what names an event.
pub type Event = [u8; 37];

pub fn event(uli: &[u8], date: &[u8], vaccine: &[u8]) -> Event {
    let mut event = [b' '; 37];
    event[..9].copy_from_slice(uli);
    event[9..17].copy_from_slice(date);
    event[17..17 + vaccine.len()].copy_from_slice(vaccine);
    event
}

/// More than any date.
const DATES: u64 = 100_000_000;

/// What names an event, in numbers, which order events as their bytes do.
#[derive(Clone, Copy, Debug, PartialEq, Eq, PartialOrd, Ord)]
pub struct Name {
    /// The ULI's nine digits and the date's eight, as one number.
    pub uli_and_date: u64,
    pub vaccine: Code,
}

impl Name {
    pub fn new(uli: u32, date: u32, vaccine: Code) -> Name {
        Name {
            uli_and_date: u64::from(uli) * DATES + u64::from(date),
            vaccine,
        }
    }

    fn of(event: &Event) -> Option<Name> {
        let uli = forms::uli(&event[..9])?;
        let date = date::of_text(&event[9..17])?;
        let vaccine = event.last_chunk().and_then(Code::of_padded)?;
        Some(Name::new(uli, date, vaccine))
    }

    fn event(&self) -> Event {
        let (uli, date) = (self.uli_and_date / DATES, self.uli_and_date % DATES);
        let mut event = [0; 37];
        event[..8].copy_from_slice(&words::digits_of((uli / 10) as u32));
        event[8] = b'0' + (uli % 10) as u8;
        event[9..17].copy_from_slice(&words::digits_of(date as u32));
        event[17..].copy_from_slice(&self.vaccine.bytes());
        event
    }
}

/// The ledger as lent: the names of its live events, ascending.
pub struct Lent {
    pub live: Vec<Name>,
    pub slots: usize,
}

impl Lent {
    /// The ledger that the bytes are, unless malformed.
    pub fn read(bytes: &[u8]) -> Option<Lent> {
        let (slots, rest) = bytes.as_chunks::<SLOT_WIDTH>();
        if !rest.is_empty() || slots.len() > SLOTS_MOST {
            return None;
        }
        let count = slots.partition_point(|slot| slot[0] == KIND_LIVE);
        let mut live: Vec<Name> = Vec::with_capacity(count);
        for slot in &slots[..count] {
            let name = Name::of(live_event(slot)?)?;
            if live.last().is_some_and(|before| *before >= name) {
                return None;
            }
            live.push(name);
        }
        let are_free = |bytes: &[u8]| bytes.iter().fold(0, |any, &byte| any | byte) == 0;
        are_free(slots[count..].as_flattened()).then_some(Lent {
            live,
            slots: slots.len(),
        })
    }
}

/// The event of a slot, if it is of kind 1.
fn live_event(slot: &[u8; SLOT_WIDTH]) -> Option<&Event> {
    slot.last_chunk().filter(|_| slot[0] == KIND_LIVE)
}

/// A change of the ledger at a slot that was live, or at the one after these.
#[derive(Clone, Copy)]
pub enum Edit {
    /// The event goes in before the slot.
    Add(usize, Name),
    /// The slot's event goes out.
    Delete(usize),
}

/// The ledger after these edits, which ascend. It has the slots for them.
pub fn apply(ledger: &mut [u8], live: usize, edits: &[Edit]) {
    let mut bytes = Vec::with_capacity(ledger.len());
    let mut kept = 0;
    for edit in edits {
        let (Edit::Add(slot, _) | Edit::Delete(slot)) = *edit;
        bytes.extend_from_slice(&ledger[kept * SLOT_WIDTH..slot * SLOT_WIDTH]);
        kept = match edit {
            Edit::Add(..) => slot,
            Edit::Delete(_) => slot + 1,
        };
        if let Edit::Add(_, name) = edit {
            bytes.push(KIND_LIVE);
            bytes.extend_from_slice(&name.event());
        }
    }
    bytes.extend_from_slice(&ledger[kept * SLOT_WIDTH..live * SLOT_WIDTH]);
    let (after, free) = ledger.split_at_mut(bytes.len());
    after.copy_from_slice(&bytes);
    free.fill(KIND_FREE);
}
