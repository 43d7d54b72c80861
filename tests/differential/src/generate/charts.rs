//! The generator of charts: the same seed and number give the same case.

mod damage;
mod long;
mod record;
mod sound;
mod wild;

use super::world::Text;
use crate::case::writing::WriteCase;
use crate::check::FILE_MOST;
use crate::random::Random;
pub use record::Record;

/// Charts are drawn apart from the cases of the check.
const CHARTS: u64 = 0x6368_6172_7473;

/// A call before its chart becomes bytes and its room is fixed.
#[derive(Clone)]
pub struct Draft {
    pub prefix: Text,
    pub batch: Text,
    pub records: Vec<Record>,
    /// What the written file is checked by.
    pub today: u32,
    pub book: Text,
    pub ledger: Text,
}

impl Draft {
    pub fn chart(&self) -> Text {
        self.records.iter().flat_map(Record::bytes).collect()
    }

    fn case(self, chart: Text) -> WriteCase {
        WriteCase {
            prefix: self.prefix,
            batch: self.batch,
            chart,
            room: 0,
            today: self.today,
            book: self.book,
            ledger: self.ledger,
        }
    }
}

/// The case of this number. Of 2,500 some twenty are long, the others are small; a
/// quarter of these is damaged.
pub fn case(seed: u64, number: u64) -> WriteCase {
    let mut random = Random::of(seed ^ CHARTS, number);
    let random = &mut random;
    if let Some(draft) = long::draft(random, number % 2500) {
        let chart = draft.chart();
        return with_room(random, draft.case(chart));
    }
    let mut draft = match random.below(10) {
        0..=4 => sound::draft(random),
        _ => wild::draft(random),
    };
    let chart = match random.percent(25) {
        true => damage::chart(random, &mut draft),
        false => draft.chart(),
    };
    with_room(random, draft.case(chart))
}

/// With a lent area: as long as the file, about so long, or of any length.
fn with_room(random: &mut Random, mut case: WriteCase) -> WriteCase {
    case.room = match case.file() {
        Some(file) => room_for(random, file.len()),
        None => match random.below(6) {
            0 => 0,
            1 if case.chart.len() > FILE_MOST / 10 => FILE_MOST,
            2..=4 if case.chart.len() > FILE_MOST / 10 => FILE_MOST + random.below(1000),
            _ => random.below(1000),
        },
    };
    case
}

fn room_for(random: &mut Random, length: usize) -> usize {
    match random.below(16) {
        0..=4 => length,
        5 | 6 => length - 1,
        7 | 8 => length + 1,
        9 => 0,
        10 => random.below(length),
        11 => length - random.below(12),
        12 => length + random.below(5000),
        13 if random.percent(2) => FILE_MOST + random.below(2),
        _ => length + random.below(40),
    }
}
