//! How the events of a chart recur.

use crate::check::shape::Kind;
use crate::write::chart;
use std::collections::{BTreeSet, HashMap};

#[derive(Clone, Copy, Debug, PartialEq, Eq, PartialOrd, Ord)]
pub enum Events {
    NoRecord,
    NothingMoves,
    LotsBroughtTogether,
    MoreThanTwoBroughtTogether,
    EqualWithoutBlanksOnly,
    NoVaccineTwice,
    UnderTwoPatientRecords,
    DifferInUliOnly,
    DifferInTypeOnly,
    DifferInDateOnly,
    DifferInVaccineOnly,
}

/// The kinds of recurrence, those of one field last.
pub const EVENTS: [Events; 11] = [
    Events::NoRecord,
    Events::NothingMoves,
    Events::LotsBroughtTogether,
    Events::MoreThanTwoBroughtTogether,
    Events::EqualWithoutBlanksOnly,
    Events::NoVaccineTwice,
    Events::UnderTwoPatientRecords,
    Events::DifferInUliOnly,
    Events::DifferInTypeOnly,
    Events::DifferInDateOnly,
    Events::DifferInVaccineOnly,
];
const IN_ONE_FIELD: usize = EVENTS.len() - 4;
/// An event as written, and as padded.
type Four<'a> = [&'a [u8]; 4];

struct Met {
    patient: usize,
    /// Its place among the immunizations of the chart.
    place: usize,
    times: usize,
}

/// What is met in a chart.
pub fn of_events(records: &[(Kind, Vec<&[u8]>)]) -> BTreeSet<Events> {
    let mut found = BTreeSet::new();
    let mut met: HashMap<Four, Met> = HashMap::new();
    let mut padded: HashMap<Four, Four> = HashMap::new();
    let (mut patient, mut place) = (0, 0);
    for (kind, fields) in records {
        patient += usize::from(*kind == Kind::IP);
        if *kind != Kind::II {
            continue;
        }
        place += 1;
        let as_padded: Four = [fields[0], fields[1], fields[3], fields[5]];
        let event = as_padded.map(chart::as_written);
        let before = met.entry(event).or_insert(Met {
            patient,
            place,
            times: 0,
        });
        if before.times > 0 && before.patient != patient {
            found.insert(Events::UnderTwoPatientRecords);
            (before.patient, before.times) = (patient, 0);
        }
        if before.times > 0 && before.place + 1 < place {
            found.insert(Events::LotsBroughtTogether);
            if before.times > 1 {
                found.insert(Events::MoreThanTwoBroughtTogether);
            }
        }
        if before.times > 0 && event[3].is_empty() {
            found.insert(Events::NoVaccineTwice);
        }
        if before.times > 0 && padded[&event] != as_padded {
            found.insert(Events::EqualWithoutBlanksOnly);
        }
        padded.insert(event, as_padded);
        (before.place, before.times) = (place, before.times + 1);
    }
    if !records.is_empty() && !found.contains(&Events::LotsBroughtTogether) {
        found.insert(Events::NothingMoves);
    }
    found.extend(of_one_field(met.keys().take(20).copied().collect()));
    found
}

/// Events that differ in one field.
fn of_one_field(events: Vec<Four>) -> BTreeSet<Events> {
    let mut found = BTreeSet::new();
    for (number, one) in events.iter().enumerate() {
        for other in &events[..number] {
            let differ: Vec<usize> = (0..4).filter(|&it| one[it] != other[it]).collect();
            if let [field] = differ[..] {
                found.insert(EVENTS[IN_ONE_FIELD + field]);
            }
        }
    }
    found
}
