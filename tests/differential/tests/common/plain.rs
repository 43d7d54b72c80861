//! The writer again, in the plainest words and slowly; also with a slip.

use super::charts::WIDTHS;
use super::slips::Slip;
use differential::case::writing::WriteCase;
use differential::case::FILL;
use differential::write::{Written, RECORD, ROOM, WRITTEN};

/// The answer and the area after.
pub fn write(case: &WriteCase, slip: Slip) -> (Written, Vec<u8>) {
    let mut area = vec![FILL; case.room];
    let Some(file) = file(case, slip) else {
        let is_room = slip == Slip::RoomFirst && case.room == 0;
        let answer = if is_room { ROOM } else { RECORD };
        return (Written { answer, length: 0 }, area);
    };
    let most = match slip {
        Slip::LongFileWritten => case.room,
        Slip::ExactFitRefused => case.room.min(5_000_000).saturating_sub(1),
        Slip::OneShortWritten => case.room.min(5_000_000) + 1,
        _ => case.room.min(5_000_000),
    };
    let kept = file.len().min(case.room);
    if file.len() > most {
        let length = if slip == Slip::LengthAtRoom {
            file.len() as u32
        } else {
            0
        };
        if slip == Slip::AreaTouchedAtRoom {
            area[..kept].copy_from_slice(&file.as_bytes()[..kept]);
        }
        return (
            Written {
                answer: ROOM,
                length,
            },
            area,
        );
    }
    area[..kept].copy_from_slice(&file.as_bytes()[..kept]);
    if slip == Slip::AreaFilled {
        area[kept..].fill(b' ');
    }
    let length = file.len() as u32;
    (
        Written {
            answer: WRITTEN,
            length,
        },
        area,
    )
}

/// The finished file, of any length, or nothing where RECORD is due.
pub fn file(case: &WriteCase, slip: Slip) -> Option<String> {
    let text = |bytes: &[u8], most| {
        let text = std::str::from_utf8(bytes).ok()?;
        let is_right =
            (1..=most).contains(&text.len()) && text.bytes().all(|it| it.is_ascii_alphanumeric());
        is_right.then(|| text.to_string())
    };
    let prefix = match slip {
        Slip::PaddedPrefixTaken => text(case.prefix.trim_ascii(), 3)?,
        _ => text(&case.prefix, 3)?,
    };
    let batch = text(&case.batch, 10)?;
    let records = records_of(&case.chart, slip)?;
    if slip == Slip::EmptyChartRefused && records.is_empty() {
        return None;
    }
    let count = records.len() + if slip == Slip::CountOfRecords { 0 } else { 3 };
    let end = if slip == Slip::CarriageReturns {
        "\r\n"
    } else {
        "\n"
    };
    let mut lines = vec!["IV|7.2|".to_string(), format!("IH|{prefix}|{batch}|")];
    for (place, record) in ordered(records, slip).iter().enumerate() {
        let number = match slip {
            Slip::OldNumbers => record.number,
            Slip::NumbersFromZero => place,
            _ => place + 1,
        };
        let fields: Vec<String> = record
            .fields
            .iter()
            .map(|it| as_written(it, slip))
            .collect();
        lines.push(format!("{}|{number}|{}|", record.name, fields.join("|")));
    }
    lines.push(format!("IF|{count}|0|"));
    Some(lines.iter().map(|line| format!("{line}{end}")).collect())
}

fn as_written(field: &str, slip: Slip) -> String {
    match slip {
        Slip::BlanksBeforeStay => field.trim_end_matches(' ').to_string(),
        Slip::BlanksBehindStay => field.trim_start_matches(' ').to_string(),
        Slip::BlanksInsideGo => field.replace(' ', ""),
        _ => field.trim_matches(' ').to_string(),
    }
}

#[derive(Clone)]
struct Record {
    name: &'static str,
    /// Its place in the chart, from 1.
    number: usize,
    /// Fields 3 to the last, in their widths.
    fields: Vec<String>,
}

fn records_of(chart: &[u8], slip: Slip) -> Option<Vec<Record>> {
    let mut records = Vec::new();
    let mut at = 0;
    while at < chart.len() {
        let (name, widths) = WIDTHS.get(usize::from(chart[at]).checked_sub(1)?)?;
        at += 1;
        let mut fields = Vec::new();
        for width in *widths {
            let field = chart.get(at..at + width)?;
            let is_right = |&byte: &u8| {
                (32..=126).contains(&byte) && (byte != b'|' || slip == Slip::PipesTaken)
            };
            if !field.iter().all(is_right) {
                return None;
            }
            fields.push(String::from_utf8(field.to_vec()).ok()?);
            at += width;
        }
        let number = records.len() + 1;
        records.push(Record {
            name,
            number,
            fields,
        });
    }
    let types: Vec<&str> = records.iter().map(|record| record.name).collect();
    is_in_order(&types).then_some(records)
}

/// A patient is one IP, then any number of II with at least one IE, then any number
/// of IN with at least one IA, at least one II or IN in all.
fn is_in_order(types: &[&str]) -> bool {
    let mut rest = types;
    while let ["IP", behind @ ..] = rest {
        rest = behind;
        let before = rest.len();
        for [first, second] in [["II", "IE"], ["IN", "IA"]] {
            while rest.first() == Some(&first) {
                let counts = rest[1..].iter().take_while(|it| **it == second).count();
                if counts == 0 {
                    return false;
                }
                rest = &rest[1 + counts..];
            }
        }
        if rest.len() == before {
            return false;
        }
    }
    rest.is_empty()
}

/// A patient record, each II with its IE records, and the rest.
struct Patient {
    record: Record,
    immunizations: Vec<Vec<Record>>,
    rest: Vec<Record>,
}

fn ordered(records: Vec<Record>, slip: Slip) -> Vec<Record> {
    let mut patients: Vec<Patient> = Vec::new();
    for record in records {
        if record.name == "IP" {
            patients.push(Patient {
                record,
                immunizations: Vec::new(),
                rest: Vec::new(),
            });
            continue;
        }
        let patient = patients.last_mut().expect("a patient comes first");
        match record.name {
            "II" => patient.immunizations.push(vec![record]),
            "IE" => patient
                .immunizations
                .last_mut()
                .expect("an II")
                .push(record),
            _ => patient.rest.push(record),
        }
    }
    if slip == Slip::AcrossPatients {
        join_patients(&mut patients);
    }
    let mut list = Vec::new();
    for patient in patients {
        list.push(patient.record);
        list.extend(in_blocks(patient.immunizations, slip).concat());
        list.extend(patient.rest);
    }
    list
}

fn join_patients(patients: &mut [Patient]) {
    for later in 1..patients.len() {
        let (before, behind) = patients.split_at_mut(later);
        behind[0].immunizations.retain(|it| {
            let named = |patient: &&mut Patient| {
                patient
                    .immunizations
                    .iter()
                    .any(|other| event(other, Slip::None) == event(it, Slip::None))
            };
            match before.iter_mut().find(named) {
                Some(patient) => {
                    patient.immunizations.push(it.clone());
                    false
                }
                None => true,
            }
        });
    }
}

/// For each immunization with none of its event before it, all of its event.
fn in_blocks(given: Vec<Vec<Record>>, slip: Slip) -> Vec<Vec<Record>> {
    if slip == Slip::OrderKept {
        return given;
    }
    let events: Vec<[String; 4]> = given.iter().map(|it| event(it, slip)).collect();
    let same = |one: usize, other: usize| {
        let are_apart =
            slip == Slip::EmptyVaccinesApart && one != other && events[one][3].is_empty();
        events[one] == events[other] && !are_apart
    };
    let mut places = Vec::new();
    for first in 0..given.len() {
        if (0..first).any(|before| same(before, first)) {
            continue;
        }
        let mut block: Vec<usize> = (first..given.len()).filter(|&it| same(first, it)).collect();
        match slip {
            Slip::BroughtBeforeTheFirst => block.rotate_left(1),
            Slip::BroughtBehindTheFirst => block[1..].reverse(),
            _ => (),
        }
        places.extend(block);
    }
    let mut list: Vec<Vec<Record>> = places.iter().map(|&it| given[it].clone()).collect();
    if slip == Slip::AntigensStay {
        for (place, immunization) in list.iter_mut().enumerate() {
            immunization.truncate(1);
            immunization.extend_from_slice(&given[place][1..]);
        }
    }
    list
}

/// ULI, submission type, date and vaccine.
fn event(immunization: &[Record], slip: Slip) -> [String; 4] {
    [
        (3, Slip::UliNotCompared),
        (4, Slip::TypeNotCompared),
        (6, Slip::DateNotCompared),
        (8, Slip::None),
    ]
    .map(|(number, unread)| {
        let field = &immunization[0].fields[number - 3];
        match slip {
            Slip::PaddedFieldsCompared => field.clone(),
            Slip::FirstOfVaccineCompared if number == 8 => {
                as_written(field, slip).chars().take(4).collect()
            }
            _ if slip == unread && slip != Slip::None => String::new(),
            _ => as_written(field, slip),
        }
    })
}
