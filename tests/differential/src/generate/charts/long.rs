//! Long charts: records whose numbers cross a power of ten, files about as long as
//! a file may be, and very many immunizations of one patient.

use super::record::Record;
use super::Draft;
use crate::check::shape::Kind;
use crate::check::FILE_MOST;
use crate::generate;
use crate::random::Random;
use crate::write;

/// The draft of this number; few have one.
pub fn draft(random: &mut Random, number: u64) -> Option<Draft> {
    let records = match number {
        // Small numbers of records are cheap, so there are more such charts.
        _ if number % 97 == 5 => {
            let round = [10, 10, 100, 100, 1000];
            counted(*random.pick(&round) - 1 + random.below(3))
        }
        240 => counted(9_999),
        480 => counted(10_000),
        720 => counted(10_001),
        960 => counted(99_998),
        1200 => counted(99_999),
        1440 => counted(100_000),
        1680 => counted(100_001),
        1920 => of_length(FILE_MOST - 1),
        2000 => of_length(FILE_MOST),
        2080 => of_length(FILE_MOST + 1),
        2160 => of_length(FILE_MOST + random.below(20_000)),
        2240 => many_immunizations(random),
        _ => return None,
    };
    Some(Draft {
        prefix: b"10".to_vec(),
        batch: b"000001".to_vec(),
        records,
        today: 20220930,
        book: generate::plain_book(),
        ledger: vec![0; 38 * 1000],
    })
}

const ULI: &str = "123456789";

fn patient() -> Record {
    let mut record = Record::blank(Kind::IP);
    record.set(3, ULI);
    record.set(8, "SMITH");
    record.set(25, "19500101");
    record
}

fn immunization(date: &str, lot: &str) -> Record {
    let mut record = Record::blank(Kind::II);
    let fields = [
        ULI, "A", "", date, "", "TESTV", "LA", "IM", "50", "0.5", "ML", "GSK", lot,
    ];
    for (place, text) in fields.into_iter().enumerate() {
        record.set(3 + place, text);
    }
    record
}

fn antigen_count() -> Record {
    let mut record = Record::blank(Kind::IE);
    [ULI, "TESTA", "1"]
        .iter()
        .zip(3..)
        .for_each(|(text, number)| record.set(number, text));
    record
}

fn not_immunized() -> Record {
    let mut record = Record::blank(Kind::IN);
    let fields = [ULI, "A", "20220901", "REF", "10"];
    fields
        .iter()
        .zip(3..)
        .for_each(|(text, number)| record.set(number, text));
    record
}

fn antigen_not_administered() -> Record {
    let mut record = Record::blank(Kind::IA);
    [ULI, "TESTA"]
        .iter()
        .zip(3..)
        .for_each(|(text, number)| record.set(number, text));
    record
}

/// So many sound records, nine at least: three lots of two events, then antigens
/// not administered.
fn counted(records: usize) -> Vec<Record> {
    let mut list = vec![patient()];
    for (date, lot) in [("20220901", "L1"), ("20220902", "L1"), ("20220901", "L2")] {
        list.extend([immunization(date, lot), antigen_count()]);
    }
    list.push(not_immunized());
    list.resize(records.max(9), antigen_not_administered());
    list
}

/// Records whose file has exactly this length, made up by a comment.
fn of_length(length: usize) -> Vec<Record> {
    let line = b"IA|123456|123456789|TESTA|\n".len();
    let mut records = counted(length / line);
    loop {
        let missing = length as i64 - file_length(&records) as i64;
        match missing {
            0 => return records,
            1..=1600 => records[1].set(22, vec![b'C'; missing as usize]),
            // A line or more too long or too short.
            _ => {
                let lines = (missing - 800).div_euclid(line as i64);
                let records_now = records.len() as i64 + lines;
                records.resize(records_now as usize, antigen_not_administered());
            }
        }
    }
}

/// The length of the finished file, over the longest too.
fn file_length(records: &[Record]) -> usize {
    let bytes: Vec<u8> = records.iter().flat_map(Record::bytes).collect();
    let records = write::read(b"10", b"000001", &bytes).expect("sound records");
    let file = write::file(b"10", b"000001", &records, usize::MAX);
    file.expect("a file of any length").len()
}

/// One patient with thousands of immunizations, of one event, of many, or of some
/// in turn.
fn many_immunizations(random: &mut Random) -> Vec<Record> {
    let count = random.between(1000, 4000);
    let events = *random.pick(&[1, 2, 7, 28, 1000]);
    let mut records = vec![patient()];
    for number in 0..count {
        let event = match random.percent(50) {
            true => number % events,
            false => random.below(events),
        };
        let date = format!(
            "20{:02}{:02}{:02}",
            event / 336,
            event / 28 % 12 + 1,
            event % 28 + 1
        );
        records.extend([immunization(&date, &format!("L{number}")), antigen_count()]);
    }
    records
}
