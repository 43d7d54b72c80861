//! The writer of document 02's CR 3.

mod common;

use common::charts::{chart_of, WIDTHS};
use common::*;
use differential::case::writing::WriteCase;
use differential::write::{Written, RECORD, ROOM, WRITTEN};
use std::collections::HashSet;

fn writing(chart: Vec<u8>, room: usize) -> WriteCase {
    WriteCase {
        prefix: b"10".to_vec(),
        batch: b"000001".to_vec(),
        chart,
        room,
        today: TODAY,
        book: book_e(),
        ledger: free(3),
    }
}

fn chart_e() -> Vec<u8> {
    chart_of(FILE_E).expect("its texts fit")
}

/// The file that a chart gives.
fn text(case: &WriteCase) -> String {
    String::from_utf8(case.file().expect("a file")).expect("ASCII")
}

fn answer(case: &WriteCase) -> u32 {
    case.outcome().0.answer
}

#[test]
fn records_are_as_long_as_the_layouts_say() {
    let lengths = WIDTHS.map(|(_, widths)| 1 + widths.iter().sum::<usize>());
    assert_eq!(lengths, [437, 1700, 27, 28, 25]);
}

#[test]
fn the_chart_of_file_e_gives_file_e() {
    assert_eq!(text(&writing(chart_e(), 0)), FILE_E);
}

#[test]
fn an_empty_chart_gives_three_lines() {
    let file = "IV|7.2|\nIH|10|000001|\nIF|3|0|\n";
    assert_eq!(text(&writing(Vec::new(), 0)), file);
    assert_eq!(outcome(file, &[]).answer, accepted(0, 0, 0));
}

#[test]
fn the_area_gets_the_file_or_nothing() {
    let length = FILE_E.len();
    for room in [0, 1, length - 1, length, length + 1, length + 99] {
        let (written, area) = writing(chart_e(), room).outcome();
        if room < length {
            assert_eq!(
                written,
                Written {
                    answer: ROOM,
                    length: 0
                }
            );
            assert!(area.iter().all(|&byte| byte == 0xEE));
        } else {
            assert_eq!(
                written,
                Written {
                    answer: WRITTEN,
                    length: length as u32
                }
            );
            assert_eq!(&area[..length], FILE_E.as_bytes());
            assert!(area[length..].iter().all(|&byte| byte == 0xEE));
        }
    }
}

#[test]
fn record_comes_before_room() {
    let mut chart = chart_e();
    chart[5] = b'|';
    assert_eq!(answer(&writing(chart, 0)), RECORD);
    assert_eq!(answer(&writing(chart_e(), 0)), ROOM);
}

#[test]
fn every_cut_is_refused_but_those_between_patients() {
    let chart = chart_e();
    let whole: HashSet<usize> = [0, 437 + 1700 + 27, 437 + 2 * (1700 + 27)].into();
    for length in 0..=chart.len() {
        let must = if whole.contains(&length) {
            WRITTEN
        } else {
            RECORD
        };
        assert_eq!(
            answer(&writing(chart[..length].to_vec(), 1000)),
            must,
            "{length}"
        );
    }
}

#[test]
fn bytes_that_a_field_may_not_have() {
    for byte in 0..=255u8 {
        let is_right = (32..=126).contains(&byte) && byte != b'|';
        for place in [1, 436, 438, 2136, 2138, 2163] {
            let mut chart = chart_e();
            chart[place] = byte;
            assert_eq!(
                answer(&writing(chart, 1000)) == WRITTEN,
                is_right,
                "{byte} at {place}"
            );
        }
        let mut chart = chart_e();
        chart[0] = byte;
        assert_eq!(
            answer(&writing(chart, 1000)) == WRITTEN,
            byte == 1,
            "kind {byte}"
        );
    }
}

#[test]
fn forms_of_prefix_and_batch_number() {
    let said = |prefix: &str, batch: &str| {
        answer(&WriteCase {
            prefix: prefix.into(),
            batch: batch.into(),
            ..writing(chart_e(), 1000)
        })
    };
    for (prefix, batch) in [("1", "1"), ("aZ9", "0123456789"), ("zzz", "aAzZ09")] {
        assert_eq!(said(prefix, batch), WRITTEN);
    }
    for wrong in [
        "",
        " ",
        "1 ",
        " 1",
        "1-",
        "@",
        "[",
        "`",
        "{",
        "/",
        ":",
        "|",
        "\n",
        "01234567890",
    ] {
        assert_eq!(said(wrong, "1"), RECORD, "{wrong:?}");
        assert_eq!(said("1", wrong), RECORD, "{wrong:?}");
    }
    assert_eq!(said("1234", "1234"), RECORD);
}

#[test]
fn lots_stand_behind_the_first_of_their_event() {
    let chart = "\
IP|1|1||||||||||||||||||||||||
II|2|1|A||20220901||V|||||||L1||||||||
IE|3|1|A1||
IE|4|1|A2||
II|5|1|A||20220902||V|||||||L2||||||||
IE|6|1|A3||
II|7| 1|A||20220901||V |||||||L3||||||||
IE|8|1|A4||
II|9|1|C||20220901||V|||||||L4||||||||
IE|10|1|A5||
II|11|1|A||20220902||V|||||||L5||||||||
IE|12|1|A6||
II|13|1|A||20220901|| V|||||||L6||||||||
IE|14|1|A7||
IN|15|1||||||
IA|16|1|A8|
";
    let file = text(&writing(chart_of(chart).unwrap(), 0));
    let fields = |name: &str, number: usize| -> Vec<String> {
        let lines = file.lines().filter(|line| line.starts_with(name));
        lines
            .map(|line| line.split('|').nth(number - 1).unwrap().to_string())
            .collect()
    };
    assert_eq!(fields("II|", 15), ["L1", "L3", "L6", "L2", "L5", "L4"]);
    assert_eq!(fields("IE|", 4), ["A1", "A2", "A4", "A7", "A3", "A6", "A5"]);
    assert_eq!(fields("II|", 2), ["2", "5", "7", "9", "11", "13"]);
    assert!(file.ends_with("IN|15|1||||||\nIA|16|1|A8|\nIF|19|0|\n"));
}
