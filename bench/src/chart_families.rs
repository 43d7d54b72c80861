//! The families of charts that the writer is measured on.

use crate::charts::{Chart, BATCH, PREFIX};
use crate::codes::one_of;
use crate::world::{Size, FILE_MOST};
use differential::case::writing::WriteCase;
use differential::check::shape::Kind::{self, IA, IE, II, IN, IP};
use differential::random::Random;
use differential::write::chart::widths;

const SEED: u64 = 3;

pub struct ChartFamily {
    pub name: &'static str,
    /// What is in its charts.
    pub about: &'static str,
    chart: fn(&mut Random, Chart) -> Chart,
}

impl ChartFamily {
    /// A chart whose file has at most the bytes of this size, and room for the
    /// longest file.
    pub fn case(&self, size: Size) -> WriteCase {
        let mut random = Random::of(SEED, size.parts as u64);
        let chart = (self.chart)(&mut random, Chart::new(size.file()));
        WriteCase {
            prefix: PREFIX.to_vec(),
            batch: BATCH.to_vec(),
            chart: chart.finish(),
            room: FILE_MOST,
            ..WriteCase::default()
        }
    }
}

pub fn all() -> Vec<ChartFamily> {
    let family = |name, chart, about| ChartFamily { name, about, chart };
    vec![
        family(
            "write, flu clinic",
            flu_clinic,
            "many patients, one immunization each",
        ),
        family(
            "write, travel clinic",
            travel_clinic,
            "two to five events a patient, one to three lots each, scattered",
        ),
        family(
            "write, whole records",
            whole_records,
            "many patients, every field as long as it may be",
        ),
        family(
            "write, one event",
            one_event,
            "one patient with as many lots of one event as fit, in short lines",
        ),
        family(
            "write, two events in turn",
            two_events,
            "the same of two events, in turn",
        ),
        family(
            "write, different events",
            different_events,
            "one patient with as many different events as fit, in no order",
        ),
        family(
            "write, different events, long names",
            long_names,
            "the same, with names as long as they may be that differ in their last bytes",
        ),
        family(
            "write, events of two lots",
            two_lots,
            "one patient with as many events as fit, each with a second lot far behind",
        ),
        family(
            "write, many antigens",
            many_antigens,
            "one immunization with as many antigens as fit",
        ),
        family(
            "write, not immunized",
            not_immunized,
            "as many antigens not administered as fit",
        ),
    ]
}

fn uli(random: &mut Random) -> String {
    random.between(100_000_000, 999_999_999).to_string()
}

fn date(random: &mut Random) -> String {
    let (year, month) = (random.between(2015, 2021), random.between(1, 12));
    format!("{year}{month:02}{:02}", random.between(1, 28))
}

fn patient(random: &mut Random, chart: &mut Chart, uli: &str) {
    let birth = date(random);
    let fields = [(3, uli), (8, "SMITH"), (9, "JOHN"), (25, &birth), (26, "F")];
    chart.record(IP, &fields);
}

/// An event of a clinic.
struct Event {
    uli: String,
    date: String,
    vaccine: &'static str,
}

fn event(random: &mut Random, uli: &str) -> Event {
    let vaccines = ["FLU", "HAHB", "TYVI", "YF", "MENC-ACYW-135", "DTaP-IPV"];
    Event {
        uli: uli.to_string(),
        date: date(random),
        vaccine: one_of(random, &vaccines),
    }
}

/// A lot of an event, with one antigen count or two.
fn immunization(random: &mut Random, chart: &mut Chart, event: &Event) {
    let lot = format!("L{}", random.between(1, 99_999));
    let fields = [
        (3, &event.uli[..]),
        (4, "A"),
        (6, &event.date),
        (8, event.vaccine),
        (9, one_of(random, &["LA", "RA", "LVG", "RL"])),
        (10, one_of(random, &["IM", "SC", "ID"])),
        (11, "50"),
        (12, one_of(random, &["0.5", "1", "0.25", "2.0"])),
        (13, "ML"),
        (14, one_of(random, &["GSK", "MF", "PFZ"])),
        (15, &lot),
    ];
    chart.record(II, &fields);
    for antigen in ["HAV", "HBV"].iter().take(random.between(1, 2)) {
        chart.record(IE, &[(3, &event.uli), (4, antigen), (5, "1")]);
    }
}

fn flu_clinic(random: &mut Random, mut chart: Chart) -> Chart {
    while chart.fits() {
        let uli = uli(random);
        patient(random, &mut chart, &uli);
        let event = event(random, &uli);
        immunization(random, &mut chart, &event);
    }
    chart
}

fn travel_clinic(random: &mut Random, mut chart: Chart) -> Chart {
    while chart.fits() {
        let uli = uli(random);
        patient(random, &mut chart, &uli);
        let events: Vec<Event> = (0..random.between(2, 5))
            .map(|_| event(random, &uli))
            .collect();
        let mut boxes: Vec<&Event> = events
            .iter()
            .flat_map(|event| vec![event; random.between(1, 3)])
            .collect();
        random.shuffle(&mut boxes);
        for event in boxes {
            immunization(random, &mut chart, event);
        }
    }
    chart
}

/// A record with a letter or digit in each byte.
fn full_record(random: &mut Random, chart: &mut Chart, kind: Kind) {
    let texts: Vec<String> = widths(kind)
        .iter()
        .map(|&width| one_of(random, &["A", "B", "C", "1", "2"]).repeat(width))
        .collect();
    let fields: Vec<(usize, &str)> = (3..).zip(texts.iter().map(String::as_str)).collect();
    chart.record(kind, &fields);
}

fn whole_records(random: &mut Random, mut chart: Chart) -> Chart {
    while chart.fits() {
        [IP, II, IE, II, IE, IN, IA]
            .into_iter()
            .for_each(|kind| full_record(random, &mut chart, kind));
    }
    chart
}

/// One patient with immunizations of these vaccines and lots, as many as fit, in
/// lines that are otherwise empty.
fn shortest(mut chart: Chart, vaccine_and_lot: impl Fn(usize) -> [String; 2]) -> Chart {
    chart.record(IP, &[]);
    let mut place = 0;
    while chart.fits() {
        let [vaccine, lot] = vaccine_and_lot(place);
        chart.record(II, &[(8, &vaccine), (15, &lot)]);
        chart.record(IE, &[]);
        place += 1;
    }
    chart
}

fn one_event(_: &mut Random, chart: Chart) -> Chart {
    shortest(chart, |place| ["A".to_string(), named(place)])
}

fn two_events(_: &mut Random, chart: Chart) -> Chart {
    shortest(chart, |place| {
        [["A", "B"][place % 2].to_string(), named(place)]
    })
}

/// The numbers below 200,000, in no order: steps by a number that shares no
/// divisor with 200,000.
fn mixed(place: usize) -> usize {
    place * 123_457 % 200_000
}

/// Four letters or digits that name a number.
fn named(number: usize) -> String {
    let digits = b"0123456789ABCDEFGHIJKLMNOPQRSTUVWXYZ";
    let digit = |place: u32| char::from(digits[number / 36usize.pow(place) % 36]);
    [3, 2, 1, 0].into_iter().map(digit).collect()
}

fn different_events(_: &mut Random, chart: Chart) -> Chart {
    shortest(chart, |place| [named(mixed(place)), String::new()])
}

fn two_lots(_: &mut Random, chart: Chart) -> Chart {
    // About a half of the immunizations that fit.
    let events = chart.longest() / 100;
    shortest(chart, move |place| {
        [named(mixed(place % events)), String::new()]
    })
}

fn long_names(random: &mut Random, mut chart: Chart) -> Chart {
    let uli = uli(random);
    patient(random, &mut chart, &uli);
    for place in 0.. {
        if !chart.fits() {
            break;
        }
        let vaccine = format!("VACCINE-OF-{}", named(mixed(place)));
        let fields = [(3, &uli[..]), (4, "A"), (6, "20210901"), (8, &vaccine)];
        chart.record(II, &fields);
        chart.record(IE, &[]);
    }
    chart
}

fn many_antigens(_: &mut Random, mut chart: Chart) -> Chart {
    chart.record(IP, &[]);
    chart.record(II, &[]);
    chart.record(IE, &[]);
    while chart.fits() {
        chart.record(IE, &[(4, "TESTA"), (5, "1")]);
    }
    chart
}

fn not_immunized(_: &mut Random, mut chart: Chart) -> Chart {
    chart.record(IP, &[]);
    chart.record(IN, &[]);
    chart.record(IA, &[]);
    while chart.fits() {
        chart.record(IA, &[]);
    }
    chart
}
