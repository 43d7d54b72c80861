//! The files of clinics, as they are in use.

use super::BIRTH;
use crate::codes;
use crate::submission::{Dose, Submission};
use crate::world::{self, World, TOMORROW};
use differential::random::Random;

/// An II with the antigens of its vaccine, each counted once.
pub fn immunization(file: &mut Submission, world: &World, vaccine: usize, dose: &Dose) {
    file.immunization(dose);
    for antigen in &world.vaccine(vaccine).antigens {
        file.antigen(&dose.uli, antigen, "1");
    }
}

pub fn flu_clinic(world: &mut World) -> Vec<u8> {
    flu_clinic_of(world, |_, _| ())
}

pub fn flu_clinic_with_findings(world: &mut World) -> Vec<u8> {
    flu_clinic_of(world, |random, dose| {
        if random.percent(5) {
            break_a_rule(random, dose);
        }
    })
}

fn flu_clinic_of(world: &mut World, alter: fn(&mut Random, &mut Dose)) -> Vec<u8> {
    let mut file = Submission::new(world.size.file());
    while file.fits() {
        let uli = world.uli();
        let (vaccine, mut dose) = world.new_dose(&uli);
        alter(&mut world.random, &mut dose);
        file.patient(&uli, "SMITH", world.birth());
        file.immunization(&dose);
        file.antigen(&dose.uli, &world.vaccine(vaccine).antigens[0], "1");
    }
    file.finish()
}

/// Names and addresses, as charting products send them.
fn who(random: &mut Random, name: &str) -> [String; 14] {
    let first = codes::one_of(
        random,
        &["JOHN", "AISHA", "NGOC ANH", "MARGARET", "CHRISTOPHER JAMES"],
    );
    let sex = codes::one_of(random, &["F", "M"]);
    let street = codes::one_of(
        random,
        &[
            "WHYTE AVENUE",
            "17 AVENUE SW",
            "JASPER AVENUE NW",
            "GATEWAY BOULEVARD",
        ],
    );
    let city = codes::one_of(
        random,
        &[
            "CALGARY",
            "EDMONTON",
            "RED DEER",
            "MEDICINE HAT",
            "GRANDE PRAIRIE",
        ],
    );
    let house = format!("{} {street}", random.between(1, 19_999));
    let flat = format!("APT {}", random.between(1, 899));
    let code = format!(
        "T{}E {}K{}",
        random.below(10),
        random.below(10),
        random.below(10)
    );
    let mut telephone = || format!("780{}", random.between(2_000_000, 9_999_999));
    let (day, night) = (telephone(), telephone());
    [
        name, first, "A", "MRS", sex, &house, &flat, city, "AB", &code, "CAN", &day, &night, "8048",
    ]
    .map(str::to_string)
}

pub fn whole_flu_clinic(world: &mut World) -> Vec<u8> {
    let mut file = Submission::new(world.size.file());
    while file.fits() {
        let uli = world.uli();
        let (vaccine, dose) = world.new_dose(&uli);
        let who = who(&mut world.random, "SMITH");
        file.whole_patient(&uli, &who, world.birth());
        file.whole_immunization(&dose);
        file.antigen(&dose.uli, &world.vaccine(vaccine).antigens[0], "1");
    }
    file.finish()
}

pub fn whole_travel_clinic(world: &mut World) -> Vec<u8> {
    let mut file = Submission::new(world.size.file());
    while file.fits() {
        let uli = world.uli();
        let who = who(&mut world.random, "SMITH-JONES");
        file.whole_patient(&uli, &who, world.birth());
        travel_events(&mut file, world, &uli, Submission::whole_immunization);
    }
    file.finish()
}

/// Two to five events of a patient, of one to three lots each.
fn travel_events(
    file: &mut Submission,
    world: &mut World,
    uli: &str,
    write: fn(&mut Submission, &Dose),
) {
    for _ in 0..world.random.between(2, 5) {
        let (vaccine, mut dose) = world.new_dose(uli);
        for lot in 1..=world.random.between(1, 3) {
            dose.lot = format!("{}-{lot}", world.random.between(100, 999));
            write(file, &dose);
            for antigen in &world.vaccine(vaccine).antigens {
                file.antigen(&dose.uli, antigen, "1");
            }
        }
    }
}

fn break_a_rule(random: &mut Random, dose: &mut Dose) {
    match random.below(10) {
        0 => dose.site = "",
        1 => dose.reason = "5X".to_string(),
        2 => dose.vaccine = codes::VACCINE_UNKNOWN.to_string(),
        3 => dose.manufacturer = codes::MANUFACTURER_ENDED,
        4 => dose.uli = "100000000".to_string(),
        5 => dose.date = TOMORROW,
        6 => dose.method = "PO",
        7 => dose.reason = codes::REASON_ALONE.to_string(),
        8 => dose.submission_type = "C",
        _ => dose.submission_type = "D",
    }
}

pub fn travel_clinic(world: &mut World) -> Vec<u8> {
    let mut file = Submission::new(world.size.file());
    while file.fits() {
        let uli = world.uli();
        file.patient(&uli, "SMITH-JONES", world.birth());
        travel_events(&mut file, world, &uli, Submission::immunization);
    }
    file.finish()
}

pub fn changes_and_deletes(world: &mut World) -> Vec<u8> {
    let mut events = world.live.clone();
    world.random.shuffle(&mut events);
    let mut file = Submission::new(world.size.file());
    for event in &events {
        if !file.fits() {
            break;
        }
        let uli = world::uli_of(event);
        let vaccine = world.vaccine_of(event);
        let mut dose = world.dose(&uli, world::day_of(event), vaccine);
        dose.submission_type = codes::one_of(&mut world.random, &["C", "D"]);
        file.patient(&uli, "SMITH", world.birth());
        immunization(&mut file, world, vaccine, &dose);
    }
    file.finish()
}

pub fn not_immunized(world: &mut World) -> Vec<u8> {
    let mut file = Submission::new(world.size.file());
    while file.fits() {
        let uli = world.uli();
        let name = "N".repeat(world.random.between(20, 60));
        file.patient(&uli, &name, world.birth());
        for _ in 0..world.random.between(1, 2) {
            let day = world.day();
            file.not_immunized(&uli, day, codes::reason_not(&mut world.random));
            for _ in 0..world.random.between(1, 2) {
                let antigen = world.random.pick(&world.codes.antigens);
                file.antigen_not_administered(&uli, antigen);
            }
        }
    }
    file.finish()
}

pub fn one_patient(world: &mut World) -> Vec<u8> {
    let uli = world.uli();
    let mut file = Submission::new(world.size.file());
    file.patient(&uli, "SMITH", BIRTH);
    while file.fits() {
        let (vaccine, dose) = world.new_dose(&uli);
        file.immunization(&dose);
        file.antigen(&uli, &world.vaccine(vaccine).antigens[0], "1");
    }
    file.finish()
}
