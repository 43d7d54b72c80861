//! Files with one line that is half of them, of which every other line needs a
//! field: a check that finds the field from the line's start each time is
//! quadratic on them.

use super::edges::events;
use super::BIRTH;
use crate::submission::Submission;
use crate::world::World;

/// A text that is half of the file.
fn long(world: &World, byte: &str) -> String {
    byte.repeat(world.size.file() / 2)
}

pub fn long_name(world: &mut World) -> Vec<u8> {
    let uli = world.uli();
    let mut file = Submission::new(world.size.file());
    file.patient(&uli, &long(world, "N"), BIRTH);
    while file.fits() {
        let (vaccine, dose) = world.new_dose(&uli);
        file.immunization(&dose);
        file.antigen(&uli, &world.vaccine(vaccine).antigens[0], "1");
    }
    file.finish()
}

pub fn long_ip_number(world: &mut World) -> Vec<u8> {
    let uli = world.uli();
    let mut file = Submission::of_any_places(world.size.file());
    file.patient_numbered(&long(world, "1"), &uli, "SMITH", BIRTH);
    for (day, vaccine) in events(1960, 2020) {
        if !file.fits() {
            break;
        }
        file.shortest_block(&uli, day, vaccine);
    }
    file.finish()
}

/// The antigen is always the same, so that it is found given before at once.
pub fn long_field_7(world: &mut World) -> Vec<u8> {
    let uli = world.uli();
    let (vaccine, dose) = world.new_dose(&uli);
    let mut file = Submission::new(world.size.file());
    file.patient(&uli, "SMITH", BIRTH);
    file.immunization_with(&dose, &long(world, "7"));
    while file.fits() {
        file.antigen(&uli, &world.vaccine(vaccine).antigens[0], "1");
    }
    file.finish()
}

/// The long one is first in the file and last in the order of events, so that a
/// merge of two halves holds it against every other.
pub fn long_tie(world: &mut World) -> Vec<u8> {
    let (uli, day) = (world.uli(), world.day());
    let mut file = Submission::of_any_places(world.size.file());
    file.patient(&uli, "SMITH", BIRTH);
    file.block("", &uli, day, &long(world, "7"), "A~");
    for number in 0.. {
        if !file.fits() {
            break;
        }
        file.block("", &uli, day, "", &format!("A{number:05}"));
    }
    file.finish()
}

/// As many events before the long one as after it, one of them twice: a binary
/// search for any starts at the long one.
pub fn long_middle(world: &mut World) -> Vec<u8> {
    let uli = world.uli();
    let (first, middle, last) = (19591231, 19900101, 20210101);
    let mut file = Submission::of_any_places(world.size.file());
    file.patient(&uli, "SMITH", BIRTH);
    file.shortest_block(&uli, first, 'A');
    file.block(&long(world, "1"), &uli, middle, "", "A");
    file.shortest_block(&uli, first, 'A');
    file.shortest_block(&uli, last, 'A');
    for (before, after) in events(1960, 1989).zip(events(1991, 2020)) {
        if !file.fits() {
            break;
        }
        file.shortest_block(&uli, before.0, before.1);
        file.shortest_block(&uli, after.0, after.1);
    }
    file.finish()
}
