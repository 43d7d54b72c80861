//! Files at the edges: as many blocks, repeats or findings as the bytes hold.

use super::BIRTH;
use crate::submission::Submission;
use crate::world::{World, TODAY};
use differential::check::date;

pub fn distinct_events(world: &mut World) -> Vec<u8> {
    let uli = world.uli();
    let mut events: Vec<(u32, char)> = events(1960, 2020).collect();
    world.random.shuffle(&mut events);
    let mut file = Submission::of_any_places(world.size.file());
    file.patient(&uli, "SMITH", BIRTH);
    for (day, vaccine) in events {
        if !file.fits() {
            break;
        }
        file.shortest_block(&uli, day, vaccine);
    }
    file.finish()
}

/// Five events of each day of these years, ascending.
pub fn events(first_year: u32, last_year: u32) -> impl Iterator<Item = (u32, char)> {
    days(first_year, last_year).flat_map(|day| "ABCDE".chars().map(move |vaccine| (day, vaccine)))
}

/// Every day of these years.
fn days(first_year: u32, last_year: u32) -> impl Iterator<Item = u32> {
    (10_000 * first_year..10_000 * (last_year + 1)).filter(|&number| date::is_date(number))
}

pub fn repeats(world: &mut World) -> Vec<u8> {
    let uli = world.uli();
    let (vaccine, first) = world.new_dose(&uli);
    let mut file = Submission::new(world.size.file());
    file.patient(&uli, "SMITH", BIRTH);
    let mut dose = first.clone();
    while file.fits() {
        dose.date = if dose.date == first.date {
            TODAY
        } else {
            first.date
        };
        file.immunization(&dose);
        file.antigen(&uli, &world.vaccine(vaccine).antigens[0], "1");
    }
    file.finish()
}

pub fn shortest_repeats(world: &mut World) -> Vec<u8> {
    let uli = world.uli();
    let mut file = Submission::of_any_places(world.size.file());
    file.patient(&uli, "SMITH", BIRTH);
    for vaccine in "AB".chars().cycle() {
        if !file.fits() {
            break;
        }
        file.shortest_block(&uli, TODAY, vaccine);
    }
    file.finish()
}

/// The record with the most findings for its bytes is an IE whose fields are
/// empty.
pub fn most_findings(world: &mut World) -> Vec<u8> {
    let uli = world.uli();
    let mut file = Submission::of_any_places(world.size.file());
    file.patient(&uli, "SMITH", BIRTH);
    file.shortest_block(&uli, TODAY, 'A');
    while file.fits() {
        file.empty_antigen();
    }
    file.finish()
}
