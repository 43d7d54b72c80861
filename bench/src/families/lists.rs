//! Files with long lists: antigens of an II, and lots of a block. A check that
//! holds each member against every other is quadratic on them.

use super::clinics::immunization;
use super::BIRTH;
use crate::codes;
use crate::submission::{Dose, Submission};
use crate::world::World;

/// The antigens of an II that is neither short nor half of a file.
const SOME_HUNDRED: usize = 300;

/// The fewest bytes of an IE line with one of the codes below, of which a long
/// file has so many that most are of three bytes.
const LINE_BYTES: usize = 12;

/// An antigen with its count.
type Given = (String, usize);

/// One block in the shortest lines, each II with another lot.
struct Block {
    file: Submission,
    uli: String,
    day: u32,
    lots: usize,
}

impl Block {
    fn new(world: &mut World) -> Block {
        let (uli, day) = (world.uli(), world.day());
        let mut file = Submission::of_any_places(world.size.file());
        file.patient(&uli, "SMITH", BIRTH);
        let lots = 0;
        Block {
            file,
            uli,
            day,
            lots,
        }
    }

    fn immunization(&mut self) {
        self.lots += 1;
        self.immunization_of(&codes::lot(self.lots));
    }

    fn immunization_of(&mut self, lot: &str) {
        self.file.shortest_lot(&self.uli, self.day, "A", lot);
    }

    fn antigen(&mut self, (code, count): &Given) {
        self.file.shortest_antigen(code, *count);
    }

    /// A whole II, which is taken back if it does not fit.
    fn immunization_with(&mut self, antigens: &[Given]) {
        self.immunization();
        antigens.iter().for_each(|given| self.antigen(given));
    }

    /// An II with as many antigens as fit.
    fn immunization_to_the_end<'a>(&mut self, antigens: impl Iterator<Item = &'a Given>) {
        self.immunization();
        for given in antigens {
            self.antigen(given);
            if !self.file.fits() {
                break;
            }
        }
    }

    /// An II that is half of the file; gives back how many antigens it has.
    fn immunization_of_half<'a>(&mut self, antigens: impl Iterator<Item = &'a Given>) -> usize {
        self.immunization();
        let mut given = 0;
        for antigen in antigens {
            if !self.file.is_below_half() {
                break;
            }
            self.antigen(antigen);
            given += 1;
        }
        given
    }
}

fn once(code: &str) -> Given {
    (code.to_string(), 1)
}

/// As many different antigens as a file may have, in no order.
fn different(world: &mut World) -> Vec<Given> {
    let count = world.size.file() / LINE_BYTES;
    let mut antigens: Vec<Given> = (1..=count)
        .map(|number| once(&codes::shortest(number)))
        .collect();
    world.random.shuffle(&mut antigens);
    antigens
}

/// As many antigens as a file may have, each with the counts 1 to 99, in no order.
fn counted(world: &mut World) -> Vec<Given> {
    let count = world.size.file() / LINE_BYTES;
    let mut antigens: Vec<Given> = (0..count)
        .map(|number| (codes::shortest(1 + number / 99), 1 + number % 99))
        .collect();
    world.random.shuffle(&mut antigens);
    antigens
}

pub fn one_immunization(world: &mut World) -> Vec<u8> {
    let uli = world.uli();
    let (_, dose) = world.new_dose(&uli);
    let mut file = Submission::of_any_places(world.size.file());
    file.patient(&uli, "SMITH", BIRTH);
    file.immunization(&dose);
    for antigen in 1.. {
        file.antigen(&uli, &format!("{antigen:X}"), "1");
        if !file.fits() {
            break;
        }
    }
    file.finish()
}

pub fn shortest_antigens(world: &mut World) -> Vec<u8> {
    let antigens = different(world);
    let mut block = Block::new(world);
    block.immunization_to_the_end(antigens.iter());
    block.file.finish()
}

/// Codes of 20 bytes, of which the first 14 are alike.
pub fn longest_antigens(world: &mut World) -> Vec<u8> {
    let mut antigens: Vec<Given> = (0..world.size.file() / LINE_BYTES)
        .map(|number| once(&format!("ANTIGEN-NUMBER{number:06}")))
        .collect();
    world.random.shuffle(&mut antigens);
    let mut block = Block::new(world);
    block.immunization_to_the_end(antigens.iter());
    block.file.finish()
}

pub fn one_antigen(world: &mut World) -> Vec<u8> {
    let mut block = Block::new(world);
    block.immunization_to_the_end(std::iter::repeat(&once("A")));
    block.file.finish()
}

/// All antigens of the book and then all again, each time in another order.
pub fn antigens_of_the_book_again(world: &mut World) -> Vec<u8> {
    let uli = world.uli();
    let (_, dose) = world.new_dose(&uli);
    let mut antigens = world.codes.antigens.clone();
    let mut file = Submission::new(world.size.file());
    file.patient(&uli, "SMITH", BIRTH);
    file.immunization(&dose);
    'all: loop {
        world.random.shuffle(&mut antigens);
        for antigen in &antigens {
            file.antigen(&uli, antigen, "1");
            if !file.fits() {
                break 'all;
            }
        }
    }
    file.finish()
}

/// One block, with as many lots as fit.
fn lots_of(world: &mut World, add: fn(&mut Submission, &mut World, usize, &Dose)) -> Vec<u8> {
    let uli = world.uli();
    let (vaccine, mut dose) = world.new_dose(&uli);
    let mut file = Submission::new(world.size.file());
    file.patient(&uli, "SMITH", BIRTH);
    for lot in 1.. {
        if !file.fits() {
            break;
        }
        dose.lot = format!("L{lot}");
        add(&mut file, world, vaccine, &dose);
    }
    file.finish()
}

pub fn one_block(world: &mut World) -> Vec<u8> {
    lots_of(world, |file, world, vaccine, dose| {
        file.immunization(dose);
        file.antigen(&dose.uli, &world.vaccine(vaccine).antigens[0], "1");
    })
}

pub fn antigens_of_the_book(world: &mut World) -> Vec<u8> {
    lots_of(world, |file, world, vaccine, dose| {
        immunization(file, world, vaccine, dose)
    })
}

/// Some hundred antigens of the book, in another order in each II.
pub fn set_in_any_order(world: &mut World) -> Vec<u8> {
    lots_of(world, |file, world, vaccine, dose| {
        let antigens = &world.vaccine(vaccine).antigens;
        let mut places: Vec<usize> = (0..antigens.len().min(SOME_HUNDRED)).collect();
        world.random.shuffle(&mut places);
        file.immunization(dose);
        for place in places {
            let antigen = &world.vaccine(vaccine).antigens[place];
            file.antigen(&dose.uli, antigen, &format!("{}", 1 + place % 99));
        }
    })
}

/// As many lots as fit, each II with an antigen that is empty.
fn shortest_lots_of(world: &mut World, lot: fn(usize) -> String) -> Vec<u8> {
    let mut lots: Vec<usize> = (1..=world.size.file() / LINE_BYTES).collect();
    world.random.shuffle(&mut lots);
    let mut block = Block::new(world);
    for number in lots {
        block.immunization_of(&lot(number));
        block.file.empty_antigen();
        if !block.file.fits() {
            break;
        }
    }
    block.file.finish()
}

pub fn shortest_lots(world: &mut World) -> Vec<u8> {
    shortest_lots_of(world, codes::lot)
}

pub fn one_lot(world: &mut World) -> Vec<u8> {
    shortest_lots_of(world, |_| "A".to_string())
}

/// Half of the file is the first II; each further II has one antigen of it.
pub fn many_then_one(world: &mut World) -> Vec<u8> {
    let antigens = different(world);
    let mut block = Block::new(world);
    let given = block.immunization_of_half(antigens.iter());
    for antigen in antigens[..given].chunks(1).cycle() {
        block.immunization_with(antigen);
        if !block.file.fits() {
            break;
        }
    }
    block.file.finish()
}

/// The second II is nearly all of the file; the first has one antigen of it.
pub fn one_then_many(world: &mut World) -> Vec<u8> {
    let antigens = different(world);
    let mut block = Block::new(world);
    block.immunization_with(&antigens[antigens.len() / 2..][..1]);
    block.immunization_to_the_end(antigens.iter());
    block.file.finish()
}

/// The same IIs with these antigens after a first II with those.
fn then_over_and_over(world: &mut World, first: &[Given], further: &[Given]) -> Vec<u8> {
    let mut block = Block::new(world);
    block.immunization_with(first);
    while block.file.fits() {
        block.immunization_with(further);
    }
    block.file.finish()
}

pub fn one_then_hundreds(world: &mut World) -> Vec<u8> {
    let antigens = &different(world)[..SOME_HUNDRED];
    then_over_and_over(world, &antigens[SOME_HUNDRED - 1..], antigens)
}

/// Some hundred antigens, in another order in each II.
pub fn shortest_set_in_any_order(world: &mut World) -> Vec<u8> {
    let mut antigens = different(world)[..SOME_HUNDRED].to_vec();
    let mut block = Block::new(world);
    while block.file.fits() {
        world.random.shuffle(&mut antigens);
        block.immunization_with(&antigens);
    }
    block.file.finish()
}

/// Two IIs that are half of the file each, the second in another order.
fn two_halves(world: &mut World, antigens: &mut [Given]) -> Vec<u8> {
    let mut block = Block::new(world);
    let given = block.immunization_of_half(antigens.iter());
    let antigens = &mut antigens[..given];
    world.random.shuffle(antigens);
    block.immunization_with(antigens);
    block.file.finish()
}

pub fn two_of_one_set(world: &mut World) -> Vec<u8> {
    let mut antigens = different(world);
    two_halves(world, &mut antigens)
}

pub fn two_of_counts(world: &mut World) -> Vec<u8> {
    let mut antigens = counted(world);
    two_halves(world, &mut antigens)
}

/// The first II has one antigen over and over and another at its end; each further
/// II has these two.
pub fn one_antigen_and_another(world: &mut World) -> Vec<u8> {
    let (one, another) = (once("A"), once("B"));
    let mut block = Block::new(world);
    block.immunization_of_half(std::iter::repeat(&one));
    block.antigen(&another);
    while block.file.fits() {
        block.immunization_with(&[another.clone(), one.clone()]);
    }
    block.file.finish()
}

/// The reverse: the first II has the two, the others one of them over and over.
pub fn two_antigens_then_hundreds(world: &mut World) -> Vec<u8> {
    let (one, another) = (once("A"), once("B"));
    let mut further = vec![one.clone(); SOME_HUNDRED];
    further.push(another.clone());
    then_over_and_over(world, &[another, one], &further)
}
