//! A submission as it is written: lines up to a length, numbered by their place.

/// What the highest number of a record can be: it has five digits.
pub const PLACES_MOST: usize = 99_999;

const START: &str = "IV|7.2|\nIH|10|000001|\n";
const FOOTER: &str = "IF|8|0|\n";

/// The bytes of some short lines.
const SOME_LINES: usize = 200;

/// The fields of an II that differ from file to file.
#[derive(Clone)]
pub struct Dose {
    pub uli: String,
    pub submission_type: &'static str,
    pub date: u32,
    pub vaccine: String,
    pub site: &'static str,
    pub method: &'static str,
    pub reason: String,
    pub dosage: &'static str,
    pub dosage_type: &'static str,
    pub manufacturer: &'static str,
    pub lot: String,
}

pub struct Submission {
    text: String,
    /// The place of the line written last.
    place: usize,
    longest: usize,
    places_most: usize,
    /// What fitted: the length of the text and the place.
    fitted: (usize, usize),
}

impl Submission {
    /// A file of at most this many bytes, with a sound number on every record.
    pub fn new(longest: usize) -> Submission {
        Submission {
            text: START.to_string(),
            place: 0,
            longest,
            places_most: PLACES_MOST,
            fitted: (START.len(), 0),
        }
    }

    /// The same, with as many records as the bytes have room for.
    pub fn of_any_places(longest: usize) -> Submission {
        Submission {
            places_most: longest,
            ..Submission::new(longest)
        }
    }

    /// Whether all that is written so far fits. Otherwise what was written since
    /// the last time that it did is taken back.
    pub fn fits(&mut self) -> bool {
        let fits = self.text.len() + FOOTER.len() <= self.longest && self.place <= self.places_most;
        if fits {
            self.fitted = (self.text.len(), self.place);
        } else {
            self.text.truncate(self.fitted.0);
            self.place = self.fitted.1;
        }
        fits
    }

    /// Whether as much again, and some lines more, will fit.
    pub fn is_below_half(&self) -> bool {
        2 * (self.text.len() + SOME_LINES) < self.longest
    }

    pub fn finish(mut self) -> Vec<u8> {
        self.fits();
        self.text += FOOTER;
        self.text.into_bytes()
    }

    pub fn patient(&mut self, uli: &str, name: &str, birth: u32) {
        let place = self.place + 1;
        self.patient_numbered(&place.to_string(), uli, name, birth);
    }

    pub fn patient_numbered(&mut self, number: &str, uli: &str, name: &str, birth: u32) {
        self.next();
        self.text += &format!("IP|{number}|{uli}|||||{name}|||||||||||||||||{birth}|||\n");
    }

    /// An IP with these texts in fields 8 to 21: who the patient is and lives where.
    pub fn whole_patient(&mut self, uli: &str, who: &[String; 14], birth: u32) {
        let place = self.next();
        let who = who.join("|");
        self.text += &format!("IP|{place}|{uli}|||||{who}||||{birth}|||\n");
    }

    pub fn immunization(&mut self, dose: &Dose) {
        self.immunization_with(dose, "");
    }

    /// The same, with this text in field 7.
    pub fn immunization_with(&mut self, dose: &Dose, seventh: &str) {
        self.write_immunization(dose, seventh, "||||||");
    }

    /// The same, with who gave it and where.
    pub fn whole_immunization(&mut self, dose: &Dose) {
        self.write_immunization(dose, "", "0001234|NURSE A SMITH||||10|");
    }

    /// With these texts in field 7 and in fields 16 to 22.
    fn write_immunization(&mut self, dose: &Dose, seventh: &str, last: &str) {
        let place = self.next();
        let Dose {
            uli,
            submission_type,
            date,
            vaccine,
            site,
            method,
            reason,
            dosage,
            dosage_type,
            manufacturer,
            lot,
        } = dose;
        self.text += &format!(
            "II|{place}|{uli}|{submission_type}||{date}|{seventh}|{vaccine}|{site}|{method}|{reason}|{dosage}|{dosage_type}|{manufacturer}|{lot}|{last}|\n"
        );
    }

    pub fn antigen(&mut self, uli: &str, code: &str, count: &str) {
        let place = self.next();
        self.text += &format!("IE|{place}|{uli}|{code}|{count}|\n");
    }

    pub fn not_immunized(&mut self, uli: &str, date: u32, reason: &str) {
        let place = self.next();
        self.text += &format!("IN|{place}|{uli}|A|{date}|{reason}|1234||\n");
    }

    pub fn antigen_not_administered(&mut self, uli: &str, code: &str) {
        let place = self.next();
        self.text += &format!("IA|{place}|{uli}|{code}|\n");
    }

    /// The shortest lines that are a block: all that may be empty is.
    pub fn shortest_block(&mut self, uli: &str, date: u32, vaccine: char) {
        self.block("", uli, date, "", vaccine.encode_utf8(&mut [0; 4]));
    }

    /// The same, with these texts in fields 2 and 7.
    pub fn block(&mut self, number: &str, uli: &str, date: u32, seventh: &str, vaccine: &str) {
        self.next();
        self.text += &format!("II|{number}|{uli}|A||{date}|{seventh}|{vaccine}|||||||||||||||\n");
        self.empty_antigen();
    }

    /// The shortest II that has a lot: relaxed, all that may be empty is.
    pub fn shortest_lot(&mut self, uli: &str, date: u32, vaccine: &str, lot: &str) {
        self.next();
        self.text += &format!("II||{uli}|A|H|{date}||{vaccine}|||||||{lot}||||||||\n");
    }

    /// The shortest IE that has an antigen and a count.
    pub fn shortest_antigen(&mut self, code: &str, count: usize) {
        self.next();
        self.text += &format!("IE|||{code}|{count}|\n");
    }

    pub fn empty_antigen(&mut self) {
        self.next();
        self.text += "IE|||||\n";
    }

    fn next(&mut self) -> usize {
        self.place += 1;
        self.place
    }
}
