//! Holds a batch program against the implementation, case by case.

use crate::coverage::Coverage;
use crate::program::Program;
use crate::question::{Question, Said};
use crate::shrink::shrink;
use std::path::PathBuf;

/// The cases sent to one run of the program: so many, or so many bytes.
const RUN_CASES: usize = 1000;
const RUN_BYTES: usize = 32_000_000;

/// The differences that are made smaller; the others are only counted.
const SHRUNK: usize = 3;

/// After so many differences the run of an operation ends.
const MOST_DIFFERENCES: usize = 200;

pub struct Run {
    pub seed: u64,
    pub passed: usize,
    pub failed: usize,
    pub coverage: Coverage,
}

impl Run {
    pub fn new(seed: u64) -> Run {
        Run {
            seed,
            passed: 0,
            failed: 0,
            coverage: Coverage::default(),
        }
    }

    /// The implementation alone: it keeps what the documents say of the areas.
    pub fn by_itself<Q: Question>(&mut self, cases: usize) {
        for number in 0..cases as u64 {
            let case = Q::generated(self.seed, number);
            case.cover(&mut self.coverage);
            match case.broken_promise() {
                None => self.passed += 1,
                Some(promise) => {
                    self.failed += 1;
                    println!("seed {} case {}{number}: {promise}", self.seed, Q::NAME);
                }
            }
        }
    }

    /// The program against the implementation on so many cases of an operation.
    pub fn against<Q: Question + Sync>(&mut self, program: &Program, cases: usize) {
        let mut asked = Asked {
            run: self,
            program,
            failed: 0,
        };
        let mut from = 0;
        while from < cases && asked.failed < MOST_DIFFERENCES {
            let batch: Vec<Q> = asked.batch(from, cases);
            from += asked.compare(from, &batch);
        }
        self.failed += cases - from;
    }
}

/// A run of one operation.
struct Asked<'a> {
    run: &'a mut Run,
    program: &'a Program,
    failed: usize,
}

impl Asked<'_> {
    fn batch<Q: Question>(&self, from: usize, cases: usize) -> Vec<Q> {
        let mut batch = Vec::new();
        let mut bytes = 0;
        while from + batch.len() < cases && batch.len() < RUN_CASES && bytes < RUN_BYTES {
            let case = Q::generated(self.run.seed, (from + batch.len()) as u64);
            bytes += case.bytes();
            batch.push(case);
        }
        batch
    }

    /// Gives back how many cases are settled: all, or those up to the one at
    /// which the program stopped.
    fn compare<Q: Question + Sync>(&mut self, from: usize, batch: &[Q]) -> usize {
        for (place, (case, said)) in batch.iter().zip(self.program.run(batch)).enumerate() {
            case.cover(&mut self.run.coverage);
            if said == Some(case.verdict()) {
                self.run.passed += 1;
                continue;
            }
            self.failed += 1;
            self.run.failed += 1;
            self.report(from + place, case, said);
            if said.is_none() || self.failed >= MOST_DIFFERENCES {
                return place + 1;
            }
        }
        batch.len()
    }

    fn report<Q: Question + Sync>(&self, number: usize, case: &Q, said: Option<Q::Verdict>) {
        let seed = self.run.seed;
        println!("seed {seed} case {}{number} differs", Q::NAME);
        let path = save(&format!("{}{seed}-{number}", Q::NAME), case);
        print_difference(case, said);
        println!("  written to {}", path.display());
        if self.failed <= SHRUNK {
            self.report_smaller(number, case);
        }
    }

    fn report_smaller<Q: Question + Sync>(&self, number: usize, case: &Q) {
        if !differ(self.program, std::slice::from_ref(case))[0] {
            println!("  alone it does not differ");
            return;
        }
        let whole = case.verdict();
        let property = |cases: &[Q]| -> Vec<bool> {
            let differ = differ(self.program, cases);
            let cases = cases.iter().zip(differ);
            cases
                .map(|(case, differs)| differs && case.is_no_worse(&whole))
                .collect()
        };
        let smaller = shrink(case, &property);
        let name = format!("{}{}-{number}-smaller", Q::NAME, self.run.seed);
        let path = save(&name, &smaller);
        println!("  made smaller:");
        smaller.show();
        let said = self.program.run(std::slice::from_ref(&smaller))[0];
        print_difference(&smaller, said);
        println!("  written to {}", path.display());
    }
}

fn save<Q: Question>(name: &str, case: &Q) -> PathBuf {
    let folder = PathBuf::from("target/differences");
    let path = folder.join(format!("{name}.case"));
    let mut bytes = Vec::new();
    let written = case
        .send(&mut bytes)
        .and_then(|()| std::fs::create_dir_all(&folder))
        .and_then(|()| std::fs::write(&path, bytes));
    if let Err(error) = written {
        println!("  cannot write {}: {error}", path.display());
    }
    path
}

/// Whether the program and the implementation differ on each case. Where the
/// program stops, the cases after that one are asked again.
fn differ<Q: Question + Sync>(program: &Program, cases: &[Q]) -> Vec<bool> {
    let mut differ = Vec::new();
    while differ.len() < cases.len() {
        let rest = &cases[differ.len()..];
        for (case, said) in rest.iter().zip(program.run(rest)) {
            differ.push(said != Some(case.verdict()));
            if said.is_none() {
                break;
            }
        }
    }
    differ
}

fn print_difference<Q: Question>(case: &Q, said: Option<Q::Verdict>) {
    println!("  expected {}", case.verdict().line());
    println!(
        "  got      {}",
        said.map_or("no answer".to_string(), |said| said.line())
    );
}
