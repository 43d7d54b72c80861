//! A batch program: it reads a stream of cases and prints a line for each.

use crate::question::{Question, Said};
use std::io::{BufWriter, Read, Write};
use std::process::{Child, ChildStdin, Command, Stdio};

pub struct Program {
    pub command: Vec<String>,
}

impl Program {
    /// What the program says of each case; nothing from the case on at which it
    /// stopped or printed something else.
    pub fn run<Q: Question + Sync>(&self, cases: &[Q]) -> Vec<Option<Q::Verdict>> {
        let printed = self.printed(cases);
        let text = String::from_utf8_lossy(&printed);
        let lines = text.lines().take(cases.len());
        let mut verdicts: Vec<Option<Q::Verdict>> = lines.map(Said::of_line).collect();
        verdicts.resize(cases.len(), None);
        verdicts
    }

    fn printed<Q: Question + Sync>(&self, cases: &[Q]) -> Vec<u8> {
        let mut child = self.started(Q::WORDS);
        let input = child.stdin.take().expect("a pipe");
        let mut output = child.stdout.take().expect("a pipe");
        let mut printed = Vec::new();
        std::thread::scope(|scope| {
            scope.spawn(|| send(cases, input));
            let _ = output.read_to_end(&mut printed);
        });
        let _ = child.wait();
        printed
    }

    fn started(&self, words: &[&str]) -> Child {
        let mut command = Command::new(&self.command[0]);
        command
            .args(&self.command[1..])
            .args(words)
            .stdin(Stdio::piped())
            .stdout(Stdio::piped());
        command.spawn().unwrap_or_else(|error| {
            eprintln!("cannot start {}: {error}", self.command[0]);
            std::process::exit(2)
        })
    }
}

/// A program that stops early closes its input; what it printed tells the rest.
fn send<Q: Question>(cases: &[Q], input: ChildStdin) {
    let mut stream = BufWriter::new(input);
    for case in cases {
        if case.send(&mut stream).is_err() {
            return;
        }
    }
    let _ = stream.flush();
}
