//! A plain program to measure the proved one against: transfers, native assets, registrations, delegations and blocks
//! without governance, as a Rust program does them that nobody proves.
//!
//! It stands outside the gate and tests nothing. It covers records of tests/run/bench and tests/run/bench_load, and no
//! others: at a line that is malformed, or of which it does not know each rule, it ends with status 3.
//!
//!     plain replay
//!     plain load --seed S --accounts A --epochs E    (see load.rs; it writes the last pots)

// (a ledger holds also what only a print of the state would show)
#![allow(dead_code)]

mod json;
mod ledger;
mod load;
mod records;

use ledger::Ledger;
use std::io::{BufRead, BufReader, Write, stdin, stdout};
use std::process::exit;

/// The bytes that are read at once.
const PART: usize = 65_536;

/// A run between two lines: none is there before the genesis.
#[derive(Default)]
struct Run {
    ledger: Option<Ledger>,
    line: u64,
    text: String,
}

impl Run {
    /// Makes the text of a line, where it is good and covered.
    fn answer(&mut self, line: &str) -> Option<()> {
        self.text.clear();
        self.line += 1;
        if line.trim_matches([' ', '\t', '\r']).is_empty() {
            return Some(());
        }
        let record = json::read(line)?;
        if let Some(ledger) = &mut self.ledger {
            return ledger.answer(self.line, &record, &mut self.text);
        }
        let begun = Ledger::from_genesis(&record)?;
        self.text = format!("{} genesis {}\n", self.line, begun.pots());
        self.ledger = Some(begun);
        Some(())
    }

    fn answer_or_exit(&mut self, line: &str) {
        if self.answer(line).is_none() {
            eprintln!("line {}: malformed, or not covered", self.line);
            exit(3);
        }
    }
}

fn replay() -> std::io::Result<()> {
    let (mut input, mut output) = (BufReader::with_capacity(PART, stdin().lock()), stdout().lock());
    let (mut run, mut line) = (Run::default(), String::new());
    while input.read_line(&mut line)? > 0 {
        run.answer_or_exit(line.strip_suffix('\n').unwrap_or(&line));
        output.write_all(run.text.as_bytes())?;
        output.flush()?;
        line.clear();
    }
    Ok(())
}

fn load(seed: u64, accounts: u64, epochs: u64) {
    let mut run = Run::default();
    load::each_line(seed, accounts, epochs, |line| run.answer_or_exit(line));
    println!("{}", run.ledger.map_or_else(String::new, |it| it.pots()));
}

fn main() -> std::io::Result<()> {
    let words: Vec<String> = std::env::args().skip(1).collect();
    let words: Vec<&str> = words.iter().map(String::as_str).collect();
    let number = |word: &str| word.parse().unwrap_or_else(|_| exit(2));
    match words[..] {
        ["replay"] => replay()?,
        ["load", "--seed", seed, "--accounts", accounts, "--epochs", epochs] => {
            load(number(seed), number(accounts), number(epochs));
        }
        _ => exit(2),
    }
    Ok(())
}
