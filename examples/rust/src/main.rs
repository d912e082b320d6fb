//! Reads a stream of records from standard input, line by line, and writes what `conway replay`
//! writes for it, with the same status.
use conway_ledger::{Fault, Ledger};
use std::io::{self, BufRead, Write};
use std::process::ExitCode;

/// The statuses of a read and of a write that failed, as those of the program.
const READ_FAULT: u8 = 4;
const WRITE_FAULT: u8 = 5;

/// Why a stream was not read to its end.
enum Stop {
    Call(Fault),
    Read,
    Write,
}

impl From<Fault> for Stop {
    fn from(fault: Fault) -> Stop {
        Stop::Call(fault)
    }
}

impl Stop {
    fn status(&self) -> u8 {
        match self {
            Stop::Call(fault) => u8::try_from(fault.status()).unwrap_or(1),
            Stop::Read => READ_FAULT,
            Stop::Write => WRITE_FAULT,
        }
    }
}

/// The ledger of the genesis on the line of this number; none where that is blank.
fn opened(line: &[u8], number: u64) -> Result<Option<Ledger>, Fault> {
    match Ledger::open(line, number) {
        Ok(ledger) => Ok(Some(ledger)),
        Err(Fault::IsBlank) => Ok(None),
        Err(fault) => Err(fault),
    }
}

/// Writes the text of each line.
fn replay(input: &mut impl BufRead, output: &mut impl Write) -> Result<(), Stop> {
    let mut ledger: Option<Ledger> = None;
    let mut line = Vec::new();
    for number in 1.. {
        line.clear();
        if input.read_until(b'\n', &mut line).map_err(|_| Stop::Read)? == 0 {
            break;
        }
        let line = line.strip_suffix(b"\n").unwrap_or(&line);
        let text = match &mut ledger {
            Some(ledger) => ledger.record(line)?,
            None => {
                ledger = opened(line, number)?;
                match &mut ledger {
                    Some(ledger) => ledger.text()?,
                    None => continue,
                }
            }
        };
        output.write_all(text).map_err(|_| Stop::Write)?;
    }
    output.flush().map_err(|_| Stop::Write)?;
    match ledger {
        Some(_) => Ok(()),
        None => Err(Stop::Call(Fault::BadGenesis)),
    }
}

fn main() -> ExitCode {
    match replay(
        &mut io::stdin().lock(),
        &mut io::BufWriter::new(io::stdout().lock()),
    ) {
        Ok(()) => ExitCode::SUCCESS,
        Err(stop) => ExitCode::from(stop.status()),
    }
}
