//! Answers standard input as the program does: the words of the command line are the program's. It reads and answers blocks of
//! whole lines.

use std::io::{self, Read, Write};
use std::process::ExitCode;

use instants::{Fault, Timeline};

const BLOCK: usize = 1 << 20;

enum Ended {
    Refused(Fault),
    Device(io::Error),
}

impl From<io::Error> for Ended {
    fn from(error: io::Error) -> Ended {
        Ended::Device(error)
    }
}

impl From<Fault> for Ended {
    fn from(fault: Fault) -> Ended {
        Ended::Refused(fault)
    }
}

fn answer_all(words: &[&str]) -> Result<(), Ended> {
    let timeline = Timeline::new(words)?;
    let (mut reader, mut writer) = (io::stdin().lock(), io::stdout().lock());
    let (mut input, mut output) = (Vec::new(), Vec::new());
    loop {
        let count = reader.by_ref().take(BLOCK as u64).read_to_end(&mut input)?;
        let whole = match input.iter().rposition(|byte| *byte == b'\n') {
            Some(at) if count > 0 => at + 1,
            None if count > 0 => 0,
            _ => input.len(),
        };
        timeline.append_to(&input[..whole], &mut output);
        writer.write_all(&output)?;
        output.clear();
        input.drain(..whole);
        if count == 0 {
            return Ok(writer.flush()?);
        }
    }
}

fn main() -> ExitCode {
    let words: Vec<String> = std::env::args().skip(1).collect();
    let words: Vec<&str> = words.iter().map(String::as_str).collect();
    match answer_all(&words) {
        Ok(()) => ExitCode::SUCCESS,
        Err(Ended::Refused(fault)) => {
            eprintln!("{fault}");
            ExitCode::from(if matches!(fault, Fault::Refused(_)) { 2 } else { 1 })
        }
        Err(Ended::Device(error)) => {
            eprintln!("{error}");
            ExitCode::FAILURE
        }
    }
}
