//! The second, independent program (document 01, end of "Marked examples").
//!
//! It answers cases from definitions written from document 01 and the standards alone: plain, bit by
//! bit, and not fast. It also makes the cases, adds up what document 02, E1, E9 and E11, claims of the runs in
//! them, and compares another program's answers with its own. The framing of cases and answers is set out in
//! docs/CASES.md. This file is the command line only.

mod answer;
mod balance;
mod bits;
mod buffer;
mod calendar;
mod calls;
mod case;
mod clock;
mod compare;
mod counts;
mod crc;
mod description;
mod dispersal;
mod fac;
mod faults;
mod fields;
mod frames;
mod fronts;
mod generate;
mod items;
mod layout_text;
mod mdi;
mod numbers;
mod output;
mod packet;
mod random;
mod reader;
mod receiver;
mod recording;
mod refusal;
mod rings;
mod runs;
mod sender;
mod show;
mod spares;

use std::ffi::{OsStr, OsString};
use std::io::{self, BufWriter, Read, Write};
use std::ops::RangeInclusive;
use std::process::ExitCode;

const USAGE: &str = "\
usage: reference generate SEED COUNT [FIRST LAST]
                                         write cases, at least COUNT of each call, or of calls FIRST to LAST
       reference answer                  read cases, write answers
       reference show                    read cases, print them and their answers
       reference compare CASES ANSWERS   compare the answers in a file with those of this program
generate, answer and show use standard input and output; SEED and COUNT are below 2 to the 64";

/// The status of a comparison that found a difference, or of answers whose runs do not add up.
const DIFFERENT: u8 = 1;
/// The status where nothing could be done.
const UNUSABLE: u8 = 2;

enum Command {
    Generate {
        seed: u64,
        count: u64,
        calls: RangeInclusive<u8>,
    },
    Answer,
    Show,
    Compare {
        cases: OsString,
        answers: OsString,
    },
}

fn main() -> ExitCode {
    let arguments: Vec<OsString> = std::env::args_os().skip(1).collect();
    let result = match command(&arguments) {
        Some(command) => run(command),
        None => Err(USAGE.to_string()),
    };
    match result {
        Ok(true) => ExitCode::SUCCESS,
        Ok(false) => ExitCode::from(DIFFERENT),
        Err(sentence) => {
            // Nothing is left to be done where standard error is closed as well.
            let _ = writeln!(io::stderr(), "{sentence}");
            ExitCode::from(UNUSABLE)
        }
    }
}

fn command(arguments: &[OsString]) -> Option<Command> {
    let (name, rest) = arguments.split_first()?;
    match (name.to_str()?, rest) {
        ("generate", [seed, count]) => Some(Command::Generate {
            seed: seed.to_str()?.parse().ok()?,
            count: count.to_str()?.parse().ok()?,
            calls: u8::MIN..=u8::MAX,
        }),
        ("generate", [seed, count, first, last]) => Some(Command::Generate {
            seed: seed.to_str()?.parse().ok()?,
            count: count.to_str()?.parse().ok()?,
            calls: first.to_str()?.parse().ok()?..=last.to_str()?.parse().ok()?,
        }),
        ("answer", []) => Some(Command::Answer),
        ("show", []) => Some(Command::Show),
        ("compare", [cases, answers]) => Some(Command::Compare {
            cases: cases.clone(),
            answers: answers.clone(),
        }),
        _ => None,
    }
}

/// Whether all is well; an error is the sentence to be printed.
fn run(command: Command) -> Result<bool, String> {
    let mut out = BufWriter::new(io::stdout().lock());
    let written = match command {
        Command::Generate { seed, count, calls } => {
            generate::generate(seed, count, &calls, &mut out).map(|()| true)
        }
        Command::Answer => answer_all(&standard_input()?, &mut out),
        Command::Show => show::show_all(&standard_input()?, &mut out).map(|()| true),
        Command::Compare { cases, answers } => {
            compare::compare(&file(&cases)?, &file(&answers)?, &mut out)
        }
    };
    written
        .and_then(|well| out.flush().map(|()| well))
        .map_err(|error| format!("Standard output cannot be written: {error}."))
}

/// Whether all runs in the cases add up.
fn answer_all(cases: &[u8], out: &mut impl Write) -> io::Result<bool> {
    let mut well = true;
    for entry in case::Entries::new(cases) {
        let answer = calls::answer(&entry);
        well &= answer::differences(&answer).is_empty();
        out.write_all(&answer::framed(&answer))?;
    }
    Ok(well)
}

fn standard_input() -> Result<Vec<u8>, String> {
    let mut bytes = Vec::new();
    match io::stdin().lock().read_to_end(&mut bytes) {
        Ok(_) => Ok(bytes),
        Err(error) => Err(format!("Standard input cannot be read: {error}.")),
    }
}

fn file(path: &OsStr) -> Result<Vec<u8>, String> {
    std::fs::read(path).map_err(|error| {
        format!(
            "The file {} cannot be read: {error}.",
            path.to_string_lossy()
        )
    })
}
