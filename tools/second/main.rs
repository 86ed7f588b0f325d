//! A second, independent implementation of the program, written from the documents alone (docs/RULES.md, docs/BOOK.md,
//! docs/SCRIPT.md). It is made to be seen through, not to be quick: a sheet is a list of rows, and each lamp is decided
//! on that list anew. `tools/second/compare` holds the program under test against it.

mod batch;
mod book;
mod census;
mod draft;
mod generate;
mod judge;
mod kind;
mod lamps;
mod mangle;
mod random;
mod run;
mod script;
mod select;
mod selfcheck;
mod spoil;

use census::Census;
use run::{listing, Case, SCRIPT_AT_MOST};
use std::io::{Read, Write};
use std::process::ExitCode;

const USAGE: &str = "\
second                        a script on standard input, read no further than needed; its listing
second batch                  a batch on standard input; the listings of its cases
second generate SEED COUNT    a batch of so many cases; on standard error, what they bring about
second select SEED            a small batch of all families that brings about every number
second census                 a batch on standard input; how often each number is answered
second judge BATCH OUTPUT     two files; whether the output is that of the batch
second selfcheck              the listings of short scripts, held against listings made by hand
";

/// What a mode writes to standard output, or why it fails.
type Outcome = Result<Vec<u8>, String>;

fn main() -> ExitCode {
    let arguments: Vec<String> = std::env::args().skip(1).collect();
    let arguments: Vec<&str> = arguments.iter().map(String::as_str).collect();
    match outcome(&arguments).and_then(|output| write_out(&output)) {
        Ok(()) => ExitCode::SUCCESS,
        Err(why) => {
            eprint!("{}", why);
            ExitCode::FAILURE
        }
    }
}

fn outcome(arguments: &[&str]) -> Outcome {
    match arguments {
        [] => Ok(listing(&Case::of_program(standard_input(SCRIPT_AT_MOST + 1)?))),
        ["batch"] => Ok(batch::read(&standard_input(usize::MAX)?)?.iter().flat_map(listing).collect()),
        ["generate", seed, count] => generated(number(seed)?, number(count)? as usize),
        ["select", seed] => Ok(batch_of(&select::select(number(seed)?)?)),
        ["census"] => Ok(Census::of(&batch::read(&standard_input(usize::MAX)?)?).text().into_bytes()),
        ["judge", batch, output] => judged(batch, output),
        ["selfcheck"] => selfcheck::selfcheck().map(String::into_bytes),
        _ => Err(USAGE.to_string()),
    }
}

fn generated(seed: u64, count: usize) -> Outcome {
    let cases: Vec<Case> = (0..count).map(|number| generate::case(seed, number)).collect();
    eprint!("{}", Census::of(&cases).text());
    Ok(batch_of(&cases))
}

fn batch_of(cases: &[Case]) -> Vec<u8> {
    cases.iter().flat_map(batch::write).collect()
}

fn judged(batch: &str, output: &str) -> Outcome {
    let cases = batch::read(&file(batch)?)?;
    judge::judge(&cases, &file(output)?).map(String::into_bytes)
}

fn number(text: &str) -> Result<u64, String> {
    text.parse().map_err(|_| format!("{} is not a number\n{}", text, USAGE))
}

/// Standard input, but of a longer one only so many bytes: one past the longest script tells that a script is too long.
fn standard_input(most: usize) -> Outcome {
    let mut bytes = Vec::new();
    std::io::stdin().take(most as u64).read_to_end(&mut bytes).map_err(|why| format!("standard input: {}\n", why))?;
    Ok(bytes)
}

fn file(path: &str) -> Outcome {
    std::fs::read(path).map_err(|why| format!("{}: {}\n", path, why))
}

fn write_out(output: &[u8]) -> Result<(), String> {
    std::io::stdout().write_all(output).map_err(|why| format!("standard output: {}\n", why))
}
