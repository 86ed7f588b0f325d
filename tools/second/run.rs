//! A run: a script worked line by line on a fresh book, and the listing of both panels.

use crate::book::{Book, Shown};
use crate::kind::Kind;
use crate::lamps::{lamps, Panel};
use crate::script::{lines, read};

pub const SCRIPT_AT_MOST: usize = 16_384;
/// So many bytes of the output must be free before a line is worked; no answer is longer.
pub const FREE_AT_LEAST: usize = 96;
pub const PROGRAM_CELLS: usize = 512;
pub const PROGRAM_ROOM: usize = 65_536;

/// A script and what is lent to each run of it.
pub struct Case {
    pub script: Vec<u8>,
    pub cells: usize,
    pub room: usize,
}

impl Case {
    /// The script with what the program lends.
    pub fn of_program(script: Vec<u8>) -> Case {
        Case { script, cells: PROGRAM_CELLS, room: PROGRAM_ROOM }
    }
}

#[derive(Clone, Copy, Debug, PartialEq, Eq)]
pub enum End {
    AllWorked,
    OutputFull,
    ScriptTooLong,
}

impl End {
    pub fn number(self) -> u8 {
        match self {
            End::AllWorked => 0,
            End::OutputFull => 37,
            End::ScriptTooLong => 38,
        }
    }
}

pub struct Answer {
    pub line: usize,
    pub number: u8,
    pub field: usize,
    pub lamps: Option<Vec<bool>>,
    /// How many rows the lamps are of; it is not written, only counted.
    pub rows_shown: usize,
}

pub struct Run {
    pub panel: Panel,
    pub answers: Vec<Answer>,
    pub end: End,
}

impl Answer {
    pub fn text(&self) -> String {
        format!("{},{},{},{}\n", self.line, self.number, self.field, self.lamps_text())
    }

    pub fn lamps_text(&self) -> String {
        match &self.lamps {
            Some(lit) => lit.iter().map(|lamp| if *lamp { '1' } else { '0' }).collect(),
            None => "-".to_string(),
        }
    }
}

impl Run {
    fn text(&self) -> String {
        let answers: String = self.answers.iter().map(Answer::text).collect();
        let lines_worked = self.answers.len();
        format!("panel,{}\n{}end,{},{}\n", self.panel.number(), answers, self.end.number(), lines_worked)
    }
}

/// The runs of a case under both panels, each on a book of its own.
pub fn runs(case: &Case) -> [Run; 2] {
    [run(Panel::One, case), run(Panel::Two, case)]
}

pub fn listing(case: &Case) -> Vec<u8> {
    let text: String = runs(case).iter().map(Run::text).collect();
    text.into_bytes()
}

fn run(panel: Panel, case: &Case) -> Run {
    let mut run = Run { panel, answers: Vec::new(), end: End::AllWorked };
    if case.script.len() > SCRIPT_AT_MOST {
        run.end = End::ScriptTooLong;
        return run;
    }
    let mut book = Book::create(case.cells);
    let mut free = case.room;
    for (before, line) in lines(&case.script).into_iter().enumerate() {
        if free < FREE_AT_LEAST {
            run.end = End::OutputFull;
            break;
        }
        let answer = answer(panel, &mut book, before + 1, line);
        free -= answer.text().len();
        run.answers.push(answer);
    }
    run
}

fn answer(panel: Panel, book: &mut Book, number_of_line: usize, line: &[u8]) -> Answer {
    let call = match read(line) {
        Ok(call) => call,
        Err(fault) => return without_lamps(number_of_line, fault.number(), fault.field()),
    };
    match book.work(call) {
        Ok(Shown::Nothing) => without_lamps(number_of_line, 0, 0),
        Ok(Shown::Rows(rows)) => shown(panel, number_of_line, &rows),
        Err(refusal) => without_lamps(number_of_line, refusal.number(), 0),
    }
}

fn shown(panel: Panel, line: usize, rows: &[Kind]) -> Answer {
    Answer { line, number: 0, field: 0, lamps: Some(lamps(panel, rows)), rows_shown: rows.len() }
}

fn without_lamps(line: usize, number: u8, field: usize) -> Answer {
    Answer { line, number, field, lamps: None, rows_shown: 0 }
}
