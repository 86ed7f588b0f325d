//! The plain book: a list of sheets, each a tag and a list of rows.
//!
//! No script can pause a sheet, so every sheet is always settled here: the question "is the sheet settled?" is always
//! answered yes, and the state is left out. There are no cells either, so nothing can be broken.

use crate::kind::Kind;

pub const SHEETS_AT_MOST: usize = 8;
pub const CELLS_AT_MOST: usize = 4096;
pub const TAG_AT_MOST: u32 = 9999;

#[derive(Clone, Copy, Debug, PartialEq, Eq)]
pub enum Call {
    Open { tag: u32 },
    Copy { tag: u32, new: u32 },
    Rename { tag: u32, new: u32 },
    Close { tag: u32 },
    Insert { tag: u32, row: u32, kind: Kind },
    Strike { tag: u32, row: u32 },
    Replace { tag: u32, row: u32, kind: Kind },
    Whole { tag: u32 },
    Range { tag: u32, first: u32, last: u32 },
}

#[derive(Clone, Copy, Debug, PartialEq, Eq)]
pub enum Refusal {
    TagOutOfRange,
    NoSuchSheet,
    TagInUse,
    TooManySheets,
    RowOutOfRange,
    NoRoom,
}

impl Refusal {
    pub fn number(self) -> u8 {
        match self {
            Refusal::TagOutOfRange => 1,
            Refusal::NoSuchSheet => 2,
            Refusal::TagInUse => 3,
            Refusal::TooManySheets => 4,
            Refusal::RowOutOfRange => 7,
            Refusal::NoRoom => 8,
        }
    }
}

/// What an accepted call has to show: nothing, or the rows whose lamps were asked for.
#[derive(Clone, Debug, PartialEq, Eq)]
pub enum Shown {
    Nothing,
    Rows(Vec<Kind>),
}

struct Sheet {
    tag: u32,
    rows: Vec<Kind>,
}

pub struct Book {
    capacity: usize,
    sheets: Vec<Sheet>,
}

impl Call {
    /// The tag of the sheet that must stand already, for every call but `open`.
    fn standing_tag(self) -> Option<u32> {
        match self {
            Call::Open { .. } => None,
            Call::Copy { tag, .. } | Call::Rename { tag, .. } | Call::Close { tag } => Some(tag),
            Call::Insert { tag, .. } | Call::Strike { tag, .. } | Call::Replace { tag, .. } => Some(tag),
            Call::Whole { tag } | Call::Range { tag, .. } => Some(tag),
        }
    }

    /// The tag that the call gives to a sheet.
    fn new_tag(self) -> Option<u32> {
        match self {
            Call::Open { tag } => Some(tag),
            Call::Copy { new, .. } | Call::Rename { new, .. } => Some(new),
            _ => None,
        }
    }

    fn adds_a_sheet(self) -> bool {
        matches!(self, Call::Open { .. } | Call::Copy { .. })
    }
}

fn tag_in_range(tag: u32) -> bool {
    (1..=TAG_AT_MOST).contains(&tag)
}

/// Rows are counted from 1 in a call and from 0 in a list.
fn index(row: u32) -> usize {
    row as usize - 1
}

impl Book {
    pub fn create(cells: usize) -> Book {
        Book { capacity: cells.min(CELLS_AT_MOST), sheets: Vec::new() }
    }

    /// Asks the questions of a call and, where all are answered yes, does what it says.
    pub fn work(&mut self, call: Call) -> Result<Shown, Refusal> {
        self.ask(call)?;
        Ok(self.step(call))
    }

    pub fn capacity(&self) -> usize {
        self.capacity
    }

    pub fn tags(&self) -> Vec<u32> {
        self.sheets.iter().map(|sheet| sheet.tag).collect()
    }

    /// How many rows the sheet of a tag has; none where no sheet has it.
    pub fn rows_of(&self, tag: u32) -> usize {
        self.find(tag).map_or(0, |sheet| sheet.rows.len())
    }

    pub fn rows_of_all(&self) -> usize {
        self.sheets.iter().map(|sheet| sheet.rows.len()).sum()
    }

    fn find(&self, tag: u32) -> Option<&Sheet> {
        self.sheets.iter().find(|sheet| sheet.tag == tag)
    }

    /// The sheet of a tag that question 2 has found to stand.
    fn sheet(&mut self, tag: u32) -> &mut Sheet {
        self.sheets.iter_mut().find(|sheet| sheet.tag == tag).expect("question 2 found the sheet")
    }
}

/// The questions, in the order of their numbers.
impl Book {
    fn ask(&self, call: Call) -> Result<(), Refusal> {
        let questions = [
            (self.every_tag_in_range(call), Refusal::TagOutOfRange),
            (self.sheet_stands(call), Refusal::NoSuchSheet),
            (self.new_tag_unused(call), Refusal::TagInUse),
            (self.fewer_than_eight(call), Refusal::TooManySheets),
            (self.row_in_range(call), Refusal::RowOutOfRange),
            (self.rows_fit(call), Refusal::NoRoom),
        ];
        match questions.into_iter().find(|(yes, _)| !*yes) {
            Some((_, refusal)) => Err(refusal),
            None => Ok(()),
        }
    }

    fn every_tag_in_range(&self, call: Call) -> bool {
        call.standing_tag().is_none_or(tag_in_range) && call.new_tag().is_none_or(tag_in_range)
    }

    fn sheet_stands(&self, call: Call) -> bool {
        call.standing_tag().is_none_or(|tag| self.find(tag).is_some())
    }

    fn new_tag_unused(&self, call: Call) -> bool {
        call.new_tag().is_none_or(|tag| self.find(tag).is_none())
    }

    fn fewer_than_eight(&self, call: Call) -> bool {
        !call.adds_a_sheet() || self.sheets.len() < SHEETS_AT_MOST
    }

    fn row_in_range(&self, call: Call) -> bool {
        let rows = |tag| self.rows_of(tag) as u32;
        match call {
            Call::Insert { tag, row, .. } => 1 <= row && row <= rows(tag) + 1,
            Call::Strike { tag, row } | Call::Replace { tag, row, .. } => 1 <= row && row <= rows(tag),
            // `first` is at least 1 where `last` is compared with the one before it, so nothing falls below 0.
            Call::Range { tag, first, last } => {
                1 <= first && first <= rows(tag) + 1 && first - 1 <= last && last <= rows(tag)
            }
            _ => true,
        }
    }

    fn rows_fit(&self, call: Call) -> bool {
        let new_rows = match call {
            Call::Insert { .. } => 1,
            Call::Copy { tag, .. } => self.rows_of(tag),
            _ => return true,
        };
        self.rows_of_all() + new_rows <= self.capacity
    }
}

/// What an accepted call does.
impl Book {
    fn step(&mut self, call: Call) -> Shown {
        match call {
            Call::Open { tag } => self.add(tag, Vec::new()),
            Call::Copy { tag, new } => self.copy(tag, new),
            Call::Rename { tag, new } => self.sheet(tag).tag = new,
            Call::Close { tag } => self.sheets.retain(|sheet| sheet.tag != tag),
            Call::Insert { tag, row, kind } => self.sheet(tag).rows.insert(index(row), kind),
            Call::Strike { tag, row } => self.strike(tag, row),
            Call::Replace { tag, row, kind } => self.sheet(tag).rows[index(row)] = kind,
            Call::Whole { tag } => return Shown::Rows(self.sheet(tag).rows.clone()),
            Call::Range { tag, first, last } => return self.range(tag, first, last),
        }
        Shown::Nothing
    }

    fn add(&mut self, tag: u32, rows: Vec<Kind>) {
        self.sheets.push(Sheet { tag, rows });
    }

    fn copy(&mut self, tag: u32, new: u32) {
        let rows = self.sheet(tag).rows.clone();
        self.add(new, rows);
    }

    fn strike(&mut self, tag: u32, row: u32) {
        self.sheet(tag).rows.remove(index(row));
    }

    fn range(&mut self, tag: u32, first: u32, last: u32) -> Shown {
        Shown::Rows(self.sheet(tag).rows[index(first)..last as usize].to_vec())
    }
}
