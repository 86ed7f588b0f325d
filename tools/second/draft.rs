//! A script in the making. The draft works each of its lines on a plain book, so that the next line can be aimed at
//! what stands: a row just past the end, a tag in use, the last free cell.

use crate::book::{Book, CELLS_AT_MOST, SHEETS_AT_MOST, TAG_AT_MOST};
use crate::kind::KINDS;
use crate::random::Random;
use crate::run::SCRIPT_AT_MOST;
use crate::script::{read, Command, Form, COMMANDS};

const NEWLINE: u8 = 10;

pub struct Draft {
    pub random: Random,
    book: Book,
    text: Vec<u8>,
}

/// Where the rows of a sheet are put in, one after the other: a tree that keeps them grows differently under each.
#[derive(Clone, Copy, PartialEq, Eq)]
pub enum Pattern {
    Back,
    Front,
    Middle,
    Zigzag,
    Anywhere,
}

pub const PATTERNS: [Pattern; 5] = [Pattern::Back, Pattern::Front, Pattern::Middle, Pattern::Zigzag, Pattern::Anywhere];

/// The text.
impl Draft {
    pub fn new(random: Random, cells: usize) -> Draft {
        assert!(cells <= CELLS_AT_MOST);
        Draft { random, book: Book::create(cells), text: Vec::new() }
    }

    /// Adds a line, unless the script would grow past what a run works.
    pub fn line(&mut self, line: &[u8]) {
        if self.text.len() + line.len() + 1 > SCRIPT_AT_MOST {
            return;
        }
        self.text.extend_from_slice(line);
        self.text.push(NEWLINE);
        if let Ok(call) = read(line) {
            // A refusal is as welcome here as an accepted call.
            let _ = self.book.work(call);
        }
    }

    pub fn say(&mut self, line: String) {
        self.line(line.as_bytes());
    }

    pub fn finish(self) -> (Random, Vec<u8>) {
        (self.random, self.text)
    }
}

/// What stands in the book.
impl Draft {
    pub fn tags(&self) -> Vec<u32> {
        self.book.tags()
    }

    pub fn rows_of(&self, tag: u32) -> usize {
        self.book.rows_of(tag)
    }

    pub fn free_cells(&self) -> usize {
        self.book.capacity() - self.book.rows_of_all()
    }

    pub fn capacity(&self) -> usize {
        self.book.capacity()
    }

    /// A tag in use; where there is none, a sheet is opened first.
    pub fn standing_tag(&mut self) -> u32 {
        if self.tags().is_empty() {
            self.open();
        }
        let tags = self.tags();
        // Nothing stands only where the script is full; then it does not matter which tag the lost line names.
        if tags.is_empty() {
            1
        } else {
            self.random.pick(&tags)
        }
    }

    pub fn unused_tag(&mut self) -> u32 {
        let most = self.random.pick(&[12, 12, 200, TAG_AT_MOST as usize]);
        let tag = self.random.between(1, most) as u32;
        if self.tags().contains(&tag) {
            self.unused_tag()
        } else {
            tag
        }
    }
}

/// Lines that the book accepts, as long as there is a cell and a place for a sheet.
impl Draft {
    pub fn open(&mut self) -> u32 {
        let tag = self.unused_tag();
        self.say(format!("open,{}", tag));
        tag
    }

    pub fn copy(&mut self, tag: u32) -> u32 {
        let new = self.unused_tag();
        self.say(format!("copy,{},{}", tag, new));
        new
    }

    pub fn rename(&mut self, tag: u32) -> u32 {
        let new = self.unused_tag();
        self.say(format!("rename,{},{}", tag, new));
        new
    }

    pub fn close(&mut self, tag: u32) {
        self.say(format!("close,{}", tag));
    }

    pub fn insert(&mut self, tag: u32, row: usize, letter: char) {
        self.say(format!("insert,{},{},{}", tag, row, letter));
    }

    pub fn whole(&mut self, tag: u32) {
        self.say(format!("whole,{}", tag));
    }

    pub fn whole_of_all(&mut self) {
        for tag in self.tags() {
            self.whole(tag);
        }
    }

    pub fn range(&mut self, tag: u32, first: usize, last: usize) {
        self.say(format!("range,{},{},{}", tag, first, last));
    }

    pub fn letter(&mut self) -> char {
        char::from(self.random.pick(&KINDS).letter())
    }

    /// A range that is accepted; now and then an empty one.
    pub fn fair_range(&mut self, tag: u32) {
        let rows = self.rows_of(tag);
        let first = self.random.between(1, rows + 1);
        let last = self.random.between(first - 1, rows);
        self.range(tag, first, last);
    }

    /// An edit of a row that is there, or a new row where there is none.
    pub fn fair_edit(&mut self, tag: u32) {
        let rows = self.rows_of(tag);
        let letter = self.letter();
        if rows == 0 || self.random.one_in(2) {
            let row = self.random.between(1, rows + 1);
            return self.insert(tag, row, letter);
        }
        let row = self.random.between(1, rows);
        match self.random.one_in(2) {
            true => self.say(format!("strike,{},{}", tag, row)),
            false => self.say(format!("replace,{},{},{}", tag, row, letter)),
        }
    }

    /// Any accepted line, the calls on rows more often than those on sheets.
    pub fn fair_line(&mut self) {
        let tag = self.standing_tag();
        let full = self.tags().len() == SHEETS_AT_MOST;
        match self.random.below(20) {
            0 if !full => _ = self.open(),
            1 if !full && self.rows_of(tag) <= self.free_cells() => _ = self.copy(tag),
            2 => _ = self.rename(tag),
            3 if self.random.one_in(3) => self.close(tag),
            4..=7 => self.whole(tag),
            8..=10 => self.fair_range(tag),
            _ => self.fair_edit(tag),
        }
    }

    /// One more row, also where there may be no cell for it.
    pub fn insert_anywhere(&mut self, tag: u32) {
        let row = self.random.between(1, self.book.rows_of(tag) + 1);
        let letter = self.letter();
        self.insert(tag, row, letter);
    }

    /// Puts in so many rows, or as many as there are cells for.
    pub fn fill(&mut self, tag: u32, rows: usize, pattern: Pattern) {
        for _ in 0..rows.min(self.free_cells()) {
            let row = self.next_row(self.rows_of(tag), pattern);
            let letter = self.letter();
            self.insert(tag, row, letter);
        }
    }

    /// Takes out so many rows, or as many as there are.
    pub fn empty(&mut self, tag: u32, rows: usize, pattern: Pattern) {
        for _ in 0..rows.min(self.rows_of(tag)) {
            let row = self.next_row(self.rows_of(tag) - 1, pattern);
            self.say(format!("strike,{},{}", tag, row));
        }
    }

    /// One of the places 1 to `rows` + 1.
    fn next_row(&mut self, rows: usize, pattern: Pattern) -> usize {
        match pattern {
            Pattern::Back => rows + 1,
            Pattern::Front => 1,
            Pattern::Middle => rows / 2 + 1,
            Pattern::Zigzag => {
                if rows.is_multiple_of(2) {
                    1
                } else {
                    rows + 1
                }
            }
            Pattern::Anywhere => self.random.between(1, rows + 1),
        }
    }
}

/// Lines at the edges: in form, but often refused.
impl Draft {
    pub fn edge_tag(&mut self) -> u32 {
        let standing = self.standing_tag();
        let unused = self.unused_tag();
        self.random.pick(&[0, 1, 9999, 10_000, 99_999, unused, unused, standing, standing, standing, standing])
    }

    pub fn edge_row(&mut self, tag: u32) -> usize {
        let rows = self.rows_of(tag);
        let inside = self.random.between(1, rows + 1);
        self.random.pick(&[0, 1, rows.saturating_sub(1), rows, rows + 1, rows + 2, inside, inside, 99_999])
    }

    /// The last row of a range, near its first one or near the sheet's end.
    fn edge_last(&mut self, tag: u32, first: usize) -> usize {
        let rows = self.rows_of(tag);
        let short = [first.saturating_sub(2), first.saturating_sub(1), first.saturating_sub(1), first];
        let far = [rows.saturating_sub(1), rows, rows, rows + 1];
        if self.random.one_in(2) {
            self.random.pick(&short)
        } else {
            self.random.pick(&far)
        }
    }

    pub fn edge_range(&mut self, tag: u32) {
        let fields = self.edge_range_fields(tag);
        self.line(&fields.join(&b','));
    }

    /// A number as it may be written: now and then with zeros before it, up to five digits.
    pub fn digits(&mut self, number: usize) -> String {
        let width = if self.random.one_in(6) { self.random.between(1, 5) } else { 1 };
        format!("{:0width$}", number, width = width)
    }

    pub fn edge_line(&mut self) {
        let command = self.random.pick(&COMMANDS);
        self.edge_line_of(command);
    }

    pub fn edge_line_of(&mut self, command: Command) {
        let fields = self.edge_fields(command);
        self.line(&fields.join(&b','));
    }

    /// The fields of a line in form, the command's name among them, with arguments at the edges.
    pub fn edge_fields(&mut self, command: Command) -> Vec<Vec<u8>> {
        let tag = self.edge_tag();
        if command == Command::Range {
            return self.edge_range_fields(tag);
        }
        let mut fields = vec![command.name().as_bytes().to_vec()];
        for (before, form) in command.forms().iter().enumerate() {
            let field = self.edge_field(command, tag, before, *form);
            fields.push(field.into_bytes());
        }
        fields
    }

    fn edge_field(&mut self, command: Command, tag: u32, before: usize, form: Form) -> String {
        if form == Form::Letter {
            return self.letter().to_string();
        }
        let second_is_tag = matches!(command, Command::Copy | Command::Rename);
        let number = match before {
            0 => tag as usize,
            _ if second_is_tag => self.edge_tag() as usize,
            _ => self.edge_row(tag),
        };
        self.digits(number)
    }

    fn edge_range_fields(&mut self, tag: u32) -> Vec<Vec<u8>> {
        let first = self.edge_row(tag);
        let last = self.edge_last(tag, first);
        let numbers = [self.digits(tag as usize), self.digits(first), self.digits(last)];
        let mut fields = vec![b"range".to_vec()];
        fields.extend(numbers.map(String::into_bytes));
        fields
    }
}
