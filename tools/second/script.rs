//! Lines, fields and faults: from the bytes of a script to calls on the book.

use crate::book::Call;
use crate::kind::Kind;

pub const LINE_AT_MOST: usize = 64;
pub const DIGITS_AT_MOST: usize = 5;

const NEWLINE: u8 = 10;
const COMMA: u8 = b',';

#[derive(Clone, Copy, Debug, PartialEq, Eq)]
pub enum Command {
    Open,
    Copy,
    Rename,
    Close,
    Insert,
    Strike,
    Replace,
    Whole,
    Range,
}

pub const COMMANDS: [Command; 9] = [
    Command::Open,
    Command::Copy,
    Command::Rename,
    Command::Close,
    Command::Insert,
    Command::Strike,
    Command::Replace,
    Command::Whole,
    Command::Range,
];

/// What a field after the command must be.
#[derive(Clone, Copy, Debug, PartialEq, Eq)]
pub enum Form {
    Number,
    Letter,
}

/// A fault of a line; the last two carry the place of the field, from 1.
#[derive(Clone, Copy, Debug, PartialEq, Eq)]
pub enum Fault {
    LineTooLong,
    NotACommand,
    WrongNumberOfFields,
    NotANumber(usize),
    NotAKind(usize),
}

impl Fault {
    pub fn number(self) -> u8 {
        match self {
            Fault::LineTooLong => 31,
            Fault::NotACommand => 32,
            Fault::WrongNumberOfFields => 33,
            Fault::NotANumber(_) => 34,
            Fault::NotAKind(_) => 35,
        }
    }

    pub fn field(self) -> usize {
        match self {
            Fault::LineTooLong | Fault::WrongNumberOfFields => 0,
            Fault::NotACommand => 1,
            Fault::NotANumber(place) | Fault::NotAKind(place) => place,
        }
    }
}

impl Command {
    pub fn name(self) -> &'static str {
        match self {
            Command::Open => "open",
            Command::Copy => "copy",
            Command::Rename => "rename",
            Command::Close => "close",
            Command::Insert => "insert",
            Command::Strike => "strike",
            Command::Replace => "replace",
            Command::Whole => "whole",
            Command::Range => "range",
        }
    }

    pub fn of_name(name: &[u8]) -> Option<Command> {
        COMMANDS.into_iter().find(|command| command.name().as_bytes() == name)
    }

    /// The fields that follow the command's name.
    pub fn forms(self) -> &'static [Form] {
        match self {
            Command::Open | Command::Close | Command::Whole => &[Form::Number],
            Command::Copy | Command::Rename | Command::Strike => &[Form::Number, Form::Number],
            Command::Insert | Command::Replace => &[Form::Number, Form::Number, Form::Letter],
            Command::Range => &[Form::Number, Form::Number, Form::Number],
        }
    }

    /// The call of a line whose fields have been found to be in form.
    fn call(self, fields: &[&[u8]]) -> Call {
        let number = |place: usize| read_number(fields[place]).expect("question 34 found a number");
        let kind = |place: usize| read_kind(fields[place]).expect("question 35 found a kind");
        let tag = number(1);
        match self {
            Command::Open => Call::Open { tag },
            Command::Copy => Call::Copy { tag, new: number(2) },
            Command::Rename => Call::Rename { tag, new: number(2) },
            Command::Close => Call::Close { tag },
            Command::Insert => Call::Insert { tag, row: number(2), kind: kind(3) },
            Command::Strike => Call::Strike { tag, row: number(2) },
            Command::Replace => Call::Replace { tag, row: number(2), kind: kind(3) },
            Command::Whole => Call::Whole { tag },
            Command::Range => Call::Range { tag, first: number(2), last: number(3) },
        }
    }
}

/// The lines of a script. What follows the last byte 10 is a line only where it has a byte.
pub fn lines(script: &[u8]) -> Vec<&[u8]> {
    let mut pieces: Vec<&[u8]> = script.split(|byte| *byte == NEWLINE).collect();
    if pieces.last().is_some_and(|piece| piece.is_empty()) {
        pieces.pop();
    }
    pieces
}

/// The call that a line makes, or its first fault.
pub fn read(line: &[u8]) -> Result<Call, Fault> {
    if line.len() > LINE_AT_MOST {
        return Err(Fault::LineTooLong);
    }
    let fields: Vec<&[u8]> = line.split(|byte| *byte == COMMA).collect();
    let command = Command::of_name(fields[0]).ok_or(Fault::NotACommand)?;
    if fields.len() != command.forms().len() + 1 {
        return Err(Fault::WrongNumberOfFields);
    }
    ask_numbers(command, &fields)?;
    ask_kinds(command, &fields)?;
    Ok(command.call(&fields))
}

/// The command that a line names in its first field, whatever else is wrong with the line.
pub fn named_command(line: &[u8]) -> Option<Command> {
    line.split(|byte| *byte == COMMA).next().and_then(Command::of_name)
}

fn ask_numbers(command: Command, fields: &[&[u8]]) -> Result<(), Fault> {
    for (before, form) in command.forms().iter().enumerate() {
        if *form == Form::Number && read_number(fields[before + 1]).is_none() {
            return Err(Fault::NotANumber(place_of(before)));
        }
    }
    Ok(())
}

fn ask_kinds(command: Command, fields: &[&[u8]]) -> Result<(), Fault> {
    for (before, form) in command.forms().iter().enumerate() {
        if *form == Form::Letter && read_kind(fields[before + 1]).is_none() {
            return Err(Fault::NotAKind(place_of(before)));
        }
    }
    Ok(())
}

/// Places are counted from 1 and the command stands at place 1, so the first form is at place 2.
fn place_of(forms_before: usize) -> usize {
    forms_before + 2
}

fn read_number(field: &[u8]) -> Option<u32> {
    let in_form = !field.is_empty() && field.len() <= DIGITS_AT_MOST && field.iter().all(u8::is_ascii_digit);
    if !in_form {
        return None;
    }
    Some(field.iter().fold(0, |value, digit| value * 10 + u32::from(digit - b'0')))
}

fn read_kind(field: &[u8]) -> Option<Kind> {
    match field {
        [letter] => Kind::of_letter(*letter),
        _ => None,
    }
}
