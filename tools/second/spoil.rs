//! Lines with faults, made from lines in form.

use crate::draft::Draft;
use crate::random::Random;
use crate::script::{Command, Form, COMMANDS, LINE_AT_MOST};

/// What is made wrong with a line.
#[derive(Clone, Copy, PartialEq, Eq)]
enum Spoil {
    Length,
    Name,
    MoreFields,
    FewerFields,
    Number,
    Letter,
}

const SPOILS: [Spoil; 8] = [
    Spoil::Length,
    Spoil::Name,
    Spoil::MoreFields,
    Spoil::FewerFields,
    Spoil::Number,
    Spoil::Number,
    Spoil::Letter,
    Spoil::Letter,
];

#[rustfmt::skip]
const NOT_NAMES: [&[u8]; 16] = [
    b"", b"Open", b"OPEN", b"ope", b"opens", b"open ", b" open", b"pause", b"recalculate", b"end", b"panel", b"case",
    b"insert\r", b"\0whole", b"\xEF\xBB\xBFopen", b"rang",
];

/// The bytes before the digit 0 and after the digit 9 are among them, and digits of other alphabets.
#[rustfmt::skip]
const NOT_NUMBERS: [&[u8]; 19] = [
    b"", b"x", b"-1", b"+1", b" 1", b"1 ", b"123456", b"000001", b"1.0", b"0x1", b"1\r", b"\0", b"\xB2", b"\xD9\xA3",
    b"\xEF\xBC\x91", b"/", b":", b"1/", b"99999999999999999999",
];

/// Small letters are among them, the bytes beside kind letters, and a letter with its highest bit set.
const NOT_KINDS: [&[u8]; 17] =
    [b"", b"h", b"HH", b" H", b"H ", b"X", b"A", b"D", b"G", b"J", b"O", b"Q", b"T", b"H\r", b"\xC8", b"0", b"CS"];

/// A line with one fault, or with two, of which the first asked about must be answered.
pub fn spoilt_line(draft: &mut Draft) {
    let command = draft.random.pick(&COMMANDS);
    let mut fields = draft.edge_fields(command);
    let spoils = if draft.random.one_in(3) { 2 } else { 1 };
    for _ in 0..spoils {
        let spoil = draft.random.pick(&SPOILS);
        apply(spoil, command, &mut fields, &mut draft.random);
    }
    draft.line(&fields.join(&b','));
}

fn apply(spoil: Spoil, command: Command, fields: &mut Vec<Vec<u8>>, random: &mut Random) {
    match spoil {
        Spoil::Length => lengthen(fields, random),
        Spoil::Name => fields[0] = not_name(command, random),
        Spoil::MoreFields => fields.push(random.pick(&["", "1", "H"]).as_bytes().to_vec()),
        Spoil::FewerFields => fields.truncate(random.between(1, command.forms().len())),
        Spoil::Number => spoil_form(Form::Number, &NOT_NUMBERS, command, fields, random),
        Spoil::Letter => spoil_form(Form::Letter, &NOT_KINDS, command, fields, random),
    }
}

/// Pads one field so that the line is just too long, or just short enough.
fn lengthen(fields: &mut [Vec<u8>], random: &mut Random) {
    let length = random.between(LINE_AT_MOST - 1, LINE_AT_MOST + 3);
    let now: usize = fields.iter().map(|field| field.len() + 1).sum::<usize>() - 1;
    let chosen = random.below(fields.len());
    let padding = random.pick(b" 0H");
    let field = &mut fields[chosen];
    field.resize(field.len() + length.saturating_sub(now), padding);
}

/// A well-known wrong name, or the right one with a byte changed, dropped or added.
fn not_name(command: Command, random: &mut Random) -> Vec<u8> {
    let mut name = command.name().as_bytes().to_vec();
    let at = random.below(name.len());
    match random.below(4) {
        0 => name[at] = name[at].to_ascii_uppercase(),
        1 => _ = name.remove(at),
        2 => name.insert(at, b'e'),
        _ => return random.pick(&NOT_NAMES).to_vec(),
    }
    name
}

/// Spoils a field of a form at any of its places, where the command has one that is still there.
fn spoil_form(form: Form, wrong: &[&[u8]], command: Command, fields: &mut [Vec<u8>], random: &mut Random) {
    let forms = command.forms();
    let places: Vec<usize> = (1..fields.len()).filter(|place| forms.get(place - 1) == Some(&form)).collect();
    if !places.is_empty() {
        let place = random.pick(&places);
        fields[place] = random.pick(wrong).to_vec();
    }
}
