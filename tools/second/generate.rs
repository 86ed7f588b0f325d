//! The seeded generator: families of scripts, each aimed at one part of the format or of the book.

use crate::book::SHEETS_AT_MOST;
use crate::draft::{Draft, PATTERNS};
use crate::mangle::{finish_script, SCRIPT_EVER};
use crate::random::Random;
use crate::run::{runs, Case, FREE_AT_LEAST, PROGRAM_CELLS, PROGRAM_ROOM, SCRIPT_AT_MOST};
use crate::script::{Command, LINE_AT_MOST};
use crate::spoil::spoilt_line;

#[derive(Clone, Copy, Debug, PartialEq, Eq)]
pub enum Family {
    /// Many rows, copied until the cells are full.
    Grow,
    /// Rows put in and taken out by patterns, until the sheet is empty and again.
    Patterns,
    /// Lines with faults between lines without.
    Faults,
    /// Lines about as long as a line may be.
    LongLines,
    /// Scripts about as long as a script may be.
    LongScripts,
    /// Output that runs full.
    FullOutput,
    /// Calls that meet one or several refusals.
    Refusals,
    /// As many sheets as may stand, and one more.
    EightSheets,
    /// Few cells, or all that there can be.
    Cells,
    /// The least and the greatest tags.
    Tags,
    /// Rows and ranges at the ends of a sheet.
    Rows,
    /// Odd bytes, odd line ends, empty scripts.
    Bytes,
    /// Copies and renamed sheets, edited side by side.
    Twins,
    /// Words that light the lamps in many ways.
    Words,
    /// Scripts put together or damaged at random.
    Noise,
}

pub const FAMILIES: [Family; 15] = [
    Family::Grow,
    Family::Patterns,
    Family::Faults,
    Family::LongLines,
    Family::LongScripts,
    Family::FullOutput,
    Family::Refusals,
    Family::EightSheets,
    Family::Cells,
    Family::Tags,
    Family::Rows,
    Family::Bytes,
    Family::Twins,
    Family::Words,
    Family::Noise,
];

/// The families take turns, so that even a small batch has them all.
pub fn case(seed: u64, number: usize) -> Case {
    case_of(FAMILIES[number % FAMILIES.len()], seed, number)
}

pub fn case_of(family: Family, seed: u64, number: usize) -> Case {
    let mut random = Random::of_case(seed, number as u64);
    let cells = cells(family, &mut random);
    let mut draft = Draft::new(random, cells);
    write_lines(family, &mut draft);
    let (mut random, script) = draft.finish();
    let script = finish_script(family, &mut random, script);
    assert!(script.len() <= SCRIPT_EVER);
    let mut case = Case { script, cells, room: PROGRAM_ROOM };
    case.room = room(family, &mut random, &case);
    case
}

fn cells(family: Family, random: &mut Random) -> usize {
    match family {
        Family::Cells => random.pick(&[0, 1, 2, 5, 64, 512, 4095, 4096]),
        Family::Refusals | Family::EightSheets => random.pick(&[0, 1, 5, 20, 64, PROGRAM_CELLS]),
        Family::Grow => random.pick(&[64, 100, PROGRAM_CELLS, PROGRAM_CELLS, PROGRAM_CELLS, 4096]),
        Family::Patterns => random.pick(&[64, PROGRAM_CELLS, 4096]),
        _ => PROGRAM_CELLS,
    }
}

fn room(family: Family, random: &mut Random, case: &Case) -> usize {
    match family {
        Family::FullOutput => full_output_room(random, case),
        Family::LongScripts if random.one_in(6) => random.pick(&[0, 95, 96, 1000]),
        _ if random.one_in(25) => random.below(PROGRAM_ROOM + 1),
        _ => PROGRAM_ROOM,
    }
}

fn full_output_room(random: &mut Random, case: &Case) -> usize {
    match random.below(8) {
        0 => random.below(400),
        1 => random.pick(&[1000, 2000, 9000, PROGRAM_ROOM]),
        2..=4 => room_for_some_lines(random, case),
        _ => random.pick(&[0, 1, 95, 96, 97, 103, 104, 105, 200, 1000]),
    }
}

/// Just enough room to work one more line after some, under one of the panels, or one byte less.
fn room_for_some_lines(random: &mut Random, case: &Case) -> usize {
    let panel = random.below(2);
    let answers = &runs(case)[panel].answers;
    let lines = random.between(0, answers.len());
    let taken: usize = answers[..lines].iter().map(|answer| answer.text().len()).sum();
    let room = taken + FREE_AT_LEAST - random.below(2);
    room.min(PROGRAM_ROOM)
}

fn write_lines(family: Family, draft: &mut Draft) {
    match family {
        Family::Grow => grow(draft),
        Family::Patterns => patterns(draft),
        Family::Faults => faults(draft),
        Family::LongLines => long_lines(draft),
        Family::LongScripts => long_body(draft),
        Family::FullOutput => full_output(draft),
        Family::Refusals => refusals(draft),
        Family::EightSheets => eight_sheets(draft),
        Family::Cells => few_cells(draft),
        Family::Tags => tags(draft),
        Family::Rows => rows(draft),
        Family::Bytes => mixed_lines(draft),
        Family::Twins => twins(draft),
        Family::Words => words(draft),
        Family::Noise => mixed_lines(draft),
    }
}

/// How many lines a part of a script gets: mostly few, so that many scripts are quick to work.
fn steps(random: &mut Random) -> usize {
    let most = random.pick(&[4, 15, 15, 40, 40, 100, 300]);
    random.between(1, most)
}

fn fair_lines(draft: &mut Draft) {
    for _ in 0..steps(&mut draft.random) {
        draft.fair_line();
    }
}

fn mixed_lines(draft: &mut Draft) {
    for _ in 0..steps(&mut draft.random) {
        match draft.random.below(6) {
            0 => draft.edge_line(),
            1 => spoilt_line(draft),
            _ => draft.fair_line(),
        }
    }
}

/// Now and then so many lines that they alone fill the script.
fn long_body(draft: &mut Draft) {
    let lines = if draft.random.one_in(4) { 1500 } else { steps(&mut draft.random) };
    for _ in 0..lines {
        draft.fair_line();
    }
}

/// So many rows that so many copies fill the cells to the last one, and then one more of each.
fn grow(draft: &mut Draft) {
    let sheets = draft.random.between(1, SHEETS_AT_MOST);
    let rows = (draft.capacity() / sheets).min(850);
    let pattern = draft.random.pick(&PATTERNS);
    let first = draft.open();
    draft.fill(first, rows, pattern);
    for _ in 1..sheets {
        draft.copy(first);
    }
    let rest = draft.free_cells().min(20);
    draft.fill(first, rest, pattern);
    past_the_last_cell(draft, first);
    draft.whole_of_all();
    fair_lines(draft);
    draft.whole_of_all();
    reuse_cells(draft, first);
}

fn past_the_last_cell(draft: &mut Draft, tag: u32) {
    draft.insert(tag, 1, 'H');
    let new = draft.unused_tag();
    draft.say(format!("copy,{},{}", tag, new));
}

/// Cells that a closed sheet gave back must serve again.
fn reuse_cells(draft: &mut Draft, tag: u32) {
    let closed = draft.standing_tag();
    draft.close(closed);
    draft.copy(tag);
    let standing = draft.standing_tag();
    draft.fill(standing, 10, PATTERNS[0]);
    draft.whole_of_all();
    fair_lines(draft);
}

fn patterns(draft: &mut Draft) {
    let tag = draft.open();
    let rows = draft.random.pick(&[3, 9, 10, 17, 40, 100, 300]);
    for _ in 0..draft.random.between(1, 3) {
        let in_pattern = draft.random.pick(&PATTERNS);
        draft.fill(tag, rows, in_pattern);
        draft.whole(tag);
        draft.fair_range(tag);
        let out_pattern = draft.random.pick(&PATTERNS);
        let out = if draft.random.one_in(2) { rows } else { draft.random.between(0, rows) };
        draft.empty(tag, out, out_pattern);
        draft.whole(tag);
        draft.fair_range(tag);
    }
}

fn faults(draft: &mut Draft) {
    for _ in 0..steps(&mut draft.random) {
        match draft.random.one_in(3) {
            true => draft.fair_line(),
            false => spoilt_line(draft),
        }
    }
    // A faulty line must have changed nothing.
    draft.whole_of_all();
}

fn long_lines(draft: &mut Draft) {
    draft.open();
    for _ in 0..draft.random.between(3, 40) {
        let line = line_of_length(&mut draft.random);
        draft.line(&line);
        if draft.random.one_in(4) {
            draft.fair_line();
        }
    }
}

fn line_of_length(random: &mut Random) -> Vec<u8> {
    let near = [LINE_AT_MOST - 1, LINE_AT_MOST, LINE_AT_MOST + 1];
    let far = [LINE_AT_MOST - 2, LINE_AT_MOST + 2, 127, 128, 129, 255, 256, 257, 320, 1000];
    let length = if random.one_in(5) { random.pick(&far) } else { random.pick(&near) };
    let heads =
        ["", ",", "x", "open,", "open", "whole,1", "copy,1,", "insert,1,1,H", "insert,1,1,", "range,1,1,", "strike,"];
    let mut line = random.pick(&heads).as_bytes().to_vec();
    let padding = random.pick(&[b'0', b'7', b' ', b',', b'H', 0, 13, 255]);
    line.resize(length, padding);
    line
}

fn full_output(draft: &mut Draft) {
    if draft.random.one_in(12) {
        return only_newlines(draft);
    }
    let tag = draft.open();
    for _ in 0..10 + steps(&mut draft.random) {
        match draft.random.below(4) {
            0 => draft.edge_line(),
            1 => spoilt_line(draft),
            2 => draft.fair_line(),
            // Lamps make the answers of the first panel longer than those of the second.
            _ => draft.whole(tag),
        }
    }
}

/// The shortest lines fill even the greatest room.
fn only_newlines(draft: &mut Draft) {
    let lines = draft.random.pick(&[6000, SCRIPT_AT_MOST]);
    for _ in 0..lines {
        draft.line(b"");
    }
}

/// Any state of the book, then calls with arguments at the edges: several questions may be answered no at once, and
/// the first must give the number.
fn refusals(draft: &mut Draft) {
    let sheets = draft.random.pick(&[1, 3, 7, 8]);
    for _ in 0..sheets {
        draft.open();
    }
    let tag = draft.standing_tag();
    let rows = draft.random.pick(&[0, 1, 5, 64]);
    draft.fill(tag, rows, PATTERNS[0]);
    for _ in 0..steps(&mut draft.random) {
        draft.edge_line();
    }
    draft.whole_of_all();
}

fn eight_sheets(draft: &mut Draft) {
    for _ in 0..steps(&mut draft.random).min(60) {
        one_more_sheet(draft);
        if draft.random.one_in(3) {
            draft.edge_line();
        }
        if draft.random.one_in(2) {
            let tag = draft.standing_tag();
            draft.fair_edit(tag);
        }
    }
    draft.whole_of_all();
}

fn one_more_sheet(draft: &mut Draft) {
    let tag = draft.standing_tag();
    match draft.random.below(8) {
        0 => draft.close(tag),
        1 => _ = draft.rename(tag),
        2..=4 => _ = draft.copy(tag),
        _ => _ = draft.open(),
    }
}

fn few_cells(draft: &mut Draft) {
    let tag = draft.open();
    for _ in 0..steps(&mut draft.random) {
        match draft.random.below(8) {
            0 => draft.edge_line(),
            1 => _ = draft.copy(tag),
            2 => draft.fair_line(),
            3 => draft.whole(tag),
            _ => draft.insert_anywhere(tag),
        }
    }
    draft.whole_of_all();
}

fn tags(draft: &mut Draft) {
    #[rustfmt::skip]
    let edges = [
        "0", "1", "9999", "10000", "99999", "00000", "00001", "09999", "2", "02", "9998", "32768", "65535", "65536",
        "65537",
    ];
    for _ in 0..steps(&mut draft.random) {
        let one = draft.random.pick(&edges);
        let two = draft.random.pick(&edges);
        let letter = draft.letter();
        match draft.random.below(12) {
            0..=2 => draft.say(format!("open,{}", one)),
            3 => draft.say(format!("copy,{},{}", one, two)),
            4 => draft.say(format!("rename,{},{}", one, two)),
            5 => draft.say(format!("close,{}", one)),
            6 => draft.say(format!("strike,{},1", one)),
            7 => draft.say(format!("replace,{},1,{}", one, letter)),
            8 => draft.say(format!("range,{},1,0", one)),
            9 => draft.say(format!("whole,{}", one)),
            _ => draft.say(format!("insert,{},1,{}", one, letter)),
        }
    }
    draft.whole_of_all();
}

fn rows(draft: &mut Draft) {
    let tag = draft.open();
    let rows = draft.random.pick(&[0, 1, 2, 9, 10, 11, 30]);
    draft.fill(tag, rows, PATTERNS[0]);
    for _ in 0..steps(&mut draft.random) {
        match draft.random.below(3) {
            0 => draft.edge_range(tag),
            1 => edge_edit(draft, tag),
            _ => draft.fair_edit(tag),
        }
    }
    draft.whole(tag);
}

fn edge_edit(draft: &mut Draft, tag: u32) {
    let row = draft.edge_row(tag);
    let row = draft.digits(row);
    let letter = draft.letter();
    match draft.random.pick(&[Command::Insert, Command::Strike, Command::Replace]) {
        Command::Strike => draft.say(format!("strike,{},{}", tag, row)),
        command => draft.say(format!("{},{},{},{}", command.name(), tag, row, letter)),
    }
}

fn twins(draft: &mut Draft) {
    let tag = draft.open();
    let rows = draft.random.pick(&[1, 2, 5, 9, 20, 60]);
    let pattern = draft.random.pick(&PATTERNS);
    draft.fill(tag, rows, pattern);
    let twin = draft.copy(tag);
    let renamed = draft.rename(tag);
    if draft.random.one_in(2) {
        // The old tag is free again, for a sheet that has nothing to do with the first.
        draft.say(format!("open,{}", tag));
    }
    for _ in 0..steps(&mut draft.random).min(40) {
        let edited = draft.random.pick(&[twin, renamed, tag]);
        draft.fair_edit(edited);
        draft.whole(twin);
        draft.whole(renamed);
        draft.fair_range(edited);
    }
    draft.whole_of_all();
}

fn words(draft: &mut Draft) {
    let tag = draft.open();
    let word = word(&mut draft.random);
    let backwards = draft.random.one_in(2);
    for at in 0..word.len() {
        match backwards {
            true => draft.insert(tag, 1, word[word.len() - 1 - at]),
            false => draft.insert(tag, at + 1, word[at]),
        }
    }
    draft.whole(tag);
    ranges_of_word(draft, tag);
}

/// A word over few kinds, since over all eight most lamps stay dark.
fn word(random: &mut Random) -> Vec<char> {
    let length = random.pick(&[0, 1, 2, 3, 5, 9, 10, 10, 11, 20, 20, 40]);
    if random.one_in(2) {
        return closed_word(random, length);
    }
    let palettes = ["HC", "HIC", "SC", "SCB", "NB", "N", "B", "NSB", "HIRPNBC", "HSCN", "HIRPNCSB"];
    let palette: Vec<char> = random.pick(&palettes).chars().collect();
    (0..length).map(|_| random.pick(&palette)).collect()
}

/// Headings that are closed, but for the last one at times, with many notes and summaries.
fn closed_word(random: &mut Random, length: usize) -> Vec<char> {
    let mut word = Vec::new();
    let mut inside = false;
    while word.len() < length {
        let letter = match inside {
            true => random.pick(&['I', 'R', 'P', 'N', 'B', 'C', 'C', 'C', 'C']),
            false => random.pick(&['H', 'N', 'S', 'S', 'B']),
        };
        inside = letter == 'H' || (inside && letter != 'C');
        word.push(letter);
    }
    word
}

fn ranges_of_word(draft: &mut Draft, tag: u32) {
    let rows = draft.rows_of(tag);
    if rows > 10 {
        (0..25).for_each(|_| draft.fair_range(tag));
        return;
    }
    for first in 1..=rows + 1 {
        for last in first - 1..=rows {
            draft.range(tag, first, last);
        }
    }
}
