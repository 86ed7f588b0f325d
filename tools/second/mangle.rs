//! What is done to the bytes of a script once its lines are written: odd bytes, damage, an exact length.

use crate::generate::Family;
use crate::random::Random;
use crate::run::SCRIPT_AT_MOST;

const NEWLINE: u8 = 10;
/// No script of a batch is longer.
pub const SCRIPT_EVER: usize = 20_000;

pub fn finish_script(family: Family, random: &mut Random, script: Vec<u8>) -> Vec<u8> {
    match family {
        Family::LongScripts => long_script(random, script),
        Family::Bytes => odd_bytes(random, script),
        Family::Noise => noise(random, script),
        _ if random.one_in(5) => without_last_newline(script),
        _ => script,
    }
}

fn without_last_newline(mut script: Vec<u8>) -> Vec<u8> {
    if script.last() == Some(&NEWLINE) {
        script.pop();
    }
    script
}

/// The script, made exactly as long as the edge or a little off it.
fn long_script(random: &mut Random, script: Vec<u8>) -> Vec<u8> {
    let edges = [SCRIPT_AT_MOST - 1, SCRIPT_AT_MOST, SCRIPT_AT_MOST, SCRIPT_AT_MOST + 1, SCRIPT_AT_MOST + 1];
    let length = if random.one_in(6) { random.between(SCRIPT_AT_MOST, SCRIPT_EVER) } else { random.pick(&edges) };
    match random.one_in(2) && script.len() < length {
        true => padded_before(random, script, length),
        false => padded_after(random, script, length),
    }
}

/// The last line of the script ends at the edge itself, with byte 10 or without.
fn padded_before(random: &mut Random, script: Vec<u8>, length: usize) -> Vec<u8> {
    let script = if random.one_in(2) { without_last_newline(script) } else { script };
    let mut text = vec![b'x'; length - script.len() - 1];
    text.push(NEWLINE);
    text.extend(script);
    text
}

fn padded_after(random: &mut Random, mut script: Vec<u8>, length: usize) -> Vec<u8> {
    let padding = padding_line(random);
    while script.len() < length {
        script.extend_from_slice(&padding);
    }
    script.truncate(length);
    if random.one_in(3) {
        script[length - 1] = NEWLINE;
    }
    script
}

/// Mostly long lines: short ones make long listings.
fn padding_line(random: &mut Random) -> Vec<u8> {
    let width = random.pick(&[0, 7, 20, 63, 64, 64, 65, 65, 200, 20_000]);
    if width == 7 {
        return b"whole,1\n".to_vec();
    }
    let mut line = vec![b'x'; width];
    line.push(NEWLINE);
    line
}

fn odd_bytes(random: &mut Random, script: Vec<u8>) -> Vec<u8> {
    match random.below(8) {
        0 => random
            .pick(&["", "", "\n", "\n\n", "\r", "\r\n", ",", "\0", " ", "open,7", "open,7\n\n"])
            .as_bytes()
            .to_vec(),
        1 => with_returns(script),
        2 => without_last_newline(script),
        3 => with_empty_lines(random, script),
        4 => sprinkled(random, script, &[13]),
        5 => sprinkled(random, script, &[128, 200, 255, 0xC3, 0xB2]),
        6 => sprinkled(random, script, &[0, 9, 11, 12, 32, 127]),
        _ => with_zeros(random, script),
    }
}

/// Line ends of two bytes: the return belongs to the line.
fn with_returns(script: Vec<u8>) -> Vec<u8> {
    let mut text = Vec::new();
    for byte in script {
        if byte == NEWLINE {
            text.push(13);
        }
        text.push(byte);
    }
    text
}

fn with_empty_lines(random: &mut Random, script: Vec<u8>) -> Vec<u8> {
    let mut text = Vec::new();
    for byte in script {
        text.push(byte);
        if byte == NEWLINE && random.one_in(3) {
            text.push(NEWLINE);
        }
    }
    text
}

fn sprinkled(random: &mut Random, script: Vec<u8>, drops: &[u8]) -> Vec<u8> {
    let mut text = Vec::new();
    for byte in script {
        if random.one_in(25) {
            text.push(random.pick(drops));
        }
        text.push(byte);
    }
    text
}

/// Zeros before numbers: fair up to five digits, a fault beyond.
fn with_zeros(random: &mut Random, script: Vec<u8>) -> Vec<u8> {
    let mut text = Vec::new();
    for byte in script {
        text.push(byte);
        if byte == b',' && random.one_in(3) {
            let zeros = random.between(1, 5);
            text.resize(text.len() + zeros, b'0');
        }
    }
    text
}

fn noise(random: &mut Random, script: Vec<u8>) -> Vec<u8> {
    match random.below(4) {
        0 => random_bytes(random),
        1 => token_soup(random),
        _ => damaged(random, script),
    }
}

fn random_bytes(random: &mut Random) -> Vec<u8> {
    let length = random.pick(&[1, 10, 100, 1000]);
    (0..length).map(|_| if random.one_in(12) { NEWLINE } else { random.below(256) as u8 }).collect()
}

fn token_soup(random: &mut Random) -> Vec<u8> {
    #[rustfmt::skip]
    let tokens = [
        "open", "copy", "rename", "close", "insert", "strike", "replace", "whole", "range", "open,1\n", "whole,1\n",
        ",", ",", ",", ",", "\n", "\n", "\n", "1", "1", "2", "0", "00001", "9999", "H", "C", "S", "B", "\r", " ",
    ];
    let mut text = String::new();
    for _ in 0..random.between(1, 300) {
        text += random.pick(&tokens);
    }
    text.into_bytes()
}

/// A few bytes changed, dropped or doubled.
fn damaged(random: &mut Random, mut script: Vec<u8>) -> Vec<u8> {
    for _ in 0..random.between(1, 12) {
        if script.is_empty() {
            break;
        }
        let at = random.below(script.len());
        match random.below(4) {
            0 => script[at] = random.below(256) as u8,
            1 => _ = script.remove(at),
            2 => script.insert(at, script[at]),
            _ => script[at] = random.pick(&[b',', NEWLINE, b'0', b'1', b'H', b'9']),
        }
    }
    script
}
