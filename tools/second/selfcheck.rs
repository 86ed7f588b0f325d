//! Short scripts whose listings were worked out by hand from the documents.
//!
//! The notation for the answers of a script, one for each line: `0` is accepted without lamps, `7` a number with field
//! 0, `34@2` a number with its field, and `=1001/1` an accepted `whole` or `range` with the lamps of panel 1 and of
//! panel 2. Unless the listings are given in full, all lines are worked and the run ends with 0.

use crate::run::{listing, Case, PROGRAM_CELLS, PROGRAM_ROOM};

struct Check {
    name: &'static str,
    case: Case,
    expected: Vec<u8>,
}

/// Works every check; the first line says how many there are, the others which failed.
pub fn selfcheck() -> Result<String, String> {
    let checks = all();
    let failures: Vec<String> = checks.iter().filter_map(failure).collect();
    match failures.is_empty() {
        true => Ok(format!("{} scripts have the listings worked out by hand\n", checks.len())),
        false => Err(failures.concat()),
    }
}

fn failure(check: &Check) -> Option<String> {
    let found = listing(&check.case);
    if found == check.expected {
        return None;
    }
    let text = |bytes: &[u8]| String::from_utf8_lossy(bytes).into_owned();
    Some(format!("{}: expected\n{}but found\n{}", check.name, text(&check.expected), text(&found)))
}

/// A script of lines parted by single blanks, each ended by byte 10.
fn script(lines: &str) -> Vec<u8> {
    lines.split(' ').map(|line| format!("{}\n", line)).collect::<String>().into_bytes()
}

fn lines(name: &'static str, lines: &str, answers: &str) -> Check {
    bytes(name, &script(lines), answers)
}

fn lines_on(name: &'static str, cells: usize, lines: &str, answers: &str) -> Check {
    let mut check = self::lines(name, lines, answers);
    check.case.cells = cells;
    check
}

fn bytes(name: &'static str, script: &[u8], answers: &str) -> Check {
    let answers: Vec<&str> = answers.split_whitespace().collect();
    let expected = [panel(1, &answers), panel(2, &answers)].concat().into_bytes();
    Check { name, case: Case { script: script.to_vec(), cells: PROGRAM_CELLS, room: PROGRAM_ROOM }, expected }
}

/// A check with a room of its own and both listings in full, their lines parted by blanks.
fn in_room(name: &'static str, room: usize, script: &[u8], first: &str, second: &str) -> Check {
    let text = format!("panel,1 {} panel,2 {} ", first, second);
    let expected = text.replace(' ', "\n").into_bytes();
    Check { name, case: Case { script: script.to_vec(), cells: PROGRAM_CELLS, room }, expected }
}

fn panel(panel: usize, answers: &[&str]) -> String {
    let mut text = format!("panel,{}\n", panel);
    for (before, answer) in answers.iter().enumerate() {
        text += &format!("{},{}\n", before + 1, answer_text(panel, answer));
    }
    text + &format!("end,0,{}\n", answers.len())
}

fn answer_text(panel: usize, answer: &str) -> String {
    if let Some(lamps) = answer.strip_prefix('=') {
        let lamps: Vec<&str> = lamps.split('/').collect();
        return format!("0,0,{}", lamps[panel - 1]);
    }
    match answer.split_once('@') {
        Some((number, field)) => format!("{},{},-", number, field),
        None => format!("{},0,-", answer),
    }
}

fn all() -> Vec<Check> {
    let groups =
        [words(), ranges(), sheets(), refusals(), capacity(), texts(), faults(), odd_bytes(), rooms(), sizes()];
    groups.into_iter().flatten().collect()
}

fn words() -> Vec<Check> {
    vec![
        lines(
            "a copy, edited",
            "open,7 insert,7,1,H insert,7,2,C whole,7 copy,7,8 replace,8,1,B whole,8 whole,7 insert,7,1,X",
            "0 0 0 =1001/1 0 0 =0001/1 =1001/1 35@4",
        ),
        lines(
            "H, HI, HIC, HICS, NHICS",
            "open,1 insert,1,1,H whole,1 insert,1,2,I whole,1 insert,1,3,C whole,1 insert,1,4,S whole,1 insert,1,1,N \
             whole,1",
            "0 0 =0001/0 0 =0001/0 0 =1001/1 0 =1011/0 0 =1011/0",
        ),
        lines(
            "N, NN, NBN, NN",
            "open,2 insert,2,1,N whole,2 insert,2,1,N whole,2 insert,2,2,B whole,2 strike,2,2 whole,2",
            "0 0 =1001/0 0 =1000/0 0 =1001/0 0 =1000/0",
        ),
        lines(
            "each kind alone",
            "open,3 insert,3,1,P whole,3 replace,3,1,R whole,3 replace,3,1,C whole,3 replace,3,1,S whole,3 \
             replace,3,1,B whole,3 replace,3,1,I whole,3 replace,3,1,H whole,3 replace,3,1,N whole,3",
            "0 0 =0001/0 0 =0001/0 0 =0001/1 0 =1001/0 0 =1001/0 0 =0001/0 0 =0001/0 0 =1001/0",
        ),
        lines(
            "ten blanks, then eleven",
            "open,4 insert,4,1,B insert,4,1,B insert,4,1,B insert,4,1,B insert,4,1,B insert,4,1,B insert,4,1,B \
             insert,4,1,B insert,4,1,B whole,4 insert,4,10,B whole,4 range,4,1,9 range,4,2,1 insert,4,11,B whole,4 \
             range,4,2,11",
            "0 0 0 0 0 0 0 0 0 0 =1001/0 0 =1101/0 =1001/0 =1101/0 0 =1001/0 =1101/0",
        ),
        // S, CS, CSC, CSCS, then parts of CSCS: SCS, SC, S, CSC.
        lines(
            "summaries and collections",
            "open,5 insert,5,1,S whole,5 insert,5,1,C whole,5 insert,5,3,C whole,5 insert,5,4,S whole,5 range,5,2,4 \
             range,5,2,3 range,5,4,4 range,5,1,3",
            "0 0 =1001/0 0 =0011/0 0 =0001/1 0 =0011/0 =0011/0 =0001/1 =1001/0 =0001/1",
        ),
        // CBSI: rows may lie between the collection and the summary, and after it; then the parts CB and BSI.
        lines(
            "a summary far from its collection",
            "open,5 insert,5,1,C insert,5,2,B insert,5,3,S insert,5,4,I whole,5 range,5,1,2 range,5,2,4",
            "0 0 0 0 0 =0011/0 =0001/0 =0001/0",
        ),
        // HH, HHC, HHCC: once broken, broken for good.
        lines(
            "a heading in a heading",
            "open,6 insert,6,1,H insert,6,2,H whole,6 insert,6,3,C whole,6 insert,6,4,C whole,6 range,6,2,3",
            "0 0 0 =0001/0 0 =0001/1 0 =0001/1 =1001/1",
        ),
        // HSC, then HC and SHC by striking and moving the summary.
        lines(
            "a summary in a heading",
            "open,6 insert,6,1,H insert,6,2,S whole,6 insert,6,3,C whole,6 strike,6,2 whole,6 insert,6,1,S whole,6",
            "0 0 0 =0001/0 0 =0001/1 0 =1001/1 0 =1001/1",
        ),
        // All that may stand inside a heading, and all that may stand outside.
        lines(
            "HIRPNBC and NSB",
            "open,1 insert,1,1,H insert,1,2,I insert,1,3,R insert,1,4,P insert,1,5,N insert,1,6,B insert,1,7,C whole,1 \
             open,2 insert,2,1,N insert,2,2,S insert,2,3,B whole,2",
            "0 0 0 0 0 0 0 0 =1001/1 0 0 0 0 =1001/0",
        ),
        // NBNN by inserting before, and the parts NB, NBN, BNN, NN.
        lines(
            "notes in ranges",
            "open,1 insert,1,1,N insert,1,1,N insert,1,1,B insert,1,1,N whole,1 range,1,1,2 range,1,1,3 range,1,2,4 \
             range,1,3,4",
            "0 0 0 0 0 =1000/0 =1001/0 =1001/0 =1000/0 =1000/0",
        ),
    ]
}

fn ranges() -> Vec<Check> {
    vec![
        lines(
            "ranges of an empty sheet",
            "open,1 whole,1 range,1,1,0 range,1,0,0 range,1,1,1 range,1,2,1 range,1,2,2 range,1,0,1",
            "0 =1101/0 =1101/0 7 7 7 7 7",
        ),
        lines(
            "ranges of a sheet of one row",
            "open,1 insert,1,1,C range,1,1,1 range,1,1,0 range,1,2,1 range,1,2,2 range,1,3,2 range,1,1,2 range,1,0,1 \
             range,1,2,0 range,1,3,1",
            "0 0 =0001/1 =1101/0 =1101/0 7 7 7 7 7 7",
        ),
        // CBB: last is two before first, one before first, first, the end, past the end.
        lines(
            "the last row of a range",
            "open,1 insert,1,1,B insert,1,1,B insert,1,1,C range,1,3,1 range,1,3,2 range,1,3,3 range,1,1,3 range,1,1,4 \
             range,1,4,3 range,1,4,2 range,1,5,4 range,1,1,99999 range,1,99999,3",
            "0 0 0 0 7 =1101/0 =1001/0 =0001/0 7 =1101/0 7 7 7 7",
        ),
    ]
}

fn sheets() -> Vec<Check> {
    vec![
        // Sheet 1 becomes C, then sheet 2 becomes H; neither feels the other.
        lines(
            "a copy and its original part",
            "open,1 insert,1,1,H insert,1,2,C copy,1,2 strike,1,1 whole,1 whole,2 strike,2,2 whole,2 whole,1",
            "0 0 0 0 0 =0001/1 =1001/1 0 =0001/0 =0001/1",
        ),
        // Sheet 2 is NS, the new sheet 1 is P, then PC.
        lines(
            "a renamed sheet, and its old tag again",
            "open,1 insert,1,1,S rename,1,2 insert,2,1,N open,1 insert,1,1,P whole,1 whole,2 insert,1,2,C whole,1",
            "0 0 0 0 0 0 =0001/0 =1001/0 0 =0001/1",
        ),
        lines(
            "close forgets the rows",
            "close,5 open,5 insert,5,1,C close,5 whole,5 open,5 whole,5 close,0 close,5 close,5",
            "2 0 0 0 2 0 =1101/0 1 0 2",
        ),
        lines(
            "eight sheets",
            "open,1 open,2 open,3 open,4 open,5 open,6 open,7 open,8 open,9 copy,1,9 open,8 copy,1,8 rename,1,9 open,1 \
             close,2 open,1 open,2 copy,10,11 copy,9,10000",
            "0 0 0 0 0 0 0 0 4 4 3 3 0 4 0 0 4 2 1",
        ),
        lines(
            "pages are of one sheet, not of the book",
            "open,1 insert,1,1,B insert,1,1,B insert,1,1,B insert,1,1,B insert,1,1,B copy,1,2 whole,1 whole,2",
            "0 0 0 0 0 0 0 =1001/0 =1001/0",
        ),
        lines(
            "a copy of a copy",
            "open,1 insert,1,1,C copy,1,2 copy,2,3 close,1 close,2 whole,3 insert,3,2,S whole,3 whole,1",
            "0 0 0 0 0 0 =0001/1 0 =0011/0 2",
        ),
    ]
}

fn refusals() -> Vec<Check> {
    vec![
        lines(
            "the least and the greatest tags",
            "open,0 open,1 open,9999 open,10000 open,99999 open,00009 whole,9 open,000009 open,9 whole,0 whole,10000 \
             whole,09999",
            "1 0 0 1 1 0 =1101/0 34@2 3 1 1 =1101/0",
        ),
        lines(
            "the questions of copy",
            "copy,1,0 copy,0,1 copy,1,2 open,1 copy,1,1 copy,1,10000 copy,1,2 copy,2,1 copy,3,1 copy,3,10000",
            "1 1 2 0 3 1 0 3 2 1",
        ),
        lines(
            "the questions of rename",
            "rename,1,2 open,1 rename,1,1 rename,1,2 whole,1 whole,2 rename,2,0 rename,0,2 open,1 rename,2,1 \
             rename,9,1",
            "2 0 3 0 2 =1101/0 1 1 0 3 2",
        ),
        lines(
            "rows out of range",
            "open,1 strike,1,0 strike,1,1 replace,1,1,B insert,1,0,B insert,1,2,B insert,1,1,B insert,1,3,B \
             insert,1,2,C \
             strike,1,3 replace,1,3,N replace,1,0,N strike,1,2 whole,1 strike,1,1 whole,1",
            "0 7 7 7 7 7 0 7 0 7 7 7 0 =1001/0 0 =1101/0",
        ),
        lines(
            "no such sheet, whatever the rows",
            "insert,1,0,H strike,1,0 replace,1,9,H range,1,9,1 whole,1 insert,0,0,H strike,10000,1 range,0,1,0",
            "2 2 2 2 2 1 1 1",
        ),
    ]
}

fn capacity() -> Vec<Check> {
    vec![
        lines_on(
            "two cells",
            2,
            "open,1 insert,1,1,B insert,1,1,B insert,1,1,B copy,1,2 insert,1,4,B replace,1,2,C whole,1 strike,1,1 \
             copy,1,2 insert,2,1,H close,1 insert,2,1,H whole,2",
            "0 0 0 8 8 7 0 =0001/1 0 0 8 0 0 =1001/1",
        ),
        lines_on(
            "no cell",
            0,
            "open,1 insert,1,1,H copy,1,2 whole,2 insert,1,2,H rename,2,3 range,3,1,0 close,3",
            "0 8 0 =1101/0 7 0 =1101/0 0",
        ),
        lines_on(
            "a copy that just fits, and one that does not",
            5,
            "open,1 insert,1,1,N insert,1,1,N copy,1,2 copy,1,3 insert,2,3,N copy,2,3 open,3 copy,3,4 insert,3,1,N \
             whole,2",
            "0 0 0 0 8 0 8 0 0 8 =1000/0",
        ),
        lines_on(
            "eight sheets and no cell: the sheets are asked about first",
            1,
            "open,1 insert,1,1,H open,2 open,3 open,4 open,5 open,6 open,7 copy,1,8 open,8 copy,1,9 insert,2,1,H",
            "0 0 0 0 0 0 0 0 8 0 4 8",
        ),
    ]
}

fn texts() -> Vec<Check> {
    vec![
        bytes("an empty script", b"", ""),
        bytes("one byte 10", b"\n", "32@1"),
        bytes("no byte 10 at the end", b"open,7", "0"),
        bytes("empty lines", b"open,7\n\n\nwhole,7\n\n", "0 32@1 32@1 =1101/0 32@1"),
        lines(
            "zeros before numbers",
            "open,00001 insert,1,00001,H insert,00001,2,C range,01,001,0002 range,1,000001,2 strike,1,00000 whole,0001",
            "0 0 0 =1001/1 34@3 7 =1001/1",
        ),
    ]
}

fn faults() -> Vec<Check> {
    let long = format!(
        "open,{} open,{} {} {} {}",
        "7".repeat(59),
        "7".repeat(60),
        "x".repeat(63),
        "x".repeat(64),
        "x".repeat(65)
    );
    vec![
        lines("lines of 64, 65, 63, 64 and 65 bytes", &long, "34@2 31 32@1 32@1 31"),
        bytes(
            "no command",
            b"Open,1\nopen ,1\n,open,1\npause,1\nrecalculate,1\n open,1\nope,1\nopens,1\n,\n,,,\n7\nopen;1\n",
            "32@1 32@1 32@1 32@1 32@1 32@1 32@1 32@1 32@1 32@1 32@1 32@1",
        ),
        lines(
            "the wrong number of fields",
            "open open,1,2 open,x,y copy,1 copy,1,2,3 rename,1 close close,, insert,1,1 insert,1,1,B, strike,1 \
             strike,1,1,1 replace,1,1 whole whole,1, range,1,1 range,1,1,1,1",
            "33 33 33 33 33 33 33 33 33 33 33 33 33 33 33 33 33",
        ),
        bytes(
            "no number",
            b"open,\nopen,x\nopen,-1\nopen,+1\nopen, 1\nopen,1 \nopen,123456\ncopy,1,\ncopy,x,y\nrename,1,a\n\
              close,/\nclose,:\n",
            "34@2 34@2 34@2 34@2 34@2 34@2 34@2 34@3 34@2 34@3 34@2 34@2",
        ),
        lines(
            "no number, by place",
            "insert,x,y,Z insert,1,y,Z insert,1,y,H strike,1,0x1 range,1,1,x range,1,x,y range,x,1,1 replace,1,,B \
             whole,a",
            "34@2 34@3 34@3 34@3 34@4 34@3 34@2 34@3 34@2",
        ),
        bytes(
            "no kind",
            b"insert,1,1,Z\ninsert,1,1,\ninsert,1,1,h\ninsert,1,1,HH\ninsert,1,1, H\nreplace,1,1,b\n\
              insert,0,0,X\ninsert,1,1,H\n",
            "35@4 35@4 35@4 35@4 35@4 35@4 35@4 2",
        ),
        lines(
            "a faulty line changes nothing",
            "open,1 insert,1,1,C insert,1,1,c strike,1,1,1 close,1, whole,1 opens,2 whole,2",
            "0 0 35@4 33 33 =0001/1 32@1 2",
        ),
    ]
}

fn odd_bytes() -> Vec<Check> {
    vec![
        bytes("returns", b"open,7\r\nopen,7\ninsert,7,1,H\r\n\r\nwhole\r,7\nwhole,7\r", "34@2 0 35@4 32@1 32@1 34@2"),
        bytes(
            "bytes that are no text",
            b"open,7\0\n\xFF\nopen,\xB2\nopen,7\ninsert,7,1,\xC3\x9F\ninsert,7,1,\xC8\nwhole,7\n\0",
            "34@2 32@1 34@2 0 35@4 35@4 =1101/0 32@1",
        ),
        bytes("only a return", b"\r", "32@1"),
    ]
}

/// An answer without lamps to one of the first nine lines has 8 bytes where its number has one digit.
fn rooms() -> Vec<Check> {
    let whole_twice = b"open,1\nwhole,1\nwhole,1\n";
    vec![
        in_room("no room, no line", 0, b"", "end,0,0", "end,0,0"),
        in_room("no room", 0, b"\n", "end,37,0", "end,37,0"),
        in_room("95 bytes", 95, b"open,1\n", "end,37,0", "end,37,0"),
        in_room("96 bytes", 96, b"open,1\n", "1,0,0,- end,0,1", "1,0,0,- end,0,1"),
        in_room("96 bytes, two lines", 96, b"open,1\nopen,2", "1,0,0,- end,37,1", "1,0,0,- end,37,1"),
        in_room("103 bytes, two lines", 103, b"open,1\nopen,2", "1,0,0,- end,37,1", "1,0,0,- end,37,1"),
        in_room("104 bytes, two lines", 104, b"open,1\nopen,2", "1,0,0,- 2,0,0,- end,0,2", "1,0,0,- 2,0,0,- end,0,2"),
        // Lamps take 11 bytes on panel 1 and 8 on panel 2: 96 + 8 + 11 is just enough for a third line on the first.
        in_room(
            "115 bytes",
            115,
            whole_twice,
            "1,0,0,- 2,0,0,1101 3,0,0,1101 end,0,3",
            "1,0,0,- 2,0,0,0 3,0,0,0 end,0,3",
        ),
        in_room("114 bytes", 114, whole_twice, "1,0,0,- 2,0,0,1101 end,37,2", "1,0,0,- 2,0,0,0 3,0,0,0 end,0,3"),
    ]
}

fn sizes() -> Vec<Check> {
    let one_line = vec![b'x'; 16_384];
    vec![
        bytes("16,384 bytes in one line", &one_line, "31"),
        in_room("16,385 bytes", 65_536, &[b'\n'; 16_385], "end,38,0", "end,38,0"),
        in_room("16,385 bytes and no room", 0, &[b'x'; 16_385], "end,38,0", "end,38,0"),
        many_empty_lines(),
    ]
}

/// The answer `N,32,1,-` has 8 bytes besides the digits of N. Lines 1 to 999 take 9 * 9 + 90 * 10 + 900 * 11 = 10,881
/// bytes; after 4,546 more, 12 each, 65,433 are taken and 103 free; after one more, 91: the run stops after 5,546.
fn many_empty_lines() -> Check {
    let answers: String = (1..=5_546).map(|line| format!("{},32,1,- ", line)).collect();
    let panel = answers + "end,37,5546";
    in_room("16,384 bytes in empty lines", 65_536, &[b'\n'; 16_384], &panel, &panel)
}
