//! The comparison of another program's output with this one's, case by case.

use crate::run::{listing, Case};

/// What is told of the first case that differs.
struct Difference<'a> {
    number: usize,
    case: &'a Case,
    expected: Vec<u8>,
    found: Vec<u8>,
}

/// Says how much agreed, or shows the first case that differs.
pub fn judge(cases: &[Case], output: &[u8]) -> Result<String, String> {
    let mut rest = output;
    for (before, case) in cases.iter().enumerate() {
        let expected = listing(case);
        match rest.strip_prefix(&expected[..]) {
            Some(after) => rest = after,
            None => {
                let found = one_listing(rest).to_vec();
                return Err(Difference { number: before + 1, case, expected, found }.text());
            }
        }
    }
    if !rest.is_empty() {
        return Err(format!("all {} cases agree, but {} bytes follow them\n", cases.len(), rest.len()));
    }
    Ok(format!("{} cases agree, {} bytes of output\n", cases.len(), output.len()))
}

/// The beginning of an output up to its second end line, or all of it where there is none.
fn one_listing(output: &[u8]) -> &[u8] {
    let mut ends = 0;
    let mut length = 0;
    for line in output.split_inclusive(|byte| *byte == 10) {
        length += line.len();
        ends += usize::from(line.starts_with(b"end,"));
        if ends == 2 {
            break;
        }
    }
    &output[..length]
}

impl Difference<'_> {
    fn text(&self) -> String {
        let mut text = format!("case {} differs ", self.number);
        text += &format!(
            "({} bytes of script, {} cells, room {})\n",
            self.case.script.len(),
            self.case.cells,
            self.case.room
        );
        text += &self.first_line_that_differs();
        text += &format!("--- script\n{}", visible(&self.case.script));
        text += &format!("--- expected by this program\n{}", visible(&self.expected));
        text + &format!("--- written by the program under test\n{}", visible(&self.found))
    }

    fn first_line_that_differs(&self) -> String {
        let mut expected = self.expected.split(|byte| *byte == 10);
        let mut found = self.found.split(|byte| *byte == 10);
        let mut number = 1;
        loop {
            match (expected.next(), found.next()) {
                (Some(one), Some(other)) if one == other => number += 1,
                (None, None) => return String::new(),
                (one, other) => return pair_text(number, one, other),
            }
        }
    }
}

fn pair_text(number: usize, expected: Option<&[u8]>, found: Option<&[u8]>) -> String {
    let text = |line: Option<&[u8]>| line.map_or("nothing".to_string(), |line| line.escape_ascii().to_string());
    format!("line {} of its listing: expected {} but found {}\n", number, text(expected), text(found))
}

/// The bytes with each line on a line of its own and every odd byte spelt out.
fn visible(bytes: &[u8]) -> String {
    let lines = bytes.split_inclusive(|byte| *byte == 10);
    lines.map(|line| format!("{}\n", line.escape_ascii())).collect()
}
