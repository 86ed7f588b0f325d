//! How often each number was answered, so that one can see what a batch tries.

use crate::run::{runs, Case, Run};
use crate::script::{lines, named_command, COMMANDS};
use std::collections::BTreeMap;

/// The answers that scripts can bring about, as number and field. Refusals 5 and 6 need a paused sheet and 9 a broken
/// cell; no command of a script makes either.
#[rustfmt::skip]
const POSSIBLE_ANSWERS: [(u8, usize); 14] = [
    (0, 0), (1, 0), (2, 0), (3, 0), (4, 0), (7, 0), (8, 0), (31, 0), (32, 1), (33, 0), (34, 2), (34, 3), (34, 4),
    (35, 4),
];
const POSSIBLE_ENDS: [u8; 3] = [0, 37, 38];
const NUMBERS: [u8; 12] = [0, 1, 2, 3, 4, 7, 8, 31, 32, 33, 34, 35];

#[derive(Default)]
pub struct Census {
    cases: usize,
    script_bytes: usize,
    most_rows_shown: usize,
    answers: BTreeMap<(u8, usize), usize>,
    ends: BTreeMap<u8, usize>,
    lamps: BTreeMap<String, usize>,
    /// By the name of the command in the line, empty where there is none, and the number answered.
    commands: BTreeMap<(&'static str, u8), usize>,
}

impl Census {
    pub fn of(cases: &[Case]) -> Census {
        let mut census = Census::default();
        for case in cases {
            census.count_case(case);
        }
        census
    }

    /// Whether every number and field that scripts can bring about was answered.
    pub fn is_full(&self) -> bool {
        self.missing().is_empty()
    }

    fn count_case(&mut self, case: &Case) {
        self.cases += 1;
        self.script_bytes += case.script.len();
        for run in runs(case) {
            self.count_run(case, &run);
        }
    }

    fn count_run(&mut self, case: &Case, run: &Run) {
        *self.ends.entry(run.end.number()).or_default() += 1;
        for (answer, line) in run.answers.iter().zip(lines(&case.script)) {
            let command = named_command(line).map_or("", |command| command.name());
            *self.commands.entry((command, answer.number)).or_default() += 1;
            *self.answers.entry((answer.number, answer.field)).or_default() += 1;
            if answer.lamps.is_some() {
                *self.lamps.entry(answer.lamps_text()).or_default() += 1;
                self.most_rows_shown = self.most_rows_shown.max(answer.rows_shown);
            }
        }
    }

    fn missing(&self) -> Vec<String> {
        let answers = POSSIBLE_ANSWERS.iter().filter(|pair| !self.answers.contains_key(pair));
        let ends = POSSIBLE_ENDS.iter().filter(|number| !self.ends.contains_key(number));
        let answers = answers.map(|(number, field)| format!("{} at field {}", number, field));
        answers.chain(ends.map(|number| format!("end {}", number))).collect()
    }

    pub fn text(&self) -> String {
        let mut text = format!("{} cases, {} bytes of script\n", self.cases, self.script_bytes);
        text += &format!("most rows under one lamp: {}\n", self.most_rows_shown);
        for ((number, field), times) in &self.answers {
            text += &format!("answer {:>2} at field {}: {}\n", number, field, times);
        }
        for (number, times) in &self.ends {
            text += &format!("end {:>2}: {}\n", number, times);
        }
        text += &self.lamps_text();
        text += &self.commands_text();
        text += &format!("missing: {}\n", self.missing_text());
        text
    }

    fn lamps_text(&self) -> String {
        let shown = self.lamps.iter().map(|(lamps, times)| format!(" {}:{}", lamps, times));
        format!("lamps{}\n", shown.collect::<String>())
    }

    fn commands_text(&self) -> String {
        let heads: String = NUMBERS.iter().map(|number| format!("{:>8}", number)).collect();
        let names = COMMANDS.iter().map(|command| command.name()).chain([""]);
        let rows: String = names.map(|name| self.command_row(name)).collect();
        format!("{:<8}{}\n{}", "command", heads, rows)
    }

    fn command_row(&self, name: &'static str) -> String {
        let times = |number: &u8| self.commands.get(&(name, *number)).copied().unwrap_or(0);
        let cells: String = NUMBERS.iter().map(|number| format!("{:>8}", times(number))).collect();
        let name = if name.is_empty() { "(none)" } else { name };
        format!("{:<8}{}\n", name, cells)
    }

    fn missing_text(&self) -> String {
        match self.missing().is_empty() {
            true => "nothing".to_string(),
            false => self.missing().join(", "),
        }
    }
}
