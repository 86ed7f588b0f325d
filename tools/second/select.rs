//! A small batch to keep: cases of every family, light enough to be worked often.

use crate::census::Census;
use crate::generate::{case_of, Family, FAMILIES};
use crate::run::{listing, Case};

const DRAWS_AT_MOST: usize = 400;

/// How many cases a family gets, and how many bytes of script and listing each may have.
struct Share {
    cases: usize,
    bytes: usize,
}

fn share(family: Family) -> Share {
    match family {
        Family::LongScripts => Share { cases: 4, bytes: 22_000 },
        Family::Grow => Share { cases: 5, bytes: 27_000 },
        Family::FullOutput => Share { cases: 14, bytes: 1_500 },
        Family::LongLines => Share { cases: 6, bytes: 3_000 },
        Family::Patterns => Share { cases: 7, bytes: 3_000 },
        _ => Share { cases: 9, bytes: 1_800 },
    }
}

/// The cases of a seed; an error where they do not bring about every number.
pub fn select(seed: u64) -> Result<Vec<Case>, String> {
    let cases: Vec<Case> = FAMILIES.into_iter().flat_map(|family| cases_of(family, seed)).collect();
    let census = Census::of(&cases);
    match census.is_full() {
        true => Ok(cases),
        false => Err(format!("this seed does not bring about every number\n{}", census.text())),
    }
}

fn cases_of(family: Family, seed: u64) -> Vec<Case> {
    let share = share(family);
    let draws = (0..DRAWS_AT_MOST).map(|number| case_of(family, seed, number));
    draws.filter(|case| weight(case) <= share.bytes).take(share.cases).collect()
}

fn weight(case: &Case) -> usize {
    case.script.len() + listing(case).len()
}
