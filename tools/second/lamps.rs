//! The lamps of the two panels, each decided by the definition of its language on the list of rows.

use crate::kind::Kind;

#[derive(Clone, Copy, Debug, PartialEq, Eq)]
pub enum Panel {
    One,
    Two,
}

impl Panel {
    pub fn number(self) -> usize {
        match self {
            Panel::One => 1,
            Panel::Two => 2,
        }
    }
}

/// The lamps of a word, from lamp 0.
pub fn lamps(panel: Panel, rows: &[Kind]) -> Vec<bool> {
    match panel {
        Panel::One => vec![closed(rows), page(rows), summary(rows), notes(rows)],
        Panel::Two => vec![backwards_first_is_collection(rows)],
    }
}

/// The states of the automaton for *closed*.
#[derive(Clone, Copy, PartialEq, Eq)]
enum Place {
    Outside,
    Inside,
    Broken,
}

fn closed(rows: &[Kind]) -> bool {
    let mut place = Place::Outside;
    for kind in rows {
        place = after_row(place, *kind);
    }
    place == Place::Outside
}

fn after_row(place: Place, kind: Kind) -> Place {
    match place {
        Place::Outside => after_row_outside(kind),
        Place::Inside => after_row_inside(kind),
        Place::Broken => Place::Broken,
    }
}

fn after_row_outside(kind: Kind) -> Place {
    match kind {
        Kind::Note | Kind::Summary | Kind::Blank => Place::Outside,
        Kind::Heading => Place::Inside,
        Kind::Item | Kind::RateOnly | Kind::ProvisionalSum | Kind::Collection => Place::Broken,
    }
}

fn after_row_inside(kind: Kind) -> Place {
    match kind {
        Kind::Item | Kind::RateOnly | Kind::ProvisionalSum | Kind::Note | Kind::Blank => Place::Inside,
        Kind::Collection => Place::Outside,
        Kind::Heading | Kind::Summary => Place::Broken,
    }
}

const PAGE_MODULUS: u32 = 10;
const PAGE_RESIDUE: u32 = 0;

fn page(rows: &[Kind]) -> bool {
    let sum: u32 = rows.iter().map(|kind| page_weight(*kind)).sum();
    sum % PAGE_MODULUS == PAGE_RESIDUE
}

/// Every kind fills one line of the page.
fn page_weight(_kind: Kind) -> u32 {
    1
}

fn summary(rows: &[Kind]) -> bool {
    (0..rows.len()).any(|place| summary_at(rows, place))
}

fn summary_at(rows: &[Kind], place: usize) -> bool {
    let before = &rows[..place];
    let after = &rows[place + 1..];
    rows[place] == Kind::Summary && before.contains(&Kind::Collection) && !after.contains(&Kind::Collection)
}

fn notes(rows: &[Kind]) -> bool {
    !rows.windows(2).any(|pair| pair[0] == Kind::Note && pair[1] == Kind::Note)
}

/// In the table of panel 2 a product is its first factor that is not the unit, and no kind has the unit for image: so
/// the table's language is the words that begin with a collection. The layer over it reads each word backwards.
fn backwards_first_is_collection(rows: &[Kind]) -> bool {
    let mut backwards = rows.iter().rev();
    backwards.next() == Some(&Kind::Collection)
}
