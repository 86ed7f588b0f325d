//! The eight kinds of rows and their letters.

#[derive(Clone, Copy, Debug, PartialEq, Eq)]
pub enum Kind {
    Heading,
    Item,
    RateOnly,
    ProvisionalSum,
    Note,
    Collection,
    Summary,
    Blank,
}

pub const KINDS: [Kind; 8] = [
    Kind::Heading,
    Kind::Item,
    Kind::RateOnly,
    Kind::ProvisionalSum,
    Kind::Note,
    Kind::Collection,
    Kind::Summary,
    Kind::Blank,
];

impl Kind {
    pub fn letter(self) -> u8 {
        match self {
            Kind::Heading => b'H',
            Kind::Item => b'I',
            Kind::RateOnly => b'R',
            Kind::ProvisionalSum => b'P',
            Kind::Note => b'N',
            Kind::Collection => b'C',
            Kind::Summary => b'S',
            Kind::Blank => b'B',
        }
    }

    pub fn of_letter(letter: u8) -> Option<Kind> {
        KINDS.into_iter().find(|kind| kind.letter() == letter)
    }
}
