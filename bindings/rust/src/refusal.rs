//! Why a file is not linked, and why a shelf is not read.

use std::error::Error;
use std::fmt;

/// A refused file: the shelf is as it was before.
#[derive(Clone, Copy, Debug, PartialEq, Eq, Hash)]
pub struct Refusal {
    pub kind: Kind,
    /// An import's row, or the flat number of a message or a field, as the kind says; 0 for kinds without a place.
    pub place: u32,
}

/// The reasons to refuse a file, in the order in which they are tried. Each has its number in the table of refusals.
#[derive(Clone, Copy, Debug, PartialEq, Eq, Hash)]
#[repr(u32)]
pub enum Kind {
    TooLong = 1,
    ShelfBroken = 2,
    LayoutBroken = 3,
    LimitPassed = 4,
    TextWrong = 5,
    NameTaken = 6,
    ImportMissing = 7,
    NameShared = 8,
    EntryName = 9,
    EntryNotBare = 10,
    EntryFields = 11,
    DefaultWrong = 12,
    DefaultBarred = 13,
    ExtendeeAbsent = 14,
    MessageMissing = 15,
    EnumMissing = 16,
    FieldClash = 17,
    NoRoom = 18,
}

impl Kind {
    /// All kinds, by their numbers.
    pub const ALL: [Kind; 18] = [
        Kind::TooLong,
        Kind::ShelfBroken,
        Kind::LayoutBroken,
        Kind::LimitPassed,
        Kind::TextWrong,
        Kind::NameTaken,
        Kind::ImportMissing,
        Kind::NameShared,
        Kind::EntryName,
        Kind::EntryNotBare,
        Kind::EntryFields,
        Kind::DefaultWrong,
        Kind::DefaultBarred,
        Kind::ExtendeeAbsent,
        Kind::MessageMissing,
        Kind::EnumMissing,
        Kind::FieldClash,
        Kind::NoRoom,
    ];

    /// The kind of that number, 1 to 18.
    pub fn from_number(number: u32) -> Option<Kind> {
        Kind::ALL.into_iter().find(|kind| kind.number() == number)
    }

    /// The number in the table of refusals.
    pub fn number(self) -> u32 {
        self as u32
    }

    /// What the place of such a refusal is, if it has one.
    fn place(self) -> Option<&'static str> {
        match self.number() {
            7 => Some("import row"),
            9..=11 => Some("message"),
            12..=17 => Some("field"),
            _ => None,
        }
    }
}

impl Refusal {
    /// The number in the table of refusals, 1 to 18.
    pub fn number(&self) -> u32 {
        self.kind.number()
    }
}

impl fmt::Display for Kind {
    fn fmt(&self, f: &mut fmt::Formatter) -> fmt::Result {
        f.write_str(match self {
            Kind::TooLong => "a lent slice is longer than its limit",
            Kind::ShelfBroken => "the shelf is not well formed",
            Kind::LayoutBroken => "the image breaks a rule of the layout",
            Kind::LimitPassed => {
                "a count, a depth or a text passes its limit, or 32 files are shelved"
            }
            Kind::TextWrong => "a text breaks its byte rule",
            Kind::NameTaken => "a file of that name is on the shelf",
            Kind::ImportMissing => "an import is not on the shelf",
            Kind::NameShared => "two messages or enums of the file share a full name",
            Kind::EntryName => "the name of a map entry does not end in `Entry`",
            Kind::EntryNotBare => {
                "a map entry has extensions, extension ranges, nested messages or enums"
            }
            Kind::EntryFields => {
                "the fields of a map entry are not `key` = 1 and `value` = 2, both optional"
            }
            Kind::DefaultWrong => "a default cannot be read, or its field is a message or a group",
            Kind::DefaultBarred => "a double, float or bytes field has a default",
            Kind::ExtendeeAbsent => "an extension at file level extends nothing",
            Kind::MessageMissing => "a message is not found",
            Kind::EnumMissing => "an enum is not found",
            Kind::FieldClash => {
                "the number, name or JSON name of a field clashes with an earlier field's"
            }
            Kind::NoRoom => "the shelf has no room for the file",
        })
    }
}

impl fmt::Display for Refusal {
    fn fmt(&self, f: &mut fmt::Formatter) -> fmt::Result {
        match self.kind.place() {
            Some(place) => write!(
                f,
                "refusal {}, {place} {}: {}",
                self.number(),
                self.place,
                self.kind
            ),
            None => write!(f, "refusal {}: {}", self.number(), self.kind),
        }
    }
}

impl Error for Refusal {}

/// A shelf that is not read.
#[derive(Clone, Copy, Debug, PartialEq, Eq, Hash)]
#[repr(u32)]
pub enum ShelfError {
    /// Its words or bytes are longer than a shelf may be.
    TooLong = 1,
    /// It is not well formed: no sequence of links leaves such words, bytes and numbers.
    Broken = 2,
}

impl fmt::Display for ShelfError {
    fn fmt(&self, f: &mut fmt::Formatter) -> fmt::Result {
        f.write_str(match self {
            ShelfError::TooLong => "the shelf is longer than its limit",
            ShelfError::Broken => "the shelf is not well formed",
        })
    }
}

impl Error for ShelfError {}

#[cfg(test)]
mod test {
    use super::*;

    #[test]
    fn kinds_and_numbers_are_one_to_one() {
        let numbers: Vec<u32> = Kind::ALL.iter().map(|kind| kind.number()).collect();
        assert_eq!(numbers, (1..=18).collect::<Vec<_>>());
        for kind in Kind::ALL {
            assert_eq!(Kind::from_number(kind.number()), Some(kind));
        }
        assert_eq!(Kind::from_number(0), None);
        assert_eq!(Kind::from_number(19), None);
    }

    #[test]
    fn a_refusal_says_its_place_where_it_has_one() {
        let said = |kind, place| Refusal { kind, place }.to_string();
        assert_eq!(
            said(Kind::NameTaken, 0),
            "refusal 6: a file of that name is on the shelf"
        );
        assert_eq!(
            said(Kind::ImportMissing, 2),
            "refusal 7, import row 2: an import is not on the shelf"
        );
        assert_eq!(
            said(Kind::EnumMissing, 5),
            "refusal 16, field 5: an enum is not found"
        );
    }
}
