//! How a table's bytes are read: its kind, of ticket 2026-04, and its dialect, of ticket 2026-13.

use super::Kind;

/// What a range from high to low is, and how far the weekdays go.
#[derive(Clone, Copy, Debug, PartialEq, Eq)]
pub enum Dialect {
    /// The first: it is refused, and Sunday is 0 or 7.
    Rising,
    /// The second: it goes on from the field's first value, and Sunday is 0.
    Wrapping,
}

impl Dialect {
    pub const BOTH: [Dialect; 2] = [Dialect::Rising, Dialect::Wrapping];

    /// What C means by a number.
    pub fn of(number: u64) -> Dialect {
        match number {
            0 => Dialect::Rising,
            _ => Dialect::Wrapping,
        }
    }

    /// A number that means the dialect.
    pub fn number(self) -> u64 {
        u64::from(self == Dialect::Wrapping)
    }
}

#[derive(Clone, Copy, Debug, PartialEq, Eq)]
pub struct Rules {
    pub kind: Kind,
    pub dialect: Dialect,
}

impl Rules {
    pub const ALL: [Rules; 4] = [
        Rules::of(Kind::User, Dialect::Rising),
        Rules::of(Kind::System, Dialect::Rising),
        Rules::of(Kind::User, Dialect::Wrapping),
        Rules::of(Kind::System, Dialect::Wrapping),
    ];

    pub const fn of(kind: Kind, dialect: Dialect) -> Rules {
        Rules { kind, dialect }
    }
}

/// In the first dialect.
impl From<Kind> for Rules {
    fn from(kind: Kind) -> Rules {
        Rules::of(kind, Dialect::Rising)
    }
}

/// Of a user table.
impl From<Dialect> for Rules {
    fn from(dialect: Dialect) -> Rules {
        Rules::of(Kind::User, dialect)
    }
}
