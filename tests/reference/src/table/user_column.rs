//! Ticket 2026-04: which kind a table is, and the user column that an entry of a system table has.

use super::{cut, Part, Word};

/// What the user column may have in each of its parts.
pub const NAME_BYTES: usize = 32;

#[derive(Clone, Copy, Debug, PartialEq, Eq)]
pub enum Kind {
    User,
    System,
}

impl Kind {
    pub const BOTH: [Kind; 2] = [Kind::User, Kind::System];

    /// What C means by a number: 0 is the older kind, any other the newer.
    pub fn of(number: u64) -> Kind {
        match number {
            0 => Kind::User,
            _ => Kind::System,
        }
    }

    /// A number that means the kind.
    pub fn number(self) -> u64 {
        u64::from(self == Kind::System)
    }
}

/// Who an entry runs as, as parts of the table. In a user table all of them are absent.
#[derive(Clone, Copy, Debug, Default, PartialEq, Eq)]
pub struct UserColumn {
    pub user: Option<Part>,
    pub group: Option<Part>,
    pub class: Option<Part>,
}

impl UserColumn {
    pub fn parts(self) -> [Option<Part>; 3] {
        [self.user, self.group, self.class]
    }

    /// The column that a word is, with offsets in its line. It is cut at its first slash, and what stands before that at its
    /// first colon: any later one would be a byte of a name, and no name has it.
    pub(super) fn of(word: Word) -> Option<UserColumn> {
        let (owner, class) = cut(word.text, b'/');
        let (user, group) = cut(owner, b':');
        let names = [Some(user), group, class];
        if !names.into_iter().flatten().all(is_name) {
            return None;
        }
        let part = |before: usize, text: &[u8]| Part {
            offset: word.at + before,
            length: text.len(),
        };
        Some(UserColumn {
            user: Some(part(0, user)),
            group: group.map(|text| part(user.len() + 1, text)),
            class: class.map(|text| part(owner.len() + 1, text)),
        })
    }

    pub(super) fn later(self, by: usize) -> UserColumn {
        let [user, group, class] = self.parts().map(|part| part.map(|part| part.later(by)));
        UserColumn { user, group, class }
    }
}

/// Letters, digits, `_`, `-` and `.`, of which the first isn't `-`.
fn is_name(text: &[u8]) -> bool {
    let is_of_a_name = |byte: &u8| byte.is_ascii_alphanumeric() || b"_-.".contains(byte);
    (1..=NAME_BYTES).contains(&text.len())
        && text.iter().all(is_of_a_name)
        && !text.starts_with(b"-")
}
