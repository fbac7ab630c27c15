//! Sets of rights.
use std::fmt;
use std::ops::{BitAnd, BitAndAssign, BitOr, BitOrAssign, Not, Sub, SubAssign};
use std::str::FromStr;

/// A set of rights over a vertex.
///
/// ```
/// use kovshenul::Rights;
/// let rights: Rights = "rw".parse()?;
/// assert_eq!(rights, Rights::READ | Rights::WRITE);
/// assert!(rights.contains(Rights::READ) && !rights.contains(Rights::GRANT));
/// assert_eq!((rights - Rights::READ).to_string(), "w");
/// assert_eq!(rights.iter().collect::<Vec<_>>(), [Rights::READ, Rights::WRITE]);
/// assert_eq!((!rights).to_string(), "tgaluv");
/// assert_eq!(format!("{rights:?}"), "Rights(rw)");
/// # Ok::<(), kovshenul::NoRights>(())
/// ```
#[derive(Clone, Copy, PartialEq, Eq, PartialOrd, Ord, Hash, Default)]
pub struct Rights(u64);

// Each right with its letter, by its bit.
const LETTERS: [(Rights, char); 8] = [
    (Rights::READ, 'r'),
    (Rights::WRITE, 'w'),
    (Rights::TAKE, 't'),
    (Rights::GRANT, 'g'),
    (Rights::APPEND, 'a'),
    (Rights::INSPECT, 'l'),
    (Rights::FREE_U, 'u'),
    (Rights::FREE_V, 'v'),
];

impl Rights {
    /// The set with no right.
    pub const NONE: Rights = Rights(0);
    /// `r`: reads the state.
    pub const READ: Rights = Rights(1);
    /// `w`: writes to the state.
    pub const WRITE: Rights = Rights(2);
    /// `t`: takes what the vertex has.
    pub const TAKE: Rights = Rights(4);
    /// `g`: grants to the vertex what its holder has.
    pub const GRANT: Rights = Rights(8);
    /// `a`: adds to a log.
    pub const APPEND: Rights = Rights(16);
    /// `l`: lists the edges of the vertex.
    pub const INSPECT: Rights = Rights(32);
    /// `u`: for the host to use. It is taken, granted and removed as all others, and no command asks for it.
    pub const FREE_U: Rights = Rights(64);
    /// `v`: for the host to use, as `u`.
    pub const FREE_V: Rights = Rights(128);

    /// The set with these bits, if each bit is a right, so the number is below 256.
    pub fn from_bits(bits: u64) -> Option<Rights> {
        let rights = Rights(bits);
        Rights::all().contains(rights).then_some(rights)
    }

    /// The set of all rights.
    pub fn all() -> Rights {
        LETTERS.iter().map(|(right, _)| *right).collect()
    }

    /// The bits, as the library takes them.
    pub fn bits(self) -> u64 {
        self.0
    }

    /// Whether the set is empty.
    pub fn is_empty(self) -> bool {
        self.0 == 0
    }

    /// Whether all rights of the other are in it.
    pub fn contains(self, other: Rights) -> bool {
        other.0 & !self.0 == 0
    }

    /// Each right in it, as a set of its own.
    pub fn iter(self) -> impl Iterator<Item = Rights> {
        let rights = LETTERS.iter().map(|(right, _)| *right);
        rights.filter(move |right| self.contains(*right))
    }

    // The rights that the library returns.
    pub(crate) fn told(bits: u64) -> Rights {
        Rights(bits)
    }
}

impl BitOr for Rights {
    type Output = Rights;

    fn bitor(self, other: Rights) -> Rights {
        Rights(self.0 | other.0)
    }
}

impl BitAnd for Rights {
    type Output = Rights;

    fn bitand(self, other: Rights) -> Rights {
        Rights(self.0 & other.0)
    }
}

impl Sub for Rights {
    type Output = Rights;

    fn sub(self, other: Rights) -> Rights {
        Rights(self.0 & !other.0)
    }
}

impl Not for Rights {
    type Output = Rights;

    /// The rights that aren't in it.
    fn not(self) -> Rights {
        Rights::all() - self
    }
}

impl BitOrAssign for Rights {
    fn bitor_assign(&mut self, other: Rights) {
        *self = *self | other;
    }
}

impl BitAndAssign for Rights {
    fn bitand_assign(&mut self, other: Rights) {
        *self = *self & other;
    }
}

impl SubAssign for Rights {
    fn sub_assign(&mut self, other: Rights) {
        *self = *self - other;
    }
}

impl FromIterator<Rights> for Rights {
    fn from_iter<I: IntoIterator<Item = Rights>>(rights: I) -> Rights {
        rights.into_iter().fold(Rights::NONE, BitOr::bitor)
    }
}

impl fmt::Display for Rights {
    /// The letters of the rights, in the order `rwtgaluv`.
    fn fmt(&self, out: &mut fmt::Formatter<'_>) -> fmt::Result {
        let held = LETTERS.iter().filter(|(right, _)| self.contains(*right));
        out.pad(&held.map(|(_, letter)| letter).collect::<String>())
    }
}

impl fmt::Debug for Rights {
    fn fmt(&self, out: &mut fmt::Formatter<'_>) -> fmt::Result {
        write!(out, "Rights({self})")
    }
}

/// A text that is no set of rights: a letter is none of `rwtgaluv`.
#[derive(Clone, Copy, PartialEq, Eq, Debug)]
pub struct NoRights(pub char);

impl fmt::Display for NoRights {
    fn fmt(&self, out: &mut fmt::Formatter<'_>) -> fmt::Result {
        write!(out, "{:?} is no letter of a right", self.0)
    }
}

impl std::error::Error for NoRights {}

impl FromStr for Rights {
    type Err = NoRights;

    /// The rights of these letters, in any order.
    fn from_str(text: &str) -> Result<Rights, NoRights> {
        let right_of = |letter| LETTERS.iter().find(|(_, its)| *its == letter);
        text.chars()
            .map(|letter| right_of(letter).map(|(right, _)| *right).ok_or(NoRights(letter)))
            .collect()
    }
}
