//! The error of a call that wasn't served.
use crate::raw::{self, RawDenial};
use crate::Rights;
use std::ffi::CStr;
use std::fmt;

/// The rule of a command that was denied.
#[derive(Clone, Copy, PartialEq, Eq, Hash, Debug)]
#[non_exhaustive]
pub enum Rule {
    /// [`Store::take`](crate::Store::take).
    Take,
    /// [`Store::grant`](crate::Store::grant).
    Grant,
    /// [`Store::remove`](crate::Store::remove).
    Remove,
    /// [`Store::read`](crate::Store::read).
    Read,
    /// [`Store::write`](crate::Store::write).
    Write,
    /// [`Store::append`](crate::Store::append).
    Append,
    /// [`Store::inspect`](crate::Store::inspect).
    Inspect,
}

impl fmt::Display for Rule {
    /// Its word, as `take`.
    fn fmt(&self, out: &mut fmt::Formatter<'_>) -> fmt::Result {
        out.pad(match self {
            Rule::Take => "take",
            Rule::Grant => "grant",
            Rule::Remove => "remove",
            Rule::Read => "read",
            Rule::Write => "write",
            Rule::Append => "append",
            Rule::Inspect => "inspect",
        })
    }
}

// By their numbers.
const RULES: [Rule; 7] = [
    Rule::Take,
    Rule::Grant,
    Rule::Remove,
    Rule::Read,
    Rule::Write,
    Rule::Append,
    Rule::Inspect,
];

/// Why a command was denied: the first check that failed.
///
/// ```
/// use kovshenul::{Denial, Rights, Rule};
/// let denial = Denial::Missing { rule: Rule::Write, from: 1, to: 2, rights: Rights::WRITE };
/// assert_eq!(denial.to_string(), "write: w is missing on 1->2");
/// ```
#[derive(Clone, Copy, PartialEq, Eq, Hash, Debug)]
#[non_exhaustive]
pub enum Denial {
    /// Two vertices that must differ are the same.
    NotDistinct {
        /// The rule of the denied command.
        rule: Rule,
    },
    /// The rights are missing on the edge from `from` to `to`.
    Missing {
        /// The rule of the denied command.
        rule: Rule,
        /// The vertex that lacks the rights.
        from: u64,
        /// The vertex over which they are missing.
        to: u64,
        /// The rights that are missing.
        rights: Rights,
    },
    /// The target of an append stores no log.
    NotLog {
        /// The rule of the denied command.
        rule: Rule,
    },
}

impl Denial {
    /// The rule of the denied command.
    pub fn rule(&self) -> Rule {
        match *self {
            Denial::NotDistinct { rule } | Denial::Missing { rule, .. } | Denial::NotLog { rule } => rule,
        }
    }
}

impl fmt::Display for Denial {
    /// The sentence that `tg_denial_text` writes in C.
    fn fmt(&self, out: &mut fmt::Formatter<'_>) -> fmt::Result {
        match self {
            Denial::NotDistinct { rule } => write!(out, "{rule}: two vertices that must differ are one"),
            Denial::Missing { rule, from, to, rights } => write!(out, "{rule}: {rights} is missing on {from}->{to}"),
            Denial::NotLog { rule } => write!(out, "{rule}: the target stores no log"),
        }
    }
}

impl From<&RawDenial> for Denial {
    fn from(why: &RawDenial) -> Denial {
        let rule = RULES[why.rule as usize];
        match why.cause {
            raw::NOT_DISTINCT => Denial::NotDistinct { rule },
            raw::MISSING => Denial::Missing {
                rule,
                from: why.from,
                to: why.to,
                rights: Rights::told(why.rights),
            },
            raw::NOT_LOG => Denial::NotLog { rule },
            cause => unreachable!("interface {} has no cause {cause}", raw::ABI),
        }
    }
}

impl From<&Denial> for RawDenial {
    fn from(denial: &Denial) -> RawDenial {
        let (cause, from, to, rights) = match *denial {
            Denial::NotDistinct { .. } => (raw::NOT_DISTINCT, 0, 0, 0),
            Denial::Missing { from, to, rights, .. } => (raw::MISSING, from, to, rights.bits()),
            Denial::NotLog { .. } => (raw::NOT_LOG, 0, 0, 0),
        };
        let rule = RULES.iter().position(|rule| *rule == denial.rule()).unwrap_or(RULES.len()) as u32;
        RawDenial { rule, cause, from, to, rights }
    }
}

/// Why a call was not served. `Denied` has an entry in the journal, and changed nothing else. After every other refusal the
/// store is as it was, except that `VerticesFull` and `WorkersFull` have an entry.
#[derive(Clone, Copy, PartialEq, Eq, Hash, Debug)]
#[non_exhaustive]
pub enum Error {
    /// The rules don't allow it.
    Denied(Denial),
    /// Memory ran out. Make the same call again.
    OutOfMemory,
    /// The limits leave no cell or block. Collect, and try again.
    HeapFull,
    /// `max_vertices` were made.
    VerticesFull,
    /// 64 workers are active.
    WorkersFull,
    /// No active worker has the name. It was never spawned, it is an object, or it retired.
    NoSuchWorker,
    /// The account of a parking holds some right already, or the user holds a right over it. Or the user of an unparking holds
    /// some right already, or the account holds a right over it.
    InUse,
    /// No right; several rights, where one is asked about.
    BadRights,
    /// A log of 0 or of more than 64 numbers.
    BadLaw,
    /// A batch has a create or a spawn.
    BadKind,
    /// Not from 1 to 64 workers. A snapshot from which a store is to go on has none.
    BadWorkers,
    /// A limit is out of its range. `max_vertices` isn't that of a snapshot. A batch has more than 1,024 commands.
    BadLimits,
    /// An edge from a worker to itself, or with an end that is no worker. Or a supposed edge with an end that no worker reaches.
    BadEdge,
    /// An entry to go on from that no store makes, as one with an empty set of rights.
    BadValues,
    /// An entry isn't legal after the opening of the auditor, or of the store that goes on from it. It was altered, or the other
    /// store was opened by other workers, edges or limits.
    BadEntry,
    /// The journal holds no entry at the place. It wasn't made yet, or it was given up. An entry to go on from isn't the next.
    BadPlace,
    /// The journal doesn't have all entries since the opening, so they can't be audited. Some were given up, or the store goes
    /// on from a snapshot.
    NotWhole,
    /// Entries before the place weren't audited.
    NotAudited,
    /// Any other status of the library.
    Status(u32),
}

// The errors with a status of their own.
const REFUSALS: [(Error, u32); 17] = [
    (Error::OutOfMemory, 32),
    (Error::HeapFull, 33),
    (Error::VerticesFull, 34),
    (Error::WorkersFull, 35),
    (Error::NoSuchWorker, 48),
    (Error::InUse, 49),
    (Error::BadRights, 64),
    (Error::BadLaw, 65),
    (Error::BadKind, 66),
    (Error::BadWorkers, 80),
    (Error::BadLimits, 81),
    (Error::BadEdge, 82),
    (Error::BadValues, 83),
    (Error::BadEntry, 96),
    (Error::BadPlace, 97),
    (Error::NotWhole, 98),
    (Error::NotAudited, 99),
];

impl Error {
    /// The library's status.
    pub fn status(&self) -> u32 {
        match self {
            Error::Denied(_) => raw::DENIED,
            Error::Status(status) => *status,
            other => REFUSALS.iter().find(|(error, _)| error == other).map_or(0, |(_, status)| *status),
        }
    }
}

impl fmt::Display for Error {
    fn fmt(&self, out: &mut fmt::Formatter<'_>) -> fmt::Result {
        if let Error::Denied(denial) = self {
            return write!(out, "denied, {denial}");
        }
        // The library's own text, which stays for as long as the program runs.
        let text = unsafe { CStr::from_ptr(raw::tg_status_text(self.status())) };
        out.pad(&text.to_string_lossy())
    }
}

impl std::error::Error for Error {}

// The outcome that a status reports.
pub(crate) fn served(status: u32) -> Result<(), Error> {
    if status == raw::DONE {
        return Ok(());
    }
    let named = REFUSALS.iter().find(|(_, its)| *its == status);
    Err(named.map_or(Error::Status(status), |(error, _)| *error))
}

// The same, of a command that may be denied.
pub(crate) fn decided(status: u32, why: &RawDenial) -> Result<(), Error> {
    if status == raw::DENIED {
        return Err(Error::Denied(Denial::from(why)));
    }
    served(status)
}
