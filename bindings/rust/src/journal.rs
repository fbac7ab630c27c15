//! The entries of a journal.
use crate::raw::{self, RawRecord, RawTarget};
use crate::{Denial, Rights, Store, Target, Value};

/// A deed that a worker asked for.
#[derive(Clone, Copy, PartialEq, Eq, Hash, Debug)]
#[non_exhaustive]
pub enum Deed {
    /// To take rights over the target that `via` has.
    Take {
        /// The vertex whose rights were to be taken.
        via: u64,
        /// The vertex over which they are.
        target: u64,
        /// The rights that were asked for.
        rights: Rights,
    },
    /// To grant rights over the target to `via`.
    Grant {
        /// The vertex that was to get the rights.
        via: u64,
        /// The vertex over which they are.
        target: u64,
        /// The rights that were to be granted.
        rights: Rights,
    },
    /// To give up rights over the target.
    Remove {
        /// The vertex over which they are.
        target: u64,
        /// The rights that were to be given up.
        rights: Rights,
    },
    /// To read what the target stores.
    Read {
        /// The vertex that was to be read.
        target: u64,
    },
    /// To write to the target.
    Write {
        /// The vertex that was to be written to.
        target: u64,
        /// The number.
        value: u64,
    },
    /// To add to the log of the target.
    Append {
        /// The vertex that stores the log.
        target: u64,
        /// The number.
        value: u64,
    },
    /// To list the target's edges.
    Inspect {
        /// The vertex whose edges were to be shown.
        target: u64,
    },
    /// To list its own edges.
    List,
    /// To retire.
    Retire,
    /// To make a vertex that stores the value at first, and to have rights over it.
    Create {
        /// The rights over it.
        rights: Rights,
        /// The value that it stores at first.
        value: Value,
    },
    /// To make a worker that stores the value at first, and to have rights over it.
    Spawn {
        /// The rights over it.
        rights: Rights,
        /// The value that it stores at first.
        value: Value,
    },
}

/// The reply to a deed.
#[derive(Clone, PartialEq, Eq, Hash, Debug)]
#[non_exhaustive]
pub enum Reply {
    /// A take, grant, remove, write, append or retire was done.
    Done,
    /// The rules denied it.
    Denied(Denial),
    /// A vertex was made, of this name.
    Name(u64),
    /// The numbers that a vertex stored when it was read.
    Values(Vec<u64>),
    /// The edges that a list or an inspect showed, by rising name.
    Edges(Vec<Target>),
    /// No vertex was made, because `max_vertices` were made before.
    VerticesFull,
    /// No worker was made, because 64 were active.
    WorkersFull,
}

/// An entry of the journal.
#[derive(Clone, PartialEq, Eq, Hash, Debug)]
pub struct Entry {
    /// The worker that asked.
    pub worker: u64,
    /// The deed that it asked for.
    pub deed: Deed,
    /// The reply.
    pub reply: Reply,
}

impl Entry {
    // The entry that the library returned, with all numbers and edges.
    pub(crate) fn told(record: &RawRecord, numbers: &[u64], edges: &[RawTarget]) -> Entry {
        Entry {
            worker: record.worker,
            deed: Deed::told(record, numbers),
            reply: Reply::told(record, numbers, edges),
        }
    }
}

impl Deed {
    // The deed that the library returned, with the numbers that a vertex stores at first.
    pub(crate) fn told(record: &RawRecord, numbers: &[u64]) -> Deed {
        let rights = Rights::told(record.rights);
        let RawRecord { via, target, value, .. } = *record;
        match record.deed {
            raw::DEED_TAKE => Deed::Take { via, target, rights },
            raw::DEED_GRANT => Deed::Grant { via, target, rights },
            raw::DEED_REMOVE => Deed::Remove { target, rights },
            raw::DEED_READ => Deed::Read { target },
            raw::DEED_WRITE => Deed::Write { target, value },
            raw::DEED_APPEND => Deed::Append { target, value },
            raw::DEED_INSPECT => Deed::Inspect { target },
            raw::DEED_LIST => Deed::List,
            raw::DEED_RETIRE => Deed::Retire,
            raw::DEED_CREATE => Deed::Create {
                rights,
                value: Value::told(record, numbers),
            },
            raw::DEED_SPAWN => Deed::Spawn {
                rights,
                value: Value::told(record, numbers),
            },
            deed => unreachable!("interface {} has no deed {deed}", raw::ABI),
        }
    }
}

impl Value {
    // The value that a new vertex stored at first. A log begins with no number, and each other law with one.
    fn told(record: &RawRecord, numbers: &[u64]) -> Value {
        match record.law {
            raw::CELL => Value::Cell(numbers[0]),
            raw::SUM => Value::Sum(numbers[0]),
            raw::MAX => Value::Max(numbers[0]),
            raw::LOG => Value::Log(record.most),
            law => unreachable!("interface {} has no law {law}", raw::ABI),
        }
    }
}

impl Reply {
    fn told(record: &RawRecord, numbers: &[u64], edges: &[RawTarget]) -> Reply {
        match record.reply {
            raw::REPLY_DONE => Reply::Done,
            raw::REPLY_DENIED => Reply::Denied(Denial::from(&record.denial)),
            raw::REPLY_NAME => Reply::Name(record.name),
            raw::REPLY_VALUES => Reply::Values(numbers.to_vec()),
            raw::REPLY_EDGES => Reply::Edges(edges.iter().map(Target::from).collect()),
            raw::REPLY_VERTICES_FULL => Reply::VerticesFull,
            raw::REPLY_WORKERS_FULL => Reply::WorkersFull,
            reply => unreachable!("interface {} has no reply {reply}", raw::ABI),
        }
    }
}

/// The entries of a store's journal, from the first that it holds on ([`Store::journal`]).
#[derive(Debug)]
pub struct Journal<'a> {
    store: &'a Store,
    at: u64,
}

impl<'a> Journal<'a> {
    pub(crate) fn new(store: &'a Store) -> Journal<'a> {
        // The store is open, so it has a first place.
        let at = store.first().unwrap_or_default();
        Journal { store, at }
    }
}

impl Iterator for Journal<'_> {
    type Item = Entry;

    fn next(&mut self) -> Option<Entry> {
        // The store is open, so nothing but the end is refused.
        let entry = self.store.entry(self.at).ok()?;
        self.at += 1;
        Some(entry)
    }
}
