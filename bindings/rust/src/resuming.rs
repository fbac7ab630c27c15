//! A store that goes on from the entries of another store.
use crate::error::served;
use crate::raw::{self, RawDenial, RawRecord, RawTarget};
use crate::{Deed, Edge, Entry, Error, Limits, Reply, Store, Value};
use std::borrow::Borrow;
use std::fmt;

/// A store didn't go on to the end of the entries.
#[derive(Debug)]
pub struct Stopped {
    /// The place of the entry at which it stopped, counted from 0.
    pub at: u64,
    /// Why it stopped.
    pub why: Error,
    /// The store with all entries before that place. It goes on from there ([`Store::go_on`]). There is none after
    /// [`BadEntry`](Error::BadEntry), and none if the opening was refused.
    pub store: Option<Store>,
}

impl fmt::Display for Stopped {
    fn fmt(&self, out: &mut fmt::Formatter<'_>) -> fmt::Result {
        write!(out, "entry {}: {}", self.at, self.why)
    }
}

impl std::error::Error for Stopped {}

impl Store {
    /// Opens a store that goes on from the entries of another store, which was opened with the same workers, edges and
    /// `max_vertices`. They begin at the first entry.
    ///
    /// The store does the deed of each entry again, and compares the replies. So nobody has to believe the entries. With `Ok` they
    /// are a legal history of this opening. The store then gives each later reply as the other store would.
    ///
    /// ```
    /// # use kovshenul::{Entry, Limits, Rights, Store, Value};
    /// let (workers, limits) = ([Value::Cell(0)], Limits::default());
    /// let mut first = Store::open(&workers, &[], &limits)?;
    /// let sum = first.create(0, Rights::READ | Rights::WRITE, Value::Sum(40))?;
    /// first.write(0, sum, 2)?;
    /// let kept: Vec<Entry> = first.journal().collect();
    /// drop(first);
    /// let mut second = Store::resume(&workers, &[], &limits, &kept)?;
    /// assert_eq!(second.read(0, sum)?, [42]);
    /// # Ok::<(), Box<dyn std::error::Error>>(())
    /// ```
    pub fn resume<E: Borrow<Entry>>(
        workers: &[Value],
        edges: &[Edge],
        limits: &Limits,
        entries: impl IntoIterator<Item = E>,
    ) -> Result<Store, Stopped> {
        match Store::open(workers, edges, limits) {
            Ok(store) => store.go_on(0, entries),
            Err(why) => Err(Stopped {
                at: 0,
                why,
                store: None,
            }),
        }
    }

    /// Goes on from more entries, of which the first has this place. Any store may go on, also one that took commands
    /// since it was opened. A host that hands in part after part can have the store forget each ([`Store::forget`]).
    ///
    /// It stops at an entry for one of these reasons, and at no other entry:
    ///
    /// - [`BadValues`](Error::BadValues): no store makes such an entry, as one with an empty set of rights.
    /// - [`BadPlace`](Error::BadPlace): the place isn't that of the store's next entry.
    /// - [`BadEntry`](Error::BadEntry): the entry isn't legal, since it was altered or is of another opening. The store is gone.
    /// - [`OutOfMemory`](Error::OutOfMemory), [`HeapFull`](Error::HeapFull): there is no room for it, also after a full collection.
    pub fn go_on<E: Borrow<Entry>>(
        mut self,
        from: u64,
        entries: impl IntoIterator<Item = E>,
    ) -> Result<Store, Stopped> {
        for (at, entry) in (from..).zip(entries) {
            if let Err(why) = self.replay(at, entry.borrow()) {
                let store = (why != Error::BadEntry).then(|| self);
                return Err(Stopped { at, why, store });
            }
        }
        Ok(self)
    }

    // Goes on from the entry at a place. After a bad one it is closed.
    fn replay(&mut self, at: u64, entry: &Entry) -> Result<(), Error> {
        let (record, numbers, edges) = entry.parts();
        served(unsafe {
            raw::tg_resume(
                self.at(),
                at,
                &record,
                numbers.as_ptr(),
                numbers.len(),
                edges.as_ptr(),
                edges.len(),
            )
        })
    }
}

impl Entry {
    // The entry as the library writes one: its record, its numbers and its edges.
    pub(crate) fn parts(&self) -> (RawRecord, Vec<u64>, Vec<RawTarget>) {
        let (numbers, edges) = (numbers_of(self), edges_of(self));
        let mut record = RawRecord::from(&self.deed);
        record.worker = self.worker;
        record.put_reply(&self.reply);
        record.number_count = numbers.len() as u64;
        record.edge_count = edges.len() as u64;
        (record, numbers, edges)
    }
}

// The numbers that a vertex stores at first, or that were read. A log begins with none.
fn numbers_of(entry: &Entry) -> Vec<u64> {
    match (&entry.deed, &entry.reply) {
        (Deed::Create { value, .. } | Deed::Spawn { value, .. }, _) => match *value {
            Value::Log(_) => Vec::new(),
            Value::Cell(number) | Value::Sum(number) | Value::Max(number) => vec![number],
        },
        (_, Reply::Values(numbers)) => numbers.clone(),
        _ => Vec::new(),
    }
}

fn edges_of(entry: &Entry) -> Vec<RawTarget> {
    match &entry.reply {
        Reply::Edges(edges) => edges.iter().map(RawTarget::from).collect(),
        _ => Vec::new(),
    }
}

impl From<&Deed> for RawRecord {
    // A record of the deed alone.
    fn from(deed: &Deed) -> RawRecord {
        let with = |deed| RawRecord {
            deed,
            ..RawRecord::default()
        };
        let on = |deed, target, value| RawRecord {
            target,
            value,
            ..with(deed)
        };
        let moving = |deed, via, target, rights: crate::Rights| RawRecord {
            via,
            rights: rights.bits(),
            ..on(deed, target, 0)
        };
        let making = |deed, rights: crate::Rights, value: &Value| {
            let (law, most, _) = value.parts();
            RawRecord {
                law,
                most,
                ..moving(deed, 0, 0, rights)
            }
        };
        match *deed {
            Deed::Take { via, target, rights } => moving(raw::DEED_TAKE, via, target, rights),
            Deed::Grant { via, target, rights } => moving(raw::DEED_GRANT, via, target, rights),
            Deed::Remove { target, rights } => moving(raw::DEED_REMOVE, 0, target, rights),
            Deed::Read { target } => on(raw::DEED_READ, target, 0),
            Deed::Write { target, value } => on(raw::DEED_WRITE, target, value),
            Deed::Append { target, value } => on(raw::DEED_APPEND, target, value),
            Deed::Inspect { target } => on(raw::DEED_INSPECT, target, 0),
            Deed::List => with(raw::DEED_LIST),
            Deed::Retire => with(raw::DEED_RETIRE),
            Deed::Create { rights, ref value } => making(raw::DEED_CREATE, rights, value),
            Deed::Spawn { rights, ref value } => making(raw::DEED_SPAWN, rights, value),
        }
    }
}

impl RawRecord {
    // Says what was answered.
    fn put_reply(&mut self, reply: &Reply) {
        self.reply = match reply {
            Reply::Done => raw::REPLY_DONE,
            Reply::Denied(denial) => {
                self.denial = RawDenial::from(denial);
                raw::REPLY_DENIED
            }
            Reply::Name(name) => {
                self.name = *name;
                raw::REPLY_NAME
            }
            Reply::Values(_) => raw::REPLY_VALUES,
            Reply::Edges(_) => raw::REPLY_EDGES,
            Reply::VerticesFull => raw::REPLY_VERTICES_FULL,
            Reply::WorkersFull => raw::REPLY_WORKERS_FULL,
        };
    }
}
