//! Snapshots, from which an auditor and a store go on.
//!
//! The library reads each text, and its reader is proved. The parts of a snapshot are read here, from a text that the library has
//! accepted.
use crate::error::served;
use crate::raw::{self, RawAuditor, RawSnapshot, RawStore};
use crate::text::text_of;
use crate::{Edge, Error, Limits, Value};
use std::fmt;
use std::ptr::null_mut;
use std::str::FromStr;

/// A snapshot of a graph, at a place of its history. It has the active workers, the vertices that they reach with their numbers, and
/// how many entries came before. An [`Auditor`](crate::Auditor) takes a snapshot ([`snapshot`](crate::Auditor::snapshot)), and another
/// auditor goes on from it ([`reopen`](crate::Auditor::reopen)). A store goes on from a snapshot too
/// ([`Store::reopen`](crate::Store::reopen)).
///
/// [`subjects`](Snapshot::subjects), [`vertices`](Snapshot::vertices) and [`edges`](Snapshot::edges) iterate over what it shows. It is
/// kept as its text, by `to_string` and `parse`. The text has a line for each thing that is shown, and no line feed after the
/// last of them. One graph has one text at a place, so equal snapshots are of the same graph.
///
/// ```
/// # use kovshenul::{Snapshot, Value, Vertex};
/// let text = "kovshenul picture 1\nmade 3 10 7\nworker 0\nvertex 0 c5\nvertex 2 l4:8,9\nedge 0 2 rw\npicture 3";
/// let snapshot: Snapshot = text.parse()?;
/// assert_eq!((snapshot.made(), snapshot.limit(), snapshot.entries()), (3, 10, 7));
/// assert_eq!(snapshot.vertices().last(), Some(Vertex { name: 2, value: Value::Log(4), numbers: vec![8, 9] }));
/// assert_eq!(snapshot.edges().map(|edge| edge.to).collect::<Vec<u64>>(), [2]);
/// # Ok::<(), Box<dyn std::error::Error>>(())
/// ```
#[derive(Clone, PartialEq, Eq, Hash, Debug)]
pub struct Snapshot {
    text: String,
}

/// A vertex of a snapshot.
#[derive(Clone, PartialEq, Eq, Hash, Debug)]
pub struct Vertex {
    /// Its name.
    pub name: u64,
    /// Its law: this value makes such a vertex. A log begins empty, so only `numbers` say what a log stores.
    pub value: Value,
    /// The numbers that it stores, as [`Store::read`](crate::Store::read) returns them.
    pub numbers: Vec<u64>,
}

// The reason that a bad line is given.
const DUE: &str = "not as it is due in the text of a snapshot, which begins with 'kovshenul picture 1' and ends with 'picture COUNT'";

// Why each part of a text is as it is due.
const ACCEPTED: &str = "the library has accepted the text";

/// A text isn't that of a snapshot, or memory ran out.
#[derive(Clone, Copy, PartialEq, Eq, Debug)]
#[non_exhaustive]
pub enum NoSnapshot {
    /// The first line at fault, counted from 1. It is no line of a snapshot's text, or is out of order, or names a vertex that isn't
    /// shown. Or the end of the text is missing.
    Line(u64),
    /// Memory ran out, which says nothing of the text.
    OutOfMemory,
}

impl fmt::Display for NoSnapshot {
    fn fmt(&self, out: &mut fmt::Formatter<'_>) -> fmt::Result {
        match self {
            NoSnapshot::Line(line) => write!(out, "line {line}: {DUE}"),
            NoSnapshot::OutOfMemory => Error::OutOfMemory.fmt(out),
        }
    }
}

impl std::error::Error for NoSnapshot {}

impl fmt::Display for Snapshot {
    fn fmt(&self, out: &mut fmt::Formatter<'_>) -> fmt::Result {
        out.write_str(&self.text)
    }
}

impl FromStr for Snapshot {
    type Err = NoSnapshot;

    /// Reads a text that `to_string` returned, or the same with a line feed at its end.
    fn from_str(text: &str) -> Result<Snapshot, NoSnapshot> {
        let text = text.strip_suffix('\n').unwrap_or(text).to_string();
        let snapshot = Snapshot { text };
        snapshot.place()?;
        Ok(snapshot)
    }
}

impl Snapshot {
    /// How many names were given. It is the name that the next vertex gets.
    pub fn made(&self) -> u64 {
        self.counts()[0]
    }

    /// How many names may be given in all: the [`max_vertices`](Limits::max_vertices) of the store.
    pub fn limit(&self) -> u64 {
        self.counts()[1]
    }

    /// How many entries came before. It is the place of the next entry.
    pub fn entries(&self) -> u64 {
        self.counts()[2]
    }

    /// The names of the active workers, rising.
    pub fn subjects(&self) -> impl Iterator<Item = u64> + '_ {
        self.lines("worker ").map(number)
    }

    /// Each vertex that an active worker reaches, and each active worker, by rising name.
    pub fn vertices(&self) -> impl Iterator<Item = Vertex> + '_ {
        self.lines("vertex ").map(|line| {
            let (name, stored) = line.split_once(' ').expect(ACCEPTED);
            let (value, numbers) = stored_by(stored);
            Vertex {
                name: number(name),
                value,
                numbers,
            }
        })
    }

    /// Each edge between these vertices, by rising [`from`](Edge::from) and then by rising [`to`](Edge::to).
    pub fn edges(&self) -> impl Iterator<Item = Edge> + '_ {
        self.lines("edge ").map(|line| {
            let (from, rest) = line.split_once(' ').expect(ACCEPTED);
            let (to, letters) = rest.split_once(' ').expect(ACCEPTED);
            Edge {
                from: number(from),
                to: number(to),
                rights: letters.parse().expect(ACCEPTED),
            }
        })
    }

    /// Returns the same snapshot, in which so many names were given. A host raises the number if entries after the snapshot were lost,
    /// and a client may still hold names that these entries gave. A store that is reopened gives none of the names before `made` again.
    ///
    /// It is [`BadLimits`](Error::BadLimits) if fewer names were given than are now, or more than [`limit`](Snapshot::limit).
    ///
    /// ```
    /// # use kovshenul::{Error, Snapshot};
    /// let snapshot: Snapshot = "kovshenul picture 1\nmade 1 10 0\nworker 0\nvertex 0 c5\npicture 1".parse()?;
    /// assert_eq!(snapshot.with_names(4)?.made(), 4);
    /// assert_eq!(snapshot.with_names(11), Err(Error::BadLimits));
    /// # Ok::<(), Box<dyn std::error::Error>>(())
    /// ```
    pub fn with_names(&self, made: u64) -> Result<Snapshot, Error> {
        let [now, limit, _] = self.counts();
        if made < now || limit < made {
            return Err(Error::BadLimits);
        }
        let (before, after) = (format!("\nmade {now} "), format!("\nmade {made} "));
        let raised = Snapshot {
            text: self.text.replacen(&before, &after, 1),
        };
        match raised.place() {
            Ok(_) => Ok(raised),
            Err(NoSnapshot::OutOfMemory) => Err(Error::OutOfMemory),
            Err(NoSnapshot::Line(_)) => Err(Error::BadLimits),
        }
    }

    // How many names were given, how many may be, and how many entries came before.
    fn counts(&self) -> [u64; 3] {
        let mut counts = self.lines("made ").flat_map(|line| line.split(' ')).map(number);
        [(); 3].map(|()| counts.next().expect(ACCEPTED))
    }

    // The rest of each line that begins with the word.
    fn lines<'a>(&'a self, word: &'a str) -> impl Iterator<Item = &'a str> + 'a {
        self.text.lines().filter_map(move |line| line.strip_prefix(word))
    }

    // The snapshot of an auditor.
    pub(crate) fn of(auditor: *mut RawAuditor) -> Result<Snapshot, Error> {
        let mut place = Place::closed();
        served(unsafe { raw::tg_auditor_snapshot(auditor, &mut place.0) })?;
        let at: *mut RawSnapshot = &mut place.0;
        let text = text_of(|text, room, length| unsafe { raw::tg_snapshot_text(at, text, room, length) })?;
        Ok(Snapshot { text })
    }

    // Opens an auditor from it.
    pub(crate) fn reopen(&self, auditor: &mut RawAuditor) -> Result<(), Error> {
        // The text is that of a snapshot, so only memory may be lacking.
        let mut place = self.place().map_err(|_| Error::OutOfMemory)?;
        served(unsafe { raw::tg_auditor_reopen(auditor, &mut place.0) })
    }

    // Opens a store from it.
    pub(crate) fn reopen_store(&self, store: &mut RawStore, limits: &Limits) -> Result<(), Error> {
        let mut place = self.place().map_err(|_| Error::OutOfMemory)?;
        served(unsafe { raw::tg_reopen(store, &mut place.0, limits) })
    }

    // The snapshot of its text, in a place of the library.
    fn place(&self) -> Result<Place, NoSnapshot> {
        let (mut place, mut line) = (Place::closed(), 0);
        let text = format!("{self}\n");
        let status = unsafe { raw::tg_snapshot_read(&mut place.0, text.as_ptr(), text.len(), &mut line) };
        match served(status) {
            Ok(()) => Ok(place),
            Err(Error::OutOfMemory) => Err(NoSnapshot::OutOfMemory),
            Err(_) => Err(NoSnapshot::Line(line)),
        }
    }
}

// A number of the text.
fn number(digits: &str) -> u64 {
    digits.parse().expect(ACCEPTED)
}

// The law of a vertex and its numbers, by their text, as `s42`, or `l2:7,8` for a log of at most two.
fn stored_by(text: &str) -> (Value, Vec<u64>) {
    let (law, digits) = text.split_at(1);
    let (first, rest) = digits.split_once(':').unwrap_or((digits, ""));
    match law {
        "c" => (Value::Cell(number(first)), vec![number(first)]),
        "s" => (Value::Sum(number(first)), vec![number(first)]),
        "m" => (Value::Max(number(first)), vec![number(first)]),
        _ => {
            let numbers = rest.split(',').filter(|it| !it.is_empty()).map(number);
            (Value::Log(first.parse().expect(ACCEPTED)), numbers.collect())
        }
    }
}

// A place of the library, which is closed when it is dropped.
struct Place(RawSnapshot);

impl Place {
    fn closed() -> Place {
        Place(RawSnapshot {
            is_open: false,
            at: null_mut(),
        })
    }
}

impl Drop for Place {
    fn drop(&mut self) {
        unsafe { raw::tg_snapshot_close(&mut self.0) };
    }
}
