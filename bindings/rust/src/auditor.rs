//! An audit that comes in parts.
use crate::error::served;
use crate::raw::{self, RawAuditor, RawEdge, RawValue};
use crate::{Edge, Error, Limits, Snapshot, Store, Value};
use std::cell::UnsafeCell;
use std::fmt;
use std::panic::RefUnwindSafe;
use std::ptr::null_mut;

/// An auditor of a store's journal. It replays the journal part after part, so that the store may give up what was audited.
/// Its memory follows what the store's workers reach. Dropping it closes it.
///
/// Any thread may have an auditor, and one at a time, as a [`Store`].
///
/// ```
/// # use kovshenul::{Auditor, Error, Limits, Rights, Store, Value};
/// let (workers, limits) = ([Value::Cell(0)], Limits { max_vertices: 10, max_blocks: 8, max_space_blocks: 4 });
/// let mut store = Store::open(&workers, &[], &limits)?;
/// let mut auditor = Auditor::open(&workers, &[], &limits)?;
/// let sum = store.create(0, Rights::READ | Rights::WRITE, Value::Sum(40))?;
/// for round in 1..=3 {
///     store.write(0, sum, 1)?;
///     let audited = auditor.feed(&store)?;
///     assert_eq!(audited, round + 1);
///     auditor.forget(&mut store, audited)?;
/// }
/// assert_eq!(store.journal().count(), 0);
/// assert_eq!(auditor.forget(&mut store, 5), Err(Error::NotAudited));
/// # Ok::<(), Error>(())
/// ```
pub struct Auditor {
    // As of a store: while a call runs, one that only looks too, the library takes the auditor out of its place.
    place: UnsafeCell<RawAuditor>,
}

// The value at the pointer may go to another thread, because the library has a function whose bound asks for it
// (crates/tg_c/src/place.rt).
unsafe impl Send for Auditor {}

// No call of the library unwinds, so none is left half done.
impl RefUnwindSafe for Auditor {}

impl Auditor {
    /// Opens an auditor with the workers, edges and limits with which the store was opened. It begins at the first entry.
    pub fn open(workers: &[Value], edges: &[Edge], limits: &Limits) -> Result<Auditor, Error> {
        let abi = unsafe { raw::tg_abi() };
        assert_eq!(abi, raw::ABI, "the library has another interface");
        let workers: Vec<RawValue> = workers.iter().map(RawValue::from).collect();
        let edges: Vec<RawEdge> = edges.iter().map(RawEdge::from).collect();
        let mut place = RawAuditor {
            is_open: false,
            at: null_mut(),
        };
        let status = unsafe {
            raw::tg_auditor_open(
                &mut place,
                workers.as_ptr(),
                workers.len(),
                edges.as_ptr(),
                edges.len(),
                limits,
            )
        };
        served(status)?;
        Ok(Auditor {
            place: UnsafeCell::new(place),
        })
    }

    /// Opens an auditor that goes on from a snapshot. Its place is that of the snapshot. So it is fed by a store that holds the entry of
    /// this place, or that makes it next. Only memory may be lacking.
    ///
    /// ```
    /// # use kovshenul::{Auditor, Limits, Rights, Snapshot, Store, Value};
    /// # let (workers, limits) = ([Value::Cell(0)], Limits { max_vertices: 10, max_blocks: 8, max_space_blocks: 4 });
    /// # let mut store = Store::open(&workers, &[], &limits)?;
    /// let mut first = Auditor::open(&workers, &[], &limits)?;
    /// let sum = store.create(0, Rights::READ | Rights::WRITE, Value::Sum(40))?;
    /// let audited = first.feed(&store)?;
    /// let kept = first.snapshot()?.to_string();
    /// first.forget(&mut store, audited)?;
    /// store.write(0, sum, 2)?;
    /// let snapshot: Snapshot = kept.parse()?;
    /// let mut second = Auditor::reopen(&snapshot)?;
    /// assert_eq!(second.feed(&store)?, 2);
    /// assert_eq!(first.feed(&store)?, 2);
    /// assert_eq!(second.snapshot()?, first.snapshot()?);
    /// # Ok::<(), Box<dyn std::error::Error>>(())
    /// ```
    pub fn reopen(snapshot: &Snapshot) -> Result<Auditor, Error> {
        let mut place = RawAuditor {
            is_open: false,
            at: null_mut(),
        };
        snapshot.reopen(&mut place)?;
        Ok(Auditor {
            place: UnsafeCell::new(place),
        })
    }

    /// Takes a snapshot of the graph at its place. It is [`BadEntry`](Error::BadEntry) after a bad entry.
    pub fn snapshot(&self) -> Result<Snapshot, Error> {
        Snapshot::of(self.place.get())
    }

    /// Replays the entries that the store holds, from the auditor's place on, and returns how many entries passed in all.
    ///
    /// It is [`BadPlace`](Error::BadPlace) if entries that it hasn't seen were given up, or if the store has made fewer
    /// than it has seen. After [`OutOfMemory`](Error::OutOfMemory) and [`BadEntry`](Error::BadEntry) the entries that
    /// passed stay passed, and [`at`](Auditor::at) returns the place of the entry at which it stopped. If memory ran out,
    /// feed it again. After a bad entry each later feed returns `BadEntry` again.
    pub fn feed(&mut self, store: &Store) -> Result<u64, Error> {
        let mut passed = 0;
        served(unsafe { raw::tg_auditor_feed(self.place.get(), store.at(), &mut passed) })?;
        Ok(passed)
    }

    /// Returns how many entries passed, which is the place of the next one.
    pub fn at(&self) -> Result<u64, Error> {
        let mut at = 0;
        served(unsafe { raw::tg_auditor_at(self.place.get(), &mut at) })?;
        Ok(at)
    }

    /// Gives up the store's entries before this place, as [`Store::forget`] does. It is [`NotAudited`](Error::NotAudited)
    /// if the auditor hasn't come as far, and nothing is given up then.
    pub fn forget(&self, store: &mut Store, upto: u64) -> Result<(), Error> {
        served(unsafe { raw::tg_auditor_forget(self.place.get(), store.at(), upto) })
    }

    /// Gives back what it keeps of vertices that no worker reaches any more. An auditor sweeps by itself too. It looks each
    /// time that it keeps a quarter as many vertices again as at its last look, and 65,536 at the least. It then sweeps if
    /// rights were given up or a worker retired since its last sweep.
    pub fn sweep(&mut self) -> Result<(), Error> {
        served(unsafe { raw::tg_auditor_sweep(self.place.get()) })
    }
}

impl Drop for Auditor {
    fn drop(&mut self) {
        unsafe { raw::tg_auditor_close(self.place.get()) };
    }
}

impl fmt::Debug for Auditor {
    fn fmt(&self, out: &mut fmt::Formatter<'_>) -> fmt::Result {
        out.debug_struct("Auditor").finish_non_exhaustive()
    }
}
