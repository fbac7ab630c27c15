//! An open store.
use crate::error::{decided, served};
use crate::marks::Marks;
use crate::raw::{self, RawDenial, RawEdge, RawHanding, RawLaw, RawRecord, RawStore, RawTarget, RawValue};
use crate::{Counts, Edge, Entry, Error, Hand, Journal, Kind, Law, Limits, Parking, Rights, Snapshot, Target, Value};
use std::cell::UnsafeCell;
use std::fmt;
use std::panic::RefUnwindSafe;
use std::ptr::null_mut;

/// The most numbers that a vertex can store.
pub(crate) const MOST_NUMBERS: usize = 64;

/// The most workers that are active at a time.
const MOST_WORKERS: usize = 64;

/// How many edges of a row are taken at once. A longer row is read from the journal, which has all of it.
const SHORT_ROW: usize = 64;

/// An open store. Dropping it closes it.
///
/// A call that only looks takes `&self`. It makes no entry and changes nothing. A read, a list and an inspect are commands
/// with an entry in the journal, so they take `&mut self`.
///
/// Any thread may have a store, and one at a time. It is `Send`, and not `Sync`. With a lock around it, many threads call
/// it in turn.
///
/// ```
/// # use kovshenul::{Limits, Rights, Store, Value};
/// use std::sync::Mutex;
/// use std::thread;
///
/// let limits = Limits { max_vertices: 10, max_blocks: 8, max_space_blocks: 4 };
/// let store = Mutex::new(Store::open(&[Value::Cell(0)], &[], &limits)?);
/// thread::scope(|scope| {
///     scope.spawn(|| store.lock().unwrap().create(0, Rights::READ, Value::Cell(0)));
/// });
/// assert_eq!(store.lock().unwrap().entries()?, 1);
/// # Ok::<(), kovshenul::Error>(())
/// ```
///
/// Two threads at once don't compile, also if both only look:
///
/// ```compile_fail,E0277
/// fn look(store: &kovshenul::Store) {
///     std::thread::scope(|scope| {
///         scope.spawn(|| store.census());
///         store.census()
///     });
/// }
/// ```
///
/// A copy doesn't compile, and neither does a store that was handed on:
///
/// ```compile_fail,E0382
/// fn both(store: kovshenul::Store) {
///     drop(store);
///     drop(store);
/// }
/// ```
pub struct Store {
    // While a call runs, one that only looks too, the library takes the store out of its place, and puts it back. The
    // cell is why that may be, and why no two threads call at once.
    place: UnsafeCell<RawStore>,
    // The marks of the host on its vertices, of which the library knows nothing.
    pub(crate) marks: Marks,
}

// The value at the pointer may go to another thread, because the library has a function whose bound asks for it
// (crates/tg_c/src/place.rt).
unsafe impl Send for Store {}

// No call of the library unwinds, so none is left half done.
impl RefUnwindSafe for Store {}

impl Store {
    /// Opens a store with a worker for each value.
    pub fn open(workers: &[Value], edges: &[Edge], limits: &Limits) -> Result<Store, Error> {
        let abi = unsafe { raw::tg_abi() };
        assert_eq!(abi, raw::ABI, "the library has another interface");
        let workers: Vec<RawValue> = workers.iter().map(RawValue::from).collect();
        let edges: Vec<RawEdge> = edges.iter().map(RawEdge::from).collect();
        let mut place = closed();
        let status = unsafe {
            raw::tg_open(
                &mut place,
                workers.as_ptr(),
                workers.len(),
                edges.as_ptr(),
                edges.len(),
                limits,
            )
        };
        served(status)?;
        Ok(Store::over(place))
    }

    /// Opens a store that goes on from a snapshot, with its workers, edges and values. Names go on, and so do the places of the
    /// journal, of which the store holds no entry from before. From there each command is answered as by the store of which it is a
    /// snapshot. [`Auditor::reopen`](crate::Auditor::reopen) opens an auditor for it from the same snapshot.
    ///
    /// It is [`BadLimits`](Error::BadLimits) if `max_vertices` isn't the number of the first store, or another limit is out of its
    /// range. It is [`BadWorkers`](Error::BadWorkers) if the snapshot has no worker. The snapshot has no marks of the host.
    ///
    /// ```
    /// # use kovshenul::{Auditor, Limits, Rights, Snapshot, Store, Value};
    /// # let (workers, limits) = ([Value::Cell(0)], Limits { max_vertices: 10, max_blocks: 8, max_space_blocks: 4 });
    /// # let mut store = Store::open(&workers, &[], &limits)?;
    /// let sum = store.create(0, Rights::READ | Rights::WRITE, Value::Sum(40))?;
    /// let mut auditor = Auditor::open(&workers, &[], &limits)?;
    /// auditor.feed(&store)?;
    /// let kept = auditor.snapshot()?.to_string();
    /// drop(store);
    /// let snapshot: Snapshot = kept.parse()?;
    /// let mut store = Store::reopen(&snapshot, &limits)?;
    /// store.write(0, sum, 2)?;
    /// assert_eq!(store.read(0, sum)?, [42]);
    /// assert_eq!((store.first()?, store.entries()?), (1, 3));
    /// assert_eq!(store.create(0, Rights::READ, Value::Cell(0))?, sum + 1);
    /// # Ok::<(), Box<dyn std::error::Error>>(())
    /// ```
    pub fn reopen(snapshot: &Snapshot, limits: &Limits) -> Result<Store, Error> {
        let mut place = closed();
        snapshot.reopen_store(&mut place, limits)?;
        Ok(Store::over(place))
    }

    // The store in an open place, without marks.
    fn over(place: RawStore) -> Store {
        Store {
            place: UnsafeCell::new(place),
            marks: Marks::default(),
        }
    }

    // The place, as each call of the library takes it.
    pub(crate) fn at(&self) -> *mut RawStore {
        self.place.get()
    }

    /// The worker takes rights over the target that `via` has.
    pub fn take(&mut self, worker: u64, via: u64, target: u64, rights: Rights) -> Result<(), Error> {
        let mut why = RawDenial::default();
        let status = unsafe { raw::tg_take(self.at(), worker, via, target, rights.bits(), &mut why) };
        decided(status, &why)
    }

    /// The worker grants rights over the target to `via`.
    pub fn grant(&mut self, worker: u64, via: u64, target: u64, rights: Rights) -> Result<(), Error> {
        let mut why = RawDenial::default();
        let status = unsafe { raw::tg_grant(self.at(), worker, via, target, rights.bits(), &mut why) };
        decided(status, &why)
    }

    /// The worker gives up its own rights over the target.
    pub fn remove(&mut self, worker: u64, target: u64, rights: Rights) -> Result<(), Error> {
        let mut why = RawDenial::default();
        let status = unsafe { raw::tg_remove(self.at(), worker, target, rights.bits(), &mut why) };
        decided(status, &why)
    }

    /// Hands rights on. The worker `via` takes the rights over the target from `from`, grants them to `to`, and removes the rights that
    /// it didn't hold before. This is done completely or left undone. Afterwards `to` holds the rights over the target too, and all
    /// else is as it was. Each command has an entry, so there are two, or three with the remove. Returns the rights that were removed,
    /// which may be none.
    ///
    /// The take is decided first, and then the grant, both on the graph before the hand. If one of them is denied, its entry is the
    /// only entry, and the rule of the denial says which it is.
    ///
    /// ```
    /// # use kovshenul::{Denial, Error, Hand, Limits, Rights, Rule, Store, Value};
    /// # let mut store = Store::open(&[Value::Cell(0)], &[], &Limits::default())?;
    /// let owner = store.spawn(0, Rights::TAKE, Value::Cell(0))?;
    /// let reader = store.spawn(0, Rights::GRANT, Value::Cell(0))?;
    /// let document = store.create(owner, Rights::READ | Rights::WRITE, Value::Cell(7))?;
    /// let hand = Hand { via: 0, from: owner, to: reader, target: document, rights: Rights::READ };
    /// assert_eq!(store.hand(&hand)?, Rights::READ);
    /// assert_eq!(store.read(reader, document)?, [7]);
    /// assert_eq!(store.label(0, document)?, Rights::NONE);
    /// let denial = Denial::Missing { rule: Rule::Grant, from: 0, to: owner, rights: Rights::GRANT };
    /// assert_eq!(store.hand(&Hand { to: owner, ..hand }), Err(Error::Denied(denial)));
    /// # Ok::<(), Error>(())
    /// ```
    pub fn hand(&mut self, hand: &Hand) -> Result<Rights, Error> {
        let (handing, mut removed, mut why) = (RawHanding::from(hand), 0, RawDenial::default());
        let status = unsafe { raw::tg_hand(self.at(), &handing, &mut removed, &mut why) };
        decided(status, &why)?;
        Ok(Rights::told(removed))
    }

    /// Parks a user. What the user holds goes into the account, and the user leaves, completely or not at all. Afterwards the
    /// account holds exactly what the user held, the user holds nothing and is no worker, and all other labels are as they were.
    /// Edges to the user stay, and what the user stored is lost with its vertex. Returns how many edges the user had.
    ///
    /// The account is a vertex that holds nothing, such as an object that the host has just made. The host has `g` over the user
    /// and over the account. It needs `t` over the account too if a worker is to take everything out later ([`Store::unpark`]).
    /// Whoever else has `t` over the account can take what it holds, so let the host alone have rights over it.
    ///
    /// Each command has an entry: two for each edge, and three more. The first one is the host's grant of `g` over the account to
    /// the user. If this grant is denied, its entry is the only one. It is [`NoSuchWorker`](Error::NoSuchWorker) exactly if the host
    /// or the user is no worker, and [`InUse`](Error::InUse) only if the account holds a right, or the user holds one over it. After
    /// a refusal there is no entry, and all labels, values and workers are as they were.
    ///
    /// ```
    /// # use kovshenul::{Error, Limits, Parking, Rights, Store, Value};
    /// # let mut store = Store::open(&[Value::Cell(0)], &[], &Limits::default())?;
    /// let user = store.spawn(0, Rights::GRANT, Value::Cell(0))?;
    /// let letter = store.create(user, Rights::READ, Value::Cell(7))?;
    /// let account = store.create(0, Rights::TAKE | Rights::GRANT, Value::Cell(0))?;
    /// assert_eq!(store.park(&Parking { host: 0, user, account })?, 1);
    /// assert_eq!(store.who_holds(Rights::READ, letter)?, [account]);
    /// # Ok::<(), Error>(())
    /// ```
    pub fn park(&mut self, parking: &Parking) -> Result<u64, Error> {
        let (mut edges, mut why) = (0, RawDenial::default());
        let status = unsafe { raw::tg_park(self.at(), parking, &mut edges, &mut why) };
        decided(status, &why)?;
        Ok(edges)
    }

    /// Unparks a user. A new user takes out what an account holds ([`Store::park`]), and the account is left, completely or not at
    /// all. Afterwards the user holds exactly what the account holds, the host holds nothing over the account, and all other labels
    /// are as they were. The account still holds what it held. If nobody but the host had a right over the account, the next full
    /// collection frees it. Returns how many edges the account has.
    ///
    /// The user is a worker that holds nothing yet, such as one that the host has just spawned. The host has `g` over the user, and
    /// `t` over the account.
    ///
    /// Each command has an entry: one for each edge, and three more. The first one is the host's grant of `t` over the account to
    /// the user. If this grant is denied, its entry is the only one. A second unparking of an account is denied, because the host
    /// has no right over the account any more. It is [`NoSuchWorker`](Error::NoSuchWorker) exactly if the host or the user is no
    /// worker, and [`InUse`](Error::InUse) only if the user holds a right, or the account holds one over it. After a refusal there
    /// is no entry, and all labels, values and workers are as they were.
    ///
    /// ```
    /// # use kovshenul::{Error, Limits, Parking, Rights, Store, Value};
    /// # let mut store = Store::open(&[Value::Cell(0)], &[], &Limits::default())?;
    /// let user = store.spawn(0, Rights::GRANT, Value::Cell(0))?;
    /// let letter = store.create(user, Rights::READ, Value::Cell(7))?;
    /// let account = store.create(0, Rights::TAKE | Rights::GRANT, Value::Cell(0))?;
    /// store.park(&Parking { host: 0, user, account })?;
    /// let user = store.spawn(0, Rights::GRANT, Value::Cell(0))?;
    /// assert_eq!(store.unpark(&Parking { host: 0, user, account })?, 1);
    /// assert_eq!((store.read(user, letter)?, store.label(0, account)?), (vec![7], Rights::NONE));
    /// # Ok::<(), Error>(())
    /// ```
    pub fn unpark(&mut self, parking: &Parking) -> Result<u64, Error> {
        let (mut edges, mut why) = (0, RawDenial::default());
        let status = unsafe { raw::tg_unpark(self.at(), parking, &mut edges, &mut why) };
        decided(status, &why)?;
        Ok(edges)
    }

    /// The worker writes to the target.
    pub fn write(&mut self, worker: u64, target: u64, value: u64) -> Result<(), Error> {
        let mut why = RawDenial::default();
        let status = unsafe { raw::tg_write(self.at(), worker, target, value, &mut why) };
        decided(status, &why)
    }

    /// The worker adds to the log of the target, by its right to append. To a target that stores no log, write by `write`.
    pub fn append(&mut self, worker: u64, target: u64, value: u64) -> Result<(), Error> {
        let mut why = RawDenial::default();
        let status = unsafe { raw::tg_append(self.at(), worker, target, value, &mut why) };
        decided(status, &why)
    }

    /// Makes a vertex over which the worker has the rights, and returns its name.
    pub fn create(&mut self, worker: u64, rights: Rights, value: Value) -> Result<u64, Error> {
        let (value, mut name) = (RawValue::from(&value), 0);
        served(unsafe { raw::tg_create(self.at(), worker, rights.bits(), &value, &mut name) })?;
        Ok(name)
    }

    /// Makes a worker over which the asking worker has the rights, and returns its name. The new worker holds nothing until
    /// it is granted something. At most 64 workers are active at a time, and no name is used again.
    ///
    /// ```
    /// # use kovshenul::{Error, Limits, Rights, Store, Value};
    /// # let limits = Limits { max_vertices: 10, max_blocks: 8, max_space_blocks: 4 };
    /// let mut store = Store::open(&[Value::Cell(0)], &[], &limits)?;
    /// let document = store.create(0, Rights::READ, Value::Sum(40))?;
    /// let client = store.spawn(0, Rights::GRANT, Value::Cell(0))?;
    /// store.grant(0, client, document, Rights::READ)?;
    /// assert_eq!(store.read(client, document)?, [40]);
    /// assert_eq!(store.subjects()?, [0, client]);
    /// store.retire(client)?;
    /// assert_eq!(store.read(client, document), Err(Error::NoSuchWorker));
    /// assert_eq!(store.subjects()?, [0]);
    /// # Ok::<(), Error>(())
    /// ```
    pub fn spawn(&mut self, worker: u64, rights: Rights, value: Value) -> Result<u64, Error> {
        let (value, mut name) = (RawValue::from(&value), 0);
        served(unsafe { raw::tg_spawn(self.at(), worker, rights.bits(), &value, &mut name) })?;
        Ok(name)
    }

    /// The worker retires. Each later call in its name is refused. Its vertex and its edges stay while a worker reaches
    /// them. So a worker with an edge to it, as its spawner has, keeps all that it held alive. Give that edge up, or remove
    /// the edges of the worker before it retires ([`Store::leave`] does both). A retire is never denied.
    pub fn retire(&mut self, worker: u64) -> Result<(), Error> {
        served(unsafe { raw::tg_retire(self.at(), worker) })
    }

    /// The worker leaves: it gives up each of its edges, by rising name, and retires. Returns how many edges these were.
    /// Each remove, and the retire, has an entry. The call is done whole, or refused because memory ran out.
    ///
    /// ```
    /// # use kovshenul::{Error, Kind, Limits, Rights, Store, Value};
    /// # let mut store = Store::open(&[Value::Cell(0)], &[], &Limits::default())?;
    /// let client = store.spawn(0, Rights::GRANT, Value::Cell(0))?;
    /// let document = store.create(client, Rights::READ, Value::Cell(7))?;
    /// assert_eq!(store.who_holds(Rights::READ, document)?, [client]);
    /// assert_eq!(store.leave(client)?, 1);
    /// assert_eq!(store.who_holds(Rights::READ, document)?, []);
    /// assert_eq!(store.collect(Kind::Full)?, 2);
    /// # Ok::<(), Error>(())
    /// ```
    pub fn leave(&mut self, worker: u64) -> Result<u64, Error> {
        let mut count = 0;
        served(unsafe { raw::tg_leave(self.at(), worker, &mut count) })?;
        Ok(count)
    }

    /// Returns who holds the right over the vertex with this name, by rising name. Holders are workers, objects, and workers that
    /// retired, if a worker reaches them. The journal gets no entry. It is `BadRights` if it isn't one right.
    pub fn who_holds(&self, right: Rights, name: u64) -> Result<Vec<u64>, Error> {
        self.each_name(|names, room, count| unsafe { raw::tg_who_holds(self.at(), right.bits(), name, names, room, count) })
    }

    /// Withdraws rights over a target. Each worker with a name outside of `keep` removes those of the rights that it holds. Each remove
    /// has an entry, by rising name. Afterwards no worker outside of `keep` holds any of the rights over the target, and all other
    /// labels are as they were. The call is done whole, or refused.
    ///
    /// Returns who still holds some of the rights, by rising name. They are kept workers, objects, and workers that retired, if the
    /// workers then reach them. Suppose that this is nobody, and that the target was made. Then no vertex that a worker reaches ever
    /// holds one of the rights over the target again. Otherwise a worker may take a right back, and [`could`](Store::could) says which.
    /// Without `keep` the target may be reached by nobody, and then the next full collection frees it.
    ///
    /// A name in `keep` that isn't a worker's is ignored. From a target that was never made nothing is removed.
    ///
    /// ```
    /// # use kovshenul::{Error, Limits, Rights, Store, Value};
    /// # let mut store = Store::open(&[Value::Cell(0)], &[], &Limits::default())?;
    /// let reader = store.spawn(0, Rights::GRANT, Value::Cell(0))?;
    /// let document = store.create(0, Rights::READ | Rights::WRITE, Value::Cell(7))?;
    /// store.grant(0, reader, document, Rights::READ)?;
    /// assert_eq!(store.withdraw(document, Rights::READ, &[0])?, [0]);
    /// assert_eq!(store.label(reader, document)?, Rights::NONE);
    /// assert_eq!(store.withdraw(document, Rights::READ, &[])?, []);
    /// # Ok::<(), Error>(())
    /// ```
    pub fn withdraw(&mut self, target: u64, rights: Rights, keep: &[u64]) -> Result<Vec<u64>, Error> {
        let (at, bits) = (self.at(), rights.bits());
        self.each_name(|names, room, count| unsafe {
            raw::tg_withdraw(at, target, bits, keep.as_ptr(), keep.len(), names, room, count)
        })
    }

    /// Returns the edges to the vertex with this name, of all that a worker reaches, by rising name of the vertex from which each
    /// leads. A vertex that was never made has none. The journal gets no entry. So a host finds who holds on to a worker that left.
    ///
    /// ```
    /// # use kovshenul::{Edge, Error, Limits, Rights, Store, Value};
    /// # let mut store = Store::open(&[Value::Cell(0)], &[], &Limits::default())?;
    /// let client = store.spawn(0, Rights::GRANT, Value::Cell(0))?;
    /// store.leave(client)?;
    /// assert_eq!(store.edges_to(client)?, [Edge { from: 0, to: client, rights: Rights::GRANT }]);
    /// # Ok::<(), Error>(())
    /// ```
    pub fn edges_to(&self, name: u64) -> Result<Vec<Edge>, Error> {
        // Each leads from a vertex of the heap, so one walk of the graph finds room for all.
        let (mut edges, mut count) = (vec![RawTarget::default(); self.census()?.vertices as usize], 0);
        loop {
            served(unsafe { raw::tg_edges_to(self.at(), name, edges.as_mut_ptr(), edges.len(), &mut count) })?;
            if let Some(edges) = edges.get(..count as usize) {
                return Ok(edges.iter().map(|edge| Edge { from: edge.to, to: name, rights: Rights::told(edge.rights) }).collect());
            }
            edges.resize(count as usize, RawTarget::default());
        }
    }

    // Asks for names of vertices, and asks again if there was too little room. The call of the library may be made twice.
    fn each_name(&self, ask: impl Fn(*mut u64, usize, &mut u64) -> u32) -> Result<Vec<u64>, Error> {
        // Each is a vertex of the heap, so one walk of the graph finds room for all. The room isn't cleared.
        let (mut names, mut count) = (Vec::with_capacity(self.census()?.vertices as usize), 0);
        loop {
            let room = names.capacity();
            served(ask(names.as_mut_ptr(), room, &mut count))?;
            if count as usize <= room {
                unsafe { names.set_len(count as usize) };
                names.shrink_to_fit();
                return Ok(names);
            }
            names.reserve_exact(count as usize);
        }
    }

    /// Returns the names of the active workers, rising. The journal gets no entry.
    pub fn subjects(&self) -> Result<Vec<u64>, Error> {
        let (mut names, mut count) = ([0; MOST_WORKERS], 0);
        served(unsafe { raw::tg_subjects(self.at(), names.as_mut_ptr(), names.len(), &mut count) })?;
        Ok(names[..count as usize].to_vec())
    }

    /// Returns the state of the target.
    pub fn read(&mut self, worker: u64, target: u64) -> Result<Vec<u64>, Error> {
        let (mut numbers, mut count) = ([0; MOST_NUMBERS], 0);
        let mut why = RawDenial::default();
        let status = unsafe {
            raw::tg_read(
                self.at(),
                worker,
                target,
                numbers.as_mut_ptr(),
                numbers.len(),
                &mut count,
                &mut why,
            )
        };
        decided(status, &why)?;
        Ok(numbers[..count as usize].to_vec())
    }

    /// Returns the worker's edges by rising name. The journal gets one entry with all of them, however many there are.
    pub fn list(&mut self, worker: u64) -> Result<Vec<Target>, Error> {
        let (mut edges, mut count) = ([RawTarget::default(); SHORT_ROW], 0);
        served(unsafe { raw::tg_list(self.at(), worker, edges.as_mut_ptr(), edges.len(), &mut count) })?;
        self.row(&edges, count as usize)
    }

    /// Returns the target's edges by rising name, by the worker's right to inspect it. The journal gets one entry with all
    /// of them.
    pub fn inspect(&mut self, worker: u64, target: u64) -> Result<Vec<Target>, Error> {
        let (mut edges, mut count) = ([RawTarget::default(); SHORT_ROW], 0);
        let mut why = RawDenial::default();
        let status = unsafe {
            raw::tg_inspect(
                self.at(),
                worker,
                target,
                edges.as_mut_ptr(),
                edges.len(),
                &mut count,
                &mut why,
            )
        };
        decided(status, &why)?;
        self.row(&edges, count as usize)
    }

    // All edges of the row that was shown last, of which these are the first. With more, they are read from its entry.
    fn row(&self, first: &[RawTarget], count: usize) -> Result<Vec<Target>, Error> {
        if count <= first.len() {
            return Ok(first[..count].iter().map(Target::from).collect());
        }
        let mut edges = vec![RawTarget::default(); count];
        self.record(self.entries()? - 1, &mut [], &mut edges)?;
        Ok(edges.iter().map(Target::from).collect())
    }

    /// Returns the rights that the worker holds over the target, which may be none. The journal gets no entry.
    pub fn label(&self, worker: u64, target: u64) -> Result<Rights, Error> {
        let mut rights = 0;
        served(unsafe { raw::tg_label(self.at(), worker, target, &mut rights) })?;
        Ok(Rights::told(rights))
    }

    /// Returns the law by which the target stores numbers, if the worker has `r`, `w` or `a` over the target. Otherwise it returns
    /// `None`. The journal gets no entry. The law of a vertex never changes.
    ///
    /// ```
    /// # use kovshenul::{Error, Law, Limits, Rights, Store, Value};
    /// # let mut store = Store::open(&[Value::Cell(0)], &[], &Limits::default())?;
    /// let log = store.create(0, Rights::APPEND, Value::Log(8))?;
    /// assert_eq!(store.law(0, log)?, Some(Law::Log(8)));
    /// store.remove(0, log, Rights::APPEND)?;
    /// assert_eq!((store.law(0, log)?, store.law_of(log)?), (None, None));
    /// # Ok::<(), Error>(())
    /// ```
    pub fn law(&self, worker: u64, target: u64) -> Result<Option<Law>, Error> {
        let mut law = RawLaw::default();
        served(unsafe { raw::tg_law(self.at(), worker, target, &mut law) })?;
        Ok(law.told())
    }

    /// Returns the law of the vertex with this name, whoever has rights over it. So it is for the host. It is `None` if the name was
    /// never made, and if no worker reaches the vertex, whether it was collected or not. The journal gets no entry.
    pub fn law_of(&self, name: u64) -> Result<Option<Law>, Error> {
        let mut law = RawLaw::default();
        served(unsafe { raw::tg_law_of(self.at(), name, &mut law) })?;
        Ok(law.told())
    }

    /// Collects, and returns how many vertices the heap then has.
    pub fn collect(&mut self, kind: Kind) -> Result<u64, Error> {
        let mut left = 0;
        served(unsafe { raw::tg_collect(self.at(), kind as u32, &mut left) })?;
        Ok(left)
    }

    /// Counts what the heap has, and how many entries and collections were made.
    pub fn census(&self) -> Result<Counts, Error> {
        let mut counts = Counts::default();
        served(unsafe { raw::tg_census(self.at(), &mut counts) })?;
        Ok(counts)
    }

    /// Returns the names of the vertices that the heap has, each once. Vertices that nobody reaches are among them until a
    /// full collection.
    pub fn names(&self) -> Result<Vec<u64>, Error> {
        let mut names = vec![0; self.census()?.vertices as usize];
        let mut count = 0;
        served(unsafe { raw::tg_names(self.at(), names.as_mut_ptr(), names.len(), &mut count) })?;
        Ok(names)
    }

    /// Returns how many entries the journal ever had, with the entries that were given up. The next entry gets this place.
    pub fn entries(&self) -> Result<u64, Error> {
        let mut count = 0;
        served(unsafe { raw::tg_entries(self.at(), &mut count) })?;
        Ok(count)
    }

    /// Returns the place of the first entry that the journal holds. It is 0 until entries are given up
    /// ([`forget`](Store::forget)).
    pub fn first(&self) -> Result<u64, Error> {
        let mut first = 0;
        served(unsafe { raw::tg_first(self.at(), &mut first) })?;
        Ok(first)
    }

    /// Gives up the entries before this place. No reply, right or name changes, and no memory is taken. It is
    /// [`BadPlace`](Error::BadPlace) if the place is before the first entry that is held, or after that of the next.
    ///
    /// ```
    /// # use kovshenul::{Error, Limits, Rights, Store, Value};
    /// # let limits = Limits { max_vertices: 10, max_blocks: 8, max_space_blocks: 4 };
    /// let mut store = Store::open(&[Value::Cell(0)], &[], &limits)?;
    /// let sum = store.create(0, Rights::READ | Rights::WRITE, Value::Sum(40))?;
    /// store.write(0, sum, 2)?;
    /// store.forget(1)?;
    /// assert_eq!((store.first()?, store.entries()?, store.journal().count()), (1, 2, 1));
    /// assert_eq!(store.entry(0), Err(Error::BadPlace));
    /// assert_eq!(store.audit(), Err(Error::NotWhole));
    /// # Ok::<(), Error>(())
    /// ```
    pub fn forget(&mut self, upto: u64) -> Result<(), Error> {
        served(unsafe { raw::tg_forget(self.at(), upto) })
    }

    /// Returns the journal's entry at this place, counted from 0. An entry never changes, and to read one makes none.
    ///
    /// ```
    /// # use kovshenul::{Deed, Denial, Error, Limits, Reply, Rights, Rule, Store, Value};
    /// # let limits = Limits { max_vertices: 10, max_blocks: 8, max_space_blocks: 4 };
    /// let mut store = Store::open(&[Value::Cell(0)], &[], &limits)?;
    /// let log = store.create(0, Rights::APPEND, Value::Log(3))?;
    /// let _ = store.read(0, log);
    /// let entry = store.entry(1)?;
    /// assert_eq!((entry.worker, entry.deed), (0, Deed::Read { target: log }));
    /// assert!(matches!(entry.reply, Reply::Denied(Denial::Missing { rule: Rule::Read, .. })));
    /// assert_eq!(store.entry(2), Err(Error::BadPlace));
    /// # Ok::<(), Error>(())
    /// ```
    pub fn entry(&self, at: u64) -> Result<Entry, Error> {
        let mut numbers = [0; MOST_NUMBERS];
        let mut record = self.record(at, &mut numbers, &mut [])?;
        // Few entries have edges. How many these are is known.
        let mut edges = vec![RawTarget::default(); record.edge_count as usize];
        if !edges.is_empty() {
            record = self.record(at, &mut numbers, &mut edges)?;
        }
        Ok(Entry::told(&record, &numbers[..record.number_count as usize], &edges))
    }

    // The same as the library returns it, with as many of its numbers and edges as there is room for.
    fn record(&self, at: u64, numbers: &mut [u64], edges: &mut [RawTarget]) -> Result<RawRecord, Error> {
        let mut record = RawRecord::default();
        let status = unsafe {
            raw::tg_entry(
                self.at(),
                at,
                &mut record,
                numbers.as_mut_ptr(),
                numbers.len(),
                edges.as_mut_ptr(),
                edges.len(),
            )
        };
        served(status).map(|()| record)
    }

    /// Returns the entries that the journal holds, one after the other.
    ///
    /// ```
    /// # use kovshenul::{Deed, Entry, Error, Limits, Reply, Rights, Store, Value};
    /// # let limits = Limits { max_vertices: 10, max_blocks: 8, max_space_blocks: 4 };
    /// let mut store = Store::open(&[Value::Cell(0)], &[], &limits)?;
    /// let sum = store.create(0, Rights::READ | Rights::WRITE, Value::Sum(40))?;
    /// store.write(0, sum, 2)?;
    /// store.read(0, sum)?;
    /// let replies: Vec<Reply> = store.journal().map(|entry| entry.reply).collect();
    /// assert_eq!(replies, [Reply::Name(sum), Reply::Done, Reply::Values(vec![42])]);
    /// # Ok::<(), Error>(())
    /// ```
    pub fn journal(&self) -> Journal<'_> {
        Journal::new(self)
    }

    /// Replays the journal, and returns how many entries it has. It is [`NotWhole`](Error::NotWhole) if entries were given
    /// up, or if the store goes on from a snapshot. An [`Auditor`](crate::Auditor) replays entries before they are given up.
    pub fn audit(&self) -> Result<u64, Error> {
        let mut count = 0;
        served(unsafe { raw::tg_audit(self.at(), &mut count) })?;
        Ok(count)
    }
}

// A place without a store.
fn closed() -> RawStore {
    RawStore {
        is_open: false,
        at: null_mut(),
    }
}

impl Drop for Store {
    fn drop(&mut self) {
        unsafe { raw::tg_close(self.at()) };
    }
}

impl fmt::Debug for Store {
    fn fmt(&self, out: &mut fmt::Formatter<'_>) -> fmt::Result {
        out.debug_struct("Store").finish_non_exhaustive()
    }
}
