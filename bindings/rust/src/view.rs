//! Many questions about the future, of one moment.
use crate::error::served;
use crate::raw::{self, RawEdge, RawView};
use crate::{Edge, Error, Rights, Silent, Store};
use std::cell::UnsafeCell;
use std::fmt;
use std::panic::RefUnwindSafe;
use std::ptr::null_mut;

/// The answer of a [`View`] to the question whether x could ever come to hold a right over y.
#[derive(Clone, Copy, PartialEq, Eq, Hash, Debug)]
#[non_exhaustive]
pub enum Chance {
    /// x never holds it, whatever those who act do.
    Never,
    /// x was made, and no worker reached it. Its rights stay for good.
    Unreached,
    /// The view says nothing of the right. Ask [`Store::could`].
    Perhaps,
}

/// A view of a store, made for many questions about the future, as of the moment of [`Store::view`]. A question takes the
/// time of the edges to y. `Never` stays so until a silent worker acts. A view outlives its store. Dropping it closes it.
///
/// Any thread may have a view, and one at a time, as a [`Store`].
///
/// ```
/// # use kovshenul::{Chance, Error, Limits, Rights, Store, Value};
/// # let limits = Limits { max_vertices: 100, max_blocks: 8, max_space_blocks: 4 };
/// let mut store = Store::open(&[Value::Cell(0)], &[], &limits)?;
/// let document = store.create(0, Rights::READ | Rights::WRITE, Value::Sum(40))?;
/// let plugins = [store.spawn(0, Rights::GRANT, Value::Cell(0))?, store.spawn(0, Rights::GRANT, Value::Cell(0))?];
/// store.grant(0, plugins[0], document, Rights::READ)?;
/// let view = store.view(&[0], &[])?;
/// assert_eq!(view.could(plugins[0], Rights::WRITE, document)?, Chance::Never);
/// assert_eq!(view.could(plugins[0], Rights::READ, document)?, Chance::Perhaps);
/// assert_eq!(view.could(plugins[1], Rights::READ, document)?, Chance::Never);
/// # Ok::<(), Error>(())
/// ```
pub struct View {
    // As of a store: while a call runs, the library takes the view out of its place.
    place: UnsafeCell<RawView>,
}

// The value at the pointer may go to another thread, because the library has a function whose bound asks for it
// (crates/tg_c/src/place.rt).
unsafe impl Send for View {}

// No call of the library unwinds, so none is left half done.
impl RefUnwindSafe for View {}

impl Store {
    /// Opens a view of the vertices that the workers reach, in which the silent workers take no turns, as if these edges
    /// were there too. The silent workers are given as to [`Store::could`]. The journal gets no entry. It is refused as
    /// `could` is for a silent name or a supposed edge.
    pub fn view<'a>(&self, silent: impl Into<Silent<'a>>, as_if: &[Edge]) -> Result<View, Error> {
        let scene = self.scene(silent.into(), as_if)?;
        let view = View {
            place: UnsafeCell::new(RawView {
                is_open: false,
                at: null_mut(),
            }),
        };
        served(unsafe {
            raw::tg_view_open(
                self.at(),
                scene.silent.as_ptr(),
                scene.silent.len(),
                scene.edges.as_ptr(),
                scene.edges.len(),
                view.place.get(),
            )
        })?;
        Ok(view)
    }
}

impl View {
    /// Returns what is known of the question whether x could ever come to hold the right over y. It is `BadRights` if it
    /// isn't one right.
    pub fn could(&self, x: u64, right: Rights, y: u64) -> Result<Chance, Error> {
        let mut kind = 0;
        served(unsafe { raw::tg_view_could(self.place.get(), x, right.bits(), y, &mut kind) })?;
        Ok(Chance::told(kind))
    }

    /// Answers as [`could`](View::could) does, as if these edges were there too. So a host asks about a grant, by the edge from
    /// the vertex that is given the rights to their target. If an edge joins two parts of the view, the answer is `Perhaps`, and
    /// [`Store::could`] answers. It is `BadRights` if it isn't one right. It is `BadEdge` if an edge joins a vertex to itself,
    /// or has an end that no worker reached at the opening.
    ///
    /// ```
    /// # use kovshenul::{Chance, Edge, Error, Limits, Rights, Store, Value};
    /// # let mut store = Store::open(&[Value::Cell(0)], &[], &Limits::default())?;
    /// let document = store.create(0, Rights::READ | Rights::WRITE, Value::Cell(7))?;
    /// let plugin = store.spawn(0, Rights::GRANT, Value::Cell(0))?;
    /// let view = store.view(&[0], &[])?;
    /// let grant = Edge { from: plugin, to: document, rights: Rights::READ };
    /// assert_eq!(view.could_as_if(plugin, Rights::WRITE, document, &[grant])?, Chance::Never);
    /// assert_eq!(view.could_as_if(plugin, Rights::READ, document, &[grant])?, Chance::Perhaps);
    /// # Ok::<(), Error>(())
    /// ```
    pub fn could_as_if(&self, x: u64, right: Rights, y: u64, as_if: &[Edge]) -> Result<Chance, Error> {
        let edges: Vec<RawEdge> = as_if.iter().map(RawEdge::from).collect();
        let mut kind = 0;
        served(unsafe {
            raw::tg_view_could_as_if(
                self.place.get(),
                edges.as_ptr(),
                edges.len(),
                x,
                right.bits(),
                y,
                &mut kind,
            )
        })?;
        Ok(Chance::told(kind))
    }

    /// Has the view go on with an edge that came since its opening, such as the edge of a grant. The edge leads from the vertex
    /// that was given the rights to their target. Returns whether the view goes on. Then it answers about the graph with the edge
    /// too. If the edge joins two parts of the view, it stays as it was, and another view has to be opened.
    ///
    /// The view answers about the graph of its opening, with the edges that it followed. If other commands changed the graph since,
    /// open another view. It is `BadRights` if the edge's rights are none. It is `BadEdge` if the edge joins a vertex to itself, or
    /// has an end that no worker reached at the opening.
    ///
    /// ```
    /// # use kovshenul::{Chance, Edge, Error, Limits, Rights, Store, Value};
    /// # let mut store = Store::open(&[Value::Cell(0)], &[], &Limits::default())?;
    /// let document = store.create(0, Rights::READ | Rights::WRITE, Value::Cell(7))?;
    /// let plugin = store.spawn(0, Rights::GRANT, Value::Cell(0))?;
    /// let mut view = store.view(&[0], &[])?;
    /// store.grant(0, plugin, document, Rights::READ)?;
    /// assert!(view.follow(&Edge { from: plugin, to: document, rights: Rights::READ })?);
    /// assert_eq!(view.could(plugin, Rights::READ, document)?, Chance::Perhaps);
    /// assert_eq!(view.could(plugin, Rights::WRITE, document)?, Chance::Never);
    /// # Ok::<(), Error>(())
    /// ```
    pub fn follow(&mut self, edge: &Edge) -> Result<bool, Error> {
        let mut followed = 0;
        served(unsafe { raw::tg_view_follow(self.place.get(), &RawEdge::from(edge), &mut followed) })?;
        Ok(followed != 0)
    }
}

impl Chance {
    // By its number.
    fn told(kind: u64) -> Chance {
        match kind {
            raw::NEVER => Chance::Never,
            raw::UNREACHED => Chance::Unreached,
            raw::PERHAPS => Chance::Perhaps,
            kind => unreachable!("interface {} has no view that tells {kind}", raw::ABI),
        }
    }
}

impl Drop for View {
    fn drop(&mut self) {
        unsafe { raw::tg_view_close(self.place.get()) };
    }
}

impl fmt::Debug for View {
    fn fmt(&self, f: &mut fmt::Formatter<'_>) -> fmt::Result {
        f.debug_struct("View").finish_non_exhaustive()
    }
}
