//! Questions about the future.
use crate::error::served;
use crate::raw::{self, RawAnswer, RawEdge, RawQuestion, RawRecord, RawStore};
use crate::store::MOST_NUMBERS;
use crate::{Deed, Edge, Error, Rights, Silent, Store};
use std::borrow::Cow;
use std::ptr::null_mut;

/// A command of a worker that acts.
#[derive(Clone, Copy, PartialEq, Eq, Hash, Debug)]
pub struct Turn {
    /// The worker that asks.
    pub worker: u64,
    /// The deed that it asks for. A create or a spawn makes the next name.
    pub deed: Deed,
}

/// The answer to the question whether x could ever come to hold a right over y ([`Store::could`]).
#[derive(Clone, PartialEq, Eq, Hash, Debug)]
#[non_exhaustive]
pub enum Could {
    /// x never holds it, whatever those who act do. This stays so until a silent worker acts. A host that is silent acts by
    /// each grant.
    Never,
    /// x holds it.
    Now,
    /// x holds it after these turns, each of which the rules allow when it comes. There may be a shorter list.
    After(Vec<Turn>),
    /// x could hold it if so many more vertices may be made. This comes only if y was made and fewer than 64 names are left
    /// besides x.
    WantsNames {
        /// The turns.
        turns: Vec<Turn>,
        /// How many names are lacking.
        names: u64,
    },
    /// x was made, and no worker reaches it. Its rights stay for good.
    Unreached,
    /// It is not decided whether x could hold it. A policy has to treat this as [`After`](Could::After).
    ///
    /// It comes for a name that isn't made yet, if more than 65,536 other names come before it. The turns would have to make
    /// all of these names. Ask about the next name in its place. For other names it isn't known to come. If it does, x could
    /// hold the right, and the turns aren't known.
    Open,
}

impl Could {
    /// Whether it was shown that x never holds the right. It is false for a vertex that no worker reaches.
    pub fn is_never(&self) -> bool {
        *self == Could::Never
    }

    /// The commands by which x comes to hold it, one after the other. There are none, except for `After` and `WantsNames`.
    pub fn turns(&self) -> std::slice::Iter<'_, Turn> {
        match self {
            Could::After(turns) | Could::WantsNames { turns, .. } => turns.iter(),
            _ => [].iter(),
        }
    }
}

impl Store {
    /// Returns whether x could ever come to hold the right over y, by any turns of the workers that aren't silent. The silent
    /// workers are the workers that the host trusts ([`Silent::Trusted`]), or a slice of names. The edges `as_if` are
    /// supposed to be there too, so a host asks about a grant before it makes it. A worker that is spawned on the way acts
    /// too. A name that isn't made yet represents a vertex that the workers that act may make.
    ///
    /// The answer is right for the graph that was never collected, and the journal gets no entry. It is `BadRights` if it
    /// isn't one right, and `NoSuchWorker` if a silent name is no worker. It is `BadEdge` if an edge joins a vertex to
    /// itself, or has an end that no worker reaches.
    ///
    /// ```
    /// # use kovshenul::{Could, Deed, Edge, Error, Limits, Rights, Store, Value};
    /// # let limits = Limits { max_vertices: 100, max_blocks: 8, max_space_blocks: 4 };
    /// let mut store = Store::open(&[Value::Cell(0)], &[], &limits)?;
    /// let document = store.create(0, Rights::READ | Rights::WRITE, Value::Sum(40))?;
    /// let plugin = store.spawn(0, Rights::GRANT, Value::Cell(0))?;
    /// assert_eq!(store.could(plugin, Rights::WRITE, document, &[0], &[])?, Could::Never);
    /// let edge = Edge { from: plugin, to: 0, rights: Rights::TAKE };
    /// let could = store.could(plugin, Rights::WRITE, document, &[0], &[edge])?;
    /// let take = Deed::Take { via: 0, target: document, rights: Rights::WRITE };
    /// assert!(could.turns().any(|turn| turn.worker == plugin && turn.deed == take));
    /// # Ok::<(), Error>(())
    /// ```
    pub fn could<'a>(
        &self,
        x: u64,
        right: Rights,
        y: u64,
        silent: impl Into<Silent<'a>>,
        as_if: &[Edge],
    ) -> Result<Could, Error> {
        let scene = self.scene(silent.into(), as_if)?;
        let mut answer = Answer::none();
        self.ask(raw::tg_could, Question { x, right, y }, &scene, &mut answer.0)?;
        answer.told()
    }
}

/// The kind of an answer, which says as much as the answer without its turns ([`Store::could_kind`]).
#[derive(Clone, Copy, PartialEq, Eq, Hash, Debug)]
#[non_exhaustive]
pub enum CouldKind {
    /// As [`Could::Never`].
    Never,
    /// As [`Could::Now`].
    Now,
    /// As [`Could::After`].
    After,
    /// As [`Could::WantsNames`].
    WantsNames,
    /// As [`Could::Unreached`].
    Unreached,
    /// As [`Could::Open`].
    Open,
}

/// The question whether x could ever come to hold the right over y ([`Store::could_any`]).
#[derive(Clone, Copy, PartialEq, Eq, Hash, Debug)]
pub struct Question {
    /// The vertex that could come to hold the right.
    pub x: u64,
    /// One right.
    pub right: Rights,
    /// The vertex that the right is over.
    pub y: u64,
}

/// The first question of a list that isn't answered [`Could::Never`] ([`Store::could_any`]).
#[derive(Clone, PartialEq, Eq, Hash, Debug)]
pub struct Breach {
    /// The place of the question in the list.
    pub at: usize,
    /// The answer to it.
    pub answer: Could,
}

impl Store {
    /// Answers as [`could`](Store::could) does, and returns the kind of the answer alone. It takes as long as `could`, and is
    /// refused as `could` is.
    ///
    /// ```
    /// # use kovshenul::{CouldKind, Error, Limits, Rights, Store, Value};
    /// # let mut store = Store::open(&[Value::Cell(0)], &[], &Limits::default())?;
    /// let document = store.create(0, Rights::READ, Value::Cell(7))?;
    /// let plugin = store.spawn(0, Rights::GRANT, Value::Cell(0))?;
    /// assert_eq!(store.could_kind(plugin, Rights::READ, document, &[0], &[])?, CouldKind::Never);
    /// assert_eq!(store.could_kind(plugin, Rights::READ, document, &[], &[])?, CouldKind::After);
    /// # Ok::<(), Error>(())
    /// ```
    pub fn could_kind<'a>(
        &self,
        x: u64,
        right: Rights,
        y: u64,
        silent: impl Into<Silent<'a>>,
        as_if: &[Edge],
    ) -> Result<CouldKind, Error> {
        let scene = self.scene(silent.into(), as_if)?;
        let mut kind = 0;
        self.ask(raw::tg_could_kind, Question { x, right, y }, &scene, &mut kind)?;
        Ok(match kind {
            raw::NEVER => CouldKind::Never,
            raw::NOW => CouldKind::Now,
            raw::COULD => CouldKind::After,
            raw::WANTS_NAMES => CouldKind::WantsNames,
            raw::UNREACHED => CouldKind::Unreached,
            raw::OPEN => CouldKind::Open,
            kind => unreachable!("interface {} has no answer {kind}", raw::ABI),
        })
    }

    /// Asks many questions at once, each of which is to be answered [`Never`](Could::Never). Returns the place of the first
    /// question that isn't, with its answer, or `None` if each is. So a host asks about a policy.
    ///
    /// A view is made once, and asked first. A question costs the time of the edges to its y if the view answers `Never`.
    /// Otherwise it costs what [`could`](Store::could) costs. Nothing is asked after the first question that isn't answered
    /// `Never`. It is refused as `could` is.
    ///
    /// ```
    /// # use kovshenul::{Breach, Could, Error, Limits, Question, Rights, Store, Value};
    /// # let mut store = Store::open(&[Value::Cell(0)], &[], &Limits::default())?;
    /// let document = store.create(0, Rights::READ, Value::Cell(7))?;
    /// let plugin = store.spawn(0, Rights::GRANT, Value::Cell(0))?;
    /// let policy = [Rights::WRITE, Rights::READ].map(|right| Question { x: plugin, right, y: document });
    /// assert_eq!(store.could_any(&policy, &[0], &[])?, None);
    /// store.grant(0, plugin, document, Rights::READ)?;
    /// assert_eq!(store.could_any(&policy, &[0], &[])?, Some(Breach { at: 1, answer: Could::Now }));
    /// # Ok::<(), Error>(())
    /// ```
    pub fn could_any<'a>(
        &self,
        questions: &[Question],
        silent: impl Into<Silent<'a>>,
        as_if: &[Edge],
    ) -> Result<Option<Breach>, Error> {
        let scene = self.scene(silent.into(), as_if)?;
        let asked: Vec<RawQuestion> = questions.iter().map(RawQuestion::from).collect();
        let mut at = 0;
        let mut answer = Answer::none();
        served(unsafe {
            raw::tg_could_any(
                self.at(),
                scene.silent.as_ptr(),
                scene.silent.len(),
                scene.edges.as_ptr(),
                scene.edges.len(),
                asked.as_ptr(),
                asked.len(),
                &mut at,
                &mut answer.0,
            )
        })?;
        if !answer.0.is_open {
            return Ok(None);
        }
        Ok(Some(Breach {
            at: at as usize,
            answer: answer.told()?,
        }))
    }

    // What is supposed in a question about this store.
    pub(crate) fn scene<'a>(&self, silent: Silent<'a>, as_if: &[Edge]) -> Result<Scene<'a>, Error> {
        Ok(Scene {
            silent: self.silent(silent)?,
            edges: as_if.iter().map(RawEdge::from).collect(),
        })
    }

    // Asks one question by the call, which leaves its answer in the place.
    fn ask<T>(&self, call: Ask<T>, question: Question, scene: &Scene, place: &mut T) -> Result<(), Error> {
        served(unsafe {
            call(
                self.at(),
                scene.silent.as_ptr(),
                scene.silent.len(),
                scene.edges.as_ptr(),
                scene.edges.len(),
                question.x,
                question.right.bits(),
                question.y,
                place,
            )
        })
    }
}

// What a question supposes: the workers that take no turns, and edges that are there too.
pub(crate) struct Scene<'a> {
    pub(crate) silent: Cow<'a, [u64]>,
    pub(crate) edges: Vec<RawEdge>,
}

// A function of the library that answers one question: the store, the silent workers, the edges, x, the right, y, and the
// place of the answer.
type Ask<T> =
    unsafe extern "C" fn(*mut RawStore, *const u64, usize, *const RawEdge, usize, u64, u64, u64, &mut T) -> u32;

// An answer of the library, which is given back where this is dropped.
struct Answer(RawAnswer);

impl Answer {
    // The place for an answer, which has none yet.
    fn none() -> Answer {
        Answer(RawAnswer {
            is_open: false,
            at: null_mut(),
        })
    }

    // What an open one says.
    fn told(&mut self) -> Result<Could, Error> {
        let mut kind = 0;
        served(unsafe { raw::tg_answer_kind(&mut self.0, &mut kind) })?;
        Ok(match kind {
            raw::NEVER => Could::Never,
            raw::NOW => Could::Now,
            raw::COULD => Could::After(self.turns()?),
            raw::WANTS_NAMES => Could::WantsNames {
                names: self.names()?,
                turns: self.turns()?,
            },
            raw::UNREACHED => Could::Unreached,
            raw::OPEN => Could::Open,
            kind => unreachable!("interface {} has no answer {kind}", raw::ABI),
        })
    }

    fn names(&mut self) -> Result<u64, Error> {
        let mut names = 0;
        served(unsafe { raw::tg_answer_names(&mut self.0, &mut names) })?;
        Ok(names)
    }

    fn turns(&mut self) -> Result<Vec<Turn>, Error> {
        let mut count = 0;
        served(unsafe { raw::tg_answer_turns(&mut self.0, &mut count) })?;
        (0..count).map(|at| self.turn(at)).collect()
    }

    fn turn(&mut self, at: u64) -> Result<Turn, Error> {
        let (mut record, mut numbers) = (RawRecord::default(), [0; MOST_NUMBERS]);
        served(unsafe { raw::tg_answer_turn(&mut self.0, at, &mut record, numbers.as_mut_ptr(), numbers.len()) })?;
        Ok(Turn {
            worker: record.worker,
            deed: Deed::told(&record, &numbers[..record.number_count as usize]),
        })
    }
}

impl Drop for Answer {
    fn drop(&mut self) {
        unsafe { raw::tg_answer_close(&mut self.0) };
    }
}
