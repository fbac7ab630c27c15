//! Marks of the host on its vertices, which are names for people, and whom the host trusts. No reply depends on a mark.
use crate::{Deed, Denial, Entry, Error, Reply, Rights, Store, Turn, Value};
use std::borrow::Cow;
use std::collections::{BTreeMap, BTreeSet};
use std::fmt;

type Names = BTreeMap<u64, String>;

// The marks of the host on its vertices.
#[derive(Default)]
pub(crate) struct Marks {
    names: Names,
    trusted: BTreeSet<u64>,
}

/// Who takes no turns in a question ([`Store::could`], [`Store::view`]).
///
/// A slice, an array and a `Vec` of names are an `Only`.
#[derive(Clone, Copy, PartialEq, Eq, Hash, Debug)]
#[non_exhaustive]
pub enum Silent<'a> {
    /// The active workers that the host trusts ([`Store::trust`]).
    Trusted,
    /// These workers, and no others. If there are none, all workers act.
    Only(&'a [u64]),
}

impl<'a> From<&'a [u64]> for Silent<'a> {
    fn from(names: &'a [u64]) -> Silent<'a> {
        Silent::Only(names)
    }
}

impl<'a, const N: usize> From<&'a [u64; N]> for Silent<'a> {
    fn from(names: &'a [u64; N]) -> Silent<'a> {
        Silent::Only(names)
    }
}

impl<'a> From<&'a Vec<u64>> for Silent<'a> {
    fn from(names: &'a Vec<u64>) -> Silent<'a> {
        Silent::Only(names)
    }
}

impl Store {
    /// Gives a vertex a name for people. [`Store::named`] shows the name before the number, as in `plugin (1)`. An empty name
    /// takes the name away.
    ///
    /// No reply, no entry and no error depends on it. Two vertices may have the same name. Any number may get a name, also
    /// before a vertex has this number. A name stays after its vertex was collected, because the journal still has the
    /// number. A control character is shown as `?`.
    pub fn set_name(&mut self, vertex: u64, name: &str) {
        if name.is_empty() {
            self.marks.names.remove(&vertex);
            return;
        }
        let name = name.chars().map(|letter| if letter.is_control() { '?' } else { letter });
        self.marks.names.insert(vertex, name.collect());
    }

    /// Shows a vertex, a denial, an error, a turn or an entry with the names that the host gave. Without names, an entry is shown
    /// as its line for `tgaudit`, and a turn as its line for `tgstore`.
    ///
    /// ```
    /// # use kovshenul::{Error, Limits, Rights, Store, Value};
    /// let mut store = Store::open(&[Value::Cell(0); 2], &[], &Limits::default())?;
    /// let document = store.create(0, Rights::READ, Value::Cell(7))?;
    /// store.set_name(1, "plugin");
    /// store.set_name(document, "report");
    /// let why = store.read(1, document).unwrap_err();
    /// assert_eq!(store.named(&why).to_string(), "denied, read: r is missing on plugin (1)->report (2)");
    /// assert_eq!(store.named(&store.entry(1)?).to_string(), "plugin (1) read report (2) = denied read plugin (1)->report (2) r");
    /// assert_eq!(store.named(&0).to_string(), "0");
    /// # Ok::<(), Error>(())
    /// ```
    pub fn named<'a, T: ?Sized>(&'a self, it: &'a T) -> Named<'a, T> {
        Named { it, names: &self.marks.names }
    }

    /// Marks a worker as trusted. From then on [`Silent::Trusted`] has it in each question. A mark ends with its worker. It is
    /// `NoSuchWorker` if the name is no active worker. No reply to a command depends on it.
    ///
    /// ```
    /// # use kovshenul::{Could, Error, Limits, Rights, Silent, Store, Value};
    /// let mut store = Store::open(&[Value::Cell(0)], &[], &Limits::default())?;
    /// store.trust(0)?;
    /// let document = store.create(0, Rights::READ, Value::Cell(7))?;
    /// let plugin = store.spawn(0, Rights::GRANT, Value::Cell(0))?;
    /// assert_eq!(store.could(plugin, Rights::READ, document, Silent::Trusted, &[])?, Could::Never);
    /// assert_ne!(store.could(plugin, Rights::READ, document, &[], &[])?, Could::Never);
    /// # Ok::<(), Error>(())
    /// ```
    pub fn trust(&mut self, worker: u64) -> Result<(), Error> {
        if !self.subjects()?.contains(&worker) {
            return Err(Error::NoSuchWorker);
        }
        self.marks.trusted.insert(worker);
        Ok(())
    }

    /// Returns the names of the active workers that are trusted, rising. The journal gets no entry.
    pub fn trusted(&self) -> Result<Vec<u64>, Error> {
        let mut workers = self.subjects()?;
        workers.retain(|worker| self.marks.trusted.contains(worker));
        Ok(workers)
    }

    // The names of those who take no turns.
    pub(crate) fn silent<'a>(&self, silent: Silent<'a>) -> Result<Cow<'a, [u64]>, Error> {
        Ok(match silent {
            Silent::Trusted => Cow::Owned(self.trusted()?),
            Silent::Only(names) => Cow::Borrowed(names),
        })
    }
}

/// The value that [`Store::named`] shows.
#[derive(Clone, Copy, Debug)]
pub struct Named<'a, T: ?Sized> {
    it: &'a T,
    names: &'a Names,
}

impl<'a, T: ?Sized> Named<'a, T> {
    // Something else with the same names.
    fn beside<U: ?Sized>(&self, it: &'a U) -> Named<'a, U> {
        Named { it, names: self.names }
    }
}

impl fmt::Display for Named<'_, u64> {
    fn fmt(&self, out: &mut fmt::Formatter<'_>) -> fmt::Result {
        match self.names.get(self.it) {
            Some(name) => write!(out, "{name} ({})", self.it),
            None => write!(out, "{}", self.it),
        }
    }
}

impl fmt::Display for Named<'_, Denial> {
    fn fmt(&self, out: &mut fmt::Formatter<'_>) -> fmt::Result {
        match self.it {
            Denial::Missing { rule, from, to, rights } => {
                write!(out, "{rule}: {rights} is missing on {}->{}", self.beside(from), self.beside(to))
            }
            other => write!(out, "{other}"),
        }
    }
}

impl fmt::Display for Named<'_, Error> {
    fn fmt(&self, out: &mut fmt::Formatter<'_>) -> fmt::Result {
        match self.it {
            Error::Denied(denial) => write!(out, "denied, {}", self.beside(denial)),
            other => write!(out, "{other}"),
        }
    }
}

impl fmt::Display for Named<'_, Deed> {
    fn fmt(&self, out: &mut fmt::Formatter<'_>) -> fmt::Result {
        match self.it {
            Deed::Take { via, target, rights } => write!(out, "take {} {} {rights}", self.beside(via), self.beside(target)),
            Deed::Grant { via, target, rights } => write!(out, "grant {} {} {rights}", self.beside(via), self.beside(target)),
            Deed::Remove { target, rights } => write!(out, "remove {} {rights}", self.beside(target)),
            Deed::Read { target } => write!(out, "read {}", self.beside(target)),
            Deed::Write { target, value } => write!(out, "write {} {value}", self.beside(target)),
            Deed::Append { target, value } => write!(out, "append {} {value}", self.beside(target)),
            Deed::Inspect { target } => write!(out, "inspect {}", self.beside(target)),
            Deed::List => out.write_str("list"),
            Deed::Retire => out.write_str("retire"),
            Deed::Create { rights, value } => write!(out, "create {rights} {}", Law(value)),
            Deed::Spawn { rights, value } => write!(out, "spawn {rights} {}", Law(value)),
        }
    }
}

// The value that a vertex stores at first, as the letter of its law and a number.
struct Law<'a>(&'a Value);

impl fmt::Display for Law<'_> {
    fn fmt(&self, out: &mut fmt::Formatter<'_>) -> fmt::Result {
        match self.0 {
            Value::Cell(number) => write!(out, "c{number}"),
            Value::Sum(number) => write!(out, "s{number}"),
            Value::Max(number) => write!(out, "m{number}"),
            Value::Log(most) => write!(out, "l{most}"),
        }
    }
}

impl fmt::Display for Named<'_, Turn> {
    fn fmt(&self, out: &mut fmt::Formatter<'_>) -> fmt::Result {
        write!(out, "{} {}", self.beside(&self.it.worker), self.beside(&self.it.deed))
    }
}

impl fmt::Display for Named<'_, Entry> {
    fn fmt(&self, out: &mut fmt::Formatter<'_>) -> fmt::Result {
        let Entry { worker, deed, reply } = self.it;
        write!(out, "{} {} = {}", self.beside(worker), self.beside(deed), self.beside(reply))
    }
}

impl fmt::Display for Named<'_, Reply> {
    fn fmt(&self, out: &mut fmt::Formatter<'_>) -> fmt::Result {
        match self.it {
            Reply::Denied(denial) => self.denied(denial, out),
            Reply::VerticesFull => out.write_str("refused vertices"),
            Reply::WorkersFull => out.write_str("refused workers"),
            Reply::Done => out.write_str("ok"),
            Reply::Name(name) => write!(out, "ok {}", self.beside(name)),
            Reply::Values(numbers) => {
                out.write_str("ok")?;
                numbers.iter().try_for_each(|number| write!(out, " {number}"))
            }
            Reply::Edges(edges) => {
                out.write_str("ok")?;
                edges.iter().try_for_each(|edge| self.shown(&edge.to, edge.rights, out))
            }
        }
    }
}

impl Named<'_, Reply> {
    // A denial as an entry has it.
    fn denied(&self, denial: &Denial, out: &mut fmt::Formatter<'_>) -> fmt::Result {
        match denial {
            Denial::NotDistinct { rule } => write!(out, "denied {rule} distinct"),
            Denial::NotLog { rule } => write!(out, "denied {rule} law"),
            Denial::Missing { rule, from, to, rights } => {
                let (from, to) = (Named { it: from, names: self.names }, Named { it: to, names: self.names });
                write!(out, "denied {rule} {from}->{to} {rights}")
            }
        }
    }

    // An edge that was listed.
    fn shown(&self, to: &u64, rights: Rights, out: &mut fmt::Formatter<'_>) -> fmt::Result {
        write!(out, " {}:{rights}", Named { it: to, names: self.names })
    }
}
