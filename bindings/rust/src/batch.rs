//! Several commands in one call.
use crate::error::served;
use crate::raw::{self, RawCommand, RawRecord};
use crate::{Deed, Error, Reply, Store};
use std::borrow::Borrow;
use std::fmt;

/// A batch stopped before its end.
#[derive(Clone, PartialEq, Eq, Debug)]
pub struct BatchStopped {
    /// The replies to the commands before it, which are done.
    pub replies: Vec<Reply>,
    /// Why the next command was refused.
    pub why: Error,
}

impl fmt::Display for BatchStopped {
    fn fmt(&self, out: &mut fmt::Formatter<'_>) -> fmt::Result {
        write!(out, "command {} of the batch: {}", self.replies.len(), self.why)
    }
}

impl std::error::Error for BatchStopped {}

impl Store {
    /// Takes commands of the worker one after the other, at most 1,024, and returns their replies. Each has an entry of its own,
    /// at places that follow one another. A denial is a reply, and the next command is taken after it.
    ///
    /// A batch of more commands is refused whole with [`BadLimits`](Error::BadLimits), and a batch with a create or a spawn with
    /// [`BadKind`](Error::BadKind). Any other error is the error of the first command that is refused. The commands before it
    /// are done, and the commands after it aren't asked for.
    ///
    /// ```
    /// # use kovshenul::{Deed, Limits, Reply, Rights, Store, Value};
    /// let mut store = Store::open(&[Value::Cell(0)], &[], &Limits::default())?;
    /// let sum = store.create(0, Rights::READ | Rights::WRITE, Value::Sum(40))?;
    /// let replies = store.apply_all(0, [Deed::Write { target: sum, value: 2 }, Deed::Read { target: sum }])?;
    /// assert_eq!(replies, [Reply::Done, Reply::Values(vec![42])]);
    /// # Ok::<(), Box<dyn std::error::Error>>(())
    /// ```
    pub fn apply_all<D: Borrow<Deed>>(
        &mut self,
        worker: u64,
        commands: impl IntoIterator<Item = D>,
    ) -> Result<Vec<Reply>, BatchStopped> {
        let commands: Vec<RawCommand> = commands
            .into_iter()
            .map(|deed| RawCommand::from(deed.borrow()))
            .collect();
        match self.ask_all(worker, &commands) {
            Ok((replies, Ok(()))) => Ok(replies),
            Ok((replies, Err(why))) => Err(BatchStopped { replies, why }),
            Err(why) => Err(BatchStopped { replies: Vec::new(), why }),
        }
    }

    // The replies to the commands that were taken, and why the next one wasn't.
    fn ask_all(&mut self, worker: u64, commands: &[RawCommand]) -> Result<(Vec<Reply>, Result<(), Error>), Error> {
        let (mut first, mut done) = (0, 0);
        let status = unsafe {
            raw::tg_apply_all(
                self.at(),
                worker,
                commands.as_ptr(),
                commands.len(),
                std::ptr::null_mut(),
                0,
                &mut first,
                &mut done,
            )
        };
        let replies: Result<Vec<Reply>, Error> = (first..first + done)
            .map(|at| self.entry(at).map(|entry| entry.reply))
            .collect();
        Ok((replies?, served(status)))
    }
}

impl From<&Deed> for RawCommand {
    fn from(deed: &Deed) -> RawCommand {
        let RawRecord {
            deed,
            via,
            target,
            rights,
            value,
            ..
        } = RawRecord::from(deed);
        RawCommand {
            deed,
            via,
            target,
            rights,
            value,
        }
    }
}
