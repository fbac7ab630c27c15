//! The text of a history, which the program `tgaudit` reads. It has the lines before the entries, a line for each entry, and the last
//! line.
use crate::error::served;
use crate::raw::{self, RawEdge, RawValue};
use crate::{Edge, Entry, Error, Limits, Value};
use std::fmt;

// Room for most lines. A line that is longer is asked for again.
const ROOM: usize = 256;

/// Returns the lines that come before the entries in the text of a history, of a store that is opened by the same words. There is no
/// line feed after the last of them. The arguments are looked at as [`Store::open`](crate::Store::open) does.
///
/// `println!` these lines, then each [`Entry`], and at last [`end_text`]. The program `tgaudit` reads what was printed, and answers
/// whether the entries are a legal history of the opening.
///
/// ```
/// # use kovshenul::{end_text, opening_text, Error, Limits, Rights, Store, Value};
/// let (workers, limits) = ([Value::Cell(0)], Limits { max_vertices: 10, max_blocks: 8, max_space_blocks: 4 });
/// let mut store = Store::open(&workers, &[], &limits)?;
/// store.create(0, Rights::READ | Rights::WRITE, Value::Sum(40))?;
/// let mut text = format!("{}\n", opening_text(&workers, &[], &limits)?);
/// store.journal().for_each(|entry| text += &format!("{entry}\n"));
/// text += &format!("{}\n", end_text(store.entries()?)?);
/// assert_eq!(text, "kovshenul entries 1\nopening 1 10\nworker c0\n0 create rw s40 = ok 1\nentries 1\n");
/// # Ok::<(), Error>(())
/// ```
pub fn opening_text(workers: &[Value], edges: &[Edge], limits: &Limits) -> Result<String, Error> {
    let workers: Vec<RawValue> = workers.iter().map(RawValue::from).collect();
    let edges: Vec<RawEdge> = edges.iter().map(RawEdge::from).collect();
    text_of(|text, room, length| unsafe {
        raw::tg_opening_text(
            workers.as_ptr(),
            workers.len(),
            edges.as_ptr(),
            edges.len(),
            limits,
            text,
            room,
            length,
        )
    })
}

/// Returns the last line of a history that has so many entries, without its line feed.
pub fn end_text(count: u64) -> Result<String, Error> {
    text_of(|text, room, length| unsafe { raw::tg_end_text(count, text, room, length) })
}

/// The line of the entry in the text of a history, without its line feed, as `0 create rw c0 = ok 5` ([`opening_text`]). An entry that
/// no store makes, as one with an empty set of rights, has no line. It is shown as `Debug` shows it.
impl fmt::Display for Entry {
    fn fmt(&self, out: &mut fmt::Formatter<'_>) -> fmt::Result {
        let (record, numbers, edges) = self.parts();
        let line = text_of(|text, room, length| unsafe {
            raw::tg_entry_text(
                &record,
                numbers.as_ptr(),
                numbers.len(),
                edges.as_ptr(),
                edges.len(),
                text,
                room,
                length,
            )
        });
        match line {
            Ok(line) => out.pad(&line),
            Err(Error::BadValues) => write!(out, "{self:?}"),
            Err(_) => Err(fmt::Error),
        }
    }
}

// The text that a call writes, without its last line feed. The call is handed room for it, and says how long the text is.
pub(crate) fn text_of(write: impl Fn(*mut u8, usize, &mut u64) -> u32) -> Result<String, Error> {
    let mut length = 0;
    let mut text = vec![0; ROOM];
    served(write(text.as_mut_ptr(), text.len(), &mut length))?;
    if length >= text.len() as u64 {
        text.resize(length as usize + 1, 0);
        served(write(text.as_mut_ptr(), text.len(), &mut length))?;
    }
    text.truncate(length as usize - 1);
    // It is in ASCII.
    Ok(String::from_utf8(text).unwrap_or_default())
}
