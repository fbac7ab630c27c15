//! Kovshenul for Rust: a reference monitor with take-grant rules, over the C library, with no crates beside it.
//!
//! ```
//! use kovshenul::{Edge, Error, Limits, Rights, Store, Value};
//!
//! let edges = [Edge { from: 0, to: 1, rights: Rights::GRANT }];
//! let limits = Limits { max_vertices: 10, max_blocks: 8, max_space_blocks: 4 };
//! let mut store = Store::open(&[Value::Cell(0), Value::Cell(0)], &edges, &limits)?;
//! let document = store.create(0, Rights::READ | Rights::WRITE, Value::Sum(40))?;
//! store.grant(0, 1, document, Rights::READ)?;
//! assert_eq!(store.read(1, document)?, [40]);
//! match store.write(1, document, 2) {
//!     Err(Error::Denied(denial)) => assert_eq!(denial.to_string(), "write: w is missing on 1->2"),
//!     other => other?,
//! }
//! # Ok::<(), Error>(())
//! ```
//!
//! To build it, set `KOVSHENUL_LIB_DIR` to the folder of `libkovshenul.a`, or have pkg-config know the library.
#![deny(missing_docs)]
mod auditor;
mod batch;
mod could;
mod error;
mod journal;
mod marks;
mod raw;
mod resuming;
mod rights;
mod snapshot;
mod store;
mod text;
mod value;
mod view;

pub use auditor::Auditor;
pub use batch::BatchStopped;
pub use could::{Breach, Could, CouldKind, Question, Turn};
pub use error::{Denial, Error, Rule};
pub use journal::{Deed, Entry, Journal, Reply};
pub use marks::{Named, Silent};
pub use resuming::Stopped;
pub use rights::{NoRights, Rights};
pub use snapshot::{NoSnapshot, Snapshot, Vertex};
pub use store::Store;
pub use text::{end_text, opening_text};
pub use value::{Counts, Edge, Hand, Kind, Law, Limits, Parking, Target, Value};
pub use view::{Chance, View};
