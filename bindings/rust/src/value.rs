//! The values that calls take and return, apart from rights and refusals.
use crate::raw::RawTarget;
use crate::Rights;

/// The value that a vertex stores at first, and the law by which a write changes it.
#[derive(Clone, Copy, PartialEq, Eq, Hash, Debug)]
#[non_exhaustive]
pub enum Value {
    /// Keeps the last number.
    Cell(u64),
    /// Adds, modulo 2^64.
    Sum(u64),
    /// Keeps the greatest.
    Max(u64),
    /// Keeps the last few, from 1 to 64 of them. It begins empty.
    Log(u32),
}

/// By which law a write changes what a vertex stores ([`Store::law`](crate::Store::law)).
#[derive(Clone, Copy, PartialEq, Eq, Hash, Debug)]
#[non_exhaustive]
pub enum Law {
    /// Keeps the last number.
    Cell,
    /// Adds, modulo 2^64.
    Sum,
    /// Keeps the greatest.
    Max,
    /// Keeps the last few, at most so many.
    Log(u32),
}

/// The rights of vertex `from` over vertex `to`, at the opening or in a snapshot. At the opening both are workers.
#[derive(Clone, Copy, PartialEq, Eq, Hash, Debug)]
pub struct Edge {
    /// The vertex that holds the rights.
    pub from: u64,
    /// The vertex over which they are held.
    pub to: u64,
    /// The rights: one at least.
    pub rights: Rights,
}

/// Rights that a worker hands on ([`Store::hand`](crate::Store::hand)).
#[derive(Clone, Copy, PartialEq, Eq, Hash, Debug)]
pub struct Hand {
    /// The worker that hands them on.
    pub via: u64,
    /// Who holds them over the target.
    pub from: u64,
    /// Who is to hold them too.
    pub to: u64,
    /// The vertex that the rights are over.
    pub target: u64,
    /// The rights: one at least.
    pub rights: Rights,
}

/// A user whom a host parks ([`Store::park`](crate::Store::park)) or unparks ([`Store::unpark`](crate::Store::unpark)).
#[repr(C)]
#[derive(Clone, Copy, PartialEq, Eq, Hash, Debug)]
pub struct Parking {
    /// The worker that holds `g` over the user. Over the account it holds `g` to park, and `t` to unpark.
    pub host: u64,
    /// The worker that leaves, or that gets what the account holds.
    pub user: u64,
    /// The vertex that is to hold what the user holds, or that holds it.
    pub account: u64,
}

/// How many vertices and blocks there may be.
///
/// ```
/// # use kovshenul::Limits;
/// let few = Limits { max_vertices: 100, ..Limits::default() };
/// assert_eq!((few.max_blocks, few.max_space_blocks), (4096, 1 << 20));
/// ```
#[repr(C)]
#[derive(Clone, Copy, PartialEq, Eq, Hash, Debug)]
pub struct Limits {
    /// How many vertices may ever be made, with the workers. It is from the number of workers to 2^48.
    pub max_vertices: u64,
    /// How many blocks of 64 cells of 64 bytes there may be in all. It is from 1 to 2^20, and at least one for each
    /// worker. They bound how many vertices live at once. 65,536 blocks held 3,595,117 vertices of one row.
    pub max_blocks: u64,
    /// How many of them in one space: from 1 to 2^20.
    pub max_space_blocks: u64,
}

impl Default for Limits {
    /// 2^20 vertices, 4,096 blocks in all (16 MiB of cells), and the most blocks in one space.
    fn default() -> Limits {
        Limits {
            max_vertices: 1 << 20,
            max_blocks: 4096,
            max_space_blocks: 1 << 20,
        }
    }
}

/// A kind of collection.
#[derive(Clone, Copy, PartialEq, Eq, Hash, Debug)]
#[non_exhaustive]
pub enum Kind {
    /// Keeps exactly the vertices that can be reached from a worker.
    Full = 0,
    /// Looks at the young cells only, and may keep vertices that nobody reaches.
    Nursery = 1,
}

/// A vertex over which a worker has rights.
#[derive(Clone, Copy, PartialEq, Eq, Hash, Debug)]
pub struct Target {
    /// The vertex.
    pub to: u64,
    /// The rights over it.
    pub rights: Rights,
}

impl From<&RawTarget> for Target {
    fn from(target: &RawTarget) -> Target {
        Target {
            to: target.to,
            rights: Rights::told(target.rights),
        }
    }
}

impl From<&Target> for RawTarget {
    fn from(target: &Target) -> RawTarget {
        RawTarget {
            to: target.to,
            rights: target.rights.bits(),
        }
    }
}

/// The sizes of the heap, with the vertices that nobody reaches until a full collection frees them. After them comes how
/// many entries and collections were made since the store was opened. A refusal without an entry is in none of these
/// numbers.
#[repr(C)]
#[derive(Clone, Copy, Default, PartialEq, Eq, Hash, Debug)]
pub struct Counts {
    /// How many vertices.
    pub vertices: u64,
    /// How many payloads: what the vertices store.
    pub payloads: u64,
    /// How many blocks of 64 cells, of all spaces.
    pub blocks: u64,
    /// How many entries were made.
    pub entries: u64,
    /// How many of these are held.
    pub held: u64,
    /// How many of those made are denials.
    pub denied: u64,
    /// How many were refused because `max_vertices` were made.
    pub vertices_full: u64,
    /// How many were refused because 64 workers were active.
    pub workers_full: u64,
    /// How many nursery collections were done, also if they moved nothing.
    pub nursery_collections: u64,
    /// How many full collections were done.
    pub full_collections: u64,
}
