//! A program that a host might have in the place of a store, with maps in plain Rust: maps FILE WAY [setup]
//!
//! FILE has the bytes of Mixture.bytes of ../mixture/mixture.py. With setup after it only the vertices are made. WAY is one of
//! these:
//!
//! - `edges`: one map from a pair of vertices to rights, and a list of targets for each vertex. Nothing is ever freed.
//! - `counts`: a map of targets for each vertex, and a count of the edges to it. A vertex goes with its last edge. Circles stay.
//! - `marks`: a map of targets for each vertex. A full collection marks from the workers, and frees all others.
//!
//! Each has the same journal, and checks the same rights. It prints a sum over all answers, which is to be the sum of
//! ../mixture/mixture.c, the bytes of malloc, and the processor time.
use std::collections::HashMap;

const READ: u8 = 1;
const GRANT: u8 = 8;
const INSPECT: u8 = 32;

/// A graph of rights, with a number for each vertex.
trait Graph {
    /// Whether x has all of the rights over y.
    fn holds(&self, x: u32, y: u32, rights: u8) -> bool;
    /// What the vertex stores.
    fn value(&self, y: u32) -> u64;
    /// Makes a worker, which stays.
    fn worker(&mut self);
    /// Makes a vertex over which x has the rights, and returns its name.
    fn create(&mut self, x: u32, rights: u8) -> u32;
    /// Adds rights of x over y.
    fn add(&mut self, x: u32, y: u32, rights: u8);
    /// Removes rights of x over y.
    fn remove(&mut self, x: u32, y: u32, rights: u8);
    /// The edges of y, by rising name.
    fn row(&self, y: u32) -> Vec<(u32, u8)>;
    /// Frees what the workers don't reach.
    fn collect(&mut self, workers: u32);
}

/// All edges in one map.
#[derive(Default)]
struct Edges {
    edges: HashMap<(u32, u32), u8>,
    rows: Vec<Vec<u32>>,
    values: Vec<u64>,
}

impl Graph for Edges {
    fn holds(&self, x: u32, y: u32, rights: u8) -> bool {
        self.edges.get(&(x, y)).is_some_and(|held| held & rights == rights)
    }

    fn value(&self, y: u32) -> u64 {
        self.values[y as usize]
    }

    fn worker(&mut self) {
        self.values.push(0);
        self.rows.push(vec![]);
    }

    fn create(&mut self, x: u32, rights: u8) -> u32 {
        let name = self.values.len() as u32;
        self.worker();
        self.add(x, name, rights);
        name
    }

    fn add(&mut self, x: u32, y: u32, rights: u8) {
        let row = &mut self.rows[x as usize];
        *self.edges.entry((x, y)).or_insert_with(|| {
            row.push(y);
            0
        }) |= rights;
    }

    fn remove(&mut self, x: u32, y: u32, rights: u8) {
        match self.edges[&(x, y)] & !rights {
            0 => self.edges.remove(&(x, y)),
            left => self.edges.insert((x, y), left),
        };
    }

    fn row(&self, y: u32) -> Vec<(u32, u8)> {
        let held = |z: &u32| Some((*z, *self.edges.get(&(y, *z))?));
        let mut row: Vec<_> = self.rows[y as usize].iter().filter_map(held).collect();
        row.sort_unstable();
        row.dedup();
        row
    }

    fn collect(&mut self, _workers: u32) {}
}

/// A vertex with its edges, and how many lead to it.
#[derive(Default)]
struct Vertex {
    row: HashMap<u32, u8>,
    count: u32,
    value: u64,
}

/// A map of edges for each vertex.
#[derive(Default)]
struct Rows {
    vertices: Vec<Option<Box<Vertex>>>,
    is_counted: bool,
}

impl Rows {
    fn vertex(&self, x: u32) -> &Vertex {
        self.vertices[x as usize].as_ref().expect("a vertex that is there")
    }

    fn vertex_mut(&mut self, x: u32) -> &mut Vertex {
        self.vertices[x as usize].as_mut().expect("a vertex that is there")
    }

    /// Takes an edge to y away, and frees what then has none.
    fn drop_edge(&mut self, y: u32) {
        let mut todo = vec![y];
        while let Some(name) = todo.pop() {
            let Some(vertex) = self.vertices[name as usize].as_mut() else { continue };
            vertex.count -= 1;
            if vertex.count == 0 {
                todo.extend(self.vertices[name as usize].take().expect("it was there").row.keys());
            }
        }
    }
}

impl Graph for Rows {
    fn holds(&self, x: u32, y: u32, rights: u8) -> bool {
        self.vertex(x).row.get(&y).is_some_and(|held| held & rights == rights)
    }

    fn value(&self, y: u32) -> u64 {
        self.vertex(y).value
    }

    fn worker(&mut self) {
        self.vertices.push(Some(Box::new(Vertex { count: 1, ..Vertex::default() })));
    }

    fn create(&mut self, x: u32, rights: u8) -> u32 {
        let name = self.vertices.len() as u32;
        self.vertices.push(Some(Box::default()));
        self.add(x, name, rights);
        name
    }

    fn add(&mut self, x: u32, y: u32, rights: u8) {
        let held = self.vertex_mut(x).row.entry(y).or_insert(0);
        let is_new = *held == 0;
        *held |= rights;
        if is_new && self.is_counted {
            self.vertex_mut(y).count += 1;
        }
    }

    fn remove(&mut self, x: u32, y: u32, rights: u8) {
        let row = &mut self.vertex_mut(x).row;
        let held = row.get_mut(&y).expect("an edge that is there");
        *held &= !rights;
        if *held == 0 {
            row.remove(&y);
            if self.is_counted {
                self.drop_edge(y);
            }
        }
    }

    fn row(&self, y: u32) -> Vec<(u32, u8)> {
        let mut row: Vec<_> = self.vertex(y).row.iter().map(|(z, held)| (*z, *held)).collect();
        row.sort_unstable();
        row
    }

    fn collect(&mut self, workers: u32) {
        if self.is_counted {
            return;
        }
        let mut seen = vec![false; self.vertices.len()];
        let mut todo: Vec<u32> = (0..workers).collect();
        seen[..workers as usize].fill(true);
        while let Some(x) = todo.pop() {
            for y in self.vertices[x as usize].as_ref().expect("it is reached").row.keys() {
                if !std::mem::replace(&mut seen[*y as usize], true) {
                    todo.push(*y);
                }
            }
        }
        for (vertex, is_seen) in self.vertices.iter_mut().zip(seen) {
            if !is_seen {
                *vertex = None;
            }
        }
    }
}

/// What was answered.
#[allow(dead_code)]
enum Reply {
    Done,
    Name(u32),
    Value(u64),
    Row(Vec<(u32, u8)>),
    Denied,
}

/// A command with its reply, as a journal keeps it.
#[allow(dead_code)]
struct Entry {
    worker: u32,
    step: Step,
    reply: Reply,
}

/// A command of the mixture, or a collection.
#[derive(Clone, Copy)]
struct Step {
    kind: u8,
    worker: u8,
    rights: u8,
    first: u32,
    second: u32,
}

/// The numbers of a file, of which each has four bytes.
struct Numbers<'a>(&'a [u8]);

impl Numbers<'_> {
    fn next(&mut self) -> u32 {
        let (number, rest) = self.0.split_at(4);
        self.0 = rest;
        u32::from_le_bytes(number.try_into().expect("four bytes"))
    }

    fn step(&mut self) -> Step {
        let [kind, worker, rights, _] = self.next().to_le_bytes();
        Step { kind, worker, rights, first: self.next(), second: self.next() }
    }
}

/// Serves a command where the rights allow it. None is a collection's answer.
fn serve(graph: &mut impl Graph, step: Step, workers: u32) -> Option<Reply> {
    let (x, y, z, rights) = (u32::from(step.worker), step.first, step.second, step.rights);
    Some(match step.kind {
        0 if x != y && graph.holds(x, y, READ) => Reply::Value(graph.value(y)),
        1 if x != y && x != z && y != z && graph.holds(x, y, GRANT) && graph.holds(x, z, rights) => {
            graph.add(y, z, rights);
            Reply::Done
        }
        2 => Reply::Name(graph.create(x, rights)),
        3 if x != y && graph.holds(x, y, rights) => {
            graph.remove(x, y, rights);
            Reply::Done
        }
        4 if x != y && graph.holds(x, y, INSPECT) => Reply::Row(graph.row(y)),
        5 => return None,
        6 => {
            graph.collect(workers);
            return None;
        }
        _ => Reply::Denied,
    })
}

/// The sum with this answer.
fn sum_of(sum: u64, reply: Option<&Reply>) -> u64 {
    let add = |sum: u64, it: u64| (sum ^ it).wrapping_mul(1_099_511_628_211);
    match reply {
        Some(Reply::Value(number)) => add(add(sum, *number), 0),
        Some(Reply::Row(row)) => add(row.iter().fold(sum, |sum, (z, held)| add(add(sum, u64::from(*z)), u64::from(*held))), 0),
        Some(Reply::Denied) => add(sum, 1),
        _ => add(sum, 0),
    }
}

/// What getrusage and mallinfo2 of glibc fill in.
#[repr(C)]
struct Usage {
    times: [i64; 4],
    more: [i64; 14],
}

#[repr(C)]
struct HeapInfo {
    sizes: [usize; 10],
}

extern "C" {
    fn getrusage(who: i32, usage: *mut Usage) -> i32;
    fn mallinfo2() -> HeapInfo;
}

/// The processor time of this process so far.
fn seconds() -> f64 {
    let mut usage = Usage { times: [0; 4], more: [0; 14] };
    unsafe { getrusage(0, &mut usage) };
    (usage.times[0] + usage.times[2]) as f64 + 1e-6 * (usage.times[1] + usage.times[3]) as f64
}

/// Runs the steps, and prints what they came to.
fn run(mut graph: impl Graph, bytes: &[u8], is_setup: bool) {
    let mut numbers = Numbers(bytes);
    let [all, setup, workers, edges] = [0; 4].map(|_| numbers.next());
    (0..workers).for_each(|_| graph.worker());
    for _ in 0..edges {
        let (from, to) = (numbers.next(), numbers.next());
        graph.add(from, to, GRANT);
    }
    let (mut entries, mut sum, start) = (vec![], 1_469_598_103_934_665_603, seconds());
    for _ in 0..if is_setup { setup } else { all } {
        let step = numbers.step();
        let reply = serve(&mut graph, step, workers);
        sum = sum_of(sum, reply.as_ref());
        entries.extend(reply.map(|reply| Entry { worker: u32::from(step.worker), step, reply }));
    }
    let stop = seconds();
    let sizes = unsafe { mallinfo2() }.sizes;
    println!("sum {sum:016x}, {} bytes, {:.3} s", sizes[7] + sizes[4] - bytes.len(), stop - start);
    std::mem::forget((graph, entries));
}

fn main() {
    let words: Vec<String> = std::env::args().collect();
    let mut bytes = std::fs::read(&words[1]).expect("a file of steps");
    bytes.shrink_to_fit();
    let is_setup = words.get(3).is_some_and(|word| word == "setup");
    match words[2].as_str() {
        "edges" => run(Edges::default(), &bytes, is_setup),
        "counts" => run(Rows { is_counted: true, ..Rows::default() }, &bytes, is_setup),
        "marks" => run(Rows::default(), &bytes, is_setup),
        way => panic!("no way is called {way}"),
    }
}
