//! The plain program with which shared stores are compared. It has a graph with a journal in a `Mutex`, and is written
//! in plain Rust with no proof in mind. A vertex is a struct with an ordered map of its edges. Each thread keeps its
//! answers. Each line of standard input is a number of threads. The program answers it by a line as `main.rt.in` does.
//!
//! Build: rustc -O --edition 2021 plain.rs

use std::collections::BTreeMap;
use std::sync::Mutex;
use std::thread;
use std::time::Instant;

const ROUNDS: u64 = 33_333;
const READ: u8 = 1;
const GRANT: u8 = 8;

#[derive(Clone, Copy)]
enum Command {
    Create { label: u8 },
    Grant { via: u64, target: u64, rights: u8 },
    Read { target: u64 },
}

#[allow(dead_code)]
#[derive(Clone)]
enum Reply {
    Done,
    Name(u64),
    Values(Vec<u64>),
    Denied,
}

#[allow(dead_code)]
struct Entry {
    worker: u64,
    command: Command,
    reply: Reply,
}

struct Vertex {
    edges: BTreeMap<u64, u8>,
    state: Vec<u64>,
}

struct Store {
    vertices: Vec<Vertex>,
    journal: Vec<Entry>,
}

impl Store {
    fn new(workers: u64) -> Store {
        let vertices = (0..workers)
            .map(|worker| Vertex {
                edges: BTreeMap::from([((worker + 1) % workers, GRANT)]),
                state: vec![0],
            })
            .collect();
        Store { vertices, journal: vec![] }
    }

    fn holds(&self, from: u64, to: u64, rights: u8) -> bool {
        let label = self.vertices[from as usize].edges.get(&to).copied().unwrap_or(0);
        from != to && label & rights == rights
    }

    fn add(&mut self, from: u64, to: u64, rights: u8) {
        *self.vertices[from as usize].edges.entry(to).or_insert(0) |= rights;
    }

    fn answer(&mut self, worker: u64, command: Command) -> Reply {
        match command {
            Command::Create { label } => {
                let name = self.vertices.len() as u64;
                self.vertices.push(Vertex { edges: BTreeMap::new(), state: vec![0] });
                self.add(worker, name, label);
                Reply::Name(name)
            }
            Command::Grant { via, target, rights } => {
                if via == target || !self.holds(worker, via, GRANT) || !self.holds(worker, target, rights) {
                    return Reply::Denied;
                }
                self.add(via, target, rights);
                Reply::Done
            }
            Command::Read { target } => {
                if !self.holds(worker, target, READ) {
                    return Reply::Denied;
                }
                Reply::Values(self.vertices[target as usize].state.clone())
            }
        }
    }

    /// Answers a command and enters it in the journal. Answers the entry's place too.
    fn apply(&mut self, worker: u64, command: Command) -> (usize, Reply) {
        let at = self.journal.len();
        let reply = self.answer(worker, command);
        self.journal.push(Entry { worker, command, reply: reply.clone() });
        (at, reply)
    }
}

/// All rounds of a thread. What it was answered, each with its place in the journal.
fn rounds(store: &Mutex<Store>, worker: u64, workers: u64) -> Vec<(usize, Reply)> {
    let mut answers = vec![];
    let mut ask = |command| {
        let (at, reply) = store.lock().unwrap().apply(worker, command);
        answers.push((at, reply.clone()));
        reply
    };
    for _ in 0..ROUNDS {
        if let Reply::Name(target) = ask(Command::Create { label: READ }) {
            ask(Command::Grant { via: (worker + 1) % workers, target, rights: READ });
            ask(Command::Read { target });
        }
    }
    answers
}

fn main() {
    for line in std::io::stdin().lines() {
        let threads: u64 = line.unwrap().trim().parse().unwrap();
        let workers = threads.max(2);
        let store = Mutex::new(Store::new(workers));
        let start = Instant::now();
        let answers: usize = thread::scope(|scope| {
            let running: Vec<_> = (0..threads).map(|worker| scope.spawn({
                let store = &store;
                move || rounds(store, worker, workers)
            })).collect();
            running.into_iter().map(|thread| thread.join().unwrap().len()).sum()
        });
        let took = start.elapsed().as_nanos();
        assert_eq!(store.into_inner().unwrap().journal.len(), answers);
        println!("{threads} {answers} {took}");
    }
}
