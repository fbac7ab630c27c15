//! The plain program with which the store is compared. It runs the same scripts with the same replies, and is written in plain Rust with no
//! proof in mind. A vertex is a struct with an ordered map of its edges, and knows whether it is a subject. A collection marks the reached
//! vertices, empties the others, and moves nothing. A collection of the younger cells does nothing. With `--journal` it keeps each command
//! with its answer, as the store does.
//!
//! Build: rustc -O --edition 2021 reference.rs

use std::collections::BTreeMap;
use std::fmt::Write as _;
use std::io::{self, BufRead, Write};

const LETTERS: [u8; 8] = *b"rwtgaluv";
const READ: u8 = 1;
const WRITE: u8 = 2;
const TAKE: u8 = 4;
const GRANT: u8 = 8;
const APPEND: u8 = 16;
const INSPECT: u8 = 32;

/// How many subjects may be active at a time.
const MOST_SUBJECTS: usize = 64;

#[derive(Clone, Copy)]
enum Law {
    Cell,
    Sum,
    Max,
    Log,
}

struct Vertex {
    edges: BTreeMap<u64, u8>,
    law: Law,
    state: Vec<u64>,
    subject: bool,
}

impl Vertex {
    fn new(law: Law, subject: bool) -> Vertex {
        let state = if matches!(law, Law::Log) { vec![] } else { vec![0] };
        Vertex { edges: BTreeMap::new(), law, state, subject }
    }

    fn write(&mut self, value: u64) {
        match self.law {
            Law::Cell => self.state[0] = value,
            Law::Sum => self.state[0] = self.state[0].wrapping_add(value),
            Law::Max => self.state[0] = self.state[0].max(value),
            Law::Log => {
                if self.state.len() == 4 {
                    self.state.remove(0);
                }
                self.state.push(value);
            }
        }
    }
}

struct Options {
    workers: u64,
    vertices: u64,
    stock: Vec<Law>,
    journal: bool,
}

#[allow(dead_code)]
enum Reply {
    Done,
    Name(u64),
    Values(Vec<u64>),
    Edges(Vec<(u64, u8)>),
    Denied,
}

/// A command that was answered: who asked, by which rule, the numbers and rights of its line, and the answer.
#[allow(dead_code)]
struct Entry {
    worker: u64,
    rule: u8,
    rights: u8,
    numbers: [u64; 2],
    reply: Reply,
}

fn options() -> Option<Options> {
    let mut options = Options { workers: 2, vertices: 1_000_000, stock: vec![], journal: false };
    let mut words = std::env::args().skip(1);
    while let Some(word) = words.next() {
        if word == "--journal" {
            options.journal = true;
            continue;
        }
        let value = words.next()?;
        match word.as_str() {
            "--workers" => options.workers = value.parse().ok()?,
            "--vertices" => options.vertices = value.parse().ok()?,
            "--stock" => options.stock = stock(value.as_bytes())?,
            _ => return None,
        }
    }
    Some(options)
}

fn stock(text: &[u8]) -> Option<Vec<Law>> {
    let mut boxes = vec![];
    let mut at = 0;
    while at < text.len() {
        let law = match text[at] {
            b'c' => Law::Cell,
            b's' => Law::Sum,
            b'm' => Law::Max,
            b'l' => Law::Log,
            _ => return None,
        };
        let start = at + 1;
        at = start;
        while at < text.len() && text[at].is_ascii_digit() {
            at += 1;
        }
        let count = if at == start { 1 } else { number(&text[start..at])? };
        boxes.resize(boxes.len() + count as usize, law);
    }
    Some(boxes)
}

fn number(text: &[u8]) -> Option<u64> {
    if text.is_empty() || (text.len() > 1 && text[0] == b'0') {
        return None;
    }
    let mut number: u64 = 0;
    for digit in text {
        if !digit.is_ascii_digit() {
            return None;
        }
        number = number.checked_mul(10)?.checked_add(u64::from(digit - b'0'))?;
    }
    Some(number)
}

fn rights(text: &[u8]) -> Option<u8> {
    let mut from = 0;
    let mut set = 0;
    for letter in text {
        let at = from + LETTERS[from..].iter().position(|other| other == letter)?;
        set |= 1 << at;
        from = at + 1;
    }
    (set != 0).then_some(set)
}

fn put_rights(out: &mut String, set: u8) {
    for (place, letter) in LETTERS.iter().enumerate() {
        if set >> place & 1 == 1 {
            out.push(*letter as char);
        }
    }
}

struct Store {
    vertices: Vec<Vertex>,
    /// The names of the active subjects.
    subjects: Vec<u64>,
    options: Options,
    next_box: usize,
    journal: Vec<Entry>,
}

impl Store {
    /// Keeps what was answered, where a journal is asked for.
    fn keep(&mut self, worker: u64, rule: u8, rights: u8, numbers: [u64; 2], reply: impl FnOnce(&Store) -> Reply) {
        if self.options.journal {
            let reply = reply(self);
            self.journal.push(Entry { worker, rule, rights, numbers, reply });
        }
    }

    fn label(&self, from: u64, to: u64) -> u8 {
        let vertex = self.vertices.get(from as usize);
        vertex.and_then(|vertex| vertex.edges.get(&to)).copied().unwrap_or(0)
    }

    fn add(&mut self, from: u64, to: u64, set: u8) {
        *self.vertices[from as usize].edges.entry(to).or_insert(0) |= set;
    }

    /// Why a command is denied: two ends that are one, or rights that are missing on an edge.
    fn denial(&self, out: &mut String, rule: &str, ends: &[u64], wants: &[(u64, u64, u8)]) -> bool {
        let same = (1..ends.len()).any(|i| ends[..i].contains(&ends[i]));
        if same {
            let _ = write!(out, "denied {rule} distinct");
            return true;
        }
        for (from, to, set) in wants {
            let missing = set & !self.label(*from, *to);
            if missing != 0 {
                let _ = write!(out, "denied {rule} {from}->{to} ");
                put_rights(out, missing);
                return true;
            }
        }
        false
    }

    /// Runs a command of x and appends its reply without the line feed. `None` for a line of no rule.
    fn run(&mut self, out: &mut String, x: u64, words: &[&[u8]]) -> Option<()> {
        let known = self.vertices.get(x as usize).is_some_and(|vertex| vertex.subject);
        if !known && words[0] != b"create" && words[0] != b"spawn" {
            out.push_str("refused worker");
            return Some(());
        }
        match (words[0], words.len()) {
            (b"create", 2) => self.make(out, known, x, rights(words[1])?, false),
            (b"spawn", 2) => self.make(out, known, x, rights(words[1])?, true),
            (b"retire", 1) => {
                self.vertices[x as usize].subject = false;
                self.subjects.retain(|subject| *subject != x);
                out.push_str("ok");
                self.keep(x, b'q', 0, [0; 2], |_| Reply::Done);
            }
            (b"list", 1) => {
                self.put_edges(out, x);
                self.keep(x, b'l', 0, [0; 2], |store| store.edges(x));
            }
            (b"inspect", 2) => self.inspect(out, x, number(words[1])?),
            (b"append", 3) => self.append(out, x, number(words[1])?, number(words[2])?),
            (b"read", 2) => {
                let y = number(words[1])?;
                let denied = self.denial(out, "read", &[x, y], &[(x, y, READ)]);
                if !denied {
                    out.push_str("ok");
                    for value in &self.vertices[y as usize].state {
                        let _ = write!(out, " {value}");
                    }
                }
                self.keep(x, b'r', 0, [y, 0], |store| {
                    if denied { Reply::Denied } else { Reply::Values(store.vertices[y as usize].state.clone()) }
                });
            }
            (b"write", 3) => {
                let (y, value) = (number(words[1])?, number(words[2])?);
                let denied = self.denial(out, "write", &[x, y], &[(x, y, WRITE)]);
                if !denied {
                    self.vertices[y as usize].write(value);
                    out.push_str("ok");
                }
                self.keep(x, b'w', 0, [y, value], |_| if denied { Reply::Denied } else { Reply::Done });
            }
            (b"take", 4) => {
                let (y, z, set) = (number(words[1])?, number(words[2])?, rights(words[3])?);
                let denied = self.denial(out, "take", &[x, y, z], &[(x, y, TAKE), (y, z, set)]);
                if !denied {
                    self.add(x, z, set);
                    out.push_str("ok");
                }
                self.keep(x, b't', set, [y, z], |_| if denied { Reply::Denied } else { Reply::Done });
            }
            (b"grant", 4) => {
                let (y, z, set) = (number(words[1])?, number(words[2])?, rights(words[3])?);
                let denied = self.denial(out, "grant", &[x, y, z], &[(x, y, GRANT), (x, z, set)]);
                if !denied {
                    self.add(y, z, set);
                    out.push_str("ok");
                }
                self.keep(x, b'g', set, [y, z], |_| if denied { Reply::Denied } else { Reply::Done });
            }
            (b"remove", 3) => {
                let (y, set) = (number(words[1])?, rights(words[2])?);
                let denied = self.denial(out, "remove", &[x, y], &[(x, y, set)]);
                if !denied {
                    let edges = &mut self.vertices[x as usize].edges;
                    let left = edges[&y] & !set;
                    if left == 0 {
                        edges.remove(&y);
                    } else {
                        edges.insert(y, left);
                    }
                    out.push_str("ok");
                }
                self.keep(x, b'm', set, [y, 0], |_| if denied { Reply::Denied } else { Reply::Done });
            }
            _ => return None,
        }
        Some(())
    }

    fn put_edges(&self, out: &mut String, x: u64) {
        out.push_str("ok");
        for (to, set) in &self.vertices[x as usize].edges {
            let _ = write!(out, " {to}:");
            put_rights(out, *set);
        }
    }

    fn edges(&self, x: u64) -> Reply {
        Reply::Edges(self.vertices[x as usize].edges.iter().map(|(to, set)| (*to, *set)).collect())
    }

    fn inspect(&mut self, out: &mut String, x: u64, y: u64) {
        let denied = self.denial(out, "inspect", &[x, y], &[(x, y, INSPECT)]);
        if !denied {
            self.put_edges(out, y);
        }
        self.keep(x, b'i', 0, [y, 0], |store| if denied { Reply::Denied } else { store.edges(y) });
    }

    /// The law is looked at last, so only where there is such a vertex.
    fn append(&mut self, out: &mut String, x: u64, y: u64, value: u64) {
        let mut denied = self.denial(out, "append", &[x, y], &[(x, y, APPEND)]);
        if !denied && !matches!(self.vertices[y as usize].law, Law::Log) {
            out.push_str("denied append law");
            denied = true;
        }
        if !denied {
            self.vertices[y as usize].write(value);
            out.push_str("ok");
        }
        self.keep(x, b'a', 0, [y, value], |_| if denied { Reply::Denied } else { Reply::Done });
    }

    /// Makes a vertex with the next box, a subject or an object.
    fn make(&mut self, out: &mut String, known: bool, x: u64, set: u8, subject: bool) {
        let name = self.vertices.len() as u64;
        if self.next_box == self.options.stock.len() {
            out.push_str("refused stock");
        } else if !known {
            out.push_str("refused worker");
        } else if name >= self.options.vertices {
            out.push_str("refused vertices");
        } else if subject && self.subjects.len() == MOST_SUBJECTS {
            out.push_str("refused workers");
        } else {
            self.vertices.push(Vertex::new(self.options.stock[self.next_box], subject));
            self.next_box += 1;
            if subject {
                self.subjects.push(name);
            }
            self.add(x, name, set);
            let _ = write!(out, "ok {name}");
            self.keep(x, if subject { b's' } else { b'c' }, set, [0; 2], |_| Reply::Name(name));
        }
    }

    /// Empties the vertices to which no walk along edges leads from a subject. Answers how many are left.
    fn collect(&mut self) -> u64 {
        let mut reached: Vec<bool> = self.vertices.iter().map(|vertex| vertex.subject).collect();
        let mut unseen = self.subjects.clone();
        let mut count = unseen.len() as u64;
        while let Some(x) = unseen.pop() {
            for to in self.vertices[x as usize].edges.keys() {
                if !std::mem::replace(&mut reached[*to as usize], true) {
                    count += 1;
                    unseen.push(*to);
                }
            }
        }
        for (vertex, kept) in self.vertices.iter_mut().zip(reached) {
            if !kept {
                *vertex = Vertex::new(Law::Cell, false);
            }
        }
        count
    }
}

fn main() -> io::Result<()> {
    let Some(options) = options() else {
        std::process::exit(2);
    };
    let vertices = (0..options.workers).map(|_| Vertex::new(Law::Cell, true)).collect();
    let subjects = (0..options.workers).collect();
    let mut store = Store { vertices, subjects, options, next_box: 0, journal: vec![] };
    let mut input = io::stdin().lock();
    let mut output = io::BufWriter::with_capacity(1 << 16, io::stdout().lock());
    let mut line = vec![];
    let mut text = String::new();
    for at in 1.. {
        line.clear();
        if input.read_until(b'\n', &mut line)? == 0 {
            break;
        }
        line.pop();
        let words: Vec<&[u8]> = line.split(|byte| *byte == b' ').collect();
        text.clear();
        let done = if words[0] == b"edge" && words.len() == 4 {
            edge(&mut store, &words[1..]).map(|()| false)
        } else if words == [b"full"] {
            let _ = write!(text, "ok {}", store.collect());
            Some(true)
        } else if words == [b"minor"] {
            text.push_str("ok");
            Some(true)
        } else {
            let x = number(words[0]).filter(|_| words.len() > 1);
            x.and_then(|x| store.run(&mut text, x, &words[1..])).map(|()| true)
        };
        match done {
            Some(false) => {}
            Some(true) => {
                text.push('\n');
                output.write_all(text.as_bytes())?;
            }
            None => {
                output.flush()?;
                eprintln!("line {at}: bad line");
                std::process::exit(1);
            }
        }
    }
    output.flush()
}

fn edge(store: &mut Store, words: &[&[u8]]) -> Option<()> {
    let (from, to, set) = (number(words[0])?, number(words[1])?, rights(words[2])?);
    store.add(from, to, set);
    Some(())
}
