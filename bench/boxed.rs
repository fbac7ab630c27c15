//! The second plain program with which the store is compared, beside reference.rs. It does more of the store's work than
//! reference.rs, in its own way. A payload is a box, as the store's is. A line becomes a command before it runs, and the answer
//! becomes a reply before it is written. With `--journal` both are kept. It counts the cells that rows would take, by the store's
//! blocks of 64, so that a heap can be full. A collection of the younger vertices traces from the subjects and from the old
//! vertices that were noted. No collection moves anything.
//!
//! Build: rustc -O --edition 2021 boxed.rs

use std::collections::BTreeMap;
use std::fmt::Write as _;
use std::io::{self, BufRead, Write};

const LETTERS: [u8; 8] = *b"rwtgaluv";
const READ: u8 = 1;
const WRITE: u8 = 2;
const TAKE: u8 = 4;
const GRANT: u8 = 8;
const APPEND: u8 = 16;
const INSPECT: u8 = 32;

/// How many subjects may be active at a time, and with that how many nurseries there are.
const MOST_SUBJECTS: usize = 64;
/// How many cells a block has, and how many references the first cell of a row has room for, and each further one.
const CELLS: u64 = 64;
const IN_OBJECT: usize = 3;
const IN_CHUNK: usize = 6;
/// How many values a log of the stock keeps.
const KEPT: usize = 4;

// ---- payloads

trait Payload {
    fn write(&mut self, value: u64);
    fn state(&self) -> Vec<u64>;
    fn is_log(&self) -> bool {
        false
    }
}

struct CellPayload(u64);
struct SumPayload(u64);
struct MaxPayload(u64);
struct LogPayload(Vec<u64>);

impl Payload for CellPayload {
    fn write(&mut self, value: u64) {
        self.0 = value;
    }

    fn state(&self) -> Vec<u64> {
        vec![self.0]
    }
}

impl Payload for SumPayload {
    fn write(&mut self, value: u64) {
        self.0 = self.0.wrapping_add(value);
    }

    fn state(&self) -> Vec<u64> {
        vec![self.0]
    }
}

impl Payload for MaxPayload {
    fn write(&mut self, value: u64) {
        self.0 = self.0.max(value);
    }

    fn state(&self) -> Vec<u64> {
        vec![self.0]
    }
}

impl Payload for LogPayload {
    fn write(&mut self, value: u64) {
        if self.0.len() == KEPT {
            self.0.remove(0);
        }
        self.0.push(value);
    }

    fn state(&self) -> Vec<u64> {
        self.0.clone()
    }

    fn is_log(&self) -> bool {
        true
    }
}

fn payload(law: u8) -> Option<Box<dyn Payload>> {
    Some(match law {
        b'c' => Box::new(CellPayload(0)),
        b's' => Box::new(SumPayload(0)),
        b'm' => Box::new(MaxPayload(0)),
        b'l' => Box::new(LogPayload(vec![])),
        _ => return None,
    })
}

// ---- lines

#[derive(Clone, Copy)]
enum Command {
    Create(u8),
    Spawn(u8),
    Retire,
    Take { via: u64, target: u64, rights: u8 },
    Grant { via: u64, target: u64, rights: u8 },
    Remove { target: u64, rights: u8 },
    Read(u64),
    Write { target: u64, value: u64 },
    Append { target: u64, value: u64 },
    Inspect(u64),
    List,
}

enum Line {
    Edge { from: u64, to: u64, rights: u8 },
    Command(u64, Command),
    Full,
    Minor,
}

fn number(text: &[u8]) -> Option<u64> {
    if text.is_empty() || (text.len() > 1 && text[0] == b'0') {
        return None;
    }
    text.iter().try_fold(0u64, |number, digit| {
        let digit = digit.is_ascii_digit().then(|| u64::from(digit - b'0'))?;
        number.checked_mul(10)?.checked_add(digit)
    })
}

fn rights(text: &[u8]) -> Option<u8> {
    let mut from = 0;
    let mut set = 0;
    for letter in text {
        let at = from + LETTERS[from..].iter().position(|other| other == letter)?;
        set |= 1 << at;
        from = at + 1;
    }
    (set != 0).then_some(set)
}

fn read_line(line: &[u8]) -> Option<Line> {
    let mut words: [&[u8]; 5] = [&[]; 5];
    let mut count = 0;
    for word in line.split(|byte| *byte == b' ') {
        *words.get_mut(count)? = word;
        count += 1;
    }
    match (words[0], count) {
        (b"full", 1) => return Some(Line::Full),
        (b"minor", 1) => return Some(Line::Minor),
        (b"edge", 4) => return Some(Line::Edge { from: number(words[1])?, to: number(words[2])?, rights: rights(words[3])? }),
        _ => {}
    }
    let command = match (words[1], count) {
        (b"create", 3) => Command::Create(rights(words[2])?),
        (b"spawn", 3) => Command::Spawn(rights(words[2])?),
        (b"retire", 2) => Command::Retire,
        (b"take", 5) => Command::Take { via: number(words[2])?, target: number(words[3])?, rights: rights(words[4])? },
        (b"grant", 5) => Command::Grant { via: number(words[2])?, target: number(words[3])?, rights: rights(words[4])? },
        (b"remove", 4) => Command::Remove { target: number(words[2])?, rights: rights(words[3])? },
        (b"read", 3) => Command::Read(number(words[2])?),
        (b"write", 4) => Command::Write { target: number(words[2])?, value: number(words[3])? },
        (b"append", 4) => Command::Append { target: number(words[2])?, value: number(words[3])? },
        (b"inspect", 3) => Command::Inspect(number(words[2])?),
        (b"list", 2) => Command::List,
        _ => return None,
    };
    Some(Line::Command(number(words[0])?, command))
}

// ---- replies

enum Reply {
    Done,
    Name(u64),
    Values(Vec<u64>),
    Edges(Vec<(u64, u8)>),
    NotDistinct(&'static str),
    Missing { rule: &'static str, from: u64, to: u64, rights: u8 },
    NotLog,
    VerticesFull,
    WorkersFull,
}

struct HeapFull;

fn put_rights(out: &mut String, set: u8) {
    for (place, letter) in LETTERS.iter().enumerate() {
        if set >> place & 1 == 1 {
            out.push(*letter as char);
        }
    }
}

fn put_reply(out: &mut String, reply: &Reply) {
    match reply {
        Reply::Done => out.push_str("ok"),
        Reply::Name(name) => drop(write!(out, "ok {name}")),
        Reply::Values(values) => {
            out.push_str("ok");
            for value in values {
                let _ = write!(out, " {value}");
            }
        }
        Reply::Edges(edges) => {
            out.push_str("ok");
            for (to, set) in edges {
                let _ = write!(out, " {to}:");
                put_rights(out, *set);
            }
        }
        Reply::NotDistinct(rule) => drop(write!(out, "denied {rule} distinct")),
        Reply::Missing { rule, from, to, rights } => {
            let _ = write!(out, "denied {rule} {from}->{to} ");
            put_rights(out, *rights);
        }
        Reply::NotLog => out.push_str("denied append law"),
        Reply::VerticesFull => out.push_str("refused vertices"),
        Reply::WorkersFull => out.push_str("refused workers"),
    }
}

// ---- the store

#[derive(Clone, Copy, PartialEq)]
enum Age {
    Nursery,
    Aged,
    Old,
}

struct Vertex {
    edges: BTreeMap<u64, u8>,
    payload: Box<dyn Payload>,
    age: Age,
    is_noted: bool,
    /// How many further cells its row would take in nurseries, in Aged and in Old.
    chunks: [u64; 3],
}

impl Vertex {
    fn new(payload: Box<dyn Payload>) -> Vertex {
        Vertex { edges: BTreeMap::new(), payload, age: Age::Nursery, is_noted: false, chunks: [0; 3] }
    }

    fn is_row_full(&self) -> bool {
        self.edges.len() == IN_OBJECT + IN_CHUNK * self.chunks.iter().sum::<u64>() as usize
    }
}

struct Options {
    workers: u64,
    vertices: u64,
    blocks: u64,
    stock: Vec<u8>,
    journal: bool,
}

struct Store {
    options: Options,
    vertices: Vec<Option<Vertex>>,
    /// The active subjects, with the nursery of each.
    subjects: BTreeMap<u64, usize>,
    in_nursery: [u64; MOST_SUBJECTS],
    aged_blocks: u64,
    old_blocks: u64,
    young: Vec<u64>,
    noted: Vec<u64>,
    /// All false between collections.
    marks: Vec<bool>,
    journal: Vec<(u64, Command, Reply)>,
}

impl Store {
    fn open(options: Options) -> Store {
        let mut store = Store {
            vertices: vec![],
            subjects: BTreeMap::new(),
            in_nursery: [0; MOST_SUBJECTS],
            aged_blocks: 0,
            old_blocks: 0,
            young: vec![],
            noted: vec![],
            marks: vec![],
            journal: vec![],
            options,
        };
        for worker in 0..store.options.workers {
            store.vertices.push(Some(Vertex::new(Box::new(CellPayload(0)))));
            store.subjects.insert(worker, worker as usize);
            store.in_nursery[worker as usize] = 1;
            store.young.push(worker);
        }
        store
    }

    fn vertex(&mut self, name: u64) -> &mut Vertex {
        self.vertices[name as usize].as_mut().expect("a vertex that an edge names is there")
    }

    fn label(&self, from: u64, to: u64) -> u8 {
        let vertex = self.vertices.get(from as usize).and_then(Option::as_ref);
        vertex.and_then(|vertex| vertex.edges.get(&to)).copied().unwrap_or(0)
    }

    fn edges(&self, name: u64) -> Reply {
        let vertex = self.vertices[name as usize].as_ref();
        Reply::Edges(vertex.map(|it| it.edges.iter().map(|(to, set)| (*to, *set)).collect()).unwrap_or_default())
    }

    fn targets(&self, name: u64) -> impl Iterator<Item = &u64> {
        self.vertices[name as usize].iter().flat_map(|vertex| vertex.edges.keys())
    }

    fn is_young(&self, name: u64) -> bool {
        self.vertices[name as usize].as_ref().is_some_and(|vertex| vertex.age != Age::Old)
    }

    /// So many new cells in a nursery, or nothing where a block for them is over the limit.
    fn take_cells(&mut self, nursery: usize, cells: u64) -> Result<(), HeapFull> {
        let more = (self.in_nursery[nursery] + cells).div_ceil(CELLS) - self.in_nursery[nursery].div_ceil(CELLS);
        if more > 0 {
            let young: u64 = self.in_nursery.iter().map(|cells| cells.div_ceil(CELLS)).sum();
            if young + self.aged_blocks + self.old_blocks + more > self.options.blocks {
                return Err(HeapFull);
            }
        }
        self.in_nursery[nursery] += cells;
        Ok(())
    }

    fn note(&mut self, name: u64, names_young: bool) {
        let vertex = self.vertex(name);
        if names_young && vertex.age == Age::Old && !vertex.is_noted {
            vertex.is_noted = true;
            self.noted.push(name);
        }
    }

    fn add(&mut self, worker: u64, from: u64, to: u64, set: u8) -> Result<Reply, HeapFull> {
        if let Some(label) = self.vertex(from).edges.get_mut(&to) {
            *label |= set;
            return Ok(Reply::Done);
        }
        let grows = self.vertex(from).is_row_full();
        if grows {
            self.take_cells(self.subjects[&worker], 1)?;
            self.vertex(from).chunks[0] += 1;
        }
        self.vertex(from).edges.insert(to, set);
        let names_young = grows || self.is_young(to);
        self.note(from, names_young);
        Ok(Reply::Done)
    }

    fn make(&mut self, worker: u64, set: u8, stock: &mut Stock, is_subject: bool) -> Result<Reply, HeapFull> {
        let name = self.vertices.len() as u64;
        if name >= self.options.vertices {
            return Ok(Reply::VerticesFull);
        }
        if is_subject && self.subjects.len() == MOST_SUBJECTS {
            return Ok(Reply::WorkersFull);
        }
        let grows = self.vertex(worker).is_row_full();
        self.take_cells(self.subjects[&worker], 1 + u64::from(grows))?;
        self.vertices.push(stock.take().map(Vertex::new));
        self.young.push(name);
        let row = self.vertex(worker);
        row.chunks[0] += u64::from(grows);
        row.edges.insert(name, set);
        self.note(worker, true);
        if is_subject {
            let free = (0..MOST_SUBJECTS).find(|nursery| !self.subjects.values().any(|other| other == nursery));
            self.subjects.insert(name, free.expect("fewer subjects than nurseries"));
        }
        Ok(Reply::Name(name))
    }

    /// Why a command is denied: two ends that are one, or rights that are missing on an edge.
    fn denial(&self, rule: &'static str, ends: &[u64], wants: &[(u64, u64, u8)]) -> Option<Reply> {
        if (1..ends.len()).any(|at| ends[..at].contains(&ends[at])) {
            return Some(Reply::NotDistinct(rule));
        }
        wants.iter().find_map(|(from, to, set)| {
            let rights = set & !self.label(*from, *to);
            (rights != 0).then_some(Reply::Missing { rule, from: *from, to: *to, rights })
        })
    }

    fn decide(&self, x: u64, command: Command) -> Option<Reply> {
        match command {
            Command::Create(_) | Command::Spawn(_) | Command::Retire | Command::List => None,
            Command::Take { via, target, rights } => self.denial("take", &[x, via, target], &[(x, via, TAKE), (via, target, rights)]),
            Command::Grant { via, target, rights } => self.denial("grant", &[x, via, target], &[(x, via, GRANT), (x, target, rights)]),
            Command::Remove { target, rights } => self.denial("remove", &[x, target], &[(x, target, rights)]),
            Command::Read(target) => self.denial("read", &[x, target], &[(x, target, READ)]),
            Command::Write { target, .. } => self.denial("write", &[x, target], &[(x, target, WRITE)]),
            Command::Inspect(target) => self.denial("inspect", &[x, target], &[(x, target, INSPECT)]),
            Command::Append { target, .. } => self.denial("append", &[x, target], &[(x, target, APPEND)]).or_else(|| {
                let vertex = self.vertices[target as usize].as_ref();
                (!vertex.is_some_and(|it| it.payload.is_log())).then_some(Reply::NotLog)
            }),
        }
    }

    fn perform(&mut self, x: u64, command: Command, stock: &mut Stock) -> Result<Reply, HeapFull> {
        match command {
            Command::Create(rights) => self.make(x, rights, stock, false),
            Command::Spawn(rights) => self.make(x, rights, stock, true),
            Command::Take { target, rights, .. } => self.add(x, x, target, rights),
            Command::Grant { via, target, rights } => self.add(x, via, target, rights),
            Command::List => Ok(self.edges(x)),
            Command::Inspect(target) => Ok(self.edges(target)),
            Command::Read(target) => Ok(Reply::Values(self.vertex(target).payload.state())),
            Command::Retire => {
                self.subjects.remove(&x);
                Ok(Reply::Done)
            }
            Command::Remove { target, rights } => {
                let edges = &mut self.vertex(x).edges;
                let left = edges[&target] & !rights;
                if left == 0 {
                    edges.remove(&target);
                } else {
                    edges.insert(target, left);
                }
                Ok(Reply::Done)
            }
            Command::Write { target, value } | Command::Append { target, value } => {
                self.vertex(target).payload.write(value);
                Ok(Reply::Done)
            }
        }
    }

    /// Runs a command of x, and appends its reply without the line feed.
    fn run(&mut self, out: &mut String, x: u64, command: Command, stock: &mut Stock) {
        if matches!(command, Command::Create(_) | Command::Spawn(_)) && stock.is_empty() {
            out.push_str("refused stock");
        } else if !self.subjects.contains_key(&x) {
            out.push_str("refused worker");
        } else {
            let reply = match self.decide(x, command) {
                Some(denied) => Ok(denied),
                None => self.perform(x, command, stock),
            };
            match reply {
                Err(HeapFull) => out.push_str("refused heap"),
                Ok(reply) => {
                    put_reply(out, &reply);
                    if self.options.journal {
                        self.journal.push((x, command, reply));
                    }
                }
            }
        }
    }

    /// Drops the vertices to which no walk along edges leads from a subject. Answers how many are left.
    fn collect_all(&mut self) -> u64 {
        let mut marks = self.take_marks();
        let mut unseen: Vec<u64> = self.subjects.keys().copied().collect();
        unseen.iter().for_each(|name| marks[*name as usize] = true);
        while let Some(name) = unseen.pop() {
            for to in self.vertex(name).edges.keys() {
                if !std::mem::replace(&mut marks[*to as usize], true) {
                    unseen.push(*to);
                }
            }
        }
        let (mut kept, mut cells) = (0, 0);
        for (place, mark) in self.vertices.iter_mut().zip(&mut marks) {
            let Some(vertex) = place.as_mut().filter(|_| std::mem::take(mark)) else {
                *place = None;
                continue;
            };
            let chunks = vertex.chunks.iter().sum();
            (vertex.age, vertex.is_noted, vertex.chunks) = (Age::Old, false, [0, 0, chunks]);
            kept += 1;
            cells += 1 + chunks;
        }
        self.marks = marks;
        self.young.clear();
        self.noted.clear();
        self.in_nursery = [0; MOST_SUBJECTS];
        (self.aged_blocks, self.old_blocks) = (0, cells.div_ceil(CELLS));
        kept
    }

    /// Drops the younger vertices that no subject and no noted one leads to, and makes the others a step older.
    fn collect_young(&mut self) {
        let mut marks = self.take_marks();
        let mut met: Vec<u64> = self.subjects.keys().copied().chain(self.noted.drain(..)).collect();
        met.sort_unstable();
        met.dedup();
        met.iter().for_each(|name| marks[*name as usize] = true);
        let mut at = 0;
        while at < met.len() {
            for to in self.targets(met[at]) {
                if self.is_young(*to) && !std::mem::replace(&mut marks[*to as usize], true) {
                    met.push(*to);
                }
            }
            at += 1;
        }
        for name in std::mem::take(&mut self.young) {
            if !marks[name as usize] {
                self.vertices[name as usize] = None;
            }
        }
        met.iter().for_each(|name| marks[*name as usize] = false);
        self.marks = marks;
        self.age(&met);
        met.iter().for_each(|name| self.keep_young(*name));
    }

    fn age(&mut self, met: &[u64]) {
        let (mut aged, mut old) = (0, 0);
        for name in met {
            let vertex = self.vertex(*name);
            vertex.is_noted = false;
            aged += vertex.chunks[0] + u64::from(vertex.age == Age::Nursery);
            old += vertex.chunks[1] + u64::from(vertex.age == Age::Aged);
            vertex.chunks = [0, vertex.chunks[0], vertex.chunks[1] + vertex.chunks[2]];
            vertex.age = if vertex.age == Age::Nursery { Age::Aged } else { Age::Old };
        }
        self.in_nursery = [0; MOST_SUBJECTS];
        self.aged_blocks = aged.div_ceil(CELLS);
        self.old_blocks += old.div_ceil(CELLS);
    }

    /// Notes an old vertex that names a younger one, and counts a younger one.
    fn keep_young(&mut self, name: u64) {
        if self.is_young(name) {
            self.young.push(name);
            return;
        }
        let names_young = self.vertex(name).chunks[1] > 0 || self.targets(name).any(|to| self.is_young(*to));
        self.note(name, names_young);
    }

    fn take_marks(&mut self) -> Vec<bool> {
        let mut marks = std::mem::take(&mut self.marks);
        marks.resize(self.vertices.len(), false);
        marks
    }
}

// ---- the program

/// The boxes that are left, of which the next one is made when it is asked for.
struct Stock {
    laws: std::vec::IntoIter<u8>,
}

impl Stock {
    fn is_empty(&self) -> bool {
        self.laws.len() == 0
    }

    fn take(&mut self) -> Option<Box<dyn Payload>> {
        payload(self.laws.next()?)
    }
}

fn read_stock(text: &[u8]) -> Option<Vec<u8>> {
    let mut boxes = vec![];
    let mut rest = text;
    while let [law, after @ ..] = rest {
        payload(*law)?;
        let digits = after.iter().take_while(|byte| byte.is_ascii_digit()).count();
        let count = if digits == 0 { 1 } else { number(&after[..digits])? };
        boxes.resize(boxes.len() + count as usize, *law);
        rest = &after[digits..];
    }
    Some(boxes)
}

fn options() -> Option<Options> {
    let mut options = Options { workers: 2, vertices: 1_000_000, blocks: 4_096, stock: vec![], journal: false };
    let mut words = std::env::args().skip(1);
    while let Some(word) = words.next() {
        if word == "--journal" {
            options.journal = true;
            continue;
        }
        let value = words.next()?;
        match word.as_str() {
            "--workers" => options.workers = value.parse().ok()?,
            "--vertices" => options.vertices = value.parse().ok()?,
            "--blocks" => options.blocks = value.parse().ok()?,
            "--stock" => options.stock = read_stock(value.as_bytes())?,
            _ => return None,
        }
    }
    Some(options)
}

fn main() -> io::Result<()> {
    let Some(mut options) = options() else {
        std::process::exit(2);
    };
    let mut stock = Stock { laws: std::mem::take(&mut options.stock).into_iter() };
    let mut store = Store::open(options);
    let mut input = io::stdin().lock();
    let mut output = io::BufWriter::with_capacity(1 << 16, io::stdout().lock());
    let mut line = vec![];
    let mut text = String::new();
    for at in 1.. {
        line.clear();
        if input.read_until(b'\n', &mut line)? == 0 {
            break;
        }
        line.pop();
        text.clear();
        match read_line(&line) {
            Some(Line::Edge { from, to, rights }) => {
                let _ = store.add(from, from, to, rights);
                continue;
            }
            Some(Line::Command(x, command)) => store.run(&mut text, x, command, &mut stock),
            Some(Line::Full) => drop(write!(text, "ok {}", store.collect_all())),
            Some(Line::Minor) => {
                store.collect_young();
                text.push_str("ok");
            }
            None => {
                output.flush()?;
                eprintln!("line {at}: bad line");
                std::process::exit(1);
            }
        }
        text.push('\n');
        output.write_all(text.as_bytes())?;
    }
    output.flush()
}
