// rival.rs: the same search in plain Rust, which says no more than yes or no. RIVAL VERTICES EDGES SEED QUESTIONS draws
// the picture that the program beside it draws, asks the same questions, and says how long the longest took.
use std::time::Instant;

const NONE: u32 = u32::MAX;
const SUBJECTS: usize = 64;

#[derive(Clone, Copy)]
struct Edge {
    from: u64,
    to: u64,
    rights: u8,
}

const R: u8 = 1;
const T: u8 = 4;
const G: u8 = 8;

fn next(state: &mut u64) -> u64 {
    *state = state.wrapping_mul(6_364_136_223_846_793_005).wrapping_add(1_442_695_040_888_963_407);
    *state >> 33
}

fn picture(vertices: u64, edges: u64, seed: u64) -> Vec<Edge> {
    let mut state = seed;
    (0..edges)
        .map(|i| {
            let (from, to) = (next(&mut state) % vertices, next(&mut state) % vertices);
            Edge { from, to, rights: [T, G, R][(i % 3) as usize] }
        })
        .collect()
}

// Four times the vertex at the other end, and two more for take, one more for grant. Then the next link of the same
// vertex, or the vertex itself until the links are tied.
#[derive(Clone, Copy)]
struct Link {
    packed: u32,
    next: u32,
}

struct Links {
    first: Vec<u32>,
    links: Vec<Link>,
}

impl Links {
    fn with_room(vertices: usize, room: usize) -> Links {
        Links { first: vec![NONE; vertices], links: Vec::with_capacity(room) }
    }

    fn add(&mut self, vertex: u64, end: u64, rights: u8) {
        let packed = (end as u32) << 2 | u32::from(rights & T != 0) << 1 | u32::from(rights & G != 0);
        self.links.push(Link { packed, next: vertex as u32 });
    }

    fn tie(&mut self) {
        for (at, link) in self.links.iter_mut().enumerate() {
            link.next = std::mem::replace(&mut self.first[link.next as usize], at as u32);
        }
    }

    fn of(&self, vertex: u64) -> impl Iterator<Item = Link> + '_ {
        let first = self.links.get(self.first[vertex as usize] as usize).copied();
        std::iter::successors(first, move |link| self.links.get(link.next as usize).copied())
    }
}

struct Search<'a> {
    edges: &'a [Edge],
    marks: Vec<u64>,
    steps: Vec<u32>,
}

impl Search<'_> {
    fn is_in(&self, vertex: u64, forward: bool) -> bool {
        let bit = vertex * 2 + u64::from(forward);
        self.marks[(bit / 64) as usize] >> (bit % 64) & 1 == 1
    }

    fn put(&mut self, vertex: u64, forward: bool) {
        if !self.is_in(vertex, forward) {
            let bit = vertex * 2 + u64::from(forward);
            self.marks[(bit / 64) as usize] |= 1 << (bit % 64);
            self.steps.push(bit as u32);
        }
    }

    fn enter(&mut self, holders: &Links, vertex: u64) {
        for link in holders.of(vertex) {
            self.put(u64::from(link.packed >> 2), false);
        }
    }

    // Goes back along take edges alone. Whether this leads to nobody who acts.
    fn go_back(&mut self, takers: &Links) -> bool {
        let mut at = 0;
        while let Some(step) = self.steps.get(at).copied() {
            at += 1;
            if ((step / 2) as usize) < SUBJECTS {
                return false;
            }
            self.enter(takers, u64::from(step / 2));
        }
        true
    }

    fn spread(&mut self, vertices: usize, takers: &Links) {
        let mut granters = Links::with_room(vertices, self.edges.len());
        let mut targets = Links::with_room(vertices, self.edges.len());
        for edge in self.edges {
            if edge.rights & (T | G) != 0 {
                targets.add(edge.from, edge.to, edge.rights);
            }
            if edge.rights & G != 0 {
                granters.add(edge.to, edge.from, edge.rights);
            }
        }
        granters.tie();
        targets.tie();
        let mut at = 0;
        while let Some(step) = self.steps.get(at).copied() {
            at += 1;
            let (vertex, forward) = (u64::from(step / 2), step % 2 == 1);
            if (vertex as usize) < SUBJECTS {
                self.put(vertex, !forward);
            }
            if !forward {
                self.enter(takers, vertex);
                continue;
            }
            for link in targets.of(vertex) {
                let end = u64::from(link.packed >> 2);
                if link.packed & 2 != 0 {
                    self.put(end, true);
                }
                if link.packed & 1 != 0 {
                    self.put(end, false);
                }
            }
            self.enter(&granters, vertex);
        }
    }
}

// Whether x could hold read over y.
fn could(edges: &[Edge], vertices: usize, x: u64, y: u64) -> bool {
    let mut search = Search { edges, marks: vec![0; vertices / 32 + 1], steps: Vec::new() };
    let mut takers = Links::with_room(vertices, edges.len());
    for edge in edges {
        if edge.rights & T != 0 {
            takers.add(edge.to, edge.from, edge.rights);
        }
        if edge.to == y && edge.rights & R != 0 {
            search.put(edge.from, false);
        }
    }
    takers.tie();
    if !search.go_back(&takers) {
        search.spread(vertices, &takers);
    }
    let given = |edge: &Edge| edge.to == x && edge.rights & G != 0 && search.is_in(edge.from, true);
    let held = |edge: &Edge| edge.from == x && edge.to == y && edge.rights & R != 0;
    x != y && ((x as usize) < SUBJECTS && search.is_in(x, false) || edges.iter().any(|edge| given(edge) || held(edge)))
}

fn main() {
    let words: Vec<u64> = std::env::args().skip(1).map(|word| word.parse().unwrap()).collect();
    let (vertices, seed) = (words[0], words[2]);
    let edges = picture(vertices, words[1], seed);
    let mut state = seed;
    let (mut longest, mut never, mut yes) = (0, 0, 0);
    for _ in 0..words[3] {
        let (x, y) = (next(&mut state) % vertices, next(&mut state) % vertices);
        let start = Instant::now();
        let answer = could(&edges, vertices as usize, x, y);
        let took = start.elapsed().as_micros();
        longest = took.max(longest);
        if answer {
            yes += 1;
        } else {
            never += 1;
        }
    }
    println!("{vertices} vertices, {} edges: longest {longest} us, {never} never, {yes} could", edges.len());
}
