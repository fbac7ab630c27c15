//! How many groups of an index's table a look-up walks: groups [GROUPS]
//!
//!     rustc -O -o groups bench/groups.rs && ./groups
//!
//! A model of the table of the kit's map. It has groups of twelve entries, of which 9 are in use on average if the table is full. A
//! full group goes on in the next group. The program has a table of 1,024 groups, unless another number is given. It puts rows of
//! several kinds into it, as long as they fit, and looks each name up. It does so for four hashes. The first is the hash of the
//! index, by which four names that follow one another share a group. In the second and third two and eight names share a group. The
//! fourth is a hash of whole names. It prints the mean, and the most for one name.

use std::collections::HashSet;

const LANES: usize = 12;
const LOAD: usize = 9;

/// The hash of a name where so many low bits choose no group.
fn hash(name: u64, low_bits: u32) -> u32 {
    let product = (0x243F_6A88_85A3_08D3 ^ name >> low_bits) as u128 * (0x9E37_79B9_7F4A_7C15_u64 ^ 16) as u128;
    let low = name & ((1 << low_bits) - 1);
    let folded = product as u64 ^ (product >> 64) as u64 ^ low << 24;
    (folded ^ folded >> 32) as u32
}

fn tag(hash: u32) -> u32 {
    (hash >> 24).max(1)
}

#[derive(Clone, Default)]
struct Group {
    entries: Vec<(u32, u64)>,
    overflowed: u32,
}

struct Table {
    groups: Vec<Group>,
    low_bits: u32,
}

impl Table {
    fn new(groups: usize, low_bits: u32) -> Table {
        Table { groups: vec![Group::default(); groups], low_bits }
    }

    fn insert(&mut self, name: u64) {
        let hash = hash(name, self.low_bits);
        let mut at = hash as usize % self.groups.len();
        while self.groups[at].entries.len() == LANES {
            self.groups[at].overflowed |= 1 << (tag(hash) & 31);
            at = (at + 1) % self.groups.len();
        }
        self.groups[at].entries.push((tag(hash), name));
    }

    /// How many groups a look-up walks.
    fn walked(&self, name: u64) -> u64 {
        let hash = hash(name, self.low_bits);
        for walked in 0..self.groups.len() {
            let group = &self.groups[(hash as usize + walked) % self.groups.len()];
            let is_there = group.entries.contains(&(tag(hash), name));
            if is_there || group.overflowed >> (tag(hash) & 31) & 1 == 0 {
                return walked as u64 + 1;
            }
        }
        self.groups.len() as u64
    }
}

/// The mean of the groups walked, and the most.
fn measure(row: &[u64], groups: usize, low_bits: u32) -> (f64, u64) {
    let mut table = Table::new(groups, low_bits);
    row.iter().for_each(|name| table.insert(*name));
    let walks: Vec<u64> = row.iter().map(|name| table.walked(*name)).collect();
    (walks.iter().sum::<u64>() as f64 / row.len() as f64, *walks.iter().max().unwrap())
}

fn print(kind: &str, row: &[u64], groups: usize) {
    print!("{kind:45}");
    for low_bits in [0, 1, 2, 3] {
        let (mean, most) = measure(row, groups, low_bits);
        print!(" {mean:7.2} {most:4}");
    }
    println!();
}

/// The distance of 1 to 1,100 at which most groups are walked.
fn print_worst_distance(length: usize, groups: usize) {
    print!("{:45}", "the worst distance of 1 to 1,100");
    for low_bits in [0, 1, 2, 3] {
        let means = (1..=1_100).map(|distance| (measure(&every(distance, length), groups, low_bits), distance));
        let ((mean, most), _) = means.max_by(|a, b| a.0.0.total_cmp(&b.0.0)).unwrap();
        print!(" {mean:7.2} {most:4}");
    }
    println!();
}

fn random(state: &mut u64) -> u64 {
    *state ^= *state << 13;
    *state ^= *state >> 7;
    *state ^= *state << 17;
    *state
}

fn every(distance: u64, length: usize) -> Vec<u64> {
    (0..length as u64).map(|at| 2 + at * distance).collect()
}

fn at_random(most: u64, length: usize) -> Vec<u64> {
    let (mut state, mut names) = (88172645463325252, HashSet::new());
    std::iter::repeat_with(|| random(&mut state) % most).filter(|name| names.insert(*name)).take(length).collect()
}

/// Runs of so many names, each begun at random between the last one's end and twice the gap after it.
fn batches(size: u64, gap: u64, length: usize) -> Vec<u64> {
    let (mut state, mut row, mut next) = (88172645463325252, Vec::new(), 0);
    while row.len() < length {
        next += random(&mut state) % (2 * gap);
        row.extend(next..next + size);
        next += size;
    }
    row.truncate(length);
    row
}

fn main() {
    let groups = std::env::args().nth(1).map_or(1_024, |word| word.parse().expect("groups [GROUPS]"));
    let full = LOAD * groups;
    println!("{:45} {:^12} {:^12} {:^12} {:^12}", format!("{groups} groups"), "whole names", "two", "four", "eight");
    for load in 5..=LOAD {
        print(&format!("one after the other, {load} a group"), &every(1, load * groups), groups);
    }
    for distance in [2, 3, 8, 64, 1_000, 1_024, groups as u64, 1 << 20] {
        print(&format!("every {distance}th"), &every(distance, full), groups);
    }
    print_worst_distance(full, groups);
    for of in [2, 16, 256] {
        print(&format!("at random, one of {of}"), &at_random((of * full) as u64, full), groups);
    }
    print("16 of each 64", &(0..).filter(|name| name % 64 < 16).take(full).collect::<Vec<u64>>(), groups);
    for (size, gap) in [(8, 64), (64, 1_024), (64, 4_096), (1_000, 1_000)] {
        print(&format!("batches of {size}, {gap} apart"), &batches(size, gap, full), groups);
    }
}
