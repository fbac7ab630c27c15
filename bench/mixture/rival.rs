
// ---- mixtures (bench/mixture/run.py puts this after boxed.rs, whose own main has another name then)

/// The steps of a file (Mixture.bytes of mixture.py), of which each number has four bytes.
struct Steps {
    bytes: Vec<u8>,
    at: usize,
}

impl Steps {
    fn number(&mut self) -> u64 {
        u64::from(u32::from_le_bytes(self.four()))
    }

    fn four(&mut self) -> [u8; 4] {
        self.at += 4;
        self.bytes[self.at - 4..self.at].try_into().expect("four bytes")
    }
}

/// What mixture.c sums up of the answers.
fn sum_of(sum: u64, reply: &Reply) -> u64 {
    let add = |sum: u64, it: u64| (sum ^ it).wrapping_mul(1_099_511_628_211);
    match reply {
        Reply::Values(values) => add(add(sum, values[0]), 0),
        Reply::Edges(edges) => add(edges.iter().fold(sum, |sum, (to, set)| add(add(sum, *to), u64::from(*set))), 0),
        Reply::Missing { .. } | Reply::NotDistinct(_) => add(sum, 1),
        _ => add(sum, 0),
    }
}

/// The next step: who asks, and for what. A collection is made at once, and asks for nothing.
fn step(store: &mut Store, steps: &mut Steps) -> (u64, Option<Command>) {
    let [kind, worker, rights, _] = steps.four();
    let (first, second) = (steps.number(), steps.number());
    let command = match kind {
        0 => Some(Command::Read(first)),
        1 => Some(Command::Grant { via: first, target: second, rights }),
        2 => Some(Command::Create(rights)),
        3 => Some(Command::Remove { target: first, rights }),
        4 => Some(Command::Inspect(first)),
        5 => {
            store.collect_young();
            None
        }
        _ => {
            store.collect_all();
            None
        }
    };
    (u64::from(worker), command)
}

fn main() {
    let words: Vec<String> = std::env::args().collect();
    let mut steps = Steps { bytes: std::fs::read(&words[1]).expect("a file of steps"), at: 0 };
    let [all, setup, workers, edges] = [0; 4].map(|_| steps.number());
    let options = Options { workers, vertices: 1 << 24, blocks: 1 << 20, stock: vec![], journal: true };
    let mut store = Store::open(options);
    for _ in 0..edges {
        let (from, to) = (steps.number(), steps.number());
        let _ = store.add(from, from, to, GRANT);
    }
    let mut sum = 1_469_598_103_934_665_603;
    for _ in 0..if words.len() > 2 { setup } else { all } {
        let (worker, command) = step(&mut store, &mut steps);
        let mut reply = Ok(Reply::Done);
        if let Some(command) = command {
            let mut stock = Stock { laws: vec![b'c'].into_iter() };
            reply = store.decide(worker, command).map_or_else(|| store.perform(worker, command, &mut stock), Ok);
        }
        let Ok(reply) = reply else {
            panic!("the heap is full");
        };
        sum = sum_of(sum, &reply);
        if let Some(command) = command {
            store.journal.push((worker, command, reply));
        }
    }
    println!("sum {sum:016x}");
    std::mem::forget(store);
}
