//! Commands a second from Rust: speed CALLS prints a line for each kind, with the millions of calls in a second. This thread does nothing
//! else, so the time is the clock's.
use kovshenul::{Edge, Error, Limits, Rights, Store, Value};
use std::time::Instant;

const LIMITS: Limits = Limits {
    max_vertices: 1 << 24,
    max_blocks: 65536,
    max_space_blocks: 1 << 20,
};

// A store of its own for each kind, with a row of two edges.
fn measure<T>(kind: &str, calls: u32, call: impl Fn(&mut Store, u64) -> Result<T, Error>) -> Result<(), Error> {
    let edge = Edge {
        from: 0,
        to: 1,
        rights: Rights::GRANT,
    };
    let mut store = Store::open(&[Value::Cell(0), Value::Cell(0)], &[edge], &LIMITS)?;
    let document = store.create(0, Rights::READ | Rights::WRITE, Value::Cell(0))?;
    let start = Instant::now();
    for _ in 0..calls {
        call(&mut store, document)?;
    }
    println!("{kind} {:.3}", f64::from(calls) / start.elapsed().as_secs_f64() / 1e6);
    Ok(())
}

fn denied(store: &mut Store, document: u64) -> Result<(), Error> {
    match store.write(1, document, 1) {
        Err(Error::Denied(_)) => Ok(()),
        other => other,
    }
}

fn main() -> Result<(), Error> {
    let calls = std::env::args().nth(1).and_then(|word| word.parse().ok()).unwrap_or(1);
    measure("read", calls, |store, document| store.read(0, document))?;
    measure("write", calls, |store, document| store.write(0, document, 1))?;
    measure("grant", calls, |store, document| store.grant(0, 1, document, Rights::READ))?;
    measure("denied", calls, denied)?;
    measure("list", calls, |store, _| store.list(0))?;
    measure("create", calls, |store, _| store.create(0, Rights::READ | Rights::WRITE, Value::Cell(0)))?;
    measure("bare", calls, |store, _| store.entries())
}
