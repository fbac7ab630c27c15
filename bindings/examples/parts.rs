//! A host that keeps its journal short: every few commands it writes the new entries out, has an auditor replay them, and gives them
//! up. Another store and another auditor go on after the first part.
use kovshenul::{Auditor, Edge, Error, Limits, Rights, Snapshot, Store, Value};

const HOST: u64 = 0;
const GUEST: u64 = 1;
const EVERY: u64 = 4;
const COMMANDS: u64 = 10;

/// Writes out what the store holds, audits it, and gives it up. Where it can't be audited the store keeps it.
fn hand_over(store: &mut Store, auditor: &mut Auditor) -> Result<(), Error> {
    store.journal().for_each(|entry| println!("{entry}"));
    let audited = auditor.feed(store)?;
    auditor.forget(store, audited)?;
    println!("{audited} entries audited and given up");
    Ok(())
}

/// Another store and another auditor, which go on from a snapshot, as a process does that has the text of the snapshot alone.
fn gone_on(store: Store, auditor: Auditor) -> Result<(Store, Auditor), Box<dyn std::error::Error>> {
    let text = auditor.snapshot()?.to_string();
    drop((store, auditor));
    println!("{text}");
    let snapshot: Snapshot = text.parse()?;
    Ok((Store::reopen(&snapshot, &Limits::default())?, Auditor::reopen(&snapshot)?))
}

/// The guest adds to the host's sum, and once writes to an object that isn't its own.
fn add(store: &mut Store, sum: u64, number: u64) -> Result<(), Error> {
    let target = if number == 6 { HOST } else { sum };
    match store.write(GUEST, target, number) {
        Err(Error::Denied(_)) => Ok(()),
        other => other,
    }
}

fn main() -> Result<(), Box<dyn std::error::Error>> {
    let cells = [Value::Cell(0), Value::Cell(0)];
    let edges = [Edge { from: HOST, to: GUEST, rights: Rights::GRANT }];
    let mut store = Store::open(&cells, &edges, &Limits::default())?;
    let mut auditor = Auditor::open(&cells, &edges, &Limits::default())?;
    let sum = store.create(HOST, Rights::READ | Rights::WRITE, Value::Sum(0))?;
    store.grant(HOST, GUEST, sum, Rights::WRITE)?;
    for number in 3..=COMMANDS {
        add(&mut store, sum, number)?;
        if number % EVERY == 0 {
            hand_over(&mut store, &mut auditor)?;
        }
        if number == EVERY {
            (store, auditor) = gone_on(store, auditor)?;
        }
    }
    Ok(hand_over(&mut store, &mut auditor)?)
}
