//! A host that writes its journal out as tgaudit reads it. The text has the opening, a line for each entry, and how
//! many these are.
use kovshenul::{end_text, opening_text, Edge, Error, Limits, Rights, Store, Value};

const HOST: u64 = 0;
const GUEST: u64 = 1;

/// A command of each kind, served or denied.
fn work(store: &mut Store) -> Result<(), Error> {
    let total = store.create(HOST, Rights::READ | Rights::WRITE | Rights::GRANT, Value::Sum(5))?;
    let log = store.spawn(HOST, Rights::READ | Rights::APPEND | Rights::INSPECT, Value::Log(2))?;
    store.grant(HOST, GUEST, total, Rights::WRITE)?;
    store.write(GUEST, total, 7)?;
    for number in 0..3 {
        store.append(HOST, log, number)?;
    }
    store.read(HOST, total)?;
    store.read(HOST, log)?;
    store.list(HOST)?;
    store.inspect(HOST, log)?;
    store.read(GUEST, total).unwrap_err();
    store.write(GUEST, GUEST, 1).unwrap_err();
    store.take(HOST, GUEST, total, Rights::READ).unwrap_err();
    store.take(HOST, GUEST, total, Rights::WRITE)?;
    store.remove(HOST, total, Rights::READ)?;
    store.retire(log)
}

fn main() -> Result<(), Error> {
    let values = [Value::Cell(0), Value::Max(3)];
    let edges = [Edge { from: HOST, to: GUEST, rights: Rights::TAKE | Rights::GRANT }];
    let limits = Limits::default();
    let mut store = Store::open(&values, &edges, &limits)?;
    work(&mut store)?;
    println!("{}", opening_text(&values, &edges, &limits)?);
    store.journal().for_each(|entry| println!("{entry}"));
    println!("{}", end_text(store.entries()?)?);
    Ok(())
}
