//! A host whose process ends. It keeps each entry before it hands on the reply, and another process goes on from the entries that
//! were kept. Here both are one program, and the entries are kept in memory. `entries.rs` writes them as text.
use kovshenul::{Deed, Edge, Entry, Error, Limits, Rights, Stopped, Store, Value};

const HOST: u64 = 0;
const GUEST: u64 = 1;
const CELLS: [Value; 2] = [Value::Cell(0), Value::Cell(0)];
const EDGES: [Edge; 1] = [Edge {
    from: HOST,
    to: GUEST,
    rights: Rights::GRANT,
}];

/// The last entry of the store.
fn last(store: &Store) -> Result<Entry, Error> {
    store.entry(store.entries()? - 1)
}

/// The guest adds to a sum of the host, and may not read it.
fn first_process(kept: &mut Vec<Entry>) -> Result<u64, Error> {
    let mut store = Store::open(&CELLS, &EDGES, &Limits::default())?;
    let name = store.create(HOST, Rights::READ | Rights::WRITE, Value::Sum(40))?;
    kept.push(last(&store)?);
    store.grant(HOST, GUEST, name, Rights::WRITE)?;
    kept.push(last(&store)?);
    store.write(GUEST, name, 2)?;
    kept.push(last(&store)?);
    if let Err(Error::Denied(_)) = store.read(GUEST, name) {
        kept.push(last(&store)?);
    }
    Ok(name)
}

fn resumed(kept: &[Entry]) -> Result<Store, Stopped> {
    Store::resume(&CELLS, &EDGES, &Limits::default(), kept)
}

/// All names, rights and values are there.
fn second_process(kept: &[Entry], name: u64) -> Result<(), Box<dyn std::error::Error>> {
    let mut store = resumed(kept)?;
    println!("went on from {} entries", store.entries()?);
    for _ in 0..2 {
        println!("the sum is {}", store.read(HOST, name)?[0]);
        store.write(GUEST, name, 1)?;
    }
    Ok(())
}

fn main() -> Result<(), Box<dyn std::error::Error>> {
    let mut kept = Vec::new();
    let name = first_process(&mut kept)?;
    second_process(&kept, name)?;
    kept[2].deed = Deed::Write { target: HOST, value: 2 };
    if let Err(stopped) = resumed(&kept) {
        println!("{stopped}");
    }
    Ok(())
}
