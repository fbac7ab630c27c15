//! The first lines of a program over the store.
use kovshenul::{Edge, Error, Limits, Rights, Store, Value};

fn main() -> Result<(), Error> {
    let edges = [Edge {
        from: 0,
        to: 1,
        rights: Rights::GRANT,
    }];
    let limits = Limits {
        max_vertices: 10,
        max_blocks: 8,
        max_space_blocks: 4,
    };
    let mut store = Store::open(&[Value::Cell(0), Value::Cell(0)], &edges, &limits)?;
    let document = store.create(0, Rights::READ | Rights::WRITE, Value::Sum(40))?;
    store.grant(0, 1, document, Rights::READ)?;
    println!("{:?}", store.read(1, document)?);
    match store.write(1, document, 2) {
        Err(Error::Denied(denial)) => println!("{denial}"),
        other => other?,
    }
    Ok(())
}
