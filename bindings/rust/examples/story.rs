//! The caretaker's story of `story.c`, over the safe wrapper.
use kovshenul::{Denial, Edge, Error, Kind, Limits, Rights, Store, Value};

const CARETAKER: u64 = 0;

const VISITOR: u64 = 1;

fn main() -> Result<(), Error> {
    let edges = [Edge {
        from: CARETAKER,
        to: VISITOR,
        rights: Rights::GRANT,
    }];
    let limits = Limits {
        max_vertices: 10,
        max_blocks: 8,
        max_space_blocks: 4,
    };
    let mut store = Store::open(&[Value::Cell(0), Value::Cell(0)], &edges, &limits)?;
    let document = hand_on(&mut store)?;
    ask(&store, document)?;
    visit(&mut store, document)?;
    take_back(&mut store, document)?;
    println!("audit ok, {} entries", store.audit()?);
    Ok(())
}

// Prints how a command ended. A denial is printed, and any other refusal stops the story.
fn tell(what: &str, answer: Result<(), Error>) -> Result<(), Error> {
    match answer {
        Ok(()) => println!("{what}: ok"),
        Err(Error::Denied(denial)) => println!("{what}: denied, {}", why(&denial)),
        Err(error) => return Err(error),
    }
    Ok(())
}

// The reason without the rule, because each line names its command already.
fn why(denial: &Denial) -> String {
    match denial {
        Denial::Missing { from, to, rights, .. } => format!("{rights} is missing on {from}->{to}"),
        other => other.to_string(),
    }
}

fn visitor_reads(store: &mut Store, document: u64) -> Result<(), Error> {
    match store.read(VISITOR, document) {
        Ok(numbers) => println!("visitor reads: ok, {numbers:?}"),
        Err(Error::Denied(denial)) => println!("visitor reads: denied, {}", why(&denial)),
        Err(error) => return Err(error),
    }
    Ok(())
}

fn collect(store: &mut Store) -> Result<(), Error> {
    let left = store.collect(Kind::Full)?;
    println!("full collection: {left} vertices are left");
    Ok(())
}

fn hand_on(store: &mut Store) -> Result<u64, Error> {
    let document = store.create(CARETAKER, Rights::READ | Rights::WRITE, Value::Sum(40))?;
    println!("caretaker makes a document: ok, its name is {document}");
    let granted = store.grant(CARETAKER, VISITOR, document, Rights::READ);
    tell("caretaker hands r on", granted)?;
    Ok(document)
}

// What is held over the document, and what there is, is asked without an entry, and nothing is printed of it.
fn ask(store: &Store, document: u64) -> Result<(), Error> {
    assert_eq!(store.label(VISITOR, document)?, Rights::READ);
    assert!(store.label(CARETAKER, document)?.contains(Rights::WRITE));
    assert_eq!(store.label(VISITOR, CARETAKER)?, Rights::NONE);
    assert_eq!(store.label(document, CARETAKER), Err(Error::NoSuchWorker));
    let mut names = store.names()?;
    names.sort();
    assert_eq!(names, [CARETAKER, VISITOR, document]);
    Ok(())
}

fn visit(store: &mut Store, document: u64) -> Result<(), Error> {
    visitor_reads(store, document)?;
    collect(store)?;
    visitor_reads(store, document)?;
    tell("caretaker writes 2", store.write(CARETAKER, document, 2))?;
    visitor_reads(store, document)?;
    tell("visitor writes 2", store.write(VISITOR, document, 2))
}

fn take_back(store: &mut Store, document: u64) -> Result<(), Error> {
    tell("visitor gives r back", store.remove(VISITOR, document, Rights::READ))?;
    collect(store)?;
    visitor_reads(store, document)?;
    let given_up = store.remove(CARETAKER, document, Rights::READ | Rights::WRITE);
    tell("caretaker gives up rw", given_up)?;
    let granted = store.grant(CARETAKER, VISITOR, document, Rights::READ);
    tell("caretaker hands r on", granted)?;
    collect(store)?;
    visitor_reads(store, document)
}
