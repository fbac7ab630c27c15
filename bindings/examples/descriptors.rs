//! A table of processes. A parent forks a child, and hands descriptors on to it. A file is closed once nobody reaches it.
use kovshenul::{Auditor, Error, Kind, Limits, Rights, Store, Value};
use std::collections::BTreeMap;

const INIT: u64 = 0;

struct Table {
    store: Store,
    auditor: Auditor,
    files: BTreeMap<u64, &'static str>,
}

impl Table {
    fn new() -> Result<Table, Error> {
        let (values, limits) = ([Value::Cell(0)], Limits::default());
        let (store, auditor) = (Store::open(&values, &[], &limits)?, Auditor::open(&values, &[], &limits)?);
        Ok(Table { store, auditor, files: BTreeMap::new() })
    }

    fn fork(&mut self, parent: u64) -> Result<u64, Error> {
        self.store.spawn(parent, Rights::GRANT | Rights::TAKE, Value::Cell(0))
    }

    fn open(&mut self, process: u64, path: &'static str, rights: Rights) -> Result<u64, Error> {
        let file = self.store.create(process, rights, Value::Sum(0))?;
        self.files.insert(file, path);
        Ok(file)
    }

    /// Ends a process, closes the files that nobody reaches, and gives up the entries that were audited.
    fn exit(&mut self, process: u64) -> Result<(), Error> {
        self.store.leave(process)?;
        for edge in self.store.edges_to(process)? {
            self.store.remove(edge.from, process, edge.rights)?;
        }
        let left = self.store.collect(Kind::Full)?;
        let names = self.store.names()?;
        self.files.retain(|file, _| names.contains(file));
        let audited = self.auditor.feed(&self.store)?;
        self.auditor.forget(&mut self.store, audited)?;
        println!("{left} vertices, {audited} entries audited, open are {:?}", self.files.values());
        Ok(())
    }
}

fn main() -> Result<(), Error> {
    let mut table = Table::new()?;
    let shell = table.fork(INIT)?;
    let log = table.open(shell, "/var/log", Rights::READ | Rights::WRITE)?;
    let child = table.fork(shell)?;
    table.store.grant(shell, child, log, Rights::READ)?;
    println!("the child reads {:?}", table.store.read(child, log)?);
    println!("the child writes: {}", table.store.write(child, log, 1).unwrap_err());
    let scratch = table.open(child, "/tmp/x", Rights::all())?;
    table.store.take(shell, child, scratch, Rights::READ)?;
    println!("never writes: {}", table.store.could(child, Rights::WRITE, log, &[INIT], &[])?.is_never());
    println!("never writes by itself: {}", table.store.could(child, Rights::WRITE, log, &[INIT, shell], &[])?.is_never());
    table.exit(child)?;
    table.exit(shell)
}
