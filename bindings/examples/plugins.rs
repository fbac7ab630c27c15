//! A host of plug-ins. Each plug-in is a worker that the host spawns and grants rights to. It has no other rights, so all else is
//! denied. When it is unloaded it leaves, with all that it held, and nothing is answered to its name any more.
//!
//! Before the host hands a right on, it asks whether a document that it guards would stay out of reach. The question covers
//! whatever the plug-ins do together while the host does nothing.
use kovshenul::{Chance, Edge, Error, Kind, Limits, Rights, Store, Value};

const HOST: u64 = 0;

/// A kind of plug-in: its name, what the host lets it do with the document, and what it does.
struct Plugin {
    name: &'static str,
    may: Rights,
    run: fn(&mut Store, u64, u64) -> Result<String, Error>,
}

/// A plug-in that was loaded, and the name of its worker.
struct Loaded<'a> {
    plugin: &'a Plugin,
    worker: u64,
}

/// The rights that the host has over a plug-in's worker.
fn over_plugins() -> Rights {
    Rights::GRANT | Rights::INSPECT
}

/// Reads the document.
fn preview(store: &mut Store, worker: u64, document: u64) -> Result<String, Error> {
    Ok(format!("shows {:?}", store.read(worker, document)?))
}

/// Writes to the document, which adds up.
fn edit(store: &mut Store, worker: u64, document: u64) -> Result<String, Error> {
    store.write(worker, document, 2)?;
    Ok("added 2".to_string())
}

/// Reads, and then writes what it has no right to.
fn meddle(store: &mut Store, worker: u64, document: u64) -> Result<String, Error> {
    let seen = store.read(worker, document)?;
    store.write(worker, document, 1000)?;
    Ok(format!("saw {seen:?} and overwrote it"))
}

/// Which worker, but for the host, could ever come to read the guarded document if this edge were there.
fn who_could(store: &Store, supposed: Edge, guarded: u64) -> Result<Option<u64>, Error> {
    let view = store.view(&[HOST], &[supposed])?;
    for worker in store.subjects()? {
        if worker != HOST && view.could(worker, Rights::READ, guarded)? != Chance::Never {
            return Ok(Some(worker));
        }
    }
    Ok(None)
}

/// Hands rights on, unless the guarded document came within reach by it.
fn hand_on(store: &mut Store, worker: u64, target: u64, rights: Rights, guarded: u64) -> Result<(), Error> {
    let supposed = Edge { from: worker, to: target, rights };
    match who_could(store, supposed, guarded)? {
        Some(reader) => println!("host: no {rights} over {target} for {worker}: {reader} could come to read {guarded}"),
        None => {
            store.grant(HOST, worker, target, rights)?;
            println!("host: {rights} over {target} for {worker}");
        }
    }
    Ok(())
}

/// Spawns a worker for the plug-in, and grants to it what it may do.
fn load<'a>(store: &mut Store, plugin: &'a Plugin, document: u64) -> Result<Loaded<'a>, Error> {
    let worker = store.spawn(HOST, over_plugins(), Value::Cell(0))?;
    store.grant(HOST, worker, document, plugin.may)?;
    println!("{}: worker {worker}, may {}", plugin.name, plugin.may);
    Ok(Loaded { plugin, worker })
}

/// Runs a plug-in, and says what came of it. A call that isn't served ends the plug-in's work, and the host goes on.
fn run(store: &mut Store, loaded: &Loaded<'_>, document: u64) -> Result<(), Error> {
    let name = loaded.plugin.name;
    match (loaded.plugin.run)(store, loaded.worker, document) {
        Ok(told) => println!("{name}: {told}"),
        Err(Error::Denied(denial)) => println!("{name}: denied, {denial}"),
        Err(Error::NoSuchWorker) => println!("{name}: refused, {}", Error::NoSuchWorker),
        Err(error) => return Err(error),
    }
    Ok(())
}

/// Has the plug-in's worker leave, whether it would or not. It gives up all it has, and retires. Then the host gives up what it has
/// over the worker, which goes with the next full collection.
fn unload(store: &mut Store, loaded: &Loaded<'_>) -> Result<(), Error> {
    store.leave(loaded.worker)?;
    store.remove(HOST, loaded.worker, over_plugins())?;
    println!("{}: unloaded, workers {:?} are left", loaded.plugin.name, store.subjects()?);
    Ok(())
}

fn main() -> Result<(), Error> {
    let limits = Limits {
        max_vertices: 1000,
        max_blocks: 64,
        max_space_blocks: 64,
    };
    let plugins = [
        Plugin { name: "preview", may: Rights::READ, run: preview },
        Plugin { name: "editor", may: Rights::READ | Rights::WRITE, run: edit },
        Plugin { name: "meddler", may: Rights::READ, run: meddle },
    ];
    let mut store = Store::open(&[Value::Cell(0)], &[], &limits)?;
    let document = store.create(HOST, Rights::READ | Rights::WRITE, Value::Sum(40))?;
    let loading = plugins.iter().map(|plugin| load(&mut store, plugin, document));
    let loaded = loading.collect::<Result<Vec<Loaded<'_>>, Error>>()?;
    // The guarded document is in a folder: who may take from the folder could read it.
    let folder = store.create(HOST, over_plugins() | Rights::READ | Rights::TAKE, Value::Cell(0))?;
    let guarded = store.create(HOST, Rights::READ, Value::Cell(7))?;
    store.grant(HOST, folder, guarded, Rights::READ)?;
    hand_on(&mut store, loaded[0].worker, folder, Rights::READ, guarded)?;
    hand_on(&mut store, loaded[0].worker, folder, Rights::TAKE, guarded)?;
    for plugin in &loaded {
        run(&mut store, plugin, document)?;
    }
    unload(&mut store, &loaded[1])?;
    for plugin in &loaded {
        run(&mut store, plugin, document)?;
    }
    println!("collection: {} vertices are left", store.collect(Kind::Full)?);
    println!("audit ok, {} entries", store.audit()?);
    Ok(())
}
