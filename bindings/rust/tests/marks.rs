//! Marks of the host on its vertices, which are names for people, and whom the host trusts. No reply
//! depends on a mark.
use kovshenul::{Could, Edge, Error, Limits, Reply, Rights, Silent, Store, Value};

fn opened() -> Store {
    let edges = [Edge { from: 0, to: 1, rights: Rights::GRANT | Rights::TAKE }];
    let limits = Limits { max_vertices: 4, max_blocks: 64, max_space_blocks: 64 };
    Store::open(&[Value::Cell(0), Value::Cell(0)], &edges, &limits).unwrap()
}

// A command of each kind, served or denied.
fn play(store: &mut Store) -> Vec<Result<(), Error>> {
    let sum = store.create(0, Rights::READ | Rights::WRITE | Rights::GRANT, Value::Sum(5)).unwrap();
    let log = store.spawn(0, Rights::READ | Rights::APPEND | Rights::INSPECT, Value::Log(2)).unwrap();
    vec![
        store.grant(0, 1, sum, Rights::WRITE),
        store.write(1, sum, 7),
        store.append(0, log, 1),
        store.read(0, sum).map(drop),
        store.list(0).map(drop),
        store.inspect(0, log).map(drop),
        store.read(1, sum).map(drop),
        store.write(1, 1, 1),
        store.append(1, sum, 1),
        store.take(0, 1, sum, Rights::WRITE),
        store.remove(0, sum, Rights::READ),
        store.retire(log),
        store.create(0, Rights::READ, Value::Sum(5)).map(drop),
    ]
}

fn texts(store: &Store) -> Vec<String> {
    store.journal().map(|entry| store.named(&entry).to_string()).collect()
}

const PLAIN: [&str; 15] = [
    "0 create rwg s5 = ok 2",
    "0 spawn ral l2 = ok 3",
    "0 grant 1 2 w = ok",
    "1 write 2 7 = ok",
    "0 append 3 1 = ok",
    "0 read 2 = ok 12",
    "0 list = ok 1:tg 2:rwg 3:ral",
    "0 inspect 3 = ok",
    "1 read 2 = denied read 1->2 r",
    "1 write 1 1 = denied write distinct",
    "1 append 2 1 = denied append 1->2 a",
    "0 take 1 2 w = ok",
    "0 remove 2 r = ok",
    "3 retire = ok",
    "0 create r s5 = refused vertices",
];

#[test]
fn names_change_no_reply() {
    let (mut store, mut other) = (opened(), opened());
    for vertex in [0, 1, 2, 3, 99, u64::MAX] {
        other.set_name(vertex, "x");
    }
    assert_eq!(play(&mut store), play(&mut other));
    assert_eq!(store.journal().collect::<Vec<_>>(), other.journal().collect::<Vec<_>>());
    assert_eq!(store.census(), other.census());
}

#[test]
fn texts_have_names() {
    let mut store = opened();
    let replies = play(&mut store);
    assert_eq!(texts(&store), PLAIN);
    store.set_name(0, "host");
    store.set_name(1, "plugin");
    store.set_name(2, "the\nreport");
    let named = texts(&store);
    assert_eq!(named[2], "host (0) grant plugin (1) the?report (2) w = ok");
    assert_eq!(named[6], "host (0) list = ok plugin (1):tg the?report (2):rwg 3:ral");
    assert_eq!(named[8], "plugin (1) read the?report (2) = denied read plugin (1)->the?report (2) r");
    assert_eq!(named[9], "plugin (1) write plugin (1) 1 = denied write distinct");
    let denied = replies[6].unwrap_err();
    assert_eq!(store.named(&denied).to_string(), "denied, read: r is missing on plugin (1)->the?report (2)");
    assert_eq!(denied.to_string(), "denied, read: r is missing on 1->2");
    let distinct = replies[7].unwrap_err();
    assert_eq!(store.named(&distinct).to_string(), distinct.to_string());
    assert_eq!(store.named(&Error::BadLaw).to_string(), Error::BadLaw.to_string());
    assert_eq!(store.named(&Reply::Name(2)).to_string(), "ok the?report (2)");
    // A name of no vertex, a name that is taken away, and a number without a name.
    store.set_name(99, "nobody");
    store.set_name(1, "");
    let shown = [1, 3, 99].map(|vertex| store.named(&vertex).to_string());
    assert_eq!(shown, ["1", "3", "nobody (99)"]);
}

#[test]
fn turns_have_names() {
    let mut store = opened();
    let document = store.create(0, Rights::READ, Value::Cell(7)).unwrap();
    store.set_name(1, "plugin");
    let could = store.could(1, Rights::READ, document, &[], &[]).unwrap();
    let texts = |store: &Store| could.turns().map(|turn| store.named(turn).to_string()).collect::<Vec<_>>();
    let named = texts(&store);
    assert!(named.iter().any(|text| text.contains("plugin (1)")));
    store.set_name(1, "");
    let without: Vec<String> = named.iter().map(|text| text.replace("plugin (1)", "1")).collect();
    assert_eq!(without, texts(&store));
}

#[test]
fn the_trusted_are_silent() {
    let mut store = Store::open(&[Value::Cell(0); 2], &[], &Limits::default()).unwrap();
    store.trust(0).unwrap();
    let document = store.create(0, Rights::READ, Value::Cell(7)).unwrap();
    let plugin = store.spawn(0, Rights::GRANT, Value::Cell(0)).unwrap();
    let helper = store.spawn(0, Rights::GRANT | Rights::TAKE, Value::Cell(0)).unwrap();
    store.grant(0, helper, plugin, Rights::GRANT).unwrap();
    store.grant(0, helper, document, Rights::READ).unwrap();
    let entries = store.entries();
    let ask = |store: &Store, silent: Silent<'_>| store.could(plugin, Rights::READ, document, silent, &[]).unwrap();
    assert_ne!(ask(&store, Silent::Trusted), Could::Never);
    store.trust(helper).unwrap();
    assert_eq!(store.trusted(), Ok(vec![0, helper]));
    assert_eq!(ask(&store, Silent::Trusted), Could::Never);
    assert_eq!(ask(&store, Silent::Only(&[0, helper])), Could::Never);
    assert_ne!(ask(&store, Silent::Only(&[0])), Could::Never);
    assert_ne!(ask(&store, Silent::Only(&[])), Could::Never);
    let view = store.view(Silent::Trusted, &[]).unwrap();
    assert_eq!(view.could(plugin, Rights::READ, document), Ok(kovshenul::Chance::Never));
    assert_eq!(store.entries(), entries);
    // A mark ends with its worker, and nobody else is marked.
    store.leave(helper).unwrap();
    assert_eq!(store.trusted(), Ok(vec![0]));
    assert_eq!(ask(&store, Silent::Trusted), Could::Never);
    for nobody in [document, helper, 99] {
        assert_eq!(store.trust(nobody), Err(Error::NoSuchWorker));
    }
    assert_eq!(store.trusted(), Ok(vec![0]));
}
