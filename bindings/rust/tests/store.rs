//! What users of Rust expect of the crate beside its answers.
use kovshenul::{Deed, Denial, Edge, Entry, Error, Hand, Kind, Law, Limits, NoRights, Parking, Reply, Rights, Rule, Store, Target, Value};
use std::collections::HashSet;
use std::sync::mpsc;
use std::sync::Mutex;
use std::thread;

const LIMITS: Limits = Limits {
    max_vertices: 1000,
    max_blocks: 64,
    max_space_blocks: 64,
};

fn opened(workers: usize) -> Store {
    Store::open(&vec![Value::Cell(0); workers], &[], &LIMITS).unwrap()
}

// A store of two workers, one of which has the rights over the other.
fn opened_with(from: u64, to: u64, rights: Rights) -> Store {
    Store::open(&[Value::Cell(0), Value::Cell(0)], &[Edge { from, to, rights }], &LIMITS).unwrap()
}

fn missing<T>(rule: Rule, from: u64, to: u64, rights: Rights) -> Result<T, Error> {
    Err(Error::Denied(Denial::Missing { rule, from, to, rights }))
}

#[test]
fn rights_are_a_set() {
    let rights = Rights::READ | Rights::GRANT;
    assert!(rights.contains(Rights::READ) && !rights.contains(Rights::READ | Rights::TAKE));
    assert_eq!((rights & Rights::READ, rights - Rights::READ), (Rights::READ, Rights::GRANT));
    assert_eq!((rights.to_string().as_str(), rights.bits()), ("rg", 9));
    assert_eq!("gr".parse(), Ok(rights));
    assert_eq!("rx".parse::<Rights>(), Err(NoRights('x')));
    assert_eq!(rights.iter().collect::<Rights>(), rights);
    assert_eq!((Rights::from_bits(9), Rights::from_bits(256)), (Some(rights), None));
    assert_eq!(HashSet::from([rights, rights, Rights::NONE]).len(), 2);
    assert!(Rights::NONE.is_empty() && !rights.is_empty());
    let mut changed = rights;
    changed |= Rights::TAKE | Rights::WRITE;
    changed -= Rights::READ;
    changed &= !Rights::WRITE;
    assert_eq!((changed, !changed), ("tg".parse().unwrap(), "rwaluv".parse().unwrap()));
    assert_eq!(format!("{changed:?} {changed:>4} {:?}", Rights::NONE), "Rights(tg)   tg Rights()");
    assert_eq!((!Rights::NONE, !Rights::all()), (Rights::all(), Rights::NONE));
}

#[test]
fn each_byte_is_a_set_of_rights() {
    let letters = Rights::all().to_string();
    assert_eq!(letters, "rwtgaluv");
    for (bit, letter) in letters.chars().enumerate() {
        assert_eq!(letter.to_string().parse().map(Rights::bits), Ok(1 << bit));
    }
    for bits in 0..256 {
        let rights = Rights::from_bits(bits).unwrap();
        assert_eq!(rights.to_string().parse(), Ok(rights));
        assert_eq!(rights.iter().count(), bits.count_ones() as usize);
    }
    assert_eq!(Rights::from_bits(u64::MAX), None);
}

#[test]
fn errors_are_sentences() {
    let mut store = opened(1);
    assert!(store.read(7, 0).unwrap_err().to_string().starts_with("no such worker: "));
    let error = store.create(0, Rights::NONE, Value::Cell(0)).unwrap_err();
    assert_eq!((error, error.status()), (Error::BadRights, 64));
    assert!(error.to_string().starts_with("bad rights: none, "));
    let name = store.create(0, Rights::READ, Value::Cell(0)).unwrap();
    let missing = Denial::Missing {
        rule: Rule::Write,
        from: 0,
        to: name,
        rights: Rights::WRITE,
    };
    let error = store.write(0, name, 1).unwrap_err();
    assert_eq!(error, Error::Denied(missing));
    assert_eq!(error.to_string(), "denied, write: w is missing on 0->1");
    assert_eq!(store.create(0, Rights::READ, Value::Log(65)), Err(Error::BadLaw));
    assert_eq!(store.audit(), store.entries());
}

#[test]
fn each_denial_names_its_rule() {
    let mut store = opened(3);
    let rule_of = |answer| match answer {
        Err(Error::Denied(denial @ Denial::NotDistinct { .. })) => {
            let text = format!("{}: two vertices that must differ are one", denial.rule());
            assert_eq!(denial.to_string(), text);
            Some(denial.rule())
        }
        _ => None,
    };
    assert_eq!(rule_of(store.take(0, 1, 1, Rights::READ)), Some(Rule::Take));
    assert_eq!(rule_of(store.grant(0, 1, 1, Rights::READ)), Some(Rule::Grant));
    assert_eq!(rule_of(store.remove(0, 0, Rights::READ)), Some(Rule::Remove));
    assert_eq!(rule_of(store.read(0, 0).map(drop)), Some(Rule::Read));
    assert_eq!(rule_of(store.write(0, 0, 1)), Some(Rule::Write));
    assert_eq!(rule_of(store.append(0, 0, 1)), Some(Rule::Append));
    assert_eq!(rule_of(store.inspect(0, 0).map(drop)), Some(Rule::Inspect));
}

#[test]
fn logs_are_added_to_and_edges_shown() {
    let mut store = opened_with(0, 1, Rights::INSPECT);
    let (rwa, ra) = ("rwa".parse().unwrap(), "ra".parse().unwrap());
    assert_eq!(store.create(1, rwa, Value::Cell(0)), Ok(2));
    assert_eq!(store.inspect(0, 1), Ok(vec![Target { to: 2, rights: rwa }]));
    assert_eq!(store.inspect(1, 0), missing(Rule::Inspect, 1, 0, Rights::INSPECT));
    let denied = store.append(1, 2, 5).unwrap_err();
    assert_eq!(denied, Error::Denied(Denial::NotLog { rule: Rule::Append }));
    assert_eq!(denied.to_string(), "denied, append: the target stores no log");
    assert_eq!(store.create(1, ra, Value::Log(4)), Ok(3));
    assert_eq!(store.append(1, 3, 5), Ok(()));
    assert_eq!(store.read(1, 3), Ok(vec![5]));
    assert_eq!(store.write(1, 3, 6), missing(Rule::Write, 1, 3, Rights::WRITE));
    assert_eq!((store.entries(), store.audit()), (Ok(8), Ok(8)));
}

#[test]
fn the_law_is_looked_at_last() {
    let mut store = opened(2);
    let denied = missing(Rule::Append, 0, 7, Rights::APPEND);
    assert_eq!(store.append(0, 7, 5), denied);
    let log = store.create(0, Rights::WRITE, Value::Log(2)).unwrap();
    assert_eq!(store.append(0, log, 5), missing(Rule::Append, 0, log, Rights::APPEND));
    assert_eq!(store.append(7, log, 5), Err(Error::NoSuchWorker));
    assert_eq!(store.inspect(0, 7), missing(Rule::Inspect, 0, 7, Rights::INSPECT));
    assert_eq!(store.inspect(7, 0), Err(Error::NoSuchWorker));
}

#[test]
fn rights_without_a_command_are_handed_on() {
    let mut store = opened_with(0, 1, Rights::GRANT);
    let free = Rights::FREE_U | Rights::FREE_V;
    let name = store.create(0, free, Value::Cell(0)).unwrap();
    store.grant(0, 1, name, Rights::FREE_V).unwrap();
    assert_eq!((store.label(0, name), store.label(1, name)), (Ok(free), Ok(Rights::FREE_V)));
    store.remove(1, name, Rights::FREE_V).unwrap();
    let denied = missing(Rule::Grant, 0, name, Rights::all() - free);
    assert_eq!(store.grant(0, 1, name, Rights::all()), denied);
}

#[test]
fn who_leaves_holds_nothing() {
    let mut store = opened(1);
    let client = store.spawn(0, Rights::TAKE, Value::Cell(0)).unwrap();
    let documents: Vec<u64> = (0..3).map(|_| store.create(client, Rights::READ, Value::Cell(0)).unwrap()).collect();
    store.take(0, client, documents[1], Rights::READ).unwrap();
    assert_eq!(store.who_holds(Rights::READ, documents[1]), Ok(vec![0, client]));
    assert_eq!(store.who_holds(Rights::READ | Rights::TAKE, client), Err(Error::BadRights));
    assert_eq!(store.leave(client), Ok(3));
    assert_eq!(store.leave(client), Err(Error::NoSuchWorker));
    assert_eq!((store.who_holds(Rights::READ, documents[1]), store.who_holds(Rights::READ, documents[0])), (Ok(vec![0]), Ok(vec![])));
    assert_eq!(store.collect(Kind::Full), Ok(3));
    assert_eq!(store.entries(), store.audit());
}

#[test]
fn rights_are_handed_on() {
    let mut store = opened(1);
    let owner = store.spawn(0, Rights::TAKE, Value::Cell(0)).unwrap();
    let reader = store.spawn(0, Rights::GRANT, Value::Cell(0)).unwrap();
    let document = store.create(owner, Rights::READ | Rights::WRITE, Value::Cell(0)).unwrap();
    let (from, to, target) = (owner, reader, document);
    let hand = Hand { via: 0, from, to, target, rights: Rights::READ };
    assert_eq!(store.hand(&hand), Ok(Rights::READ));
    let asked = |deed| (0, deed, Reply::Done);
    let rights = Rights::READ;
    let take = asked(Deed::Take { via: owner, target, rights });
    let grant = asked(Deed::Grant { via: reader, target, rights });
    let told: Vec<_> = store.journal().skip(3).map(|entry| (entry.worker, entry.deed, entry.reply)).collect();
    assert_eq!(told, [take, grant, asked(Deed::Remove { target, rights })]);
    assert_eq!(store.label(reader, document), Ok(Rights::READ));
    assert_eq!(store.label(0, document), Ok(Rights::NONE));
    store.take(0, owner, document, Rights::READ).unwrap();
    assert_eq!(store.hand(&hand), Ok(Rights::NONE));
    assert_eq!(store.hand(&Hand { rights: Rights::READ | Rights::WRITE, ..hand }), Ok(Rights::WRITE));
    let not_distinct = |rule| Err(Error::Denied(Denial::NotDistinct { rule }));
    assert_eq!(store.hand(&Hand { from: 0, ..hand }), not_distinct(Rule::Take));
    assert_eq!(store.hand(&Hand { from: reader, ..hand }), missing(Rule::Take, 0, reader, Rights::TAKE));
    assert_eq!(store.hand(&Hand { rights: Rights::GRANT, ..hand }), missing(Rule::Take, owner, document, Rights::GRANT));
    assert_eq!(store.hand(&Hand { to: 0, ..hand }), not_distinct(Rule::Grant));
    assert_eq!(store.hand(&Hand { to: owner, ..hand }), missing(Rule::Grant, 0, owner, Rights::GRANT));
    assert_eq!(store.entries(), Ok(17));
    assert_eq!(store.hand(&Hand { via: document, ..hand }), Err(Error::NoSuchWorker));
    assert_eq!(store.hand(&Hand { rights: Rights::NONE, ..hand }), Err(Error::BadRights));
    assert_eq!(store.audit(), Ok(17));
}

#[test]
fn rights_are_withdrawn() {
    let mut store = opened(1);
    let both = Rights::READ | Rights::WRITE;
    let document = store.create(0, both, Value::Cell(0)).unwrap();
    let readers: Vec<u64> = (0..3).map(|_| store.spawn(0, Rights::GRANT | Rights::TAKE, Value::Cell(0)).unwrap()).collect();
    for reader in &readers {
        store.grant(0, *reader, document, both).unwrap();
    }
    store.retire(readers[2]).unwrap();
    let before = store.entries().unwrap();
    assert_eq!(store.withdraw(document, Rights::READ, &[0, 99]), Ok(vec![0, readers[2]]));
    let told: Vec<_> = store.journal().skip(before as usize).map(|entry| (entry.worker, entry.deed, entry.reply)).collect();
    let remove = Deed::Remove { target: document, rights: Rights::READ };
    assert_eq!(told, [(readers[0], remove.clone(), Reply::Done), (readers[1], remove, Reply::Done)]);
    assert_eq!((store.label(0, document), store.label(readers[0], document)), (Ok(both), Ok(Rights::WRITE)));
    assert_eq!(store.withdraw(document, Rights::NONE, &[]), Err(Error::BadRights));
    assert_eq!((store.withdraw(999, both, &[]), store.withdraw(document, Rights::APPEND, &[])), (Ok(vec![]), Ok(vec![])));
    assert_eq!(store.withdraw(document, both, &[]), Ok(vec![readers[2]]));
    assert_eq!(store.entries(), store.audit());
}

#[test]
fn users_are_parked() {
    let mut store = opened(1);
    let user = store.spawn(0, Rights::GRANT, Value::Cell(0)).unwrap();
    let letters: Vec<u64> = (0..3).map(|_| store.create(user, Rights::READ | Rights::WRITE, Value::Cell(7)).unwrap()).collect();
    let account = store.create(0, Rights::TAKE | Rights::GRANT | Rights::INSPECT, Value::Cell(0)).unwrap();
    let parking = Parking { host: 0, user, account };
    let not_distinct = Err(Error::Denied(Denial::NotDistinct { rule: Rule::Grant }));
    assert_eq!((store.park(&Parking { user: 0, ..parking }), store.park(&Parking { account: user, ..parking })), (not_distinct, not_distinct));
    assert_eq!(store.park(&Parking { account: 999, ..parking }), missing(Rule::Grant, 0, 999, Rights::GRANT));
    assert_eq!(store.park(&Parking { host: user, user: 0, account }), missing(Rule::Grant, user, 0, Rights::GRANT));
    let before = store.entries().unwrap();
    assert_eq!(before, 9);
    assert_eq!(store.park(&Parking { user: account, ..parking }), Err(Error::NoSuchWorker));
    assert_eq!(store.park(&Parking { host: 999, ..parking }), Err(Error::NoSuchWorker));
    store.grant(0, user, account, Rights::INSPECT).unwrap();
    assert_eq!((store.park(&parking), store.entries()), (Err(Error::InUse), Ok(10)));
    store.remove(user, account, Rights::INSPECT).unwrap();
    assert_eq!((store.park(&parking), store.entries()), (Ok(3), Ok(20)));
    assert_eq!((store.park(&parking), store.subjects()), (Err(Error::NoSuchWorker), Ok(vec![0])));
    let held: Vec<_> = store.inspect(0, account).unwrap().iter().map(|target| (target.to, target.rights)).collect();
    assert_eq!(held, letters.iter().map(|letter| (*letter, Rights::READ | Rights::WRITE)).collect::<Vec<_>>());
    let grant = |entry: &Entry| matches!(entry.deed, Deed::Grant { via, .. } if via == account);
    assert_eq!(store.journal().filter(grant).count(), 3);
    assert_eq!(store.entries(), store.audit());
}

#[test]
fn users_are_unparked() {
    let mut store = opened(1);
    let parked = store.spawn(0, Rights::GRANT, Value::Cell(0)).unwrap();
    let letters: Vec<u64> = (0..3).map(|_| store.create(parked, Rights::READ | Rights::WRITE, Value::Cell(7)).unwrap()).collect();
    let account = store.create(0, Rights::TAKE | Rights::GRANT | Rights::INSPECT, Value::Cell(0)).unwrap();
    store.park(&Parking { host: 0, user: parked, account }).unwrap();
    let user = store.spawn(0, Rights::GRANT, Value::Cell(0)).unwrap();
    let unparking = Parking { host: 0, user, account };
    let not_distinct = Err(Error::Denied(Denial::NotDistinct { rule: Rule::Grant }));
    assert_eq!((store.unpark(&Parking { user: 0, ..unparking }), store.unpark(&Parking { account: user, ..unparking })), (not_distinct, not_distinct));
    assert_eq!(store.unpark(&Parking { account: 999, ..unparking }), missing(Rule::Grant, 0, 999, Rights::TAKE));
    assert_eq!(store.unpark(&Parking { host: user, user: 0, account }), missing(Rule::Grant, user, 0, Rights::GRANT));
    let before = store.entries().unwrap();
    assert_eq!(store.unpark(&Parking { user: parked, ..unparking }), Err(Error::NoSuchWorker));
    assert_eq!(store.unpark(&Parking { host: 999, ..unparking }), Err(Error::NoSuchWorker));
    store.grant(0, user, account, Rights::INSPECT).unwrap();
    assert_eq!((store.unpark(&unparking), store.entries()), (Err(Error::InUse), Ok(before + 1)));
    store.remove(user, account, Rights::INSPECT).unwrap();
    assert_eq!((store.unpark(&unparking), store.entries()), (Ok(3), Ok(before + 8)));
    let held: Vec<_> = store.list(user).unwrap().iter().map(|target| (target.to, target.rights)).collect();
    assert_eq!(held, letters.iter().map(|letter| (*letter, Rights::READ | Rights::WRITE)).collect::<Vec<_>>());
    assert_eq!((store.label(0, account), store.edges_to(account)), (Ok(Rights::NONE), Ok(vec![])));
    let again = store.spawn(0, Rights::GRANT, Value::Cell(0)).unwrap();
    assert_eq!(store.unpark(&Parking { user: again, ..unparking }), missing(Rule::Grant, 0, account, Rights::TAKE));
    assert_eq!(store.entries(), store.audit());
}

#[test]
fn laws_are_shown() {
    let mut store = opened_with(0, 1, Rights::GRANT);
    let laws = [(Value::Cell(1), Law::Cell), (Value::Sum(2), Law::Sum), (Value::Max(3), Law::Max), (Value::Log(64), Law::Log(64))];
    for (value, law) in laws {
        let name = store.create(0, Rights::WRITE | Rights::INSPECT, value).unwrap();
        assert_eq!((store.law(0, name), store.law(1, name), store.law_of(name)), (Ok(Some(law)), Ok(None), Ok(Some(law))));
        store.grant(0, 1, name, Rights::INSPECT).unwrap();
        assert_eq!(store.law(1, name), Ok(None));
        store.grant(0, 1, name, Rights::WRITE).unwrap();
        assert_eq!(store.law(1, name), Ok(Some(law)));
        store.withdraw(name, Rights::all(), &[]).unwrap();
        assert_eq!((store.law(0, name), store.law_of(name)), (Ok(None), Ok(None)));
    }
    assert_eq!((store.law(99, 0), store.law_of(99), store.law_of(u64::MAX)), (Err(Error::NoSuchWorker), Ok(None), Ok(None)));
    assert_eq!((store.law(0, 1), store.law_of(1)), (Ok(None), Ok(Some(Law::Cell))));
}

#[test]
fn all_who_hold_are_named() {
    let mut store = opened(1);
    let document = store.create(0, Rights::READ, Value::Cell(0)).unwrap();
    let mut holders = vec![0];
    for _ in 0..100 {
        assert_eq!(store.who_holds(Rights::READ, document), Ok(holders.clone()));
        let folder = store.create(0, Rights::GRANT, Value::Cell(0)).unwrap();
        store.grant(0, folder, document, Rights::READ).unwrap();
        holders.push(folder);
    }
}

#[test]
fn three_who_know_each_other_leave_empty_rows() {
    let mut store = opened(1);
    let know = Rights::TAKE | Rights::GRANT;
    let clients: Vec<u64> = (0..3).map(|_| store.spawn(0, know, Value::Cell(0)).unwrap()).collect();
    for (one, other) in [(0, 1), (0, 2), (1, 0), (1, 2), (2, 0), (2, 1)] {
        store.grant(0, clients[one], clients[other], know).unwrap();
    }
    let notes: Vec<u64> = clients.iter().map(|client| store.create(*client, Rights::READ, Value::Cell(7)).unwrap()).collect();
    for client in &clients {
        assert_eq!(store.leave(*client), Ok(3));
    }
    assert_eq!(store.collect(Kind::Full), Ok(4));
    let mut names = store.names().unwrap();
    names.sort();
    assert_eq!(names, [vec![0], clients.clone()].concat());
    assert_eq!((store.edges_to(notes[0]), store.edges_to(999)), (Ok(vec![]), Ok(vec![])));
    for (client, note) in clients.iter().zip(&notes) {
        assert_eq!(store.edges_to(*client), Ok(vec![Edge { from: 0, to: *client, rights: know }]));
        assert_eq!((store.who_holds(Rights::GRANT, *client), store.who_holds(Rights::READ, *note)), (Ok(vec![0]), Ok(vec![])));
    }
    assert_eq!(store.entries(), store.audit());
}

#[test]
fn a_retired_worker_asks_no_more() {
    let mut store = opened(1);
    let grant = Rights::GRANT | Rights::INSPECT;
    assert_eq!(store.spawn(0, Rights::NONE, Value::Cell(0)), Err(Error::BadRights));
    assert_eq!(store.spawn(0, grant, Value::Log(65)), Err(Error::BadLaw));
    assert_eq!(store.spawn(1, grant, Value::Cell(0)), Err(Error::NoSuchWorker));
    assert_eq!(store.spawn(0, grant, Value::Cell(0)), Ok(1));
    let own = store.create(1, Rights::READ, Value::Cell(7)).unwrap();
    assert_eq!((store.read(1, own), store.subjects()), (Ok(vec![7]), Ok(vec![0, 1])));
    assert_eq!(store.retire(1), Ok(()));
    assert_eq!((store.retire(1), store.read(1, own)), (Err(Error::NoSuchWorker), Err(Error::NoSuchWorker)));
    assert_eq!(store.inspect(0, 1).unwrap().len(), 1);
    assert_eq!((store.collect(Kind::Full), store.spawn(0, grant, Value::Cell(0))), (Ok(3), Ok(3)));
    assert_eq!(store.subjects(), Ok(vec![0, 3]));
    assert_eq!((store.remove(0, 1, grant), store.collect(Kind::Full)), (Ok(()), Ok(2)));
    assert_eq!(store.audit(), store.entries());
}

#[test]
fn a_worker_too_many_is_refused() {
    let mut store = opened(64);
    let error = store.spawn(0, Rights::GRANT, Value::Cell(0)).unwrap_err();
    assert_eq!((error, error.status()), (Error::WorkersFull, 35));
    assert_eq!(error.to_string(), "64 workers are active, and no more may be");
    assert_eq!((store.entries(), store.subjects().unwrap().len()), (Ok(1), 64));
    assert_eq!((store.retire(63), store.spawn(0, Rights::GRANT, Value::Cell(0))), (Ok(()), Ok(64)));
    assert_eq!(store.audit(), Ok(3));
}

#[test]
fn openings_are_looked_at() {
    let open = |workers: &[Value], edges: &[Edge], limits: Limits| Store::open(workers, edges, &limits).err();
    let edge = |to, rights| Edge { from: 0, to, rights };
    let two = [Value::Cell(0), Value::Log(3)];
    assert_eq!(open(&[], &[], LIMITS), Some(Error::BadWorkers));
    assert_eq!(open(&two, &[edge(2, Rights::READ)], LIMITS), Some(Error::BadEdge));
    assert_eq!(open(&two, &[edge(1, Rights::NONE)], LIMITS), Some(Error::BadRights));
    assert_eq!(open(&two, &[], Limits { max_blocks: 1, ..LIMITS }), Some(Error::HeapFull));
    assert_eq!(open(&two, &[], Limits { max_vertices: 1, ..LIMITS }), Some(Error::BadLimits));
    assert_eq!(open(&two, &[], Limits { max_blocks: 0, ..LIMITS }), Some(Error::BadLimits));
    assert_eq!(open(&two, &[], Limits { max_blocks: 1 << 20, ..LIMITS }), None);
    assert_eq!(open(&two, &[], Limits { max_blocks: (1 << 20) + 1, ..LIMITS }), Some(Error::BadLimits));
}

#[test]
fn a_long_row_is_listed() {
    let mut store = opened(1);
    let made = (0..200).map(|_| store.create(0, Rights::READ, Value::Cell(0)));
    let names = made.collect::<Result<Vec<u64>, Error>>().unwrap();
    let wanted = names.iter().map(|to| Target {
        to: *to,
        rights: Rights::READ,
    });
    assert_eq!(store.list(0).unwrap(), wanted.collect::<Vec<_>>());
    assert_eq!(store.entries(), Ok(201));
    assert_eq!(store.list(0).unwrap().len(), 200);
    assert_eq!(store.entries(), Ok(202));
    assert_eq!(store.collect(Kind::Full), Ok(201));
    assert_eq!(store.census().unwrap().vertices, 201);
}

#[test]
fn a_long_row_is_shown() {
    let mut store = opened_with(1, 0, Rights::INSPECT);
    let made = (0..200).map(|_| store.create(0, Rights::FREE_U, Value::Cell(0)));
    assert_eq!(made.filter(Result::is_ok).count(), 200);
    let shown = store.inspect(1, 0).unwrap();
    assert_eq!((store.entries(), shown.len()), (Ok(201), 200));
    assert_eq!(store.list(0), Ok(shown.clone()));
    assert_eq!(store.inspect(1, 0), Ok(shown));
    assert_eq!(store.entries(), Ok(203));
    assert_eq!(store.audit(), Ok(203));
}

// Rows that are about as long as the room that is taken at once. Each is whole, and has one entry.
#[test]
fn rows_of_each_length_are_whole() {
    let mut store = opened_with(1, 0, Rights::INSPECT);
    for length in 0..140 {
        assert_eq!(store.list(0).unwrap().len(), length);
        assert_eq!(store.inspect(1, 0), store.list(0));
        assert_eq!(store.entries(), Ok(4 * length as u64 + 3));
        store.create(0, Rights::READ, Value::Cell(0)).unwrap();
    }
}

// A look takes a shared reference, so what a look lends and other looks go side by side.
#[test]
fn what_looks_borrows_only() {
    let mut store = opened(2);
    let name = store.create(1, Rights::READ, Value::Cell(7)).unwrap();
    let (store, mut journal) = (&store, store.journal());
    assert_eq!((store.label(1, name), store.label(0, name)), (Ok(Rights::READ), Ok(Rights::NONE)));
    let counts = store.census().unwrap();
    assert_eq!((store.names().unwrap().len(), counts.vertices), (3, 3));
    assert_eq!((counts.entries, counts.held, counts.denied, counts.vertices_full, counts.workers_full), (1, 1, 0, 0, 0));
    assert_eq!((counts.nursery_collections, counts.full_collections), (0, 0));
    assert_eq!((journal.next(), store.subjects()), (store.entry(0).ok(), Ok(vec![0, 1])));
    assert_eq!((journal.next(), store.entries(), store.audit()), (None, Ok(1), Ok(1)));
}

#[test]
fn limits_to_start_with_are_those_of_c() {
    let Limits { max_vertices, max_blocks, max_space_blocks } = Limits::default();
    let line = format!("#define TG_LIMITS_INIT {{ {max_vertices}, {max_blocks}, {max_space_blocks} }}\n");
    assert!(include_str!("../../kovshenul.h").contains(&line));
    assert!(Store::open(&[Value::Cell(0)], &[], &Limits::default()).is_ok());
}

#[test]
fn a_store_goes_to_another_thread() {
    let mut store = opened(1);
    let name = store.create(0, Rights::READ | Rights::WRITE, Value::Sum(1)).unwrap();
    let worked = thread::spawn(move || {
        store.write(0, name, 4).unwrap();
        store.collect(Kind::Full).unwrap();
        store
    });
    let mut store = worked.join().unwrap();
    assert_eq!(store.read(0, name), Ok(vec![5]));
    let (sender, receiver) = mpsc::channel();
    sender.send(store).unwrap();
    thread::spawn(move || drop(receiver.recv())).join().unwrap();
}

// Writes and reads back, as a worker with a sum of its own.
fn add_up(store: &Mutex<Store>, worker: u64) {
    let call = || store.lock().unwrap();
    let name = call().create(worker, Rights::READ | Rights::WRITE, Value::Sum(0)).unwrap();
    for round in 1..=1000 {
        call().write(worker, name, round).unwrap();
        assert_eq!(call().read(worker, name), Ok(vec![round * (round + 1) / 2]));
    }
}

#[test]
fn eight_threads_call_under_a_lock() {
    let store = Mutex::new(opened(8));
    thread::scope(|scope| {
        for worker in 0..8 {
            let store = &store;
            scope.spawn(move || add_up(store, worker));
        }
        store.lock().unwrap().collect(Kind::Nursery).unwrap();
    });
    let store = store.into_inner().unwrap();
    assert_eq!(store.entries(), Ok(8 * 2001));
    assert_eq!(store.audit(), Ok(8 * 2001));
}
