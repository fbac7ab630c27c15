//! The journal of a store, read back. It has the calls and the replies.
use kovshenul::{
    end_text, opening_text, Auditor, BatchStopped, Deed, Denial, Edge, Entry, Error, Limits, NoSnapshot, Reply, Rights, Rule, Snapshot,
    Stopped, Store, Target, Value,
};

const WORKERS: [Value; 2] = [Value::Cell(0); 2];

fn edges() -> [Edge; 2] {
    let edge = |from, to| Edge {
        from,
        to,
        rights: Rights::TAKE | Rights::GRANT | Rights::INSPECT,
    };
    [edge(0, 1), edge(1, 0)]
}

fn limits(max_vertices: u64) -> Limits {
    Limits {
        max_vertices,
        max_blocks: 64,
        max_space_blocks: 64,
    }
}

fn opened(max_vertices: u64) -> Store {
    Store::open(&WORKERS, &edges(), &limits(max_vertices)).unwrap()
}

fn auditor(max_vertices: u64) -> Auditor {
    Auditor::open(&WORKERS, &edges(), &limits(max_vertices)).unwrap()
}

// Makes the call that a deed represents, and answers what is to be in the journal.
fn call(store: &mut Store, worker: u64, deed: Deed) -> Reply {
    let answer = match deed {
        Deed::Take { via, target, rights } => store.take(worker, via, target, rights).map(|()| Reply::Done),
        Deed::Grant { via, target, rights } => store.grant(worker, via, target, rights).map(|()| Reply::Done),
        Deed::Remove { target, rights } => store.remove(worker, target, rights).map(|()| Reply::Done),
        Deed::Read { target } => store.read(worker, target).map(Reply::Values),
        Deed::Write { target, value } => store.write(worker, target, value).map(|()| Reply::Done),
        Deed::Append { target, value } => store.append(worker, target, value).map(|()| Reply::Done),
        Deed::Inspect { target } => store.inspect(worker, target).map(Reply::Edges),
        Deed::List => store.list(worker).map(Reply::Edges),
        Deed::Retire => store.retire(worker).map(|()| Reply::Done),
        Deed::Create { rights, value } => store.create(worker, rights, value).map(Reply::Name),
        Deed::Spawn { rights, value } => store.spawn(worker, rights, value).map(Reply::Name),
        other => panic!("{other:?} is no deed of this edition"),
    };
    match answer {
        Err(Error::Denied(why)) => Reply::Denied(why),
        Err(Error::VerticesFull) => Reply::VerticesFull,
        Err(Error::WorkersFull) => Reply::WorkersFull,
        other => other.unwrap(),
    }
}

// The numbers of a linear congruence, each below the bound.
struct Dice(u64);

impl Dice {
    fn below(&mut self, bound: u64) -> u64 {
        self.0 = self.0.wrapping_mul(6364136223846793005).wrapping_add(1442695040888963407);
        (self.0 >> 33) % bound
    }

    fn deed(&mut self) -> Deed {
        let (via, target, value) = (self.below(2), self.below(22), self.below(3));
        let rights = Rights::from_bits(1 << self.below(8)).unwrap();
        match self.below(9) {
            0 => Deed::Take { via, target, rights },
            1 => Deed::Grant { via, target, rights },
            2 => Deed::Remove { target, rights },
            3 => Deed::Read { target },
            4 => Deed::Write { target, value },
            5 => Deed::Append { target, value },
            6 => Deed::Inspect { target },
            7 => Deed::List,
            _ => Deed::Create {
                rights: Rights::all(),
                value: self.value(),
            },
        }
    }

    fn value(&mut self) -> Value {
        match self.below(4) {
            0 => Value::Cell(7),
            1 => Value::Sum(u64::MAX),
            2 => Value::Max(9),
            _ => Value::Log(64),
        }
    }
}

#[test]
fn a_run_is_read_back() {
    let (mut store, mut dice) = (opened(20), Dice(1));
    let mut wanted = Vec::new();
    for _ in 0..4000 {
        let (worker, deed) = (dice.below(2), dice.deed());
        let reply = call(&mut store, worker, deed);
        wanted.push(Entry { worker, deed, reply });
    }
    let told: Vec<Entry> = store.journal().collect();
    assert_eq!(told, wanted);
    assert_eq!(store.entries(), Ok(told.len() as u64));
    assert_eq!(store.entry(told.len() as u64), Err(Error::BadPlace));
    let is_told = |has: fn(&Reply) -> bool| told.iter().any(|entry| has(&entry.reply));
    assert!(is_told(|it| matches!(it, Reply::Denied(Denial::NotDistinct { .. }))));
    assert!(is_told(|it| matches!(it, Reply::Denied(Denial::Missing { .. }))));
    assert!(is_told(|it| matches!(it, Reply::Denied(Denial::NotLog { .. }))));
    assert!(is_told(|it| *it == Reply::VerticesFull));
    assert!(is_told(|it| matches!(it, Reply::Values(numbers) if numbers.len() > 1)));
    assert!(is_told(|it| matches!(it, Reply::Edges(edges) if edges.len() > 1)));
}

// The parts that are given up are together what was called, and an auditor comes to the end of each.
#[test]
fn a_journal_in_parts() {
    let (mut store, mut auditor, mut dice) = (opened(20), auditor(20), Dice(3));
    let (mut wanted, mut told) = (Vec::new(), Vec::new());
    for round in 1..=2000 {
        let (worker, deed) = (dice.below(2), dice.deed());
        let reply = call(&mut store, worker, deed);
        wanted.push(Entry { worker, deed, reply });
        if round % 100 == 0 {
            told.extend(store.journal());
            assert_eq!(auditor.forget(&mut store, round), Err(Error::NotAudited));
            assert_eq!((auditor.feed(&store), auditor.at()), (Ok(round), Ok(round)));
            assert_eq!(auditor.sweep(), Ok(()));
            assert_eq!(auditor.forget(&mut store, round), Ok(()));
            assert_eq!((store.first(), store.entries()), (Ok(round), Ok(round)));
            assert_eq!(store.entry(round - 1), Err(Error::BadPlace));
            assert_eq!((store.forget(round - 1), store.forget(round + 1)), (Err(Error::BadPlace), Err(Error::BadPlace)));
            assert_eq!((store.forget(round), store.audit()), (Ok(()), Err(Error::NotWhole)));
        }
    }
    assert_eq!(told, wanted);
}

#[test]
fn what_stops_an_auditor() {
    let (mut store, mut late, mut other) = (opened(20), auditor(20), auditor(3));
    let sum = store.create(0, Rights::READ, Value::Sum(0)).unwrap();
    assert_eq!(other.feed(&store), Ok(1));
    assert_eq!(other.feed(&opened(20)), Err(Error::BadPlace));
    store.read(0, sum).unwrap();
    store.create(1, Rights::READ, Value::Sum(0)).unwrap();
    for _ in 0..2 {
        assert_eq!((other.feed(&store), other.at()), (Err(Error::BadEntry), Ok(2)));
    }
    store.forget(1).unwrap();
    assert_eq!((late.feed(&store), late.at()), (Err(Error::BadPlace), Ok(0)));
    assert_eq!(Auditor::open(&[], &[], &limits(20)).unwrap_err(), Error::BadWorkers);
}

#[test]
fn what_was_read_plays_again() {
    let (mut store, mut other, mut dice) = (opened(20), opened(20), Dice(2));
    for _ in 0..1000 {
        let worker = dice.below(2);
        call(&mut store, worker, dice.deed());
    }
    for entry in store.journal() {
        assert_eq!(call(&mut other, entry.worker, entry.deed), entry.reply);
    }
    assert!(store.journal().eq(other.journal()));
}

#[test]
fn past_the_end_is_refused() {
    let mut store = opened(20);
    assert_eq!((store.entry(0), store.journal().next()), (Err(Error::BadPlace), None));
    let denied = store.write(0, 1, 5).unwrap_err();
    let entry = store.entry(0).unwrap();
    assert_eq!((entry.worker, entry.deed), (0, Deed::Write { target: 1, value: 5 }));
    let denial = Denial::Missing {
        rule: Rule::Write,
        from: 0,
        to: 1,
        rights: Rights::WRITE,
    };
    assert_eq!((entry.reply, denied), (Reply::Denied(denial), Error::Denied(denial)));
    for at in [1, u64::from(u32::MAX), u64::MAX] {
        let error = store.entry(at).unwrap_err();
        assert_eq!((error, error.status()), (Error::BadPlace, 97));
        assert!(error.to_string().starts_with("the journal holds no entry at the place"));
    }
    assert_eq!(store.entries(), Ok(1));
}

// Workers come and go in the order of their names. One retires for each that is spawned, but for the first 62.
#[test]
fn workers_that_come_and_go_are_read_back() {
    let mut store = opened(1000);
    let spawn = Deed::Spawn {
        rights: Rights::GRANT,
        value: Value::Log(2),
    };
    let mut wanted = Vec::new();
    let mut ask = |store: &mut Store, worker, deed| {
        let reply = call(store, worker, deed);
        wanted.push(Entry { worker, deed, reply });
    };
    (0..62).for_each(|_| ask(&mut store, 0, spawn));
    assert_eq!(store.subjects(), Ok((0..64).collect()));
    for leaver in 1..30 {
        ask(&mut store, 0, spawn);
        ask(&mut store, leaver, Deed::Retire);
        ask(&mut store, 0, spawn);
    }
    assert_eq!(store.subjects(), Ok([0].into_iter().chain(30..93).collect()));
    assert_eq!(wanted.iter().filter(|entry| entry.reply == Reply::WorkersFull).count(), 29);
    let told: Vec<Entry> = store.journal().collect();
    assert_eq!(told, wanted);
    assert_eq!(store.audit(), Ok(told.len() as u64));
}

#[test]
fn long_rows_are_whole() {
    let mut store = opened(1000);
    let made = (0..300).map(|_| store.create(0, Rights::READ, Value::Log(64)));
    let names = made.collect::<Result<Vec<u64>, Error>>().unwrap();
    let shown = store.inspect(1, 0).unwrap();
    assert_eq!(shown.len(), names.len() + 1);
    let last = store.entries().unwrap() - 1;
    assert_eq!(store.entry(last).unwrap().reply, Reply::Edges(shown.clone()));
    assert_eq!(shown.last(), Some(&Target { to: names[299], rights: Rights::READ }));
}

// The entries of a store that was asked for so much.
fn told(seed: u64, count: u64) -> (Store, Vec<Entry>) {
    let (mut store, mut dice) = (opened(20), Dice(seed));
    for _ in 0..count {
        let worker = dice.below(2);
        call(&mut store, worker, dice.deed());
    }
    let entries = store.journal().collect();
    (store, entries)
}

fn resumed(max_vertices: u64, entries: &[Entry]) -> Result<Store, Stopped> {
    Store::resume(&WORKERS, &edges(), &limits(max_vertices), entries)
}

#[test]
fn a_store_goes_on_from_entries() {
    let (mut first, entries) = told(5, 3000);
    let mut second = resumed(20, &entries).unwrap();
    assert!(second.journal().eq(entries.iter().cloned()));
    second = (0..30).fold(opened(20), |store, part| {
        let mut store = store.go_on(part * 100, &entries[part as usize * 100..][..100]).unwrap();
        store.forget((part + 1) * 100).unwrap();
        store
    });
    let mut dice = Dice(6);
    for _ in 0..1000 {
        let (worker, deed) = (dice.below(2), dice.deed());
        assert_eq!(call(&mut second, worker, deed), call(&mut first, worker, deed));
    }
}

#[test]
fn what_stops_a_resume() {
    let (_, entries) = told(7, 200);
    for (at, entry) in entries.iter().enumerate() {
        let mut altered = entries[..=at].to_vec();
        altered[at].reply = Reply::Name(1 << 40);
        let stopped = resumed(20, &altered).unwrap_err();
        assert_eq!((stopped.at, stopped.why, stopped.store.is_none()), (at as u64, Error::BadEntry, true));
        assert!(stopped.to_string().starts_with(&format!("entry {at}: an entry is not legal")));
        altered[at] = entry.clone();
        assert_eq!(resumed(20, &altered).unwrap().entries(), Ok(at as u64 + 1));
    }
    let stopped = opened(20).go_on(1, &entries).unwrap_err();
    assert_eq!((stopped.at, stopped.why), (1, Error::BadPlace));
    let store = stopped.store.unwrap().go_on(0, &entries).unwrap();
    let twice = store.go_on(10, &entries[10..]).unwrap_err();
    assert_eq!((twice.at, twice.why, twice.store.unwrap().entries()), (10, Error::BadPlace, Ok(200)));
    let empty = Deed::Remove { target: 1, rights: Rights::NONE };
    let none = Entry { worker: 0, deed: empty, reply: Reply::Done };
    let stopped = opened(20).go_on(0, [none]).unwrap_err();
    assert_eq!((stopped.why, stopped.why.status(), stopped.store.is_some()), (Error::BadValues, 83, true));
    assert_eq!(resumed(1, &entries).unwrap_err().why, Error::BadLimits);
    assert_eq!(resumed(3, &entries).unwrap_err().why, Error::BadEntry);
}

// The entries of a store that is used, of which the rows below are altered.
fn used() -> Vec<Entry> {
    let (cells, edge) = ([Value::Cell(0); 2], [Edge { from: 0, to: 1, rights: Rights::GRANT }]);
    let mut store = Store::open(&cells, &edge, &limits(20)).unwrap();
    store.create(0, Rights::READ | Rights::WRITE, Value::Sum(40)).unwrap();
    store.write(0, 2, 2).unwrap();
    store.read(0, 2).unwrap();
    store.grant(0, 1, 2, Rights::READ).unwrap();
    store.read(1, 2).unwrap();
    store.write(1, 2, 7).unwrap_err();
    store.list(0).unwrap();
    store.retire(1).unwrap();
    store.journal().collect()
}

// The place at which a store of this opening finds a bad entry. Nothing is left of the store then.
fn bad_at(rights: Rights, max_vertices: u64, entries: &[Entry]) -> u64 {
    let (cells, edge) = ([Value::Cell(0); 2], [Edge { from: 0, to: 1, rights }]);
    let stopped = Store::resume(&cells, &edge, &limits(max_vertices), entries).unwrap_err();
    assert!(stopped.why == Error::BadEntry && stopped.store.is_none());
    stopped.at
}

// The rows of bindings/tests/refused.c.
#[test]
fn which_entries_are_refused() {
    let entries = used();
    let target = |to, rights| Target { to, rights };
    let missing = Denial::Missing { rule: Rule::Write, from: 1, to: 2, rights: Rights::READ };
    let grant = Deed::Grant { via: 1, target: 2, rights: Rights::WRITE };
    let listed = vec![target(1, Rights::GRANT), target(2, Rights::READ)];
    let with = |at: usize, deed: Option<Deed>, reply: Option<Reply>| {
        let mut altered = entries.clone();
        altered[at].deed = deed.unwrap_or_else(|| altered[at].deed.clone());
        altered[at].reply = reply.unwrap_or_else(|| altered[at].reply.clone());
        altered
    };
    let mut by_other = entries.clone();
    by_other[4].worker = 2;
    let changed = [
        ("the name of a vertex that was made", 0, with(0, None, Some(Reply::Name(3)))),
        ("the number of a write, by the read after it", 2, with(1, Some(Deed::Write { target: 2, value: 3 }), None)),
        ("the number that a read returned", 2, with(2, None, Some(Reply::Values(vec![43])))),
        ("the rights of a grant, by the read after it", 4, with(3, Some(grant), None)),
        ("the worker that asked", 4, by_other),
        ("the rights that a denial says are missing", 5, with(5, None, Some(Reply::Denied(missing)))),
        ("the rights that were listed", 6, with(6, None, Some(Reply::Edges(listed)))),
        ("an entry left out", 3, [&entries[..3], &entries[4..]].concat()),
    ];
    for (what, place, altered) in changed {
        assert_eq!(bad_at(Rights::GRANT, 20, &altered), place, "{what}");
    }
    assert_eq!(bad_at(Rights::INSPECT, 20, &entries), 3, "another edge");
    assert_eq!(bad_at(Rights::GRANT, 2, &entries), 0, "another limit");
}

#[test]
fn parts_that_do_not_follow_one_another() {
    let entries = used();
    let (cells, edge) = ([Value::Cell(0); 2], [Edge { from: 0, to: 1, rights: Rights::GRANT }]);
    let mut store = Store::resume(&cells, &edge, &limits(20), &entries[..3]).unwrap();
    for (place, part) in [(5, &entries[5..]), (0, &entries[..3])] {
        let stopped = store.go_on(place, part).unwrap_err();
        assert_eq!((stopped.at, stopped.why), (place, Error::BadPlace));
        store = stopped.store.unwrap();
        assert_eq!(store.entries(), Ok(3));
    }
    let store = store.go_on(3, &entries[3..]).unwrap();
    assert!(store.journal().eq(entries));
}

// The table of bindings/tests/snapshots.txt, and the whole one of its texts without its last lines.
#[test]
fn which_texts_are_no_snapshots() {
    let path = concat!(env!("CARGO_MANIFEST_DIR"), "/../tests/snapshots.txt");
    let table = std::fs::read_to_string(path).unwrap();
    let refused_at = |text: &str| match text.parse::<Snapshot>() {
        Ok(snapshot) => {
            assert_eq!(snapshot.to_string(), text);
            0
        }
        Err(NoSnapshot::Line(line)) => line as usize,
        Err(other) => panic!("{other}"),
    };
    let mut count = 0;
    for row in table.split("\n\n").skip(1) {
        let (what, text) = row.trim_end().split_once('\n').unwrap();
        let line = what.split_once(':').unwrap().0.parse().unwrap();
        assert_eq!(refused_at(text), line, "{what}");
        let lines: Vec<&str> = text.split('\n').filter(|_| line == 0).collect();
        for upto in 1..lines.len() {
            assert_eq!(refused_at(&lines[..upto].join("\n")), upto + 1, "{what}");
        }
        count += 1;
    }
    assert!(count > 30);
}

#[test]
fn entries_have_lines() {
    let entry = |worker, deed, reply| Entry { worker, deed, reply };
    let missing = Denial::Missing { rule: Rule::Read, from: 1, to: 2, rights: Rights::READ };
    let no_log = Denial::NotLog { rule: Rule::Append };
    let edges = vec![Target { to: 1, rights: Rights::TAKE | Rights::GRANT }, Target { to: u64::MAX, rights: Rights::READ }];
    let lines = [
        (entry(0, Deed::Create { rights: Rights::READ, value: Value::Sum(5) }, Reply::Name(2)), "0 create r s5 = ok 2"),
        (entry(0, Deed::Spawn { rights: Rights::READ, value: Value::Log(64) }, Reply::WorkersFull), "0 spawn r l64 = refused workers"),
        (entry(1, Deed::Read { target: 2 }, Reply::Denied(missing)), "1 read 2 = denied read 1->2 r"),
        (entry(1, Deed::Read { target: 2 }, Reply::Values(vec![3, 4])), "1 read 2 = ok 3 4"),
        (entry(7, Deed::List, Reply::Edges(edges)), "7 list = ok 1:tg 18446744073709551615:r"),
        (entry(0, Deed::Append { target: 1, value: 2 }, Reply::Denied(no_log)), "0 append 1 2 = denied append law"),
    ];
    for (entry, line) in lines {
        assert_eq!(entry.to_string(), line);
        assert_eq!(format!("{entry:>50}"), format!("{line:>50}"));
    }
    let none = entry(0, Deed::Remove { target: 1, rights: Rights::NONE }, Reply::Done);
    assert_eq!(none.to_string(), format!("{none:?}"));
}

#[test]
fn a_history_has_a_text() {
    let (store, entries) = told(8, 500);
    let opening = opening_text(&WORKERS, &edges(), &limits(20)).unwrap();
    assert_eq!(opening, "kovshenul entries 1\nopening 2 20\nworker c0\nworker c0\nedge 0 1 tgl\nedge 1 0 tgl");
    assert_eq!(end_text(store.entries().unwrap()).unwrap(), format!("entries {}", entries.len()));
    assert_eq!(end_text(u64::MAX).unwrap(), "entries 18446744073709551615");
    assert_eq!(opening_text(&[], &[], &limits(20)), Err(Error::BadWorkers));
    let many = [Value::Cell(0); 64];
    assert_eq!(opening_text(&many, &[], &limits(100)).unwrap().lines().count(), 66);
    let mut long = opened(1_000);
    for _ in 0..300 {
        long.create(0, Rights::READ, Value::Cell(0)).unwrap();
    }
    long.list(0).unwrap();
    let line = long.entry(300).unwrap().to_string();
    let words: Vec<String> = (2..302).map(|name| format!("{name}:r")).collect();
    assert_eq!(line, format!("0 list = ok 1:tgl {}", words.join(" ")));
}

#[test]
fn an_auditor_goes_on_from_a_snapshot() {
    let (mut store, mut dice) = (opened(20), Dice(9));
    let mut whole = auditor(20);
    let mut before = whole.snapshot().unwrap();
    let shown = "vertex 0 c0\nvertex 1 c0\nedge 0 1 tgl\nedge 1 0 tgl";
    assert_eq!(before.to_string(), format!("kovshenul picture 1\nmade 2 20 0\nworker 0\nworker 1\n{shown}\npicture 4"));
    for _ in 0..10 {
        for _ in 0..50 {
            let (worker, deed) = (dice.below(2), dice.deed());
            call(&mut store, worker, deed);
        }
        let mut part = Auditor::reopen(&before).unwrap();
        assert_eq!(part.feed(&store), whole.feed(&store));
        before = part.snapshot().unwrap();
        assert_eq!(before, whole.snapshot().unwrap());
        assert_eq!(before.to_string().parse(), Ok(before.clone()));
        assert_eq!(format!("{before}\n").parse(), Ok(before.clone()));
        let entries = store.entries().unwrap();
        store.forget(entries).unwrap();
    }
    let text = before.to_string();
    for (at, line) in text.lines().enumerate() {
        let altered = text.replacen(line, "nonsense", 1);
        assert_eq!(altered.parse::<Snapshot>(), Err(NoSnapshot::Line(at as u64 + 1)));
    }
    assert_eq!("".parse::<Snapshot>(), Err(NoSnapshot::Line(1)));
    assert!(NoSnapshot::Line(3).to_string().starts_with("line 3: "));
}

#[test]
fn what_a_snapshot_shows() {
    let values = [Value::Cell(7), Value::Log(2), Value::Max(3)];
    let edge = |from, to, rights| Edge { from, to, rights };
    let edges = [edge(2, 1, Rights::APPEND), edge(0, 1, Rights::READ | Rights::GRANT)];
    let mut store = Store::open(&values, &edges, &limits(20)).unwrap();
    let mut auditor = Auditor::open(&values, &edges, &limits(20)).unwrap();
    for number in [1, 8, 9] {
        store.append(2, 1, number).unwrap();
    }
    store.create(0, Rights::WRITE, Value::Sum(u64::MAX)).unwrap();
    let lost = store.create(1, Rights::READ, Value::Cell(0)).unwrap();
    store.remove(1, lost, Rights::READ).unwrap();
    store.retire(1).unwrap();
    auditor.feed(&store).unwrap();
    let snapshot = auditor.snapshot().unwrap();
    assert_eq!((snapshot.made(), snapshot.limit(), snapshot.entries()), (5, 20, 7));
    assert_eq!(snapshot.subjects().collect::<Vec<u64>>(), [0, 2]);
    let shown: Vec<(u64, Value, Vec<u64>)> = snapshot.vertices().map(|it| (it.name, it.value, it.numbers)).collect();
    let wanted = [
        (0, Value::Cell(7), vec![7]),
        (1, Value::Log(2), vec![8, 9]),
        (2, Value::Max(3), vec![3]),
        (3, Value::Sum(u64::MAX), vec![u64::MAX]),
    ];
    assert_eq!(shown, wanted);
    let wanted = [edges[1], edge(0, 3, Rights::WRITE), edges[0]];
    assert_eq!(snapshot.edges().collect::<Vec<Edge>>(), wanted);
    let empty: Snapshot = "kovshenul picture 1\nmade 3 20 8\nworker 1\nvertex 1 l64\npicture 1".parse().unwrap();
    assert!(empty.vertices().all(|it| it.numbers.is_empty()) && empty.edges().count() == 0);
}

#[test]
fn a_snapshot_with_more_names() {
    let mut auditor = auditor(20);
    let mut first = opened(20);
    first.create(0, Rights::READ, Value::Cell(0)).unwrap();
    auditor.feed(&first).unwrap();
    let snapshot = auditor.snapshot().unwrap();
    let raised = snapshot.with_names(9).unwrap();
    assert_eq!((raised.made(), raised.limit(), raised.entries()), (9, 20, 1));
    assert!(raised.vertices().eq(snapshot.vertices()) && raised.edges().eq(snapshot.edges()));
    assert_eq!(snapshot.with_names(3), Ok(snapshot.clone()));
    let mut store = Store::reopen(&raised, &limits(20)).unwrap();
    assert_eq!(store.create(0, Rights::READ, Value::Cell(0)), Ok(9));
    let mut full = Store::reopen(&snapshot.with_names(20).unwrap(), &limits(20)).unwrap();
    assert_eq!(full.create(0, Rights::READ, Value::Cell(0)), Err(Error::VerticesFull));
    for made in [0, 2, 21, u64::MAX] {
        assert_eq!(snapshot.with_names(made), Err(Error::BadLimits));
    }
}

#[test]
fn a_store_goes_on_from_a_snapshot() {
    let (mut first, mut whole) = (opened(20), auditor(20));
    let mut dice = Dice(10);
    for _ in 0..20 {
        let snapshot = {
            whole.feed(&first).unwrap();
            whole.snapshot().unwrap()
        };
        let (mut again, mut part) = (Store::reopen(&snapshot, &limits(20)).unwrap(), Auditor::reopen(&snapshot).unwrap());
        let at = first.entries().unwrap();
        assert_eq!((again.entries(), again.first(), again.audit()), (Ok(at), Ok(at), Err(Error::NotWhole)));
        for _ in 0..50 {
            let (worker, deed) = (dice.below(2), dice.deed());
            assert_eq!(call(&mut again, worker, deed), call(&mut first, worker, deed));
        }
        assert!(again.journal().eq(first.journal().skip(at as usize)));
        assert_eq!(part.feed(&again), Ok(at + 50));
    }
    let snapshot = whole.snapshot().unwrap();
    assert_eq!(Store::reopen(&snapshot, &limits(21)).err(), Some(Error::BadLimits));
    assert_eq!(Store::reopen(&snapshot, &Limits { max_blocks: 0, ..limits(20) }).err(), Some(Error::BadLimits));
    let nobody: Snapshot = "kovshenul picture 1\nmade 1 20 0\npicture 0".parse().unwrap();
    assert_eq!(Store::reopen(&nobody, &limits(20)).err(), Some(Error::BadWorkers));
}

#[test]
fn a_batch_is_answered_as_its_commands_alone() {
    let (mut one, mut other, mut dice) = (opened(20), opened(20), Dice(11));
    for size in [0, 1, 2, 64, 1024] {
        let worker = dice.below(2);
        let made = |deed: &Deed| matches!(deed, Deed::Create { .. });
        for store in [&mut one, &mut other] {
            store.create(worker, Rights::all(), Value::Sum(5)).unwrap();
        }
        let deeds: Vec<Deed> = std::iter::repeat_with(|| dice.deed()).filter(|deed| !made(deed)).take(size).collect();
        let alone: Vec<Reply> = deeds.iter().map(|deed| call(&mut other, worker, *deed)).collect();
        assert_eq!(one.apply_all(worker, &deeds), Ok(alone));
    }
    assert!(one.journal().eq(other.journal()));
    assert_eq!(one.audit(), one.entries());
}

#[test]
fn what_stops_a_batch() {
    let mut store = opened(20);
    let sum = store.create(1, Rights::READ, Value::Sum(5)).unwrap();
    let read = Deed::Read { target: sum };
    let stopped = store.apply_all(1, [read, Deed::Retire, read]).unwrap_err();
    let replies = vec![Reply::Values(vec![5]), Reply::Done];
    assert!(stopped.to_string().starts_with("command 2 of the batch: "));
    assert_eq!(stopped, BatchStopped { replies, why: Error::NoSuchWorker });
    assert_eq!(store.entries(), Ok(3));
    let refused = |store: &mut Store, deeds: &[Deed]| store.apply_all(0, deeds).unwrap_err();
    let whole = |why| BatchStopped { replies: Vec::new(), why };
    let create = Deed::Create { rights: Rights::READ, value: Value::Cell(0) };
    let empty = Deed::Remove { target: 1, rights: Rights::NONE };
    assert_eq!(refused(&mut store, &[Deed::List; 1025]), whole(Error::BadLimits));
    assert_eq!(refused(&mut store, &[Deed::List, create]), whole(Error::BadKind));
    assert_eq!(refused(&mut store, &[Deed::List, empty]), whole(Error::BadRights));
    assert_eq!(store.entries(), Ok(3));
}
