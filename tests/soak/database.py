#!/usr/bin/env python3
"""database.py [--writers N] [--servers N] [--failovers N] [--questions N] [--sqlite] [--seed N]: whether a store that is kept
in a database loses an entry or a row of its host, when its writer or the server is killed.

A writer does commands at random, in transactions that also insert a row of the host for each entry. After each transaction it
acknowledges the entries. N writers (1,000) are killed by SIGKILL one after the other, each at a random moment, over sqlite3 and
over PostgreSQL. After each kill both tables have to have the same entries, with all that were acknowledged, and a follower
replays them. In every twentieth round the writer prunes first. Three planted writers that are wrong have to be found. One has
two transactions, one has two in the other order, and one acknowledges before its COMMIT.

N servers of PostgreSQL (50) are ended by `pg_ctl -m immediate` while a writer writes, and started again. In N failovers (3) a
server with a synchronous standby is ended, and the standby takes over. A follower answers N questions (10,000) over each
database as the writer's store at the same place.

Exit status 1 if something is wrong. `--sqlite` leaves PostgreSQL out. Where PostgreSQL or psycopg2 isn't there, the script says
so. It starts the server itself, as the user `postgres` if root runs it, on a Unix socket. psycopg2 may be that of
/usr/bin/python3. The script takes the package of bindings/python and the library that bindings/build made.
"""
import argparse
import os
import random
import select
import shutil
import signal
import subprocess
import sys
import tempfile
import time
from pathlib import Path

sys.dont_write_bytecode = True
if {"--help", "-h"} & set(sys.argv[1:]):
    print(__doc__)
    sys.exit()
BINDINGS = Path(__file__).resolve().parents[2] / "bindings"
os.environ.setdefault("KOVSHENUL_LIBRARY", str(BINDINGS / "out" / "libkovshenul.so.4"))
sys.path[:0] = [str(BINDINGS / "python"), str(BINDINGS / "python" / "tests")]

SYSTEMS = "/usr/bin/python3"


def has_psycopg2(python):
    """Whether an interpreter has psycopg2."""
    return subprocess.run([python, "-c", "import psycopg2"], stderr=subprocess.DEVNULL).returncode == 0


if os.path.realpath(sys.executable) != os.path.realpath(SYSTEMS) and not has_psycopg2(sys.executable) and Path(SYSTEMS).exists():
    if has_psycopg2(SYSTEMS):
        os.execv(SYSTEMS, [SYSTEMS, *sys.argv])

import servers
import writers
from kovshenul.database import Follower, Journal, Lost
from test_journal import DEEDS, WORKERS, called, drawn, opening

PRUNES_EVERY = 20
WRONG = {
    "two transactions": {"kind": writers.TwoTransactions},
    "two in the other order": {"kind": writers.EntriesFirst},
    "early": {"write": writers.write_early},
}


# ---- killed writers

def kill_writers(name, made, count, rng):
    """Kills writers over a new database, and plants wrong ones over others. `made` makes a database, and returns what connects
    to it."""
    connect = made()
    writers.make_tables(connect())
    began, checker = time.monotonic(), writers.Checker(connect)
    for number in range(count):
        seed, prunes = rng.getrandbits(32), number % PRUNES_EVERY == PRUNES_EVERY - 1

        def run(pipe):
            writers.write_on(connect(), writers.over(pipe), random.Random(seed), prunes=prunes)

        checker.check(writers.killed(run, rng, 0.03))
    seconds = time.monotonic() - began
    print(f"{name}: {count} killed writers in {seconds:.0f} s, {said_of(checker)}")
    for wrong, words in WRONG.items():
        connect = made()
        writers.make_tables(connect())
        try:
            writers.rounds(connect, 1_000, rng, **words)
        except writers.Wrong as found:
            print(f"{name}: the planted writer '{wrong}' is found: {found}")
        else:
            raise writers.Wrong(f"{name}: the planted writer '{wrong}' isn't found")


def said_of(checker):
    """The state of a checker."""
    return f"{checker.place} entries, {checker.acknowledged} acknowledged: none is wrong"


# ---- killed servers

def write_through(connect, acknowledge, rng, standby=False):
    """Writes without an end. It connects again after each end of the server, and goes on where the table ends."""
    import psycopg2

    last, notes = None, []
    while True:
        journal = None
        try:
            journal = Journal(connect(), standby=standby)
            journal.resume(last=last)
            while True:
                writers.transact(journal, rng, notes, acknowledge)
        except (Lost, psycopg2.Error):
            last = journal.last if journal and journal.last.line else last


class Reader:
    """Reads what a child acknowledges."""

    def __init__(self, reader):
        self.reader, self.text = reader, ""

    def read(self, seconds):
        """Reads for so many seconds, and returns what was acknowledged since the last time."""
        until = time.monotonic() + seconds
        while True:
            ready, _, _ = select.select([self.reader], [], [], max(until - time.monotonic(), 0))
            if not ready:
                break
            some = os.read(self.reader, 65536)
            if not some:
                break
            self.text += some.decode()
        end = self.text.rfind("\n") + 1
        whole, self.text = self.text[:end], self.text[end:]
        return writers.acknowledged(whole)


def kill_servers(count, rng):
    """Ends the server while a writer writes, and starts it again."""
    began = time.monotonic()
    with servers.Server() as server:
        writers.make_tables(server.connect())
        seed = rng.getrandbits(32)
        child, pipe = writers.forked(lambda end: write_through(server.connect, writers.over(end), random.Random(seed)))
        reader, checker = Reader(pipe), writers.Checker(server.connect)
        try:
            for _ in range(count):
                acked = reader.read(0)
                while not acked:
                    acked = reader.read(0.01)
                acked += reader.read(rng.uniform(0, 0.3))
                server.stop("immediate")
                acked += reader.read(0)
                server.start()
                checker.check(acked)
        finally:
            os.kill(child, signal.SIGKILL)
            os.waitpid(child, 0)
        checker.check(reader.read(1))
    seconds = time.monotonic() - began
    print(f"PostgreSQL: {count} killed servers in {seconds:.0f} s, {said_of(checker)}")


# ---- failovers

def fail_over(count, rng):
    """Ends a server with a synchronous standby, on which a follower reads. The standby takes over, with all that was
    acknowledged."""
    places = []
    for _ in range(count):
        with servers.Server() as server:
            writers.make_tables(server.connect())
            with servers.Server(port=5433, copy_of=server) as standby:
                places.append(over_to(server, standby, rng))
    print(f"PostgreSQL: {count} failovers to a synchronous standby, at the places {places}, none is wrong")


def over_to(server, standby, rng):
    """One failover. Returns its place."""
    wait_for_standby(server)
    seed = rng.getrandbits(32)
    child, pipe = writers.forked(lambda end: write_through(server.connect, writers.over(end), random.Random(seed), standby=True))
    reader = Reader(pipe)
    acked = reader.read(rng.uniform(1, 2))
    follower = Follower(standby.connect())
    server.stop("immediate")
    acked += reader.read(0.5)
    os.kill(child, signal.SIGKILL)
    os.waitpid(child, 0)
    standby.promote()
    checker = writers.Checker(standby.connect)
    checker.check(acked + reader.read(0))
    if not acked or follower.follow() != checker.place:
        raise writers.Wrong(f"{len(acked)} acknowledged, and the follower is at {follower.place}")
    journal = Journal(standby.connect())
    journal.resume()
    writers.transact(journal, rng, [], lambda done: None)
    if follower.follow() != journal.last.entries:
        raise writers.Wrong("the follower doesn't follow the new server")
    return checker.place


def wait_for_standby(server):
    """Has each COMMIT of the server wait for its standby."""
    connection = server.connect()
    connection.autocommit = True
    cursor = connection.cursor()
    cursor.execute("ALTER SYSTEM SET synchronous_standby_names = '*'")
    cursor.execute("SELECT pg_reload_conf()")
    until, states = time.monotonic() + 30, []
    while states != [("sync",)]:
        if time.monotonic() > until:
            raise writers.Wrong(f"the standby is in the state {states}")
        time.sleep(0.05)
        cursor.execute("SELECT sync_state FROM pg_stat_replication")
        states = cursor.fetchall()
    connection.close()


# ---- questions

def ask(store, rng):
    """A question at random, and the answer of the store."""
    worker, target, right = rng.randrange(WORKERS), rng.randrange(30), 1 << rng.randrange(8)
    kind = rng.choice(["label", "who_holds", "could"])
    words = {"label": (worker, target), "who_holds": (right, target), "could": (worker, right, target)}[kind]
    return kind, words, getattr(store, kind)(*words)


def ask_follower(name, connect, count, rng):
    """Asks a follower what the writer's store answered at the same place, before or after the store went on."""
    began, journal = time.monotonic(), Journal(connect())
    store = journal.open(*opening(10_000))
    follower, asked = Follower(connect()), 0
    while asked < count:
        with journal.transaction():
            for _ in range(rng.randint(1, 8)):
                called(store, rng.randrange(WORKERS), drawn(rng, rng.choice(DEEDS)))
        if follower.follow() != store.entries():
            raise writers.Wrong(f"the follower is at {follower.place}, and the store at {store.entries()}")
        answers = [ask(store, rng) for _ in range(20)]
        if rng.random() < 0.5:
            with journal.transaction():
                called(store, rng.randrange(WORKERS), drawn(rng, rng.choice(DEEDS)))
        if rng.random() < 0.02:
            journal.prune()
        for kind, words, answer in answers:
            told = getattr(follower, kind)(*words)
            if told != answer:
                raise writers.Wrong(f"{kind}{words} at {follower.place}: {told}, and the store answered {answer}")
        asked += len(answers)
    seconds = time.monotonic() - began
    print(f"{name}: a follower answers {asked} questions as the store at the same place, to {store.entries()}, in {seconds:.0f} s")


def main():
    words = argparse.ArgumentParser(add_help=False)
    for name, count in (("writers", 1_000), ("servers", 50), ("failovers", 3), ("questions", 10_000), ("seed", 1)):
        words.add_argument(f"--{name}", type=int, default=count, metavar="N")
    words.add_argument("--sqlite", action="store_true")
    given = words.parse_args()
    sys.stdout.reconfigure(line_buffering=True)
    signal.signal(signal.SIGTERM, lambda *_: sys.exit("ended"))
    rng, folder = random.Random(given.seed), Path(tempfile.mkdtemp(prefix="kovshenul-"))
    try:
        over_sqlite(given, rng, folder)
        lacking = "it was left out by --sqlite" if given.sqlite else servers.lacks()
        if lacking:
            print(f"PostgreSQL left out: {lacking}")
        else:
            over_postgres(given, rng)
    except writers.Wrong as wrong:
        print(f"wrong: {wrong}", file=sys.stderr)
        sys.exit(1)
    finally:
        shutil.rmtree(folder)
    print("passed: no entry without its row, no row without its entry, and no acknowledged entry was lost")


def over_sqlite(given, rng, folder):
    """All that is tried over sqlite3."""
    names = iter(range(10_000))

    def made():
        path = folder / f"{next(names)}.db"
        return lambda: writers.connected(path)

    kill_writers("sqlite3", made, given.writers, rng)
    ask_follower("sqlite3", made(), given.questions, rng)


def over_postgres(given, rng):
    """All that is tried over PostgreSQL."""
    with servers.Server() as server:
        names = iter(range(10_000))

        def made():
            schema = f"s{next(names)}"
            connection = server.connect()
            connection.cursor().execute(f"CREATE SCHEMA {schema}")
            connection.commit()
            connection.close()
            return lambda: server.connect(schema=schema)

        kill_writers("PostgreSQL", made, given.writers, rng)
        ask_follower("PostgreSQL", made(), given.questions, rng)
    kill_servers(given.servers, rng)
    fail_over(given.failovers, rng)


main()
