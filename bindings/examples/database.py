"""A service that keeps its documents, and the entries of its store, in one database. It is killed in the middle of a
transaction. Another process goes on, and a reader follows it."""
import os
import signal
import sqlite3
import sys
import tempfile

from kovshenul import GRANT, READ, WRITE, Cell, Denied, Edge, Sum
from kovshenul.database import Follower, Journal

HOST, GUEST = range(2)


def connect(path):
    """A connection as a journal asks for it: what is committed outlives a crash of the machine."""
    connection = sqlite3.connect(path)
    connection.execute("PRAGMA journal_mode=WAL")
    connection.execute("PRAGMA synchronous=FULL")
    connection.execute("CREATE TABLE IF NOT EXISTS document (name INTEGER PRIMARY KEY, title TEXT NOT NULL)")
    return connection


def begun(journal):
    """The store that is in the database, or a new one."""
    if journal.has_store():
        return journal.resume()
    return journal.open([Cell(0), Cell(0)], [Edge(HOST, GUEST, GRANT)])


def serve(path, titles, killed_at=None):
    """Makes a document for each title, which the guest may read."""
    journal = Journal(connect(path))
    store = begun(journal)
    print("the service begins with", store.entries(), "entries")
    for title in titles:
        with journal.transaction() as cursor:
            name = store.create(HOST, READ | WRITE, Sum(0))
            cursor.execute("INSERT INTO document VALUES (?, ?)", (name, title))
            store.grant(HOST, GUEST, name, READ)
            if title == killed_at:
                print("the service is killed", flush=True)
                os.kill(os.getpid(), signal.SIGKILL)
        print(f"document {name} is the {title}")
    return journal, store


def write_as_guest(journal, store, name):
    """A denial that leaves the transaction is kept too, as each entry."""
    try:
        with journal.transaction():
            store.write(GUEST, name, 1)
    except Denied as denial:
        print(denial)


def read_on(path):
    """Another process follows the table, and answers for readers."""
    connection = connect(path)
    with Follower(connection) as follower:
        for name, title in connection.execute("SELECT name, title FROM document").fetchall():
            print(f"at the place {follower.place} the guest holds {follower.label(GUEST, name).letters} over the {title}")
    for place, line in connection.execute("SELECT place, line FROM kovshenul_entry"):
        print(place, line)


with tempfile.TemporaryDirectory() as folder:
    path = os.path.join(folder, "service.db")
    sys.stdout.flush()
    if os.fork() == 0:
        serve(path, ["plan", "letter"], killed_at="letter")
    os.wait()
    journal, store = serve(path, ["letter"])
    write_as_guest(journal, store, 2)
    read_on(path)
