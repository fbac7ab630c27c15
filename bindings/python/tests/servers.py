"""A server of PostgreSQL for tests: a cluster in a folder of its own, which listens on a Unix socket alone.

It is started as the user `postgres` where root runs the test, because PostgreSQL refuses to run as root. `lacks()` says what
isn't there. Debian's packages are `postgresql` and `python3-psycopg2`.
"""
import os
import pwd
import shutil
import subprocess
import tempfile
import time
from pathlib import Path

USER = "postgres"


def programs():
    """The folder with initdb and pg_ctl, or None."""
    folders = sorted(Path("/usr/lib/postgresql").glob("*/bin"), key=lambda path: float(path.parent.name))
    beside = shutil.which("pg_ctl")
    folders = [*([Path(os.path.realpath(beside)).parent] if beside else []), *reversed(folders)]
    return next((folder for folder in folders if (folder / "initdb").exists() and (folder / "pg_ctl").exists()), None)


def lacks():
    """What isn't there of a server and its module, or an empty text."""
    try:
        import psycopg2  # noqa: F401
    except ImportError:
        return "psycopg2 isn't here (Debian: python3-psycopg2)"
    if programs() is None:
        return "no server of PostgreSQL is here (Debian: postgresql)"
    if os.getuid() == 0 and USER not in [user.pw_name for user in pwd.getpwall()]:
        return f"root can't run PostgreSQL, and there is no user {USER}"
    return ""


class Server:
    """A server with its own data, in a folder below `above`. `stop` and `start` may follow one another, and `close` deletes
    all. It may be a standby, which begins as a copy of another server."""

    def __init__(self, settings=(), port=5432, copy_of=None, above=None):
        self.folder, self.port = Path(tempfile.mkdtemp(prefix="kovshenul-", dir=above)), port
        self.as_user = {"user": USER, "group": USER, "extra_groups": []} if os.getuid() == 0 else {}
        if self.as_user:
            shutil.chown(self.folder, USER, USER)
        if copy_of is None:
            self._call("initdb", "-D", self.data, "-A", "trust", "-U", "tester", "-E", "UTF8", "--no-sync")
        else:
            words = "-h", copy_of.folder, "-p", str(copy_of.port), "-U", "tester", "-D", self.data, "-R", "-X", "stream"
            self._call("pg_basebackup", *words)
        lines = ["listen_addresses = ''", f"unix_socket_directories = '{self.folder}'", f"port = {port}", *settings]
        with open(self.data / "postgresql.conf", "a") as file:
            file.write("\n".join(lines) + "\n")
        self.start()

    @property
    def data(self):
        return self.folder / "data"

    def _call(self, program, *words):
        """Calls one of PostgreSQL's programs as the user."""
        streams = dict.fromkeys(("stdin", "stdout", "stderr"), subprocess.DEVNULL)
        subprocess.run([str(programs() / program), *map(str, words)], check=True, cwd="/", **streams, **self.as_user)

    def start(self):
        """Starts the server, and waits until it answers."""
        self._call("pg_ctl", "-D", self.data, "-l", self.folder / "log", "-w", "-t", "60", "start")

    def stop(self, mode="fast"):
        """Stops the server. The mode `immediate` ends it as a crash does."""
        self._call("pg_ctl", "-D", self.data, "-m", mode, "-w", "stop")

    def promote(self):
        """Makes a standby the server that writes."""
        self._call("pg_ctl", "-D", self.data, "-w", "promote")

    def connect(self, schema="public", seconds=20):
        """A new connection, to tables of a schema. It waits for a server that is started at the same time."""
        import psycopg2

        until = time.monotonic() + seconds
        while True:
            try:
                words = {"host": str(self.folder), "port": self.port, "user": "tester", "dbname": "postgres"}
                return psycopg2.connect(**words, options=f"-c search_path={schema}")
            except psycopg2.OperationalError:
                if time.monotonic() > until:
                    raise
                time.sleep(0.05)

    def close(self):
        """Ends the server, and deletes its data."""
        try:
            self.stop("immediate")
        except subprocess.CalledProcessError:
            pass
        shutil.rmtree(self.folder)

    def __enter__(self):
        return self

    def __exit__(self, *_exception):
        self.close()
