"""What checks/library tries of SqlStorage, over SQLite and over PostgreSQL."""
import os
import pwd
import shutil
import signal
import sqlite3
import subprocess
import sys
import time
from pathlib import Path

from cases import need
from common import EXAMPLES, ROOT
from library_python import kill, raises, vezhnake

COUNTER = EXAMPLES / "embed" / "counter_sql.py"


def count_once(python, database, *image):
    """Counts once, and returns the count."""
    words = [python, COUNTER, database, "1", *image]
    done = subprocess.run(
        [str(it) for it in words], stdin=subprocess.DEVNULL, capture_output=True, text=True, timeout=60,
        env={**os.environ, "PYTHONPATH": str(ROOT / "python")},
    )
    need(done.returncode == 0, f"counting in {database}: {done.stderr}")
    return int(done.stdout)


def try_takeover(connect):
    """A second storage takes the table over. The first one fails at its next save, and saves nothing."""
    with vezhnake.Machine(vezhnake.SqlStorage(connect())) as first:
        first.call(1, 6, 2, 1, 5)
        with vezhnake.Machine(vezhnake.SqlStorage(connect())) as second:
            error = raises(vezhnake.StorageError, "a save after a takeover", first.save)
            need(isinstance(error.__cause__, PermissionError), f"a takeover is reported as {error.__cause__!r}")
            need(second.page(16)[1] == 0, "a save after a takeover was carried out")
            second.call(1, 6, 2, 1, 7)
            second.save()
    with vezhnake.Machine(vezhnake.SqlStorage(connect())) as third:
        need(third.page(16)[1] == 7, "the save of the taker is lost")


class Cut(sqlite3.Connection):
    """A connection whose commits fail after some."""

    left = 100

    def commit(self):
        Cut.left -= 1
        if Cut.left < 0:
            raise sqlite3.OperationalError("disk I/O error")
        super().commit()


def try_failing_commits(database):
    """Each commit of a save fails in turn. The image has the old count or the new one, and none in between."""
    fails, left = 0, set()
    while True:
        Cut.left = 100
        machine = vezhnake.Machine(vezhnake.SqlStorage(sqlite3.connect(database, factory=Cut)))
        before = machine.page(16)[2]
        machine.call(1, 6, 2, 2, before + 1)
        Cut.left = fails
        try:
            machine.save()
        except vezhnake.StorageError as error:
            need("disk I/O error" in str(error), f"a failed commit is reported as {error}")
        else:
            break
        with vezhnake.Machine(vezhnake.SqlStorage(sqlite3.connect(database))) as again:
            left.add(again.page(16)[2] - before)
        fails += 1
    need(fails >= 2 and 0 in left and left <= {0, 1}, f"{fails} failed commits left {left}")


def try_sqlite(folder, image, chance):
    """SqlStorage over SQLite."""
    database = folder / "counter.db"
    need(count_once(sys.executable, database, image) == 1, "the first count in SQLite is another one")
    last = kill([sys.executable, COUNTER], database, chance, 30)
    try_takeover(lambda: sqlite3.connect(database))
    try_failing_commits(database)
    raises(ValueError, "an autocommit connection", lambda: vezhnake.SqlStorage(sqlite3.connect(database, isolation_level=None)))
    raises(ValueError, "a table with a space", lambda: vezhnake.SqlStorage(sqlite3.connect(database), "a b"))
    with sqlite3.connect(database) as connection:
        rows = connection.execute("SELECT count(*) FROM vezhnake").fetchone()[0]
    need(rows < 100, f"the table has {rows} rows, for an image that is mostly zeros")
    print(f"SqlStorage over SQLite was killed 30 times, and lost no count up to {last}")


class Server:
    """PostgreSQL in a folder of its own, run by a user without privileges, reached by a socket alone."""

    def __init__(self, programs, folder):
        self.programs, self.folder = programs, folder
        name = next((it for it in ("postgres", "nobody") if os.geteuid() == 0 and self.is_user(it)), None)
        self.as_user = {"user": name, "group": pwd.getpwnam(name).pw_gid, "extra_groups": []} if name else {}
        folder.mkdir()
        folder.parent.chmod(0o755)
        if name:
            shutil.chown(folder, name)
        self.run("initdb", "-D", folder / "data", "-U", "test", "--auth=trust", "-E", "UTF8", "--locale=C")
        self.process = None

    @staticmethod
    def is_user(name):
        return any(it.pw_name == name for it in pwd.getpwall())

    def run(self, program, *words):
        done = subprocess.run(
            [str(it) for it in (self.programs / program, *words)], cwd=self.folder, stdin=subprocess.DEVNULL, capture_output=True, text=True,
            timeout=120, **self.as_user,
        )
        need(done.returncode == 0, f"{program}: {done.stderr}")

    def start(self):
        """Starts the server, and waits until it answers."""
        for _ in range(300):
            if self.process is None or self.process.poll() is not None:
                words = [self.programs / "postgres", "-D", self.folder / "data", "-c", "listen_addresses=", "-k", self.folder]
                log = (self.folder.parent / "postgres.log").open("ab")
                how = {"stdin": subprocess.DEVNULL, "stdout": log, "stderr": log, "cwd": self.folder, **self.as_user}
                self.process = subprocess.Popen([str(it) for it in words], **how)
            time.sleep(0.1)
            ready = subprocess.run([self.programs / "pg_isready", "-q", "-h", self.folder, "-U", "test"], check=False)
            if ready.returncode == 0:
                return
        need(False, "PostgreSQL doesn't answer")

    def crash(self):
        """Kills the server. Its other processes end because it has ended."""
        self.process.kill()
        self.process.wait()

    def stop(self):
        if self.process and self.process.poll() is None:
            self.process.send_signal(signal.SIGINT)
            self.process.wait(60)


def find_programs():
    """The folder with the programs of PostgreSQL, or None."""
    found = shutil.which("postgres")
    folders = [Path(found).resolve().parent] if found else []
    folders += sorted(Path("/usr/lib/postgresql").glob("*/bin"), reverse=True)
    return next((it for it in folders if all((it / name).exists() for name in ("postgres", "initdb", "pg_isready"))), None)


def find_python():
    """A Python that has psycopg2, or None."""
    for python in (sys.executable, "/usr/bin/python3"):
        if os.path.exists(python) and subprocess.run([python, "-c", "import psycopg2"], capture_output=True).returncode == 0:
            return python
    return None


def try_postgresql(folder, image, chance):
    """SqlStorage over PostgreSQL. The server is killed too."""
    programs, python = find_programs(), find_python()
    if programs is None or python is None:
        print(f"skipped: PostgreSQL, because {'its server' if programs is None else 'psycopg2'} is not here")
        return
    server = Server(programs, folder / "postgresql")
    try:
        server.start()
        database = f"host={server.folder} user=test dbname=postgres"
        url = f"postgresql:///postgres?host={server.folder}&user=test"
        need(count_once(python, url, image) == 1, "the first count in PostgreSQL is another one")

        def crash(number):
            if number % 5 == 4:
                server.crash()
                server.start()

        last = kill([python, COUNTER], url, chance, 20, crash)
        trying = "import psycopg2, library_sql; library_sql.try_takeover(lambda: psycopg2.connect(%r))" % database
        done = subprocess.run([python, "-c", trying], cwd=Path(__file__).parent, capture_output=True, text=True)
        need(done.returncode == 0, f"a takeover over PostgreSQL: {done.stderr}")
        print(f"SqlStorage over PostgreSQL was killed 20 times, the server 4 times, and lost no count up to {last}")
    finally:
        server.stop()
