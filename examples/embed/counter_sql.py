"""Counts as counter.py does, in a table of a database: a file of SQLite, or PostgreSQL by psycopg2. IMAGE makes the table first.

    PYTHONPATH=python python3 examples/embed/counter_sql.py counter.db 1000 counter.image
    PYTHONPATH=python python3 examples/embed/counter_sql.py 'postgresql:///mine?host=/run/postgresql' 1000
"""
import sqlite3
import sys
from pathlib import Path

import vezhnake


def connect(database):
    """A connection, and its errors."""
    if not database.startswith("postgresql:"):
        return sqlite3.connect(database), sqlite3.Error
    import psycopg2

    return psycopg2.connect(database), psycopg2.Error


def main(database, times, image=None):
    connection, errors = connect(database)
    try:
        if image:
            storage = vezhnake.SqlStorage.create(connection, Path(image).read_bytes())
        else:
            storage = vezhnake.SqlStorage(connection)
        with vezhnake.Machine(storage) as machine:
            first = machine.page(16)[0]
            for count in range(first + 1, first + 1 + int(times)):
                machine.call(1, 6, 2, 0, count)
                machine.save()
                print(count, flush=True)
    except (errors, vezhnake.Error) as error:
        sys.exit(f"counter_sql.py: {error}")


if __name__ == "__main__":
    if len(sys.argv) not in (3, 4) or not sys.argv[2].isdecimal():
        sys.exit("usage: counter_sql.py DATABASE TIMES [IMAGE]")
    main(*sys.argv[1:])
