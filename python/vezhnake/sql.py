"""An image in a table of a database."""
from __future__ import annotations

import re
import secrets
import sys
from typing import Any

from .storage import SECTOR, Bytes

# Rows beside the sectors: how many sectors the image has, and which storage may write it.
SIZE, OWNER = -1, -2
ZEROS = bytes(SECTOR)
# How a statement marks its parameters.
MARKS = {"qmark": ("?", "?"), "format": ("%s", "%s"), "pyformat": ("%s", "%s"), "numeric": (":1", ":2")}


class SqlStorage:
    """An image in a table, by any DB-API connection. Each batch of writes up to a sync is one transaction. The connection must be no autocommit
    connection, and is closed with the storage.

    The storage that read the table last owns it: an older one fails at its next sync. So another host may take over at any time.
    """

    def __init__(self, connection: Any, table: str = "vezhnake") -> None:
        if not re.fullmatch(r"[A-Za-z_]\w*(\.[A-Za-z_]\w*)?", table):
            raise ValueError(f"{table!r} names no table")
        self.connection, self.table = connection, table
        packages = [it.__module__.split(".")[0] for it in type(connection).__mro__]
        self._module = next((it for it in packages if hasattr(sys.modules.get(it), "paramstyle")), "")
        if not self._module:
            raise TypeError(f"{connection!r} is no DB-API connection")
        # sqlite3 has no transactions where the isolation level is None; elsewhere that is the server's default.
        is_bare = self._module == "sqlite3" and connection.isolation_level is None
        if is_bare or getattr(connection, "autocommit", False) is True:
            raise ValueError("an autocommit connection has no transactions")
        self._marks = MARKS[sys.modules[self._module].paramstyle]
        self._pending: dict[int, bytes] = {}
        self._owner = secrets.token_bytes(16)

    @classmethod
    def create(cls, connection: Any, image: Bytes, table: str = "vezhnake") -> SqlStorage:
        """Makes the table, and stores an image in it, in one transaction."""
        storage, data = cls(connection, table), bytes(image)
        if len(data) % SECTOR:
            raise ValueError("the image isn't a whole number of sectors")
        kind = "BYTEA" if storage._module in ("psycopg", "psycopg2", "pg8000", "asyncpg") else "BLOB"
        rows = {SIZE: (len(data) // SECTOR).to_bytes(8, "little"), OWNER: storage._owner}
        rows.update((it, data[it * SECTOR : (it + 1) * SECTOR]) for it in range(len(data) // SECTOR))
        with _Transaction(connection) as cursor:
            cursor.execute(f"CREATE TABLE {table} (sector INTEGER PRIMARY KEY, data {kind} NOT NULL)")
            storage._insert(cursor, rows)
        return storage

    def read(self) -> bytes:
        """Takes the table over, and returns the image."""
        with _Transaction(self.connection) as cursor:
            one, other = self._marks
            cursor.execute(f"UPDATE {self.table} SET data = {one} WHERE sector = {other}", (self._owner, OWNER))
            cursor.execute(f"SELECT sector, data FROM {self.table}")
            rows = {sector: bytes(data) for sector, data in cursor.fetchall()}
        if SIZE not in rows:
            raise ValueError(f"the table {self.table} has no image")
        image = bytearray(int.from_bytes(rows[SIZE], "little") * SECTOR)
        for sector, data in rows.items():
            if sector >= 0:
                image[sector * SECTOR : (sector + 1) * SECTOR] = data
        self._pending.clear()
        return bytes(image)

    def write(self, byte: int, data: bytes) -> int:
        """Keeps whole sectors until the next sync."""
        if byte % SECTOR or len(data) % SECTOR:
            raise ValueError("a write isn't of whole sectors")
        for place in range(0, len(data), SECTOR):
            self._pending[(byte + place) // SECTOR] = data[place : place + SECTOR]
        return len(data)

    def sync(self) -> None:
        """Writes what is kept in one transaction. Raises PermissionError if another storage has taken the table over."""
        one = self._marks[0]
        with _Transaction(self.connection) as cursor:
            # This also keeps a taker out until the transaction ends.
            cursor.execute(f"UPDATE {self.table} SET data = data WHERE sector = {OWNER} AND data = {one}", (self._owner,))
            if cursor.rowcount != 1:
                raise PermissionError("another program has taken the image over")
            if self._pending:
                cursor.executemany(f"DELETE FROM {self.table} WHERE sector = {one}", [(it,) for it in self._pending])
                self._insert(cursor, self._pending)
        self._pending.clear()

    def close(self) -> None:
        """Closes the connection. Writes since the last sync are lost."""
        self.connection.close()

    def _insert(self, cursor: Any, rows: dict[int, bytes]) -> None:
        """Inserts rows. A sector of zeros has none."""
        one, other = self._marks
        some = [(number, data) for number, data in rows.items() if number < 0 or data != ZEROS]
        cursor.executemany(f"INSERT INTO {self.table} (sector, data) VALUES ({one}, {other})", some)


class _Transaction:
    """A cursor, whose changes are committed at the end, or rolled back after an exception."""

    def __init__(self, connection: Any) -> None:
        self.connection = connection

    def __enter__(self) -> Any:
        self.cursor = self.connection.cursor()
        return self.cursor

    def __exit__(self, kind: Any, error: Any, trace: Any) -> None:
        if kind is None:
            self.connection.commit()
        else:
            try:
                self.connection.rollback()
            except Exception:  # noqa: S110
                # The first exception is the one to report.
                pass
        self.cursor.close()
