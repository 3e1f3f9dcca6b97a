"""A register in a file of SQLite."""

import contextlib
import os
import sqlite3
from collections.abc import Callable, Iterable, Iterator, Sequence
from pathlib import Path

from .faults import Unknown, Unusable
from .idle import Idle
from .register import MISSING, NO_HOLDERS, Register, Result, Row, Transaction, checked_lines, checked_row

TABLE = """create table if not exists registered (
    label text primary key check (typeof(label) = 'text'),
    holder text check (holder is null or typeof(holder) = 'text')
) without rowid"""
FIRST = "select label, holder from registered where label >= ? collate binary order by label collate binary limit 1"


class SqliteTransaction(Transaction):
    """A transaction of one connection."""

    def __init__(self, connection: sqlite3.Connection) -> None:
        self._connection = connection

    def first_rows(self, texts: Sequence[str]) -> list[Row | None]:
        rows: list[Row | None] = []
        for text in texts:
            row = self._connection.execute(FIRST, (text,)).fetchone()
            rows.append(row and checked_row(row[0], row[1], text))
        return rows

    def insert(self, label: str, holder: str | None) -> None:
        self._connection.execute("insert into registered (label, holder) values (?, ?)", (label, holder))

    def delete(self, label: str) -> bool:
        done = self._connection.execute("delete from registered where label = ? collate binary", (label,))
        return done.rowcount > 0


class SqliteRegister(Register):
    """A register in a file. SQLite has one writer at a time, and a change is a writer from its first question on (`begin
    immediate`): so nothing comes between the answer that a label is free and its registration. A process that is killed
    leaves its journal, by which the next one undoes what was half done."""

    def __init__(self, place: str, path: str, seconds: float, must_be: bool) -> None:
        super().__init__(place, path)
        self._path = Path(path)
        self._seconds = seconds
        self._idle: Idle[sqlite3.Connection] = Idle()
        # Device and number of the file that was opened.
        self._file: tuple[int, int] | None = None
        if must_be:
            with self._connection() as connection:
                self._check(connection)

    def _open(self, mode: str = "rw") -> sqlite3.Connection:
        """A connection; a file is made only for a load, since under an empty register each label would be free."""
        uri = f"{self._path.absolute().as_uri()}?mode={mode}"
        opened = sqlite3.connect(uri, uri=True, timeout=self._seconds, isolation_level=None, check_same_thread=False)
        self._file = self._file or self._file_there()
        return opened

    def _file_there(self) -> tuple[int, int] | None:
        """The file that stands there now, if one does."""
        try:
            found = os.stat(self._path)
        except OSError:
            return None
        return found.st_dev, found.st_ino

    def _check_file(self) -> None:
        """That it is the file that was opened. What is written to one that was deleted or replaced is lost without a word."""
        if self._file and self._file_there() != self._file:
            raise self.unusable("no longer the file that was opened: put that back, or start again")

    @contextlib.contextmanager
    def _connection(self, mode: str = "rw") -> Iterator[sqlite3.Connection]:
        """A connection that no other thread uses; one that failed isn't used again."""
        self._check_file()
        connection = self._idle.take()
        try:
            connection = connection or self._open(mode)
            yield connection
        except sqlite3.Error as error:
            if connection:
                connection.close()
            raise self._told(error) from error
        except BaseException:
            if connection:
                connection.close()
            raise
        self._idle.keep(connection)

    def _told(self, error: sqlite3.Error) -> Unknown | Unusable:
        """What a fault of SQLite says of the request."""
        code = getattr(error, "sqlite_errorname", "")
        if code == "SQLITE_CANTOPEN":
            remedy = "look at it and at its folder, and at their rights, or mend register"
            return self.unusable(MISSING if self._is_missing() else f"{error}: {remedy}")
        if code in ("SQLITE_NOTADB", "SQLITE_CORRUPT"):
            return self.unusable(f"{error}: put back its backup")
        # There is no code of its own for it.
        if str(error).startswith("no such table"):
            return self.unusable(MISSING)
        return self.unknown(str(error))

    def _is_missing(self) -> bool:
        """Whether there is no such file, and one could be made."""
        return self._path.parent.is_dir() and not self._path.exists()

    def _check(self, connection: sqlite3.Connection) -> None:
        """That it is a register."""
        columns = {row[1] for row in connection.execute("pragma table_info(registered)")}
        if not columns:
            raise self.unusable(MISSING)
        if not {"label", "holder"} <= columns:
            raise self.unusable(NO_HOLDERS)
        if connection.execute("pragma encoding").fetchone()[0] != "UTF-8":
            raise self.unusable("not in UTF-8: dump it, and load it into a new one")

    @contextlib.contextmanager
    def reading(self) -> Iterator[Transaction]:
        with self._connection() as connection:
            connection.execute("begin")
            yield SqliteTransaction(connection)
            connection.execute("commit")

    def change(self, job: Callable[[Transaction], Result]) -> Result:
        with self._connection() as connection:
            connection.execute("begin immediate")
            result = job(SqliteTransaction(connection))
            connection.execute("commit")
            return result

    def rows(self) -> Iterator[Row]:
        with self._connection() as connection:
            yield from connection.execute("select label, holder from registered order by label collate binary")

    def texts(self) -> tuple[bytes, bytes]:
        with self._connection() as connection:
            connection.execute("begin")
            labels = text(connection, "label", "true", "(select count(*) from registered)")
            holders = text(connection, "label || '\t' || holder", "holder is not null", "count(*)")
            connection.execute("commit")
        return labels, holders

    def load(self, rows: Iterable[Row]) -> None:
        with self._connection("rwc") as connection:
            # Readers go on while a change is written.
            connection.execute("pragma journal_mode = wal")
            connection.execute("begin immediate")
            connection.execute(TABLE)
            self._check(connection)
            try:
                connection.executemany("insert into registered (label, holder) values (?, ?)", rows)
            except sqlite3.IntegrityError as error:
                raise self.unusable(f"{error}: nothing was loaded") from error
            connection.execute("commit")

    def is_made(self) -> bool:
        if self._is_missing():
            return False
        with self._connection() as connection:
            return connection.execute("select 1 from sqlite_master where name = 'registered'").fetchone() is not None

    def where(self) -> str:
        return f"sqlite:{self._path}"

    def faults(self) -> list[str]:
        with self._connection() as connection:
            plan = " ".join(str(row[3]) for row in connection.execute(f"explain query plan {FIRST}", ("",)))
        if "SEARCH" in plan and "TEMP B-TREE" not in plan:
            return []
        return [f"{self.name}: no index in byte order, so each look-up reads all labels: "
                "create index registered_label on registered (label collate binary)"]

    def close(self) -> None:
        self._idle.close()


def text(connection: sqlite3.Connection, line: str, where: str, number: str) -> bytes:
    """A line of each of some rows, of which there is a number, in label order."""
    # As rows a million labels take several times the time. What is put together has the order of a search of the primary key,
    # or of a subquery, which takes twice the time.
    query = f"""select {number}, cast(group_concat({line}, '\n') as blob) from {{}}
        where label >= '' collate binary and {where}"""
    plan = [row[-1] for row in connection.execute("explain query plan " + query.format("registered"))]
    is_in_order = "SEARCH registered USING PRIMARY KEY (label>?)" in plan
    rows = "registered" if is_in_order else "(select label, holder from registered order by label collate binary)"
    count, found = connection.execute(query.format(rows)).fetchone()
    return checked_lines((found or b"") + b"\n" * bool(count), count)
