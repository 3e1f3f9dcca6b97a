"""A register in a database of PostgreSQL, by psycopg."""

import contextlib
import json
import math
import random
import select
import sys
import time
from collections.abc import Callable, Iterable, Iterator, Sequence
from typing import Any

from .faults import Unusable
from .idle import Idle
from .register import MISSING, NO_HOLDERS, Register, Result, Row, Transaction, checked_lines, checked_row

try:
    import psycopg
    from psycopg import pq
except ImportError as error:
    raise Unusable(f"{sys.executable} has no psycopg, which PostgreSQL needs: apt-get install python3-psycopg is for "
                   "/usr/bin/python3, and pip install psycopg for any other") from error

TABLE = """create table if not exists registered (
    label text collate "C" primary key,
    holder text
)"""
# So many labels are read at once.
PAGE = 1_000_000
FIRST = 'select label, holder from registered where label >= {} collate "C" order by label collate "C" limit 1'
FIRST_ROW = FIRST.format("$1")
# For each line its number, from 1, and the first row from it on, where there is one. As one text, since each look at a value is
# a call of libpq, at which another thread may go on in place of this one. To read lines takes less time than to read JSON.
FIRST_ROWS = f"""select json_agg(json_build_array(number, label, holder)) from unnest(string_to_array($1, chr(10)))
    with ordinality as asked(text, number) cross join lateral ({FIRST.format("asked.text")}) as found"""
# A socket takes a statement with so many texts at once.
MOST_TEXTS = 16
INSERT = "insert into registered (label, holder) values ($1, $2)"
DELETE = 'delete from registered where label = $1 collate "C"'
# What PostgreSQL says to a transaction that another one got in the way of. It says so of a key that both insert, too.
AGAIN = (psycopg.errors.SerializationFailure, psycopg.errors.DeadlockDetected, psycopg.errors.UniqueViolation)
# Transactions only read unless they begin with a statement that says otherwise, and see one state.
OPTIONS = r"-c default_transaction_isolation=repeatable\ read -c default_transaction_read_only=on"
CHANGE = "begin isolation level serializable read write"
DONE = (pq.ExecStatus.COMMAND_OK, pq.ExecStatus.TUPLES_OK)
Connection = psycopg.Connection[Any]
SCHEME = "postgresql://"
# The parts of a URI that say where a database is.
PLACE = ("host", "port", "dbname")


class TooSlow(psycopg.OperationalError):
    """A server that doesn't even say that a statement took too long."""


class Session:
    """A connection that no other thread uses. What each request asks goes to libpq as prepared statements: by psycopg's cursors
    it takes several times the processor time where psycopg is in Python alone, as Debian has it, and no server that hangs is
    noticed. In libpq's pipeline mode all that is sent up to a sync is one transaction, so that a request that only reads waits
    for nothing but what it looks up."""

    def __init__(self, connect: Callable[[], Connection], seconds: float) -> None:
        self._connect = connect
        self._seconds = seconds
        self._take(connect())

    def _take(self, connection: Connection) -> None:
        self._connection = connection
        self._libpq = connection.pgconn
        self._libpq.enter_pipeline_mode()
        self._poll = select.poll()
        self._poll.register(self._libpq.socket, select.POLLIN)
        self._prepared: dict[str, bytes] = {}
        # The statements that were sent and whose results weren't read.
        self._due = 0

    def begin(self, statement: str | None) -> None:
        """A transaction begins with the next statement: by a statement, else as those of the connection do."""
        self._first = statement
        self._is_answered = False

    def end(self) -> None:
        """Ends a transaction that was only read, or is over. Nothing is waited for: what comes is read with the next one."""
        self._libpq.pipeline_sync()

    def close(self) -> None:
        """Ends the connection, and undoes what wasn't committed."""
        self._connection.close()

    def ask(self, statement: str, *given: str | None) -> pq.abc.PGresult:
        """What a statement gives with texts in the place of $1 and so on. If the connection ended since the transaction before,
        as it does with a restart of the server, there is a new one. Raises psycopg.Error."""
        is_old = self._due == 0 and bool(self._prepared)
        try:
            return self._asked(statement, given)
        except psycopg.OperationalError as error:
            if self._is_answered or not is_old or not has_ended(error):
                raise
        self.close()
        self._take(self._connect())
        return self._asked(statement, given)

    def _asked(self, statement: str, given: Sequence[str | None]) -> pq.abc.PGresult:
        if not self._is_answered and self._first is not None:
            self._send(self._first, ())
        self._send(statement, given)
        self._libpq.send_flush_request()
        # A socket takes each statement at once.
        self._libpq.flush()
        result = self._result()
        self._is_answered = True
        return result

    def _send(self, statement: str, given: Sequence[str | None]) -> None:
        """Puts a statement into the pipeline."""
        name = self._prepared.get(statement)
        if name is None:
            name = self._prepared[statement] = f"idn2_registry_{len(self._prepared)}".encode()
            self._libpq.send_prepare(name, statement.encode())
            self._due += 1
        # None is NULL, which the types of psycopg don't say.
        texts: list[Any] = [None if text is None else parameter(text) for text in given]
        self._libpq.send_query_prepared(name, texts)
        self._due += 1

    def _result(self) -> pq.abc.PGresult:
        """The last result of what was sent. Raises psycopg.Error for the first that failed."""
        until = time.monotonic() + self._seconds
        while True:
            while self._libpq.is_busy():
                if not self._poll.poll(max(0, until - time.monotonic()) * 1000):
                    raise TooSlow(f"no answer within {self._seconds:g} seconds")
                self._libpq.consume_input()
            result = self._libpq.get_result()
            if result is None:
                raise psycopg.OperationalError("the server gave no result")
            status = result.status
            # The end of the transaction before.
            if status == pq.ExecStatus.PIPELINE_SYNC:
                continue
            if status not in DONE:
                raise fault_of(result)
            # None comes after each.
            self._libpq.get_result()
            self._due -= 1
            if not self._due:
                return result

    def commit(self) -> None:
        """Commits the transaction. Raises psycopg.Error where it is undone."""
        if self.ask("commit").command_status != b"COMMIT":
            raise psycopg.OperationalError("the transaction was undone")


def has_ended(error: psycopg.Error) -> bool:
    """Whether the server ended the connection, or it broke."""
    return not isinstance(error, TooSlow) and (error.sqlstate is None or error.sqlstate.startswith("57P"))


def parameter(text: str) -> bytes:
    """A text as libpq takes it, for which a NUL ends it."""
    if "\0" in text:
        raise psycopg.DataError("a text of PostgreSQL has no NUL")
    return text.encode()


def lines_of(texts: Sequence[str]) -> str:
    """Texts as lines, which none of them has."""
    if any("\n" in text for text in texts):
        raise psycopg.DataError("a text that is asked for has no line feed")
    return "\n".join(texts)


def fault_of(result: pq.abc.PGresult) -> psycopg.Error:
    """The error of a statement that failed."""
    code = result.error_field(pq.DiagnosticField.SQLSTATE)
    try:
        # Without a code the connection is broken.
        fault: type[psycopg.Error] = psycopg.errors.lookup(code.decode()) if code else psycopg.OperationalError
    except KeyError:
        fault = psycopg.DatabaseError
    return fault(result.error_message.decode("utf-8", "replace"))


class PostgresqlTransaction(Transaction):
    """A transaction of one session."""

    def __init__(self, session: Session) -> None:
        self._session = session

    def first_rows(self, texts: Sequence[str]) -> list[Row | None]:
        return [row for start in range(0, len(texts), MOST_TEXTS) for row in self._rows(texts[start:start + MOST_TEXTS])]

    def _rows(self, texts: Sequence[str]) -> list[Row | None]:
        """The same of so many that a socket takes. Most turns ask for one alone, with which a list takes twice the time."""
        if len(texts) == 1:
            return [self._first_row(texts[0])]
        rows: list[Row | None] = [None] * len(texts)
        told = self._session.ask(FIRST_ROWS, lines_of(texts)).get_value(0, 0)
        for number, label, holder in json.loads(told or b"[]"):
            rows[number - 1] = checked_row(label, holder, texts[number - 1])
        return rows

    def _first_row(self, text: str) -> Row | None:
        found = self._session.ask(FIRST_ROW, text)
        if not found.ntuples:
            return None
        label, holder = (None if told is None else told.decode() for told in map(found.get_value, (0, 0), (0, 1)))
        return checked_row(label, holder, text)

    def insert(self, label: str, holder: str | None) -> None:
        self._session.ask(INSERT, label, holder)

    def delete(self, label: str) -> bool:
        return bool(self._session.ask(DELETE, label).command_tuples)


class PostgresqlRegister(Register):
    """A register in a database. Changes are serializable transactions: those that are committed are as if one had run after
    the other. PostgreSQL notes what each has looked up, also where it found nothing. So if two each find free what the other
    registers, one of them is stopped, and asks again here. One that is killed isn't committed."""

    def __init__(self, place: str, uri: str, seconds: float, must_be: bool) -> None:
        """Raises ValueError for what is no URI."""
        told = parts_of(uri)
        super().__init__(place, named(*(told.get(name) for name in PLACE)))
        self._uri = uri
        self._seconds = seconds
        self._idle: Idle[Session] = Idle()
        if must_be:
            with self._connected() as connection:
                self._check(connection)

    def _open(self) -> Connection:
        """A connection, whose statements have the time of a request. After a failure of the server another one may answer: so
        each time it is asked whether it is a copy."""
        options = f"-c statement_timeout={math.ceil(self._seconds * 1000)} {OPTIONS}"
        try:
            # Transactions are begun here.
            connection = psycopg.connect(self._uri, autocommit=True, client_encoding="UTF8",
                                         connect_timeout=math.ceil(self._seconds), options=options)
            is_copy = value(connection, "select pg_is_in_recovery()")
            isolation = value(connection, "show transaction_isolation")
        except psycopg.Error as error:
            raise self.unknown(f"{first_line(error)}: start or make the database, or mend register") from error
        if is_copy:
            connection.close()
            raise self.unusable("a copy, which may lag: name the server on which labels are registered")
        if isolation != "repeatable read":
            connection.close()
            raise self.unusable("what stands before the server drops options of connections: name the server itself")
        return connection

    @contextlib.contextmanager
    def _told(self) -> Iterator[None]:
        """Says what a fault of PostgreSQL says of the request; but not of one that is asked again."""
        try:
            yield
        except AGAIN:
            raise
        except psycopg.errors.UndefinedTable as error:
            raise self.unusable(MISSING) from error
        except psycopg.Error as error:
            raise self.unknown(first_line(error)) from error

    @contextlib.contextmanager
    def _connected(self) -> Iterator[Connection]:
        """A connection for what isn't asked by each request, which psycopg does."""
        with self._told(), contextlib.closing(self._open()) as connection:
            yield connection

    @contextlib.contextmanager
    def _session(self, begin: str | None = None) -> Iterator[Session]:
        """A transaction in a session that no other thread uses; one that failed isn't used again."""
        # The server itself ends a statement after the time of a request.
        session = self._idle.take() or Session(self._open, self._seconds + 1)
        try:
            with self._told():
                session.begin(begin)
                yield session
        except BaseException:
            session.close()
            raise
        try:
            session.end()
        except psycopg.Error:
            # What was asked is known by now, and what was changed is committed.
            session.close()
            return
        self._idle.keep(session)

    def _check(self, connection: Connection) -> None:
        """That it is a register."""
        if value(connection, "show server_encoding") != "UTF8":
            raise self.unusable("not in UTF-8: createdb --encoding=UTF8 --template=template0 makes one that is")
        if value(connection, "select to_regclass('registered')") is None:
            raise self.unusable(MISSING)
        columns = connection.execute("select attname from pg_attribute where attrelid = 'registered'::regclass and attnum > 0"
                                     " and not attisdropped").fetchall()
        if not {"label", "holder"} <= {name for name, in columns}:
            raise self.unusable(NO_HOLDERS)

    @contextlib.contextmanager
    def reading(self) -> Iterator[Transaction]:
        with self._session() as session:
            yield PostgresqlTransaction(session)

    def change(self, job: Callable[[Transaction], Result]) -> Result:
        until = time.monotonic() + self._seconds
        wait = 0.001
        while True:
            try:
                return self._changed(job)
            except AGAIN as error:
                if time.monotonic() + wait > until:
                    raise self.unknown(f"others changed the same labels for {self._seconds:g} seconds") from error
            time.sleep(random.uniform(0, wait))
            wait = min(2 * wait, 0.1)

    def _changed(self, job: Callable[[Transaction], Result]) -> Result:
        """What a job gives in one transaction."""
        with self._session(CHANGE) as session:
            result = job(PostgresqlTransaction(session))
            try:
                session.commit()
            except psycopg.OperationalError as error:
                if isinstance(error, AGAIN):
                    raise
                raise self.unknown(f"{first_line(error)}: it may be done or not: ask again") from error
            return result

    @contextlib.contextmanager
    def _unbounded(self, begin: str) -> Iterator[Connection]:
        """A transaction for long work."""
        with self._connected() as connection:
            connection.execute(begin)
            connection.execute("set local statement_timeout = 0")
            yield connection

    def rows(self) -> Iterator[Row]:
        with self._unbounded("begin") as connection:
            with connection.cursor("labels") as cursor:
                cursor.itersize = 10_000
                cursor.execute('select label, holder from registered order by label collate "C"')
                yield from cursor

    def texts(self) -> tuple[bytes, bytes]:
        # As rows a million labels take several times the time, and no text has more than 1 GB: so it is made in pages.
        with self._unbounded("begin") as connection:
            labels = b"".join(pages(connection, "label", "true"))
            return labels, b"".join(pages(connection, "label || chr(9) || holder", "holder is not null"))

    def load(self, rows: Iterable[Row]) -> None:
        with self._unbounded(CHANGE) as connection:
            connection.execute(TABLE)
            self._check(connection)
            try:
                with connection.cursor().copy("copy registered (label, holder) from stdin") as copy:
                    for row in rows:
                        copy.write_row(row)
                connection.commit()
            except psycopg.IntegrityError as error:
                raise self.unusable(f"{first_line(error)}: nothing was loaded") from error

    def is_made(self) -> bool:
        with self._connected() as connection:
            return value(connection, "select to_regclass('registered')") is not None

    def where(self) -> str:
        with self._connected() as connection:
            # What the URI doesn't say libpq knows.
            return named(connection.info.host, connection.info.port, connection.info.dbname)

    def faults(self) -> list[str]:
        with self._connected() as connection:
            connection.execute("set enable_seqscan = off")
            rows = connection.execute("explain " + FIRST.format("''")).fetchall()
        plan = " ".join(line for line, in rows)
        if "Index Cond" in plan and "Sort" not in plan:
            return []
        return [f"{self.name}: no index in byte order, so each look-up reads all labels: "
                'create index registered_label on registered (label collate "C")']

    def close(self) -> None:
        self._idle.close()


def parts_of(uri: str) -> dict[str, Any]:
    """The parts of a URI, of which those of its place have nothing of a password. Raises ValueError for what is no URI."""
    before, _, path = uri.partition("?")[0].removeprefix(SCHEME).partition("/")
    # Of a password with such a letter libpq takes the rest for the place.
    if before.count("@") > 1 or "@" in path:
        raise ValueError("the user or the password has an @ or a /, which is %40 or %2F there")
    try:
        told = psycopg.conninfo.conninfo_to_dict(uri)
    except psycopg.Error as error:
        # What is quoted there may have a password in it.
        raise ValueError(first_line(error).partition('"')[0].rstrip(": ")) from error
    if not set(told.get("port", "")) <= set("0123456789,"):
        raise ValueError("the port is no number; or the user or the password has a /, : or ?, which is %2F, %3A or %3F there")
    return told


def named(*parts: object) -> str:
    """A place as an operator is told."""
    return "postgresql: " + ", ".join(f"{name} {part}" for name, part in zip(PLACE, parts, strict=True) if part)


def pages(connection: Connection, text: str, which: str) -> Iterator[bytes]:
    """A text of each label of some, in label order and each on a line."""
    query = f"""select count(*), string_agg(text, chr(10) order by label collate "C"), max(label collate "C") from (
        select label, {text} as text from registered where {which} and label > %s collate "C" order by label collate "C"
        limit {PAGE}) as page"""
    last = ""
    while True:
        row = connection.execute(query, (last,)).fetchone()
        count, found, last = row or (0, None, "")
        if not count:
            return
        yield checked_lines(f"{found}\n".encode(), count)


def value(connection: Connection, query: str) -> object:
    """The one value that a query gives."""
    row = connection.execute(query).fetchone()
    return row[0] if row else None


def first_line(error: BaseException) -> str:
    """What PostgreSQL says, in one line."""
    return (str(error).strip().splitlines() or [type(error).__name__])[0]
