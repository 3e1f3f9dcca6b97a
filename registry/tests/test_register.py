"""Who registers a label, with SQLite and with PostgreSQL: one of many at once, and nothing half."""

import contextlib
import json
import os
import signal
import sqlite3
import subprocess
import sys
import time
from collections.abc import Callable
from pathlib import Path

import pytest
from conftest import PROGRAM, Place
from postgresql import restart

from idn2_registry import Answer, Status, Unknown, Unusable
from idn2_registry.register import Row, Transaction

RACERS = 16
ROUNDS = 12
# Registers labels, each when it is told so by a line, and says which status it got.
RACER = """
import sys
from idn2_registry import Zone
with Zone.open(sys.argv[1], sys.argv[2]) as zone:
    zone.check("warm")
    print("ready", flush=True)
    for line in sys.stdin:
        answer = zone.register(line.rstrip("\\n"), sys.argv[3])
        print(answer.status.value, answer.reason or "", flush=True)
"""


def test_registers_and_releases(kind: Place) -> None:
    with kind.zone() as zone:
        assert zone.register("maß", "H1").status is Status.REGISTERED
        taken = zone.register("mass", "H2")
        assert taken.status is Status.TAKEN and [(each.ulabel, each.holder) for each in taken.taken_by] == [("maß", "H1")]
        assert zone.register("maß", "H1").status is Status.TAKEN
        assert zone.register("mass", "H1").status is Status.REGISTERED
        assert zone.release("xn--ma-hia").status is Status.RELEASED
        assert zone.release("maß").status is Status.FREE
        assert zone.release("Maß").status is Status.REFUSED
        assert zone.check("mass", "H1").status is Status.TAKEN
        for holder in ("", "a\tb", "a\n"):
            with pytest.raises(ValueError, match="holder"):
                zone.register("haus", holder)
        assert list(zone.registered.rows()) == [("mass", "H1")]


def test_finds_collisions_between_others(kind: Place) -> None:
    kind.load("haus", "sss", "strasse", "xyz", "ßs", "öl")
    with kind.zone() as zone:
        assert [each.ulabel for each in zone.check("sss").taken_by] == ["sss", "ßs"]
        assert [each.ulabel for each in zone.check("straße").taken_by] == ["strasse"]
        assert [each.ulabel for each in zone.check("öl").taken_by] == ["öl"]
        assert zone.check("zz").status is Status.AVAILABLE


def start_racer(place: Place, holder: str) -> "subprocess.Popen[str]":
    """A registrar in a process of its own."""
    words = [sys.executable, "-c", RACER, str(place.folder / "registry.toml"), str(PROGRAM), holder]
    return subprocess.Popen(words, env=place.environment, stdin=subprocess.PIPE, stdout=subprocess.PIPE, text=True, bufsize=1)


def test_one_of_sixteen_registrars_wins(kind: Place) -> None:
    kind.configure("processes = 1\n[limits]\nseconds = 30")
    racers = [start_racer(kind, f"H{number}") for number in range(RACERS)]
    try:
        for racer in racers:
            assert racer.stdout and racer.stdout.readline() == "ready\n"
        for turn in range(ROUNDS):
            # Each is a variant of each other; which registrar asks for which changes.
            labels = [f"straße{turn}", f"strasse{turn}"]
            for number, racer in enumerate(racers):
                assert racer.stdin
                racer.stdin.write(labels[(number + turn) % 2] + "\n")
                racer.stdin.flush()
            told = [racer.stdout.readline().split() for racer in racers if racer.stdout]
            assert sorted(each[0] for each in told) == ["registered"] + ["taken"] * (RACERS - 1), told
    finally:
        for racer in racers:
            racer.communicate()
    with kind.zone() as zone:
        assert len(list(zone.registered.rows())) == ROUNDS


def test_what_is_told_is_done(kind: Place) -> None:
    """Registrars are killed at any time: what one told as registered is, and of variants at most one is."""
    kind.configure("processes = 1\n[limits]\nseconds = 30")
    told: list[str] = []
    for turn in range(4):
        racers = [start_racer(kind, f"H{number}") for number in range(3)]
        for racer in racers:
            assert racer.stdout and racer.stdout.readline() == "ready\n"
        for number, racer in enumerate(racers):
            assert racer.stdin
            racer.stdin.write("".join(f"{'straße' if number % 2 else 'strasse'}{turn}x{each}\n" for each in range(300)))
            racer.stdin.flush()
        assert racers[turn % 3].stdout
        first = [racers[turn % 3].stdout.readline() for _ in range(10 * turn + 1)]  # type: ignore[union-attr]
        for racer in racers:
            racer.send_signal(signal.SIGKILL)
        for number, racer in enumerate(racers):
            output = [*(first if number == turn % 3 else []), *racer.communicate()[0].splitlines()]
            told += [f"{'straße' if number % 2 else 'strasse'}{turn}x{each}"
                     for each, line in enumerate(output) if line.startswith("registered")]
    with kind.zone() as zone:
        rows = [label for label, _ in zone.registered.rows()]
        assert set(told) <= set(rows) and len({label.replace("ß", "ss") for label in rows}) == len(rows) and told
        assert zone.register("haus").status is Status.REGISTERED


def test_loads_whole_or_not_at_all(kind: Place) -> None:
    kind.load("haus\tH1")
    kind.write("labels.txt", "xn--strae-oqa\r\n\nmaus\tH2\nMaus\nhaus\tH2\nhaus\tH1\nma\x01s\nmaus\tH3\nfa\udcff\n".encode(
        "utf-8", "surrogateescape"))
    told = ["labels.txt: line 2: 3 empty", "labels.txt: line 4: 10 disallowed code point: U+004D at place 1 (RFC 5892 2.2)",
            "labels.txt: line 7: control character: U+0001 at place 3", "labels.txt: line 9: 1 not UTF-8",
            "labels.txt: line 5: registered for another holder",
            "labels.txt: line 8: another holder than on a line above"]
    done = kind.run("load", "labels.txt")
    lines = done.stdout.decode().splitlines()
    assert sorted(lines[:-1]) == sorted(told), done
    assert (lines[-1], done.returncode) == ("9 lines, 0 loaded, 6 refused, 1 known already", 1), done
    kind.expect(["dump"], "haus\tH1\n", 0)
    done = kind.run("load", "--rest", "labels.txt")
    last = done.stdout.decode().splitlines()[-1]
    assert (last, done.returncode) == ("9 lines, 2 loaded, 6 refused, 1 known already", 1), done
    kind.expect(["dump"], "haus\tH1\nmaus\tH2\nstraße\n", 0)
    rows = [json.loads(line) for line in kind.run("dump", "--json").stdout.splitlines()]
    assert rows[2] == {"ulabel": "straße", "alabel": "xn--strae-oqa", "holder": None}
    # What is dumped can be loaded again.
    kind.write("again.txt", kind.run("dump").stdout)
    kind.expect(["load", "again.txt"], "3 lines, 0 loaded, 0 refused, 3 known already\n", 0)


def test_reads_all_labels_as_one_text(kind: Place, monkeypatch: pytest.MonkeyPatch) -> None:
    """With their holders, those of several pages, and of nothing; a text of several lines is no label."""
    kind.expect(["dump"], "", 0)
    lines = sorted([*(f"haus{number}\tH{number % 3}" for number in range(7)), "ä\tA|B C", "𠀀", "strasse"])
    kind.load(*lines)
    for size in (1, 3, 10, 1000):
        monkeypatch.setattr("idn2_registry.postgresql.PAGE", size)
        assert kind.run("dump").stdout.decode() == "".join(f"{line}\n" for line in lines), size
    with kind.zone() as zone:
        zone.registered.load([("a\nb", None)])
    done = kind.run("dump")
    assert done.returncode == 75 and not done.stdout and b"with a line feed" in done.stderr, done


def test_has_label_order(kind: Place) -> None:
    """As the bytes of UTF-8 have it, whatever the collation of the database."""
    labels = ["a", "a-b", "a0", "ab", "z", "ß", "ä", "ž", "а", "ا", "ก", "中", "𠀀"]
    kind.load(*labels)
    expected = sorted(labels, key=lambda label: label.encode())
    assert kind.run("dump").stdout.decode().split() == expected
    with kind.zone() as zone, zone.registered.reading() as transaction:
        rows = transaction.first_rows([*expected, *(label + "\u0001" for label in expected)])
    assert rows == [(label, None) for label in (*expected, *expected[1:])] + [None]


def test_a_transaction_sees_one_state_and_its_own_changes(kind: Place) -> None:
    kind.load("haus\tH1")
    with kind.zone() as zone:
        with zone.registered.reading() as transaction:
            assert transaction.first_rows(["a"]) == [("haus", "H1")]
            assert zone.register("igel").status is Status.REGISTERED and zone.release("haus").status is Status.RELEASED
            assert transaction.first_rows(["i", "haus"]) == [None, ("haus", "H1")]
        with zone.registered.reading() as transaction:
            assert transaction.first_rows(["a", "haus"]) == [("igel", None)] * 2

        def changed(transaction: Transaction) -> list[Row | None]:
            found = transaction.first_rows(["a"])
            transaction.insert("dachs", "H2")
            found += transaction.first_rows(["a"])
            transaction.delete("dachs")
            return found + transaction.first_rows(["a"])

        assert zone.registered.change(changed) == [("igel", None), ("dachs", "H2"), ("igel", None)]


def test_tells_what_a_register_lacks(bare: Place) -> None:
    bare.configure()
    with sqlite3.connect(bare.folder / "register.db") as database:
        database.execute("create table registered (label text collate nocase)")
    done = bare.run("check", "a")
    assert done.returncode == 75 and b"alter table registered add column holder text" in done.stderr, done
    with sqlite3.connect(bare.folder / "register.db") as database:
        database.execute("alter table registered add column holder text")
        database.execute("insert into registered values ('strasse', 'H1')")
    done = bare.run("check-config")
    assert done.returncode == 1 and b"create index registered_label" in done.stdout, done
    bare.expect(["check", "straße"], "straße: taken by strasse, held by H1\n", 1)


def test_says_that_a_database_is_away(server: Callable[[str], str], bare: Place, tmp_path: Path) -> None:
    bare.register = server("away").replace("/away", "/nowhere")
    bare.configure()
    done = bare.run("check", "haus")
    [line] = done.stderr.decode().splitlines()
    assert (done.stdout, done.returncode) == (b"", 75) and 'database "nowhere" does not exist' in line, line
    bare.register = f"postgresql://postgres@/x?host={tmp_path}&password=secret"
    bare.configure()
    done = bare.run("check", "haus")
    [line] = done.stderr.decode().splitlines()
    assert done.returncode == 75 and "secret" not in line and "connection" in line, line


def test_goes_on_after_a_session_has_ended(server: Callable[[str], str], bare: Place) -> None:
    bare.register = server("ended")
    bare.configure()
    bare.load("strasse")
    import psycopg

    with bare.zone() as zone:
        assert zone.check("straße").status is Status.TAKEN
        with psycopg.connect(bare.register, autocommit=True) as other:
            other.execute("select pg_terminate_backend(pid) from pg_stat_activity where pid <> pg_backend_pid()"
                          " and datname = current_database()")
        assert zone.check("straße").status is Status.TAKEN
        assert zone.register("maus").status is Status.REGISTERED


def test_a_server_that_hangs_makes_requests_unknown(server: Callable[[str], str], bare: Place) -> None:
    bare.register = server("hangs")
    bare.configure("[limits]\nseconds = 1")
    bare.load("haus")
    import psycopg

    with bare.zone() as zone, psycopg.connect(bare.register, autocommit=True) as other:
        query = "select pid from pg_stat_activity where pid <> pg_backend_pid() and datname = current_database()"
        asks: tuple[Callable[[str], Answer], ...] = (zone.check, zone.register)
        for ask in asks:
            assert zone.check("haus").status is Status.TAKEN
            stopped = [pid for pid, in other.execute(query)]
            assert stopped
            for pid in stopped:
                os.kill(pid, signal.SIGSTOP)
            start = time.monotonic()
            answer = ask("maus")
            assert answer.status is Status.UNKNOWN and "no answer within 2 seconds" in str(answer.reason), answer
            assert time.monotonic() - start < 10
            for pid in stopped:
                os.kill(pid, signal.SIGCONT)
        assert zone.register("maus").status is Status.REGISTERED


def test_asks_no_copy_after_a_failure(server: Callable[[str], str], bare: Place) -> None:
    """A server that is a copy answers in the place of the one that was asked before, and then that one again."""
    bare.register = server("failed")
    bare.configure()
    bare.load("haus")
    folder = Path(bare.register.partition("host=")[2])
    copy = folder / "data" / "standby.signal"
    with bare.zone() as zone:
        assert zone.check("haus").status is Status.TAKEN
        copy.touch()
        try:
            restart(str(folder))
            answer = zone.check("maus")
            assert (answer.status, answer.lasts) == (Status.UNKNOWN, True), answer
            assert "a copy, which may lag" in str(answer.reason), answer
            done = bare.run("check", "maus")
            assert done.returncode == 75 and b"a copy, which may lag" in done.stderr, done
        finally:
            copy.unlink()
            restart(str(folder))
        assert zone.check("haus").status is Status.TAKEN and zone.check("maus").status is Status.AVAILABLE


def test_writes_nothing_into_a_file_that_is_not_there_any_more(place: Place) -> None:
    """What SQLite writes into a file that was deleted, or in whose place another stands, is lost."""
    place.load("haus")
    file, backup = place.folder / "register.db", place.folder / "backup.db"
    with place.zone() as zone:
        assert zone.register("maus").status is Status.REGISTERED
        file.rename(backup)
        answer = zone.register("laus")
        assert (answer.status, answer.lasts) == (Status.UNKNOWN, True), answer
        assert "no longer the file that was opened" in str(answer.reason), answer
        file.write_bytes(backup.read_bytes())
        assert zone.check("haus").status is Status.UNKNOWN
        backup.rename(file)
        assert zone.check("haus").status is Status.TAKEN and zone.check("laus").status is Status.AVAILABLE


def test_says_that_there_is_no_register_any_more(kind: Place) -> None:
    with kind.zone() as zone:
        assert zone.register("maus").status is Status.REGISTERED
        drop(kind)
        for answer in (zone.check("maus"), zone.register("laus"), zone.release("maus")):
            assert (answer.status, answer.lasts) == (Status.UNKNOWN, True), answer
            assert "there is no register" in str(answer.reason), answer


def drop(place: Place) -> None:
    """Somebody drops the table."""
    if place.register.startswith("sqlite:"):
        with contextlib.closing(sqlite3.connect(place.folder / "register.db")) as database:
            database.execute("drop table registered")
    else:
        import psycopg

        with psycopg.connect(place.register, autocommit=True) as other:
            other.execute("drop table registered")


def test_texts_that_postgresql_cannot_have_are_no_others(server: Callable[[str], str], bare: Place) -> None:
    """To libpq a text ends with a NUL: what is before it isn't asked for in its place."""
    bare.register = server("texts")
    bare.configure()
    bare.load("maus\tÄ 'x' \\ %s $1")
    with bare.zone() as zone:
        with zone.registered.reading() as transaction:
            maus = ("maus", "Ä 'x' \\ %s $1")
            texts = ["", 'm"', "m\\", "maut", "\U0001f600", "m"]
            wanted = [maus, maus, maus, None, None, maus]
            assert transaction.first_rows(texts) == wanted
            assert [transaction.first_rows([text]) for text in texts] == [[row] for row in wanted]
            assert transaction.first_rows(["m"] * 16 + [""]) == [maus] * 17
        for texts, told in ((["maus\0x"], "no NUL"), (["m", "maus\0x"], "no NUL"), (["m", "maus\n"], "no line feed")):
            with pytest.raises(Unknown, match=told), zone.registered.reading() as transaction:
                transaction.first_rows(texts)


def test_knows_nothing_while_the_register_is_locked(place: Place) -> None:
    place.configure("[limits]\nseconds = 1")
    with place.zone() as zone:
        other = sqlite3.connect(place.folder / "register.db", isolation_level=None)
        other.execute("begin immediate")
        answer = zone.register("maus")
        assert answer.status is Status.UNKNOWN and answer.reason and "locked" in answer.reason
        # Who only asks doesn't wait.
        assert zone.check("maus").status is Status.AVAILABLE
        other.execute("rollback")
        assert zone.register("maus").status is Status.REGISTERED


def test_never_makes_a_register_by_asking(bare: Place) -> None:
    bare.configure()
    with pytest.raises(Unusable, match="there is no register"):
        bare.zone()
    assert not os.path.exists(bare.folder / "register.db")
