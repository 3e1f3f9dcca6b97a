"""Collisions beside whole sets of what labels spell, and tables that are joined. Disks that are full, and streams that are
closed."""

import bisect
import collections
import itertools
import json
import os
import random
import resource
import signal
import sqlite3
import subprocess
from collections.abc import Iterable, Sequence
from pathlib import Path
from typing import Any

import pytest
from conftest import LIMIT, PROGRAM, TABLES, Place
from program import is_registrable, spelled

from idn2_registry import Check, Status
from idn2_registry.decisions import REGISTER
from idn2_registry.processes import Pool, Process, Question, Questions, Time, pipefuls
from idn2_registry.register import Register, Row, Transaction
from idn2_registry.together import alone

Sets = dict[str, list[str]]


def random_table(chance: random.Random, letters: str, longest: int) -> Sets:
    """A table without gaps: sets of sequences, each with all others of its set as variants."""
    sequences = {"".join(chance.choices(letters, k=chance.randint(1, longest))) for _ in range(8)} | set(letters)
    sets: dict[int, list[str]] = {}
    for sequence in sorted(sequences):
        sets.setdefault(chance.randrange(5), []).append(sequence)
    return {source: [each for each in members if each != source] for members in sets.values() for source in members}


def written(table: Sets, chance: random.Random) -> str:
    """The text of a table, in one of its spellings."""
    line_end, prefix, space = (chance.choice(spellings) for spellings in (("\n", "\r\n"), ("", "U+", "u+"), ("", " ")))
    lines, mark = ["# a comment .. with | signs", ""], ""
    if chance.random() < 0.5:
        lines, mark = ["%version 2", *lines], "!"

    def points(text: str) -> str:
        return (space + "-").join(f"{prefix}{ord(letter):04x}" for letter in text)

    for source, variants in table.items():
        # A pair is blocked or allocatable in each table that has it.
        marks = (random.Random(f"{source} {each}").choice(("", mark)) for each in variants)
        others = f"{space}:".join(own + points(each) for own, each in zip(marks, variants, strict=True))
        lines.append(points(source) + (f"{space}|{others}" if others else ""))
    return line_end.join(lines) + line_end


def registrable_labels(chance: random.Random, letters: str, longest: int, count: int) -> list[str]:
    """Some labels."""
    labels = ("".join(chance.choices(letters, k=chance.randint(1, longest))) for _ in range(count))
    return sorted({label for label in labels if is_registrable(label)})


def set_register(place: Place, labels: Iterable[str]) -> None:
    """A register with labels of any kind."""
    with sqlite3.connect(place.folder / "register.db") as database:
        database.execute("delete from registered")
        database.executemany("insert into registered (label) values (?)", [(label,) for label in labels])


def test_finds_the_collisions_that_sets_have(place: Place) -> None:
    """Under random tables without gaps; what is registered need not be registrable by the program."""
    chance = random.Random(7940)
    for _ in range(12):
        letters, longest = chance.choice((("abc-", 1), ("abc-", 2), ("abß-", 2)))
        table = random_table(chance, letters, longest)
        place.write("table.txt", written(table, chance))
        place.configure(own="table.txt")
        registered = {"".join(chance.choices(letters, k=chance.randint(1, 4))) for _ in range(60)}
        set_register(place, registered)
        with place.zone() as zone:
            for label in registrable_labels(chance, letters, 4, 12):
                answer = zone.check(label)
                expected = sorted(registered & spelled(table, label))
                found = [each.ulabel for each in answer.taken_by]
                assert (found, answer.status) == (expected, Status.TAKEN if expected else Status.AVAILABLE), (table, label)


def with_gaps(table: Sets, chance: random.Random, share: float) -> Sets:
    """The table with a share of its variants."""
    return {source: [each for each in variants if chance.random() < share] for source, variants in table.items()}


RULES = ("start", "before_b", "after_a", "has_c")
DEFINITIONS = ("%version 3\n%type t\n%type v\n%rule start ^ _\n%rule before_b _ 0062\n%rule after_a 0061 _\n"
               "%whole has_c 0063\n")
ACTIONS = ("invalid any v", "invalid when has_c all t", "blocked any t", "blocked only t,v", "blocked unless has_c",
           "allocatable any invalid,blocked")


def ruleset_of(table: Sets, chance: random.Random) -> str:
    """The text of a ruleset of these pairs: with types, conditions and actions, and at times with sources that are
    invalid."""
    def condition(share: float) -> str:
        return f" {chance.choice(('when', 'unless'))} {chance.choice(RULES)}" if chance.random() < share else ""

    def mapped(text: str, types: tuple[str, ...], share: float) -> str:
        kind = chance.choice(types)
        points = "-".join(f"{ord(letter):04X}" for letter in text)
        return (kind + points if kind == "!" else points + kind) + condition(share)

    def entry(source: str, variants: list[str]) -> str:
        others = [mapped(each, ("!", "", "", " as t", " as v"), 0.3) for each in variants]
        return mapped(source, ("!", " as t", *[""] * 8), 0.1) + "|" * bool(others) + ":".join(others)

    actions = [f"%action {each}" for each in chance.sample(ACTIONS, chance.randrange(3))]
    lines = [*actions, *(entry(*each) for each in table.items())]
    return DEFINITIONS + "".join(f"{line}\n" for line in lines)


def listings(place: Place, labels: list[str]) -> dict[str, set[str]]:
    """The whole listing of each label that the table of the zone doesn't refuse."""
    table = place.folder / "table.txt"
    words = [str(PROGRAM), "--json", "--ruleset" if table.read_bytes().startswith(b"%version 3") else "--variants", str(table)]
    given = "".join(f"{label}\n" for label in labels).encode()
    done = subprocess.run(words, input=given, capture_output=True, timeout=LIMIT)
    told = [json.loads(line) for line in done.stdout.splitlines()]
    found: dict[str, set[str]] = {labels[each["line"] - 1]: set() for each in told if each.get("complete")}
    for each in told:
        if "alabel" in each:
            found[labels[each["line"] - 1]].add(each["ulabel"])
    return found


def test_finds_what_the_whole_listings_of_both_sides_have(kind: Place) -> None:
    """Under random tables of all versions, with gaps, sequences, conditions, types and actions."""
    chance = random.Random(60)
    collisions = 0
    for _ in range(8):
        kept = with_gaps(random_table(chance, "abc", 2), chance, 0.6)
        kind.write("table.txt", chance.choice((written, ruleset_of))(kept, chance))
        kind.configure("[limits]\nseconds = 60", own="table.txt")
        found = listings(kind, registrable_labels(chance, "abc", 4, 40))
        labels = [*found]
        registered = {label for label in found if chance.random() < 0.6}
        with kind.zone() as zone:
            reset(zone.registered, registered)
            for number, answer in zone.check_together([Check(label) for label in labels]):
                label = labels[number]
                expected = sorted(each for each in registered if each in found[label] or label in found[each])
                told = [each.ulabel for each in answer.taken_by], answer.status
                assert told == (expected, Status.TAKEN if expected else Status.AVAILABLE), (kept, label, answer.reason)
                collisions += len(expected)
    assert collisions > 100, collisions


class InMemory(Transaction):
    """Labels in label order, and how often it was asked for some."""

    def __init__(self, labels: list[str]) -> None:
        self.labels, self.turns = labels, 0

    def first_rows(self, texts: Sequence[str]) -> list[Row | None]:
        self.turns += 1
        places = [bisect.bisect_left(self.labels, text) for text in texts]
        return [(self.labels[place], None) if place < len(self.labels) else None for place in places]

    def insert(self, label: str, holder: str | None) -> None:
        raise NotImplementedError

    def delete(self, label: str) -> bool:
        raise NotImplementedError


def test_a_search_takes_few_turns(place: Place) -> None:
    """Also where between each two labels that may collide another one is registered."""
    place.write("table.txt", "0061|0062\n0062|0061\n0063\n")
    place.configure(own="table.txt")
    spelled_alike = ["".join(letters) for letters in itertools.product("ab", repeat=8)]
    between = [label[:-1] + "c" for label in spelled_alike if label.endswith("b")]
    with place.zone() as zone:
        for registered in (between, sorted([*between, *spelled_alike])):
            transaction = InMemory(registered)
            found = alone(zone.tables.collisions.of("abababab", transaction, Questions(zone.tables.pool)))
            assert [label for label, _ in found] == [label for label in spelled_alike if label in registered]
            assert transaction.turns <= 32


def test_asks_in_one_turn_what_can_be_asked_together(bare: Place, monkeypatch: pytest.MonkeyPatch) -> None:
    """However many tables there are, and labels of the holder."""
    lines = "%version 2\n0061|0062\n0062|0061\n0063\n"
    for name in ("one", "two", "zone"):
        bare.write(f"{name}.txt", lines)
    bare.configure('zone = "zone"', one="one.txt", two="two.txt", zone="zone.txt")
    bare.load(*("".join(letters) + "\tH1" for letters in itertools.product("ab", repeat=4) if letters != ("a", "b", "a", "b")))
    told_by_one, asked = Pool._told_by_one, collections.Counter[Question]()

    def counted(pool: Pool, question: Question, *given: Any) -> Any:
        asked[question] += 1
        return told_by_one(pool, question, *given)

    monkeypatch.setattr(Pool, "_told_by_one", counted)
    with bare.zone() as zone:
        assert zone.check("abab", "H2").status is Status.TAKEN
        asked.clear()
        assert zone.check("abab", "H1").status is Status.AVAILABLE
        by_table = [asked[zone.tables._asked[name]._jump] for name in ("one", "two")]
        assert by_table == [2, 2], "whether it is admitted, and whether it is offered"
        asked.clear()
        assert zone.check("cccc").status is Status.AVAILABLE
        assert sorted(asked.values()) == [1, 1, 1, 1], "the beginning of the search goes with the first of these"


def test_sends_a_pipe_what_it_takes(place: Place) -> None:
    """Also where that is a page, as where a user has many pipes."""
    with place.zone() as zone:
        process = Process(zone.program, REGISTER)
        lines = [f"{'a' * 60}{number:03}".encode() for number in range(1000)]
        assert len(list(pipefuls(lines, process._room))) == 1 and len(list(pipefuls(lines, 4096))) == 16
        for room in (process._room, 4096):
            process._room = room
            answers = list(process.ask(lines, Time(LIMIT)))
            assert [answer["ulabel"].encode() for [answer] in answers] == lines
        process.close()


def reset(register: Register, labels: set[str]) -> None:
    """Registers these labels, and releases all others."""
    before = [label for label, _ in register.rows()]

    def job(transaction: Transaction) -> None:
        for label in before:
            transaction.delete(label)
        for label in labels:
            transaction.insert(label, None)

    register.change(job)


def test_an_audit_finds_the_collisions_that_sets_have(place: Place) -> None:
    """From one side or the other, also under a table with gaps."""
    chance = random.Random(8228)
    for _ in range(8):
        kept = with_gaps(random_table(chance, "abc", 2), chance, 0.7)
        place.write("table.txt", written(kept, chance))
        place.configure(own="table.txt")
        labels = registrable_labels(chance, "abc", 4, 12)
        set_register(place, labels)
        told = [json.loads(line) for line in place.run("audit", "--json").stdout.splitlines()]
        found = {each["ulabel"] for group in told if "collide" in group for each in group["collide"]}
        pairs = [(one, other) for one in labels for other in labels if one != other and other in spelled(kept, one)]
        assert found == {label for pair in pairs for label in pair}, (kept, labels)


def check(place: Place, table: str) -> bytes:
    """What the program prints of a table."""
    return subprocess.run([PROGRAM, "--check-table", place.folder / table], capture_output=True, timeout=LIMIT).stdout


def test_joins_tables_so_that_nothing_is_missed(bare: Place) -> None:
    """What a label spells under one of two tables it spells under the joined one; and that one has no gap."""
    chance = random.Random(4290)
    for _ in range(8):
        tables = [random_table(chance, "abc-"[first:first + 3], 2) for first in (0, 1)]
        for name, table in zip(("one.txt", "two.txt"), tables, strict=True):
            # Some variants have no entry, as in a list of pairs in one direction.
            kept = {source: variants for source, variants in table.items() if variants == [] or chance.random() < 0.8}
            table.clear()
            table.update(kept)
            bare.write(name, written(table, chance))
        done = bare.run("join", "one.txt", "two.txt")
        assert (done.stderr, done.returncode) == (b"", 0), done
        bare.write("zone.txt", done.stdout)
        sequences = {each for table in tables for source, variants in table.items() for each in (source, *variants)}
        assert check(bare, "zone.txt") == b"#table %d 0\n" % len(sequences), (tables, done)
        for label in registrable_labels(chance, "abc-", 3, 6):
            words = [str(PROGRAM), "--variants", str(bare.folder / "zone.txt"), "--", label]
            listed = subprocess.run(words, capture_output=True, timeout=LIMIT).stdout.decode().splitlines()[:-1]
            wanted = {each for table in tables for each in spelled(table, label) if is_registrable(each)}
            assert wanted <= {line.split("\t")[0] for line in listed}, (tables, label, listed)
            assert all(line.endswith("\tblocked") for line in listed if line.split("\t")[0] != label), listed


def test_joins_rulesets(bare: Place) -> None:
    """Of a ruleset its sources, and its pairs, without types and conditions."""
    bare.write("ruleset.txt", "%version 3\n%type as\n%type BEEF\n%rule when _ 0062\n%action blocked any as , BEEF\n"
               "0061 as as when when|0062 as BEEF:!0063\tunless when\n"
               "!0430 unless when|! 0061\n0064 .. 0065 as BEEF when when\n0065-0066\n")
    bare.write("other.txt", "0062|0067\n")
    joined = ("0061", "0062", "0063", "0067", "0430")
    lines = {each: f"{each}|" + ":".join(f"!{other}" for other in joined if other != each) for each in joined}
    lines.update((each, each) for each in ("0064", "0065", "0065-0066"))
    wanted = "%version 2\n" + "".join(lines[each] + "\n" for each in sorted(lines))
    bare.expect(["join", "ruleset.txt", "other.txt"], wanted, 0)


def test_joins_no_tables_that_disagree_in_a_disposition(bare: Place) -> None:
    """Both lines are named, and the remedy. Version 1 says nothing of dispositions, and no label has a source that is
    invalid."""
    bare.write("one.txt", "%version 2\n0061\n0062|0063\n0063|0062\n")
    bare.write("two.txt", "%version 3\n%rule end _ $\n0062 unless end|!0063\n0063|0062\n")
    bare.write("both.txt", "%version 3\n%rule end _ $\n0063|0062 when end:!0062 unless end\n0062|0063\n")
    bare.write("first.txt", "0062|0063\n")
    bare.write("invalid.txt", "%version 3\n0063|0062\n!0062|!0063\n")
    bare.write("types.txt", "%version 3\n%type t\n%action blocked any t\n0062|0063 as t\n0063|0062 as valid\n")
    told = "one.txt: line 3: 0062|0063 is allocatable, and in two.txt: line 3 it is blocked: make both the same"
    bare.expect(["join", "one.txt", "two.txt"], "", 75, told)
    told = "one.txt: line 4: 0063|0062 is allocatable, and in both.txt: line 3 it is both by conditions: make both the same"
    bare.expect(["join", "first.txt", "one.txt", "both.txt"], "", 75, told)
    told = "one.txt: line 3: 0062|0063 is allocatable, and in types.txt: line 4 it is blocked: make both the same"
    bare.expect(["join", "one.txt", "types.txt"], "", 75, told)
    for names in (["one.txt", "first.txt", "invalid.txt"], ["two.txt", "first.txt"]):
        assert bare.run("join", *names).returncode == 0, names


def test_joins_the_tables_that_come_with_the_program(bare: Place) -> None:
    for name, entries in (("german", 42), ("arabic-digits", 73)):
        bare.write("zone.txt", bare.run("join", str(TABLES / f"{name}.txt")).stdout)
        assert check(bare, "zone.txt") == b"#table %d 0\n" % entries, name


def without_space() -> None:
    """No byte can be written to any file, as on a full disk."""
    signal.signal(signal.SIGXFSZ, signal.SIG_IGN)
    resource.setrlimit(resource.RLIMIT_FSIZE, (0, 0))


def test_takes_a_full_disk_for_unknown(place: Place, tmp_path: Path) -> None:
    place.load("strasse")
    place.write("labels.txt", "haus\n")
    for words in (["register", "maus"], ["load", "labels.txt"], ["check", "maus"], ["audit"]):
        process = place.start(*words, preexec_fn=without_space)
        output, messages = process.communicate(timeout=LIMIT)
        told = output + messages
        assert process.returncode == 75 and len(told.splitlines()) >= 1 and b"Traceback" not in told, (words, told)
    place.expect(["dump"], "strasse\n", 0)
    for words in (["check", "maus"], ["check", "--json", "maus"], ["dump"], ["audit"], ["check-config"],
                  ["join", str(TABLES / "german.txt")], ["variants", "maus"]):
        with open("/dev/full", "wb") as full:
            process = place.start(*words, stdout=full)
            _, messages = process.communicate(timeout=LIMIT)
        assert process.returncode == 75 and b"No space left" in messages and b"Traceback" not in messages, (words, messages)
    assert os.listdir(tmp_path)


CLOSED = "[Errno 9] Bad file descriptor\n"


@pytest.mark.parametrize(("words", "closed", "output", "message", "status"), [
    (["check", "maus"], ">&-", "", CLOSED, 75),
    (["register", "maus"], "<&- >&-", "", CLOSED, 75),
    (["check", "haus"], "<&- >&- 2>&-", "", "", 75),
    (["check"], "<&-", "", CLOSED, 75),
    (["check", "laus"], "<&-", "laus: available (laus)\n", "", 0),
    (["check", "haus"], "2>&-", "haus: taken by haus\n", "", 1),
    (["check", "--config", "none.toml", "laus"], "2>&-", "", "", 75)])
def test_takes_a_closed_stream_for_unknown(place: Place, words: list[str], closed: str, output: str, message: str,
                                           status: int) -> None:
    """No file has the number of the stream: a table that had it would be read from what a process answers, or seem empty. Where
    messages can't be told, answers and statuses stay."""
    place.load("haus")
    command = ["sh", "-c", f'"$@" {closed}', "sh", *place.words(*words)]
    done = subprocess.run(command, cwd=place.folder, env=place.environment, capture_output=True, text=True, timeout=LIMIT)
    assert (done.stdout, done.returncode) == (output, status) and done.stderr.removeprefix("idn2-registry: ") == message, done
