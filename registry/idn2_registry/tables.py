"""Tables and rulesets: what is read of them, and what the program says of them."""

import errno
import json
from collections.abc import Iterable, Sequence
from dataclasses import dataclass, field, replace
from enum import Enum
from pathlib import Path
from subprocess import CompletedProcess
from typing import Any

from .answers import Object, Refusal
from .configuration import Configuration
from .faults import Unknown, Unusable
from .program import HeldFile, Program, ended

MOST_BYTES = 67_108_864
VERSION_LINES = {b"%version 2": 2, b"%version 3": 3}
PRINTS = "--print-ruleset"
BYTE_ORDER_MARK = b"\xef\xbb\xbf"


class Kind(Enum):
    """How the program is asked: by which option it lists, and by which it checks."""

    TABLE = ("--variants", "--check-table")
    RULESET = ("--ruleset", "--check-ruleset")

    @property
    def lists(self) -> str:
        """The option by which it lists."""
        return self.value[0]

    @property
    def checks(self) -> str:
        """The option by which it checks."""
        return self.value[1]


@dataclass(frozen=True)
class Table:
    """A table as it was read, with its gaps as `source|missing`, as `source|differs` the pairs whose conditions one way
    aren't those of the other way, the types that no action names, and of a ruleset in XML (RFC 7940) what the program
    prints of it. It is asked by its bytes, whatever becomes of its file."""

    name: str
    path: Path
    data: bytes = field(repr=False)
    gaps: tuple[str, ...] = ()
    entries: int = 0
    differences: tuple[str, ...] = ()
    idle: tuple[str, ...] = ()
    printed: bytes = field(default=b"", repr=False)

    def __post_init__(self) -> None:
        object.__setattr__(self, "_held", HeldFile(self.data))

    def __reduce__(self) -> tuple[type["Table"], tuple[Any, ...]]:
        return Table, (self.name, self.path, self.data, self.gaps, self.entries, self.differences, self.idle, self.printed)

    @property
    def held(self) -> HeldFile:
        """The file that processes read."""
        held: HeldFile = self._held  # type: ignore[attr-defined]
        return held

    @property
    def is_in_xml(self) -> bool:
        """Whether the program takes it for a ruleset in XML."""
        return self.data.removeprefix(BYTE_ORDER_MARK).lstrip(b" \t\r\n").startswith(b"<")

    @property
    def version(self) -> int:
        """The version of its notation; that of a ruleset in XML is the one in which it is printed."""
        return 3 if self.is_in_xml else VERSION_LINES.get(self.data.split(b"\n", 1)[0].removesuffix(b"\r"), 1)

    @property
    def text(self) -> bytes:
        """What it says in the notation."""
        return self.printed or self.data

    @property
    def place(self) -> str:
        """Where the lines of this text are."""
        return f"{self.path}, as {PRINTS} prints it" if self.printed else str(self.path)

    @property
    def kind(self) -> Kind:
        """Whether it is a ruleset."""
        return Kind.RULESET if self.version == 3 else Kind.TABLE

    def listing(self, *options: str) -> list[str]:
        """The words of a process that lists by it, and has its file."""
        return [self.kind.lists, self.held.path, *options]

    def check(self) -> list[str]:
        """The words of a process that checks it, and has its file."""
        return [self.kind.checks, self.held.path]


class Faulty(Unusable):
    """The program refuses a table, by a line and a reason."""

    def __init__(self, table: Table, line: int | None, reason: str) -> None:
        standard = "RFC 7940" if table.is_in_xml else "docs/NOTATION.md"
        super().__init__(f"{table.path}: line {line}: {reason}: mend it ({standard})")
        self.line, self.reason = line, reason


def read_table(name: str, path: Path, program: Program) -> Table:
    """The table in a file that a command names. Raises Unusable with the file, the line and the remedy."""
    try:
        data = data_of(path)
    except OSError as error:
        raise Unusable(f"{path}: {error.strerror}: name a table of the configuration, or a file") from error
    return checked(Table(name, path, data), program)


def table_of(configuration: Configuration, name: str, program: Program) -> Table:
    """A table of a configuration. Raises Unusable with the file, the line and the remedy."""
    path = configuration.tables[name]
    try:
        data = data_of(path)
    except OSError as error:
        raise configuration.file.fault(name, f"{path}: {error.strerror}: mend its path", "tables") from error
    return checked(Table(name, path, data), program)


def data_of(path: Path) -> bytes:
    """What is in the file of a table. Raises OSError."""
    with open(path, "rb") as file:
        data = file.read(MOST_BYTES + 1)
    if len(data) > MOST_BYTES:
        raise OSError(errno.EFBIG, f"more than {MOST_BYTES:,} bytes, and no table has so many")
    return data


def table_of_zone(configuration: Configuration, name: str, program: Program) -> Table:
    """A table of a configuration, by which collisions are asked for. Raises Unusable."""
    table = table_of(configuration, name, program)
    check_for_collisions(table, program)
    return table


def check_for_collisions(table: Table, program: Program) -> None:
    """Raises Unusable for a table by which no collision can be found: only there is a limit of sources."""
    answers_about(table, program, table.listing("--jump"))


def read_tables(configuration: Configuration | None, names: Iterable[str], program: Program) -> list[Table]:
    """Tables by their names in a configuration, or by their paths."""
    return [table_of(configuration, name, program) if configuration and name in configuration.tables
            else read_table(name, Path(name), program) for name in names]


def answers_about(table: Table, program: Program, words: Sequence[str]) -> list[Object]:
    """What a run under a table tells that is given no line. Raises Unusable for a faulty table."""
    done = run_about(table, program, words, "--json")
    told = [json.loads(line) for line in done.stdout.splitlines()]
    if told and "refusal" in told[-1]:
        line, refusal = told[-1].get("table_line"), Refusal.read(told[-1]["refusal"])
        at = f" at byte {refusal.details['byte']}" if "byte" in refusal.details else ""
        raise Faulty(table, line, f"{refusal}{at}")
    if done.returncode not in (0, 1):
        raise Unusable(f"{table.path}: {ended(done.returncode, done.stderr)}: try it with {words[0]}")
    return told


def run_about(table: Table, program: Program, words: Sequence[str], *more: str) -> CompletedProcess[bytes]:
    """A run under a table that is given no line. Raises Unusable if it doesn't end."""
    try:
        return program.run([*more, *words], files=[table.held.descriptor])
    except Unknown as error:
        raise Unusable(f"{table.path}: {error}: try it with {words[0]}") from error


def checked(table: Table, program: Program) -> Table:
    """The table with what the program finds in it. Raises Unusable for a faulty table."""
    told = answers_about(table, program, table.check())
    if not told or "entries" not in told[-1]:
        raise Unusable(f"{table.path}: the program gave no answer: try it with {table.kind.checks}")
    if not told[-1]["entries"]:
        raise Unusable(f"{table.path}: line 1: no entry in it: each label would be refused: was it cut short?")
    gaps, differences = (
        tuple(f"{pair['source']}|{pair[word]}" for pair in told[:-1] if word in pair) for word in ("missing", "differs"))
    idle = tuple(each["idle"] for each in told[:-1] if "idle" in each)
    printed = printed_by(table, program) if table.is_in_xml else b""
    return replace(table, gaps=gaps, entries=told[-1]["entries"], differences=differences, idle=idle, printed=printed)


def printed_by(table: Table, program: Program) -> bytes:
    """What the program prints of a ruleset that it has checked. Raises Unusable."""
    done = run_about(table, program, [PRINTS, table.held.path])
    if done.returncode != 0 or not done.stdout:
        raise Unusable(f"{table.path}: {ended(done.returncode, done.stderr)}: try it with {PRINTS}")
    return done.stdout
