"""`audit`: which registered labels are no longer valid, and which collide with each other."""

import contextlib
import json
from collections.abc import Iterable, Iterator, Sequence
from dataclasses import dataclass
from functools import cached_property
from typing import Any, TypeVar

from .answers import ExitStatus, Refusal, furthest_first
from .collisions import Collisions, pairs_in, refusals_in
from .configuration import Configuration
from .faults import NotRegistered, Unknown
from .holdings import Holdings
from .old_labels import MARK, Barred
from .output import Output
from .program import HeldFile, OpenRun, Program
from .register import text_of
from .since import Earlier
from .tables import Table, check_for_collisions, table_of
from .words import counted, registered_words, shown
from .work import SLOW_PART_LINES, Means, Task, parts_of, results

Pairs = list[tuple[str, str]]
Refused = dict[str, dict[str, Any]]
Each = TypeVar("Each", bound=Any)


@dataclass(frozen=True)
class TestTask:
    """Which labels may not be registered."""

    program: Program

    def done(self, parts: Iterable[bytes]) -> Iterator[bytes]:
        """Their refusals, and which of them are of older rules."""
        for part in parts:
            found = Barred.among(self.program, part)
            yield json.dumps([found.refusals, found.old]).encode()


@dataclass(frozen=True)
class Tested:
    """The labels of a register: those that may be registered, each on a line; with them those of older rules, as a file of
    registered labels has them; and why all others than the first are refused."""

    valid: bytes
    registered: bytes
    refused: Refused

    @classmethod
    def all_valid(cls, holdings: Holdings) -> "Tested":
        """All of them, each of which may be registered."""
        return cls(holdings.text, holdings.text, {})

    @classmethod
    def read(cls, program: Program, holdings: Holdings, means: Means, name: str) -> "Tested":
        """All of them are tested."""
        refused: Refused = {}
        old: set[str] = set()
        for result in results(means, f"{name}-test", TestTask(program), parts_of(holdings.text), [program.state]):
            refusals, marked = json.loads(result)
            refused |= refusals
            old.update(marked)
        if not refused:
            return cls.all_valid(holdings)
        valid = text_of(label for label in holdings.labels if label not in refused)
        registered = (label for label in holdings.labels if label in old or label not in refused)
        return cls(valid, text_of(label + MARK if label in old else label for label in registered), refused)


@dataclass(frozen=True)
class AdmissionTask:
    """Which labels no table admits."""

    program: Program
    admitting: tuple[Table, ...]

    def done(self, parts: Iterable[bytes]) -> Iterator[bytes]:
        """The refusals of what all of them refuse, of each label the furthest."""
        asked = {table.name: admission_words(table) for table in self.admitting}
        with contextlib.ExitStack() as stack:
            runs = [stack.enter_context(self.program.opened(*each)) for each in asked.values()]
            for part in parts:
                labels = not_admitted(runs, part)
                told = {name: causes(self.program, each, labels) for name, each in asked.items()}
                yield json.dumps({label: furthest(told, label).object() for label in map(bytes.decode, labels)}).encode()


def not_admitted(runs: Iterable[OpenRun], part: bytes) -> list[bytes]:
    """The labels of a part that all of some runs refuse, each by a table."""
    labels = part.split(b"\n")[:-1]
    for run in runs:
        output, refused = run.plain(part)
        # No label has a number sign, with which the last line of each answer begins.
        check_answered(output.count(b"#") + len(refused), len(labels))
        labels = labels_at(part, refused)
        part = lines_of(labels)
    return labels


def furthest(told: dict[str, Refused], label: str) -> Refusal:
    """Of the refusals of a label by several tables the furthest."""
    each = furthest_first({name: Refusal.read(refused[label]) for name, refused in told.items()})
    return next(iter(each.values()))


@dataclass(frozen=True)
class AuditTask:
    """Which labels the table of the zone refuses, and which registered labels the labels of a part collide with."""

    program: Program
    zone: Table
    registered: bytes

    @cached_property
    def held(self) -> HeldFile:
        """The registered labels as a file."""
        return HeldFile(self.registered)

    def __getstate__(self) -> dict[str, Any]:
        return {name: value for name, value in self.__dict__.items() if name != "held"}

    def done(self, parts: Iterable[bytes]) -> Iterator[bytes]:
        """The labels that are refused, and the pairs that collide."""
        with self.program.opened(*Collisions(self.zone).audit_words(self.held)) as run:
            for part in parts:
                output, refused = run.plain(part)
                labels = [label.decode() for label in labels_at(part, refused)]
                yield json.dumps({"refused": labels, "pairs": pairs_in(output)}).encode()


def admission_words(table: Table) -> tuple[list[str], list[int]]:
    """The words and the files of a run that tells which labels a table admits, and little else of them."""
    return table.listing("--limit", "1", "--tries", "1"), [table.held.descriptor]


def lines_of(labels: Iterable[bytes]) -> bytes:
    """Labels, each on a line."""
    return b"".join(label + b"\n" for label in labels)


def labels_at(part: bytes, numbers: Sequence[int]) -> list[bytes]:
    """The labels of some lines of a part."""
    lines = part.split(b"\n") if numbers else []
    return [lines[number - 1] for number in numbers]


def check_answered(count: int, lines: int) -> None:
    """As many lines are answered as there are."""
    if count != lines:
        raise Unknown("the program didn't answer each label")


def causes(program: Program, run: tuple[list[str], list[int]], labels: Sequence[bytes]) -> Refused:
    """The refusals of labels that a run refuses, with their causes. Most labels aren't refused, so that these alone are asked
    for objects."""
    if not labels:
        return {}
    told = refusals_in(program.answered(run[0], lines_of(labels), run[1]))
    check_answered(len(told), len(labels))
    return {label.decode(): each["refusal"] for label, each in zip(labels, told, strict=True)}


@dataclass(frozen=True)
class Findings:
    """What an audit finds."""

    invalid: Refused
    pairs: Pairs

    def groups(self) -> list[list[str]]:
        """The labels that collide, directly or through others."""
        return groups_of(self.pairs)


def groups_of(pairs: Iterable[tuple[Each, Each]]) -> list[list[Each]]:
    """Groups of labels, or of sequences, that pairs connect, each in order, and by their first ones."""
    joined: dict[Each, list[Each]] = {}
    for first, second in pairs:
        one, other = joined.setdefault(first, [first]), joined.setdefault(second, [second])
        if one is not other:
            less, more = sorted((one, other), key=len)
            more.extend(less)
            joined.update(dict.fromkeys(less, more))
    return sorted(sorted(group) for group in {id(group): group for group in joined.values()}.values())


def findings(program: Program, admitting: Sequence[Table], zone: Table, holdings: Holdings, means: Means,
             name: str) -> Findings:
    """All that is wrong with the labels of a register under some tables. Most registers have no label that may not be
    registered: then the runs that read them have tested each. Only where these refuse them each is tested by itself."""
    # A label of older rules has a mark after a tab, which no label has.
    if b"\t" not in holdings.text:
        with contextlib.suppress(NotRegistered):
            return findings_of(program, admitting, zone, Tested.all_valid(holdings), means, name)
    return findings_of(program, admitting, zone, Tested.read(program, holdings, means, name), means, f"{name}-tested")


def findings_of(program: Program, admitting: Sequence[Table], zone: Table, tested: Tested, means: Means,
                name: str) -> Findings:
    """The same of labels that were tested. Those that may be registered are asked, and what they collide with may be a label
    of older rules, too."""
    check_for_collisions(zone, program)
    parts, readers = parts_of(tested.valid, SLOW_PART_LINES), means.reading(tested.registered.count(b"\n"))
    task = AuditTask(program, zone, tested.registered)
    # Where all labels are valid, the parts are the registered labels.
    state = [program.state, zone.data, *([] if tested.registered == tested.valid else [tested.registered])]
    told = [json.loads(result) for result in results(readers, name, task, parts, state)]
    pairs = [(first, second) for each in told for first, second in each["pairs"]]
    if list(admitting) == [zone]:
        refused = [label.encode() for each in told for label in each["refused"]]
        return Findings(tested.refused | causes(program, admission_words(zone), refused), pairs)
    state = [program.state, *(table.data for table in admitting)]
    admission = AdmissionTask(program, tuple(admitting))
    return Findings(tested.refused | refusals(admission, tested.valid, means, f"{name}-tables", state), pairs)


def refusals(task: Task, text: bytes, means: Means, name: str, state: Sequence[bytes]) -> Refused:
    """What a task refuses."""
    found: Refused = {}
    for result in results(means, name, task, parts_of(text, SLOW_PART_LINES), state):
        found |= json.loads(result)
    return found


def audit(configuration: Configuration, program: Program, holdings: Holdings, means: Means, since: str | None,
          output: Output) -> None:
    """Tells of each label that no table admits any more, of each group that collides, and how many there are. With the output
    of an earlier audit it tells only what that doesn't have."""
    earlier = Earlier.read(since)
    tables = {name: table_of(configuration, name, program) for name in configuration.tables}
    admitting = [tables[name] for name in configuration.admitting]
    found = findings(program, admitting, tables[configuration.zone], holdings, means, "audit")
    groups = found.groups()
    new_labels = [label for label in sorted(found.invalid) if not earlier.knows(label)]
    new_groups = [group for group in groups if not earlier.knows_group(group)]
    named = holdings.named([*new_labels, *(label for group in new_groups for label in group)], program)
    for label in new_labels:
        refusal = Refusal.read(found.invalid[label])
        told = {**named[label].object(), "refusal": refusal.object()}
        output.fact(told, f"{registered_words(named[label])}: no longer valid: {shown(str(refusal))}", ExitStatus.NO)
    for group in new_groups:
        together = {"collide": [named[label].object() for label in group]}
        output.fact(together, "collide: " + ", ".join(registered_words(named[label]) for label in group), ExitStatus.NO)
    counts = {"labels": holdings.count, "invalid": len(found.invalid), "groups": len(groups)}
    words = f"{counted(holdings.count, 'label')}, {len(found.invalid)} invalid, {counted(len(groups), 'group')}"
    if since is not None:
        counts["new"] = len(new_labels) + len(new_groups)
        words += f", {counts['new']} new"
    output.end(counts, words)
