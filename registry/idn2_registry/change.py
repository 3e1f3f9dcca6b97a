"""`change`: what a new table changes for registered labels."""

import contextlib
import json
from collections.abc import Iterable, Iterator, Sequence
from dataclasses import dataclass
from pathlib import Path
from typing import Any

from .answers import ExitStatus, Object, Refusal
from .audit import Pairs, findings, groups_of
from .configuration import Configuration, Limits
from .faults import Unknown, Unusable
from .holdings import Holdings
from .output import Output
from .program import OpenRun, Program
from .tables import Table, read_table, table_of
from .words import counted, registered_words, shown
from .work import SLOWEST_PART_LINES, Means, parts_of, results


def blocks(output: bytes) -> Iterator[list[bytes]]:
    """The lines that answer each label."""
    block: list[bytes] = []
    for line in output.split(b"\n")[:-1]:
        block.append(line)
        if b'"input":' in line and "input" in json.loads(line):
            yield block
            block = []


@dataclass(frozen=True)
class ChangeTask:
    """What is said of labels under two tables."""

    program: Program
    old: Table
    new: Table
    limits: Limits

    def listing(self, table: Table) -> contextlib.AbstractContextManager[OpenRun]:
        """What lists all variants of labels."""
        words = table.listing("--tries", str(self.limits.tries), "--steps", str(self.limits.steps))
        return self.program.opened(["--json", *words], [table.held.descriptor])

    def done(self, parts: Iterable[bytes]) -> Iterator[bytes]:
        """The changes of labels, in their order."""
        with self.listing(self.old) as old, self.listing(self.new) as new:
            for part in parts:
                yield json.dumps([*changes_in(part, old.answered(part), new.answered(part))]).encode()


def changes_in(part: bytes, old: bytes, new: bytes) -> Iterator[Object]:
    """What two listings of the labels of a part differ in."""
    labels = part.decode().split("\n")[:-1]
    try:
        for label, before, after in zip(labels, blocks(old), blocks(new), strict=True):
            if before != after:
                yield from ({"of": label, **change} for change in changes_of(before, after))
    except ValueError as error:
        raise Unknown("the program didn't answer each label") from error


def changes_of(old: Sequence[bytes], new: Sequence[bytes]) -> Iterator[Object]:
    """What two listings of a label differ in."""
    (*before, was), (*after, is_now) = ([json.loads(line) for line in block] for block in (old, new))
    if "refusal" in was and "refusal" in is_now:
        return
    if "refusal" in is_now:
        yield {"change": "invalid", "refusal": is_now["refusal"]}
    elif "refusal" in was:
        yield {"change": "valid"}
    elif not (was["complete"] and is_now["complete"]):
        yield {"change": "unknown"}
    else:
        yield from changed_variants(before, after)


def changed_variants(before: Sequence[Object], after: Sequence[Object]) -> Iterator[Object]:
    """The variants that are gained, lost, blocked or freed."""
    old = {variant["ulabel"]: variant for variant in before}
    new = {variant["ulabel"]: variant for variant in after}
    for ulabel in sorted(old.keys() | new.keys()):
        variant = {name: value for name, value in new.get(ulabel, old.get(ulabel, {})).items() if name != "line"}
        if ulabel not in old or ulabel not in new:
            yield {"change": "gained" if ulabel in new else "lost", "variant": variant}
        elif old[ulabel].get("disposition") != new[ulabel].get("disposition"):
            yield {"change": "blocked" if new[ulabel].get("disposition") == "blocked" else "freed", "variant": variant}


def changed_table(configuration: Configuration, words: str, program: Program) -> Table:
    """The new table of NAME=FILE."""
    name, is_given, path = words.partition("=")
    if name not in configuration.tables or not is_given:
        told = "no name of [tables]" if is_given else "no NAME=FILE"
        raise Unusable(f"{words}: {told}: name one of {', '.join(configuration.tables)}")
    return read_table(name, Path(path), program)


def change(configuration: Configuration, program: Program, holdings: Holdings, means: Means, name_and_file: str,
           output: Output) -> None:
    """Tells what the new table changes, label by label, and at last how many labels it changes."""
    new = changed_table(configuration, name_and_file, program)
    tables = {name: table_of(configuration, name, program) for name in configuration.tables}
    old = tables[new.name]
    task = ChangeTask(program, old, new, configuration.limits)
    state = [program.state, old.data, new.data, repr(configuration.limits).encode()]
    changes: list[Object] = []
    for result in results(means, "change", task, parts_of(holdings.text, SLOWEST_PART_LINES), state):
        changes += json.loads(result)
    colliding = newly_colliding(configuration, program, holdings, means, tables, new)
    named = holdings.named([*(told["of"] for told in changes), *(label for group in colliding for label in group)], program)
    for told in changes:
        label = named[told.pop("of")]
        status = ExitStatus.NOT_KNOWN if told["change"] == "unknown" else ExitStatus.NO
        output.fact({**label.object(), **told}, f"{registered_words(label)}: {words_of_change(told)}", status)
    for group in colliding:
        told = {"change": "collide", "collide": [named[label].object() for label in group]}
        output.fact(told, "collide: " + ", ".join(registered_words(named[label]) for label in group), ExitStatus.NO)
    counts = {"labels": holdings.count, "changes": len(changes), "groups": len(colliding)}
    words = [counted(counts["labels"], "label"), counted(counts["changes"], "change"), counted(counts["groups"], "group")]
    output.fact(counts, ", ".join(words), ExitStatus.YES)


def newly_colliding(configuration: Configuration, program: Program, holdings: Holdings, means: Means,
                    tables: dict[str, Table], new: Table) -> list[list[str]]:
    """The groups with pairs that collide under the new table of the zone and don't under the old one."""
    if new.name != configuration.zone:
        return []
    admitting = [tables[name] for name in configuration.admitting]
    found: list[Pairs] = []
    for name, zone in (("change-old", tables[new.name]), ("change-new", new)):
        under = [zone] if admitting == [tables[new.name]] else admitting
        found.append(findings(program, under, zone, holdings, means, name).pairs)
    old, now = ({frozenset(pair) for pair in pairs} for pairs in found)
    return groups_of((min(pair), max(pair)) for pair in now - old)


def words_of_change(told: dict[str, Any]) -> str:
    """A change in words."""
    if told["change"] == "invalid":
        return f"no longer valid: {shown(str(Refusal.read(told['refusal'])))}"
    if told["change"] == "unknown":
        return "not known: more variants than the limits allow"
    if told["change"] == "valid":
        return "valid"
    variant = told["variant"]
    return f"{told['change']} {shown(variant['ulabel'])} ({variant['alabel']}, {variant.get('disposition', 'variant')})"
