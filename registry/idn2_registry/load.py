"""`load`: labels into the register, whole or not at all; and `dump`, labels out of it."""

import json
from collections.abc import Iterable, Iterator, Sequence
from dataclasses import dataclass
from typing import Any

from .answers import ExitStatus, Object, Refusal, label_member
from .configuration import Configuration
from .holdings import Holdings
from .old_labels import barred, name_of
from .output import Output
from .program import Program
from .register import NO_HOLDER, open_register, text_of
from .words import counted
from .work import Means, Progress, parts_of, results

DUMPED = 10_000
TAB = "\t"


@dataclass(frozen=True)
class LoadTask:
    """What the lines of a file stand for."""

    program: Program
    takes_old: bool

    def done(self, parts: Iterable[bytes]) -> Iterator[bytes]:
        """For each line a label with its holder, or a refusal."""
        for part in parts:
            yield json.dumps(self._read(part.split(b"\n")[:-1])).encode()

    def _read(self, lines: Sequence[bytes]) -> list[tuple[str | None, str | None, Object | None]]:
        """The same of some lines."""
        read: list[tuple[str | None, str | None, Object | None]] = [read_line(line) for line in lines]
        asked = [number for number, (label, _, _) in enumerate(read) if label is not None]
        labels = [(read[number][0] or "").encode("utf-8", "surrogateescape") for number in asked]
        told = self.program.decoded(labels) if self.takes_old else self.program.tested(labels)
        for number, answer in zip(asked, told, strict=True):
            label = answer.get("unicode" if self.takes_old else "ulabel")
            # What a name of older rules stands for may have one.
            control = Refusal.of_control_character(label or "")
            read[number] = (label, read[number][1], control.object() if control else answer.get("refusal"))
        return read


def read_line(line: bytes) -> tuple[str | None, str | None, Object | None]:
    """The label and the holder of a line; or a refusal of what can't be sent or stored."""
    label, has_holder, holder = line.removesuffix(b"\r").decode("utf-8", "surrogateescape").partition(TAB)
    if refusal := Refusal.of_control_character(label):
        return None, None, refusal.object()
    if not has_holder:
        return label, None, None
    if not holder or NO_HOLDER.search(holder):
        return None, None, {"text": "no holder after the tab"}
    return label, holder, None


def lines_of(path: str) -> list[bytes]:
    """The lines of a file."""
    with open(path, "rb") as file:
        data = file.read()
    return data.removesuffix(b"\n").split(b"\n") if data else []


@dataclass
class Loading:
    """What comes of the lines of a file."""

    there: dict[str, str | None]
    new: dict[str, str | None]
    refused: list[tuple[int, Object]]
    # How many lines say again what another says, or the register.
    known: int = 0

    def add(self, number: int, label: str | None, holder: str | None, refusal: Object | None) -> None:
        """A line. One that says again what another says, or the register, adds nothing."""
        if label is None or refusal is not None:
            self.refused.append((number, refusal or {"text": "no label"}))
            return
        for known, words in ((self.there, "registered for another holder"), (self.new, "another holder than on a line above")):
            if label in known:
                if known[label] != holder:
                    self.refused.append((number, {"text": words}))
                else:
                    self.known += 1
                return
        self.new[label] = holder


def registered_before(configuration: Configuration) -> dict[str, str | None]:
    """What is registered already; nothing if there is no register yet."""
    register = open_register(configuration, must_be=False)
    try:
        return dict(register.rows()) if register.is_made() else {}
    finally:
        register.close()


def load(configuration: Configuration, program: Program, means: Means, path: str, takes_old: bool, with_rest: bool,
         output: Output) -> None:
    """Loads a file, with labels of older rules if they are taken: whole, or with the rest what isn't refused. Each refused line
    is told, with number and cause."""
    lines = lines_of(path)
    loading = Loading(registered_before(configuration), {}, [])
    number = 0
    task = LoadTask(program, takes_old)
    for result in results(means, "load", task, parts_of(b"".join(line + b"\n" for line in lines)),
                          [program.state, repr(takes_old).encode()]):
        for read in json.loads(result):
            number += 1
            loading.add(number, *read)
    for number, refusal in loading.refused:
        line = lines[number - 1].decode("utf-8", "surrogateescape")
        told = {"line": number, **label_member(line.partition(TAB)[0]), "refusal": refusal}
        output.fact(told, f"{path}: line {number}: {Refusal.read(refusal)}", ExitStatus.NO)
    is_loaded = with_rest or not loading.refused
    if is_loaded:
        register = open_register(configuration, must_be=False)
        with Progress("load, registered", len(loading.new), 0) as progress:
            register.load(progress.over(loading.new.items()))
        register.close()
    counts = {"lines": len(lines), "loaded": len(loading.new) if is_loaded else 0, "refused": len(loading.refused),
              "known": loading.known}
    words = f"{counted(counts['lines'], 'line')}, {counts['loaded']} loaded, {counts['refused']} refused"
    words += f", {loading.known} known already" if loading.known else ""
    output.end(counts, words)


def dump(holdings: Holdings, program: Program, as_json: bool) -> None:
    """Writes all labels in label order, each with its holder after a tab; or as objects."""
    for start in range(0, len(holdings.labels), DUMPED):
        labels = holdings.labels[start:start + DUMPED]
        Output.line("\n".join((dumped if as_json else plain)(holdings, labels, program)))


def plain(holdings: Holdings, labels: list[str], program: Program) -> Iterator[str]:
    """The lines that load takes; with the name in the zone of what may not be registered today."""
    names = {label: name_of(label) for label in barred(program, text_of(labels))}
    for label in labels:
        name, holder = names.get(label, label), holdings.holders.get(label)
        yield name if holder is None else f"{name}\t{holder}"


def dumped(holdings: Holdings, labels: list[str], program: Program) -> Iterator[str]:
    """The objects."""
    named: dict[str, Any] = holdings.named(labels, program)
    for label in labels:
        yield json.dumps(named[label].object(), ensure_ascii=False, separators=(",", ":"))
