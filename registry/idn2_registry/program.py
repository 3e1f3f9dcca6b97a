"""The program `idn2`, which decides: where it is, and runs of it that end."""

import contextlib
import json
import os
import pkgutil
import re
import select
import shutil
import subprocess
import sys
import weakref
from collections.abc import Iterator, Sequence
from pathlib import Path

from .answers import Object
from .configuration import Configuration, LabelRules
from .faults import NotRegistered, Unknown, Unusable

# Under which name the program is installed beside this one; `make install` writes another name here if it has one.
NAME_FILE = "program_name.txt"
ANSWERED = (0, 1)
# The message of a line that is refused.
REFUSED = re.compile(rb"^idn2: line (\d+): \d+ .*\n", re.MULTILINE)
# How the message of a file of registered labels begins that is refused.
NOT_REGISTERED = b"idn2: registered line "
OPTIONS: dict[LabelRules, tuple[str, ...]] = {LabelRules.PROFILE: (), LabelRules.STANDARD: ("--standard",)}


def named() -> str:
    """The name of the program."""
    return (pkgutil.get_data(__package__, NAME_FILE) or b"").decode().strip()


def candidates(name: str) -> Iterator[Path]:
    """Where the program may be: beside this one, where the repository builds it, and first on the path."""
    package = Path(__file__).resolve().parent
    yield Path(sys.argv[0]).resolve().parent / name
    yield package.parent.parent / "crates" / "idn2" / "out" / name
    if found := shutil.which(name):
        yield Path(found)


class LacksRules(Unusable):
    """A program can't test labels as a configuration says."""


class Program:
    """The program in a file, which tests labels by some rules in every run."""

    def __init__(self, path: str | os.PathLike[str] | None = None, rules: LabelRules = LabelRules.PROFILE) -> None:
        """Finds it, or takes the one at a path. Raises Unusable if it isn't there, is another program, or lacks the rules."""
        name = named()
        # Absolute, since a name without a folder would be looked for on the path.
        found = [Path(path).absolute()] if path else list(candidates(name))
        self.path = str(next((each for each in found if os.access(each, os.X_OK) and each.is_file()), ""))
        if not self.path:
            raise Unusable(f"{path or name}: no such program: install it beside this one, or name it with --idn2 PROGRAM")
        self.options: tuple[str, ...] = ()
        asked = self.run(["--version"])
        if asked.returncode < 0:
            raise Unusable(f"{self.path}: {ended(asked.returncode, asked.stderr)}: name another with --idn2 PROGRAM")
        self.version = asked.stdout.decode("utf-8", "replace").strip()
        if not re.match(r"idn2 \d", self.version):
            raise Unusable(f"{self.path}: another program of this name: name the right one with --idn2 PROGRAM")
        self.options = OPTIONS[rules]
        if self.run(["--register"]).returncode != 0:
            raise LacksRules(f"{self.path}: {self.version} can't test labels by labels = \"{rules.value}\": name a newer one "
                             "with --idn2 PROGRAM")

    @classmethod
    def of(cls, configuration: Configuration, path: str | os.PathLike[str] | None) -> "Program":
        """The program as a configuration wants it. Raises Unusable, with the line if it is that which can't be done."""
        try:
            return cls(path, configuration.labels)
        except LacksRules as error:
            raise configuration.file.fault("labels", str(error)) from error

    @property
    def state(self) -> bytes:
        """On what of it its answers depend."""
        return " ".join([self.version, *self.options]).encode()

    def run(self, words: Sequence[str], given: bytes = b"", files: Sequence[int] = (),
            seconds: float | None = 60) -> subprocess.CompletedProcess[bytes]:
        """One run. Raises Unusable if the program can't be started, and Unknown if it takes too long."""
        try:
            return subprocess.run([self.path, *self.options, *words], input=given, capture_output=True, pass_fds=tuple(files),
                                  timeout=seconds, check=False)
        except subprocess.TimeoutExpired as error:
            raise Unknown(f"no answer within {seconds:g} seconds") from error
        except OSError as error:
            raise self._unusable(error) from error

    def _unusable(self, error: OSError) -> Unusable:
        """Why it can't be started."""
        return Unusable(f"{self.path}: {error.strerror}: name another program with --idn2 PROGRAM")

    @contextlib.contextmanager
    def opened(self, words: Sequence[str], files: Sequence[int] = ()) -> Iterator["OpenRun"]:
        """A run that is given its lines in parts. Raises Unusable if the program can't be started."""
        try:
            child = subprocess.Popen([self.path, *self.options, *words], stdin=subprocess.PIPE, stdout=subprocess.PIPE,
                                     stderr=subprocess.PIPE, pass_fds=tuple(files), bufsize=0)
        except OSError as error:
            raise self._unusable(error) from error
        with child:
            try:
                yield OpenRun(child)
            finally:
                child.kill()

    def answered(self, words: Sequence[str], given: bytes = b"", files: Sequence[int] = (),
                 seconds: float | None = None) -> bytes:
        """The output of a run with `--json` that answered each line. Raises Unknown for any other."""
        done = self.run(["--json", *words], given, files, seconds)
        if done.returncode not in ANSWERED:
            raise Unknown(ended(done.returncode, done.stderr))
        return done.stdout

    def alabels(self, labels: Sequence[bytes]) -> list[str | None]:
        """The A-labels of labels; None for one that may not be registered."""
        output, refused = self.plain(["--register"], b"".join(label + b"\n" for label in labels))
        told, none = output.decode().split("\n")[:-1], set(refused)
        if len(told) + len(none) != len(labels):
            raise Unknown("the program didn't answer each label")
        left = iter(told)
        return [None if number in none else next(left) for number in range(1, len(labels) + 1)]

    def tested(self, labels: Sequence[bytes]) -> list[Object]:
        """What it says of labels that are to be registered."""
        return self._told(["--register"], labels)

    def decoded(self, names: Sequence[bytes]) -> list[Object]:
        """Which labels of today or of older rules it says that names of a zone stand for."""
        return self._told(["--decode", "--old"], names)

    def _told(self, words: Sequence[str], labels: Sequence[bytes]) -> list[Object]:
        """The object that answers each label."""
        output = self.answered(words, b"".join(label + b"\n" for label in labels))
        told = [json.loads(line) for line in output.split(b"\n")[:-1]]
        if len(told) != len(labels):
            raise Unknown("the program didn't answer each label")
        return told

    def plain(self, words: Sequence[str], given: bytes, files: Sequence[int] = ()) -> tuple[bytes, list[int]]:
        """The output, without objects, of a run that answered each line, and the numbers of the lines that it refused. Raises
        NotRegistered where it refused its registered labels, and Unknown for any other."""
        done = self.run(words, given, files, None)
        refused = refused_lines(done.stderr)
        if done.returncode not in ANSWERED or refused is None:
            raise unanswered(done.returncode, done.stderr)
        return done.stdout, refused


class OpenRun:
    """A run that is given its lines in parts. Behind each part stands an empty line, which is refused: what the program writes
    of the part is written before it says that."""

    def __init__(self, child: "subprocess.Popen[bytes]") -> None:
        assert child.stdin and child.stdout and child.stderr
        self._child = child
        self._given, self._output, self._messages = child.stdin.fileno(), child.stdout.fileno(), child.stderr.fileno()
        os.set_blocking(self._given, False)
        # How many lines it was given.
        self._count = 0

    def plain(self, part: bytes) -> tuple[bytes, list[int]]:
        """The output, without objects, of a part, and the numbers of its lines that it refused. Raises NotRegistered where it
        refused its registered labels, and Unknown where it ended or said anything else."""
        before = self._count
        output, messages = self._told(part, self._messages, b"idn2: line %d: ")
        refused = refused_lines(messages)
        if refused is None:
            raise Unknown(f"the program gave another answer than it should: {messages!r}")
        return output, [number - before for number in refused[:-1]]

    def answered(self, part: bytes) -> bytes:
        """The output of a part, with `--json`. Raises Unknown where it ended."""
        output, _ = self._told(part, self._output, b'{"line":%d,"input":"",')
        return output[:output.rfind(b"\n", 0, -1) + 1]

    def _told(self, part: bytes, stream: int, end: bytes) -> tuple[bytes, bytes]:
        """What it writes of a part, and its messages, up to a line of one of them that begins as it says of the empty line."""
        self._count += part.count(b"\n") + 1
        end %= self._count
        told = {self._output: bytearray(), self._messages: bytearray()}
        left = memoryview(part + b"\n")
        poll = select.poll()
        poll.register(self._given, select.POLLOUT)
        for each in told:
            poll.register(each, select.POLLIN)
        while True:
            is_answered = last_line(told[stream]).startswith(end)
            # What it wrote before that is there by now.
            ready = poll.poll(0 if is_answered else None)
            if is_answered and not ready:
                return bytes(told[self._output]), bytes(told[self._messages])
            for each, _ in ready:
                if each == self._given:
                    left = self._rest(left)
                    if not left:
                        poll.unregister(each)
                elif piece := os.read(each, 65_536):
                    told[each] += piece
                else:
                    raise self._ended(told[self._messages])

    def _rest(self, left: memoryview) -> memoryview:
        """What is left to be written of some bytes."""
        try:
            return left[os.write(self._given, left):]
        except BrokenPipeError:
            return left[:0]

    def _ended(self, messages: bytearray) -> Unknown:
        """Why it ended."""
        assert self._child.stderr
        messages += self._child.stderr.read()
        return unanswered(self._child.wait(), bytes(messages))


def last_line(text: bytearray) -> bytearray:
    """The last line of a text, if it is whole."""
    return text[text.rfind(b"\n", 0, -1) + 1:] if text.endswith(b"\n") else bytearray()


def refused_lines(messages: bytes) -> list[int] | None:
    """The numbers of the lines that a run without objects refused; None if it said anything else."""
    refused = [int(line) for line in REFUSED.findall(messages)]
    return refused if len(refused) == messages.count(b"\n") else None


def unanswered(status: int, messages: bytes) -> Unknown:
    """Why a run answered nothing."""
    return (NotRegistered if messages.startswith(NOT_REGISTERED) else Unknown)(ended(status, messages))


def ended(status: int, messages: bytes) -> str:
    """Why a process ended, in one line."""
    told = messages.decode("utf-8", "replace").strip().splitlines()
    return f"the program ended with status {status}" + (f": {told[-1]}" if told else "")


class HeldFile:
    """Bytes that processes read as a file. They stay the same when the file they came from changes. The descriptor is what
    a process is handed; it is closed when nothing has the file any more."""

    def __init__(self, data: bytes) -> None:
        # In memory, since a service should go on when a disk is full.
        self.descriptor = os.memfd_create("idn2-registry")
        weakref.finalize(self, os.close, self.descriptor)
        with open(self.descriptor, "wb", closefd=False) as file:
            file.write(data)

    @property
    def path(self) -> str:
        """Under which path such a process reads it."""
        return f"/dev/fd/{self.descriptor}"
