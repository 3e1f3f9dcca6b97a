"""Processes of the program that answer one request after another, and are replaced where they fail."""

import fcntl
import json
import os
import select
import subprocess
import threading
import time
from collections import deque
from collections.abc import Iterable, Iterator, Sequence
from dataclasses import dataclass

from .answers import Object
from .faults import Unknown
from .idle import Idle
from .program import HeldFile, Program, ended
from .together import Ask

# A request is no longer than this; the program refuses a longer line (2) whatever follows.
MOST_BYTES = 1_025
# Lines are counted from the start of a process, up to 4,294,967,296.
MOST_REQUESTS = 1_000_000_000


@dataclass(frozen=True, eq=False)
class Question:
    """The options of a process. Each request of the same question may go to the same process."""

    options: tuple[str, ...]
    files: tuple[HeldFile, ...] = ()


# A line, and of which question it is.
Asked = tuple[Question, bytes]


class Time:
    """The time that a request has, or so many together."""

    def __init__(self, seconds: float, count: int = 1) -> None:
        self._seconds, self._count, self._end = seconds, count, time.monotonic() + seconds

    def left(self) -> float:
        """The seconds that are left. Raises Unknown if it is over."""
        left = self._end - time.monotonic()
        if left <= 0:
            raise Unknown(f"no answer within {round(self._seconds, 2):g} seconds")
        return left

    def of_a_line(self) -> "Time":
        """The time that one answer has: of several requests half of what is left, so that where a process hangs the
        others still have answers."""
        return self if self._count == 1 else Time(self.left() / 2)


class Process:
    """One process. After anything but an answer to a request it isn't asked again, since what it still says would be taken
    for the next answer."""

    def __init__(self, program: Program, question: Question) -> None:
        self._asked = 0
        # What it said: whole lines, and the beginning of the next one.
        self._lines: deque[bytes] = deque()
        self._rest = b""
        try:
            self._child = subprocess.Popen(
                [program.path, *program.options, "--json", *question.options], stdin=subprocess.PIPE, stdout=subprocess.PIPE,
                stderr=subprocess.PIPE, pass_fds=[file.descriptor for file in question.files], bufsize=0)
        except OSError as error:
            told = "the program can't be started"
            raise Unknown(f"{program.path}: {told}: {error.strerror}", told) from error
        assert self._child.stdin and self._child.stdout
        self._requests, self._answers = self._child.stdin.fileno(), self._child.stdout.fileno()
        # So much the pipe takes at once if nothing is in it.
        self._room = fcntl.fcntl(self._requests, fcntl.F_GETPIPE_SZ)
        self._poll = select.poll()
        self._poll.register(self._answers, select.POLLIN | select.POLLHUP)

    @property
    def is_fit(self) -> bool:
        """Whether it can be asked again, if it runs."""
        return self._asked < MOST_REQUESTS and not self._lines and not self._rest

    @property
    def is_running(self) -> bool:
        """Whether it hasn't ended."""
        return self._child.poll() is None

    def ask(self, requests: Sequence[bytes], until: Time) -> Iterator[list[Object]]:
        """The objects that answer each line. Raises Unknown where there is no answer, or not in time."""
        for some in pipefuls(requests, self._room):
            try:
                # The process has read all before.
                os.write(self._requests, b"".join(request + b"\n" for request in some))
            except OSError as error:
                raise Unknown(f"the program gave no answer: {error}") from error
            for request in some:
                yield self._answer(request, until.of_a_line())

    def _answer(self, request: bytes, until: Time) -> list[Object]:
        """The objects that answer the next line."""
        self._asked += 1
        objects: list[Object] = []
        try:
            told: Object = {}
            while "input" not in told and "input_hex" not in told:
                # It is UTF-8, so that json needn't look for the encoding.
                told = json.loads(self._line(until).decode())
                if told.get("line") != self._asked:
                    raise Unknown(f"the program answered another request: {told}")
                objects.append(told)
            if told.get("input") not in (None, request.decode("utf-8", "replace")):
                raise Unknown(f"the program answered another request: {told}")
            return objects
        except (OSError, ValueError, AttributeError) as error:
            raise Unknown(f"the program gave no answer: {error}") from error

    def _line(self, until: Time) -> bytes:
        """The next line of the output."""
        while not self._lines:
            if self._poll.poll(until.left() * 1000):
                piece = os.read(self._answers, 65_536)
                if not piece:
                    raise Unknown(self._end())
                *lines, self._rest = (self._rest + piece).split(b"\n")
                self._lines.extend(lines)
        return self._lines.popleft()

    def _end(self) -> str:
        """Why it ended."""
        assert self._child.stderr
        try:
            return ended(self._child.wait(1), self._child.stderr.read())
        except subprocess.TimeoutExpired:
            return "the program closed its output"

    def close(self) -> None:
        """Ends it."""
        self._child.kill()
        self._child.wait()
        for stream in (self._child.stdin, self._child.stdout, self._child.stderr):
            if stream:
                stream.close()


def pipefuls(requests: Sequence[bytes], room: int) -> Iterator[list[bytes]]:
    """Requests in pieces, each of which a pipe with so much room takes at once."""
    some: list[bytes] = []
    size = 0
    for request in requests:
        size += len(request) + 1
        if some and size > room:
            yield some
            some, size = [], len(request) + 1
        some.append(request)
    yield some


class Places:
    """So many may be taken at once. Who waits longest has the next one: under a queue or a semaphore of the standard library
    one that asks again and again goes before those that wait, some of them until their time is over."""

    def __init__(self, count: int) -> None:
        self._lock = threading.Lock()
        self._free = count
        # Of each that waits a lock, which is opened when its turn comes.
        self._waiting: deque[threading.Lock] = deque()

    def take(self, seconds: float) -> bool:
        """Whether there is one within so many seconds."""
        with self._lock:
            if self._free:
                self._free -= 1
                return True
            turn = threading.Lock()
            turn.acquire()
            self._waiting.append(turn)
        if turn.acquire(timeout=seconds):
            return True
        with self._lock:
            # It may have come at the last moment.
            if turn not in self._waiting:
                return True
            self._waiting.remove(turn)
            return False

    def give_back(self) -> None:
        """Gives one to who waits longest."""
        with self._lock:
            if self._waiting:
                self._waiting.popleft().release()
            else:
                self._free += 1


class Pool:
    """Processes for several questions; at most so many are asked at once."""

    def __init__(self, program: Program, most: int, seconds: float) -> None:
        self.program = program
        self.seconds = seconds
        self._places = Places(most)
        self._idle: Idle[Process] = Idle()

    def ask(self, question: Question, requests: Sequence[bytes], until: Time) -> list[list[Object] | Unknown]:
        """The objects that answer each line. Where a process fails, the line that it was at has no answer; those behind
        it are asked of another one."""
        told: list[list[Object] | Unknown] = []
        lines = [request[:MOST_BYTES] for request in requests]
        while len(told) < len(lines):
            told += self._told_by_one(question, lines[len(told):], until)
        return told

    def _told_by_one(self, question: Question, lines: Sequence[bytes], until: Time) -> list[list[Object] | Unknown]:
        """What one process, which nobody else asks, answers up to the line at which it fails. One that failed is replaced."""
        told: list[list[Object] | Unknown] = []
        try:
            if not self._places.take(until.left()):
                return [busy(self.seconds)]
        except Unknown as fault:
            return [fault]
        try:
            process = self._taken(question)
            try:
                for objects in process.ask(lines, until):
                    told.append(objects)
            except BaseException:
                process.close()
                raise
            if process.is_fit:
                self._idle.keep(process, question)
            else:
                process.close()
        except Unknown as fault:
            told.append(fault)
        finally:
            self._places.give_back()
        return told

    def _taken(self, question: Question) -> Process:
        """A process that nobody else asks."""
        while process := self._idle.take(question):
            if process.is_running:
                return process
            process.close()
        return Process(self.program, question)

    def close(self) -> None:
        """Ends the processes; those that are asked now after their answer."""
        self._idle.close()


class Questions:
    """What so many requests, which are answered together, ask of a pool: all in the time of one request, and nothing
    twice."""

    def __init__(self, pool: Pool, count: int = 1) -> None:
        self._pool = pool
        self._until = Time(pool.seconds, count)
        self._told: dict[Asked, list[Object] | Unknown] = {}

    async def ask(self, question: Question, request: bytes) -> list[Object]:
        """The objects that answer one line. Raises Unknown."""
        [told] = await self.ask_each(question, [request])
        return told

    async def ask_each(self, question: Question, requests: Iterable[bytes]) -> list[list[Object]]:
        """The objects that answer each line. Raises Unknown."""
        return await self.ask_all([(question, request) for request in requests])

    async def ask_all(self, asked: Sequence[Asked]) -> list[list[Object]]:
        """The objects that answer each line of each question, all in one turn. Raises Unknown."""
        return await Ask(self._tell, asked)

    def _tell(self, asked: Sequence[Asked]) -> list[list[Object] | Unknown]:
        new: dict[Question, dict[bytes, None]] = {}
        for question, request in asked:
            if (question, request) not in self._told:
                new.setdefault(question, {})[request] = None
        for question, requests in new.items():
            for request, told in zip(requests, self._pool.ask(question, [*requests], self._until), strict=True):
                self._told[question, request] = told
        return [self._told[each] for each in asked]


def busy(seconds: float) -> Unknown:
    """Why a request had no turn."""
    return Unknown(f"all processes are busy for {seconds:g} seconds: raise processes in the configuration")


def only(objects: Sequence[Object], *members: str) -> Object:
    """The one object of an answer, which has one of the members or a refusal."""
    if len(objects) != 1 or objects[0].keys().isdisjoint((*members, "refusal")):
        raise Unknown(f"the program gave another answer than it should: {objects[-1]}")
    return objects[0]
