"""Long work in parts: on all processors or on a cluster, with a progress bar; what is done is kept, to go on with."""

import contextlib
import hashlib
import itertools
import queue
import shutil
import sys
import threading
import time
import zlib
from collections.abc import Iterable, Iterator, Sequence
from concurrent.futures import ThreadPoolExecutor
from dataclasses import dataclass, replace
from pathlib import Path
from types import TracebackType
from typing import BinaryIO, Protocol, TypeVar

from .faults import Unusable

Each = TypeVar("Each")
# A part has so many lines; where one line may take long, fewer, so that what a stop undoes takes seconds.
PART_LINES, SLOW_PART_LINES, SLOWEST_PART_LINES = 10_000, 5_000, 100
# A worker of a cluster is sent parts of about so many lines at once.
BATCH_LINES = 100_000
# To read all registered labels takes less than a twentieth of the time of an audit: so many processes may do it, and more only
# where each is asked a batch.
READERS = 10
BAR = 30
# So often the bar is drawn, in seconds.
TICK = 0.25


class Task(Protocol):
    """What is done with each part. A cluster is sent it."""

    def done(self, parts: Iterable[bytes]) -> Iterator[bytes]:
        """The result of each part, a line without its end, before the next part is taken: what they share is made once."""


@dataclass(frozen=True)
class Means:
    """With what the work is done: threads, each of which waits for processes, or the scheduler of a cluster; and where its
    results are kept."""

    kept: "Kept"
    processes: int
    scheduler: str | None = None

    def reading(self, count: int) -> "Means":
        """The same for a task of whose processes each reads all registered labels, of which there are so many."""
        return replace(self, processes=min(self.processes, max(READERS, count // BATCH_LINES)))


def parts_of(text: bytes, size: int = PART_LINES) -> list[bytes]:
    """The lines of a text in parts, each of about so many."""
    number = -(-text.count(b"\n") // size)
    ends = [text.find(b"\n", len(text) * each // number) + 1 for each in range(1, number)]
    parts = [text[start:end] for start, end in zip([0, *ends], [*ends, len(text)], strict=True)]
    return [part for part in parts if part]


class Progress:
    """A bar with rate and time left, where standard error is a terminal; until there is a rate, with the time that went by, so
    that it moves. What was done before has no part in the rate."""

    def __init__(self, name: str, total: int, before: int) -> None:
        self._name, self._total, self._before, self._done, self._start = name, total, before, before, time.monotonic()
        self._is_shown = total > 0 and sys.stderr.isatty()
        self._width = 0
        self._end = threading.Event()
        self._thread = threading.Thread(target=self._run, daemon=True)

    def __enter__(self) -> "Progress":
        if self._is_shown:
            self.show()
            self._thread.start()
        return self

    def __exit__(self, kind: type[BaseException] | None, value: BaseException | None, trace: TracebackType | None) -> None:
        if self._is_shown:
            self._end.set()
            self._thread.join()
            self.show()
            print(file=sys.stderr, flush=True)

    def add(self, count: int) -> None:
        """So many are done."""
        self._done += count

    def over(self, each: Iterable[Each]) -> Iterator[Each]:
        """Of which one more is done whenever the next one is taken."""
        for one in each:
            yield one
            self.add(1)

    def _run(self) -> None:
        while not self._end.wait(TICK):
            self.show()

    def show(self) -> None:
        """Draws it."""
        seconds = time.monotonic() - self._start
        rate = (self._done - self._before) / max(seconds, 1e-6)
        told = f"{rate:.0f}/s, {(self._total - self._done) / rate:.0f} s left" if rate else f"{seconds:.0f} s"
        bar = ("#" * (BAR * self._done // self._total)).ljust(BAR)
        text = f"{self._name} [{bar}] {self._done} of {self._total}, {told} "
        self._width = max(self._width, len(text))
        with contextlib.suppress(OSError, ValueError):
            print(f"\r{text.ljust(self._width)}", end="", file=sys.stderr, flush=True)


class Kept:
    """What a job has done, in a folder: of each stage of the job a file. It is removed at the end of the job."""

    def __init__(self, folder: Path, must_resume: bool) -> None:
        self._folder = folder
        if not must_resume:
            shutil.rmtree(folder, ignore_errors=True)

    def __enter__(self) -> "Kept":
        return self

    def __exit__(self, kind: type[BaseException] | None, value: BaseException | None, trace: TracebackType | None) -> None:
        if kind is None:
            shutil.rmtree(self._folder, ignore_errors=True)
        else:
            # Where nothing is done, there is nothing to go on with.
            with contextlib.suppress(OSError):
                self._folder.rmdir()

    def stage(self, name: str, state: Sequence[bytes]) -> "Stage":
        """What is done of a stage, which is of a state of things. Raises Unusable if it is of another one."""
        try:
            self._folder.mkdir(exist_ok=True)
            return Stage(self._folder / name, state)
        except OSError as error:
            raise Unusable(f"{self._folder}: {error.strerror}: parts that are done can't be kept there") from error


class Stage:
    """The results of the parts of one stage. Its file has the digest of the state in the first line, and then a line for each
    part: a checksum, its number and its result, with blanks between. A last line that was cut short, when the process was
    killed, isn't there."""

    def __init__(self, path: Path, state: Sequence[bytes]) -> None:
        self._path = path
        digest = hashlib.sha256()
        for piece in state:
            digest.update(len(piece).to_bytes(8, "big") + piece)
        self._digest = digest.hexdigest().encode()
        self._file: BinaryIO | None = None
        self.found: dict[int, bytes] = {}
        data = path.read_bytes() if path.exists() else b""
        self._size = data.rfind(b"\n") + 1
        digest_then, *lines = data[:self._size].split(b"\n")
        if self._size and digest_then != self._digest:
            raise Unusable(f"{path}: of another state of the tables, the labels or the program: leave out --resume")
        for place, line in enumerate(lines[:-1], 2):
            checksum, _, rest = line.partition(b" ")
            if checksum != checksum_of(rest):
                raise Unusable(f"{path}: line {place}: it was changed: leave out --resume")
            number, _, result = rest.partition(b" ")
            self.found[int(number)] = result

    def keep(self, number: int, result: bytes) -> None:
        """Keeps the result of a part."""
        if self._file is None:
            self._file = open(self._path, "ab")
            self._file.truncate(self._size)
            if not self._size:
                self._file.write(self._digest + b"\n")
        line = b"%d %s" % (number, result)
        self._file.write(checksum_of(line) + b" " + line + b"\n")
        self._file.flush()
        self.found[number] = result

    def close(self) -> None:
        """Closes its file."""
        if self._file is not None:
            with contextlib.suppress(OSError):
                self._file.close()


def checksum_of(line: bytes) -> bytes:
    """By which a line that isn't as it was written, as after a power failure, is known."""
    return b"%08x" % zlib.crc32(line)


def results(means: Means, name: str, task: Task, parts: Sequence[bytes], state: Sequence[bytes]) -> list[bytes]:
    """The results of all parts of a stage in their order. The state is all that they depend on."""
    # Only a bar shows how many lines are done.
    lines = [part.count(b"\n") if sys.stderr.isatty() else 0 for part in parts]
    with contextlib.closing(means.kept.stage(name, [name.encode(), *state, *parts])) as stage:
        open_parts = {number: part for number, part in enumerate(parts) if number not in stage.found}
        with Progress(name, sum(lines), sum(lines[number] for number in stage.found)) as progress:
            for number, result in done_parts(means, task, open_parts):
                stage.keep(number, result)
                progress.add(lines[number])
    return [stage.found[number] for number in range(len(parts))]


def done_parts(means: Means, task: Task, parts: dict[int, bytes]) -> Iterator[tuple[int, bytes]]:
    """The numbers and results of parts, as they are done."""
    if not parts:
        return
    if means.scheduler is not None:
        from .cluster import done_by_cluster

        yield from done_by_cluster(means.scheduler, task, batches(parts))
        return
    here = Here(task, parts)
    with ThreadPoolExecutor(means.processes) as executor:
        try:
            threads = min(means.processes, len(parts))
            for _ in range(threads):
                executor.submit(here.work)
            yield from here.results(threads)
        finally:
            here.stop()


class Here:
    """A task that threads of this process do. Each takes the next part when it has done one."""

    def __init__(self, task: Task, parts: dict[int, bytes]) -> None:
        self._task = task
        self._left = iter(parts.items())
        self._lock = threading.Lock()
        # Results with their numbers, the end of a thread, or why it failed.
        self._told: queue.SimpleQueue[tuple[int, bytes] | BaseException | None] = queue.SimpleQueue()

    def _parts(self, numbers: list[int]) -> Iterator[bytes]:
        """The parts that a thread takes, and their numbers."""
        while True:
            with self._lock:
                number, part = next(self._left, (0, None))
            if part is None:
                return
            numbers.append(number)
            yield part

    def work(self) -> None:
        """What each thread does."""
        numbers: list[int] = []
        parts = self._parts(numbers)
        try:
            # A task begins only where a part is left for it.
            for first in parts:
                for result in self._task.done(itertools.chain([first], parts)):
                    self._told.put((numbers[-1], result))
            self._told.put(None)
        except BaseException as error:
            self._told.put(error)

    def results(self, threads: int) -> Iterator[tuple[int, bytes]]:
        """The numbers and results of all parts. Raises what a thread raised."""
        while threads:
            told = self._told.get()
            if isinstance(told, BaseException):
                raise told
            if told is None:
                threads -= 1
            else:
                yield told

    def stop(self) -> None:
        """No thread takes another part."""
        with self._lock:
            self._left = iter(())


def batches(parts: dict[int, bytes]) -> Iterator[dict[int, bytes]]:
    """Parts with their numbers, as many together as have enough lines for a worker."""
    batch: dict[int, bytes] = {}
    lines = 0
    for number, part in parts.items():
        batch[number] = part
        lines += part.count(b"\n")
        if lines >= BATCH_LINES:
            yield batch
            batch, lines = {}, 0
    if batch:
        yield batch
