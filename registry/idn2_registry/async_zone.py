"""A zone for programs that use asyncio."""

import asyncio
import contextlib
import os
import threading
import time
from collections import deque
from collections.abc import Callable
from queue import SimpleQueue
from types import TracebackType
from typing import Any, Generic, TypeVar

from .answers import Answer
from .configuration import DEFAULT_PATH
from .faults import Unknown
from .processes import busy
from .zone import Check, Zone

Result = TypeVar("Result")
# So many checks are answered together at most, since the most costly of them holds up the others.
MOST_TOGETHER = 16


class Calls:
    """Calls that threads have made in an event loop. Those that are due together wake it once, since to wake it takes a good
    part of the time of a small answer."""

    def __init__(self, loop: asyncio.AbstractEventLoop) -> None:
        self.loop = loop
        self._due: deque[Callable[[], object]] = deque()
        self._is_woken = False

    def add(self, call: Callable[[], object]) -> None:
        """One more."""
        self._due.append(call)
        if not self._is_woken:
            self._is_woken = True
            self.loop.call_soon_threadsafe(self._make)

    def _make(self) -> None:
        # What is added from here on wakes it once more, even if it is made now.
        self._is_woken = False
        try:
            while self._due:
                self._due.popleft()()
        finally:
            # One that failed keeps no other from being made.
            if self._due:
                self.loop.call_soon(self._make)


class Waiting(Generic[Result]):
    """Who waits in an event loop for what a thread finds out."""

    def __init__(self, seconds: float, calls: Calls) -> None:
        self.result: asyncio.Future[Result] = calls.loop.create_future()
        self._calls = calls
        self._seconds, self._until = seconds, time.monotonic() + seconds

    def expect_turn(self) -> None:
        """Raises Unknown if its turn comes too late."""
        if time.monotonic() > self._until:
            raise busy(self._seconds)

    def tell(self, result: Result) -> None:
        """The result."""
        self._calls.add(lambda: self._settle(self.result.set_result, result))

    def fail(self, fault: BaseException) -> None:
        """Why there is none."""
        self._calls.add(lambda: self._settle(self.result.set_exception, fault))

    def _settle(self, settle: Callable[[Any], None], value: object) -> None:
        # Nobody waits any more, or it was told already.
        if not self.result.done():
            settle(value)


class AsyncZone:
    """As Zone, with calls that are awaited. As many threads ask the zone as it has processes. What they are to ask
    waits in one queue, where a thread that is done finds it without the event loop: each way between two threads takes
    as long as a small answer. Checks that wait are answered together."""

    def __init__(self, zone: Zone) -> None:
        """A zone whose calls are made in threads of their own."""
        self.zone = zone
        self._queue: SimpleQueue[Callable[[], None] | None] = SimpleQueue()
        self._checks: deque[tuple[Check, Waiting[Answer]]] = deque()
        self._calls: Calls | None = None
        self._threads = [threading.Thread(target=self._work, name=f"idn2-registry-{number}", daemon=True)
                         for number in range(zone.configuration.processes)]
        for thread in self._threads:
            thread.start()

    @classmethod
    async def open(cls, path: str | os.PathLike[str] = DEFAULT_PATH,
                   program: str | os.PathLike[str] | None = None) -> "AsyncZone":
        """As Zone.open. Raises Unusable."""
        return cls(await asyncio.to_thread(Zone.open, path, program))

    async def __aenter__(self) -> "AsyncZone":
        return self

    async def __aexit__(self, kind: type[BaseException] | None, value: BaseException | None,
                        trace: TracebackType | None) -> None:
        await self.close()

    async def check(self, label: str, holder: str | None = None, variants: bool = False) -> Answer:
        """As Zone.check."""
        if variants:
            return await self._answer(label, self.zone.check, holder, variants)
        waiting: Waiting[Answer] = Waiting(self.zone.limits.seconds, self._calls_here())
        self._checks.append((Check(label, holder), waiting))
        self._queue.put(self._answer_checks)
        return await waiting.result

    async def register(self, label: str, holder: str | None = None) -> Answer:
        """As Zone.register. If the call is cancelled, the label may be registered all the same."""
        return await self._answer(label, self.zone.register, holder)

    async def release(self, label: str) -> Answer:
        """As Zone.release."""
        return await self._answer(label, self.zone.release)

    async def variants(self, label: str, table: str | None = None, page: int | None = None,
                       after: str | None = None) -> Answer:
        """As Zone.variants."""
        return await self._answer(label, self.zone.variants, table, page, after)

    async def tables_of(self, label: str) -> Answer:
        """As Zone.tables_of."""
        return await self._answer(label, self.zone.tables_of)

    async def reload(self) -> None:
        """As Zone.reload."""
        await asyncio.to_thread(self.zone.reload)

    async def close(self) -> None:
        """Waits for what was asked, and closes the zone."""
        await asyncio.to_thread(self._end)
        self.zone.close()

    async def call(self, call: Callable[..., Result], *given: object) -> Result:
        """What a call gives that asks the zone. Raises Unknown if its turn doesn't come in the time of a request."""
        waiting: Waiting[Result] = Waiting(self.zone.limits.seconds, self._calls_here())

        def answer() -> None:
            try:
                if not waiting.result.cancelled():
                    waiting.expect_turn()
                    waiting.tell(call(*given))
            except BaseException as error:
                waiting.fail(error)

        self._queue.put(answer)
        return await waiting.result

    def _calls_here(self) -> Calls:
        """Those in the event loop that runs."""
        loop = asyncio.get_running_loop()
        if self._calls is None or self._calls.loop is not loop:
            self._calls = Calls(loop)
        return self._calls

    async def _answer(self, label: str, call: Callable[..., Answer], *given: object) -> Answer:
        """The answer to a label."""
        try:
            return await self.call(call, label, *given)
        except Unknown as fault:
            return Answer.unknown(label, fault)

    def _answer_checks(self) -> None:
        """Answers checks that wait, if another thread hasn't taken them."""
        taken: list[tuple[Check, Waiting[Answer]]] = []
        with contextlib.suppress(IndexError):
            while len(taken) < MOST_TOGETHER:
                check, waiting = self._checks.popleft()
                try:
                    waiting.expect_turn()
                    taken.append((check, waiting))
                except Unknown as fault:
                    waiting.tell(Answer.unknown(check.label, fault))
        try:
            for number, answer in self.zone.check_together([check for check, _ in taken]):
                taken[number][1].tell(answer)
        except BaseException as error:
            for _, waiting in taken:
                waiting.fail(error)

    def _work(self) -> None:
        while answer := self._queue.get():
            answer()

    def _end(self) -> None:
        """Ends the threads."""
        for _ in self._threads:
            self._queue.put(None)
        for thread in self._threads:
            thread.join()
