"""What is asked of the zone, with what an operator is told of it."""

import asyncio
import time
from collections.abc import Callable, Sequence
from typing import TypeVar

from ..answers import Answer, Status
from ..async_zone import MOST_TOGETHER, AsyncZone
from ..faults import Unusable
from ..output import complain
from ..requests import Request
from ..words import counted
from ..zone import Zone
from .metrics import Metrics

Result = TypeVar("Result")
# So long several labels of one request may take. Those that are left are unknown then.
BATCH_SECONDS = 30.0
# So long after a line on answers that aren't known the next one comes at the earliest.
QUIET_SECONDS = 60.0


class Unknowns:
    """Tells the operator of answers that aren't known: of the first at once, and then at most once a minute how many there
    were, and why the last one."""

    def __init__(self) -> None:
        self._count = 0
        self._next = 0.0

    def add(self, reason: str | None) -> None:
        """One more."""
        self._count += 1
        if time.monotonic() >= self._next:
            complain(f"{counted(self._count, 'answer')} not known, the last one because: {reason}")
            self._count, self._next = 0, time.monotonic() + QUIET_SECONDS


class Answering:
    """Asks a zone for several connections."""

    def __init__(self, zone: Zone, metrics: Metrics) -> None:
        self.zone = zone
        self.unknowns = Unknowns()
        self._metrics = metrics
        self._asked = AsyncZone(zone)

    async def ask(self, request: Request) -> Answer:
        """The answer to a request. Raises ValueError for what can't be asked."""
        start = time.perf_counter()
        answer = await request.answer(self._asked)
        self._metrics.answered(request.job, answer.status.value, time.perf_counter() - start)
        if answer.status is Status.UNKNOWN:
            self.unknowns.add(answer.reason)
        return answer.public

    async def ask_all(self, requests: Sequence[Request]) -> list[Answer]:
        """The answers to several requests, in their order. They take turns with what others ask."""
        until = time.monotonic() + BATCH_SECONDS
        answers: dict[int, Answer] = {}
        left = iter(enumerate(requests))

        async def asked() -> None:
            for place, request in left:
                if time.monotonic() < until:
                    answers[place] = await self.ask(request)
                else:
                    answers[place] = Answer(request.label, Status.UNKNOWN, reason=f"no answer within {BATCH_SECONDS:g} seconds")

        await asyncio.gather(*(asked() for _ in range(MOST_TOGETHER)))
        return [answers[place] for place in range(len(requests))]

    async def call(self, call: Callable[..., Result], *given: object) -> Result:
        """What a call gives that asks the program. Raises Unknown if its turn doesn't come within the time of a request."""
        return await self._asked.call(call, *given)

    async def reload(self) -> None:
        """Reads the tables again. Where one is faulty, the operator is told, and the old ones stay."""
        try:
            await self._asked.reload()
            self._metrics.reloaded(True)
            self.tell_doubt()
        except Unusable as error:
            self._metrics.reloaded(False)
            complain(f"{error}; the old tables stay")

    def tell_doubt(self) -> None:
        """Tells the operator if the tables are such that no label is available, which else comes out with the first one."""
        if doubt := self.zone.tables.doubt:
            complain(f"{doubt}: no label is told to be available")

    async def close(self) -> None:
        """Waits for what was asked, and closes the zone."""
        await self._asked.close()
