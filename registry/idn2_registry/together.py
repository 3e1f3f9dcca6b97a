"""Requests that are answered together. Each is a coroutine that awaits what it asks. They take turns: in each turn all
that several of them ask of one process, or of the register, goes there at once. asyncio has no part in it."""

from collections.abc import Callable, Coroutine, Generator, Iterable, Iterator, Sequence
from dataclasses import dataclass
from typing import Any, Generic, TypeVar

from .faults import Fault

Given = TypeVar("Given")
Told = TypeVar("Told")
Result = TypeVar("Result")


@dataclass(slots=True)
class Ask(Generic[Given, Told]):
    """What is asked of a teller in one turn. It is asked several at once, and gives for each, in their order, what it tells or
    what went wrong."""

    teller: Callable[[Sequence[Given]], Sequence[Told | Fault]]
    given: Sequence[Given]

    def __await__(self) -> Generator["Ask[Given, Told]", Any, list[Told]]:
        told: list[Told] = yield self
        return told


Request = Coroutine[Ask[Any, Any], Any, Result]


def together(requests: Iterable[Request[Result]]) -> Iterator[tuple[int, Result | Fault]]:
    """What requests give, or what went wrong, each with its number as soon as it is there. What a teller raises ends
    all of them."""
    due: list[tuple[int, Request[Result], Any]] = [(number, request, None) for number, request in enumerate(requests)]
    while due:
        asked: dict[Callable[..., Any], list[tuple[int, Request[Result], Any]]] = {}
        for number, request, told in due:
            try:
                ask = request.throw(told) if isinstance(told, Fault) else request.send(told)
                asked.setdefault(ask.teller, []).append((number, request, ask.given))
            except StopIteration as end:
                yield number, end.value
            except Fault as fault:
                yield number, fault
        due = []
        for teller, each in asked.items():
            tells = teller([one for _, _, given in each for one in given])
            start = 0
            for number, request, given in each:
                start, before = start + len(given), start
                due.append((number, request, all_told(tells[before:start])))


def all_told(told: Sequence[Any]) -> Sequence[Any] | Fault:
    """What was told of all that a request asked; else the first fault."""
    for one in told:
        if isinstance(one, Fault):
            return one
    return told


def alone(request: Request[Result]) -> Result:
    """What one request gives. Raises what went wrong with it."""
    [(_, result)] = together([request])
    if isinstance(result, Fault):
        raise result
    return result
