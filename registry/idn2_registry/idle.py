"""Processes and connections that nobody uses at the moment."""

import threading
from collections import defaultdict
from collections.abc import Hashable
from typing import Generic, Protocol, TypeVar


class Closable(Protocol):
    """What can be ended."""

    def close(self) -> None:
        """Ends it."""


Held = TypeVar("Held", bound=Closable)


class Idle(Generic[Held]):
    """Keeps what was used until somebody wants another one of its kind. Several threads may use it at once."""

    def __init__(self) -> None:
        self._lock = threading.Lock()
        self._kept: defaultdict[Hashable, list[Held]] = defaultdict(list)
        self._is_closed = False

    def take(self, kind: Hashable = None) -> Held | None:
        """One that nobody else uses, if there is one."""
        with self._lock:
            kept = self._kept[kind]
            return kept.pop() if kept else None

    def keep(self, held: Held, kind: Hashable = None) -> None:
        """Keeps one that was used; after the end it ends, too."""
        with self._lock:
            if not self._is_closed:
                self._kept[kind].append(held)
                return
        held.close()

    def close(self) -> None:
        """Ends all."""
        with self._lock:
            self._is_closed = True
            kept = [held for each in self._kept.values() for held in each]
            self._kept.clear()
        for held in kept:
            held.close()
