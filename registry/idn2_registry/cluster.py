"""Long work on several machines, by Dask: its scheduler sends batches of parts to its workers, and one again if its
worker is lost."""

import itertools
import sys
from collections.abc import Iterator
from concurrent.futures import CancelledError
from typing import Any

from .faults import Unknown, Unusable
from .work import Task

try:
    import distributed  # its calls have no types
except ImportError as error:
    raise Unusable(f"{sys.executable} has no distributed, which --scheduler needs: apt-get install python3-distributed is for "
                   "/usr/bin/python3, and pip install distributed for any other") from error

# The scheduler has so long to be found.
SECONDS = 10


def done_by_cluster(address: str, task: Task, batches: Iterator[dict[int, bytes]]) -> Iterator[tuple[int, bytes]]:
    """The numbers and results of parts, as the workers have done them batch by batch. Each worker needs this package and the
    program."""
    try:
        client = distributed.Client(address, timeout=SECONDS)
    except (OSError, ValueError) as error:
        raise Unusable(f"{address}: no scheduler there: dask-scheduler starts one") from error
    with client:
        try:
            yield from Sending(client, task, batches).results()
        except (OSError, CancelledError, distributed.scheduler.KilledWorker) as error:
            raise Unknown(f"{address}: {error}") from error


class Sending:
    """Batches on their way: two for each worker, since the task goes with each. A batch that stood on what another worker has
    might wait for ever once that worker is lost."""

    def __init__(self, client: Any, task: Task, batches: Iterator[dict[int, bytes]]) -> None:
        self._client, self._task, self._left = client, task, batches
        self._numbers: dict[Any, list[int]] = {}
        self._done = distributed.as_completed()

    def results(self) -> Iterator[tuple[int, bytes]]:
        """The numbers and results of all parts, as they are done."""
        self._send()
        for future in self._done:
            numbers, results = self._numbers.pop(future), future.result()
            self._send()
            yield from zip(numbers, results, strict=True)

    def _send(self) -> None:
        """Sends more of the batches that are left."""
        room = 2 * max(1, len(self._client.scheduler_info()["workers"])) - len(self._numbers)
        for batch in itertools.islice(self._left, max(0, room)):
            future = self._client.submit(done_there, self._task, [*batch.values()], pure=False)
            self._numbers[future] = [*batch]
            self._done.add(future)


def done_there(task: Task, parts: list[bytes]) -> list[bytes]:
    """The results of parts, on a worker."""
    return [*task.done(parts)]
