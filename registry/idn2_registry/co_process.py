"""`ask`: a co-process that answers requests, one object for each."""

import signal
import sys
from dataclasses import dataclass
from typing import Any

from .answers import Object
from .faults import Unusable
from .output import Output, complain, text_of
from .requests import Request, told_in
from .zone import Zone

# Of a request, its line feed among them.
MOST_BYTES = 65_536


@dataclass
class CoProcess:
    """Answers the lines of standard input in their order."""

    zone: Zone
    must_reload: bool = False

    def run(self) -> None:
        """Answers all requests. SIGHUP has the tables read again before the next one."""
        signal.signal(signal.SIGHUP, self._note)
        for line in iter(lambda: sys.stdin.buffer.readline(MOST_BYTES + 1), b""):
            # The call lets Python hand over a signal that came before the line.
            self._reload_if_noted()
            Output.line(text_of(self.answer(line)))

    def _note(self, *_: Any) -> None:
        self.must_reload = True

    def _reload_if_noted(self) -> None:
        if not self.must_reload:
            return
        self.must_reload = False
        try:
            self.zone.reload()
        except Unusable as error:
            complain(f"{error}; the old tables stay")

    def answer(self, line: bytes) -> Object:
        """The object that answers a request. A faulty request has an object with `fault`."""
        request: Any = None
        if len(line) > MOST_BYTES:
            while line and not line.endswith(b"\n"):
                line = sys.stdin.buffer.readline(MOST_BYTES)
            return {"fault": f"more than {MOST_BYTES} bytes"}
        try:
            request = told_in(line)
            told = Request.read(request).answer(self.zone).object()
        except (ValueError, RecursionError) as error:
            told = {"fault": str(error)}
        return {"id": request["id"], **told} if isinstance(request, dict) and "id" in request else told
