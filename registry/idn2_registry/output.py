"""How answers are written: as objects or in words, each at once."""

import json
import sys
import time
from datetime import datetime, timezone

from .answers import Answer, ExitStatus, Object
from .words import shown, words_of


class Output:
    """Standard output, and the exit status of all that was said."""

    def __init__(self, as_json: bool) -> None:
        self._as_json = as_json
        self.status = ExitStatus.YES
        self._start = time.monotonic()

    def answer(self, answer: Answer) -> None:
        """An answer."""
        self.status = self.status.joined(ExitStatus.of(answer.status))
        self.line(text_of(answer.object()) if self._as_json else words_of(answer))

    def fact(self, told: Object, words: str, status: ExitStatus) -> None:
        """What isn't an answer to a label."""
        self.status = self.status.joined(status)
        self.line(text_of(told) if self._as_json else words)

    def end(self, counts: Object, words: str) -> None:
        """The counts of long work, which end what it says; the object also has the time of the end, and how long it took."""
        now = datetime.now(timezone.utc).isoformat(timespec="seconds").replace("+00:00", "Z")
        self.fact({**counts, "at": now, "seconds": round(time.monotonic() - self._start, 3)}, words, ExitStatus.YES)

    @staticmethod
    def text(text: bytes) -> None:
        """A whole text."""
        sys.stdout.buffer.write(text)
        sys.stdout.buffer.flush()

    @staticmethod
    def line(text: str) -> None:
        """A line, which is written before anything else is done."""
        sys.stdout.buffer.write(text.encode("utf-8", "backslashreplace") + b"\n")
        sys.stdout.buffer.flush()


def text_of(told: Object) -> str:
    """An object as one line."""
    return json.dumps(told, ensure_ascii=False, separators=(",", ":"))


def complain(text: str) -> None:
    """A message for the operator: one line on standard error."""
    try:
        print(f"idn2-registry: {shown(text)}", file=sys.stderr, flush=True)
    except (OSError, ValueError):
        pass
