"""Requests, as `ask` and `serve` take them: a job, a label, and what the job takes."""

import json
from collections.abc import Awaitable, Callable
from dataclasses import dataclass, field
from typing import TYPE_CHECKING, Any, overload

from .answers import Answer, Object
from .zone import Zone

if TYPE_CHECKING:
    from .async_zone import AsyncZone

JOBS: dict[str, tuple[str, ...]] = {
    "check": ("holder", "variants"),
    "register": ("holder",),
    "release": (),
    "variants": ("table", "page", "after"),
    "tables-of": (),
}
TYPES: dict[str, type] = {"holder": str, "variants": bool, "table": str, "page": int, "after": str}


def told_in(text: bytes) -> Any:
    """What a text of JSON says. Raises ValueError or RecursionError for what is none. It is UTF-8 alone, by which every reader
    has the same text (RFC 8259, section 8.1)."""
    try:
        return json.loads(text.decode("utf-8-sig"), object_pairs_hook=object_of)
    except UnicodeDecodeError as error:
        raise ValueError(f"not UTF-8 at byte {error.start + 1}") from error
    except json.JSONDecodeError as error:
        raise ValueError(f"no JSON at character {error.pos + 1}") from error


def object_of(members: list[tuple[str, Any]]) -> Object:
    """An object of its members. Raises ValueError if one comes twice, since readers don't agree which of them holds."""
    if len(dict(members)) != len(members):
        raise ValueError("a member comes twice")
    return dict(members)


@dataclass(frozen=True)
class Request:
    """What is asked of one label."""

    job: str
    label: str
    given: dict[str, Any] = field(default_factory=dict)

    @classmethod
    def read(cls, told: Any) -> "Request":
        """The request that an object says. Raises ValueError for one that says none."""
        if not isinstance(told, dict) or not isinstance(told.get("label"), str):
            raise ValueError("a request is an object with label, and with job")
        job = told.get("job")
        if not isinstance(job, str) or job not in JOBS:
            raise ValueError(f"job is one of {', '.join(JOBS)}")
        given = {name: value for name, value in told.items() if name not in ("id", "job", "label")}
        for name, value in given.items():
            if name not in JOBS[job]:
                raise ValueError(f"{job} takes no {name}")
            if value is not None and type(value) is not TYPES[name]:
                raise ValueError(f"{name} is of another type")
        return cls(job, told["label"], given)

    @overload
    def answer(self, zone: Zone) -> Answer: ...

    @overload
    def answer(self, zone: "AsyncZone") -> Awaitable[Answer]: ...

    def answer(self, zone: "Zone | AsyncZone") -> Answer | Awaitable[Answer]:
        """What the zone says. Raises ValueError for what can't be asked."""
        call: Callable[..., Answer | Awaitable[Answer]] = getattr(zone, self.job.replace("-", "_"))
        return call(self.label, **self.given)
