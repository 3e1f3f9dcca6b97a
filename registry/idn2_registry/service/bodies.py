"""Requests and answers as HTTP has them."""

import asyncio
import urllib.parse
from collections.abc import Sequence

from aiohttp import web

from ..answers import Answer, Object, Status
from ..output import text_of
from ..requests import TYPES, Request, told_in

MOST_BYTES = 1_048_576
MOST_LABELS = 1_000
BODY_SECONDS = 10.0
TRUTH = {"true": True, "false": False}
JSON = "application/json"
FAILED = "it failed, which is a fault of idn2-registry"
# After so many seconds ask again: what passes by itself, and what lasts until an operator mends it.
PASSES, LASTS = 1, 60


class Faulty(Exception):
    """A request that isn't answered, with the status that says why."""

    def __init__(self, status: int, fault: str, **headers: str) -> None:
        super().__init__(fault)
        self.status, self.headers = status, {name.replace("_", "-"): value for name, value in headers.items()}


def query_of(request: web.BaseRequest) -> dict[str, str]:
    """The fields of a query. Bytes that are no UTF-8 stay what they are, so that the program refuses them. Raises
    ValueError if one comes twice, or the query is no list of fields."""
    query = request.raw_path.partition("?")[2]
    fields = urllib.parse.parse_qsl(query, keep_blank_values=True, strict_parsing=bool(query), errors="surrogateescape",
                                    max_num_fields=16)
    if len(dict(fields)) != len(fields):
        raise ValueError("a field comes twice")
    return dict(fields)


def request_of_query(job: str, request: web.BaseRequest) -> Request:
    """The request that a query says. Raises ValueError."""
    return request_of_object(job, {name: value_of(name, text) for name, text in query_of(request).items()})


def value_of(name: str, text: str) -> object:
    """A value of a query."""
    kind = TYPES.get(name, str)
    if kind is bool and text not in TRUTH or kind is int and not (text.isascii() and text.isdigit() and len(text) < 12):
        raise ValueError(f"{name} is {'true or false' if kind is bool else 'a number'}")
    return TRUTH[text] if kind is bool else kind(text)


async def body_of(request: web.Request) -> Object:
    """The object in a body. Raises ValueError for one that is none, and Faulty for one that is too slow."""
    if request.content_type != JSON or "Content-Encoding" in request.headers:
        raise Faulty(415, f"a body is {JSON}, without Content-Encoding")
    try:
        async with asyncio.timeout(BODY_SECONDS):
            body = await request.read()
    except TimeoutError as error:
        raise Faulty(408, f"no body within {BODY_SECONDS:g} seconds", Connection="close") from error
    except ConnectionError as error:
        raise ValueError("the body isn't whole") from error
    try:
        told = told_in(body)
    except (ValueError, RecursionError) as error:
        raise ValueError(f"the body is no JSON: {error}") from error
    if not isinstance(told, dict):
        raise ValueError("a body is an object")
    return told


def requests_of_labels(job: str, told: Object) -> list[Request]:
    """The requests of an object with `labels`. Raises ValueError."""
    labels, rest = told.get("labels"), {name: value for name, value in told.items() if name != "labels"}
    if not isinstance(labels, list) or len(labels) > MOST_LABELS:
        raise ValueError(f"labels is a list of at most {MOST_LABELS} texts")
    if "label" in rest:
        raise ValueError(f"{job} takes no label beside labels")
    return [request_of_object(job, {**rest, "label": label}) for label in labels]


def request_of_object(job: str, told: Object) -> Request:
    """The request that an object says. Raises ValueError."""
    for name in ("id", "job"):
        if name in told:
            raise ValueError(f"{job} takes no {name}")
    if not isinstance(told.get("label"), str):
        raise ValueError(f"{job} takes a label, which is a text")
    return Request.read({**told, "job": job})


def json_response(told: Object, status: int = 200, headers: dict[str, str] | None = None) -> web.Response:
    """An object as a response."""
    return web.Response(body=text_of(told).encode("utf-8", "backslashreplace"), status=status, content_type=JSON,
                        headers={"Cache-Control": "no-store", "X-Content-Type-Options": "nosniff", **(headers or {})})


def response_of(told: Object, answers: Sequence[Answer]) -> web.Response:
    """Answers as a response. If one of them isn't known, the response says so."""
    unknown = [answer for answer in answers if answer.status is Status.UNKNOWN]
    if unknown:
        return json_response(told, 503, again(all(answer.lasts for answer in unknown)))
    return json_response(told)


def again(lasts: bool) -> dict[str, str]:
    """When to ask again."""
    return {"Retry-After": str(LASTS if lasts else PASSES)}
