"""Which path answers what."""

import hmac
from collections.abc import Awaitable, Callable
from dataclasses import dataclass

from aiohttp import web

from ..answers import Object
from ..faults import Fault, Unusable
from ..output import complain
from .answering import Answering
from .bodies import (
    FAILED,
    MOST_BYTES,
    Faulty,
    again,
    body_of,
    json_response,
    request_of_object,
    request_of_query,
    requests_of_labels,
    response_of,
)
from .metrics import Metrics
from .openapi import described
from .people import Pages
from .protocol import Protocol

READING = ("check", "variants", "tables-of")
CHANGING = ("register", "release")
Handler = Callable[[web.Request], Awaitable[web.StreamResponse]]
METRICS_TYPE = "text/plain; version=0.0.4; charset=utf-8"


@dataclass(frozen=True)
class Service:
    """All that is answered. Labels are registered and released only if there is a token."""

    answering: Answering
    metrics: Metrics
    token: bytes | None

    def application(self) -> web.Application:
        """The application with its paths. It has no middleware, which would take a tenth of the time of a check."""
        made = web.Application(client_max_size=MOST_BYTES)
        for job in READING:
            made.router.add_get(f"/v1/{job}", self.guarded(self.reading(job)))
        made.router.add_post("/v1/check", self.guarded(self.check_all))
        for job in CHANGING if self.token is not None else ():
            made.router.add_post(f"/v1/{job}", self.guarded(self.changing(job)))
        others = {"/v1/health": self.health, "/v1/openapi.json": self.openapi, "/metrics": self.metrics_text}
        for path, handler in (*others.items(), *Pages(self.answering).paths()):
            made.router.add_get(path, self.guarded(handler))
        return made

    def guarded(self, handler: Handler) -> Handler:
        """What a path answers; or an object with `fault`. While it is answered the connection isn't cut off."""
        async def answered(request: web.Request) -> web.StreamResponse:
            assert isinstance(request.protocol, Protocol)
            request.protocol.begin_answer()
            try:
                return await self.answered(request, handler)
            finally:
                request.protocol.end_answer()

        return answered

    async def answered(self, request: web.Request, handler: Handler) -> web.StreamResponse:
        """What a path answers, whatever goes wrong; but what aiohttp refuses is told by its protocol."""
        try:
            return await handler(request)
        except Faulty as error:
            return json_response({"fault": str(error)}, error.status, error.headers)
        except ValueError as error:
            return json_response({"fault": str(error)}, 400)
        except Fault as error:
            self.answering.unknowns.add(str(error))
            return json_response({"fault": error.told}, 503, again(isinstance(error, Unusable)))
        except web.HTTPException:
            raise
        except Exception as error:
            complain(f"{FAILED}: {type(error).__name__}: {error}")
            return json_response({"fault": FAILED}, 500)

    def reading(self, job: str) -> Handler:
        """What answers a query."""
        async def handler(request: web.Request) -> web.StreamResponse:
            answer = await self.answering.ask(request_of_query(job, request))
            return response_of(answer.object(), [answer])

        return handler

    async def check_all(self, request: web.Request) -> web.StreamResponse:
        """Checks several labels."""
        answers = await self.answering.ask_all(requests_of_labels("check", await body_of(request)))
        return response_of({"answers": [answer.object() for answer in answers]}, answers)

    def changing(self, job: str) -> Handler:
        """What registers or releases a label for those who show the token."""
        async def handler(request: web.Request) -> web.StreamResponse:
            self.expect_token(request)
            answer = await self.answering.ask(request_of_object(job, await body_of(request)))
            return response_of(answer.object(), [answer])

        return handler

    def expect_token(self, request: web.Request) -> None:
        """Raises Faulty without the token."""
        kind, _, shown = request.headers.get("Authorization", "").partition(" ")
        given = shown.strip().encode("utf-8", "surrogateescape")
        if self.token is None or kind.lower() != "bearer" or not hmac.compare_digest(given, self.token):
            raise Faulty(401, "show the token: Authorization: Bearer ..", WWW_Authenticate="Bearer")

    async def health(self, request: web.Request) -> web.StreamResponse:
        """Whether labels can be answered, and whether the tables are those of the files."""
        zone = self.answering.zone
        told: Object = {"status": "ready", "program": zone.program.version, "tables": list(zone.configuration.tables),
                        "stale": self.metrics.is_stale}
        doubt = await self.answering.call(zone.doubt)
        if doubt is None:
            return json_response(told)
        self.answering.unknowns.add(doubt.reason)
        return json_response({**told, "status": "unknown", "reason": doubt.public.reason}, 503, again(doubt.lasts))

    async def openapi(self, request: web.Request) -> web.StreamResponse:
        """The description."""
        return json_response(described(self.token is not None))

    async def metrics_text(self, request: web.Request) -> web.StreamResponse:
        """What a dashboard reads."""
        return web.Response(body=self.metrics.text().encode(), headers={"Content-Type": METRICS_TYPE})
