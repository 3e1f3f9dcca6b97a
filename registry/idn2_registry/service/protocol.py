"""The protocol of aiohttp, with some things changed. A connection of which nothing is being answered is cut off after some
time, whatever it sends or reads meanwhile. Only so many requests of one wait: aiohttp reads on and on. What aiohttp refuses
by itself, such as what is no request of HTTP or no path, is told as other faults are: aiohttp tells it as plain text, and
logs a part of it. And responses are counted, and don't tell which versions of Python and aiohttp this is."""

import asyncio
from typing import Any

from aiohttp import web
from aiohttp.web_protocol import RequestHandler

from .bodies import FAILED, json_response
from .metrics import Metrics

# So long a connection may be open while no request of it is being answered.
IDLE_SECONDS = 30.0
MOST_WAITING = 16
SERVER = "idn2-registry"


class Protocol(RequestHandler):
    """The protocol of one connection. A body is taken as it was sent: one that was packed could be far longer than it
    looks."""

    def __init__(self, server: web.Server, metrics: Metrics, is_ending: asyncio.Event) -> None:
        options: dict[str, Any] = {"access_log": None, "auto_decompress": False}
        super().__init__(server, loop=asyncio.get_running_loop(), **options)
        self._metrics = metrics
        # At the end each response says that its connection is closed, so that nobody sends another request in it.
        self._is_ending = is_ending
        metrics.connections += 1
        self._is_held = False
        # While a request of it is being answered; and since when none is.
        self._is_answered = False
        self._since = self._loop.time()
        self._clock = self._loop.call_later(IDLE_SECONDS, self._look)

    def connection_made(self, transport: asyncio.BaseTransport) -> None:
        assert isinstance(transport, asyncio.Transport)
        gathered: Any = Gathered(transport, self._loop)
        super().connection_made(gathered)

    def connection_lost(self, exc: BaseException | None) -> None:
        self._clock.cancel()
        self._metrics.connections -= 1
        super().connection_lost(exc)

    def _look(self) -> None:
        """Cuts it off if its time is over, and else looks again then. So a request sets no clock of its own."""
        left = IDLE_SECONDS if self._is_answered else self._since + IDLE_SECONDS - self._loop.time()
        if left > 0:
            self._clock = self._loop.call_later(left, self._look)
        elif self.transport is not None:
            self.transport.abort()

    def begin_answer(self) -> None:
        """A request begins to be answered."""
        self._is_answered = True
        self._pace()

    def end_answer(self) -> None:
        """It was answered."""
        self._is_answered, self._since = False, self._loop.time()

    def data_received(self, data: bytes) -> None:
        super().data_received(data)
        self._pace()

    def _pace(self) -> None:
        """Reads on while few requests wait. What isn't read stays with who sends, and takes no memory here."""
        if len(self._messages) > MOST_WAITING:
            self._is_held = True
            self.pause_reading()
        elif self._is_held:
            # A body that nobody reads may hold it, too: only what was held here goes on.
            self._is_held = False
            self.resume_reading()

    def handle_error(self, request: web.BaseRequest, status: int = 500, exc: BaseException | None = None,
                     message: str | None = None) -> web.StreamResponse:
        fault = "no request of HTTP, or its head is too long"
        if status >= 500:
            # It tells the log, and raises ConnectionError where a part was sent.
            super().handle_error(request, status, exc, message)
            fault = FAILED
        response = json_response({"fault": fault}, status)
        response.force_close()
        return response

    async def finish_response(self, request: web.BaseRequest, resp: web.StreamResponse, start_time: float) -> bool:
        if isinstance(resp, web.HTTPException):
            kept = {name: value for name, value in resp.headers.items() if name == "Allow"}
            resp = json_response({"fault": resp.reason}, resp.status, kept)
        self._metrics.responses[resp.status] += 1
        resp.headers["Server"] = SERVER
        if self._is_ending.is_set():
            resp.force_close()
        return await super().finish_response(request, resp, start_time)


class Gathered:
    """A transport that sends together what is written in one turn of the loop: aiohttp writes the head of a response and
    its body one after the other, and each would be a packet of its own."""

    def __init__(self, transport: asyncio.Transport, loop: asyncio.AbstractEventLoop) -> None:
        self._transport, self._loop = transport, loop
        self._pieces: list[bytes] = []

    def __getattr__(self, name: str) -> Any:
        return getattr(self._transport, name)

    def write(self, data: bytes) -> None:
        """Sends something in this turn."""
        if not self._pieces:
            self._loop.call_soon(self._send)
        self._pieces.append(data)

    def _send(self) -> None:
        if self._pieces:
            self._transport.write(b"".join(self._pieces))
            self._pieces.clear()

    def close(self) -> None:
        """Closes it after what was written."""
        self._send()
        self._transport.close()
