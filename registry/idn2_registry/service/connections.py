"""Connections: how many there may be."""

import asyncio

from aiohttp import web

from .metrics import Metrics
from .protocol import Protocol

TURNED_AWAY = (b"HTTP/1.1 503 Service Unavailable\r\nRetry-After: 1\r\nContent-Type: application/json\r\n"
               b"Content-Length: 32\r\nConnection: close\r\n\r\n" b'{"fault":"too many connections"}')


class Connections:
    """Makes the protocols of new connections, as long as there aren't too many."""

    def __init__(self, server: web.Server, most: int, metrics: Metrics, is_ending: asyncio.Event) -> None:
        self._server, self._most, self._metrics, self._is_ending = server, most, metrics, is_ending

    def __call__(self) -> asyncio.Protocol:
        """The protocol of a new connection."""
        if self._metrics.connections >= self._most:
            self._metrics.turned_away += 1
            return TurnedAway()
        return Protocol(self._server, self._metrics, self._is_ending)


class TurnedAway(asyncio.Protocol):
    """A connection above the limit."""

    def connection_made(self, transport: asyncio.BaseTransport) -> None:
        assert isinstance(transport, asyncio.Transport)
        transport.write(TURNED_AWAY)
        transport.close()
