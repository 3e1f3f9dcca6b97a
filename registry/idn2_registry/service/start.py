"""The start and the end of the service: its sockets, its signals."""

import asyncio
import contextlib
import errno
import os
import signal
import socket
import sys
from pathlib import Path

from aiohttp import web

from ..configuration import Configuration, read_token
from ..output import complain
from ..zone import Zone
from .answering import Answering
from .application import Service
from .connections import Connections
from .metrics import Metrics

BACKLOG = 1024
# So long requests have that are being answered at the end.
END_SECONDS = 10.0
# A thread gives way to another after so many seconds: the one that reads requests shouldn't wait for those that answer them.
SWITCH_SECONDS = 0.0005
FIRST_PASSED = 3


def serve(zone: Zone) -> None:
    """Serves until a signal ends it. Raises Unusable if it can't listen."""
    token = read_token(zone.configuration)
    listening = passed_sockets() or [listener(zone.configuration)]
    sys.setswitchinterval(SWITCH_SECONDS)
    asyncio.run(served(zone, token, listening))


def passed_sockets() -> list[socket.socket]:
    """Those that systemd has made."""
    if os.environ.get("LISTEN_PID") != str(os.getpid()):
        return []
    return [socket.socket(fileno=FIRST_PASSED + number) for number in range(int(os.environ.get("LISTEN_FDS", "0")))]


def listener(configuration: Configuration) -> socket.socket:
    """The socket of the configuration."""
    listen = configuration.service.listen
    try:
        return unix_listener(listen) if isinstance(listen, Path) else tcp_listener(*listen)
    except OSError as error:
        where = listen if isinstance(listen, Path) else f"{listen[0]}:{listen[1]}"
        words = f"{where}: {error.strerror}: end what listens there, or mend it"
        raise configuration.file.fault("listen", words, "service") from error


def tcp_listener(host: str, port: int) -> socket.socket:
    """A socket at an address of this machine."""
    return socket.create_server((host, port), family=socket.AF_INET6 if ":" in host else socket.AF_INET, backlog=BACKLOG)


def unix_listener(path: Path) -> socket.socket:
    """A socket in a file, for its group. One that a process left which was killed is replaced."""
    made = socket.socket(socket.AF_UNIX)
    if path.is_socket():
        with socket.socket(socket.AF_UNIX) as other, contextlib.suppress(ConnectionRefusedError):
            other.connect(str(path))
            raise OSError(errno.EADDRINUSE, os.strerror(errno.EADDRINUSE))
        path.unlink()
    made.bind(str(path))
    path.chmod(0o660)
    made.listen(BACKLOG)
    return made


async def served(zone: Zone, token: bytes | None, listening: list[socket.socket]) -> None:
    """Serves until a signal ends it."""
    metrics = Metrics(zone.program.version)
    answering = Answering(zone, metrics)
    is_ending = asyncio.Event()
    runner = web.AppRunner(Service(answering, metrics, token).application(), handle_signals=False)
    await runner.setup()
    server = runner.server
    assert server is not None
    connections = Connections(server, zone.configuration.service.connections, metrics, is_ending)
    loop = asyncio.get_running_loop()
    for number in (signal.SIGTERM, signal.SIGINT):
        loop.add_signal_handler(number, is_ending.set)
    loop.add_signal_handler(signal.SIGHUP, Reloads(answering).begin)
    servers = [await loop.create_server(connections, sock=each, backlog=BACKLOG) for each in listening]
    tell_ready(listening)
    answering.tell_doubt()
    await is_ending.wait()
    for each in servers:
        each.close()
    await server.shutdown(END_SECONDS)
    await runner.cleanup()
    await answering.close()


class Reloads:
    """Reads the tables again when it is told to."""

    def __init__(self, answering: Answering) -> None:
        self._answering = answering
        # A task that nothing refers to may be dropped.
        self._running: set[asyncio.Task[None]] = set()

    def begin(self) -> None:
        """Begins to read them."""
        task = asyncio.get_running_loop().create_task(self._answering.reload())
        self._running.add(task)
        task.add_done_callback(self._running.discard)


def tell_ready(listening: list[socket.socket]) -> None:
    """Tells the operator, and systemd, that requests are answered."""
    for each in listening:
        name = each.getsockname()
        complain(f"listens at {name}" if isinstance(name, str) else f"listens at http://{name[0]}:{name[1]}/")
    address = os.environ.get("NOTIFY_SOCKET", "")
    if address:
        with socket.socket(socket.AF_UNIX, socket.SOCK_DGRAM) as notify, contextlib.suppress(OSError):
            notify.connect("\0" + address[1:] if address.startswith("@") else address)
            notify.sendall(b"READY=1")
