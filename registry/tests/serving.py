"""A running service, and requests to it."""

import contextlib
import http.client
import importlib.util
import json
import os
import re
import signal
import socket
import subprocess
import urllib.parse
from pathlib import Path
from types import TracebackType
from typing import Any

import pytest
from conftest import LIMIT, Place

# What the service stands on.
needs_aiohttp = pytest.mark.skipif(importlib.util.find_spec("aiohttp") is None, reason="python3-aiohttp")
TOKEN = "0123456789abcdef0123456789abcdef"
BEARER = {"Authorization": f"Bearer {TOKEN}"}
# Runs the command with something else in its place, as `module.NAME = value`.
CHANGED = "import sys; {}; from idn2_registry.command import main; sys.exit(main())"


def query(path: str, **fields: str) -> str:
    """A path with fields."""
    return f"{path}?{urllib.parse.urlencode(fields, errors='surrogateescape')}"


def configure(place: Place, service: str = 'token = "token.txt"', more: str = "", **tables: Any) -> None:
    """A configuration with a service at any free port."""
    place.write("token.txt", TOKEN + "\n")
    place.configure(f'{more}[service]\nlisten = "127.0.0.1:0"\n{service}', **tables)


class Served:
    """The service of a zone, as a process of its own."""

    def __init__(self, place: Place, *words: str, changed: str = "", **more: Any) -> None:
        self.place = place
        # Without a buffer, in which lines after the first could be lost.
        options: dict[str, Any] = {"stdin": subprocess.DEVNULL, "stdout": subprocess.DEVNULL, "bufsize": 0, **more}
        if changed:
            command = place.words("serve", *words)
            command[1:3] = ["-c", CHANGED.format(changed)]
            self.process = subprocess.Popen(command, cwd=place.folder, env=place.environment, stderr=subprocess.PIPE, **options)
        else:
            self.process = place.start("serve", *words, **options)
        assert self.process.stderr
        first = self.process.stderr.readline().decode()
        found = re.match(r"idn2-registry: listens at (?:http://([\d.]+):(\d+)/|(.*))\n", first)
        assert found, first + self.process.stderr.read().decode()
        self.address: Any = (found[1], int(found[2])) if found[1] else str(place.folder / found[3])

    def __enter__(self) -> "Served":
        return self

    def __exit__(self, kind: type[BaseException] | None, value: BaseException | None, trace: TracebackType | None) -> None:
        self.process.kill()
        self.process.communicate()

    def end(self) -> str:
        """Ends it as an operator does, and gives what it told on standard error."""
        self.process.send_signal(signal.SIGTERM)
        _, messages = self.process.communicate(timeout=LIMIT)
        assert self.process.returncode == 0, messages
        return str(messages.decode())

    def socket(self) -> socket.socket:
        """A connection."""
        made = socket.socket(socket.AF_UNIX if isinstance(self.address, str) else socket.AF_INET)
        made.settimeout(LIMIT)
        made.connect(self.address)
        return made

    def connection(self) -> http.client.HTTPConnection:
        """A connection that speaks HTTP."""
        made = http.client.HTTPConnection("localhost", timeout=LIMIT)
        made.sock = self.socket()
        return made

    def ask(self, method: str, path: str, body: Any = None, **headers: str) -> "Told":
        """What a request is told, in a connection of its own."""
        connection = self.connection()
        try:
            return asked(connection, method, path, body, **headers)
        finally:
            connection.close()

    @property
    def children(self) -> list[int]:
        """The processes of the program that it has started. One that isn't the program yet would hold it up if it were
        stopped."""
        own = os.readlink(f"/proc/{self.process.pid}/exe")
        found = set()
        for file in Path(f"/proc/{self.process.pid}/task").glob("*/children"):
            with contextlib.suppress(FileNotFoundError):
                found |= {child for child in file.read_text().split() if os.readlink(f"/proc/{child}/exe") != own}
        return sorted(map(int, found))


class Told:
    """A response."""

    def __init__(self, response: http.client.HTTPResponse) -> None:
        self.status, self.headers, self.bytes = response.status, response.headers, response.read()

    @property
    def object(self) -> Any:
        """The object in it."""
        assert self.headers.get_content_type() == "application/json", (self.status, self.bytes)
        return json.loads(self.bytes)

    @property
    def text(self) -> str:
        """The text in it."""
        return self.bytes.decode()


def asked(connection: http.client.HTTPConnection, method: str, path: str, body: Any = None, **headers: str) -> Told:
    """What a request is told. A body that isn't bytes is sent as JSON."""
    if body is not None and not isinstance(body, bytes):
        headers.setdefault("Content_Type", "application/json")
        body = json.dumps(body).encode()
    named = {name.replace("_", "-"): value for name, value in headers.items()}
    connection.request(method, path, body, named)
    return Told(connection.getresponse())
