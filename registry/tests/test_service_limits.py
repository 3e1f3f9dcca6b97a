"""What the service refuses over HTTP: faulty requests, and what is above a limit."""

import contextlib
import gzip
import http.client
import socket
import time
from typing import Any

import pytest
from conftest import LIMIT, Place
from serving import BEARER, Served, Told, asked, configure, needs_aiohttp, query

pytestmark = needs_aiohttp
FAULTS: list[tuple[str, str, Any, int]] = [
    ("GET", "/v1/check", None, 400),
    ("GET", "/v1/check?label=a&label=b", None, 400),
    ("GET", "/v1/check?label=a&page=1", None, 400),
    ("GET", "/v1/check?label=a&job=release", None, 400),
    ("GET", "/v1/check?label=a&variants=yes", None, 400),
    ("GET", "/v1/check?label=a&holder=", None, 400),
    ("GET", "/v1/check?label=a&holder=%0A", None, 400),
    ("GET", "/v1/check?label", None, 400),
    ("GET", "/v1/check?" + "&".join(f"a{number}=1" for number in range(17)), None, 400),
    ("GET", "/v1/variants?label=a&page=-1", None, 400),
    ("GET", "/v1/variants?label=a&page=0", None, 400),
    ("GET", "/v1/variants?label=a&page=%E0%A5%A7", None, 400),
    ("GET", "/v1/variants?label=a&page=99999999999999999999999", None, 400),
    ("GET", "/v1/variants?label=a&after=%00", None, 400),
    ("GET", "/v1/variants?label=a&table=../../etc/passwd", None, 400),
    ("GET", "/v1/register?label=a", None, 405),
    ("PUT", "/v1/check", None, 405),
    ("GET", "/v1", None, 404),
    ("GET", "/v1/../registry.toml", None, 404),
    ("GET", "/%2e%2e/registry.toml", None, 404),
    ("POST", "/v1/check", b"{}", 415),
    ("POST", "/v1/check", {}, 400),
    ("POST", "/v1/check", [], 400),
    ("POST", "/v1/check", {"labels": "a"}, 400),
    ("POST", "/v1/check", {"labels": [1]}, 400),
    ("POST", "/v1/check", {"labels": [None]}, 400),
    ("POST", "/v1/check", {"labels": ["a"], "label": "b"}, 400),
    ("POST", "/v1/check", {"labels": ["a"], "id": 1}, 400),
    ("POST", "/v1/check", {"labels": ["a"], "job": "release"}, 400),
    ("POST", "/v1/check", {"labels": ["a"], "holder": 1}, 400),
    ("POST", "/v1/check", {"labels": ["a"], "variants": "true"}, 400),
    ("POST", "/v1/check", {"labels": ["a"] * 1001}, 400),
    ("POST", "/v1/check", {"labels": ["a" * 1_048_576]}, 413),
    ("POST", "/v1/release", {"label": ["a"]}, 400),
    ("POST", "/v1/release", {"label": "a", "holder": "H"}, 400),
    ("POST", "/v1/register", {"label": "a", "holder": "\ud800"}, 400),
]


def test_tells_faulty_requests(place: Place) -> None:
    configure(place)
    with Served(place) as served:
        for method, path, body, status in FAULTS:
            told = served.ask(method, path, body, **BEARER)
            assert told.status == status, (method, path, told.status, told.bytes)
            assert list(told.object) == ["fault"], (method, path, told.bytes)
        packed = {"Content_Encoding": "gzip"}
        expecting = {"Expect": "200-ok"}
        assert served.ask("GET", "/v1/check?label=a", **expecting).object == {"fault": "Expectation Failed"}
        assert served.ask("GET", "/none", **expecting).status == 417
        bodies: list[tuple[bytes, dict[str, str], int]] = [
            (b"[" * 100_000, {}, 400), (b'{"labels":["a"],"labels":["b"]}', {}, 400),
            ('{"labels":["a"]}'.encode("utf-16"), {}, 400), (b'{"labels":["\xff"]}', {}, 400),
            (gzip.compress(b'{"labels":["a"]}'), packed, 415), (b"{", packed, 415)]
        for body, headers, status in bodies:
            told = served.ask("POST", "/v1/check", body, Content_Type="application/json", **headers)
            assert told.status == status and list(told.object) == ["fault"], (body, told.status, told.bytes)
        assert "label" in served.ask("GET", "/v1/check").object["fault"]
        assert served.ask("GET", "/v1/health").object["status"] == "ready"
        assert served.end() == ""


def test_nothing_of_a_request_reaches_the_log(place: Place) -> None:
    """Nor does what is no HTTP end the service."""
    configure(place)
    with Served(place) as served:
        for text in (b"\x1b[2J\r\n\r\n", b"GET /\x1b[2J HTTP/1.1\r\nHost: a\r\n\r\n",
                     b"GET /v1/check?label=\x1b[2J HTTP/1.1\r\n\r\n",
                     b"GET / HTTP/9.9\r\n\r\n", b"POST /v1/check HTTP/1.1\r\nContent-Length: -1\r\n\r\n", b"\0" * 100,
                     b"GET / HTTP/1.1\r\nA: " + b"b" * 100_000 + b"\r\n\r\n", b"GET /" + b"a" * 100_000 + b" HTTP/1.1\r\n\r\n",
                     b"POST /v1/check HTTP/1.1\r\nTransfer-Encoding: chunked\r\nContent-Type: application/json\r\n\r\nzz\r\n"):
            with served.socket() as connection:
                connection.sendall(text)
                connection.shutdown(socket.SHUT_WR)
                while connection.recv(65_536):
                    pass
        told = served.ask("GET", query("/v1/check", label="\x1b[2J\n"))
        assert told.object["refusal"]["code_point"] == "U+001B"
        assert served.end() == ""


NO_HTTP = (b"\x1b[2J\r\n\r\n", b"GET / HTTP/1.1\r\nno header\r\n\r\n", b"GET /?label=" + b"a" * 9_000 + b" HTTP/1.1\r\n\r\n",
           b"POST /v1/check HTTP/1.1\r\nContent-Length: -1\r\n\r\n")


def test_tells_what_is_no_http_as_other_faults(place: Place) -> None:
    configure(place)
    with Served(place) as served:
        for text in NO_HTTP:
            with served.socket() as connection:
                connection.sendall(text)
                response = http.client.HTTPResponse(connection)
                response.begin()
                told = Told(response)
            assert told.status == 400 and list(told.object) == ["fault"] and b"aaa" not in told.bytes, (text, told.bytes)
        assert f'idn2_registry_responses_total{{status="400"}} {len(NO_HTTP)}\n' in served.ask("GET", "/metrics").text
        assert served.end() == ""


def test_does_not_tell_on_what_it_stands(place: Place) -> None:
    configure(place)
    with Served(place) as served:
        for path in ("/v1/check?label=maus", "/", "/none", "/v1/check?label=a&label=b", "/?label=" + "a" * 9_000):
            told = served.ask("GET", path)
            assert told.headers["Server"] == "idn2-registry", (path, told.status)
            assert "aiohttp" not in str(told.headers) + told.text, (path, told.status)


def test_who_goes_away_is_no_fault(place: Place) -> None:
    configure(place)
    with Served(place) as served:
        with served.socket() as connection:
            connection.sendall(b"POST /v1/check HTTP/1.1\r\nHost: a\r\nExpect: 100-continue\r\n"
                               b"Content-Type: application/json\r\nContent-Length: 100\r\n\r\n")
            # It is being answered.
            assert connection.recv(100).startswith(b"HTTP/1.1 100 ")
        until = time.monotonic() + LIMIT
        while "idn2_registry_connections 1\n" not in (told := served.ask("GET", "/metrics").text):
            assert time.monotonic() < until
        assert 'status="500"' not in told
        assert served.end() == ""


def test_turns_away_what_is_above_the_limits(place: Place) -> None:
    configure(place, service="connections = 3")
    with Served(place) as served:
        held = [served.connection() for _ in range(3)]
        for connection in held:
            assert asked(connection, "GET", "/v1/check?label=a").status == 200
        told = served.ask("GET", "/v1/check?label=a")
        assert (told.status, told.headers["Retry-After"], told.object) == (503, "1", {"fault": "too many connections"})
        held.pop().close()
        for _ in range(100):
            if served.ask("GET", "/v1/check?label=a").status == 200:
                break
            time.sleep(0.01)
        else:
            pytest.fail("a connection that was closed is still counted")
        assert "idn2_registry_turned_away_total" in asked(held[0], "GET", "/metrics").text


SLOW = (b"", b"GET /v1/health HTTP/1.1\r\nHost: a\r\n", b"GET /v1/health HTTP/1.1\r\nHost: a\r\n\r\nGET",
        b"POST /v1/check HTTP/1.1\r\nHost: a\r\nContent-Type: application/json\r\nContent-Length: 100\r\n\r\n{")


@pytest.mark.parametrize("text", SLOW)
def test_cuts_off_who_is_too_slow(place: Place, text: bytes) -> None:
    """Also one that goes on to send a little at a time."""
    configure(place)
    patch = ("import idn2_registry.service.protocol as c, idn2_registry.service.bodies as b; "
             "c.IDLE_SECONDS = 0.3; b.BODY_SECONDS = 0.3")
    with Served(place, changed=patch) as served, served.socket() as connection:
        connection.sendall(text)
        connection.settimeout(0.05)
        is_open, until = True, time.monotonic() + LIMIT
        while is_open and time.monotonic() < until:
            try:
                is_open = bool(connection.recv(65_536))
            except TimeoutError:
                connection.sendall(b" " if text.endswith(b"{") else b"x" if text else b"")
            except OSError:
                is_open = False
        assert not is_open
        assert served.ask("GET", "/v1/health").status == 200


def test_cuts_off_who_reads_nothing(place: Place) -> None:
    """Who asks and reads no answer finds its connection closed: it can't send any more."""
    place.configure('[service]\nlisten = "unix:socket"')
    with Served(place, changed="import idn2_registry.service.protocol as c; c.IDLE_SECONDS = 0.5") as served:
        with served.socket() as connection:
            # Far more answers than the buffers of the socket take.
            connection.sendall(b"GET /v1/openapi.json HTTP/1.1\r\nHost: a\r\n\r\n" * 500)
            until, is_open = time.monotonic() + LIMIT, True
            while is_open:
                assert time.monotonic() < until
                try:
                    connection.send(b"\r\n")
                    time.sleep(0.01)
                except OSError:
                    is_open = False
            answers = b""
            with contextlib.suppress(OSError):
                while piece := connection.recv(65_536):
                    answers += piece
        assert 0 < answers.count(b"HTTP/1.1 200 OK") < 500


def test_reads_no_more_requests_than_it_can_answer(place: Place) -> None:
    """Who asks on and on and reads nothing can't send any more; and at last gets all answers."""
    place.configure('[service]\nlisten = "unix:socket"')
    request = b"GET /v1/openapi.json HTTP/1.1\r\nHost: a\r\nA: " + b"b" * 4_000 + b"\r\n\r\n"
    with Served(place) as served, served.socket() as connection:
        sent = 0
        connection.settimeout(1)
        with contextlib.suppress(TimeoutError):
            while sent < 4_000_000:
                sent += connection.send(request[sent % len(request):])
        connection.settimeout(LIMIT)
        assert sent < 4_000_000
        count, answers = sent // len(request), b""
        while answers.count(b"HTTP/1.1 200 OK") < count:
            answers += connection.recv(1_000_000)
