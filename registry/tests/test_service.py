"""The service over HTTP: it answers with the objects of the commands, and what isn't known is never a 200."""

import json
import os
import re
import shutil
import signal
import subprocess
import time
from collections.abc import Callable
from typing import Any

import pytest
from conftest import LIMIT, ROOT, Place
from serving import BEARER, TOKEN, Served, configure, needs_aiohttp, query
from test_service_limits import FAULTS

from idn2_registry.service.answering import Answering
from idn2_registry.service.metrics import Metrics

pytestmark = needs_aiohttp


def test_answers_with_the_objects_of_the_commands(place: Place) -> None:
    configure(place)
    place.load("haus\tH1", "strasse\tH2")
    labels = ["maß", "xn--ma-hia", "straße", "mañana", "-maß", "Faß", "maß\r", "", "a\nb", "xn--a", "s" * 64, "\udcdf"]
    with Served(place) as served:
        for label in labels:
            told = served.ask("GET", query("/v1/check", label=label))
            done = place.run("check", "--json", "--", os.fsdecode(label.encode("utf-8", "surrogateescape")))
            assert told.status == 200 and told.object == json.loads(done.stdout), (label, told.object, done)
        told = served.ask("POST", "/v1/check", {"labels": labels[:-1], "holder": "H2", "variants": True})
        done = place.run("check", "--json", "--variants", "--holder", "H2", "--", *labels[:-1])
        assert told.status == 200 and told.object["answers"] == [json.loads(line) for line in done.stdout.split(b"\n")[:-1]]
        for words, path in ((["variants", "sss"], query("/v1/variants", label="sss")),
                            (["variants", "--page", "2", "sss"], query("/v1/variants", label="sss", page="2")),
                            (["variants", "--after=sß", "sss"], query("/v1/variants", label="sss", after="sß")),
                            (["variants", "--table", "de", "haus"], query("/v1/variants", label="haus", table="de")),
                            (["tables-of", "haus"], query("/v1/tables-of", label="haus"))):
            told, done = served.ask("GET", path), place.run(words[0], "--json", *words[1:])
            assert told.status == 200 and told.bytes == done.stdout.rstrip(b"\n"), (path, told.bytes, done)


def test_head_is_a_get_without_a_body(place: Place) -> None:
    """Also of what is refused, is no path, or isn't known."""
    configure(place, service="[limits]\nseconds = 1")
    with Served(place) as served:
        for path in ("/v1/check?label=maus", query("/v1/check", label="Faß"), "/v1/variants?label=sss", "/v1/check",
                     "/v1/tables-of?label=a", "/v1/health", "/v1/openapi.json", "/?label=maus", "/tables/de",
                     "/page.css", "/none", "/v1/register"):
            got, head = (served.ask(method, path) for method in ("GET", "HEAD"))
            for name in ("Content-Type", "Content-Length", "Cache-Control", "Allow"):
                assert head.headers[name] == got.headers[name], (path, name)
            assert (head.status, head.bytes) == (got.status, b"") and got.bytes, path
        (place.folder / "register.db").rename(place.folder / "away.db")
        told = served.ask("HEAD", "/v1/check?label=maus")
        assert (told.status, told.headers["Retry-After"], told.bytes) == (503, "60", b"")


def test_registers_and_releases_with_the_token_alone(place: Place) -> None:
    configure(place)
    shown = ("Bearer x", f"Basic {TOKEN}", "Bearer ", f"Bearer {TOKEN}x", TOKEN, "Bearer \xe9")
    wrong: list[dict[str, str]] = [{}, *({"Authorization": each} for each in shown)]
    with Served(place) as served:
        for path in ("/v1/register", "/v1/release"):
            for headers in wrong:
                told = served.ask("POST", path, {"label": "maus"}, **headers)
                assert (told.status, told.headers["WWW-Authenticate"]) == (401, "Bearer"), (path, headers, told.bytes)
        assert served.ask("GET", "/v1/check?label=maus").object["status"] == "available"
        for path, status in (("register", "registered"), ("register", "taken"), ("release", "released"), ("release", "free")):
            told = served.ask("POST", f"/v1/{path}", {"label": "maus"}, **BEARER)
            assert (told.status, told.object["status"]) == (200, status)
        told = served.ask("POST", "/v1/register", {"label": "maus", "holder": "a\nb"}, **BEARER)
        assert told.status == 400 and "holder" in told.object["fault"]
    configure(place, service="")
    with Served(place) as served:
        for path in ("/v1/register", "/v1/release"):
            assert served.ask("POST", path, {"label": "maus"}, **BEARER).status == 404


def test_what_is_not_known_is_never_a_200(bare: Place) -> None:
    """As long as the table of the zone lacks a pair of another one."""
    bare.write("zone.txt", "0061\n0062\n")
    bare.write("own.txt", "0061|0062\n0062\n")
    configure(bare, more='zone = "zone"\n', zone="zone.txt", own="own.txt")
    bare.load("a")
    lacks = "the table zone lacks 0061|0062 of own: join the tables again"
    with Served(bare) as served:
        told = served.ask("GET", "/v1/check?label=b")
        # It lasts until the table is mended.
        assert (told.status, told.headers["Retry-After"]) == (503, "60")
        assert told.object == {"label": "b", "status": "unknown", "ulabel": "b", "alabel": "b", "tables": ["own"],
                               "reason": lacks}
        told = served.ask("POST", "/v1/check", {"labels": ["a", "b", "c"]})
        assert told.status == 503 and [each["status"] for each in told.object["answers"]] == ["taken", "unknown", "refused"]
        told = served.ask("GET", "/v1/health")
        assert (told.status, told.headers["Retry-After"], told.object["reason"]) == (503, "60", lacks)
        bare.write("own.txt", "0061\n0062|0061\n")
        other = lacks.replace("0061|0062", "0062|0061")
        served.process.send_signal(signal.SIGHUP)
        until = time.monotonic() + LIMIT
        while 'idn2_registry_reloads_total{result="done"} 1\n' not in served.ask("GET", "/metrics").text:
            assert time.monotonic() < until
        assert served.end() == (f"idn2-registry: {lacks}: no label is told to be available\n"
                                f"idn2-registry: 1 answer not known, the last one because: {lacks}\n"
                                f"idn2-registry: {other}: no label is told to be available\n")


def test_tells_what_lasts_until_an_operator_mends_it(bare: Place) -> None:
    """A table whose file is faulty now, and a register that is gone: also where no table admits the label that is asked for."""
    bare.write("own.txt", "0062\n")
    configure(bare, own="own.txt")
    bare.load()
    register = bare.folder / "register.db"
    with Served(bare) as served:
        assert served.ask("GET", "/v1/health").object["status"] == "ready"
        bare.write("own.txt", "0062|\n")
        served.process.send_signal(signal.SIGHUP)
        until = time.monotonic() + LIMIT
        while not (told := served.ask("GET", "/v1/health")).object["stale"]:
            assert time.monotonic() < until
        assert told.status == 200
        assert "\nidn2_registry_tables_are_stale 1\n" in served.ask("GET", "/metrics").text
        register.rename(bare.folder / "away.db")
        for path in ("/v1/health", "/v1/check?label=b", "/?label=b"):
            told = served.ask("GET", path)
            assert (told.status, told.headers["Retry-After"]) == (503, "60"), path
            assert "an operator has to mend something" in told.text and "register.db" not in told.text, path
        told = served.ask("POST", "/v1/register", {"label": "b"}, **BEARER)
        assert told.status == 503 and told.object["status"] == "unknown", told.bytes
        (bare.folder / "away.db").rename(register)
        bare.write("own.txt", "0062\n")
        served.process.send_signal(signal.SIGHUP)
        while (told := served.ask("GET", "/v1/health")).object["stale"]:
            assert time.monotonic() < until
        assert (told.status, told.object["status"]) == (200, "ready")
        assert "\nidn2_registry_tables_are_stale 0\n" in served.ask("GET", "/metrics").text
        assert served.ask("GET", "/v1/check?label=b").object["status"] == "available"
        messages = served.end().splitlines()
    # One for all answers of a minute.
    stale = "own.txt: line 1: 30 table syntax at byte 6: mend it (docs/NOTATION.md); the old tables stay"
    assert messages == [f"idn2-registry: {stale}",
                        "idn2-registry: 1 answer not known, the last one because: registry.toml: line 1: register: "
                        "register.db: no longer the file that was opened: put that back, or start again"], messages


def test_only_the_log_says_where_the_register_is(bare: Place, server: Callable[[str], str]) -> None:
    bare.register = server("secluded")
    configure(bare)
    bare.load()
    folder = bare.register.partition("host=")[2]
    with Served(bare) as served:
        subprocess.run(["dropdb", "--force", "-h", folder, "-U", "postgres", "secluded"], check=True, timeout=LIMIT)
        requests: list[tuple[str, str, Any]] = [
            ("GET", "/v1/check?label=maus", None), ("POST", "/v1/check", {"labels": ["maus"]}),
            ("GET", "/v1/health", None), ("POST", "/v1/register", {"label": "maus"}), ("GET", "/?label=maus", None)]
        for method, path, body in requests:
            told = served.ask(method, path, body, **BEARER)
            assert told.status == 503 and "the register gave no answer" in told.text, (path, told.text)
            assert folder not in told.text and "secluded" not in told.text, (path, told.text)
        messages = served.end()
    assert folder in messages and 'database "secluded" does not exist' in messages, messages


def test_the_description_is_what_is_served(place: Place) -> None:
    jsonschema = pytest.importorskip("jsonschema", reason="python3-jsonschema")
    configure(place)
    place.load("haus\tH1", "strasse\tH2")
    with Served(place) as served:
        told = served.ask("GET", "/v1/openapi.json").object
        described = {(method.upper(), path) for path, methods in told["paths"].items() for method in methods}
        assert described == {route for route in routes(place, b"token") if route[1].startswith("/v1/")}
        requests: list[tuple[str, str, Any]] = [(method, path, body) for method, path, body, _ in FAULTS]
        requests += [("GET", query(f"/v1/{job}", label=label), None) for job in ("check", "variants", "tables-of")
                     for label in ("haus", "straße", "Faß", "a\rb", "\udcdf", "")]
        requests += [("GET", "/v1/check?label=strasse&variants=true&holder=H1", None), ("GET", "/v1/health", None),
                     ("POST", "/v1/check", {"labels": ["haus", "straße"], "variants": True}), ("GET", "/v1/openapi.json", None),
                     ("POST", "/v1/register", {"label": "maus", "holder": "H3"}), ("POST", "/v1/release", {"label": "maus"})]
        found = set()
        for method, path, body in requests:
            operation = told["paths"].get(path.partition("?")[0], {}).get(method.lower())
            if operation:
                response = served.ask(method, path, body, **BEARER)
                schema = operation["responses"][str(response.status)]["content"]["application/json"]["schema"]
                jsonschema.Draft202012Validator({**schema, "components": told["components"]}).validate(response.object)
                found.add((method, path.partition("?")[0]))
        assert found == described, described - found
    configure(place, service="")
    with Served(place) as served:
        told = served.ask("GET", "/v1/openapi.json").object
        assert "/v1/register" not in told["paths"] and "/v1/release" not in told["paths"]
        assert {route for route in routes(place, None) if route[1] in ("/v1/register", "/v1/release")} == set()


def routes(place: Place, token: bytes | None) -> set[tuple[str, str]]:
    """The method and the path of each route."""
    from idn2_registry.service.application import Service

    with place.zone() as zone:
        metrics = Metrics("")
        service = Service(Answering(zone, metrics), metrics, token)
        # HEAD is answered as GET.
        return {(route.method, route.resource.canonical) for route in service.application().router.routes()
                if route.resource and route.method != "HEAD"}


def test_the_calls_of_the_guide_are_answered(place: Place) -> None:
    if not shutil.which("curl"):
        pytest.skip("curl")
    configure(place)
    calls = re.findall(r"^    (curl (?:.*\\\n)*.*)$", (ROOT / "docs" / "GUIDE.md").read_text("utf-8"), re.MULTILINE)
    with Served(place) as served:
        address = "http://{}:{}".format(*served.address)
        for call in calls:
            command = call.replace("http://127.0.0.1:8053", address).replace("curl ", "curl --silent --fail ", 1)
            done = subprocess.run(["sh", "-c", command], cwd=place.folder, capture_output=True, timeout=LIMIT, check=False)
            assert done.returncode == 0 and {"status", "answers"} & json.loads(done.stdout).keys(), (command, done)
    assert len(calls) == 4, calls


def test_metrics_are_in_the_text_form(place: Place) -> None:
    configure(place)
    with Served(place) as served:
        for label in ("haus", "Haus", "maus"):
            served.ask("GET", query("/v1/check", label=label))
        served.ask("GET", "/none")
        told = served.ask("GET", "/metrics")
    assert told.headers["Content-Type"] == "text/plain; version=0.0.4; charset=utf-8"
    samples = {}
    for line in told.text.splitlines():
        found = re.fullmatch(r'# (HELP|TYPE) (\w+) .+|(\w+(?:\{(?:\w+="(?:[^"\\]|\\.)*",?)+\})?) ([0-9.e+-]+)', line)
        assert found, line
        samples[found[3]] = found[4]
    assert samples['idn2_registry_answers_total{job="check",status="available"}'] == "2"
    assert samples['idn2_registry_answers_total{job="check",status="refused"}'] == "1"
    for each in ('count{job="check"}', 'bucket{job="check",le="+Inf"}'):
        assert samples[f"idn2_registry_answer_seconds_{each}"] == "3"
    assert samples['idn2_registry_responses_total{status="404"}'] == "1" and samples["idn2_registry_connections"] == "1"
