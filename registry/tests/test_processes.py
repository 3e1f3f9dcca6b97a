"""A process that dies, hangs or answers for another request is replaced, and its request is unknown."""

import asyncio
import json
import os
import queue
import signal
import threading
import time
from collections.abc import Callable
from concurrent.futures import ThreadPoolExecutor
from pathlib import Path

import pytest
from conftest import LIMIT, PROGRAM, TABLES, Place

from idn2_registry import Check, Status, Unusable, Zone
from idn2_registry.async_zone import AsyncZone, Calls
from idn2_registry.idle import Idle
from idn2_registry.processes import Places

# A program that does with the label 'odd' what stands in its place, once, and else what the program does.
FAULTY = """#!/usr/bin/env python3
import os, subprocess, sys, time
if "--register" not in sys.argv:
    os.execv({program!r}, sys.argv)
child = subprocess.Popen([{program!r}, *sys.argv[1:]], stdin=subprocess.PIPE, stdout=subprocess.PIPE, bufsize=0)
for line in sys.stdin.buffer:
    child.stdin.write(line)
    answer = child.stdout.readline()
    if line == b"odd\\n" and not os.path.exists({mark!r}):
        open({mark!r}, "w").close()
        {action}
    sys.stdout.buffer.write(answer)
    sys.stdout.buffer.flush()
"""
ACTIONS = {
    "dies": "os._exit(3)",
    "hangs": "time.sleep(100)",
    "is late": "time.sleep(6)",
    "answers another request": 'answer = answer.replace(b\'"line":\', b\'"line":9\')',
    "answers for another label": 'answer = answer.replace(b\'"input":"odd"\', b\'"input":"old"\')',
    "says nothing of a line": "answer = b'{}\\n'",
    "says no JSON": "answer = b'idn2: what\\n'",
    "says a list": "answer = b'[1]\\n'",
    "says half a line": "os.write(1, answer[:9]); os._exit(0)",
    "ends its output": "os.close(1); time.sleep(100)",
    "says a fault": "answer = b'{\"table_line\":1,\"refusal\":{\"number\":30,\"text\":\"table syntax\"}}\\n'",
}


@pytest.mark.parametrize("kind", ACTIONS)
def test_replaces_a_process(place: Place, kind: str) -> None:
    place.configure("[limits]\nseconds = 4")
    text = FAULTY.format(program=str(PROGRAM), mark=str(place.folder / "mark"), action=ACTIONS[kind])
    os.chmod(place.write("faulty", text), 0o755)
    with Zone.open(place.folder / "registry.toml", place.folder / "faulty") as zone:
        assert zone.check("maus").status in (Status.AVAILABLE, Status.UNKNOWN)
        assert zone.check("odd").status is Status.UNKNOWN, kind
        for label in ("odd", "maus", "odd"):
            answers = [zone.check(label) for _ in range(3)]
            assert Status.AVAILABLE in [answer.status for answer in answers] and answers[-1].alabel == label, answers


@pytest.mark.parametrize("kind", [kind for kind in ACTIONS if kind != "is late"])
def test_of_checks_together_only_one_is_unknown(place: Place, kind: str) -> None:
    """The one at which the process failed, also if it hangs."""
    place.configure("[limits]\nseconds = 20")
    place.load("laus1")
    text = FAULTY.format(program=str(PROGRAM), mark=str(place.folder / "mark"), action=ACTIONS[kind])
    os.chmod(place.write("faulty", text), 0o755)
    checks = [Check(label) for label in ("maus", "laus1", "odd", "haus", "Haus", "laus2")]
    wanted = [Status.AVAILABLE, Status.TAKEN, Status.UNKNOWN, Status.AVAILABLE, Status.REFUSED, Status.AVAILABLE]
    with Zone.open(place.folder / "registry.toml", place.folder / "faulty") as zone:
        answers = dict(zone.check_together(checks))
        assert [answers[number].label for number in range(6)] == [check.label for check in checks]
        found = [answers[number].status for number in range(6)]
        assert found == wanted, (kind, answers)
        again = dict(zone.check_together(checks))
        assert [again[number].status for number in range(6)] == [*wanted[:2], Status.AVAILABLE, *wanted[3:]]


def test_checks_together_are_more_than_a_pipe_takes(place: Place) -> None:
    labels = [f"{number}" + "x" * (number * 100) for number in range(100)] + ["a"] * 100
    with place.zone() as zone:
        told = dict(zone.check_together([Check(label) for label in labels]))
        for number, label in enumerate(labels):
            assert told[number] == zone.check(label), label


def children_of(process: int) -> list[int]:
    """The processes that a process has started."""
    files = Path(f"/proc/{process}/task").glob("*/children")
    return [int(word) for file in files for word in file.read_text().split()]


def test_goes_on_when_processes_are_killed(place: Place) -> None:
    with place.zone() as zone:
        for _ in range(5):
            assert zone.check("maus").status is Status.AVAILABLE
            for child in children_of(os.getpid()):
                os.kill(child, signal.SIGKILL)
            # One that died while nobody asked it is replaced before it is asked.
            time.sleep(0.05)


def test_leaves_no_process(place: Place) -> None:
    before = set(children_of(os.getpid()))
    with place.zone() as zone:
        zone.check("maus")
        assert len(set(children_of(os.getpid())) - before) > 1
    time.sleep(0.1)
    assert set(children_of(os.getpid())) <= before


def test_answers_many_threads(place: Place) -> None:
    place.load("strasse1", "strasse3")
    labels = [f"straße{number}" for number in range(200)]
    with place.zone() as zone, ThreadPoolExecutor(16) as executor:
        answers = list(executor.map(zone.check, labels))
    assert [answer.label for answer in answers] == labels
    assert [answer.label for answer in answers if answer.status is not Status.AVAILABLE] == ["straße1", "straße3"]


def test_who_waits_longest_has_the_next_place() -> None:
    """Who had it and wants it again at once comes after all that wait. One that waits in vain takes none away."""
    places, had = Places(1), queue.Queue[str]()

    def have(name: str) -> None:
        assert places.take(LIMIT)
        had.put(name)

    assert places.take(0) and not places.take(0.01)
    with ThreadPoolExecutor(3) as executor:
        for number, name in enumerate("abc", 1):
            executor.submit(have, name)
            while len(places._waiting) < number:
                time.sleep(0.001)
        for name in "abc":
            places.give_back()
            assert not places.take(0) and had.get(timeout=LIMIT) == name
    places.give_back()
    assert places.take(0) and not places.take(0)


def test_reads_tables_again_and_loses_no_request(place: Place) -> None:
    text = (TABLES / "german.txt").read_text("utf-8")
    table = place.write("own.txt", text)
    place.configure(own=table)
    is_over = threading.Event()
    with place.zone() as zone:
        assert zone.check("élan").status is Status.REFUSED

        def asked() -> set[Status]:
            found = set()
            while not is_over.is_set():
                found.add(zone.check("haus").status)
            return found

        with ThreadPoolExecutor(4) as executor:
            running = [executor.submit(asked) for _ in range(4)]
            for turn in range(6):
                table.write_text(text + ("00E9\n" if turn % 2 == 0 else ""), "utf-8")
                # Without it the tables stay as they were.
                status = Status.AVAILABLE if turn % 2 else Status.REFUSED
                assert zone.check("élan").status is status
                zone.reload()
                assert zone.check("élan").status is not status
            is_over.set()
            assert [each.result() for each in running] == [{Status.AVAILABLE}] * 4
        table.write_text(text + "00E9|\n", "utf-8")
        with pytest.raises(Unusable, match="own.txt: line "):
            zone.reload()
        assert zone.check("haus").status is Status.AVAILABLE


def test_co_process_answers_each_request(place: Place) -> None:
    place.load("strasse\tH2")
    requests: list[object] = [
        {"id": 1, "job": "check", "label": "straße"}, {"id": "two", "job": "register", "label": "straße", "holder": "H2"},
        {"job": "release", "label": "straße"}, {"job": "variants", "label": "sss", "page": 1},
        {"job": "tables-of", "label": "中"}, {"job": "check", "label": "a\nb"}, {"job": "burn", "label": "a"}, {"job": "check"},
        {"job": "check", "label": "a", "page": 1}, {"job": "check", "label": "a", "holder": 1},
        {"job": "check", "label": "a", "holder": "\n"}, [], "a", None, {"id": 3, "job": "check", "label": "\udc80"}]
    lines = [json.dumps(request).encode() for request in requests] + [b"{", b"", b"\xff"]
    lines += [b'{"id":4,"job":"register","label":"a","label":"b"}', '{"job":"register","label":"a"}'.encode("utf-16")]
    done = place.run("ask", given=b"\n".join(lines) + b"\n")
    told = [json.loads(line) for line in done.stdout.splitlines()]
    assert len(told) == len(lines) and done.returncode == 0
    assert [each.get("status") for each in told[:6]] == ["taken", "registered", "released", "listed", "refused", "refused"]
    assert [each.get("id") for each in told[:3]] == [1, "two", None]
    assert all(each.keys() == {"fault"} for each in (*told[6:14], *told[15:])), told
    faults = ["no JSON at character 3", "no JSON at character 2", "not UTF-8 at byte 1"]
    assert [each["fault"] for each in told[15:18]] == faults, told
    place.expect(["dump"], "strasse\tH2\n", 0)
    assert told[14] == {"id": 3, "label_hex": "80", "status": "refused",
                        "refusal": {"number": 1, "text": "not UTF-8", "byte": 1}}


def test_co_process_keeps_no_long_request(place: Place) -> None:
    """What is too long is read away, and the next request is answered."""
    for length in (65_500, 65_536, 65_537, 65_538, 131_072, 131_073, 1_000_000):
        request = json.dumps({"job": "check", "label": "a"})[:-1].encode()
        long = request + b" " * (length - len(request) - 2) + b"}\n"
        assert len(long) == length
        done = place.run("ask", given=long + b'{"id":1,"job":"check","label":"b"}\n')
        first, second = (json.loads(line) for line in done.stdout.splitlines())
        assert ("fault" in first) == (length > 65_536), (length, first)
        assert second["id"] == 1 and second["alabel"] == "b", (length, second)
    done = place.run("ask", given=b"x" * 100_000)
    assert [json.loads(line) for line in done.stdout.splitlines()] == [{"fault": "more than 65536 bytes"}]


def test_co_process_reads_tables_again_on_sighup(place: Place) -> None:
    text = (TABLES / "german.txt").read_text("utf-8")
    table = place.write("own.txt", text)
    place.configure(own=table)
    process = place.start("ask")
    assert process.stdin and process.stdout

    def status() -> str:
        assert process.stdin and process.stdout
        process.stdin.write('{"job":"tables-of","label":"élan"}\n'.encode())
        process.stdin.flush()
        told: str = json.loads(process.stdout.readline())["status"]
        return told

    assert status() == "refused"
    table.write_text(text + "00E9\n", "utf-8")
    process.send_signal(signal.SIGHUP)
    assert status() == "admitted"
    table.write_text("0061|\n", "utf-8")
    process.send_signal(signal.SIGHUP)
    assert status() == "admitted"
    _, messages = process.communicate(timeout=60)
    assert b"own.txt: line 1: 30 table syntax" in messages and process.returncode == 0


def test_async_zone_does_the_same(place: Place) -> None:
    async def asked() -> list[Status]:
        async with await AsyncZone.open(place.folder / "registry.toml", PROGRAM) as zone:
            first = await zone.register("maß", "H1")
            others = await asyncio.gather(*(zone.check(label) for label in ("mass", "Maß", "maus", "maß")))
            await zone.reload()
            rest = [await zone.variants("maß"), await zone.tables_of("maß"), await zone.release("maß")]
            # So many are answered together.
            labels = [f"maus{number}" for number in range(200)]
            assert [answer.ulabel for answer in await asyncio.gather(*map(zone.check, labels))] == labels
            with pytest.raises(ValueError, match="holder"):
                await zone.check("maus", "")
            return [answer.status for answer in (first, *others, *rest)]

    assert asyncio.run(asked()) == [Status.REGISTERED, Status.TAKEN, Status.REFUSED, Status.AVAILABLE, Status.TAKEN,
                                    Status.LISTED, Status.ADMITTED, Status.RELEASED]


def test_async_zone_answers_in_one_event_loop_after_another(place: Place) -> None:
    async def asked(zone: AsyncZone) -> list[Status]:
        return [answer.status for answer in await asyncio.gather(*(zone.check(f"maus{number}") for number in range(50)))]

    zone = AsyncZone(place.zone())
    for _ in range(2):
        assert asyncio.run(asked(zone)) == [Status.AVAILABLE] * 50
    asyncio.run(zone.close())


def test_a_call_that_fails_keeps_no_other_from_being_made() -> None:
    async def made() -> list[int]:
        loop = asyncio.get_running_loop()
        loop.set_exception_handler(lambda *_: None)
        calls, found = Calls(loop), asyncio.Event()
        numbers: list[int] = []
        due: list[Callable[[], object]] = [lambda: numbers.append(1), lambda: numbers.pop(9), lambda: numbers.append(2),
                                           found.set]

        def add_all() -> None:
            for call in due:
                calls.add(call)

        await asyncio.to_thread(add_all)
        async with asyncio.timeout(10):
            await found.wait()
        return numbers

    assert asyncio.run(made()) == [1, 2]


def test_what_is_used_beyond_the_end_ends() -> None:
    """A process or a connection that is given back after the end, as by a request that took until then."""
    class Held:
        is_open = True

        def close(self) -> None:
            self.is_open = False

    idle: Idle[Held] = Idle()
    used, kept = Held(), Held()
    idle.keep(kept, "kind")
    assert (idle.take(), idle.take("kind"), idle.take("kind")) == (None, kept, None)
    idle.keep(kept)
    idle.close()
    idle.keep(used)
    assert not kept.is_open and not used.is_open and idle.take() is None
