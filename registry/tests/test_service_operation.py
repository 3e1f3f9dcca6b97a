"""The service as it is operated: it starts and ends, and loses no request while processes, tables and databases come and go."""

import itertools
import os
import signal
import socket
import subprocess
import sys
import threading
import time
from collections.abc import Callable
from concurrent.futures import ThreadPoolExecutor
from typing import Any

from conftest import LIMIT, TABLES, Place
from postgresql import restart
from serving import CHANGED, Served, asked, configure, needs_aiohttp, query

pytestmark = needs_aiohttp


class Asking:
    """Threads that ask for labels, each in one connection, until they are stopped. They keep what wasn't as it should be."""

    def __init__(self, served: Served, expected: Callable[[str], str], count: int = 8) -> None:
        self.known, self.unknown, self.faults = 0, 0, list[object]()
        self._served, self._expected, self._is_over = served, expected, threading.Event()
        self._threads = [threading.Thread(target=self._ask, args=(number,)) for number in range(count)]

    def __enter__(self) -> "Asking":
        for thread in self._threads:
            thread.start()
        return self

    def __exit__(self, *_: object) -> None:
        self._is_over.set()
        for thread in self._threads:
            thread.join()

    def _ask(self, number: int) -> None:
        connection = self._served.connection()
        try:
            for turn in itertools.count():
                if self._is_over.is_set():
                    break
                label = f"straße{number}x{turn}"
                self._note(label, asked(connection, "GET", query("/v1/check", label=label)))
        except Exception as error:
            self.faults.append(error)
        finally:
            connection.close()

    def _note(self, label: str, told: Any) -> None:
        if told.object.get("label") != label:
            self.faults.append((label, told.bytes))
        elif told.status == 503 and told.object["status"] == "unknown":
            self.unknown += 1
        elif told.status == 200 and told.object["status"] == self._expected(label):
            self.known += 1
        else:
            self.faults.append((label, told.bytes))

    def wait_for(self, count: int) -> None:
        """Waits until so many more are known."""
        until, wanted = time.monotonic() + LIMIT, self.known + count
        while self.known < wanted and not self.faults:
            assert time.monotonic() < until
            time.sleep(0.01)


def test_no_request_is_lost_or_mixed_while_processes_are_killed_and_tables_are_read(place: Place) -> None:
    table = place.write("own.txt", (TABLES / "german.txt").read_bytes())
    configure(place, own=table)
    place.load(*(f"strasse{number}x1" for number in range(8)))
    with Served(place) as served, Asking(served, lambda label: "taken" if label.endswith("x1") else "available") as asking:
        for turn in range(10):
            asking.wait_for(20)
            for child in served.children[turn % 2::2]:
                os.kill(child, signal.SIGKILL if turn % 3 else signal.SIGSTOP)
            if turn % 2:
                served.process.send_signal(signal.SIGHUP)
        asking.wait_for(20)
        table.write_text("0061|\n")
        served.process.send_signal(signal.SIGHUP)
        asking.wait_for(20)
        for child in served.children:
            os.kill(child, signal.SIGCONT)
    assert asking.faults == [] and asking.known >= 240, (asking.faults, asking.known, asking.unknown)


def test_no_request_is_lost_or_mixed_while_postgresql_is_started_again(bare: Place, server: Callable[[str], str]) -> None:
    uri = server("restarted")
    bare.register = uri
    configure(bare)
    bare.load("strasse0x1")
    with Served(bare) as served, Asking(served, lambda label: "taken" if label == "straße0x1" else "available", 4) as asking:
        for _ in range(2):
            asking.wait_for(20)
            restart(uri.partition("host=")[2])
        asking.wait_for(20)
    assert asking.faults == [], asking.faults


def test_a_process_that_hangs_makes_its_request_unknown(place: Place) -> None:
    configure(place, more="processes = 2\n", service="[limits]\nseconds = 1")
    with Served(place) as served, ThreadPoolExecutor(6) as executor:
        assert served.ask("GET", "/v1/check?label=haus").status == 200
        for child in served.children:
            os.kill(child, signal.SIGSTOP)
        stopped = served.children
        answers = list(executor.map(lambda number: served.ask("GET", f"/v1/check?label=haus{number}"), range(6)))
        for number, told in enumerate(answers):
            assert told.object["label"] == f"haus{number}" and told.status in (200, 503), told.bytes
        assert 503 in [told.status for told in answers]
        assert served.ask("GET", "/v1/check?label=haus").status == 200
        assert not set(stopped) <= set(served.children)


def test_ends_after_what_is_being_answered(place: Place) -> None:
    configure(place)
    with Served(place) as served, ThreadPoolExecutor(1) as executor:
        labels = ["s" * 40 + str(number) for number in range(300)]
        answer = executor.submit(served.ask, "POST", "/v1/check", {"labels": labels})
        while not served.children:
            time.sleep(0.01)
        assert served.end() == ""
        assert len(answer.result().object["answers"]) == 300 and answer.result().headers["Connection"] == "close"


def test_listens_in_a_unix_socket(place: Place) -> None:
    place.configure('[service]\nlisten = "unix:socket"')
    with Served(place) as served:
        path = place.folder / "socket"
        assert path.stat().st_mode & 0o777 == 0o660
        assert served.ask("GET", "/v1/check?label=a").status == 200
        done = subprocess.run(place.words("serve"), cwd=place.folder, env=place.environment, capture_output=True, timeout=LIMIT)
        assert done.returncode == 75 and b"socket: Address already in use: end what listens there" in done.stderr, done
    # The socket is left by a process that was killed.
    assert path.is_socket()
    with Served(place) as served:
        assert served.ask("GET", "/v1/check?label=a").status == 200


def test_takes_a_socket_of_systemd_and_tells_when_it_is_ready(place: Place) -> None:
    place.configure()
    listening = socket.create_server(("127.0.0.1", 0))
    notify = socket.socket(socket.AF_UNIX, socket.SOCK_DGRAM)
    notify.bind(str(place.folder / "notify"))
    notify.settimeout(LIMIT)
    place.environment |= {"NOTIFY_SOCKET": str(place.folder / "notify"), "LISTEN_FDS": "1"}
    words = ["bash", "-c", 'exec 3<&"$0"; LISTEN_PID=$$ exec "$@"', str(listening.fileno()), *place.words("serve")]
    process = subprocess.Popen(words, cwd=place.folder, env=place.environment, pass_fds=[listening.fileno()],
                               stderr=subprocess.PIPE)
    try:
        assert notify.recv(100) == b"READY=1"
        with socket.create_connection(listening.getsockname(), timeout=LIMIT) as connection:
            connection.sendall(b"GET /v1/health HTTP/1.0\r\n\r\n")
            assert connection.recv(100).startswith(b"HTTP/1.0 200 OK")
    finally:
        process.terminate()
        process.communicate(timeout=LIMIT)
        listening.close()
        notify.close()


def expect_unusable(done: "subprocess.CompletedProcess[bytes]", message: str) -> None:
    """It didn't start, and said why in one line."""
    assert done.returncode == 75 and done.stderr.count(b"\n") == 1 and message in done.stderr.decode(), done


def test_says_why_it_does_not_start(place: Place) -> None:
    place.configure()
    command = place.words("serve")
    command[1:3] = ["-c", CHANGED.format("sys.modules['aiohttp'] = None")]
    done = subprocess.run(command, cwd=place.folder, env=place.environment, capture_output=True, timeout=LIMIT, check=False)
    expect_unusable(done, f"{sys.executable} has no aiohttp, which serve needs: apt-get install")
    rows = (('listen = "0.0.0.0:80"', "registry.toml: line 6: listen: no address of this machine alone"),
            ('listen = "example.org:80"', "line 6: listen"), ("listen = 80", "line 6: listen"),
            ('listen = "unix:"', "line 6: listen"),
            ('listen = "127.0.0.1:99999"', "line 6: listen"),
            ("connections = 0", "line 6: connections: write a number from 1 to"),
            ("token = 1", "line 6: token: not a path"),
            ("tokens = 1", "line 6: tokens: nothing has this name: write one of listen"),
            ('token = "none.txt"', "line 6: token: none.txt: No such file or directory: mend its path"),
            ('token = "short.txt"', "short.txt: a token is a word of 32 letters or more: openssl rand -hex 32"),
            ('listen = "unix:none/socket"', "line 6: listen: none/socket: No such file or directory: end what"))
    place.write("short.txt", "secret\n")
    for line, message in rows:
        place.configure(f"[service]\n{line}")
        expect_unusable(place.run("serve"), message)
