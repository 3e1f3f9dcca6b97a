#!/usr/bin/env python3
"""Times idn2-registry serve by wrk with fifty connections, while one label in a hundred is the most costly one that was found:
python3 bench/service.py

    at rest     checks a second, and the slowest of 99 in 100 in milliseconds
    disturbed   the same while each second a process of the program is killed and the tables are read again, and every third
                second PostgreSQL is started again; what isn't known then is told, and nothing else fails

The service has one processor and two processes of the program, which have the others; with --together they share the one. All of
it goes before what else the machine does, where that is allowed. The register is a file of SQLite, and then, where Debian's
packages of it are installed, a database of PostgreSQL.
"""

import itertools
import os
import re
import shutil
import signal
import subprocess
import sys
import threading
import time
import urllib.request

import registered
from bench import HERE
from runs import Failed, before_others, children, measured, words_of

sys.path.append(str(HERE.parent / "tests"))

from postgresql import restart, server, uri_of
from program import python_with

CHECKS_WANTED, SLOWEST_WANTED = 2_000, 50
CONNECTIONS, SECONDS = 50, 10
SCRIPT = """
local count = 0
request = function()
  count = count + 1
  local label = count % 100 == 0 and string.rep("s", 56) .. count % 1000 or "wort" .. count .. "stra%C3%9Fe"
  return wrk.format("GET", "/v1/check?label=" .. label)
end
done = function(summary, latency)
  local errors = summary.errors
  io.write(string.format("told %d %d %d %f %d %d\\n", summary.requests, summary.duration, latency.max, latency:percentile(99),
    errors.status, errors.connect + errors.read + errors.write + errors.timeout))
end
"""


def service(options, folder, python, uri):
    """The service, when it listens, and its address."""
    labels = registered.german_words(options.labels)
    (folder / "labels.txt").write_text("".join(f"{label}\n" for label in labels), "utf-8")
    (folder / "registry.toml").write_text(f'register = "{uri}"\nprocesses = 2\n[tables]\nde = "{registered.GERMAN}"\n'
                                          '[service]\nlisten = "127.0.0.1:0"\n', "utf-8")
    environment = {**os.environ, "PYTHONPATH": str(HERE.parent / "registry"), "LC_ALL": "C.UTF-8"}
    command = [python, "-m", "idn2_registry"]
    subprocess.run([*command, "load", "--idn2", str(options.ours), "labels.txt"], cwd=folder, env=environment, check=True,
                   stdout=subprocess.DEVNULL)
    command += ["serve", "--idn2", str(options.ours)]
    started = subprocess.Popen(command, cwd=folder, env=environment, stderr=subprocess.PIPE)
    found = re.search(r"http://\S+", started.stderr.readline().decode())
    if not found:
        raise Failed("the service doesn't start")
    return started, found[0]


def place(process, together):
    """The service goes to the first processor, and its processes to the others."""
    first, *others = sorted(os.sched_getaffinity(0))
    for child in children(process):
        os.sched_setaffinity(child, {first} if together or not others else set(others))
    for task in os.listdir(f"/proc/{process}/task"):
        os.sched_setaffinity(int(task), {first})


def disturb(process, is_over, options, database):
    """Kills a process each second, and has the tables read again. Every third second the server of a database is started
    again."""
    for second in itertools.count(1):
        if is_over.wait(1):
            break
        os.kill(children(process)[0], signal.SIGKILL)
        os.kill(process, signal.SIGHUP)
        if database and second % 3 == 0:
            restart(database)
        time.sleep(0.1)
        place(process, options.together)


def asked(folder, address):
    """What wrk says: checks a second, the slowest of 99 in 100, and how many aren't known or fail."""
    words = ["wrk", "-t1", f"-c{CONNECTIONS}", f"-d{SECONDS}s", "-s", str(folder / "wrk.lua"), address]
    told = subprocess.run(words, capture_output=True, check=True, text=True).stdout
    requests, duration, _, slowest, unknown, failed = map(float, re.search(r"^told (.*)$", told, re.MULTILINE)[1].split())
    return requests / duration * 1e6, slowest / 1000, int(unknown), int(failed)


def processor_seconds(address):
    """What the service has taken of the processor."""
    with urllib.request.urlopen(address + "metrics") as told:
        return float(re.search(r"^idn2_registry_processor_seconds_total (.*)$", told.read().decode(), re.MULTILINE)[1])


def measure_service(options, folder, python, uri, database=None):
    """The service with a register; the folder of a database is that of its server."""
    started, address = service(options, folder, python, uri)
    try:
        asked(folder, address)
        place(started.pid, options.together)
        for name in ("at rest", "disturbed"):
            is_over = threading.Event()
            disturbing = threading.Thread(target=disturb, args=(started.pid, is_over, options, database))
            if name == "disturbed":
                disturbing.start()
            before = processor_seconds(address)
            rate, slowest, unknown, failed = asked(folder, address)
            each = (processor_seconds(address) - before) / (rate * SECONDS) * 1000
            is_over.set()
            print(f"{uri.partition(':')[0]}, {name}: {rate:,.0f} checks a second ({CHECKS_WANTED:,} wanted), 99 in 100 within "
                  f"{slowest:.1f} ms ({SLOWEST_WANTED} wanted), {unknown} not known, {failed} failed; {each:.2f} ms of the "
                  "processor each, without the program's", flush=True)
    finally:
        started.kill()
        started.wait()


def measure(options, folder):
    python = python_with("aiohttp")
    for name, is_there in (("wrk", shutil.which("wrk")), ("python3-aiohttp", python)):
        if not is_there:
            raise Failed(f"{name} is not installed")
    (folder / "wrk.lua").write_text(SCRIPT, "ascii")
    with before_others():
        measure_service(options, folder, python, "sqlite:register.db")
        with server() as (environment, _):
            if environment:
                measure_service(options, folder, python_with("aiohttp, psycopg"), uri_of(environment), environment["PGHOST"])


if __name__ == "__main__":
    words = words_of(__doc__, 1)
    words.add_argument("--labels", default=100_000, type=int, help="registered labels")
    words.add_argument("--together", action="store_true", help="the program's processes share the one processor")
    sys.exit(measured(words, measure))
