#!/usr/bin/env python3
"""Times idn2-registry with a register of labels of each of some tables: python3 bench/registry.py

    check       one label after the other, each near a registered one, against all registered ones, by the clock: in
                milliseconds the middle of all, and the slowest; and, of the hundred slowest, the one that is the slowest again,
                by the least of three times: a costly label takes its time each time, what else the machine does doesn't
    audit       of all of them: how often it takes the processor time of the run of the program alone that it stands on,
                which is --among with --others; each the least of some rounds

The tables are tables/german.txt, with labels like German words, and each of tables/rulesets; or those that --tables
names, which may be rulesets in XML. The register is a file of SQLite, and then, where Debian's packages of it are
installed, a database of PostgreSQL.
"""

import gc
import heapq
import os
import pathlib
import resource
import statistics
import subprocess
import sys
import time

import registered
from bench import HERE
from runs import Failed, before_others, measured, words_of

sys.path += [str(HERE.parent / folder) for folder in ("registry", "tests")]

from postgresql import server, uri_of
from program import python_with

CHECK_WANTED, WORST_WANTED, AUDIT_WANTED = 2, 10, 1.5
SQLITE, POSTGRESQL = "sqlite", "postgresql"
# So many of the slowest are asked again, so many times.
SLOWEST, TIMES = 100, 3


def processor_time(words, folder, source=os.devnull):
    """Seconds of the processor that a run and all that it starts take."""
    before = resource.getrusage(resource.RUSAGE_CHILDREN)
    environment = {**os.environ, "PYTHONPATH": str(HERE.parent / "registry"), "LC_ALL": "C.UTF-8"}
    with open(source, "rb") as file:
        done = subprocess.run([str(word) for word in words], cwd=folder, env=environment, stdin=file,
                              stdout=subprocess.DEVNULL, stderr=subprocess.PIPE)
    if done.returncode not in (0, 1):
        raise Failed(f"{words}: status {done.returncode}, {done.stderr.decode(errors='replace').strip()}")
    after = resource.getrusage(resource.RUSAGE_CHILDREN)
    return after.ru_utime + after.ru_stime - before.ru_utime - before.ru_stime


def checks(options, folder, asked):
    """Milliseconds of each check; and the label that is the slowest again, with its least time."""
    from idn2_registry import Zone

    # Python doesn't look for garbage in the lists that only this script has.
    gc.freeze()
    with before_others(), Zone.open(folder / "registry.toml", options.ours) as zone:
        def milliseconds(label):
            start = time.perf_counter()
            answer = zone.check(label)
            taken = (time.perf_counter() - start) * 1000
            if answer.reason:
                raise Failed(f"no answer for {label}")
            return taken

        milliseconds(asked[0])
        times = [(milliseconds(label), label) for label in asked]
        again = max((min(milliseconds(label) for _ in range(TIMES)), label) for _, label in heapq.nlargest(SLOWEST, times))
    return [taken for taken, _ in times], again


def measure(options, folder):
    print(f"{'':<25}load, s   check, ms: middle   slowest     again   audit, times the program's own")
    print(f"{'wanted':<32}{CHECK_WANTED:21}{WORST_WANTED:10}{WORST_WANTED:10}   {AUDIT_WANTED}", flush=True)
    for table in options.tables:
        measure_table(options, folder, table)


def measure_table(options, folder, table):
    drawn = registered.Drawn(options.ours, table)
    labels = drawn.labels(options.labels)
    (folder / "labels.txt").write_text("".join(f"{label}\n" for label in labels), "utf-8")
    asked = drawn.near(labels, options.asked)
    words = [options.ours, drawn.listing, table, "--among", "labels.txt", "--others"]
    alone = min(processor_time(words, folder, folder / "labels.txt") for _ in range(options.rounds))
    if SQLITE in options.registers:
        measure_register(options, folder, table, asked, alone, "sqlite:register.db")
        (folder / "register.db").unlink()
    if POSTGRESQL not in options.registers:
        return
    with before_others(), server() as (environment, _):
        if environment:
            measure_register(options, folder, table, asked, alone, uri_of(environment))


def measure_register(options, folder, table, asked, alone, register):
    """A register with the labels, of which an audit by the program alone takes so many seconds."""
    command = [sys.executable, "-m", "idn2_registry"]
    (folder / "registry.toml").write_text(f'register = "{register}"\n[tables]\nasked = "{table}"\n', "utf-8")
    load = processor_time([*command, "load", "--idn2", options.ours, "labels.txt"], folder)
    times, (again, label) = checks(options, folder, asked)
    audit = min(processor_time([*command, "audit", "--idn2", options.ours], folder) for _ in range(options.rounds))
    print(f"{table.stem:<14}{register.partition(':')[0]:<11}{load:7.1f}{statistics.median(times):21.2f}"
          f"{max(times):10.2f}{again:10.2f}   {audit / alone:.2f} of {alone:.1f} s: {label}", flush=True)


def words():
    taken = words_of(__doc__, 3)
    taken.add_argument("--labels", default=1_000_000, type=int, help="registered labels")
    taken.add_argument("--asked", default=100_000, type=int, help="labels that are checked")
    taken.add_argument("--tables", nargs="+", metavar="FILE", default=[registered.GERMAN, *registered.RULESETS],
                       type=lambda path: pathlib.Path(path).resolve(), help="the tables")
    taken.add_argument("--registers", default=f"{SQLITE},{POSTGRESQL}", help="which are measured")
    return taken


if __name__ == "__main__":
    python = python_with("psycopg")
    if python and python != sys.executable:
        os.execv(python, [python, *sys.argv])
    sys.exit(measured(words(), measure))
