"""Runs of programs: what they write, how long they take, and what memory they hold at most."""

import argparse
import contextlib
import dataclasses
import os
import pathlib
import re
import shutil
import subprocess
import tempfile
import time

OURS = pathlib.Path(__file__).resolve().parent.parent / "crates/idn2/out/idn2"
ENVIRONMENT = {"LC_ALL": "C.UTF-8", "PATH": "/usr/bin:/bin"}
# A listing that holds all labels in memory is to fail, and not to take that of the machine.
MEMORY_LIMIT_KIB = 1 << 20
SECONDS_LIMIT = 120


@dataclasses.dataclass
class Taken:
    """Seconds of the clock, and of the processor in the program and for it in the kernel."""

    wall: float
    processor: float


class Failed(Exception):
    """A run that did not end as it was to."""


class Run:
    """A program with its words, the file that it reads, and its locale."""

    def __init__(self, program, words, source, locale=ENVIRONMENT["LC_ALL"]):
        self.command, self.source = [str(program), *words], source
        self.environment = {**ENVIRONMENT, "LC_ALL": locale}

    def __str__(self):
        return f"{' '.join(self.command)} < {self.source.name}"

    def output(self):
        with self.source.open("rb") as source:
            done = subprocess.run(self.command, stdin=source, capture_output=True, env=self.environment)
        if done.returncode != 0 or done.stderr:
            raise Failed(f"{self}: status {done.returncode}, {done.stderr.decode(errors='replace').strip()}")
        return done.stdout.decode("utf-8")

    def taken(self):
        """One run, begun by posix_spawn, so that nothing of this process is copied."""
        actions = [
            (os.POSIX_SPAWN_OPEN, 0, str(self.source), os.O_RDONLY, 0),
            (os.POSIX_SPAWN_OPEN, 1, os.devnull, os.O_WRONLY, 0),
        ]
        start = time.perf_counter()
        process = os.posix_spawn(self.command[0], self.command, self.environment, file_actions=actions)
        _, status, usage = os.wait4(process, 0)
        wall = time.perf_counter() - start
        if status != 0:
            raise Failed(f"{self}: status {os.waitstatus_to_exitcode(status)}")
        return Taken(wall, usage.ru_utime + usage.ru_stime)

    def kibibytes(self, gnu_time):
        """The peak of resident memory. GNU time starts the program, since it is small itself."""
        limited = ["sh", "-c", f'ulimit -v {MEMORY_LIMIT_KIB}; exec "$@"', "sh", gnu_time, "-f", "%M", *self.command]
        with self.source.open("rb") as source:
            done = subprocess.run(limited, stdin=source, stdout=subprocess.DEVNULL, stderr=subprocess.PIPE,
                                  env=self.environment, timeout=SECONDS_LIMIT)
        if done.returncode != 0:
            raise Failed(f"status {done.returncode}, of at most {MEMORY_LIMIT_KIB >> 10:,} MiB")
        return int(done.stderr.split()[-1])

    def instructions(self, lines):
        """The instructions that callgrind counts for the first lines."""
        with self.source.open("rb") as source:
            first = b"".join(line for line, _ in zip(source, range(lines)))
        words = ["valgrind", "--tool=callgrind", "--callgrind-out-file=/dev/null", *self.command]
        done = subprocess.run(words, input=first, stdout=subprocess.DEVNULL, stderr=subprocess.PIPE, env=self.environment)
        if done.returncode != 0:
            raise Failed(f"{self} under callgrind: status {done.returncode}")
        return int(re.search(rb"Collected : (\d+)", done.stderr)[1])

    def instructions_a_line(self, lines, counted):
        """The same over `counted` lines of output, less those of the start."""
        return (self.instructions(lines) - self.instructions(0)) / counted


def in_turn(runs, rounds):
    """What each run takes: the least of all rounds, in each of which all run in turn."""
    rounds_of_each = [[] for _ in runs]
    for _ in range(rounds):
        for run, taken in zip(runs, rounds_of_each):
            taken.append(run.taken())
    return [
        Taken(min(one.wall for one in taken), min(one.processor for one in taken))
        for taken in rounds_of_each
    ]


@contextlib.contextmanager
def before_others():
    """Goes before what else the machine does, where that is allowed, and so does all that is started meanwhile."""
    before = os.getpriority(os.PRIO_PROCESS, 0)
    with contextlib.suppress(PermissionError):
        os.setpriority(os.PRIO_PROCESS, 0, -20)
    yield
    os.setpriority(os.PRIO_PROCESS, 0, before)


def children(process):
    """The processes that a process has started."""
    found = []
    for task in os.listdir(f"/proc/{process}/task"):
        found += map(int, pathlib.Path(f"/proc/{process}/task/{task}/children").read_text("ascii").split())
    return found


def found(program):
    return shutil.which(program, path="/usr/bin:/bin:/usr/local/bin")


def version(program):
    done = subprocess.run([program, "--version"], capture_output=True, text=True, env=ENVIRONMENT, check=True)
    return done.stdout.split("\n")[0]


def words_of(purpose, rounds):
    """The words that each measurement takes."""
    words = argparse.ArgumentParser(description=purpose)
    words.add_argument("--ours", default=OURS, type=pathlib.Path, help="our program")
    words.add_argument("--rounds", default=rounds, type=int, help="rounds of which the least times are taken")
    return words


def measured(words, measure):
    """Measures by these words in a folder of its own, and gives what the process is to end with: why it failed, if it did."""
    options = words.parse_args()
    try:
        if not options.ours.exists():
            raise Failed(f"{options.ours} is not there: run make first, or name our program by --ours")
        with tempfile.TemporaryDirectory() as folder:
            measure(options, pathlib.Path(folder))
    except Failed as failure:
        return str(failure)
