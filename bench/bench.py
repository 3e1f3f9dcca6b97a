#!/usr/bin/env python3
"""Times this repository's idn2 beside libidn2: python3 bench/bench.py

Both programs are given the same files on their standard input, in turn, for some rounds, and write to /dev/null. Each
time is the least of all rounds, since other work on a machine only adds to it, and the more the faster a program is:
that of the processor, in the program and for it in the kernel, and that of the clock. Ratios are libidn2's time over
ours, so above 1 is in our favour; beside that of processor time stands the one that is wanted. What each line of the
table compares:

    lookup, mixed names   `idn2 -l -N` of both, names of two or three labels in 17 scripts, a part with capitals
    lookup, ASCII names   `idn2 -l -N` of both, names of letters, digits and hyphens, a part with capitals; ten times
                          as many lines as elsewhere, so that the start of a process counts for little
    register              `idn2 -r` of both, one label a line. Every label has a code point past ASCII, since libidn2
                          copies an ASCII label without any test
    decode                `idn2 -d` of both, names with A-labels. Ours also tests each decoded label by the rules for
                          registration, libidn2 decodes alone
    listing               ours lists the variants of labels under tables/han.txt, 2^8 to 3^9 of each label; the peer is
                          bench/listing_peer.cpp, a program over libidn2 that makes all spellings of a label by an index
                          of the table, puts them in order, and tests and encodes each
    start                 `idn2 -l` of both with an empty input
    objects               ours alone: each of the modes before, labels in ASCII and A-labels that are registered, registered
                          labels and jumps under tables/han.txt, with `--json`, with `--explain` and without, side by side
                          in one run. Wanted are objects at least half as fast as lines
    memory                the peak of resident memory: of `idn2 -l -N` on few and on all mixed names; and of a listing
                          of ten and of a million of the 2^62 variants of a label, where the peer can do neither

Before anything is timed the answers are compared, and they must be the same. libidn2's idn2 ends at the first line
that it refuses, so every line is one that both accept. With `--instructions` callgrind counts the instructions a line
too, less those of the start, also with `--explain` and with `--json`, beside which stands again how fast objects are, of the
speed of lines; of a listing, those of a variant.

To be installed (Debian's names), each left out with a word where it is missing: idn2 for the comparison, g++ and
libidn2-dev for the peer, time for the memory, valgrind for the instructions.
"""

import dataclasses
import itertools
import pathlib
import subprocess
import sys

import registered
from inputs import SEED, TABLE, write, write_inputs
from runs import Failed, Run, found, in_turn, measured, version, words_of

HERE = pathlib.Path(__file__).resolve().parent
# Lines that callgrind is given of each input, since it takes fifty times as long. The input of the listing has
# fewer, up to half a million variants.
LINES_COUNTED = 2_000
# How fast objects are wanted, of the speed of lines.
OBJECTS_WANTED = 0.5
# The options with which each line says more.
MORE = ("--explain", "--json")


@dataclasses.dataclass
class Row:
    """A line of the table: a run of ours, one of theirs if there is one, and the least ratio that is wanted."""

    name: str
    ours: Run
    theirs: Run | None
    wanted: float

    def runs(self):
        return [run for run in (self.ours, self.theirs) if run]


def peer(folder):
    """The program that lists variants over libidn2, built into the folder; or nothing, and why."""
    compiler = found("g++")
    if not compiler:
        return None, "no g++ here (Debian's package g++)"
    program = folder / "listing_peer"
    words = [compiler, "-O2", "-std=c++17", "-o", program, HERE / "listing_peer.cpp", "-lidn2"]
    done = subprocess.run(words, capture_output=True, text=True)
    if done.returncode != 0:
        return None, "it does not build (Debian's package libidn2-dev)"
    return program, None


def rows_of(options, files, listing_peer):
    def row(name, words, source, wanted):
        theirs = Run(options.theirs, words, files[source]) if options.theirs else None
        return Row(name, Run(options.ours, words, files[source]), theirs, wanted)

    listed = listing_peer and Run(listing_peer, [str(TABLE)], files["sources"])
    return {
        "mixed": row("lookup, mixed names", ["-l", "-N"], "mixed", 25),
        "ascii": row("lookup, ASCII names", ["-l", "-N"], "ascii", 80),
        "labels": row("register", ["-r"], "labels", 7),
        "coded": row("decode", ["-d"], "coded", 4),
        "sources": Row("listing", Run(options.ours, ["--variants", str(TABLE)], files["sources"]), listed, 6),
        "nothing": row("start", ["-l"], "nothing", 1),
    }


def rows_of_ours(options, folder, files, lines):
    """What is compared with nothing but its own objects."""
    labels = registered.han_labels(lines // 10)
    kept = write(folder, "registered", labels)
    requests = write(folder, "requests", [f"{label}\t{text}" for label, text in zip(labels, labels[1:] + labels[:1])])
    listing = ["--variants", str(TABLE)]
    return [
        Row("register, ASCII", Run(options.ours, ["-r"], files["ascii-labels"]), None, 0),
        Row("register, A-labels", Run(options.ours, ["-r"], files["a-labels"]), None, 0),
        Row("registered labels", Run(options.ours, [*listing, "--among", str(kept)], kept), None, 0),
        Row("jump", Run(options.ours, [*listing, "--jump"], requests), None, 0),
    ]


def with_option(run, option):
    program, *words = run.command
    return Run(program, [option, *words], run.source)


def without_trailers(text):
    return "".join(line for line in text.splitlines(keepends=True) if not line.startswith("#"))


def compare_answers(rows):
    for row in rows.values():
        mine = without_trailers(row.ours.output())
        other = row.theirs.output() if row.theirs else mine
        if mine != other:
            lines = itertools.zip_longest(mine.splitlines(), other.splitlines())
            first = next((a, b) for a, b in lines if a != b)
            raise Failed(f"{row.name}: the answers differ, first {first[0]} and {first[1]}")


# The table.


def cells(*texts):
    print(f"{texts[0]:<22}" + "".join(f"{text:>13}" for text in texts[1:]))


def show_times(options, rows, counts):
    print("milliseconds of processor, and of the clock")
    cells("", "lines", "ours", "libidn2", "ratio", "wanted", "ours, clock", "theirs", "ratio")
    for source, row in rows.items():
        rounds = options.starts if source == "nothing" else options.rounds
        ours, *theirs = in_turn(row.runs(), rounds)
        processor = ours_and_theirs(ours.processor, [taken.processor for taken in theirs])
        wall = ours_and_theirs(ours.wall, [taken.wall for taken in theirs])
        cells(row.name, f"{counts.get(source, 0):,}", *processor, f"{row.wanted}", *wall)


def ours_and_theirs(ours, theirs):
    """Both times in milliseconds, and their ratio."""
    if not theirs:
        return f"{1000 * ours:,.2f}", "-", "-"
    return f"{1000 * ours:,.2f}", f"{1000 * theirs[0]:,.2f}", f"{theirs[0] / ours:.1f}"


def show_objects(options, rows):
    print("\nmilliseconds of processor: lines, lines with --explain, and objects (--json)")
    cells("", "lines", "explained", "objects", "ratio", "wanted")
    for row in rows:
        plain, explained, objects = in_turn([row.ours, *(with_option(row.ours, option) for option in MORE)], options.rounds)
        ratio = plain.processor / objects.processor
        cells(row.name, *(f"{1000 * taken.processor:,.2f}" for taken in (plain, explained, objects)), f"{ratio:.2f}", OBJECTS_WANTED)


def show_memory(options, files, counts):
    gnu_time = found("time")
    if not gnu_time:
        print("\nmemory: no GNU time here (Debian's package time)")
        return
    print("\nMiB of resident memory at the peak")
    cells("", "lines", "ours", "libidn2")
    for source in ("few", "mixed"):
        programs = [options.ours, *([options.theirs] if options.theirs else [])]
        peaks = [Run(program, ["-l", "-N"], files[source]).kibibytes(gnu_time) for program in programs]
        cells("lookup, mixed names", f"{counts[source]:,}", *[f"{peak / 1024:.2f}" for peak in peaks])
    for limit in (10, 1_000_000):
        words = ["--variants", str(files["table"]), "--limit", str(limit)]
        show_peak_of_listing(Run(options.ours, words, files["label"]), limit, gnu_time)


def show_peak_of_listing(run, limit, gnu_time):
    try:
        cells("listing of 2^62", f"{limit:,}", f"{run.kibibytes(gnu_time) / 1024:.2f}", "-")
    except (Failed, subprocess.TimeoutExpired) as failure:
        cells("listing of 2^62", f"{limit:,}", "failed", "-", f"  {failure}")


def show_instructions(rows, counts):
    if not found("valgrind"):
        print("\ninstructions: no valgrind here (Debian's package valgrind)")
        return
    print("\ninstructions a line, less those of the start")
    cells("", "ours", *MORE, "of a line", "wanted", "libidn2", "ratio")
    for source, row in rows.items():
        counted = counts[source] if source == "sources" else LINES_COUNTED
        runs = [row.ours, *(with_option(row.ours, option) for option in MORE), *row.runs()[1:]]
        ours, explained, objects, *theirs = (run.instructions_a_line(LINES_COUNTED, counted) for run in runs)
        beside = [f"{theirs[0]:,.0f}", f"{theirs[0] / ours:.1f}"] if theirs else ["-", "-"]
        figures = [f"{figure:,.0f}" for figure in (ours, explained, objects)]
        cells(row.name, *figures, f"{ours / objects:.2f}", OBJECTS_WANTED, *beside)


def words():
    taken = words_of("Times our idn2 beside libidn2's.", rounds=9)
    taken.add_argument("--theirs", default=found("idn2"), help="libidn2's program")
    taken.add_argument("--lines", default=100_000, type=int, help="lines of each input, but of ASCII ten times as many")
    taken.add_argument("--starts", default=101, type=int, help="rounds of a start")
    taken.add_argument("--instructions", action="store_true", help="count instructions too, by callgrind")
    return taken


def measure(options, folder):
    files, counts = write_inputs(folder, options.lines)
    print("ours:    " + version(options.ours))
    # A program that is installed under this name may be our own.
    if not options.theirs or "Libidn2" not in version(options.theirs):
        options.theirs = None
    print("libidn2: " + (version(options.theirs) if options.theirs else "not there (Debian's package idn2); ours alone"))
    listing_peer, reason = peer(folder)
    if reason:
        print("listing: without the peer over libidn2, " + reason)
    print(f"least of {options.rounds} rounds, {options.starts} of the start, seed {SEED}\n")
    rows = rows_of(options, files, listing_peer)
    compare_answers(rows)
    show_times(options, rows, counts)
    answering = {source: row for source, row in rows.items() if source != "nothing"}
    answering.update((row.name, row) for row in rows_of_ours(options, folder, files, options.lines))
    show_objects(options, answering.values())
    show_memory(options, files, counts)
    if options.instructions:
        show_instructions(answering, counts)


if __name__ == "__main__":
    sys.exit(measured(words(), measure))
