#!/usr/bin/env python3
"""Times the look for registered labels that collide: python3 bench/collisions.py

All times are of the processor, in the program and for it in the kernel, in seconds, and the least of some rounds, as in
bench.py. What the lines of the tables say:

    load        `idn2 --variants TABLE --among FILE` with an empty input, beside `LC_ALL=C sort -c` on the same file: random
                letters, labels like German words under tables/german.txt, and labels of Han characters with variants
                under tables/han.txt. `least` is bench/least_load.cpp, a program that keeps the lines, compares them,
                checks their UTF-8 and looks up each code point once, and tests no rule of a label.
                Resident memory beside what is wanted: that of a run with an empty file, the file, and 8 bytes a label
    search      what one label or all of them take beyond the load:
                one label with 2^62 variants among random letters, which may take no longer than the load
                one label among labels that each lie between two of its 2^30 variants, so with a jump for each; in
                microseconds a jump
                each of these words, or of these Han labels, asked for among all of them; and the same with --others, as
                an audit of a register does
                labels of each of tables/rulesets, among such labels; in microseconds a label
    jump        `idn2 --variants TABLE --jump`, in microseconds a jump: requests from a file, by the processor; and one at a
                time from a co-process, by the clock, with what Python takes for it

Before anything is timed, the answers for some labels are compared with the whole listings of the same program and the
file. `--labels 10000000` shows what ten million take. With `--instructions` callgrind counts those of a load, a label, and
of a jump.

To be installed (Debian's names), each left out with a word where it is missing: time for the memory, g++ for the least
work, valgrind for the instructions.
"""

import random
import subprocess
import sys
import time

import registered
from bench import HERE
from inputs import SEED, TABLE, write
from runs import ENVIRONMENT, Failed, Run, found, in_turn, measured, version, words_of

sys.path.append(str(HERE.parent / "conformance"))

from blocks import blocks_in
from jumps import Jumps, by_turns

# How often the load may take what sort takes, and how many bytes it may hold of a label beside the file.
LOAD_WANTED, BYTES_WANTED = 2, 8
# Microseconds of a jump and of a label under a ruleset, and seconds of a million labels among a million, and of those with
# --others.
JUMP_WANTED, LABEL_WANTED, ALL_WANTED, AUDIT_WANTED = 1, 100, 10, 5
# The most labels that are asked for, those whose answers are compared, and those of the jumps.
ASKED, COMPARED, JUMPS = 1_000_000, 1_000, 20_000
# The labels that callgrind is given.
COUNTED = 20_000


class Registered:
    """Registered labels in a file, the table or ruleset under which they are asked for, and some inputs."""

    def __init__(self, options, folder, name, table, labels, listing="--variants"):
        self.options, self.folder, self.name, self.table, self.labels = options, folder, name, table, labels
        self.listing = listing
        self.file = write(folder, name, labels)
        self.nothing = write(folder, "nothing", [])

    def run(self, source, file=None):
        words = [self.listing, str(self.table), "--among", str(file or self.file)]
        return Run(self.options.ours, words, source)

    def load(self):
        return self.run(self.nothing)

    def asking(self, labels):
        return self.run(write(self.folder, "asked", labels))

    def audit(self):
        """A run that compares the registered labels with one another."""
        words = [self.listing, str(self.table), "--among", str(self.file), "--others"]
        return Run(self.options.ours, words, self.file)

    def part(self, count):
        return Registered(self.options, self.folder, f"{self.name}, a part", self.table, self.labels[:count])


def sort_check(file, nothing):
    return Run(found("sort"), ["-c", str(file)], nothing, locale="C")


def least_load(folder):
    """The program that does the least work of a load, built into the folder; or nothing."""
    compiler = found("g++")
    if not compiler:
        print("\nleast work: no g++ here (Debian's package g++)")
        return None
    program = folder / "least_load"
    subprocess.run([compiler, "-O2", "-std=c++17", "-o", program, HERE / "least_load.cpp"], check=True)
    return program


# Answers.


def listed(ours, table, labels):
    """For each label the variants that the program lists."""
    given = "".join(label + "\n" for label in labels).encode()
    words = [ours, "--variants", table, "--tries", "1000000000"]
    return labels_in(subprocess.run(words, input=given, capture_output=True, env=ENVIRONMENT).stdout)


def labels_in(output):
    """For each label the labels of its block."""
    return [[label for label, *_ in block] for block, [] in blocks_in(output)]


def compare_answers(kept):
    """Of some labels: what the whole listings have of the file, which under these tables are the same from either side,
    what --among lists, and what jumps find."""
    asked = random.Random(SEED).sample(kept.labels, min(COMPARED, len(kept.labels)))
    known = set(kept.labels)
    wanted = [[each for each in variants if each in known] for variants in listed(kept.options.ours, kept.table, asked)]
    blocks = labels_in(kept.asking(asked).output().encode())
    turns = by_turns([kept.options.ours, "--variants", kept.table], asked, kept.labels)
    jumps = [[found for found, *_ in turns[label]] for label in asked]
    if not wanted == blocks == jumps or len(wanted) != len(asked):
        raise Failed(f"{kept.name}: the answers of listings, of --among and of --jump differ")
    return sum(map(len, wanted))


# The tables.


def cells(*texts):
    print(f"{texts[0]:<34}" + "".join(f"{text:>12}" for text in texts[1:]))


def show_loads(options, files, peer):
    print("\nload: seconds of the processor, and MiB of resident memory at the peak")
    cells("", "labels", "MB", "ours", "sort -c", "ratio", "wanted", "least", "MiB", "wanted")
    gnu_time = found("time")
    for kept in files:
        runs = [kept.load(), sort_check(kept.file, kept.nothing)]
        runs += [Run(peer, [str(kept.file)], kept.nothing)] if peer else []
        ours, sort, *others = in_turn(runs, options.rounds)
        size = kept.file.stat().st_size
        memory = ["-", "-"]
        if gnu_time:
            least = kept.run(kept.nothing, kept.nothing).kibibytes(gnu_time) / 1024
            wanted = least + (size + BYTES_WANTED * len(kept.labels)) / 2**20
            memory = [f"{kept.load().kibibytes(gnu_time) / 1024:.1f}", f"{wanted:.1f}"]
        cells(kept.name, f"{len(kept.labels):,}", f"{size / 1e6:.1f}", f"{ours.processor:.3f}", f"{sort.processor:.3f}",
              f"{ours.processor / sort.processor:.1f}", LOAD_WANTED, *[f"{it.processor:.3f}" for it in others] or ["-"], *memory)
    if not gnu_time:
        print("memory: no GNU time here (Debian's package time)")


def beyond_load(options, kept, asked):
    """Seconds of the load, and beyond it of an input."""
    load, all_of_it = in_turn([kept.load(), kept.asking(asked)], options.rounds)
    return load.processor, all_of_it.processor - load.processor


def show_searches(options, all_letters, between, asked_of_themselves):
    print("\nsearch: seconds of the processor beyond the load")
    cells("", "labels", "asked", "load", "search", "wanted")
    load, search = beyond_load(options, all_letters, ["a" * registered.MANY_PLACES])
    count = f"{len(all_letters.labels):,}"
    cells("one label with 2^62 variants", count, 1, f"{load:.3f}", f"{search:.3f}", f"{load:.3f}")
    for kept in asked_of_themselves:
        asked = kept.labels[:ASKED]
        load, search = beyond_load(options, kept, asked)
        counts = f"{len(kept.labels):,}", f"{len(asked):,}"
        cells(f"{kept.name}, each", *counts, f"{load:.3f}", f"{search:.3f}", ALL_WANTED)
        load, audit = in_turn([kept.load(), kept.audit()], options.rounds)
        search = audit.processor - load.processor
        cells(f"{kept.name}, --others", counts[0], counts[0], f"{load.processor:.3f}", f"{search:.3f}", AUDIT_WANTED)
    print("\njump: microseconds")
    cells("", "jumps", "", "", "a jump", "wanted")
    _, search = beyond_load(options, between, ["a" * registered.FEW_PLACES])
    count = len(between.labels)
    cells("a label between each two variants", f"{count:,}", "", "", f"{1e6 * search / count:.2f}", JUMP_WANTED)


def show_rulesets(options, folder):
    print("\nrulesets: microseconds beyond the load")
    cells("", "labels", "asked", "", "a label", "wanted")
    for path in registered.RULESETS:
        drawn = registered.Drawn(options.ours, path)
        labels = drawn.labels(options.labels)
        kept = Registered(options, folder, path.stem, path, labels, drawn.listing)
        asked = labels[:COMPARED]
        _, search = beyond_load(options, kept, asked)
        cells(path.stem, f"{len(labels):,}", f"{len(asked):,}", "", f"{1e6 * search / len(asked):.1f}", LABEL_WANTED)


def requests_of(kept):
    """Jumps of labels, each to another one: as many answers are found as not."""
    asked = random.Random(SEED).sample(kept.labels, min(JUMPS, len(kept.labels)))
    return list(zip(asked, asked[1:] + asked[:1]))


def show_jumps(options, files):
    for kept in files:
        requests = requests_of(kept)
        source = write(kept.folder, "requests", [f"{label}\t{text}" for label, text in requests])
        start, jumps = in_turn([Run(options.ours, ["--variants", str(kept.table), "--jump"], file)
                                for file in (kept.nothing, source)], options.rounds)
        cells(f"--jump, {kept.name}", f"{len(requests):,}", "", "",
              f"{1e6 * (jumps.processor - start.processor) / len(requests):.2f}", "-")
        with Jumps([options.ours, "--variants", kept.table], kept.folder) as process:
            begin = time.perf_counter()
            for request in requests:
                process.answers([request])
            taken = time.perf_counter() - begin
        cells(f"--jump, {kept.name}, one by one", f"{len(requests):,}", "", "", f"{1e6 * taken / len(requests):.2f}", "-")


def show_instructions(options, files, between):
    if not found("valgrind"):
        print("\ninstructions: no valgrind here (Debian's package valgrind)")
        return
    print("\ninstructions")
    cells("", "labels", "ours", "sort -c", "ratio")
    for kept in (kept.part(COUNTED) for kept in files):
        count = len(kept.labels)
        ours, without = kept.load().instructions(0), kept.run(kept.nothing, kept.nothing).instructions(0)
        sort, sort_without = (sort_check(file, kept.nothing).instructions(0) for file in (kept.file, kept.nothing))
        ours, sort = (ours - without) / count, (sort - sort_without) / count
        cells(f"load, {kept.name}, a label", f"{count:,}", f"{ours:,.0f}", f"{sort:,.0f}", f"{ours / sort:.1f}")
    kept = between.part(COUNTED)
    search = kept.asking(["a" * registered.FEW_PLACES])
    jumps = search.instructions(1) - kept.load().instructions(0)
    cells("a jump between each two variants", f"{COUNTED:,}", f"{jumps / len(kept.labels):,.0f}", "-", "-")


def words():
    taken = words_of("Times the look for registered labels among variants.", rounds=3)
    taken.add_argument("--labels", default=1_000_000, type=int, help="registered labels of each file")
    taken.add_argument("--instructions", action="store_true", help="count instructions too, by callgrind")
    return taken


def measure(options, folder):
    print("ours:    " + version(options.ours))
    print(f"least of {options.rounds} rounds, seed {SEED}", flush=True)
    make = lambda name, table, labels: Registered(options, folder, name, table, labels)
    two_letters = registered.two_letters(folder)
    words = make("German words", registered.GERMAN, registered.german_words(options.labels))
    han = make("Han labels", TABLE, registered.han_labels(options.labels))
    all_letters = make("random letters", two_letters, registered.letters(options.labels))
    between = make("between variants", two_letters, registered.between_variants(options.labels))
    for kept in (words, han):
        found_alike = compare_answers(kept)
        print(f"{kept.name}: {found_alike:,} collisions of some labels, by listings, --among and --jump alike", flush=True)
    show_loads(options, (all_letters, words, han), least_load(folder))
    show_searches(options, all_letters, between, (words, han))
    show_rulesets(options, folder)
    show_jumps(options, (words, han))
    if options.instructions:
        show_instructions(options, (all_letters, words, han), between)


if __name__ == "__main__":
    sys.exit(measured(words(), measure))
