#!/usr/bin/env python3
"""Compares the built program with a reference implementation of its rules on random input: python3 conformance/fuzz.py

It draws words, tables, labels, registered labels, names and bytes from a seed, which it prints, until the given number
of seconds is over. Each run's output, messages and status must be those of reference_run.py, byte for byte, in half of the
runs with `--standard`, and in half with the causes that causes.py tells. Those are run once more with `--json`: each
line must be what Python's json prints of the object that it reads there, and the objects must say the same
(objects.py). Names for lookup are compared with libidn2's answers, whose known kinds of difference are in kinds.py, and
with what is said of them with `--explain` and with `--json`, the cause of a wrong length included. Status 1 where
anything differs.
"""

import argparse
import collections
import pathlib
import random
import re
import resource
import subprocess
import sys
import tempfile
import time
import unicodedata

from compare import options_of, our_answers

import drawn_rulesets
import kinds
import names
import old_labels
from causes import BAD_LENGTH, INVALID, Causes
from drawn_rulesets import DrawnRuleset, spelled
from idn2_registry.unicode_data import Classes, version
from libidn2 import LibIdn2
from objects import Wrong, as_explained, without_what_objects_leave_out
from reference_run import LINE_LIMIT, PRINT, TEXTS, Bad, Options, Reference, Show, Unknown, bodies, explains
from registration import EMPTY, LABEL_TOO_LONG, a_label
from rules import UnicodeProperties

SHOWN = 400
# The most memory of the program, in bytes: one that takes more answers 70, which is told as a difference.
MEMORY = 1 << 30
# The texts of refusals at a lookup.
LOOKUP_TEXTS = {EMPTY: TEXTS[EMPTY], INVALID: "not a valid name", BAD_LENGTH: "name or label length"}
# What UTS #46 takes for a full stop.
FULL_STOPS = "[.\u3002\uff0e\uff61]"
# What the tables are made of: small alphabets, so that sources, variants and labels meet each other.
ALPHABETS = ("ab", "sß", "abß-", "a-", "ab\u0301", "qa\u0301", "\u05d0\u05d1a", "\u0627\u0660\u06f0", "中国國", "lа·l",
             "\u0915\u094d\u200d", "\u0627\u200c\u0647a", "àa\u0300", "0a9\u05d0", "\U00020000中\U00020001",
             # What the profile and Unicode tell apart: scripts left out, signs, marks, joining letters and viramas.
             "\U0001e922\U0001e94b\u200ca", "\U00010d00\U00010d300\u0660", "\u05d0\u02c6\u0cbfa", "\u0712\u200c\u1820",
             "\u1000\u1039\u200d")
PIECES = [b"a", b"b", b".", b"-", b"--", b"xn--", b"XN--", b"\0", b"\r", b"\r\n", b"\n", b"\xff", b"\xc3", b"\xed\xa0\x80",
          b"\xf4\x90\x80\x80", b"\xc0\x80", "ß".encode(), "\u0301".encode(), "\U00010ffff".encode(), b"a" * 62, b"b" * 1000]
WORDS = ["-l", "--lookup", "-r", "--register", "-d", "--decode", "-N", "--tr46nt", "--quiet", "--usestd3asciirules",
         "--explain", "--standard",
         "-h", "--help", "-V", "--version", "--variants", "--check-table", "--ruleset", "--check-ruleset", "--print-ruleset", "--after", "--limit", "--tries", "--steps", "--",
         "--among", "--among=registered", "--among=absent", "--among=table", "--others", "--old", "--jump", "--jump=1", "registered",
         "-", "-rN", "-lr", "-hx", "-xh", "-r=1", "--register=1", "--bogus", "--after=", "--after=-a", "--limit=1",
         "--limit=0", "--tries=2", "--tries=0000000002", "--steps=1", "--steps=2", "--steps=0000000000000000003",
         "--steps=00000000000000000004", "--steps=1000000000000000000", "--steps=1000000000000000001", "--limit=00000000001", "--limit=+1", "--limit= 1", "table", "absent",
         "", "a", "aß", "1", "2", "1000000000", "1000000001", "--variants=table", "--check-table=table",
         "--ruleset=table", "--check-ruleset=table", "--print-ruleset=table", "a\nb"]


LIMITS = ("1", "2", "3", "7")
MOST_PAGES = 12
# Where ranges begin: the three code points after each are letters or digits, too.
RANGES = (0x30, 0x61, 0x62, 0x6B, 0xDF, 0x0430, 0x05D0, 0x0627, 0x0660, 0x06F0, 0x4E2D, 0x56FD)
# No line for version 1. Rulesets, which say the most, are drawn twice as often as tables of the other versions.
VERSION_LINES = ((), ("%version 2",), ("%version 3",), ("%version 3",))
RULESET = b"%version 3"
FAULTY_LINES = ("0061|", "0041", "0061-0061-0061|0061-0061-0061", "%version 2", "%version 3", "%", "0063..0061", "!0061|0062",
                "0061..0063|0064", "0061|0062..0063", "0061-0062..0063", "0061...0063", "0061. .0063", "0061..D800",
                "005A..0061", "D7FF..E000", "4E00..5E00", "4E00..5DFF", "0061|!!0062", "0061|!", "0061|0062:!0062",
                "0061|!0061", "0061|!0041", "0061..0063", "0061|!0062", "\ufeff0061", *drawn_rulesets.FAULTY_LINES)


class Fuzz:
    def __init__(self, program, chance, folder):
        self.program, self.chance, self.folder = program, chance, pathlib.Path(folder)
        self.classes, known = Classes(), UnicodeProperties()
        self.points = names.Points(self.classes, known)
        self.library = LibIdn2()
        self.facts = kinds.Facts(self.classes, known, self.library)
        self.second = Reference.of(self.classes)
        self.choose_properties()
        self.counts = collections.Counter()

    def choose_properties(self):
        """The profile or the standards alone, for all runs of a comparison."""
        self.choice, rules = self.chance.choice((([], self.second.by_profile), (["--standard"], self.second.by_standard)))
        self.registration = rules.registration

    def once(self):
        """One comparison. Answers what differs, or None."""
        self.choose_properties()
        kind, make = self.chance.choice((
            ("register", self.register), ("decode", self.decode), ("old labels of a zone", self.decode_old), ("lookup", self.lookup), ("variants", self.variants),
            ("variants", self.variants), ("check of a table", self.check_table), ("words", self.words),
            ("variants among registered labels", self.among), ("variants among registered labels", self.among),
            ("jump", self.jump), ("pages of a listing", self.pages), ("lengths of names", self.lengths)))
        difference = make()
        if difference is not Unknown:
            self.counts[kind] += 1
            return difference
        self.counts["not known to the reference implementation"] += 1
        return None

    def compare(self, words, given, **files):
        """One run, with the files of these names."""
        words = [*self.choice, *self.chance.choice((words, ["--explain", *words]))]
        for name, text in files.items():
            (self.folder / name).write_bytes(text)
        try:
            wanted = self.second.answer(words, given, files)
        except Unknown:
            return Unknown
        found = self.run(words, given)
        if is_as_wanted(found, wanted):
            if not explains(words) or any(word.startswith(PRINT) for word in words):
                return None
            wanted = wanted[0], wanted[1] and without_what_objects_leave_out(wanted[1]), wanted[2]
            words = ["--json", *words]
            found = self.run_for_objects(words, given)
            if is_as_wanted(found, wanted):
                return None
        shown = "".join(f"{name} {text[:SHOWN]!r}, " for name, text in files.items())
        return (f"words {words}, {shown}input {given[:SHOWN]!r}\n"
                f"  answered {cut(found)}\n  expected {cut(wanted)}")

    def run(self, words, given):
        done = subprocess.run([self.program, *words], input=given, capture_output=True, cwd=self.folder,
                              preexec_fn=lambda: resource.setrlimit(resource.RLIMIT_AS, (MEMORY, MEMORY)))
        return done.stdout, done.stderr, done.returncode

    def run_for_objects(self, words, given):
        """What a run that answers by objects says, in the words of one that explains."""
        output, ending, status = self.run(words, given)
        try:
            strings = Options([word for word in words if word != "--json"]).strings
            given = "".join(string + "\n" for string in strings).encode() if strings else given
            answers, messages = as_explained(output, list(bodies(given)), "--others" in words)
        except (Bad, Show):
            answers, messages = output, b""
        except (Wrong, ValueError, LookupError) as fault:
            return repr(fault).encode(), output, status
        return answers, messages + ending, status

    def register(self):
        return self.compare(["-r"], self.lines(lambda: self.chance.choice(
            (*names.MAKERS, names.coded_label))(self.chance, self.points)))

    def decode_old(self):
        """Labels of a zone, of which some are old, and others in capitals."""
        makers = (*names.MAKERS, names.coded_label)
        drawn = lambda: self.chance.choice(makers)(self.chance, self.points)
        made = lambda label: self.chance.choice((label, label, label.upper(), old_labels.name_of(label)))
        return self.compare(["-d", "--old"], self.lines(lambda: made(drawn())))

    def decode(self):
        return self.compare(["-d"], self.lines(lambda: names.coded_label(self.chance, self.points) + self.chance.choice(
            ("", ".", ".de", ".0a", ".a-", ".\u05d0", "." + names.coded_label(self.chance, self.points)))))

    def lookup(self):
        name = self.chance.choice((*names.MAKERS, names.coded_label))(self.chance, self.points)
        name += self.chance.choice(("", ".", ".De", ".\u05d0", "." + names.script_label(self.chance, self.points)))
        if any(letter in name for letter in names.NOT_IN_A_LINE):
            return Unknown
        (ours, refusal), = our_answers(self.program, ["-l", *self.choice], [name])
        (strict, strict_refusal), = our_answers(self.program, ["-l", "--usestd3asciirules"], [name])
        if not obeys(name, (ours, refusal), (strict, strict_refusal)):
            return f"lookup {name!r}: {ours}, {refusal}, and by the rules for ASCII {strict}, {strict_refusal}"
        case = kinds.Case(name, ours, refusal, *self.library.lookup(name))
        if not case.differs() or any(kind.explains(self.facts, case) for kind in kinds.LOOKUP):
            return self.forms(name, ours, refusal)
        return f"lookup {name!r}: {case}"

    def lengths(self):
        """Names with labels of lengths around the limits, and around that of a name."""
        letters = self.chance.choice(("a", "A", "ä", "中"))
        lengths = self.chance.choice(((0, 1, 2, 62, 63, 64, 65), (63, 63, 63, 59, 60, 61, 62), (1, 1, 2)))
        full_stop = self.chance.choice((".", ".", ".", "\u3002"))
        labels = [letters * self.chance.choice(lengths) for _ in range(self.chance.choice((1, 2, 3, 4, 4, 5, 8, 85, 126, 127, 128)))]
        name = full_stop.join(labels) + self.chance.choice(("", "", full_stop, 2 * full_stop))
        if not name or len(name.encode()) > LINE_LIMIT:
            return Unknown
        (ours, refusal), = our_answers(self.program, ["-l"], [name])
        query = self.query_of(name)
        wanted = (None, BAD_LENGTH) if Causes.of_length(query) else (query, None)
        if (ours, refusal) != wanted:
            return f"lookup {name!r}: {ours}, {refusal}, expected {wanted}"
        return self.forms(name, ours, refusal)

    def query_of(self, name):
        """The name as a query has it, where it has nothing but letters and digits of ASCII, hyphens, and labels that may be
        registered but for their length; else None."""
        labels = re.split(FULL_STOPS, name)
        registration = self.second.by_profile.registration
        for place, label in enumerate(labels):
            if re.fullmatch("[A-Za-z0-9-]*", label) and not label.lower().startswith("xn--"):
                labels[place] = label.lower()
            elif registration.knows(label) and registration.first_fault(label) in (None, LABEL_TOO_LONG):
                labels[place] = a_label(label)
            else:
                return None
        return ".".join(labels)

    def forms(self, name, ours, refusal):
        """With `--explain` and with `--json` the same is said of a name for lookup, and of a wrong length the cause: which one, where
        the query is known."""
        given = name.encode() + b"\n"
        found = self.run(["-l", "--explain"], given)
        query, messages = self.query_of(name), b""
        if refusal is not None:
            head = f"idn2: line 1: {refusal} {LOOKUP_TEXTS[refusal]}"
            cause = "" if refusal != BAD_LENGTH else ": " + Causes.of_length(query) if query else found[1].decode()[len(head):-1]
            if refusal == BAD_LENGTH and not re.fullmatch(r": (label [1-9]\d*: (0|\d{2,4}) octets|name of \d{3,4} octets)", cause):
                return f"lookup {name!r}: {cut(found)}, which has no cause"
            messages = f"{head}{cause}\n".encode()
        wanted = b"" if ours is None else ours.encode() + b"\n", messages, 0 if refusal is None else 1
        as_objects = wanted[0], without_what_objects_leave_out(messages), wanted[2]
        of_objects = self.run_for_objects(["--json", "-l"], given)
        for words, said, wanted in ((["-l", "--explain"], found, wanted), (["--json", "-l"], of_objects, as_objects)):
            if said != wanted:
                return f"words {words}, input {given!r}\n  answered {cut(said)}\n  expected {cut(wanted)}"
        return None

    def lines(self, text):
        """Some lines, of which a few have a damaged place."""
        lines = []
        for _ in range(self.chance.randint(1, 12)):
            line = text().encode()
            if self.chance.random() < 0.2:
                place = self.chance.randrange(len(line) + 1)
                line = line[:place] + self.chance.choice(PIECES) + line[place:]
            lines.append(line)
        return b"\n".join(lines) + self.chance.choice((b"", b"\n", b"\r\n"))

    def sequence(self, letters, longest=3):
        return "".join(self.chance.choices(letters, k=self.chance.choice((1, 1, 1, 2, longest))))

    def table(self, letters):
        """The text of a table or a ruleset, and the variants of each source. Now and then it has a fault. Most often none of the sources
        is invalid, so that labels may be made of them."""
        entries = self.entries(letters)
        lines = list(self.chance.choice(VERSION_LINES))
        if lines == [RULESET.decode()]:
            lines, entries = self.ruleset(letters, entries)
        else:
            self.add_entries(lines, entries)
        if self.chance.random() < 0.05:
            lines.insert(self.chance.randint(0, len(lines)), self.chance.choice((*FAULTY_LINES, lines[-1])))
        return self.chance.choice(("\n", "\n", "\r\n")).join(lines).encode(), entries

    def entries(self, letters):
        entries = {}
        for _ in range(self.chance.randint(1, 6)):
            source = self.sequence(letters)
            variants = {self.sequence(letters) for _ in range(self.chance.choice((0, 1, 1, 2, 3)))} - {source}
            if source not in entries:
                entries[source] = sorted(variants, key=lambda _: self.chance.random())
        return entries

    def add_entries(self, lines, entries):
        """Puts entries into the lines of a table; of version 2 they have marks, and at times there is a range among them."""
        marks = ("", "!", "! ") if lines else ("",)
        for source, variants in list(entries.items()):
            marked = ":".join(self.chance.choice(marks) + spelled(variant) for variant in variants)
            lines.append(spelled(source) + ("|" if variants else "") + marked)
        if len(marks) > 1 and self.chance.random() < 0.5:
            entries.update(dict.fromkeys(self.range(entries, lines, str), ()))

    def ruleset(self, letters, entries):
        """The lines of a ruleset, and the variants of its sources, most often without those of the type invalid."""
        invalid = {source for source in list(entries)[1:] if self.chance.random() < 0.3}
        drawn = DrawnRuleset(self.chance, letters, entries, invalid)
        lines = [RULESET.decode(), *drawn.lines]
        if self.chance.random() < 0.3:
            is_invalid = self.chance.random() < 0.3
            sources = self.range(entries, lines, lambda text: drawn.source(text, is_invalid))
            entries.update({} if is_invalid else dict.fromkeys(sources, ()))
        if self.chance.random() < 0.05:
            first = lines.pop(self.chance.randrange(len(lines)))
            lines.insert(self.chance.randint(0, len(lines)), first)
        if self.chance.random() < 0.9:
            entries = {source: variants for source, variants in entries.items() if source not in invalid}
        return lines, entries

    def range(self, entries, lines, marked):
        """Puts a range without any of the sources after the lines, as `marked` writes it, and answers its sources."""
        first = self.chance.choice(RANGES)
        last = first + self.chance.randint(0, 3)
        sources = [chr(point) for point in range(first, last + 1)]
        if any(source in entries for source in sources):
            return []
        space = self.chance.choice(("", "", " ", "\t"))
        lines.append(marked(f"{first:04X}{space}..{space}{last:04X}"))
        return sources

    def variants(self):
        letters = self.chance.choice(ALPHABETS)
        table, entries = self.table(letters)
        starts = [self.sequence(letters, 6) for _ in range(3)]
        options = {"--limit=": LIMITS, "--tries=": ("1", "2", "5", "40"), "--steps=": ("2", "3", "4", "6", "9", "30"), "--after=": starts}
        words = [listing_of(table), "table", *self.some_of(options)]
        longest = self.chance.choice((3, 5, 8, 8, 70))
        return self.compare(words, self.lines(lambda: "".join(self.sources(entries, longest))), table=table)

    def pages(self):
        """A listing page by page, each of which goes on after the last line of the one before."""
        letters = self.chance.choice(ALPHABETS)
        table, entries = self.table(letters)
        label = "".join(self.requested(entries))
        words, given = [listing_of(table), "table", "--limit=" + self.chance.choice(LIMITS)], label.encode() + b"\n"
        after = []
        for _ in range(MOST_PAGES):
            difference = self.compare([*words, *after], given, table=table)
            if difference is not None:
                return difference
            answer = self.second.answer([*self.choice, *words, *after], given, {"table": table})
            stop = re.search(r"^#stop \d+ (.+)\n\Z", answer[0].decode(), re.MULTILINE)
            if not stop:
                break
            after = ["--after=" + stop.group(1)]
        return None

    def some_of(self, values):
        """Some of the options, each with one of its values."""
        return [name + self.chance.choice(values[name]) for name in values if self.chance.random() < 0.4]

    def sources(self, entries, longest):
        """Some sources of a table, one after the other: what a label is made of."""
        return self.chance.choices(list(entries), k=self.chance.randint(1, longest))

    def requested(self, entries):
        """The sources of a label, which of some that are drawn is one that may be registered, if there is one."""
        drawn = [self.sources_of_any_length(entries) for _ in range(5)]
        return next((sources for sources in drawn if self.may_be_registered("".join(sources))), drawn[0])

    def sources_of_any_length(self, entries):
        """At times of 63 code points, of which most have no variants, so that they spell few labels."""
        if self.chance.random() < 0.7:
            return self.sources(entries, self.chance.choice((3, 5, 8, 8, 70)))
        sources = self.sources(entries, 5)
        single = [source for source in entries if not entries[source]] or list(entries)
        return sources + [self.chance.choice(single)] * (63 - len("".join(sources)))

    def may_be_registered(self, label):
        return self.registration.knows(label) and self.registration.first_fault(label) is None

    def among(self):
        """Labels among registered labels: mostly such as collide with these, whichever has the other as a variant, and
        their neighbours."""
        letters = self.chance.choice(ALPHABETS)
        table, entries = self.table(letters)
        labels = [self.requested(entries) for _ in range(self.chance.randint(1, 4))]
        near = [self.near(entries, letters, self.chance.choice(labels)) for _ in range(self.chance.randint(0, 20))]
        starts = [self.sequence(letters, 6), *near, *(each + letters[0] * 64 for each in near)]
        words = [listing_of(table), "table", "--among", "registered", *self.some_of({"--limit=": LIMITS, "--after=": starts}),
                 *self.chance.choice(([], [], ["--others"]))]
        given = self.lines(lambda: "".join(self.chance.choice(labels)))
        return self.compare(words, given, table=table, registered=self.registered(near))

    def jump(self):
        """Jumps to what is near a label, to its neighbours, to texts longer than labels, and to anything else."""
        letters = self.chance.choice(ALPHABETS)
        table, entries = self.table(letters)

        def request():
            sources = self.requested(entries)
            near = self.near(entries, letters, sources)
            text = self.chance.choice((near, near, near + letters[0] * 64, self.sequence(letters, 6),
                                       self.sequence(letters, 80) + "\t" + self.sequence(letters), ""))
            return "".join(sources) + self.chance.choice(("\t", "\t", "\t", "\t", "\t\t", "")) + text

        return self.compare([listing_of(table), "table", "--jump"], self.lines(request), table=table)

    def near(self, entries, letters, sources):
        """A label that may collide with that of the sources, or a neighbour of it."""
        label = "".join(self.chance.choice(partners_of(source, entries)) for source in sources)
        if self.chance.random() < 0.6:
            return label
        start = self.chance.randrange(len(label) + 1)
        end = start + self.chance.choice((0, 0, 1, 1, 70))
        put = self.chance.choice(("", self.chance.choice(letters), chr(self.chance.randint(0x61, 0x7A))))
        return label[:start] + put + label[end:]

    def registered(self, labels):
        """The text of a file of these labels, those of them that may be registered, and old ones. Now and then it has a
        fault."""
        lines = [line.encode() for line in map(self.registered_line, sorted(set(labels))) if line is not None]
        if self.chance.random() < 0.15:
            place = self.chance.randint(0, len(lines))
            faulty = (b"", b"i" * 1025, b"i" * 64, b"xn--fa-hia", b"A", self.chance.choice(PIECES))
            lines.insert(place, self.chance.choice((*faulty, *lines, *lines[place - 1:place])))
        ending = self.chance.choice((b"\n", b"\n", b"\n", b"\r\n"))
        return ending.join(lines) + (self.chance.choice((b"", ending)) if lines else b"")

    def registered_line(self, label):
        """The line of a label in a file of registered labels, at times with a mark that it needn't have; None if it can't
        stand there."""
        is_old = old_labels.old_fault(label) is None
        if self.may_be_registered(label):
            return label + self.chance.choice(("", "", "", old_labels.MARK if is_old else ""))
        return label + old_labels.MARK if is_old else None

    def check_table(self):
        table, _ = self.table(self.chance.choice(ALPHABETS))
        if self.chance.random() < 0.5:
            place = self.chance.randrange(len(table) + 1)
            damage = self.chance.choice((b"|", b"-", b":", b" ", b"\t", b"#", b"\n", b"\r\n", b"U+", b"0", b"\0", b"\xff", b".",
                                         b"..", b"!", b"%"))
            table = table[:place] + damage + table[place + self.chance.randint(0, 1):]
        check = self.chance.choice(("--check-ruleset", PRINT)) if table.startswith(RULESET) else "--check-table"
        return self.compare([check, "table"], b"", table=table)

    def words(self):
        words = self.chance.choice(([], ["--variants", "table"], ["--ruleset", "table"]))
        words = words + self.chance.choices(WORDS, k=self.chance.randint(0, 6))
        table, _ = self.table("ab")
        registered = self.registered([self.sequence("ab") for _ in range(4)])
        given = self.lines(lambda: self.chance.choice(("ab", "ab\tb")))
        return self.compare(words, given, table=table, registered=registered)


def partners_of(source, entries):
    """What may stand for a source in a label that collides: itself, its variants, and the sources that have it."""
    return [source, *entries[source], *(other for other, variants in entries.items() if source in variants)]


def is_as_wanted(found, wanted):
    """Whether a run's output, messages and status are those of the reference implementation, which of help and of the version knows only
    that something is shown."""
    return found == wanted or (wanted[0] is None and bool(found[0]) and found[1:] == wanted[1:])


def obeys(name, answer, strict):
    """Whether the answer by the rules for ASCII of UTS #46, section 4, agrees with the answer without them: the same one where it
    has letters, digits and hyphens alone, else a refusal. Three signs for mathematics stand outside of that."""
    if any(sign in unicodedata.normalize("NFKC", name) for sign in "\u2260\u226e\u226f"):
        return True
    text, number = answer
    if text is not None and re.fullmatch("[-.0-9a-z]*", text):
        return strict == answer
    return strict == (None, 20) or (number == 21 and strict == (None, 21))


def listing_of(table):
    """The option by which variants are listed under a table or a ruleset."""
    return "--ruleset" if table.startswith(RULESET) else "--variants"


def cut(answer):
    output, messages, status = answer
    return output and output[:SHOWN], messages[:SHOWN], status


def main():
    words = argparse.ArgumentParser(description="Compares the program with a reference implementation of its rules.")
    words.add_argument("--seconds", default=60, type=int, help="how long")
    words.add_argument("--seed", default=random.randrange(10**9), type=int, help="where the random input begins")
    options = options_of(words)
    print(f"seed {options.seed}, Unicode data {version()}", flush=True)
    differences, end = 0, time.monotonic() + options.seconds
    with tempfile.TemporaryDirectory() as folder:
        fuzz = Fuzz(options.program.resolve(), random.Random(options.seed), folder)
        while time.monotonic() < end:
            if difference := fuzz.once():
                differences += 1
                print(difference, flush=True)
    for kind, count in sorted(fuzz.counts.items()):
        print(f"{count:>9,}  {kind}")
    print(f"{differences} differences")
    return 1 if differences else 0


if __name__ == "__main__":
    sys.exit(main())
