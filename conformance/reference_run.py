"""A run of the reference implementation, from docs/idn2.1, docs/NOTATION.md and the README alone.

Given the words, standard input and the files, it tells what stands on the output, on the messages and as the status.
Where it does not know, since a code point is newer than the data here, or since a name is to be looked up, it says so by
`Unknown`. It holds all labels that a label spells, or that are near it, in a set, so it is for small tables and short labels.
"""

import collections
import functools
import itertools
import re
import unicodedata

import check
import old_labels
import table_places
from causes import Causes
from collisions import MOST_SOURCES, Collisions, sources_of
from idn2_registry.notation import canonical, reading
from idn2_registry.notation.faults import LIMIT, TableFault
from idn2_registry.notation.ruleset import BLOCKED, Entry, Mapped, Ruleset
from registration import Registration, a_label
from rules import ProfileProperties, UnicodeProperties
from ruleset_labels import NOT_MADE_OF_ENTRIES, NOT_VALID, UNCLEAR, RulesetLabels, TableLabels, Unknown
from ruleset_labels import text_of as text_of_points

LINE_LIMIT, TEXT_LIMIT, LABEL_LIMIT = 1024, 1024, 63
COUNT_LIMIT, TRIES = 1_000_000_000, 1_000_000

TEXTS = {
    1: "not UTF-8", 2: "line too long", 3: "empty", 4: "out of order", 10: "disallowed code point", 11: "unassigned code point",
    12: "not in NFC", 13: "hyphen out of place", 14: "leading combining mark", 15: "joiner out of context",
    16: "code point out of context", 17: "Bidi rule broken", 18: "label too long", 19: "not an A-label",
    NOT_MADE_OF_ENTRIES: "not made of table entries", NOT_VALID: "not valid under the table", 50: "usage", 60: "read fault",
}
FAULTY_LINE = re.compile(r"idn2: table line (\d+): (\d+) .*")
FLAGS = {"-l": "lookup", "--lookup": "lookup", "-r": "register", "--register": "register", "-d": "decode",
         "--decode": "decode", "-N": "nontransitional", "--tr46nt": "nontransitional", "--quiet": "quiet", "--explain": "explain",
         "--usestd3asciirules": "std3", "--standard": "standard", "--jump": "jump", "--others": "others", "--old": "old",
         "-h": "show", "--help": "show", "-V": "show", "--version": "show"}
LISTINGS, CHECKS, PRINT = {"--variants", "--ruleset"}, {"--check-table", "--check-ruleset"}, "--print-ruleset"
OF_A_LISTING = ("--after", "--limit", "--tries", "--steps", "--among")
VALUES = LISTINGS | CHECKS | {PRINT} | set(OF_A_LISTING)
# The long names of flags that have another name here.
LONG = {"nontransitional": "--tr46nt", "std3": "--usestd3asciirules"}
MODES = {"lookup", "register", "decode"} | LISTINGS | CHECKS | {PRINT}


class Bad(Exception):
    """The words can't be used, for this cause."""


class Show(Exception):
    """Help or version is asked for."""


class RegisteredFault(Exception):
    """The first line of the registered labels that is wrong, and its number of the refusal."""

    def __str__(self):
        line, refusal = self.args
        return f"idn2: registered line {line}: {refusal} {TEXTS[refusal]}"


class Options:
    """The words are read from left to right, so the first use of an option that is wrong is the one that is told."""

    def __init__(self, words):
        self.given, self.strings = {}, []
        words = iter(words)
        for word in words:
            if word == "--":
                self.strings += words
            elif word.startswith("--"):
                self.take_long(word, words)
            elif word.startswith("-") and word != "-":
                for letter in word[1:]:
                    self.take_flag("-" + letter)
            else:
                self.strings.append(word)
        self.obey_rules()

    def take_long(self, word, words):
        name, has_value, value = word.partition("=")
        if name not in VALUES:
            self.take_flag(word)
            return
        if not has_value:
            value = next(words, None)
            if value is None or (value.startswith("-") and value != "-"):
                self.miss_value(name, value)
        self.take(name, value)

    def miss_value(self, name, word):
        """The word in place of the value names options, or there is none. An unknown option there is what is wrong."""
        unknown = unknown_option(word if word is None or word.startswith("--") else word[:2])
        if unknown is None:
            raise Bad(f"{name} takes a value")
        self.take(name, None)
        raise Bad(unknown)

    def take_flag(self, word):
        if word not in FLAGS:
            raise Bad(unknown_option(word) or word.partition("=")[0] + " takes no value")
        if FLAGS[word] == "show":
            raise Show
        self.take(FLAGS[word], True)

    def take(self, name, value):
        if name in self.given:
            raise Bad(LONG.get(name, "--" + name.removeprefix("--")) + " is given twice")
        self.given[name] = value

    def obey_rules(self):
        modes = MODES & self.given.keys()
        if len(modes) > 1:
            raise Bad("two modes are named")
        self.mode = modes.pop() if modes else "lookup"
        self.obey_rules_of_variants()
        self.limit, self.tries = self.count("--limit", None), self.count("--tries", TRIES)
        self.steps = self.count("--steps", None, 19, 2, 10 ** 18)
        self.after = self.given.get("--after", "")
        if len(self.after.encode()) > TEXT_LIMIT:
            raise Bad(f"--after takes at most {TEXT_LIMIT} bytes")
        if self.mode in CHECKS and self.strings:
            raise Bad("the check of a table takes no STRINGS")
        if self.mode == PRINT and self.strings:
            raise Bad("--print-ruleset takes no STRINGS")
        if self.mode == PRINT and "json" in self.given:
            raise Bad("--print-ruleset doesn't go with --json")

    def obey_rules_of_variants(self):
        """Options of a listing need one, a jump needs a table and is no listing, and `--among` tries and passes over nothing."""
        given_for_listing = [name for name in OF_A_LISTING if name in self.given]
        is_jump = "jump" in self.given
        if self.mode not in LISTINGS and (given_for_listing or is_jump):
            raise Bad((given_for_listing + ["--jump"])[0] + " goes with --variants")
        if is_jump and given_for_listing:
            raise Bad(given_for_listing[0] + " doesn't go with --jump")
        if "old" in self.given and self.mode != "decode":
            raise Bad("--old goes with --decode")
        if "others" in self.given and "--among" not in self.given:
            raise Bad("--others goes with --among")
        if "--among" in self.given:
            for name in ("--tries", "--steps"):
                if name in self.given:
                    raise Bad(name + " doesn't go with --among")
            if self.given["--among"] == self.given[self.mode]:
                raise Bad("--among takes another file than the table")

    def files(self):
        """The names of the files that are read, in their order."""
        return [self.given[name] for name in (*LISTINGS, *CHECKS, PRINT, "--among") if name in self.given]

    def count(self, name, default, digits=10, least=1, most=COUNT_LIMIT):
        text = self.given.get(name)
        if text is None:
            return default
        if not (1 <= len(text) <= digits and text.isascii() and text.isdigit() and least <= int(text) <= most):
            raise Bad(f"{name} takes a number from {least} to {most}")
        return int(text)


def one_too_many(entries):
    """The first source, if there is one, that is one too many of those that have one of their variants one way alone."""
    found, counts = sources_of(entries), collections.Counter()
    for source, entry in entries.items():
        for variant in {text_of_points(each.points) for each in entry.variants} - found.get(source, set()):
            counts[variant] += 1
            if counts[variant] > MOST_SOURCES:
                return source
    return None


class Reference:
    """Answers by the profile or, with `--standard`, by the standards alone."""

    def __init__(self, by_profile, by_standard=None):
        self.by_profile, self.by_standard = by_profile, by_standard

    @classmethod
    def of(cls, classes):
        whole = classes.whole()
        by_profile = Run(Registration(classes, ProfileProperties()), classes)
        return cls(by_profile, Run(Registration(whole, UnicodeProperties()), whole))

    def answer(self, words, given, files):
        """(output, messages, status); output is None where only its being there is known."""
        try:
            options = Options(words)
        except Bad as fault:
            return b"", ending(words, 50, str(fault)), 2
        except Show:
            return None, b"", 0
        if options.strings:
            given = "".join(string + "\n" for string in options.strings).encode()
        for name in options.files():
            if name not in files:
                return b"", ending(words, 60, in_one_line(name) + ": no such file"), 3
        run = self.by_standard if "standard" in options.given else self.by_profile
        return run.serve(options, given, files)


class Run:
    """`registration` has the rules of labels, `classes` the classes of code points."""

    def __init__(self, registration, classes):
        self.registration, self.classes = registration, classes
        # Of the table of a run, whatever its lines are.
        self.collisions_under = functools.lru_cache(1)(self.collisions_under)

    @functools.cached_property
    def causes(self):
        """Made only where causes are told, since it reads more of Unicode's data."""
        return Causes(self.registration, self.classes)

    def serve(self, options, given, files):
        if options.mode in CHECKS:
            return self.check(options, files[options.given[options.mode]])
        if options.mode == PRINT:
            return self.print_ruleset(options, files[options.given[options.mode]])
        try:
            registered, table = self.read_files(options, files)
        except RegisteredFault as fault:
            return b"", f"{fault}{self.tail_of_registered(options, files, *fault.args)}\n".encode(), 2
        except TableFault as fault:
            tail = self.tail_of_table(options, files[options.given[options.mode]], fault.line, fault.number)
            return b"", f"{fault}{tail}\n".encode(), 2
        output, messages = [], []
        for number, body in enumerate(bodies(given), 1):
            lines, refusal = self.answer_line(options, table, registered, body)
            output += lines
            if refusal is not None:
                messages.append(f"idn2: line {number}: {refusal} {TEXTS[refusal]}{self.tail(options, table, body, refusal)}\n")
        return ("".join(line + "\n" for line in output).encode(), "".join(messages).encode(), 1 if messages else 0)

    def tail(self, options, table, body, refusal):
        """What the message of a refused line goes on with."""
        if "explain" not in options.given:
            return ""
        # With --old a line is one label, as one that is to be registered.
        mode = "jump" if "jump" in options.given else "register" if "old" in options.given else options.mode
        cause = self.causes.of_body(mode, body, refusal, table[0] if table else None)
        return "" if cause is None else f": {cause}"

    def tail_of_registered(self, options, files, number, refusal):
        """The same of a wrong line of the registered labels."""
        if "explain" not in options.given:
            return ""
        cause = self.causes.of_registered(list(bodies(files[options.given["--among"]])), number, refusal)
        return "" if cause is None else f": {cause}"

    def tail_of_table(self, options, text, number, fault):
        """The same of a faulty line of a table or a ruleset."""
        if "explain" not in options.given:
            return ""
        of_text = table_places.of_table if options.mode in ("--variants", "--check-table") else table_places.of_ruleset
        place = of_text(text, number, fault, self.classes.may_stand)
        return "" if place is None else f": {place}"

    def read_files(self, options, files):
        """The registered labels and the table, each None where the options name none. The labels are read first."""
        registered = table = None
        if "--among" in options.given:
            registered = self.registered_labels(files[options.given["--among"]])
        if options.mode in LISTINGS:
            text = files[options.given[options.mode]]
            table = self.table(options.mode, text)
            if {"--among", "jump"} & options.given.keys():
                self.check_sources(options.mode, text, table[0].entries)
        return registered, table

    def check_sources(self, mode, text, entries):
        """Refuses a text without any other fault at the line of the first source that is one too many."""
        source, lines = one_too_many(entries), text.split(b"\n")
        for number in range(1, len(lines) + 1) if source else ():
            if source in self.table(mode, b"\n".join(lines[:number]))[0].entries:
                raise TableFault(number, LIMIT)

    def table(self, mode, text):
        """What the table or ruleset says of labels, and whether it has dispositions."""
        if mode == "--ruleset":
            return RulesetLabels(reading.read(text, self.classes.may_stand)), True
        table = check.read(text, self.classes)
        return TableLabels(as_ruleset(table)), table.version == 2

    def registered_labels(self, text):
        """The labels of a file of less than 4 GiB: one on each line, each greater than the one before. Old ones have a mark."""
        labels = []
        for number, body in enumerate(bodies(text), 1):
            label, refusal = text_of(body)
            if refusal is None and label.endswith(old_labels.MARK):
                label = label.removesuffix(old_labels.MARK)
                refusal = old_labels.old_fault(label)
            elif refusal is None:
                refusal = self.registration.first_fault(self.known(label))
            if refusal is None and labels and label <= labels[-1]:
                refusal = 4
            if refusal is not None:
                raise RegisteredFault(number, refusal)
            labels.append(label)
        return labels

    def check(self, options, text):
        lines, is_clean = (check.check if options.mode == "--check-table" else check.check_ruleset)(text, self.classes)
        fault = FAULTY_LINE.fullmatch(lines[0])
        if fault:
            return b"", f"{lines[0]}{self.tail_of_table(options, text, *map(int, fault.groups()))}\n".encode(), 2
        return "".join(line + "\n" for line in lines).encode(), b"", 0 if is_clean else 1

    def print_ruleset(self, options, text):
        try:
            return canonical.text_of(reading.read(text, self.classes.may_stand)).encode(), b"", 0
        except TableFault as fault:
            return b"", f"{fault}{self.tail_of_table(options, text, fault.line, fault.number)}\n".encode(), 2

    def answer_line(self, options, table, registered, body):
        """The lines of output and no refusal, or none and the number of the refusal."""
        text, refusal = text_of(body)
        if refusal is None and not text:
            refusal = 3
        if refusal is not None:
            return [], refusal
        if options.mode == "lookup":
            raise Unknown
        if "jump" in options.given:
            return self.jump(table, *parts_of(text))
        if registered is not None:
            return self.collisions(options, table, registered, text)
        if options.mode in LISTINGS:
            return self.block(options, table, text)
        if "old" in options.given:
            answer = old_labels.zone_line(text, self.registered_as)
            return ([answer], None) if isinstance(answer, str) else ([], answer)
        answer, refusal = getattr(self.registration, options.mode)(self.known(text))
        return ([], refusal) if answer is None else ([answer], None)

    def registered_as(self, label):
        """The A-label of a label, or the number of its refusal."""
        a_label, refusal = self.registration.register(self.known(label))
        return refusal if a_label is None else a_label

    def known(self, text):
        for label in text.split("."):
            coded = label[4:]
            if label[:4].lower() == "xn--" and coded.isascii():
                try:
                    label += coded.encode().decode("punycode")
                except (UnicodeError, ValueError, OverflowError):
                    pass
            if not self.registration.knows(label):
                raise Unknown
        return text

    def refusal(self, table, label):
        """Why a label isn't answered, or None."""
        labels, _ = table
        return self.registration.first_fault(self.known(label)) or labels.refusal(label)

    def collisions_under(self, table):
        labels, has_dispositions = table
        may_be_registered = lambda label: self.registration.first_fault(self.known(label)) is None
        return Collisions(labels, may_be_registered, has_dispositions)

    def jump(self, table, label, text):
        if refusal := self.refusal(table, label):
            return [], refusal
        under = self.collisions_under(table)
        least = min((each for each in under.near(label) if each >= text), default=None)
        return ["#end" if least is None else "\t".join((least, *under.regards(label, least)))], None

    def collisions(self, options, table, registered, label):
        """The block of the registered labels that collide with a label."""
        if refusal := self.refusal(table, label):
            return [], refusal
        under = self.collisions_under(table)
        others = "others" in options.given
        found = [each for each in registered if each > options.after and under.collide(label, each)
                 and not (others and each == label)]
        if others and not found:
            return [], None
        stops = [] if options.limit is None else found[options.limit - 1:options.limit]
        lines = ["\t".join((each, a_label(each), *under.regards(label, each))) for each in found]
        *lines, end = ended(lines[:options.limit], stops)
        return [*lines, f"{end} {label}" if others else end], None

    def block(self, options, table, label):
        """The block of the variants of a label."""
        if refusal := self.refusal(table, label):
            return [], refusal
        labels, has_dispositions = table
        after = sorted(each for each in labels.spelled(label) if options.after < each and len(each) <= LABEL_LIMIT)
        told = labels.answer(label)
        variants = [each for each in after if each in told and self.registration.first_fault(self.known(each)) is None]
        tested = [each for each in after if self.dead_prefix(labels, each) is None]
        visited = [each for last, each in zip([None, *after], after) if self.is_visited(labels, last, each)]
        stops = tested[options.tries - 1:options.tries]
        if options.steps is not None:
            stops += visited[options.steps - 1:options.steps]
        if options.limit is not None:
            stops += variants[options.limit - 1:options.limit]
        if stops:
            variants = [each for each in variants if each <= min(stops)]
        tail = lambda each: self.fields_of(told[each], options) if has_dispositions else ""
        return ended([f"{each}\t{a_label(each)}{tail(each)}" for each in variants], stops), None

    @staticmethod
    def fields_of(disposition, options):
        """The third field of a line, and the fourth, which only an unclear variant has."""
        if disposition != UNCLEAR:
            return f"\t{disposition}"
        return f"\t{BLOCKED}" + (f"\t{UNCLEAR}" if "explain" in options.given else "")

    def dead_prefix(self, labels, label):
        """How many letters the shortest beginning of the label has that no variant begins with, or None."""
        beginnings = (label[:count] for count in range(1, len(label) + 1))
        is_dead = lambda each: self.registration.is_dead_prefix([ord(letter) for letter in each]) or labels.is_dead_prefix(each)
        return next((len(each) for each in beginnings if is_dead(each)), None)

    def is_visited(self, labels, last, label):
        """A step comes to each label that is tested, and to one whose dead prefix the candidate before it hasn't."""
        count = self.dead_prefix(labels, label)
        return count is None or last is None or last[:count] != label[:count]


def ended(lines, stops):
    """The lines of a block with its trailer, where it ends or at the first of its stops."""
    return [*lines, f"#stop {len(lines)} {min(stops)}" if stops else f"#end {len(lines)}"]


def as_ruleset(table):
    """A table of version 1 or 2 as the ruleset that says the same."""
    entries = {}
    for source, variants in table.entries.items():
        mapped = tuple(Mapped(variant, BLOCKED if is_blocked else None) for variant, is_blocked in variants.items())
        entries[source] = Entry(Mapped(source), mapped)
    return Ruleset(entries=entries)


def message(number):
    return f"idn2: {number} {TEXTS[number]}\n".encode()


def explains(words):
    """Whether causes are asked for: what comes after `--` is no option."""
    return "--explain" in itertools.takewhile(lambda word: word != "--", words)


def ending(words, number, cause):
    """The message of what ends a run, with its cause if that is asked for among the words."""
    if not explains(words):
        return message(number)
    return f"idn2: {number} {TEXTS[number]}: {cause}\n".encode()


def unknown_option(word):
    """That there is no option of the name that a word begins with; None if there is, or no word but `--`."""
    name = word.partition("=")[0] if word and word.startswith("--") else word
    if word in (None, "--") or name in FLAGS or name in VALUES:
        return None
    return f"unknown option '{in_one_line(name)}'"


def in_one_line(text):
    """Control characters and ends of lines as escapes."""
    return "".join(f"\\u{{{ord(c):x}}}" if unicodedata.category(c) == "Cc" or c in "\u2028\u2029" else c for c in text)


def text_of(body):
    """The text of a line and no refusal, or the number of the refusal."""
    if isinstance(body, int):
        return None, body
    try:
        return body.decode(), None
    except UnicodeDecodeError:
        return None, 1


def parts_of(text):
    """The label of a jump, and the text from which on one is wanted."""
    label, _, rest = text.partition("\t")
    return label, rest


def bodies(given):
    """Each line, or 2 where it is too long. One carriage return at its end is dropped."""
    lines = given.split(b"\n")
    for line in lines if lines[-1] else lines[:-1]:
        if len(line) > LINE_LIMIT:
            yield 2
        else:
            yield line[:-1] if line.endswith(b"\r") else line
