"""The command `idn2-registry`: its options, and what each job does with them."""

import argparse
import contextlib
import gc
import os
import sys
from collections.abc import Callable, Iterator, Sequence
from pathlib import Path

from .answers import Answer, ExitStatus
from .audit import audit as audit_all
from .change import change as change_all
from .co_process import CoProcess
from .configuration import DEFAULT_PATH, Configuration, Use, read_configuration
from .faults import Fault, Unsayable, Unusable
from .form import Form
from .holdings import Holdings
from .load import dump as dump_register
from .load import load as load_file
from .output import Output, complain
from .program import Program
from .register import checked_holder, open_register
from .tables import Table, read_tables
from .work import Kept, Means
from .zone import Zone, checked_after, checked_page

Words = argparse.Namespace
Job = Callable[[Words, Output], None]

# The standard streams, and how one that is closed is opened: so that its use fails, and that of messages does nothing.
STREAMS = (("stdin", os.O_WRONLY, "r"), ("stdout", os.O_RDONLY, "w"), ("stderr", os.O_WRONLY, "w"))


def text_of_word(word: str) -> str:
    """A word of the command line, which is UTF-8 in every locale."""
    return os.fsencode(word).decode("utf-8", "surrogateescape")


def taken(check: Callable[[str], object]) -> Callable[[str], object]:
    """What reads a word by a check that raises ValueError."""
    def read(word: str) -> object:
        try:
            return check(text_of_word(word))
        except ValueError as error:
            raise argparse.ArgumentTypeError(str(error)) from error

    return read


def page_of(word: str) -> object:
    """The size of a page."""
    return checked_page(int(word) if word.isascii() and word.isdigit() else 0)


def labels_of(words: Words) -> Iterator[str]:
    """The labels: the words, or the lines of standard input."""
    if words.labels:
        yield from map(text_of_word, words.labels)
        return
    for line in sys.stdin.buffer:
        yield line.removesuffix(b"\n").decode("utf-8", "surrogateescape")


def opened(words: Words) -> Zone:
    """The zone. What is there with it stays to the end: else an answer would now and then wait 10 milliseconds or more
    while Python looks for garbage in it."""
    zone = Zone.open(words.config, words.idn2)
    gc.freeze()
    return zone


def answers(words: Words, output: Output, asked: Callable[[Zone, str], Answer]) -> None:
    """Answers each label."""
    with opened(words) as zone:
        for label in labels_of(words):
            output.answer(asked(zone, label))


def check(words: Words, output: Output) -> None:
    """Tells which labels are available."""
    answers(words, output, lambda zone, label: zone.check(label, words.holder, words.variants))


def register(words: Words, output: Output) -> None:
    """Registers labels that are available."""
    answers(words, output, lambda zone, label: zone.register(label, words.holder))


def release(words: Words, output: Output) -> None:
    """Releases registered labels."""
    answers(words, output, lambda zone, label: zone.release(label))


def variants(words: Words, output: Output) -> None:
    """Lists the variants of labels."""
    answers(words, output, lambda zone, label: zone.variants(label, words.table, words.page, words.after))


def tables_of(words: Words, output: Output) -> None:
    """Tells which tables admit a label."""
    answers(words, output, lambda zone, label: zone.tables_of(label))


def ask(words: Words, output: Output) -> None:
    """Answers requests, objects of JSON, one on each line."""
    with opened(words) as zone:
        CoProcess(zone).run()


def serve(words: Words, output: Output) -> None:
    """Answers over HTTP, with pages for people, until a signal ends it."""
    try:
        from .service.start import serve as serve_zone
    except ImportError as error:
        raise Unusable(f"{sys.executable} has no aiohttp, which serve needs: apt-get install python3-aiohttp is for "
                       "/usr/bin/python3, and pip install aiohttp for any other") from error
    with opened(words) as zone:
        serve_zone(zone)


def check_config(words: Words, output: Output) -> None:
    """Checks the configuration, its tables and its register."""
    from .check_config import check_configuration

    configuration = read_configuration(words.config)
    check_configuration(configuration, program(words, configuration), output)


def program(words: Words, configuration: Configuration | None) -> Program:
    """The program, which tests labels as the configuration says."""
    return Program.of(configuration, words.idn2) if configuration else Program(words.idn2)


@contextlib.contextmanager
def means(words: Words, configuration: Configuration, job: str) -> Iterator[Means]:
    """With what a long job is done. What is done of it is kept beside the configuration."""
    with Kept(Path(f"{configuration.path}.{job}-parts"), words.resume) as kept:
        yield Means(kept, configuration.processes, words.scheduler)


def holdings(configuration: Configuration) -> Holdings:
    """What is registered."""
    register = open_register(configuration)
    try:
        return Holdings.read(register)
    finally:
        register.close()


def load(words: Words, output: Output) -> None:
    """Puts the labels of a file into the register, all or none. Each line is a label, or a label, a tab and a holder."""
    configuration = read_configuration(words.config)
    asked = program(words, configuration)
    with means(words, configuration, "load") as by:
        load_file(configuration, asked, by, words.file, words.old, words.rest, output)


def dump(words: Words, output: Output) -> None:
    """Writes the registered labels, each with its holder after a tab."""
    configuration = read_configuration(words.config)
    dump_register(holdings(configuration), program(words, configuration), words.json)


def audit(words: Words, output: Output) -> None:
    """Tells which registered labels are no longer valid, and which collide."""
    configuration = read_configuration(words.config)
    asked = program(words, configuration)
    registered = holdings(configuration)
    with means(words, configuration, "audit") as by:
        audit_all(configuration, asked, registered, by, words.since, output)


def change(words: Words, output: Output) -> None:
    """Tells what a new table changes for registered labels."""
    configuration = read_configuration(words.config)
    asked = program(words, configuration)
    registered = holdings(configuration)
    with means(words, configuration, "change") as by:
        change_all(configuration, asked, registered, by, words.new, output)


def found_configuration(words: Words) -> Configuration | None:
    """The configuration, for a job on tables, which does without one."""
    return read_configuration(words.config, Use.TABLES) if os.path.exists(words.config) else None


def named_tables(words: Words, names: Sequence[str]) -> tuple[list[Table], Program]:
    """Tables by their names in the configuration, or by their paths; and the program that has checked them."""
    configuration = found_configuration(words)
    asked = program(words, configuration)
    return read_tables(configuration, names, asked), asked


def join(words: Words, output: Output) -> None:
    """Writes the table of the zone, joined from others by their names in the configuration, or by their paths."""
    # No other job waits for what reads tables.
    from .join import join as joined

    output.text(joined(*named_tables(words, words.names)))


def publish(words: Words, output: Output) -> None:
    """Writes a table as others read it: XML of RFC 7940, lines of RFC 4290, or a page."""
    from .publish import publish as published

    [table], asked = named_tables(words, [words.table])
    output.text(published(table, Form(words.form), words.meta, asked))


def compare(words: Words, output: Output) -> None:
    """Tells what two tables say otherwise, and whether they are identical, contained, overlapping or apart."""
    from .compare import Comparison
    from .parsed_table import ParsedTable

    tables, _ = named_tables(words, [words.first, words.second])
    one, other = map(ParsedTable.read, tables)
    Comparison.of(one, other).tell(output)


def parser() -> argparse.ArgumentParser:
    """The options of all jobs."""
    common = argparse.ArgumentParser(add_help=False)
    common.add_argument("--config", metavar="FILE", default=DEFAULT_PATH, help=f"the configuration [default: {DEFAULT_PATH}]")
    common.add_argument("--idn2", metavar="PROGRAM", help="the program [default: the idn2 beside this one, or on the path]")
    common.add_argument("--json", action="store_true", help="answer with objects of JSON, one on each line")
    whole = argparse.ArgumentParser(prog="idn2-registry", description="The jobs of a domain name registry.",
                                    epilog="Status: 0 yes to all, 1 no to some, 75 not known for some.", allow_abbrev=False)
    jobs = whole.add_subparsers(metavar="JOB", required=True)

    def add(name: str, job: Job, has_labels: bool = True) -> argparse.ArgumentParser:
        added = jobs.add_parser(name, parents=[common], help=job.__doc__, description=job.__doc__, allow_abbrev=False)
        added.set_defaults(job=job)
        if has_labels:
            added.add_argument("labels", metavar="LABEL", nargs="*", help="[default: the lines of standard input]")
        return added

    for name, job in (("check", check), ("register", register)):
        add(name, job).add_argument("--holder", metavar="HOLDER", type=taken(checked_holder),
                                    help="who asks, and may have variants of own labels")
    jobs.choices["check"].add_argument("--variants", action="store_true", help="list the variants, too")
    add("release", release)
    listing = add("variants", variants)
    listing.add_argument("--table", metavar="NAME", help="the table [default: the first that admits the label]")
    listing.add_argument("--page", metavar="SIZE", type=taken(page_of), help="at most so many")
    listing.add_argument("--after", metavar="TEXT", type=taken(checked_after), help="only those after a text")
    add("tables-of", tables_of)
    for name, job in (("load", load), ("audit", audit), ("change", change)):
        long = add(name, job, has_labels=False)
        long.add_argument("--resume", action="store_true", help="go on where a run was stopped")
        long.add_argument("--scheduler", metavar="ADDRESS", help="let a cluster of Dask do it")
    jobs.choices["load"].add_argument("file", metavar="FILE")
    jobs.choices["load"].add_argument("--old", action="store_true", help="take labels of older rules, too")
    jobs.choices["load"].add_argument("--rest", action="store_true", help="load the others if lines are refused")
    jobs.choices["audit"].add_argument("--since", metavar="FILE", help="tell only what an earlier output of it doesn't have")
    jobs.choices["change"].add_argument("new", metavar="NAME=FILE", help="a name in the configuration, and its new table")
    add("dump", dump, has_labels=False)
    add_jobs_on_tables(add)
    for name, job in (("ask", ask), ("serve", serve), ("check-config", check_config)):
        add(name, job, has_labels=False)
    return whole


def add_jobs_on_tables(add: Callable[[str, Job, bool], argparse.ArgumentParser]) -> None:
    """The options of jobs on tables alone."""
    add("join", join, False).add_argument("names", metavar="NAME", nargs="+")
    publishing = add("publish", publish, False)
    publishing.add_argument("table", metavar="TABLE", help="a name in the configuration, or a path")
    publishing.add_argument("--as", dest="form", required=True, choices=[form.value for form in Form], help="in which form")
    publishing.add_argument("--meta", metavar="FILE", type=Path, help="the metadata [default: the TOML beside the table]")
    comparing = add("compare", compare, False)
    for name, words in (("first", "a name in the configuration, or a path"), ("second", "another one")):
        comparing.add_argument(name, metavar="TABLE", help=words)


def hold_streams() -> None:
    """Where a standard stream is closed, no file that is opened takes its number: a table that had it would be read from what a
    process answers."""
    for name, flags, mode in STREAMS:
        if getattr(sys, name) is None:
            # The least number that is free, which is that of the stream.
            setattr(sys, name, open(os.open(os.devnull, flags), mode))


def main(given: Sequence[str] | None = None) -> int:
    """Does a job, and gives its exit status."""
    hold_streams()
    words = parser().parse_args(given)
    output = Output(words.json)

    def job() -> int:
        words.job(words, output)
        return output.status.value

    return guarded(job)


def guarded(job: Callable[[], int]) -> int:
    """The exit status of a job; 75 with one line that says why, if it can't be done."""
    try:
        return job()
    except Unsayable as error:
        complain(str(error))
        return ExitStatus.NO.value
    except Fault as error:
        complain(str(error))
    except OSError as error:
        complain(f"{error.filename}: {error.strerror}" if error.filename else str(error))
    except ValueError as error:
        complain(str(error))
    except KeyboardInterrupt:
        complain("stopped")
    except Exception as error:
        # Python would end with 1, which says no of a label.
        complain(f"it failed, which is a fault of idn2-registry: {type(error).__name__}: {error}")
    # What stands in the buffer can't be written, either.
    with contextlib.suppress(OSError):
        os.dup2(os.open(os.devnull, os.O_WRONLY), sys.stdout.fileno())
    return ExitStatus.NOT_KNOWN.value
