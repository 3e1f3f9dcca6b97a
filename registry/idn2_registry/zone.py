"""A zone: its tables, its register, and what is asked of them."""

import os
import threading
from collections.abc import Callable, Iterator, Sequence
from dataclasses import dataclass, replace
from types import TracebackType

from .answers import Answer, Refusal, Status, bytes_of
from .configuration import DEFAULT_PATH, Configuration, Limits, read_configuration
from .decisions import NAME, REGISTER, Tables
from .faults import Fault, Unknown, Unusable
from .processes import Questions, only
from .program import Program
from .register import Register, Transaction, checked_holder, open_register
from .together import Request, alone, together

# What a zone that was opened keeps of its configuration.
KEPT = ("register", "labels", "processes", "service")


@dataclass(frozen=True)
class Check:
    """Whether a label is available (to a holder) is asked. Raises ValueError for a holder that can't be stored."""

    label: str
    holder: str | None = None
    variants: bool = False

    def __post_init__(self) -> None:
        checked_holder(self.holder)


class Zone:
    """A zone of a registry. All calls may be made by several threads at once.

    An answer whose status is `unknown` says nothing about the label: ask again. Calls raise Unusable where nothing can be
    answered, with a text that names file, line and remedy, and ValueError for a holder that can't be stored."""

    def __init__(self, configuration: Configuration, program: Program) -> None:
        """Opens all that the configuration names. Raises Unusable."""
        self.configuration = configuration
        self.program = program
        self._lock = threading.Lock()
        self._tables = Tables(configuration, program)
        try:
            self._register = open_register(configuration)
        except Unknown as error:
            raise Unusable(str(error)) from error

    @classmethod
    def open(cls, path: str | os.PathLike[str] = DEFAULT_PATH, program: str | os.PathLike[str] | None = None) -> "Zone":
        """The zone of a configuration, asked by the program at a path, else by the one beside this package or on the path.
        Raises Unusable."""
        configuration = read_configuration(path)
        return cls(configuration, Program.of(configuration, program))

    def __enter__(self) -> "Zone":
        return self

    def __exit__(self, kind: type[BaseException] | None, value: BaseException | None, trace: TracebackType | None) -> None:
        self.close()

    @property
    def tables(self) -> Tables:
        """The tables that the next request is asked under."""
        with self._lock:
            return self._tables

    @property
    def limits(self) -> Limits:
        """What bounds a request."""
        return self.configuration.limits

    @property
    def registered(self) -> Register:
        """The register."""
        return self._register

    def reload(self) -> None:
        """Reads the configuration's tables again. Requests that are being answered end under the old ones. Raises Unusable
        if one is faulty; then the old tables stay."""
        configuration = read_configuration(self.configuration.path)
        for key in KEPT:
            if getattr(configuration, key) != getattr(self.configuration, key):
                raise configuration.file.fault(key, "it changed: start again")
        new = Tables(configuration, self.program)
        with self._lock:
            old, self._tables, self.configuration = self._tables, new, configuration
        old.pool.close()

    def close(self) -> None:
        """Ends the processes and closes the register."""
        self.tables.pool.close()
        self._register.close()

    def check(self, label: str, holder: str | None = None, variants: bool = False) -> Answer:
        """Whether a label is available (to a holder): refused, taken with all that it collides with, or available."""
        [(_, answer)] = self.check_together([Check(label, holder, variants)])
        return answer

    def check_together(self, checks: Sequence[Check]) -> Iterator[tuple[int, Answer]]:
        """The answers to several checks, each with its number as soon as it is known. They have the time of one
        request, and all see the same state of the register."""
        tables = self.tables
        questions = Questions(tables.pool, len(checks))
        admitted: dict[int, Answer] = {}
        for number, told in together([tables.tested(check.label, questions, True) for check in checks]):
            if isinstance(told, Answer) and told.status is Status.ADMITTED:
                admitted[number] = told
            else:
                yield number, answer_of(checks[number], told)

        async def checked(check: Check, tested: Answer, transaction: Transaction) -> Answer:
            answer = await tables.decided(tested, check.holder, transaction, questions)
            return await tables.with_variants(answer, questions) if check.variants else answer

        left = list(admitted)
        if not left:
            return
        try:
            with self._register.reading() as transaction:
                requests = [checked(checks[number], admitted[number], transaction) for number in left]
                for place, told in together(requests):
                    number = left[place]
                    del admitted[number]
                    yield number, answer_of(checks[number], told)
        except Fault as fault:
            for number in admitted:
                yield number, answer_of(checks[number], fault)

    def register(self, label: str, holder: str | None = None) -> Answer:
        """Registers a label if it is available, in one transaction. Its status is registered only after that."""
        holder = checked_holder(holder)

        async def asked(tables: Tables, questions: Questions) -> Answer:
            tested = await tables.tested(label, questions, True)
            if tested.status is not Status.ADMITTED or tested.ulabel is None:
                return tested
            ulabel = tested.ulabel

            def job(transaction: Transaction) -> Answer:
                answer = alone(tables.decided(tested, holder, transaction, questions))
                if answer.status is not Status.AVAILABLE:
                    return answer
                transaction.insert(ulabel, holder)
                return replace(answer, status=Status.REGISTERED)

            return self._register.change(job)

        return self._answered(label, asked)

    def release(self, label: str) -> Answer:
        """Releases a label: released, or free if it wasn't registered. One that may not be registered today is given as it
        stands in the register, or by its name in the zone."""

        async def asked(tables: Tables, questions: Questions) -> Answer:
            if refusal := Refusal.of_control_character(label):
                return Answer(label, Status.REFUSED, refusal=refusal)
            told = only(await questions.ask(REGISTER, bytes_of(label)), "alabel")
            if "refusal" not in told:
                status = Status.RELEASED if self._released([told["ulabel"]]) else Status.FREE
                return Answer(label, status, told["ulabel"], told["alabel"])
            named = only(await questions.ask(NAME, bytes_of(label)), "unicode")
            ulabel = self._released([label, *([named["unicode"]] if named.get("old") else [])])
            if ulabel is not None:
                return Answer(label, Status.RELEASED, ulabel)
            return Answer(label, Status.REFUSED, refusal=Refusal.read(told["refusal"]))

        return self._answered(label, asked)

    def _released(self, ulabels: Sequence[str]) -> str | None:
        """The first of some U-labels that is registered, which is so no more; None if none is."""
        asked = [ulabel for ulabel in ulabels if is_text(ulabel)]

        def job(transaction: Transaction) -> str | None:
            return next((ulabel for ulabel in asked if transaction.delete(ulabel)), None)

        return self._register.change(job)

    def variants(self, label: str, table: str | None = None, page: int | None = None, after: str | None = None) -> Answer:
        """The variants of a label under a table, else under the first that admits it. Without a page an answer with more
        than the limits allow is unknown. Raises ValueError for a page or a text that can't be asked for."""
        checked_page(page)
        checked_after(after)

        async def asked(tables: Tables, questions: Questions) -> Answer:
            tested = await tables.tested(label, questions)
            if tested.ulabel is None or not tested.tables:
                return tested
            name = table or tested.tables[0]
            if name not in tested.tables:
                if name not in tables.admitting:
                    raise ValueError(f"no table admits labels by the name {name}")
                refusal = (await tables.refusals(tested.ulabel, questions))[name]
                return replace(tested, status=Status.REFUSED, refusal=refusal)
            found, rest = await tables.variants(name, tested.ulabel, page, after, questions)
            answer = replace(tested, status=Status.LISTED, table=name, variants=found, after=rest)
            if rest is None or page is not None:
                return answer
            return replace(answer, status=Status.UNKNOWN, reason="more variants than the limits allow: ask for pages",
                           lasts=True)

        return self._answered(label, asked)

    def tables_of(self, label: str) -> Answer:
        """Which tables admit a label."""
        return self._answered(label, lambda tables, questions: tables.tested(label, questions))

    def doubt(self) -> Answer | None:
        """Why no label would be known to be available; None if labels are answered. All is asked that answers a label."""

        async def asked(tables: Tables, questions: Questions) -> Answer:
            tested = await tables.tested("a", questions)
            with self._register.reading() as transaction:
                transaction.first_rows(["a"])
            return replace(tested, status=Status.UNKNOWN, reason=tables.doubt, lasts=True) if tables.doubt else tested

        answer = self._answered("a", asked)
        return answer if answer.status is Status.UNKNOWN else None

    def _answered(self, label: str, asked: Callable[[Tables, Questions], Request[Answer]]) -> Answer:
        """What is asked under the tables of now; unknown where there is no answer."""
        tables = self.tables
        try:
            return alone(asked(tables, Questions(tables.pool)))
        except Fault as fault:
            return Answer.unknown(label, fault)


def answer_of(check: Check, told: Answer | Fault) -> Answer:
    """The answer to a check, also where something went wrong."""
    return Answer.unknown(check.label, told) if isinstance(told, Fault) else told


def checked_page(page: int | None) -> int | None:
    """A size that a page may have. Raises ValueError for another."""
    if page is not None and not 1 <= page <= 10**9:
        raise ValueError("a page has from 1 to 1000000000 labels")
    return page


def checked_after(text: str | None) -> str | None:
    """A text after which a listing may go on. Raises ValueError for one that can't be asked for."""
    if text is not None and not is_text(text):
        raise ValueError("a listing goes on after a text of at most 1024 bytes without control characters")
    return text


def is_text(text: str) -> bool:
    """Whether a text can be asked for."""
    try:
        return len(text.encode()) <= 1024 and not Refusal.of_control_character(text)
    except UnicodeEncodeError:
        return False
