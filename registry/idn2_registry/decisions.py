"""What is said of a label under the tables, as they were read at one time. All of it is asked of the program."""

import contextlib
from collections.abc import Sequence
from dataclasses import replace

from .answers import Answer, Object, Refusal, RegisteredLabel, Status, Variant, bytes_of, furthest_first
from .collisions import Collisions, refusal_in
from .configuration import Configuration
from .faults import Unknown
from .old_labels import alabel_of
from .processes import Asked, Pool, Question, Questions, only
from .program import Program
from .register import Transaction
from .tables import Table, table_of_zone

REGISTER = Question(("--register",))
# Which label a name of the zone stands for, one of older rules among them.
NAME = Question(("--decode", "--old"))


class Tables:
    """The tables as they were read at one time, and the processes that answer under them."""

    def __init__(self, configuration: Configuration, program: Program) -> None:
        self.limits = configuration.limits
        self.program = program
        tables = {name: table_of_zone(configuration, name, program) for name in configuration.tables}
        self.by_name = tables
        self.admitting = {name: tables[name] for name in configuration.admitting}
        self._asked = {name: Collisions(table) for name, table in tables.items()}
        self.collisions = self._asked[configuration.zone]
        self.doubt = doubt_of(tables[configuration.zone], list(self.admitting.values()))
        self.pool = Pool(program, configuration.processes, configuration.limits.seconds)
        self._listing = {name: self.question(table, *self.bounds(self.limits.limit))
                         for name, table in self.admitting.items()}

    @staticmethod
    def question(table: Table, *options: str) -> Question:
        """What lists by a table."""
        return Question(tuple(table.listing(*options)), (table.held,))

    def bounds(self, most: int) -> tuple[str, ...]:
        """The options that bound a listing."""
        limits = self.limits
        return "--limit", str(most), "--tries", str(limits.tries), "--steps", str(limits.steps)

    async def tested(self, label: str, questions: Questions, is_searched: bool = False) -> Answer:
        """A label as it is registered, with the tables that admit it; or refused. A search for what it collides with may begin
        in the same turn."""
        if refusal := Refusal.of_control_character(label):
            return Answer(label, Status.REFUSED, refusal=refusal)
        told = only(await questions.ask(REGISTER, bytes_of(label)), "alabel")
        if "refusal" in told:
            return Answer(label, Status.REFUSED, refusal=Refusal.read(told["refusal"]))
        ulabel = told["ulabel"]
        refusals = await self.refusals(ulabel, questions, [self.collisions.asked_of(ulabel)] if is_searched else ())
        tables = tuple(name for name in self.admitting if name not in refusals)
        refusal = None if tables else next(iter(refusals.values()))
        status = Status.REFUSED if refusal else Status.ADMITTED
        return Answer(label, status, ulabel, told["alabel"], tables, refusal)

    async def refusals(self, ulabel: str, questions: Questions, more: Sequence[Asked] = ()) -> dict[str, Refusal]:
        """Why the tables that don't admit a label refuse it, the furthest first. More may be asked in the same turn."""
        told = await questions.ask_all([*(self._asked[name].asked_of(ulabel) for name in self.admitting), *more])
        refusals = zip(self.admitting, map(refusal_in, told[:len(self.admitting)]), strict=True)
        return furthest_first({name: refusal for name, refusal in refusals if refusal is not None})

    async def variants(self, name: str, ulabel: str, page: int | None, after: str | None,
                       questions: Questions) -> tuple[tuple[Variant, ...], str | None]:
        """Variants of a label under a table, and after which text there may be more."""
        request = ulabel.encode()
        if page is None and after is None:
            told = await questions.ask(self._listing[name], request)
        else:
            start = () if after is None else (f"--after={after}",)
            question = self.question(self.admitting[name], *self.bounds(page or self.limits.limit), *start)
            with contextlib.closing(Pool(self.program, 1, self.limits.seconds)) as pool:
                told = await Questions(pool).ask(question, request)
        *variants, end = told
        if "count" not in end or end["count"] != len(variants):
            raise Unknown(f"the program gave another answer than it should: {end}")
        return tuple(map(variant_of, variants)), None if end["complete"] else end["after"]

    async def with_variants(self, answer: Answer, questions: Questions) -> Answer:
        """An answer with the variants under the first table that admits the label."""
        if not answer.tables or answer.ulabel is None:
            return answer
        found, after = await self.variants(answer.tables[0], answer.ulabel, None, None, questions)
        return replace(answer, table=answer.tables[0], variants=found, after=after)

    async def decided(self, tested: Answer, holder: str | None, transaction: Transaction,
                      questions: Questions) -> Answer:
        """Whether an admitted label is available to a holder, as the register stands in a transaction."""
        assert tested.ulabel is not None
        label = tested.ulabel
        rows = await self.collisions.of(label, transaction, questions)
        alabels = await self.alabels_of([each for each, _ in rows], questions)
        taken_by = tuple(RegisteredLabel(each, alabel, held) for (each, held), alabel in zip(rows, alabels, strict=True))
        is_own = holder is not None and all(each.ulabel != label and each.holder == holder for each in taken_by)
        is_offered = is_own and await self.is_offered(tested, [each.ulabel for each in taken_by], questions)
        if taken_by and not is_offered:
            return replace(tested, status=Status.TAKEN, taken_by=taken_by)
        if self.doubt:
            return replace(tested, status=Status.UNKNOWN, reason=self.doubt, lasts=True)
        return replace(tested, status=Status.AVAILABLE)

    @staticmethod
    async def alabels_of(ulabels: Sequence[str], questions: Questions) -> list[str]:
        """The A-labels of registered labels."""
        told = await questions.ask_each(REGISTER, [ulabel.encode() for ulabel in ulabels])
        return [alabel_of(ulabel, only(objects, "alabel")) for ulabel, objects in zip(ulabels, told, strict=True)]

    async def is_offered(self, tested: Answer, registered: Sequence[str], questions: Questions) -> bool:
        """Whether the holder of registered labels may have an admitted label, too: with each of them under each table that
        admits both, and one does. Whether a table admits a registered label is asked in the same turn."""
        assert tested.ulabel is not None
        label, tables = tested.ulabel, [self._asked[name] for name in tested.tables or ()]
        pairs = [(each, table) for each in registered for table in tables]
        told = iter(await questions.ask_all([asked for each, table in pairs
                                             for asked in (table.asked_of(each), table.asked_between(label, each))]))
        offers: dict[str, list[bool]] = {each: [] for each in registered}
        for (each, table), admission, regard in zip(pairs, told, told, strict=True):
            if "refusal" not in only(admission, "ulabel"):
                offers[each].append(table.is_offered(regard, each))
        return all(offer and all(offer) for offer in offers.values())


def doubt_of(zone: Table, admitting: list[Table]) -> str | None:
    """Why a label without a found collision may still have one under a table that isn't that of the zone; None if it hasn't."""
    if admitting == [zone]:
        return None
    # A zone of one table doesn't wait for what reads tables.
    from .join import lacking

    return lacking(zone, admitting)


def variant_of(told: Object) -> Variant:
    """The variant of an object."""
    return Variant(told["ulabel"], told["alabel"], told.get("disposition"))
