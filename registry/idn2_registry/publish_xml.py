"""A table as a Label Generation Ruleset in XML (RFC 7940). The numbers in comments are its sections."""

from collections.abc import Iterable, Iterator, Sequence
from dataclasses import dataclass, field
from html import escape

from .notation.patterns import Branch, Group, Item, Optional, Pattern, Point, Set, Sign
from .notation.points import Points
from .notation.ruleset import ALLOCATABLE, INVALID, ContextRule, Entry, Mapped, Rule
from .parsed_table import ParsedTable

NAMESPACE = "urn:ietf:params:xml:ns:lgr-1.0"
CONDITIONS = {"when": "when", "unless": "not-when"}
# 7.1, 7.2
MATCHES = {"when": "match", "unless": "not-match"}
ASKS = {"any": "any-variant", "all": "all-variants", "only": "only-variants"}
# 6.2, 6.4
SIGNS = {Sign.ANY: "any", Sign.START: "start", Sign.END: "end"}


@dataclass
class Element:
    """An element; `line` is that of the table which it says."""

    name: str
    attributes: dict[str, str] = field(default_factory=dict)
    children: list["Element"] = field(default_factory=list)
    text: str = ""
    line: int | None = None

    def lines(self, depth: int = 0) -> Iterator[tuple[str, int | None]]:
        """Its lines in XML, each with the line of the table."""
        indent = " " * depth
        start = indent + "<" + self.name + "".join(f' {name}="{escape(value)}"' for name, value in self.attributes.items())
        if self.text:
            for line in f"{start}>{escape(self.text, quote=False)}</{self.name}>".split("\n"):
                yield line, self.line
        elif not self.children:
            yield f"{start}/>", self.line
        else:
            yield f"{start}>", self.line
            for child in self.children:
                child.line = child.line or self.line
                yield from child.lines(depth + 1)
            yield f"{indent}</{self.name}>", self.line


def ruleset_element(parsed: ParsedTable, meta: Sequence[Element]) -> Element:
    """The whole file, below the metadata."""
    rules = [*definitions(parsed), *demands(parsed), *actions(parsed)]
    sections = [Element("meta", children=list(meta))] if meta else []
    sections.append(Element("data", children=list(entries(parsed))))
    sections += [Element("rules", children=rules)] if rules else []
    return Element("lgr", {"xmlns": NAMESPACE}, sections)


# ---- Entries (5)


def entries(parsed: ParsedTable) -> Iterator[Element]:
    """A `char` for each entry, and a `range` for each run of them that a range can stand for."""
    for run in runs_of(parsed.ruleset.entries.values()):
        first = run[0].source
        line = parsed.lines[first.points]
        if len(run) > 1:
            ends = {"first-cp": cp((first.points[0],)), "last-cp": cp((run[-1].source.points[0],))}
            yield Element("range", {**ends, **condition(first)}, line=line)
        else:
            each = list(variants(run[0], untyped_of(parsed)))
            yield Element("char", {"cp": cp(first.points), **condition(first)}, each, line=line)


def runs_of(given: Iterable[Entry]) -> Iterator[list[Entry]]:
    """The entries in their order, those together that follow each other and say the same of single code points alone."""
    run: list[Entry] = []
    for entry in given:
        if run and not (is_plain(run[-1]) and is_plain(entry) and follows(run[-1].source, entry.source)):
            yield run
            run = []
        run.append(entry)
    yield run


def is_plain(entry: Entry) -> bool:
    """Whether it says no more than that a code point may stand somewhere."""
    return not (entry.variants or entry.source.type) and len(entry.source.points) == 1


def follows(one: Mapped, other: Mapped) -> bool:
    """Whether the second is the next code point, under the same condition."""
    return one.points[0] + 1 == other.points[0] and one.condition == other.condition


def variants(entry: Entry, untyped: str | None) -> Iterator[Element]:
    """The variants, and first the reflexive one (5.3.4), if the source has a type. `untyped` is the type of those that
    have none."""
    if entry.source.type:
        yield Element("var", {"cp": cp(entry.source.points), "type": entry.source.type})
    for variant in entry.variants:
        kind = variant.type or untyped
        yield Element("var", {"cp": cp(variant.points), **({"type": kind} if kind else {}), **condition(variant)})


def untyped_of(parsed: ParsedTable) -> str | None:
    """The type of variants that have none: before version 3 they are allocatable."""
    return ALLOCATABLE if parsed.table.version < 3 else None


def cp(points: Points) -> str:
    """A sequence as an attribute."""
    return " ".join(f"{point:04X}" for point in points)


def condition(mapped: Mapped) -> dict[str, str]:
    """The attribute of a condition, if there is one."""
    return {CONDITIONS[mapped.condition.word]: mapped.condition.rule} if mapped.condition else {}


# ---- Rules (6)


def definitions(parsed: ParsedTable) -> Iterator[Element]:
    """The sets as classes, and the rules."""
    for name, spans in parsed.ruleset.sets.items():
        text = " ".join(f"{first:04X}" if first == last else f"{first:04X}-{last:04X}" for first, last in spans)
        yield Element("class", {"name": name}, text=text, line=parsed.lines[name])
    for name, rule in parsed.ruleset.rules.items():
        yield Element("rule", {"name": name}, rule_parts(rule), line=parsed.lines[name])


def demands(parsed: ParsedTable) -> Iterator[Element]:
    """A rule for each demand, then the actions that refuse by them; these come before all others."""
    names = []
    for number, demand in enumerate(parsed.ruleset.demands):
        # No name of the notation has a hyphen.
        names.append(f"demand-{number + 1}")
        yield Element("rule", {"name": names[-1]}, whole_parts(demand.pattern), line=parsed.lines[f"demand {number}"])
    for number, demand in enumerate(parsed.ruleset.demands):
        asks = "match" if demand.word == "%never" else "not-match"
        yield Element("action", {"disp": INVALID, asks: names[number]}, line=parsed.lines[f"demand {number}"])


def actions(parsed: ParsedTable) -> Iterator[Element]:
    """The actions (7)."""
    for number, action in enumerate(parsed.ruleset.actions):
        match = {MATCHES[action.condition.word]: action.condition.rule} if action.condition else {}
        types = {ASKS[action.types.word]: " ".join(action.types.names)} if action.types else {}
        yield Element("action", {"disp": action.disposition, **match, **types}, line=parsed.lines[f"action {number}"])


def rule_parts(rule: Rule) -> list[Element]:
    """The parts of a rule of either kind."""
    if isinstance(rule, ContextRule):
        return one_of([list(context_parts(*context)) for context in rule.contexts])
    return whole_parts(rule.pattern)


def context_parts(before: Branch, after: Branch) -> Iterator[Element]:
    """What stands before and after a place."""
    if before:
        yield Element("look-behind", children=branch_parts(before))
    yield Element("anchor")
    if after:
        yield Element("look-ahead", children=branch_parts(after))


def whole_parts(branches: Pattern) -> list[Element]:
    """The parts of a pattern: those of its branch, or a choice."""
    return one_of([branch_parts(branch) for branch in branches])


def one_of(each: list[list[Element]]) -> list[Element]:
    """The parts, if there is one way; else a choice."""
    if len(each) == 1:
        return each[0]
    return [Element("choice", children=[choosable(parts) for parts in each])]


def choosable(parts: list[Element]) -> Element:
    """Parts as they stand in a choice, where no anchor can be by itself."""
    return parts[0] if len(parts) == 1 and parts[0].name != "anchor" else Element("rule", children=parts)


def branch_parts(items: Branch) -> list[Element]:
    """The parts of a branch."""
    return [part for item in items for part in item_parts(item)]


def item_parts(item: Item) -> list[Element]:
    """The parts of an item, which are several only where it is a group of one branch."""
    if isinstance(item, Sign):
        return [Element(SIGNS[item])]
    if isinstance(item, Point):
        return [Element("char", {"cp": cp((item.point,))})]
    if isinstance(item, Set):
        return [Element("class", {"by-ref": item.name})]
    if isinstance(item, Group):
        return whole_parts(item.branches)
    parts = item_parts(item.atom)
    one = parts[0] if len(parts) == 1 and "count" not in parts[0].attributes else Element("rule", children=parts)
    one.attributes["count"] = "0:1" if isinstance(item, Optional) else "0+"
    return [one]
