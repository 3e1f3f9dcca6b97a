"""A table as people read it: its letters, which of them are variants of each other, its rules in words, and its gaps."""

import functools
import itertools
from collections.abc import Iterator, Sequence
from dataclasses import dataclass

from ..notation.points import Points
from ..notation.ruleset import DISPOSITIONS, Action, Entry, Mapped, Rule
from ..parsed_table import ParsedTable
from ..program import Program
from ..tables import Table
from ..words import counted
from .examples import Example, Examples, VariantExample
from .frame import Frame
from .html import Child, Markup, element
from .patterns import action_sentence, branches_of, demand_sentence, joined_words, rule_sentence, sets_named
from .points import glyph_of, name_of, names_of, number_of, numbers_of
from .variant_sets import Pair, VariantSet, pairs_of, uneven_pairs, variant_sets

# So many letters and so many sets of variants one page has, unless it stands alone.
MOST_TILES, MOST_SETS, MOST_GAPS, MOST_USERS, MOST_MEMBERS = 1_000, 200, 200, 100, 400
OUT_OF_REPERTOIRE = "out of repertoire"
# More than any table has.
ALL = 1_000_000
KINDS = {1: "variant table of version 1, which doesn’t say which variants are blocked", 2: "variant table", 3: "ruleset"}


@dataclass(frozen=True)
class Shown:
    """What of a table a page shows: letters from a code point on, and sets of variants with such letters. A page that
    stands alone shows all."""

    start: int = 0
    tiles: int = MOST_TILES
    sets: int = MOST_SETS


@dataclass(frozen=True)
class View:
    """A table with all that is said of it."""

    parsed: ParsedTable
    examples: Examples

    @classmethod
    def of(cls, table: Table, program: Program) -> "View":
        """Reads a table, and asks the program for examples. Raises Unusable where what reads it isn't installed."""
        parsed = parsed_table(table)
        return cls(parsed, Examples(parsed, program))


# A large table takes longer to read than all else of its page.
parsed_table = functools.lru_cache(16)(ParsedTable.read)


def table_page(frame: Frame, view: View, shown: Shown) -> bytes:
    """The page."""
    parsed, table = view.parsed, view.parsed.table
    head = element("p", counted(table.entries, "entry", "entries"), f" of a {KINDS[table.version]}.", class_="quiet")
    parts = [gaps_part(table), uneven_part(parsed), repertoire_part(frame, view, shown), variants_part(view, shown),
             rules_part(view), demands_part(view), sets_part(parsed), actions_part(parsed)]
    return frame.page(f"Table {table.name}", element("h1", f"Table {table.name}"), head, *parts)


def whole_page(table: Table, program: Program) -> bytes:
    """All of a table on a page that stands alone: one file, which needs no other. Raises Unusable where what reads tables
    isn't installed."""
    return table_page(Frame(stands_alone=True), View.of(table, program), Shown(tiles=ALL, sets=ALL))


def gaps_part(table: Table) -> Markup | None:
    """The pairs that are missing."""
    if not table.gaps:
        return None
    rows = []
    for gap in table.gaps[:MOST_GAPS]:
        source, variant = (tuple(int(point, 16) for point in side.split("-")) for side in gap.split("|"))
        rows.append(element("li", sequence(source), " has no variant ", sequence(variant), ": add ", element("code", gap)))
    left = len(table.gaps) - len(rows)
    words = (f"Missing: {counted(len(table.gaps), 'pair')} of variants. Each goes both ways, and two with a common variant "
             "have each other.")
    return element("section", element("h2", "Gaps"), element("p", words), element("ul", *rows),
                   element("p", f"And {left} more.") if left else None)


def uneven_part(parsed: ParsedTable) -> Markup | None:
    """The pairs that aren't the same both ways."""
    uneven = uneven_pairs(parsed)
    if not uneven:
        return None
    rows = [element("li", way_words(there), "; but ", way_words(back)) for there, back in uneven[:MOST_GAPS]]
    left = len(uneven) - len(rows)
    words = f"{counted(len(uneven), 'pair')} of variants with another disposition, or another rule, the other way."
    return element("section", element("h2", "Not the same both ways"), element("p", words), element("ul", *rows),
                   element("p", f"And {left} more.") if left else None)


def way_words(pairs: Sequence[Pair]) -> Child:
    """What a variant of a source is, where it is that."""
    told = [[pair.disposition, [[" ", note] for note in notes_of(pair.variant)]] for pair in pairs]
    first = pairs[0]
    return ["for ", sequence(first.source), " the variant ", sequence(first.variant.points), " is ",
            joined_words(told, ", and ")]


def sequence(points: Points) -> Markup:
    """A sequence with its numbers."""
    return element("span", glyph_of(*points), " ", element("code", numbers_of(points)), title=names_of(points))


# The letters.


def repertoire_part(frame: Frame, view: View, shown: Shown) -> Markup:
    """The letters that labels may have, by the first words of their names, and the sequences."""
    entries = [entry for entry in view.parsed.entries if entry.source.points[0] >= shown.start]
    told = [(view.parsed.refuses(entry), len(entry.source.points) > 1, entry) for entry in entries[:shown.tiles]]
    groups: dict[str, list[Markup]] = {}
    # Those of no label come last.
    for is_refused, _, entry in sorted(told, key=lambda each: each[:2]):
        group = "Out of repertoire: only variants have them, no label" if is_refused else group_of(entry)
        groups.setdefault(group, []).append(tile(entry, is_refused))
    parts = [[element("h3", f"{name} ({len(tiles)})"), element("ul", *tiles, class_="tiles")] for name, tiles in groups.items()]
    more = None
    if len(entries) > shown.tiles and not frame.stands_alone:
        following = entries[shown.tiles].source.points[0]
        more = element("p", element("a", f"From {number_of(following)} on", href=f"?from={following:04X}"))
    return element("section", element("h2", "Repertoire", id="repertoire"), *parts, more)


def group_of(entry: Entry) -> str:
    """How the name of its first code point begins: that of a letter names its script."""
    if len(entry.source.points) > 1:
        return "Sequences"
    first = name_of(entry.source.points[0]).split(" ")[0]
    return "Ideographs" if first == "CJK" else "Digits" if first == "DIGIT" else first.capitalize()


def tile(entry: Entry, is_refused: bool) -> Markup:
    """A letter, or a sequence; no label may have one that is refused."""
    source = entry.source
    told = [*notes_of(source), *([OUT_OF_REPERTOIRE] if is_refused else [])]
    notes = [element("span", note, class_="note") for note in told]
    return element("li", glyph_of(*source.points), element("span", numbers_of(source.points), class_="number"),
                   element("span", names_of(source.points), class_="name"), *notes,
                   class_="tile variant-only" if is_refused else "tile")


def notes_of(mapped: Mapped) -> Iterator[Child]:
    """The type of a sequence, if the ruleset has it, and where it may stand."""
    if mapped.type and mapped.type not in DISPOSITIONS:
        yield f"as {mapped.type}"
    if mapped.condition:
        words = "only where " if mapped.condition.word == "when" else "not where "
        yield [words, element("a", mapped.condition.rule, href=f"#rule-{mapped.condition.rule}")]


# The variants.


def variants_part(view: View, shown: Shown) -> Markup | None:
    """The sets of variants, each as a picture."""
    every = [each for each in variant_sets(view.parsed) if each.parts[-1][-1] >= (shown.start,)]
    if not every:
        return None
    says_which = view.parsed.table.version > 1
    pictures = [picture(each, view.parsed, says_which) for each in every[:shown.sets]]
    left = len(every) - len(pictures)
    legend = ("A green frame has what allocatable variants connect, directly or through others. ⊘ is between those that are "
              "blocked. The pairs say what each is, and where.")
    count = element("p", counted(len(every), "set"), " of sequences that are variants of each other.", class_="quiet")
    return element("section", element("h2", "Variants", id="variants"), count,
                   element("p", legend, class_="legend") if says_which else None, element("ul", *pictures, class_="sets"),
                   element("p", f"And {left} more, from later letters on.") if left else None)


def picture(whole: VariantSet, parsed: ParsedTable, says_which: bool) -> Markup:
    """A set: the parts that go together, apart from each other, and below them each pair."""
    parts = [together(part, parsed, says_which) for part in whole.parts]
    blocked = element("span", "⊘", element("span", " blocked", class_="heard"), class_="between")
    rows = [pair_row(pair, says_which) for pair in whole.pairs]
    heads = [element("th", head, scope="col") for head in ("Sequence", "Variant", "Disposition")]
    table = element("table", element("thead", element("tr", *heads)), element("tbody", *rows))
    pairs = element("details", element("summary", counted(len(rows), "pair")), element("div", table, class_="wide"))
    return element("li", element("div", joined_blocked(parts, blocked), class_="apart"), pairs, class_="set")


def joined_blocked(parts: Sequence[Markup], blocked: Markup) -> list[Child]:
    """The parts with what is between them."""
    return [[blocked if place else None, each] for place, each in enumerate(parts)]


def together(points: Sequence[Points], parsed: ParsedTable, says_which: bool) -> Markup:
    """Sequences that go together."""
    chips = [chip(each, parsed) for each in points]
    several = len(points) > 1 and says_which
    caption = element("figcaption", "allocatable", class_="heard") if several else None
    return element("figure", *chips, caption, class_="together several" if several else "together")


def chip(points: Points, parsed: ParsedTable) -> Markup:
    """A sequence in a set."""
    entry = parsed.ruleset.entries.get(points)
    kind = "only a variant" if entry is None else OUT_OF_REPERTOIRE if parsed.refuses(entry) else ""
    own = entry.source.type if entry and entry.source.type in parsed.ruleset.types else None
    notes = [element("span", note, class_="kind") for note in (kind, own) if note]
    # The name of an ideograph is its number.
    is_named = not all(name_of(point).startswith("CJK ") for point in points)
    name = element("span", names_of(points), class_="name") if is_named else None
    return element("span", glyph_of(*points), element("span", numbers_of(points), class_="number"), name, *notes,
                   class_="chip variant-only" if kind else "chip")


def pair_row(pair: Pair, says_which: bool) -> Markup:
    """A source with a variant."""
    kind = pair.disposition if says_which else "not told"
    notes = [[" ", note] for note in notes_of(pair.variant)]
    return element("tr", element("td", sequence(pair.source)), element("td", sequence(pair.variant.points)),
                   element("td", element("span", kind, class_=f"disposition {kind}"), *notes))


# The rules.


def rules_part(view: View) -> Markup | None:
    """The rules in words, each with what asks it, and with examples."""
    rules = [rule_part(view, name, rule) for name, rule in view.parsed.ruleset.rules.items()]
    return element("section", element("h2", "Rules", id="rules"), *rules) if rules else None


def rule_part(view: View, name: str, rule: Rule) -> Markup:
    """A rule."""
    sources = [(entry.source, sequence(entry.source.points)) for entry in view.parsed.entries]
    pairs = [(pair.variant, variant_words(pair)) for pair in pairs_of(view.parsed)]
    told: list[Child] = [users(sources, name, "when", "There alone may stand: "),
                         users(sources, name, "unless", "There may not stand: ")]
    if any(told):
        told.append(examples(view.examples.of(name)))
    if any(asks(variant, name) for variant, _ in pairs):
        told += [users(pairs, name, "when", "Variants only there: "),
                 users(pairs, name, "unless", "Variants everywhere but there: "),
                 variant_examples(view.examples.of_variant(name))]
    actions = [element("a", f"action {number}", href=f"#action-{number}")
               for number, action in enumerate(view.parsed.ruleset.actions, 1)
               if action.condition and action.condition.rule == name]
    if actions:
        told.append(element("p", "It is asked by ", joined_words(actions, ", "), "."))
    if not any(told):
        told.append(element("p", element("strong", "Nothing asks this rule.")))
    return element("article", element("h3", name, id=f"rule-{name}"), element("p", rule_sentence(rule)), *told,
                   class_="rule")


def variant_words(pair: Pair) -> Markup:
    """A variant of a source."""
    return element("span", sequence(pair.variant.points), " of ", sequence(pair.source), f" ({pair.disposition})")


def asks(mapped: Mapped, name: str, word: str | None = None) -> bool:
    """Whether a sequence has a condition with a rule."""
    return mapped.condition is not None and mapped.condition.rule == name and word in (None, mapped.condition.word)


def users(shown: Sequence[tuple[Mapped, Markup]], name: str, word: str, words: str) -> Markup | None:
    """What has a condition with a rule: the first ones."""
    found = [markup for mapped, markup in shown if asks(mapped, name, word)]
    more = f" and {len(found) - MOST_USERS} more" if len(found) > MOST_USERS else ""
    return element("p", words, joined_words(found[:MOST_USERS], ", "), f"{more}.") if found else None


def demands_part(view: View) -> Markup | None:
    """The demands in words."""
    parts = []
    for number, demand in enumerate(view.parsed.ruleset.demands, 1):
        parts.append(element("article", element("h3", f"Demand {number}", id=f"demand-{number}"),
                             element("div", demand_sentence(demand)), examples(view.examples.of_number(number)),
                             class_="rule"))
    return element("section", element("h2", "Demands on the whole label", id="demands"), *parts) if parts else None


def examples(found: Example) -> Markup:
    """What the program admits and refuses, as it was asked."""
    return element("dl", element("dt", "✓ admitted", class_="admitted"), element("dd", drawn(found.admitted)),
                   element("dt", "✕ refused", class_="refused"), element("dd", drawn(found.refused)), class_="examples")


def variant_examples(found: VariantExample) -> Markup:
    """A label with a variant, and one without it, as the program lists them."""
    having = [drawn(found.label), " has ", drawn(found.variant), f", {found.disposition}"] if found.label else drawn(None)
    return element("dl", element("dt", "✓ variant", class_="admitted"), element("dd", having),
                   element("dt", "✕ not so", class_="refused"), element("dd", drawn(found.without)), class_="examples")


def drawn(label: str | None) -> Child:
    """A label of an example."""
    if label is None:
        return "none of the labels that were drawn"
    return [element("bdi", label), " ", element("code", " ".join(number_of(ord(each)) for each in label))]


def sets_part(parsed: ParsedTable) -> Markup | None:
    """The sets of code points that rules name."""
    ruleset = parsed.ruleset
    patterns = [*(branch for rule in ruleset.rules.values() for branch in branches_of(rule)),
                *(branch for demand in ruleset.demands for branch in demand.pattern)]
    used = set(sets_named(patterns))
    letters = {point for entry in parsed.entries if not parsed.refuses(entry) for point in entry.source.points}
    parts = [named_set(name, spans, letters, name in used) for name, spans in ruleset.sets.items()]
    return element("section", element("h2", "Sets that rules name"), *parts) if parts else None


def named_set(name: str, spans: Sequence[tuple[int, int]], letters: set[int], is_used: bool) -> Markup:
    """A set, with those of its code points that no letter of the repertoire has."""
    words = [[sequence((first,)), [" to ", sequence((last,))] if last != first else None] for first, last in spans]
    told = [element("p", joined_words(words, ", ")), members(spans)]
    size = sum(last - first + 1 for first, last in spans)
    missing = size - sum(first <= point <= last for point in letters for first, last in spans)
    if missing:
        lacking = (sequence((point,)) for point in points_of(spans) if point not in letters)
        more = f" and {missing - MOST_USERS} more" if missing > MOST_USERS else ""
        shown = joined_words(list(itertools.islice(lacking, MOST_USERS)), ", ")
        told.append(element("p", element("strong", "Not in the repertoire: "), shown, f"{more}."))
    if not is_used:
        told.append(element("p", element("strong", "No rule names this set.")))
    return element("article", element("h3", name, id=f"set-{name}"), *told, class_="rule")


def points_of(spans: Sequence[tuple[int, int]]) -> Iterator[int]:
    """The code points of a set."""
    return itertools.chain.from_iterable(range(first, last + 1) for first, last in spans)


def members(spans: Sequence[tuple[int, int]]) -> Markup:
    """How many code points a set has, and the first ones of them as they look."""
    size = sum(last - first + 1 for first, last in spans)
    glyphs = [glyph_of(point) for point in itertools.islice(points_of(spans), MOST_MEMBERS)]
    more = " …" if size > MOST_MEMBERS else ""
    return element("p", counted(size, "code point"), ": ", joined_words(glyphs, " "), more, class_="members")


def actions_part(parsed: ParsedTable) -> Markup:
    """What becomes of a label and of a variant, in the order in which it is asked."""
    ruleset = parsed.ruleset
    steps: list[Child] = ["A label, or a variant, that can’t be cut into letters and sequences of the repertoire is refused."]
    if ruleset.rules:
        way = element("a", "rule", href="#rules")
        steps.append(["One in which a letter stands where its ", way, " doesn’t let it is refused."])
    if ruleset.demands:
        steps.append(["One that breaks a ", element("a", "demand", href="#demands"), " is refused."])
    if parsed.table.version == 1:
        steps.append("Every other one is a variant. The table doesn’t say which are blocked.")
    elif parsed.table.version == 2:
        steps += ["A variant that arises without a blocked one is allocatable.", "Every other variant is blocked."]
    else:
        steps += ["One that arises in several ways, with types that differ, is refused as a label, blocked as a variant.",
                  *(element("span", action_sentence(action), id=f"action-{number}")
                    for number, action in enumerate(ruleset.actions, 1))]
        steps += default_steps(ruleset.actions)
    return element("section", element("h2", "What becomes of a label", id="actions"),
                   element("ol", *(element("li", step) for step in steps)))


def default_steps(actions: Sequence[Action]) -> list[Child]:
    """What becomes of what no action of the ruleset has decided (RFC 7940, section 7.6)."""
    if any(action.types is None and action.condition is None for action in actions):
        return []
    return ["One in which something has the type invalid is refused.",
            "One in which something has the type blocked is blocked.", "Every other one is allocatable."]
