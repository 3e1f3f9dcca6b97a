"""A label: the verdict in a sentence, its code points with the fault, its variants, and who holds what it collides with."""

import itertools
from collections.abc import Mapping
from dataclasses import dataclass, field, replace
from urllib.parse import urlencode

from ..answers import Answer, Refusal, RegisteredLabel, Status, Variant
from ..decisions import Tables
from ..faults import Fault, Unknown, Unusable
from ..processes import Questions
from ..tables import Table
from ..together import alone
from ..zone import Zone
from .classes import Class, Classes
from .frame import Frame, way_to
from .html import Child, Markup, element, joined
from .patterns import action_sentence, demand_sentence, rule_sentence
from .points import glyph_of, name_of, number_of
from .sentences import holder_words, label_words, refusal_sentence, verdict
from .table_page import parsed_table

MOST_POINTS, NOT_UTF_8 = 63, 1
UNKNOWN_CLASS = Class("", "not known")
# What of a table refuses a label, and the member of a refusal by which that is known (docs/JSON.md).
REFUSING = {"action": "action", "rule": "condition", "demand": "demand"}
MARKS = {Status.AVAILABLE: "✓", Status.TAKEN: "●", Status.REFUSED: "✕"}


@dataclass(frozen=True)
class Asked:
    """What a visitor asks: a label, what its variants are to have in them, under which table, and after which of them."""

    label: str
    find: str = ""
    table: str | None = None
    after: str | None = None

    @classmethod
    def read(cls, fields: dict[str, str]) -> "Asked | None":
        """What the fields of a query ask; nothing without a label. Blanks around a label are no part of it."""
        if "label" not in fields:
            return None
        return cls(fields["label"].strip(" "), fields.get("find", ""), fields.get("table") or None, fields.get("after") or None)


@dataclass(frozen=True)
class Found:
    """What the zone says of it, with what each table says that refuses it, and the rule of the first of these in words."""

    answer: Answer
    listing: Answer | None
    classes: dict[int, Class]
    refusals: Mapping[str, Refusal] = field(default_factory=dict)
    rule: Markup | None = None

    @property
    def points(self) -> str:
        """The label code point by code point: what it stands for, where that is known."""
        shown = self.answer.ulabel or self.answer.label
        refusal = self.answer.refusal
        if refusal and refusal.number == NOT_UTF_8:
            # Its bytes are no code points.
            return ""
        if refusal and refusal.details.get("decoded") and shown.lower().startswith("xn--"):
            try:
                decoded = shown[4:].encode("ascii").decode("punycode")
            except (UnicodeError, ValueError):
                return shown
            place = refusal.details.get("place", 0)
            is_same = 0 < place <= len(decoded) and number_of(ord(decoded[place - 1])) == refusal.details.get("code_point")
            return decoded if is_same else shown
        return shown


def found(zone: Zone, classes: Classes, asked: Asked) -> Found:
    """What the zone says of what is asked. Raises ValueError for what can't be asked."""
    answer = zone.check(asked.label)
    listing = None
    if answer.ulabel is not None and answer.tables:
        page = zone.limits.limit if asked.after is not None else None
        listing = zone.variants(asked.label, asked.table, page, asked.after)
    tables = zone.tables
    try:
        refusals = refusals_of(tables, answer)
    except Fault as fault:
        return Found(Answer.unknown(asked.label, fault), None, {})
    rule = None
    for table, refusal in itertools.islice(refusals.items(), 1):
        answer, rule = replace(answer, refusal=refusal), rule_of(tables.by_name[table], refusal)
    first = Found(answer, listing, {})
    try:
        told = {ord(each): classes.of(ord(each)) for each in dict.fromkeys(first.points[:MOST_POINTS])}
    except Unknown:
        told = {}
    return Found(answer, listing, told, refusals, rule)


def refusals_of(tables: Tables, answer: Answer) -> dict[str, Refusal]:
    """What each table says of a label that none of them admits, the furthest first."""
    if answer.status is not Status.REFUSED or answer.ulabel is None:
        return {}
    return alone(tables.refusals(answer.ulabel, Questions(tables.pool)))


def label_page(frame: Frame, asked: Asked | None, told: Found | None) -> bytes:
    """The page, with what was found."""
    title = "Check a label" if asked is None or told is None else f"{asked.label}: {told.answer.status.value}"
    parts: list[Child] = [element("h1", "Check a label"), form(asked)]
    if asked is not None and told is not None:
        parts += [verdict_part(told), points_part(told), tables_part(told), collisions_part(told.answer),
                  variants_part(asked, told)]
    return frame.page(title, *parts)


def form(asked: Asked | None) -> Markup:
    """The field for a label."""
    field = element("input", id="label", name="label", value=asked.label if asked else None, dir="auto", required=True,
                    maxlength="256", autocomplete="off", autocapitalize="none", spellcheck="false", aria_describedby="hint",
                    autofocus=asked is None)
    hint = element("p", "A U-label, for example straße, or an A-label, for example xn--strae-oqa.", id="hint")
    return element("form", element("label", "Label", for_="label"),
                   element("div", field, element("button", "Check", type="submit"), class_="field"), hint, role="search")


def verdict_part(told: Found) -> Markup:
    """The sentence, with what the label is in a query, which tables admit it, and the rule that refuses it."""
    answer = told.answer
    mark = element("span", MARKS.get(answer.status, "?"), class_="mark", aria_hidden="true")
    facts: list[Child] = []
    if answer.alabel is not None:
        facts += [element("dt", "A-label"), element("dd", element("code", answer.alabel))]
    if answer.tables:
        ways = [[", " if place else "", element("a", name, href=way_to(name))] for place, name in enumerate(answer.tables)]
        facts += [element("dt", "Tables that admit it"), element("dd", *ways)]
    facts.append(told.rule)
    head = element("h2", mark, element("span", verdict(answer, told.refusals)), id="verdict")
    return element("section", head, element("dl", *facts) if any(facts) else None, class_=f"verdict {answer.status.value}",
                   aria_labelledby="verdict")


def rule_of(table: Table, refusal: Refusal) -> Markup | None:
    """What of a table refuses a label: the rule, the demand or the action, in words where what reads tables is
    installed."""
    told = refusal.details
    kind = next((kind for kind, member in REFUSING.items() if member in told), None)
    if kind is None:
        return None
    name = told[kind]
    try:
        ruleset = parsed_table(table).ruleset
        if kind == "rule":
            words = rule_sentence(ruleset.rules[name])
        elif kind == "demand":
            words = demand_sentence(ruleset.demands[name - 1])
        else:
            words = action_sentence(ruleset.actions[name - 1])
    except Unusable:
        words = f"See the table {table.name}."
    way = way_to(table.name)
    heads = element("dt", element("a", f"{kind.capitalize()} {name}", href=f"#{kind}-{name}"))
    # The ways lead to other places of the page of the table.
    return Markup(joined(heads, element("dd", words)).replace('href="#', f'href="{way}#'))


def tables_part(told: Found) -> Markup | None:
    """What each of several tables says of a label that none admits."""
    if len(told.refusals) < 2:
        return None
    rows = [[element("dt", element("a", name, href=way_to(name))), element("dd", refusal_sentence(refusal, name))]
            for name, refusal in told.refusals.items()]
    return element("section", element("h2", "What each table says"), element("dl", rows))


def points_part(told: Found) -> Markup | None:
    """The code points, each with its class; the one at fault is marked."""
    points = told.points[:MOST_POINTS]
    if not points:
        return None
    heads = [element("th", head, scope="col") for head in ("Place", "Glyph", "Number", "Name", "Class (RFC 5892)")]
    fault = fault_place(told.answer.refusal, points)
    rows = [point_row(place, ord(each), told.classes.get(ord(each), UNKNOWN_CLASS), place == fault)
            for place, each in enumerate(points, 1)]
    caption = element("caption", "The code points of ", label_words(points), ", in the order in which they are read")
    table = element("table", caption, element("thead", element("tr", *heads)), element("tbody", *rows), class_="points")
    return element("section", element("h2", "Code point by code point"), element("div", table, class_="wide"))


def fault_place(refusal: Refusal | None, points: str) -> int | None:
    """At which place the fault is; none if what is refused isn't what is shown."""
    place = refusal.details.get("place") if refusal else None
    if not isinstance(place, int) or refusal is None or not 0 < place <= len(points):
        return None
    told = refusal.details.get("code_point")
    return place if told is None or told == number_of(ord(points[place - 1])) else None


def point_row(place: int, point: int, of: Class, is_fault: bool) -> Markup:
    """One code point."""
    fault = element("strong", "The fault is here", class_="fault") if is_fault else None
    rule = f", {of.rule}" if of.rule else ""
    meaning = [element("b", of.name), " " if of.name else None, element("span", f"{of.meaning}{rule}", class_="meaning")]
    cells = [str(place), glyph_of(point), element("code", number_of(point)), [name_of(point), fault], meaning]
    return element("tr", *(element("td", cell) for cell in cells), class_="at-fault" if is_fault else None)


def collisions_part(answer: Answer) -> Markup | None:
    """The registered labels that collide, and who holds them."""
    if not answer.taken_by:
        return None
    heads = [element("th", head, scope="col") for head in ("Registered label", "A-label", "Holder")]
    rows = [row(each.ulabel, each.alabel, "not told" if each.holder is None else element("bdi", each.holder))
            for each in answer.taken_by]
    table = element("table", element("caption", "Registered labels that it collides with", class_="heard"),
                    element("thead", element("tr", *heads)), element("tbody", *rows))
    return element("section", element("h2", "Who holds what it collides with"), element("div", table, class_="wide"))


def variants_part(asked: Asked, told: Found) -> Markup | None:
    """The variants, in which one can search."""
    listing = told.listing
    if listing is None or listing.table is None and listing.reason is None:
        return None
    head = element("h2", "Variants", f" under {listing.table}" if listing.table else None)
    if listing.variants is None:
        reason = element("bdi", listing.public.reason or "")
        return element("section", head, element("p", "They aren’t known: ", reason, "."))
    shown = [each for each in listing.variants if has_text(each, asked.find)]
    counted = element("p", f"{len(shown):,} of {len(listing.variants):,} shown", id="count", role="status",
                      data_total=str(len(listing.variants)))
    more = more_way(asked, listing)
    return element("section", head, other_tables(asked, listing), search_form(asked), counted,
                   element("div", variants_table(told.answer, shown), class_="wide"), more)


def has_text(variant: Variant, text: str) -> bool:
    """Whether a variant has a text in what is shown of it."""
    return any(text.lower() in shown.lower() for shown in (variant.ulabel, variant.alabel, variant.disposition or ""))


def other_tables(asked: Asked, listing: Answer) -> Markup | None:
    """The ways to its variants under other tables."""
    others = [name for name in listing.tables or () if name != listing.table]
    ways = [[", " if place else "", way(asked, name, table=name)] for place, name in enumerate(others)]
    return element("p", "Also under ", *ways, ".") if others else None


def way(asked: Asked, words: str, **more: str) -> Markup:
    """A way to the same label."""
    return element("a", words, href="/?" + urlencode({"label": asked.label, **more}, errors="replace"))


def search_form(asked: Asked) -> Markup:
    """The field to search in the variants."""
    hidden = [element("input", type="hidden", name=name, value=value)
              for name, value in (("label", asked.label), ("table", asked.table), ("after", asked.after)) if value]
    field = element("input", id="find", name="find", value=asked.find, dir="auto", autocomplete="off", spellcheck="false",
                    aria_controls="variants")
    return element("form", *hidden, element("label", "Search in the variants", for_="find"),
                   element("div", field, element("button", "Search", type="submit"), class_="field"), class_="find")


def variants_table(answer: Answer, shown: list[Variant]) -> Markup:
    """The variants as a table."""
    heads = [element("th", head, scope="col") for head in ("Variant", "A-label", "Disposition", "Registered")]
    held = {each.ulabel: each for each in answer.taken_by}
    rows = [variant_row(each, held.get(each.ulabel)) for each in shown]
    caption = element("caption", "Variants with their dispositions", class_="heard")
    return element("table", caption, element("thead", element("tr", *heads)), element("tbody", *rows), id="variants")


def variant_row(variant: Variant, held: RegisteredLabel | None) -> Markup:
    """One variant."""
    disposition = variant.disposition or "not told"
    shown = element("span", disposition, class_=f"disposition {variant.disposition or ''}")
    return row(variant.ulabel, variant.alabel, shown, None if held is None else ["yes", holder_words(held)])


def row(ulabel: str, alabel: str, *cells: Child) -> Markup:
    """A row that a label heads."""
    return element("tr", element("th", label_words(ulabel), scope="row"), element("td", element("code", alabel)),
                   *(element("td", cell) for cell in cells))


def more_way(asked: Asked, listing: Answer) -> Markup | None:
    """The way to the variants that come after these."""
    if listing.after is None:
        return None
    table = {"table": listing.table} if listing.table else {}
    return element("p", joined("There are more. ", way(asked, "The next ones", after=listing.after, **table)))
