"""Reads a Label Generation Ruleset in XML as RFC 7940 has it, strictly: what its words or its schema don't allow is
refused, with the line. The numbers in comments are sections of the standard. Names may be used before they are
defined, as files do; a circle is refused. So are a null source (5.3.3), of which there may be any number at a place,
and a disposition that isn't one of the five of 7.3, of which nobody can say here whether it allocates."""

import functools
import re
from collections.abc import Callable, Iterator, Sequence

from . import unicode_properties
from .rules import AllOf, Anchor, AnyOf, Class, Condition, End, Literal, OneOf, Part, Start, Times
from .ruleset import DISPOSITIONS, PREDEFINED, UNTYPED, Action, Entry, Ruleset, Variant
from .schema import BLANKS, SPANS, Element, Refused, elements_of

__all__ = ["Refused", "read"]

MOST_ENTRIES, MOST_ATOMS = 65_536, 4_096
COMBINED: dict[str, Callable[[Sequence[bool]], bool]] = {
    "complement": lambda has: not has[0],
    "union": any,
    "intersection": all,
    "difference": lambda has: has[0] and not has[1],
    "symmetric-difference": lambda has: has[0] != has[1],
}


def read(text: bytes) -> Ruleset:
    """What a file says, or why it is refused."""
    try:
        return ruleset_of(text)
    except RecursionError as error:
        raise Refused(1, "rules or classes too deep in others") from error


def ruleset_of(text: bytes) -> Ruleset:
    sections = {section.name: section.children for section in elements_of(text).children}
    data, rules = sections["data"], Rules(sections["data"], sections.get("rules", []))
    bits = dict[str | None, int](PREDEFINED.items())
    bits[None] = UNTYPED
    entries: dict[str, Entry] = {}
    for element in data:
        condition = rules.condition_of(element, "when", "not-when")
        variants = tuple(variants_of(element, rules, bits))
        for source in sources_of(element):
            if source in entries:
                raise element.refused(f"{spelled(source)} comes twice")
            entries[source] = Entry(source, condition, variants)
        if len(entries) > MOST_ENTRIES:
            raise element.refused(f"more than {MOST_ENTRIES} entries")
    actions = [action_of(element, rules, bits) for element in sections.get("rules", []) if element.name == "action"]
    rules.read_all()
    return Ruleset(entries, actions)


def spelled(points: str) -> str:
    return " ".join(f"{ord(character):04X}" for character in points)


def points_of(element: Element, words: str) -> str:
    points = [int(word, 16) for word in words.split()]
    for point in points:
        if point > 0x10FFFF or 0xD800 <= point <= 0xDFFF:
            raise element.refused(f"{point:04X} is no scalar value")
    return "".join(map(chr, points))


def span_of(element: Element, first: str, last: str) -> range:
    start, end = (ord(points_of(element, word)) for word in (first, last))
    if start > end:
        raise element.refused(f"{first} is after {last}")
    return range(start, end + 1)


def sources_of(element: Element) -> list[str]:
    """The source of a `char`, or those of a `range`: one for each scalar value."""
    if element.name == "char":
        return [points_of(element, element.attributes["cp"])]
    span = span_of(element, element.attributes["first-cp"], element.attributes["last-cp"])
    if len(span) > MOST_ENTRIES:
        raise element.refused(f"more than {MOST_ENTRIES} entries")
    return [chr(point) for point in span if not 0xD800 <= point <= 0xDFFF]


def variants_of(element: Element, rules: "Rules", bits: dict[str | None, int]) -> Iterator[Variant]:
    """The variants of a `char`. A variant may come twice only with conditions, and these have to differ (5.3.5)."""
    conditions: dict[str, list[Condition | None]] = {}
    for child in element.children:
        points = points_of(child, child.attributes["cp"])
        condition = rules.condition_of(child, "when", "not-when")
        others = conditions.setdefault(points, [])
        if others and (condition is None or None in others or condition in others):
            raise child.refused(f"{spelled(points)} comes twice")
        others.append(condition)
        yield Variant(points, bits.setdefault(child.attributes.get("type"), 4 << len(bits)), condition)


def action_of(element: Element, rules: "Rules", bits: dict[str | None, int]) -> Action:
    disposition = element.attributes["disp"]
    if disposition not in DISPOSITIONS:
        raise element.refused(f"the disposition '{disposition}'")
    condition = rules.condition_of(element, "match", "not-match")
    if condition and condition.part.has_anchor:
        raise element.refused(f"the rule '{condition.rule}' has an anchor")
    asks = next((name for name in element.attributes if name.endswith(("-variant", "-variants"))), "")
    names = set(element.attributes.get(asks, "").split())
    return Action(disposition, condition, asks, sum(bits.get(name, 0) for name in names))


class Rules:
    """The rules and classes of a file, each read when it is named first."""

    def __init__(self, data: list[Element], elements: list[Element]) -> None:
        self.named: dict[str, Element] = {}
        for element in elements:
            if element.name != "action":
                name = element.attributes["name"]
                if name in self.named:
                    raise element.refused(f"the name '{name}' comes twice")
                self.named[name] = element
        self.open: list[str] = []
        self.parts: dict[str, Part] = {}
        self.classes: dict[str, Class] = {}
        self.tagged: dict[str, set[str]] = {}
        for element in data:
            self.add_tags(element)
        self.points = {point for element in data for source in sources_of(element) for point in source}

    def add_tags(self, element: Element) -> None:
        """No tag comes twice, and a sequence has none (5.5)."""
        tags = element.attributes.get("tag", "").split()
        sources = sources_of(element) if tags else []
        if len(tags) > len(set(tags)):
            raise element.refused("a tag comes twice")
        if any(len(source) > 1 for source in sources):
            raise element.refused("a sequence has a tag")
        for tag in tags:
            self.tagged.setdefault(tag, set()).update(sources)

    def read_all(self) -> None:
        """Reads those, too, that nothing names."""
        for name, element in self.named.items():
            if element.name == "rule":
                self.named_rule(name, element)
            else:
                self.named_class(name, element)

    def condition_of(self, element: Element, wanted: str, unwanted: str) -> Condition | None:
        """By the rule that one of the two attributes names."""
        for attribute in (wanted, unwanted):
            if name := element.attributes.get(attribute):
                return Condition(name, attribute == wanted, self.named_rule(name, element))
        return None

    def named_rule(self, name: str, element: Element) -> Part:
        """A rule that the element names."""
        rule = self.definition(name, element, name in self.named and self.named[name].name == "rule")
        if name not in self.parts:
            self.open.append(name)
            self.parts[name] = self.all_of(rule)
            self.open.pop()
        return self.parts[name]

    def named_class(self, name: str, element: Element) -> Class:
        found = self.definition(name, element, name in self.named and self.named[name].name != "rule")
        if name not in self.classes:
            self.open.append(name)
            self.classes[name] = self.read_class(found)
            self.open.pop()
        return self.classes[name]

    def definition(self, name: str, element: Element, is_known: bool) -> Element:
        if not is_known:
            raise element.refused(f"'{name}' isn't defined")
        if name in self.open:
            raise element.refused(f"'{name}' is part of itself")
        return self.named[name]

    # Rules.

    def all_of(self, element: Element) -> Part:
        """What stands in an element, one after the other. A start or look-behind has to be the first that is matched,
        an end or look-ahead the last (6.3.8, 6.4.2)."""
        parts = [self.part(child) for child in element.children]
        for child, part in zip(element.children[1:], parts[1:]):
            if part.is_first:
                raise child.refused("a start or look-behind that isn't the first that is matched")
        for child, part in zip(element.children, parts[:-1]):
            if part.is_last:
                raise child.refused("an end or look-ahead that isn't the last that is matched")
        if sum(part.has_anchor for part in parts) > 1:
            raise element.refused("more than one anchor")
        return limited(element, AllOf(parts, atoms=sum(part.atoms for part in parts), is_first=parts[0].is_first,
                                      is_last=parts[-1].is_last, has_anchor=any(part.has_anchor for part in parts)))

    def one_of(self, element: Element) -> Part:
        parts = [self.part(child) for child in element.children]
        if len({part.has_anchor for part in parts}) > 1:
            raise element.refused("an anchor in some of its parts, and none in others")
        is_first, is_last = any(part.is_first for part in parts), any(part.is_last for part in parts)
        return limited(element, OneOf(parts, atoms=sum(part.atoms for part in parts), is_first=is_first,
                                      is_last=is_last, has_anchor=parts[0].has_anchor))

    def look(self, element: Element) -> Part:
        """What stands directly before the anchor, or directly after it; the schema lets it stand nowhere else."""
        inner, is_ahead = self.all_of(element), element.name == "look-ahead"
        if inner.has_anchor:
            raise element.refused("an anchor in it")
        if inner.is_first if is_ahead else inner.is_last:
            raise element.refused("a start in it" if is_ahead else "an end in it")
        return AllOf([inner], is_first=not is_ahead, is_last=is_ahead, atoms=inner.atoms)

    def part(self, element: Element) -> Part:
        """A match operator with its count (6.3.3)."""
        part, count = self.uncounted(element), element.attributes.get("count")
        if count is None:
            return part
        if part.is_first or part.is_last or part.has_anchor:
            raise element.refused("a count, and a start, end or anchor in it")
        least, _, most = count.removesuffix("+").partition(":")
        bound = None if count.endswith("+") else int(most or least)
        if bound is not None and not int(least) <= bound >= 1:
            raise element.refused(f"count can't be '{count}'")
        return Times(part, int(least), bound, atoms=part.atoms)

    def uncounted(self, element: Element) -> Part:
        reference = element.attributes.get("by-ref")
        match element.name:
            case "char":
                return Literal(points_of(element, element.attributes["cp"]))
            case "any":
                return AnyOf(lambda _: True)
            case "start":
                return Start(is_first=True)
            case "end":
                return End(is_last=True)
            case "anchor":
                return Anchor(has_anchor=True)
            case "rule":
                return self.named_rule(reference, element) if reference else self.all_of(element)
            case "choice":
                return self.one_of(element)
            case "look-behind" | "look-ahead":
                return self.look(element)
        return AnyOf(self.read_class(element))

    # Classes (6.2).

    def read_class(self, element: Element) -> Class:
        if element.name == "class":
            return functools.cache(self.simple_class(element))
        parts, combined = [self.read_class(child) for child in element.children], COMBINED[element.name]
        return functools.cache(lambda point: combined([has(point) for has in parts]))

    def simple_class(self, element: Element) -> Class:
        if reference := element.attributes.get("by-ref"):
            return self.named_class(reference, element)
        text = element.text.strip(BLANKS)
        tag, name = element.attributes.get("from-tag"), element.attributes.get("property")
        if sum(map(bool, (text, tag, name))) != 1:
            raise element.refused("not one of code points, a tag and a property")
        if tag:
            if tag not in self.tagged:
                raise element.refused(f"nothing has the tag '{tag}'")
            return self.tagged[tag].__contains__
        if name:
            return self.class_by_property(element, name)
        if not re.fullmatch(SPANS, text):
            raise element.refused(f"'{text}' are no code points")
        ends = (word.partition("-") for word in text.split())
        spans = [span_of(element, first, last or first) for first, _, last in ends]
        return lambda point: any(ord(point) in span for span in spans)

    def class_by_property(self, element: Element, name: str) -> Class:
        """Those with a property. The data here have to know each code point that an entry has."""
        try:
            has = unicode_properties.test_of(name)
            if self.unknown:
                raise element.refused(f"the Unicode data here don't know {spelled(min(self.unknown))}")
        except unicode_properties.NoProperty as error:
            raise element.refused(str(error)) from error
        return lambda point: has(ord(point))

    @functools.cached_property
    def unknown(self) -> list[str]:
        return [point for point in self.points if not unicode_properties.is_assigned(ord(point))]


def limited(element: Element, part: Part) -> Part:
    if part.atoms > MOST_ATOMS:
        raise element.refused(f"more than {MOST_ATOMS} parts, with each rule written out where it is named")
    return part
