"""Rules and demands in words, and sequences that they match."""

import itertools
from collections.abc import Iterable, Iterator, Mapping, Sequence

from ..notation.patterns import Branch, Contexts, Group, Item, Many, Optional, Pattern, Point, Set, Sign
from ..notation.points import Points
from ..notation.ruleset import Action, ContextRule, Demand, Rule, WholeLabelRule
from .html import Child, element
from .points import glyph_of, number_of

# So many sequences of a pattern are tried, and so many members of a set.
MOST, MEMBERS = 24, 3
# A code point stands for "any code point" in these.
ANY = None
Sample = tuple[int | None, ...]
Spans = Sequence[tuple[int, int]]


def point_words(point: int) -> Child:
    """A code point."""
    return [glyph_of(point), " ", element("code", number_of(point))]


def item_words(item: Item) -> Child:
    """An item of a pattern."""
    match item:
        case Point(point):
            return point_words(point)
        case Set(name):
            return ["a code point of ", element("a", name, href=f"#set-{name}")]
        case Group(branches):
            return ["one of (", pattern_words(branches), ")"]
        case Optional(atom):
            return ["perhaps ", item_words(atom)]
        case Many(Sign.ANY):
            return "any number of code points"
        case Many(atom):
            return ["any number of times ", item_words(atom)]
        case Sign.START:
            return "the start of the label"
        case Sign.END:
            return "the end of the label"
        case _:
            return "any code point"


def joined_words(parts: Sequence[Child], between: str) -> Child:
    """Several, with words between them."""
    return [[between if place else "", each] for place, each in enumerate(parts)]


def branch_words(branch: Branch) -> Child:
    """A branch: one item after the other."""
    return joined_words([item_words(item) for item in branch], ", then ")


def pattern_words(branches: Pattern) -> Child:
    """A pattern: any of its branches."""
    return joined_words([branch_words(branch) for branch in branches], "; or ")


def is_edge(branch: Branch, edge: Sign) -> bool:
    """Whether a branch is nothing but the start or the end of the label."""
    return branch == (edge,)


def context_words(before: Branch, after: Branch) -> Child:
    """A context: what stands before and after a place."""
    told: list[Child] = []
    if before:
        told.append("at the start of the label" if is_edge(before, Sign.START) else ["directly after ", branch_words(before)])
    if after:
        told.append("at the end of the label" if is_edge(after, Sign.END) else ["directly before ", branch_words(after)])
    return joined_words(told, ", and ") if told else "everywhere"


def rule_words(contexts: Contexts) -> Child:
    """A rule: any of its contexts."""
    return joined_words([context_words(before, after) for before, after in contexts], "; or ")


def rule_sentence(rule: Rule) -> Child:
    """A rule in a sentence."""
    if isinstance(rule, ContextRule):
        return ["Holds ", rule_words(rule.contexts), "."]
    return ["Holds everywhere in a label of which some part is ", pattern_words(rule.pattern), "."]


def branches_of(rule: Rule) -> Iterator[Branch]:
    """The branches of a rule of either kind."""
    return iter(rule.pattern) if isinstance(rule, WholeLabelRule) else itertools.chain(*rule.contexts)


# What a label is by its disposition, and how an action asks for types (RFC 7940, sections 7.2 and 7.3).
BECOMES = {"invalid": "is refused", "blocked": "is blocked"}
ASKS = {"any": "in which something has the type ", "all": "in which all that is mapped has the type ",
        "only": "in which everything has the type "}


def action_sentence(action: Action) -> Child:
    """An action in a sentence."""
    told: list[Child] = []
    if action.condition:
        words = "for which the rule " if action.condition.word == "when" else "for which not the rule "
        told.append([words, element("a", action.condition.rule, href=f"#rule-{action.condition.rule}"), " holds"])
    if action.types:
        names = [element("b", name) for name in action.types.names]
        told.append([ASKS[action.types.word], joined_words(names, " or ")])
    subject = ["One ", joined_words(told, ", and ")] if told else "Every other one"
    return [subject, f" {BECOMES.get(action.disposition, 'is allocatable')}."]


def demand_sentence(demand: Demand) -> Child:
    """A demand in a sentence."""
    first = "No part of a label is" if demand.word == "%never" else "Some part of each label is"
    if len(demand.pattern) <= 2:
        return [f"{first} ", pattern_words(demand.pattern), "."]
    return [f"{first} one of these:", element("ul", *(element("li", branch_words(branch)) for branch in demand.pattern))]


def sets_named(branches: Iterable[Branch]) -> Iterator[str]:
    """The names of the sets in a pattern."""
    for item in itertools.chain(*branches):
        match item:
            case Set(name):
                yield name
            case Group(inner):
                yield from sets_named(inner)
            case Optional(atom) | Many(atom):
                yield from sets_named(((atom,),))


def samples(branch: Branch, sets: Mapping[str, Spans]) -> list[Sample]:
    """Some sequences that a branch matches."""
    choices = [list(itertools.islice(item_samples(item, sets), MOST)) for item in branch]
    products = itertools.islice(itertools.product(*choices), MOST)
    return [tuple(itertools.chain(*pieces)) for pieces in products]


def item_samples(item: Item, sets: Mapping[str, Spans]) -> Iterator[Sample]:
    """Some sequences that an item matches."""
    match item:
        case Point(point):
            yield (point,)
        case Set(name):
            yield from ((member,) for member in members(sets[name]))
        case Group(branches):
            for branch in branches:
                yield from samples(branch, sets)
        case Optional(atom) | Many(atom):
            yield from ((), *item_samples(atom, sets))
        case Sign.START | Sign.END:
            yield ()
        case _:
            yield (ANY,)


def members(spans: Spans) -> Points:
    """The first members of a set, and the last one."""
    first = list(itertools.islice(itertools.chain(*(range(start, end + 1) for start, end in spans)), MEMBERS))
    return tuple(dict.fromkeys([*first, spans[-1][1]]))
