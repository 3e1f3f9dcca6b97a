"""The one spelling of each line, without its LF."""

from collections.abc import Iterable

from .forms import SET, TYPE, ActionLine, Definition, DemandLine
from .patterns import Branch, Contexts, Group, Item, Optional, Pattern, Point, Set, Sign
from .points import spelled
from .ruleset import BLOCKED, INVALID, Action, Condition, ContextRule, Demand, Entry, Mapped, Rule, Ruleset

VERSION_LINE = "%version 3"


def text_of(ruleset: Ruleset) -> str:
    """The version line, then the types, sets, rules, demands, actions and entries."""
    lines = [VERSION_LINE, *map(type_line, ruleset.types)]
    lines += [set_line(name, spans) for name, spans in ruleset.sets.items()]
    lines += [rule_line(name, rule) for name, rule in ruleset.rules.items()]
    lines += [*map(demand_line, ruleset.demands), *map(action_line, ruleset.actions)]
    lines += map(entry_line, ruleset.entries.values())
    return "".join(line + "\n" for line in lines)


def line_of(form: Definition | DemandLine | ActionLine) -> str:
    """The line of a definition, a demand or an action."""
    if isinstance(form, DemandLine):
        return demand_line(form.demand)
    if isinstance(form, ActionLine):
        return action_line(form.action)
    if form.kind == TYPE:
        return type_line(form.name)
    return set_line(form.name, form.value) if form.kind == SET else rule_line(form.name, form.value)


def type_line(name: str) -> str:
    return f"%type {name}"


def set_line(name: str, spans: Iterable[tuple[int, int]]) -> str:
    return " ".join(["%set", name, *map(span_text, spans)])


def span_text(span: tuple[int, int]) -> str:
    first, last = span
    return f"{first:04X}" if first == last else f"{first:04X}..{last:04X}"


def rule_line(name: str, rule: Rule) -> str:
    if isinstance(rule, ContextRule):
        return f"%rule {name} {contexts_text(rule.contexts)}"
    return f"%whole {name} {pattern_text(rule.pattern)}"


def contexts_text(contexts: Contexts) -> str:
    return " / ".join(context_text(*context) for context in contexts)


def context_text(before: Branch, after: Branch) -> str:
    return " ".join(filter(None, (branch_text(before), Sign.ANCHOR.value, branch_text(after))))


def demand_line(demand: Demand) -> str:
    return f"{demand.word} {pattern_text(demand.pattern)}"


def action_line(action: Action) -> str:
    types = f" {action.types.word} {','.join(action.types.names)}" if action.types else ""
    return f"%action {action.disposition}{condition_text(action.condition)}{types}"


def condition_text(condition: Condition | None) -> str:
    return f" {condition.word} {condition.rule}" if condition else ""


def pattern_text(branches: Pattern) -> str:
    return " / ".join(map(branch_text, branches))


def branch_text(items: Branch) -> str:
    return " ".join(map(item_text, items))


def item_text(item: Item) -> str:
    if isinstance(item, Sign):
        return item.value
    if isinstance(item, Point):
        return f"{item.point:04X}"
    if isinstance(item, Set):
        return f"@{item.name}"
    if isinstance(item, Group):
        return f"({pattern_text(item.branches)})"
    return item_text(item.atom) + ("?" if isinstance(item, Optional) else "*")


def entry_line(entry: Entry) -> str:
    variants = ":".join(mapped_text(variant, BLOCKED) for variant in entry.variants)
    return mapped_text(entry.source, INVALID) + ("|" + variants if variants else "")


def mapped_text(mapped: Mapped, marked: str) -> str:
    """`marked` is the type that '!' stands for."""
    mark, kind = ("!", "") if mapped.type == marked else ("", f" as {mapped.type}" if mapped.type else "")
    return f"{mark}{spelled(mapped.points)}{kind}{condition_text(mapped.condition)}"
