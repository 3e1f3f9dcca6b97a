"""An answer and a refusal, each in a sentence."""

import re
from collections.abc import Mapping

from ..answers import Answer, Refusal, RegisteredLabel, Status
from .html import Child, Markup, element, joined
from .points import name_of

# What a refusal says, by its number (docs/JSON.md). `point` is its code point with its name, `at` its place.
SENTENCES: Mapping[int | None, str] = {
    None: "{point}{at} is a control character, and no label has one.",
    1: "It isn’t UTF-8.",
    2: "It is longer than any label.",
    3: "It is empty.",
    10: "{point}{at} isn’t allowed in a label ({rule}).",
    11: "{point}{at} isn’t assigned in the program’s version of Unicode.",
    12: "It isn’t in Normalization Form C{at}.",
    13: "The hyphen{at} is out of place: a label neither begins nor ends with one, nor has two in its third and fourth place.",
    14: "It begins with a combining mark, {point}.",
    15: "The joiner {point}{at} is out of context ({rule}).",
    16: "{point}{at} is out of context ({rule}).",
    17: "It breaks the Bidi rule with {point}{at} ({rule}).",
    18: "It is too long: a label has at most 63 code points, and its A-label at most 63 octets.",
    19: "It begins with xn--, but is no A-label.",
    40: "{point}{at} isn’t in {table}.",
    41: "It isn’t valid under {table}.",
}
# The same of 41, by a member of its cause: the first that is there, with this value if it has one.
CAUSES: tuple[tuple[str, str | None, str], ...] = (
    ("unclear", None, "It arises in several ways under {table}, with types that differ."),
    ("default_action", None, "{point}{at} has the type {type} under {table}, and no label may."),
    ("action", None, "Action {action} of {table} refuses it."),
    ("condition", "when", "{point}{at} may stand only where the rule {rule} of {table} holds."),
    ("condition", "unless", "{point}{at} may not stand where the rule {rule} of {table} holds."),
    ("kind", "never", "It has a part that demand {demand} of {table} bars."),
    ("kind", "always", "It has no part that demand {demand} of {table} wants."),
)


def refusal_sentence(refusal: Refusal, table: str | None = None) -> str:
    """Why a label is refused, by a table where it is one that refuses it."""
    told = refusal.details
    sentence = SENTENCES.get(refusal.number, str(refusal))
    if refusal.number == 41:
        causes = (words for member, value, words in CAUSES if member in told and value in (None, told[member]))
        sentence = next(causes, sentence)
    where = f" at place {told['place']}" if "place" in told else ""
    filled = {"point": point_words(told.get("code_point")), "at": where, "rule": told.get("rule", ""),
              "table": "the table" if table is None else f"the table {table}"}
    sentence = sentence.format_map({**told, **filled}).replace(" ()", "")
    return f"What it stands for is refused: {sentence}" if told.get("decoded") else sentence[:1].upper() + sentence[1:]


def point_words(told: object) -> str:
    """A code point of a refusal with its name."""
    if not isinstance(told, str) or not re.fullmatch(r"U\+[0-9A-F]{4,6}", told):
        return "what stands"
    return f"{told} {name_of(int(told[2:], 16))}"


def label_words(label: str) -> Markup:
    """A label within a sentence, whatever its direction."""
    return element("bdi", label, class_="label")


def holder_words(label: RegisteredLabel) -> Child:
    """Who holds a registered label."""
    return "" if label.holder is None else [", held by ", element("bdi", label.holder)]


def taken_sentence(answer: Answer) -> Child:
    """What a label collides with."""
    if [each.ulabel for each in answer.taken_by] == [answer.ulabel]:
        return ["is taken: it is registered", holder_words(answer.taken_by[0]), "."]
    first, *others = answer.taken_by
    rest = f" and {len(others)} other{'s' if len(others) > 1 else ''}" if others else ""
    return ["is taken: it collides with ", label_words(first.ulabel), holder_words(first), rest, "."]


def verdict(answer: Answer, refusals: Mapping[str, Refusal]) -> Markup:
    """What is said of a label, in a sentence; of the tables that refuse it the first is told."""
    name = label_words(answer.ulabel or answer.label) if answer.label else "The empty label"
    match answer.status:
        case Status.AVAILABLE:
            said: Child = "is available."
        case Status.TAKEN:
            said = taken_sentence(answer)
        case Status.REFUSED if refusals:
            table, refusal = next(iter(refusals.items()))
            none = ": no table admits it" if len(refusals) > 1 else ""
            said = [f"can’t be registered{none}. ", refusal_sentence(refusal, table)]
        case Status.REFUSED if answer.refusal is not None:
            said = ["can’t be registered. ", refusal_sentence(answer.refusal)]
        case _:
            reason = element("bdi", answer.public.reason or "")
            return joined("It isn’t known whether ", name, " is available: ", reason, ".")
    return joined(name, " ", said)
