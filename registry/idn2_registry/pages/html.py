"""HTML whose every text is escaped."""

from collections.abc import Iterable
from html import escape
from typing import Union

Attribute = str | int | bool | None
Child = Union[str, None, Iterable["Child"]]
VOID = ("input", "link", "meta", "br")


class Markup(str):
    """A text that is HTML already."""


def text_of(child: Child) -> str:
    """The HTML of what stands in an element."""
    if child is None:
        return ""
    if isinstance(child, Markup):
        return child
    if isinstance(child, str):
        # What is no Unicode can't be sent.
        return escape(child.encode("utf-8", "replace").decode())
    return "".join(map(text_of, child))


def element(name: str, /, *children: Child, **attributes: Attribute) -> Markup:
    """An element. A name of an attribute ends with `_` where Python has a word of this name."""
    told = []
    for attribute, value in attributes.items():
        attribute = attribute.rstrip("_").replace("_", "-")
        if value is True:
            told.append(f" {attribute}")
        elif value is not None and value is not False:
            told.append(f' {attribute}="{text_of(str(value))}"')
    head = f"<{name}{''.join(told)}>"
    return Markup(head if name in VOID else f"{head}{text_of(children)}</{name}>")


def joined(*children: Child) -> Markup:
    """Several as one."""
    return Markup(text_of(children))
