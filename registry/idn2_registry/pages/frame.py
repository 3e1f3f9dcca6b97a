"""What all pages have in common."""

import pkgutil
from collections.abc import Sequence
from dataclasses import dataclass
from urllib.parse import quote

from .html import Child, Markup, element, joined

STYLE, SCRIPT, ICON = "page.css", "page.js", "icon.svg"


def file_of(name: str) -> bytes:
    """A file beside this one."""
    return pkgutil.get_data(__package__, name) or b""


def way_to(table: str) -> str:
    """Where the page of a table is."""
    return f"/tables/{quote(table, safe='')}"


@dataclass(frozen=True)
class Frame:
    """The names of the tables, to each of which there is a way from each page. A page that stands alone has its style in
    itself, and leads nowhere."""

    tables: Sequence[str] = ()
    stands_alone: bool = False

    def page(self, title: str, *content: Child) -> bytes:
        """A whole page."""
        head = element("head", element("meta", charset="utf-8"), element("title", title),
                       element("meta", name="viewport", content="width=device-width, initial-scale=1"),
                       element("meta", name="color-scheme", content="light dark"), self.style())
        skip = element("a", "Skip to the content", href="#content", class_="skip")
        main = element("main", *content, id="content", tabindex="-1")
        body = element("body", skip, None if self.stands_alone else self.header(), main)
        return f"<!DOCTYPE html>\n{element('html', head, body, lang='en')}\n".encode()

    def fault(self, words: str) -> bytes:
        """A page that says why there is no other."""
        return self.page("No answer", element("h1", "No answer"), element("p", words[:1].upper() + words[1:], "."))

    def style(self) -> Markup:
        """Where the style is."""
        if self.stands_alone:
            return element("style", Markup(file_of(STYLE).decode()))
        return joined(element("link", rel="icon", href=f"/{ICON}"), element("link", rel="stylesheet", href=f"/{STYLE}"),
                      element("script", src=f"/{SCRIPT}", defer=True))

    def header(self) -> Markup:
        """The ways to other pages."""
        ways = [element("li", element("a", "Check a label", href="/"))]
        ways += [element("li", element("a", "Table ", element("b", name), href=way_to(name))) for name in self.tables]
        return element("header", element("nav", element("ul", *ways), aria_label="Pages"))
