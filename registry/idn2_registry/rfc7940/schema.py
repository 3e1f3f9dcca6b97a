"""The elements of a Label Generation Ruleset in XML, as the schema of RFC 7940 has them (its appendix D), read
strictly.

What the schema doesn't allow is refused, with its line. The numbers in comments are sections of RFC 7940. Of
`comment`, `ref` and what stands in `meta` only the names are looked at, since nothing follows from their values."""

import dataclasses
import re
from xml.parsers import expat

NAMESPACE = "urn:ietf:params:xml:ns:lgr-1.0"
DEEPEST = 64


class Refused(Exception):
    """A file is refused: the line, from 1, and the reason."""

    def __init__(self, line: int, reason: str) -> None:
        super().__init__(f"line {line}: {reason}")
        self.line, self.reason = line, reason


@dataclasses.dataclass
class Element:
    name: str
    attributes: dict[str, str]
    line: int
    children: list["Element"] = dataclasses.field(default_factory=list)
    text: str = ""

    def refused(self, reason: str) -> Refused:
        return Refused(self.line, f"{self.name}: {reason}")


# For each element the attributes that it must have, those that it may have, and what stands in it: a pattern of names,
# each with a blank after it, or TEXT. Below `rules` a rule or class has a name; elsewhere it has none, and may refer
# to one (6.3.4).
CLASSES = "class|complement|union|intersection|difference|symmetric-difference"
MATCHERS = f"any|choice|char|rule|{CLASSES}"
OPERATORS = f"(?=.)(start )?(({MATCHERS}) )*(end )?"
OF_META = "version|date|language|scope|validity-start|validity-end|unicode-version|description|references"
NOTES = "comment ref"
SCHEMA = {
    "": ("", "", "lgr "),
    "lgr": ("", "", "(meta )?data (rules )?"),
    "meta": ("", "", f"(({OF_META}) )*"),
    **dict.fromkeys(OF_META.split("|"), ("", "comment", "TEXT")),
    "scope": ("type", "comment", "TEXT"),
    "description": ("", "type comment", "TEXT"),
    "references": ("", "comment", "(reference )*"),
    "reference": ("id", "comment", "TEXT"),
    "data": ("", "", "((char|range) )+"),
    "char": ("cp", f"when not-when tag {NOTES}", "(var )*"),
    "range": ("first-cp last-cp", f"when not-when tag {NOTES}", ""),
    "var": ("cp", f"type when not-when {NOTES}", ""),
    "rules": ("", "", f"((rule|action|{CLASSES}) )*"),
    "action": ("disp", f"match not-match any-variant all-variants only-variants {NOTES}", ""),
    "class": ("", f"from-tag property {NOTES}", "TEXT"),
    "class by-ref": ("by-ref", "comment", ""),
    "complement": ("", NOTES, f"({CLASSES}) "),
    "union": ("", NOTES, f"(({CLASSES}) ){{2,}}"),
    **dict.fromkeys(("intersection", "difference", "symmetric-difference"), ("", NOTES, f"(({CLASSES}) ){{2}}")),
    "rule": ("", NOTES, f"{OPERATORS}|(look-behind )?anchor (look-ahead )?"),
    "rule by-ref": ("by-ref", NOTES, ""),
    "choice": ("", NOTES, f"(({MATCHERS}|start|end) ){{2,}}"),
    "literal": ("cp", NOTES, ""),
    **dict.fromkeys(("any", "start", "end", "anchor"), ("", NOTES, "")),
    **dict.fromkeys(("look-behind", "look-ahead"), ("", NOTES, OPERATORS)),
}
# What may be counted, and below what (6.3.3): a class within another may not.
COUNTED, HOLDERS = MATCHERS.split("|"), ("rule", "choice", "look-behind", "look-ahead")
# An element has one of each of these at most (5.2, 6.2, 7.1, 7.2).
EITHER = ("when not-when", "match not-match", "any-variant all-variants only-variants", "from-tag property")

BLANKS = " \t\r\n"
POINT, NAME, TOKEN, TYPE = "[0-9A-F]{4,6}", r"[^\W\d][\w.\-]*", r"[\w.:\-]+", r"(?!_)[\w.:\-]+"


def listed(word: str) -> str:
    """A pattern of one or more such words."""
    return f"[{BLANKS}]*{word}([{BLANKS}]+{word})*[{BLANKS}]*"


SPANS = listed(f"{POINT}(-{POINT})?")
VALUES = {
    "cp": listed(POINT), "var cp": f"({listed(POINT)})?", "first-cp": POINT, "last-cp": POINT, "tag": listed(TOKEN),
    **dict.fromkeys(("name", "by-ref", "when", "not-when", "match", "not-match"), NAME),
    "from-tag": TOKEN, "property": TOKEN, "count": r"[0-9]{1,9}(\+|:[0-9]{1,9})?", "type": TYPE, "disp": TYPE,
    **dict.fromkeys(("any-variant", "all-variants", "only-variants"), listed(TYPE)),
}


def elements_of(text: bytes) -> Element:
    """The `lgr` of a document in UTF-8, of one namespace and without a document type, whose elements are as the schema
    has them."""
    top = tree_of(text)
    check(top, "")
    return top.children[0]


def tree_of(text: bytes) -> Element:
    """The elements of a document, below one without a name."""
    try:
        text.decode("utf-8")
    except UnicodeDecodeError as error:
        raise Refused(text.count(b"\n", 0, error.start) + 1, "no UTF-8") from error
    tree = Tree()
    try:
        tree.parser.Parse(text, True)
    except expat.ExpatError as error:
        raise Refused(error.lineno, f"no XML: {expat.ErrorString(error.code)}") from error
    return tree.top


class Tree:
    """The elements that a parser of XML has told so far."""

    def __init__(self) -> None:
        self.top = Element("", {}, 1)
        self._within = [self.top]
        self.parser = parser = expat.ParserCreate("utf-8", " ")
        parser.buffer_text = True
        parser.XmlDeclHandler, parser.StartNamespaceDeclHandler = self._declaration, self._namespace
        parser.StartDoctypeDeclHandler = lambda *_: self._demand(False, "a document type")
        parser.StartElementHandler, parser.EndElementHandler = self._start, self._end
        parser.CharacterDataHandler = self._characters

    def _demand(self, holds: bool, reason: str) -> None:
        if not holds:
            raise Refused(self.parser.CurrentLineNumber, reason)

    def _declaration(self, version: str, encoding: str | None, _: int) -> None:
        self._demand(version == "1.0", f"XML {version}")
        self._demand((encoding or "utf-8").lower() in ("utf-8", "us-ascii"), f"the encoding '{encoding}'")

    def _namespace(self, _: str | None, uri: str | None) -> None:
        self._demand(len(self._within) == 1 and uri == NAMESPACE, f"the namespace '{uri or ''}' is declared")

    def _start(self, name: str, attributes: dict[str, str]) -> None:
        of, _, local = name.rpartition(" ")
        self._demand(of == NAMESPACE, f"{local}: it is in another namespace")
        self._demand(len(self._within) <= DEEPEST, "too many levels")
        element = Element(local, attributes, self.parser.CurrentLineNumber)
        self._within[-1].children.append(element)
        self._within.append(element)

    def _end(self, _: str) -> None:
        self._within.pop()

    def _characters(self, data: str) -> None:
        self._within[-1].text += data


def check(element: Element, parent: str) -> None:
    """Refuses an element that isn't as the schema has it below this parent, or that has such a one in it."""
    name = element.name
    invokes = "by-ref" in element.attributes and name in ("class", "rule") and parent != "rules"
    row = "literal" if name == "char" and parent != "data" else f"{name} by-ref" if invokes else name
    must, may, content = SCHEMA[row]
    must += " name" if parent == "rules" and name != "action" else ""
    may += " count" if parent in HOLDERS and name in COUNTED else ""
    check_attributes(element, must.split(), [*must.split(), *may.split()], parent)
    if content != "TEXT" and element.text.strip(BLANKS):
        raise element.refused("text in it")
    for child in element.children:
        if child.name not in re.findall("[a-z-]+", content):
            raise child.refused(f"it can't stand in '{name}'" if name else "it can't be the root")
        check(child, name)
    names = "".join(f"{child.name} " for child in element.children)
    if content != "TEXT" and not re.fullmatch(content, names):
        raise element.refused("not what the schema has in it, or in another order" if names else "nothing in it")


def check_attributes(element: Element, required: list[str], allowed: list[str], parent: str) -> None:
    for attribute, value in element.attributes.items():
        if attribute not in allowed:
            raise element.refused(f"the attribute '{attribute.rpartition(' ')[2]}' can't stand here")
        pattern = VALUES.get(f"{element.name} {attribute}", VALUES.get(attribute))
        if pattern and parent not in ("meta", "references") and not re.fullmatch(pattern, value):
            raise element.refused(f"{attribute} can't be '{value}'")
    for attribute in required:
        if attribute not in element.attributes:
            raise element.refused(f"it has no '{attribute}'")
    for group in EITHER:
        given = [attribute for attribute in group.split() if attribute in element.attributes]
        if len(given) > 1:
            raise element.refused(f"both '{given[0]}' and '{given[1]}'")
