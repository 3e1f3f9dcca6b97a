"""The metadata of a published ruleset (RFC 7940, section 4.3), from a file of TOML beside the table."""

import datetime
import re
from collections.abc import Iterator
from pathlib import Path
from typing import Any

from .configuration import Reader
from .faults import Unusable
from .publish_xml import Element

# Those that IANA wants, and all that there are, in the order in which they are written. Where the file doesn't name the version
# of Unicode, it is the program's.
WANTED = ("version", "date", "language", "scope")
KEYS = (*WANTED, "validity-start", "validity-end", "unicode-version", "description", "references")
DATES = ("date", "validity-start", "validity-end")
LISTS = ("language", "scope")
# A tag of RFC 5646, as far as its form goes; a name of a zone, or the root; a version of Unicode.
LANGUAGE = r"[A-Za-z]{2,8}(-[A-Za-z0-9]{1,8})*"
SCOPE = r"\.|([a-z0-9]([a-z0-9-]{0,61}[a-z0-9])?\.)*[a-z0-9]([a-z0-9-]{0,61}[a-z0-9])?"
FORMS = {
    "version": (r"\S+", 'a version, as "1"'),
    "date": (r"\d{4}-\d{2}-\d{2}", "a date, as 2026-11-28"),
    "language": (LANGUAGE, 'a language, as "de" or "und-Latn"'),
    "scope": (SCOPE, 'a zone, as "example", or "." for the root'),
    "unicode-version": (r"\d+\.\d+\.\d+", 'a version of Unicode, as "18.0.0"'),
    "description": (r"(?s).*\S.*", "a text"),
}
# What no XML can have (XML 1.0, section 2.2).
NO_XML = re.compile("[^\t\n\r\x20-\uD7FF\uE000-\uFFFD\U00010000-\U0010FFFF]")


def read_metadata(path: Path, unicode_version: str) -> list[Element]:
    """The elements of a file's metadata. Raises Unusable with the file, the line and the remedy."""
    if not path.is_file():
        raise Unusable(f"{path}: no such file: write the metadata that IANA wants into it ({', '.join(WANTED)}), or name "
                       "another with --meta FILE")
    return MetadataReader(path).elements(unicode_version)


class MetadataReader(Reader):
    """Reads one file."""

    def elements(self, unicode_version: str) -> list[Element]:
        """All of it, in the order of the standard."""
        for key in self.values:
            if key not in KEYS:
                raise self.fault(key, f"nothing has this name: write one of {', '.join(KEYS)}")
        for key in WANTED:
            if key not in self.values:
                raise self.fault(key, f"IANA wants it, and it is missing: write {key} = ..")
        self.values.setdefault("unicode-version", unicode_version)
        dates = {key: self.date(key) for key in DATES if key in self.values}
        if "validity-end" in dates and dates["validity-end"] < dates.get("validity-start", dates["date"]):
            raise self.fault("validity-end", "it is before the validity begins")
        return [element for key in KEYS if key in self.values for element in self.written(key)]

    def written(self, key: str) -> Iterator[Element]:
        """The elements of a key."""
        if key == "references":
            yield Element(key, children=list(self.references()))
            return
        values = self.values[key] if key in LISTS and isinstance(self.values[key], list) else [self.values[key]]
        if not values:
            raise self.fault(key, f"write {FORMS[key][1]}")
        attributes = {"type": "domain"} if key == "scope" else {}
        for value in values:
            yield Element(key, dict(attributes), text=self.told(key, value))

    def told(self, key: str, value: Any, section: str = "") -> str:
        """A value as XML has it."""
        form, words = FORMS["date" if key in DATES else "description" if section else key]
        if isinstance(value, datetime.date) and not isinstance(value, datetime.datetime):
            value = value.isoformat()
        if not isinstance(value, str) or not re.fullmatch(form, value):
            raise self.fault(key, f"write {words}", section)
        if found := NO_XML.search(value):
            raise self.fault(key, f"no XML can have U+{ord(found[0]):04X}", section)
        return value.strip()

    def date(self, key: str) -> datetime.date:
        """A date; one that isn't in the calendar is none."""
        try:
            return datetime.date.fromisoformat(self.told(key, self.values[key]))
        except ValueError as error:
            raise self.fault(key, f"write {FORMS['date'][1]}") from error

    def references(self) -> Iterator[Element]:
        """The references by their names."""
        for name, value in self.section("references").items():
            if not re.fullmatch(r"[\w.:-]+", name):
                raise self.fault(name, "not a name of a reference: letters, digits, '.', ':' and '-'", "references")
            yield Element("reference", {"id": name}, text=self.told(name, value, "references"))
