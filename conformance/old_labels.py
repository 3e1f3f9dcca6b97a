"""Labels from older rules: what a name of a zone stands for, and which labels may have the mark in a file of registered
labels. It is written from the definitions alone, with the codec of RFC 3492 that Python has."""

import re

MARK = "\told"
LABEL_LIMIT = 63
EMPTY, DISALLOWED, HYPHEN, LABEL_TOO_LONG = 3, 10, 13, 18
NOT_LDH = re.compile(r"[\0-,./:-`{-\x7F]")


def name_of(label: str) -> str:
    """The name that a zone has for a label, whether it may be registered or not."""
    return label if label.isascii() else "xn--" + label.encode("punycode").decode()


def stands_for(name: str) -> str:
    """What a name stands for: the label that it is decoded to, if that has this very name, else itself."""
    if not name.startswith("xn--") or not name.isascii():
        return name
    try:
        label = name[4:].encode().decode("punycode")
        label.encode()
    except (UnicodeError, ValueError, OverflowError):
        return name
    return label if name_of(label) == name else name


def old_fault(label: str) -> int | None:
    """The number of the refusal of a label that is to be an old one, or None."""
    if not label:
        return EMPTY
    if NOT_LDH.search(label):
        return DISALLOWED
    if len(label) > LABEL_LIMIT or len(name_of(label)) > LABEL_LIMIT:
        return LABEL_TOO_LONG
    return None if stands_for(name_of(label)) == label else HYPHEN


def zone_line(line: str, registered_as) -> str | int:
    """The line of a label of a zone in a file of registered labels, or the number of its refusal. What may be
    registered is told by `registered_as`: the A-label of a label, or its refusal."""
    answer = registered_as(line)
    if isinstance(answer, str):
        return stands_for(line)
    if not line.isascii():
        return answer
    name = line.lower()
    label = stands_for(name)
    if isinstance(registered_as(name), str):
        return label
    return answer if old_fault(label) else label + MARK
