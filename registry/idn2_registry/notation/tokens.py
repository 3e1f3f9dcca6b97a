"""What a line is cut into: signs, runs of full stops, and words.

A token is its bytes, and by them it is known what it is, since a word has no sign and no full stop.
"""

import re

TOKEN = re.compile(rb"\.+|[-|:!,/()?*^$]|[^-|:!,/()?*^$. \t]+")
TO, ANY = b"..", b"."


def tokens_of(line: bytes) -> list[bytes]:
    return TOKEN.findall(line)
