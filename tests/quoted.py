#!/usr/bin/env python3
"""The definitions that docs/DEFINITIONS.md quotes, compared with their files by pages.py. `--write` puts each of them into
the document as it stands in its file now, after a definition was changed; the words around it are for you to mend."""

import os
import re
import sys

from program import ROOT, text_of

DOCUMENT = os.path.join(ROOT, "docs", "DEFINITIONS.md")
# The name of a file, and the fenced block with what it quotes of it.
BLOCK = re.compile(r"^\*(\w+/specs/[\w/]+\.antt)\*\n\n```antt\n(.*?)^```$", re.MULTILINE | re.DOTALL)
NAME = re.compile(r"^(?:unfoldable |abbrev )?(?:pub )?(?:record |data )?(\w+)\b", re.MULTILINE)


def paragraphs(text):
    """What stands between blank lines."""
    return [part.strip("\n") for part in re.split(r"\n\s*\n", text) if part.strip()]


def name_of(paragraph):
    """What a paragraph defines, by its first line that is no comment."""
    code = "\n".join(line for line in paragraph.splitlines() if not line.startswith("--"))
    return found.group(1) if (found := NAME.match(code)) else None


def definitions(file):
    """Each definition of a file, by its name: its comment and all of its lines."""
    return {name_of(part): part for part in paragraphs(text_of("crates", file))}


def quotes(text):
    """(file, definition) of each definition that a text quotes."""
    return [(file, part) for file, block in BLOCK.findall(text) for part in paragraphs(block)]


def block_of(file, names):
    """The block that quotes these definitions of a file."""
    body = "\n\n".join(definitions(file)[name] for name in names)
    return f"*{file}*\n\n```antt\n{body}\n```"


def written_again(text):
    return BLOCK.sub(lambda block: block_of(block.group(1), map(name_of, paragraphs(block.group(2)))), text)


if __name__ == "__main__":
    if sys.argv[1:] != ["--write"]:
        sys.exit("usage: python3 tests/quoted.py --write")
    quoted = written_again(text_of(DOCUMENT))
    with open(DOCUMENT, "w", encoding="utf-8") as document:
        document.write(quoted)
