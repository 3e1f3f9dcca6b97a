#!/usr/bin/env python3
"""Tests that documents and comments have none of the words in the column 'Not' of docs/GLOSSARY.md. It reads text alone, in a
second or two. The last line is 'N passed, M failed', and the exit status is 0 where nothing failed."""

import functools
import glob
import os
import re
import sys

from program import ROOT, run_tests, text_of

DOCUMENTS = ("*.md", "docs/*")
SOURCES = ("crates/*/src/**/*.rt", "crates/*/specs/**/*.antt", "crates/*/proofs/**/*.antt", "bench/*.py", "conformance/*.py",
           "registry/**/*.py", "tables/*.py", "tests/*.py", "tests/gate", "Makefile")
GLOSSARY = os.path.join(ROOT, "docs", "GLOSSARY.md")
# What begins a comment, by the ending of a file.
COMMENT = {".rt": r"//[/!]?(.*)$", ".antt": r"--(.*)$", ".py": r"(?:^|\s)#(.*)$", "": r"(?:^|\s)#(.*)$"}


def paths(patterns):
    found = [path for pattern in patterns for path in glob.glob(os.path.join(ROOT, pattern), recursive=True)]
    return sorted(path for path in found if os.path.isfile(path))


def rows(text):
    """The cells of each row of the tables of the glossary, without the heads."""
    lines = [line for line in text.splitlines() if line.startswith("| ") and not line.startswith("| Word |")]
    return [[cell.strip() for cell in line.strip("|").split("|")] for line in lines]


@functools.cache
def unused():
    """The words that aren't used, each with the word that is."""
    return {word: row[0] for row in rows(text_of(GLOSSARY)) for word in row[2].split(", ") if word}


@functools.cache
def pattern(*words):
    """Any of the words, as they stand or with a capital, one or several of the thing, also where a line ends within them."""
    forms = (f"[{word[0].upper()}{word[0]}]{re.escape(word[1:])}".replace(r"\ ", r"\s+") for word in words)
    return re.compile(rf"\b(?:{'|'.join(re.sub('y$', '(?:y|ie)', form) for form in forms)})(?:e?s)?(?!\w)")


def unused_in(text):
    """The words in a text that aren't used, each with what is said in its place."""
    if not pattern(*unused()).search(text):
        return []
    return [f"{word}: say {said}" for word, said in unused().items() if pattern(word).search(text)]


def prose_of(path):
    """The text of a document without sessions, scripts, what stands between backticks, and paths."""
    text = text_of(path)
    if path == GLOSSARY:
        text = "\n".join(line.rpartition(" | ")[0] if line.startswith("| ") else line for line in text.splitlines())
    for fence in (r"^```.*?^```$", r"^\.EX\n.*?^\.EE$"):
        text = re.sub(fence, "", text, flags=re.MULTILINE | re.DOTALL)
    if os.path.basename(path) != "DECISIONS.md":
        text = re.sub(r"^    .*$", "", text, flags=re.MULTILINE)
    return re.sub(r"`[^`]*`|\[[^]]*\]\(\S*\)|[\w.]*/[\w./-]+", "", text)


def comments_of(path):
    """The comments of a source, without what stands between backticks, and paths; in Python the texts of documentation, too."""
    text = text_of(path)
    ending = os.path.splitext(path)[1]
    found = re.findall(COMMENT[ending], text, re.MULTILINE)
    if ending == ".py":
        found += re.findall(r'"""(.*?)"""', text, re.DOTALL)
    return re.sub(r"`[^`]*`|[\w.]*/[\w./-]+", "", "\n".join(found))


def expect_none(texts):
    """None in these texts, by their paths."""
    found = {os.path.relpath(path, ROOT): words for path, text in texts if (words := unused_in(text))}
    assert not found, found


def stand_in_documents(folder):
    documents = paths(DOCUMENTS)
    assert len(documents) > 10, documents
    expect_none(((path, prose_of(path)) for path in documents))


def stand_in_comments(folder):
    expect_none(((path, comments_of(path)) for path in paths(SOURCES)))


def are_listed_once(folder):
    """No word is on the list of two ideas, or used for one and not for another."""
    words = [word for row in rows(text_of(GLOSSARY)) for word in row[0].split(", ")]
    listed = [word for row in rows(text_of(GLOSSARY)) for word in row[2].split(", ") if word]
    assert listed and len(listed) == len(set(listed)) and len(words) == len(set(words)), (listed, words)
    assert not set(words) & set(listed), set(words) & set(listed)


if __name__ == "__main__":
    sys.exit(run_tests("words", [are_listed_once, stand_in_documents, stand_in_comments]))
