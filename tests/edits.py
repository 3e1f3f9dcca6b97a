#!/usr/bin/env python3
"""Tests that each mutant can be applied, also those that the gate doesn't try: each text that an edit replaces stands
exactly once in its file. And that each says in its first line what it breaks, 'breaks: FUNCTION, clause NAME', or 'its clause'
where that has no name, and perhaps ': ' and an input at which it does; that this function and this clause are there; and that it
changes the body of this function, if it changes bodies alone. Whether the checker refuses the edit, and at which clause, is
another question, which takes it far longer to answer. The last line is 'N passed, M failed', and the exit status is 0 where nothing failed."""

import collections
import functools
import glob
import os
import re
import sys

from program import ROOT, run_tests

FOLDERS = ("must-fail", "planted", "wrong-bodies")
BREAKS = re.compile(r"breaks: (\w+), (?:clause (\w+)|its clause)(?:: (.+))?")
# The trait of an impl, if it is of one, and its type; or a trait, whose methods may have bodies.
IMPL = re.compile(r"^impl\b(?:<.*?>)? (?:(.*) for )?&?\s*(\w+)")
TRAIT = re.compile(r"^(?:pub(?:\(\w+\))? )?trait (\w+)")
HEAD = re.compile(r"^( *)(?:pub(?:\(\w+\))? )?(?:final )?(?:const )?(?:unsafe )?fn (\w+)")

# What an edit says that it breaks: a function, its clause, which may have no name, and perhaps an input at which it does.
Said = collections.namedtuple("Said", "function clause example")
# The body of a function, with the type of its impl, and the trait of that.
Body = collections.namedtuple("Body", "file owner trait function first last")


def text_of(path):
    """The text of a file; of one that is not there, the empty text, in which nothing stands."""
    if not os.path.isfile(path):
        return ""
    with open(path, encoding="utf-8") as file:
        return file.read()


def replacements(edit):
    """(file, old, new) of each replacement of an edit, in order."""
    file = old = None
    for line in text_of(edit).splitlines():
        word, _, rest = line.partition(": ")
        if word == "file":
            file = rest
        elif word == "old":
            old = rest
        elif word in ("new", "new:"):
            yield file, old, rest
            old = None
        elif word != "breaks":
            raise ValueError(f"{edit}: a line that is none of breaks, file, old and new: {line}")


def fault_of(crate, edit):
    """Why the edit can't be applied to its crate, or None. A replacement works on what those before it made."""
    pairs, texts = list(replacements(edit)), {}
    for name, old, new in pairs:
        if not name or not old or old == new:
            return "a replacement lacks its file, what it replaces, or anything else in its place"
        text = texts.get(name) or text_of(os.path.join(crate, name))
        if (count := text.count(old)) != 1:
            return f"{name} has '{old}' {count} times"
        texts[name] = text.replace(old, new)
    return None if pairs else "it replaces nothing"


def bodies_of(file, text):
    """Each function of a file that has a body, by the layout that rt fmt makes."""
    lines = text.split("\n")
    owner = trait = ""
    for first, line in enumerate(lines):
        if owns := IMPL.match(line):
            trait, owner = owns[1] or "", owns[2]
        elif owns := TRAIT.match(line):
            trait, owner = "", owns[1]
        head = HEAD.match(line)
        if not head:
            continue
        end = head[1] + "}"
        # a goal may be told at an attribute
        top = next(row for row in range(first, -1, -1) if row == 0 or not lines[row - 1].strip())
        for last in range(first, len(lines)):
            if lines[last] == end:
                yield Body(file, owner if head[1] else "", trait if head[1] else "", head[2], top + 1, last + 1)
                break
            if lines[last] == head[1] + "{}" or lines[last].endswith(";") and not any(row.endswith("{") for row in lines[first:last + 1]):
                break  # an empty body, or a declaration


def bodies_changed(crate, pairs):
    """The bodies that replacements change; none where they change anything else."""
    texts, bodies = {}, set()
    for file, old, new in pairs:
        text = texts.get(file) or text_of(os.path.join(crate, file))
        line = text[:text.index(old)].count("\n") + 1
        around = [body for body in bodies_of(file, text) if body.first < line < body.last]
        bodies.add(around[-1] if around else None)
        texts[file] = text.replace(old, new)
    return frozenset() if None in bodies else frozenset(bodies)


def said_of(edit):
    """What the first line of an edit says, or None."""
    said = BREAKS.fullmatch(text_of(edit).partition("\n")[0])
    return Said(*said.groups()) if said else None


@functools.cache
def clauses_of(crate):
    """The names of the clauses of each function of a crate; of functions of one name, those of all."""
    found = collections.defaultdict(set)
    for path in glob.glob(os.path.join(crate, "src", "**", "*.rt"), recursive=True):
        for function in re.split(r"\bfn (?=\w)", text_of(path))[1:]:
            found[re.match(r"\w+", function)[0]].update(re.findall(r"\bensures\*? (\w+) \{", function))
    return found


def unsaid(crate, edit):
    """Why the first line of an edit doesn't say what it breaks, or None."""
    said = said_of(edit)
    if not said:
        return "its first line is not 'breaks: FUNCTION, clause NAME'"
    if said.function not in clauses_of(crate) or said.clause and said.clause not in clauses_of(crate)[said.function]:
        return f"the crate has no such clause: {said}"
    changed = {body.function for body in bodies_changed(crate, replacements(edit))}
    if changed and said.function not in changed:
        return f"it changes {', '.join(sorted(changed))}, and says that it breaks {said.function}"
    return None


def faults(fault):
    """What is wrong with each edit, by its path."""
    edits = [(crate, edit) for crate in glob.glob(os.path.join(ROOT, "crates", "*")) for name in FOLDERS
             for edit in sorted(glob.glob(os.path.join(crate, name, "*.edit")))]
    assert edits
    return {os.path.relpath(edit, ROOT): found for crate, edit in edits if (found := fault(crate, edit))}


def apply_to_their_files(folder):
    found = faults(fault_of)
    assert not found, found


def say_what_they_break(folder):
    found = faults(unsaid)
    assert not found, found


if __name__ == "__main__":
    sys.exit(run_tests("edits", [apply_to_their_files, say_what_they_break]))
