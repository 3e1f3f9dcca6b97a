#!/usr/bin/env python3
"""What the last green run of the gate was made of: a digest of each crate, in out/green.json. By hand the gate tries
mutants only in crates that have another digest now.

  tests/green.py digests    prints the digests of the crates as they stand
  tests/green.py keep TEXT  keeps these as those of a green run, if the crates still stand so

The digest of a crate covers its sources, definitions, proofs and planted edits, what crates.txt says of it, all of that of the
crates below it, the scripts that plant, and the version of the kit. A record that is missing or can't be read is that of no
crate, so all are planted."""

import functools
import hashlib
import json
import os
import subprocess
import sys

from layers import crates
from program import ROOT

RECORD = os.path.join(ROOT, "out", "green.json")
PARTS = ("src", "specs", "proofs", "planted")
# What decides whether an edit is refused, besides the crates and the kit.
SCRIPTS = ("planted.py", "holes.py", "edits.py", "layers.py", "green.py")


@functools.cache
def kit_version() -> str:
    done = subprocess.run([os.environ.get("RT", "rt"), "version"], stdout=subprocess.PIPE, encoding="utf-8", check=True)
    return done.stdout.strip()


def files_below(folder: str) -> list[str]:
    return sorted(os.path.join(path, name) for path, _, names in os.walk(folder) for name in names)


def digest_of(parts: list[str], root: str, files: list[str]) -> str:
    """Of these texts, and of the path and the bytes of each file."""
    whole = hashlib.sha256(json.dumps(parts).encode())
    for path in files:
        with open(path, "rb") as file:
            text = file.read()
        whole.update(json.dumps([os.path.relpath(path, root), len(text)]).encode() + text)
    return whole.hexdigest()


def digests(root: str = ROOT, stands_on: dict[str, list[str]] | None = None, version: str | None = None) -> dict[str, str]:
    """The digest of each crate."""
    stands_on, version = stands_on or crates(), version or kit_version()
    scripts = digest_of([], root, [os.path.join(root, "tests", name) for name in SCRIPTS])
    found: dict[str, str] = {}
    for crate, below in stands_on.items():
        own = [path for part in PARTS for path in files_below(os.path.join(root, "crates", crate, part))]
        # the crates below stand before it
        found[crate] = digest_of([version, scripts, crate, *(found.get(name, name) for name in below)], root, own)
    return found


def recorded(path: str = RECORD) -> dict[str, str]:
    """The digests of the last green run; none where they can't be read."""
    try:
        with open(path, encoding="utf-8") as file:
            found = json.load(file)
    except (OSError, ValueError):
        return {}
    return found if isinstance(found, dict) else {}


def changed(now: dict[str, str], before: dict[str, str]) -> list[str]:
    """The crates that aren't as in the last green run. One that stands on a changed crate has another digest, too."""
    return [crate for crate, digest in now.items() if before.get(crate) != digest]


def keep(text: str, now: dict[str, str], path: str = RECORD) -> bool:
    """Keeps the digests that a green run began with; none, if a crate was changed since."""
    if json.loads(text) != now:
        return False
    os.makedirs(os.path.dirname(path), exist_ok=True)
    with open(path + ".new", "w", encoding="utf-8") as file:
        file.write(text)
    os.replace(path + ".new", path)
    return True


def main(words: list[str]) -> int:
    if words == ["digests"]:
        print(json.dumps(digests()))
        return 0
    if len(words) == 2 and words[0] == "keep":
        if not keep(words[1], digests()):
            print("a crate was changed while the gate ran: this green run isn't kept", file=sys.stderr)
        return 0
    print("tests/green.py digests, or tests/green.py keep TEXT", file=sys.stderr)
    return 2


if __name__ == "__main__":
    sys.exit(main(sys.argv[1:]))
