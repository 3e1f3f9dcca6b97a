#!/usr/bin/env python3
"""Compares what the program lists under a ruleset with what the evaluator of RFC 7940 says of a published file:
python3 conformance/verified.py [--idn2 PROGRAM] [--all] RULESET FILE [LABELS]

FILE is a ruleset in XML, and RULESET the same file, or what --print-ruleset printed of it and somebody edited. LABELS has a label
on each line. Those are asked about, and labels that are drawn from FILE. The first difference is told, or with --all each.

Status: 0 no difference; 1 a difference; 2 FILE is refused, or the program can't be asked."""

import argparse
import itertools
import pathlib
import sys

ROOT = pathlib.Path(__file__).resolve().parent.parent
sys.path.append(str(ROOT / "registry"))

from idn2_registry.rfc7940.reader import Refused, read
from idn2_registry.rfc7940.verified import Unanswered, differences, labels_for

PROGRAM = ROOT / "crates/idn2/out/idn2"


def main(words: list[str]) -> int:
    parser = argparse.ArgumentParser(description="Compares what a ruleset and a published file say.")
    parser.add_argument("--idn2", default=str(PROGRAM))
    parser.add_argument("--all", action="store_true")
    parser.add_argument("ruleset", type=pathlib.Path)
    parser.add_argument("file", type=pathlib.Path)
    parser.add_argument("labels", type=pathlib.Path, nargs="?")
    options = parser.parse_args(words)
    try:
        registered = options.labels.read_text(encoding="utf-8").splitlines() if options.labels else []
        ruleset = read(options.file.read_bytes())
        found = differences([options.idn2], "--ruleset", options.ruleset.read_bytes(), ruleset,
                            labels_for(ruleset, registered))
        told = list(found if options.all else itertools.islice(found, 1))
    except (Refused, Unanswered, OSError, UnicodeDecodeError) as error:
        print(f"{options.file}: {error}", file=sys.stderr)
        return 2
    for difference in told:
        print(difference)
    return 1 if told else 0


if __name__ == "__main__":
    sys.exit(main(sys.argv[1:]))
