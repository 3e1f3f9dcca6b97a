#!/usr/bin/env python3
"""Runs the program on the worked rows of conformance/, and on those of whole runs once more with one byte a read and a write.
The last line is 'N passed, M failed', and the exit status is 0 where nothing failed."""

import os
import sys

from hostile import refusing_library
from program import ROOT, run, run_tests, table_file

sys.path += [os.path.join(ROOT, folder) for folder in ("conformance", "registry", "tables")]

import collision_rows
import label_rows
import ruleset_rows
import run_rows
import type_rows
import worked_rows
from worked_rows import in_bytes


def shown(answer):
    """What a failure shows of an answer."""
    return tuple(part[:400] if isinstance(part, str) else part for part in answer)


def expect_rows(folder, rows, **more):
    for words, given, files, wanted in rows:
        paths = [table_file(folder, in_bytes(text), name) for name, text in files.items()]
        done = run(words, in_bytes(given), cwd=folder, **more)
        found = done.stdout.decode(), done.stderr.decode(), done.returncode
        assert found == wanted, (words, given[:400], {name: text[:400] for name, text in files.items()}, shown(found), shown(wanted))
        for path in paths:
            os.remove(path)


def answers_rows_of_labels_and_names(folder):
    expect_rows(folder, label_rows.rows())


def answers_rows_of_runs(folder):
    expect_rows(folder, run_rows.rows())


def answers_rows_of_runs_byte_by_byte(folder):
    expect_rows(folder, run_rows.rows(), env={"LD_PRELOAD": refusing_library(folder), "PIECE": "1"})


def answers_rows_of_tables_collisions_and_jumps(folder):
    expect_rows(folder, worked_rows.rows_of_tables())


def answers_rows_of_collisions(folder):
    expect_rows(folder, collision_rows.rows())


def answers_rows_of_rulesets(folder):
    expect_rows(folder, ruleset_rows.rows())


def answers_rows_of_types(folder):
    expect_rows(folder, type_rows.rows())


TESTS = [
    answers_rows_of_labels_and_names,
    answers_rows_of_runs,
    answers_rows_of_runs_byte_by_byte,
    answers_rows_of_tables_collisions_and_jumps,
    answers_rows_of_collisions,
    answers_rows_of_rulesets,
    answers_rows_of_types,
]


if __name__ == "__main__":
    sys.exit(run_tests("worked_runs", TESTS))
