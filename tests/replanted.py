#!/usr/bin/env python3
"""Tests in which crates the gate plants mutants by hand: in those that aren't as in its last green run; which functions are
taken by their contracts then; and how the first line of an edit is compared with the checker's report. The last line is
'N passed, M failed', and the exit status is 0 where nothing failed."""

import json
import os
import re
import shutil
import subprocess
import sys

from edits import Body, Said
from green import PARTS, SCRIPTS, changed, digests, keep, recorded
from holes import leave_to_contracts
from planted import Edit, batch_of, unlike_its_line, verdicts
from program import ROOT, run_tests

# Two crates, one above it, and one beside them.
STANDS_ON = {"low": ["arrayvec"], "beside": [], "middle": ["low"], "top": ["middle", "beside"]}


def write(folder, *path, text=""):
    os.makedirs(os.path.join(folder, *path[:-1]), exist_ok=True)
    with open(os.path.join(folder, *path), "w", encoding="utf-8") as file:
        file.write(text)


def repository(folder):
    """Such a repository, and the record of a green run of it."""
    for crate in STANDS_ON:
        for part in PARTS:
            write(folder, "crates", crate, part, "a", text=crate)
    for name in SCRIPTS:
        write(folder, "tests", name)
    record = os.path.join(folder, "out", "green.json")
    now = now_of(folder)
    assert keep(json.dumps(now), now, record)
    return record


def now_of(folder, stands_on=None, version="1"):
    return digests(folder, stands_on or STANDS_ON, version)


def plants_nowhere_if_nothing_changed(folder):
    record = repository(folder)
    assert changed(now_of(folder), recorded(record)) == []


def plants_in_what_changed_and_above(folder):
    for part in PARTS:
        for crate, wanted in (("low", ["low", "middle", "top"]), ("beside", ["beside", "top"]), ("top", ["top"])):
            record = repository(folder)
            write(folder, "crates", crate, part, "a", text="another text")
            assert changed(now_of(folder), recorded(record)) == wanted, (part, crate)
            record = repository(folder)
            write(folder, "crates", crate, part, "b")
            assert changed(now_of(folder), recorded(record)) == wanted, (part, crate, "a new file")
            os.rename(os.path.join(folder, "crates", crate, part, "b"), os.path.join(folder, "crates", crate, part, "c"))
            assert changed(now_of(folder), recorded(record)) == wanted, (part, crate, "a file of another name")
            os.remove(os.path.join(folder, "crates", crate, part, "c"))
            assert changed(now_of(folder), recorded(record)) == [], (part, crate, "as it was")


def plants_everywhere_for_another_kit_or_another_script(folder):
    record = repository(folder)
    assert changed(now_of(folder, version="2"), recorded(record)) == [*STANDS_ON]
    write(folder, "tests", "planted.py", text="another text")
    assert changed(now_of(folder), recorded(record)) == [*STANDS_ON]


def plants_in_what_stands_on_something_else(folder):
    record = repository(folder)
    stands_on = {**STANDS_ON, "middle": ["low", "beside"], "new": []}
    assert changed(now_of(folder, stands_on), recorded(record)) == ["middle", "top", "new"]


def plants_everywhere_without_a_whole_record(folder):
    """Cut short anywhere, missing, or of another form."""
    record = repository(folder)
    with open(record, encoding="utf-8") as file:
        whole = file.read()
    for text in [*(whole[:length] for length in range(0, len(whole), 7)), whole[:-1], "[]", "null", "{}", "\0"]:
        write(folder, "out", "green.json", text=text)
        assert changed(now_of(folder), recorded(record)) == [*STANDS_ON], text
    with open(record, "wb") as file:
        file.write(b"\xff")
    assert changed(now_of(folder), recorded(record)) == [*STANDS_ON]
    os.remove(record)
    assert changed(now_of(folder), recorded(record)) == [*STANDS_ON]


def keeps_nothing_of_what_changed_meanwhile(folder):
    record = repository(folder)
    began = now_of(folder)
    os.remove(record)
    write(folder, "crates", "low", "src", "a", text="changed while the gate ran")
    assert not keep(json.dumps(began), now_of(folder), record) and not os.path.exists(record)


# Stands in for a script of tests.
PASSING = """\
def crates():
    return {"idn2": []}


if __name__ == "__main__":
    print("1 passed, 0 failed")
"""

# Stands in for rt: it proves nothing, and fails where it is told to.
RT = """#!/bin/sh
case "$1" in
    ci) touch crates/idn2/out/idn2; chmod +x crates/idn2/out/idn2; echo "1 passed, $CI_FAILED failed"; exit "$CI_FAILED" ;;
    version) echo 1 ;;
esac
"""


def gate_scripts():
    """The scripts of tests that the gate runs."""
    with open(os.path.join(ROOT, "tests", "gate"), encoding="utf-8") as file:
        return re.findall(r"\bstep .*python3 tests/(\w+\.py)", file.read())


def keeps_a_green_run_and_no_red_one(folder):
    """The gate itself, with nothing to prove and nothing to test."""
    record = os.path.join(folder, "out", "green.json")
    scripts = gate_scripts()
    for name in {*scripts, *SCRIPTS}:
        write(folder, "tests", name, text=PASSING)
    for name in ("gate", "green.py"):
        shutil.copy(os.path.join(ROOT, "tests", name), os.path.join(folder, "tests"))
    shutil.copy(os.path.join(ROOT, "Makefile"), folder)
    write(folder, "tests", "program.py", text=f"ROOT = {folder!r}\n" + PASSING)
    write(folder, "crates", "idn2", "out", "empty")
    write(folder, "rt", text=RT)
    os.chmod(os.path.join(folder, "rt"), 0o755)
    env = {**os.environ, "RT": os.path.join(folder, "rt"), "PLANT": "all"}
    for ci_failed, source, is_kept in (("1", "", False), ("0", "", True), ("1", "changed", True)):
        write(folder, "crates", "idn2", "src", "main.rt", text=source)
        before = recorded(record)
        environment = {**env, "CI_FAILED": ci_failed}
        done = subprocess.run([os.path.join(folder, "tests", "gate")], capture_output=True, text=True, env=environment)
        assert done.returncode == int(ci_failed), done
        assert done.stdout.splitlines()[-1] == f"{len(scripts) + 1} passed, {ci_failed} failed", done
        assert os.path.exists(record) == is_kept, done
        assert ci_failed == "0" or recorded(record) == before, done


def refuses_another_word_for_what_is_planted(folder):
    environment = {**os.environ, "PLANT": "none"}
    done = subprocess.run([os.path.join(ROOT, "tests", "gate")], capture_output=True, text=True, env=environment)
    assert done.returncode == 2 and done.stdout == "", done


# What the checker says of a body in lines 10 to 20 of a file, and of one after it.
UNNAMED = "note: src/a.rt:12:1: it is not proved that what the function ensures holds when it returns (`returns-else-number-lt10`); the facts"
NAMED = "note: src/a.rt:12:5: it is not proved that what the function ensures holds when it returns (`returns-in-Ok-clause-gets`)"
ELSEWHERE = "note: src/a.rt:32:5: it is not proved that what the function ensures holds when it returns (`returns-clause-lines`)"
UNREACHABLE = "note: src/a.rt:12:9: it is not proved that control never comes here (at a `prove!`) (`unreachable-requires`)"
SHAPE = "./proofs/a/f/Answers.antt:50:62: error: `returns-clause-lines`: as printed, the two types differ only where one has"
UNTRIED = "note: `search` has not tried the goals of `a::A::f`, which wait for a callee's proof: some may be open after it"
LOOP = "./proofs/a/f/Answers.antt:14:13: error: `loop-point-preserved`: as printed, the two types first differ where one has"

# What an edit says, what the checker says, and whether they agree.
COMPARED = [
    (Said("f", "gets", None), [NAMED], True),
    (Said("f", "gets", None), [UNREACHABLE, NAMED, SHAPE], True),
    (Said("f", "lines", None), [NAMED, SHAPE], True),
    (Said("f", "puts", None), [NAMED, SHAPE], False),
    (Said("f", None, None), [NAMED], False),
    (Said("f", None, None), [UNNAMED], True),
    (Said("f", "gets", None), [UNNAMED], True),
    (Said("f", "gets", None), [SHAPE, UNTRIED], True),
    # Another goal is refused, too, or alone.
    (Said("f", "puts", None), [UNREACHABLE, NAMED], True),
    (Said("f", "puts", None), [LOOP, SHAPE], True),
    (Said("f", "gets", None), [UNREACHABLE], True),
    (Said("f", "gets", None), [LOOP], True),
    # Only a proof is refused: an input says more.
    (Said("f", "gets", None), [SHAPE], False),
    (Said("f", "gets", "of 'a' it gives 'b'"), [SHAPE], True),
    (Said("f", "puts", "of 'a' it gives 'b'"), [NAMED, SHAPE], False),
    # Of two bodies that are changed, only another one is refused.
    (Said("f", "lines", None), [ELSEWHERE], False),
    (Said("g", "lines", None), [ELSEWHERE, NAMED], True),
]


F, G = Body("src/a.rt", "", "", "f", 10, 20), Body("src/a.rt", "", "", "g", 30, 40)
PATHS = {F: "a/f", G: "a/g"}


def compares_first_lines_with_the_report(folder):
    for said, lines, agree in COMPARED:
        told = unlike_its_line(Edit("f-changed.edit", [], frozenset(PATHS), said, PATHS), lines)
        assert (told is None) == agree, (said, lines, told)
    told = unlike_its_line(Edit("constant.edit", [], frozenset(), Said("f", "puts", None), {}), [NAMED])
    assert told is None, told


# What the checker says of f, and whether an edit of it is refused, by itself and beside one of g; None where it is tried again.
PROVED = "fn low::a::f: depends on a hole in `Rattle.low.proofs.a.h.Proof.h_spec`"
NOT_PROVED = "fn low::a::f: not proved; it stands on `Rattle.low.proofs.a.f.Answers.returns-clause-gets`, which antt refuses"
NO_VERDICT = "fn low::a::f: could not tell"
OF_A_NAMESAKE = SHAPE.replace("proofs/a/f", "proofs/a/Counts/f")
DECIDED = [
    (1, [NAMED, NOT_PROVED], True, True),
    (1, [SHAPE, NOT_PROVED], True, True),
    (0, [PROVED], False, False),
    (1, [PROVED], False, False),
    (1, [NAMED, PROVED], False, False),
    (3, [NAMED, NO_VERDICT], False, None),
    (1, [OF_A_NAMESAKE, NOT_PROVED], False, None),
    (1, [NAMED, NOT_PROVED, "src/a.rt:1:1: error[unknown-name]: h"], False, None),
    (2, [], False, None),
]


class Told:
    """A copy of a crate of which the checker always says the same."""

    def __init__(self, *said):
        self.said = said

    def check(self, texts, paths):
        return self.said


def takes_for_refused_what_the_checker_refuses_there(folder):
    of_f = Edit("f-changed.edit", [], frozenset([F]), Said("f", "gets", "of 'a' it gives 'b'"), {F: PATHS[F]})
    of_g = Edit("g-changed.edit", [], frozenset([G]), Said("g", "gets", None), {G: PATHS[G]})
    for status, lines, alone, beside in DECIDED:
        for batch, wanted in (([of_f], alone), ([of_f, of_g], beside)):
            found = verdicts(Told(status, lines), batch, {})
            assert found.get(of_f.name, (None,))[0] == wanted, (status, lines, found)


def keeps_apart_edits_that_change_each_other(folder):
    """Of one body, or where one replaces what another one wrote; and one of no body is alone."""
    texts = {"src/a.rt": "there back one two"}
    swapped = [Edit("f", [("src/a.rt", "there", "back")], frozenset([F]), None, {F: "a/f"}),
               Edit("g", [("src/a.rt", "back", "there")], frozenset([G]), None, {G: "a/g"}),
               Edit("f-too", [("src/a.rt", "one", "1")], frozenset([F]), None, {F: "a/f"})]
    other = Edit("constant", [("src/a.rt", "one", "two")], frozenset(), None, {})
    further = Edit("h", [("src/a.rt", "two", "2")], frozenset([F._replace(function="h")]), None, {F: "a/h"})
    edits, batches = [other, *swapped, further], []
    while edits:
        batch, planted = batch_of(edits, 32, texts)
        batches.append(([edit.name for edit in batch], planted["src/a.rt"]))
        edits = [edit for edit in edits if edit not in batch]
    assert batches == [(["f", "h"], "back back one 2"), (["g", "f-too"], "there there 1 two"), (["constant"], "there back two two")], batches


# A crate, and what is left of it where all functions but `asked` are taken by their contracts.
WHOLE = """\
pub struct Count {
    now: u32,
}

impl Count {
    /// Twice.
    pub fn twice(&self) -> u32
        ensures { result ≡ 2 * self.now }
    {
        let now = self.now;
        now + now
    }

    const fn none() -> u32 {
        0
    }
}

impl Next for Count {
    fn next(&mut self) -> Option<u32> {
        asked(self.now)
    }
}

impl From<u32> for Count {
    fn from(now: u32) -> Count {
        Count { now }
    }
}

fn asked(n: u32) -> Option<u32> {
    depth(n)
}

fn depth(n: u32) -> Option<u32> {
    depth(n.checked_sub(1)?)
}
"""
LEFT = WHOLE.replace("        let now = self.now;\n        now + now\n", "loop {}\n\n").replace("        asked(self.now)\n", "loop {}\n")
OPEN = ["a/Count/twice", "a/CountNext/next"]


def takes_all_other_functions_by_their_contracts(folder):
    """But what calls itself, a constant function, and a method of a trait with parameters. Each goal keeps its line."""
    write(folder, "src", "a.rt", text=WHOLE)
    write(folder, "proofs", "a", "Count", "twice", "Answers.antt")
    leave_to_contracts("low", folder, {"a/asked"})
    with open(os.path.join(folder, "src", "a.rt"), encoding="utf-8") as file:
        assert file.read() == LEFT
    left = [os.path.relpath(os.path.join(path, name), os.path.join(folder, "proofs")) for path, _, names in os.walk(folder) for name in names]
    assert sorted(name for name in left if name.endswith(".antt")) == [f"{path}/Proof.antt" for path in OPEN], left
    with open(os.path.join(folder, "proofs", OPEN[0], "Proof.antt"), encoding="utf-8") as file:
        assert file.read().startswith("use Rattle.low.proofs.a.Count.twice.Statement.{statement}\n\npub twice_spec : ")


TESTS = [
    takes_for_refused_what_the_checker_refuses_there,
    keeps_apart_edits_that_change_each_other,
    takes_all_other_functions_by_their_contracts,
    compares_first_lines_with_the_report,
    plants_nowhere_if_nothing_changed,
    plants_in_what_changed_and_above,
    plants_everywhere_for_another_kit_or_another_script,
    plants_in_what_stands_on_something_else,
    plants_everywhere_without_a_whole_record,
    keeps_nothing_of_what_changed_meanwhile,
    keeps_a_green_run_and_no_red_one,
    refuses_another_word_for_what_is_planted,
]


if __name__ == "__main__":
    sys.exit(run_tests("replanted", TESTS))
