#!/usr/bin/env python3
"""Tries mutants, many in one check: python3 tests/planted.py FOLDER [CRATE..], with FOLDER must-fail, planted or wrong-bodies;
--all for the crates are all of them, as is none, and --changed those that aren't as in the last green run of the gate.

Each edit below crates/*/FOLDER must be refused at a goal of a function that it edits. All that one function knows of another
is its contract. So edits of different functions are planted in one copy of the crate and checked at once, and all other
functions are taken by their contracts (tests/holes.py). An edit that has no refusal of its own there is tried again with the
others of which that is true: a function isn't checked that calls one that isn't proved. If none of them has one, fewer are
tried, and at last one. What edits anything but bodies, as a constant, or one that has no path there, is tried by itself, and the
whole crate with it.

What refuses an edit is told after it: a goal in the code; or a proof that was written for the right code and no longer
serves, which says less of the contract. An edit has failed that is proved, that doesn't compile, or that is refused only since a
proof names what it takes away; and where the refusal names clauses of a function and none is that of the edit's first line.

A crate has to be proved as it stands: by rt check, unless IS_PROVED says that it was. Each check is made over the libraries
that this left in out/, and begins with what the check before it left. Before the edits of wrong-bodies, and of the
crate that has the fewest, the functions that they edit are checked as they stand, with holes for the others, and must be proved.
LANES is how many crates are tried side by side. What the edits of a crate took of the processor is told after them. The last line
is 'N passed, M failed', and the exit status is 0 where nothing failed."""

import collections
import concurrent.futures
import glob
import os
import re
import shutil
import subprocess
import sys
import tempfile

import green
from edits import bodies_changed, replacements, said_of, text_of
from holes import leave_to_contracts, paths_of, sources
from layers import crates, reach
from program import ROOT

CRATES = os.path.join(ROOT, "crates")
# How many edits are planted at once, at most, 32 if MOST doesn't say.
MOST = int(os.environ.get("MOST", "32"))
# Whether all crates were proved right before, as in the gate by rt ci.
IS_PROVED = bool(os.environ.get("IS_PROVED"))
# The kit, whose first page rt names.
KIT = os.path.dirname(subprocess.run([os.environ.get("RT", "rt"), "doc"], stdout=subprocess.PIPE, encoding="utf-8", check=True).stdout.strip())

GOAL = re.compile(r"^(?:note: )?(?:\./)?(src/\S+?):(\d+):\d+: (?:error: )?(.*)")
PROOF = re.compile(r"^(?:\./)?(proofs/\S+?)(?:/\w+)?\.antt:\d+:\d+: error: (.*)")
# of a field that is gone the line names the record alone, and of a loop that goes by another name the module
NAMED = re.compile(r"record `[^`]*`(?:$| \(nearest: )|`goal\.[^`]*`: module|has no field|is not in scope|has no `|was not admitted|were not checked")
# The goal that a clause holds when a function returns, and the clause's name, if it has one.
RETURNS = re.compile(r"`returns(?:[^`]*-clause-(\w+))?[^`]*`")
# A function whose goals aren't all told, since it calls one that isn't proved.
UNTRIED = re.compile(r"has not tried the goals of `(?:\w+::)*(\w+)`")
UNREADABLE = re.compile(r"\berror\[[\w-]+\]")

# What is told of a function: that it is proved if its callees are, or that it isn't.
TOLD = re.compile(r"^fn \w+::(\S+): (no holes|depends on a hole|not proved|no proof)")

# Its replacements, the bodies that it edits, none where it edits anything else, what it says that it breaks, and the paths of
# these bodies, none where one of them has none.
Edit = collections.namedtuple("Edit", "name pairs bodies said paths")


def read_edit(crate, path):
    folder = os.path.join(CRATES, crate)
    pairs = list(replacements(path))
    bodies = bodies_changed(folder, pairs)
    return Edit(os.path.basename(path), pairs, bodies, said_of(path), paths_of(bodies, folder))


def with_edit(texts, edit):
    """These files with an edit in them; None where what it replaces doesn't stand there exactly once."""
    texts = dict(texts)
    for file, old, new in edit.pairs:
        if texts[file].count(old) != 1:
            return None
        texts[file] = texts[file].replace(old, new)
    return texts


def batch_of(edits, most, texts):
    """The edits to be tried next, and the files with these in them: the first, and others of other bodies, up to so many, of which
    none replaces what another one wrote. One without paths comes last, alone."""
    batch, bodies = [], frozenset()
    for edit in sorted(edits, key=lambda edit: not edit.paths):
        fits = not batch or edit.paths and len(batch) < most and not edit.bodies & bodies
        if fits and (together := with_edit(texts, edit)):
            texts, bodies = together, bodies | edit.bodies
            batch.append(edit)
    assert batch, "none can be applied: python3 tests/edits.py"
    return batch, texts


def libraries():
    """The folder of the library that was built of each crate that it was built of."""
    folders = {crate: os.path.join(CRATES, crate, "out", "rlib") for crate in crates()}
    return {crate: folder for crate, folder in folders.items() if os.path.isfile(os.path.join(folder, f"{crate}.rlib", "format"))}


def check_of(crate, built):
    """The command that checks a crate over the libraries that were built of those below it; None where one of them lacks."""
    used = crates()[crate]
    below = sorted(reach(used) & {*crates()})
    if not {*below} <= {*built}:
        return None
    root = next(root for root in ("src/lib.rt", "src/main.rt") if os.path.isfile(os.path.join(CRATES, crate, root)))
    command = [os.path.join(KIT, "bin", "rattle"), "check", "--crate-name", crate, root, "--jobs", "1",
               "--antt-project", f"{KIT}/rattle/logic/antt-project.json", "--logic-built", f"{KIT}/logic_built"]
    for name in ["std", *used]:
        command += ["--extern", f"{name}={built.get(name, f'{KIT}/rlibs')}/{name}.rlib"]
    for folder in [f"{KIT}/rlibs", *(built[name] for name in below)]:
        command += ["-L", f"dependency={folder}"]
    return command


def is_proved(crate):
    """Whether a crate is proved as it stands. That also builds the libraries below it, and keeps what was proved."""
    words = [os.environ.get("RT", "rt"), "check"]
    return IS_PROVED or subprocess.run(words, cwd=os.path.join(CRATES, crate), stdout=subprocess.DEVNULL).returncode == 0


class Copy:
    """A copy of a crate, in which edits are planted."""

    def __init__(self, crate, command):
        self.crate = crate
        self.folder = tempfile.mkdtemp(prefix="planted-")
        kept = os.path.join(self.folder, "incremental")
        os.mkdir(kept)
        self.command = [*command, "--incremental", kept]
        self.seconds = 0.0

    def __enter__(self):
        return self

    def __exit__(self, *_):
        shutil.rmtree(self.folder, ignore_errors=True)

    def check(self, texts, paths):
        """What the check of the crate with these files says: its status and its lines. Where paths are given, it is asked about
        these functions, and takes all others by their contracts."""
        for part in ("src", "specs", "proofs"):
            shutil.rmtree(os.path.join(self.folder, part), ignore_errors=True)
            if os.path.isdir(os.path.join(CRATES, self.crate, part)):
                shutil.copytree(os.path.join(CRATES, self.crate, part), os.path.join(self.folder, part))
        for file, text in texts.items():
            with open(os.path.join(self.folder, file), "w", encoding="utf-8") as it:
                it.write(text)
        command = self.command
        if paths:
            leave_to_contracts(self.crate, self.folder, paths)
            command = [*command, "--allow-holes", *(word for path in sorted(paths) for word in ("--only", path.replace("/", "::")))]
        with subprocess.Popen(command, cwd=self.folder, stdin=subprocess.DEVNULL,
                              stdout=subprocess.PIPE, stderr=subprocess.STDOUT, encoding="utf-8", errors="replace") as ran:
            said = ran.stdout.read()
            _, status, used = os.wait4(ran.pid, 0)
            ran.returncode = os.waitstatus_to_exitcode(status)
        self.seconds += used.ru_utime + used.ru_stime
        return ran.returncode, said.splitlines()


def is_of(path, function, folder, said):
    """Whether the proof of a function stands in this folder: that of its path, with a plus sign if it calls itself. Functions
    that call each other have one folder, and there the name of each is the first part of its goals."""
    module, _, cycle = folder.removeprefix("proofs/").partition("/+")
    if not cycle:
        return path == module
    return path == f"{module}/{cycle}" or path.startswith(f"{module}/") and said.startswith(f"`{function}-")


def goals_of(edit, lines):
    """What is said of goals of a body that an edit changes; of all goals, where it edits anything else."""
    for line in lines:
        goal = GOAL.match(line)
        if goal and (not edit.bodies or any(goal[1] == body.file and body.first <= int(goal[2]) <= body.last for body in edit.bodies)):
            yield goal.groups()


def refusal_of(edit, lines):
    """What refuses an edit: a goal of a body that it changes, or a proof of one. None if there is neither."""
    for file, row, said in goals_of(edit, lines):
        return f"{file}:{row}: {said[:120]}"
    for folder, said in proofs_of(edit, lines):
        if not NAMED.search(said):
            return f"by the shape of a proof: {folder}: {said[:120]}"
    return None


def proofs_of(edit, lines):
    """What is said of proofs of a body that an edit changes; of all proofs, where one has no path or it edits anything else."""
    for line in lines:
        proof = PROOF.match(line)
        if proof and (not edit.paths or any(is_of(edit.paths[body], body.function, *proof.groups()) for body in edit.bodies)):
            yield proof.groups()


def unlike_its_line(edit, lines):
    """Why the first line of an edit isn't what the checker tells, or None. Where another goal is refused, too, as of a loop or of
    a call, the clauses told need not be those that break; and a refused proof alone says less than an input that the edit gives."""
    here = edit._replace(bodies=frozenset(body for body in edit.bodies if body.function == edit.said.function))
    if not here.bodies:
        return None
    goals = [said for _, _, said in goals_of(here, lines)]
    proofs = [said for _, said in proofs_of(here, lines) if not NAMED.search(said)]
    if not goals and not proofs:
        return f"breaks {edit.said.function}, it says, but it is refused elsewhere"
    told = {*RETURNS.findall("\n".join(goals + proofs))}
    are_all_told = edit.said.function not in UNTRIED.findall("\n".join(lines))
    are_of_clauses = all(RETURNS.search(said) for said in goals + proofs)
    # a goal without a name may be that of all clauses together
    if not are_all_told or not are_of_clauses or "" in told or edit.said.clause in told or not goals and edit.said.example:
        return None
    name = lambda clause: f"clause {clause}" if clause else "its clause"
    return f"breaks {edit.said.function}, {name(edit.said.clause)}, it says, but it is refused at {', '.join(map(name, sorted(told)))}"


def told_of_functions(lines):
    """What a check says of each function, by its path: that it `is proved`, if those that it calls are, or `is refused`."""
    told = (line for line in map(TOLD.match, lines) if line)
    return {line[1].replace("::", "/"): "is proved" if line[2] in ("no holes", "depends on a hole") else "is refused" for line in told}


def told_of(edit, status, lines):
    """The same of what an edit changes; None if it is neither."""
    if not edit.paths:
        return "is proved" if status == 0 else "is refused" if any(line.startswith("logic=not-proved") for line in lines) else None
    told = {told_of_functions(lines).get(path) for path in edit.paths.values()}
    return "is refused" if "is refused" in told else "is proved" if told == {"is proved"} else None


def verdicts(copy, batch, texts):
    """{the name of an edit: whether it is refused, what is said of it} for the edits of a batch that have a refusal of their own
    there; for one that is alone in any case."""
    status, lines = copy.check(texts, {path for edit in batch for path in edit.paths.values()})
    unread = next((line for line in lines if UNREADABLE.search(line)), None)
    found = {}
    for edit in batch:
        told = None if unread else told_of(edit, status, lines)
        refusal = refusal_of(edit, lines) if told == "is refused" else None
        named = next(proofs_of(edit, lines), None) if told == "is refused" else None
        if refusal:
            wrong = unlike_its_line(edit, lines)
            found[edit.name] = not wrong, wrong or refusal
        elif told == "is proved":
            found[edit.name] = False, "NOT REFUSED: what it edits is still proved"
        elif named:
            found[edit.name] = False, f"refused by a name alone: {', '.join(named)[:160]}"
        elif len(batch) == 1:
            # what the prover says of code that it can't take, if it does
            last = next((line for line in lines if ": no proof: " in line), lines[-1] if lines else "")
            found[edit.name] = False, f"it doesn't compile: {unread[:160]}" if unread else f"no verdict: {last[:300]}"
    return found


def not_proved_as_they_stand(copy, texts, edits):
    """The functions that edits change, and that a check with holes for the others doesn't prove without these: so it would tell
    nothing of such an edit."""
    paths = {path for edit in edits for path in edit.paths.values()}
    told = told_of_functions(copy.check(texts, paths)[1])
    return sorted(path for path in paths if told.get(path) != "is proved")


def try_crate(crate, folder, is_controlled):
    """How many edits of a crate are refused, and how many are not."""
    edits = left = [read_edit(crate, path) for path in sorted(glob.glob(os.path.join(CRATES, crate, folder, "*.edit")))]
    command = check_of(crate, libraries()) if is_proved(crate) else None
    if not command:
        print(f"planted {crate}: NOT TRIED, since it isn't proved as it stands, or a library below it isn't built", flush=True)
        return 0, len(edits)
    texts = sources(os.path.join(CRATES, crate))
    passed = checks = 0
    most = MOST
    with Copy(crate, command) as copy:
        if is_controlled and (others := not_proved_as_they_stand(copy, texts, edits)):
            print(f"planted {crate}: NOT TRIED, since with holes for the others these aren't proved: {', '.join(others)}", flush=True)
            return 0, len(edits)
        while left:
            batch, planted = batch_of(left, most, texts)
            found = verdicts(copy, batch, planted)
            for name, (is_refused, said) in found.items():
                passed += is_refused
                print(f"planted {crate}/{name} ... {'ok' if is_refused else 'FAILED'}: {said}", flush=True)
            left = [edit for edit in left if edit.name not in found]
            most = MOST if found else max(1, len(batch) // 2)
            checks += 1
        print(f"planted {crate}: {len(edits)} in {checks} checks, {copy.seconds:.0f} seconds of the processor", flush=True)
    return passed, len(edits) - passed


def main():
    folder, names = sys.argv[1], sys.argv[2:]
    only_changed = names == ["--changed"]
    if only_changed:
        names = green.changed(green.digests(), green.recorded())
        print(f"planted: {len(names)} of {len(crates())} crates aren't as in the last green run: {', '.join(names)}", flush=True)
    elif names in ([], ["--all"]):
        names = [*crates()]
    counts = {crate: len(glob.glob(os.path.join(CRATES, crate, folder, "*.edit"))) for crate in names}
    chosen = sorted((crate for crate in counts if counts[crate]), key=lambda crate: -counts[crate])
    with concurrent.futures.ThreadPoolExecutor(int(os.environ.get("LANES", "1"))) as lanes:
        results = list(lanes.map(lambda crate: try_crate(crate, folder, folder == "wrong-bodies" or crate == chosen[-1]), chosen))
    passed, failed = (sum(column) for column in zip(*results)) if results else (0, 0)
    print(f"{passed} passed, {failed} failed")
    return 0 if not failed and (passed or only_changed) else 1


if __name__ == "__main__":
    sys.exit(main())
