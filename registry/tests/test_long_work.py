"""Audits, changes of a table, what was stopped and goes on, and a cluster."""

import contextlib
import io
import json
import os
import pty
import random
import re
import signal
import sqlite3
import subprocess
import sys
import time
from collections.abc import Callable, Iterator
from pathlib import Path

import pytest
from conftest import LIMIT, PROGRAM, TABLES, Place
from test_collisions import set_register

from idn2_registry import Unusable, work
from idn2_registry.audit import groups_of
from idn2_registry.faults import Unknown
from idn2_registry.program import OpenRun, Program

GERMAN = (TABLES / "german.txt").read_text("utf-8")
WITH_AE = GERMAN.replace("\n00E4\n", "\n") + "0061-0065|00E4\n00E4|0061-0065\n"


def objects(done: "subprocess.CompletedProcess[bytes]") -> list[dict[str, object]]:
    """What a run says."""
    told = [json.loads(line) for line in done.stdout.splitlines()]
    if told and "at" in told[-1]:
        # The times of the end are others each time.
        at, seconds = told[-1].pop("at"), told[-1].pop("seconds")
        assert re.fullmatch(r"\d{4}-\d\d-\d\dT\d\d:\d\d:\d\dZ", at) and 0 <= seconds < LIMIT, (at, seconds)
    return told


def small_parts(monkeypatch: pytest.MonkeyPatch, lines: int) -> None:
    """Parts of so many lines."""
    whole = work.parts_of
    for module in ("audit", "change", "load"):
        monkeypatch.setattr(f"idn2_registry.{module}.parts_of", lambda given, *_: whole(given, lines))


def test_audit_tells_invalid_labels_and_groups(place: Place, monkeypatch: pytest.MonkeyPatch) -> None:
    place.load("haus\tH1", "sss\tH1", "sß\tH2", "ßs", "中国\tH3", "zoo")
    small_parts(monkeypatch, 2)
    done = place.run("audit", "--json")
    assert done.returncode == 1
    assert objects(done) == [
        {"ulabel": "中国", "alabel": "xn--fiqs8s", "holder": "H3",
         "refusal": {"number": 40, "text": "not made of table entries", "code_point": "U+4E2D", "place": 1}},
        {"collide": [{"ulabel": "sss", "alabel": "sss", "holder": "H1"},
                     {"ulabel": "sß", "alabel": "xn--s-qfa", "holder": "H2"},
                     {"ulabel": "ßs", "alabel": "xn--s-pfa", "holder": None}]},
        {"labels": 6, "invalid": 1, "groups": 1}]
    place.expect(["audit"], "中国 (xn--fiqs8s, held by H3): no longer valid: 40 not made of table entries: U+4E2D at place 1\n"
                 "collide: sss, held by H1, sß (xn--s-qfa, held by H2), ßs (xn--s-pfa)\n6 labels, 1 invalid, 1 group\n", 1)


def test_audit_tells_labels_that_may_not_be_registered(place: Place, monkeypatch: pytest.MonkeyPatch) -> None:
    """The others are asked without those that no name of a zone stands for."""
    place.load("haus", "sss\tH1", "sß\tH2", "zoo")
    with sqlite3.connect(place.folder / "register.db") as database:
        database.execute("insert into registered (label) values ('Maus')")
    for lines in (2, 100):
        small_parts(monkeypatch, lines)
        place.expect(["audit"], "Maus: no longer valid: 10 disallowed code point: U+004D at place 1 (RFC 5892 2.2)\n"
                     "collide: sss, held by H1, sß (xn--s-qfa, held by H2)\n5 labels, 1 invalid, 1 group\n", 1)
    assert not list(place.folder.glob("registry.toml.*")), "what was kept is gone"


def test_audit_takes_no_other_answer(place: Place, monkeypatch: pytest.MonkeyPatch) -> None:
    """Of a program that stops within what collides with a label, or lists otherwise than it says, nothing is known."""
    place.load("haus", "strasse", "straße")
    plain = OpenRun.plain
    for change in (lambda text: text[:-1], lambda text: text[:text.rindex(b"#end")], lambda text: text + b"#end 1 haus\n",
                   lambda text: text.replace(b"#end 1 ", b"#end 2 ", 1), lambda text: text.replace(b"#end 1 ", b"#end ", 1),
                   lambda text: text + b"#end 0 haus\n"):
        def changed(run: OpenRun, part: bytes, change: Callable[[bytes], bytes] = change) -> tuple[bytes, list[int]]:
            output, refused = plain(run, part)
            return change(output), refused

        monkeypatch.setattr(OpenRun, "plain", changed)
        done = place.run("audit")
        assert done.returncode == 75 and not done.stdout and len(done.stderr.splitlines()) == 1, done


def test_audit_finds_what_only_one_side_shows(bare: Place) -> None:
    """By a gap, or by a condition of a variant."""
    bare.write("gap.txt", "0061|0062\n0062\n")
    bare.write("sigma.txt", "%version 3\n%rule end _ $\n03B1..03C1\n03C3|03C2 when end\n03C2|03C3\n03C4..03C9\n")
    for table, first, second in (("gap.txt", "a", "b"), ("sigma.txt", "ςα", "σα")):
        bare.configure(own=table)
        bare.load(first, second)
        told = objects(bare.run("audit", "--json"))
        assert [each["ulabel"] for each in told[0]["collide"]] == [first, second], told  # type: ignore[attr-defined]
        (bare.folder / "register.db").unlink()


def test_audit_asks_all_tables(bare: Place) -> None:
    bare.write("latin.txt", "%version 2\n0061..007A\n")
    bare.write("cyrillic.txt", "%version 2\n0430..044F\n")
    bare.write("zone.txt", bare.run("join", str(bare.folder / "latin.txt"), str(bare.folder / "cyrillic.txt")).stdout)
    bare.configure('zone = "zone"', latin="latin.txt", cyrillic="cyrillic.txt", zone="zone.txt")
    bare.load("abc", "абв", "abв")
    told = objects(bare.run("audit", "--json"))
    assert [each.get("ulabel") for each in told] == ["abв", None] and told[1] == {"labels": 3, "invalid": 1, "groups": 0}


def test_audit_since_tells_what_is_new(place: Place) -> None:
    place.load("sss", "sß", "中国")
    before = place.run("audit", "--json").stdout
    place.write("before.json", before)
    done = place.run("audit", "--json", "--since", "before.json")
    assert objects(done) == [{"labels": 3, "invalid": 1, "groups": 1, "new": 0}] and done.returncode == 0
    place.write("after.json", done.stdout)
    place.load("ßs", "日本", "ass", "aß")
    done = place.run("audit", "--json", "--since", "before.json")
    found = objects(done)
    assert [each.get("ulabel") for each in found] == ["日本", None, None, None] and done.returncode == 1
    assert [len(each["collide"]) for each in found[1:3]] == [2, 3]  # type: ignore[arg-type]
    assert found[3] == {"labels": 7, "invalid": 2, "groups": 2, "new": 3}
    assert place.run("audit", "--since", "before.json").stdout.endswith(b"\n7 labels, 2 invalid, 2 groups, 3 new\n")
    # What isn't whole is refused: what it lacks would seem new.
    for text in (before[:before.rindex(b"\n", 0, -1) + 1],
                 before.replace("中国".encode(), "日本".encode(), 1)[before.index(b"\n") + 1:], b"",
                 b"[]\n", b"{}\n", b"\xff\n", (place.folder / "after.json").read_bytes()):
        place.write("part.json", text)
        done = place.run("audit", "--since", "part.json")
        assert done.returncode == 75 and not done.stdout and b"part.json: no" in done.stderr, (text, done)
    assert b"none.json: No such file" in place.run("audit", "--since", "none.json").stderr
    assert place.run("load", "none.txt").stderr == b"idn2-registry: none.txt: No such file or directory\n"


def test_audit_of_nothing_wrong(place: Place) -> None:
    place.expect(["audit"], "0 labels, 0 invalid, 0 groups\n", 0)
    place.load("haus", "maus")
    place.expect(["audit"], "2 labels, 0 invalid, 0 groups\n", 0)
    place.expect(["change", "de=" + str(TABLES / "german.txt")], "2 labels, 0 changes, 0 groups\n", 0)


def test_groups_are_those_that_pairs_connect() -> None:
    random.seed(60)
    for _ in range(200):
        labels = [f"l{number}" for number in range(10)]
        pairs = [(random.choice(labels), random.choice(labels)) for _ in range(random.randrange(8))]
        expected: list[set[str]] = []
        for pair in pairs:
            touched = [group for group in expected if group & set(pair)]
            expected = [group for group in expected if group not in touched] + [set(pair).union(*touched)]
        assert groups_of(pairs) == sorted(sorted(group) for group in expected), pairs


def test_change_tells_what_a_new_table_does(place: Place, monkeypatch: pytest.MonkeyPatch) -> None:
    place.load("baer\tH1", "bär\tH2", "haus", "strasse", "zo")
    small_parts(monkeypatch, 2)
    place.write("new.txt", WITH_AE.replace("\n007A\n", "\n").replace("00DF|0073-0073", "00DF"))
    done = place.run("change", "--json", "de=new.txt")
    assert done.returncode == 1
    told = objects(done)
    baer = {"ulabel": "baer", "alabel": "baer", "holder": "H1"}
    other = {"ulabel": "bär", "alabel": "xn--br-via", "holder": "H2"}
    assert {**baer, "change": "gained", "variant": {"ulabel": "bär", "alabel": "xn--br-via",
                                                    "disposition": "allocatable"}} in told
    assert {**other, "change": "gained", "variant": {"ulabel": "baer", "alabel": "baer", "disposition": "allocatable"}} in told
    assert {"change": "collide", "collide": [baer, other]} in told
    assert told[-1] == {"labels": 5, "changes": len(told) - 2, "groups": 1}


def test_change_tells_of_each_kind(bare: Place) -> None:
    """Each expected line is worked out from the two tables."""
    bare.write("old.txt", "%version 2\n0061|!0062\n0062|!0061\n0063|0064\n0064|0063\n0065\n")
    bare.write("new.txt", "%version 2\n0061|0062\n0062|0061\n0063|!0064\n0064|!0063\n0066\n")
    bare.configure(own="old.txt")
    bare.load("a", "c", "e")
    bare.expect(["change", "own=new.txt"], "a: freed b (b, allocatable)\nc: blocked d (d, blocked)\n"
                "e: no longer valid: 40 not made of table entries: U+0065 at place 1\n3 labels, 3 changes, 0 groups\n", 1)
    bare.configure(own="new.txt")
    bare.expect(["change", "own=old.txt"], "a: blocked b (b, blocked)\nc: freed d (d, allocatable)\ne: valid\n"
                "3 labels, 3 changes, 0 groups\n", 1)
    bare.write("less.txt", "%version 2\n0061\n0062\n0063|!0064\n0064|!0063\n0066\n")
    bare.expect(["change", "own=less.txt"], "a: lost b (b, allocatable)\n3 labels, 1 change, 0 groups\n", 1)


def test_change_says_what_is_not_known(bare: Place) -> None:
    bare.configure("[limits]\ntries = 2", de=TABLES / "german.txt")
    bare.load("ssssssss")
    bare.write("new.txt", WITH_AE.replace("00DF|0073-0073", "00DF|!0073-0073").replace("0073-0073|00DF", "0073-0073|!00DF"))
    done = bare.run("change", "de=new.txt")
    assert done.returncode == 75 and b"ssssssss: not known" in done.stdout, done


def test_change_wants_a_name_and_a_file(place: Place) -> None:
    place.expect(["change", "de"], "", 75, "de: no NAME=FILE: name one of de")
    place.expect(["change", "en=new.txt"], "", 75, "en=new.txt: no name of [tables]: name one of de")


def test_change_wants_a_table_of_the_zone(place: Place) -> None:
    for words in ("german.txt", "en=german.txt", "de=missing.txt"):
        done = place.run("change", words)
        assert done.returncode == 75 and not done.stdout and len(done.stderr.splitlines()) == 1, done


@pytest.mark.parametrize("job", ["audit", "audit of several tables", "change", "load"])
def test_goes_on_where_it_was_stopped(place: Place, monkeypatch: pytest.MonkeyPatch, job: str) -> None:
    """In whichever part of whichever stage: no part is done twice."""
    labels = sorted({f"strasse{number}" for number in range(40)} | {f"straße{number}" for number in range(0, 40, 7)})
    place.write("labels.txt", "".join(f"{label}\n" for label in labels))
    place.write("new.txt", WITH_AE)
    if job == "audit of several tables":
        place.configure('zone = "zone"', de=TABLES / "german.txt", en="new.txt", zone=TABLES / "german.txt")
    words = [job.partition(" ")[0], *{"load": ["labels.txt"], "change": ["de=new.txt"]}.get(job, [])]
    small_parts(monkeypatch, 20)
    keep, kept, last = work.Stage.keep, 0, 0

    def keep_some(self: work.Stage, number: int, result: bytes) -> None:
        nonlocal kept
        if kept == last:
            raise OSError("no space left")
        kept += 1
        keep(self, number, result)

    def run(most: int, *more: str) -> "subprocess.CompletedProcess[bytes]":
        nonlocal kept, last
        kept, last = 0, most
        return place.run(*words, *more)

    monkeypatch.setattr(work.Stage, "keep", keep_some)
    set_register(place, [] if job == "load" else labels)
    whole, parts = run(1000), kept
    assert whole.returncode in (0, 1) and parts == 3 * {"audit": 1, "load": 1, "change": 3}.get(job, 2), (whole, parts)
    for stop in range(parts):
        set_register(place, [] if job == "load" else labels)
        assert run(stop).returncode == 75 and kept == stop
        assert place.run("dump").stdout.count(b"\n") == (0 if job == "load" else len(labels))
        if job != "load" and stop:
            set_register(place, [*labels, "maus"])
            refused = run(1000, "--resume")
            assert refused.returncode == 75 and b"leave out --resume" in refused.stderr and kept == 0, refused
            set_register(place, labels)
        resumed = run(1000, "--resume")
        assert (resumed.stdout, resumed.returncode, kept) == (whole.stdout, whole.returncode, parts - stop), resumed
        assert not list(place.folder.glob("registry.toml.*")), "what was kept is gone"
        assert place.run("dump").stdout.decode().split() == labels


def test_keeps_no_line_that_was_cut_short(tmp_path: Path) -> None:
    """As where a process is killed while it writes it."""
    path, state, results = tmp_path / "audit", [b"state"], {2: b"{}", 0: b"[1, 2]", 1: b""}

    def found(added: dict[int, bytes]) -> dict[int, bytes]:
        with contextlib.closing(work.Stage(path, state)) as stage:
            before = dict(stage.found)
            for number, result in added.items():
                stage.keep(number, result)
        return before

    found(results)
    whole = path.read_bytes()
    for size in range(len(whole)):
        path.write_bytes(whole[:size])
        before = found({})
        assert [*before.items()] == [*results.items()][:len(before)] and len(before) == max(0, whole[:size].count(b"\n") - 1)
        found({number: result for number, result in results.items() if number not in before})
        assert found({}) == results and path.read_bytes() == whole
    with pytest.raises(Unusable, match="leave out --resume"):
        work.Stage(path, [b"other"])
    for line in (2, 3):
        start = [match.end() for match in re.finditer(b"\n", whole)][line - 2]
        for place in (start, start + 4, start + 11):
            path.write_bytes(whole[:place] + b"\0" + whole[place + 1:])
            with pytest.raises(Unusable, match=f"audit: line {line}: it was changed: leave out --resume"):
                work.Stage(path, state)


def test_two_jobs_at_once_do_not_disturb_each_other(tmp_path: Path) -> None:
    """At worst nothing is left to go on with."""
    with contextlib.suppress(InterruptedError), work.Kept(tmp_path / "parts", False) as one:
        first = one.stage("audit", [b"state"])
        first.keep(0, b"0")
        with work.Kept(tmp_path / "parts", False) as other:
            second = other.stage("audit", [b"state"])
            first.keep(1, b"1")
            second.keep(0, b"2")
        second.close()
        first.keep(2, b"3")
        first.close()
        assert (first.found, second.found) == ({0: b"0", 1: b"1", 2: b"3"}, {0: b"2"})
        one.stage("audit-tables", [b"state"]).keep(0, b"4")
        raise InterruptedError
    with work.Kept(tmp_path / "parts", True) as again:
        assert (again.stage("audit", [b"state"]).found, again.stage("audit-tables", [b"state"]).found) == ({}, {0: b"4"})


def test_a_run_that_is_given_parts_answers_as_one_that_is_given_all(place: Place) -> None:
    """Also where it is told more than a pipe takes, and says more."""
    program, words = Program(PROGRAM), ["--variants", str(TABLES / "german.txt"), "--tries", "9"]
    labels = [b"sss", b"Maus", b"ss" * 30, b"", *(b"%d_%d" % (number, number) for number in range(1500)), b"\xff", b"haus"]
    parts = [b"".join(label + b"\n" for label in labels * count) for count in (1, 0, 3)]
    with program.opened(words) as run, program.opened(["--json", *words]) as with_objects:
        for part in parts:
            assert run.plain(part) == (program.plain(words, part) if part else (b"", []))
            told, alone = ([json.loads(line) for line in output.splitlines()]
                           for output in (with_objects.answered(part), program.answered(words, part)))
            assert [{**each, "line": 0} for each in told] == [{**each, "line": 0} for each in alone]


@pytest.mark.parametrize(("script", "told"), [
    ("read line; exit 3", "the program ended with status 3"),
    ("exec 2> /dev/full; exit 3", "the program ended with status 3"),
    ("read line; echo 'idn2: registered line 1: 3 empty' >&2; exit 1", "status 1: idn2: registered line 1: 3 empty"),
    ("read line; echo 'idn2: 70 out of memory' >&2; kill -9 $$", "status -9: idn2: 70 out of memory"),
    ("read line; echo 'idn2: 60 read fault' >&2; echo 'idn2: line 2: 3 empty' >&2; read line; read line",
     "another answer than it should: b'idn2: 60 read fault")])
def test_a_run_that_is_given_parts_says_why_it_ended(bare: Place, script: str, told: str) -> None:
    path = bare.write("program", f"#!/bin/sh\ncase \"$1\" in --version) echo idn2 7;; --register) ;; *) {script};; esac\n")
    path.chmod(0o755)
    with Program(path).opened(["--decode"]) as run, pytest.raises(Unknown, match=re.escape(told)):
        run.plain(b"a\n")


# Takes its time with the end of each part of an audit.
SLOW = """#!/usr/bin/env python3
import os, subprocess, sys, time
if "--others" not in sys.argv:
    os.execv({program!r}, sys.argv)
child = subprocess.Popen([{program!r}, *sys.argv[1:]], stdin=subprocess.PIPE, close_fds=False)
time.sleep(1)
for line in sys.stdin.buffer:
    child.stdin.write(line)
    if line == b"\\n":
        time.sleep(0.6)
        child.stdin.flush()
"""


def test_shows_progress_on_a_terminal_alone(place: Place, monkeypatch: pytest.MonkeyPatch) -> None:
    place.load("haus", "maus")
    assert place.run("audit").stderr == b""
    total = 2 * work.SLOW_PART_LINES
    set_register(place, [f"a{number}" for number in range(total)])
    place.configure("processes = 1")
    place.write("slow", SLOW.format(program=str(PROGRAM))).chmod(0o755)
    monkeypatch.setattr("conftest.PROGRAM", place.folder / "slow")
    master, end = pty.openpty()
    process = place.start("audit", stderr=end)
    os.close(end)
    shown = b""
    # It ends with an error once nobody has the other end.
    with contextlib.suppress(OSError):
        while piece := os.read(master, 65_536):
            shown += piece
    os.close(master)
    process.communicate(timeout=LIMIT)
    drawn = shown.decode().split("\r")[1:]
    assert process.returncode == 0 and drawn[0] == f"audit [{' ' * work.BAR}] 0 of {total}, 0 s ", drawn
    # It moves before the first part is done, and before the last one is.
    assert any(re.fullmatch(rf"audit \[ +\] 0 of {total}, [1-9]\d* s +", each) for each in drawn), drawn
    assert any(re.fullmatch(rf"audit \[#+ +\] \d+ of {total}, \d+/s, \d+ s left +", each) for each in drawn), drawn
    assert drawn[-2].startswith(f"audit [{'#' * work.BAR}] {total} of {total}, "), drawn


def test_shows_how_many_labels_are_registered(place: Place) -> None:
    place.write("labels.txt", "haus\nmaus\n")
    master, end = pty.openpty()
    process = place.start("load", "labels.txt", stderr=end)
    os.close(end)
    process.communicate(timeout=LIMIT)
    shown = os.read(master, 65_536).decode()
    os.close(master)
    for name in ("load", "load, registered"):
        assert f"\r{name} [{'#' * work.BAR}] 2 of 2, " in shown, shown


def test_goes_on_after_it_was_killed(place: Place, monkeypatch: pytest.MonkeyPatch) -> None:
    set_register(place, [f"a{number}" for number in range(3 * work.SLOW_PART_LINES)])
    place.configure("processes = 1")
    place.write("slow", SLOW.format(program=str(PROGRAM))).chmod(0o755)
    monkeypatch.setattr("conftest.PROGRAM", place.folder / "slow")
    process, file = place.start("audit"), place.folder / "registry.toml.audit-parts" / "audit"
    until = time.monotonic() + LIMIT
    while not (file.exists() and file.read_bytes().count(b"\n") > 1):
        assert time.monotonic() < until and process.poll() is None
        time.sleep(0.05)
    process.kill()
    process.communicate(timeout=LIMIT)
    before, keep, kept = file.read_bytes().count(b"\n") - 1, work.Stage.keep, 0

    def counted(self: work.Stage, number: int, result: bytes) -> None:
        nonlocal kept
        kept += 1
        keep(self, number, result)

    monkeypatch.setattr(work.Stage, "keep", counted)
    place.expect(["audit", "--resume"], f"{3 * work.SLOW_PART_LINES} labels, 0 invalid, 0 groups\n", 0)
    assert 0 < before < 3 and kept == 3 - before and not file.exists(), (before, kept)


def test_what_was_done_before_has_no_part_in_the_rate(monkeypatch: pytest.MonkeyPatch) -> None:
    shown = io.StringIO()
    monkeypatch.setattr(shown, "isatty", lambda: True)
    monkeypatch.setattr(sys, "stderr", shown)
    times = iter([100.0, 102.0])
    monkeypatch.setattr(time, "monotonic", lambda: next(times))
    progress = work.Progress("load", 1000, 900)
    progress.add(40)
    progress.show()
    assert shown.getvalue().endswith("940 of 1000, 20/s, 3 s left "), shown.getvalue()


def start(words: list[str], folder: Path, environment: dict[str, str]) -> "subprocess.Popen[bytes]":
    """A process of a cluster."""
    return subprocess.Popen(words, cwd=folder, env=environment, stdout=subprocess.DEVNULL, stderr=subprocess.DEVNULL)


@pytest.fixture
def cluster(place: Place) -> Iterator[tuple[str, list["subprocess.Popen[bytes]"]]]:
    """The address of a scheduler, and its three workers."""
    pytest.importorskip("distributed", reason="python3-distributed")
    file = place.folder / "scheduler.json"
    common = [sys.executable, "-m", "distributed.cli.dask_scheduler"]
    scheduler = start([*common, "--port", "0", "--no-dashboard", "--scheduler-file", str(file)], place.folder,
                      place.environment)
    workers: list[subprocess.Popen[bytes]] = []
    try:
        until = time.monotonic() + LIMIT
        # Until it is there, and whole.
        while not (file.exists() and file.read_text().rstrip().endswith("}")):
            assert time.monotonic() < until and scheduler.poll() is None
            time.sleep(0.1)
        worker = [sys.executable, "-m", "distributed.cli.dask_worker", "--scheduler-file", str(file), "--nthreads", "1",
                  "--no-dashboard", "--no-nanny"]
        workers += [start(worker, place.folder, place.environment) for _ in range(3)]
        yield json.loads(file.read_text())["address"], workers
    finally:
        for process in (*workers, scheduler):
            process.kill()
            process.wait()


def test_a_cluster_does_the_same(place: Place, cluster: tuple[str, list["subprocess.Popen[bytes]"]],
                                 monkeypatch: pytest.MonkeyPatch) -> None:
    address, workers = cluster
    labels = [f"strasse{number}" for number in range(300)] + [f"straße{number}" for number in range(0, 300, 7)] + ["中国"]
    place.load(*labels)
    small_parts(monkeypatch, 10)
    monkeypatch.setattr(work, "BATCH_LINES", 20)
    alone = place.run("audit", "--json")
    killed: list[int] = []
    keep = work.Stage.keep

    def kill_one(self: work.Stage, number: int, result: bytes) -> None:
        keep(self, number, result)
        if not killed:
            workers[0].send_signal(signal.SIGKILL)
            killed.append(number)

    monkeypatch.setattr(work.Stage, "keep", kill_one)
    together = place.run("audit", "--json", "--scheduler", address)
    assert killed and (objects(together), together.returncode) == (objects(alone), 1), together.stderr
    monkeypatch.setattr("idn2_registry.cluster.SECONDS", 1)
    away = place.run("audit", "--scheduler", "tcp://127.0.0.1:1")
    assert away.returncode == 75 and not away.stdout, away


def test_joins_to_nothing_that_is_too_large(bare: Place) -> None:
    for number in range(3):
        lines = "".join(f"{point:04X}\n" for point in range(0x4E00 + 2000 * number, 0x4E00 + 2000 * (number + 1)))
        bare.write(f"{number}.txt", lines)
    done = bare.run("join", "0.txt", "1.txt", "2.txt")
    assert done.returncode == 75 and not done.stdout and b"34 table limit" in done.stderr, done
