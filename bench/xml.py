#!/usr/bin/env python3
"""Times how documents of XML are read: python3 bench/xml.py

    Chinese       20,902 Han characters with three variants each and comments, as ICANN's ruleset for the root zone
                  has: 5 MB
    the largest   the same entries again and again, up to 64 MiB

`xml_text` makes a list of what each tag and each text says. Python's expat is given nothing to do, so it makes no list.
For each the processor time is told, the least of some rounds, less that of a file of the same size that isn't read past
its first byte; of our own reader also the peak of memory, less the same, and the instructions a byte by valgrind, if it is there.

The reader is that of the repository. A program for it is proved and built in a temporary folder; rt begins with what it kept
when it proved `xml_text`. With --keep FILE the program is kept; with --beside FILE one that was kept, as of the version before,
is measured beside it, round by round.
"""

from __future__ import annotations

import argparse
import os
import re
import shutil
import subprocess
import sys
import tempfile
from pathlib import Path

from runs import Failed, Run, found, in_turn

ROOT = Path(__file__).resolve().parent.parent
LIMIT = 64 << 20
HAN, ENTRIES = 0x4E00, 20_902

PROGRAM = """//! Reads each file that is named as a document, and prints how many tokens it says.
#![tactic(auto)]

use bumpalo::Bump;
use std::{env, fs, io};
use xml_text::read_document;

fn main(rt: HostRuntime) -> io::Result<()> {
    for path in env::args(&rt)?.skip(1) {
        let text = fs::read(&rt, &path)?;
        let arena = Bump::new(rt.alloc());
        match read_document(rt.alloc(), &arena, &text) {
            Ok(tokens) => {
                let count = tokens.len();
                println!(rt; "{count} tokens")?;
            }
            Err(_) => println!(rt; "no document")?,
        }
    }
    Ok(())
}
"""
EXPAT = """import sys
from xml.parsers import expat
text = open(sys.argv[1], "rb").read()
if text[0]:
    expat.ParserCreate().Parse(text, True)
"""
HEAD = b"""<?xml version="1.0" encoding="utf-8"?>
<lgr xmlns="urn:ietf:params:xml:ns:lgr-1.0">
<data>
"""
TAIL = b"</data>\n</lgr>\n"


def entry(number: int) -> bytes:
    """An entry, as published rulesets write it."""
    point, one, two = (HAN + (number + step) % ENTRIES for step in range(3))
    return (
        f'<char cp="{point:04X}" tag="sc:Hani" ref="0 1 2">\n'
        f'  <var cp="{point:04X}" type="r-both" comment="identity"/>\n'
        f'  <var cp="{one:04X}" type="blocked" ref="3"/>\n'
        f'  <var cp="{two:04X}" type="simp" comment="simplified form of the same"/>\n'
        "</char>\n"
    ).encode()


def documents() -> dict[str, bytes]:
    data = b"".join(map(entry, range(ENTRIES)))
    times = (LIMIT - len(HEAD) - len(TAIL)) // len(data)
    return {"Chinese": HEAD + data + TAIL, "the largest": HEAD + times * data + TAIL}


def crates_below(name: str, lines: dict[str, str]) -> set[str]:
    """A crate of the repository, and those that it uses."""
    if name not in lines:
        return set()
    return {name}.union(*(crates_below(other, lines) for other in lines[name].partition(":")[2].split()))


def build(folder: Path) -> Path:
    """A program in the folder that reads documents."""
    lines = {line.partition(":")[0]: line for line in (ROOT / "crates.txt").read_text().splitlines()}
    used = crates_below("xml_text", lines)
    for crate in used:
        ignored = shutil.ignore_patterns("out", "planted", "wrong-bodies", "must-fail")
        shutil.copytree(ROOT / "crates" / crate, folder / "crates" / crate, ignore=ignored)
    kept = [line for name, line in lines.items() if name in used]
    (folder / "crates.txt").write_text("\n".join([*kept, "xml_reading: xml_text bumpalo", ""]))
    place = folder / "crates" / "xml_reading"
    (place / "src").mkdir(parents=True)
    (place / "src" / "main.rt").write_text(PROGRAM)
    done = subprocess.run(["rt", "run"], cwd=place, capture_output=True, text=True, check=False)
    program = place / "out" / "xml_reading"
    if not program.exists():
        raise Failed(f"no program was built\n{done.stdout[-2000:]}\n{done.stderr[-2000:]}")
    return program


def instructions(run: Run) -> int:
    words = ["valgrind", "--tool=callgrind", "--callgrind-out-file=/dev/null", *run.command]
    done = subprocess.run(words, capture_output=True, env=run.environment, check=True)
    counted = re.search(rb"Collected : (\d+)", done.stderr)
    if counted is None:
        raise Failed(f"{run} under callgrind: {done.stderr.decode(errors='replace')}")
    return int(counted[1])


def measure(folder: Path, rounds: int, keep: Path | None, beside: Path | None) -> None:
    nothing, readers = Path(os.devnull), {"idn2": build(folder)}
    if keep is not None:
        shutil.copy(readers["idn2"], keep)
    if beside is not None:
        readers["beside"] = beside.resolve()
    gnu_time, has_valgrind = found("time"), found("valgrind") is not None
    print(f"{'':<14}{'':<8}{'bytes':>12}{'ms':>10}{'MiB':>10}{'instructions a byte':>22}")
    for name, text in documents().items():
        whole, unread = folder / "whole.xml", folder / "unread.xml"
        whole.write_bytes(text)
        unread.write_bytes(b"\0" + text[1:])
        runs = {
            reader: tuple(Run(program, [str(path)], nothing) for path in (whole, unread))
            for reader, program in readers.items()
        }
        for reader, (one, _) in runs.items():
            if "tokens" not in one.output():
                raise Failed(f"{reader} doesn't read {name}")
        runs["expat"] = tuple(Run(sys.executable, ["-c", EXPAT, str(path)], nothing) for path in (whole, unread))
        taken = [one.processor for one in in_turn([one for pair in runs.values() for one in pair], rounds)]
        for place, (reader, (one, less)) in enumerate(runs.items()):
            time = 1000 * (taken[2 * place] - taken[2 * place + 1])
            row = f"{name:<14}{reader:<8}{len(text):>12,}{time:>10.1f}"
            if reader != "expat" and gnu_time:
                row += f"{(one.kibibytes(gnu_time) - less.kibibytes(gnu_time)) / 1024:>10.1f}"
            if reader != "expat" and has_valgrind:
                row += f"{(instructions(one) - instructions(less)) / len(text):>22.2f}"
            print(row, flush=True)


def main() -> str | None:
    words = argparse.ArgumentParser(description=__doc__, formatter_class=argparse.RawDescriptionHelpFormatter)
    words.add_argument("--rounds", type=int, default=5, help="rounds of which the least times are taken")
    words.add_argument("--keep", type=Path, metavar="FILE", help="where the program is kept")
    words.add_argument("--beside", type=Path, metavar="FILE", help="a program that was kept")
    options = words.parse_args()
    try:
        with tempfile.TemporaryDirectory() as folder:
            measure(Path(folder), options.rounds, options.keep, options.beside)
    except Failed as failure:
        return str(failure)
    return None


if __name__ == "__main__":
    sys.exit(main())
