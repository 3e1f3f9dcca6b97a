"""Documents as `xml_text` reads them, beside Python's expat: the same verdict, the same tags, texts and lines; and where
one is refused, expat takes what stands before the place.

    python3 conformance/xml_beside_expat.py [--texts N] [--seed N]

A document is drawn, changed in a few places, and read by both. It makes a program of its own in a temporary folder, which it
builds without a proof. What differs by intent isn't compared: a document type, another encoding or version, names outside
ASCII, more than 64 levels.
"""

from __future__ import annotations

import argparse
import random
import re
import shutil
import subprocess
import sys
import tempfile
from collections import Counter
from dataclasses import dataclass, field
from pathlib import Path
from xml.parsers import expat

ROOT = Path(__file__).resolve().parent.parent
LEVELS = 64

PROGRAM = """//! Reads lines of hexadecimal digits as documents, and prints a sum of what each says, or where it stops.
#![tactic(auto)]

use bumpalo::Bump;
use std::alloc::Global;
use std::io;
use xml_text::{DocumentError, Said, Token, read_document};

fn bytes_of(alloc: Global, digits: &[u8]) -> Result<Vec<u8>, std::alloc::AllocError> {
    let mut bytes = Vec::new(alloc);
    let mut high = None;
    for digit in digits {
        let value = char::from(*digit).to_digit(16).unwrap_or(0) as u8;
        match high {
            None => high = Some(value),
            Some(first) => {
                bytes.push((first << 4) | value)?;
                high = None;
            }
        }
    }
    Ok(bytes)
}

fn add(sum: u64, byte: u8) -> u64 {
    (sum ^ u64::from(byte)).wrapping_mul(0x100000001b3)
}

fn add_text(mut sum: u64, text: &[u8]) -> u64 {
    for byte in text {
        sum = add(sum, *byte);
    }
    add(sum, 0)
}

fn add_token(mut sum: u64, token: &Token) -> u64 {
    match token.said() {
        Said::Open(name, attributes) => {
            sum = add_text(add(add(sum, 1), (token.line() % 251) as u8), name);
            for attribute in *attributes {
                sum = add_text(add_text(sum, attribute.name()), attribute.value());
            }
            sum
        }
        Said::Text(bytes) => add_text(add(sum, 2), bytes),
        Said::Close => add(sum, 3),
    }
}

fn main(rt: HostRuntime) -> io::Result<()> {
    for line in rt.lines(rt.alloc()) {
        let line = line?;
        let text = bytes_of(rt.alloc(), line.as_str().as_bytes())?;
        let arena = Bump::new(rt.alloc());
        match read_document(rt.alloc(), &arena, &text) {
            Ok(tokens) => {
                let mut sum = 0xcbf29ce484222325;
                for token in &tokens {
                    sum = add_token(sum, token);
                }
                println!(rt; "says {sum}")?;
            }
            Err(DocumentError::Stop(place)) => println!(rt; "stop {}", place.byte)?,
            Err(DocumentError::NoCharacter(place)) => println!(rt; "character {}", place.byte)?,
            Err(DocumentError::Declaration) => println!(rt; "declaration 0")?,
            Err(DocumentError::TooLong) => println!(rt; "long 0")?,
            Err(DocumentError::Memory) => println!(rt; "memory 0")?,
        }
    }
    Ok(())
}
"""

NAMES = (b"a", b"b", b"cp", b"not-when", b"x:y", b"_", b"A1", b"ref.2")
VALUES = (b"", b"0061", b"a b", b"\t\n", b"\r\n", b"&lt;&gt;&amp;", b"&#65;&#x4e2D;", b"\xc3\xa9", b"]]>", b"a>b/")
CONTENTS = (b"x", b"]", b">", b"\r", b"\n", b"\r\n", b"&amp;", b"&#x41;", b"&quot;", b"y y", b"\xe4\xb8\x80")
COMMENTS = (b"", b"x", b"-x", b"\n", b"- ", b"<a>")
INSTRUCTIONS = (b"", b" ", b" x", b" ?", b" x?y", b"\n>")
SECTIONS = (b"", b"x", b"]", b"]]", b"<a>", b"\r\n", b"] ]>", b"&lt;")
DECLARATIONS = (
    b"", b"", b'<?xml version="1.0"?>', b"<?xml version='1.0' encoding=\"utf-8\"?>\n", b"\xef\xbb\xbf",
    b'<?xml version="1.0" encoding="US-ASCII" standalone = "yes" ?>\r\n',
)
PIECES = (
    b"<", b">", b"&", b";", b'"', b"'", b"/", b"?", b"!", b"-", b"--", b"-->", b"<!--", b"]]>", b"]", b"[", b"<![CDATA[",
    b"<?", b"?>", b"=", b" ", b"\n", b"\r", b"\r\n", b"\t", b"a", b"</a>", b"<b>", b"</b>", b"<a/>", b"&lt;", b"&#1;",
    b"&#x10FFFF;", b"&#x110000;", b"&#13;", b"&#x;", b"&foo;", b"\xc3\xa9", b"\xef\xbf\xbe", b"\xed\xa0\x80", b"\xc0\x80",
    b"\x00", b"\x7f", b"\xf4\x90\x80\x80", b"\xf0\x9f\x98\x80", b"<?xml?>", b"<?XML x?>", b'x="1"', b"<!DOCTYPE a>", b".", b":",
)
# What is written in one run has at most a MiB.
TEXTS_A_RUN = 25_000
SUM = 0xCBF29CE484222325


def element(rng: random.Random, depth: int) -> bytes:
    """An element, well formed but for a name that stands twice in a tag."""
    name = rng.choice(NAMES)
    tag = b"<" + name
    for _ in range(rng.choice((0, 0, 1, 2))):
        quote = rng.choice((b'"', b"'"))
        value = b"".join(rng.choice(VALUES) for _ in range(rng.randrange(3)))
        tag += rng.choice((b" ", b"\n", b"  ")) + rng.choice(NAMES) + rng.choice((b"=", b" =\t")) + quote + value + quote
    if rng.random() < 0.2:
        return tag + rng.choice((b"", b" ")) + b"/>"
    return tag + b">" + content(rng, depth) + b"</" + name + rng.choice((b"", b" ", b"\n")) + b">"


def content(rng: random.Random, depth: int) -> bytes:
    parts = []
    for _ in range(rng.randrange(5)):
        kind = rng.randrange(8)
        if kind == 0 and depth < 5:
            parts.append(element(rng, depth + 1))
        elif kind == 1:
            parts.append(b"<!--" + rng.choice(COMMENTS) + b"-->")
        elif kind == 2:
            parts.append(b"<?t" + rng.choice(INSTRUCTIONS) + b"?>")
        elif kind == 3:
            parts.append(b"<![CDATA[" + rng.choice(SECTIONS) + b"]]>")
        else:
            parts.append(rng.choice(CONTENTS))
    return b"".join(parts)


def drawn(rng: random.Random) -> bytes:
    """A document. Some have nearly as many levels as one may have, or one more."""
    if rng.random() < 0.02:
        levels = LEVELS - 2 + rng.randrange(3)
        return b"<a>" * levels + element(rng, 5) + b"</a>" * levels
    return rng.choice(DECLARATIONS) + rng.choice((b"", b"<!--p-->\n")) + element(rng, 0) + rng.choice((b"", b"\n", b"<?e?>"))


def changed(rng: random.Random, text: bytes) -> bytes:
    """The text with a few changes: cut, a piece put in, bytes taken out, moved or replaced."""
    for _ in range(rng.choice((0, 1, 1, 1, 2, 3))):
        at = rng.randrange(len(text) + 1)
        end = min(len(text), at + rng.choice((1, 1, 2, 3, 20)))
        text = rng.choice((
            text[:at], text[:at] + rng.choice(PIECES) + text[at:], text[:at] + text[end:], text[:end] + text[at:],
            text[:at] + bytes([rng.randrange(256)]) + text[at + 1:], text[:at] + rng.choice(PIECES) + text[end:],
        ))
    return text


def lines_of_crates(name: str, lines: dict[str, str]) -> dict[str, str]:
    """Of the lines of crates.txt that of a crate, and those of all crates that it uses."""
    if name not in lines:
        return {}
    below = [lines_of_crates(each, lines) for each in lines[name].partition(":")[2].split()]
    return {other: line for each in below for other, line in each.items()} | {name: lines[name]}


def build(folder: Path) -> list[str]:
    """A program in the folder that reads documents, and the command that runs it."""
    lines = {line.partition(":")[0]: line for line in (ROOT / "crates.txt").read_text().splitlines()}
    used = lines_of_crates("xml_text", lines)
    for crate in used:
        ignored = shutil.ignore_patterns("out", "planted", "wrong-bodies", "must-fail")
        shutil.copytree(ROOT / "crates" / crate, folder / "crates" / crate, ignore=ignored)
    (folder / "crates.txt").write_text("\n".join([*used.values(), "xml_documents: xml_text bumpalo", ""]))
    source = folder / "crates" / "xml_documents" / "src"
    source.mkdir(parents=True)
    (source / "main.rt").write_text(PROGRAM)
    return ["rt", "try", "xml_documents", "--seconds", "600"]


def answers(folder: Path, command: list[str], texts: list[bytes]) -> list[tuple[str, int]]:
    """What the program says of each text: a word and a number."""
    given = "".join(f"{text.hex()}\n" for text in texts)
    place = folder / "crates" / "xml_documents"
    run = subprocess.run(command, cwd=place, input=given, capture_output=True, text=True, check=False)
    said = re.findall(r"^(says|stop|character|declaration|long|memory) (\d+)$", run.stdout, re.MULTILINE)
    if len(said) != len(texts):
        sys.exit(f"{len(said)} answers to {len(texts)} texts\n{run.stdout[-2000:]}\n{run.stderr[-2000:]}")
    return [(word, int(number)) for word, number in said]


def added(total: int, data: bytes) -> int:
    for byte in data:
        total = ((total ^ byte) * 0x100000001B3) % (1 << 64)
    return total


@dataclass
class Expat:
    """What expat says of a text, or that it refuses it, and whether the text is of another kind."""

    total: int = SUM
    text: bytes = b""
    level: int = 0
    is_refused: bool = False
    others: set[str] = field(default_factory=set)

    def end_text(self) -> None:
        if self.text:
            self.total = added(self.total, b"\2" + self.text + b"\0")
        self.text = b""

    def open(self, name: str, attributes: list[str], line: int) -> None:
        self.end_text()
        words = b"".join(word.encode() + b"\0" for word in (name, *attributes))
        self.total = added(self.total, bytes((1, line % 251)) + words)
        self.level += 1
        if self.level > LEVELS:
            self.others.add("too many levels")
        if not all(word.isascii() for word in (name, *attributes[::2])):
            self.others.add("a name outside ASCII")

    def close(self) -> None:
        self.end_text()
        self.total = added(self.total, b"\3")
        self.level -= 1

    def say(self, text: str) -> None:
        self.text += text.encode()

    def declare(self, version: str, encoding: str | None) -> None:
        if version != "1.0" or (encoding or "utf-8").lower() not in ("utf-8", "us-ascii"):
            self.others.add("another version or encoding")


def by_expat(text: bytes, is_final: bool) -> Expat:
    said = Expat()
    parser = expat.ParserCreate()
    parser.ordered_attributes = True
    parser.StartElementHandler = lambda name, attributes: said.open(name, attributes, parser.CurrentLineNumber)
    parser.EndElementHandler = lambda name: said.close()
    parser.CharacterDataHandler = said.say
    parser.StartDoctypeDeclHandler = lambda *words: said.others.add("a document type")
    parser.XmlDeclHandler = lambda version, encoding, standalone: said.declare(version, encoding)
    parser.ProcessingInstructionHandler = lambda name, data: None if name.isascii() else said.others.add("a name outside ASCII")
    try:
        parser.Parse(text, is_final)
    except (expat.ExpatError, ValueError, LookupError):
        said.is_refused = True
    return said


def difference(text: bytes, word: str, number: int) -> str | None:
    """How the two differ, if they do; or 'another kind: ' and why they aren't compared."""
    said = by_expat(text, True)
    if word == "says":
        if said.is_refused:
            return "expat refuses it"
        return None if said.total == number else "expat says something else"
    if not said.is_refused:
        return f"another kind: {min(said.others)}" if said.others else "expat takes it"
    # A reference is judged where it ends, so what stands before it counts.
    if word == "stop" and by_expat(re.sub(rb"&[\w:.#-]*$", b"", text[:number]), False).is_refused:
        return "expat stops before"
    return None


def main() -> int:
    parser = argparse.ArgumentParser(description=__doc__, formatter_class=argparse.RawDescriptionHelpFormatter)
    parser.add_argument("--texts", type=int, default=5000)
    parser.add_argument("--seed", type=int, default=1)
    arguments = parser.parse_args()
    rng = random.Random(arguments.seed)
    texts = [changed(rng, drawn(rng)) for _ in range(arguments.texts)]
    read: list[tuple[str, int]] = []
    with tempfile.TemporaryDirectory() as folder:
        command = build(Path(folder))
        for first in range(0, len(texts), TEXTS_A_RUN):
            read += answers(Path(folder), command, texts[first : first + TEXTS_A_RUN])
    found = [(text, word, difference(text, word, number)) for text, (word, number) in zip(texts, read)]
    wrong = [(text, word, why) for text, word, why in found if why is not None and not why.startswith("another kind")]
    for text, word, why in wrong[:20]:
        print(f"{text!r}: {word}: {why}")
    for why, count in sorted(Counter(why for _, _, why in found if why is not None and why.startswith("another")).items()):
        print(f"{why}: {count} not compared")
    documents = sum(word == "says" for _, word, _ in found)
    print(f"{len(texts)} texts, {documents} documents, {len(wrong)} differences")
    return 1 if wrong or documents in (0, len(texts)) else 0


if __name__ == "__main__":
    sys.exit(main())
