#!/usr/bin/env python3
"""Compares `idn2 --check-table` with the reference implementation of the notation: python3 conformance/check_tables.py

The reference implementation is tables/check.py. Both are given the example tables of tables/, texts at the edges of the notation
and of its limits, and random texts from a fixed seed, without `--standard` and with it. What is printed, the message of
a faulty table and the status must be the same, byte for byte. The classes of code points are those of Unicode's data
here, so the texts have no code point that is newer.
"""

import argparse
import random
import subprocess
import sys
import tempfile

from compare import HERE, options_of

import check
from idn2_registry.unicode_data import Classes

SEED = 5891
TABLES = HERE.parent / "tables"
SHOWN = 200

SHARP_S = b"0061\n0065\n0072\n0073\n0074\n0073-0073|00DF\n00DF|0073-0073\n"
FULL = b"".join(b"%04X\n" % point for point in range(0x4E00, 0x5E00))
COMMENTS = (b"#" * 1023 + b"\n") * 1024
MANY = [b"%04X" % point for point in range(0x0430, 0x0450)]

EDGES = [
    b"", b"\n", b"\r\n", b" \t\n", b"\r\r\n", b"#", b" \t# a comment\n", b"#\xff\xfe\n", b"\xef\xbb\xbf0061\n",
    b"0061", b"0061\r\n", b"0061\r", b"0061\r\r\n", b"0061 # x\n", b"0061 0062\n", b"61\n", b"061\n", b"000061\n",
    b"0000061\n", b"U+0061\nu+0062\n", b"U0061\n", b"U+ 0061\n", b"U++0061\n", b"00df\n00DF\n", b"d800\n", b"DFFF\n",
    b"110000\n", b"10FFFF\n", b"0061-0062\n", b"0061-\n", b"-0061\n", b"0061--0062\n", b"0061|\n", b"|0061\n",
    b"0061||0062\n", b"0061|0062|0063\n", b"0061:0062\n", b"0061|0062:\n", b"0061|:0062\n", b"0061|0062::0063\n",
    b"0061|-\n", b" 0061\t-\t0062 | 0063 : 0064 - 0065 \n", b"u+0061 | 0062 : 0063-0064\r\n", b"0061\x0b\n",
    b"0061\x000062\n", b"%version 3\n", b" %\n", b"0061..0063\n", b"0061|!0062\n", b"!0061\n",
    b"0041\n", b"0061|0041\n", b"002D\n", b"00B7\n", b"200D\n", b"0640\n", b"FB1D\n", b"FB1E\n", b"FE70\n", b"10800\n",
    b"1E800\n", b"1E900\n", b"1E922\n", b"50000\n", b"FDD0\n",
    b"0061\n0061\n", b"0061\n\n#\n0061|0062\n", b"0061|0061\n", b"0061|0062:0062\n", b"0061|0062\n0061|0062:0062\n",
    b"0061-0062|0061-0062\n", b"0041|0041\n", b"0061\n0041\n0062|\n",
    b"-".join([b"0061"] * 8), b"-".join([b"0061"] * 9), b"-".join([b"0041"] * 9), b"0061|" + b"-".join([b"0062"] * 9),
    b"0061|" + b":".join(MANY[:16]), b"0061|" + b":".join(MANY[:17]), b"0061|" + b":".join([b"0061"] * 17),
    SHARP_S, SHARP_S[:-12], SHARP_S[:-11], SHARP_S[:-9], SHARP_S[:-5], SHARP_S[:-1],
    FULL, FULL + b"5E00\n", FULL + b"\n#\n", FULL + b"0061|\n", FULL + b"4E00\n", FULL[:-1],
    COMMENTS, COMMENTS + b"#", COMMENTS[:-1], COMMENTS[:-1] + b"##", COMMENTS[:-1] + b"#\n", COMMENTS + b"0061|",
    b"#" * 1024, b"#" * 1025, b"#" * 1023 + b"\r\n", b"#" * 1024 + b"\r\n", b"0061|\n" + b"#" * 1025,
    b"0061|0061-0061\n", b"0061|0062:0063\n", b"0061|0062\n0062|0061:0063\n0063|0062\n", b"0061|0062\n0062|0061\n",
]

VERSION_LINES = [b"%version 2\n", b"%version 2\r\n"]
# After a version line, where each text of EDGES is tried, too.
EDGES_OF_VERSION_2 = [
    b"0061..0063\n", b"0061..0061\n", b" U+0061 .. 0063 \r\n", b"0061 . . 0063\n", b"0061...0063\n", b"0061.0063\n",
    b"0061..\n", b"..0061\n", b"0063..0061\n", b"0061..0062..0063\n", b"0061-0062..0063\n", b"0061..0062-0063\n",
    b"0061..0062|0063\n", b"0061..0062:0063\n", b"0061|0062..0063\n", b"!0061..0062\n", b"0061..!0062\n",
    b"0061..0063 #\n", b"0061..00063\n", b"0061..D7FF\n", b"D7FF..E000\n", b"D800..DFFF\n", b"0061..D800\n",
    b"DFFF..E000\n", b"10FFFF..10FFFF\n", b"0061..110000\n", b"005A..0061\n", b"0061..007B\n", b"002D..002D\n",
    b"0061..0063\n0062\n", b"0062\n0061..0063\n", b"0061..0063\n0063..0065\n", b"0061..0063\n0064..0066\n",
    b"0061-0062\n0061..0063\n", b"0041..1041\n", b"0041..1040\n", b"4E00..5DFF\n", b"4E00..5E00\n",
    b"0061\n4E00..5DFF\n", b"0061\n4E00..5DFE\n", b"4E00..5DFF\n0061|\n", b"4E00..5DFF\n0041\n", b"0061|!0062\n",
    b"0061|! 0062\n", b"0061|!\t0062 : !0063\n", b"0061|!!0062\n", b"0061|!\n", b"0061|0062!\n", b"0061!0062\n",
    b"0061!|0062\n", b"!0061|0062\n", b"!0061\n", b"!\n", b"0061|0062-!0063\n", b"0061|!0062-0063\n",
    b"0061|0062:!0062\n", b"0061|!0062:!0062\n", b"0061|!0061\n", b"0061|!0041\n", b"0061|!0062\n0062|0061\n",
    b"0061|!0062\n0062\n", b"0061|!0062\n0062|!0061:!0063\n0063|0062\n",
    b"0061|" + b":".join(b"!" + point for point in MANY[:16]),
    b"0061|" + b":".join(b"!" + point for point in MANY[:17]), b"0061|!" + b"-".join([b"0062"] * 8),
    b"0061|!" + b"-".join([b"0062"] * 9), b"%version 2\n", b"%\n", b" %version 2\n", b"\n\n%version 2\n",
    b"# %version 2\n",
]


def random_text(chance):
    """A table of few sequences, so that they meet; at times with a damaged byte. Half of them are of version 2."""
    is_marked, lines = chance.random() < 0.5, []
    mark = lambda sequence: chance.choice((b"", b"!", b"! ")) + sequence if is_marked else sequence
    for _ in range(chance.randint(1, 5)):
        sequences = [b"-".join(chance.choices([b"0061", b"0062", b"U+0063", b"00df"], k=chance.choice((1, 1, 1, 2))))
                     for _ in range(chance.choice((1, 2, 2, 3)))]
        line = sequences[0] + (b"|" if sequences[1:] else b"") + b":".join(map(mark, sequences[1:]))
        if is_marked and chance.random() < 0.3:
            line = b"%04X..%04X" % (chance.randint(0x5F, 0x64), chance.randint(0x61, 0x68))
        lines.append(line + chance.choice((b"\n", b"\n", b" \n", b"\r\n")))
    text = (chance.choice(VERSION_LINES) if is_marked else b"") + b"".join(lines)
    if chance.random() < 0.3:
        place = chance.randrange(len(text))
        damage = chance.choice((b"", b"|", b"-", b":", b" ", b"#", b"\n", b"G", b"0", b"!", b".", b".."))
        text = text[:place] + damage + text[place + 1:]
    return text


def answer_of(program, text, words):
    with tempfile.NamedTemporaryFile() as file:
        file.write(text)
        file.flush()
        done = subprocess.run([program, *words, "--check-table", file.name], stdin=subprocess.DEVNULL, capture_output=True)
    return done.stdout.decode(), done.stderr.decode(), done.returncode


def expected(text, classes):
    lines, is_clean = check.check(text, classes)
    printed = "".join(line + "\n" for line in lines)
    if printed.startswith("idn2: "):
        return "", printed, 2
    return printed, "", 0 if is_clean else 1


def main():
    words = argparse.ArgumentParser(description="Compares --check-table with a reference implementation of the notation.")
    words.add_argument("--random", default=500, type=int, help="random tables")
    options = options_of(words)

    classes, chance = Classes(), random.Random(SEED)
    examples = {path.name: path.read_bytes() for path in sorted(TABLES.glob("*.txt"))}
    version_2 = [VERSION_LINES[0] + text for text in (*EDGES, *EDGES_OF_VERSION_2)]
    version_2 += [VERSION_LINES[1] + text for text in EDGES_OF_VERSION_2]
    texts = [*examples.values(), *EDGES, *EDGES_OF_VERSION_2, *version_2]
    texts += [random_text(chance) for _ in range(options.random)]
    wrong = 0
    for words, by_choice in (([], classes), (["--standard"], classes.whole())):
        for text in texts:
            given, wanted = answer_of(options.program, text, words), expected(text, by_choice)
            if given != wanted:
                wrong += 1
                print(f"{words} {text[:SHOWN]!r}\n  answered {given}\n  expected {wanted}")
    gaps = [name for name, text in examples.items() if expected(text, classes)[2] != 0]
    print(f"--check-table: {len(texts)} tables, {wrong} answered otherwise")
    print(f"example tables with a gap: {', '.join(gaps) or 'none'}")
    return 1 if wrong or gaps else 0


if __name__ == "__main__":
    sys.exit(main())
