#!/usr/bin/env python3
"""Packs idn2-registry into one file that Python runs: python3 registry/pack.py PROGRAM_NAME FILE

PROGRAM_NAME is the name of the program idn2 beside it. The same sources make the same bytes."""

import sys
import zipfile
from collections.abc import Iterator
from pathlib import Path

HERE = Path(__file__).resolve().parent
PACKAGE = HERE / "idn2_registry"
SUFFIXES = (".py", ".typed", ".txt", ".css", ".js", ".svg")
NAME_FILE = "idn2_registry/program_name.txt"
START = """import sys

# An older Python has to be able to read this, so that it can tell of itself. Its status says that nothing is known.
if sys.version_info < (3, 11):
    sys.stderr.write("idn2-registry: Python 3.11 or later is needed, and this is %d.%d\\n" % sys.version_info[:2])
    sys.exit(75)

from idn2_registry.command import main

sys.exit(main())
"""


def files(program_name: str) -> Iterator[tuple[str, bytes]]:
    """The names and the texts of what is packed."""
    yield "__main__.py", START.encode()
    for path in sorted(PACKAGE.rglob("*")):
        if path.suffix in SUFFIXES:
            name = str(path.relative_to(HERE))
            yield name, f"{program_name}\n".encode() if name == NAME_FILE else path.read_bytes()


def packed(program_name: str, target: Path) -> None:
    """Writes the file."""
    target.parent.mkdir(parents=True, exist_ok=True)
    with open(target, "wb") as file:
        file.write(b"#!/usr/bin/env python3\n")
        with zipfile.ZipFile(file, "w", zipfile.ZIP_DEFLATED) as archive:
            for name, text in files(program_name):
                # Without a time, which would be another in each archive.
                archive.writestr(zipfile.ZipInfo(name), text, zipfile.ZIP_DEFLATED)
    target.chmod(0o755)


if __name__ == "__main__":
    if len(sys.argv) != 3:
        sys.exit(__doc__)
    packed(sys.argv[1], Path(sys.argv[2]))
