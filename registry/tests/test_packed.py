"""The one file that is installed, its manual page and its completions."""

import argparse
import os
import re
import shutil
import subprocess
import sys
import tomllib
from collections import defaultdict
from collections.abc import Iterator
from pathlib import Path

import pytest
from conftest import LIMIT, PACKAGE, PROGRAM, ROOT, Place

from idn2_registry.command import parser

SHELLS = ("bash", "zsh", "fish")


def jobs() -> Iterator[tuple[str, set[str]]]:
    """Each job with its options."""
    [subparsers] = [action for action in parser()._actions if isinstance(action, argparse._SubParsersAction)]
    for name, job in subparsers.choices.items():
        yield name, {option for action in job._actions for option in action.option_strings if option.startswith("--")}


def test_the_packed_file_does_the_same(place: Place) -> None:
    """Beside a program of another name, with nothing else of the repository."""
    folder = place.folder / "bin"
    words = [sys.executable, str(PACKAGE / "pack.py"), "idn2-proved", str(folder / "idn2-registry")]
    subprocess.run(words, check=True, timeout=LIMIT)
    first = (folder / "idn2-registry").read_bytes()
    subprocess.run(words, check=True, timeout=LIMIT)
    assert (folder / "idn2-registry").read_bytes() == first, "the same sources make the same bytes"
    shutil.copy(PROGRAM, folder / "idn2-proved")
    place.load("strasse\tH2")
    environment = {"PATH": os.path.dirname(sys.executable) + ":/usr/bin:/bin"}

    def run(*given: str) -> "subprocess.CompletedProcess[bytes]":
        words = [sys.executable, str(folder / "idn2-registry"), *given]
        return subprocess.run(words, cwd=place.folder, env=environment, capture_output=True, timeout=LIMIT, check=False)

    assert run("check", "straße").stdout.decode() == "straße: taken by strasse, held by H2\n"
    assert run("check-config").stdout.decode().splitlines()[-1] == f"{folder}/idn2-proved: idn2 0.1.0 (Unicode 18.0.0)"
    place.write("table.toml", 'version = "1"\ndate = 2026-11-28\nlanguage = "de"\nscope = "example"\n')
    place.write("table.txt", "0061|0062\n0062|0061\n")
    place.write("back.xml", run("publish", "table.txt", "--as", "xml").stdout)
    assert run("compare", "table.txt", "back.xml").stdout == b"table.txt and back.xml: identical, 0 differences\n"
    assert run("publish", "table.txt", "--as", "html").stdout.startswith(b"<!DOCTYPE html>")
    assert os.access(folder / "idn2-registry", os.X_OK)
    old = "import runpy, sys; sys.version_info = (3, 10, 2); runpy.run_path(sys.argv[1], run_name='__main__')"
    done = subprocess.run([sys.executable, "-c", old, str(folder / "idn2-registry")], capture_output=True, timeout=LIMIT,
                          check=False)
    told = b"idn2-registry: Python 3.11 or later is needed, and this is 3.10\n"
    assert (done.stdout, done.stderr, done.returncode) == (b"", told, 75), done
    os.remove(folder / "idn2-proved")
    done = run("check", "maus")
    assert done.returncode == 75 and b"no such program" in done.stderr, done


def test_pip_installs_each_file_of_the_package() -> None:
    """The packages and their files that pyproject.toml names are those that are there."""
    settings = tomllib.loads((PACKAGE / "pyproject.toml").read_text("utf-8"))["tool"]["setuptools"]
    files = [path.relative_to(PACKAGE) for path in (PACKAGE / "idn2_registry").rglob("*")
             if path.is_file() and path.suffix != ".pyc"]
    assert sorted(settings["packages"]) == sorted({".".join(path.parts[:-1]) for path in files})
    others = defaultdict(set)
    for path in files:
        if path.suffix != ".py":
            others[".".join(path.parts[:-1])].add(path.name)
    assert {name: set(names) for name, names in settings["package-data"].items()} == others


def test_the_page_has_each_job_and_option() -> None:
    page = (ROOT / "docs" / "idn2-registry.1").read_text("ascii").replace("\\-", "-")
    for name, options in jobs():
        assert re.search(rf"^\.BR? {name}( |$)", page, re.MULTILINE), name
        for option in options:
            assert option in page, (name, option)


@pytest.mark.parametrize("shell", SHELLS)
def test_completions_have_each_job_and_option(shell: str) -> None:
    text = (ROOT / "completions" / f"idn2-registry.{shell}").read_text("utf-8")
    for name, options in jobs():
        assert re.search(rf"(?<![\w-]){name}(?![\w-])", text), name
        for option in options:
            assert (f"-l {option[2:]} " if shell == "fish" else option) in text, (name, option)
    if not shutil.which(shell):
        pytest.skip(shell)
    subprocess.run([shell, "-n", str(ROOT / "completions" / f"idn2-registry.{shell}")], check=True, timeout=LIMIT)


def test_the_page_is_well_formed() -> None:
    if not shutil.which("mandoc"):
        pytest.skip("mandoc")
    page = ROOT / "docs" / "idn2-registry.1"
    done = subprocess.run(["mandoc", "-Tlint", "-Wwarning", str(page)], capture_output=True, timeout=LIMIT, check=False)
    assert done.stdout == b"", done.stdout.decode()


def test_the_units_are_well_formed(tmp_path: Path) -> None:
    """What systemd says of them; the program in the unit is one that is there."""
    if not shutil.which("systemd-analyze"):
        pytest.skip("systemd")
    for path in (PACKAGE / "systemd").iterdir():
        (tmp_path / path.name).write_text(path.read_text("utf-8").replace("/usr/local/bin/idn2-registry", "/bin/true"), "utf-8")
    units = [str(path) for path in tmp_path.iterdir()]
    done = subprocess.run(["systemd-analyze", "verify", "--man=no", *units], capture_output=True, timeout=LIMIT, check=False)
    assert len(units) == 2 and (done.returncode, done.stderr) == (0, b""), done
    # What it may do is at most this, of 100.
    words = ["systemd-analyze", "security", "--offline=true", "--threshold=15", str(tmp_path / "idn2-registry.service")]
    done = subprocess.run(words, capture_output=True, timeout=LIMIT, check=False)
    assert done.returncode == 0, done


def test_bash_completes_words(tmp_path: Path) -> None:
    script = f"""source {ROOT}/completions/idn2-registry.bash
COMP_WORDS=(idn2-registry "$@"); COMP_CWORD=$#
_idn2_registry
printf '%s\\n' "${{COMPREPLY[@]}}" """
    (tmp_path / "labels.txt").touch()
    for words, expected in ((["re"], ["register", "release"]), (["check", "--h"], ["--help", "--holder"]),
                            (["load", "lab"], ["labels.txt"]), (["change", "de=lab"], ["de=labels.txt"]),
                            (["register", "--holder", ""], [""])):
        done = subprocess.run(["bash", "--norc", "-c", script, "bash", *words], cwd=tmp_path, capture_output=True, text=True,
                              timeout=LIMIT, check=True)
        assert sorted(done.stdout.split("\n")[:-1]) == expected, (words, done)
