#!/usr/bin/env python3
"""Runs the tests of idn2-registry, which stand in registry/tests, by pytest, those of its types by mypy, and those of its form by
pyflakes, pycodestyle and isort: Debian has no ruff, whose rules of these names registry/pyproject.toml has. The last line is
'N passed, M failed', and the exit status is 0 where nothing failed."""

import concurrent.futures
import glob
import os
import subprocess
import sys
import xml.etree.ElementTree

from program import ROOT, is_installed, is_there, python_with, run_tests

PACKAGE = os.path.join(ROOT, "registry")
# What some of the tests import, too.
MODULES = ("pytest", "psycopg", "distributed", "aiohttp")
SOURCES = ("idn2_registry", "pack.py", "tests")
# What is only a matter of taste: names for lambdas, and where a line ends before an operator or in a bracket.
TASTE = "E12,E203,E701,E704,E731,W503,W504"
FORMS = (["pyflakes3", *SOURCES], ["pycodestyle", "--max-line-length=128", f"--ignore={TASTE}", *SOURCES],
         ["isort", "--check", "--quiet", *SOURCES])
LIMIT = 600


def python_for_tests():
    """A Python that has all of the modules, or at least pytest."""
    return python_with(", ".join(MODULES)) or python_with(MODULES[0])


def results(path):
    """The name of each test of pytest's report, with its fault or the reason why it was left out."""
    for case in xml.etree.ElementTree.parse(path).iter("testcase"):
        name = f"{case.get('classname').rpartition('.')[2]} {case.get('name')}"
        failed = [found for kind in ("failure", "error") for found in case.findall(kind)]
        skipped = case.find("skipped")
        yield name, failed[0].get("message", "") if failed else None, None if skipped is None else skipped.get("message")


def tests_of(python, folder, path):
    """The tests of a file as pytest has run them."""
    report = os.path.join(folder, f"{os.path.basename(path)}.xml")
    words = [python, "-m", "pytest", "-q", "-p", "no:cacheprovider", f"--junitxml={report}", path]
    done = subprocess.run(words, cwd=PACKAGE, capture_output=True, text=True, timeout=LIMIT)
    assert done.returncode in (0, 1), done.stdout[-2000:] + done.stderr[-2000:]
    return list(results(report))


def does_what_its_tests_say(folder):
    python = python_for_tests()
    if not is_there("python3-pytest", python):
        return
    paths = glob.glob(os.path.join(PACKAGE, "tests", "test_*.py"))
    with concurrent.futures.ThreadPoolExecutor() as executor:
        tests = [test for each in executor.map(lambda path: tests_of(python, folder, path), paths) for test in each]
    assert len(tests) > 50, tests
    for reason in {reason for _, _, reason in tests if reason}:
        is_there(reason.removeprefix("Skipped: "), None)
    failed = [f"{name}: {fault}" for name, fault, _ in tests if fault is not None]
    assert not failed, failed


def has_types(folder):
    python = python_with("pytest, psycopg, aiohttp")
    if is_installed("mypy") and is_there("python3-aiohttp", python):
        words = ["mypy", f"--python-executable={python}", f"--cache-dir={folder}", *SOURCES]
        done = subprocess.run(words, cwd=PACKAGE, capture_output=True, text=True, timeout=LIMIT)
        assert done.returncode == 0, done.stdout


def has_the_form_that_its_settings_ask(folder):
    for words in FORMS:
        if is_installed(words[0]):
            done = subprocess.run(words, cwd=PACKAGE, capture_output=True, text=True, timeout=LIMIT)
            assert done.returncode == 0, (words[0], done.stdout + done.stderr)


if __name__ == "__main__":
    sys.exit(run_tests("registry", [does_what_its_tests_say, has_types, has_the_form_that_its_settings_ask]))
