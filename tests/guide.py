#!/usr/bin/env python3
"""Runs what docs/GUIDE.md tells to type where something fails, and its way to set up a registry with PostgreSQL; and what
docs/LIBIDN2.md says of libidn2's program beside that program, where it is installed.

The last line is 'N passed, M failed', and the exit status is 0 where nothing failed. The sessions that the documents show are
run by program.py, and idn2-registry is tested by registry.py."""

import os
import re
import resource
import signal
import subprocess
import sys

from postgresql import server
from program import (LIMIT, PROGRAM, TABLES, is_there, markdown_blocks, markdown_files, pack_registry, run_tests, sessions_of,
                     text_of)

GUIDE, LIBIDN2_PAGE = (text_of("docs", f"{name}.md") for name in ("GUIDE", "LIBIDN2"))
SAVED = dict(markdown_files(GUIDE))
COMMANDS = [command for block in markdown_blocks(GUIDE) for command, _ in sessions_of(block)]
# What makes a file by the output of a command, and the file.
RECIPES = [(command, made[1]) for command in COMMANDS if (made := re.search(r" && mv \w+\.new (\w+\.\w+)$", command))]


class Kit:
    """A folder with the files that the documents tell to save, and with the program and idn2-registry first on the path."""

    def __init__(self, folder):
        self.folder, self.bin = folder, os.path.join(folder, "bin")
        os.mkdir(self.bin)
        for name, text in SAVED.items():
            self.write(name, text)
        os.symlink(PROGRAM, os.path.join(self.bin, "idn2"))
        os.symlink(TABLES, os.path.join(folder, "tables"))
        pack_registry(self.bin)
        self.environment = {**os.environ, "LC_ALL": "C.UTF-8", "PATH": self.bin + os.pathsep + os.environ["PATH"]}

    def write(self, name, text):
        with open(os.path.join(self.folder, name), "w", encoding="utf-8") as file:
            file.write(text)

    def run(self, command, **more):
        """A command as it is typed into a shell."""
        more = {"env": self.environment, "stdin": subprocess.DEVNULL, "capture_output": True, "timeout": LIMIT, **more}
        return subprocess.run(["sh", "-c", command], cwd=self.folder, **more)

    def instead_of(self, command, text):
        """Another program comes first on the path under this name."""
        path = os.path.join(self.bin, command)
        if os.path.lexists(path):
            os.remove(path)
        with open(path, "w", encoding="utf-8") as file:
            file.write(text)
        os.chmod(path, 0o755)


def on_a_full_disk():
    """No byte can be written to any file, as on a full disk."""
    signal.signal(signal.SIGXFSZ, signal.SIG_IGN)
    resource.setrlimit(resource.RLIMIT_FSIZE, (0, 0))


def makes_each_file_of_an_output_by_its_status(folder):
    """What makes a table goes to a new file, which gets its name only after status 0."""
    for command in COMMANDS:
        if re.match(r"idn2-registry (join|publish) .*> ", command):
            assert re.search(r" > (\w+\.new) && mv \1 \w+\.\w+$", command), command
    assert len(RECIPES) >= 2, RECIPES


def leaves_a_file_as_it_was_where_its_recipe_fails(folder):
    """What is read is missing; the program fails or is killed; the disk is full. Else it is made."""
    kit = Kit(folder)
    given = {"latin.txt": "0061\n", "cyrillic.txt": "0062\n", "alike.txt": "0061|0062\n", "new.txt": "0061\n",
             "new.toml": 'version = "1"\ndate = 2026-11-28\nlanguage = ["de"]\nscope = ["example"]\n'}

    def expect_failure(case, command, name, **more):
        path = os.path.join(kit.folder, name)
        before = text_of(path) if os.path.exists(path) else None
        done = kit.run(command, **more)
        assert done.returncode != 0 and done.stderr, (command, case, done)
        assert (text_of(path) if os.path.exists(path) else None) == before, (command, case, done)

    for command, name in RECIPES:
        for missing in given.keys() & set(re.findall(r"\S+\.txt", command)) - {name}:
            for file, text in given.items():
                kit.write(file, text)
            os.remove(os.path.join(kit.folder, missing))
            expect_failure(missing, command, name)
        for file, text in given.items():
            kit.write(file, text)
        for end in ("exit 127", "kill -9 $$"):
            kit.instead_of("idn2", f"#!/bin/sh\necho 0061\necho lost >&2\n{end}\n")
            expect_failure(end, command, name)
            os.remove(os.path.join(kit.bin, "idn2"))
            os.symlink(PROGRAM, os.path.join(kit.bin, "idn2"))
        expect_failure("a full disk", command, name, preexec_fn=on_a_full_disk)
        done = kit.run(command)
        assert done.returncode == 0, (command, done)


def installs_nothing_of_an_archive_with_a_wrong_sum(folder):
    """The commands of the guide, pasted into a shell, with another place to install to."""
    kit = Kit(folder)
    [block] = [block for block in markdown_blocks(GUIDE) if block[0].startswith("sha256sum --check")]
    archive = re.search(r"\S+\.tar\.gz", block[0])[0]
    packed = archive.removesuffix(".tar.gz")
    pasted = "\n".join(block).replace("/usr/local/", "installed/")
    assert pasted.endswith(" installed/"), pasted
    pasted = pasted.replace(" installed/", f" '{os.path.join(kit.folder, 'installed')}'")
    make = (f"mkdir -p installed {packed}/bin {packed}/lib {packed}/share && echo program > {packed}/bin/idn2 && cd {packed} &&"
            " sha256sum bin/idn2 > SHA256SUMS && {0} cd .. && tar czf {1} {2} && rm -r {2} && sha256sum {1} > {1}.sha256 && {3}")
    for inner, outer, is_whole in (("true &&", "true", True), ("echo other > bin/idn2 &&", "true", False),
                                   ("rm bin/idn2 &&", "true", False), ("rm SHA256SUMS &&", "true", False),
                                   ("true &&", f"echo >> {archive}", False), ("true &&", f"rm {archive}", False),
                                   ("true &&", f"rm {archive}.sha256", False)):
        made = make.format(inner, archive, packed, outer)
        subprocess.run(["bash", "-ec", made], cwd=kit.folder, env=kit.environment, check=True, timeout=LIMIT)
        done = subprocess.run(["bash"], input=pasted.encode(), cwd=kit.folder, env=kit.environment, capture_output=True,
                              timeout=LIMIT)
        found = os.path.exists(os.path.join(kit.folder, "installed", "bin", "idn2"))
        assert (found, done.returncode == 0) == (is_whole, is_whole), (inner, outer, done)
        subprocess.run(f"rm -rf installed {packed} {archive}*", shell=True, cwd=kit.folder, check=True, timeout=LIMIT)


def sets_up_a_registry_with_postgresql(folder):
    """As the guide says it, from an empty server."""
    [block] = [block for block in markdown_blocks(GUIDE) if block[0].startswith("createdb ")]
    with server() as (environment, python):
        if environment is None:
            return
        kit = Kit(folder)
        kit.write("right.txt", "haus\tH1\nxn--strae-oqa\tH2\n")
        path = os.pathsep.join([kit.bin, os.path.dirname(python), os.environ["PATH"]])
        commands = "\n".join(["set -e", *block, "idn2-registry check strasse maus"]).replace("registry\n", "guide\n", 1)
        commands = commands.replace("postgresql:///registry", "postgresql:///guide")
        done = kit.run(commands, env={**kit.environment, **environment, "PATH": path})
        told = "strasse: taken by straße (xn--strae-oqa, held by H2)\nmaus: available (maus)\n"
        assert done.stdout.decode().endswith(told) and (done.stderr, done.returncode) == (b"", 1), done


def libidn2_program():
    """The path and the version of libidn2's idn2, if it is on the path."""
    for folder in os.environ["PATH"].split(os.pathsep):
        path = os.path.join(folder, "idn2")
        if os.access(path, os.X_OK):
            shown = subprocess.run([path, "--version"], capture_output=True, text=True, timeout=LIMIT).stdout
            if found := re.match(r"idn2 \(Libidn2\) (\S+)", shown):
                return path, found.group(1)
    return None, None


LIBIDN2, LIBIDN2_VERSION = libidn2_program()
# The version of which the page tells.
[TOLD_VERSION] = set(re.findall(r"\b2\.\d\.\d\b", LIBIDN2_PAGE))


def rows_of(heading):
    """The rows of the table under a heading of the page, each as its cells."""
    section = LIBIDN2_PAGE.split(f"\n## {heading}\n", 1)[1].split("\n## ")[0]
    rows = [line for line in section.splitlines() if line.startswith("| ")]
    return [[cell.replace("\\|", "|").strip() for cell in re.split(r"(?<!\\)\|", row)[1:-1]] for row in rows[1:]]


def answered(cell):
    """What a cell says: the lines, and the status."""
    *lines, status = re.fullmatch(r"(.*), (\d)", cell).groups()
    shown = re.findall(r"`([^`]*)`", lines[0]) or [""]
    return "".join(line + "\n" for line in shown).encode(), int(status)


def under(program, folder, command):
    """The output and then the messages of a command, with this program as idn2, and its status."""
    os.makedirs(folder, exist_ok=True)
    link = os.path.join(folder, "idn2")
    if not os.path.lexists(link):
        os.symlink(program, link)
    environment = {**os.environ, "LC_ALL": "C.UTF-8", "PATH": folder + os.pathsep + os.environ["PATH"]}
    more = {"stdin": subprocess.DEVNULL, "capture_output": True, "timeout": LIMIT}
    done = subprocess.run(["bash", "-c", command], env=environment, **more)
    return done.stdout + done.stderr, done.returncode


def is_told_of():
    """Whether libidn2's program is there, in the version of which the page tells."""
    return is_there(f"idn2 of libidn2 {TOLD_VERSION}", LIBIDN2_VERSION == TOLD_VERSION)


def answers_as_the_page_says_beside_libidn2(folder):
    rows = rows_of("Answers")
    assert len(rows) >= 20, len(rows)
    is_beside = is_told_of()
    for command, here, there in rows:
        command = command.strip("`")
        found = under(PROGRAM, os.path.join(folder, "here"), command)
        assert found == answered(here), (command, found, answered(here))
        if is_beside:
            found = under(LIBIDN2, os.path.join(folder, "there"), command)
            assert found == answered(there), (command, found, answered(there))


def has_the_options_that_the_page_says_beside_libidn2(folder):
    """Each option is refused here exactly if its row says so; the rows are the options of libidn2's help."""
    said = {option: here for cell, here in rows_of("Options") for option in re.findall(r"`([^`]*)`", cell)}
    for option, here in said.items():
        found = under(PROGRAM, os.path.join(folder, "here"), f"idn2 {option} x")
        assert ((b"idn2: 50 usage\n", 2) == found) == here.startswith("refused with 50"), (option, here, found)
    others = re.search(r"Neither program has (.*?), some of", LIBIDN2_PAGE, re.DOTALL).group(1)
    others = re.findall(r"`([^`]*)`", others)
    assert len(others) == 6, others
    for option in others:
        assert under(PROGRAM, os.path.join(folder, "here"), f"idn2 {option} x") == (b"idn2: 50 usage\n", 2), option
    if not is_told_of():
        return
    helped, status = under(LIBIDN2, os.path.join(folder, "there"), "idn2 --help")
    helped = helped.decode().split("short options too.")[1].split("Report")[0]
    offered = set(re.findall(r"(?<![\w-])--?[A-Za-z0-9][\w-]*", helped))
    assert offered == said.keys(), offered ^ said.keys()
    for option in others:
        found, status = under(LIBIDN2, os.path.join(folder, "there"), f"idn2 {option} x")
        assert status == 1 and (b"unrecognized option" in found or b"invalid option" in found), (option, found)


TESTS = [
    makes_each_file_of_an_output_by_its_status,
    leaves_a_file_as_it_was_where_its_recipe_fails,
    installs_nothing_of_an_archive_with_a_wrong_sum,
    sets_up_a_registry_with_postgresql,
    answers_as_the_page_says_beside_libidn2,
    has_the_options_that_the_page_says_beside_libidn2,
]

if __name__ == "__main__":
    sys.exit(run_tests("guide", TESTS))
