#!/usr/bin/env python3
"""Tests that crates and modules stand in layers: no `use` goes up, and none goes in a circle; that docs/ARCHITECTURE.md has a
line for each crate, and leads a label through functions that are there; and that each file says at its head what it is for. It
reads the source alone, in a second. The last line is 'N passed, M failed', and the exit status is 0 where nothing failed.
`--draw` shows the layers of the crates, and `--draw CRATE` those of a crate's modules, the lowest first."""

import collections
import functools
import glob
import graphlib
import os
import re
import sys

from program import ROOT, run_tests, text_of

# What a file names of its own crate: in code by `crate::`, in contracts by the types that it declares.
IN_CODE = re.compile(r"\bcrate::((?:\w+::)*\w+)")
IN_A_CONTRACT = r"\bRattle\.{}\.specs\.declared\.((?:\w+\.)*\w+)"
PASSED_ON = re.compile(r"^ *(?:pub(?:\(crate\))? )?use (\w+)::", re.MULTILINE)
ANY_CRATE = re.compile(r"\bRattle\.(\w+)\.")

# Files of a proof, whose path says for which function they are.
OF_A_FUNCTION = ("Answers.antt", "Invariants.antt", "Proof.antt")


@functools.cache
def crates():
    """Each crate with what it stands on, in the order of crates.txt."""
    lines = [line.split("#")[0].strip() for line in text_of("crates.txt").splitlines()]
    named = (line.partition(":") for line in lines if line)
    return {head.split()[0]: rest.split() for head, _, rest in named}


@functools.cache
def sources(crate):
    """The text of each module of a crate, without comments and strings. The root and the laws are no modules here."""
    folder = os.path.join(ROOT, "crates", crate, "src")
    texts = {}
    for path in glob.glob(os.path.join(folder, "**", "*.rt"), recursive=True):
        name = os.path.relpath(path, folder).removesuffix(".rt")
        code = re.sub(r"//[^\n]*", "", text_of(path))
        texts[name] = re.sub(r'"(\\.|[^"\\\n])*"', '""', code)
    return {name: text for name, text in texts.items() if name not in ("lib", "main")}


def module_of(crate, segments):
    """The module that a path begins with, or None where it names the root, a definition or a proof."""
    for count in range(len(segments), 0, -1):
        if (name := "/".join(segments[:count])) in sources(crate):
            return name
    return None


def used_by(crate, module):
    """The modules of the crate that a module uses. One that has a folder may pass on what stands there."""
    text = sources(crate)[module]
    paths = [path.split("::") for path in IN_CODE.findall(text)]
    paths += [path.split(".") for path in re.findall(IN_A_CONTRACT.format(crate), text)]
    paths += [[*module.split("/"), child] for child in PASSED_ON.findall(text)]
    return {name for path in paths if (name := module_of(crate, path)) not in (None, module)}


@functools.cache
def uses(crate):
    """Each module with those that it uses; a file that only names the modules of its folder has no layer."""
    parents = {os.path.dirname(module) for module in sources(crate)}
    found = {module: used_by(crate, module) for module in sources(crate) if module != "laws"}
    return {module: used for module, used in found.items() if used or module not in parents}


def graph_of_crates():
    return {crate: set(below) & set(crates()) for crate, below in crates().items()}


def layers_of(graph):
    """The layers of crates or modules, each as low as what it uses allows; none where some use each other."""
    order = list(graphlib.TopologicalSorter(graph).static_order())
    layer, layers = {}, collections.defaultdict(list)
    for module in order:
        layer[module] = 1 + max((layer[used] for used in graph.get(module, ())), default=-1)
        layers[layer[module]].append(module)
    return [sorted(layers[number]) for number in sorted(layers)]


def goes_in_no_circle(folder):
    """No two modules of a crate use each other, by way of others either."""
    for crate in crates():
        try:
            layers_of(uses(crate))
        except graphlib.CycleError as circle:
            raise AssertionError(("move what these need of each other into a module below them", crate, circle.args[1])) from circle


def has_no_circle_of_folders(folder):
    """No two folders of a crate use each other."""
    found = set()
    for crate in crates():
        pairs = {(module.split("/")[0], other.split("/")[0]) for module, others in uses(crate).items() for other in others}
        found |= {(crate, *sorted(pair)) for pair in pairs if pair[0] != pair[1] and pair[::-1] in pairs}
    is_folder = functools.partial(os.path.join, ROOT, "crates")
    circles = {item for item in found if any(os.path.isdir(is_folder(item[0], "src", name)) for name in item[1:])}
    assert not circles, circles


def names_no_laws(folder):
    """Laws are statements: no module uses them."""
    found = {(crate, module) for crate in crates() for module, others in uses(crate).items() if "laws" in others}
    assert not found, found


def lists_the_lowest_crate_first(folder):
    """A crate stands only on crates before it, and its contracts name no other crate of this repository."""
    before = set()
    for crate, below in crates().items():
        named = {name for text in sources(crate).values() for name in ANY_CRATE.findall(text)} & set(crates())
        reached = {crate} | reach(below)
        assert set(below) & set(crates()) <= before, (crate, "stands on a crate after it")
        assert named <= reached, (crate, named - reached)
        before.add(crate)


def reach(names):
    """These crates, and what they stand on in their turn."""
    found = set(names)
    for name in names:
        found |= reach(crates().get(name, []))
    return found


def says_what_each_crate_is_for(folder):
    """The table of crates has a line for each crate of crates.txt, in that order."""
    table = text_of("docs", "ARCHITECTURE.md").partition("\n## Crates\n")[2].partition("\n## ")[0]
    named = [name for name in re.findall(r"^\| `(\w+)` \| .+ \|$", table, re.MULTILINE)]
    assert named == list(crates()), (named, list(crates()))


def names_no_module_as_a_library(folder):
    """A module that has the name of a library of its crate would hide it. Only rt ci refuses it, at the end of the gate."""
    libraries = reach(crates()) | {"std"}
    for crate in crates():
        words = {word for module in sources(crate) for word in module.split("/")}
        assert not words & libraries, (crate, words & libraries)


def leads_a_label_through_functions_that_are_there(folder):
    """Where docs/ARCHITECTURE.md follows a label, each function stands in the file that is named after it."""
    ways = " ".join("".join(re.findall(r"^## The way of .*?(?=^## )", text_of("docs", "ARCHITECTURE.md"), re.M | re.S)).split())
    rows = re.findall(r"((?:`[\w:]+`(?:, | and )?)+) \(`(\w+)/([\w/]+\.rt)`\)", ways)
    named = [(name, text_of("crates", crate, "src", file), file) for names, crate, file in rows
             for name in re.findall(r"`(?:\w+::)?(\w+)`", names)]
    absent = [(name, file) for name, text, file in named if not re.search(rf"\bfn {name}\b", text)]
    assert len(named) > 30 and not absent, (len(named), absent)


def says_at_its_head_what_it_is_for(folder):
    """Each file of code begins with a comment, and so does each of definitions and of lemmas."""
    paths = [path for ending in ("src/**/*.rt", "specs/**/*.antt", "proofs/**/*.antt")
             for path in glob.glob(os.path.join(ROOT, "crates", "*", ending), recursive=True)
             if os.path.basename(path) not in OF_A_FUNCTION]
    lacking = [os.path.relpath(path, ROOT) for path in paths
               if not re.match(r"//! ." if path.endswith(".rt") else "-- .", text_of(path))]
    assert len(paths) > 700 and not lacking, (len(paths), lacking)


def has_the_tables_that_are_printed(_):
    """What the program idn_class_table prints, which the gate compares with its file stdout, is the module of idn_class."""
    printed = text_of("crates", "idn_class_table", "stdout")
    assert printed == text_of("crates", "idn_class", "src", "class_table.rt"), "make class-table prints them anew"


def draw(names):
    """Shows the layers of the crates, or of the modules of a crate."""
    for name in names:
        if name not in crates():
            sys.exit(f"{name}: crates.txt has no such crate")
    for graph in map(uses, names) if names else [graph_of_crates()]:
        for layer in layers_of(graph):
            print(*layer)


TESTS = [
    goes_in_no_circle,
    has_no_circle_of_folders,
    names_no_laws,
    lists_the_lowest_crate_first,
    says_what_each_crate_is_for,
    names_no_module_as_a_library,
    leads_a_label_through_functions_that_are_there,
    says_at_its_head_what_it_is_for,
    has_the_tables_that_are_printed,
]


if __name__ == "__main__":
    sys.exit(draw(sys.argv[2:]) if sys.argv[1:2] == ["--draw"] else run_tests("layers", TESTS))
