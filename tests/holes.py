"""Takes the functions of a crate by their contracts, but those that tests/planted.py asks about.

The theorem of a function says that its body meets its contract. With a hole as its proof a check takes it as given: callers
stand on the same theorem as before, and nothing is asked of the function. Its body is then `loop {}`, so that what it calls
isn't looked at either."""

import glob
import os
import re

from edits import HEAD, bodies_of, text_of
from layers import OF_A_FUNCTION

DEFINED = re.compile(r"^(?:pub(?:\(\w+\))? )?(?:struct|enum|union|trait) (\w+)", re.MULTILINE)
HOLE = """\
use Rattle.{crate}.proofs.{module}.Statement.{{statement}}

pub {function}_spec : {{M : Type 1}} → statement M
{function}_spec 𝓤 𝓛 𝓜 𝓡 w = ?
"""


def sources(folder):
    """The text of each file of code of a crate, by its name."""
    paths = glob.glob(os.path.join(folder, "src", "**", "*.rt"), recursive=True)
    return {os.path.relpath(path, folder): text_of(path) for path in sorted(paths)}


def module_of(file):
    """The path of a file's module, which is empty for the root."""
    module = file.removeprefix("src/").removesuffix(".rt")
    return "" if module in ("lib", "main") else module


def modules(texts):
    """The module of each type and trait of a crate, but of names that two modules define."""
    found = {}
    for file, text in texts.items():
        for name in DEFINED.findall(text):
            found[name] = None if name in found else module_of(file)
    return found


def path_of(body, types):
    """The path by which the checker knows a function, as `lines/Lines/next_line`: its module, for a method that of its type with
    the type and the trait, and its name. None for a type of another crate, and for a trait with parameters."""
    if not body.owner:
        return os.path.join(module_of(body.file), body.function)
    module = types.get(body.owner)
    return os.path.join(module, body.owner + body.trait, body.function) if module is not None and re.fullmatch(r"\w*", body.trait) else None


def paths_of(bodies, folder):
    """The path of each of these functions of a crate; none at all where one of them has none."""
    types = modules(sources(folder))
    paths = {body: path_of(body, types) for body in bodies}
    return {} if None in paths.values() else paths


def inner_of(body, lines):
    """The rows of what stands in the braces of a body; None where the body has to stay: one of a constant function, or of one that
    may call itself, whose proof is by its own contract."""
    head = next(row for row in range(body.first - 1, body.last) if HEAD.match(lines[row]))
    indent = HEAD.match(lines[head])[1]
    opens = re.compile(indent + r"(\S.* )?\{")
    first = next((row + 1 for row in range(head, body.last) if opens.fullmatch(lines[row])), None)
    if first is None or " const fn " in f" {lines[head]}" or any("#[cycle(" in line for line in lines[body.first - 1:head]):
        return None
    calls_itself = any(re.search(rf"\b{body.function}\(", line) for line in lines[first:body.last - 1])
    return None if calls_itself else slice(first, body.last - 1)


def leave_to_contracts(crate, folder, but):
    """In a copy of a crate, takes each function by its contract whose path isn't among these, where it can be."""
    texts = sources(folder)
    types = modules(texts)
    for file, text in texts.items():
        lines = text.split("\n")
        for body in reversed([*bodies_of(file, text)]):
            path, inner = path_of(body, types), inner_of(body, lines)
            if path and path not in but and inner:
                # a goal is told at its line
                lines[inner] = ["loop {}", *[""] * (inner.stop - inner.start - 1)]
                leave_open(crate, folder, path)
        with open(os.path.join(folder, file), "w", encoding="utf-8") as it:
            it.write("\n".join(lines))


def leave_open(crate, folder, path):
    """Puts a hole in place of the proof of a function."""
    proofs = os.path.join(folder, "proofs", path)
    os.makedirs(proofs, exist_ok=True)
    for name in {*OF_A_FUNCTION} & {*os.listdir(proofs)}:
        os.remove(os.path.join(proofs, name))
    with open(os.path.join(proofs, "Proof.antt"), "w", encoding="utf-8") as file:
        file.write(HOLE.format(crate=crate, module=path.replace("/", "."), function=os.path.basename(path)))
