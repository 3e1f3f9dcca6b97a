"""Rulesets in XML for tests: those of tests/rulesets/, among them the examples of RFC 7940, appendix A, and files of a few
elements. And which labels the program registers: a ruleset is asked of no others."""

import os
import re

from program import ROOT, run

HEAD = '<lgr xmlns="urn:ietf:params:xml:ns:lgr-1.0"><data>\n'


def stored(name):
    return os.path.join(ROOT, "tests", "rulesets", name)


def ruleset(folder, data, rules=""):
    """A file with a ruleset of these elements, from its second line on."""
    path = os.path.join(folder, "ruleset.xml")
    with open(path, "w", encoding="utf-8") as file:
        file.write(f"{HEAD}{data}\n</data><rules>\n{rules}\n</rules></lgr>\n")
    return path


def registrable(labels):
    """Those labels that the program registers."""
    labels = sorted(labels)
    told = run(["--register"], "".join(label + "\n" for label in labels).encode()).stderr.decode()
    refused = {int(number) for number in re.findall(r"^idn2: line (\d+): ", told, re.MULTILINE)}
    return {label for number, label in enumerate(labels, 1) if number not in refused}
