"""Labels of older rules: they may not be registered today, but a name of the zone stands for each. What stands for what, the
program says."""

from dataclasses import dataclass

from .answers import Object
from .faults import Unknown
from .program import Program

# What stands after such a label in a file of registered labels.
MARK = "\told"


def name_of(label: str) -> str:
    """The name that a zone has for a label, whether it may be registered or not."""
    return label if label.isascii() else f"xn--{label.encode('punycode').decode()}"


def alabel_of(label: str, answer: Object) -> str:
    """The A-label of a registered label, as the program answers it; its name in the zone if it may not be registered today."""
    return str(answer["alabel"]) if "alabel" in answer else name_of(label)


def barred(program: Program, text: bytes) -> list[str]:
    """Of labels, each on a line, those that may not be registered: the program says of any other that it stands for itself."""
    output, refused = program.plain(["--decode", "--old"], text)
    if output == text:
        return []
    told, labels = output.decode().split("\n")[:-1], text.decode().split("\n")[:-1]
    if len(told) + len(refused) != len(labels):
        raise Unknown("the program didn't answer each label")
    themselves = {line for line in told if not line.endswith(MARK)}
    return [label for label in labels if label not in themselves]


@dataclass(frozen=True)
class Barred:
    """Labels that may not be registered: why, and which of them are of older rules."""

    refusals: dict[str, Object]
    old: list[str]

    @classmethod
    def among(cls, program: Program, text: bytes) -> "Barred":
        """Those of labels, each on a line."""
        labels = barred(program, text)
        if not labels:
            return cls({}, [])
        told = zip(labels, program.tested([label.encode() for label in labels]), strict=True)
        # The refusal of an A-label that stands for a label is that it isn't the label.
        refusals = {label: answer.get("refusal") or {"text": f"it stands for {answer['ulabel']}"} for label, answer in told}
        named = zip(labels, program.decoded([name_of(label).encode() for label in labels]), strict=True)
        return cls(refusals, [label for label, answer in named if answer.get("old") and answer["unicode"] == label])
