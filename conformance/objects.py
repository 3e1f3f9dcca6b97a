"""Objects of `--json` put back into the words of a run with `--explain`, from docs/JSON.md alone."""

import json
import re

from causes import BAD_LENGTH, FILE_TOO_LONG, INVALID, LINE_TOO_LONG, NOT_UTF8, NOT_VALID, OUT_OF_ORDER
from old_labels import MARK
from registration import BAD_A_LABEL, EMPTY, HYPHEN, LABEL_TOO_LONG, NOT_NFC, a_label
from table_places import SYNTAX

# The names of the subsections of RFC 5892, section 2, which messages have and objects don't.
NAMES = {"2.2": "Unstable", "2.3": "IgnorableProperties", "2.4": "IgnorableBlocks", "2.6": "Exceptions", "2.9": "OldHangulJamo",
         "2.10": "Unassigned"}


class Wrong(Exception):
    """The line is no object as docs/JSON.md has it."""


def rule_of(rule):
    section = rule.removeprefix("RFC 5892 ")
    if section in NAMES:
        return f"{rule} {NAMES[section]}"
    return {"profile": "outside the profile", "RFC 5892 2.1": "not RFC 5892 2.1 LetterDigits"}.get(
        rule, rule.replace(" condition", ", condition"))


def placed(refusal):
    """A code point and its place, and what follows them."""
    text = f"{refusal['code_point']} at place {refusal['place']}"
    number = refusal["number"]
    if number == NOT_NFC:
        return f"{text}: NFC " + (f"has {refusal['nfc']}" if "nfc" in refusal else "ends")
    if number == BAD_A_LABEL:
        return f"{text}: not ASCII"
    if "condition" in refusal:
        return f"{text}: {refusal['condition']} {refusal['rule']}"
    if "type" in refusal:
        return f"{text} is {refusal['type']}"
    if number == NOT_VALID:
        return f"{text}: no entry"
    if "bidi_class" in refusal:
        text += f" is {refusal['bidi_class']}"
    return f"{text}: {rule_of(refusal['rule'])}" if "rule" in refusal else text


def coded(refusal):
    """What is told of a label that begins with `xn--` where a U-label is wanted."""
    if "ulabel" in refusal:
        return f": an A-label of '{refusal['ulabel']}'"
    return f": not {refusal['rule']} A-label" if "rule" in refusal else ""


def cause_of(refusal):
    """The cause in the words of a message, without what an object leaves out; None where no cause is told."""
    number = refusal["number"]
    if number in (EMPTY, FILE_TOO_LONG, INVALID):
        return None
    if number == LINE_TOO_LONG:
        return "more than 1024 bytes"
    if number == HYPHEN:
        return f"place {refusal['place']}{coded(refusal)}"
    if "demand" in refusal:
        return f"demand {refusal['demand']}, {refusal['kind']}"
    if "action" in refusal:
        return f"action {refusal['action']}{cause_of_action(refusal)}"
    if "default_action" in refusal:
        return f"default action {refusal['default_action']}{cause_of_action(refusal)}"
    if "unclear" in refusal:
        return "unclear"
    if "code_point" in refusal:
        return placed(refusal)
    if number == OUT_OF_ORDER:
        return f"ends at place {refusal['place']}"
    if number == NOT_UTF8:
        return f"at byte {refusal['byte']}"
    if number == LABEL_TOO_LONG:
        return f"{refusal['code_points']} code points" if "code_points" in refusal else f"A-label of {refusal['octets']} octets"
    if number == BAD_LENGTH:
        return f"{refusal['octets']} octets" if "label" in refusal else f"name of {refusal['octets']} octets"
    if "alabel" in refusal:
        return f"the A-label is {refusal['alabel']}"
    return f"not {refusal['rule']} Punycode" if "rule" in refusal else "nothing after xn--"


def cause_of_action(refusal):
    """What is told of the action by which a label is invalid."""
    if "condition" in refusal:
        return f": {refusal['condition']} {refusal['rule']}"
    return f": {placed(refusal)}" if "type" in refusal else ""


def place_of_table(refusal):
    """Where a line of a table has its fault, as far as an object tells it."""
    if "byte" not in refusal:
        return None
    # The one of 30 is a byte order mark, which a message tells in words.
    point = f"{refusal['code_point']} " if "code_point" in refusal and refusal["number"] != SYNTAX else ""
    return f"{point}at byte {refusal['byte']}"


def message_of(each):
    refusal = each["refusal"]
    head = next(f"{words} {each[name]}" for name, words in (
        ("line", "line"), ("table_line", "table line"), ("registered_line", "registered line")) if name in each)
    message = f"idn2: {head}: {refusal['number']} {refusal['text']}"
    cause = place_of_table(refusal) if "table_line" in each else cause_of(refusal)
    if cause is None:
        return message
    label = f"label {refusal['label']}" if "label" in refusal else ""
    separator = ", " if label and "decoded" in refusal else ": " if label else ""
    return f"{message}: {label}{separator}{'decoded: ' if 'decoded' in refusal else ''}{cause}"


def answer_of(each, names_labels=False):
    """The line of text that says the same; the end of a block names its label where ends do."""
    if "count" in each:
        end = f"#end {each['count']}" if each["complete"] else f"#stop {each['count']} {each['after']}"
        return f"{end} {each['input']}" if names_labels else end
    if "source" in each:
        word = "missing" if "missing" in each else "differs"
        return f"{word} {each['source']}|{each[word]}"
    if "idle" in each:
        return f"idle {each['idle']}"
    if "gaps" in each:
        return f"#table {each['entries']} {each['gaps']}"
    regards = [each[name] for name in ("there", "back") if name in each]
    if "alabel" in each:
        if a_label(each["ulabel"]) != each["alabel"]:
            raise Wrong(each)
        if "input" in each:
            return each["alabel"]
        more = [each["disposition"]] if "disposition" in each else regards
        return "\t".join([each["ulabel"], each["alabel"], *more, *(["unclear"] if "unclear" in each else [])])
    if "old" in each:
        if each["old"] is not True:
            raise Wrong(each)
        return each["unicode"] + MARK
    said = next(each[name] for name in ("unicode", "ulabel", "ascii") if name in each)
    return "#end" if said is None else "\t".join([said, *regards])


def input_of(each):
    """The line that an object was read from, as far as it tells that."""
    if "input_hex" in each:
        return bytes.fromhex(each["input_hex"])
    return each["input"].encode() if each.get("input") is not None else None


def parsed(line):
    each = json.loads(line)
    if json.dumps(each, ensure_ascii=False, separators=(",", ":")).encode() != line:
        raise Wrong(line)
    return each


def as_explained(output, lines, names_labels=False):
    """What a run with `--explain` writes to its output and its messages, where objects are these and the input has these
    lines, and whether the ends of blocks name labels, as with `--others`."""
    answers, messages = [], []
    for line in output.splitlines(keepends=True):
        if not line.endswith(b"\n"):
            raise Wrong(line)
        each = parsed(line[:-1])
        read = input_of(each)
        if read is not None and read != lines[each["line"] - 1]:
            raise Wrong((each, lines[each["line"] - 1]))
        (messages if "refusal" in each else answers).append(message_of(each) if "refusal" in each else answer_of(each, names_labels))
    return tuple("".join(text + "\n" for text in texts).encode() for texts in (answers, messages))


def without_what_objects_leave_out(messages):
    """Messages without which hyphen it is, without the byte that no UTF-8 goes on with, and of a table without what stands at the
    byte, other than a code point."""
    messages = re.sub(rb"(?m)(place \d+), (?:the first|the last|with place 4)(:.*)?$", rb"\1\2", messages)
    messages = re.sub(rb"(?m)^(idn2: table line \d+: \d+ [a-z ]+: )(U\+[0-9A-F]+ )?[^\n]*?(at byte \d+)(?:: [a-z 0-9]+)?$", rb"\1\2\3", messages)
    return re.sub(rb"byte 0x[0-9A-F]{2} (at byte )", rb"\1", messages)
