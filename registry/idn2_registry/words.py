"""What is said to people: one line for each answer, and lines below it."""

from .answers import Answer, RegisteredLabel, Status


def shown(text: str) -> str:
    """A text as a terminal may show it: what isn't printable is escaped, and so is each byte that is no UTF-8."""
    if text.isprintable():
        return text
    # Such a byte stands in the text as a surrogate that ends as it.
    return "".join(each if each.isprintable() else ascii(each)[1:-1].replace("\\udc", "\\x") for each in text)


def counted(number: int, one: str, several: str | None = None) -> str:
    """So many of something."""
    return f"{number} {one if number == 1 else several or one + 's'}"


def registered_words(label: RegisteredLabel) -> str:
    """A registered label with its holder."""
    held = "" if label.holder is None else f", held by {shown(label.holder)}"
    return f"{shown(label.ulabel)} ({label.alabel}{held})" if label.ulabel != label.alabel else f"{shown(label.ulabel)}{held}"


def words_of(answer: Answer) -> str:
    """An answer in words."""
    label = shown(answer.label)
    if answer.status is Status.UNKNOWN:
        first = f"{label}: not known: {shown(answer.reason or '')}"
    elif answer.status is Status.REFUSED:
        first = f"{label}: refused: {shown(str(answer.refusal))}"
    elif answer.status is Status.TAKEN:
        first = f"{label}: taken by " + ", ".join(map(registered_words, answer.taken_by))
    elif answer.status in (Status.LISTED, Status.ADMITTED):
        first = f"{label}: {answer.table or ', '.join(answer.tables or ())}"
    else:
        first = f"{label}: {answer.status.value}" + (f" ({answer.alabel})" if answer.alabel else "")
    lines = [first]
    for variant in answer.variants or ():
        lines.append("  ".join(["", shown(variant.ulabel), variant.alabel, variant.disposition or ""]).rstrip())
    if answer.after is not None:
        lines.append(f"  more after {shown(answer.after)}")
    return "\n".join(lines)
