"""The faults of a text, by their numbers."""

SYNTAX, SAME_SOURCE, SAME_VARIANT, BAD_CLASS, LIMIT, NO_SUCH_NAME, SAME_NAME = range(30, 37)

TEXTS = {
    SYNTAX: "table syntax",
    SAME_SOURCE: "source given twice",
    SAME_VARIANT: "variant given twice",
    BAD_CLASS: "code point not allowed in a table",
    LIMIT: "table limit",
    NO_SUCH_NAME: "name not defined",
    SAME_NAME: "name given twice",
}


class TableFault(Exception):
    """The first faulty line of a text."""

    def __init__(self, line: int, number: int) -> None:
        super().__init__(f"idn2: table line {line}: {number} {TEXTS[number]}")
        self.line, self.number = line, number
