"""What goes wrong, apart from refusals of labels: nothing can be answered, one request has no answer, or the answer is no."""


class Fault(Exception):
    """The text is for the operator, and may name files, hosts and databases. `told` is what whoever asks over HTTP is
    told."""

    told: str


class Unusable(Fault):
    """The configuration, a table, the register or the program can't be used. The text names which, where, and the remedy."""

    told = "an operator has to mend something"


class Unknown(Fault):
    """This request has no answer, which says nothing about its label. The text names the cause."""

    def __init__(self, text: str, told: str | None = None) -> None:
        super().__init__(text)
        self.told = told or text


class NotRegistered(Unknown):
    """A run read a file of registered labels in which one may not be registered."""


class Unsayable(Exception):
    """What was asked for can't be said, or contradicts itself: a no. The text names where and why."""
