"""Registered labels that collide with labels, as a register with an index in byte order finds them by `--jump`."""

import sqlite3
import subprocess

# What each of two labels that only may collide is to the other.
NOTHING = ["none", "none"]
# So many requests a pipe takes at once. Then all answers to them come before the next ones.
AT_ONCE = 100


class Jumps:
    """A program that is kept open for jumps; its words name it and a table."""

    def __init__(self, words, folder):
        streams = {"stdin": subprocess.PIPE, "stdout": subprocess.PIPE, "stderr": subprocess.DEVNULL}
        self.process = subprocess.Popen([*words, "--jump"], cwd=folder, **streams)

    def __enter__(self):
        return self

    def __exit__(self, *reason):
        self.process.kill()
        self.process.communicate()

    def answers(self, requests):
        """To each label and text the least label from there on that may collide, with what it is to the label, and the
        label to it; or none."""
        answers = []
        for some in (requests[start:start + AT_ONCE] for start in range(0, len(requests), AT_ONCE)):
            self.process.stdin.write("".join(f"{label}\t{text}\n" for label, text in some).encode())
            self.process.stdin.flush()
            answers += [self.process.stdout.readline().decode() for _ in some]
        assert all(answer.endswith("\n") for answer in answers), (requests, answers)
        return [None if answer == "#end\n" else answer[:-1].split("\t") for answer in answers]


class Register:
    """Registered labels in a database, in the order of their bytes."""

    def __init__(self, labels):
        self.count = len(labels)
        self.database = sqlite3.connect(":memory:")
        self.database.execute("create table registered (label blob primary key) without rowid")
        self.database.executemany("insert into registered values (?)", ((label.encode(),) for label in labels))

    def first(self, text):
        query = "select label from registered where label >= ? order by label limit 1"
        row = self.database.execute(query, (text.encode(),)).fetchone()
        return row and row[0].decode()


class Search:
    """What turns find for a label, and the text from which on the next jump goes, or none at the end."""

    def __init__(self, register):
        self.register, self.found, self.text, self.jumps, self.near = register, [], "", 0, 0

    def go_on(self, answer):
        """After a jump the register has its turn."""
        self.jumps += 1
        self.text = None if answer is None else self.register.first(answer[0])
        if answer is not None and self.text == answer[0]:
            self.near += 1
            self.found += [answer] if answer[1:] != NOTHING else []
            self.text += "\0"


def by_turns(words, labels, registered, folder=None):
    """For each label the registered labels that collide with it, with what each is to it, and back. The program and the
    register take turns, with all labels at once. A label takes at most the first jump, one from each registered label
    on, and one more after each that is near."""
    register = Register(registered)
    searches = {label: Search(register) for label in labels}
    with Jumps(words, folder) as jumps:
        while asked := [(label, search.text) for label, search in searches.items() if search.text is not None]:
            for (label, _), answer in zip(asked, jumps.answers(asked)):
                searches[label].go_on(answer)
    assert all(each.jumps <= register.count + each.near + 1 for each in searches.values()), (labels, registered)
    return {label: search.found for label, search in searches.items()}
