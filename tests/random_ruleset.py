"""Small random rulesets of RFC 7940, with anything in them that a ruleset may have."""

import random


class RandomRuleset:
    """The text of a small ruleset with anything in it that a ruleset may have."""

    TYPES = ("blocked", "allocatable", "activated", "valid", "own", "other", "out-of-repertoire-var", None)
    POINTS = (0x61, 0x62, 0x63, 0x64, 0x2D, 0x301)

    def __init__(self, seed):
        self.random = random.Random(seed)
        self.sequences = self.some_sequences()
        self.has_conditions, self.has_rules = self.random.random() < 0.3, self.random.random() < 0.3
        self.data = "\n".join(self.char(source) for source in self.sequences)
        self.rules = "\n".join(filter(None, [*self.patterns(), *self.actions()]))

    def some_sequences(self):
        """Code points, and sequences of two of them."""
        points = self.random.sample(self.POINTS, self.random.choice((2, 3, 4)))
        sequences = [(point,) for point in points]
        sequences += [tuple(self.random.choices(points, k=2)) for _ in range(self.random.choice((0, 0, 1, 1, 2)))]
        return list(dict.fromkeys(sequences))

    def maybe(self, chance, text):
        return text if self.random.random() < chance else ""

    def char(self, source):
        condition = self.maybe(0.3, f' {self.random.choice(("when", "not-when"))}="{self.random.choice("pq")}"')
        tag = self.maybe(0.5, ' tag="t"') if len(source) == 1 else ""
        tag = ' tag="t"' if source == self.sequences[0] else tag
        targets = [each for each in [*self.sequences, (0x78,), (0x41,)] if self.random.random() < 0.3]
        variants = "".join(f"\n  {self.var(each)}" for each in targets)
        return f'<char cp="{spelled(source)}"{tag}{condition if self.has_conditions else ""}>{variants}</char>'

    def var(self, target):
        kind = self.random.choice(self.TYPES)
        condition = self.maybe(0.15, f' {self.random.choice(("when", "not-when"))}="{self.random.choice("pq")}"')
        return f'<var cp="{spelled(target)}"' + (f' type="{kind}"' if kind else "") + condition + "/>"

    def operator(self):
        letter = f'<char cp="{spelled((self.random.choice(self.POINTS),))}"/>'
        return self.random.choice((letter, letter, '<any count="0+"/>', "<any/>", '<class from-tag="t"/>',
                                   '<complement><class from-tag="t"/></complement>', '<class property="gc:Mn"/>'))

    def patterns(self):
        """Two rules with an anchor, and three about the whole label; some of them are standard ones."""
        for name in "pq":
            behind = self.random.choice(("<start/>", self.operator(), "<start/><any/><any/>" + self.operator()))
            ahead = self.random.choice(("", self.operator(), "<end/>"))
            ahead = f"<look-ahead>{ahead}</look-ahead>" if ahead else ""
            yield f'<rule name="{name}"><look-behind>{behind}</look-behind><anchor/>{ahead}</rule>'
        for name in "xyz":
            parts = "".join(self.operator() for _ in range(self.random.choice((1, 2, 3))))
            yield f'<rule name="{name}">{self.maybe(0.6, "<start/>")}{parts}{self.maybe(0.3, "<end/>")}</rule>'

    def actions(self):
        dispositions = ("invalid", "blocked", "allocatable", "valid", "activated")
        for _ in range(self.random.choice((0, 1, 2, 4))):
            word = self.random.choice(("match", "match", "not-match"))
            rule = self.maybe(0.4, f' {word}="{self.random.choice("xyz")}"')
            kinds = " ".join(self.random.sample(self.TYPES[:-1], self.random.choice((1, 2, 3))))
            types = f' {self.random.choice(("any-variant", "all-variants", "only-variants"))}="{kinds}"'
            types = self.maybe(0.9, types)
            rule = rule if self.has_rules else ""
            if types or rule:
                yield f'<action disp="{self.random.choice(dispositions)}"{rule}{types}/>'


def spelled(sequence):
    return " ".join(f"{point:04X}" for point in sequence)
