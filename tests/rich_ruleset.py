"""Small random rulesets of RFC 7940 with all that its section 6 has: sets, counts, choices, rules within rules,
contexts."""

import random

from random_ruleset import RandomRuleset, spelled


class RichRuleset(RandomRuleset):
    """The text of a ruleset, `data` and `rules`."""

    # A class by its name, from where it is defined.
    named = "<class>0062 0301</class>"
    CONDITIONS = ("p", "q", "anywhere")
    DEMANDS = ("x", "y", "z")

    def __init__(self, seed):
        self.random, self.depth = random.Random(seed), 0
        self.sequences = self.some_sequences()
        self.has_conditions, self.has_rules = self.random.random() < 0.8, True
        self.kinds = self.random.choice((("blocked", "allocatable", None), ("blocked", "simp", "trad", "both"),
                                         ("own", "other", None), self.TYPES, ("blocked",)))
        self.data = "\n".join(map(self.char, self.sequences)) + "\n" + self.range()
        self.rules = "\n".join([*self.patterns(), *self.actions()])

    def range(self):
        first = self.random.choice((0x66, 0x67))
        condition = self.condition(0.3)
        return f'<range first-cp="{first:04X}" last-cp="{first + self.random.choice((0, 2)):04X}" tag="t u"{condition}/>'

    def condition(self, chance):
        name = self.random.choice(self.CONDITIONS)
        condition = self.maybe(chance, f' {self.random.choice(("when", "not-when"))}="{name}"')
        return condition if self.has_conditions else ""

    def char(self, source):
        tag = self.maybe(0.6, f' tag="{self.random.choice(("t", "t u", "u"))}"') if len(source) == 1 else ""
        tag = ' tag="t"' if source == self.sequences[0] else tag
        targets = [each for each in [*self.sequences, (0x66,), (0x41,), (0x78,)] if self.random.random() < 0.35]
        variants = "".join(f"\n  {self.var(each, source)}" for each in targets)
        return f'<char cp="{spelled(source)}"{tag}{self.condition(0.3)}>{variants}</char>'

    def var(self, target, source=()):
        kinds = ("out-of-repertoire-var", "r" if "simp" in self.kinds else "valid") if target == source else self.kinds
        kind = self.random.choice(kinds)
        one = f'<var cp="{spelled(target)}"' + (f' type="{kind}"' if kind else "")
        words = self.random.choice(((' when="p"', ' not-when="p"'), (' when="q"',), ("",), ("",), ("",)))
        words = words if self.has_conditions and target != source else ("",)
        return "".join(f"{one}{word}/>" for word in words)

    # Rules.

    def set(self):
        choice = self.random.choice
        one = lambda: choice(('<class from-tag="t"/>', '<class from-tag="u"/>', "<class>0061-0062 0068</class>",
                              '<class property="gc:Ll"/>', '<class property="ccc:230"/>', '<class property="gc:Nd"/>',
                              self.named))
        word = choice(("union", "intersection", "difference", "symmetric-difference"))
        return choice((one(), one(), f"<complement>{one()}</complement>", f"<{word}>{one()}{one()}</{word}>"))

    def operator(self):
        """One operator with or without a count; groups within each other at most three deep."""
        point = spelled((self.random.choice(self.POINTS),))
        flat = (f'<char cp="{point}"/>', f'<char cp="{point}"/>', "<any/>", self.set(), f'<char cp="{point} {point}"/>')
        made = self.random.choice(flat)
        if self.depth < 2 and self.random.random() < 0.3:
            self.depth += 1
            inner = [self.operator() + self.maybe(0.3, self.operator()) for _ in range(self.random.choice((2, 3)))]
            made = "<choice>" + "".join(f"<rule>{each}</rule>" for each in inner) + "</choice>"
            self.depth -= 1
        return counted(made, self.maybe(0.4, self.random.choice(("0+", "1+", "2", "0:1", "1:2", "2+"))))

    def behind_and_ahead(self):
        inner = lambda: counted('<rule by-ref="inner"/>', self.maybe(0.4, self.random.choice(("0+", "1+", "0:1"))))
        behind = self.maybe(0.3, "<start/>") + self.maybe(0.8, self.operator()) + self.maybe(0.2, self.operator())
        behind += self.maybe(0.2, inner())
        ahead = self.maybe(0.5, self.operator()) + self.maybe(0.2, inner()) + self.maybe(0.3, "<end/>")
        behind = f"<look-behind>{behind}</look-behind>" if behind else ""
        return behind + "<anchor/>" + (f"<look-ahead>{ahead}</look-ahead>" if ahead else "")

    def patterns(self):
        """A class, two rules with an anchor, one about a code point anywhere, one within others, and three about the
        whole label."""
        yield f'<union name="named">{self.set()}<class>0061</class></union>'
        self.named = '<class by-ref="named"/>'
        yield f'<rule name="p">{self.behind_and_ahead()}</rule>'
        yield (f'<rule name="q"><choice><rule>{self.behind_and_ahead()}</rule><rule by-ref="p"/>'
               f"<rule>{self.behind_and_ahead()}</rule></choice></rule>")
        anywhere = self.set()
        if self.random.random() < 0.3:
            anywhere = f'<start/><any count="0+"/>{anywhere}<any count="0+"/>'
        yield f'<rule name="anywhere">{anywhere}</rule>'
        yield f'<rule name="inner">{self.operator()}{self.operator()}</rule>'
        for name in self.DEMANDS:
            parts = "".join(self.operator() for _ in range(self.random.choice((1, 2, 3))))
            parts += self.maybe(0.2, '<rule by-ref="inner"/>')
            start = self.random.choice(("", "<start/>", "<start/>", f"<choice><start/>{self.operator()}</choice>"))
            ending = f"<choice>{self.operator()}<rule>{self.operator()}<end/></rule></choice>"
            yield f'<rule name="{name}">{start}{parts}{self.random.choice(("", "", "<end/>", ending))}</rule>'

    def actions(self):
        """Mostly rules that refuse labels, then actions on types as rulesets have them, now and then others."""
        for name in self.DEMANDS:
            word = self.random.choice(("match", "match", "match", "not-match"))
            yield self.maybe(0.4, f'<action disp="invalid" {word}="{name}"/>')
        if self.random.random() < 0.15:
            yield from super().actions()
        yield '<action disp="invalid" any-variant="out-of-repertoire-var"/>'
        yield self.maybe(0.8, '<action disp="blocked" any-variant="blocked"/>')
        if "simp" in self.kinds:
            word = self.random.choice(("only-variants", "all-variants"))
            yield f'<action disp="allocatable" {word}="simp both r"/><action disp="allocatable" {word}="trad both r"/>'
            yield '<action disp="blocked" any-variant="simp trad both"/>'
        if "own" in self.kinds:
            yield '<action disp="valid" all-variants="own"/><action disp="blocked" any-variant="own other"/>'
        yield self.maybe(0.5, '<action disp="valid"/>')


def counted(element, count):
    return element.replace(">" if not element.split(">")[0].endswith("/") else "/>", f' count="{count}"' + (
        "/>" if element.split(">")[0].endswith("/") else ">"), 1) if count else element
