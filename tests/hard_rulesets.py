"""Rulesets that are as hard on labels as their limits allow."""


def conditions_at_every_limit():
    """A ruleset that is as hard on labels of `a` and `b` as its limits allow: 4,096 atoms, of which most stand within two stars.
    Such a label is followed through all of them, and meets the demands all the same; 166 rules are among them."""
    stars = "((0061* @A?)* 0062?)"
    demand = "%never ^ " + " ".join([stars] * 130) + " 0063\n"
    rules = "".join(f"%rule r{number} @A* (0061 0061* / 0062) _ 0063 / ^ . _ 0063\n" for number in range(165))
    entries = "0061 unless r0|0062 unless r163:0063 when last\n0062 unless r164\n0063\n"
    return f"%version 3\n%set A 0061..0062\n{demand * 4}{rules}%rule last 0061 0061 0061 _\n{entries}"


def sets_at_their_limits():
    """256 sets, each of as many spans as its line has room for, all asked in one demand for each label."""
    points = " ".join(f"{point:04X}" for point in range(0x4E00, 0x4E00 + 2 * 1600, 2))
    names = [f"s{number}" for number in range(256)]
    sets = "".join(f"%set {name} {points}\n" for name in names)
    return f"%version 3\n{sets}%never {' / '.join(f'@{name} @{name} 0061' for name in names)}\n4E00..5FFF\n0061|0062\n0062|0061\n"
