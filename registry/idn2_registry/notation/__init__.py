"""Version 3 of the table notation, read from docs/NOTATION.md alone: texts of it are rulesets.

lines, faults, points  what all versions have in common
tokens                 what a line is cut into
patterns               patterns of code points, and the contexts of a rule
forms                  the form of a line: a type, a set, a rule, a demand, an action, an entry or a range
ruleset                what a text spells
canonical              the one spelling of a definition and of an entry
reading                the ruleset of a text, or its first fault
gaps                   the pairs that a table or a ruleset lacks
differences            the pairs whose conditions one way aren't those of the other way
"""
