"""Small rulesets of RFC 7940, and what the RFC says of labels; and rulesets that the program refuses.

The entries of a ruleset are on line 2 of the file, the rules and actions on line 4. An answer is 'invalid', or the variants of
a label, with '!' before those that are blocked.
"""

BEHIND_A = '<look-behind><char cp="0061"/></look-behind><anchor/>'
BEHIND, AHEAD = "<look-behind><any/></look-behind>", "<look-ahead><any/></look-ahead>"
CONSONANTS = "".join(f'<char cp="{cp}" tag="consonant"/>' for cp in ("0062", "0063", "0064"))
ABC = "".join(f'<char cp="{cp}"/>' for cp in ("0061", "0062", "0063"))
NO_DIGIT = '<class property="gc:Nd" count="1+"/>'
HAN = ("56FD", "570B"), ("5B66", "5B78")


def rule(within, name="r"):
    return f'<rule name="{name}">{within}</rule>'


def refusing(within, word="match"):
    return rule(within) + f'<action disp="invalid" {word}="r"/>'


def char(cp, *variants, **attributes):
    """An entry; a variant is (cp, type) or (cp, type, further attributes)."""
    words = "".join(f' {name.replace("_", "-")}="{value}"' for name, value in attributes.items())
    return f'<char cp="{cp}"{words}>' + "".join(var(*variant) for variant in variants) + "</char>"


def var(cp, kind=None, more=""):
    return f'<var cp="{cp}"' + (f' type="{kind}"' if kind is not None else "") + more + "/>"


def han(simplified="simp", traditional="trad"):
    """Simplified and traditional characters, each a variant of the other, with reflexive types."""
    return "".join(char(simp, (simp, f"r-{simplified}"), (trad, traditional))
                   + char(trad, (trad, f"r-{traditional}"), (simp, simplified)) for simp, trad in HAN)


HAN_ACTIONS = ('<action disp="valid" only-variants="r-simp r-trad"/>'
               '<action disp="allocatable" only-variants="simp r-simp"/>'
               '<action disp="allocatable" only-variants="trad r-trad"/>'
               '<action disp="blocked" any-variant="simp trad"/>')
TWO = char("0061", ("0062", "x"), ("0063", "valid")) + char("0062") + char("0063")

# What is shown, the data, the rules, and answers.
ROWS = [
    # Section 5: entries.
    ("a code point, a sequence and a range", char("0061") + char("0062 0063") + '<range first-cp="0030" last-cp="0032"/>', "",
     {"abc1": "abc1", "b": "invalid", "bca": "bca", "3": "invalid"}),
    ("a context before", ABC.replace('"0062"', '"0062" when="r"'), rule(BEHIND_A),
     {"ab": "ab", "b": "invalid", "abb": "invalid", "cab": "cab", "acb": "invalid"}),
    ("a context of a range, the other way round", char("0061") + '<range first-cp="0062" last-cp="0063" not-when="r"/>',
     rule(BEHIND_A),
     {"ba": "ba", "ab": "invalid", "bc": "bc", "abc": "invalid", "bac": "invalid"}),
    ("a context after", ABC.replace('"0062"', '"0062" when="r"'),
     rule('<anchor/><look-ahead><char cp="0063"/><end/></look-ahead>'),
     {"bc": "bc", "bca": "invalid", "abc": "abc", "b": "invalid"}),
    ("both sides of a sequence", char("0061") + char("0062 0063", when="r"),
     rule('<look-behind><start/><char cp="0061"/></look-behind><anchor/><look-ahead><char cp="0061"/></look-ahead>'),
     {"abca": "abca", "aabca": "invalid", "abc": "invalid"}),
    ("anchors in a choice, by their names, too", ABC.replace('"0062"', '"0062" not-when="r"'),
     rule("<look-behind><start/></look-behind><anchor/>", "first")
     + rule(f'<choice><rule by-ref="first"/><rule>{BEHIND_A}</rule></choice>'),
     {"b": "invalid", "ab": "invalid", "cb": "cb", "cbb": "cbb"}),
    ("a rule by its name after the anchor, and none of its code points in labels", ABC.replace('"0062"', '"0062" when="r"'),
     rule(NO_DIGIT, "s") + rule('<anchor/><look-ahead><rule by-ref="s"/></look-ahead>'),
     {"b": "invalid", "bc": "invalid", "abb": "invalid", "ac": "ac"}),
    ("the same before it", ABC.replace('"0062"', '"0062" not-when="r"'),
     rule(NO_DIGIT, "s") + rule('<look-behind><rule by-ref="s"/></look-behind><anchor/>'), {"b": "b", "cb": "cb", "bab": "bab"}),
    ("the same in a choice, where it may be left out", ABC.replace('"0062"', '"0062" when="r"'),
     rule(f'<choice>{NO_DIGIT}<char cp="0078" count="0:1"/></choice>', "s")
     + rule('<anchor/><look-ahead><rule by-ref="s"/><char cp="0063"/></look-ahead>'),
     {"bc": "bc", "abca": "abca", "b": "invalid", "bac": "invalid"}),
    ("a choice of nothing that labels have, on both sides", ABC.replace('"0062"', '"0062" when="r"'),
     rule(f'<choice>{NO_DIGIT}<char cp="0078"/></choice>', "s")
     + rule('<choice><rule><look-behind><rule by-ref="s"/></look-behind><anchor/></rule>'
            '<rule><anchor/><look-ahead><char cp="0061"/><rule by-ref="s"/></look-ahead></rule>'
            '<rule><look-behind><char cp="0063"/></look-behind><anchor/></rule></choice>'),
     {"b": "invalid", "ba": "invalid", "cb": "cb", "ab": "invalid"}),
    ("parts beside a choice of anchors", ABC.replace('"0062"', '"0062" when="r"'),
     rule(f'<choice><rule>{BEHIND_A}</rule><rule><look-behind><char cp="0063"/></look-behind><anchor/></rule></choice>'
          "<end/>"), {"ab": "ab", "cb": "cb", "aba": "invalid"}),
    # Section 6.2: classes.
    ("tags", CONSONANTS + char("0061", tag="vowel sign", when="r") + char("0065", tag="vowel"),
     rule('<look-behind><class from-tag="consonant"/></look-behind><anchor/>'),
     {"ba": "ba", "ea": "invalid", "da": "da"}),
    ("a class by its code points, by a name", ABC,
     '<class name="two">0061 0063-0070</class>' + refusing('<class by-ref="two"/><end/>'),
     {"b": "b", "ab": "ab", "ba": "invalid", "bc": "invalid"}),
    ("classes by a combining class and a category", char("0061") + char("0915") + char("094D") + char("0301"),
     refusing('<start/><class property="gc:Mn"/>')
     + rule('<class property="ccc:9"/><class property="General_Category:Lo"/>', "s")
     + '<action disp="invalid" match="s"/>',
     {"a\u0301": "a\u0301", "\u0301a": "invalid", "\u0915\u094D\u0915": "invalid", "\u0915\u094Da": "\u0915\u094Da"}),
    ("a class by a class of the Bidi rule", char("0061") + char("0628") + char("0661"),
     refusing('<start/><class property="bc:AL"/><class property="Bidi_Class:AN"/>'),
     {"\u0628\u0661": "invalid", "\u0628\u0628\u0661": "\u0628\u0628\u0661"}),
    ("a union", ABC, refusing("<start/><union><class>0061</class><class>0062</class></union>"),
     {"a": "invalid", "b": "invalid", "ca": "ca"}),
    ("an intersection", ABC, refusing("<intersection><class>0061-0062</class><class>0062-0063</class></intersection>"),
     {"ac": "ac", "ab": "invalid"}),
    ("a difference", ABC, refusing("<difference><class>0061-0063</class><class>0062</class></difference><end/>"),
     {"ab": "ab", "c": "invalid"}),
    ("a symmetric difference", ABC,
     refusing("<symmetric-difference><class>0061-0062</class><class>0062-0063</class></symmetric-difference><end/>"),
     {"ab": "ab", "c": "invalid"}),
    ("a complement, of what labels can have", ABC, refusing("<complement><class>0061 0078</class></complement><end/>"),
     {"ba": "ba", "c": "invalid"}),
    # Section 6.3: rules.
    ("any, the start and the end", ABC, refusing('<start/><any/><any/><char cp="0063"/><end/>'),
     {"abc": "invalid", "cabc": "cabc", "abca": "abca", "c": "c"}),
    ("a count", ABC, refusing('<char cp="0061" count="3"/>'),
     {"aa": "aa", "aaa": "invalid", "baaab": "invalid", "aaba": "aaba"}),
    ("a count from one to three", ABC, refusing('<start/><char cp="0061" count="1:3"/><char cp="0062"/>'),
     {"ab": "invalid", "aaab": "invalid", "aaaab": "aaaab", "b": "b"}),
    ("a count from two on", ABC, refusing('<start/><char cp="0061" count="2+"/><char cp="0062"/>'),
     {"ab": "ab", "aab": "invalid", "aaaaab": "invalid"}),
    ("a count from none on, of a sequence", ABC, refusing('<start/><char cp="0061 0062" count="0+"/><char cp="0063"/>'),
     {"c": "invalid", "ababc": "invalid", "abac": "abac"}),
    ("a count of choices", ABC,
     refusing('<start/><choice count="2"><char cp="0061"/><rule><char cp="0062"/><char cp="0063"/></rule></choice><end/>'),
     {"aa": "invalid", "abc": "invalid", "bcbc": "invalid", "a": "a", "aaa": "aaa", "ba": "ba"}),
    ("a choice that may match nothing", ABC,
     refusing('<char cp="0061"/><choice><char cp="0062" count="0:1"/><char cp="0063"/></choice><end/>'),
     {"a": "invalid", "ab": "invalid", "ac": "invalid", "abb": "abb"}),
    ("a rule within a rule", ABC, rule('<char cp="0061"/><char cp="0062"/>', "ab") + refusing('<rule by-ref="ab" count="2"/>'),
     {"abab": "invalid", "ab": "ab", "cabab": "invalid"}),
    ("what has to match", ABC, refusing("<class>0061-0062</class>", "not-match"), {"c": "invalid", "ca": "ca", "b": "b"}),
    ("more than a label can have", ABC, refusing('<char cp="0061" count="1:63"/><char cp="0063" count="64"/>')
     + rule('<start/><char cp="0061" count="1:99"/><end/>', "s") + '<action disp="invalid" match="s"/>',
     {"aaa": "invalid", "ab": "ab"}),
    ("a rule without an anchor, for a code point anywhere", char("00B7", when="r") + ABC, rule("<class>0061-0062</class>"),
     {"\u00B7ca": "\u00B7ca", "c\u00B7": "invalid", "bc\u00B7": "bc\u00B7", "c": "c"}),
    ("the same, said of the whole label", char("00B7", when="r") + ABC,
     rule('<start/><any count="0+"/><class>0061-0062</class><any count="0+"/><end/>'),
     {"\u00B7ca": "\u00B7ca", "c\u00B7": "invalid", "bc\u00B7": "bc\u00B7", "c": "c"}),
    ("the same, for a code point that is one of them", char("0061", when="r") + char("0062", not_when="r") + char("0063"),
     rule("<class>0061-0062</class>"),
     {"a": "a", "ac": "ac", "b": "invalid", "c": "c"}),
    # Section 5.3: variants.
    ("types of section 7.3",
     char("0061", ("0062", "allocatable"), ("0063", "blocked"), ("0064", "activated"), ("0065", "valid"))
     + "".join(map(char, ("0062", "0063", "0064", "0065"))), "", {"a": "a b !c d e", "b": "b"}),
    ("no type", char("0061", ("0062",)) + char("0062"), "", {"a": "a b"}),
    ("a type 'invalid', which makes no variant",
     char("0061", ("0062", "invalid"), ("0063", "blocked")) + char("0062") + char("0063"), "",
     {"a": "a !c", "aa": "aa !ac !ca !cc"}),
    ("each variant is a label of its own", char("0061", ("0062", "blocked")) + char("0062", when="r") + char("0063"),
     rule('<look-behind><char cp="0063"/></look-behind><anchor/>'), {"a": "a", "ca": "ca !cb", "caa": "caa !cba"}),
    ("a demand on variants", char("0061", ("0062", "allocatable")) + char("0062"),
     refusing('<char cp="0062"/><char cp="0062"/>'), {"aa": "aa ab ba", "ab": "ab"}),
    ("a variant in a context, asked where its source stands",
     char("0061", ("0062", "allocatable", ' when="r"')) + char("0062"),
     rule(BEHIND_A), {"aa": "aa ab", "aaa": "aaa aab aba abb", "ba": "ba"}),
    ("one variant in two contexts",
     char("0061", ("0062", "allocatable", ' when="r"'), ("0062", "blocked", ' not-when="r"')) + char("0062"),
     rule("<anchor/><look-ahead><end/></look-ahead>"),
     {"a": "a b", "aa": "aa ab !ba !bb"}),
    ("a variant in a context that holds nowhere, and in the opposite one",
     char("0061", ("0062", "allocatable", ' when="none"'), ("0062", "blocked", ' not-when="none"')) + char("0062"),
     rule('<look-behind><char cp="0078"/></look-behind><anchor/>', "none"),
     {"a": "a !b", "aa": "aa !ab !ba !bb"}),
    ("a sequence for a code point", char("0061 0065", ("00E4", "allocatable")) + char("00E4", ("0061 0065", "blocked"))
     + char("0061") + char("0065"), "",
     {"aea": "aea \u00E4a", "\u00E4": "\u00E4 !ae"}),
    ("an out-of-repertoire variant", char("0061", ("0430", "blocked")) + char("0062")
     + char("0430", ("0430", "out-of-repertoire-var"), ("0061", "blocked")),
     '<action disp="invalid" any-variant="out-of-repertoire-var"/>',
     {"ab": "ab !\u0430b", "\u0430b": "invalid", "\u0430": "invalid"}),
    ("the same in a context", char("0061", ("0430", "blocked")) + char("0062")
     + char("0430", ("0430", "x"), not_when="r"),
     '<action disp="invalid" any-variant="x"/>' + rule("<anchor/><look-ahead><end/></look-ahead>"),
     {"aba": "aba !\u0430ba", "a": "a"}),
    # Section 7: actions on types.
    ("types that go together", han(), HAN_ACTIONS,
     {"国学": "国学 !国學 !國学 國學", "國學": "國學 国学 !国學 !國学", "国學": "国學 国学 國學 !國学"}),
    ("sources without a reflexive variant, under only-variants", han() + char("0061"), HAN_ACTIONS,
     {"国a": "国a !國a", "国": "国 國", "a": "a"}),
    ("the same under all-variants, which looks at what is mapped", han() + char("0061"), HAN_ACTIONS.replace("only", "all"),
     {"国a": "国a 國a", "国学": "国学 !国學 !國学 國學", "a": "a"}),
    ("the first action decides", char("0061", ("0062", "x"), ("0063", "y")) + char("0062") + char("0063"),
     '<action disp="allocatable" all-variants="x"/><action disp="blocked" any-variant="x y"/>',
     {"aa": "aa ab ba bb !ac !bc !ca !cb !cc"}),
    ("the same actions the other way round", char("0061", ("0062", "x"), ("0063", "y")) + char("0062") + char("0063"),
     '<action disp="blocked" any-variant="x y"/><action disp="allocatable" all-variants="x"/>',
     {"a": "a !b !c"}),
    ("explicit actions before those of the standard", char("0061", ("0062", "blocked")) + char("0062"),
     '<action disp="valid" any-variant="blocked"/>',
     {"a": "a b"}),
    ("a refusal by a rule after an action of another disposition", char("0061", ("0062", "x")) + char("0062"),
     '<action disp="blocked" any-variant="x"/>' + refusing('<char cp="0062"/>'),
     {"a": "a !b", "b": "invalid"}),
    ("a refusal by a rule after one by types, and one of no rule and no types", char("0061", ("0062", "x")) + char("0062"),
     '<action disp="invalid" any-variant="y"/>' + refusing('<char cp="0062"/><char cp="0062"/>') + '<action disp="blocked"/>',
     {"a": "!a !b", "aa": "!aa !ab !ba", "bb": "invalid"}),
    ("a label that is blocked by a rule", ABC, rule('<char cp="0061"/>') + '<action disp="blocked" match="r"/>',
     {"a": "!a", "b": "b", "ba": "!ba"}),
    ("variants that are blocked by a type and a rule that doesn't match", TWO,
     rule('<char cp="0063"/>') + '<action disp="blocked" any-variant="x" not-match="r"/>',
     {"a": "a !b c", "aa": "aa !ab !ba !bb ac ca bc cb cc"}),
    ("an action that lets through what another would refuse", ABC, '<action disp="valid"/>' + refusing('<char cp="0062"/>'),
     {"b": "b"}),
    ("rules that each label matches, or none", ABC, refusing('<any count="0+"/>') + '<action disp="invalid" not-match="s"/>'
     + rule('<char cp="0078"/>', "s"), {"a": "invalid", "abc": "invalid"}),
    ("every label is blocked", ABC, '<action disp="blocked"/>', {"a": "!a"}),
    ("a label that is invalid by its reflexive types alone", char("0061", ("0061", "x")) + char("0062", ("0062", "valid")),
     '<action disp="invalid" only-variants="x"/><action disp="valid" any-variant="x"/>',
     {"a": "invalid", "aa": "invalid", "ab": "ab", "b": "b"}),
    ("variants that are invalid by types together", TWO,
     '<action disp="blocked" all-variants="x"/><action disp="invalid" any-variant="x"/>',
     {"aa": "aa !ab !ba !bb ac ca cc"}),
    ("a part without a type isn't among all", char("0061", ("0062", "x"), ("0063",)) + char("0062") + char("0063"),
     '<action disp="valid" all-variants="x"/><action disp="blocked" any-variant="x"/>',
     {"aa": "aa ab ba bb ac ca cc !bc !cb"}),
    ("an action by a rule and types", char("0061", ("0062", "allocatable")) + char("0062"),
     '<action disp="allocatable" all-variants="allocatable" not-match="r"/>' + rule('<char cp="0062"/>'), {"a": "a b"}),
    ("a reflexive variant without a type, beside types", char("0061", ("0061",), ("0062", "x"), ("0063",)) + char("0062")
     + char("0063"), '<action disp="valid" all-variants="x"/><action disp="blocked" any-variant="x"/>',
     {"a": "a b c", "aa": "aa bb cc !ab ac !ba ca !bc !cb"}),
    ("the same without types", char("0061", ("0061",), ("0062",)) + char("0062"), "", {"aa": "aa ab ba bb"}),
    # Sections 8.1, 8.3 and 8.4.
    ("a variant that isn't made of entries", char("0061", ("0062", "blocked")) + char("0062 0063"), "", {"a": "a", "bc": "bc"}),
    ("one that is together with what stands beside it", char("0061") + char("0062")
     + char("0063", ("0061 0063 0062", "blocked"), ("0061 0064", "blocked")) + char("0064 0062"), "",
     {"c": "c !acb", "cb": "cb !acbb !adb", "db": "db"}),
    ("a source that no label has, within sources", char("0061 0061", ("0061 0061", "x"), ("0062", "blocked")) + char("0061")
     + char("0062"), '<action disp="invalid" any-variant="x"/>', {"a": "a", "aa": "invalid"}),
    ("the longest entry, with no way back", char("0061") + char("0061 0062") + char("0062 0063"), "",
     {"aab": "aab", "abc": "invalid", "bcab": "bcab"}),
    # Names of the notation.
    ("names", char("0061", tag="0-vowel") + char("0062", when="a-rule-with-a-very-long-name-for-two") + char("0063", when="c.d")
     + char("0064", when="a-rule-with-a-very-long-name-for-three"),
     rule('<look-behind><complement><class from-tag="0-vowel"/></complement></look-behind><anchor/>', "c.d")
     + rule(BEHIND_A, "a-rule-with-a-very-long-name-for-two")
     + rule('<look-behind><char cp="0061"/><any/></look-behind><anchor/>', "a-rule-with-a-very-long-name-for-three"),
     {"ab": "ab", "abc": "abc", "abd": "abd", "ad": "invalid"}),
]

WITH_RULE = "line 4: rule 'r': "
# The data, the rules, and what is wrong, with its line; of several the last.
REFUSALS = [
    # Mappings.
    (char("0061", ("",)), "", "line 2: char 0061: a null variant, which no table can have\n"),
    (char("0061", ("0061", "x", ' when="r"')) + char("0062"), rule(BEHIND_A) + '<action disp="blocked" any-variant="x"/>',
     "line 2: char 0061: a reflexive variant with a condition\n"),
    # Actions.
    (ABC, '<action disp="allowed" any-variant="x"/>',
     "line 4: action 'allowed': a disposition that is none of RFC 7940, section 7.3\n"),
    (ABC, refusing(BEHIND_A),
     "line 4: action 'invalid': its rule has an anchor, so that it is about a place and not about a label\n"),
    # Rules.
    (char("0061", when="r"), rule("<look-behind><any/><end/></look-behind><anchor/>"),
     WITH_RULE + "the end of a label before the anchor, or its start behind it, which no label has\n"),
    (char("0061", not_when="r"), rule("<anchor/><look-ahead><start/></look-ahead>"),
     WITH_RULE + "the end of a label before the anchor, or its start behind it, which no label has\n"),
    (char("0061", when="r"), rule("<anchor/><anchor/>"), WITH_RULE + "two anchors one behind the other\n"),
    (char("0061", when="r"), rule("<choice><anchor/><any/></choice>"),
     WITH_RULE + "an anchor in one part of a choice, and none in another\n"),
    *((char("0061", when="r"), rule(f'<rule count="2"><{sign}/><any/></rule><anchor/>'),
       WITH_RULE + "a start, an end or an anchor within what is counted\n") for sign in ("start", "end", "anchor")),
    (char("0061", when="r"), rule("<choice/><anchor/>"), WITH_RULE + "a choice without a part\n"),
    (char("0061", when="r"), rule('<class property="gc:Xx"/>'), WITH_RULE + "the property 'gc:Xx', which has no such value\n"),
    (char("0061"), '<class name="letters" property="Alphabetic:Y"/>' + refusing('<union><class by-ref="letters"/></union>'),
     "line 4: action 'invalid': the property 'Alphabetic:Y', which is none that RFC 7940 wants to be known\n"),
    *((char("0061"), refusing(f"<{name}>{'<class>0061</class>' * count}</{name}>"),
       "line 4: action 'invalid': a set operator that has too few sets, or too many\n")
      for name, count in (("union", 0), ("complement", 2), ("difference", 1), ("symmetric-difference", 3))),
    (ABC, refusing("<choice><any/><rule><any/><any/></rule></choice>" * 1100),
     "line 4: action 'invalid': a rule that takes more than 4,096 parts to write\n"),
    # Several things.
    (char("0061", ("",)) + "\n" + char("0062", ("",)), '<action disp="no" any-variant="x"/>',
     "lines 2, 3: char 0061 and 1 more: a null variant, which no table can have\n"
     "line 5: action 'no': a disposition that is none of RFC 7940, section 7.3\n"),
]
# What the file itself has wrong.
FAULTS = [
    (char("0061", when="r"), "", "line 2: no rule has the name 'r'\n"),
    (ABC, '<action disp="blocked" any-variant="x" not-match="r"/>', "line 4: no rule has the name 'r'\n"),
    (ABC, rule('<class by-ref="c"/>'), "line 4: no class has the name 'c'\n"),
    (ABC, rule('<rule by-ref="r"/>'), "line 4: rule 'r' is a part of itself, or too deep in others\n"),
    *((ABC, refusing(f'<any count="{count}"/>'), f"line 4: '{count}' is not a count\n") for count in ("2:1", "0", "0:0", "+")),
    (ABC, refusing('<any count="1+"><start/></any>'), "line 4: 'start' is not an element of RFC 7940 here\n"),
    (ABC, refusing('<class from-tag="t">0061</class>'), "line 4: class says in two ways what it is\n"),
    (ABC, refusing('<class from-tag="t" property="gc:Mn"/>'), "line 4: class says in two ways what it is\n"),
    (ABC, rule("<any/>", "s") + refusing('<rule by-ref="s"><any/></rule>'), "line 4: rule says in two ways what it is\n"),
    (ABC, refusing('<rule name="s"><any/></rule>'), "line 4: 'name' is not an attribute of 'rule' in RFC 7940 here\n"),
    (ABC, '<rule name="r" count="2"><any/></rule>', "line 4: 'count' is not an attribute of 'rule' in RFC 7940 here\n"),
    (ABC, refusing('<union><class count="2">0061</class></union>'),
     "line 4: 'count' is not an attribute of 'class' in RFC 7940 here\n"),
    (ABC, refusing('<union><char cp="0061"/></union>'), "line 4: 'char' is not an element of RFC 7940 here\n"),
    (ABC, refusing("<any/>behind"), "line 4: rule has a text within it\n"),
    (ABC + "\nbeside\n\n", "", "line 3: data has a text within it\n"),
    ('<char cp="0061">0062</char>', "", "line 2: char has a text within it\n"),
    ('<char cp="0061"><var cp="0062"><var cp="0063"/></var></char>', "", "line 2: 'var' is not an element of RFC 7940 here\n"),
    # A class that would be smaller than its list.
    (ABC, rule("<class>0061 0063-0062</class>"), "line 4: the range ends at 0062, before it begins\n"),
    (ABC, refusing("<difference><class>0061-0063</class><class>0063-0062</class></difference>"),
     "line 4: the range ends at 0062, before it begins\n"),
    (ABC, rule("<class>0061- 0063</class>"), "line 4: '0061-' is not a range\n"),
    (ABC, rule("<class>0061 -0063</class>"), "line 4: '-0063' is not a range\n"),
    (ABC, rule("<class>0061-0062-0063</class>"), "line 4: '0062-0063' is not a code point\n"),
    (ABC, rule("<class>0061\u00A00062</class>"), "line 4: '0061\u00A00062' is not a code point\n"),
    (ABC, rule("<class> </class>"), "line 4: class names no code point\n"),
    # A rule that would ask for less, or for something else.
    (ABC, refusing('<char cp=""/><end/>'), "line 4: char has an empty 'cp'\n"),
    (ABC, rule('<look-behind><char cp=" "/></look-behind><anchor/>'), "line 4: char has an empty 'cp'\n"),
    (ABC, rule(""), "line 4: rule has no part\n"),
    (ABC, rule("<look-behind/><anchor/>"), "line 4: look-behind has no part\n"),
    *((ABC, rule(within), f"line 4: a {look} that isn't at the edge of its rule, beside the anchor\n") for look, within in (
        ("look-behind", f"{BEHIND}"), ("look-behind", f"<anchor/>{BEHIND}"), ("look-behind", f"{BEHIND}{BEHIND}<anchor/>"),
        ("look-behind", f'<char cp="0061"/>{BEHIND}<anchor/>'), ("look-behind", f'{BEHIND}<char cp="0061"/><anchor/>'),
        ("look-behind", f"<choice>{BEHIND}<anchor/></choice>"), ("look-behind", f"<any/><anchor/>{BEHIND}"),
        ("look-ahead", f"{AHEAD}"), ("look-ahead", f"{AHEAD}<anchor/>"), ("look-ahead", f"<anchor/>{AHEAD}{AHEAD}"),
        ("look-ahead", f"<anchor/>{AHEAD}<end/>"), ("look-ahead", f'<anchor/><char cp="0061"/>{AHEAD}'),
        ("look-ahead", f"{BEHIND}<anchor/><choice>{AHEAD}</choice>"))),
    # A class that would be empty.
    (char("0061", tag="digit"), rule('<class from-tag="digits"/>'), "line 4: no code point has the tag 'digits'\n"),
    (char("0061", tag="digit letter"), rule('<choice><class from-tag="digit letter"/><any/></choice>'),
     "line 4: no code point has the tag 'digit letter'\n"),
    (char("0061 0062", tag="t") + char("0063"), "", "line 2: a sequence has a tag, and a class is of single code points\n"),
    # An action that would ask for two things.
    (ABC, rule('<char cp="0061"/>') + '<action disp="invalid" match="r" not-match="r"/>',
     "line 4: action has both 'match' and 'not-match'\n"),
    *((ABC, f'<action disp="valid" {one}="x" {other}="x"/>', f"line 4: action has both '{one}' and '{other}'\n")
      for one, other in (("any-variant", "all-variants"), ("any-variant", "only-variants"), ("all-variants", "only-variants"))),
    # A variant that would be allocatable and blocked.
    *((char("0061", ("0062", "allocatable", one), ("0062", "blocked", other)) + char("0062"), rule(BEHIND_A) + rule(BEHIND_A, "s"),
       "line 2: char 0061: 0062 is given twice as a variant, and not under conditions that differ\n")
      for one, other in (("", ""), (' when="r"', ""), (' when="r"', ' when="r"'))),
    (char("0061", *(("0062", "blocked", f' {word}="r"') for word in ("when", "not-when", "when"))) + char("0062"), rule(BEHIND_A),
     "line 2: char 0061: 0062 is given twice as a variant, and not under conditions that differ\n"),
    # A type that would be no type of an action.
    (char("0061", ("0062", "blocked ")) + char("0062"), "", "line 2: 'blocked ' is not a type\n"),
    (char("0061", ("0062", "blocked allocatable")) + char("0062"), "", "line 2: 'blocked allocatable' is not a type\n"),
    (char("0061", ("0062", "")) + char("0062"), "", "line 2: '' is not a type\n"),
    (char("0061", ("0062", "_x")) + char("0062"), "", "line 2: '_x' is not a type\n"),
    (ABC, '<action disp="invalid" any-variant=""/>', "line 4: 'any-variant' names no type\n"),
    (ABC, '<action disp="invalid" only-variants="x _y"/>', "line 4: '_y' is not a type\n"),
]
# Something is left out, or makes no difference: the data and the rules.
LABELS = [
    # A class by a tag that only a code point has which no label has; and classes that lose code points.
    (char("0041", tag="a") + ABC.replace('"0062"', '"0062" not-when="r"'),
     rule('<look-behind><class from-tag="a"/></look-behind><anchor/>')),
    (ABC, '<class name="c">0061 0070-0072</class><class name="d">0061-0062</class><class name="e" property="gc:Ll"/>'
     + refusing('<class by-ref="c"/><class by-ref="d"/><class by-ref="e"/><class>0070</class>')),
    (char("0061", when="r") + char("0062", not_when="r"), rule("<class>0078</class>")),
    (ABC, refusing('<class count="0+">0078</class>', "not-match") + rule('<choice><class count="0:1">0078</class><any/></choice>', "s")
     + '<action disp="blocked" match="s"/>'),
    ('<range first-cp="0060" last-cp="0062"/>' + char("0063", ("0041", "blocked"), ("0064", "blocked")), ""),
    (char("0061", ("0062", "bloked"), ("0063", "valid")) + char("0062") + char("0063"),
     rule("<any/>") + '<class name="c">0061</class>' + refusing('<char cp="0078"/>').replace('"r"', '"s"')
     + refusing("<start/><class property='gc:Mn'/>").replace('"r"', '"leading-combining-mark"')),
]
# What RFC 5892 allows and the program doesn't register: the data, and the lines of what is left.
PROFILE = [
    # Adlam letters and digits; a capital one is barred by RFC 5892.
    (char("0061") + '<range first-cp="1E922" last-cp="1E943"/><range first-cp="1E950" last-cp="1E959"/>', ["0061"]),
    (char("0061", ("10840", "blocked"), ("0062", "blocked")) + char("0062") + char("0061 10840"), ["0061|0062 as blocked", "0062"]),
    (char("0061") + char("1E900"), ["0061"]),
    (char("0061") + char("1E900 1E922"), ["0061"]),
    (char("0061") + char("FB50"), ["0061"]),
    (char("FB1E 1E922"), None),
]
# The same with --standard: the lines.
BY_STANDARD = [
    (PROFILE[0][0], ["0061", "1E922..1E943", "1E950..1E959"]),
    (char("0061", ("10840", "blocked")) + char("10840", ("0061", "blocked")) + char("0061 10840"),
     ["0061|10840 as blocked", "10840|0061 as blocked", "0061-10840"]),
    (char("0061") + char("1E900 1E922"), ["0061"]),
    (char("FB1E 1E922"), ["FB1E-1E922"]),
]
# Each limit of the notation.
TOO_MUCH = "with it the ruleset is past a limit (docs/NOTATION.md)\n"
LIMITS = [
    ('<range first-cp="4E00" last-cp="9FFF"/><range first-cp="AC00" last-cp="D7A3"/>'
     '<range first-cp="20000" last-cp="2825C"/>', "", f"line 2: range 20000..2825C: {TOO_MUCH}"),
    (char("0061", *((f"{0x4E00 + each:04X}", "valid") for each in range(17))) + '<range first-cp="4E00" last-cp="4E20"/>', "",
     f"line 2: char 0061: {TOO_MUCH}"),
    (char(" ".join(["0061"] * 9)) + char("0061", (" ".join(["0061"] * 10),)), "",
     f"line 2: char {'-'.join(['0061'] * 9)}: {TOO_MUCH}"),
    (ABC, refusing("<choice><any/><rule><any/>" * 10 + "<any/>" + "</rule></choice>" * 10),
     f"line 4: action 'invalid': {TOO_MUCH}"),
    (ABC, refusing('<rule count="0+"><any/>' * 3 + "<any/>" + "</rule>" * 3 + '<char cp="0061"/><end/>'),
     f"line 4: action 'invalid': {TOO_MUCH}"),
    (ABC, refusing("<class>0061-0062</class>" * 3000), f"line 4: action 'invalid': {TOO_MUCH}"),
    (ABC.replace('"0062"', '"0062" when="r"'),
     rule("<look-behind>" + "<class>0061-0062</class>" * 3000 + "</look-behind><anchor/>"), f"line 4: rule 'r': {TOO_MUCH}"),
    (ABC, rule('<char cp="0061 0062"/>') + '<action disp="invalid" match="r"/>' * 257,
     f"line 4: action 'invalid': {TOO_MUCH}"),
    (char("0061") + "\n" + char("0062", *(("0061", f"x{each}", f' when="r{each}"') for each in range(58))),
     "".join(rule("<anchor/>", f"r{each}") for each in range(58)), f"line 3: type 'x57': {TOO_MUCH}"),
]


def many_entries():
    """The data and the rules of a ruleset with 32,164 entries."""
    return '<range first-cp="4E00" last-cp="9FFF"/><range first-cp="AC00" last-cp="D7A3"/>', ""


def long_set():
    """Those of a ruleset with a class that has no two code points one after the other, and takes more than a line."""
    points = " ".join(f"{point:04X}" for point in range(0x4E00, 0x5C00, 2))
    return ('<range first-cp="4E00" last-cp="5BFF"/><char cp="0061" when="r"/>',
            f'<class name="many">{points}</class>' + rule('<look-behind><class by-ref="many"/></look-behind><anchor/>'))


# A ruleset with something of each kind; and what a table of version 2 can say but for one condition, one rule or a type.
AFTER_A = rule(BEHIND_A)
OF_EACH_KIND = (
    char("0061", ("0062", "blocked"), ("0430", "blocked")) + char("0062", ("0061", "blocked"))
    + char("0063", ("0062", "x"), ("0061", "y")) + char("0430", ("0430", "out-of-repertoire-var"), ("0061", "blocked"))
    + char("0064") + char("0065") + char("00E4") + char("0066", when="r"),
    AFTER_A + rule('<char cp="0064 0065"/>', "de") + '<action disp="invalid" match="de"/>'
    '<action disp="invalid" any-variant="out-of-repertoire-var"/><action disp="blocked" any-variant="blocked x"/>'
    '<action disp="allocatable" any-variant="y"/>')
WITH_CONDITION = ABC + char("0064", when="r"), AFTER_A
WITH_RULE = ABC, refusing('<char cp="0061 0062"/>')
WITH_VARIANT = char("0061", ("0062", "blocked")) + char("0062", ("0061", "blocked")), ""

# What versions 1 and 2 read in another way than RFC 7940.
LONGEST_FIRST = char("0061") + char("0061 0062") + char("0062 0063"), ""
