"""Worked rows for the evaluator of RFC 7940: what small rulesets say, worked out by hand from the sections that are
named, and files that aren't as the standard has them."""

NAMESPACE = "urn:ietf:params:xml:ns:lgr-1.0"
VERSION = "<meta><unicode-version>15.0.0</unicode-version></meta>"


def ruleset(data, rules=""):
    """The text of a ruleset: the data begin on its second line, and the rules on the line after the data."""
    return f'<lgr xmlns="{NAMESPACE}">{VERSION}<data>\n{data}\n</data><rules>\n{rules}\n</rules></lgr>\n'


def characters(first, last):
    return f'<range first-cp="{ord(first):04X}" last-cp="{ord(last):04X}"/>'


def char(source, variants="", more=""):
    """An entry: its variants are `text:type`, `text:` without a type, parted by blanks."""
    pairs = [variant.rpartition(":") for variant in variants.split()]
    types = {"": ""} | {kind: f' type="{kind}"' for _, _, kind in pairs if kind}
    var = "".join(f'<var cp="{points(target)}"{types[kind]}/>' for target, _, kind in pairs)
    return f'<char cp="{points(source)}"{more}>{var}</char>'


def points(text):
    return " ".join(f"{ord(character):04X}" for character in text)


def rule(name, content):
    return f'<rule name="{name}">{content}</rule>'


def literal(text, more=""):
    return f'<char cp="{points(text)}"{more}/>'


ABC = characters("a", "c")
DIGITS = ('<range first-cp="0660" last-cp="0669" tag="a" not-when="mixed"/>'
          '<range first-cp="06F0" last-cp="06F9" tag="b" not-when="mixed"/>')
MIXED = rule("mixed", "<choice>"
             '<rule><class from-tag="a"/><any count="0+"/><class from-tag="b"/></rule>'
             '<rule><class from-tag="b"/><any count="0+"/><class from-tag="a"/></rule></choice>')
CHINESE = (char("国", "国:r-simp 國:trad") + char("國", "國:r-trad 国:simp") + char("学", "学:r-simp 學:trad")
           + char("學", "學:r-trad 学:simp"))
CHINESE_ACTIONS = ('<action disp="valid" only-variants="r-simp r-trad"/>'
                   '<action disp="allocatable" only-variants="simp r-simp"/>'
                   '<action disp="allocatable" only-variants="trad r-trad"/>'
                   '<action disp="blocked" any-variant="simp trad"/><action disp="valid"/>')
FINAL = rule("final", "<anchor/><look-ahead><end/></look-ahead>")
FIRST = rule("first", "<look-behind><start/></look-behind><anchor/>")
SHORTER = char("a") + char("ab") + char("bc")

# The section, data, rules, and for each label what is listed, A for allocatable, B for blocked and U for unclear, or
# the refusal.
ANSWERS = [
    ("5 ranges", characters("a", "c"), "", {"abc": "abc A", "d": None, "abd": None}),
    ("5.1 a sequence and one of its code points", char("l") + char("l·l"), "",
     {"l·l": "l·l A", "ll·l": "ll·l A", "l·": None, "·": None, "l·l·l": None}),
    ("5.2 a rule about the whole label", DIGITS, MIXED, {"٠١": "٠١ A", "۰۱": "۰۱ A", "٠۱": None, "٠٠۰": None}),
    ("5.3.1 one direction, and a sequence", char("ö", "oe:") + char("o") + char("e"), "",
     {"ö": "oe A, ö A", "oe": "oe A"}),
    ("5.3.1 a source that another begins with: both are looked at", char("a", "c:") + char("ab", "d:")
     + characters("b", "d"), "", {"ab": "ab A, cb A, d A"}),
    ("5.3.2 types and the default actions", char("a", "b:blocked c:allocatable d: e:own f:invalid")
     + characters("b", "f"), "", {"a": "a A, b B, c A, d A, e A", "b": "b A"}),
    ("5.3.3 a null variant", char("a") + char("\u200C", ":blocked"), "",
     {"a\u200Ca": "aa B, a\u200Ca A", "\u200C": "\u200C A"}),
    ("5.3.4 reflexive variants", char("㑇", "㑳:preferred") + char("㑳", "㑇:blocked 㑳:preferred"),
     '<action disp="allocatable" only-variants="preferred"/><action disp="blocked"/>',
     {"㑳㑇": "㑇㑇 B, 㑇㑳 B, 㑳㑇 B, 㑳㑳 A", "㑳": "㑇 B, 㑳 A", "㑇": "㑇 B, 㑳 A"}),
    ("5.3.5 two conditions that exclude each other",
     '<char cp="0647"><var cp="0629" not-when="final" type="blocked"/>'
     '<var cp="0629" when="final" type="allocatable"/></char>' + char("ة") + char("ب"), FINAL,
     {"هب": "ةب B, هب A", "به": "بة A, به A", "ههب": "ةةب B, ةهب B, هةب B, ههب A"}),
    ("5.3.5 two conditions that hold at once", '<char cp="0061"><var cp="0062" type="blocked" when="first"/>'
     '<var cp="0062" type="allocatable" when="final"/></char><char cp="0062"/><char cp="0063"/>', FINAL + FIRST,
     {"a": "a A, b U", "ac": "ac A, bc B", "ca": "ca A, cb A", "cac": "cac A"}),
    ("5.5 tags of a code point, and none of a sequence",
     '<char cp="0061" tag="letter lower"/><char cp="4E00" tag="letter"/><char cp="0061 4E00"/>',
     rule("r", '<start/><class from-tag="lower"/><end/>') + '<action disp="invalid" match="r"/>',
     {"a": None, "一": "一 A", "aa": "aa A", "a一": "a一 A"}),
    ("6.2.1 a class named before it is defined", ABC, rule("r", '<class by-ref="k"/>') + '<class name="k">0061</class>'
     '<action disp="invalid" match="r"/>', {"a": None, "bab": None, "bc": "bc A"}),
    ("6.2.3 properties", char("क") + char("\u094D") + char("\u200D", "", ' when="virama"'),
     rule("virama", '<look-behind><class property="ccc:9"/></look-behind><anchor/>'),
     {"क\u094D\u200Dक": "क\u094D\u200Dक A", "क\u200D": None, "\u200Dक": None}),
    ("6.3.1 a rule holds where it matches a part", ABC, rule("r", literal("a") + literal("b"))
     + '<action disp="invalid" match="r"/>', {"ab": None, "cabc": None, "acb": "acb A", "ba": "ba A"}),
    ("6.3.4 rules within rules", ABC, rule("q", '<rule by-ref="r" count="2"/>')
     + rule("r", literal("a") + '<any count="0:1"/>') + '<action disp="invalid" not-match="q"/>',
     {"aa": "aa A", "abab": "abab A", "acba": None, "bb": None}),
    ("6.3.5 letters, digits and hyphens", characters("-", "-") + characters("0", "9") + characters("a", "z")
     + char("ä"), rule("ldh",
     '<start/><choice count="1+"><class>0061-007A</class><class>0030-0039</class><char cp="002D"/></choice><end/>')
     + '<action disp="invalid" not-match="ldh"/>', {"a-1": "a-1 A", "-": "- A", "ä": None, "aä": None}),
    ("6.3.8 the start and the end", characters("-", "-") + characters("0", "9") + characters("a", "z"),
     rule("letter-first", "<start/><class>0061-007A</class>") + rule("no-hyphen-last", '<char cp="002D"/><end/>')
     + '<action disp="invalid" not-match="letter-first"/><action disp="invalid" match="no-hyphen-last"/>',
     {"a-1": "a-1 A", "1a": None, "a-": None, "-": None}),
    ("6.4.1 each place by itself", characters("α", "ω") + char("͵", "", ' when="before-greek"'),
     rule("before-greek", "<anchor/><look-ahead><class>03B1-03C9</class></look-ahead>"),
     {"͵α": "͵α A", "α͵": None, "͵α͵β": "͵α͵β A", "͵α͵": None, "͵͵α": None}),
    ("6.4.1 the anchor is the sequence", char("a") + char("aa", "b:", ' not-when="first"') + char("b"), FIRST,
     {"aa": "aa A", "aaa": "aaa A, ab A", "baa": "baa A, bb A"}),
    ("6.4.2 before and after", ABC + char("d", "", ' when="between"'), rule("between",
     "<choice><rule><look-behind><start/></look-behind><anchor/></rule>"
     '<rule><look-behind><char cp="0061"/><any/></look-behind><anchor/>'
     '<look-ahead><choice><char cp="0062"/><end/></choice></look-ahead></rule></choice>'),
     {"d": "d A", "dc": "dc A", "acd": "acd A", "acdb": "acdb A", "acdc": None, "cd": None, "add": None, "acdd": None}),
    ("6.4.3 without an anchor", char("ア") + char("a") + char("・", "", ' when="kana"'),
     rule("kana", '<class property="sc:Kana"/>'), {"ア・a": "ア・a A", "a・ア": "a・ア A", "a・": None, "・": None}),
    ("7.1 the first action counts", char("a", "b:s c:t") + characters("b", "c"),
     '<action disp="blocked" any-variant="s t"/><action disp="invalid" any-variant="s"/>', {"a": "a A, b B, c B"}),
    ("7.1.1 rules ask the variant", char("a", "b:") + characters("b", "c"), rule("r", literal("b"))
     + '<action disp="blocked" match="r"/>', {"a": "a A, b B", "ab": "ab B, bb B", "c": "c A"}),
    ("7.1.1 a rule that must match", char("a", "b:") + characters("b", "c"), rule("r", literal("b"))
     + '<action disp="invalid" not-match="r"/>', {"a": None, "ab": "ab A, bb A"}),
    ("7.2 both a rule and types", char("a", "b:s") + characters("b", "c"), rule("r", literal("c"))
     + '<action disp="blocked" match="r" any-variant="s"/>', {"a": "a A, b A", "ac": "ac A, bc B"}),
    ("7.2 any", char("a", "b:s") + char("c", "d:") + characters("e", "e") + char("b") + char("d"),
     '<action disp="blocked" any-variant="s"/>', {"ace": "ace A, ade A, bce B, bde B"}),
    ("7.2 all: what stays doesn't count, and a variant without a type is in no list",
     char("a", "b:s") + char("c", "d:") + characters("e", "e") + char("b") + char("d"),
     '<action disp="blocked" all-variants="s t"/>', {"ace": "ace A, ade A, bce B, bde A", "e": "e A"}),
    ("7.2 only: what stays has no type", char("a", "b:s") + char("c", "d:") + characters("e", "e") + char("b")
     + char("d"), '<action disp="blocked" only-variants="s t"/>', {"a": "a A, b B", "ae": "ae A, be A",
     "ac": "ac A, ad A, bc A, bd A"}),
    ("7.2.2 simplified and traditional", CHINESE, CHINESE_ACTIONS,
     {"国学": "国学 A, 国學 B, 國学 B, 國學 A", "國学": "国学 A, 国學 B, 國学 A, 國學 A"}),
    ("7.2.3 an out-of-repertoire variant", char("a", "а:blocked") + char("а", "а:out-of-repertoire-var a:blocked"),
     '<action disp="invalid" any-variant="out-of-repertoire-var"/><action disp="blocked" any-variant="blocked"/>',
     {"a": "a A, а B", "а": None, "aа": None}),
    ("7.5 a variant whose condition fails isn't there",
     '<char cp="0061"><var cp="0062" type="blocked" when="final"/></char>' + characters("b", "c"), FINAL,
     {"a": "a A, b B", "ac": "ac A", "ca": "ca A, cb B"}),
    ("7.6 the order of the default actions", char("a", "b:allocatable c:blocked d:activated e:invalid")
     + characters("b", "e"), "",
     {"aa": "aa A, ab A, ac B, ad A, ba A, bb A, bc B, bd A, ca B, cb B, cc B, cd B, da A, db A, dc B, dd A"}),
    ("8.1 the longest entry, and no way back", SHORTER, "", {"abc": None, "ab": "ab A", "bc": "bc A", "aab": "aab A",
     "c": None}),
    ("8.1 the longest whose condition holds", char("a") + char("ab", "", ' when="final"') + char("bc"), FINAL,
     {"abc": "abc A", "aab": "aab A", "b": None, "abab": None}),
    ("8.1 an action that makes invalid", ABC, '<action disp="invalid"/>', {"a": None, "d": None}),
    ("8.1.1 a reflexive variant that makes invalid", char("a", "a:invalid") + char("b", "a:allocatable"), "",
     {"a": None, "ab": None, "b": "a A, b A"}),
    ("8.2 a condition of a variant is asked in the label asked about", char("a", "b:")
     + '<char cp="0063"><var cp="0064" when="after-a"/></char>' + char("b") + char("d"),
     rule("after-a", f"<look-behind>{literal('a')}</look-behind><anchor/>"),
     {"ac": "ac A, ad A, bc A, bd A", "bc": "bc A"}),
    ("8.2 variants arise by each cut", SHORTER + char("x", "a:"), "", {"xbc": "xbc A", "xx": "aa A, ax A, xa A, xx A"}),
    ("8.2 a null variant isn't everything", char("a", ":") + char("b"), "",
     {"a": "a A", "ab": "ab A, b A", "aa": "a A, aa A"}),
    ("8.3 step 1: of entries, and these in their context", char("a", "b: x:") + char("b", "", ' when="first"')
     + char("c"), FIRST, {"a": "a A, b A", "ca": "ca A", "ac": "ac A, bc A"}),
    ("8.3 step 3: default actions see no other types", char("a", "b:own") + char("c", "d:blocked")
     + char("e", "f:activated") + char("b") + char("d") + char("f"),
     '<action disp="invalid" all-variants="activated"/>', {"ac": "ac A, ad B, bc A, bd B", "ae": "ae A, be A, bf A"}),
    ("8.4 two cuts of one label", char("a", "a:allocatable") + char("b") + char("ab", "ab:blocked"), "",
     {"ab": None, "a": "a A", "b": "b A", "ba": "ba A"}),
    ("8.4 two cuts of one variant", char("a", "c:blocked") + char("b") + char("c") + char("ab", "cb:"), "",
     {"ab": "ab A, cb U"}),
    ("8.4 two cuts that differ in what stays", char("a", "c:blocked") + char("b") + char("c")
     + char("ab", "cb:blocked"), "", {"ab": "ab A, cb U", "a": "a A, c B"}),
    ("8.4 two cuts that record the same", char("a", "c:blocked") + char("b", "d:blocked") + characters("c", "d")
     + char("ab", "cd:blocked"), "", {"ab": "ab A, ad B, cb B, cd B"}),
    ("8.4 without types nothing is unclear", char("a", "c:") + char("b") + char("c") + char("ab", "cb:"), "",
     {"ab": "ab A, cb A"}),
    ("8.4 what is invalid by a rule in any case isn't there", char("a", "c:blocked") + char("b") + char("c")
     + char("ab", "cb:"), rule("r", literal("cb")) + '<action disp="invalid" match="r"/>', {"ab": "ab A", "cb": None}),
    ("8.4 what an action of types may come before is", char("a", "c:blocked") + char("b") + char("c")
     + char("ab", "cb:"), rule("r", literal("cb"))
     + '<action disp="blocked" any-variant="blocked"/><action disp="invalid" match="r"/>',
     {"ab": "ab A, cb U", "cb": None}),
]

# Operators, and of these labels those that are valid where one of them has to match all of a label (6.2, 6.3).
LETTERS = "abcdef"
TAGGED = '<range first-cp="0061" last-cp="0063" tag="t"/><range first-cp="0064" last-cp="0066"/>'
SETS = [
    ("<class>0061 0063-0064 0066</class>", "acdf"),
    ('<class from-tag="t"/>', "abc"),
    ('<class property="sc:Latn"/>', "abcdef"),
    ("<complement><class>0061</class></complement>", "bcdef"),
    ('<complement><complement><class from-tag="t"/></complement></complement>', "abc"),
    ("<union><class>0061</class><class>0064</class><class>0065-0066</class></union>", "adef"),
    ('<intersection><class from-tag="t"/><class>0062-0066</class></intersection>', "bc"),
    ('<difference><class from-tag="t"/><class>0062-0066</class></difference>', "a"),
    ('<symmetric-difference><class from-tag="t"/><class>0062-0066</class></symmetric-difference>', "adef"),
    ("<union><complement><class>0061-0065</class></complement><difference><class>0061-0063</class><class>0062</class>"
     "</difference></union>", "acf"),
    ('<choice><char cp="0061"/><class>0063</class></choice>', "ac"),
    ("<any/>", "abcdef"),
]
COUNTS = [
    ('<char cp="0061" count="2"/>', "aa"),
    ('<char cp="0061" count="2+"/>', "aa aaa aaaa"),
    ('<char cp="0061" count="1:3"/>', "a aa aaa"),
    ('<char cp="0061" count="0:1"/><char cp="0062"/>', "b ab"),
    ('<char cp="0061" count="3:3"/>', "aaa"),
    ('<char cp="0061 0062" count="1+"/>', "ab abab"),
    ('<any count="2"/>', "aa ab ba"),
    ('<class>0061</class><any count="0+"/>', "a aa ab aaa aaaa abab"),
    ('<rule count="2"><char cp="0061"/><any count="0:1"/></rule>', "aa aaa aaaa abab"),
    ('<choice count="3"><char cp="0061"/><char cp="0062"/></choice>', "aaa"),
    ('<choice count="1:2"><char cp="0062"/><char cp="0061 0062"/></choice>', "b ab abab"),
    ('<complement count="1+"><class>0061</class></complement>', "b"),
    ('<rule count="1+"><char cp="0061" count="0+"/></rule>', "a aa aaa aaaa"),
]
COUNTED_LABELS = "a b aa ab ba aaa aaaa abab".split()

# What Unicode says of a code point.
PROPERTIES = {
    "gc:Ll": ("a", "A"), "gc:L": ("aAक", "1\u0301"), "gc:Mark": ("\u0301\u0903", "a"),
    "General_Category:Mn": ("\u0301", "\u0903"), "sc:Deva": ("क", "a"), "Script:Greek": ("α͵", "a"),
    "sc:Zyyy": ("1-", "a"), "sc:Zinh": ("\u0301", "a"), "ccc:9": ("\u094D", "\u0301"),
    "ccc:230": ("\u0301", "\u094D"), "ccc:Virama": ("\u094D", "a"), "ccc:0": ("a", "\u094D"), "bc:AN": ("٠", "۰0"),
    "bc:R": ("א\u0590", "ا"), "bc:L": ("a", "1"), "jt:D": ("ب", "ا"), "jt:U": ("a", "ب"), "jt:T": ("\u0301", "a"),
    "InSC:Virama": ("\u094D", "क"), "InSC:Other": ("a", "क"), "Dep:Y": ("\u0149", "a"),
    "Deprecated:No": ("a", "\u0149"), "gc:Cn": ("\u0378", "a"),
}

# Files that are refused: the line, a part of the reason, and the text.
ROOT = f'<lgr xmlns="{NAMESPACE}">'
ONE = '<data><char cp="0061"/></data>'
DOCUMENTS = [
    (2, "no UTF-8", f"<!-- -->\n\udcff{ROOT}{ONE}</lgr>"),
    (1, "no XML", ""),
    (2, "no XML", f"{ROOT}{ONE}\n</lgR>"),
    (2, "no XML", f"{ROOT}{ONE}</lgr>\n<lgr/>"),
    (2, "no XML", f'{ROOT}<data>\n<char cp="0061" cp="0062"/></data></lgr>'),
    (2, "no XML", f"{ROOT}{ONE}\n&amp;&nbsp;</lgr>"),
    (2, "a document type", f'<?xml version="1.0"?>\n<!DOCTYPE lgr>{ROOT}{ONE}</lgr>'),
    (2, "a document type", f'<!-- -->\n<!DOCTYPE lgr [<!ENTITY a "0061">]>{ROOT}{ONE}</lgr>'),
    (1, "the encoding 'iso-8859-1'", f'<?xml version="1.0" encoding="iso-8859-1"?>{ROOT}{ONE}</lgr>'),
    (1, "no UTF-8", f"{ROOT}{ONE}</lgr>".encode("utf-16")),
    (1, "lgr: it is in another namespace", f"<lgr>{ONE}</lgr>"),
    (1, "the namespace 'urn:lgr' is declared", f'<lgr xmlns="urn:lgr">{ONE}</lgr>'),
    (1, "the namespace 'urn:x' is declared", f'<lgr xmlns="{NAMESPACE}" xmlns:x="urn:x">{ONE}</lgr>'),
    (2, "the namespace '' is declared", f'{ROOT}\n<data xmlns=""><char cp="0061"/></data></lgr>'),
    (2, "the namespace", f'{ROOT}\n<data xmlns="{NAMESPACE}"><char cp="0061"/></data></lgr>'),
    (2, "the attribute 'lang' can't stand here", f'{ROOT}\n<data xml:lang="de"><char cp="0061"/></data></lgr>'),
    (1, "it can't be the root", f'<data xmlns="{NAMESPACE}"><char cp="0061"/></data>'),
    (1, "the attribute 'version' can't stand here", f'<lgr version="1" xmlns="{NAMESPACE}">{ONE}</lgr>'),
    (3, "too many levels", f"{ROOT}\n<data>\n" + "<char>" * 63),
    (1, "lgr: nothing in it", f"{ROOT}</lgr>"),
    (1, "lgr: not what the schema has", f"{ROOT}<rules/></lgr>"),
    (1, "lgr: not what the schema has", f"{ROOT}<rules/>{ONE}</lgr>"),
    (1, "lgr: not what the schema has", f"{ROOT}{ONE}{ONE}</lgr>"),
    (1, "lgr: text in it", f"{ROOT}{ONE}.</lgr>"),
    (2, "data: nothing in it", f"{ROOT}\n<data/></lgr>"),
    (2, "author: it can't stand in 'meta'", f"{ROOT}<meta>\n<author/></meta>{ONE}</lgr>"),
    (1, "scope: it has no 'type'", f"{ROOT}<meta><scope>example</scope></meta>{ONE}</lgr>"),
    (2, "rule: it can't stand in 'lgr'", f'{ROOT}{ONE}\n<rule name="r"><any/></rule></lgr>'),
]

# Other spellings of the same file.
SPELLINGS = [
    f'{ROOT}{ONE}</lgr>',
    f'\ufeff<?xml version="1.0" encoding="UTF-8" standalone="yes"?>\r\n{ROOT}\r\n{ONE}\r\n</lgr>\r\n<!-- -->',
    f"<?xml version='1.0' encoding='us-ascii'?><?a b?><lgr xmlns = '{NAMESPACE}'><!-- <data/> --><data >"
    "<char\ncp\t='0061'></char></data></lgr >",
    f'<l:lgr xmlns:l="{NAMESPACE}"><l:data><l:char cp="0061"/></l:data><l:rules/></l:lgr>',
    f'{ROOT}<meta/><data><range first-cp="&#x30;061" last-cp="0061" comment="&lt;&amp;&quot;" ref="1"/></data></lgr>',
    f'{ROOT}<meta><description type="text/html"><![CDATA[<p>]]></description>'
    '<references><reference id="0">a</reference></references>'
    f'<version comment="a">1</version><scope type="domain">.</scope></meta>{ONE}</lgr>',
    f'{ROOT}{ONE}<rules><class name="k"><![CDATA[0062]]>\n0063-0064<!-- 0061 -->\t</class>'
    '<rule name="r"><class by-ref="k"/></rule><action disp="invalid" match="r"/></rules></lgr>',
]

# What is refused in the data, by the line within these.
DATA = [
    (1, "charr: it can't stand in 'data'", '<charr cp="0061"/>'),
    (1, "the attribute 'points' can't stand here", '<char points="0061" cp="0061"/>'),
    (1, "it has no 'cp'", '<char tag="t"/>'),
    (0, "data: text in it", "<char cp='0061'/>,<char cp='0062'/>"),
    (1, "char: text in it", '<char cp="0061">a</char>'),
    *((2, "cp can't be", f'\n<char cp="{spelling}"/>') for spelling in (
        "", "61", "061", "0061062", "U+0061", "00e4", "0x61", "0061-0062", "0061,0062", "0061..0062", "0061 62",
        "0061\u00A00062")),
    (1, "110000 is no scalar value", '<char cp="110000"/>'),
    (1, "D800 is no scalar value", '<char cp="0061 D800"/>'),
    (3, "0063 is after 0062", '\n\n<range first-cp="0063" last-cp="0062"/>'),
    (1, "it has no 'last-cp'", '<range first-cp="0061"/>'),
    (1, "last-cp can't be ''", '<range first-cp="0061" last-cp=""/>'),
    (1, "first-cp can't be '0061 0062'", '<range first-cp="0061 0062" last-cp="0063"/>'),
    (1, "the attribute 'cp' can't stand here", '<range cp="0061" first-cp="0061" last-cp="0063"/>'),
    (1, "it can't stand in 'range'", '<range first-cp="0061" last-cp="0062"><var cp="0063"/></range>'),
    (1, "more than 65536 entries", '<range first-cp="10000" last-cp="20000"/>'),
    (2, "more than 65536 entries", '<range first-cp="10000" last-cp="1FFFF"/>\n<char cp="0061"/>'),
    (2, "0061 comes twice", '<char cp="0061"/>\n<char cp="0061"/>'),
    (2, "0062 comes twice", '<range first-cp="0061" last-cp="0063"/>\n<char cp="0062"/>'),
    (2, "0063 comes twice", '<range first-cp="0061" last-cp="0063"/>\n<range first-cp="0063" last-cp="0064"/>'),
    (2, "0061 0062 comes twice", '<char cp="0061 0062"/>\n<char cp="0061  0062"/>'),
    (1, "both 'when' and 'not-when'", '<char cp="0061" when="r" not-when="r"/>'),
    (2, "'q' isn't defined", '\n<char cp="0061" when="q"/>'),
    (2, "'k' isn't defined", '\n<range first-cp="0061" last-cp="0062" not-when="k"/>'),
    (1, "when can't be ''", '<char cp="0061" when=""/>'),
    (1, "when can't be 'r r'", '<char cp="0061" when="r r"/>'),
    (1, "tag can't be ''", '<char cp="0061" tag=""/>'),
    (1, "tag can't be 'a,b'", '<char cp="0061" tag="a,b"/>'),
    (1, "a tag comes twice", '<char cp="0061" tag="a b a"/>'),
    (1, "a sequence has a tag", '<char cp="0061 0062" tag="a"/>'),
    (2, "it has no 'cp'", '<char cp="0061">\n<var type="blocked"/></char>'),
    (2, "cp can't be '62'", '<char cp="0061">\n<var cp="62"/></char>'),
    (2, "the attribute 'tag' can't stand here", '<char cp="0061">\n<var cp="0062" tag="t"/></char>'),
    (2, "it can't stand in 'var'", '<char cp="0061">\n<var cp="0062"><var cp="0063"/></var></char>'),
    *((2, "type can't be", f'<char cp="0061">\n<var cp="0062" type="{kind}"/></char>') for kind in (
        "", "blocked ", " blocked", "two types", "_own", "a,b")),
    (2, "both 'when' and 'not-when'", '<char cp="0061">\n<var cp="0062" when="r" not-when="r"/></char>'),
    (2, "'q' isn't defined", '<char cp="0061">\n<var cp="0062" when="q"/></char>'),
    (3, "0062 comes twice", '<char cp="0061">\n<var cp="0062"/>\n<var cp="0062"/></char>'),
    (3, "0062 comes twice",
     '<char cp="0061">\n<var cp="0062" type="blocked"/>\n<var cp="0062" type="allocatable"/></char>'),
    (3, "0062 comes twice", '<char cp="0061">\n<var cp="0062" type="blocked"/>\n<var cp="0062" when="r"/></char>'),
    (3, "0062 comes twice", '<char cp="0061">\n<var cp="0062" when="r"/>\n<var cp="0062"/></char>'),
    (3, "0062 comes twice", '<char cp="0061">\n<var cp="0062" when="r" type="s"/>\n<var cp="0062" when="r"/></char>'),
]

# What is refused in the rules, by the line within these. Of the data one has the tag `t`.
ANCHORED = '<rule name="w"><anchor/></rule>\n'
RULES = [
    (1, "it can't stand in 'rules'", '<char cp="0061"/>'),
    # Classes.
    (1, "not one of", '<class name="c"></class>'),
    (1, "not one of", '<class name="c"> </class>'),
    (1, "not one of", '<class name="c" from-tag="t">0061</class>'),
    (1, "not one of", '<class name="c" property="gc:Ll">0061</class>'),
    (1, "both 'from-tag' and 'property'", '<class name="c" from-tag="t" property="gc:Ll"/>'),
    (2, "0063 is after 0061", '\n<class name="c">0063-0061</class>'),
    *((1, "are no code points", f'<class name="c">{text}</class>') for text in (
        "61", "0061-", "-0061", "0061-0062-0063", "0061..0062", "0061,0062", "0061 - 0062", "a", "00e4")),
    (1, "110000 is no scalar value", '<class name="c">0061-110000</class>'),
    (1, "nothing has the tag 'tt'", '<class name="c" from-tag="tt"/>'),
    (1, "from-tag can't be 't u'", '<class name="c" from-tag="t u"/>'),
    (1, "from-tag can't be ''", '<class name="c" from-tag=""/>'),
    (1, "the property 'age' isn't known", '<class name="c" property="age:5.0"/>'),
    (1, "the property 'Ll' isn't known", '<class name="c" property="Ll"/>'),
    (1, "'gc' has no value 'll'", '<class name="c" property="gc:ll"/>'),
    (1, "'sc' has no value 'Latinn'", '<class name="c" property="sc:Latinn"/>'),
    (1, "it can't stand in 'class'", '<class name="c"><class>0061</class></class>'),
    (1, "the attribute 'by-ref' can't stand here", '<class name="c" by-ref="k"/>'),
    (1, "it has no 'name'", "<class>0061</class>"),
    (1, "it has no 'name'", "<union><class>0061</class><class>0062</class></union>"),
    (1, "name can't be 'a b'", '<class name="a b">0061</class>'),
    (2, "the name 'k' comes twice", '<class name="k">0061</class>\n<class name="k">0061</class>'),
    (2, "the name 'k' comes twice", '<class name="k">0061</class>\n<rule name="k"><any/></rule>'),
    (1, "the attribute 'name' can't stand here", '<complement name="c"><class name="d">0061</class></complement>'),
    (1, "'d' isn't defined", '<complement name="c"><class by-ref="d"/></complement>'),
    (1, "'w' isn't defined", f'<complement name="c"><class by-ref="w"/></complement>{ANCHORED}'),
    (2, "'c' is part of itself", '<complement name="c">\n<class by-ref="c"/></complement>'),
    (2, "'c' is part of itself",
     '<complement name="c"><class by-ref="d"/></complement>\n<complement name="d"><class by-ref="c"/></complement>'),
    (1, "the attribute 'from-tag' can't stand here", '<rule name="r"><class by-ref="k" from-tag="t"/></rule>'),
    (1, "the attribute 'ref' can't stand here", '<rule name="r"><class by-ref="k" ref="1"/></rule>'),
    (1, "complement: nothing in it", '<complement name="c"/>'),
    *((1, "not what the schema has", f'<{name} name="c">{"<class>0061</class>" * count}</{name}>') for name, count in (
        ("complement", 2), ("union", 1), ("intersection", 1), ("intersection", 3), ("difference", 1), ("difference", 3),
        ("symmetric-difference", 3))),
    (1, "the attribute 'count' can't stand here",
     '<rule name="r"><complement><class count="2">0061</class></complement></rule>'),
    (1, "the attribute 'count' can't stand here", '<class name="c" count="2">0061</class>'),
    # Rules.
    (1, "it has no 'name'", "<rule><any/></rule>"),
    (1, "rule: nothing in it", '<rule name="r"/>'),
    (1, "rule: nothing in it", '<rule name="r"><rule/></rule>'),
    (1, "rule: text in it", '<rule name="r">0061</rule>'),
    (1, "the attribute 'by-ref' can't stand here", f'<rule name="r" by-ref="w"/>{ANCHORED}'),
    (1, "the attribute 'name' can't stand here", '<rule name="r"><rule name="s"><any/></rule></rule>'),
    (1, "'s' isn't defined", '<rule name="r"><rule by-ref="s"/></rule>'),
    (1, "'k' isn't defined", '<rule name="r"><rule by-ref="k"/></rule><class name="k">0061</class>'),
    (2, "'r' is part of itself", '<rule name="r"><any/>\n<rule by-ref="r"/></rule>'),
    (2, "'r' is part of itself", '<rule name="r"><rule by-ref="s"/></rule>\n<rule name="s"><rule by-ref="r"/></rule>'),
    (2, "it can't stand in 'rule'", f'{ANCHORED}<rule name="r"><rule by-ref="w"><any/></rule></rule>'),
    (1, "cp can't be ''", '<rule name="r"><char cp=""/></rule>'),
    (1, "the attribute 'tag' can't stand here", '<rule name="r"><char cp="0061" tag="t"/></rule>'),
    (1, "it can't stand in 'char'", '<rule name="r"><char cp="0061"><var cp="0062"/></char></rule>'),
    (1, "choice: nothing in it", '<rule name="r"><choice/></rule>'),
    (1, "choice: not what the schema has", '<rule name="r"><choice><any/></choice></rule>'),
    (1, "more than 4096 parts", "".join(f'<rule name="r{n}"><rule by-ref="r{n - 1}"/><rule by-ref="r{n - 1}"/></rule>'
                                         for n in range(1, 99)) + '<rule name="r0"><any/></rule>'),
    (-2, "too deep in others", "".join(f'<rule name="r{n}"><rule by-ref="r{n + 1}"/></rule>' for n in range(999))),
    # Counts.
    *((1, "count can't be", f'<rule name="r"><any count="{count}"/></rule>') for count in (
        "", "0", "+", "2:1", "0:0", ":2", "1:", "2-3", "-1", "1 ", "*", "1:2+", "\u0662")),
    *((1, "the attribute 'count' can't stand here", f'<rule name="r">{content}</rule>') for content in (
        '<start count="1"/>', '<end count="1"/>', '<anchor count="1"/>',
        '<look-behind count="2"><any/></look-behind><anchor/>')),
    (1, "the attribute 'count' can't stand here", '<rule name="r" count="2"><any/></rule>'),
    (1, "a count, and a start, end or anchor in it", '<rule name="r"><rule count="2"><start/><any/></rule></rule>'),
    (1, "a count, and a start, end or anchor in it", '<rule name="r"><choice count="0+"><end/><any/></choice></rule>'),
    (1, "a count, and a start, end or anchor in it", '<rule name="r"><rule count="1"><anchor/></rule></rule>'),
    (2, "a count, and a start, end or anchor in it", f'{ANCHORED}<rule name="r"><rule by-ref="w" count="2"/></rule>'),
    # Starts and ends.
    (1, "rule: not what the schema has", '<rule name="r"><any/><start/></rule>'),
    (1, "rule: not what the schema has", '<rule name="r"><end/><any/></rule>'),
    (1, "rule: not what the schema has", '<rule name="r"><start/><start/></rule>'),
    (1, "that isn't the first", '<rule name="r"><any/><rule><start/><any/></rule></rule>'),
    (1, "that isn't the first", '<rule name="r"><start/><choice><start/><any/></choice></rule>'),
    (2, "that isn't the first",
     '<rule name="s"><start/></rule>\n<rule name="r"><rule by-ref="s"/><rule by-ref="s"/></rule>'),
    (1, "that isn't the last", '<rule name="r"><choice><any/><rule><any/><end/></rule></choice><end/></rule>'),
    (1, "a start in it", '<rule name="r"><anchor/><look-ahead><start/></look-ahead></rule>'),
    (1, "an end in it", '<rule name="r"><look-behind><any/><end/></look-behind><anchor/></rule>'),
    # Anchors.
    *((1, "rule: not what the schema has", f'<rule name="r">{content}</rule>') for content in (
        "<look-behind><any/></look-behind>", "<look-ahead><any/></look-ahead>", "<anchor/><anchor/>",
        "<any/><look-behind><any/></look-behind><anchor/>", "<anchor/><look-behind><any/></look-behind>",
        "<look-ahead><any/></look-ahead><anchor/>", "<look-behind><any/></look-behind><any/><anchor/>",
        "<anchor/><any/><look-ahead><any/></look-ahead>", "<anchor/><look-ahead><any/></look-ahead><any/>",
        "<look-behind><any/></look-behind><look-behind><any/></look-behind><anchor/>", "<start/><anchor/>",
        "<anchor/><end/>")),
    (1, "nothing in it", '<rule name="r"><look-behind/><anchor/></rule>'),
    (1, "it can't stand in 'choice'", '<rule name="r"><choice><anchor/><any/></choice></rule>'),
    (1, "it can't stand in 'look-behind'", '<rule name="r"><look-behind><anchor/></look-behind><anchor/></rule>'),
    (2, "an anchor in it", f'{ANCHORED}<rule name="r"><look-behind><rule by-ref="w"/></look-behind><anchor/></rule>'),
    (2, "more than one anchor", f'{ANCHORED}<rule name="r"><rule by-ref="w"/><rule by-ref="w"/></rule>'),
    (2, "an anchor in some of its parts", f'{ANCHORED}<rule name="r"><choice><rule by-ref="w"/><any/></choice></rule>'),
    (1, "that isn't the first", '<rule name="r"><any/><rule><look-behind><any/></look-behind><anchor/></rule></rule>'),
    (1, "that isn't the last", '<rule name="r"><rule><anchor/><look-ahead><any/></look-ahead></rule><any/></rule>'),
    # Actions.
    (1, "it has no 'disp'", "<action/>"),
    (1, "the disposition 'review'", '<action disp="review"/>'),
    (1, "disp can't be 'valid '", '<action disp="valid "/>'),
    (1, "the attribute 'name' can't stand here", '<action name="a" disp="valid"/>'),
    (1, "it can't stand in 'action'", '<action disp="valid"><any/></action>'),
    (2, "'r' isn't defined", '\n<action disp="invalid" match="r"/>'),
    (2, "'k' isn't defined", '<class name="k">0061</class>\n<action disp="invalid" not-match="k"/>'),
    (2, "the rule 'w' has an anchor", f'{ANCHORED}<action disp="invalid" match="w"/>'),
    (2, "both 'match' and 'not-match'", f'{ANCHORED}<action disp="invalid" match="w" not-match="w"/>'),
    (1, "both 'any-variant' and 'all-variants'", '<action disp="valid" any-variant="a" all-variants="a"/>'),
    (1, "both 'all-variants' and 'only-variants'", '<action disp="valid" all-variants="a" only-variants="a"/>'),
    (1, "any-variant can't be ''", '<action disp="valid" any-variant=""/>'),
    (1, "any-variant can't be 'a,b'", '<action disp="valid" any-variant="a,b"/>'),
]
