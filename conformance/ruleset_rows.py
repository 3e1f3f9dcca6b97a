"""Worked rows of version 3: rulesets, and what a run must answer under them, worked out by hand.

The version line is left out of the rulesets here, except where a text is given as it stands.
"""

from idn2_registry.notation.faults import TEXTS
from reference_run import TEXTS as REFUSALS

VERSION_LINE = "%version 3\n"

HYPHEN_WITHIN = "%rule edge ^ _ / _ $ / ^ . . _\n0061..007A\n002D unless edge\n"
VOWEL_SIGNS = "%set C 0915..0939\n%rule sign @C 093C? _\n0915..0939\n093C when sign\n093E..0940 when sign\n"
BLOCKED_CONSONANT = "%set C 0915..0939\n%rule sign @C _\n0905\n0915|!0905\n0916..0939\n093E when sign\n"
LEADING_VOWELS = "%set C 0E01..0E2E\n%rule lead _ @C\n0E01..0E2E\n0E40..0E44 when lead\n"
ONE_KIND_OF_DIGITS = ("%set ascii 0030..0039\n%set deva 0966..096F\n%never @ascii .* @deva / @deva .* @ascii\n"
                      "0915..0939\n0030|!0966\n0966|!0030\n0031|!0967\n0967|!0031\n")
NEVER_AT_THE_END = "%never 0062 $\n0061|!0062\n0062\n"
SOME_KANA = "%set kana 3041..3096 30A1..30FA\n%always @kana\n3041..3096\n4E00..9FFF\n"
A_TYPE_OF_ITS_OWN = ("%type own\n%type both\n%type trad\n%action allocatable all own\n%action allocatable all both,trad\n"
                     "%action blocked any own,both,trad\n0061 as own|0062 as both:!0063:0064 as trad\n0062..0065\n")
FINAL_SIGMA = "%rule end _ $\n03B1..03C1\n03C3|03C2 when end\n03C2|03C3\n03C4..03C9\n"
FINAL_TEH = "%rule end _ $\n0647|!0629 unless end:0629 when end\n0629\n"
RRA_AND_HALANT = ("%set C 0915..0930 0932..0939\n%rule halant @C _\n%rule ya _ 092F / _ 0939\n0915..0930\n0932..0939\n"
                  "0931-094D when ya\n094D when halant\n")
CONSONANTS_BY_TURNS = "%set C 0061..0063\n%rule x ^ (@C 0068)* @C _\n0061..0063\n0068\n0065 when x\n"
ENDS_IN_PAIRS = "%never (^ / 0062) 0061 (0063 0063)* $\n0061..0063\n"
ALWAYS = "%rule always _\n0061 when always\n0062 unless always\n"
DEAD = "%rule x 0061 _\n0061|!0063\n0063\n0062 when x\n"

# The ruleset, and for each label the words, the label, and the lines that are listed, their fields parted by blanks here;
# or the number by which the label is refused.
LISTINGS = [
    # What version 2 says is said the same, where each variant is a source.
    ("0061..0063\n0078|!0079:007A\n0079..007A\n", [([], "ax", "ax ax allocatable, ay ay blocked, az az allocatable, #end 3")]),
    ("0061\n", [([], "b", 40)]),
    # A condition: vowel signs follow a consonant.
    (VOWEL_SIGNS, [
        ([], "का", "का xn--11b6f allocatable, #end 1"),
        ([], "काा", 41),
        ([], "क़ा", "क़ा xn--11b2fg allocatable, #end 1"),
        ([], "कााa", 40)]),
    # Each variant is a label of its own.
    (BLOCKED_CONSONANT, [
        ([], "का", "का xn--11b6f allocatable, #end 1"),
        ([], "कख", "अख xn--l1b8a blocked, कख xn--11bc allocatable, #end 2")]),
    # What stands after it.
    (LEADING_VOWELS, [([], "เก", "เก xn--12c9j allocatable, #end 1"), ([], "กเ", 41), ([], "เเก", 41)]),
    # Both sides, ends of a label, alternatives.
    ("%rule dot 006C _ 006C\n0061..007A\n00B7 when dot\n", [
        ([], "col·lega", "col·lega xn--collega-xma allocatable, #end 1")]),
    (HYPHEN_WITHIN, [
        ([], "a-b", "a-b a-b allocatable, #end 1"),
        ([], "ab-c", 41),
        ([], "abc-d", "abc-d abc-d allocatable, #end 1"),
        ([], "a-", 13)]),
    # The whole label: digits of one kind.
    (ONE_KIND_OF_DIGITS, [
        ([], "01", "01 01 allocatable, ०१ xn--d4bc blocked, #end 2"),
        ([], "0१", 41),
        (["--tries", "2"], "01", "01 01 allocatable, ०१ xn--d4bc blocked, #stop 2 ०१"),
        (["--tries", "3"], "01", "01 01 allocatable, ०१ xn--d4bc blocked, #end 2"),
        (["--tries", "3"], "0" * 20, f"{'0' * 20} {'0' * 20} allocatable, {'०' * 20} xn--d4b{'a' * 19} blocked, #end 2")]),
    # An end in a pattern; some code point of a set; at most one.
    (NEVER_AT_THE_END, [
        ([], "aa", "aa aa allocatable, ba ba blocked, #end 2"),
        (["--tries", "3"], "aa", "aa aa allocatable, ba ba blocked, #stop 2 ba"),
        (["--tries", "5"], "aa", "aa aa allocatable, ba ba blocked, #end 2")]),
    (SOME_KANA, [([], "日の", "日の xn--u9ju32n allocatable, #end 1"), ([], "日本", 41)]),
    ("%never 0061 .* 0061\n0061..007A\n", [([], "aba", 41)]),
    # A label with a reflexive type, and variants of which one goes with both others.
    (A_TYPE_OF_ITS_OWN, [
        ([], "aae", "aae aae allocatable, abe abe blocked, ace ace blocked, ade ade blocked, bae bae blocked, "
                    "bbe bbe allocatable, bce bce blocked, bde bde allocatable, cae cae blocked, cbe cbe blocked, "
                    "cce cce blocked, cde cde blocked, dae dae blocked, dbe dbe allocatable, dce dce blocked, "
                    "dde dde allocatable, #end 16")]),
    # An out-of-repertoire variant that may not end a label.
    ("%rule end _ $\n0061|!0430\n0062\n!0430 unless end\n", [
        ([], "aba", "aba aba allocatable, аba xn--ba-6kc blocked, #end 2")]),
    # Conditions of variants.
    (FINAL_SIGMA, [
        ([], "σοφοσ", "σοφος xn--0xaajbq allocatable, σοφοσ xn--0xaakcn allocatable, #end 2"),
        ([], "σοφος", "σοφος xn--0xaajbq allocatable, σοφοσ xn--0xaakcn allocatable, #end 2"),
        ([], "ςα", "ςα xn--mxa7a allocatable, σα xn--mxa9a allocatable, #end 2"),
        ([], "σα", "σα xn--mxa9a allocatable, #end 1")]),
    (FINAL_TEH, [
        ([], "هه", "ةة xn--ogba blocked, ةه xn--ogb4d blocked, هة xn--ogb3d allocatable, هه xn--jhba allocatable, #end 4")]),
    ("%rule x 0061 _\n0061|0062\n0063|0064 when x\n0062\n0064\n", [
        ([], "ac", "ac ac allocatable, ad ad allocatable, bc bc allocatable, bd bd allocatable, #end 4")]),
    # Sources of several code points.
    (RRA_AND_HALANT, [
        ([], "कऱ्य", "कऱ्य xn--11b6cf6i allocatable, #end 1"),
        ([], "कऱ्क", 41),
        ([], "ऱक", 40)]),
    # A code point keeps its condition where it arises in a variant. A variant that is made of no sources is not listed.
    ("%rule x 0061 _\n0061\n0063|0062\n0062 when x\n", [
        ([], "acc", "abc abc allocatable, acc acc allocatable, #end 2")]),
    ("%rule x 0061 _\n0061\n0063|0062-0062:0062-0061\n0062 when x\n", [
        ([], "ac", "aba aba allocatable, ac ac allocatable, #end 2")]),
    ("%rule x 0061 _\n0061\n0063|0062-0064\n0062 when x\n", [
        ([], "cc", "cc cc allocatable, #end 1")]),
    # Groups and stars.
    (CONSONANTS_BY_TURNS, [([], "ahbhce", "ahbhce ahbhce allocatable, #end 1"), ([], "aabe", 41)]),
    (ENDS_IN_PAIRS, [([], "acb", "acb acb allocatable, #end 1"), ([], "cbacc", 41)]),
    (ALWAYS, [([], "aa", "aa aa allocatable, #end 1"), ([], "ab", 41)]),
    # A beginning that the conditions of sources rule out is not tested.
    (DEAD, [
        ([], "abb", 41),
        ([], "aba", "aba aba allocatable, abc abc blocked, #end 2"),
        (["--tries", "3"], "aba", "aba aba allocatable, abc abc blocked, #end 2"),
        (["--tries", "2"], "aba", "aba aba allocatable, abc abc blocked, #stop 2 abc")]),
    # Ranges with '!' and with a condition.
    ("%rule r 0061 _\n0061\n!0062..0063 when r\n0064|!0063\n", [
        ([], "ad", "ac ac blocked, ad ad allocatable, #end 2")]),
    ("%rule r 0061 _\n0061\n0062..0063 when r\n", [([], "ca", 41)]),
]

CONDITIONS = "%rule r _ 0062\n%rule s 0062 _\n"
# As many entries as there may be.
FULL = "4E00..9FFF\nAC00..D7A3\n20000..2825B\n"

# As many types of the file's own as there may be, and a quarter of all rules.
TYPES = "".join(f"%type t{each}\n" for each in range(57))
RULES = "".join(f"%rule r{each} _\n%whole w{each} .\n" for each in range(32))

# All atoms that the patterns of a ruleset may have, but six.
SIX_ATOMS_LEFT = "%set C 0061\n%rule start _\n%never" + " ." * 4000 + "\n%always" + " ." * 90 + "\n"

# A ruleset, and what the check of it prints.
CHECKS = [
    ("0061..0063\n0078|!0079:007A\n", "missing 0079|0078\nmissing 007A|0078\n#table 4 2\n"),
    (FINAL_TEH, "missing 0629|0647\n#table 2 1\n"),
    (FINAL_SIGMA, "differs 03C2|03C3\n#table 25 0\n"),
    (CONDITIONS + "0061|0063 when r:0063 when s:!0063 unless r\n0063|0061\n", "differs 0061|0063\n#table 2 0\n"),
    # Conditions are a set, and those of sources and types are none of them.
    (CONDITIONS + "0061|0063 when r:0063 unless s\n0063|0061 unless s:!0061 when r\n", "#table 2 0\n"),
    (CONDITIONS + "0061 as valid when r|!0063\n0063 unless s|0061 as valid\n", "#table 2 0\n"),
    (CONDITIONS + "0061|0063 when r:0063 when s\n0063|0061 when s\n", "differs 0061|0063\n#table 2 0\n"),
    (CONDITIONS + "0061|0063 when r\n0063|0061 unless r\n", "differs 0061|0063\n#table 2 0\n"),
    (CONDITIONS + "0061|0063 when r\n0063|0061 when s\n", "differs 0061|0063\n#table 2 0\n"),
    # In the order of their sequences, each once, after the gaps; a pair that lacks its reverse is a gap alone.
    (CONDITIONS + "00DF|0073-0073:0061 when s\n0073-0073|00DF when r:0061\n0061|0073-0073 unless s:00DF when s\n",
     "differs 0061|0073-0073\ndiffers 0073-0073|00DF\n#table 3 0\n"),
    (CONDITIONS + "0063|0061 when r\n0061|0063:0062 when s\n0062\n",
     "missing 0062|0061\nmissing 0063|0062\ndiffers 0061|0063\n#table 3 2\n"),
    # Types that no action names, though a variant has one; a predefined type is never idle.
    ("0061 as valid|!0062\n", "missing 0062|0061\n#table 1 1\n"),
    ("%type s\n%type t\n0061|0062 as s\n", "missing 0062|0061\nidle s\nidle t\n#table 1 1\n"),
    ("%type s\n%type t\n%type u\n%action blocked any u,s\n", "idle t\n#table 0 0\n"),
    ("%type s\n%type t\n%action valid all t\n%action allocatable only s\n", "#table 0 0\n"),
    ("%type t\n%type s\n%whole r 0061\n%action invalid when r\n%action blocked any valid\n", "idle t\nidle s\n#table 0 0\n"),
    ("0061..0063\n", "#table 3 0\n"),
    ("  %set\tC 0061 .. 0063\n ! 0061 | ! 0062\n0062\n", "missing 0062|0061\n#table 2 1\n"),
    ("", "#table 0 0\n"),
    # The ends of a span may be in a label; what is between them need not be.
    ("%set C 0900..097F\n%set D 0061..00E4\n", "#table 0 0\n"),
    # Names are no words of the notation.
    ("%set A 0061\n%rule r _ 0062\n%whole a .\n%rule R _\n%set abcd 0061\n%rule U _ @abcd\n", "#table 0 0\n"),
    ("%type as\n%type any\n%rule when _\n%whole unless .\n%action valid unless unless any any,as\n0061 as as when when\n",
     "#table 1 0\n"),
    # Limits that are just kept.
    (TYPES + f"%action valid any {','.join(f't{each}' for each in range(57))}\n", "#table 0 0\n"),
    ("".join(f"%set s{each} 0061\n" for each in range(256)), "#table 0 0\n"),
    ("%never .\n%always .\n%action valid\n" * 64 + RULES, "#table 0 0\n"),
    (f"%never {'0061 ' * 1024}\n" * 4, "#table 0 0\n"),
    ("%never " + "(" * 8 + "0061" + ")" * 8 + "\n%never ((0061* 0062)* 0063)\n", "#table 0 0\n"),
    ("%never " + "(0061)" * 1169 + "\n", "#table 0 0\n"),
    ("%rule r ((((((((0061)))))))) _\n%rule s (0061*)* _ ((.*)? $)*\n%never (0061* (0062*)*) 0063*\n", "#table 0 0\n"),
    (SIX_ATOMS_LEFT + "%never 0061 (0062) ^ . $\n", "#table 0 0\n"),
    (SIX_ATOMS_LEFT + "%rule abcd 0061? . . _ . . .*\n", "#table 0 0\n"),
    (SIX_ATOMS_LEFT + "%whole abcd 0061? . . / . . .*\n", "#table 0 0\n"),
    (SIX_ATOMS_LEFT + "%set abcd 0061 0062 0063..0069\n%never . . .\n%rule r . . _ $\n", "#table 0 0\n"),
    (FULL, "#table 65536 0\n"),
    ("#" * 8192 + "\n0061\n", "#table 1 0\n"),
    (("#" * 8191 + "\n") * 1023 + "#" * 8180 + "\n", "#table 0 0\n"),
]

# Definitions that the lines of the next three stand after, which so are on line 6.
DEFINED = "%type t\n%type v\n%set A 0061\n%rule r _ 0062\n"
OF_NO_FORM = [
    "%set C", "%set C 0062 0061", "%set C 0061..0063 0063", "%set C 0063..0061", "%set C @A", "%set C 61", "%set 9c 0061",
    "%set C-D 0061", "%set", "%type " + "n" * 33, "%rule s @A", "%rule s @A _ _", "%rule s _ / @A",
    "%rule s (_)", "%rule s $ _", "%rule s (@A / $) _", "%rule s _ ^", "%rule s", "%rule s 0061..0062 _",
    "%rule s 0061-0062 _", "%never", "%never @A _", "%never ()", "%never (@A", "%never @A)", "%never @A /", "%never ^*",
    "%never @A**", "%never *", "%never @A@A", "%never ..", "%never @", "%always / @A", "%never A",
    "0061 as t,t", "0061 as t v", "0061 when r as t", "0061 when r unless r", "0061 when",
    "0061 when r|", "when r", "0061-when", "0061|0062..0063", "0061-0062..0063", "!!0061", "0061|", "0061,0062", "0061 # a",
]
OF_NO_NAME = [
    "%rule s @B _", "%rule s @r _", "%never (@A @B)", "0061 when s", "0061 when A", "0061 as u", "0061 as r",
    "0061|0062 unless s", "0061|0062 as u", "0061..0063 when s",
]
OF_A_NAME_GIVEN_TWICE = ["%type t", "%type A", "%set t 0061", "%set r 0061", "%rule A _", "%rule r _"]

# A ruleset, with the line and the number of its first fault.
FAULTS = [
    *((DEFINED + line, 6, 30) for line in OF_NO_FORM),
    *((DEFINED + line, 6, 35) for line in OF_NO_NAME),
    *((DEFINED + line, 6, 36) for line in OF_A_NAME_GIVEN_TWICE),
    ("%never @A\n%set A 0061\n", 2, 35), ("%version 3\n", 2, 30), ("%Set C 0061\n", 2, 30), ("% set C 0061\n", 2, 30),
    # Equal variants.
    (CONDITIONS + "0061|0063 when r:0063\n", 4, 32), (CONDITIONS + "0061|0063:!0063 unless r\n", 4, 32),
    (CONDITIONS + "0061|0063 when r:!0063 when r\n", 4, 32), (CONDITIONS + "0061|0061 when r\n", 4, 32),
    (CONDITIONS + "0061 when r\n0061 when s\n", 5, 31),
    # The first of a line's faults, in their order.
    ("0041 when nope\n", 2, 35), ("%never @nope 0041\n", 2, 35), ("%set C 0041\n", 2, 33), ("%never 0041\n", 2, 33),
    ("%never " + "(" * 9 + "@nope" + ")" * 9 + "\n", 2, 34), ("%type t\n%rule t @nope _\n", 3, 35),
    ("%rule r 0041 _\n", 2, 33), ("%set t 0061\n%set t 0041\n", 3, 33), ("0061\n0061|0062:0062\n", 3, 32),
    ("0062\n0061..0063\n", 3, 31), ("%set D 0041..007A\n", 2, 33), ("-".join(["0041"] * 9) + " when nope\n", 2, 34),
    # A name is defined before the line that uses it.
    ("% type t\n", 2, 30), ("%Type t\n", 2, 30), ("%set C 0062 0061\n", 2, 30),
    ("%rule r @A\n", 2, 30), ("0061 as t\n%type t\n", 2, 35), ("0061 when r\n%rule r _\n", 2, 35),
    ("%action valid any t\n%type t\n", 2, 35), ("%action valid when w\n%whole w .\n", 2, 35),
    ("%rule r _\n0061 when r\n0061..0062 when s\n", 4, 35), ("%always ^*\n", 2, 30), ("%rule r @A _\n%set A 0061\n", 2, 35),
    ("%set A 0061\n%rule A _\n", 3, 36), ("%type t\n\n%type t\n", 4, 36), ("%set A 0041\n", 2, 33),
    ("%rule r @A 0041 _\n", 2, 35), ("%rule r ((0061*)*)* @A _\n", 2, 34),
    # Limits that are passed.
    ("".join(f"%set s{each} 0061\n" for each in range(257)), 258, 34),
    ("%never .\n%always .\n%action valid\n" * 64 + RULES + "%never .\n", 258, 34),
    (SIX_ATOMS_LEFT + "%whole w . . . . . . .\n", 6, 34),
    (f"%never {'0061 ' * 1024}\n" * 4 + "%rule r ^ _\n", 6, 34),
    ("%never " + "(" * 9 + "0061" + ")" * 9 + "\n", 2, 34), ("%never ((0061* 0062)* 0063)*\n", 2, 34),
    ("%never " + "(0061)" * 1170 + "\n", 2, 34), ("%never " + "(" * 2000 + "0061" + ")" * 2000 + "\n", 2, 34),
    (FULL + "0061\n", 5, 34), ("0000..10FFFF\n", 2, 34), ("#" * 8193 + "\n", 2, 34),
    (("#" * 8191 + "\n") * 1024, 1025, 34),
    # The last line ends one byte past what a text may have, so that byte has to be read.
    (("#" * 8191 + "\n") * 1023 + "#" * 8180 + "\n\n", 1026, 34),
]

# A text as it stands, the option that names its file, and the line with the fault of syntax.
AS_THEY_STAND = [
    ("%version 4\n", "--check-ruleset", 1), ("%version 2\n0061\n", "--check-ruleset", 1), ("0061\n", "--check-ruleset", 1),
    ("# a\n%version 3\n", "--check-ruleset", 1), ("", "--check-ruleset", 1), ("%version 2\n0061\n", "--ruleset", 1),
    ("%version 3\n0061\n", "--check-table", 1), ("%version 3\n0061\n", "--variants", 1), ("# a\n%version 3\n", "--check-table", 2),
    ("%version 2\n%set C 0061\n", "--check-table", 2), ("%version 2\n%version 3\n", "--check-table", 2),
    ("%version 2\n0061 when r\n", "--check-table", 2), ("%version 2\n0061 as t\n", "--check-table", 2),
    ("%version 2\n!0061|0062\n", "--check-table", 2), ("%version 2\n%never 0061\n", "--check-table", 2),
]

# A ruleset, and how it is printed, as that is, too.
CANONICAL = [
    (" %set\tC  0061..0061 0062 .. 0064\n", "%set C 0061 0062..0064\n"),
    ("0062\n%rule r u+0061  ( 00e4/. )? _/_ $\n0063..0064  when r\n%type t\n0065 as t unless r | ! 0061 - 0061:00E4 as t\n",
     "%type t\n%rule r 0061 (00E4 / .)? _ / _ $\n0062\n0063 when r\n0064 when r\n"
     "0065 as t unless r|!0061-0061:00E4 as t\n"),
    ("%set C 0061\n%always @C*(^/(.)*)$\n! 0061|0062\n", "%set C 0061\n%always @C* (^ / (.)*) $\n!0061|0062\n"),
    ("%type t\r\n", "%type t\n"),
    ("# %never 0061\n%type T\n%type t\n", "%type T\n%type t\n"),
    ("0061|!0062\n%rule end _$\n  %type\tt\n!0063..0064\n%set A u+0061 0062 .. 0063\n%rule r @A?_/^_",
     "%type t\n%set A 0061 0062..0063\n%rule end _ $\n%rule r @A? _ / ^ _\n0061|!0062\n!0063\n!0064\n"),
    ("%set A 0900..097F\n%rule r (@A .)* _ (0061 / @A)", "%set A 0900..097F\n%rule r (@A .)* _ (0061 / @A)\n"),
    # Definitions come first, by their kind.
    ("%set A u+0061 0065..0069\n%rule r _ @A/^ _\n%always @A.*\n %type  t1\n%set B 0064 .. 0066\n%never\t( 0030/0031 )* @B\n",
     "%type t1\n%set A 0061 0065..0069\n%set B 0064..0066\n%rule r _ @A / ^ _\n%always @A .*\n%never (0030 / 0031)* @B\n"),
    ("0061\n%always 0061*\n%never ^ 0061/0061  $\n%type t", "%type t\n%always 0061*\n%never ^ 0061 / 0061 $\n0061\n"),
    ("%type simp\n%type trad\n4E2D\n56FD as simp|570B as trad\n570B as  trad|56FD as simp",
     "%type simp\n%type trad\n4E2D\n56FD as simp|570B as trad\n570B as trad|56FD as simp\n"),
    # A type without a line of its own, by its name and, where a mark says as much, by that.
    ("0061 as allocatable|0062 as blocked:0063 as invalid\n0062 as invalid|!0063\n0063 as blocked",
     "0061 as allocatable|!0062:0063 as invalid\n!0062|!0063\n0063 as blocked\n"),
    ("%type own\n0061 as own|0062 as valid : 0063 as  activated", "%type own\n0061 as own|0062 as valid:0063 as activated\n"),
    ("%type t\n0061..0062 as t\n%rule r 0061 _\n!0063..0064 when r",
     "%type t\n%rule r 0061 _\n0061 as t\n0062 as t\n!0063 when r\n!0064 when r\n"),
    ("%rule r _ 0062\n%rule s 0062 _\n0061|0063 when r:0063 when s:!0063 unless r\n0063|0061",
     "%rule r _ 0062\n%rule s 0062 _\n0061|0063 when r:0063 when s:!0063 unless r\n0063|0061\n"),
    ("%type t\n%rule s _\n0061 as t unless s|0062 as t when s", "%type t\n%rule s _\n0061 as t unless s|0062 as t when s\n"),
    # A rule of a whole label may be a condition, too.
    ("%whole all 0061\n0061 when all|0062 unless all", "%whole all 0061\n0061 when all|0062 unless all\n"),
]


def rows():
    """The words, the input, the files and what must be answered: output, messages, status."""
    for ruleset, labels in LISTINGS:
        for words, label, wanted in labels:
            yield ["--ruleset", "table", *words], label + "\n", {"table": VERSION_LINE + ruleset}, answer(wanted)
    for ruleset, output in CHECKS:
        files = {"table": VERSION_LINE + ruleset}
        yield ["--check-ruleset", "table"], "", files, (output, "", 0 if output.startswith("#table") else 1)
    for ruleset, wanted in CANONICAL:
        for text in (ruleset, wanted):
            yield ["--print-ruleset", "table"], "", {"table": VERSION_LINE + text}, (VERSION_LINE + wanted, "", 0)
    faulty = [(VERSION_LINE + ruleset, "--check-ruleset", line, number) for ruleset, line, number in FAULTS]
    for text, option, line, number in [*faulty, *((text, option, line, 30) for text, option, line in AS_THEY_STAND)]:
        words = [] if option.startswith("--check") else ["a"]
        yield [option, "table", *words], "", {"table": text}, ("", f"idn2: table line {line}: {number} {TEXTS[number]}\n", 2)


def answer(wanted):
    """Output, messages and status of a listing of one label."""
    if isinstance(wanted, int):
        return "", f"idn2: line 1: {wanted} {REFUSALS[wanted]}\n", 1
    lines = [line if line.startswith("#") else line.replace(" ", "\t") for line in wanted.split(", ")]
    return "".join(line + "\n" for line in lines), "", 0
