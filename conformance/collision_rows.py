"""Worked rows of collisions: what `--among` and `--jump` answer under tables of each version."""

from idn2_registry.notation.faults import TEXTS

SIGMA = "%version 3\n%rule end _ $\n03B1..03C1\n03C3|03C2 when end\n03C2|03C3\n03C4..03C9\n"
SHARP = ("%version 3\n%rule edge ^ _ / _ $ / ^ . . 002D _\n002D unless edge\n0061..007A\n"
         "0073-0073|00DF\n00DF|0073-0073\n")
KINDS = ("%version 3\n%type simp\n%type r_simp\n%type trad\n%type r_trad\n%action allocatable all simp,r_simp\n"
         "%action allocatable all trad,r_trad\n%action blocked any simp,trad\n56FD as r_simp|570B as trad\n"
         "570B as r_trad|56FD as simp\n5B66 as r_simp|5B78 as trad\n5B78 as r_trad|5B66 as simp\n")
INVALID = "%version 3\n0061|!0430\n0062\n!0430|!0061\n"
DIGITS = ("%version 3\n%set ascii 0030..0039\n%set native 0966..096F\n%never @ascii .* @native / @native .* @ascii\n"
          "0031|!0967\n0967|!0031\n")
HIDDEN = "%version 3\n%rule start ^ _\n0061 when start|0062\n0062\n"
OVER = "%version 3\n%rule last _ $\n0061|0063\n0062\n0063\n0061-0062 when last|0064\n0064\n"
# A gap; a variant that no label may have alone; two gaps side by side; a gap of version 2; a variant with a hyphen.
GAP, PIECE, CHAIN = "0061|0062\n0062\n", "0061|0062-0063\n0078\n", "0061|0062\n0062\n0063|0064\n0064\n"
ONE_WAY, HYPHENS = "%version 2\n0061|!0062\n0062\n0063\n", "%version 2\n002D|0062\n0061\n0062|002D\n"
NOT_MADE = "idn2: line 1: 40 not made of table entries\n"
NOT_VALID = "idn2: line 1: 41 not valid under the table\n"


def crowd(count):
    """So many sources that have one variant."""
    return "0061\n" + "".join(f"{point:04X}|0061\n" for point in range(0x4E00, 0x4E00 + count))


# A table, more words, the registered labels, the lines, and what is answered, with messages. A comma ends a line, and a
# blank stands for a tab.
AMONG = [
    # A condition of a variant holds in one of the two labels.
    (SIGMA, [], "ςα", "σα", "ςα xn--mxa7a none allocatable,#end 1", ""),
    (SIGMA, [], "σα", "ςα", "σα xn--mxa9a allocatable none,#end 1", ""),
    # A gap.
    (GAP, [], "a b", "b", "a a none variant,b b variant variant,#end 2", ""),
    (ONE_WAY, [], "ac bc", "bc ac", "ac ac none blocked,bc bc allocatable allocatable,#end 2,"
     "ac ac allocatable allocatable,bc bc blocked none,#end 2", ""),
    # Sequences, also where their segmentations overlap: neighbours of one label are no variants of each other.
    (SHARP, [], "haus strasse", "straße maus", "strasse strasse allocatable allocatable,#end 1,#end 0", ""),
    (SHARP, [], "sss sß ßs", "sß", "sss sss allocatable allocatable,sß xn--s-qfa allocatable allocatable,#end 2", ""),
    # A mixture of which a pure variant is registered, and the other way round.
    (KINDS, [], "国学 國學", "国學", "国学 xn--vcso6h allocatable blocked,國學 xn--9csw6h allocatable blocked,#end 2", ""),
    (KINDS, [], "国学 国學 國學", "国学",
     "国学 xn--vcso6h allocatable allocatable,国學 xn--vcs27h blocked allocatable,"
     "國學 xn--9csw6h allocatable allocatable,#end 3", ""),
    # A registered label that the table refuses: by a default action, since it is made of no sources, by a demand, by a
    # condition of a source.
    (INVALID, [], "ab аb", "ab", "ab ab allocatable allocatable,аb xn--b-7sb blocked blocked,#end 2", ""),
    (INVALID, [], "ab", "аb", "", NOT_VALID),
    (PIECE, [], "ax bcx", "ax", "ax ax variant variant,bcx bcx variant none,#end 2", ""),
    (PIECE, [], "ax", "bcx", "", NOT_MADE),
    (DIGITS, [], "11 1१ ११", "11",
     "11 11 allocatable allocatable,1१ xn--1-jzd blocked blocked,११ xn--e4ba blocked blocked,#end 3", ""),
    (SHARP, [], "aß--b\told", "ass--b", "aß--b xn--a--b-vna blocked blocked,#end 1", ""),
    (DIGITS, [], "11 1१\told ११", "11",
     "11 11 allocatable allocatable,1१ xn--1-jzd blocked blocked,११ xn--e4ba blocked blocked,#end 3", ""),
    (HIDDEN, [], "ba", "bb", "ba ba none blocked,#end 1", ""),
    (HIDDEN, [], "ab", "bb", "ab ab none allocatable,#end 1", ""),
    # What is near need not collide: pairs of both directions, or a longer source in the way of one.
    (CHAIN, [], "bc", "ad", "#end 0", ""),
    (CHAIN, [], "ac ad bc bd", "bd",
     "ac ac none variant,ad ad none variant,bc bc none variant,bd bd variant variant,#end 4", ""),
    (OVER, [], "aba", "da cba", "#end 0,aba aba none allocatable,#end 1", ""),
    (HYPHENS, [], "ab-ba abbba", "abbba",
     "ab-ba ab-ba allocatable allocatable,abbba abbba allocatable allocatable,#end 2", ""),
    (HYPHENS, [], "ab--a\told ab-ba abbba", "abbba",
     "ab--a ab--a blocked blocked,ab-ba ab-ba allocatable allocatable,abbba abbba allocatable allocatable,#end 3", ""),
    (SHARP, ["--limit", "1"], "sss sß ßs", "sss", "sss sss allocatable allocatable,#stop 1 sss", ""),
    (SHARP, ["--after", "sss"], "sss sß ßs", "sss",
     "sß xn--s-qfa allocatable allocatable,ßs xn--s-pfa allocatable allocatable,#end 2", ""),
    # Without the label itself.
    (SHARP, ["--others"], "sss sß ßs", "sss haus sß",
     "sß xn--s-qfa allocatable allocatable,ßs xn--s-pfa allocatable allocatable,#end 2 sss,"
     "sss sss allocatable allocatable,#end 1 sß", ""),
    (SHARP, ["--others", "--limit", "1"], "sss sß ßs", "sss", "sß xn--s-qfa allocatable allocatable,#stop 1 sß sss", ""),
]

# The registered labels, and how the file is refused: an old label has its capital, or is the name of another one; one
# that may not be registered has no mark; two labels are out of order.
REFUSED = [
    ("Strasse\told", "registered line 1: 10 disallowed code point"),
    ("xn--fa-hia\told", "registered line 1: 13 hyphen out of place"),
    ("ab--c", "registered line 1: 13 hyphen out of place"),
    ("b a\told", "registered line 2: 4 out of order"),
]

JUMPS = [
    (SIGMA, "σα,σα ς,σα σα,σα σβ", "ςα none allocatable,ςα none allocatable,σα allocatable allocatable,#end"),
    (GAP, "b,b b,a b", "a none variant,b variant variant,b variant none"),
    (CHAIN, "ad,ad ac,ad bc,ad bd", "ac none variant,ac none variant,bc none none,bd variant none"),
    (SHARP, "aß a,aß ast,aß b,ss ß",
     "ass allocatable allocatable,aß allocatable allocatable,#end,ß allocatable allocatable"),
]

# A table, more words, the registered labels or None, the lines, and the objects that answer them.
OBJECTS = [
    (SIGMA, [], "ςα", "σα",
     '{"line":1,"ulabel":"ςα","alabel":"xn--mxa7a","there":"none","back":"allocatable"}\n'
     '{"line":1,"input":"σα","count":1,"complete":true}\n'),
    (SHARP, ["--others"], "sss sß", "sß,haus",
     '{"line":1,"ulabel":"sss","alabel":"sss","there":"allocatable","back":"allocatable"}\n'
     '{"line":1,"input":"sß","count":1,"complete":true}\n'),
    (GAP, ["--jump"], None, "b b,b c",
     '{"line":1,"input":"b\\tb","ulabel":"b","there":"variant","back":"variant"}\n'
     '{"line":2,"input":"b\\tc","ulabel":null}\n'),
]

TOO_MANY = f"idn2: table line 66: 34 {TEXTS[34]}\n"


def listing_of(table):
    return "--ruleset" if table.startswith("%version 3") else "--variants"


def lines_of(text, parting=","):
    return "".join(line.replace(" ", "\t") + "\n" for line in text.split(parting) if line)


def stops_of(text):
    """A trailer has blanks."""
    lines = lines_of(text).splitlines(keepends=True)
    return "".join(line.replace("\t", " ") if line.startswith("#") else line for line in lines)


def rows():
    """The words, the input, the files and what must be answered: output, messages, status."""
    for table, words, labels, lines, output, messages in AMONG:
        files = {"table": table, "registered": lines_of(labels, " ")}
        answer = stops_of(output), messages, 1 if messages else 0
        yield [listing_of(table), "table", "--among", "registered", *words], lines_of(lines, " "), files, answer
    for labels, fault in REFUSED:
        files = {"table": SHARP, "registered": lines_of(labels, " ")}
        yield ["--ruleset", "table", "--among", "registered"], "ß\n", files, ("", f"idn2: {fault}\n", 2)
    yield ["--ruleset", "table", "--others"], "ß\n", {"table": SHARP}, ("", "idn2: 50 usage\n", 2)
    for table, lines, output in JUMPS:
        yield [listing_of(table), "table", "--jump"], lines_of(lines), {"table": table}, (lines_of(output), "", 0)
    for table, words, labels, lines, output in OBJECTS:
        files = {"table": table} if labels is None else {"table": table, "registered": lines_of(labels, " ")}
        words = [*words, "--json"] if labels is None else ["--among", "registered", *words, "--json"]
        yield [listing_of(table), "table", *words], lines_of(lines), files, (output, "", 0)
    # A sequence may be a variant of 64 sources, and of more where nothing is asked of collisions.
    for count, words, answer in (
        (65, ["--jump"], ("", TOO_MANY, 2)), (65, ["--among", "registered"], ("", TOO_MANY, 2)),
        (64, ["--jump"], ("a\tvariant\tvariant\n", "", 0)), (65, [], ("a\ta\n#end 1\n", "", 0)),
    ):
        yield ["--variants", "table", *words], "a\n", {"table": crowd(count), "registered": "a\n"}, answer
    # The line is that of the 65th source, whatever comes after it; a pair that has its reverse doesn't count.
    for table, line in (
        (crowd(66) + "0062\n0063\n", 66), ("# sources\n\n" + crowd(70), 68), (crowd(66).replace("0061", "0061|4E00", 1), 67),
    ):
        answer = "", f"idn2: table line {line}: 34 {TEXTS[34]}\n", 2
        yield ["--variants", "table", "--jump"], "a\n", {"table": table}, answer
        yield ["--variants", "table", "--among", "registered"], "a\n", {"table": table, "registered": "a\n"}, answer
    # No part of the line is past the limit, and all other faults of the text come first.
    words, fault = ["--variants", "table", "--jump"], f"idn2: table line 67: 30 {TEXTS[30]}\n"
    yield [*words, "--explain"], "a\n", {"table": crowd(65)}, ("", TOO_MANY, 2)
    yield words, "a\n", {"table": crowd(65) + "0061|\n"}, ("", fault, 2)
