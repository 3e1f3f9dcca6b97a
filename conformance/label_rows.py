"""Worked rows of labels and names: what is registered, decoded and looked up, each with its answer or with its first fault.

The A-labels and the queries come from elsewhere: from RFC 3492, from Python's `idna` 3.13, and from libidn2's `idn2`
2.3.3. That answers the capital sharp s otherwise, which UTS #46 has mapped differently since Unicode 15.1. The faults
come from the sections of RFC 5891, RFC 5892 and RFC 5893 that are named.
"""

DISALLOWED = "10 disallowed code point"
UNASSIGNED = "11 unassigned code point"
NOT_NFC = "12 not in NFC"
HYPHEN = "13 hyphen out of place"
LEADING_MARK = "14 leading combining mark"
JOINER = "15 joiner out of context"
CONTEXT = "16 code point out of context"
BIDI = "17 Bidi rule broken"
TOO_LONG = "18 label too long"
NO_A_LABEL = "19 not an A-label"
NOT_VALID = "20 not a valid name"
LENGTH = "21 name or label length"
FAULTS = {DISALLOWED, UNASSIGNED, NOT_NFC, HYPHEN, LEADING_MARK, JOINER, CONTEXT, BIDI, TOO_LONG, NO_A_LABEL, NOT_VALID,
          LENGTH}

# The samples of RFC 3492, section 7.1, that are labels of this profile: B to G and I to R, in lower case. H is too long, S is in
# ASCII, and A ends in a symbol: it stands among the old labels.
OF_RFC_3492 = [
    ("他们为什么不说中文", "xn--ihqwcrb4cv8a8dqg056pqjye"), ("他們爲什麽不說中文", "xn--ihqwctvzc91f659drss3x8bo0yb"),
    ("pročprostěnemluvíčesky", "xn--proprostnemluvesky-uyb24dma41a"),
    ("\u05DC\u05DE\u05D4\u05D4\u05DD\u05E4\u05E9\u05D5\u05D8\u05DC\u05D0\u05DE\u05D3\u05D1\u05E8\u05D9\u05DD\u05E2\u05D1\u05E8\u05D9\u05EA",
     "xn--4dbcagdahymbxekheh6e0a7fei0b"),
    ("यहल\u094Bगह\u093Fन\u094Dद\u0940क\u094Dय\u094B\u0902नह\u0940\u0902ब\u094Bलसकत\u0947ह\u0948\u0902",
     "xn--i1baa7eci9glrd9b2ae1bj0hfcgg6iyaf8o0a1dig0cd"),
    ("なぜみんな日本語を話してくれないのか", "xn--n8jok5ay5dzabd5bym9f0cm5685rrjetr6pdxa"),
    ("почемужеонинеговорятпорусски", "xn--b1abfaaepdrnnbgefbadotcwatmq2g4l"),
    ("porquénopuedensimplementehablarenespañol", "xn--porqunopuedensimplementehablarenespaol-fmd56a"),
    ("tạisaohọkhôngthểchỉnóitiếngviệt", "xn--tisaohkhngthchnitingvit-kjcr8268qyxafd2f1b9g"),
    ("3年b組金八先生", "xn--3b-ww4c5e180e575a65lsy2b"),
    ("安室奈美恵-with-super-monkeys", "xn---with-super-monkeys-pc58ag80a8qai00g7n9n"),
    ("hello-another-way-それぞれの場所", "xn--hello-another-way--fc4qua05auwb3674vfr0b"),
    ("ひとつ屋根の下2", "xn--2-u9tlzr9756bt3uc0v"), ("majiでkoiする5秒前", "xn--majikoi5-783gue6qz075azm5e"),
    ("パフィーdeルンバ", "xn--de-jg4avhby1noc0d"), ("そのスピードで", "xn--d9juau41awczczp"),
]

# What `idn2 -r LABEL` and `idn2 LABEL` of libidn2 both print, for labels in Normalization Form C.
OF_LIBIDN2 = [
    ("bücher", "xn--bcher-kva"), ("straße", "xn--strae-oqa"), ("fußball", "xn--fuball-cta"), ("façade", "xn--faade-zra"),
    ("señor", "xn--seor-hqa"), ("smørrebrød", "xn--smrrebrd-64af"), ("çeşme", "xn--eme-1la51d"),
    ("żółć", "xn--kda4b0koi"), ("žluťoučký", "xn--luouk-uva4it5a4g"), ("ångström", "xn--ngstrm-hua5l"),
    ("þjóðvegur", "xn--jvegur-pwax1h"), ("tiếngviệt", "xn--tingvit-5t4cyc"), ("ħobż", "xn--ob-loa65a"),
    ("ελλάδα", "xn--hxakic4aa"), ("φιλόσοφος", "xn--uxaemapdse5c"), ("россия", "xn--h1alffa9f"),
    ("україна", "xn--80aa2annq7l"), ("ўжэ", "xn--f1a0c6b"), ("ђак", "xn--80au4e"), ("ҡала", "xn--80aa6a85a"),
    ("հայաստան", "xn--y9aaa1d0ai1cq"), ("საქართველო", "xn--lodamdjuvtg5b"),
    ("\u05D9\u05E9\u05E8\u05D0\u05DC", "xn--4dbrk0ce"), ("\u05E2\u05D1\u05E8\u05D9\u05EA", "xn--5dbqzzl"),
    ("\u0645\u0635\u0631", "xn--wgbh1c"), ("\u067E\u0627\u06A9\u0633\u062A\u0627\u0646", "xn--mgbai9azgqp6j"),
    ("\u0627\u0644\u0639\u0631\u0628\u064A\u0629", "xn--mgbcd4a2b0d2b"),
    ("\u0639\u0645\u0627\u0646۱۲", "xn--mgb9awbf96fga"), ("\u0723\u0718\u072A\u071D\u071D\u0710", "xn--9mbppa1a7b"),
    ("\u078B\u07A8\u0788\u07AC\u0780\u07A8", "xn--hqbpi0jcw"), ("\u07D2\u07DE\u07CF", "xn--qsbf0b"),
    ("भ\u093Eरत", "xn--h2brj9c"), ("न\u0947प\u093Eल", "xn--l2bey1c2b"), ("ह\u093Fन\u094Dद\u0940", "xn--j2bd4cyah0f"),
    ("ব\u09BE\u0982ল\u09BE", "xn--54b7fta0cc"), ("ਪ\u0A70ਜ\u0A3Eਬ", "xn--k9b1ah5eum"),
    ("ગ\u0AC1જર\u0ABEત", "xn--2dcky1czdp"), ("ଓଡ\u0B3C\u0B3Fଶ\u0B3E", "xn--mhc2a1dxale"),
    ("தம\u0BBFழ\u0BCD", "xn--rlcus7b3d"), ("త\u0C46ల\u0C41గ\u0C41", "xn--1ocz5b4cb0a"), ("ಕನ\u0CCDನಡ", "xn--nscyua8p"),
    ("മലയ\u0D3Eള\u0D02", "xn--rvc1gdlg9d"), ("ල\u0D82ක\u0DCF", "xn--fzc2c9e2c"), ("ไทย", "xn--o3cw4h"),
    ("ลาว", "xn--23ce6a"), ("ລາວ", "xn--q7ce6a"), ("བ\u0F7Cད", "xn--nddj8i"), ("မ\u103Cန\u103Aမ\u102C", "xn--7idjb0f4ck"),
    ("ខ\u17D2ម\u17C2រ", "xn--j2e0cg3n2c"), ("ᠮᠣᠩᠭᠣᠯ", "xn--56earqck"), ("አማርኛ", "xn--1xd0bwwra"), ("ᏣᎳᎩ", "xn--f9dt7l"),
    ("日本語", "xn--wgv71a119e"), ("ひらがな", "xn--v8j0cwa6g"), ("カタカナ", "xn--lcka3d1b"), ("カ・タ", "xn--lckxb3k"),
    ("中国", "xn--fiqs8s"), ("中國", "xn--fiqz9s"), ("香港", "xn--j6w193g"), ("한국", "xn--3e0b707e"),
    ("ꯃ\uABE9ꯇ\uABE9", "xn--x19ai5hb"), ("ⲕⲏⲙⲉ", "xn--dhjlrr"), ("l·l", "xn--ll-0ea"),
    ("\u05D0\u05F3\u05D1", "xn--4dbc5h"), ("क\u094D\u200Dष", "xn--11b2ezcw70k"),
    ("\u0646\u0627\u0645\u0647\u200C\u0627\u06CC", "xn--mgba3gch31f060k"), ("𠀀𠀁", "xn--j50ic"),
]

# Lines, and what the mode register answers.
REGISTERED = [
    # A U-label, an A-label, a label in ASCII; a capital (RFC 5891, sections 4.1 and 4.2.2).
    ("faß", "xn--fa-hia"), ("xn--fa-hia", "xn--fa-hia"), ("abc", "abc"), ("Faß", DISALLOWED),
    # The middle dot and the zero width non-joiner, where they may stand and where not (RFC 5892, appendices A.3, A.1).
    ("l·l", "xn--ll-0ea"), ("a·l", CONTEXT), ("\u0646\u0627\u0645\u0647\u200C\u0627\u06CC", "xn--mgba3gch31f060k"),
    ("a\u200Cb", JOINER),
    # The other faults (RFC 5891, section 4.2).
    ("\U00050000", UNASSIGNED), ("a\u0301", NOT_NFC), ("ab--c", HYPHEN), ("a-", HYPHEN), ("-ß", HYPHEN), ("ß-", HYPHEN),
    ("ab--ß", HYPHEN), ("\u0301a", LEADING_MARK), ("a\u05D0", BIDI), ("\u05D0a", BIDI), ("a.b", DISALLOWED),
    # The sharp s (RFC 5892, section 2.6), a mark that composes with nothing, Hebrew (RFC 5893, section 2), and letters
    # with either kind of Arabic-Indic digits, but not with both (RFC 5892, appendices A.8 and A.9).
    ("straße", "xn--strae-oqa"), ("sß", "xn--s-qfa"), ("ßs", "xn--s-pfa"), ("q\u0301", "xn--q-xbb"),
    ("\u05D0\u05D1", "xn--4dbc"), ("\u0627\u0660\u0660", "xn--mgb8ia"), ("\u0627۰۰", "xn--mgb61ba"),
    ("\u0627\u0660۰", CONTEXT),
    # The prefix, without the A-label of a registrable label after it (RFC 5890, section 2.3.2.1).
    ("xn--a", DISALLOWED), ("xn--abc-", NO_A_LABEL), ("xn--", NO_A_LABEL), ("xn---", NO_A_LABEL), ("xn----", HYPHEN),
    ("xn--ü", NO_A_LABEL), ("xn--fa-hiš", NO_A_LABEL), ("xn--FA-hiš", NO_A_LABEL), ("xn--fa-HIA", NO_A_LABEL),
    ("xn--FA-hia", DISALLOWED), ("XN--FA-HIA", DISALLOWED),
    # The length is told last (RFC 1034, section 3.1; RFC 5891, section 4.4).
    ("a" * 63, "a" * 63), ("a" * 64, TOO_LONG), ("a" * 55 + "ß", "xn--" + "a" * 55 + "-une"), ("a" * 56 + "ß", TOO_LONG),
    ("a" * 63 + "ß", TOO_LONG), ("a" * 64 + "ß-", HYPHEN),
]

# Lines, and what the mode register answers by the profile and with `--standard`, as Python's `idna` has it.
BY_EITHER = [
    # Scripts that the profile leaves out: Adlam, Aramaic, Yezidi, a ligature of Hebrew; but a capital is unstable.
    ("\U0001E922", DISALLOWED, "xn--9d6h"), ("\U00010840", DISALLOWED, "xn--fe9c"), ("\U00010EB1", DISALLOWED, "xn--jq0d"),
    ("\u05D0\uFB1E", DISALLOWED, "xn--4db0176j"), ("\U0001E900", DISALLOWED, DISALLOWED),
    # Digits of Hanifi Rohingya are AN, as those of Arabic, and not as the extended ones (RFC 5893, section 2, condition 4).
    ("\U00010D00\U00010D30", DISALLOWED, "xn--5d0dgd"), ("\U00010D00\u0660\U00010D30", DISALLOWED, "xn--8hb7755kfea"),
    ("\U00010D00\u06F0\U00010D30", DISALLOWED, BIDI),
    # A non-joiner between letters of Syriac and Mongolian, between letters of 'Phags-pa of types L and D, after a letter
    # that is T, and after a letter that causes joining (RFC 5892, appendix A.1).
    ("\u0712\u200C\u0712", JOINER, "xn--cnba592q"), ("\u1820\u200C\u1820", JOINER, "xn--26ea791d"),
    ("\uA872\u200C\uA840", JOINER, "xn--0ug4674ciea"), ("\uA840\u200C\uA872", JOINER, JOINER),
    ("\U0001E922\U0001E94B\u200C\U0001E922", DISALLOWED, "xn--0ug1411pba6n"),
    ("\u0628\u0883\u200C\u0628", JOINER, JOINER), ("\u0628\u200C\u0883\u0628", JOINER, JOINER),
    # Joiners after the viramas of Myanmar and Thai, and after no virama.
    ("\u1000\u1039\u200D\u1001", JOINER, "xn--nidc1ok73d"), ("\u1000\u1039\u200C\u1001", JOINER, "xn--nidc1o663d"),
    ("\u0E01\u0E3A\u200D", JOINER, "xn--12c8i738c"), ("\u1000\u200D\u1001", JOINER, JOINER),
    # Signs are ON: they stand in a right-to-left label, but not at its end, nor at its start (conditions 2, 3, 1).
    ("\u05D0\u02C6\u05D1", BIDI, "xn--wqa96mea"), ("\u05D0\u02C6", BIDI, BIDI), ("\u02C6\u05D0", BIDI, BIDI),
    # One of eight marks that are L, in labels of both directions.
    ("\u05D0\u0CBF", "xn--4db466a", BIDI), ("\u0C95\u0CBF", "xn--nsc8f", "xn--nsc8f"),
    # Either way a context rule comes before the Bidi rule, and a digit begins no right-to-left label.
    ("\u05D0\u30FB\u05D1", CONTEXT, CONTEXT), ("\u05D0\u0375\u03B1", BIDI, BIDI), ("1\U0001E922", DISALLOWED, BIDI),
    ("\U0001E922a", DISALLOWED, BIDI),
]

# Names, and what the mode decode answers by the profile and with `--standard`: the Bidi rule is asked of all labels of a
# name in which one is right-to-left (RFC 5893, section 2), of a label that is copied, too; of the root it isn't.
NAMES_BY_EITHER = [
    ("0a.xn--4db", "0a.א", BIDI), ("xn--4db.0a", "א.0a", BIDI), ("a.xn--4db", "a.א", "a.א"), ("xn--4db.", "א.", "א."),
    ("xn--4db", "א", "א"), ("_x.xn--4db", "_x.א", BIDI), ("a-.xn--4db", "a-.א", BIDI), ("a..xn--4db", "a..א", "a..א"),
    ("xn--a-k7a.xn--4db", "a\u02C6.א", BIDI), ("0a.a-._x", "0a.a-._x", "0a.a-._x"), ("xn--9d6h.a", DISALLOWED, "\U0001E922.a"),
    ("0a.א", "0a.א", BIDI), ("0a.xn--a", DISALLOWED, DISALLOWED), ("xn--4db466a", "\u05D0\u0CBF", BIDI),
]

# Names, and what the mode decode answers.
DECODED = [
    # A-labels beside other labels, empty ones too.
    ("xn--fiqs8s.example", "中国.example"), ("www.xn--fa-hia.xn--fiqs8s", "www.faß.中国"), ("xn--fa-hia.", "faß."),
    ("example.com.", "example.com."), ("a..xn--fa-hia", "a..faß"), (".xn--fa-hia", ".faß"), (".", "."),
    # A-labels in any case (RFC 5890, section 2.3.2.4), and other labels, which stay as they are.
    ("XN--FA-HIA.de", "faß.de"), ("XN--fa-hia.de", "faß.de"), ("Xn--FA-HIA.DE", "faß.DE"), ("xN--FIQS8S", "中国"),
    ("www.Example-1.COM", "www.Example-1.COM"), ("Fa..A_b.", "Fa..A_b."), ("xn-.axn--b._a", "xn-.axn--b._a"),
    # Labels past ASCII beside A-labels.
    ("faß.xn--fiqs8s.Ü", "faß.中国.Ü"), ("中国.xn--a", DISALLOWED),
    # The mark may compose with other letters than the one before it.
    ("xn--q-xbb.de", "q\u0301.de"), ("xn--11b2f", "क\u093C"),
    # The prefix, with no Punycode of scalar values after it, or with that of ASCII alone.
    ("xn--", NO_A_LABEL), ("XN--.de", NO_A_LABEL), ("xn--abc-", NO_A_LABEL), ("a.XN--ABC-.de", NO_A_LABEL),
    ("xn--99999999", NO_A_LABEL), ("xn---", NO_A_LABEL), ("xn--0", NO_A_LABEL), ("xn--zzzzzzzz", NO_A_LABEL),
    ("xn--" + "9" * 32, NO_A_LABEL), ("xn--a_b", NO_A_LABEL),
    # The ends of the scalar values: U+D7FF, U+D800, U+DFFF, U+E000, U+10FFFF and one more.
    ("xn--hb9b", UNASSIGNED), ("xn--ib9b", NO_A_LABEL), ("xn--zy0c", NO_A_LABEL), ("xn--0y0c", DISALLOWED),
    ("xn--dn32g", DISALLOWED), ("xn--en32g", NO_A_LABEL),
    # Past ASCII after the prefix, and letters whose last eight bits are those of a letter of ASCII.
    ("xn--š", NO_A_LABEL), ("xn--fa-hiš.de", NO_A_LABEL), ("a.XN--FA-HIš", NO_A_LABEL),
    # What is decoded is not registrable; the first such label decides.
    ("xn--a", DISALLOWED), ("a.xn--a.xn--", DISALLOWED), ("a.xn--.xn--a", NO_A_LABEL), ("xn--a-xbb", NOT_NFC),
    ("xn--l2b4b", NOT_NFC), ("xn--" + "a" * 56 + "-lqe", TOO_LONG),
    # Other labels stay, however long they are, and the longest A-label is decoded.
    ("Faß..A_b.", "Faß..A_b."), ("a" * 64 + ".de", "a" * 64 + ".de"), ("xn--" + "a" * 55 + "-une", "a" * 55 + "ß"),
]

# Names of old labels, and what they stand for: sample A of RFC 3492, section 7.1; the ends of the scalar values, also three times
# the last one; and names that stand for themselves, since what would be decoded of them are no scalar values.
OLD = [
    ("xn--egbpdaj6bu4bxfgehfvwxn",
     "\u0644\u064A\u0647\u0645\u0627\u0628\u062A\u0643\u0644\u0645\u0648\u0634\u0639\u0631\u0628\u064A\u061F\told"),
    ("xn--hb9b", "\uD7FF\told"), ("xn--0y0c", "\uE000\told"), ("xn--dn32g", "\U0010FFFF\told"),
    ("xn--dn32gaa", "\U0010FFFF\U0010FFFF\U0010FFFF\told"), ("xn--ib9b", "xn--ib9b\told"), ("xn--zy0c", "xn--zy0c\told"),
    ("xn--en32g", "xn--en32g\told"),
]

# Names for which the ASCII rules make no difference, and what lookup answers.
LOOKED_UP = [
    ("Faß.de", "xn--fa-hia.de"), ("Example.COM", "example.com"), ("example.", "example."),
    ("日本語。ＪＰ", "xn--wgv71a119e.jp"), ("Bücher.DE", "xn--bcher-kva.de"), ("straße.example", "xn--strae-oqa.example"),
    ("λάμδα.рф", "xn--hxaki0ag.xn--p1ai"), ("中国.Example.한국", "xn--fiqs8s.example.xn--3e0b707e"),
    ("ελληνικά-1.gr", "xn---1-v8b9akmhfav.gr"), ("ς.gr", "xn--3xa.gr"), ("ü-", "xn----dha"), ("ü--a", "xn----a-goa"),
    ("ü.", "xn--tda."), ("abc.ü.A-B", "abc.xn--tda.a-b"), ("ΒΌΛΟΣ.Ü", "xn--nxasmq6b.xn--tda"),
    ("ΒΌΛΟΣ.Ü.", "xn--nxasmq6b.xn--tda."), ("Faẞ.de", "xn--fa-hia.de"), ("ﬀü", "xn--ff-yka"),
    ("भ\u093Eरत.भ\u093Eरत", "xn--h2brj9c.xn--h2brj9c"), ("日本語。JP", "xn--wgv71a119e.jp"),
    ("\u05E9\u05DC\u05D5\u05DD.example", "xn--9dbne9b.example"), ("ह\u093Fन\u094Dद\u0940", "xn--j2bd4cyah0f"),
    ("ব\u09BE\u0982ল\u09BE", "xn--54b7fta0cc"), ("ไทย", "xn--o3cw4h"), ("a\u0308.de", "xn--4ca.de"),
    ("ab\u0301ü", "xn--ab-yka18r"), ("ü\u00AD.de", "xn--tda.de"), ("ü.xn--tda", "xn--tda.xn--tda"),
    ("ü。de", "xn--tda.de"), ("l·l", "xn--ll-0ea"), ("ක\u0DCA\u200Dෂ", "xn--3zc4fxa418p"),
    # The Bidi rule over a name, a joiner, and an A-label of a DISALLOWED code point (UTS #46, section 4.1).
    ("0a.\u05D0", NOT_VALID), ("a\u200Cb", NOT_VALID), ("xn--a", NOT_VALID),
    # No octet, no label (RFC 1035, section 2.3.4).
    (".", LENGTH), ("a..b", LENGTH),
    # No A-labels, leading marks, a joiner, and code points that are disallowed, each beside another label or letter.
    ("xn--ü.de", NOT_VALID), ("XN--ü.de", NOT_VALID), ("ü.xn--a", NOT_VALID), ("\u0301ü", NOT_VALID),
    ("ü.\u093E", NOT_VALID), ("\u093Eü", NOT_VALID), ("a\u200Cü", NOT_VALID), ("ü\u0640", NOT_VALID), ("ü�", NOT_VALID),
    # Empty labels beside others.
    ("ü..de", LENGTH), ("ü..a-b", LENGTH), (".ü", LENGTH), ("..ü", LENGTH),
    # The lengths of labels (RFC 1035, section 2.3.4).
    ("a" * 63, "a" * 63), ("a" * 64, LENGTH), ("a" * 55 + "ü", "xn--" + "a" * 55 + "-8yf"), ("a" * 56 + "ü", LENGTH),
    ("a" * 62 + "ü", LENGTH), ("a" * 63 + "ü", LENGTH), ("a" * 63 + ".ü", "a" * 63 + ".xn--tda"), ("a" * 64 + ".ü", LENGTH),
]

# Names that the ASCII rules (UTS #46, section 4.1) refuse, and what lookup answers without these rules.
NOT_BY_ASCII_RULES = [("a_b", "a_b"), ("ü_b", "xn--_b-wka")]


def in_one_run(words, pairs):
    """The words, the input of all lines, no files, and what must be answered: output, messages, status."""
    output = "".join(answer + "\n" for _, answer in pairs if answer not in FAULTS)
    messages = [f"idn2: line {number}: {answer}\n" for number, (_, answer) in enumerate(pairs, 1) if answer in FAULTS]
    return words, "".join(line + "\n" for line, _ in pairs), {}, (output, "".join(messages), 1 if messages else 0)


def rows():
    """What must be answered to all lines of a mode in one run, and by registration to each line in a run of its own."""
    labels = OF_RFC_3492 + OF_LIBIDN2
    yield in_one_run(["-r"], REGISTERED + labels + [(a_label, a_label) for _, a_label in labels])
    yield in_one_run(["-d"], DECODED + [(a_label, label) for label, a_label in labels])
    yield in_one_run(["-r", "--standard"], REGISTERED + labels + [(a_label, a_label) for _, a_label in labels])
    yield in_one_run(["--standard", "-d"], DECODED + [(a_label, label) for label, a_label in labels])
    yield in_one_run(["-d", "--old"], OLD)
    for mode, lines in (("-r", BY_EITHER), ("-d", NAMES_BY_EITHER)):
        yield in_one_run([mode], [(line, answer) for line, answer, _ in lines])
        yield in_one_run([mode, "--standard"], [(line, answer) for line, _, answer in lines])
    for words in (["-l"], [], ["--usestd3asciirules"], ["--standard"]):
        yield in_one_run(words, LOOKED_UP)
    yield in_one_run(["-l"], NOT_BY_ASCII_RULES)
    yield in_one_run(["--usestd3asciirules"], [(name, NOT_VALID) for name, _ in NOT_BY_ASCII_RULES])
    for pair in REGISTERED:
        yield in_one_run(["-r"], [pair])
