"""The inputs of the measurements, made from a seed: names and labels in 17 scripts, and labels with variants."""

import math
import pathlib
import random

TABLE = pathlib.Path(__file__).resolve().parent.parent / "tables/han.txt"
SEED = 5891


def span(first, last):
    return [chr(point) for point in range(first, last + 1)]


ASCII_LETTERS = span(0x61, 0x7A)
SCRIPTS = {
    "Latin": ASCII_LETTERS + list("äöüßéèêñçåøæœłśžčřůőűğışțđħ"),
    "Greek": span(0x03B1, 0x03C9),
    "Cyrillic": span(0x0430, 0x044F),
    "Armenian": span(0x0561, 0x0586),
    "Hebrew": span(0x05D0, 0x05EA),
    "Arabic": span(0x062A, 0x063A) + span(0x0641, 0x064A),
    "Devanagari": span(0x0915, 0x0928),
    "Bengali": span(0x0995, 0x09A8),
    "Thai": span(0x0E01, 0x0E2E),
    "Georgian": span(0x10D0, 0x10F0),
    "Ethiopic": span(0x1208, 0x1246),
    "Khmer": span(0x1780, 0x17A2),
    "Hiragana": span(0x3042, 0x3093),
    "Katakana": span(0x30A2, 0x30F3),
    "Han": span(0x4E00, 0x9FA5),
    "Hangul": span(0xAC00, 0xD7A3),
    "Tibetan": span(0x0F49, 0x0F4C) + span(0x0F4E, 0x0F51),
}
WITH_CAPITALS = ("Latin", "Greek", "Cyrillic", "Armenian")
TOP_LABELS = ["example", "com", "org", "de", "рф", "中国", "ไทย", "भारत", "ελ", "한국"]
# How many variants a label of the listing has: 2^8 to 3^9.
VARIANTS_OF_A_LABEL = range(2**8, 3**9 + 1)


def script_label(chance, script):
    """A label of the script that is registrable, and that has a code point past ASCII."""
    letters = SCRIPTS[script]
    label = chance.choices(letters, k=chance.randint(3, 10))
    if all(letter < "\u0080" for letter in label):
        label[-1] = letters[-1]
    if chance.random() < 0.15:
        label.insert(len(label) // 2, "-")
    if chance.random() < 0.15:
        label.append(chance.choice("0123456789"))
    return "".join(label)


def capitals(chance, text):
    """The text, at times with its first letter or all of it in capitals that lookup maps back."""
    capital = chance.choice((text[:1].upper() + text[1:], text.upper()))
    return capital if chance.random() < 0.3 and capital.lower() == text else text


def mixed_name(chance):
    script = chance.choice(list(SCRIPTS))
    labels = [script_label(chance, script) for _ in range(chance.choice((1, 1, 2)))]
    if script in WITH_CAPITALS:
        labels = [capitals(chance, label) for label in labels]
    return ".".join([*labels, chance.choice(TOP_LABELS)])


def ascii_label(chance):
    label = "".join(chance.choices(ASCII_LETTERS, k=chance.randint(3, 14)))
    return label + chance.choice(("", "", "-x", "24"))


def ascii_name(chance):
    labels = [capitals(chance, ascii_label(chance)) for _ in range(chance.choice((1, 1, 2)))]
    return ".".join([*labels, chance.choice(TOP_LABELS[:4])])


def label_to_register(chance):
    return script_label(chance, chance.choice(list(SCRIPTS)))


def a_label(label):
    return "xn--" + label.encode("punycode").decode("ascii")


def coded_name(chance):
    labels = [a_label(label_to_register(chance)) for _ in range(chance.choice((1, 1, 2)))]
    return ".".join([*labels, chance.choice(TOP_LABELS[:4])])


def choices_of_table():
    """For each character past ASCII in the table, how many may stand in its place: itself and its variants."""
    choices = {}
    for line in TABLE.read_text(encoding="ascii").splitlines():
        if line and not line.startswith("#"):
            source, _, variants = line.partition("|")
            if int(source, 16) > 0x7F:
                choices[chr(int(source, 16))] = 1 + len(variants.split(":")) if variants else 1
    return choices


def labels_with_variants(chance, variants):
    """Labels under the table, each with 2^8 to 3^9 variants, of about so many variants in all."""
    choices = choices_of_table()
    by_count = {count: [c for c in choices if choices[c] == count] for count in (1, 2, 3)}
    labels, listed = [], 0
    while listed < variants:
        threes = chance.randint(0, 9)
        twos = chance.randint(0, 9 - threes)
        label = chance.sample(by_count[3], k=threes) + chance.sample(by_count[2], k=twos)
        label += chance.choices(by_count[1], k=chance.randint(0, 2))
        chance.shuffle(label)
        count = math.prod(choices[c] for c in label)
        if count in VARIANTS_OF_A_LABEL:
            labels.append("".join(label))
            listed += count
    return labels, listed


def write(folder, name, lines):
    path = folder / name
    path.write_text("".join(line + "\n" for line in lines), encoding="utf-8", newline="\n")
    return path


def write_inputs(folder, lines):
    """The input files by name, and the number of lines of each; of `sources` the number of variants listed."""
    makers = {
        "mixed": (mixed_name, lines),
        "ascii": (ascii_name, 10 * lines),
        "labels": (label_to_register, lines),
        "ascii-labels": (ascii_label, 10 * lines),
        "coded": (coded_name, lines),
    }
    files, counts = {"nothing": write(folder, "nothing", [])}, {}
    for name, (maker, count) in makers.items():
        chance = random.Random(f"{SEED} {name}")
        text = [maker(chance) for _ in range(count)]
        files[name], counts[name] = write(folder, name, text), count
        if name == "labels":
            files["a-labels"] = write(folder, "a-labels", map(a_label, text))
        if name == "mixed":
            files["few"], counts["few"] = write(folder, "few", text[: lines // 100]), lines // 100
    labels, counts["sources"] = labels_with_variants(random.Random(f"{SEED} variants"), lines)
    files["sources"] = write(folder, "sources", labels)
    # Two letters that are each other's variants: a label of 62 of them has 2^62 variants.
    files["table"] = write(folder, "table", ["0061|0062", "0062|0061"])
    files["label"] = write(folder, "label", ["a" * 62])
    return files, counts
