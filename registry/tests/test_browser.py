"""The pages in headless Chromium: typing, the keyboard, what a screen reader is told, contrast, and an empty console. With
PICTURES=FOLDER it takes the pictures of the guide."""

import os
from collections.abc import Iterator
from pathlib import Path
from typing import Any

import pytest
from browser import Browser, program
from conftest import ROOT, TABLES, Place
from serving import Served, needs_aiohttp, query

pytestmark = [needs_aiohttp, pytest.mark.skipif(program() is None, reason="chromium")]

# For each text that is seen: its contrast with what is behind it, and what it is.
CONTRASTS = """(() => {
    const light = (text) => {
        const [red, green, blue] = text.match(/[\\d.]+/g).slice(0, 3).map((part) => part / 255)
            .map((part) => part <= 0.04045 ? part / 12.92 : ((part + 0.055) / 1.055) ** 2.4);
        return 0.2126 * red + 0.7152 * green + 0.0722 * blue;
    };
    const behind = (element) => {
        const colour = getComputedStyle(element).backgroundColor;
        return colour !== "rgba(0, 0, 0, 0)" || !element.parentElement ? colour : behind(element.parentElement);
    };
    const texts = document.createTreeWalker(document.body, NodeFilter.SHOW_TEXT), found = [];
    for (let node = texts.nextNode(); node; node = texts.nextNode()) {
        const element = node.parentElement, box = element.getBoundingClientRect();
        if (node.data.trim() && box.width > 1 && box.right > 0) {
            const [first, second] = [light(getComputedStyle(element).color), light(behind(element))];
            found.push([(Math.max(first, second) + 0.05) / (Math.min(first, second) + 0.05), node.data]);
        }
    }
    return found;
})()"""


@pytest.fixture(scope="module")
def browser() -> Iterator[Browser]:
    with Browser() as started:
        yield started


@pytest.fixture(scope="module")
def served(tmp_path_factory: pytest.TempPathFactory) -> Iterator[Served]:
    place = Place(tmp_path_factory.mktemp("zone"))
    rulesets = TABLES / "rulesets"
    place.configure('zone = "zone"\n[service]\nlisten = "127.0.0.1:0"', german=TABLES / "german.txt",
                    latin=rulesets / "latin.txt", devanagari=rulesets / "devanagari.txt", arabic=TABLES / "arabic-digits.txt",
                    zone=place.write("zone.txt", zone_table(place)))
    place.load("haus\tH1", "strasse\tH2")
    with Served(place) as started:
        yield started


def zone_table(place: Place) -> bytes:
    """A table of the zone that has all letters of the others."""
    names = [str(TABLES / "german.txt"), str(TABLES / "rulesets" / "devanagari.txt"), str(TABLES / "arabic-digits.txt")]
    done = place.run("join", *names, str(TABLES / "rulesets" / "latin.txt"))
    assert done.returncode == 0, done
    return done.stdout


def address(served: Served, path: str) -> str:
    """A page of the service."""
    host, port = served.address
    return f"http://{host}:{port}{path}"


def expect_no_complaint(browser: Browser) -> None:
    """Nothing stands in the console."""
    assert browser.complaints() == []


def test_a_label_is_typed_and_the_answer_is_told(browser: Browser, served: Served) -> None:
    browser.go(address(served, "/"))
    assert browser.value("document.activeElement.id") == "label"
    browser.type("straße")
    browser.enter()
    names = browser.names()
    assert ("heading", "Check a label") in names and ("textbox", "Label") in names and ("button", "Check") in names
    assert ("region", "straße is taken: it collides with strasse, held by H2.") in names, names
    assert ("columnheader", "Class (RFC 5892)") in names and ("rowheader", "strasse") in names
    assert browser.value("document.title") == "straße: taken"
    assert browser.value("document.getElementById('label').value") == "straße"
    expect_no_complaint(browser)


def test_the_keyboard_goes_through_the_page_in_order(browser: Browser, served: Served) -> None:
    browser.go(address(served, query("/", label="sss")))
    order = [browser.tab() for _ in range(13)]
    assert order == ["Skip to the content", "Check a label", "Table german", "Table latin", "Table devanagari",
                     "Table arabic", "Table zone",
                     "label", "Check", "german", "latin", "latin", "find"], order
    shown = browser.value("((style) => style.outlineStyle + style.outlineWidth)(getComputedStyle(document.activeElement))")
    assert shown == "solid3px"
    browser.go(address(served, "/tables/latin"))
    browser.value("document.querySelector('summary').focus()")
    browser.press("Enter", 13, "\r")
    assert browser.value("document.querySelector('details').open") is True
    expect_no_complaint(browser)


def test_searches_in_the_variants_while_one_types(browser: Browser, served: Served) -> None:
    browser.go(address(served, query("/", label="sssss")))
    rows = "Array.from(document.querySelectorAll('#variants tbody tr')).filter((row) => !row.hidden).length"
    count = browser.value(rows)
    browser.value("document.getElementById('find').focus()")
    browser.type("ßß")
    assert 0 < browser.value(rows) < count
    assert browser.value("document.getElementById('count').textContent") == f"{browser.value(rows)} of {count} shown"
    assert browser.value("document.getElementById('count').getAttribute('role')") == "status"
    expect_no_complaint(browser)


def test_the_page_does_without_its_script(browser: Browser, served: Served) -> None:
    browser.call("Emulation.setScriptExecutionDisabled", value=True)
    try:
        browser.go(address(served, query("/", label="sss")))
        for _ in range(13):
            browser.press("Tab", 9)
        browser.type("ßs")
        browser.enter()
        assert browser.value("location.search") == query("", label="sss", find="ßs")
        assert browser.value("document.getElementById('count').textContent") == "1 of 3 shown"
    finally:
        browser.call("Emulation.setScriptExecutionDisabled", value=False)


def test_a_label_from_right_to_left_is_shown_so(browser: Browser, served: Served) -> None:
    browser.go(address(served, query("/", label="سلام")))
    assert browser.value("getComputedStyle(document.getElementById('label')).direction") == "rtl"
    assert browser.value("document.getElementById('verdict').textContent") == "✓سلام is available."
    glyphs = "Array.from(document.querySelectorAll('.points .glyph'))"
    assert browser.value(glyphs + ".map((each) => each.textContent).join('')") == "سلام"
    # The sentence around it goes on from left to right.
    assert browser.value("getComputedStyle(document.querySelector('#verdict .label')).unicodeBidi") == "isolate"
    expect_no_complaint(browser)


PATHS = ("/", query("/", label="straße"), query("/", label="Faß"), query("/", label="maus"), query("/", label="क\u200dा"),
         "/tables/latin", "/tables/devanagari", "/tables/german", "/tables/arabic")


@pytest.mark.parametrize("scheme", ("light", "dark"))
def test_each_text_has_contrast(browser: Browser, served: Served, scheme: str) -> None:
    browser.scheme(scheme)
    for path in PATHS:
        browser.go(address(served, path))
        browser.value("document.querySelectorAll('details').forEach((each) => { each.open = true })")
        found: list[Any] = browser.value(CONTRASTS)
        assert len(found) > 5 and [each for each in found if each[0] < 4.5] == [], (path, scheme)
        ground = browser.value("getComputedStyle(document.body).backgroundColor")
        assert (ground == "rgb(255, 255, 255)") == (scheme == "light"), ground
    browser.scheme("light")
    expect_no_complaint(browser)


def test_nothing_is_cut_off_on_a_narrow_screen(browser: Browser, served: Served) -> None:
    browser.size(320, 640)
    for path in PATHS:
        browser.go(address(served, path))
        assert browser.value("document.documentElement.scrollWidth") <= 320, path
    browser.size(1000, 800)


def test_each_control_and_picture_has_a_name(browser: Browser, served: Served) -> None:
    for path in PATHS:
        browser.go(address(served, path))
        unnamed = [role for role, name in browser.names()
                   if role in ("link", "button", "textbox", "heading", "columnheader", "rowheader")
                   and not name.strip()]
        assert unnamed == [], (path, unnamed)
        levels = browser.value("Array.from(document.querySelectorAll('h1, h2, h3')).map((each) => Number(each.tagName[1]))")
        assert levels[0] == 1 and levels.count(1) == 1, levels
        assert all(after <= before + 1 for before, after in zip(levels, levels[1:])), levels


PICTURES = (("label", query("/", label="straße"), "light"), ("refused", query("/", label="Faß"), "dark"),
            ("table", "/tables/latin#variants", "light"))


@pytest.mark.parametrize("name, path, scheme", PICTURES)
def test_takes_the_pictures_of_the_guide(browser: Browser, served: Served, tmp_path: Path, name: str, path: str,
                                         scheme: str) -> None:
    browser.size(1000, 760)
    browser.scheme(scheme)
    browser.go(address(served, path))
    picture = Path(os.environ.get("PICTURES", tmp_path)) / f"{name}.png"
    browser.picture(picture)
    browser.scheme("light")
    there = (ROOT / "docs" / "pictures" / f"{name}.png").read_bytes()
    # As large as that of the guide; a font may differ.
    assert picture.read_bytes()[16:24] == there[16:24]
    assert f"pictures/{name}.png" in (ROOT / "docs" / "GUIDE.md").read_text("utf-8")
