"""Pages of explanations, by `explain --html`: they stand alone, hold all that is told, and have room in a browser."""

import html
import itertools
import os
import re
import unittest
from dataclasses import dataclass
from html.parser import HTMLParser
from pathlib import Path
from tempfile import TemporaryDirectory

from browser import CHROMIUM, DRIVER, Browser
from test_explanations import EXAMPLES, TEXTS, judging, run

VOID = frozenset({"br", "meta"})
"""Elements that have no end."""
FETCHED = frozenset({"action", "background", "data", "formaction", "href", "poster", "src", "srcset", "style"})
"""Attributes by which a page could take something from elsewhere."""
FOREIGN = frozenset({"base", "embed", "form", "iframe", "img", "link", "object", "script", "use"})
"""Elements that don't stand alone, or do something."""

HOSTILE = b"""% </pre><script>alert('x')</script> <mark> "quotes" &amp; & \x80\xff\x00 \xc3\xa9
:- chr_constraint a/0.
"""
THROW = b":- chr_constraint throw/0, head/0, tail/0. :- chr_weight throw/0 = 2. throw <=> head. throw <=> tail."
SIGNS = ("<", "=<", ">", ">=", "=:=", "=\\=")
WIDTHS = (1280, 360)
RULES = re.compile(r"with this in place of rule \d+:\n((?:  .*\n)*  .*)\n")
"""Rules that are proposed."""
ROW = 24
CHARACTER = 8
"""How high a row of a drawing is, and how wide a character."""


@dataclass
class Mark:
    """A text beside an edge, and where its first character stands."""

    x: int
    y: int
    text: str = ""

    def hides(self, other: "Mark") -> bool:
        """Whether it stands before the other one and reaches it, with less than a row between them."""
        return abs(self.y - other.y) < ROW and self.x <= other.x <= self.x + len(self.text) * CHARACTER


class Page(HTMLParser):
    """The elements of a page, and their text."""

    def __init__(self, text: str) -> None:
        super().__init__(convert_charrefs=True)
        self.path: list[str] = []
        self.tags: list[str] = []
        self.attributes: list[tuple[str, str]] = []
        self.faults: list[str] = []
        self.texts: dict[str, list[str]] = {}
        """The text of each outermost element of a name, in order."""
        self.kinds: list[str] = []
        """The class of each block of text, in order."""
        self.words: list[str] = []
        """The parts of the text in drawings, and in the steps of both ways."""
        self.boxes: list[tuple[int, int]] = []
        """The width and the height of each drawing."""
        self.marks: list[Mark] = []
        """What stands beside edges, and what else is drawn like it."""
        self.feed(text)
        self.close()
        if self.path:
            self.faults.append(f"{self.path} have no end")

    def handle_starttag(self, tag: str, attrs: list[tuple[str, str | None]]) -> None:
        self.tags.append(tag)
        self.attributes += [(name, value or "") for name, value in attrs]
        if tag == "svg":
            width, height = dict(attrs)["viewbox"].split()[2:]  # type: ignore[union-attr]
            self.boxes.append((int(width), int(height)))
        if tag == "pre":
            self.kinds.append(dict(attrs)["class"] or "")
        if tag == "text":
            given = dict(attrs)
            self.drawn = Mark(int(given["x"] or ""), int(given["y"] or ""))
            if given["class"] == "mark":
                self.marks.append(self.drawn)
        if tag not in VOID:
            if tag not in self.path:
                self.texts.setdefault(tag, []).append("")
            self.path.append(tag)

    def handle_startendtag(self, tag: str, attrs: list[tuple[str, str | None]]) -> None:
        self.tags.append(tag)
        self.attributes += [(name, value or "") for name, value in attrs]

    def handle_endtag(self, tag: str) -> None:
        if not self.path or self.path.pop() != tag:
            self.faults.append(f"{tag} ends at {self.getpos()}")

    def handle_data(self, data: str) -> None:
        for tag in {"em"} if "em" in self.path else set(self.path):
            self.texts[tag][-1] += data
        if {"svg", "li"}.intersection(self.path):
            self.words.append(data)
        if self.path[-1:] == ["text"]:
            self.drawn.text += data

    def blocks(self, kind: str) -> list[str]:
        """The blocks of text of a class."""
        return [text for text, of in zip(self.texts["pre"], self.kinds, strict=True) if of == kind]


COMMANDS = re.compile(b"^---\n", re.MULTILINE)
"""Where a program text ends that has command lines behind it."""


def shown(text: bytes) -> str:
    """The program text as a page has it: question marks for what isn't printable."""
    text = COMMANDS.split(text, maxsplit=1)[0]
    return "".join(chr(byte) if byte in b"\t\n" or 32 <= byte <= 126 else "?" for byte in text)


def different_rules(count: int) -> bytes:
    """An accepted program of `count` rules, none of which is a copy of another one."""
    guards = [f"X {one} 1, X {other} 2" for one, other in itertools.product(SIGNS, SIGNS)]
    guards += [f"X {one} 1, X {other} 2, X =\\= 3" for one, other in itertools.product(SIGNS, SIGNS)]
    names = [f"a{number}" for number in range(count)]
    declared = ", ".join(f"{name}/1" for name in names)
    rules = "".join(f"{name}(X) <=> {guard} | true.\n" for name, guard in zip(names, guards, strict=False))
    return f":- chr_constraint {declared}.\n{rules}".encode()


def rules_of(rules: str) -> bytes:
    """A program of these rules, of symbols without arguments."""
    names = sorted(set(re.findall("[a-z]+", rules)))
    return f":- chr_constraint {', '.join(f'{name}/0' for name in names)}.\n{rules}".encode()


class Pages(unittest.TestCase):
    maxDiff = None

    def page(self, text: bytes, *options: str) -> Page:
        """The page of a text, which has the status of its explanation."""
        status, told = run("explain", text, "--html", *options)
        self.assertEqual(status, run("explain", text, *options)[0])
        self.assertTrue(told.startswith("<!DOCTYPE html>\n"))
        page = Page(told)
        self.assertEqual(page.faults, [])
        return page

    def check_alone(self, page: Page) -> None:
        """The page takes nothing from elsewhere, and does nothing."""
        self.assertEqual(FOREIGN.intersection(page.tags), set())
        names = {name for name, _ in page.attributes}
        self.assertEqual(FETCHED.intersection(names), set())
        self.assertFalse([name for name in names if name.startswith(("on", "xlink"))])
        for unwanted in ("url(", "@import", "http", "\\"):
            self.assertNotIn(unwanted, page.texts["style"][0])
        self.assertFalse([value for _, value in page.attributes if "url(" in value and "aria" not in value])

    def check_whole(self, page: Page, text: bytes, *options: str) -> None:
        """The program stands in the page, and all that is told of it."""
        told = run("explain", text, "--all", *options)[1]
        self.assertEqual(page.blocks("listing"), [shown(text)])
        self.assertEqual(page.blocks("told"), [told])
        self.assertEqual(page.blocks("change"), [rules.replace("\n  ", "\n")[2:] for rules in RULES.findall(told)])
        self.assertEqual(page.texts["h1"], [told.partition("\n")[0]])
        verdict = re.match(r"accepted|refused \d+", run("check", text, *judging(text, *options))[1])
        assert verdict
        self.assertEqual(page.texts["title"][0], f"chrrep: {verdict[0]}")

    def test_pages_stand_alone(self) -> None:
        texts = sorted(TEXTS.glob("*.chr"))
        examples = sorted(EXAMPLES.glob("*.chr"))
        self.assertTrue(texts and examples)
        for file in [*texts, *examples]:
            with self.subTest(file.name):
                text = file.read_bytes()
                page = self.page(text)
                self.check_alone(page)
                self.check_whole(page, text)

    def test_pages_by_sorted_cases(self) -> None:
        for name in ("throngs", "crowds", "coins"):
            with self.subTest(name):
                text = (TEXTS / f"{name}.chr").read_bytes()
                page = self.page(text, "--wide")
                self.check_alone(page)
                self.check_whole(page, text, "--wide")

    def test_hostile_texts_are_escaped(self) -> None:
        for rules in (b"a <=> true.", b"a <=> a.", b"b <script>\"'&\x80 <=> true.", b"a(</pre><b>). ' \" & <"):
            with self.subTest(rules):
                text = HOSTILE + rules
                page = self.page(text)
                self.check_alone(page)
                self.check_whole(page, text)
                self.assertNotIn("b", page.tags)

    def test_a_text_that_is_too_long(self) -> None:
        page = self.page(b" " * 70_000)
        self.check_alone(page)
        self.assertEqual(page.texts["title"], ["chrrep: refused 2"])

    def test_faulty_places_are_marked(self) -> None:
        marked: dict[bytes, list[str]] = {
            b":- chr_constraint a/0.\na <=> b.\n": ["b"],
            b":- chr_constraint a/0. % a\na <=> % b.\n  a.": ["a <=> % b.", "  a."],
            THROW: ["throw <=> head.", "throw <=> tail."],
            b":- chr_constraint a/0. a <=> true.": [],
        }
        for text, wanted in marked.items():
            with self.subTest(text):
                told = run("explain", text, "--html")[1]
                self.assertEqual(re.findall("<mark>(.*?)</mark>", told), [html.escape(part) for part in wanted])

    def test_both_ways_are_shown(self) -> None:
        """Of the case with the smallest store that is told each step is shown, and each end."""
        found = 0
        for file in sorted(TEXTS.glob("*.chr")):
            text = file.read_bytes()
            told = run("explain", text)[1]
            if told.startswith("refused 21"):
                found += 1
                case = told.rpartition("The smallest store")[2]
                with self.subTest(file.name):
                    page = self.page(text)
                    self.assertLessEqual(set(re.findall("^  end: (.*)$", case, re.M)), set(page.words))
                    steps = re.findall("^  \\d+\\. (.*), and leaves ", case, re.M)
                    self.assertEqual(page.tags.count("li"), len(steps))
                    self.assertLessEqual(set(steps), set(page.words))
        self.assertGreater(found, 20)

    def test_a_case_is_shown_once(self) -> None:
        """What the page has shown already is to be opened as text."""
        for name, is_shut in (("pairs", True), ("several", True), ("coins", False), ("swaps", False)):
            with self.subTest(name):
                page = self.page((TEXTS / f"{name}.chr").read_bytes())
                self.assertEqual(page.texts.get("summary", []), ["As text"] * is_shut)
                self.assertEqual("".join(page.texts.get("details", [])).count(page.blocks("told")[0]), int(is_shut))

    def test_faults_stand_below_their_lines(self) -> None:
        text = (TEXTS / "several.chr").read_bytes()
        told = run("explain", text, "--html")[1]
        lines = told.partition("</pre>")[0].split('<span class="line">')
        notes = {line: note for line, part in enumerate(lines) for note in re.findall("<em>(.*?)</em>", part)}
        self.assertEqual(
            notes,
            {
                2: "this clause is empty<br>remove the full stop, or write a clause before it",
                3: "this is a propagation rule, and these are not read<br>rules take facts away, and none only adds: "
                "see &#39;What can&#39;t be had&#39; in docs/GUIDE.md",
                4: "`a/1` is declared already<br>declare each name once for each number of arguments",
                5: "`b/0` is not declared; declared are `a/1`<br>"
                "clause 4, which is bad, would declare it: mend that one first",
                6: "`Z` stands in no head<br>write it in a head too",
                7: "this clause has no full stop<br>end it by a full stop",
            },
        )

    def test_proposed_changes_are_marked(self) -> None:
        """The rules that are told, and in them what the rule before had not."""
        rule = "best @ seen(P,T,A) \\ seen(P,U,B) <=> {} | true."
        text = f":- chr_constraint seen/3.\n{rule.format('U =< T')}\n".encode()
        self.check_whole(self.page(text), text)
        marked = [html.unescape(it) for it in re.findall("<mark>(.*?)</mark>", run("explain", text, "--html")[1])]
        self.assertEqual(marked[0], rule.format("U =< T"))
        self.assertIn("<", marked[1:])
        self.assertTrue(any(it.startswith("seen(P,") and it.endswith(" | true.") for it in marked[1:]), marked)

    def test_a_long_side(self) -> None:
        """Of a side of 137 steps the first ones are drawn, and the end."""
        text = (
            b":- chr_constraint a/0, b/0, c/0, d/0, x/0."
            b":- chr_weight a/0 = 200. :- chr_weight b/0 = 20. :- chr_weight c/0 = 2."
            b"a <=> x. a <=> b, b, b, b, b, b, b, b. b <=> c, c, c, c, c, c, c, c. c <=> d. d <=> true."
        )
        page = self.page(text)
        self.assertIn("37 steps more", page.words)
        self.assertIn("true", page.words)

    def test_a_program_of_40_rules_is_a_page(self) -> None:
        text = different_rules(40)
        page = self.page(text)
        self.check_whole(page, text)
        ((width, height),) = page.boxes
        self.assertLessEqual((width <= 1200, height <= 1500), (True, True), page.boxes)
        self.assertEqual(page.attributes.count(("class", "box")), 40)

    def test_copies_are_one_box(self) -> None:
        names = [f"x{number}" for number in range(40)]
        declared = ", ".join(f"{name}/1" for name in names)
        rules = "".join(f"{name}(A) \\ {name}(B) <=> A =< B | true.\n" for name in names)
        page = self.page(f":- chr_constraint {declared}.\n{rules}".encode())
        self.assertEqual(page.attributes.count(("class", "box")), 1)
        self.assertTrue(any("and 39 more like it" in word for word in page.words), page.words)

    def test_a_cycle_is_drawn(self) -> None:
        page = self.page((TEXTS / "swaps.chr").read_bytes())
        for word in ("a <=> b.", "b <=> a.", "once", "a/0", "b/0"):
            self.assertIn(word, page.words)

    def test_marks_hide_none(self) -> None:
        """Of two marks beside edges that are of about one height the one ends before the other one begins."""
        both_ways = "".join(f"{one} <=> {other}.\n" for one, other in itertools.permutations("abcd", 2))
        long_names = both_ways.translate({ord(name): name * 20 for name in "abcd"})
        drawn = [rules_of(both_ways), rules_of(long_names), *(different_rules(count) for count in (2, 7, 24))]
        drawn += [file.read_bytes() for file in [*sorted(TEXTS.glob("*.chr")), *sorted(EXAMPLES.glob("*.chr"))]]
        marks = 0
        for text in drawn:
            with self.subTest(text):
                page = Page(run("explain", text, "--html")[1])
                if page.texts["title"] != ["chrrep: refused 21"]:
                    marks += len(page.marks)
                    hidden = [(one, other) for one, other in itertools.permutations(page.marks, 2) if one.hides(other)]
                    self.assertEqual(hidden, [])
        self.assertGreater(marks, 100)

    def test_columns_are_drawn(self) -> None:
        page = self.page((TEXTS / "throngs.chr").read_bytes(), "--wide")
        for word in ("best/6", "by order 2, 3, 4, 5; by equality 6", "2 < 2, 3 < 3, 4 < 4, 5 < 5, 6 =\\= 6"):
            self.assertIn(word, page.words)


@unittest.skipUnless(CHROMIUM and DRIVER, "there is no Chromium with its driver: chromium, chromium-driver")
class Browsers(unittest.TestCase):
    """The environment's CHRREP_PICTURES names a folder for pictures of the pages."""

    def test_pages_in_a_browser(self) -> None:
        texts = {
            "pair": (TEXTS / "pairs.chr").read_bytes(),
            "seats": (TEXTS / "second_seats.chr").read_bytes(),
            "cycle": (TEXTS / "swaps.chr").read_bytes(),
            "columns": (TEXTS / "throngs.chr").read_bytes(),
            "faults": (TEXTS / "several.chr").read_bytes(),
            "parity": (TEXTS / "parity.chr").read_bytes(),
            "many": different_rules(40),
        }
        with TemporaryDirectory() as room, Browser(1280, 900) as browser:
            for name, text in texts.items():
                file = Path(room) / f"{name}.html"
                file.write_text(run("explain", text, "--html")[1])
                for width in WIDTHS:
                    with self.subTest(name, width=width):
                        self.look(browser, file, width)

    def look(self, browser: Browser, file: Path, width: int) -> None:
        """The page needs no room at its sides, and has both ways side by side where it is wide."""
        browser.resize(width, 900)
        browser.go(file.as_uri())
        browser.wait_for("document.readyState == 'complete'")
        if folder := os.environ.get("CHRREP_PICTURES"):
            browser.picture(Path(folder) / f"explain-{file.stem}-{width}.png")
        self.assertLessEqual(browser.run("return document.documentElement.scrollWidth"), width)
        self.assertEqual(browser.run(SCALED), [])
        self.assertEqual(browser.run(CUT), [])
        ways = browser.run(PLACES)
        if ways:
            (left, top, bottom), (right, other_top, _) = ways
            if width > 700:
                self.assertEqual((left < right, top), (True, other_top))
            else:
                self.assertEqual((left, bottom <= other_top), (right, True))


SCALED = """return [...document.querySelectorAll('svg')].map(svg => svg.getBoundingClientRect().width)
    .filter((width, at) => width != document.querySelectorAll('svg')[at].viewBox.baseVal.width)"""
"""Drawings that are not as large as they are made, so that their text would be smaller."""

CUT = """return [...document.querySelectorAll('.store, .step, .change, .told, em, figure, .listing')]
    .filter(it => it.getBoundingClientRect().right > innerWidth || !['FIGURE', 'PRE'].includes(it.tagName)
        && it.scrollWidth > it.clientWidth).map(it => it.textContent)"""
"""Parts that reach beyond the window, or text that has too little room."""

PLACES = """return [...document.querySelectorAll('.ways > section')]
    .map(way => way.getBoundingClientRect()).map(box => [box.left, box.top, box.bottom])"""

if __name__ == "__main__":
    unittest.main()
