"""Tests of tools/report and tools/drawing.py. Run: python3 tools/test_report.py

They need the programs close_sheet, park_sheet and resume_sheet in target/bin, and fail without
them. Where the command chromium is found, pages are opened in it as well.
"""

import html
import random
import re
import shutil
import struct
import subprocess
import sys
import tempfile
import unittest
import xml.etree.ElementTree as ElementTree
import zlib
from html.parser import HTMLParser
from pathlib import Path

TOOLS = Path(__file__).resolve().parent
SAMPLES = TOOLS.parent / "samples"
PROGRAMS = TOOLS.parent / "target" / "bin"
CHROMIUM = shutil.which("chromium")

sys.dont_write_bytecode = True
sys.path.insert(0, str(TOOLS))

import drawing  # noqa: E402
import refusals  # noqa: E402
from naming import Naming, load_tool  # noqa: E402

report = load_tool("report")
sheet = load_tool("sheet")

SVG = "{http://www.w3.org/2000/svg}"


def setUpModule():
    missing = [name for name in ("close_sheet", "park_sheet", "resume_sheet")
               if not (PROGRAMS / name).is_file()]
    if missing:
        sys.exit(f"{PROGRAMS} has no {', '.join(missing)}: run ./close-sheet --report"
                 " samples/p5.txt, which builds the programs")


# What a page holds.


class Reading(HTMLParser):
    """The tags of a page, and the texts, tables and folded tables under each heading."""

    VOID = {"meta", "br"}

    def __init__(self, page):
        super().__init__()
        self.page = page
        self.tags = []
        self.open = []
        self.section = "top"
        self.texts, self.tables, self.folded = {}, {}, {}
        self.verdict = ""
        self.feed(page)
        self.close()
        if self.open:
            raise AssertionError(f"not closed: {self.open}")
        drawn = re.search(r"<svg xmlns.*?</svg>", page, re.DOTALL)
        self.svg = drawn and ElementTree.fromstring(drawn[0])
        self.verdict_kind = re.search(r'class="verdict (\w+)"', page)[1]

    def handle_starttag(self, tag, attrs):
        given = dict(attrs)
        self.tags.append((tag, given))
        if tag not in self.VOID:
            self.open.append((tag, given.get("class") or ""))
        if tag == "h2":
            self.section = given.get("id", "others")
        elif tag == "table":
            where = self.folded if any(name == "details" for name, _ in self.open) else self.tables
            where.setdefault(self.section, []).append([])
            self.table = where[self.section][-1]
        elif tag == "tr":
            self.table.append([])
        elif tag in ("td", "th"):
            self.table[-1].append("")
        elif tag in ("br", "span") and self.in_cell():
            self.table[-1][-1] += " "

    def handle_startendtag(self, tag, attrs):
        self.tags.append((tag, dict(attrs)))

    def handle_endtag(self, tag):
        name, _ = self.open.pop()
        if name != tag:
            raise AssertionError(f"<{name}> is closed by </{tag}>")

    def handle_data(self, data):
        names = [name for name, _ in self.open]
        if "style" in names or "svg" in names:
            return
        if self.in_cell():
            self.table[-1][-1] = " ".join(f"{self.table[-1][-1]}{data}".split(" "))
        self.texts[self.section] = self.texts.get(self.section, "") + data
        if any(css.startswith("verdict") for _, css in self.open):
            self.verdict += data + " "

    def in_cell(self):
        return any(name in ("td", "th") for name, _ in self.open)

    def rows(self, section, place=0):
        """The rows of a table without its head."""
        return [[" ".join(cell.split()) for cell in row]
                for row in self.tables[section][place][1:]]

    def said(self, section):
        return " ".join(self.texts[section].split())


def page_of(path):
    return Reading(report.report(str(path), PROGRAMS))


def page_of_text(text, name="sheet.txt"):
    with tempfile.TemporaryDirectory() as made:
        path = Path(made) / name
        path.write_text(text, encoding="utf-8")
        return page_of(path)


def run_tool(*arguments, **options):
    return subprocess.run([sys.executable, TOOLS / "report", *arguments], capture_output=True,
                          check=False, **options)


def samples():
    return sorted(path for path in SAMPLES.glob("*.txt"))


# What a drawing holds.


def numbers(element, *names):
    return tuple(float(element.get(name)) for name in names)


def css_of(element):
    return (element.get("class") or "").split()


class Drawn:
    """The boxes, nodes, names and edges of a drawing; the legend is left out."""

    def __init__(self, svg):
        self.svg = svg
        self.size = numbers(svg, "width", "height")
        self.classes, self.areas, self.edges, self.links = {}, {}, [], set()
        for shape in svg:
            css = css_of(shape)
            if "class" in css:
                self.classes[int(shape.get("data-root"))] = shape
                self.areas[shape] = numbers(shape.find(SVG + "rect"), "x", "y", "width", "height")
                self.links |= {(int(link.get("data-from")), int(link.get("data-to")))
                               for link in shape.iter(SVG + "path") if "link" in css_of(link)}
            elif "application" in css:
                self.areas[shape] = numbers(shape.find(SVG + "rect"), "x", "y", "width", "height")
            elif "label" in css:
                for text in shape.iter(SVG + "text"):
                    x, y = numbers(text, "x", "y")
                    width = drawing.text_width(text.text, drawing.SMALL)
                    self.areas[text] = x - width / 2, y - 11, width, 14
            elif shape.tag == SVG + "path":
                self.edges.append(shape)

    def conflicts(self):
        return {root for root, shape in self.classes.items() if "conflict" in css_of(shape)}

    def marked_facts(self, root):
        return [text.text for text in self.classes[root].iter(SVG + "text")
                if "clash-text" in css_of(text)]

    def facts(self, root):
        return [text.text for text in self.classes[root].iter(SVG + "text")
                if "fact-text" in css_of(text)]

    def members(self, root):
        return {int(shape.get("data-element")): css_of(shape)
                for shape in self.classes[root].iter(SVG + "g") if "member" in css_of(shape)}

    def red_edges(self):
        return {(int(edge.get("data-from")), int(edge.get("data-to")))
                for edge in self.edges if "clash" in css_of(edge)}

    def fact_edges(self):
        return {(int(edge.get("data-from")), int(edge.get("data-to")))
                for edge in self.edges if "fact" in css_of(edge)}

    def labels(self):
        return sorted(text.text for text in self.areas if text.tag == SVG + "text")

    def troubles(self):
        """What overlaps, stands outside, or is crossed by an edge."""
        areas, (wide, high) = list(self.areas.values()), self.size
        found = []
        for place, (x, y, width, height) in enumerate(areas):
            if x < 0 or y < 0 or x + width > wide or y + height > high:
                found.append(f"outside: {areas[place]}")
            for other_x, other_y, other_width, other_height in areas[:place]:
                if (x < other_x + other_width and other_x < x + width
                        and y < other_y + other_height and other_y < y + height):
                    found.append(f"overlap: {areas[place]}")
        for edge in self.edges:
            if re.search(r"[H ](\S+)(?: \S+)?H\1$", edge.get("d")):
                found.append(f"a tip without a direction: {edge.get('d')}")
            for at_x, at_y in points(edge.get("d")):
                if not (0 <= at_x <= wide and 0 <= at_y <= high):
                    found.append(f"outside: {edge.get('d')}")
                    break
                if any(x + 1 < at_x < x + width - 1 and y + 1 < at_y < y + height - 1
                       for x, y, width, height in areas):
                    found.append(f"through a box or a name: {edge.get('d')}")
                    break
        return found


def points(path):
    """Points along a path, close to each other."""
    words = iter(re.findall(r"[MHC]|-?[\d.]+", path))
    take = lambda: float(next(words))
    x = y = 0
    for word in words:
        if word == "M":
            x, y = take(), take()
            yield x, y
        elif word == "H":
            end = take()
            yield from ((x + (end - x) * step / 10, y) for step in range(1, 11))
            x = end
        else:
            x1, y1, x2, y2, x3, y3 = (take() for _ in range(6))
            for step in range(1, 25):
                t = step / 24
                u = 1 - t
                yield (u ** 3 * x + 3 * u * u * t * x1 + 3 * u * t * t * x2 + t ** 3 * x3,
                       u ** 3 * y + 3 * u * u * t * y1 + 3 * u * t * t * y2 + t ** 3 * y3)
            x, y = x3, y3


class Samples(unittest.TestCase):
    """What is said of single samples."""

    def test_unnamed_box(self):
        page = page_of(SAMPLES / "unnamed-box.txt")
        self.assertEqual(page.verdict_kind, "good")
        self.assertIn("Settled, with no conflicts.", page.verdict)
        self.assertEqual(page.rows("run"), [
            ["line 56", "close", "yes", "1", "2", "21", "close 1 1 2 21"],
            ["line 57", "conflicts", "9 reported", "conflicts 9"],
            ["line 58", "close", "yes", "1", "3", "0", "close 1 1 3 0"],
            ["line 59", "close", "no", "0", "1", "0", "close 0 0 1 0"],
            ["line 60", "conflicts", "none reported", "conflicts 0"],
            ["", "end", "46 records carried out", "end 46"]])
        packs = [f"pack-{number}" for number in range(1, 10)]
        self.assertEqual(page.rows("classes"), [
            ["box-7", "box-7, unnamed", "no", "none"],
            ["unit-k", "unit-k, unit-x", "no", "Unit of box-7"],
            ["plate", "plate", "no", "Plate of box-7"],
            *([pack, pack, "no", "Pack of unit-k"] for pack in packs)])
        # The nine conflicts that were reported too early are folded, and said to be so.
        self.assertNotIn("conflicts", page.tables)
        self.assertEqual(page.folded["conflicts"][0][1:],
                         [[pack, "Pack of unit-k", "Pack of unit-x"] for pack in packs])
        self.assertIn("Reported at line 57: 9 conflicts", page.said("conflicts"))
        self.assertIn("at the end there are none. The structure was not settled there",
                      page.said("conflicts"))
        drawn = Drawn(page.svg)
        self.assertEqual(drawn.conflicts(), set())
        self.assertEqual(drawn.links, {(1, 0), (3, 2)})
        self.assertEqual(drawn.fact_edges(),
                         {(2, 0), (4, 0), *((pack, 2) for pack in range(5, 14))})
        self.assertEqual(drawn.labels(), ["unit-of"])
        self.assertIn("root", drawn.members(0)[0])
        self.assertNotIn("root", drawn.members(0)[1])

    def test_too_early(self):
        """The sheet of the nine packs, ended after its first report."""
        lines = (SAMPLES / "unnamed-box.txt").read_text(encoding="utf-8").split("\n")[:57]
        page = page_of_text("\n".join(lines))
        self.assertEqual(page.verdict_kind, "open")
        self.assertIn("Not settled yet: a further close may change more.", page.verdict)
        self.assertIn("9 conflicts now, which may not be those of the sheet", page.verdict)
        self.assertIn("These may not be the conflicts of the sheet", page.said("conflicts"))
        self.assertIn("Nine healthy clutch packs", page.said("conflicts"))
        self.assertEqual(len(page.rows("conflicts")), 9)
        drawn = Drawn(page.svg)
        self.assertEqual(drawn.conflicts(), set(range(5, 14)))
        self.assertEqual(drawn.red_edges(),
                         {(pack, unit) for pack in range(5, 14) for unit in (2, 3)})
        self.assertEqual(drawn.marked_facts(5), ["Pack of unit-k", "Pack of unit-x"])
        # The application that is still stored under the old box.
        self.assertIn(["unit-of [unnamed (one with box-7)]", "unit-x"], page.rows("applications"))
        self.assertEqual(drawn.labels(), ["unit-of", "unit-of"])

    def test_settle(self):
        page = page_of(SAMPLES / "unnamed-box-settled.txt")
        self.assertEqual(page.verdict_kind, "good")
        self.assertEqual(page.rows("run"), [
            ["line 57", "settle: 3 closes", "", "2", "", "", "settle 3 2"],
            ["", "close 1 of 3", "yes", "1", "2", "21", "close 1 1 2 21"],
            ["", "close 2 of 3", "yes", "1", "3", "0", "close 1 1 3 0"],
            ["", "close 3 of 3", "no", "0", "1", "0", "close 0 0 1 0"],
            ["line 59", "conflicts", "none reported", "conflicts 0"],
            ["", "end", "43 records carried out", "end 43"]])
        self.assertIn("There are none at the end.", page.said("conflicts"))

    def test_two_names(self):
        page = page_of(SAMPLES / "two-names.txt")
        self.assertEqual(page.verdict_kind, "bad")
        self.assertIn("Settled, with 1 conflict. drum-k1 cannot be both Drum of box-a and Drum of"
                      " box-b.", " ".join(page.verdict.split()))
        self.assertEqual(page.rows("conflicts"),
                         [["drum-k1 also called drum-c", "Drum of box-a", "Drum of box-b"]])
        self.assertIn("Reported by the sheet itself at line 21.", page.said("conflicts"))
        self.assertEqual(page.rows("classes")[2],
                         ["drum-k1 ⚠ conflict", "drum-k1, drum-c", "no",
                          "Drum of box-a Drum of box-b"])
        drawn = Drawn(page.svg)
        self.assertEqual(drawn.conflicts(), {2})
        self.assertEqual(drawn.marked_facts(2), ["Drum of box-a", "Drum of box-b"])
        self.assertEqual(drawn.red_edges(), {(2, 0), (2, 1)})
        self.assertEqual(drawn.links, {(3, 2)})

    def test_transfer_box(self):
        page = page_of(SAMPLES / "transfer-box.txt")
        self.assertEqual(page.verdict_kind, "bad")
        self.assertEqual(page.rows("run")[0],
                         ["line 51", "close", "yes", "4", "3", "14", "close 1 4 3 14"])
        self.assertEqual(page.rows("conflicts"),
                         [["bearing-8", "Bearing of input", "Bearing of rear"]])
        self.assertEqual([row[1] for row in page.rows("classes")],
                         ["input, primary", "counter, layshaft", "rear, output, main", "reduction",
                          "final", "low", "direct", "bearing-3", "bearing-8"])
        self.assertIn(["comp (reduction, final)", "low"], page.rows("applications"))
        self.assertIn(["cod (direct)", "rear"], page.rows("applications"))
        drawn = Drawn(page.svg)
        self.assertEqual(drawn.conflicts(), {12})
        self.assertEqual(drawn.red_edges(), {(12, 0), (12, 2)})
        self.assertEqual(drawn.labels(), [*["cod"] * 3, *["dom"] * 3, "dom, cod", "id"])
        nodes = [shape for shape in drawn.areas if "application" in css_of(shape)]
        self.assertEqual([[text.text for text in node.iter(SVG + "text")] for node in nodes],
                         [["1", "2", "comp"]])

    def test_p5(self):
        page = page_of(SAMPLES / "p5.txt")
        self.assertEqual(page.verdict_kind, "good")
        self.assertEqual([row[2:6] for row in page.rows("run")[:3]],
                         [["yes", "1", "2", "3"], ["yes", "1", "3", "0"], ["no", "0", "1", "0"]])
        self.assertEqual(page.rows("classes"), [["box-a", "box-a, box-b", "no", "none"],
                                                ["drum-a", "drum-a, drum-b", "no", "Drum of box-a"],
                                                ["fifth", "fifth", "no", "Drum of box-a"]])
        self.assertEqual(page.rows("others"), [["fifth", "Drum of box-a"]] * 2)  # impositions

    def test_refused_parents(self):
        page = page_of(SAMPLES / "refused-parents.txt")
        self.assertEqual(page.verdict_kind, "refused")
        self.assertIn("Refused with 15 at line 12: impose coupling-2 Coupling [box-b]",
                      page.verdict)
        self.assertIn("Coupling has 2 parents (Box, Box), 1 given", page.verdict)
        self.assertIn(refusals.REFUSALS[15].remedy, page.verdict)
        self.assertIn("the structure before this record, which is left as it was. It is not settled"
                      " and has no conflicts.", page.verdict)
        self.assertEqual(page.rows("run"), [
            ["line 11", "close", "yes", "0", "1", "1", "close 1 0 1 1"],
            ["line 12", "refused with 15", "not carried out, nor is what comes after it",
             "refused 15 at 8"]])
        self.assertEqual(page.rows("classes")[2:],
                         [["coupling-1", "coupling-1", "no", "Coupling of box-a, box-b"],
                          ["coupling-2", "coupling-2", "no", "none"]])
        self.assertEqual(Drawn(page.svg).fact_edges(), {(2, 0), (2, 1)})

    def test_refused_at_once(self):
        for name in ("empty", "records-1025"):
            page = page_of(SAMPLES / f"{name}.txt")
            self.assertEqual(page.verdict_kind, "refused")
            self.assertIn("Refused with 1 before any record", page.verdict)
            self.assertIn("there is no structure to show", page.verdict)
            self.assertIsNone(page.svg)
            self.assertEqual(page.rows("run")[0][1], "refused with 1")

    def test_nothing_in_it(self):
        page = page_of(SAMPLES / "p1.txt")
        self.assertEqual(page.verdict_kind, "good")
        self.assertIn("There are no elements.", page.said("classes"))
        self.assertIsNone(page.svg)


class EverySample(unittest.TestCase):
    """What holds of the page of every sample."""

    @classmethod
    def setUpClass(cls):
        cls.pages = {path.stem: page_of(path) for path in samples()}

    def each(self):
        for name, page in self.pages.items():
            with self.subTest(name):
                yield name, page

    def test_lines(self):
        """Every line that the sheet program prints stands in its row, with its numbers."""
        for name, page in self.each():
            lines = (SAMPLES / f"{name}.out").read_text(encoding="ascii").splitlines()
            rows = [row for row in page.rows("run") if not re.match(r"close \d+ of", row[1])]
            self.assertEqual([row[-1] for row in rows],
                             [line for line in lines if not line.startswith("conflict ")])
            for row in rows:
                word, *counts = row[-1].split()
                if word == "close":
                    self.assertEqual(row[2:6], ["yes" if counts[0] == "1" else "no", *counts[1:]])
                elif word == "conflicts":
                    self.assertEqual(row[2], f"{'none' if counts == ['0'] else counts[0]} reported")
                elif word == "settle":
                    closes = "1 close" if counts[0] == "1" else f"{counts[0]} closes"
                    self.assertEqual([row[1], row[3]], [f"settle: {closes}", counts[1]])

    def test_last_conflicts(self):
        """Where nothing is closed after the last report, its conflicts are those of the end."""
        for name, page in self.each():
            lines = (SAMPLES / f"{name}.out").read_text(encoding="ascii").splitlines()
            if len(lines) < 2 or not lines[-2].startswith("conflicts "):
                continue
            _, naming = Naming.of_text((SAMPLES / f"{name}.txt").read_text(encoding="utf-8"))
            count = int(lines[-2].split()[1])
            expected = []
            for line in lines[-2 - count:-2]:
                el, one, other = report.conflict_of(line)
                expected.append([naming.element(el), naming.fact(*one), naming.fact(*other)])
            rows = page.rows("conflicts") if count else []
            self.assertEqual([[row[0].split(" also")[0], *row[1:]] for row in rows], expected)

    def test_needs_nothing_else(self):
        for _, page in self.each():
            check_alone(self, page)

    def test_links_in_the_page(self):
        for _, page in self.each():
            ids = [given["id"] for _, given in page.tags if "id" in given]
            self.assertEqual(len(ids), len(set(ids)))
            for _, given in page.tags:
                if "href" in given:
                    self.assertIn(given["href"][1:], ids)

    def test_drawings(self):
        for name, page in self.each():
            if page.svg is None:
                continue
            drawn = Drawn(page.svg)
            self.assertEqual(drawn.troubles(), [])
            self.assertEqual(page.svg.get("role"), "img")
            for sort in ("title", "desc"):
                self.assertTrue(page.svg.find(SVG + sort).text)
            self.assertTrue(any("legend" in css_of(shape) for shape in page.svg))
            rows = page.rows("conflicts") if "conflicts" in page.tables else []
            self.assertEqual(len(drawn.conflicts()), len(rows))
            for root in drawn.classes:
                self.assertEqual(len(drawn.marked_facts(root)),
                                 2 if root in drawn.conflicts() else 0)

    def test_sheets(self):
        """The sheet gives the same page as its text, but for names and lines."""
        for name, page in self.each():
            other = page_of(SAMPLES / f"{name}.sheet")
            self.assertEqual(other.verdict_kind, page.verdict_kind)
            self.assertEqual([row[1:] for row in other.rows("run")],
                             [row[1:] for row in page.rows("run")])
            self.assertEqual(other.svg is None, page.svg is None)
            if page.svg is not None:
                one, two = Drawn(page.svg), Drawn(other.svg)
                self.assertEqual(list(one.classes), list(two.classes))
                self.assertEqual(one.conflicts(), two.conflicts())
                self.assertEqual(one.fact_edges(), two.fact_edges())


LOADING_TAGS = {"script", "link", "img", "image", "iframe", "object", "embed", "base", "video",
                "audio", "source", "form", "foreignobject", "use"}
LOADING_ATTRIBUTES = {"src", "srcset", "action", "data", "poster", "xlink:href", "style"}


def check_alone(test, page):
    """A page that loads nothing and runs nothing."""
    for tag, given in page.tags:
        test.assertNotIn(tag, LOADING_TAGS)
        for name, value in given.items():
            test.assertFalse(name.startswith("on"), name)
            test.assertNotIn(name, LOADING_ATTRIBUTES)
            if name == "href":
                test.assertTrue(value.startswith("#"), value)
            if value and "url(" in value:
                test.assertTrue(value.startswith("url(#"), value)
            if value and "http" in value:
                test.assertEqual((name, value), ("xmlns", "http://www.w3.org/2000/svg"))
    for style in re.findall(r"<style>(.*?)</style>", page.page, re.DOTALL):
        for word in ("@import", "url(", "expression", "@font-face"):
            test.assertNotIn(word, style)
    test.assertNotIn("<script", page.page.lower())


class Sheets(unittest.TestCase):
    """Sheets of every kind."""

    def test_large(self):
        """Only classes with conflicts are drawn, and it is said how many are left out."""
        page = page_of(SAMPLES / "long-print.txt")
        drawn = Drawn(page.svg)
        self.assertEqual(set(drawn.classes), set(range(64)))
        self.assertEqual(drawn.conflicts(), set(range(64)))
        self.assertEqual(drawn.facts(0), ["T of m0, m1, m2, m3", "T of m3, m2, m1, m0"])
        self.assertEqual(drawn.edges, [])
        self.assertIn("only the classes with conflicts are drawn", page.said("drawing"))
        self.assertIn("4 classes are left out", page.said("drawing"))
        self.assertEqual(len(page.rows("classes")), 68)

    def test_large_with_boxes_of_different_widths(self):
        names = ["e" * (1 + place % 9) + f"-{place}" for place in range(50)]
        lines = ["type A plain", "type B plain", *(f"element {name}" for name in names),
                 *(f"impose {name} {kind}" for name in names[:30] for kind in "AB"), "settle"]
        page = page_of_text("\n".join(lines))
        drawn = Drawn(page.svg)
        self.assertEqual(set(drawn.classes), set(range(30)))
        self.assertEqual(drawn.troubles(), [])
        self.assertIn("20 classes are left out", page.said("drawing"))

    def test_limit_of_a_large_one(self):
        for count in (drawing.MOST_ELEMENTS, drawing.MOST_ELEMENTS + 1):
            page = page_of_text("".join(f"element e{el}\n" for el in range(count)) + "settle\n")
            is_large = count > drawing.MOST_ELEMENTS
            self.assertEqual("large sheet" in page.said("drawing"), is_large)
            self.assertEqual(page.svg is None, is_large)
            self.assertEqual("nothing to draw" in page.said("drawing"), is_large)
            if not is_large:
                self.assertEqual(len(Drawn(page.svg).classes), count)

    def test_many_edges(self):
        """Few elements, and more edges than can be told apart."""
        page = page_of(SAMPLES / "three-pages.txt")
        self.assertIn("36 classes of 36 elements", page.said("drawing"))
        self.assertEqual(set(Drawn(page.svg).classes), set(range(32)))

    def test_one_class(self):
        """256 elements that are one, with a conflict."""
        lines = ["type A plain", "type B plain", *(f"element e{el}" for el in range(256)),
                 *(f"equal e{el} e{el + 1}" for el in range(255)),
                 "impose e3 A", "impose e5 B", "settle"]
        page = page_of_text("\n".join(lines))
        self.assertEqual(page.rows("conflicts"),
                         [["e0 also called e1, e2, e3, e4, e5, e6 and 249 more names", "A", "B"]])
        drawn = Drawn(page.svg)
        self.assertEqual(len(drawn.members(0)), drawing.MOST_MEMBERS)
        self.assertEqual(drawn.marked_facts(0), ["A", "B"])
        self.assertEqual(drawn.troubles(), [])
        self.assertEqual(page.rows("classes")[0][1], ", ".join(f"e{el}" for el in range(256)))

    def test_most_facts(self):
        """1,024 facts: eight of each of 128 elements."""
        lines = ["type M model", "type T plain [M]", "predicate p [M] (T T T T)",
                 *(f"element x{el}" for el in range(128)), *(f"element m{el}" for el in range(8))]
        for first in range(0, 128, 4):
            four = " ".join(f"x{el}" for el in range(first, first + 4))
            lines += [f"holds p [m{el}] ({four})" for el in range(8)]
        page = page_of_text("\n".join([*lines, "close", "close"]))
        self.assertIn("1,024 facts", page.said("top"))
        self.assertEqual(len(page.rows("conflicts")), 128)
        self.assertEqual(Drawn(page.svg).troubles(), [])

    def test_kinds_of_entries(self):
        page = page_of_text(
            "type Box model\ntype Drum plain [Box]\nfunction first -> Box\n"
            "function pair [Box] (Drum) -> Drum\nfunction own (Drum) -> Drum\n"
            "predicate tight (Drum)\npredicate near (Drum Drum)\npredicate always\n"
            "element box\nelement drum marked\nelement other\nelement spare\n"
            "apply first = box\napply pair [box] (drum) = drum\napply own (drum) = drum\n"
            "holds tight (drum)\nholds near (drum other)\nholds always\n"
            "variable 7 spare\nambient Box box\nsettle\nequal other spare\n")
        self.assertEqual(page.verdict_kind, "open")
        self.assertIn(["drum", "drum", "yes", "Drum of box"], page.rows("classes"))
        self.assertEqual(page.rows("applications"),
                         [["first", "box"], ["pair [box] (drum)", "drum"], ["own (drum)", "drum"]])
        self.assertEqual(page.rows("applications", 1),
                         [["tight (drum)"], ["near (drum, other)"], ["always"]])
        self.assertEqual(page.rows("others"), [["7", "spare"]])
        self.assertEqual(page.rows("others", 1), [["Box", "box"]])
        self.assertEqual(page.rows("others", 2), [["other", "spare"]])
        for heading in ("Variables", "Ambient elements", "Pairs that wait"):
            self.assertIn(heading, page.page)
        self.assertNotIn("Impositions that are queued", page.page)
        drawn = Drawn(page.svg)
        self.assertEqual(drawn.troubles(), [])
        self.assertIn("marked", drawn.members(1)[1])
        self.assertEqual(drawn.labels(), ["own"])
        names = [[text.text for text in shape.iter(SVG + "text")] for shape in drawn.areas
                 if "application" in css_of(shape)]
        self.assertEqual(names, [["first"], ["1", "2", "pair"], ["1", "2", "near"], ["always"]])

    def test_names_of_every_script(self):
        page = page_of_text("type Getriebe model\ntype Träger plain [Getriebe]\nelement 箱-一\n"
                            "element größe\nimpose größe Träger [箱-一]\nsettle\n",
                            "Träger-箱.txt")
        self.assertEqual(page.rows("classes")[1], ["größe", "größe", "no", "Träger of 箱-一"])
        self.assertIn("Träger-箱.txt", page.said("top"))
        self.assertEqual(Drawn(page.svg).facts(1), ["Träger of 箱-一"])

    def test_long_names(self):
        long = "a-name-that-goes-on" * 20
        page = page_of_text(f"type {long} model\nelement {long}\nimpose {long} {long}\nsettle\n")
        self.assertEqual(page.rows("classes"), [[long, long, "no", long]])
        drawn = Drawn(page.svg)
        self.assertEqual(drawn.troubles(), [])
        self.assertTrue(drawn.facts(0)[0].endswith("…"))
        self.assertLess(drawn.size[0], 500)

    def test_not_declared(self):
        page = page_of_text("type Box model\nelement box\nsettle\nimpose bax Box\n")
        self.assertEqual(page.verdict_kind, "refused")
        self.assertIn("Refused with 5 at line 4: impose bax Box", page.verdict)
        self.assertIn("bax is not declared as an element", page.verdict)
        self.assertIn("It is settled and has no conflicts.", page.verdict)

    def test_refused_first(self):
        page = page_of_text("close next 7\n")
        self.assertIn("Refused with 2 at line 1: close next 7", page.verdict)
        self.assertIn("there is no structure to show", page.verdict)
        self.assertNotIn("classes", page.tables)

    def test_refused_chain(self):
        """All records before the one whose next index is not in the sheet are carried out."""
        page = page_of_text("element one\nelement two\nclose next 9\n")
        self.assertIn("Refused with 2 at line 3: close next 9", page.verdict)
        self.assertEqual([row[0] for row in page.rows("classes")], ["one", "two"])

    def test_refused_with_conflicts(self):
        """The conflicts before the refused record, though no record asked for them."""
        page = page_of_text("type A plain\ntype B plain\nelement one\nimpose one A\nimpose one B\n"
                            "settle\nequal one 9\nconflicts\n")
        self.assertIn("It is settled and has 1 conflict.", page.verdict)
        self.assertEqual(page.rows("conflicts"), [["one", "A", "B"]])
        self.assertIn("1 conflict before the refused record", page.said("conflicts"))
        self.assertEqual(Drawn(page.svg).conflicts(), {0})

    def test_circle(self):
        """A chain that comes to one record again and again; the 257th element is refused."""
        lines = ["element first", "element next 1", *["close"] * 298]
        page = page_of_text("\n".join(lines))
        self.assertIn("Refused with 9 at line 2", page.verdict)
        self.assertEqual(len(page.rows("classes")), 256)
        page = page_of_text("element first\nclose next 1\nclose\nclose\n")
        self.assertEqual([row[0] for row in page.rows("run")], ["line 2"] * 3)
        self.assertIn("Refused with 2 at line 2", page.verdict)

    def test_settle_without_room(self):
        """The closes of a settle that do not fit in a sheet are not shown."""
        text = (SAMPLES / "p5-settled.txt").read_text(encoding="utf-8")
        for filler, fits in ((1009, True), (1010, False)):
            page = page_of_text(text.replace(
                "\nsettle", "\n" + "impose fifth Drum [box-a]\n" * filler + "settle"))
            rows = page.rows("run")
            self.assertEqual(rows[0][1:4], ["settle: 3 closes", "", "2"])
            if fits:
                self.assertEqual([row[1] for row in rows[1:4]],
                                 [f"close {place} of 3" for place in (1, 2, 3)])
            else:
                self.assertIn("only the totals are shown", rows[1][1])
                self.assertEqual(rows[2][1], "end")

    def test_two_settles(self):
        page = page_of_text("element a\nelement b\nelement c\nequal a b\nsettle\nclose\nequal b c\n"
                            "settle\nconflicts\n")
        self.assertEqual([row[-1] for row in page.rows("run")],
                         ["settle 2 1", "close 1 1 2 0", "close 0 0 1 0", "close 0 0 1 0",
                          "settle 2 1", "close 1 1 2 0", "close 0 0 1 0", "conflicts 0", "end 9"])

    def test_same_list_once(self):
        page = page_of(SAMPLES / "three-pages.txt")
        self.assertIn("Reported by the sheet itself at line 62 and 6 more places.",
                      page.said("conflicts"))
        self.assertNotIn("conflicts", page.folded)

    def test_sheet_with_a_wrong_length(self):
        with tempfile.TemporaryDirectory() as made:
            path = Path(made) / "short.sheet"
            path.write_bytes(b"\x00" * 31)
            page = page_of(path)
        self.assertIn("Refused with 1 before any record", page.verdict)

    def test_hostile_name(self):
        """A file name is text, whatever it says."""
        name = "<script>alert(1)<&\"'><img src=x onerror=alert(2)>\n.txt"
        page = page_of_text((SAMPLES / "two-names.txt").read_text(encoding="utf-8"), name)
        check_alone(self, page)
        self.assertIn(name.replace("\n", "�"), page.said("top"))
        self.assertIn(html.escape("<script>alert(1)<&\"'>"), page.page)

    def test_name_that_is_no_text(self):
        with tempfile.TemporaryDirectory() as made:
            path = (Path(made) / "a").as_posix() + "\udcff.txt"
            Path(path).write_text("close\n", encoding="utf-8")
            self.assertIn("a?.txt", page_of(path).said("top"))


class Command(unittest.TestCase):
    def fails(self, done, said):
        self.assertEqual((done.returncode, done.stdout), (1, b""))
        self.assertIn(said, done.stderr.decode())
        self.assertNotIn("Traceback", done.stderr.decode())

    def test_writes_the_page(self):
        path = SAMPLES / "p5.txt"
        done = run_tool("--programs", PROGRAMS, "--", path)
        self.assertEqual((done.returncode, done.stderr), (0, b""))
        self.assertEqual(done.stdout.decode(), report.report(str(path), PROGRAMS))

    def test_what_cannot_be_read(self):
        self.fails(run_tool("--programs", PROGRAMS, SAMPLES / "none.txt"), "No such file")
        self.fails(run_tool("--programs", PROGRAMS, SAMPLES), "Is a directory")
        self.fails(run_tool("--programs", SAMPLES, SAMPLES / "p5.txt"), "close_sheet: No such file")
        self.fails(run_tool(SAMPLES / "p5.txt"), "--programs")

    def test_text_that_is_no_sheet(self):
        with tempfile.TemporaryDirectory() as made:
            path = Path(made) / "wrong.txt"
            path.write_text("element a\nelemnt b\n", encoding="utf-8")
            self.fails(run_tool("--programs", PROGRAMS, path), "line 2: 'elemnt'")
            path.write_bytes(b"element a\n\xff\n")
            self.fails(run_tool("--programs", PROGRAMS, path), "line 2: byte 255 is not UTF-8")

    def test_programs_that_fail(self):
        with tempfile.TemporaryDirectory() as made:
            for broken, text in (("close_sheet", "exit 0"), ("close_sheet", "exit 3"),
                                 ("close_sheet", "echo end 99"), ("park_sheet", "echo no >&2"),
                                 ("park_sheet", "echo short"),
                                 ("resume_sheet", "echo refused 14 at 0"),
                                 ("resume_sheet", "echo conflicts 0"),
                                 ("resume_sheet", "echo end 1"),
                                 ("resume_sheet", "echo conflicts 1; echo end 4"),
                                 ("close_sheet", "echo refused 5 at 99"),
                                 ("close_sheet", "echo settle 1 0; echo end 15")):
                folder = Path(tempfile.mkdtemp(dir=made))
                for name in ("close_sheet", "park_sheet", "resume_sheet"):
                    (folder / name).symlink_to(PROGRAMS / name)
                (folder / broken).unlink()
                (folder / broken).write_text(f"#!/bin/sh\ncat >/dev/null\n{text}\n",
                                             encoding="utf-8")
                (folder / broken).chmod(0o755)
                with self.subTest(broken=broken, text=text):
                    done = run_tool("--programs", folder, SAMPLES / "p5.txt")
                    self.fails(done, "p5.txt: ")

    def test_output_that_cannot_be_written(self):
        with open("/dev/full", "wb") as full:
            done = subprocess.run(
                [sys.executable, TOOLS / "report", "--programs", PROGRAMS, SAMPLES / "p5.txt"],
                stdout=full, stderr=subprocess.PIPE, check=False)
        self.assertEqual(done.returncode, 1)
        self.assertIn(b"standard output", done.stderr)


class Made:
    """A structure made up for a drawing, and its names."""

    def __init__(self, seed):
        rng = random.Random(seed)
        count, edges = rng.randrange(1, drawing.MOST_ELEMENTS + 1), rng.choice([3, 10, 30, 60])
        self.links = [el if rng.random() < 0.7 else rng.randrange(el + 1) for el in range(count)]
        self.members = {}
        for el in range(count):
            self.members.setdefault(self.root(el), []).append(el)
        self.marks = [int(self.links[el] == el and rng.random() < 0.2) for el in range(count)]
        roots = list(self.members)
        self.facts, self.func_apps, self.pred_apps = {}, [], []
        while edges > 0:
            kind = rng.random()
            els = tuple(rng.randrange(count) for _ in range(rng.choice([0, 1, 1, 1, 2, 4])))
            edges -= len(els) + 0.5
            if kind < 0.5:
                facts = self.facts.setdefault(rng.choice(roots), [])
                facts.append((rng.randrange(5), tuple(map(self.root, els))))
            elif kind < 0.85:
                self.func_apps.append((rng.randrange(9), els[:1], els[1:], rng.randrange(count)))
            else:
                self.pred_apps.append((rng.randrange(9), (), els))
        self.conflicts = {root: tuple(facts[:2]) for root, facts in self.facts.items()
                          if len(facts) > 1 and facts[0] != facts[1]}

    def root(self, el):
        while self.links[el] != el:
            el = self.links[el]
        return el

    def element(self, el):
        return f"element-{el}" * (1 if el % 7 else 3)

    def function(self, number):
        return "f" * (1 + 3 * number)

    def predicate(self, number):
        return f"p{number}"

    def fact(self, typ, parents):
        return f"T{typ} of " + ", ".join(map(self.element, parents))


class Drawings(unittest.TestCase):
    def test_made_up(self):
        for seed in range(100):
            with self.subTest(seed=seed):
                made = Made(seed)
                drawn = Drawn(ElementTree.fromstring(
                    drawing.draw(made, made, made.conflicts, "t", "d")))
                self.assertEqual(drawn.troubles(), [])
                if drawing.is_large(made):
                    continue
                self.assertEqual(set(drawn.classes), set(made.members))
                self.assertEqual(drawn.conflicts(), set(made.conflicts))
                self.assertEqual(drawn.links, {(el, to) for el, to in enumerate(made.links)
                                               if el != to})
                for root, members in made.members.items():
                    self.assertEqual(set(drawn.members(root)), set(members))
                    self.assertEqual({el for el, css in drawn.members(root).items()
                                      if "marked" in css}, {el for el in members if made.marks[el]})
                    shown = made.facts.get(root, [])
                    if len(shown) <= drawing.MOST_FACTS:
                        parents = {(root, parent) for _, of in shown for parent in of
                                   if parent != root}
                        self.assertEqual({edge for edge in drawn.fact_edges() if edge[0] == root},
                                         parents)
                        self.assertEqual(len(drawn.facts(root)), len(shown))

    def test_many_beside_each_other(self):
        """Boxes that belong to one are spread over several columns."""
        made = Made(0)
        count = drawing.MOST_ELEMENTS
        made.links, made.marks = list(range(count)), [0] * count
        made.members = {el: [el] for el in range(count)}
        made.facts = {el: [(0, (0,))] for el in range(1, count)}
        made.func_apps, made.pred_apps = [], []
        drawn = Drawn(ElementTree.fromstring(drawing.draw(made, made, {}, "t", "d")))
        self.assertEqual(drawn.troubles(), [])
        self.assertLess(drawn.size[1], 1800)

    def test_text_size(self):
        """Nothing in the drawing is smaller than 12 px."""
        sizes = [int(size) for size in re.findall(r"font-size: (\d+)px", drawing.STYLE)]
        self.assertGreaterEqual(min(sizes), 12)
        self.assertGreaterEqual(drawing.SMALL, 12)

    def test_spread(self):
        self.assertEqual(drawing.spread([0, 5, 100], [1, 1, 1], [10, 10]), [-2.5, 7.5, 100])
        self.assertEqual(drawing.spread([0, 0], [3, 1], [10]), [-2.5, 7.5])
        self.assertEqual(drawing.spread([], [], []), [])

    def test_circle_of_facts(self):
        """Three that belong to each other in a circle."""
        made = Made(0)
        made.links, made.marks = [0, 1, 2], [0, 0, 0]
        made.members = {el: [el] for el in range(3)}
        made.facts = {0: [(0, (2,))], 1: [(0, (0,))], 2: [(0, (1,)), (1, (2,))]}
        made.func_apps, made.pred_apps = [(0, (), (1,), 1)], []
        drawn = Drawn(ElementTree.fromstring(drawing.draw(made, made, {}, "t", "d")))
        self.assertEqual(drawn.troubles(), [])
        self.assertEqual(drawn.fact_edges(), {(0, 2), (1, 0), (2, 1)})
        self.assertEqual(drawn.labels(), ["f"])


# In a browser.


def chromium(*arguments):
    with tempfile.TemporaryDirectory() as profile:
        return subprocess.run(
            [CHROMIUM, "--headless", "--no-sandbox", "--disable-gpu", "--hide-scrollbars",
             "--enable-logging=stderr", f"--user-data-dir={profile}", *arguments],
            capture_output=True, check=True, timeout=300)


def console(done):
    """What the page made the browser say."""
    said = done.stderr.decode("utf-8", "replace")
    return [line for line in said.splitlines() if "CONSOLE" in line]


def pixels(data):
    """Width and height of a PNG, and its pixels, row by row."""
    if data[:8] != b"\x89PNG\r\n\x1a\n":
        raise AssertionError("no PNG")
    at, packed = 8, b""
    while at < len(data):
        length, kind = struct.unpack_from(">I4s", data, at)
        part = data[at + 8:at + 8 + length]
        if kind == b"IHDR":
            width, height, depth, colour, _, _, interlaced = struct.unpack(">IIBBBBB", part)
        elif kind == b"IDAT":
            packed += part
        at += 12 + length
    if depth != 8 or colour not in (2, 6) or interlaced:
        raise AssertionError(f"another kind of PNG: {depth} {colour} {interlaced}")
    step = 3 if colour == 2 else 4
    raw, stride = zlib.decompress(packed), width * step
    rows, before = [], bytes(stride)
    for row in range(height):
        begin = row * (stride + 1)
        way, line = raw[begin], bytearray(raw[begin + 1:begin + 1 + stride])
        if way:
            for place in range(stride):
                left = line[place - step] if place >= step else 0
                up, corner = before[place], before[place - step] if place >= step else 0
                if way == 4:
                    guess = left + up - corner
                    off = abs(guess - left), abs(guess - up), abs(guess - corner)
                    more = (left, up, corner)[off.index(min(off))]
                else:
                    more = (0, left, up, (left + up) // 2)[way]
                line[place] = line[place] + more & 255
        before = bytes(line)
        rows.append([before[place:place + 3] for place in range(0, stride, step)])
    return width, height, rows


# Says which texts of the drawing are wider than what they stand in, as the browser measures them.
MEASURE = """<script>
const wide = [];
const all = (inside, what) => [...inside.querySelectorAll(what)];
const area = shape => shape.getBoundingClientRect();
for (const box of all(document, '.drawing > .class')) {
  const room = area(box.querySelector('rect'));
  for (const text of all(box, 'text'))
    if (area(text).left < room.left || area(text).right > room.right
        || area(text).bottom > room.bottom + 1)
      wide.push('box: ' + text.textContent);
}
for (const member of all(document, '.drawing .class .member'))
  if (area(member.querySelector('text')).width > area(member.querySelector('rect')).width - 8)
    wide.push('member: ' + member.textContent);
for (const text of all(document, '.drawing text'))
  if (area(text).right > area(document.querySelector('.drawing')).right)
    wide.push('drawing: ' + text.textContent);
document.title = 'measured ' + JSON.stringify(wide);
</script>"""


@unittest.skipUnless(CHROMIUM, "the command chromium is not found")
class Browser(unittest.TestCase):
    @classmethod
    def setUpClass(cls):
        cls.made = tempfile.TemporaryDirectory()
        cls.addClassCleanup(cls.made.cleanup)
        cls.folder = Path(cls.made.name)

    def stored(self, name, page):
        path = self.folder / f"{name}.html"
        path.write_text(page, encoding="utf-8")
        return path.as_uri()

    def test_console_is_seen(self):
        done = chromium("--dump-dom", self.stored("loud", "<script>console.error('loud')</script>"))
        self.assertEqual(len(console(done)), 1)

    def test_holds(self):
        """What the browser makes of a page holds what the page says, without an error."""
        expected = {
            "unnamed-box": ["Settled, with no conflicts.", "9 reported", "Pack of unit-x"],
            "unnamed-box-settled": ["settle: 3 closes", "close 2 of 3"],
            "two-names": ["Settled, with 1 conflict.", "Drum of box-b", 'class="class conflict"'],
            "transfer-box": ["Bearing of rear", "comp"],
            "p5": ["Drum of box-a"],
            "refused-parents": ["Refused with 15 at line 12", "Coupling of box-a, box-b"],
        }
        for name, words in expected.items():
            with self.subTest(name):
                page = report.report(str(SAMPLES / f"{name}.txt"), PROGRAMS)
                done = chromium("--dump-dom", self.stored(name, page))
                self.assertEqual(console(done), [])
                dom = done.stdout.decode()
                for word in words:
                    self.assertIn(word, dom)
                tags = lambda text: len(re.findall(r"<(?:rect|path|text|tr|td|g)\b", text))
                self.assertEqual(tags(dom), tags(page))  # Nothing is moved or left out.

    def test_text_has_room(self):
        """No text of a drawing is wider than its box."""
        for name in ("unnamed-box", "two-names", "transfer-box", "three-pages", "refused-parents"):
            with self.subTest(name):
                page = report.report(str(SAMPLES / f"{name}.txt"), PROGRAMS)
                for font in ("", "<style>body { font-family: 'DejaVu Sans' }</style>"):
                    done = chromium("--dump-dom", self.stored(name, page.replace(
                        "</body>", f"{font}{MEASURE}</body>")))
                    title = re.search(r"<title>(.*?)</title>", done.stdout.decode())[1]
                    self.assertEqual(title, "measured []")

    def test_screenshot(self):
        """A picture of the asked size that shows the verdict in its colour."""
        colours = {"unnamed-box": "176534", "two-names": "b3121d", "refused-parents": "b3121d"}
        for name, colour in colours.items():
            for size in ((1000, 700), (500, 900)):
                with self.subTest(name, size=size):
                    page = report.report(str(SAMPLES / f"{name}.txt"), PROGRAMS)
                    shot = self.folder / f"{name}.png"
                    chromium(f"--window-size={size[0]},{size[1]}", f"--screenshot={shot}",
                             self.stored(name, page))
                    width, height, rows = pixels(shot.read_bytes())
                    self.assertEqual((width, height), size)
                    seen = {pixel for row in rows for pixel in row}
                    self.assertGreater(len(seen), 50)
                    self.assertIn(bytes.fromhex(colour), seen)


if __name__ == "__main__":
    unittest.main()
