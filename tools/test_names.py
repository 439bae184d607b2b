"""Tests of tools/naming.py, tools/refusals.py, tools/names, of --names, and of how ./close-sheet and
its companions build their programs. Run: python3 tools/test_names.py"""

import os
import pty
import random
import re
import select
import shutil
import signal
import struct
import subprocess
import sys
import tempfile
import threading
import time
import unittest
from pathlib import Path

TOOLS = Path(__file__).resolve().parent
ROOT = TOOLS.parent
SAMPLES = ROOT / "samples"
BIN = ROOT / "target" / "bin"

sys.dont_write_bytecode = True
sys.path.insert(0, str(TOOLS))

import refusals  # noqa: E402
from naming import Naming, load_tool, sheet  # noqa: E402

names = load_tool("names")

# A box whose pack-1 is in two units, and the last line names a third, which is not declared.
BOX = """\
type Box model                   # a gearbox
type Unit model [Box]

type Pack plain [Unit]
type Coupling plain [Box, Box]
type Plate enum
function unit-of [Box] -> Unit
predicate filled (Pack)
element box-a
element box-b
element unit-k
element unit-x
element pack-1
element
impose   pack-1 Pack\t[unit-k]    # in the sheet for box A
impose pack-1 Pack [unit-x]
apply unit-of [box-a] = unit-k
close
conflicts
impose pack-1  Pack  [unit-z]     # no such unit
"""
UNDECLARED = 65535


def record(kind, a=0, b=0, parents=(), arguments=()):
    def slots(entries):
        return [*entries, 0, 0, 0, 0][:4]
    return [0, kind, a, b, len(parents), len(arguments), *slots(parents), *slots(arguments), 0, 0]


def chained(records):
    """A sheet of these records, one after the other."""
    last = len(records) - 1
    return b"".join(struct.pack("<16H", at + 1 if at < last else 0, *words[1:])
                    for at, words in enumerate(records))


def named(lines, naming):
    return [said for line in lines for said in names.named(line, naming)]


def needs_program(name="close_sheet"):
    return unittest.skipUnless(os.access(BIN / name, os.X_OK), f"target/bin/{name} is not built")


def lines_of(data):
    """What the proved program prints for a sheet."""
    done = subprocess.run([str(BIN / "close_sheet")], input=data, capture_output=True, check=True)
    return done.stdout.decode().splitlines()


class Undeclared(unittest.TestCase):
    """Names that are not declared, written as a number that no table has."""

    def words(self, text):
        return list(struct.iter_unpack("<16H", sheet.assemble(text, sheet.UNDECLARED)))

    def test_every_place(self):
        for line, places in (
                ("type mor M", [3]), ("type mor M [P]", [3, 6]), ("predicate [P] (A B)", [6, 10, 11]),
                ("function [P] (A) -> C", [6, 10, 3]), ("model T M (a b c d)", [2, 3, 10, 11, 12, 13]),
                ("morphism-application f (A B)", [2, 10, 11]), ("equal a b", [2, 3]),
                ("impose e T [a b]", [2, 3, 6, 7]), ("apply f [a] (b c) = d", [2, 6, 10, 11, 3]),
                ("holds p [a] (b)", [2, 6, 10]), ("variable 3 a", [3]), ("ambient T a", [2, 3])):
            with self.subTest(line=line):
                with self.assertRaises(sheet.SheetError):
                    sheet.assemble(line)
                words, = self.words(line)
                self.assertEqual([at for at, word in enumerate(words) if word == UNDECLARED],
                                 sorted(places))

    def test_declared_later(self):
        self.assertEqual(self.words("equal a b\nelement a")[0][2:4], (UNDECLARED, UNDECLARED))
        # The chain decides what is earlier: line 3 comes before line 2.
        words = self.words("element a next 2\nequal a b next 0\nelement b next 1")
        self.assertEqual(words[1][2:4], (0, 1))
        words = self.words("element a\nequal a b next 0\nelement b")
        self.assertEqual(words[1][2:4], (0, UNDECLARED))

    def test_what_is_declared_stays(self):
        for path in SAMPLES.glob("*.txt"):
            with self.subTest(name=path.stem):
                text = path.read_text(encoding="utf-8")
                self.assertEqual(sheet.assemble(text, sheet.UNDECLARED), sheet.assemble(text))

    def test_other_errors_stay(self):
        for text in ("elemnt a", "element a\nelement a", "variable 64 a", "impose a T [b"):
            with self.subTest(text=text):
                with self.assertRaises(sheet.SheetError) as plain:
                    sheet.assemble(text)
                with self.assertRaises(sheet.SheetError) as lenient:
                    sheet.assemble(text, sheet.UNDECLARED)
                self.assertEqual(str(lenient.exception), str(plain.exception))

    def test_command(self):
        done = subprocess.run([sys.executable, str(TOOLS / "sheet"), "assemble", "--undeclared", "-"],
                              input=BOX.encode(), capture_output=True, check=True)
        self.assertEqual(done.stdout, sheet.assemble(BOX, sheet.UNDECLARED))
        self.assertEqual(done.stderr, b"")


class Names(unittest.TestCase):
    def setUp(self):
        self.data, self.naming = Naming.of_text(BOX)

    def test_each_sort(self):
        naming = self.naming
        self.assertEqual([naming.element(n) for n in range(5)],
                         ["box-a", "box-b", "unit-k", "unit-x", "pack-1"])
        self.assertEqual([naming.type(n) for n in range(5)], ["Box", "Unit", "Pack", "Coupling", "Plate"])
        self.assertEqual((naming.function(0), naming.predicate(0)), ("unit-of", "filled"))

    def test_without_a_name(self):
        """A line that gives none, and numbers that nothing has."""
        naming = self.naming
        self.assertEqual([naming.element(n) for n in (5, 6, UNDECLARED)],
                         ["element 5", "element 6", "element 65535"])
        self.assertEqual((naming.type(5), naming.function(1), naming.predicate(1)),
                         ("type 5", "function 1", "predicate 1"))

    def test_facts(self):
        naming = self.naming
        self.assertEqual(naming.fact(2, [2]), "Pack of unit-k")
        self.assertEqual(naming.fact(4, []), "Plate")
        self.assertEqual(naming.fact(3, [0, 1]), "Coupling of box-a, box-b")
        self.assertEqual(naming.fact(7, [5, 2]), "type 7 of element 5, unit-k")

    def test_places(self):
        """Without comment and with single spaces; commas stay."""
        naming = self.naming
        self.assertEqual(naming.place(2), "line 4: type Pack plain [Unit]")
        self.assertEqual(naming.place(3), "line 5: type Coupling plain [Box, Box]")
        self.assertEqual(naming.place(13), "line 15: impose pack-1 Pack [unit-k]")
        self.assertEqual(naming.place(18), "line 20: impose pack-1 Pack [unit-z]")
        self.assertEqual((naming.line_number(18), naming.line_number(0)), (20, 1))
        for index in (19, -1):
            self.assertIsNone(naming.place(index))
            self.assertIsNone(naming.line_number(index))

    def test_the_sheet(self):
        self.assertEqual(self.data, sheet.assemble(BOX, sheet.UNDECLARED))
        self.assertEqual(self.data.count(b"\xff\xff"), 1)
        for path in SAMPLES.glob("*.txt"):
            data, _ = Naming.of_text(path.read_text(encoding="utf-8"))
            self.assertEqual(data, path.with_suffix(".sheet").read_bytes())

    def test_the_names_follow_the_chain(self):
        naming = Naming.of_text("element a next 3\nelement c\nclose next 0\nelement b next 1\nelement d")[1]
        self.assertEqual([naming.element(n) for n in range(4)], ["a", "b", "c", "element 3"])

    def test_a_chain_that_comes_back(self):
        """Element 2 is made by line 2, a second time. Line 4 is never read."""
        naming = Naming.of_text("element a\nelement b\nconflicts next 1\nelement c")[1]
        self.assertEqual([naming.element(n) for n in range(3)], ["a", "b", "element 2"])

    def test_raw_records(self):
        """One that is well formed takes a number, and has no name."""
        zeros = " 0" * 14
        naming = Naming.of_text(f"raw 1 6{zeros}\nelement a\nraw 3 6{zeros[:-2]} 1\nelement b")[1]
        self.assertEqual([naming.element(n) for n in range(3)], ["element 0", "a", "b"])

    def test_of_a_sheet(self):
        """The names and the text are those that `tools/sheet disassemble` gives."""
        naming = Naming.of_sheet(self.data)
        self.assertEqual(naming.fact(2, [2]), "t2 of e2")
        self.assertEqual((naming.element(5), naming.element(6)), ("e5", "element 6"))
        self.assertEqual((naming.function(0), naming.predicate(0)), ("f0", "p0"))
        self.assertEqual(naming.place(18), "record 18: impose e4 t2 [65535]")
        self.assertIsNone(naming.line_number(18))
        for path in SAMPLES.glob("*.sheet"):
            naming = Naming.of_sheet(path.read_bytes())
            for index, line in enumerate(sheet.disassemble(path.read_bytes()).splitlines()):
                self.assertEqual(naming.place(index), f"record {index}: {line.split('#')[0].rstrip()}")

    def test_a_sheet_of_a_wrong_length(self):
        naming = Naming.of_sheet(bytes(33))
        self.assertIsNone(naming.place(0))
        self.assertEqual(naming.element(0), "element 0")

    def test_after_a_parked_file(self):
        """Its elements come first, and have no name."""
        text = "type Box model\nelement box-c\nimpose 7 Box\nimpose 2 Box\n"
        naming = Naming.of_text(text, 7)[1]
        self.assertEqual([naming.element(n) for n in (0, 6, 7, 8)],
                         ["element 0", "element 6", "box-c", "element 8"])
        self.assertEqual(naming.type(0), "Box")
        naming = Naming.of_sheet(sheet.assemble(text), 7)
        self.assertEqual([naming.element(n) for n in (6, 7, 8)], ["element 6", "e7", "element 8"])
        self.assertEqual([naming.place(index) for index in (1, 2, 3)],
                         ["record 1: element e7", "record 2: impose e7 t0", "record 3: impose 2 t0"])


class Lines(unittest.TestCase):
    """What tools/names makes of the program's lines."""

    def setUp(self):
        self.naming = Naming.of_text(BOX)[1]

    def test_conflicts(self):
        for line, expected in (
                ("conflict 4 2 2 / 2 3", "conflict pack-1: Pack of unit-k / Pack of unit-x"),
                ("conflict 4 4 / 2 3", "conflict pack-1: Plate / Pack of unit-x"),
                ("conflict 4 2 3 / 4", "conflict pack-1: Pack of unit-x / Plate"),
                ("conflict 4 3 0 1 / 3 1 0",
                 "conflict pack-1: Coupling of box-a, box-b / Coupling of box-b, box-a"),
                ("conflict 5 9 / 2 8", "conflict element 5: type 9 / Pack of element 8")):
            with self.subTest(line=line):
                self.assertEqual(names.named(line, self.naming), [expected])

    def test_refusals(self):
        said = names.named("refused 5 at 18", self.naming)
        self.assertEqual(said[0], "refused 5 at 18 (line 20: impose pack-1 Pack [unit-z])")
        self.assertEqual(said[1:], [f"  {line}" for line in refusals.explain(5, self.naming, 18)])
        self.assertEqual(len(said), 3)
        self.assertIn("unit-z is not declared as an element.", said[1])

    def test_number_1_has_no_line(self):
        self.assertEqual(names.named("refused 1 at 0", self.naming)[0], "refused 1 at 0")
        self.assertEqual(names.named("refused 2 at 0", self.naming)[0],
                         "refused 2 at 0 (line 1: type Box model)")

    def test_a_file_that_is_refused(self):
        """At the record before which it is loaded; at the sheet's end there is none, and I is 0."""
        for number in (13, 14):
            self.assertEqual(names.named(f"refused {number} at 7", self.naming)[0],
                             f"refused {number} at 7 (line 9: element box-a)")
            self.assertEqual(names.named(f"refused {number} at 0", self.naming)[0],
                             f"refused {number} at 0")

    def test_other_lines_stay(self):
        for line in ("close 1 4 3 14", "settle 3 2", "conflicts 9", "end 46", "", "conflict", "refused",
                     "refused 99 at 99"):
            with self.subTest(line=line):
                self.assertEqual(names.named(line, self.naming), [line])

    def test_samples(self):
        """Only lines of conflicts and refusals change, and one line stands for each."""
        changed = {}
        for path in sorted(SAMPLES.glob("*.txt")):
            naming = Naming.of_text(path.read_text(encoding="utf-8"))[1]
            plain = path.with_suffix(".out").read_text().splitlines()
            lines = [line for line in named(plain, naming) if not line.startswith("  ")]
            self.assertEqual(len(lines), len(plain))
            for before, after in zip(plain, lines):
                if before.split()[0] not in ("conflict", "refused"):
                    self.assertEqual(after, before)
                else:
                    changed.setdefault(path.stem, []).append(after)
        self.assertEqual(changed["two-names"], ["conflict drum-k1: Drum of box-a / Drum of box-b"])
        self.assertEqual(changed["unnamed-box"],
                         [f"conflict pack-{n}: Pack of unit-k / Pack of unit-x" for n in range(1, 10)])
        self.assertEqual(changed["transfer-box"],
                         ["conflict bearing-8: Bearing of input / Bearing of rear"])
        self.assertEqual(changed["long-print"][0],
                         "conflict x0: T of m0, m1, m2, m3 / T of m3, m2, m1, m0")
        self.assertEqual(changed["refused-parents"],
                         ["refused 15 at 8 (line 12: impose coupling-2 Coupling [box-b])"])
        self.assertEqual(changed["refused-word"],
                         ["refused 3 at 1 (line 3: raw 2 6 0 0 0 0 0 0 0 0 0 0 0 0 0 1)"])
        self.assertEqual(changed["records-1025"], ["refused 1 at 0"])


class Filter(unittest.TestCase):
    """tools/names as a command."""

    def setUp(self):
        folder = tempfile.TemporaryDirectory()
        self.addCleanup(folder.cleanup)
        self.folder = Path(folder.name)
        (self.folder / "box.txt").write_text("\ufeff" + BOX, encoding="utf-8")

    def run_tool(self, *words, lines=""):
        done = subprocess.run([str(TOOLS / "names"), *words], input=lines.encode(), cwd=self.folder,
                              capture_output=True, check=False)
        return done.returncode, done.stdout.decode(), done.stderr.decode()

    def test_text_and_sheet(self):
        lines = "close 1 0 1 2\nconflict 4 2 2 / 2 3\nconflicts 1\nend 18\n"
        self.assertEqual(self.run_tool("box.txt", lines=lines),
                         (0, lines.replace("4 2 2 / 2 3", "pack-1: Pack of unit-k / Pack of unit-x"), ""))
        (self.folder / "box.sheet").write_bytes(Naming.of_text(BOX)[0])
        self.assertEqual(self.run_tool("box.sheet", lines=lines),
                         (0, lines.replace("4 2 2 / 2 3", "e4: t2 of e2 / t2 of e3"), ""))

    def test_parked(self):
        """The file begins with the number of its elements, the lower byte first."""
        (self.folder / "more.txt").write_text("type Pack plain\nelement pack-9\n")
        for head, expected in ((b"\2\1rest", "element 4"), (b"\4\0rest", "pack-9"), (b"", "element 4"),
                               (b"\4", "element 4")):
            with self.subTest(head=head):
                (self.folder / "parked").write_bytes(head)
                self.assertEqual(self.run_tool("--parked", "parked", "more.txt", lines="conflict 4 0 / 1\n"),
                                 (0, f"conflict {expected}: Pack / type 1\n", ""))

    def test_names_that_are_not_ascii(self):
        (self.folder / "räder.txt").write_text("type Rad plain\nelement größe\n", encoding="utf-8")
        done = subprocess.run([sys.executable, str(TOOLS / "names"), "räder.txt"], cwd=self.folder,
                              input=b"conflict 0 0 / 0\n", capture_output=True, check=True,
                              env={**os.environ, "LC_ALL": "C", "PYTHONUTF8": "0",
                                   "PYTHONCOERCECLOCALE": "0"})
        self.assertEqual(done.stdout.decode(), "conflict größe: Rad / Rad\n")

    def test_errors(self):
        self.assertEqual(self.run_tool("none.txt"), (1, "", "none.txt: No such file or directory\n"))
        (self.folder / "bad.txt").write_text("clsoe\n")
        self.assertEqual(self.run_tool("bad.txt"),
                         (1, "", "line 1: 'clsoe' is not a kind of record\n"))
        code, out, message = self.run_tool()
        self.assertEqual((code, out), (2, ""))
        self.assertIn("usage: names", message)

    def test_a_reader_that_stops(self):
        with subprocess.Popen([str(TOOLS / "names"), str(self.folder / "box.txt")],
                              stdin=subprocess.PIPE, stdout=subprocess.PIPE, stderr=subprocess.PIPE) as tool:
            tool.stdout.close()
            try:
                tool.stdin.write(b"close 0 0 1 0\n" * 10000)
                tool.stdin.close()
            except BrokenPipeError:
                pass
            self.assertEqual(tool.stderr.read(), b"")
            tool.wait()

    def test_help_and_readme_have_the_forms(self):
        code, out, _ = self.run_tool("--help")
        readme = (TOOLS / "README.md").read_text(encoding="utf-8")
        self.assertEqual(code, 0)
        for form in ("conflict pack-1: Pack of unit-k / Pack of unit-x",
                     "refused 5 at 17 (line 23: impose pack-1 Pack [unit-z])"):
            self.assertIn(f"  {form}\n", out)
            self.assertIn(f"`{form}`", readme)


# A sheet for each number, at its last line, and what is said to apply there.
MAPS = """\
type Set model
type Drive mor Set
type Part plain [Set]
function dom (Drive) -> Set
function cod (Drive) -> Set
function id (Set) -> Drive
function comp (Drive Drive) -> Drive
function carry (Drive Part) -> Part
function other -> Set
"""
MODEL = MAPS + "model Set Drive (dom cod id comp)\n"
CARRIED = MODEL + "morphism-application carry (Drive Part)\n"
ELEMENTS = "element a\nelement b\nelement low\n"
CASES = [
    (1, "# nothing\n", "it has no record"),
    (1, "close\n" * 1025, "it has 1,025 records"),
    (2, "close\nclose next 7", "it leads on to record 7, and the sheet has records 0 to 1"),
    (2, "close\n\nclose\nclose next 1", "the chain has come to 3 records, as many as there are, and leads"
                                        " on to line 3 again"),
    (3, "raw 0 16" + " 0" * 14, "16 is no kind of record"),
    (3, "raw 0 6 2" + " 0" * 13, "it has words that a line `element` cannot have"),
    (4, "element drum\n\nclose\ntype Box model", "line 1 (element drum) comes before it"),
    (5, BOX, "unit-z is not declared as an element"),
    (5, "element drum\nequal drum 3", "there is no element 3, the last one declared has the number 0"),
    (5, "equal 3 3", "there is no element 3, none is declared"),
    (5, "element Box\nimpose Box Box", "Box is not declared as a type, only as an element on line 1"),
    (5, "type Box model [Box]", "Box is declared as a type on line 1, which does not come before"),
    (5, "element a\nequal a b next 0\nelement b",
     "b is declared as an element on line 3, which does not come before"),
    (5, "apply f [x] (f x) = 2", "f is not declared as a function; x is not declared as an element; f is"
                                 " not declared as an element; there is no element 2, none is declared"),
    (6, MAPS + "type mor Part", "Part is not declared as a model type"),
    (6, MAPS + "model Part Drive (dom cod id comp)", "Part is not declared as a model type"),
    (6, MAPS + "type Box model\nmodel Box Drive (dom cod id comp)",
     "Drive is not declared as the mor of Box"),
    (6, MAPS + "model Set Part (dom cod id comp)", "Part is not declared as the mor of Set"),
    (6, MAPS + "morphism-application carry (Part Part)", "Part is not declared as a mor"),
    (6, MAPS + "element a\nambient Part a", "Part is not declared as a model type"),
    (7, CARRIED + ELEMENTS + "apply carry (a b) = a",
     "carry is the function of the morphism application at line 11"),
    (7, CARRIED + ELEMENTS + "apply comp (a b) = low",
     "comp is the comp of the model at line 10, and line 11 is a morphism application"),
    (8, MODEL + "model Set Drive (carry other dom cod)", "the model of Set is given at line 10 already"),
    (8, MAPS + "model Set Drive (dom cod id id)", "id stands in it more than once"),
    (8, MODEL + "morphism-application comp (Drive Part)", "comp is given at line 10 already"),
    (8, CARRIED + "morphism-application other (Drive Part)",
     "the pair Drive, Part is given at line 11 already"),
    (8, CARRIED + "morphism-application carry (Drive Set)", "carry is given at line 11 already"),
    (8, "element a\nvariable 3 a\nvariable 4 a\nvariable 3 a", "variable 3 is given at line 2 already"),
    (8, MAPS + "element a\nambient Set a\nambient Set a",
     "the ambient element of Set is given at line 11 already"),
    (9, "type plain\n" * 33, "there is room for 32 types"),
    (9, "predicate\n" * 33, "there is room for 32 predicates"),
    (9, "type plain\n" + "function -> 0\n" * 65, "there is room for 64 functions"),
    (9, "element\n" * 257, "there is room for 256 elements"),
    (9, "element\n" + "equal 0 0\n" * 257, "there is room for 256 equalities that wait for a close"),
    (9, "type plain\n" + "element\n" * 65 + "".join(f"impose {n} 0\n" for n in range(65)),
     "there is room for 64 impositions, which stay after a close"),
    (9, "type plain\nfunction -> 0\n" + "element\n" * 20
        + "".join(f"apply 0 ({n % 20} {n // 20}) = 0\n" for n in range(257)),
     "there is room for 256 applications of functions, and 256 equalities that wait for a close"),
    (9, "type plain\npredicate\n" + "element\n" * 20
        + "".join(f"holds 0 ({n % 20} {n // 20})\n" for n in range(257)),
     "there is room for 256 applications of predicates"),
    (9, MODEL + "element\n" * 20 + "".join(f"apply other ({n % 20} {n // 20}) = 0\n" for n in range(255))
        + "apply id (0) = 1\nsettle",
     "there is room for 256 applications of functions, those that the laws of maps add among them, and"
     " 256 equalities that wait"),
    (12, MODEL + ELEMENTS + "apply id (a b) = low",
     "id, the id of the model at line 10, takes 1 argument, 2 given"),
    (12, MODEL + ELEMENTS + "apply comp = low",
     "comp, the comp of the model at line 10, takes 2 arguments, 0 given"),
    (15, BOX.replace("[unit-z]", ""), "Pack has 1 parent (Unit), 0 given"),
    (15, BOX.replace("pack-1  Pack  [unit-z]", "unit-k Coupling [box-a]"),
     "Coupling has 2 parents (Box, Box), 1 given"),
    (15, BOX.replace("Pack  [unit-z]", "Plate [box-a]"), "Plate has 0 parents, 1 given"),
]


class Refusals(unittest.TestCase):
    def test_every_number_has_its_sentences(self):
        self.assertEqual(list(refusals.REFUSALS), list(range(1, 16)))
        for number, (meaning, remedy) in refusals.REFUSALS.items():
            with self.subTest(number=number):
                for said in (meaning, remedy):
                    self.assertRegex(said, r"^[A-Z].*[^.]\.$")
                    self.assertNotRegex(said, r"  |\||\n")
                self.assertEqual(refusals.explain(number), [meaning, remedy])
        self.assertEqual(refusals.explain(16), [])
        every = [said for refusal in refusals.REFUSALS.values() for said in refusal]
        self.assertEqual(len(set(every)), len(every))

    def test_the_readme_has_them(self):
        readme = (TOOLS / "README.md").read_text(encoding="utf-8")
        table = readme.split("# Refusals by number")[1].split("\n# ")[0]
        rows = re.findall(r"^\| (\d+) \| (.*) \| (.*) \|$", table, re.MULTILINE)
        self.assertEqual([(int(number), *said) for number, *said in rows],
                         [(number, *said) for number, said in refusals.REFUSALS.items()])

    def test_a_number_that_can_be_looked_up_is(self):
        self.assertEqual({number for number, _, _ in CASES} - {1}, set(refusals.CAUSES))

    def refused_at(self, number, text):
        """The index of the record that is refused: of the last line that the chain visits."""
        naming = Naming.of_text(text)[1]
        if number == 1:
            return naming, 0
        return naming, sheet.chain_order([words[0] for words in naming.records])[-1]

    def test_what_applies(self):
        for number, text, expected in CASES:
            with self.subTest(number=number, expected=expected):
                naming, index = self.refused_at(number, text)
                meaning, remedy = refusals.REFUSALS[number]
                self.assertEqual(refusals.explain(number, naming, index),
                                 [f"{meaning} Here: {expected}.", remedy])

    @needs_program()
    def test_the_program_refuses_so(self):
        """The cases are what the proved program refuses, with the number and at the record."""
        for number, text, expected in CASES:
            with self.subTest(number=number, expected=expected):
                _, index = self.refused_at(number, text)
                data = sheet.assemble(text, sheet.UNDECLARED)
                self.assertEqual(lines_of(data)[-1], f"refused {number} at {index}")

    def test_a_cut_file(self):
        self.assertEqual(refusals.explain(1, Naming.of_sheet(bytes(33)))[0],
                         refusals.REFUSALS[1].meaning + " Here: it has 33 bytes, and a record has 32.")

    def test_where_nothing_applies(self):
        """Lines of another sheet: the general sentences, and no error."""
        _, naming = Naming.of_text("close\n")
        for number in refusals.REFUSALS:
            for index in (0, 5):
                self.assertEqual(len(refusals.explain(number, naming, index)), 2)

    def test_after_a_parked_file(self):
        _, naming = Naming.of_text("element a\nequal 7 8\nvariable 3 0", 7)
        self.assertIn("Here: there is no element 8, the last one declared has the number 7.",
                      refusals.explain(5, naming, 1)[0])
        self.assertIn("Here: it stands in the parked file.", refusals.explain(8, naming, 2)[0])

    def test_a_second_visit(self):
        """The record is accepted when the chain comes to it first."""
        _, naming = Naming.of_text("element a\nvariable 3 a\nclose next 1\nclose\nclose")
        self.assertIn("Here: variable 3 is given at line 2 already.", refusals.explain(8, naming, 1)[0])
        _, naming = Naming.of_text("type plain\ntype plain\nclose next 1\nclose\nclose")
        self.assertIn("Here: line 3 (close next 1) comes before it.", refusals.explain(4, naming, 1)[0])

    @needs_program()
    def test_random_sheets(self):
        """For whatever number the program gives, what applies is found, in a text and in its sheet."""
        rng = random.Random(107)
        found = set()
        for _ in range(400):
            data = chained(random_records(rng))
            last = lines_of(data)[-1]
            if last.startswith("refused"):
                number, index = map(int, re.findall(r"\d+", last))
                found.add(number)
                for naming in (Naming.of_sheet(data), Naming.of_text(sheet.disassemble(data))[1]):
                    self.assertIn(" Here: ", refusals.explain(number, naming, index)[0],
                                  sheet.disassemble(data))
        self.assertGreaterEqual(found, {4, 5, 6, 7, 8, 12, 15})


def random_records(rng):
    """A signature with maps, elements, and then what mostly fits them."""
    counts = {"type": 4, "predicate": 1, "function": 7, "element": 3}

    def number(sort):
        return rng.randrange(counts[sort]) if rng.random() < 0.99 else counts[sort] + rng.randrange(2)

    def several(sort, least=0, most=2):
        return [number(sort) for _ in range(rng.randint(least, most))]

    records = [record(1, 1), record(1, 3, 0), record(1, 0, 0, [0]), record(1, 1),
               record(2, 0, 0, [], [2]), *(record(3, 0, rng.randrange(4)) for _ in range(7))]
    makes = {
        1: lambda: record(1, rng.randrange(3), 0, several("type")),
        4: lambda: record(4, *rng.choice([(0, 1), (0, 1), (number("type"), number("type"))]), [],
                          rng.sample(range(7), 4) if rng.random() < 0.9 else several("function", 4, 4)),
        5: lambda: record(5, number("function"), 0, [], [rng.choice([1, 1, number("type")]), number("type")]),
        7: lambda: record(7, number("element"), number("element")),
        8: lambda: record(8, number("element"), *rng.choice([(0, []), (2, several("element", 1, 1)),
                                                             (number("type"), several("element"))])),
        9: lambda: record(9, number("function"), number("element"), several("element"), several("element")),
        10: lambda: record(10, number("predicate"), 0, several("element"), several("element")),
        11: lambda: record(11, rng.randrange(12), number("element")),
        12: lambda: record(12, rng.choice([0, 3, number("type")]), number("element")),
        13: lambda: record(13), 15: lambda: record(15),
    }
    records += [makes[rng.choice([4, 4, 5])]() for _ in range(rng.randrange(3))]
    records += [record(6, rng.randrange(2)) for _ in range(3)]
    kinds = [7, 8, 8, 9, 9, 9, 10, 11, 12, 13, 15]
    records += [makes[1 if rng.random() < 0.02 else rng.choice(kinds)]() for _ in range(rng.randrange(16))]
    return records


COMMANDS = ("bash", "basename", "cat", "chmod", "dirname", "env", "find", "mkdir", "mktemp", "mv", "python3",
            "readlink", "rm", "sleep", "tail", "tee", "cp", "grep")
SCRIPTS = ("close-sheet", "park-sheet", "resume-sheet")


class Copy(unittest.TestCase):
    """A folder with the commands and what they use, and a PATH that has no toolchain."""

    def setUp(self):
        folder = tempfile.TemporaryDirectory()
        self.addCleanup(folder.cleanup)
        self.root = Path(folder.name).resolve()
        for name in SCRIPTS:
            shutil.copy(ROOT / name, self.root)
        (self.root / "tools").mkdir()
        for name in ("sheet", "names", "naming.py", "refusals.py", "programs.bash"):
            shutil.copy(TOOLS / name, self.root / "tools")
        self.commands = self.root / "commands"
        self.commands.mkdir()
        for name in COMMANDS:
            (self.commands / name).symlink_to(shutil.which(name))
        (self.root / "tmp").mkdir()
        self.env = {"PATH": str(self.commands), "TMPDIR": str(self.root / "tmp"), "LC_ALL": "C.UTF-8"}

    def tearDown(self):
        self.assertEqual(list((self.root / "tmp").iterdir()), [])  # No start leaves anything.

    def put(self, path, text):
        """An executable. It takes the place of the old one, which may be running."""
        path = self.root / path
        path.parent.mkdir(parents=True, exist_ok=True)
        path.unlink(missing_ok=True)
        path.write_text(text)
        path.chmod(0o755)

    def start(self, *words):
        done = subprocess.run([shutil.which("bash"), *words], cwd=self.root, env=self.env, timeout=60,
                              input=b"typed\n", capture_output=True, check=False)
        return done.returncode, done.stdout.decode(), done.stderr.decode()


@needs_program()
class WholeRuns(Copy):
    """./close-sheet with the program that is built, and no toolchain."""

    def setUp(self):
        super().setUp()
        (self.root / "target").mkdir()
        (self.root / "target" / "bin").symlink_to(BIN)
        (self.root / "box.txt").write_text(BOX)

    def test_plain_output_is_as_it_was(self):
        for path in sorted(SAMPLES.glob("*.sheet")):
            for given in (path, path.with_suffix(".txt")):
                with self.subTest(name=given.name):
                    code, out, _ = self.start("close-sheet", str(given))
                    self.assertEqual((code, out), (0, path.with_suffix(".out").read_text()))

    def test_names_of_the_samples(self):
        for path in sorted(SAMPLES.glob("*.txt")):
            plain = path.with_suffix(".out").read_text().splitlines()
            for given, naming in ((path, Naming.of_text(path.read_text(encoding="utf-8"))[1]),
                                  (path.with_suffix(".sheet"),
                                   Naming.of_sheet(path.with_suffix(".sheet").read_bytes()))):
                with self.subTest(name=given.name):
                    code, out, _ = self.start("close-sheet", "--names", str(given))
                    self.assertEqual((code, out.splitlines()), (0, named(plain, naming)))

    def test_the_example(self):
        """A name that is not declared is an error, and with --names the program refuses its line."""
        self.assertEqual(self.start("close-sheet", "box.txt"),
                         (1, "", "line 20: 'unit-z' is not declared as an element\n"))
        meaning, remedy = refusals.REFUSALS[5]
        expected = ("close 1 0 2 3\nconflict pack-1: Pack of unit-k / Pack of unit-x\nconflicts 1\n"
                    "refused 5 at 18 (line 20: impose pack-1 Pack [unit-z])\n"
                    f"  {meaning} Here: unit-z is not declared as an element.\n  {remedy}\n")
        for words in (("--names", "box.txt"), ("box.txt", "--names")):
            self.assertEqual(self.start("close-sheet", *words), (0, expected, ""))

    def test_a_pipe(self):
        """The sheet is read once, and its names with it."""
        os.mkfifo(self.root / "pipe.txt")
        expected = self.start("close-sheet", "--names", "box.txt")
        writer = threading.Thread(target=lambda: (self.root / "pipe.txt").write_text(BOX))
        writer.start()
        self.assertEqual(self.start("close-sheet", "--names", "pipe.txt"), expected)
        writer.join()

    def test_a_text_that_is_wrong(self):
        (self.root / "wrong.txt").write_text("clsoe\n")
        for words in ((), ("--names",)):
            self.assertEqual(self.start("close-sheet", *words, "wrong.txt"),
                             (1, "", "line 1: 'clsoe' is not a kind of record\n"))

    @needs_program("park_sheet")
    @needs_program("resume_sheet")
    def test_resumed(self):
        (self.root / "first.txt").write_text("\n".join(BOX.splitlines()[:15]) + "\n")
        self.assertEqual(self.start("park-sheet", "first.txt", "parked"), (0, "", ""))
        signature = "\n".join(BOX.splitlines()[:8])
        (self.root / "more.txt").write_text(
            f"{signature}\nelement unit-q\nimpose 4 Pack [unit-q]\nsettle\nconflicts\nvariable 1 9")
        self.assertEqual(self.start("resume-sheet", "parked", "more.txt"),
                         (0, "settle 2 0\nconflict 4 2 2 / 2 6\nconflicts 1\nrefused 5 at 11\n", ""))
        code, out, said = self.start("resume-sheet", "--names", "parked", "more.txt")
        self.assertEqual((code, said), (0, ""))
        self.assertEqual(out.splitlines()[:4],
                         ["settle 2 0", "conflict element 4: Pack of element 2 / Pack of unit-q",
                          "conflicts 1", "refused 5 at 11 (line 13: variable 1 9)"])
        self.assertIn("Here: there is no element 9, the last one declared has the number 6.", out)
        (self.root / "parked").write_bytes(b"\7")
        code, out, said = self.start("resume-sheet", "--names", "parked", "more.txt")
        self.assertEqual((code, out.splitlines()[0], said),
                         (0, "refused 13 at 7 (line 9: element unit-q)", ""))


class Options(Copy):
    """With a program that stands in for the real one."""

    def setUp(self):
        super().setUp()
        (self.root / "a.sheet").write_bytes(bytes(32))
        (self.root / "a.txt").write_text("element drum\nclose\n")

    def program(self, text, name="close_sheet"):
        self.put(f"target/bin/{name}", f"#!{shutil.which('bash')}\n{text}\n")

    def test_the_exit_status_is_that_without_names(self):
        for does, code in (("echo end 1", 0), ("echo refused 1 at 0", 0), ("", 1), ("echo close 0 0 1 0", 1),
                           ("echo end 1; exit 3", 1)):
            with self.subTest(does=does):
                self.program(f"cat >/dev/null; {does}")
                for given in ("a.sheet", "a.txt"):
                    plain = self.start("close-sheet", given)
                    self.assertEqual(plain[0], code)
                    with_names = self.start("close-sheet", "--names", given)
                    self.assertEqual((with_names[0], with_names[2]), (plain[0], plain[2]))

    def test_the_program_gets_the_same_sheet(self):
        self.program("cat >got; echo end 2")
        for words in ((), ("--names",)):
            self.assertEqual(self.start("close-sheet", *words, "a.txt"), (0, "end 2\n", ""))
            self.assertEqual((self.root / "got").read_bytes(), sheet.assemble("element drum\nclose\n"))

    def test_wrong_usage(self):
        self.program("echo end 1")
        usage = "usage: ./close-sheet [--names | --report] SHEET\n"
        for words in ((), ("--names",), ("--report",), ("--names", "--report", "a.txt"), ("--name", "a.txt"),
                      ("a.txt", "a.sheet")):
            with self.subTest(words=words):
                self.assertEqual(self.start("close-sheet", *words), (2, "", usage))
        usage = "usage: ./resume-sheet [--names] FILE SHEET\n"
        for words in (("--names", "a.txt"), ("--report", "a.sheet", "a.txt"), ("a.txt",)):
            with self.subTest(words=words):
                self.assertEqual(self.start("resume-sheet", *words), (2, "", usage))
        self.assertEqual(self.start("close-sheet", "--names", "none.txt"),
                         (1, "", "close-sheet: none.txt: no such file\n"))

    def test_names_that_look_like_options(self):
        self.program("cat >got; echo conflict 0 0 / 1; echo end 1")
        for name in ("-a.txt", "--a.txt"):
            shutil.copy(self.root / "a.txt", self.root / name)
            self.assertEqual(self.start("close-sheet", "--names", name),
                             (0, "conflict drum: type 0 / type 1\nend 1\n", ""))

    def test_help(self):
        """It is the comment at the head."""
        for name, options in (("close-sheet", ["--names", "--report"]), ("resume-sheet", ["--names"])):
            code, out, said = self.start(name, "--help")
            self.assertEqual((code, said), (0, ""))
            head = (ROOT / name).read_text().split("\nusage=")[0].split("\n", 1)[1]
            self.assertEqual(out, re.sub("(?m)^# ", "", head) + "\n")
            for option in options:
                self.assertIn(f"\n  {option} ", out)

    def test_report(self):
        """All three programs are there, and the page is what tools/report prints."""
        self.put("tools/report", f"#!{shutil.which('bash')}\nprintf '%s\\n' \"$@\"; exit 5\n")
        for name in ("close_sheet", "park_sheet"):
            self.program("echo end 1", name)
        self.assertEqual(self.start("close-sheet", "--report", "a.txt"),
                         (1, "", f"close-sheet: {self.root}/target/bin/resume_sheet is not built, and rt,"
                                 " which builds it, is not found\n"))
        self.program("echo end 1", "resume_sheet")
        self.assertEqual(self.start("close-sheet", "--report", "a.txt"),
                         (5, f"--programs\n{self.root}/target/bin\n--\na.txt\n", ""))
        self.assertEqual(self.start("close-sheet", "--report", "b.txt")[:2], (1, ""))


CRATES = """\
# A line for each crate.
ids:
facts: ids
close: facts io    # facts brings ids
lost: ids
close_sheet: close io os
parked: ids
park_sheet: parked close
resume_sheet: parked close
"""
# It counts how often it is asked, says of the crates what rt says, and builds the program of the folder that it runs in.
TOOLCHAIN = """\
program=${PWD##*/}
cd ../..
echo "$1 $program" >>asked
cat                               # what it is given on standard input
mkdir -p "crates/$program/out"
. ./does
"""
PROVES = """\
echo 'logic: library ids: (no line of rt)'
echo 'fn ids::x: proved'
echo 'library ids: modules loaded=3 checked=0'
printf 'library fac'; sleep 0.5; printf 'ts: modules loaded=3 checked=0\\n'
echo 'library close: modules loaded=3 checked=0'
echo "crate $program: modules loaded=0 checked=3"
printf '#!%s\\ncat >/dev/null; echo end 1\\n' "$BASH" >"crates/$program/out/$program"
chmod +x "crates/$program/out/$program"
echo "rt: running out/$program; to give it other input, run that file yourself"
"""
FIRST = "close-sheet: proving and building close_sheet first; this happens once and takes minutes"
AGAIN = ("close-sheet: looking whether close_sheet is as the sources are; what has changed is proved"
         " again, which can take minutes")
TIME = r"\d+ s"


class Building(Copy):
    """The first start and later ones, with a toolchain that stands in for the real one."""

    def setUp(self):
        super().setUp()
        (self.root / "a.sheet").write_bytes(bytes(32))
        (self.root / "crates.txt").write_text(CRATES)
        for name in re.findall(r"(?m)^(\w+):", CRATES):
            self.put(f"crates/{name}/src/lib.rt", "source\n")
            self.put(f"crates/{name}/proofs/deep/P.antt", "proof\n")
            self.put(f"crates/{name}/must-fail/e.edit", "edit\n")
        self.toolchain()
        self.does(PROVES)

    def toolchain(self):
        self.put("commands/rt", f"#!{shutil.which('bash')}\n{TOOLCHAIN}")

    def does(self, text):
        (self.root / "does").write_text(text)

    def asked(self):
        """What the toolchain was asked since the last time."""
        path = self.root / "asked"
        lines = path.read_text().splitlines() if path.exists() else []
        path.unlink(missing_ok=True)
        return lines

    def assert_said(self, message, *patterns):
        lines = message.splitlines()
        self.assertEqual(len(lines), len(patterns), message)
        for line, pattern in zip(lines, patterns):
            self.assertRegex(line, f"^(?:{pattern})$")

    def assert_immediate(self, *words):
        self.assertEqual(self.start(*(words or ("close-sheet", "a.sheet"))), (0, "end 1\n", ""))
        self.assertEqual(self.asked(), [])

    def first(self):
        self.assertEqual(self.start("close-sheet", "a.sheet")[:2], (0, "end 1\n"))
        self.assertEqual(self.asked(), ["run close_sheet"])

    def test_first_start(self):
        """The crates as they are reached, of those that the program is built on; and the time."""
        code, out, said = self.start("close-sheet", "a.sheet")
        self.assertEqual((code, out), (0, "end 1\n"))
        self.assert_said(said, re.escape(FIRST),
                         *(rf"close-sheet: proving crate {at} of 4, {name} \({TIME} so far\)"
                           for at, name in enumerate(("ids", "facts", "close", "close_sheet"), 1)),
                         rf"close-sheet: proved and built close_sheet \({TIME}\)")
        self.assertNotIn("\r", said)
        self.assertEqual(self.asked(), ["run close_sheet"])
        log = (self.root / "target/close-sheet.log").read_text()
        self.assertTrue(log.endswith("\nrt: running out/close_sheet; to give it other input, run that file yourself\n"))
        self.assertNotIn("typed", log)
        self.assertIn("\nlibrary facts: modules loaded=3 checked=0\n", log)

    def test_later_starts_are_immediate(self):
        self.first()
        for _ in range(2):
            self.assert_immediate()
        # Each program is ready for itself.
        self.assertEqual(self.start("resume-sheet", "a.sheet", "a.sheet")[:2], (0, "end 1\n"))
        self.assertEqual(self.asked(), ["run resume_sheet"])
        self.assert_immediate("resume-sheet", "a.sheet", "a.sheet")
        self.assert_immediate()

    def test_what_is_newer(self):
        changes = {
            "a source": lambda: self.put("crates/ids/src/lib.rt", "other\n"),
            "a source, touched": lambda: os.utime(self.root / "crates/facts/src/lib.rt"),
            "a source, with an old time": lambda: os.utime(self.root / "crates/facts/src/lib.rt", (1, 1)),
            "a proof": lambda: self.put("crates/close/proofs/deep/P.antt", "other\n"),
            "a file added": lambda: self.put("crates/close/proofs/Q.antt", "new\n"),
            "a file removed": lambda: (self.root / "crates/close/proofs/Q.antt").unlink(),
            "a folder added": lambda: (self.root / "crates/ids/specs").mkdir(),
            "the program's source": lambda: self.put("crates/close_sheet/src/lib.rt", "other\n"),
            "crates.txt": lambda: (self.root / "crates.txt").write_text(CRATES + "# more\n"),
            "the toolchain": self.toolchain,
            "the program, removed": lambda: (self.root / "target/bin/close_sheet").unlink(),
            "the program, no executable": lambda: (self.root / "target/bin/close_sheet").chmod(0o644),
        }
        self.first()
        for what, change in changes.items():
            with self.subTest(what=what):
                self.assert_immediate()
                change()
                code, out, said = self.start("close-sheet", "a.sheet")
                self.assertEqual((code, out), (0, "end 1\n"))
                self.assertEqual(self.asked(), ["run close_sheet"])
                self.assertEqual(said.splitlines()[0], FIRST if "the program, " in what else AGAIN)
        self.assert_immediate()

    def test_what_is_not_newer(self):
        self.first()
        self.put("crates/lost/src/lib.rt", "other\n")
        self.put("crates/parked/src/lib.rt", "other\n")
        self.put("crates/ids/must-fail/more.edit", "edit\n")
        self.put("README.md", "text\n")
        self.assert_immediate()

    def test_another_toolchain(self):
        """It is older, and the command leads to it from now on."""
        self.put("other/rt", (self.commands / "rt").read_text())
        time.sleep(0.05)
        self.first()
        (self.commands / "rt").unlink()
        (self.commands / "rt").symlink_to("../other/rt")
        self.assertEqual(self.start("close-sheet", "a.sheet")[:2], (0, "end 1\n"))
        self.assertEqual(self.asked(), ["run close_sheet"])
        self.assert_immediate()

    def test_an_edit_during_the_check(self):
        """rt may have read the file before: it is asked again."""
        self.does("echo other >crates/ids/src/lib.rt\n" + PROVES)
        self.first()
        self.does(PROVES)
        self.assertEqual(self.start("close-sheet", "a.sheet")[:2], (0, "end 1\n"))
        self.assertEqual(self.asked(), ["run close_sheet"])
        self.assert_immediate()

    def test_built_by_another(self):
        self.put("target/bin/close_sheet", f"#!{shutil.which('bash')}\necho end 1\n")
        code, out, said = self.start("close-sheet", "a.sheet")
        self.assertEqual((code, out, said.splitlines()[0]), (0, "end 1\n", AGAIN))
        self.assertEqual(self.asked(), ["run close_sheet"])
        self.assert_immediate()

    def test_a_check_that_fails(self):
        for before in (False, True):
            with self.subTest(built_before=before):
                self.does("for n in 1 2 3 4 5 6; do echo line $n; done\n"
                          "echo 'crate ids: modules loaded=0 checked=3'; exit 1\n")
                self.put("crates/ids/src/lib.rt", "wrong\n")
                code, out, said = self.start("close-sheet", "a.sheet")
                self.assertEqual((code, out), (1, ""))
                self.assert_said(said, re.escape(AGAIN if before else FIRST),
                                 rf"close-sheet: proving crate 1 of 4, ids \({TIME} so far\)",
                                 "line 3", "line 4", "line 5", "line 6",
                                 "crate ids: modules loaded=0 checked=3",
                                 "close-sheet: close_sheet is not proved; target/close-sheet.log says why")
                self.assertEqual(list((self.root / "target/ready").iterdir()), [])
                self.assertEqual(self.asked(), ["run close_sheet"])
                # It is asked again, also where the source is as old as it was.
                os.utime(self.root / "crates/ids/src/lib.rt", (1, 1))
                self.does(PROVES)
                self.first()
                self.assert_immediate()

    def test_several_programs(self):
        """One check for a report, and each of them is ready then."""
        self.put("tools/report", f"#!{shutil.which('bash')}\necho page\n")
        code, out, said = self.start("close-sheet", "--report", "a.sheet")
        self.assertEqual((code, out), (0, "page\n"))
        self.assertEqual(self.asked(), ["run close_sheet", "run park_sheet", "run resume_sheet"])
        self.assertIn("building close_sheet, park_sheet, resume_sheet first;", said)
        self.assertIn("crate 6 of 7, resume_sheet (", said)  # It never says of `parked`.
        for words in (("close-sheet", "a.sheet"), ("resume-sheet", "a.sheet", "a.sheet")):
            self.assert_immediate(*words)
        self.assertEqual(self.start("park-sheet", "a.sheet", "new"), (0, "", ""))
        self.assertEqual((self.asked(), (self.root / "new").read_text()), ([], "end 1\n"))
        self.assertEqual(self.start("close-sheet", "--report", "a.sheet"), (0, "page\n", ""))
        self.assertEqual(self.asked(), [])
        self.put("crates/parked/src/lib.rt", "other\n")
        self.assert_immediate()
        self.assertEqual(self.start("close-sheet", "--report", "a.sheet")[:2], (0, "page\n"))
        self.assertEqual(self.asked(), ["run close_sheet", "run park_sheet", "run resume_sheet"])
        self.does("exit 2\n")
        os.utime(self.root / "crates/parked/src/lib.rt")
        code, out, said = self.start("close-sheet", "--report", "a.sheet")
        self.assertEqual((code, out, said.splitlines()[-1]),
                         (1, "", "close-sheet: close_sheet, park_sheet, resume_sheet are not all proved;"
                                 " target/close-sheet.log says why"))

    def test_without_the_toolchain(self):
        self.first()
        (self.commands / "rt").unlink()
        self.put("crates/ids/src/lib.rt", "other\n")
        self.assert_immediate()
        (self.root / "target/bin/close_sheet").unlink()
        self.assertEqual(self.start("close-sheet", "a.sheet"),
                         (1, "", f"close-sheet: {self.root}/target/bin/close_sheet is not built, and rt,"
                                 " which builds it, is not found\n"))

    def on_terminal(self, *words, interrupt_at=None):
        """Starts a command on a terminal, and types ^C once it has said something."""
        pid, terminal = pty.fork()
        if pid == 0:
            os.chdir(self.root)
            os.execve(shutil.which("bash"), ["bash", *words], self.env)
        said, ends = b"", time.monotonic() + 60
        while time.monotonic() < ends:
            if select.select([terminal], [], [], 0.1)[0]:
                try:
                    part = os.read(terminal, 4096)
                except OSError:  # The other end is closed.
                    break
                said += part
                if interrupt_at and interrupt_at in said:
                    os.write(terminal, b"\3")
                    interrupt_at = None
        os.close(terminal)
        return os.waitstatus_to_exitcode(os.waitpid(pid, 0)[1]), said.decode()

    def test_on_a_terminal(self):
        """One line, written again with the time, and ended before the sheet's own."""
        self.does(PROVES.replace("sleep 0.5", "sleep 2.5"))
        code, said = self.on_terminal("close-sheet", "a.sheet")
        self.assertEqual(code, 0)
        first, progress, built, end, rest = said.split("\r\n")
        self.assertEqual((first, end, rest), (FIRST, "end 1", ""))
        self.assertRegex(built, rf"^close-sheet: proved and built close_sheet \({TIME}\)$")
        shown = progress.split("\r")[1:]
        self.assertGreaterEqual(len(shown), 3)
        for text in shown:
            self.assertRegex(text, rf"^close-sheet: proving crate \d of 4(?:, \w+)? \({TIME} so far\) *$")
        # What was longer before is written over.
        for before, after in zip(shown, shown[1:]):
            self.assertGreaterEqual(len(after), len(before.rstrip()))
        # The time goes on while no crate is reached.
        self.assertGreaterEqual(len({re.search(TIME, text)[0] for text in shown if ", ids" in text}), 3)

    def test_interrupted(self):
        """Nothing goes on, also not what ignores ^C as the children of rt do; nothing is ready."""
        self.first()
        self.put("crates/ids/src/lib.rt", "other\n")
        self.does("echo 'library ids: modules loaded=3 checked=0'\n"
                  "(trap '' INT; sleep 30; echo x >late) & echo $! >child\necho half >target/bin/close_sheet\n"
                  "sleep 30\n")
        code, said = self.on_terminal("close-sheet", "a.sheet", interrupt_at=b"crate 1 of 4, ids")
        self.assertEqual(code, -signal.SIGINT, said)
        self.assertNotIn("end 1", said)
        child = int((self.root / "child").read_text())
        ends = time.monotonic() + 5
        while Path(f"/proc/{child}").exists() and time.monotonic() < ends \
                and Path(f"/proc/{child}/stat").read_text().rsplit(")", 1)[1].split()[0] != "Z":
            time.sleep(0.05)
        self.assertLess(time.monotonic(), ends, "the check goes on")
        self.assertEqual(list((self.root / "target/ready").iterdir()), [])
        self.asked()
        # The program is half built, the sources are old again: it is asked all the same.
        os.utime(self.root / "crates/ids/src/lib.rt", (1, 1))
        self.does(PROVES)
        self.first()

    def test_time(self):
        """A start that asks nothing takes little time."""
        self.first()
        took = []
        for _ in range(5):
            began = time.monotonic()
            self.start("close-sheet", "a.sheet")
            took.append(time.monotonic() - began)
        self.assertLess(min(took), 0.5)


if __name__ == "__main__":
    unittest.main()
