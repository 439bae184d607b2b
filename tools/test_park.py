"""Tests of tools/park and of docs/FILE.md. Run: python3 tools/test_park.py"""

import importlib.machinery
import importlib.util
import random
import re
import struct
import subprocess
import sys
import tempfile
import unittest
from pathlib import Path

TOOL = Path(__file__).resolve().parent / "park"
SHEET = TOOL.parent / "sheet"
CASES = TOOL.parent / "park_cases.txt"
DOC = TOOL.parent.parent / "docs" / "FILE.md"
PROVED = TOOL.parent.parent / "crates" / "file" / "proofs" / "Cases.antt"

sys.dont_write_bytecode = True


def loaded(tool):
    """A tool as a module."""
    loader = importlib.machinery.SourceFileLoader(tool.name, str(tool))
    module = importlib.util.module_from_spec(importlib.util.spec_from_loader(tool.name, loader))
    loader.exec_module(module)
    return module


park, sheet = loaded(TOOL), loaded(SHEET)


def from_hex(text):
    """Bytes in hex, of which 00*14 is fourteen."""
    data = b""
    for word in text.split():
        byte, _, times = word.partition("*")
        data += bytes.fromhex(byte) * int(times or 1)
    return data


def read_cases():
    cases = []
    for line in CASES.read_text(encoding="utf-8").splitlines():
        word, _, rest = line.partition(" ")
        if word == "case":
            cases.append({"reason": rest, "declare": [], "show": False, "hidden": False})
        elif word == "number":
            cases[-1]["number"] = int(rest)
        elif word == "declare":
            cases[-1]["declare"].append(rest)
        elif word == "bytes":
            cases[-1]["bytes"] = rest
        elif word in ("show", "hidden"):
            cases[-1][word] = True
    return cases


# A writer of its own, after docs/FILE.md.


def words(numbers):
    return struct.pack(f"<{len(numbers)}H", *numbers)


def columns(rows):
    return bytes(number for column in zip(*rows) for number in column)


def places(numbers):
    return [*numbers, *[0] * (4 - len(numbers)), len(numbers)]


def write(links=(), facts=(), func_apps=(), pred_apps=(), impositions=(), variables=(),
          ambients=(), marks=None, pairs=(), settled=0, started=1):
    """The file of a structure. `facts` are pairs of an element and a type with parents."""
    owners = [el for el, _, _ in facts]
    nexts = [index + 1 if owners[index:index + 1] == [el] else 0
             for index, el in enumerate(owners, 1)]
    firsts = [owners.index(el) + 1 if el in owners else 0 for el in range(len(links))]
    tables = (links, facts, func_apps, pred_apps, impositions, variables, ambients, pairs)
    return (words([len(table) for table in tables]) + bytes(links)
            + columns([[typ, *places(parents)] for _, typ, parents in facts]) + words(nexts)
            + columns([[func, *places(parents), *places(args), el]
                       for func, parents, args, el in func_apps])
            + columns([[pred, *places(parents), *places(args)] for pred, parents, args in pred_apps])
            + columns([[el, typ, *places(parents)] for el, typ, parents in impositions])
            + columns(variables) + columns(ambients)
            + bytes(marks if marks is not None else [0] * len(links))
            + columns(pairs) + words(firsts) + bytes([settled, started]))


P2 = write(links=[0, 1, 2, 2], facts=[(2, 1, [0]), (2, 1, [1])],
           func_apps=[(0, [0], [], 2), (0, [1], [], 2)])


def random_file(rng):
    """The file of a structure that some signature allows."""
    els = rng.randint(1, 6)
    links = [rng.choice([el, rng.randint(0, el)]) for el in range(els)]
    roots = [el for el, link in enumerate(links) if link == el]

    def some(count=4):
        return tuple(rng.randrange(els) for _ in range(rng.randint(0, count)))

    def times(most):
        return range(rng.randint(0, most))
    # How many parents each type has: none is declared before type 0 that could be one.
    counts = [0] + [rng.randint(0, 4) for _ in range(31)]

    def typed():
        typ = rng.randrange(32)
        return typ, tuple(rng.randrange(els) for _ in range(counts[typ]))
    facts = sorted({(rng.choice(roots), *typed()) for _ in times(6)})
    func_apps = {(rng.randrange(64), some(), some()): rng.randrange(els) for _ in times(4)}
    return write(
        links, facts, sorted((*key, el) for key, el in func_apps.items()),
        sorted({(rng.randrange(32), some(), some()) for _ in times(4)}),
        [(rng.randrange(els), *typed()) for _ in times(4)],
        sorted({rng.randrange(64): rng.randrange(els) for _ in times(4)}.items()),
        sorted({rng.randrange(32): rng.randrange(els) for _ in times(4)}.items()),
        [rng.randint(0, 1) for _ in links],
        [(rng.randrange(els), rng.randrange(els)) for _ in times(4)], rng.randint(0, 1))


def wrong_in(data):
    """The things that are said to be wrong, with their numbers."""
    text, is_wrong = park.show(data)
    found = re.findall(r"^refused with (\d+): (.*?)(?: \([^()]*\))?$", text, re.MULTILINE)
    assert is_wrong == bool(found)
    return [(int(number), reason) for number, reason in found]


class Showing(unittest.TestCase):
    def assert_lines(self, data, *expected):
        """The lines after the counts and the flags."""
        text, is_wrong = park.show(data)
        self.assertEqual((text.splitlines()[11:], is_wrong), (list(expected), False))

    def test_counts_and_flags(self):
        for settled, started in ((0, 0), (0, 1), (1, 1)):
            text, _ = park.show(write(settled=settled, started=started))
            self.assertEqual(text.splitlines(), [
                "18 bytes", "0 elements", "0 facts", "0 function applications",
                "0 predicate applications", "0 impositions", "0 variables", "0 ambient elements",
                "0 pairs", "settled" if settled else "not settled",
                "started" if started else "not started"])
        text, _ = park.show(write([0], [(0, 1, [])], [(0, [], [], 0)], [(0, [], [])],
                                  [(0, 0, [])], [(0, 0)], [(0, 0)], [0], [(0, 0)]))
        self.assertEqual(text.splitlines()[1:9], [
            "1 element", "1 fact", "1 function application", "1 predicate application",
            "1 imposition", "1 variable", "1 ambient element", "1 pair"])

    def test_every_entry(self):
        self.assert_lines(
            write([0, 0, 2], [(0, 0, []), (0, 1, [0, 2]), (2, 1, [2, 1])], [(7, [0], [1, 2], 0)],
                  [(3, [], []), (3, [1, 2], [0])], [(1, 5, [0, 1, 2, 0])], [(0, 2), (63, 1)],
                  [(4, 1)], [0, 0, 1], [(2, 1), (0, 0)]),
            "element 0 root", "fact 1 of 0: type 0 [] next 2", "fact 2 of 0: type 1 [0 2] last",
            "element 1 link 0", "element 2 root marked", "fact 3 of 2: type 1 [2 1] last",
            "apply 7 [0] (1 2) = 0", "holds 3 [] ()", "holds 3 [1 2] (0)",
            "impose 1 type 5 [0 1 2 0]", "variable 0 2", "variable 63 1", "ambient 4 1",
            "equal 2 1", "equal 0 0")

    def test_the_longest_file(self):
        facts = [(el, typ, []) for el in range(256) for typ in range(4)]
        every = range(256)
        data = write(every, facts, [(0, [], [el], el) for el in every],
                     [(0, [], [el]) for el in every], [(0, 0, [])] * 64,
                     [(key, 0) for key in range(64)], [(typ, 0) for typ in range(32)],
                     pairs=[(0, 255)] * 256)
        text, is_wrong = park.show(data)
        self.assertEqual((len(data), is_wrong), (16274, False))
        self.assertEqual(len(text.splitlines()), 11 + 256 + 1024 + 256 + 256 + 64 + 64 + 32 + 256)

    def test_right_files(self):
        rng = random.Random(1)
        for number in range(500):
            data = random_file(rng)
            with self.subTest(number=number):
                self.assertEqual(wrong_in(data), [])


class Wrong(unittest.TestCase):
    def test_cases(self):
        for case in read_cases():
            with self.subTest(reason=case["reason"], bytes=case["bytes"]):
                found = [(case["number"], case["reason"])]
                is_seen = case["number"] and not case["hidden"]
                self.assertEqual(wrong_in(from_hex(case["bytes"])), found if is_seen else [])

    def test_what_only_a_signature_shows(self):
        for case in read_cases():
            if case["hidden"]:
                self.assertRegex(case["reason"], "whose call is refused with (5|6|15|7|12)$")

    def test_only_15_is_a_wrong_number_of_parents(self):
        """Under the signature of a case each fact and imposition has as many parents as its
        type, but in the cases of number 15, which have both too few and too many."""
        seen = set()
        for case in read_cases():
            if case["number"] == 13:
                continue
            records = struct.iter_unpack("<16H", sheet.assemble("\n".join(case["declare"])))
            counts = [record[4] for record in records if record[1] == 1]
            file = park.File(from_hex(case["bytes"]))
            entries = [("facts", row[0], park.entries(row, 1)) for row in file.facts]
            entries += [("impositions", row[1], park.entries(row, 2)) for row in file.impositions]
            wrong = {(name, len(parents) > counts[typ]) for name, typ, parents in entries
                     if typ < len(counts) and len(parents) != counts[typ]}
            told = re.fullmatch("an entry of (.*) whose call is refused with 15", case["reason"])
            with self.subTest(reason=case["reason"], bytes=case["bytes"]):
                self.assertEqual([name for name, _ in wrong], [told.group(1)] if told else [])
            seen |= wrong
        self.assertEqual(seen, {(name, many) for name in ("facts", "impositions")
                                for many in (False, True)})

    def test_a_number_of_parents_is_not_told(self):
        """Whatever number an entry gives, some signature has such a type."""
        for parents in ([], [0], [0, 0], [0, 0, 0, 0]):
            for data in (write([0], [(0, 1, parents)]), write([0], impositions=[(0, 1, parents)])):
                self.assertEqual(wrong_in(data), [])

    def test_the_place_is_said(self):
        for data, line in [
                (bytes(3), "refused with 13: no room for the head (3 bytes, the head has 16)"),
                (bytes(17), "refused with 13: fewer bytes than the counts say (17, not 18)"),
                (bytes(20), "refused with 13: more bytes than the counts say (20, not 18)"),
                (write([1]), "refused with 14: a link to a higher element (0 links to 1)"),
                (write([0], variables=[(3, 0), (2, 0)]),
                 "refused with 14: variables not in order (row 2)"),
                (write([0], pairs=[(0, 0), (0, 9)]), "refused with 14: an entry of pairs whose"
                 " call is refused with 5 (row 2: element 9)")]:
            with self.subTest(line=line):
                self.assertEqual(park.show(data)[0].splitlines()[-1], line)

    def test_several_things(self):
        data = write([0, 2], [(1, 40, [7])], marks=[3, 0], settled=1, started=0)
        self.assertEqual(wrong_in(data), [(14, reason) for reason in (
            "a mark that is neither 0 nor 1", "the flag for number 4 not set beside an entry",
            "the flag for number 4 not set beside settled",
            "an entry of facts whose call is refused with 5", "a link to a higher element",
            "a fact on an element that is no root")])

    def test_every_length_and_byte(self):
        """Nothing makes it stop; of the lengths of a file one alone is right."""
        data = P2
        for length in range(len(data) + 3):
            found = wrong_in((data + bytes(3))[:length])
            self.assertEqual([number for number, _ in found], [13] if length != len(data) else [])
        for place in range(len(data)):
            for value in range(256):
                park.show(data[:place] + bytes([value]) + data[place + 1:])

    def test_random_bytes(self):
        rng = random.Random(2)
        for _ in range(2000):
            data = bytearray(random_file(rng))
            for _ in range(rng.randint(1, 3)):
                data[rng.randrange(16, len(data))] = rng.choice([0, 1, 2, 5, 64, 255])
            text, _ = park.show(bytes(data))
            self.assertTrue(text.endswith("\n"))


class Document(unittest.TestCase):
    """docs/FILE.md against tools/park_cases.txt, and its offsets and example."""

    def setUp(self):
        self.text = DOC.read_text(encoding="utf-8")

    def rows(self, heading):
        """The rows of the tables under a heading, without the first two of each."""
        section = self.text.split(f"\n## {heading}\n")[1].split("\n## ")[0]
        rows = []
        for table in re.findall(r"(?:^\|.*\n)+", section, re.MULTILINE):
            lines = [[cell.strip() for cell in line.strip("|").split("|")]
                     for line in table.splitlines()]
            rows += lines[2:]
        return rows

    def signature(self, lines):
        """A signature as the tables have it."""
        shown = []
        for line in lines:
            if shown and shown[-1][0] == line:
                shown[-1][1] += 1
            else:
                shown.append([line, 1])
        return ", ".join(f"`{line}`" + (f" {count} times" if count > 1 else "")
                         for line, count in shown) or "none"

    def test_every_shown_file_is_there(self):
        for heading, numbers in (("Refusals", (13, 14)), ("What loads", (0,))):
            expected = []
            for case in read_cases():
                if case["show"] and case["number"] in numbers:
                    reason = case["reason"].removeprefix("nothing: ")
                    file = f"`{case['bytes']}`" if case["bytes"] else "none"
                    length = str(len(from_hex(case["bytes"])))
                    expected.append([reason, self.signature(case["declare"]), length, file])
            self.assertEqual([row[-4:] for row in self.rows(heading)], expected)

    def test_numbers_and_what_document_02_names(self):
        named = [row[0] for row in self.rows("Refusals") if row[0]]
        self.assertEqual(named, [
            "13, too short for its counts", "13, a length that does not fit them",
            "14, a number or count outside its table", "14, an entry whose call would refuse it",
            "14, a link to a higher element", "14, a fact on an element that is no root",
            "14, a broken chain", "14, an order other than ours", "14, a nonzero unused byte"])

    def test_the_file_of_nothing(self):
        self.assertIn("has the file `00*18`,", self.text)
        self.assertEqual(write(started=0), bytes(18))

    def test_offsets(self):
        """The columns follow each other, for any counts."""
        rows = self.rows("Parts")
        counts = [row for row in rows if len(row) == 4]
        self.assertEqual([(row[2], int(row[3].replace(",", ""))) for row in counts],
                         [(name, most) for name, (most, _) in park.TABLES.items()])
        self.assertEqual([int(row[0]) for row in counts], list(range(0, 16, 2)))
        letters = [row[1] for row in counts]
        parts = [row for row in rows if len(row) == 5]
        begins = [row for row in rows if len(row) == 2]

        def value(formula, names):
            formula = re.sub(r"(\w|\)) (?=[A-Z(])", r"\1 * ", formula)
            return eval(formula, {}, names)  # pylint: disable=eval-used
        rng = random.Random(3)
        for _ in range(50):
            names = {letter: rng.randint(0, 9) for letter in letters}
            for name, formula in begins[:-1]:
                names[name] = value(formula, names)
            last, total = begins[-1][1].split(" = ")
            length = value(last, names)
            self.assertEqual(value(total, names), length)
            at = 16
            for _, column, width, count, offset in parts:
                for place in range(4 if "place j" in column else 1):
                    self.assertEqual(value(offset, {**names, "j": place}), at, column)
                    at += int(width) * value(count, names)
            self.assertEqual(at, length)
            self.assertEqual(length, 18 + sum(names[letter] * width for letter, (_, width)
                                              in zip(letters, park.TABLES.values())))

    def test_the_worked_example(self):
        section = self.text.split("\n## Worked example\n")[1]
        blocks = re.findall(r"```\n(.*?)```", section, re.DOTALL)
        self.assertEqual(from_hex(blocks[0]), P2)
        self.assertEqual(park.show(P2), (blocks[1], False))
        at = 0
        for offset, part, _ in self.rows("Worked example"):
            data = from_hex(part.strip("`"))
            self.assertEqual((int(offset), P2[at:at + len(data)]), (at, data))
            at += len(data)
        self.assertEqual(at, len(P2))

    def test_lengths(self):
        self.assertIn("The shortest file has 18 bytes, the longest 16,274.", self.text)
        self.assertEqual(18 + sum(most * width for most, width in park.TABLES.values()), 16274)


class Proved(unittest.TestCase):
    """The files that crates/file proves cases of are those of tools/park_cases.txt with at most 100 bytes."""

    DECLARATIONS = {
        "push_type (type_entry plain [])": "type plain",
        "push_type (type_entry plain (0 ∷ []))": "type plain [0]",
        "push_type (type_entry plain (0 ∷ 0 ∷ []))": "type plain [0 0]",
        "push_type (type_entry plain (0 ∷ 0 ∷ 0 ∷ 0 ∷ []))": "type plain [0 0 0 0]",
        "push_type (type_entry model [])": "type model",
        "push_type (type_entry (mor 0) [])": "type mor 0",
        "push_pred (pred_entry [] [])": "predicate",
        "push_func (func_entry [] [] 0)": "function -> 0",
        "push_model (model_entry 0 1 0 1 2 3)": "model 0 1 (0 1 2 3)",
        "push_mor_app (mor_app_entry 4 1 0)": "morphism-application 4 (1 0)",
    }

    def data(self, text):
        """`1 ∷ zeros 7 (2 ∷ [])` as bytes."""
        found = b""
        for zeros, byte in re.findall(r"zeros (\d+)|(\d+) ∷", text):
            found += bytes(int(zeros)) if zeros else bytes([int(byte)])
        return found

    def declarations(self, text):
        return [self.DECLARATIONS[entry] for entry in re.split(" ∷ (?=push_)", text)]

    def test_the_same_files(self):
        entry = re.compile(r"-- (.*)\n\s*(?:∷ )?file (\[\]|\((.*?) ∷ \[\]\)) (.*)\n")
        proved = [
            (reason, self.declarations(declared) if declared else [], self.data(data))
            for reason, _, declared, data in entry.findall(PROVED.read_text(encoding="utf-8"))
        ]
        known = [
            (case["reason"].removeprefix("nothing: "), case["declare"], from_hex(case["bytes"]))
            for case in read_cases()
        ]
        self.assertCountEqual(proved, [case for case in known if len(case[2]) <= 100])


class Commands(unittest.TestCase):
    def run_tool(self, *words, data=b""):
        done = subprocess.run([sys.executable, str(TOOL), *words], input=data,
                              capture_output=True, check=False)
        return done.returncode, done.stdout.decode(), done.stderr.decode()

    def test_standard_input_and_files(self):
        expected = (0, park.show(P2)[0], "")
        self.assertEqual(self.run_tool("show", "-", data=P2), expected)
        with tempfile.TemporaryDirectory() as folder:
            path = Path(folder, "p2")
            path.write_bytes(P2)
            self.assertEqual(self.run_tool("show", str(path)), expected)
            missing = str(Path(folder, "missing"))
            self.assertEqual(self.run_tool("show", missing),
                             (1, "", f"{missing}: No such file or directory\n"))

    def test_what_is_wrong_gives_1(self):
        self.assertEqual(self.run_tool("show", "-"), (
            1, "refused with 13: no room for the head (0 bytes, the head has 16)\n", ""))
        code, out, message = self.run_tool("show", "-", data=write([1]))
        self.assertEqual((code, out.splitlines()[-1], message),
                         (1, "refused with 14: a link to a higher element (0 links to 1)", ""))

    def test_wrong_usage(self):
        for arguments in ((), ("show",), ("store", "-"), ("show", "-", "--fast")):
            with self.subTest(arguments=arguments):
                code, out, message = self.run_tool(*arguments)
                self.assertEqual((code, out), (1, ""))
                self.assertIn("usage: park", message)

    def test_help_names_every_line(self):
        code, out, message = self.run_tool("--help")
        self.assertEqual((code, message), (0, ""))
        for word in ("element", "fact", "apply", "holds", "impose", "variable", "ambient", "equal"):
            self.assertIn(f"\n  {word} ", out)


if __name__ == "__main__":
    unittest.main()
