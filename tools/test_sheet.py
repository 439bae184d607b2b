"""Tests of tools/sheet, of the samples and of ./close-sheet. Run: python3 tools/test_sheet.py"""

import importlib.machinery
import importlib.util
import random
import re
import shutil
import struct
import subprocess
import sys
import tempfile
import unittest
from pathlib import Path

TOOL = Path(__file__).resolve().parent / "sheet"
SAMPLES = TOOL.parent.parent / "samples"
# The samples of samples/bytes.
LENGTHS = {"bytes-31": 31, "bytes-32769": 32769}

sys.dont_write_bytecode = True
loader = importlib.machinery.SourceFileLoader("sheet", str(TOOL))
sheet = importlib.util.module_from_spec(importlib.util.spec_from_loader("sheet", loader))
loader.exec_module(sheet)

# Document 01's records and settle, apart from the tool: for each kind the most that A
# and B may be, the most parents, and the least and most arguments.
ANY = 65535
SHAPES = {1: (3, ANY, 4, 0, 0), 2: (0, 0, 4, 0, 4), 3: (0, ANY, 4, 0, 4),
          4: (ANY, ANY, 0, 4, 4), 5: (ANY, 0, 0, 2, 2), 6: (1, 0, 0, 0, 0),
          7: (ANY, ANY, 0, 0, 0), 8: (ANY, ANY, 4, 0, 0), 9: (ANY, ANY, 4, 0, 4),
          10: (ANY, 0, 4, 0, 4), 11: (63, ANY, 0, 0, 0), 12: (ANY, ANY, 0, 0, 0),
          13: (0, 0, 0, 0, 0), 14: (0, 0, 0, 0, 0), 15: (0, 0, 0, 0, 0)}

# P2 of document 01, word by word.
P2 = [
    (1, 1, 1, 0, 0, 0, 0, 0, 0, 0, 0, 0, 0, 0, 0, 0),
    (2, 1, 0, 0, 1, 0, 0, 0, 0, 0, 0, 0, 0, 0, 0, 0),
    (3, 3, 0, 1, 1, 0, 0, 0, 0, 0, 0, 0, 0, 0, 0, 0),
    (4, 6, 0, 0, 0, 0, 0, 0, 0, 0, 0, 0, 0, 0, 0, 0),
    (5, 6, 0, 0, 0, 0, 0, 0, 0, 0, 0, 0, 0, 0, 0, 0),
    (6, 6, 0, 0, 0, 0, 0, 0, 0, 0, 0, 0, 0, 0, 0, 0),
    (7, 6, 0, 0, 0, 0, 0, 0, 0, 0, 0, 0, 0, 0, 0, 0),
    (8, 9, 0, 2, 1, 0, 0, 0, 0, 0, 0, 0, 0, 0, 0, 0),
    (9, 9, 0, 3, 1, 0, 1, 0, 0, 0, 0, 0, 0, 0, 0, 0),
    (10, 7, 2, 3, 0, 0, 0, 0, 0, 0, 0, 0, 0, 0, 0, 0),
    (11, 13, 0, 0, 0, 0, 0, 0, 0, 0, 0, 0, 0, 0, 0, 0),
    (0, 14, 0, 0, 0, 0, 0, 0, 0, 0, 0, 0, 0, 0, 0, 0),
]


def pack(records):
    return b"".join(struct.pack("<16H", *record) for record in records)


def words_of(text):
    """The records that a text gives, as tuples."""
    return list(struct.iter_unpack("<16H", sheet.assemble(text)))


def record(kind, a=0, b=0, parents=(), arguments=(), next_index=0):
    def slots(entries):
        return [*entries, 0, 0, 0, 0][:4]
    return (next_index, kind, a, b, len(parents), len(arguments),
            *slots(parents), *slots(arguments), 0, 0)


def random_record(rng, kind, next_index, most=ANY):
    """A well-formed record of a kind; its numbers are at most `most`."""
    most_a, most_b, parents, least, arguments = SHAPES[kind]
    a = rng.randint(0, min(most, most_a))
    b = rng.randint(0, min(most, most_b)) if kind != 1 or a == 3 else 0
    parents = [rng.randint(0, most) for _ in range(rng.randint(0, parents))]
    arguments = [rng.randint(0, most) for _ in range(rng.randint(least, arguments))]
    return record(kind, a, b, parents, arguments, next_index)


def is_well_formed(words):
    _, kind, a, b, parents, arguments = words[:6]
    if kind not in SHAPES:
        return False
    most_a, most_b, most_parents, least, most = SHAPES[kind]
    if kind == 1 and a != 3:
        most_b = 0
    return (a <= most_a and b <= most_b and parents <= most_parents
            and least <= arguments <= most
            and not any(words[6 + parents:10]) and not any(words[10 + arguments:]))


def wrong_parents(records):
    """The impositions that are refused with 15 where the chain comes to them, by document 01
    and M-105 of document 02. A chain that comes back to a record finds nothing new."""
    types, els, wrong, visited, at = [], 0, [], [], 0
    while at not in visited:
        visited.append(at)
        after, kind, element, typ, count = records[at][:5]
        if after >= len(records) or (len(visited) == len(records) and after != 0):
            break
        if is_well_formed(records[at]):
            if kind == 1:
                types.append(count)
            elif kind == 6:
                els += 1
            elif kind == 8 and typ < len(types) and max(element, *records[at][6:6 + count], 0) < els:
                wrong += [at] * (count != types[typ])
        at = after
    return sorted(wrong)


class Assembling(unittest.TestCase):
    def assert_record(self, line, *expected, **named):
        """The line alone gives the record."""
        self.assertEqual(words_of(line), [record(*expected, **named)])

    def test_every_kind(self):
        self.assert_record("type plain", 1)
        self.assert_record("type T model", 1, 1)
        self.assert_record("type T enum [5 6]", 1, 2, parents=[5, 6])
        self.assert_record("type T mor 7 [1 2 3 4]", 1, 3, 7, [1, 2, 3, 4])
        self.assert_record("predicate P [1] (2 3 4 5)", 2, 0, 0, [1], [2, 3, 4, 5])
        self.assert_record("function F [1 2] (3) -> 4", 3, 0, 4, [1, 2], [3])
        self.assert_record("model 1 2 (3 4 5 6)", 4, 1, 2, [], [3, 4, 5, 6])
        self.assert_record("morphism-application 1 (2 3)", 5, 1, 0, [], [2, 3])
        self.assert_record("element", 6)
        self.assert_record("element drum marked", 6, 1)
        self.assert_record("equal 1 2", 7, 1, 2)
        self.assert_record("impose 1 2 [3 4]", 8, 1, 2, [3, 4])
        self.assert_record("apply 1 [2] (3 4) = 5", 9, 1, 5, [2], [3, 4])
        self.assert_record("holds 1 [2] (3)", 10, 1, 0, [2], [3])
        self.assert_record("variable 63 65535", 11, 63, 65535)
        self.assert_record("ambient 1 2", 12, 1, 2)
        self.assert_record("close", 13)
        self.assert_record("conflicts", 14)
        self.assert_record("settle", 15)

    def test_raw(self):
        words = tuple(range(65520, 65536))
        self.assertEqual(words_of("raw " + " ".join(map(str, words))), [words])

    def test_lists_may_be_left_out_and_have_commas(self):
        self.assert_record("apply 1 = 5", 9, 1, 5)
        self.assert_record("apply 1 [] () = 5", 9, 1, 5)
        self.assert_record("apply 1 [2,3](4, 5)=6", 9, 1, 6, [2, 3], [4, 5])
        self.assert_record("function (1) -> 2", 3, 0, 2, [], [1])
        self.assert_record("function F->2", 3, 0, 2)

    def test_comments_and_empty_lines(self):
        self.assertEqual(words_of("# a story\n\n  close # and more\r\n\t\n"), [record(13)])

    def test_empty_text_is_the_empty_sheet(self):
        self.assertEqual(sheet.assemble("# nothing\n"), b"")

    def test_chain(self):
        records = words_of("close\nclose\nclose")
        self.assertEqual([words[0] for words in records], [1, 2, 0])
        records = words_of("close next 2\nclose next 0\nelement next 1\nelement e marked next 9")
        self.assertEqual([words[0] for words in records], [2, 0, 1, 9])

    def test_names_of_each_sort(self):
        records = words_of("type x model\ntype y mor x [x]\npredicate x [y]\n"
                           "function x (y) -> x\nfunction y -> y\nelement x\nelement y\n"
                           "model x y (x y x y)\nmorphism-application y (y x)\n"
                           "equal x y\nimpose y x [x y]\napply y [x] (y) = x\n"
                           "holds x [y] (x)\nvariable 3 y\nambient x y")
        expected = [record(1, 1), record(1, 3, 0, [0]), record(2, parents=[1]),
                    record(3, 0, 0, [], [1]), record(3, 0, 1), record(6), record(6),
                    record(4, 0, 1, [], [0, 1, 0, 1]), record(5, 1, 0, [], [1, 0]),
                    record(7, 0, 1), record(8, 1, 0, [0, 1]), record(9, 1, 0, [0], [1]),
                    record(10, 0, 0, [1], [0]), record(11, 3, 1), record(12, 0, 1)]
        self.assertEqual([words[1:] for words in records], [words[1:] for words in expected])

    def test_names_and_unnamed_records_share_numbers(self):
        self.assertEqual(words_of("element\nelement drum\nelement\nelement box\nequal drum box")[4],
                         record(7, 1, 3))

    def test_letters_of_names(self):
        self.assertEqual(words_of("element\nelement Kupplung-3_ä\nequal Kupplung-3_ä 0")[2],
                         record(7, 1, 0))

    def test_raw_records_count(self):
        """A well-formed raw element has a number, a malformed one has none."""
        good = "raw 1 6 1" + " 0" * 13
        bad = "raw 1 6 2" + " 0" * 13
        self.assertEqual(words_of(good + "\nelement x\nequal x x")[2], record(7, 1, 1))
        self.assertEqual(words_of(bad + "\nelement x\nequal x x")[2], record(7, 0, 0))

    def test_numbers_follow_the_chain(self):
        records = words_of("element a next 2\nelement b next 3\nelement c next 1\nequal b c")
        self.assertEqual(records[3], record(7, 2, 1))
        # A long chain: 0, 99, 98 and so on to 1.
        lines = [f"element e{index} next {index - 1}" for index in range(100)]
        lines[0], lines[1] = "element e0 next 99", "equal e99 e2 next 0"
        self.assertEqual(words_of("\n".join(lines))[1], record(7, 1, 98))

    def test_records_outside_the_chain_come_after_it(self):
        records = words_of("element a next 2\nelement b\nelement c next 0\nequal b c")
        self.assertEqual(records[3], record(7, 2, 1))

    def test_maps(self):
        """The text on maps in README.md, record by record."""
        readme = (TOOL.parent / "README.md").read_text(encoding="utf-8")
        text = re.search(r"## Maps.*?```\n(.*?)```", readme, re.DOTALL).group(1)
        expected = [record(1, 1), record(1, 3, 0), record(3, 0, 0, [], [1]), record(3, 0, 0, [], [1]),
                    record(3, 0, 1, [], [0]), record(3, 0, 1, [], [1, 1]),
                    record(4, 0, 1, [], [0, 1, 2, 3]), *[record(6)] * 5,
                    record(9, 0, 0, [], [2]), record(9, 2, 3, [], [1]), record(9, 3, 4, [], [2, 3]),
                    record(13)]
        self.assertEqual([words[1:] for words in words_of(text)], [words[1:] for words in expected])

    def test_maps_with_other_counts(self):
        """What is refused with 12, or with 7, can be written."""
        start = ("type Set model\ntype Drive mor Set\n" + "function -> Set\n" * 2
                 + "function id -> Drive\nfunction comp -> Drive\nfunction act -> Set\n"
                 "model Set Drive (0 1 id comp)\nelement a\nelement b\n")
        records = words_of(start + "apply id = a\napply id (a b) = a\napply comp (a) = b\n"
                           "apply comp (a b a) = b\napply act (a b) = b")
        expected = [record(9, 2, 0), record(9, 2, 0, [], [0, 1]), record(9, 3, 1, [], [0]),
                    record(9, 3, 1, [], [0, 1, 0]), record(9, 4, 1, [], [0, 1])]
        self.assertEqual([words[1:] for words in records[-5:]], [words[1:] for words in expected])

    def test_p2(self):
        text = ("type Box model\ntype Drum plain [Box]\nfunction drum-of [Box] -> Drum\n"
                "element a\nelement b\nelement x\nelement y\napply drum-of [a] = x\n"
                "apply drum-of [b] = y\nequal x y\nclose\nconflicts\n")
        self.assertEqual(sheet.assemble(text), pack(P2))


class Errors(unittest.TestCase):
    CASES = [
        ("close\n\nclsoe", "line 3: 'clsoe' is not a kind of record"),
        ("element drum\n# drums\nequal drum drumm", "line 3: 'drumm' is not declared as an element"),
        ("type T plain [Box]", "line 1: 'Box' is not declared as a type"),
        ("holds worn", "line 1: 'worn' is not declared as a predicate"),
        ("apply f = 1", "line 1: 'f' is not declared as a function"),
        ("element Box\ntype T plain [Box]", "line 2: 'Box' is not declared as a type"),
        ("equal a 0\nelement a", "line 1: 'a' is declared as an element on line 2,"
                                   " which is not earlier in the chain"),
        ("type T plain [T]", "line 1: 'T' is declared as a type on line 1,"
                             " which is not earlier in the chain"),
        ("element a next 2\nelement b next 0\nequal a b next 1",
         "line 3: 'b' is declared as an element on line 2, which is not earlier in the chain"),
        ("element a\nclose\nelement a", "line 3: 'a' is already declared as an element on line 1"),
        ("type Box modle", "line 1: 'modle' is not a kind of type (plain, model, enum or mor)"),
        ("type Box", "line 1: the line ends after 'Box',"
                     " a kind of type (plain, model, enum or mor) is missing"),
        ("type M mor", "line 1: the line ends after 'mor', a type is missing"),
        ("holds", "line 1: the line ends after 'holds', a predicate is missing"),
        ("apply", "line 1: the line ends after 'apply', a function is missing"),
        ("close\nequal 3", "line 2: the line ends after '3', an element is missing"),
        ("close next", "line 1: the line ends after 'next', a number is missing"),
        ("variable", "line 1: the line ends after 'variable', a key is missing"),
        ("function f (1", "line 1: the line ends after '1', ')' is missing"),
        ("impose 1 2 [1 2 3 4", "line 1: the line ends after '4', ']' is missing"),
        ("function f (1)", "line 1: the line ends after ')', '->' is missing"),
        ("apply 0 (1)", "line 1: the line ends after ')', '=' is missing"),
        ("function f (1) = 2", "line 1: '=' stands where '->' is expected"),
        ("apply 0 (1) [2] = 3", "line 1: '[' stands where '=' is expected"),
        ("equal ( 1", "line 1: '(' stands where an element is expected"),
        ("impose 0 1 [2)", "line 1: ')' stands where an element is expected"),
        ("holds 0 [1 2 3 4 5]", "line 1: '5' is one too many in a list of at most four"),
        ("element drum maked", "line 1: 'maked' is not expected here"),
        ("close now", "line 1: 'now' is not expected here"),
        ("settle 3", "line 1: '3' is not expected here"),
        ("close next 1 2", "line 1: '2' is not expected here"),
        ("element 3", "line 1: '3' is not a name"),
        ("element 3rd", "line 1: '3rd' is not a name"),
        ("equal 65536 0", "line 1: '65536' is not a number from 0 to 65535"),
        ("equal 0 " + "9" * 5000, f"line 1: '{'9' * 5000}' is not a number from 0 to 65535"),
        ("equal 3rd 0", "line 1: '3rd' is not a number from 0 to 65535"),
        ("close next x", "line 1: 'x' is not a number from 0 to 65535"),
        ("variable 64 0", "line 1: '64' is not a key from 0 to 63"),
        ("variable k 0", "line 1: 'k' is not a key from 0 to 63"),
        ("model 0 1 (0 1 2)", "line 1: 'model' takes 4 arguments, 3 given"),
        ("model 0 1", "line 1: 'model' takes 4 arguments, 0 given"),
        ("morphism-application 0 (1 2 3)",
         "line 1: 'morphism-application' takes 2 arguments, 3 given"),
        ("raw 1 2 3", "line 1: 'raw' takes 16 numbers, 3 given"),
        ("raw" + " 0" * 16 + " next 1", "line 1: 'raw' takes 16 numbers, 18 given"),
        ("raw" + " 0" * 15 + " x", "line 1: 'x' is not a number from 0 to 65535"),
    ]

    def test_messages(self):
        for text, message in self.CASES:
            with self.subTest(text=text[:60]):
                with self.assertRaises(sheet.SheetError) as caught:
                    sheet.assemble(text)
                self.assertEqual(str(caught.exception), message)

    def test_reserved_words_are_not_names(self):
        for word in ("plain", "model", "enum", "mor", "marked", "next"):
            with self.subTest(word=word):
                with self.assertRaises(sheet.SheetError) as caught:
                    sheet.assemble(f"element\nequal 0 {word}")
                self.assertEqual(str(caught.exception),
                                 f"line 2: '{word}' is not declared as an element")

    def test_a_number_that_fits_no_word(self):
        elements = "element\n" * 65536 + "element last\nelement\n"
        with self.assertRaises(sheet.SheetError) as caught:
            sheet.assemble(elements + "equal last 0 next 0")
        self.assertEqual(str(caught.exception), "line 65539: 'last' has a number over 65535")

    def test_lengths(self):
        for length in (1, 31, 33, 63):
            with self.subTest(length=length):
                with self.assertRaises(sheet.SheetError) as caught:
                    sheet.disassemble(bytes(length))
                self.assertEqual(str(caught.exception),
                                 f"the sheet has {length} bytes, not a multiple of 32")


class Warnings(unittest.TestCase):
    """Impositions with another number of parents than their types have (number 15)."""

    START = ("type Box model\ntype Pack plain [Box Box]\ntype Drum plain [Box]\n"
             "element a\nelement b\nelement x\n")

    def assert_warnings(self, text, *expected):
        data, warnings = sheet.assemble_and_warn(text)
        self.assertEqual(warnings, list(expected))
        self.assertEqual(data, sheet.assemble(text))

    def test_too_few(self):
        self.assert_warnings(self.START + "impose x Pack [a]",
                             "line 7: warning: 'Pack' has 2 parents, 1 given: refused with 15")
        self.assert_warnings(self.START + "impose x Drum",
                             "line 7: warning: 'Drum' has 1 parent, 0 given: refused with 15")

    def test_too_many(self):
        self.assert_warnings(self.START + "impose x Pack [a b a]",
                             "line 7: warning: 'Pack' has 2 parents, 3 given: refused with 15")
        self.assert_warnings(self.START + "impose a Box [b]",
                             "line 7: warning: 'Box' has 0 parents, 1 given: refused with 15")

    def test_right(self):
        self.assert_warnings(self.START + "impose a Box\nimpose x Drum [a]\nimpose x Pack [a b]")

    def test_every_count(self):
        start = "type model\n" + "".join(f"type plain [{' 0' * has}]\n" for has in range(5))
        for has in range(5):
            for given in range(5):
                noun = "parent" if has == 1 else "parents"
                self.assert_warnings(
                    start + f"element\nimpose 0 {has + 1} [{'0 ' * given}]",
                    *[f"line 8: warning: type {has + 1} has {has} {noun}, {given} given:"
                      " refused with 15"] * (has != given))

    def test_by_number(self):
        """A type that has a name is called by it."""
        self.assert_warnings(self.START + "impose 2 1 [0]",
                             "line 7: warning: 'Pack' has 2 parents, 1 given: refused with 15")

    def test_a_type_without_a_name(self):
        self.assert_warnings(self.START.replace("Pack", "") + "impose x 1 [a]",
                             "line 7: warning: type 1 has 2 parents, 1 given: refused with 15")

    def test_raw_records(self):
        """A raw imposition is judged as any other; a raw type has its parents."""
        raw = "raw 0 8 2 1 1" + " 0" * 11
        self.assert_warnings(self.START + raw,
                             "line 7: warning: 'Pack' has 2 parents, 1 given: refused with 15")
        self.assert_warnings(self.START + "raw 0 8 2 2 1" + " 0" * 11)
        self.assert_warnings(f"raw 1 1 0 0{' 0' * 12}\nraw 2 1 0 0 2{' 0' * 11}\nelement x\n"
                             "impose x 1 [x]",
                             "line 4: warning: type 1 has 2 parents, 1 given: refused with 15")

    def test_what_is_refused_with_3(self):
        for words in ("0 8 2 1 1 1", "0 8 2 1 1 0 0 1", "0 8 2 1 5", "0 8 2 1" + " 0" * 11 + " 1"):
            raw = (words.split() + ["0"] * 16)[:16]
            self.assert_warnings(self.START + "raw " + " ".join(raw))

    def test_what_is_refused_with_5(self):
        for line in ("impose x 3 [a]", "impose 3 Pack [a]", "impose x Pack [3]", "impose x Pack [a b 3]",
                     "impose x 65535 [a]"):
            self.assert_warnings(self.START + line)
        # What is declared later is not there yet.
        self.assert_warnings(self.START + "impose 3 Pack [a]\nelement")

    def test_what_is_refused_with_2(self):
        """A next index that is not in the sheet, and a chain that does not end."""
        said = "line 7: warning: 'Pack' has 2 parents, 1 given: refused with 15"
        self.assert_warnings(self.START + "impose x Pack [a] next 7")
        self.assert_warnings(self.START + "impose x Pack [a] next 5")
        self.assert_warnings(self.START + "impose x Pack [a] next 5\nclose", said)
        self.assert_warnings(self.START + "impose x Pack [a] next 0\nclose", said)

    def test_what_is_refused_with_1(self):
        """1,024 records have a warning, one more has none."""
        line = "impose x Pack [a]\n"
        start = len(self.START.splitlines())
        for size, warned in ((1024, 1), (1025, 0)):
            text = self.START + line + "close\n" * (size - start - 1)
            self.assertEqual(len(sheet.assemble_and_warn(text)[1]), warned)

    def test_a_chain_out_of_order(self):
        # The chain is 0, 2, 1, 3, 4: Pack is type 1 and a is element 0.
        text = ("type Box model next 2\nelement a next 3\ntype Pack plain [Box] next 1\n"
                "impose a Pack\nimpose 0 1 [0]")
        self.assert_warnings(text, "line 4: warning: 'Pack' has 1 parent, 0 given: refused with 15")
        # The chain is 0, 4, 1, 2, 3: the lines are told in their order.
        text = ("element a next 4\nimpose a Box [a]\nimpose a Box\nimpose a Box [a a] next 0\n"
                "type Box model next 1")
        self.assert_warnings(text, "line 2: warning: 'Box' has 0 parents, 1 given: refused with 15",
                             "line 4: warning: 'Box' has 0 parents, 2 given: refused with 15")
        text = ("type Box model next 4\nimpose a Box [a] next 3\n# no record\n"
                "impose a Box [a a] next 1\nclose next 0\nelement a next 2")
        self.assert_warnings(text, "line 2: warning: 'Box' has 0 parents, 1 given: refused with 15",
                             "line 4: warning: 'Box' has 0 parents, 2 given: refused with 15")

    def test_records_outside_the_chain(self):
        """They are not carried out, so that nothing refuses them."""
        self.assert_warnings(self.START + "close next 0\nimpose x Pack [a]")

    def test_several(self):
        self.assert_warnings(
            self.START + "impose x Pack [a]\n# a comment\n\nimpose x Pack [a b]\nimpose x Pack\n"
            "close\nimpose x Drum [a b]",
            "line 7: warning: 'Pack' has 2 parents, 1 given: refused with 15",
            "line 11: warning: 'Pack' has 2 parents, 0 given: refused with 15",
            "line 13: warning: 'Drum' has 1 parent, 2 given: refused with 15")

    def test_the_bytes_are_those_of_the_words(self):
        records = words_of(self.START + "impose x Pack [a]\nimpose x Pack [b a]\nimpose x Pack [a b a b]")
        self.assertEqual(records[-3:], [record(8, 2, 1, [0], next_index=7),
                                        record(8, 2, 1, [1, 0], next_index=8),
                                        record(8, 2, 1, [0, 1, 0, 1])])

    def test_random_sheets(self):
        """Orders of the chain, broken chains and malformed records, against `wrong_parents`."""
        rng = random.Random(6)
        warned = 0
        for _ in range(500):
            size = rng.randint(6, 20)
            kinds = [1, 1, 6, 6, 6, *rng.choices([1, 6, 8, 8, 8, 13], k=size - 5)]
            order = [0, *rng.sample(range(1, size), size - 1)]
            if rng.random() < 0.5:
                order.sort()
            following = dict(zip(order, [*order[1:], rng.choice([0, 0, rng.randint(0, size)])]))
            if rng.random() < 0.3:
                following[rng.randrange(size)] = rng.randint(0, size)
            records = [random_record(rng, kind, following[index], 2) for index, kind in enumerate(kinds)]
            if rng.random() < 0.3:
                records[-1] = (following[size - 1], 8, *[rng.randint(0, 2) for _ in range(14)])
            wrong = wrong_parents(records)
            text = sheet.disassemble(pack(records))
            self.assertEqual(sheet.assemble(text), pack(records))
            comments = [line.split("# ")[1].partition(": ") for line in text.splitlines()]
            self.assertEqual([int(index) for index, _, said in comments if said], wrong)
            self.assert_warnings(text, *[f"line {int(index) + 1}: warning: {said}"
                                         for index, _, said in comments if said])
            warned += len(wrong)
        self.assertGreater(warned, 500)

    def test_text_of_a_sheet(self):
        data = sheet.assemble(self.START + "impose x Pack [a]\nimpose x Drum [a]")
        text = sheet.disassemble(data)
        self.assertEqual(text.splitlines()[6:], [
            "impose e2 t1 [e0]                       # 6: 't1' has 2 parents, 1 given: refused with 15",
            "impose e2 t2 [e0]                       # 7"])
        self.assertEqual(sheet.assemble(text), data)


class RoundTrips(unittest.TestCase):
    def assert_round_trip(self, data):
        text = sheet.disassemble(data)
        self.assertEqual(sheet.assemble(text), data, text)
        lines = text.splitlines()
        self.assertEqual(len(lines), len(data) // 32)
        for line, words in zip(lines, struct.iter_unpack("<16H", data)):
            self.assertEqual(not line.startswith("raw "), is_well_formed(words), line)

    def test_every_kind(self):
        rng = random.Random(1)
        for kind in SHAPES:
            for most in (0, 3, ANY):
                for _ in range(50):
                    self.assert_round_trip(pack([random_record(rng, kind, 0, most)]))

    def test_random_records(self):
        """Small numbers, so that many are declared; a part of the chains is broken."""
        rng = random.Random(2)
        for _ in range(300):
            size = rng.randint(1, 40)
            kinds = [rng.choice([1, 2, 3, 6, 6, *SHAPES]) for _ in range(size)]
            nexts = list(range(1, size)) + [0]
            if rng.random() < 0.5:
                for _ in range(rng.randint(1, size)):
                    nexts[rng.randrange(size)] = rng.randint(0, size)
            self.assert_round_trip(pack(random_record(rng, kind, at, 5)
                                        for kind, at in zip(kinds, nexts)))

    def test_shuffled_chains(self):
        rng = random.Random(3)
        for _ in range(100):
            order = [0, *rng.sample(range(1, 20), 19)]
            following = dict(zip(order, order[1:] + [0]))
            self.assert_round_trip(pack(random_record(rng, rng.choice([1, 2, 3, 6, 7, 9]),
                                                      following[index], 8)
                                        for index in range(20)))

    def test_one_word_changed(self):
        """Each word of each kind set to telling values: well formed or raw."""
        rng = random.Random(4)
        for kind in SHAPES:
            for place in range(16):
                for value in (0, 1, 2, 3, 4, 5, 15, 16, 63, 64, 65535):
                    words = list(random_record(rng, kind, 0, 2))
                    words[place] = value
                    self.assert_round_trip(pack([words]))

    def test_random_bytes(self):
        rng = random.Random(5)
        for size in (0, 1, 2, 3, 10, 100, 1024, 1025):
            self.assert_round_trip(rng.randbytes(32 * size))

    def test_more_records_than_a_next_index_reaches(self):
        self.assert_round_trip(sheet.assemble("close\n" * 65538))

    def test_text_of_p2(self):
        lines = [line.split("#")[0].rstrip() for line in sheet.disassemble(pack(P2)).splitlines()]
        self.assertEqual(lines, [
            "type t0 model", "type t1 plain [t0]", "function f0 [t0] -> t1",
            "element e0", "element e1", "element e2", "element e3",
            "apply f0 [e0] = e2", "apply f0 [e1] = e3", "equal e2 e3", "close", "conflicts"])

    def test_text_of_what_is_not_plain(self):
        """An undeclared number, a chain that skips and a malformed record."""
        data = pack([record(6, 1, next_index=2), record(7, 0, 1),
                     record(12, 4, 0, next_index=3), record(16)])
        self.assertEqual(sheet.disassemble(data),
                         "element e0 marked next 2                # 0\n"
                         "equal e0 1 next 0                       # 1\n"
                         "ambient 4 e0                            # 2\n"
                         "raw 0 16 0 0 0 0 0 0 0 0 0 0 0 0 0 0    # 3\n")

    def test_text_of_a_settle(self):
        """With its chain, and with a word that it may not have."""
        data = pack([record(15, next_index=1), record(15, next_index=0), record(15, 1)])
        self.assertEqual(sheet.disassemble(data),
                         "settle                                  # 0\n"
                         "settle next 0                           # 1\n"
                         "raw 0 15 1 0 0 0 0 0 0 0 0 0 0 0 0 0    # 2\n")


class Samples(unittest.TestCase):
    def test_each_text_gives_its_sheet_and_back(self):
        names = sorted(path.stem for path in SAMPLES.glob("*.txt"))
        for wanted in ("p1", "p2", "p5", "p5-settled", "two-names", "unnamed-box",
                       "unnamed-box-settled", "transfer-box", "refused-element", "refused-parents"):
            self.assertIn(wanted, names)
        self.assertEqual(names, sorted(path.stem for path in SAMPLES.glob("*.sheet")))
        self.assertEqual(sorted([*names, *LENGTHS]), sorted(path.stem for path in SAMPLES.glob("*.out")))
        for name in names:
            with self.subTest(name=name):
                data = (SAMPLES / f"{name}.sheet").read_bytes()
                text = (SAMPLES / f"{name}.txt").read_text(encoding="utf-8")
                self.assertEqual(sheet.assemble(text), data)
                self.assertEqual(sheet.assemble(sheet.disassemble(data)), data)

    def test_lengths_that_no_text_gives(self):
        for name, length in LENGTHS.items():
            with self.subTest(name=name):
                done = subprocess.run([str(SAMPLES / "bytes"), name], capture_output=True, check=True)
                self.assertEqual(len(done.stdout), length)
                self.assertEqual((SAMPLES / f"{name}.out").read_text(), "refused 1 at 0\n")

    def test_one_sheet_prints_more_than_64_kb(self):
        self.assertGreater((SAMPLES / "long-print.out").stat().st_size, 65536)

    def test_the_gate_runs_three_pages(self):
        crate = SAMPLES.parent / "crates" / "close_sheet"
        self.assertEqual((crate / "stdin").read_bytes(), (SAMPLES / "three-pages.sheet").read_bytes())
        self.assertEqual((crate / "stdout").read_bytes(), (SAMPLES / "three-pages.out").read_bytes())

    def test_p2_is_that_of_the_documents(self):
        self.assertEqual((SAMPLES / "p2.sheet").read_bytes(), pack(P2))
        self.assertEqual((SAMPLES / "p2.out").read_text(),
                         "close 1 1 2 2\nconflict 2 1 0 / 1 1\nconflicts 1\nend 12\n")

    def test_closes_of_p1_and_p5_are_those_of_the_documents(self):
        self.assertEqual((SAMPLES / "p1.out").read_text(), "close 0 0 1 0\nend 1\n")
        self.assertEqual((SAMPLES / "p5.out").read_text(),
                         "close 1 1 2 3\nclose 1 1 3 0\nclose 0 0 1 0\nend 15\n")

    def test_the_transfer_box(self):
        """Four names are joined by the laws of maps, and bearing-8 is in two sets."""
        self.assertEqual((SAMPLES / "transfer-box.out").read_text(),
                         "close 1 4 3 14\nclose 0 0 1 0\nconflict 12 2 0 / 2 2\nconflicts 1\nend 37\n")
        self.assertEqual((SAMPLES / "refused-identity.out").read_text(), "refused 12 at 11\n")

    def test_parents(self):
        """One sample has an imposition with too few, and it is refused there."""
        for path in SAMPLES.glob("*.txt"):
            with self.subTest(name=path.stem):
                _, warnings = sheet.assemble_and_warn(path.read_text(encoding="utf-8"))
                self.assertEqual(len(warnings), path.stem == "refused-parents")
        text = sheet.disassemble((SAMPLES / "refused-parents.sheet").read_bytes())
        index, = re.findall(r"# (\d+): 't1' has 2 parents, 1 given: refused with 15$", text, re.MULTILINE)
        self.assertEqual((SAMPLES / "refused-parents.out").read_text(),
                         f"close 1 0 1 1\nrefused 15 at {index}\n")

    def test_a_settle_stands_for_the_closes(self):
        """The samples told with a settle are the others but for how they close."""
        for name, closing, lines in (
                ("p5", ["close"] * 3, "settle 3 2\nend 13\n"),
                ("unnamed-box", ["close", "conflicts", "close", "close", "conflicts"],
                 "settle 3 2\nconflicts 0\nend 43\n")):
            with self.subTest(name=name):
                by_closes, by_settle = (
                    [line.split("#")[0].split() for line in sheet.disassemble(
                        (SAMPLES / f"{sample}.sheet").read_bytes()).splitlines()]
                    for sample in (name, f"{name}-settled"))
                start = by_closes[:-len(closing)]
                self.assertEqual(by_closes[len(start):], [[word] for word in closing])
                self.assertEqual(by_settle[:len(start)], start)
                self.assertEqual(by_settle[len(start):],
                                 [["settle"]] + [["conflicts"]] * ("conflicts" in closing))
                self.assertEqual((SAMPLES / f"{name}-settled.out").read_text(), lines)


class Commands(unittest.TestCase):
    def run_tool(self, *words, data=b""):
        done = subprocess.run([sys.executable, str(TOOL), *words], input=data,
                              capture_output=True, check=False)
        return done.returncode, done.stdout, done.stderr.decode()

    def test_standard_input_and_output(self):
        self.assertEqual(self.run_tool("assemble", "-", data=b"close\n"),
                         (0, pack([record(13)]), ""))
        self.assertEqual(self.run_tool("disassemble", "-", data=pack([record(13)])),
                         (0, f"{'close':<39} # 0\n".encode(), ""))

    def test_after_a_parked_file(self):
        """Names stand for the numbers after those of the file; impositions are judged so."""
        text = b"type Box model\ntype Plate plain [0]\nelement plate\nimpose plate Plate [0]\nimpose 2 Plate\n"
        with tempfile.TemporaryDirectory() as folder:
            parked = Path(folder, "parked")
            parked.write_bytes(b"\6\0" + bytes(16))
            code, out, said = self.run_tool("assemble", "--parked", str(parked), "-", data=text)
            self.assertEqual(code, 0)
            self.assertEqual(list(struct.iter_unpack("<16H", out))[3:],
                             [record(8, 6, 1, [0], next_index=4), record(8, 2, 1)])
            self.assertEqual(said, "line 5: warning: 'Plate' has 1 parent, 0 given: refused with 15\n")
            shown = self.run_tool("disassemble", "--parked", str(parked), "-", data=out)[1].decode()
            self.assertEqual(shown.splitlines()[3].split("#")[0].rstrip(), "impose e6 t1 [0]")
            # Without it the same name is element 0; a file that is too short has no elements.
            self.assertEqual(words_of(text.decode())[3], record(8, 0, 1, [0], next_index=4))
            parked.write_bytes(b"\6")
            self.assertEqual(self.run_tool("assemble", "--parked", str(parked), "-", data=text)[1],
                             pack(words_of(text.decode())))
            code, out, said = self.run_tool("assemble", "--parked", f"{folder}/none", "-", data=text)
            self.assertEqual((code, out, said), (1, b"", f"{folder}/none: No such file or directory\n"))

    def test_files(self):
        with tempfile.TemporaryDirectory() as folder:
            text, binary = Path(folder, "a.txt"), Path(folder, "a.sheet")
            text.write_text("\ufeffelement drum\r\nclose\r\n", encoding="utf-8", newline="")
            self.assertEqual(self.run_tool("assemble", str(text), "-o", str(binary)), (0, b"", ""))
            self.assertEqual(binary.read_bytes(), pack([record(6, next_index=1), record(13)]))
            code, out, _ = self.run_tool("disassemble", str(binary))
            self.assertEqual((code, len(out.splitlines())), (0, 2))

    def test_errors_print_nothing_and_write_nothing(self):
        with tempfile.TemporaryDirectory() as folder:
            target = Path(folder, "out")
            target.write_bytes(b"before")
            for words, data, message in [
                    (("assemble",), b"close\nequal 0 drumm\n",
                     "line 2: 'drumm' is not declared as an element\n"),
                    (("assemble",), b"close\nelement \xff\n", "line 2: byte 255 is not UTF-8 text\n"),
                    (("disassemble",), b"\0" * 33,
                     "the sheet has 33 bytes, not a multiple of 32\n")]:
                with self.subTest(message=message):
                    self.assertEqual(self.run_tool(*words, "-", data=data), (1, b"", message))
                    self.assertEqual(self.run_tool(*words, "-", "-o", str(target), data=data),
                                     (1, b"", message))
                    self.assertEqual(target.read_bytes(), b"before")

    def test_warnings(self):
        """They go to standard error, and the sheet is written."""
        text = Warnings.START + "impose x Pack [a]\nimpose x Drum\n"
        expected = sheet.assemble(text)
        said = ("line 7: warning: 'Pack' has 2 parents, 1 given: refused with 15\n"
                "line 8: warning: 'Drum' has 1 parent, 0 given: refused with 15\n")
        self.assertEqual(self.run_tool("assemble", "-", data=text.encode()), (0, expected, said))
        with tempfile.TemporaryDirectory() as folder:
            target = Path(folder, "out")
            self.assertEqual(self.run_tool("assemble", "-", "-o", str(target), data=text.encode()),
                             (0, b"", said))
            self.assertEqual(target.read_bytes(), expected)
        # Beside an error there are none.
        self.assertEqual(self.run_tool("assemble", "-", data=text.encode() + b"clsoe\n"),
                         (1, b"", "line 9: 'clsoe' is not a kind of record\n"))
        # The text of a sheet has them as comments alone.
        code, out, message = self.run_tool("disassemble", "-", data=expected)
        self.assertEqual((code, message, out.count(b": refused with 15\n")), (0, "", 2))

    def test_files_that_cannot_be_opened(self):
        with tempfile.TemporaryDirectory() as folder:
            missing = str(Path(folder, "missing"))
            expected = (1, b"", f"{missing}: No such file or directory\n")
            self.assertEqual(self.run_tool("assemble", missing), expected)
            nowhere = str(Path(missing, "out"))
            self.assertEqual(self.run_tool("assemble", "-", "-o", nowhere),
                             (1, b"", f"{nowhere}: No such file or directory\n"))

    def test_wrong_usage(self):
        for words in ((), ("assemble",), ("translate", "-"), ("assemble", "-", "--fast")):
            with self.subTest(words=words):
                code, out, message = self.run_tool(*words)
                self.assertEqual((code, out), (1, b""))
                self.assertIn("usage: sheet", message)

    def test_help_names_every_kind(self):
        code, out, message = self.run_tool("--help")
        self.assertEqual((code, message), (0, ""))
        for word in [word for word, _ in sheet.KINDS.values()] + ["raw", "next N", "--output"]:
            self.assertIn(word, out.decode())
        example = "line 23: warning: 'Pack' has 2 parents, 1 given: refused with 15"
        self.assertIn(f"\n  {example}\n", out.decode())
        self.assertIn(f"`{example}`", (TOOL.parent / "README.md").read_text(encoding="utf-8"))

    def test_readme_gives_the_lines_of_the_help(self):
        readme = (TOOL.parent / "README.md").read_text(encoding="utf-8")
        rows = re.findall(r"^\| (\w+) \| `([^`]+)`", readme, re.MULTILINE)
        kinds = sorted({int(kind) for kind, _ in rows if kind != "any"})
        self.assertEqual(kinds, list(SHAPES))
        for kind, line in rows:
            self.assertIn(f"\n  {kind:<5} {line}", sheet.__doc__)


class Script(unittest.TestCase):
    """./close-sheet, with a program and a toolchain that stand in for the real ones."""

    def setUp(self):
        folder = tempfile.TemporaryDirectory()
        self.addCleanup(folder.cleanup)
        self.root = Path(folder.name)
        shutil.copy(TOOL.parent.parent / "close-sheet", self.root)
        (self.root / "tools").mkdir()
        shutil.copy(TOOL, self.root / "tools")
        shutil.copy(TOOL.parent / "programs.bash", self.root / "tools")
        # The commands that the script uses, and no `rt`.
        self.commands = self.root / "commands"
        self.commands.mkdir()
        for name in ("bash", "basename", "cat", "cp", "dirname", "find", "grep", "mkdir", "mktemp", "mv",
                     "readlink", "rm", "sleep", "tail", "tee", "python3", "env"):
            (self.commands / name).symlink_to(shutil.which(name))

    def put(self, path, text):
        path.parent.mkdir(parents=True, exist_ok=True)
        path.write_text(text)
        path.chmod(0o755)

    def program(self, text):
        self.put(self.root / "target/bin/close_sheet", "#!/usr/bin/env bash\n" + text)

    def run_script(self, *words):
        done = subprocess.run([shutil.which("bash"), "close-sheet", *words], cwd=self.root,
                              env={"PATH": str(self.commands)}, capture_output=True, check=False)
        return done.returncode, done.stdout, done.stderr.decode()

    def test_the_last_line_decides(self):
        (self.root / "a.sheet").write_bytes(b"sheet\n")
        for lines, code in (("close 0 0 1 0\nend 1\n", 0), ("refused 5 at 3\n", 0), ("", 1),
                            ("close 0 0 1 0\n", 1), ("end 1\nclose 0 0 1 0\n", 1), ("ends\n", 1)):
            with self.subTest(lines=lines):
                self.program(f"cat >/dev/null; printf '{lines}'".replace("\n", "\\n"))
                self.assertEqual(self.run_script("a.sheet")[:2], (code, lines.encode()))

    def test_names(self):
        self.program("cat; echo; echo end 1")
        (self.root / "-a.sheet").write_bytes(b"sheet\n")
        self.assertEqual(self.run_script("-a.sheet"), (0, b"sheet\n\nend 1\n", ""))
        (self.root / "-a.txt").write_text("close\n")
        self.assertEqual(self.run_script("-a.txt"),
                         (0, pack([record(13)]) + b"\nend 1\n", ""))

    def test_what_is_wrong_is_said(self):
        self.program("cat; echo; echo end 1")
        (self.root / "a.txt").write_text("equal 0 drumm\n")
        for words, code, message in (
                ((), 2, "usage: ./close-sheet [--names | --report] SHEET\n"),
                (("tools",), 1, "close-sheet: tools: a directory, not a file\n"),
                (("b.sheet",), 1, "close-sheet: b.sheet: no such file\n"),
                (("a.txt",), 1, "line 1: 'drumm' is not declared as an element\n")):
            with self.subTest(words=words):
                self.assertEqual(self.run_script(*words), (code, b"", message))

    def test_a_warning_changes_nothing(self):
        """It goes to standard error; the sheet is run, and its last line decides."""
        text = Warnings.START + "impose x Pack [a]\n"
        (self.root / "a.txt").write_text(text)
        said = "line 7: warning: 'Pack' has 2 parents, 1 given: refused with 15\n"
        self.program("cat; echo; echo refused 15 at 6")
        self.assertEqual(self.run_script("a.txt"),
                         (0, sheet.assemble(text) + b"\nrefused 15 at 6\n", said))
        self.program("cat >/dev/null")
        self.assertEqual(self.run_script("a.txt"),
                         (1, b"", said + "close-sheet: a.txt: the sheet was not run to its end\n"))

    def test_toolchain(self):
        (self.root / "a.sheet").write_bytes(b"")
        self.assertEqual(self.run_script("a.sheet"),
                         (1, b"", f"close-sheet: {self.root.resolve()}/target/bin/close_sheet is not"
                                  " built, and rt, which builds it, is not found\n"))
        # Where it is there, it builds the program, and standard input is the sheet's.
        (self.root / "crates/close_sheet").mkdir(parents=True)
        made = "out/close_sheet"
        self.put(self.commands / "rt", f"#!{shutil.which('bash')}\ncat\nmkdir -p out\n"
                                       f"printf '#!{shutil.which('bash')}\\necho end 1\\n' >{made}\n"
                                       f"{shutil.which('chmod')} +x {made}\n"
                                       f"echo 'rt: running {made}'\n")
        # What is said meanwhile is in tools/test_names.py.
        self.assertEqual(self.run_script("a.sheet")[:2], (0, b"end 1\n"))
        self.put(self.commands / "rt", f"#!{shutil.which('bash')}\necho no proof\nexit 1\n")
        code, out, message = self.run_script("a.sheet")
        self.assertEqual((code, out), (1, b""))
        self.assertTrue(message.endswith("\nno proof\nclose-sheet: close_sheet is not proved;"
                                         " target/close-sheet.log says why\n"), message)


if __name__ == "__main__":
    unittest.main()
