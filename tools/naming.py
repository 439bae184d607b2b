"""The names that a sheet gives to its numbers, and where each of its records stands.

  data, naming = Naming.of_text(text)     the text of a sheet, and the sheet that it describes
  naming = Naming.of_sheet(data)          a sheet: the names are those of `tools/sheet disassemble`

A name that the text does not declare, or not earlier in the chain, is written as a number
that no table has, so that the program itself refuses the record with 5.

Only records that the chain visits give names, each one name: the others are never read. In
a sheet that goes on from a parked file the elements of the file come first, and have no name
there; `parked` says how many they are.
"""

import importlib.machinery
import importlib.util
import sys
from pathlib import Path


def load_tool(name):
    """The module that stands in a file of this folder without the ending .py."""
    path = str(Path(__file__).resolve().parent / name)
    loader = importlib.machinery.SourceFileLoader(name, path)
    module = importlib.util.module_from_spec(importlib.util.spec_from_loader(name, loader))
    writes, sys.dont_write_bytecode = sys.dont_write_bytecode, True
    try:
        loader.exec_module(module)
    finally:
        sys.dont_write_bytecode = writes
    return module


sheet = load_tool("sheet")


class Naming:
    """The names of a sheet. An index is that of a record, counted from 0."""

    def __init__(self, records, texts, names, parked=0, lines=None, size=None):
        self.records = records  # of each record the sixteen words
        self.texts = texts  # of each record the text, without comment and with single spaces
        self.parked = parked
        self.lines = lines  # of each record the line of the text, where there is one
        self.size = len(records) * sheet.RECORD.size if size is None else size  # in bytes
        self.names = {sort: [] for sort in sheet.ARTICLE}
        for index in sheet.chain_order([record[sheet.NEXT] for record in records]):
            sort = sheet.declared_sort(records[index])
            if sort:
                self.names[sort].append(names[index])

    @classmethod
    def of_text(cls, text, parked=0):
        """The sheet that a text describes, and its names. A text that cannot be written as a
        sheet raises sheet.SheetError."""
        lines, _ = sheet.read_lines(text, sheet.UNDECLARED, parked)
        data = b"".join(sheet.RECORD.pack(*line.record) for line in lines)
        return data, cls([line.record for line in lines], [line.text for line in lines],
                         [line.name for line in lines], parked, lines)

    @classmethod
    def of_sheet(cls, data, parked=0):
        """The names of a sheet. Where its length is no whole number of records, it has none."""
        whole = data if len(data) % sheet.RECORD.size == 0 else b""
        texts = [line.split("#")[0].strip() for line in sheet.disassemble(whole, parked).splitlines()]
        # The name of a declaration is the second word of its line.
        names = [(text.split() + [None])[1] for text in texts]
        return cls(list(sheet.RECORD.iter_unpack(whole)), texts, names, parked, size=len(data))

    def element(self, number):
        return self.called("element", number)

    def type(self, number):
        return self.called("type", number)

    def function(self, number):
        return self.called("function", number)

    def predicate(self, number):
        return self.called("predicate", number)

    def called(self, sort, number):
        """The name of what has the number, or `element 7`."""
        at = number - self.parked if sort == "element" else number
        name = self.names[sort][at] if 0 <= at < len(self.names[sort]) else None
        return name or f"{sort} {number}"

    def fact(self, typ, parents):
        """A type with what it belongs to: `Pack of unit-k`."""
        of = ", ".join(map(self.element, parents))
        return f"{self.type(typ)} of {of}" if of else self.type(typ)

    def line_number(self, index):
        """The line of a record in the text, or None."""
        return self.lines[index].number if self.lines and 0 <= index < len(self.lines) else None

    def spot(self, index):
        """`line 23` of a text, `record 17` of a sheet."""
        number = self.line_number(index)
        return f"record {index}" if number is None else f"line {number}"

    def place(self, index):
        """`line 23: impose pack-1 Pack [unit-z]`, or None where there is no such record."""
        return f"{self.spot(index)}: {self.texts[index]}" if 0 <= index < len(self.texts) else None
