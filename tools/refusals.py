"""What the numbers of `refused N at I` mean, and what to do about them.

REFUSALS has the sentences by number, for every sheet; explain(number, naming, index) adds
what applies in the sheet at hand. The program alone decides what is refused: what is said
here is looked up afterwards, and left out where nothing is found.
"""

from typing import NamedTuple

from naming import sheet

KIND, NEXT, A, B = sheet.KIND, sheet.NEXT, sheet.A, sheet.B
DECLARATIONS = range(1, 6)
TYPE, MODEL, MOR_APP, VARIABLE, AMBIENT = 1, 4, 5, 11, 12


class Refusal(NamedTuple):
    meaning: str
    remedy: str


REFUSALS = {
    1: Refusal(
        "The sheet is empty, has more than 1,024 records, or is a file that was cut off inside a"
        " record.",
        "Write at least one line; the name of a file of text must end in .txt. What has more than"
        " 1,024 lines can be run in parts: ./park-sheet keeps the structure of one part, and"
        " ./resume-sheet goes on from it."),
    2: Refusal(
        "The line leads on to a record that is not in the sheet, or the records lead on in a"
        " circle.",
        "Correct the number after `next`. Without `next` each line leads to the one below it, and"
        " the last one ends the sheet."),
    3: Refusal(
        "The record is none that a line in words gives: its kind, a count, a key or a word that"
        " must be zero is wrong.",
        "Write the line in words, as `tools/sheet --help` shows, in place of a `raw` one; where"
        " another program wrote the sheet, that program is wrong."),
    4: Refusal(
        "Types, predicates, functions, models and morphism applications are declared before"
        " everything else, and this declaration comes after another line.",
        "Move the line up to the other declarations, above the first `element`."),
    5: Refusal(
        "The line uses something that is not declared before it.",
        "Declare it on an earlier line, or correct the name or the number."),
    6: Refusal(
        "The line needs a type of another kind: a model type, or the mor of a model type.",
        "Declare the type with the kind that is needed, or name another type."),
    7: Refusal(
        "The line applies a function that a `morphism-application` names, or the id or comp of a"
        " model in a sheet with a `morphism-application`. These are not carried out yet.",
        "Leave the line out; for id and comp, leaving out every `morphism-application` will do."),
    8: Refusal(
        "The line gives again what may be given once: the model of a type, a function of a model"
        " or a morphism application, its pair of types, a variable, or the ambient element of a"
        " type.",
        "Leave out this line or the earlier one; where they differ, find out which is right."),
    9: Refusal(
        "There is no room left for what the line adds.",
        "Leave out what the sheet does not need, or describe the gearbox in two sheets. Equalities"
        " wait for a close, so a `close` above the line makes room for more of them."),
    10: Refusal(
        "The ambient element of a type was asked for, and none is given. No line of a sheet asks"
        " for it, so no sheet is refused with this number.",
        "Give it first: `ambient TYPE ELEMENT`."),
    11: Refusal(
        "The close would have to hold more than 1,024 facts at once. Nothing that it did was kept.",
        "Leave out what the sheet does not need, or describe the gearbox in two sheets."),
    12: Refusal(
        "An identity is applied to one element and a composite to two maps, and the line gives"
        " another number.",
        "Write `apply ID (ELEMENT) = MAP` for an identity and `apply COMP (FIRST SECOND) = MAP` for"
        " a composite."),
    13: Refusal(
        "The parked file is not as long as it says: it was cut off, has something after its end,"
        " or is no parked file.",
        "Take a whole copy of the file, or park the structure again with ./park-sheet."
        " `tools/park show FILE` tells what is wrong."),
    14: Refusal(
        "The parked file was damaged, or the sheet's declarations are not those with which it was"
        " parked.",
        "Begin the sheet with the same declarations in the same order as the sheet that was parked."
        " `tools/park show FILE` tells what else is wrong."),
    15: Refusal(
        "An imposition says what the thing belongs to, its parents, exactly as many as its type"
        " has, and the line gives another number.",
        "Name all of them, in the order in which the line of the type has them."),
}

# What there is room for, by the kind of record that is refused with 9.
ROOM = {
    1: "32 types", 2: "32 predicates", 3: "64 functions", 4: "8 models",
    5: "32 morphism applications", 6: "256 elements",
    7: "256 equalities that wait for a close", 8: "64 impositions, which stay after a close",
    9: "256 applications of functions, and 256 equalities that wait for a close",
    10: "256 applications of predicates",
    13: "256 applications of functions, those that the laws of maps add among them, and 256"
        " equalities that wait",
}
ROOM[15] = ROOM[13]


def explain(number, naming=None, index=0):
    """The sentences for a refusal: what it means, with what applies here, and what to do."""
    if number not in REFUSALS:
        return []
    meaning, remedy = REFUSALS[number]
    here = what_applies(number, naming, index) if naming else None
    return [f"{meaning} Here: {here}." if here else meaning, remedy]


def has_place(number, naming, index):
    """Whether the number was met at the record of the index. It was not at 1, which is of the
    whole sheet, nor at 13 and 14 where the file was loaded at the sheet's end."""
    if number == 1 or index >= len(naming.records):
        return False
    return number not in (13, 14) or naming.records[index][KIND] not in DECLARATIONS


def what_applies(number, naming, index):
    """What the number refuses in this sheet, as the end of a sentence, or None."""
    if number == 1:
        return wrong_length(naming)
    if number not in CAUSES or index >= len(naming.records):
        return None
    # A chain may come to a record more than once. All visits before the last were accepted.
    for before in visits(naming, index):
        said = CAUSES[number](naming, naming.records[index], before)
        if said:
            return said
    return None


class Before:
    """What the records carried out before a visit declared and gave."""

    def __init__(self, index, parked):
        self.index = index
        self.visited = 0
        self.counts = {**dict.fromkeys(sheet.ARTICLE, 0), "element": parked}
        self.types = []  # records
        self.given = []  # (index, record) of the kinds that may be given once
        self.first = None  # index of the first record that is no declaration

    def add(self, index, record):
        self.visited += 1
        sort = sheet.declared_sort(record)
        if sort:
            self.counts[sort] += 1
        if sort == "type":
            self.types.append(record)
        if record[KIND] in (MODEL, MOR_APP, VARIABLE, AMBIENT):
            self.given.append((index, record))
        if self.first is None and record[KIND] not in DECLARATIONS:
            self.first = index

    def has_kind(self, typ, kind):
        return typ < len(self.types) and sheet.TYPE_KINDS[self.types[typ][A]] == kind

    def of_kind(self, kind):
        return [(index, record) for index, record in self.given if record[KIND] == kind]


def visits(naming, index):
    """What is there before each visit of a record, in the order of the chain."""
    before, at = Before(index, naming.parked), 0
    while before.visited < len(naming.records):
        record = naming.records[at]
        if at == index:
            yield before
        before.add(at, record)
        at = record[NEXT]
        if at == 0 or at >= len(naming.records):
            return


def arguments(record):
    count, first, *_ = sheet.LISTS["arguments"]
    return record[first:first + record[count]]


def uses(record):
    """The places of the numbers that a record uses, with their sorts, as its line has them."""
    if not sheet.is_well_formed(record):
        return
    for part, *of in (part.split(":") for part in sheet.KINDS[record[KIND]][1].split()):
        if part in sheet.LISTS:
            count, first, *_ = sheet.LISTS[part]
            yield from ((first + entry, of[0]) for entry in range(record[count]))
        elif of:
            yield {"A": A, "B": B}[part], of[0]
        elif part == "type-kind" and record[A] == sheet.MOR:
            yield B, "type"


# What applies, number by number.


def wrong_length(naming):
    count = len(naming.records)
    if naming.size % sheet.RECORD.size:
        return f"it has {naming.size:,} bytes, and a record has {sheet.RECORD.size}"
    return f"it has {count:,} records" if count else "it has no record"


def wrong_next(naming, record, before):
    count, after = len(naming.records), record[NEXT]
    if after >= count:
        return f"it leads on to record {after}, and the sheet has records 0 to {count - 1}"
    if before.visited == count - 1 and after:
        return (f"the chain has come to {count} records, as many as there are, and leads on to"
                f" {naming.spot(after)} again")
    return None


def wrong_record(_naming, record, _before):
    if record[KIND] not in sheet.KINDS:
        return f"{record[KIND]} is no kind of record"
    if sheet.is_well_formed(record):
        return None
    return f"it has words that a line `{sheet.KINDS[record[KIND]][0]}` cannot have"


def too_late(naming, _record, before):
    if before.first is None:
        return None
    return f"{naming.spot(before.first)} ({naming.texts[before.first]}) comes before it"


def not_declared(naming, record, before):
    names = {}
    if naming.lines:
        names = {place: name for place, _, name in naming.lines[before.index].uses}
    said = []
    for place, sort in uses(record):
        count = before.counts[sort]
        if record[place] >= count and place in names:
            said.append(missing_name(naming, sort, names[place]))
        elif record[place] >= count:
            last = f"the last one declared has the number {count - 1}" if count else "none is declared"
            said.append(f"there is no {sort} {record[place]}, {last}")
    return "; ".join(dict.fromkeys(said))


def missing_name(naming, sort, name):
    """Why a name stands for nothing on a line."""
    declaring = {sheet.DECLARES[line.record[KIND]]: line.number
                 for line in naming.lines if line.name == name}
    if sort in declaring:
        return (f"{name} is declared as {sheet.ARTICLE[sort]} on line {declaring[sort]}, which does"
                " not come before")
    also = "".join(f", only as {sheet.ARTICLE[other]} on line {line}"
                   for other, line in list(declaring.items())[:1])
    return f"{name} is not declared as {sheet.ARTICLE[sort]}{also}"


def wrong_kind(naming, record, before):
    model = B if record[KIND] == TYPE else A
    if record[KIND] in (TYPE, MODEL, AMBIENT) and not before.has_kind(record[model], "model"):
        return f"{naming.type(record[model])} is not declared as a model type"
    if record[KIND] == MODEL and not (before.has_kind(record[B], "mor")
                                      and before.types[record[B]][B] == record[A]):
        return f"{naming.type(record[B])} is not declared as the mor of {naming.type(record[A])}"
    if record[KIND] == MOR_APP and not before.has_kind(arguments(record)[0], "mor"):
        return f"{naming.type(arguments(record)[0])} is not declared as a mor"
    return None


def not_carried_out(naming, record, before):
    name = naming.function(record[A])
    for index, other in before.of_kind(MOR_APP):
        if other[A] == record[A]:
            return f"{name} is the function of the morphism application at {naming.spot(index)}"
    for index, model in before.of_kind(MODEL):
        for role, function in zip(("id", "comp"), arguments(model)[2:]):
            if function == record[A]:
                return (f"{name} is the {role} of the model at {naming.spot(index)}, and"
                        f" {naming.spot(before.of_kind(MOR_APP)[0][0])} is a morphism application")
    return None


def given_again(naming, record, before):
    kind = record[KIND]
    functions = {MODEL: arguments(record), MOR_APP: [record[A]]}.get(kind, [])
    for function in functions:
        if list(functions).count(function) > 1:
            return f"{naming.function(function)} stands in it more than once"
    for index, other in before.given:
        named = arguments(other) if other[KIND] == MODEL else [other[A]]
        found = None
        if other[KIND] == kind == VARIABLE and other[A] == record[A]:
            found = f"variable {record[A]}"
        elif other[KIND] == kind == AMBIENT and other[A] == record[A]:
            found = f"the ambient element of {naming.type(record[A])}"
        elif other[KIND] == kind == MODEL and other[A] == record[A]:
            found = f"the model of {naming.type(record[A])}"
        elif other[KIND] == kind == MOR_APP and arguments(other) == arguments(record):
            found = f"the pair {', '.join(map(naming.type, arguments(record)))}"
        elif other[KIND] in (MODEL, MOR_APP):
            found = next((naming.function(function) for function in functions if function in named), None)
        if found:
            return f"{found} is given at {naming.spot(index)} already"
    return "it stands in the parked file" if naming.parked and kind in (VARIABLE, AMBIENT) else None


def no_room(_naming, record, _before):
    return f"there is room for {ROOM[record[KIND]]}" if record[KIND] in ROOM else None


def wrong_arguments(naming, record, before):
    given = len(arguments(record))
    for index, model in before.of_kind(MODEL):
        for role, function, wanted in zip(("id", "comp"), arguments(model)[2:], (1, 2)):
            if function == record[A] and given != wanted:
                wants = "1 argument" if wanted == 1 else f"{wanted} arguments"
                return (f"{naming.function(record[A])}, the {role} of the model at"
                        f" {naming.spot(index)}, takes {wants}, {given} given")
    return None


def wrong_parents(naming, record, before):
    if record[B] >= len(before.types):
        return None
    typ = before.types[record[B]]
    has, given = typ[sheet.PARENT_COUNT], record[sheet.PARENT_COUNT]
    if has == given:
        return None
    count = "1 parent" if has == 1 else f"{has} parents"
    parents = ", ".join(map(naming.type, typ[sheet.PARENTS:sheet.PARENTS + has]))
    return f"{naming.type(record[B])} has {count}{f' ({parents})' if has else ''}, {given} given"


CAUSES = {2: wrong_next, 3: wrong_record, 4: too_late, 5: not_declared, 6: wrong_kind,
          7: not_carried_out, 8: given_again, 9: no_room, 12: wrong_arguments, 15: wrong_parents}
