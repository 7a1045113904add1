"""spilled.py FILE..: holds what the calls lent a gather buffer show of trees that have cells that spill against SQLite.

Prints what was compared. A difference is told with its place, and ends in status 1, and so does a run that compared no row
that spills; a fault ends in status 2.
"""
import datetime
import random
import subprocess
import sys
from collections import Counter
from pathlib import Path

sys.path.insert(0, str(Path(__file__).resolve().parent.parent))

import compare
import lent
import model
import ours
import shell
import trees
from notes import length

MOST_TOLD = 20
# The bytes a buffer is filled with: no byte of a payload is both.
FILLS = (0xA5, 0x5A)
KINDS = ("null", "i", "r", "t", "b")


class Comparison:
    def __init__(self, command):
        self.command = command
        self.counts = Counter()
        self.differences = 0
        self.random = random.Random(1)

    def differ(self, place, what):
        self.differences += 1
        if self.differences <= MOST_TOLD:
            print(f"a difference: {place}: {what}")

    def hold(self, place, what, is_so, told=""):
        if not is_so:
            self.differ(place, f"not so: {what}; {str(told)[:200]}")
        return is_so

    def database(self, file):
        found = trees.trees(file)
        self.counts["databases"] += 1
        if not found:
            return
        data = ours.read(file)
        cells = [(tree, Cell(data, *at, held)) for tree in found for at, held in sorted(tree.cells.items())]
        asked = [self.questions(tree, cell) for tree, cell in cells]
        stream = lent.WORK / "asked"
        with open(stream, "wb") as out:
            out.write(lent.database(data))
            out.writelines(lent.question(one) for some in asked for one in some)
        answers = lent.answers(self.command, stream, (one for some in asked for one in some))
        rows = {tree: tree.rows_by_number(file) if tree.numbered else tree.rows(file) for tree in found}
        for (tree, cell), some in zip(cells, asked):
            place = f"{file}, {tree.name}, page {cell.page}, cell {cell.number}"
            self.cell(place, data, tree, rows[tree], cell, list(zip(some, [next(answers) for _ in some])))
        # What the program ends with is asked for, too.
        for _ in answers:
            pass
        for tree in found:
            left = len(rows[tree]) if tree.numbered else sum(rows[tree].values())
            self.hold(f"{file}, {tree.name}", "each row of SQLite has a cell", left == 0, f"{left} have none")
            self.counts["trees"] += 1

    def questions(self, tree, cell):
        """A buffer that is just long enough, a longer one, one that is a byte short, and the guarded reading."""
        column = self.random.randrange(len(tree.columns) + 1)
        places = self.random.choice((0, 1, len(tree.columns), len(tree.columns) + 3))

        def ask(reading, room, fill, places=len(tree.columns)):
            page = cell.page - 1 if reading == lent.OLD else cell.page
            return lent.Asked(reading, page, cell.number, column, room, places, FILLS[fill])

        if not cell.held:
            return [ask(lent.FILE, 24, 0), ask(lent.GUARDED, 24, 1), ask(lent.OLD, 24, 0)]
        more = cell.size + self.random.choice((1, 3, 4, 100, 5000))
        return [
            ask(lent.FILE, cell.size, 0),
            ask(lent.FILE, more, 1, places),
            ask(lent.FILE, cell.size - 1, 0),
            ask(lent.GUARDED, more, 0),
            ask(lent.OLD, more, 1),
        ]

    def cell(self, place, data, tree, rows, cell, told):
        for asked, answer in told:
            is_kept = answer.table_kept and answer.behind_kept and answer.same_buffer
            self.hold(place, "places behind are kept", is_kept, asked)
        file = told[0][1]
        if not self.hold(place, "it is shown", file.opening[0] == 0 and file.refused[0] == 0, (file.opening, file.refused)):
            return
        words = [word(value, file.buffer if file.source else data) for value in file.values]
        theirs = self.shown(place, tree, rows, file, words)
        if theirs is None:
            return
        self.column(place, cell, *told[0])
        old = told[-1][1]
        is_old = old.opening[0] == 0 and old.as_row_in and not old.source and is_as_filled(*told[-1])
        self.hold(place, "old takes no buffer", is_old, told[-1][0])
        if not cell.held:
            self.whole(place, told)
            return
        self.counts["rows that spill"] += 1
        self.counts[f"kind {cell.kind}"] += 1
        for name in words:
            self.counts["shown " + name.partition(":")[0]] += 1
        sizes = (cell.size, cell.stays, cell.held)
        self.hold(place, "what stays is by the rule", cell.size - cell.stays == cell.held, sizes)
        _, header, *_ = file.along
        is_behind = file.along == (header, header, cell.size, cell.size)
        self.hold(place, "it is gathered, the cursor behind it", file.source == 1 and is_behind, (file.source, file.along))
        self.longer(place, cell, file, *told[1])
        self.shorter(place, cell, *told[2])
        self.guarded(place, tree, cell, file, theirs, *told[3])

    def shown(self, place, tree, rows, file, words):
        """SQLite's row for a cell, which is taken from those that are left; none if there is no such row."""
        self.counts["rows"] += 1
        if tree.numbered:
            theirs = rows.pop(file.number, None)
            if not self.hold(place, "SQLite has such a row", theirs is not None, file.number):
                return None
            self.hold(place, "so many columns", len(words) <= len(theirs), (len(words), len(theirs)))
            for k, (column, their, our) in enumerate(zip(tree.columns, theirs, words)):
                alike = compare.alike(column, file.number, their, our) is not None
                self.hold(place, f"column {k} is SQLite's", alike, (their[:90], our[:90]))
            return theirs[: len(words)]
        theirs = tuple(canonical(column, our) for column, our in zip(tree.columns, words))
        is_there = rows[theirs] > 0 and len(words) == len(tree.columns)
        rows[theirs] -= 1
        return theirs if self.hold(place, "SQLite has such a row", is_there, words) else None

    def column(self, place, cell, asked, answer):
        """The value call says what the row says."""
        if asked.column < answer.columns:
            value = answer.values[asked.column]
            is_same = answer.column == (0, 0, 0, 0, 0) and answer.column_value == value
            is_there = answer.column_source == answer.source
            told = (value, answer.column, answer.column_value, answer.column_source)
            self.hold(place, f"column {asked.column} by itself", is_same and is_there, told)
        else:
            self.hold(place, "there is no such column", answer.column == (20, 0, cell.page, 0, 0), answer.column)

    def whole(self, place, told):
        """A whole payload is shown as by the call that is lent no buffer, in each reading."""
        self.counts["rows that are whole"] += 1
        for asked, answer in told:
            is_same = answer.as_row_in and not answer.source and is_as_filled(asked, answer)
            self.hold(place, "a whole payload needs no buffer", is_same, asked)

    def longer(self, place, cell, file, asked, answer):
        """Two fills tell which bytes were written; the columns behind the table's places come along the cursor."""
        kept = answer.buffer[cell.size :]
        self.hold(place, "the payload is the same", answer.buffer[: cell.size] == file.buffer, asked)
        self.hold(place, "the buffer behind it is kept", kept == bytes([asked.fill]) * len(kept), asked)
        self.hold(place, "the row is the same", (answer.number, answer.values) == (file.number, file.values), asked)
        self.hold(place, "so many are in the table", answer.count == min(asked.places, file.columns), asked)
        self.column(place, cell, asked, answer)
        spills = (18, 0, cell.page, cell.number, 0)
        self.hold(place, "it is 18 with no buffer", answer.plain == (spills, spills, spills), answer.plain)

    def shorter(self, place, cell, asked, answer):
        refused = (24, 0, cell.page, cell.number, 0)
        is_so = answer.refused == answer.column == refused and is_as_filled(asked, answer)
        self.hold(place, "a byte too few is 24, and the buffer kept", is_so, (answer.refused, answer.column))

    def guarded(self, place, tree, cell, file, theirs, asked, answer):
        if cell.kind != model.LEAF_TABLE:
            refused = (10, 0, cell.page, 0, 0)
            is_so = answer.opening == answer.column == refused and is_as_filled(asked, answer)
            self.hold(place, "guarded shows table leaves alone", is_so, answer.opening)
            return
        mark = lowest_mark(tree, file.number, theirs)
        self.counts[f"mark {mark}"] += 1
        refused = (21, mark, cell.page, cell.number, 0)
        told = (answer.refused, answer.column)
        self.hold(place, f"guarded refuses by mark {mark}", told == (refused, refused), told)
        held = file.buffer + bytes([asked.fill]) * (asked.room - cell.size)
        self.hold(place, "the payload is in the buffer", answer.buffer == held and answer.count == 0, asked)


class Cell:
    """A cell, the bytes on its overflow pages by SQLite, and its payload's size from its own bytes."""

    def __init__(self, data, page, number, held):
        self.page, self.number, self.held = page, number, held
        of, opened = model.opened(data, model.FILE, page)
        self.kind = opened.kind
        at = opened.at + model.word(data, opened.at + opened.pointers + 2 * number, 2)
        self.size, _ = model.varint(data, at + (4 if self.kind == model.INTERIOR_INDEX else 0), len(data))
        self.stays = model.kept(of, self.kind, self.size)


def is_as_filled(asked, answer):
    return answer.buffer == bytes([asked.fill]) * asked.room


def word(value, data):
    """A value as `dump_file` spells it."""
    if value.kind > 4 or value.at + value.len > len(data):
        return "outside"
    if value.kind > 2:
        return f"{KINDS[value.kind]}:{data[value.at : value.at + value.len].hex()}"
    return ("null", f"i:{value.integer}", f"r:{value.bits:016x}")[value.kind]


def canonical(column, our):
    """What SQLite shows of a value that is stored so."""
    if column.is_real and our.startswith("i:"):
        return compare.bits(int(our[2:]))
    return "null" if compare.alike(column, None, "null", our) else our


def lowest_mark(tree, number, theirs):
    """By what SQLite shows: how it stores that follows from its values."""
    columns = list(zip(tree.columns, theirs))
    header = 1 + sum(length(type_of(column, their)) for column, their in columns)
    if not 0 <= number < 1 << 35:
        return 1
    if header > 127:
        return 2
    one = ("i:1", compare.bits(1))
    if any(their == one[0] and not column.is_row_number or their == one[1] and column.is_real for column, their in columns):
        return 3
    return 4 if any(their in ("t:", "b:") for their in theirs) else 5


def type_of(column, their):
    """A type of as many bytes as the stored one: numbers have one of one byte."""
    kind, _, digits = their.partition(":")
    return len(digits) + 12 if kind in ("t", "b") else 0


def report(held):
    counts = held.counts
    values = ", ".join(f"{name} {counts['shown ' + name]:,}" for name in KINDS)
    kinds = ", ".join(f"kind {kind} {counts[f'kind {kind}']:,}" for kind in (13, 10, 2))
    marks = ", ".join(f"mark {mark} {counts[f'mark {mark}']:,}" for mark in range(1, 6))
    print(f"SQLite {shell.version()}, {datetime.date.today()}")
    print(f"databases {counts['databases']:,}, trees with cells that spill {counts['trees']:,},", end=" ")
    print(f"rows in them {counts['rows']:,}, whole {counts['rows that are whole']:,}")
    print(f"rows that spill {counts['rows that spill']:,}: {kinds}; their values {values}")
    print(f"guarded, of table leaves: {marks}")
    print(f"sqlite: {counts['rows that spill']:,} rows that spill, {held.differences:,} differences")


def main():
    try:
        held = Comparison(lent.built())
        for file in sys.argv[1:]:
            held.database(file)
    except (OSError, subprocess.CalledProcessError, shell.Failed) as fault:
        print(f"sqlite: {fault}", file=sys.stderr)
        return 2
    report(held)
    if not held.counts["rows that spill"]:
        print("sqlite: no row that spills was compared", file=sys.stderr)
        return 1
    return 1 if held.differences else 0


if __name__ == "__main__":
    sys.exit(main())
