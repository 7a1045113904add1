"""compare.py RUN FILE..: holds the rows that SQLite shows against those of our `dump_file`, which RUN runs.

Prints what was compared. A difference is told with its place, and ends in status 1; a fault ends in status 2.
"""
import datetime
import math
import struct
import sys
from collections import Counter

import ours
import shell
import tables

SPILLS = 18
MOST_TOLD = 20


class Comparison:
    def __init__(self):
        self.counts = Counter()
        self.differences = 0

    def differ(self, table, place, what):
        self.differences += 1
        if self.differences <= MOST_TOLD:
            print(f"a difference: {table.file}, table {table.name}, {place}: {what}")

    def database(self, file, cells):
        self.counts["databases"] += 1
        without, indexes = tables.left_out(file)
        self.counts["tables without row numbers"] += without
        self.counts["indexes"] += indexes
        for table in tables.tables(file):
            self.table(table, cells)

    def table(self, table, cells):
        self.counts["tables"] += 1
        rows = table.rows()
        for (page, cell), words in sorted(cells.items()):
            if page in table.leaves:
                self.cell(table, rows, page, cell, words)
        # What is left was shown by no cell. Spilled rows are, as the refusal does not say their numbers.
        spilled = len(table.spilled)
        if len(rows) != spilled:
            self.differ(table, "the whole", f"{len(rows)} rows of SQLite without a cell, {spilled} that spill")

    def cell(self, table, rows, page, cell, words):
        place = f"page {page}, cell {cell}"
        spills = (page, cell) in table.spilled
        if (words == f"refused {SPILLS} {page} {cell} 0 0".split()) != spills:
            said = "spills" if spills else "does not spill"
            self.differ(table, place, f"SQLite: it {said}, ours {' '.join(words)[:200]}")
        elif spills:
            self.counts["rows that spill"] += 1
        elif words[0] == "refused":
            self.differ(table, place, "ours " + " ".join(words))
        elif int(words[0]) not in rows:
            self.differ(table, place, f"SQLite has no row {words[0]}, or another cell showed it")
        else:
            number = int(words[0])
            self.row(table, place, number, rows.pop(number), words[1:])

    def row(self, table, place, number, theirs, stored):
        self.counts["rows"] += 1
        if len(stored) > len(theirs):
            self.differ(table, place, f"row {number}: SQLite {len(theirs)} columns, ours {len(stored)}")
        self.counts["columns that a row lacks"] += max(0, len(theirs) - len(stored))
        for k, (column, their, our) in enumerate(zip(table.columns, theirs, stored)):
            self.counts["values"] += 1
            how = alike(column, number, their, our)
            if how is None:
                self.differ(table, place, f"row {number}, column {k}: SQLite {their[:100]}, ours {our[:100]}")
            else:
                self.counts[how] += 1


def alike(column, number, their, our):
    """How two values are the same, or none. SQLite shows what is stored but for three things."""
    if column.is_row_number:
        return "row numbers stored as null" if (our, their) == ("null", f"i:{number}") else None
    if our == their:
        return "shown " + our.partition(":")[0]
    if column.is_real and our.startswith("i:") and their == bits(int(our[2:])):
        return "reals stored as integers"
    if our.startswith("r:") and their == "null" and math.isnan(struct.unpack(">d", bytes.fromhex(our[2:]))[0]):
        return "NaNs shown as NULL"
    return None


def bits(number):
    return "r:" + struct.pack(">d", number).hex()


def report(held):
    counts = held.counts
    names = ("null", "i", "r", "t", "b")
    values = ", ".join(f"{name} {counts['shown ' + name]:,}" for name in names)
    print(f"SQLite {shell.version()}, {datetime.date.today()}")
    print(f"databases {counts['databases']:,}, tables {counts['tables']:,}, rows compared {counts['rows']:,}")
    print(f"values {counts['values']:,}: the same {values};")
    for name in ("row numbers stored as null", "reals stored as integers", "NaNs shown as NULL"):
        print(f"  {name} {counts[name]:,}")
    print(f"left out: rows that spill {counts['rows that spill']:,},", end=" ")
    print(f"columns that a row lacks {counts['columns that a row lacks']:,},", end=" ")
    print(f"tables without row numbers {counts['tables without row numbers']:,}, indexes {counts['indexes']:,}")
    print(f"sqlite: {counts['rows']:,} rows, {held.differences:,} differences")


def main():
    run, *files = sys.argv[1:]
    held = Comparison()
    try:
        for file, cells in zip(files, ours.dump([run, "dump_file"], files)):
            held.database(file, cells)
    except (ours.Fault, shell.Failed) as fault:
        print(f"sqlite: {fault}", file=sys.stderr)
        return 2
    report(held)
    return 1 if held.differences else 0


if __name__ == "__main__":
    sys.exit(main())
