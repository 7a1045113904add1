"""A model of the calls on one value, lent no gather buffer, in all three readings: by the rules of docs/READINGS.md, on top of
oracle/model.py and oracle/taken.py. An answer is told in the eight words that it has in a list of answers.
"""
import model
import taken
from model import LEAF_TABLE, Refused

NONE = (0,) * 5
# Kind, width, integer, bits, place and length.
NULL = (0,) * 6
# The bits of an integer's type in the old reading, by its serial type.
BITS = {1: 8, 2: 16, 3: 32, 4: 32, 5: 64, 6: 64, 8: 8, 9: 8}
NO_SUCH_COLUMN = 20


def words(refused, value):
    """Number and mark share a word with the page, which is its upper half; kind and width share one."""
    number, mark, page, cell, column = refused
    kind, width, integer, bits, at, length = value
    return (number | mark << 8 | page << 32, cell, column, kind | width << 8, integer % (1 << 64), bits, at, length)


def of_words(words):
    """The refusal and the value that eight words tell."""
    first, cell, column, kinds, integer, *rest = words
    return (first & 255, first >> 8 & 255, first >> 32, cell, column), (kinds & 255, kinds >> 8 & 255, model.signed(integer), *rest)


# THE VALUES OF A ROW


def by_old(db, number, cell):
    """Old shows a stored 1 as 0, a text or a blob of no bytes as null, and an integer with its width."""
    found = taken.by_old(db, number, cell)
    if found.along is None:
        return []
    first = 3 if taken.old_page(db, number)[2] == LEAF_TABLE else 2
    at, values = found.along[2], []
    for kind, _ in found.forms[first : first + found.columns]:
        values.append(old_value(db, kind, at))
        at += model.width(kind)
    return values


def old_value(db, kind, at):
    if kind in (12, 13):
        return NULL
    of, *rest = model.value(db, 0, 8 if kind == 9 else kind, at)
    return (of, BITS.get(kind, 0), *rest)


def by_format(db, reading, number, cell):
    row, _ = model.row(db, reading, number, cell, None, 0)
    return [(kind, 0, *rest) for kind, *rest in row.values]


class Database:
    """The rows of one database, each looked at once in a reading."""

    def __init__(self, data):
        self.data = data
        self.known = {}

    def row(self, reading, page, cell):
        """The refusal, and the values."""
        try:
            if reading == taken.OLD:
                return NONE, by_old(self.data, page, cell)
            return NONE, by_format(self.data, reading, page, cell)
        except Refused as refused:
            return refused.told, []

    def answer(self, reading, page, cell, column):
        """The refusal, and the value. A reading of another number is the file's."""
        reading = reading if reading in (taken.OLD, model.GUARDED) else model.FILE
        if (reading, page, cell) not in self.known:
            self.known[reading, page, cell] = self.row(reading, page, cell)
        refused, values = self.known[reading, page, cell]
        if refused == NONE and column >= len(values):
            refused = Refused(NO_SUCH_COLUMN, page).told
        return refused, values[column] if refused == NONE else NULL
