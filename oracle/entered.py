"""A model of the page call in all three readings: a page's head and the entries of its cells, by the rules of docs/READINGS.md, on top of
oracle/taken.py; and of what it leaves of a table that two trucks share.
"""
from collections import namedtuple

import model
import taken
from model import INTERIOR_TABLE, LEAF_TABLE, Refused, word

TOO_SHORT = 19
# What does not apply in an answer is 0.
NO_HEAD = (0,) * 6

# `at` and `from_` are where the page and its header stand.
Site = namedtuple("Site", "at from_ kind pointers cells")


def site(db, reading, number):
    if reading == taken.OLD:
        at, _, kind, pointers, cells = taken.old_page(db, number)
        return Site(at, at + (100 if number == 0 else 0), kind, pointers, cells)
    _, page = model.opened(db, model.FILE, number)
    return Site(page.at, page.at + (100 if number == 1 else 0), page.kind, page.at + page.pointers, page.cells)


def head(db, of):
    """Kind, first freeblock, cells, start of the content, fragmented bytes and the rightmost child."""
    rightmost = word(db, of.from_ + 8, 4) if of.kind in taken.INTERIOR else 0
    return of.kind, word(db, of.from_ + 1, 2), of.cells, word(db, of.from_ + 5, 2) or 65536, db[of.from_ + 7], rightmost


def entry(db, reading, number, of, cell):
    """Kind, pointer, child, payload size, row, header size and columns."""
    pointer = word(db, of.pointers + 2 * cell, 2)
    if reading == taken.OLD:
        found = taken.by_old(db, number, cell)
    else:
        found = taken.by_format(db, model.FILE, number, cell)
    child = word(db, of.at + pointer, 4) if of.kind in taken.INTERIOR else 0
    numbers = [form for form, _ in found.forms]
    size = 0 if of.kind == INTERIOR_TABLE else numbers[0]
    header = 0 if of.kind == INTERIOR_TABLE else numbers[2 if of.kind == LEAF_TABLE else 1]
    return of.kind, pointer, child, size, found.row, header, found.columns


class Database:
    """The pages of one database, each looked at once in a reading."""

    def __init__(self, data):
        self.data = data
        self.known = {}

    def page(self, reading, number, room):
        """The refusal, the head and the entries, where so many places are lent."""
        reading = taken.OLD if reading == taken.OLD else model.FILE
        if (reading, number) not in self.known:
            self.known[reading, number] = self.looked(reading, number)
        of, refusal, found, entries = self.known[reading, number]
        if of is not None and of.cells > room:
            return Refused(TOO_SHORT, number).told, NO_HEAD, []
        return refusal, found, entries

    def looked(self, reading, number):
        of = None
        try:
            of = site(self.data, reading, number)
            entries = [entry(self.data, reading, number, of, cell) for cell in range(of.cells)]
            return of, (0,) * 5, head(self.data, of), entries
        except Refused as refused:
            return of, refused.told, NO_HEAD, []


def fill(table, half, entries):
    """The table with these entries in one half, from its first place on."""
    start = half * (len(table) // 2)
    table[start : start + len(entries)] = entries
