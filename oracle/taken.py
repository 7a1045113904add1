"""A model of the calls on one cell, in all three readings: above all which varints a reading takes from a cell, and whether each is
the one that a writer of shortest varints writes. By the rules of docs/READINGS.md, on top of oracle/model.py.

A form is a varint as it stands in the bytes: its number, and the bytes themselves. No length is looked up: the number is
written anew, and the bytes are held against it.
"""
from collections import namedtuple

import model
from model import INTERIOR_INDEX, INTERIOR_TABLE, LEAF_INDEX, LEAF_TABLE, Refused, word

OLD = 0
OLD_LONGEST = 5
INTERIOR = (INTERIOR_INDEX, INTERIOR_TABLE)
INDEX = (INTERIOR_INDEX, LEAF_INDEX)

# `along` is none where the cell has no record.
Taken = namedtuple("Taken", "row columns along forms")


def encode(number):
    """The varint that SQLite writes: no first byte that adds nothing; from 2^56 on nine bytes, of which the last gives eight bits."""
    return lengthened(number, next(took for took in range(1, 10) if took == 9 or number < 1 << 7 * took))


def lengthened(number, took):
    """The same number in so many bytes, if it fits in them."""
    if took == 9:
        return bytes(128 | number >> 8 + 7 * at & 127 for at in reversed(range(8))) + bytes([number & 255])
    digits = [number >> 7 * at & 127 for at in reversed(range(took))]
    return bytes(128 | digit for digit in digits[:-1]) + bytes(digits[-1:])


def shortest(forms):
    return all(form == encode(number) for number, form in forms)


class Forms:
    """The varints from a place on, up to an end, one behind the other."""

    def __init__(self, data, at, end, longest=9):
        self.data, self.at, self.end, self.longest = data, at, end, longest
        self.taken = []

    def take(self):
        """The next number; none if it has no end, and then nothing is taken."""
        read = model.varint(self.data, self.at, min(self.end, self.at + self.longest))
        if read is None:
            return None
        number, took = read
        self.taken.append((number, self.data[self.at : self.at + took]))
        self.at += took
        return number


# FILE AND GUARDED: what is shown is the model's, and the varints are read again


def by_format(db, reading, number, index):
    row, _ = model.row(db, reading, number, index, None, 0)
    of, page = model.opened(db, reading, number)
    at = page.at + word(db, page.at + page.pointers + 2 * index, 2) + (4 if page.kind in INTERIOR else 0)
    forms = Forms(db, at, page.at + of.usable)
    for _ in range(2 if page.kind == LEAF_TABLE else 1):
        forms.take()
    if page.kind != INTERIOR_TABLE:
        start = forms.at
        stop = start + forms.take()
        while forms.at < stop:
            forms.take()
    return Taken(row.number, row.columns, row.along, forms.taken)


# OLD


def old_page(db, number):
    """Its place, its end, its kind, where its pointers stand, and how many there are."""
    if len(db) > model.LIMIT:
        raise Refused(22)
    if db[:16] != model.OPENING:
        raise Refused(1)
    if len(db) < 100:
        raise Refused(2)
    if word(db, 56, 4) not in (1, 2, 3):
        raise Refused(3)
    size = 65536 if word(db, 16, 2) == 1 else word(db, 16, 2)
    at, head = number * size, 100 if number == 0 else 0
    if at + size > len(db):
        raise Refused(8, number)
    if size < head:
        raise Refused(9, number)
    # Old takes any page size, so there may be no kind byte.
    kind = db[at + head] if head < size else None
    if kind not in (INTERIOR_INDEX, INTERIOR_TABLE, LEAF_INDEX, LEAF_TABLE):
        raise Refused(10, number)
    pointers = at + head + (12 if kind in INTERIOR else 8)
    cells = word(db, at + head + 3, 2)
    if pointers + 2 * cells > at + size:
        raise Refused(11, number)
    return at, at + size, kind, pointers, cells


def by_old(db, number, index):
    """The cell as the original has it: it never looks at the payload's size, and values run on to the page's end."""
    at, end, kind, pointers, cells = old_page(db, number)
    if index >= cells:
        raise Refused(20, number)
    place = number, index
    pointer = word(db, pointers + 2 * index, 2)
    if at + pointer > end or number == 0 and pointer < 100:
        raise Refused(12, *place)
    start = at + pointer + (4 if kind in INTERIOR else 0)
    forms = Forms(db, start, end, OLD_LONGEST)
    if start > end:
        raise Refused(13, *place)
    numbers = [forms.take() for _ in range({LEAF_TABLE: 2}.get(kind, 1))]
    if None in numbers:
        raise Refused(13, *place)
    if kind == INTERIOR_TABLE:
        return Taken(numbers[0], 0, None, forms.taken)
    return old_record(forms, kind, numbers[-1], place)


def old_record(forms, kind, row, place):
    """Types stop at the first that has no end; of an index cell one more varint is taken behind the values."""
    header = forms.take()
    if header is None:
        raise Refused(13, *place)
    first, end = forms.at, forms.end
    stop = first + header - 1
    if header == 0 or stop > end:
        raise Refused(14, *place)
    types, value = old_types(forms, stop), stop
    for column, kind_of in enumerate(types):
        if kind_of in (10, 11):
            raise Refused(15, *place, column)
        value += model.width(kind_of)
        if value > end:
            raise Refused(16, *place, column)
    if kind in INDEX:
        forms.at = value
        row = forms.take()
        if row is None:
            raise Refused(17, *place)
    return Taken(row, len(types), (first, stop, stop, end), forms.taken)


def old_types(forms, stop):
    types, end = [], forms.end
    forms.end = stop
    while (kind := forms.take()) is not None:
        types.append(kind)
    forms.end = end
    return types


# THE CALLS


def answer(db, reading, page, cell):
    """What the call has to answer, a page from 1 on: refusal, row, columns, cursor and whether all is shortest. The cursor is none
    where the model does not tell it."""
    try:
        taken = by_old(db, page - 1, cell) if reading == OLD else by_format(db, reading, page, cell)
    except Refused as refused:
        return refused.told, 0, 0, (0,) * 4, 0
    return (0,) * 5, taken.row, taken.columns, taken.along, int(shortest(taken.forms))
