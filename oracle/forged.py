"""Databases in which something else than SQLite wrote: the cells of a sound one, with varints in longer forms than they need."""
from collections import namedtuple

import crooked
import model
import taken
from model import INTERIOR_INDEX, INTERIOR_TABLE, LEAF_TABLE

# The child's bytes, the row number or key, the types and the values; an interior table's cell has no record.
Cell = namedtuple("Cell", "child row types values")
# Where the lengths of shortest forms change.
EDGES = [(1 << 7 * took) + near for took in range(1, 10) for near in (-1, 0)] + [0, 1, 255, (1 << 63) - 1, 1 << 63, (1 << 64) - 1]
NAMES = ("payload size", "row number or key", "header size", "a type", "closing varint")
# Old alone shows a cell that has one: it skips it.
ENDLESS = "a type without end"
TELLING = (0, 1, 2, 7, 8, 9, 10, 12, 13, 127, 128, 129, 192, 255)


# THE CELLS OF A SOUND PAGE


def parts(data, page, index):
    """A cell in its numbers; none if it is refused, as where it spills."""
    try:
        found = taken.by_format(data, model.FILE, page.number, index)
    except model.Refused:
        return None
    at = page.at + model.word(data, page.at + page.pointers + 2 * index, 2)
    child = data[at : at + 4] if page.kind in taken.INTERIOR else b""
    if page.kind == INTERIOR_TABLE:
        return Cell(child, found.row % (1 << 64), None, None)
    types = [number for number, _ in found.forms[3 if page.kind == LEAF_TABLE else 2 :]]
    return Cell(child, found.row % (1 << 64), types, data[found.along[1] : found.along[3]])


# LONGER FORMS


class Pen:
    """Writes varints: those named are longer than they need be, and what was written so is noted."""

    def __init__(self, r, longer):
        self.r, self.longer, self.wrote = r, longer, []

    def least(self, number):
        return len(taken.encode(number))

    def length(self, name, number):
        least = self.least(number)
        if name not in self.longer or least == 9:
            return least
        self.wrote.append(name)
        # Old reads five bytes at most, and a form of nine has a last byte of its own.
        return self.r.choice((least + 1, self.r.randrange(least + 1, 10), max(least + 1, 5), 9))

    def put(self, name, number):
        return taken.lengthened(number, self.length(name, number))


def written(pen, kind, cell):
    """The bytes of a cell."""
    row = pen.put("row number or key", cell.row) if kind in (LEAF_TABLE, INTERIOR_TABLE) else b""
    if kind == INTERIOR_TABLE:
        return cell.child + row
    payload = record(pen, cell)
    closing = b""
    if kind in taken.INDEX:
        closing = pen.put("closing varint", pen.r.choice([number for number in EDGES if number < 1 << 35]))
    return cell.child + pen.put("payload size", len(payload)) + row + payload + closing


def record(pen, cell):
    """One of the types may be longer. Where the header's size is, it counts its own bytes, or one alone as old takes it."""
    which = pen.r.randrange(len(cell.types)) if cell.types else None
    forms = [pen.put("a type", kind) if at == which else taken.encode(kind) for at, kind in enumerate(cell.types)]
    types = b"".join(forms) + endless(pen)
    own = next(own for own in range(1, 10) if pen.least(own + len(types)) <= own)
    own = pen.length("header size", own + len(types)) if "header size" in pen.longer else own
    size = len(types) + (1 if own > 1 and pen.r.randrange(3) == 0 else own)
    if pen.least(size) > own:
        size = len(types) + own
    return taken.lengthened(size, own) + types + cell.values


def endless(pen):
    """In one cell of twelve, bytes behind the types that begin one more and do not end it."""
    if pen.r.randrange(12):
        return b""
    pen.wrote.append(ENDLESS)
    return bytes(128 | pen.r.randrange(128) for _ in range(pen.r.randrange(1, 4)))


def names_for(r, kind):
    """The varints that are written longer: none, one, or more."""
    has = {INTERIOR_TABLE: NAMES[1:2], LEAF_TABLE: NAMES[:4]}.get(kind, (NAMES[0], *NAMES[2:]))
    return r.sample(has, min(len(has), r.choice((0, 1, 1, 1, 1, 1, 1, 1, 2, 3))))


# PAGES


def forge(r, data, counts):
    """Every page of a tree but the first is written anew, with as many of its cells as fit."""
    of, pages = model.shape(data), []
    for number in range(2, of.pages + 1):
        try:
            _, page = model.opened(data, model.FILE, number)
        except model.Refused:
            continue
        head = bytearray([page.kind, 0, 0, 0, 0, 0, 0, 0]) + data[page.at + page.pointers - 4 : page.at + page.pointers]
        head = head[: 12 if page.kind in taken.INTERIOR else 8]
        cells = fitting(r, data, of, page, len(head), counts)
        data = data[: page.at] + crooked.page_of(of, head, cells) + data[page.at + of.size :]
        pages.append(number)
    return data, pages


def fitting(r, data, of, page, left, counts):
    cells, room = [], of.usable - left
    for index in range(page.cells):
        cell = parts(data, page, index)
        if cell is None:
            continue
        if r.randrange(4) == 0:
            cell = cell._replace(row=r.choice(EDGES) % (1 << 64))
        pen = Pen(r, names_for(r, page.kind))
        bytes_of = written(pen, page.kind, cell)
        room -= len(bytes_of) + 2
        if room < 0:
            break
        cells.append(bytes_of)
        counts.update((page.kind, name) for name in pen.wrote)
    return cells


def damage(r, data, pages):
    """Bytes of cells and pointers changed on most of these pages, by ones that say something as a type, a length or an end."""
    of, found = model.shape(data), bytearray(data)
    for number in pages:
        _, page = model.opened(data, model.FILE, number)
        for _ in range(r.randrange(6)):
            if not page.cells:
                break
            pointer = page.at + page.pointers + 2 * r.randrange(page.cells)
            at = page.at + model.word(data, pointer, 2) + r.choice((0, 1, 1, 2, 2, 3, 4, 4, 5, 6, 7, 8, 9, 12, 16))
            if r.randrange(10) == 0:
                near = of.usable - r.randrange(12)
                found[pointer : pointer + 2] = min(65535, near).to_bytes(2, "big")
            elif at < page.at + of.size:
                found[at] = r.choice((*TELLING, r.randrange(256)))
    return bytes(found)
