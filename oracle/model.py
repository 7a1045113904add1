"""A model of the file and guarded readings of one cell that is lent a gather buffer, and of the walk along a table, by the
rules of docs/READINGS.md.

It is written for itself, and plainly: nothing here is fast, and nothing is taken from the crates. Numbers are Python's, so
that none is ever too large.
"""
from collections import namedtuple

OPENING = b"SQLite format 3\0"
LIMIT = 1 << 30
FILE, GUARDED = 1, 2
INTERIOR_INDEX, INTERIOR_TABLE, LEAF_INDEX, LEAF_TABLE = 2, 5, 10, 13
WIDTHS = (0, 1, 2, 3, 4, 6, 8, 8, 0, 0)

Shape = namedtuple("Shape", "size usable pages")
Page = namedtuple("Page", "number kind at cells pointers")
# A cell's record lies in `bytes` from `base` on. Marked: a varint of the cell took over five bytes.
Cell = namedtuple("Cell", "row size bytes base gathered marked")
Record = namedtuple("Record", "header types places")
Row = namedtuple("Row", "number columns values along source")


class Refused(Exception):
    """A refusal, with what it tells, and the gathered payload where there is one by then."""

    def __init__(self, number, page=0, cell=0, column=0, mark=0, gathered=b""):
        super().__init__(number)
        self.told = (number, mark, page, cell, column)
        self.gathered = gathered


def word(data, at, width):
    return int.from_bytes(data[at : at + width], "big")


def varint(data, at, end):
    """The number of a varint that ends before `end`, and the bytes it took; none if it has no end there."""
    number = 0
    for took in range(1, 10):
        if at + took > end:
            return None
        byte = data[at + took - 1]
        if took == 9:
            return number << 8 | byte, took
        number = number << 7 | byte & 127
        if byte < 128:
            return number, took


def signed(number, bits=64):
    return number - (1 << bits) if number >> (bits - 1) else number


# THE DATABASE AND THE PAGE


def shape(db):
    """The checks of the header, in their order."""
    if len(db) > LIMIT:
        raise Refused(22)
    if db[:16] != OPENING:
        raise Refused(1)
    if len(db) < 100:
        raise Refused(2)
    if word(db, 56, 4) not in (1, 2, 3):
        raise Refused(3)
    field = word(db, 16, 2)
    if field not in (1, 512, 1024, 2048, 4096, 8192, 16384, 32768):
        raise Refused(4)
    size = 65536 if field == 1 else field
    if size - db[20] < 480:
        raise Refused(5)
    if db[19] > 2:
        raise Refused(6)
    if tuple(db[21:24]) != (64, 32, 32):
        raise Refused(7)
    return Shape(size, size - db[20], pages_of(db, len(db) // size))


def pages_of(db, whole):
    """How many pages there are and are wholly in the bytes."""
    return min(counted(db, whole), whole)


def counted(db, whole):
    """How many pages there are: the size at 28 counts if the counters at 24 and 92 are equal, else those wholly there."""
    stated = word(db, 28, 4)
    return stated if stated != 0 and word(db, 24, 4) == word(db, 92, 4) else whole


def opened(db, reading, number):
    """The page, its cells being looked at by no check yet."""
    of = shape(db)
    if not 1 <= number <= of.pages:
        raise Refused(8, number)
    at = (number - 1) * of.size
    head = 100 if number == 1 else 0
    kind = db[at + head]
    if kind not in ((LEAF_TABLE,) if reading == GUARDED else (2, 5, 10, 13)):
        raise Refused(10, number)
    pointers = head + (12 if kind in (INTERIOR_INDEX, INTERIOR_TABLE) else 8)
    cells = word(db, at + head + 3, 2)
    if pointers + 2 * cells > of.usable:
        raise Refused(11, number)
    return of, Page(number, kind, at, cells, pointers)


# THE CELL


def whole(of, kind):
    """X: the largest payload that lies whole on its page."""
    return of.usable - 35 if kind == LEAF_TABLE else (of.usable - 12) * 64 // 255 - 23


def kept(of, kind, size):
    """How many bytes of a payload stay on the page."""
    most = whole(of, kind)
    if size <= most:
        return size
    least = (of.usable - 12) * 32 // 255 - 23
    wanted = least + (size - least) % (of.usable - 4)
    return wanted if wanted <= most else least


def chain(db, of, first, wanted):
    """The bytes of an overflow chain, `wanted` of them, or none where it is not just so long."""
    found, number = b"", first
    while len(found) < wanted:
        # 0, which ends a chain, is no page.
        if not 1 <= number <= of.pages:
            return None
        at = (number - 1) * of.size
        found += db[at + 4 : at + min(of.usable, 4 + wanted - len(found))]
        number = word(db, at, 4)
    return found if number == 0 else None


def cell_of(db, of, page, index, room):
    """The numbers of a cell and its payload. A room of none: no buffer is lent."""
    if index >= page.cells:
        raise Refused(20, page.number)
    place = page.number, index
    pointer = word(db, page.at + page.pointers + 2 * index, 2)
    if pointer < page.pointers + 2 * page.cells or pointer >= of.usable:
        raise Refused(12, *place)
    at, end = page.at + pointer, page.at + of.usable
    if page.kind in (INTERIOR_INDEX, INTERIOR_TABLE):
        at += 4
        if at > end:
            raise Refused(13, *place)
    numbers, marked = [], False
    for _ in range({LEAF_TABLE: 2}.get(page.kind, 1)):
        read = varint(db, at, end)
        if read is None:
            raise Refused(13, *place)
        numbers.append(read[0])
        marked |= read[1] > 5
        at += read[1]
    if page.kind == INTERIOR_TABLE:
        return Cell(signed(numbers[0]), None, db, at, b"", marked)
    size, row = numbers[0], signed(numbers[1]) if page.kind == LEAF_TABLE else 0
    if size <= whole(of, page.kind):
        if at + size > end:
            raise Refused(13, *place)
        return Cell(row, size, db, at, b"", marked)
    if room is None:
        raise Refused(18, *place)
    if room < size:
        raise Refused(24, *place)
    stays = kept(of, page.kind, size)
    if at + stays + 4 > end:
        raise Refused(13, *place)
    rest = chain(db, of, word(db, at + stays, 4), size - stays)
    if rest is None:
        raise Refused(23, *place)
    gathered = db[at : at + stays] + rest
    return Cell(row, size, gathered, 0, gathered, marked)


# THE RECORD


def types_of(payload, place, gathered):
    """The header's size and the bytes of its varint, and the types, each with the place behind it and its bytes."""
    read = varint(payload, 0, len(payload))
    if read is None or not read[1] <= read[0] <= len(payload):
        raise Refused(14, *place, gathered=gathered)
    at, types = read[1], []
    while at < read[0]:
        one = varint(payload, at, read[0])
        if one is None:
            raise Refused(14, *place, gathered=gathered)
        at += one[1]
        types.append((one[0], at, one[1]))
    return read, types


def width(kind):
    return WIDTHS[kind] if kind < 10 else (kind - 12) // 2


def record_of(payload, place, gathered):
    """The record of a cell at that page and index, if each value has a type and its bytes, and no byte is left over."""
    header, types = types_of(payload, place, gathered)
    at, places = header[0], []
    for column, (kind, _, _) in enumerate(types):
        if kind in (10, 11):
            raise Refused(15, *place, column, gathered=gathered)
        if at + width(kind) > len(payload):
            raise Refused(16, *place, column, gathered=gathered)
        places.append(at)
        at += width(kind)
    if at != len(payload):
        raise Refused(16, *place, len(types), gathered=gathered)
    return Record(header, types, places + [at])


def lowest_mark(cell, record):
    """The lowest of the five marks, or 0."""
    kinds = [kind for kind, _, _ in record.types]
    stands = (
        cell.marked or record.header[1] > 5 or any(took > 5 for _, _, took in record.types),
        record.header[1] != 1,
        9 in kinds,
        12 in kinds or 13 in kinds,
        cell.gathered != b"",
    )
    return next((mark for mark, is_there in enumerate(stands, 1) if is_there), 0)


def value(data, base, kind, place):
    """Kind, integer, bits, place and length, as a value for C has them."""
    at = base + place
    if kind == 0:
        return 0, 0, 0, 0, 0
    if kind in (8, 9):
        return 1, kind - 8, 0, 0, 0
    if kind < 7:
        return 1, signed(word(data, at, WIDTHS[kind]), 8 * WIDTHS[kind]), 0, 0, 0
    if kind == 7:
        return 2, 0, word(data, at, 8), 0, 0
    return 3 if kind % 2 else 4, 0, 0, at, width(kind)


# THE CALLS


def checked(db, reading, number, index, room):
    of, page = opened(db, reading, number)
    cell = cell_of(db, of, page, index, room)
    if cell.size is None:
        return cell, None
    payload = cell.bytes[cell.base : cell.base + cell.size]
    record = record_of(payload, (number, index), cell.gathered)
    mark = lowest_mark(cell, record) if reading == GUARDED else 0
    if mark:
        raise Refused(21, number, index, mark=mark, gathered=cell.gathered)
    return cell, record


def row(db, reading, number, index, room, places):
    """The row with its values, the cursor behind the first `places` of them, and the gathered payload."""
    cell, record = checked(db, reading, number, index, room)
    source = int(cell.gathered != b"")
    if record is None:
        return Row(cell.row, 0, [], None, source), b""
    shown = [value(cell.bytes, cell.base, kind, at) for (kind, _, _), at in zip(record.types, record.places)]
    count = min(places, len(shown))
    behind = record.types[count - 1][1] if count else record.header[1]
    along = (behind, record.header[0], record.places[count], cell.size)
    return Row(cell.row, len(shown), shown, tuple(cell.base + at for at in along), source), cell.gathered


def column(db, reading, number, index, which, room):
    """The value of a column, the bytes that a text's place counts in, and the gathered payload."""
    cell, record = checked(db, reading, number, index, room)
    if record is None or which >= len(record.types):
        raise Refused(20, number, gathered=cell.gathered)
    shown = value(cell.bytes, cell.base, record.types[which][0], record.places[which])
    return shown, int(cell.gathered != b""), cell.gathered


# THE WALK


DEEPEST = 20


class Walk:
    """A walk along a table: the rows so far, as page, cell and number; the number that all that follows has to be above, if
    there is one; the pages that were visited, and how deep it went."""

    def __init__(self, db):
        self.db = db
        self.pages = counted(db, len(db) // shape(db).size)
        self.rows = []
        self.above = None
        self.visited = []
        self.deepest = 0

    def page(self, number, depth, most):
        """A page, of which no number is above `most`. The root is 1 deep."""
        if len(self.visited) == self.pages:
            raise Refused(28, number)
        if depth > DEEPEST:
            raise Refused(26, number)
        of, page = opened(self.db, FILE, number)
        if page.kind in (INTERIOR_INDEX, LEAF_INDEX):
            raise Refused(25, number)
        self.visited.append(number)
        self.deepest = max(self.deepest, depth)
        for cell in range(page.cells):
            child, key = self.numbers(of, page, cell)
            if key > most or self.above is not None and key <= self.above:
                raise Refused(27, number, cell)
            if child is None:
                self.rows.append((number, cell, key))
            else:
                self.page(child, depth + 1, key)
            self.above = key
        if page.kind == INTERIOR_TABLE:
            # The rightmost child stands before the pointers.
            self.page(word(self.db, page.at + page.pointers - 4, 4), depth + 1, most)

    def numbers(self, of, page, cell):
        """A cell's child and its key, or its row number and no child. Its payload is not looked at."""
        pointer = word(self.db, page.at + page.pointers + 2 * cell, 2)
        if not page.pointers + 2 * page.cells <= pointer < of.usable:
            raise Refused(12, page.number, cell)
        at, end, child = page.at + pointer, page.at + of.usable, None
        if page.kind == INTERIOR_TABLE:
            child, at = word(self.db, at, 4), at + 4
        else:
            size = varint(self.db, at, end)
            at = end if size is None else at + size[1]
        read = varint(self.db, at, end)
        if read is None:
            raise Refused(13, page.number, cell)
        return child, signed(read[0])


def walk(db, root):
    """The walk from a root page, at its end."""
    going = Walk(db)
    going.page(root, 1, (1 << 63) - 1)
    return going
