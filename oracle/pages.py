"""Pages of a database, worked out for oracle/large: sound leaves, a leaf with faulty cells, index and interior pages."""
import struct

# What the last page is. The first page is a sound table leaf in each.
CONTENTS = ["values", "faulty", "index"]

# The format's kind bytes.
INTERIOR_INDEX, INTERIOR_TABLE, LEAF_INDEX, LEAF_TABLE = 2, 5, 10, 13

# Row numbers of one to five bytes: the longest that the old reading takes.
ROWS = [1, 200, 20_000, 3_000_000, (1 << 35) - 1]


def varint(number):
    """Up to eight bytes, seven bits each."""
    groups = [number & 127]
    while number := number >> 7:
        groups.append(number & 127 | 128)
    return bytes(reversed(groups))


def record(fields):
    """A record of types and the bytes of their values."""
    types = b"".join(varint(kind) for kind, _ in fields)
    return varint(len(types) + 1) + types + b"".join(data for _, data in fields)


def every_kind(text):
    """A type of each kind that has a value: the old reading shows 9 as 0, and 12 and 13 as null."""
    numbers = [(1, b"\x85"), (2, b"\x80\x01"), (3, b"\xff\x00\x02"), (4, b"\x7f\x00\x00\x03"), (5, b"\x80\x00\x00\x00\x00\x04")]
    longest = [(6, b"\x7f\xff\xff\xff\xff\xff\xff\xfe"), (7, struct.pack(">d", -273.15)), (8, b""), (9, b"")]
    strings = [(12, b""), (13, b""), (12 + 2 * 5, b"\x00\xff\x10\x0d\x0a"), (13 + 2 * len(text), text)]
    return [(0, b"")] + numbers + longest + strings


def table_cell(row, fields):
    data = record(fields)
    return varint(len(data)) + varint(row) + data


def index_cell(row, fields):
    """With the varint that the old reading takes behind the record."""
    data = record(fields)
    return varint(len(data)) + data + varint(row)


def page(size, kind, cells, before=0):
    """A page whose first cell ends at its last byte, each other before it; `before` bytes stand ahead of its head."""
    data = bytearray(size)
    at, pointers = size, b""
    for cell in cells:
        at -= len(cell)
        data[at : at + len(cell)] = cell
        pointers += struct.pack(">H", at)
    head = struct.pack(">BHHHB", kind, 0, len(cells), at % 65536, 3)
    if kind in (INTERIOR_INDEX, INTERIOR_TABLE):
        head += struct.pack(">I", 0x01020304)
    assert before + len(head) + len(pointers) <= at
    data[before : before + len(head) + len(pointers)] = head + pointers
    return bytes(data)


def text_of(size):
    """A quarter of the page, so that long pages have long values, over their whole length."""
    return (b"Shorgavel " * size)[: size // 4]


def leaf(size, before=0):
    """A sound table leaf: every kind of value, row numbers of every length."""
    cells = [table_cell(ROWS[-1], every_kind(text_of(size)))]
    cells += [table_cell(row, [(1, bytes([i])), (0, b""), (15, b"x")]) for i, row in enumerate(ROWS)]
    return page(size, LEAF_TABLE, cells, before)


def faulty(size):
    """A table leaf of which cells are refused: 16 at the page's last byte, then one sound, 15, 14, 13, and one sound."""
    sound = table_cell(7, every_kind(b"sound"))
    cut = table_cell(ROWS[-1], [(1, b"\x01"), (6, b"\x01\x02\x03")])
    reserved = table_cell(8, [(8, b""), (10, b"")])
    no_size = b"\x01\x09\x00"
    long_row = b"\x02" + b"\xff" * 6 + b"\x01\x02\x08"
    return page(size, LEAF_TABLE, [cut, sound, reserved, no_size, long_row, sound])


def index(size):
    cells = [index_cell(row, [(1, bytes([i])), (15, b"k")]) for i, row in enumerate(reversed(ROWS))]
    return page(size, LEAF_INDEX, cells + [index_cell(5, every_kind(text_of(size)))])


def interior(size, kind):
    """An interior page of either kind: children that differ in every byte."""
    child = struct.pack(">I", 0x0A0B0C0D)
    if kind == INTERIOR_TABLE:
        return page(size, kind, [child + varint(row) for row in ROWS])
    return page(size, kind, [child + index_cell(row, every_kind(b"key")) for row in ROWS])


def header(page_size):
    """The first 100 bytes; the fields that are only shown count upwards."""
    data = bytearray(range(100))
    data[:16] = b"SQLite format 3\0"
    data[16:24] = struct.pack(">HBBBBBB", 1 if page_size == 65536 else page_size, 1, 1, 0, 64, 32, 32)
    data[56:60] = struct.pack(">I", 1)
    return bytes(data)


def written(size, content, middle, last):
    """The pages that are written, by their numbers from 0; all others are zeros."""
    first = header(size) + leaf(size, 100)[100:]
    middles = {"values": interior(size, INTERIOR_TABLE), "faulty": leaf(size), "index": interior(size, INTERIOR_INDEX)}
    lasts = {"values": leaf(size), "faulty": faulty(size), "index": index(size)}
    return {0: first, middle: middles[content], last: lasts[content]}
