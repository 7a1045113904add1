"""Databases with damaged trees, and the root page to walk from in each."""
import os
import random
import sqlite3
import sys
from collections import namedtuple
from pathlib import Path

sys.path.insert(0, str(Path(__file__).resolve().parent / "sqlite"))

import model
import shell

# `table`: what SQLite is asked to select from; none: it is not asked.
Case = namedtuple("Case", "name data root table")
# A sound database: the pages of the tree of t, those that have children and those that have rows; a page of another table,
# and one of an index.
Sound = namedtuple("Sound", "data of root interior leaves others indexes")
SIZES = ((512, 0), (512, 32), (1024, 0), (1024, 8))
FAR = (1 << 31, (1 << 32) - 1)
EACH = 40


# SOUND DATABASES


def noted(r, size):
    """Keys and notes, of which some are empty and some spill."""
    count, long = r.choice((90, 300, 700)), r.choice((30, size // 3, 2 * size))
    step, first = r.choice((1, 3)), r.choice((1, -40))
    return [(first + step * i, "n" * r.randrange(long)) for i in range(count)]


def sound(folder, r, size, reserved, rows_of):
    """Two tables whose trees are two to four pages deep, with the same rows, and an index."""
    file = os.path.join(folder, "sound.db")
    if os.path.exists(file):
        os.remove(file)
    reserve = f".filectrl reserve_bytes {reserved}\n" if reserved else ""
    shell.run([file], f"pragma page_size={size};\n{reserve}vacuum;\n")
    db = sqlite3.connect(file)
    db.execute("create table t(k integer primary key, note)")
    db.execute("create table other(k integer primary key, note)")
    db.execute("create table deep(k integer primary key, note)")
    rows = rows_of(r, size)
    for table in ("t", "other"):
        db.executemany(f"insert into {table} values (?, ?)", rows)
    db.execute("create index i on other(note)")
    db.commit()
    roots = dict(db.execute("select name, rootpage from sqlite_schema"))
    db.close()
    return taken_apart(Path(file).read_bytes(), roots)


def taken_apart(data, roots):
    pages = model.walk(data, roots["t"]).visited
    kinds = {number: model.opened(data, model.FILE, number)[1].kind for number in pages}
    interior = [number for number in pages if kinds[number] == model.INTERIOR_TABLE]
    leaves = [number for number in pages if kinds[number] == model.LEAF_TABLE]
    others = model.walk(data, roots["other"]).visited
    return Sound(data, model.shape(data), roots, interior, leaves, others, [roots["i"]])


def put(data, at, number, width=4):
    return data[:at] + number.to_bytes(width, "big") + data[at + width :]


def opened(data, number):
    return model.opened(data, model.FILE, number)[1]


def cell_at(data, page, cell):
    return page.at + model.word(data, page.at + page.pointers + 2 * cell, 2)


def key_of(data, page, cell):
    """Where the key or the row number of a cell stands, and the bytes that it takes."""
    at = cell_at(data, page, cell)
    at += 4 if page.kind == model.INTERIOR_TABLE else model.varint(data, at, len(data))[1]
    return at, model.varint(data, at, len(data))[1]


def children(data, s, number):
    """Where each number of a child of a page stands, the rightmost last."""
    page = opened(data, number)
    return [cell_at(data, page, cell) for cell in range(page.cells)] + [page.at + page.pointers - 4]


# THE DAMAGE: each answers a name and the bytes


def child(r, s):
    """The number of a child, to the left or the rightmost one."""
    number = r.choice(s.interior)
    places = children(s.data, s, number)
    which = r.randrange(len(places))
    own = [model.word(s.data, at, 4) for at in places]
    wanted = {
        "a child outside the file": r.choice((s.of.pages + 1, s.of.pages + 2, *FAR)),
        "a child of number 0": 0,
        "a cycle: a child is the root": s.root["t"],
        "a cycle: a child is its own page": number,
        "a child is page 1": 1,
        "a shared page: a child twice on a page": r.choice(own),
        "a shared page: a child is a leaf of the tree": r.choice(s.leaves),
        "a shared page: a child is any page of the tree": r.choice(s.leaves + s.interior),
        "a child is a page of another table": r.choice(s.others),
        "a child is a page of an index": r.choice(s.indexes),
        "a child is any page": r.randrange(1, s.of.pages + 1),
    }
    name = r.choice(list(wanted))
    return name + (", the rightmost" if which == len(own) - 1 else ""), put(s.data, places[which], wanted[name])


def order(r, s):
    """Two pointers of a page are swapped, or one stands twice."""
    number = r.choice(s.leaves + s.interior)
    page = opened(s.data, number)
    what = "keys" if page.kind == model.INTERIOR_TABLE else "rows"
    if page.cells < 2:
        return key(r, s)
    first, second = (page.at + page.pointers + 2 * cell for cell in r.sample(range(page.cells), 2))
    one, other = s.data[first : first + 2], s.data[second : second + 2]
    data = s.data[:first] + other + s.data[first + 2 :]
    if r.randrange(2):
        return f"{what} of a page twice", data
    return f"{what} of a page swapped", data[:second] + one + data[second + 2 :]


def key(r, s):
    """Another key or row number, in as many bytes, or one of nine bytes over what follows."""
    number = r.choice(s.leaves + s.interior * 3)
    page = opened(s.data, number)
    if not page.cells:
        return child(r, s)
    at, took = key_of(s.data, page, r.randrange(page.cells))
    what = "another key" if page.kind == model.INTERIOR_TABLE else "another row number"
    if r.randrange(8) == 0:
        nine = r.choice((bytes([255] * 9), bytes([128] * 8 + [0]), bytes([191] + [255] * 8), bytes([192] + [128] * 7 + [0])))
        return what + " of nine bytes", s.data[:at] + nine + s.data[at + 9 :]
    last = s.data[at + took - 1]
    return what, put(s.data, at + took - 1, (last + r.choice((1, -1, 2, -2, 64, r.randrange(128)))) % 128, 1)


def edge(r, s):
    """The last row under a page that is not the root is above the key that leads there: its page is the rightmost child."""
    inner = [opened(s.data, number) for number in s.interior if number != s.root["t"]]
    last = {model.word(s.data, page.at + page.pointers - 4, 4) for page in inner} & set(s.leaves)
    if not last:
        return key(r, s)
    page = opened(s.data, r.choice(sorted(last)))
    at, took = key_of(s.data, page, page.cells - 1)
    return "a last row above the key", put(s.data, at + took - 1, (s.data[at + took - 1] + r.choice((1, 2))) % 128, 1)


def count(r, s):
    """Another cell count."""
    number = r.choice(s.leaves + s.interior * 2)
    page = opened(s.data, number)
    what = "an interior page" if page.kind == model.INTERIOR_TABLE else "a leaf"
    wanted = {"without cells": 0, "with a cell less": page.cells - 1, "with a cell more": page.cells + 1, "with 65,535": 65535}
    name = r.choice(list(wanted))
    return f"{what} {name}", put(s.data, page.at + page.pointers - (9 if what != "a leaf" else 5), max(0, wanted[name]), 2)


def kind(r, s):
    number = r.choice(s.leaves + s.interior)
    page = opened(s.data, number)
    at = page.at + page.pointers - (12 if page.kind == model.INTERIOR_TABLE else 8)
    new = r.choice([k for k in (0, 2, 5, 10, 13, 255) if k != page.kind])
    return f"kind {page.kind} is {new}", put(s.data, at, new, 1)


def pointer(r, s):
    """A pointer outside of the cells, or near the end."""
    page = opened(s.data, r.choice(s.leaves + s.interior))
    if not page.cells:
        return child(r, s)
    at = page.at + page.pointers + 2 * r.randrange(page.cells)
    end = page.pointers + 2 * page.cells
    near = (end - 1, end, s.of.usable - 9, s.of.usable - 5, s.of.usable - 1, s.of.usable, s.of.size - 1, 65535, 0)
    return "a pointer elsewhere", put(s.data, at, r.choice(near), 2)


def cut(r, s):
    """With the size in the header mended, SQLite does not see it at once."""
    length = r.choice((r.randrange(100, len(s.data)), (r.choice(s.leaves + s.interior) - 1) * s.of.size))
    if length < 100:
        return none(r, s)
    if r.randrange(2):
        return "file cut, size mended", put(s.data, 28, max(1, length // s.of.size))[:length]
    return "file cut", s.data[:length]


def stated(r, s):
    """Fewer pages than there are, by the header."""
    return "too small a size", put(s.data, 28, r.randrange(1, s.of.pages))


def anywhere(r, s):
    data = s.data
    for _ in range(r.randrange(1, 4)):
        at = (r.choice(s.leaves + s.interior * 2) - 1) * s.of.size
        data = put(data, at + r.randrange(24 if r.randrange(2) else s.of.size), r.randrange(256), 1)
    return "bytes anywhere", data


def reserved(r, s):
    return "other reserved space", put(s.data, 20, r.choice((0, 1, 8, 31, 32, 33)), 1)


def none(r, s):
    return "none", s.data


def record(r, s):
    """A byte of a cell: of its payload size, its record's header or a value. A walk looks at the first alone."""
    page = opened(s.data, r.choice(s.leaves))
    if not page.cells:
        return none(r, s)
    at, took = key_of(s.data, page, r.randrange(page.cells))
    at += r.choice((-1, took, took + 1, took + 1, took + 2, took + 2, took + 3, took + 4, took + 5))
    byte = r.choice((0, 1, 2, 3, 7, 8, 9, 10, 11, 12, 13, 14, 15, 127, 128, 129, 255, r.randrange(256)))
    return "a byte of a record", put(s.data, at, byte, 1)


DAMAGE = (child,) * 8 + (order, order, key, key, key, edge, edge, count, count, kind, pointer, cut, stated, anywhere, reserved, none)


# TREES MADE BY HAND, AND OTHER ROOTS


def page_of(of, head, cells):
    """A page whose cells stand at its end, in their order."""
    end, pointers, page = of.usable, [], bytearray(of.size)
    for cell in cells:
        end -= len(cell)
        page[end : end + len(cell)] = cell
        pointers.append(end)
    head[3:5] = len(cells).to_bytes(2, "big")
    head[5:7] = (end % 65536).to_bytes(2, "big")
    page[: len(head)] = head
    for i, at in enumerate(pointers):
        page[len(head) + 2 * i : len(head) + 2 * i + 2] = at.to_bytes(2, "big")
    return bytes(page)


def leaf(of, rows):
    return page_of(of, bytearray([13, 0, 0, 0, 0, 0, 0, 0]), [bytes([3, row, 2, 1, 7]) for row in rows])


def interior(of, cells, last):
    head = bytearray([5, 0, 0, 0, 0, 0, 0, 0]) + last.to_bytes(4, "big")
    return page_of(of, head, [left.to_bytes(4, "big") + bytes([key]) for left, key in cells])


def deep(r, s):
    """A tree just so deep: its interior pages have no cell, or one with a leaf. The table's root is the first of its pages."""
    depth, bare = r.choice((2, 18, 19, 20, 20, 21, 21, 22)), r.randrange(2)
    root, new, data = s.root["deep"], s.of.pages, s.data
    pages, more = {}, []
    number = root
    for level in range(1, depth):
        cells = []
        if not bare:
            new += 1
            more.append((new, leaf(s.of, [2 * level])))
            cells = [(new, 2 * level + r.choice((0, 0, 1)))]
        new += 1
        pages[number] = interior(s.of, cells, new)
        number = new
    pages[number] = leaf(s.of, [100, 101])
    pages.update(more)
    data += bytes(s.of.size * (new - s.of.pages))
    for number, page in pages.items():
        data = data[: (number - 1) * s.of.size] + page + data[number * s.of.size :]
    said = "without cells" if bare else "of one cell each"
    return Case(f"{depth} deep, interior pages {said}", put(data, 28, new), root, "deep")


def used_up(r, s):
    """Cells that all lead to one leaf with no row, or a page that leads to itself: as many visits as pages, or one more."""
    root, one = s.root["deep"], s.of.pages + 1
    if r.randrange(2):
        cells = r.choice((1, 2, 5, 18, 30))
        pages = [interior(s.of, [(one, key) for key in range(cells)], one), leaf(s.of, [])]
        visits, name = cells + 2, "a shared page with no row"
    else:
        pages = [interior(s.of, [], root), leaf(s.of, [])]
        # The last of them would be too deep.
        visits, name = 21, "a cycle of one page without cells"
    data = s.data[: (root - 1) * s.of.size] + pages[0] + s.data[root * s.of.size :] + pages[1]
    # Fewer pages than the visits that are due, as many, or more; and not all need be there.
    count = max(one, visits + r.choice((-1, 0, 1)))
    if r.randrange(2):
        data += bytes(s.of.size * (count - one))
    elif count > one:
        name += " of a file that is cut"
    return Case(f"{name}, visits {'used up' if count < visits else 'left'}", put(data, 28, count), root, "deep")


def small(folder, r):
    """A database of few pages, so that visits are used up before a walk is too deep."""
    file = os.path.join(folder, "small.db")
    if os.path.exists(file):
        os.remove(file)
    shell.run([file], "pragma page_size=512;\ncreate table deep(k integer primary key, note);\n")
    data = Path(file).read_bytes()
    return Sound(data, model.shape(data), {"deep": 2}, [], [], [], [])


def other_root(r, s):
    wanted = {
        "the root is an index's": s.indexes[0],
        "the root is outside": r.choice((s.of.pages + 1, *FAR)),
        "the root is 0": 0,
        "the root is page 1": 1,
        "the root is a leaf": r.choice(s.leaves),
        "the root is any page": r.randrange(1, s.of.pages + 1),
    }
    name = r.choice(list(wanted))
    return Case(name, s.data, wanted[name], None)


def cases(folder, seed, wanted, rows_of=noted, damage=DAMAGE):
    """So many cases; each fortieth begins with another sound database, with these rows."""
    r = random.Random(f"crooked {seed}")
    for index in range(wanted):
        if index % EACH == 0:
            s, few = sound(folder, r, *SIZES[index // EACH % len(SIZES)], rows_of), small(folder, r)
        if index % EACH in (1, 2, 3):
            yield deep(r, s)
        elif index % EACH in (4, 5):
            yield other_root(r, s)
        elif index % EACH in (6, 7):
            yield used_up(r, few)
        else:
            name, data = r.choice(damage)(r, s)
            yield Case(name, data, s.root["t"], "t")
