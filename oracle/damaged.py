"""Databases with damaged overflow chains, and the cell to ask for in each."""
import os
import random
import sqlite3
import sys
from collections import namedtuple
from pathlib import Path

sys.path.insert(0, str(Path(__file__).resolve().parent / "sqlite"))

import model
import notes

# A row has the key `key` in its table; none: SQLite is not asked.
Case = namedtuple("Case", "name data tree page cell room key")
# A cell that spills: where its pointer, its size and its first page number stand, and the pages of its chain.
Spilled = namedtuple("Spilled", "tree page cell pointer at took size number chain key")
SIZES = ((512, 0), (512, 8), (512, 32), (1024, 0), (1024, 32), (4096, 0))
FAR = (1 << 31, (1 << 32) - 1)
# Damage that may change other cells too, so that SQLite may find another one.
OTHERS = ("cell near the end", "size of nine bytes", "bytes anywhere")
# More than this is not gathered.
ROOM = 200_000


# SOUND DATABASES


def sound(folder, r, size, reserved):
    """A small database, by SQLite: rows with row numbers, without, and an index, with chains of one page to five."""
    file = os.path.join(folder, "sound.db")
    if os.path.exists(file):
        os.remove(file)
    notes.make(file, r, size, reserved, "UTF-8", 9, 3)
    with open(file, "rb") as source:
        return source.read()


def spilled(data, file):
    """The cells of a sound database that spill."""
    db = sqlite3.connect(f"file:{file}?immutable=1", uri=True)
    names = {page: name for name, page in db.execute("select name, pageno from dbstat where pagetype <> 'overflow'")}
    db.close()
    of, found = model.shape(data), []
    for number, name in sorted(names.items()):
        _, page = model.opened(data, model.FILE, number)
        if page.kind == model.INTERIOR_TABLE:
            continue
        for cell in range(page.cells):
            one = taken_apart(data, of, page, cell, name)
            if one:
                found.append(one)
    return found


def taken_apart(data, of, page, cell, name):
    pointer = page.at + page.pointers + 2 * cell
    at = page.at + model.word(data, pointer, 2) + (4 if page.kind == model.INTERIOR_INDEX else 0)
    size, took = model.varint(data, at, len(data))
    if size <= model.whole(of, page.kind):
        return None
    body = at + took
    if page.kind == model.LEAF_TABLE:
        body += model.varint(data, body, len(data))[1]
    number = body + model.kept(of, page.kind, size)
    chain, after = [], model.word(data, number, 4)
    while after:
        chain.append(after)
        after = model.word(data, (after - 1) * of.size, 4)
    row, _ = model.row(data, model.FILE, page.number, cell, size, 0)
    key = row.number if page.kind == model.LEAF_TABLE else row.values[0][1] if name == "w" else None
    key = None if name.startswith("sqlite") else key
    return Spilled(name, page.number, cell, pointer, at, took, size, number, chain, key)


# THE DAMAGE: each answers a name and the bytes


def put(data, at, number, width=4):
    return data[:at] + number.to_bytes(width, "big") + data[at + width :]


def next_of(of, page):
    """Where the next number of an overflow page stands."""
    return (page - 1) * of.size


def first_number(r, data, of, one, others):
    other = r.choice(others)
    wanted = {
        "first number outside": r.choice((of.pages + 1, of.pages + 2, *FAR)),
        "first number 0": 0,
        "first number 1": 1,
        "first number its own page": one.page,
        "first number a page of another chain": r.choice(other.chain),
        "first number a later page of its chain": r.choice(one.chain),
        "first number any page": r.randrange(1, of.pages + 1),
    }
    name = r.choice(list(wanted))
    return name, put(data, one.number, wanted[name])


def next_number(r, data, of, one, others):
    """Of a page that is not the last."""
    if len(one.chain) < 2:
        return first_number(r, data, of, one, others)
    at = r.randrange(len(one.chain) - 1)
    wanted = {
        "next number outside": r.choice((of.pages + 1, of.pages + 2, *FAR)),
        "0 too early": 0,
        "next number 1": 1,
        "next number its own page": one.page,
        "next number the same page": one.chain[at],
        "next number a page before it": r.choice(one.chain[: at + 1]),
        "next number a page of another chain": r.choice(r.choice(others).chain),
        "next number a page left out": r.choice(one.chain[at + 1 :]),
    }
    name = r.choice(list(wanted))
    return name, put(data, next_of(of, one.chain[at]), wanted[name])


def last_number(r, data, of, one, others):
    wanted = {
        "goes on outside": r.choice((of.pages + 1, *FAR)),
        "goes on to page 1": 1,
        "goes on to its own page": one.page,
        "goes on to itself": one.chain[-1],
        "goes on to the chain's first page": one.chain[0],
        "goes on to another chain": r.choice(r.choice(others).chain),
    }
    name = r.choice(list(wanted))
    return name, put(data, next_of(of, one.chain[-1]), wanted[name])


def cut(r, data, of, one, others):
    """Behind a page that the chain needs, or in it. With the size in the header mended, SQLite does not see it at once."""
    page = r.choice(one.chain)
    length = next_of(of, page) + (0 if r.randrange(3) else r.randrange(1, of.size))
    name = "file cut" if length % of.size == 0 else "file cut inside a page"
    if length <= next_of(of, one.page):
        return "file cut before the cell's page", data[:length]
    if r.randrange(2):
        return name + ", size mended", put(data, 28, -(-length // of.size))[:length]
    return name, data[:length]


def other_size(r, data, of, one, others):
    """Another payload size, in a varint of as many bytes, or one of nine bytes over what follows."""
    if r.randrange(6) == 0:
        return "size of nine bytes", data[: one.at] + bytes([255] * 8 + [r.randrange(256)]) + data[one.at + 9 :]
    page = of.usable - 4
    size = max(0, one.size + r.choice((-1, 1, -page, page, 2 * page, r.randrange(-one.size, 9000))))
    varint = [size >> 7 * i & 127 for i in range(one.took)][::-1]
    return "another size", data[: one.at] + bytes([*(b | 128 for b in varint[:-1]), varint[-1]]) + data[one.at + one.took :]


def moved(r, data, of, one, others):
    """The cell is copied so near to the end that its numbers, what stays or the page's number pass it."""
    page = next_of(of, one.page)
    kept = one.number + 4 - one.at
    at = of.usable - r.choice((1, 2, 3, kept - 1, kept, kept + 1, r.randrange(1, kept + 4)))
    copied = data[: page + at] + data[one.at : one.number + 4] + data[page + at + kept :]
    copied = copied[: page + of.size] + data[page + of.size :]
    return "cell near the end", put(copied, one.pointer, at, 2)


def record(r, data, of, one, others):
    """A byte of the record's header, and now and then one behind it."""
    at = one.number - model.kept(of, data[next_of(of, one.page) + (100 if one.page == 1 else 0)], one.size)
    at += r.randrange(min(12, one.number - at))
    return "record damaged", put(data, at, r.choice((0, 1, 2, 9, 10, 11, 12, 13, 127, 128, 129, 255, r.randrange(256))), 1)


def reserved(r, data, of, one, others):
    return "other reserved space", put(data, 20, r.choice((0, 1, 4, 8, 12, 31, 32, 33, 200)), 1)


def anywhere(r, data, of, one, others):
    for _ in range(r.randrange(1, 4)):
        page = next_of(of, r.choice((one.page, *one.chain)))
        data = put(data, page + r.randrange(8 if r.randrange(2) else of.size), r.randrange(256), 1)
    return "bytes anywhere", data


def none(r, data, of, one, others):
    return "none", data


DAMAGE = (first_number,) * 4 + (next_number,) * 5 + (last_number,) * 4 + (cut, cut, other_size, moved, record, record)
DAMAGE += (reserved, anywhere, none)


def room_for(r, data, one):
    """A buffer that is long enough or longer, and now and then a short one."""
    read = model.varint(data, one.at, len(data))
    size = min(read[0] if read else 0, ROOM)
    return max(0, size + r.choice((0, 0, 0, 1, 7, 100, 3000, r.choice((-1, -1, -size, -r.randrange(size + 1))))))


def cases(folder, seed, count):
    """So many cases; each twenty-fifth begins with another sound database."""
    r = random.Random(f"chains {seed}")
    for index in range(count):
        if index % 25 == 0:
            data = sound(folder, r, *SIZES[index // 25 % len(SIZES)])
            of, all_ = model.shape(data), spilled(data, os.path.join(folder, "sound.db"))
        one = r.choice(all_)
        name, damaged = r.choice(DAMAGE)(r, data, of, one, all_)
        yield Case(name, damaged, one.tree, one.page, one.cell, room_for(r, damaged, one), one.key)
