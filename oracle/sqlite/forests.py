"""Databases whose tables have trees of many shapes, by SQLite: one to four pages deep and deeper, with a history."""
import os
import sqlite3

import shell

SIZES = (512, 1024, 512, 2048, 512, 4096, 1024, 8192, 512, 16384, 1024, 32768, 512, 65536)
LEAST, LARGEST = -(1 << 63), (1 << 63) - 1
TABLES = 5


# ROW NUMBERS: so many of them, in the order in which they are put in


def rising(r, count):
    return range(1, count + 1)


def negative(r, count):
    start = -r.randrange(1, 3 * count + 2)
    return range(start, start + count)


def spread(r, count):
    """Of all lengths, and both ends."""
    numbers = {r.choice((1, -1)) * r.randrange(1 << r.randrange(8, 63)) for _ in range(count)}
    numbers |= {LEAST, LARGEST} if r.randrange(2) else {LEAST + 1, LARGEST - 1}
    numbers = sorted(numbers)
    r.shuffle(numbers)
    return numbers


def steps(r, count):
    """Put in so that pages are cut in their middle."""
    step = r.choice((2, 7, 1000))
    numbers = [step * i - r.randrange(2) for i in range(count)]
    r.shuffle(numbers)
    return numbers


def falling(r, count):
    return range(count, 0, -1)


NUMBERS = (rising, rising, negative, spread, spread, steps, falling)


# WHAT IS DONE TO A TABLE THAT IS FULL


def kept(r, db, name):
    pass


def thinned(r, db, name):
    db.execute(f"delete from {name} where rowid % ? = 0", (r.choice((2, 3, 5, 17)),))


def cut_out(r, db, name):
    """Some rows that follow each other, so that whole pages are free; and some are put in again."""
    numbers = [row for (row,) in db.execute(f"select rowid from {name}")]
    if not numbers:
        return
    first, last = sorted((r.choice(numbers), r.choice(numbers)))
    db.execute(f"delete from {name} where rowid between ? and ?", (first, last))
    some = [(row, "again") for row in numbers if first <= row <= last][:: r.choice((1, 2, 9, 1000))]
    db.executemany(f"insert into {name}(rowid, note) values (?, ?)", some if r.randrange(2) else [])


def emptied(r, db, name):
    db.execute(f"delete from {name}")


HISTORY = (kept,) * 5 + (thinned,) * 3 + (cut_out,) * 3


# THE DATABASE


def settings(r, index):
    size = SIZES[index % len(SIZES)]
    reserved = r.choice((0, 0, 8, 32))
    return (
        f"pragma page_size={size};\npragma auto_vacuum={r.choice(('none', 'none', 'full', 'incremental'))};\n"
        + (f".filectrl reserve_bytes {reserved}\n" if reserved else "")
        + "vacuum;\n"
    )


def note(r, size, spills):
    """A text, short or longer than a page; with one a row, a small page has few rows."""
    if spills and r.randrange(8) == 0:
        return "n" * r.randrange(size // 2, 4 * size)
    return "n" * r.randrange(r.choice((3, 40, 40, min(size, 400) // 3)))


def fill(r, db, name, size, count):
    """One declares its own name for the row number, one is of the row number alone."""
    columns = r.choice(("(note)", "(k integer primary key, note)", "(note, other)"))
    db.execute(f"create table {name}{columns}")
    spills = r.randrange(3) == 0
    rows = ((row, note(r, size, spills)) for row in r.choice(NUMBERS)(r, count))
    db.executemany(f"insert or ignore into {name}(rowid, note) values (?, ?)", rows)


def make(file, r, index, rows):
    """A database of some tables, of which one has most of the rows, and a table and an index that have no row numbers."""
    if os.path.exists(file):
        os.remove(file)
    shell.run([file], settings(r, index))
    db = sqlite3.connect(file)
    size = SIZES[index % len(SIZES)]
    shares = [rows * 3 // 4, rows // 6, r.randrange(rows // 8 + 1), r.randrange(20), r.randrange(3)]
    for at, count in enumerate(shares[:TABLES]):
        fill(r, db, f"t{at}", size, count)
    db.execute("create table keyed(k primary key, note) without rowid")
    db.executemany("insert into keyed values (?, ?)", ((k, "w" * (k % 50)) for k in range(r.randrange(200))))
    db.execute("create index i on t2(note)")
    for at in range(TABLES):
        r.choice(HISTORY if at != 3 else (kept, emptied))(r, db, f"t{at}")
    db.commit()
    if r.randrange(3) == 0:
        db.execute("vacuum")
    db.close()
