"""Databases whose tables agree in every row, or have rows on which old and file part, by SQLite."""
import os
import sqlite3

import shell

SIZES = (512, 1024, 4096, 512, 2048, 8192, 512, 1024, 16384, 512, 65536)
RESERVED = (0, 0, 0, 8, 32)
TABLES = 6
# Row numbers from here on take over five bytes.
FAR = 1 << 35


# VALUES: none has a type 9, no text and no blob is empty, and a row of them does not spill


def integer(r):
    """Of every width, and a stored 0; but no 1."""
    number = r.randrange(1 << r.choice((1, 7, 7, 15, 23, 31, 47, 63))) * r.choice((1, 1, -1))
    return 0 if number == 1 else number


def value(r):
    kind = r.randrange(6)
    if kind == 0:
        return None
    if kind == 1:
        return (r.randrange(1, 1 << 40) + 0.5) / 1000
    if kind == 2:
        return "t" * r.randrange(1, 25)
    return r.randbytes(r.randrange(1, 12)) if kind == 3 else integer(r)


def rows(r, count, columns):
    """Rows that agree, with numbers that rise, near or as far as five bytes go."""
    number, step = r.choice((1, 1, 1, 100, FAR - 40 * count - 1)), r.choice((1, 1, 7, 40))
    return [[number + step * i, *(value(r) for _ in range(columns))] for i in range(count)]


# WHAT PARTS: one value or the number of a row


def stored_one(r, row, size):
    row[r.randrange(1, len(row))] = 1


def empty(r, row, size):
    row[r.randrange(1, len(row))] = r.choice(("", b""))


def spilled(r, row, size):
    row[r.randrange(1, len(row))] = "s" * r.randrange(size, 3 * size)


PARTING = (stored_one, stored_one, empty, spilled)


# TABLES: so many rows of so many columns


def agreeing(r, count, size):
    return rows(r, count, r.choice((1, 3, 6, 12)))


def one_parts(r, count, size):
    """One row, anywhere; where it is the last, all before it agree."""
    found = agreeing(r, count, size)
    if found:
        r.choice(PARTING)(r, r.choice((found[0], found[-1], r.choice(found))), size)
    return found


def some_part(r, count, size):
    found = agreeing(r, count, size)
    for row in r.sample(found, count // 9):
        r.choice(PARTING)(r, row, size)
    return found


def flags(r, count, size):
    """As a gauge keeps them: nothing but 0 and 1."""
    return [[1 + i, *(r.randrange(2) for _ in range(4))] for i in range(count)]


def wide(r, count, size):
    """A header size of two bytes in every row, or just not."""
    columns = r.choice((126, 127, 140))
    return [[1 + i, *(r.choice((None, 0)) for _ in range(columns))] for i in range(count)]


def negative(r, count, size):
    return [[row[0] - r.choice((FAR, 2**63)) if not i else row[0], *row[1:]] for i, row in enumerate(agreeing(r, count, size))]


def far(r, count, size):
    """The last row numbers take over five bytes."""
    found = agreeing(r, count, size)
    for at, row in enumerate(found[-2:]):
        row[0] = FAR + at
    return found


KINDS = (agreeing,) * 5 + (one_parts,) * 4 + (some_part, some_part, flags, wide, negative, far)


# THE DATABASE


def settings(r, size):
    """In files of format 1 a stored 1 is of type 1, as all readings show it."""
    reserved = r.choice(RESERVED)
    return (
        f"pragma page_size={size};\n"
        + (f".filectrl reserve_bytes {reserved}\n" if reserved else "")
        + "vacuum;\n"
        + (".dbconfig legacy_file_format on\n" if r.randrange(5) == 0 else "")
        + "create table first(a);\n"
    )


def make(file, r, index):
    """A database of some tables; some have rows deleted. The kind of each stands in its name."""
    if os.path.exists(file):
        os.remove(file)
    size = SIZES[index % len(SIZES)]
    shell.run([file], settings(r, size))
    db = sqlite3.connect(file)
    for at in range(TABLES):
        kind = r.choice(KINDS)
        found = kind(r, r.choice((0, 1, 4, 30, 150, 150, 600, 1500)), size)
        width = len(found[0]) - 1 if found else 1
        name = f"{kind.__name__}{at}"
        db.execute(f"create table {name}({', '.join(f'c{i}' for i in range(width))})")
        names = ", ".join(["rowid", *(f"c{i}" for i in range(width))])
        db.executemany(f"insert into {name}({names}) values ({', '.join('?' * (width + 1))})", found)
        if r.randrange(4) == 0:
            db.execute(f"delete from {name} where rowid % ? = 0", (r.choice((2, 3, 17)),))
    db.commit()
    db.close()
