"""notes.py FOLDER SEED ROWS: makes databases whose rows spill, ROWS of them or more, and prints how many were made.

There is one for each page size and reserved space. Payloads are at every edge of what stays on a page and of what an
overflow page holds, in tables with row numbers, without, in an index, and behind many columns.
"""
import os
import random
import sqlite3
import sys
from pathlib import Path

sys.path.insert(0, str(Path(__file__).resolve().parent.parent))

import model
import shell

# Of each page size as many rows as make files of some megabytes.
SHARES = {512: 450, 1024: 250, 2048: 130, 4096: 64, 8192: 32, 16384: 16, 32768: 9, 65536: 5}
RESERVED = (0, 8, 32)
ENCODINGS = ("UTF-8", "UTF-16le", "UTF-16be")
# Chain pages of most rows; with small pages now and then more.
PAGES, MORE, SMALL = 4, 12, 1024
PRINTED = bytes(33 + i % 94 for i in range(256))


def edges(of, kind, random):
    """Payload sizes around each place where what stays, or what the last overflow page holds, changes.

    The last page is full where K bytes stay, and else has X + 1 - M bytes or more.
    """
    most = model.whole(of, kind)
    least, page = (of.usable - 12) * 32 // 255 - 23, of.usable - 4
    steps = (0, 1, 2, most - least - 1, most - least, most - least + 1, most - least + 2, page - 2, page - 1)
    counts = list(range(PAGES)) + ([random.randrange(PAGES, MORE)] if of.usable <= SMALL else [])
    wanted = [least + count * page + step for count in counts for step in steps]
    wanted += [most, most + 1, most + 2, random.randrange(most + 1, least + PAGES * page)]
    sizes = sorted(size for size in set(wanted) if size >= most)
    random.shuffle(sizes)
    return sizes


# THE SIZE OF A RECORD


def length(number):
    """The bytes of a varint."""
    return max(1, min(9, (number.bit_length() + 6) // 7))


def stored(value, wide):
    """The type of a value and its bytes. `wide`: a text takes two bytes a character."""
    if value is None:
        return 0, 0
    if isinstance(value, int):
        if value in (0, 1):
            return 8 + value, 0
        kind = next(i for i, bits in enumerate((8, 16, 24, 32, 48, 64), 1) if -(1 << bits - 1) <= value < 1 << bits - 1)
        return kind, model.WIDTHS[kind]
    if isinstance(value, float):
        return 7, 8
    size = len(value) * (2 if wide and isinstance(value, str) else 1)
    return 2 * size + (13 if isinstance(value, str) else 12), size


def payload(values, wide):
    types = [stored(value, wide) for value in values]
    header = 1 + sum(length(kind) for kind, _ in types)
    header += header > 127
    return header + sum(size for _, size in types)


def note(random, size, wide, is_text):
    data = random.randbytes(size)
    if not is_text or (wide and size % 2):
        return data
    return data[: size // 2 if wide else size].translate(PRINTED).decode("ascii")


def fitted(random, before, wanted, wide):
    """The values and a note that make a payload of just the size that is wanted, if there is one."""
    is_text = random.randrange(3) > 0
    for less in range(8):
        size = wanted - payload(before, wide) - less
        if size >= 0:
            row = before + [note(random, size, wide, is_text)]
            if payload(row, wide) == wanted:
                return row
    return None


# THE ROWS


def small(random):
    """A value that guarded may mark, or not."""
    marked = random.choice((1, 1, "", b"", -(1 << 62)))
    return random.choice((None, 0, 5, -3, 70_000, 1 << 40, 2.5, "ab", b"\x00\xff", marked))


def row_number(random, index):
    """Mostly the next one."""
    return index + 1 if random.randrange(12) else random.choice((-1, 1)) * random.randrange(1 << random.randrange(36, 63))


def made(random, of, kind, count, wide, first, columns):
    """So many rows, over all edges again and again. `first` answers the first column, as handed over and as stored."""
    sizes, found = edges(of, kind, random), []
    index = 0
    while len(found) < count:
        handed, kept = first(random, index)
        row = fitted(random, [kept] + [small(random) for _ in range(columns)], sizes[index % len(sizes)], wide)
        index += 1
        if row:
            found.append([handed] + row[1:])
    return found


def numbered(random, index):
    """A key that is the row number is stored as null."""
    return row_number(random, index), None


def keyed(random, index):
    number = index * 7919 % 1_000_003
    return number, number


def unique(rows):
    return list({row[0]: row for row in rows}.values())


def insert(db, table, rows):
    """Some rows go again, so that later chains lie in pages here and there."""
    half = len(rows) // 2
    places = ", ".join("?" * len(rows[0]))
    db.executemany(f"insert into {table} values ({places})", rows[:half])
    gone = rows[: half // 4]
    db.executemany(f"delete from {table} where k = ?", [row[:1] for row in gone])
    db.executemany(f"insert into {table} values ({places})", rows[half:] + gone)


def fill(db, random, of, count, some, wide):
    """The tables of one database, two with `count` rows and two with `some`, and how many rows they have."""
    leaf, index = model.LEAF_TABLE, model.LEAF_INDEX
    width = random.choice((130, 200, 310, 620))
    filled = {
        "t(k integer primary key, a, b, note)": made(random, of, leaf, count, wide, numbered, 2),
        "w(k integer, a, b, note, primary key(k)) without rowid": made(random, of, index, count, wide, keyed, 2),
        f"m(k integer primary key, {', '.join(f'c{i}' for i in range(width))}, note)": made(
            random, of, leaf, some, wide, numbered, width
        ),
        "i(k integer primary key, note)": made(random, of, index, some, wide, numbered, 0),
    }
    db.execute("begin")
    for head, rows in filled.items():
        db.execute("create table " + head)
        insert(db, head[0], unique(rows))
    db.execute("create index ii on i(note)")
    db.execute("commit")
    return sum(len(unique(rows)) for rows in filled.values())


def make(file, random, size, reserved, encoding, count, some):
    vacuum = random.choice(("none", "none", "full", "incremental"))
    head = f"pragma page_size={size};\npragma encoding='{encoding}';\npragma auto_vacuum={vacuum};\n"
    shell.run([file], head + (f".filectrl reserve_bytes {reserved}\n" if reserved else "") + "vacuum;\n")
    db = sqlite3.connect(file, isolation_level=None)
    db.execute("pragma journal_mode = off")
    db.execute("pragma synchronous = off")
    rows = fill(db, random, model.Shape(size, size - reserved, 0), count, some, encoding != "UTF-8")
    db.close()
    with open(file, "rb") as source:
        if source.read(21)[20] != reserved:
            raise shell.Failed(f"{file}: no {reserved} bytes are reserved")
    return rows


def main():
    folder, seed, least = sys.argv[1], int(sys.argv[2]), int(sys.argv[3])
    rows, turn = 0, 0
    # A share is of each of the two large tables. Some payloads are whole, so more rows are made than are wanted.
    unit = least / (2 * len(RESERVED) * sum(SHARES.values()))
    while rows < least * 1.15:
        for i, (size, share) in enumerate(SHARES.items()):
            for j, reserved in enumerate(RESERVED):
                r = random.Random(f"{seed} {turn} {size} {reserved}")
                file = os.path.join(folder, f"notes-{turn}-{size}-{reserved}.db")
                count = max(60, int(share * unit * 1.15))
                rows += make(file, r, size, reserved, ENCODINGS[(i + j + turn) % 3], count, max(12, count // 20))
        turn += 1
    print(rows)


if __name__ == "__main__":
    main()
