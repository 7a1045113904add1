"""tables.py FOLDER [walk]: writes the databases that bin/bench reads; with the word, also the one of a million rows.

Each has one table, named gauge, at page size 4,096. Every value follows from the number of its row.

All three readings show all rows, so that all do the same work: no value is 1 (serial type 9) or an empty text, header sizes
take one byte, and every payload is whole on its page. But for notes, whose rows spill: the file reading alone shows them,
with a gather buffer lent.
"""
import os
import sqlite3
import sys

GROWTH = (1_000, 5_000, 20_000, 50_000, 100_000)
NOTE = 6_000
WALK = 1_000_000
STATES = ("idle", "lift", "drive", "charge")
WIDE = 60


def mixed(n):
    """A number below 2^31 that looks drawn by lot."""
    n = (n * 2_654_435_761 + 12_345) & 0xFFFF_FFFF
    return ((n ^ (n >> 15)) * 2_246_822_519 & 0xFFFF_FFFF) >> 1


def gauge(n):
    """What a gauge keeps: second, coulomb count, current, flags, cell voltage, state.

    The current goes in steps of two, and the flags are a mask whose second bit says that the gauge runs: neither is ever 1.
    """
    lot = mixed(n)
    current = 2 * (lot % 30_000) - 30_000
    flags = 2 | (lot >> 8) & 0x7C
    return (1_760_000_000 + 30 * n, 5_000_000_000 + 7_919 * n, current, flags, 3.2 + (lot % 999 + 0.5) / 1000, STATES[lot % 4])


def wide(n):
    """The six columns again and again, with other values."""
    return tuple(value for turn in range(WIDE // 6) for value in gauge(n * 10 + turn))


def tiny(n):
    return (2 + n % 126,)


def text(n):
    """Three texts of 200 to 900 bytes."""
    return tuple(chr(97 + (n + i) % 26) * (200 + mixed(3 * n + i) % 701) for i in range(3))


def notes(n):
    """The second and a driver's note."""
    return (1_760_000_000 + 30 * n, chr(97 + n % 26) * NOTE)


def write(folder, name, rows, row):
    file = os.path.join(folder, name + ".db")
    if os.path.exists(file):
        os.remove(file)
    width = len(row(1))
    db = sqlite3.connect(file)
    db.execute("pragma page_size = 4096")
    db.execute("create table gauge(" + ", ".join(f"c{i}" for i in range(width)) + ")")
    db.executemany(f"insert into gauge values ({', '.join('?' * width)})", map(row, range(1, rows + 1)))
    db.commit()
    db.close()


def main():
    folder = sys.argv[1]
    for rows in GROWTH:
        write(folder, f"gauge-{rows}", rows, gauge)
    write(folder, "wide", 2_000, wide)
    write(folder, "tiny", 20_000, tiny)
    write(folder, "text", 2_000, text)
    write(folder, "notes", 2_000, notes)
    if "walk" in sys.argv[2:]:
        write(folder, f"gauge-{WALK}", WALK, gauge)


if __name__ == "__main__":
    main()
