"""make.py FOLDER SEED ROWS: makes databases that follow from the seed, by sqlite3, and prints how many rows they have.

There are LEAST of them or more, as many as ROWS rows take. Each has some of the tables of shapes.py, a page size,
an encoding, reserved space and a history of its own.
"""
import os
import random
import struct
import sys

import shell
from shapes import SHAPES, history, insert, without

LEAST = 40
MOST_BYTES = 1_048_576
SIZES = (512, 1024, 2048, 4096, 8192, 16384, 32768, 65536)
ENCODINGS = ("UTF-8", "UTF-16le", "UTF-16be")
# A number that is put in and replaced by one that is none, which no SQL can store.
MARK, NAN = "1.25e-200", bytes.fromhex("7ff8000000000001")


def settings(r, index):
    size = SIZES[index % len(SIZES)]
    reserved = r.choice((0, 0, 8, 32, 32 if size == 512 else 200))
    return (
        f"pragma page_size={size};\npragma encoding='{ENCODINGS[index % len(ENCODINGS)]}';\n"
        + f"pragma auto_vacuum={r.choice(('none', 'none', 'full', 'incremental'))};\n"
        + (f".filectrl reserve_bytes {reserved}\nvacuum;\n" if reserved else "")
    )


def script(r, index):
    """The SQL of one database; it ends in the counts of its tables' rows."""
    sql, names = settings(r, index) + "begin;\n", []
    for i, shape in enumerate(r.sample(SHAPES, r.randrange(3, 6))):
        name = f"t{i}"
        sql += shape(r, name)
        if shape is not without:
            sql += history(r, name)
            names.append(name)
    sql += "commit;\n" + r.choice(("", "vacuum;\n", "analyze;\n"))
    return sql + ".print counts\n" + "".join(f"select count(*) from {name};\n" for name in names)


def make(file, sql):
    """Answers how many rows the tables have. One that `dump_file` would skip is dropped, with 0 rows."""
    said = shell.run([file], sql)
    if os.path.getsize(file) > MOST_BYTES:
        os.remove(file)
        return 0
    return sum(int(line) for line in said.partition("counts\n")[2].split())


def make_nan(file):
    rows = [[MARK, "null", "2.5"], ["1.5", MARK, "null"], ["null", "0.5", MARK]]
    made = make(file, "pragma page_size=512;\ncreate table t(a, b real, c);\n" + insert("t", rows))
    with open(file, "r+b") as database:
        data = database.read()
        database.seek(0)
        database.write(data.replace(struct.pack(">d", float(MARK)), NAN))
    return made + len(rows)


def main():
    folder, seed, least = sys.argv[1], int(sys.argv[2]), int(sys.argv[3])
    rows = make_nan(f"{folder}/nan.db")
    kept = index = 0
    while kept < LEAST or rows < least:
        r = random.Random(f"{seed} {index}")
        made = make(f"{folder}/made-{index:03}.db", script(r, index))
        rows += made
        kept += made > 0
        index += 1
    print(rows)


if __name__ == "__main__":
    main()
