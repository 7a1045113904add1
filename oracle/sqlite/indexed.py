"""Databases of small pages with many keys, by SQLite: their indexes, and a table without row numbers, have pages above the leaves."""
import os
import sqlite3

import shell

SIZES = (512, 512, 1024)
RESERVED = (0, 0, 8, 32)


def key(r):
    """Of every width, a text or nothing; none spills."""
    kind = r.randrange(6)
    if kind == 0:
        return r.choice((None, 0, 1, "", b""))
    if kind == 1:
        return "k" * r.randrange(1, 20) + str(r.randrange(1000))
    return r.randrange(1 << r.choice((1, 7, 15, 23, 31, 47, 63))) * r.choice((1, -1))


def make(file, r):
    if os.path.exists(file):
        os.remove(file)
    reserved = r.choice(RESERVED)
    reserve = f".filectrl reserve_bytes {reserved}\n" if reserved else ""
    shell.run([file], f"pragma page_size={r.choice(SIZES)};\n{reserve}vacuum;\n")
    db = sqlite3.connect(file)
    db.execute("create table t(k integer primary key, a, b)")
    db.execute("create table keyed(a, b, primary key (a, b)) without rowid")
    rows = [(key(r), key(r)) for _ in range(r.choice((100, 300, 600)))]
    db.executemany("insert into t(a, b) values (?, ?)", rows)
    db.executemany("insert or ignore into keyed values (ifnull(?, 5), ifnull(?, 7))", rows)
    db.execute("create index by_a on t(a)")
    db.execute("create index by_both on t(b, a)")
    db.commit()
    db.close()
