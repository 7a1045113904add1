#!/usr/bin/env python3
"""sample.py FILE ROWS: a database as a gauge may leave it, for looking at its sheet. docs/SHEET.md says what was seen."""
import os
import random
import sqlite3
import sys

TABLES = (
    "create table load(at INTEGER NOT NULL, idle, charging, coulombs INTEGER, volts REAL, kelvin)",
    "create table note(id INTEGER PRIMARY KEY, at INTEGER, author TEXT, words TEXT NOT NULL DEFAULT '')",
    'create table "pack 2"("serial no", maker)',
    "create table settings(name TEXT PRIMARY KEY, value) without rowid",
    "create table wide(" + ",".join(f"m{i}" for i in range(30)) + ")",
    "create table scratch(a, b, c)",
    "create table bare(x, y)",
)
NOTES = (
    "Pack swapped.",
    "Pack swapped.\nCell 7 reads low:\n  2.91 V at rest\n  2.70 V under load",
    "",
    "Größe geprüft Ω",
    "it's <b>not</b> bold & fine",
    "A long note about the truck that goes on and on. " * 30,
    "line one\r\nline two\r\n\r\nline four",
    "tab\there",
)


def load(r, at):
    coulombs = (r.choice([0, 0, 0, 1]), r.choice([0, 0, 1]), 16777216 + r.randint(-9000000, 9000000))
    return (at, *coulombs, round(r.uniform(22, 27), 2), r.choice([None, 291, 293, 300]))


def fill(db, r, rows):
    at = 1_700_000_000
    for _ in range(rows):
        at += r.randint(1, 90)
        db.execute("insert into load values(?,?,?,?,?,?)", load(r, at))
    for i in range(60):
        note = (at + i, r.choice(["Ann", "Bo", ""]), NOTES[i % len(NOTES)])
        db.execute("insert into note(at, author, words) values(?,?,?)", note)
    db.executemany('insert into "pack 2" values(?,?)', [(f"SN-{i:05}", "Acme") for i in range(5)])
    for _ in range(20):
        wide = [r.choice([0, 1, None, 3.25, 123456, "abc"]) for _ in range(30)]
        db.execute("insert into wide values(" + ",".join("?" * 30) + ")", wide)
    db.execute("insert into settings values('a', 1), ('b', 2)")
    db.executemany("insert into scratch values(?,?,?)", [(i, 1, "old row") for i in range(900)])


def write(path, rows):
    if os.path.exists(path):
        os.remove(path)
    db = sqlite3.connect(path, isolation_level=None)
    # Pages that are freed keep their rows.
    db.execute("pragma page_size=4096")
    db.execute("pragma secure_delete=off")
    db.execute("begin")
    for statement in TABLES:
        db.execute(statement)
    fill(db, random.Random(7), rows)
    db.execute("commit")
    db.execute("drop table scratch")
    db.execute("delete from load where rowid % 97 = 0")
    db.close()


if len(sys.argv) != 3 or not sys.argv[2].isdigit():
    sys.exit(__doc__)
write(sys.argv[1], int(sys.argv[2]))
