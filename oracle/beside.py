"""What SQLite shows of one row of a database that may be damaged, beside what we show of it."""
import math
import sqlite3
import struct
from pathlib import Path

SHOWN = "shows a row"


def row(file, data, table, key):
    """The columns of the row whose column `k` is the key, or the words of SQLite's fault. The file is written for that."""
    Path(file).write_bytes(data)
    db = sqlite3.connect(f"file:{file}?immutable=1", uri=True)
    db.text_factory = lambda text: ("text", text)
    try:
        found = db.execute(f"select * from {table} where k = ?", (key,)).fetchone()
        return "has no such row" if found is None else list(found)
    except sqlite3.Error as fault:
        return str(fault)
    except MemoryError:
        # SQLite's own answer where a size is damaged.
        return "out of memory"
    finally:
        db.close()


def meaning(value, data):
    """A value for C, as the select above has it. SQLite shows a real that is no number as NULL."""
    if value.kind in (3, 4):
        part = data[value.at : value.at + value.len]
        return ("text", part) if value.kind == 3 else part
    if value.kind == 2:
        real = struct.unpack(">d", struct.pack(">Q", value.bits))[0]
        return None if math.isnan(real) else real
    return value.integer if value.kind == 1 else None


def has_pointer_map(data):
    """Whether the database is of a kind that can be vacuumed by itself: its largest root page is told."""
    return data[52:56] != bytes(4)


def is_same(ours, theirs):
    """Columns that a row lacks are NULL; and types are compared, too."""
    ours = ours + [None] * (len(theirs) - len(ours))
    return all(type(our) is type(their) and our == their for our, their in zip(ours, theirs))
