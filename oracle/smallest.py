"""The smallest database for each damage of an overflow chain: pages of 512 bytes, one row, a chain of one page or of two.

Page 1 has the schema, page 2 the row, and the others its chain; with a pointer map, which is page 2, all is a page later.
The row has the number 1. Payloads of 478 and of 988 bytes keep 39 on their page, and one of 470 keeps 38 where U is 504.
"""
import os
import sys
from pathlib import Path

sys.path.insert(0, str(Path(__file__).resolve().parent / "sqlite"))

import model
import shell
from damaged import Case, next_of, put, spilled

ROOM = 4096


def sound(folder, columns, settings=""):
    """The database of a row with texts of so many bytes, and the cell."""
    file = os.path.join(folder, "smallest.db")
    if os.path.exists(file):
        os.remove(file)
    names = ", ".join(f"c{i}" for i in range(len(columns)))
    texts = ", ".join(f"printf('%.*c', {length}, 'n')" for length in columns)
    head = f"pragma page_size=512;\n{settings}create table t(k integer primary key, {names});\n"
    shell.run([file], head + f"insert into t values (1, {texts});\n")
    with open(file, "rb") as source:
        data = source.read()
    [one] = spilled(data, file)
    return data, one


def moved(data, one, behind):
    """The cell is copied so that so many bytes of its first number lie behind U; what passes the page is left out."""
    of = model.shape(data)
    page, cell = next_of(of, one.page), data[one.at : one.number + 4]
    at = of.usable + behind - len(cell)
    held = (data[page : page + at] + cell + data[page + at + len(cell) :])[: of.size]
    return put(data[:page] + held + data[page + of.size :], one.pointer, at, 2)


def one_page(folder):
    """P of 478: a header of four bytes, which are its size, the key's type and a type of two bytes, and a text."""
    data, one = sound(folder, [474])
    at = next_of(model.shape(data), 3)
    huge = bytes([0xFF] * 8 + [0x7F])
    return one, {
        "no damage: P of 478, page 3": data,
        "P of 478, first number 4 of 3 pages": put(data, one.number, 4),
        "P of 478, first number 4,294,967,295": put(data, one.number, (1 << 32) - 1),
        "P of 478, first number 0": put(data, one.number, 0),
        "P of 478, first number 1": put(data, one.number, 1),
        "P of 478, first number 2, its own page": put(data, one.number, 2),
        "P of 478, page 3 goes on to 3, itself": put(data, at, 3),
        "P of 478, page 3 goes on to 2": put(data, at, 2),
        "P of 478, page 3 goes on to 4, outside": put(data, at, 4),
        "P of 478, without page 3": data[:1024],
        "P of 478, without page 3, size in the header 2": put(data, 28, 2)[:1024],
        "P of 478, without the last byte": data[:-1],
        "P of 986 over a chain of one page": data[: one.at] + b"\x87\x5a" + data[one.at + 2 :],
        "P of eight `ff` and `7f`": data[: one.at] + huge + data[one.at + 2 : 1024 - 7] + data[1024:],
        "P of 478, the first number passes U by a byte": moved(data, one, 1),
    }


def two_pages(folder):
    data, one = sound(folder, [984])
    of = model.shape(data)
    return one, {
        "no damage: P of 988, pages 3 and 4": data,
        "P of 988, page 3 goes on to 0": put(data, next_of(of, 3), 0),
        "P of 988, page 3 goes on to 5 of 4 pages": put(data, next_of(of, 3), 5),
        "P of 988, page 3 goes on to 1": put(data, next_of(of, 3), 1),
        "P of 988, page 3 goes on to 3, itself": put(data, next_of(of, 3), 3),
        "P of 988, page 4 goes on to 3, a circle": put(data, next_of(of, 4), 3),
    }


def with_pointer_map(folder):
    """The first text ends where the first overflow page ends, so that the second is found by skipping a page."""
    data, one = sound(folder, [541, 441], "pragma auto_vacuum=full;\n")
    at = next_of(model.shape(data), 4)
    return one, {
        "no damage: P of 988 with a pointer map, a text for each of pages 4 and 5": data,
        "the same, page 4 goes on to 0": put(data, at, 0),
        "the same, page 4 goes on to 6 of 5 pages": put(data, at, 6),
    }


def reserved(folder):
    data, one = sound(folder, [466], ".filectrl reserve_bytes 8\nvacuum;\n")
    return one, {
        "no damage: P of 470 where U is 504": data,
        "P of 470 where U is 504, the first number in the reserved space": moved(data, one, 4),
    }


def cases(folder):
    """The damage in words, and the case."""
    for make in (one_page, two_pages, with_pointer_map, reserved):
        one, made = make(folder)
        for words, data in made.items():
            yield Case(words, data, "t", one.page, one.cell, ROOM, 1)
