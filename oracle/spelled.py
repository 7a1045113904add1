"""Values in words, as the program `rows` spells them, and the rows that the original shows."""
import struct

VARIANTS = {"i8": "i", "i16": "i", "i32": "i", "i64": "i", "f64": "r", "text": "t", "blob": "b"}


def of_sqlite(one):
    """A value that Python's sqlite3 selects, where a text comes as a pair."""
    if one is None:
        return "null"
    if isinstance(one, int):
        return f"i:{one}"
    if isinstance(one, float):
        return "r:" + struct.pack(">d", one).hex()
    return "t:" + one[1].hex() if isinstance(one, tuple) else "b:" + one.hex()


def of_value(data, kind, integer, bits, at, length):
    text = data[at : at + length].hex()
    return ("null", f"i:{integer}", f"r:{bits:016x}", f"t:{text}", f"b:{text}")[kind]


def of_old(data, kind, width, integer, bits, at, length):
    """A value of the old reading as the original's variants are spelled."""
    text = data[at : at + length].hex()
    return ("null", f"i{width}:{integer}", f"f64:{bits:016x}", f"text:{text}", f"blob:{text}")[kind]


def of_original(words):
    """The original's values without the widths of their variants."""
    variants = (word.partition(":") for word in words)
    return ["null" if kind == "null" else f"{VARIANTS[kind]}:{shown}" for kind, _, shown in variants]


def shown_by_original(lines):
    """The rows that the original shows by page, counted from 1, and cell: number and values as it spells them; and the pages that it
    refuses."""
    shown, page, refused = {}, None, set()
    for line in lines:
        words = line.split()
        if words[0] == "page":
            page = int(words[1]) + 1
            if words[2] == "refused":
                refused.add(page)
        elif words[0] == "cell":
            shown[page, int(words[1])] = int(words[6]), words[9:]
        elif words[0] == "alone" and words[3] != "refused":
            shown[int(words[1]) + 1, int(words[2])] = int(words[3]), words[5:]
    return shown, refused
