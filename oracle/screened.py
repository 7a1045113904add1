"""A screenful at once, and values one by one, asked by oracle/screened.c over the static library.

Standard input: for a database the word 1, its length and its bytes; for a screenful the word 2, the reading, the words of the addresses,
those of the answers, and the addresses; for a value the word 3, the reading, page, cell and column. A screenful is answered with the
refusal, the count, and all words of the list of answers, with sixteen behind it; a value with its refusal and its six words.
"""
import io
import struct
import subprocess
from collections import namedtuple

import lent
import linked

WORK = linked.ROOT / "target" / "screened"
WORD = 1 << 64
BEHIND = 16
ADDRESS, ANSWER = 3, 8

# The words of the addresses are given as they are; `room` is in words.
Asked = namedtuple("Asked", "reading words room")
# A refusal is number, mark, page, cell and column.
Answer = namedtuple("Answer", "refused count words")
HEAD = struct.Struct("<6Q")
SINGLE = struct.Struct("<7Qq3Q")


def built():
    """The command that answers."""
    return linked.built("screened")


def fill(at):
    """What a word of the list of answers holds before the call."""
    return 0x9E3779B97F4A7C15 * (at + 1) % WORD


def packed(words):
    return struct.pack(f"<{len(words)}Q", *words)


def said(command, data, questions):
    """What a run of the command over one database answers. Its questions are in a file, so that neither side waits for the other."""
    with open(WORK / "asked", "wb") as out:
        out.write(lent.database(data))
        out.writelines(packed(words) for words in questions)
    with open(WORK / "asked", "rb") as given:
        return io.BytesIO(subprocess.run(command, stdin=given, stdout=subprocess.PIPE, check=True).stdout)


def ended(source):
    if source.read(1):
        raise OSError("there are more answers than questions")


def screens(command, data, asked):
    """The answers for lists of addresses, in one run."""
    source = said(command, data, ((2, one.reading, len(one.words), one.room, *one.words) for one in asked))
    told = [screen(source, one.room + BEHIND) for one in asked]
    ended(source)
    return told


def screen(source, count):
    head = HEAD.unpack(lent.taken(source, HEAD.size))
    return Answer(head[:5], head[5], struct.unpack(f"<{count}Q", lent.taken(source, 8 * count)))


def singles(command, data, asked):
    """The answers for (reading, page, cell, column), each by its own call, in one run: refusal and value."""
    source = said(command, data, ((3, *one) for one in asked))
    told = [SINGLE.unpack(lent.taken(source, SINGLE.size)) for _ in asked]
    ended(source)
    return [(words[:5], words[5:]) for words in told]
