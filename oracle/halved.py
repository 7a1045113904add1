"""The page call on the halves of one table, asked by oracle/halved.c over the static library.

Standard input: for a database the word 1, its truck, 0 or 1, its length and its bytes; for a table the word 2 and its places; for a
call the word 3, the truck, the reading and the page. A call is answered with the refusal, the head, and all places of the table as they
are behind it, seven words each; and those of the four places behind the table.
"""
import struct
import subprocess
from collections import namedtuple

import lent
import linked

WORK = linked.ROOT / "target" / "halved"
BEHIND = 4
# What a place holds before the calls.
FILL = (250, 251, 252, 253, -254, 255, 256)
Asked = namedtuple("Asked", "truck reading page")
# A refusal is number, mark, page, cell and column.
Answer = namedtuple("Answer", "refused head table")
WORDS = struct.Struct("<11Q")
ENTRY = struct.Struct("<4Qq2Q")


def built():
    """The command that answers."""
    return linked.built("halved")


def answers(command, databases, rounds):
    """The answers to the calls of (places, calls) pairs on two databases, in one run."""
    stream = WORK / "asked"
    with open(stream, "wb") as out:
        for truck, data in enumerate(databases):
            out.write(struct.pack("<QQQ", 1, truck, len(data)) + data)
        for places, asked in rounds:
            out.write(struct.pack("<QQ", 2, places))
            out.writelines(struct.pack("<QQQQ", 3, *one) for one in asked)
    with open(stream, "rb") as given, subprocess.Popen(command, stdin=given, stdout=subprocess.PIPE) as run:
        told = [[answer(run.stdout, places) for _ in asked] for places, asked in rounds]
        if run.stdout.read(1):
            raise OSError("there are more answers than questions")
    if run.returncode:
        raise OSError(f"{command[-1]} ended in status {run.returncode}")
    return told


def answer(source, places):
    words = WORDS.unpack(lent.taken(source, WORDS.size))
    table = list(ENTRY.iter_unpack(lent.taken(source, ENTRY.size * (places + BEHIND))))
    return Answer(words[0:5], words[5:11], table)
