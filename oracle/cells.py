"""The three calls on one cell, asked by oracle/cells.c over the static library.

Standard input: for a database the word 1, its length and its bytes; for a question the word 2, a page, from 1 on, and a cell. An
answer has the words of `Answer` for the old reading, the file reading and the guarded one.
"""
import struct
import subprocess
from collections import namedtuple

import lent
import linked

WORK = linked.ROOT / "target" / "cells"
# A refusal is number, mark, page, cell and column.
Answer = namedtuple("Answer", "refused row columns along shortest")
WORDS = struct.Struct("<5QqQ4QQ")


def built():
    """The command that answers."""
    return linked.built("cells")


def answers(command, data, asked):
    """For each place of a database, page and cell, the answers of old, file and guarded."""
    stream = WORK / "asked"
    with open(stream, "wb") as out:
        out.write(lent.database(data))
        out.writelines(struct.pack("<QQQ", 2, page, cell) for page, cell in asked)
    with open(stream, "rb") as given:
        run = subprocess.run(command, stdin=given, stdout=subprocess.PIPE, check=True)
    if len(run.stdout) != 3 * WORDS.size * len(asked):
        raise OSError("there are not as many answers as questions")
    told = [Answer(words[0:5], words[5], words[6], words[7:11], words[11]) for words in WORDS.iter_unpack(run.stdout)]
    return list(zip(told[0::3], told[1::3], told[2::3]))
