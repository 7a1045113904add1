"""The calls for all rows of a table, and those for a table that both readings show alike, asked by oracle/listed.c over the static
library.

Standard input: for a database the word 1, its length and its bytes; for a question the word 2, or 3 for the others, a root page and
how many words more, or fewer, than the rows of the walk take the list has. An answer has the refusal and the count of the counting call and of the
listing one, whether the list is as it was but for the rows, and the rows, three words each.
"""
import array
import itertools
import struct
import subprocess
from collections import namedtuple

import lent
import linked

WORK = linked.ROOT / "target" / "listed"
# A refusal is number, mark, page, cell and column. `rows` is one array, three words a row.
ROWS, TRUSTED = 2, 3
Asked = namedtuple("Asked", "what root more")
Answer = namedtuple("Answer", "counted count listed listed_count kept rows")
WORDS = struct.Struct("<13Q")
ROW = 3


def built():
    """The command that answers."""
    return linked.built("listed")


def answers(command, cases):
    """The answers to the questions of (bytes, questions) pairs, in one run: a list for each pair."""
    stream = WORK / "asked"
    with open(stream, "wb") as out:
        for data, asked in cases:
            out.write(lent.database(data))
            out.writelines(struct.pack("<QQq", *one) for one in asked)
    counts = [len(asked) for _, asked in cases]
    with open(stream, "rb") as given, subprocess.Popen(command, stdin=given, stdout=subprocess.PIPE) as run:
        told = [answer(run.stdout) for _ in range(sum(counts))]
        if run.stdout.read(1):
            raise OSError("there are more answers than questions")
    if run.returncode:
        raise OSError(f"{command[-1]} ended in status {run.returncode}")
    given = iter(told)
    return [list(itertools.islice(given, count)) for count in counts]


def answer(source):
    words = WORDS.unpack(lent.taken(source, WORDS.size))
    written = words[11] if words[6] == 0 else 0
    rows = array.array("q")
    rows.frombytes(lent.taken(source, ROW * 8 * written))
    return Answer(words[0:5], words[5], words[6:11], words[11], words[12], rows)
