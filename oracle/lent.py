"""The calls that are lent a gather buffer, asked by oracle/lent.c over the static library.

Standard input: for a database the word 1, its length and its bytes; for a question the word 2 and seven words: reading,
page, cell, column, the buffer's room, the table's places, and the byte that the buffer is filled with. An answer has the
words that `Answer` names, then the bytes of the buffer up to the last that is not as it was filled, and six words for each
column.
"""
import struct
import subprocess
from collections import namedtuple

import linked

WORK = linked.ROOT / "target" / "lent"
OLD, FILE, GUARDED = 0, 1, 2

Asked = namedtuple("Asked", "reading page cell column room places fill")
Value = namedtuple("Value", "kind width integer bits at len")
# A refusal is number, mark, page, cell and column. `plain` has those of the calls lent no buffer: cell, value and row. The flags
# say whether the value call left the same buffer, whether the row is what shorgavel_row_in says, and whether the table
# behind the values and the bytes behind the buffer are as they were.
Answer = namedtuple(
    "Answer",
    "opening refused number columns count along source column column_value column_source same_buffer"
    " plain as_row_in table_kept behind_kept buffer values",
)
WORDS = struct.Struct("<5Q 5QqQQ4QQ 5QQQqQQQQQ 15Q QQQ Q")
VALUE = struct.Struct("<QQqQQQ")


def built():
    """The command that answers."""
    return linked.built("lent")


def database(data):
    return struct.pack("<QQ", 1, len(data)) + data


def question(asked):
    return struct.pack("<8Q", 2, *asked)


def answers(command, stream, asked):
    """The answers to questions, one by one. The stream is a file's name, so that neither side waits for the other."""
    with open(stream, "rb") as given, subprocess.Popen(command, stdin=given, stdout=subprocess.PIPE) as run:
        for one in asked:
            yield answer(run.stdout, one)
        if run.stdout.read(1):
            raise OSError("there are more answers than questions")
    if run.returncode:
        raise OSError(f"{command[-1]} ended in status {run.returncode}")


def answer(source, asked):
    words = WORDS.unpack(taken(source, WORDS.size))
    buffer = taken(source, words[-1])
    (columns,) = struct.unpack("<Q", taken(source, 8))
    values = [Value(*one) for one in VALUE.iter_unpack(taken(source, columns * VALUE.size))]
    return Answer(
        opening=words[0:5],
        refused=words[5:10],
        number=words[10],
        columns=words[11],
        count=words[12],
        along=words[13:17],
        source=words[17],
        column=words[18:23],
        column_value=Value(*words[23:29]),
        column_source=words[29],
        same_buffer=words[30],
        plain=(words[31:36], words[36:41], words[41:46]),
        as_row_in=words[46],
        table_kept=words[47],
        behind_kept=words[48],
        buffer=buffer + bytes([asked.fill]) * (asked.room - len(buffer)),
        values=values,
    )


def taken(source, count):
    data = source.read(count)
    if len(data) != count:
        raise OSError("an answer is cut short")
    return data
