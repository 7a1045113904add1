"""Random numbers, texts and blobs as SQL, on the edges where they are stored in another way."""
import math
import struct

import shell

LEAST, LARGEST = -(2**63), 2**63 - 1
LETTERS = "abcdefghijklmnopqrstuvwxyz 0123456789'\"|_%éß漢字😀"


def integer(random):
    """Around a power of two, where the width changes."""
    near = 2 ** random.randrange(64) + random.randrange(-2, 2)
    return max(LEAST, min(LARGEST, random.choice((near, -near))))


def real(random):
    """Whole numbers, which a REAL column stores as integers, edges, and any bits that are a number."""
    kind = random.randrange(5)
    if kind == 0:
        return f"{random.randrange(-300, 300)}.0"
    if kind == 1:
        return f"{float(integer(random))!r}"
    if kind == 2:
        return random.choice(("9e999", "-9e999", "5e-324", "-0.0", "0.1", "1.7976931348623157e308"))
    if kind == 3:
        return repr(random.uniform(-1000, 1000))
    (number,) = struct.unpack(">d", random.randbytes(8))
    return repr(number) if math.isfinite(number) else "2.5"


def text(random, most=40):
    word = "".join(random.choice(LETTERS) for _ in range(random.randrange(most + 1)))
    if random.randrange(30) == 0:
        # With a zero in it, which ends no text.
        return f"{shell.text(word)} || char(0) || 'b'"
    return shell.text(word)


def blob(random, most=40):
    return f"x'{random.randbytes(random.randrange(most + 1)).hex()}'"


def value(random):
    kind = random.randrange(12)
    if kind < 2:
        return "null"
    if kind < 5:
        return str(integer(random))
    if kind == 5:
        return random.choice(("0", "1", "''", "x''"))
    if kind < 8:
        return real(random)
    return text(random) if kind < 11 else blob(random)


def row_number(random, number):
    """A small number that is next, or one of any sign and length."""
    return random.choice((number, integer(random), -random.randrange(1, 100_000)))
