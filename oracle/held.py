"""What the calls on a whole table are held to, for oracle/walks and oracle/trusts."""
import array
import itertools
from collections import Counter

import listed
import model

NONE = (0,) * 5
TOO_SHORT = 19
MOST_TOLD = 10


class Run:
    """A run over many tables: `what` names the two calls that are asked, the one that counts and the one that lists."""

    def __init__(self, command, random, what):
        self.command = command
        self.random = random
        self.what = what
        self.counts = Counter()
        self.numbers = Counter()
        self.differences = 0

    def differ(self, what):
        self.differences += 1
        if self.differences <= MOST_TOLD:
            print(f"a difference: {what}")

    def keep(self, before, data):
        """Keeps the database of a difference, if there was one since."""
        if before < self.differences <= MOST_TOLD:
            kept = listed.WORK / f"damaged-{self.differences}.db"
            kept.write_bytes(data)
            print(f"  kept as {kept}")

    def questions(self, root):
        """A list that is long enough or longer, and one that is too short for one row or for all."""
        more, fewer = self.random.choice((0, 0, 1, 2, 3, 7, 3000)), self.random.choice((-1, -2, -3, -1 << 62))
        return [listed.Asked(self.what, root, more), listed.Asked(self.what, root, fewer)]

    def held(self, place, asked, answers, walked, rows, refused=NONE):
        """Both answers, once it is known what they have to be: the walk's refusal, or none and its rows, and what is refused
        of these."""
        enough, short = answers
        wanted = walked if walked != NONE else refused
        given = rows if wanted == NONE else array.array("q")
        count = len(given) // listed.ROW
        told = (enough.counted, enough.count, enough.listed, enough.listed_count)
        if told != (wanted, count, wanted, count) or enough.rows != given:
            self.differ(f"{place}, {asked[0]}: {told}, wanted {wanted}, {count} rows")
        too_short = (TOO_SHORT, 0, asked[1].root, 0, 0) if walked == NONE and rows else wanted
        if (short.counted, short.listed) != (wanted, too_short) or short.rows:
            self.differ(f"{place}, {asked[1]}: {short.listed}, wanted {too_short}")
        if not (enough.kept and short.kept):
            self.differ(f"{place}: the list is not kept where no row is written")
        self.counts["answers"] += 2


def modelled(case):
    """The refusal and the rows of a walk, by the model."""
    try:
        rows = model.walk(case.data, case.root).rows
        return NONE, array.array("q", itertools.chain.from_iterable(rows))
    except model.Refused as refused:
        return refused.told, array.array("q")
