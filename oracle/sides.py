"""Both sides of the comparison, asked for a few databases: the original, and our `dump` or another program."""
import subprocess
from pathlib import Path

ROOT = Path(__file__).resolve().parent.parent


def stream(databases):
    """The databases as one stream."""
    return b"".join(len(one).to_bytes(4, "big") + one for one in databases)


def databases_of(data):
    """The databases of a stream."""
    found = []
    while data:
        length = int.from_bytes(data[:4], "big")
        found.append(data[4 : 4 + length])
        data = data[4 + length :]
    return found


def said(command, given):
    """What a command writes of standard input."""
    return subprocess.run(command, input=given, stdout=subprocess.PIPE, check=True).stdout


def by_database(answers):
    """The lines of answers, for each database those behind its `db` line."""
    found = []
    for line in answers.decode().splitlines():
        if line.startswith("db "):
            found.append([])
        elif found:
            found[-1].append(line)
    return found


def without_reasons(lines):
    """The lines with nothing behind `refused`."""
    return [line.partition(" refused")[0] + " refused" if " refused" in line else line for line in lines]


def reasons(lines):
    return [line.partition(" refused ")[2] for line in lines if " refused" in line]


def known_ways():
    lines = (ROOT / "oracle" / "ways.txt").read_text().splitlines()
    return {tuple(line.split(" ", 1)) for line in lines if line and not line.startswith("#")}


def outside(rust, ours, ways):
    """Whether a number of ours meets a way of the original that is not listed for it."""
    pairs = zip(reasons(ours), reasons(rust))
    return any((numbers.split(" ")[0], way) not in ways for numbers, way in pairs)


def misplaced(ours):
    """Whether a refusal of ours tells another page than its line, or of a cell alone another cell."""
    for line in ours:
        words = line.split()
        if words[0] in ("page", "alone") and "refused" in words:
            at = words.index("refused")
            if words[at + 2 : 2 * at + 1] != words[1:at]:
                return True
    return False


class Sides:
    """The commands of both sides."""

    def __init__(self, sources=None, ours=None):
        self.oracle = [str(ROOT / "bin" / "oracle")] + (["--sources", sources] if sources else [])
        self.ours = [ours] if ours else [str(ROOT / "bin" / "run"), "dump"]
        self.ways = known_ways()

    def rust_says(self, databases):
        return by_database(said(self.oracle + ["answers"], stream(databases)))

    def we_say(self, databases):
        return by_database(said(self.ours, stream(databases)))

    def differ(self, rust, ours):
        """Whether both sides' lines of one database differ."""
        return without_reasons(rust) != without_reasons(ours) or outside(rust, ours, self.ways) or misplaced(ours)

    def differing(self, databases):
        """For each database whether both sides differ on it."""
        rust, ours = self.rust_says(databases), self.we_say(databases)
        # A side that ends early says less of the rest, which is a difference.
        ours += [[]] * (len(rust) - len(ours))
        return [self.differ(r, o) for r, o in zip(rust, ours)]
