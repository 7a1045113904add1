"""What `dump_file` shows of databases."""
import struct
import subprocess


class Fault(Exception):
    """The program said something that this does not know."""


def dump(command, files):
    """For each file the lines of its cells, as a table from page and cell to the words behind them."""
    stream = b"".join(struct.pack(">I", len(data)) + data for data in map(read, files))
    done = subprocess.run(command, input=stream, capture_output=True, check=True)
    shown = []
    for line in done.stdout.decode("ascii").splitlines():
        kind, *words = line.split(" ")
        if kind == "db":
            shown.append({})
        elif kind == "row":
            shown[-1][int(words[0]), int(words[1])] = words[2:]
        else:
            raise Fault(f"{files[len(shown) - 1]}: {line}")
    if len(shown) != len(files):
        raise Fault(f"{len(shown)} answers for {len(files)} databases")
    return shown


def read(file):
    with open(file, "rb") as source:
        return source.read()
