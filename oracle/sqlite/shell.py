"""What SQLite says of a database, by Debian's sqlite3. The file is not changed, and a log beside it is not read."""
import json
import subprocess


class Failed(Exception):
    """sqlite3 ended with a fault."""


def run(words, sql):
    done = subprocess.run(["sqlite3", "-batch", "-bail", *words], input=sql, capture_output=True, text=True)
    if done.returncode or done.stderr:
        raise Failed(f"{words[-1] if words else 'sqlite3'}: {done.stderr.strip() or done.returncode}")
    return done.stdout


def address(file):
    return "file:" + file.replace("%", "%25").replace("?", "%3f").replace("#", "%23") + "?immutable=1"


def rows(file, sql):
    """The rows of a select whose columns have neither a bar nor a line's end, as lists of words."""
    return [line.split("|") for line in run([address(file)], sql).splitlines()]


def objects(file, sql):
    """The rows of a select, as tables from the columns' names to values."""
    return json.loads(run(["-json", address(file)], sql) or "[]")


def version():
    return run([], "select sqlite_version();").strip()


def name(word):
    return '"' + word.replace('"', '""') + '"'


def text(word):
    return "'" + word.replace("'", "''") + "'"


def shown(column):
    """An expression that spells a column's value as `dump_file` does."""
    return (
        f"case typeof({column}) when 'null' then 'null' when 'integer' then 'i:' || {column}"
        f" when 'real' then 'r:' || lower(hex(ieee754_to_blob({column})))"
        f" when 'text' then 't:' || lower(hex(cast({column} as blob))) else 'b:' || lower(hex({column})) end"
    )
