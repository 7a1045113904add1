"""Tables as SQL, each of a shape of its own, and what becomes of their rows. Each has a column `a`."""
import words

TYPES = ("", "integer", "real", "text", "blob", "numeric", "double precision", "varchar(9)")


def insert(name, rows, columns=""):
    values = ",\n".join(f"({', '.join(row)})" for row in rows)
    return f"insert or ignore into {name}{columns} values\n{values};\n" if rows else ""


def mixed(r, name):
    """Values of all kinds, in columns of all affinities, with a key that is the row number."""
    kinds = [r.choice(TYPES) for _ in range(r.randrange(1, 9))]
    rows = [[str(words.row_number(r, i))] + [words.value(r) for _ in kinds] for i in range(r.randrange(60, 220))]
    named = [f"a {kinds[0]}"] + [f"c{i} {kind}" for i, kind in enumerate(kinds[1:])]
    head = ", ".join(["k integer primary key"] + named)
    return f"create table {name}({head});\n" + insert(name, rows)


def keyless(r, name):
    """Row numbers that are no column."""
    rows = [[str(words.row_number(r, i)), words.value(r), words.value(r)] for i in range(r.randrange(60, 220))]
    return f"create table {name}(a, b);\n" + insert(name, rows, "(rowid, a, b)")


def reals(r, name):
    rows = [[words.real(r), words.real(r), str(words.integer(r))] for _ in range(r.randrange(60, 220))]
    return f"create table {name}(a real, b, c float);\n" + insert(name, rows)


def many(r, name):
    """So many columns that the header's size takes two bytes."""
    width = r.randrange(200, 420)
    rows = [[r.choice(("null", "0", "1", str(r.randrange(300)), "''")) for _ in range(width)] for _ in range(12)]
    head = ", ".join(["a"] + [f"c{i}" for i in range(1, width)])
    return f"create table {name}({head});\n" + insert(name, rows)


def long(r, name):
    """Texts around the lengths at which payloads spill from pages of 512 to 16,384 bytes."""
    edges = (80, 455, 967, 1991, 4039, 8135, 16325)
    lengths = [r.choice(edges) + r.randrange(-16, 16) for _ in range(30)]
    rows = [[f"hex(zeroblob({n // 2}))", f"zeroblob({r.randrange(30)})"] for n in lengths]
    return f"create table {name}(a text, b blob);\n" + insert(name, rows)


def altered(r, name):
    """Rows that are older than some of their table's columns."""
    old = insert(name, [[words.value(r), words.value(r)] for _ in range(60)], "(a, b)")
    more = f"alter table {name} add column c default {r.choice(('7', 'null', chr(39) * 2))};\n"
    new = insert(name, [[words.value(r), words.value(r), words.value(r)] for _ in range(60)], "(a, b, c)")
    last = f"alter table {name} add column d real default 1.5;\n"
    return f"create table {name}(a, b);\n" + old + more + new + last


def generated(r, name):
    """One column that is computed and stored, and one that is not stored."""
    rows = [[str(words.integer(r) // 4), words.text(r)] for _ in range(50)]
    head = "a integer, v as (a + 1) virtual, b text, s as (b || a) stored"
    return f"create table {name}({head});\n" + insert(name, rows, "(a, b)")


def counted(r, name):
    """A key that is never used again: SQLite keeps a table of its own for it."""
    rows = [[words.value(r)] for _ in range(r.randrange(20, 90))]
    return f"create table {name}(k integer primary key autoincrement, a);\n" + insert(name, rows, "(a)")


def without(r, name):
    """A table without row numbers: it is present, and left out."""
    rows = [[words.text(r), words.value(r)] for _ in range(40)]
    return f"create table {name}(a primary key, b) without rowid;\n" + insert(name, rows)


SHAPES = (mixed, mixed, keyless, reals, many, long, altered, generated, counted, without)


def history(r, name):
    """What becomes of a table: some rows are deleted, some are changed, some come behind them."""
    most, from_ = r.randrange(1, 50), r.randrange(30)
    some = f"where rowid in (select rowid from {name} order by rowid limit {most} offset {from_})"
    steps = (
        f"delete from {name} {some};\n",
        f"update {name} set a = {words.value(r)} {some};\n",
        f"update {name} set a = {words.text(r, 200)} {some};\n",
        f"create index {name}_a on {name}(a);\n",
        insert(name, [[words.value(r)] for _ in range(20)], "(a)"),
    )
    return "".join(r.sample(steps, r.randrange(len(steps))))
