"""What SQLite stored in the rows of a database's tables, by page and cell."""
import sqlite3

import spelled
import tables

SPILLS = "refused 18"


def rows(file):
    """The values of each row; of one that spills, that it is refused."""
    db = sqlite3.connect(f"file:{file}?immutable=1", uri=True)
    db.text_factory = lambda text: ("text", text)
    names = db.execute("select cast(name as blob) from sqlite_schema where type = 'table' and name <> 'keyed'")
    found = {}
    for name in [name.decode() for name, in names] + ["sqlite_schema"]:
        found |= rows_of(db, file, name)
    db.close()
    return found


def rows_of(db, file, name):
    """SQLite's table dbstat counts the cells of each leaf, in the order of the row numbers."""
    table = tables.Table(file, name)
    sql = "select pageno, ncell from dbstat where name = ? and pagetype = 'leaf' order by path"
    places = [(number, cell) for number, cells in db.execute(sql, (name,)) for cell in range(cells)]
    wrote = db.execute(f"select * from {name} order by rowid").fetchall()
    if len(places) != len(wrote):
        raise OSError(f"{file}, {name}: SQLite has {len(wrote)} rows in {len(places)} cells")
    return {place: SPILLS if place in table.spilled else values(table, row) for place, row in zip(places, wrote)}


def values(table, row):
    """A key that is the row number is stored as null."""
    return ["null" if column.is_row_number else spelled.of_sqlite(one) for column, one in zip(table.columns, row)]
