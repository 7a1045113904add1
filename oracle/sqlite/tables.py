"""The tables of a database that have row numbers: their columns, leaf pages, and rows as SQLite shows them."""
import shell

ALIASES = ("rowid", "_rowid_", "oid")


class Column:
    def __init__(self, name, declared, key):
        self.name = name
        self.is_real = is_real(declared.upper())
        # An alias of the row number is stored as null.
        self.is_row_number = key and declared.upper() == "INTEGER"


def is_real(declared):
    """Whether a column of that declared type has affinity REAL: the format's rules, in their order."""
    if any(word in declared for word in ("INT", "CHAR", "CLOB", "TEXT", "BLOB")):
        return False
    return any(word in declared for word in ("REAL", "FLOA", "DOUB"))


class Table:
    def __init__(self, file, name):
        self.file = file
        self.name = name
        self.columns = columns(file, name)
        self.leaves, self.spilled = pages(file, name)

    def rows(self):
        """The row number, and the values that are stored, by a select."""
        taken = [column.name.lower() for column in self.columns]
        number = next(alias for alias in ALIASES if alias not in taken)
        wanted = [number] + [shell.shown(shell.name(column.name)) for column in self.columns]
        # Many columns take many selects: an expression of all would be too deep.
        found = {}
        for at in range(1, len(wanted), 100):
            part = wanted[:1] + wanted[at : at + 100]
            sql = f"select {', '.join(part)} from {shell.name(self.name)} not indexed;"
            for number, *values in shell.rows(self.file, sql):
                found.setdefault(int(number), []).extend(values)
        return found


def tables(file):
    """Each table with row numbers, the schema's own among them. WITHOUT ROWID tables and views are left out."""
    wanted = "schema = 'main' and type in ('table', 'shadow') and wr = 0"
    sql = f"select name from pragma_table_list where {wanted} order by name;"
    return [Table(file, row["name"]) for row in shell.objects(file, sql)]


def left_out(file):
    """How many tables have no row numbers, and how many indexes there are."""
    sql = (
        "select (select count(*) from pragma_table_list where schema = 'main' and type = 'table' and wr = 1) as tables,"
        " (select count(*) from sqlite_schema where type = 'index' and rootpage > 0) as indexes;"
    )
    [row] = shell.objects(file, sql)
    return row["tables"], row["indexes"]


def columns(file, table):
    """The columns that are stored: virtual ones (hidden 2) are not."""
    sql = f"select name, type, pk from pragma_table_xinfo({shell.text(table)}) where hidden in (0, 3) order by cid;"
    rows = shell.objects(file, sql)
    single = sum(row["pk"] > 0 for row in rows) == 1
    return [Column(row["name"], row["type"], single and row["pk"] == 1) for row in rows]


def pages(file, table):
    """The numbers of the leaf pages, and the cells, as page and number, whose payload goes on elsewhere.

    An overflow page's path is its leaf's path, the cell's number of three or more hexadecimal digits, `+` and a count.
    """
    leaves, spilled = {}, set()
    rows = shell.objects(file, f"select pagetype, path, pageno from dbstat where name = {shell.text(table)};")
    for row in rows:
        if row["pagetype"] == "leaf":
            leaves[row["path"]] = row["pageno"]
    for row in rows:
        if row["pagetype"] == "overflow":
            leaf, _, cell = row["path"].partition("+")[0].rpartition("/")
            spilled.add((leaves[leaf + "/"], int(cell, 16)))
    return set(leaves.values()), spilled
