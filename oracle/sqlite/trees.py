"""The trees of a database that have cells that spill: tables with row numbers, tables without, and indexes.

A tree has the columns that its cells store, its cells, and its rows as SQLite shows them.
"""
from collections import Counter, defaultdict

import shell
import tables


class Tree:
    """`numbered`: whether its cells have row numbers. `source`: the table that its rows are selected from. `cells`: each
    cell that has a row, as page and number, with how many bytes its overflow pages hold."""

    def __init__(self, name, numbered, columns, source):
        self.name = name
        self.numbered = numbered
        self.columns = columns
        self.source = source
        self.cells = {}

    def rows_by_number(self, file):
        """The values of each row number. Many columns take many selects: an expression of all would be too deep."""
        taken = [column.name.strip('"').lower() for column in self.columns]
        number = next(alias for alias in tables.ALIASES if alias not in taken)
        wanted = [shell.shown(column.name) for column in self.columns]
        found = defaultdict(list)
        for at in range(0, len(wanted), 100):
            sql = f"select {', '.join([number] + wanted[at : at + 100])} from {shell.name(self.source)} not indexed;"
            for row, *values in shell.rows(file, sql):
                found[int(row)].extend(values)
        return found

    def rows(self, file):
        """The values of all rows, and how often each row occurs."""
        wanted = ", ".join(shell.shown(column.name) for column in self.columns)
        return Counter(map(tuple, shell.rows(file, f"select {wanted} from {shell.name(self.source)} not indexed;")))


class Stored:
    """A column as a cell stores it, by the name that a select takes."""

    def __init__(self, name, declared, is_row_number=False):
        self.name = name
        self.is_real = tables.is_real(declared.upper())
        self.is_row_number = is_row_number


def trees(file):
    cells, spilled = cells_of(file)
    found = rowid_tables(file, spilled) + keyed_tables(file, spilled) + indexes(file, spilled)
    for tree in found:
        of = cells[tree.name].items()
        tree.cells = {(page, cell): held for (page, cell, leaf), held in of if leaf or not tree.numbered}
    return found


def listed(file, without):
    wanted = f"schema = 'main' and type in ('table', 'shadow') and wr = {without}"
    rows = shell.objects(file, f"select name from pragma_table_list where {wanted} order by name;")
    return [row["name"] for row in rows]


def stored(file, table):
    """Name, declared type and place in the key of the columns that are stored: virtual ones (hidden 2) are not."""
    sql = f"select name, type, pk from pragma_table_xinfo({shell.text(table)}) where hidden in (0, 3) order by cid;"
    return shell.objects(file, sql)


def rowid_tables(file, spilled):
    found = []
    for name in listed(file, 0):
        if name in spilled:
            rows = stored(file, name)
            single = sum(row["pk"] > 0 for row in rows) == 1
            columns = [
                Stored(shell.name(row["name"]), row["type"], single and row["pk"] == 1 and row["type"].upper() == "INTEGER")
                for row in rows
            ]
            found.append(Tree(name, True, columns, name))
    return found


def keyed_tables(file, spilled):
    """WITHOUT ROWID: the key's columns in its order, and then the others."""
    found = []
    for name in listed(file, 1):
        if name in spilled:
            rows = stored(file, name)
            key = sorted((row for row in rows if row["pk"]), key=lambda row: row["pk"])
            order = key + [row for row in rows if not row["pk"]]
            found.append(Tree(name, False, [Stored(shell.name(row["name"]), row["type"]) for row in order], name))
    return found


def indexes(file, spilled):
    """Of all rows and of columns alone: indexes of some rows or of expressions are left out."""
    sql = "select name, tbl_name as source from sqlite_schema where type = 'index' and rootpage > 0 order by name;"
    found = []
    for row in shell.objects(file, sql):
        if row["name"] not in spilled:
            continue
        said = f"select partial from pragma_index_list({shell.text(row['source'])}) where name = {shell.text(row['name'])};"
        of = shell.objects(file, f"select cid, name from pragma_index_xinfo({shell.text(row['name'])}) order by seqno;")
        if shell.objects(file, said)[0]["partial"] or any(column["cid"] == -2 for column in of):
            continue
        declared = {column["name"]: column["type"] for column in stored(file, row["source"])}
        names = [column["name"] if column["cid"] >= 0 else None for column in of]
        columns = [Stored(shell.name(name), declared[name]) if name else Stored("rowid", "integer") for name in names]
        found.append(Tree(row["name"], False, columns, row["source"]))
    return found


def cells_of(file):
    """For each tree its cells, as page, number and whether that is a leaf, with the bytes of their overflow pages; and
    the names of the trees that have such pages.

    An overflow page's path is its page's path, the cell's number of three or more hexadecimal digits, `+` and a count.
    """
    pages, found, spilled = {}, defaultdict(Counter), set()
    rows = shell.rows(file, "select name, pagetype, path, pageno, ncell, payload from dbstat;")
    for name, kind, path, number, cells, _ in rows:
        if kind != "overflow":
            pages[name, path] = int(number), kind == "leaf"
            for cell in range(int(cells)):
                found[name][int(number), cell, kind == "leaf"] = 0
    for name, kind, path, _, _, payload in rows:
        if kind == "overflow":
            above, _, cell = path.partition("+")[0].rpartition("/")
            page, leaf = pages[name, above + "/"]
            found[name][page, int(cell, 16), leaf] += int(payload)
            spilled.add(name)
    return found, spilled
