"""Lists of addresses for a screenful: page, from 1 on, cell and column.

`pages` are those of a database in their order: the number, how many cells it has, and how many columns its first one.
"""
MOST = 200
FAR_PAGES = (0, 1 << 16, 1 << 31, (1 << 32) - 2, (1 << 32) - 1)
FAR = (1 << 16, 1 << 31, 1 << 32, (1 << 63) - 1, 1 << 63, (1 << 64) - 2, (1 << 64) - 1)


def rows_from(r, pages, at, count):
    """So many rows that follow each other, from some row of a page on."""
    first = r.randrange(pages[at][1] + 1)
    found = []
    for page, cells, _ in pages[at:]:
        found += [(page, cell) for cell in range(first, cells)]
        if len(found) >= count:
            break
        first = 0
    return found[:count]


def screen(r, pages):
    """Rows with the same columns, row by row, as a screen has them; now and then column by column, or from below."""
    at = r.randrange(len(pages))
    has = pages[at][2]
    first = r.choice((0, 0, 0, 1, r.randrange(has + 1)))
    columns = range(first, first + r.choice((1, max(1, has - first), r.randrange(1, 9))))
    found = [(*row, column) for row in rows_from(r, pages, at, r.randrange(1, 41)) for column in columns]
    order = r.randrange(8)
    if order == 0:
        found.sort(key=lambda address: address[2])
    return found[::-1] if order == 1 else found


def anywhere(r, pages):
    """A value that may be there, or its address with one part changed: near, far, or so that only the lower bits are right."""
    page, cells, has = r.choice(pages)
    cell, column = r.randrange(cells + 1), r.randrange(has + 1)
    odd = r.randrange(12)
    if odd == 0:
        return r.choice((*FAR_PAGES, page + 1, page + 40)), cell, column
    if odd == 1:
        return page, r.choice((*FAR, cells, cells + 1, cell + (1 << 32), cell + (1 << 16))), column
    if odd == 2:
        return page, cell, r.choice((*FAR, column + (1 << 32), column + (1 << 16)))
    return page, cell, column


def scattered(r, pages):
    return [anywhere(r, pages) for _ in range(r.choice((0, 1, 2, 30, r.randrange(MOST + 1))))]


def mixed(r, pages):
    """A screen in which some addresses are others, and some stand twice."""
    found = screen(r, pages)
    for _ in range(r.randrange(20)):
        at = r.randrange(len(found) + 1)
        found[at : at + r.randrange(2)] = [r.choice(found) if found and r.randrange(2) else anywhere(r, pages)]
    return found


def some(r, pages):
    return r.choice((screen, screen, mixed, mixed, scattered))(r, pages)[:MOST]


def counted(addresses, from_0):
    """The same with pages counted from 0, as the old reading does."""
    return [((page - 1) % (1 << 32), cell, column) for page, cell, column in addresses] if from_0 else addresses
