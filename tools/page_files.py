"""Writes database files, by docs/FILE_FORMAT.md alone."""

PAGE = 4096
LEAF, INNER, FREE = 1, 2, 3
NOT_NULL, PRIMARY_KEY, UNIQUE, CHECK, FOREIGN_KEY = 1, 2, 3, 4, 5


def two(value):
    return value.to_bytes(2, "big")


def four(value):
    return value.to_bytes(4, "big")


def row_of(values):
    """The code of a row."""
    parts = []
    for value in values:
        if value is None:
            parts.append(b"\0")
        elif isinstance(value, int):
            parts.append(b"\1" + value.to_bytes(8, "big", signed=True))
        else:
            parts.append(b"\2" + two(len(value)) + value.encode("ascii"))
    return b"".join(parts)


def key_of(values):
    """The code of a key, without a row number."""
    parts = []
    for value in values:
        if value is None:
            parts.append(b"\0")
        elif isinstance(value, int):
            parts.append(b"\1" + (value + 2 ** 63).to_bytes(8, "big"))
        else:
            parts.append(b"\2" + value.encode("ascii") + b"\0")
    return b"".join(parts)


def row_number(number):
    return number.to_bytes(8, "big")


def leaf_cell(key, value):
    return two(len(key)) + key + value


def inner_cell(key, child):
    return two(len(key)) + key + four(child)


def page_of(kind, link, cells):
    """A page with these cells, one below another from its end."""
    page = bytearray(PAGE)
    at = PAGE
    for slot, cell in enumerate(cells):
        at -= len(cell)
        page[at:at + len(cell)] = cell
        page[16 + 4 * slot:20 + 4 * slot] = two(at) + two(len(cell))
    page[0] = kind
    page[2:4] = two(len(cells))
    page[4:6] = two(at)
    page[8:12] = four(link)
    assert 16 + 4 * len(cells) <= at, "the cells do not fit"
    return page


def header_of(count, first_free, catalogue):
    page = bytearray(PAGE)
    page[0:20] = b"RSQLPG02" + four(count) + four(first_free) + four(catalogue)
    return page


def first_format(data):
    """The same file in format 1, which has no journal."""
    return b"RSQLPG01" + data[8:]


def journaled(old, new):
    """A file whose places have one version, and whose open gate stands before the journal of another: its pages that
    differ, page 0 among them."""
    count = int.from_bytes(new[8:12], "big")
    pages = [new[at:at + PAGE] for at in range(0, count * PAGE, PAGE)]
    changed = [at for at, page in enumerate(pages) if at == 0 or page != old[at * PAGE:(at + 1) * PAGE]]
    data = bytearray(old[:count * PAGE].ljust(count * PAGE, b"\0"))
    data[20:25] = four(count) + b"\1"
    data += b"".join(map(four, changed)).ljust(PAGE, b"\xff")
    return bytes(data) + b"".join(pages[at] for at in changed)


class Table:
    """A table to be written. Constraints are (name, sort, detail), the detail a text, places, or of a foreign key its places, the table and the places there; indexes are (name or None, place of the owner or 0, places); rows stand by their numbers."""

    def __init__(self, name, columns, rows=None, constraints=(), indexes=()):
        self.name, self.columns, self.rows = name, columns, rows or {}
        self.constraints, self.indexes = constraints, indexes

    def records(self, root, index_roots):
        """The entries of the catalogue for this table, whose trees are at these roots."""
        rows = [(0, 0, [root])]
        rows += [(1, place, [name, width]) for place, (name, width) in enumerate(self.columns)]
        rows += [(2, place, [name, sort, *details_of(sort, detail)]) for place, (name, sort, detail) in enumerate(self.constraints, 1)]
        rows += [(3, place, [name, owner, root, places_of(columns)]) for place, ((name, owner, columns), root) in enumerate(zip(self.indexes, index_roots), 1)]
        return [(key_of([self.name, kind, place]), row_of(row)) for kind, place, row in rows]


def places_of(columns):
    return ",".join(map(str, columns))


def details_of(sort, detail):
    """The values behind the sort in a constraint's record."""
    if sort == FOREIGN_KEY:
        own, table, there = detail
        return [places_of(own), table, places_of(there)]
    return [detail if sort == CHECK else places_of(detail)]


class Writer:
    """A file in the making. `most` is how many cells a page may have; None is as many as fit."""

    def __init__(self, most=None):
        self.most = most
        self.pages = [header_of(1, 0, 0)]

    def add(self, page):
        self.pages.append(page)
        return len(self.pages) - 1

    def has_room(self, cells, cell):
        if self.most is not None and len(cells) >= self.most:
            return False
        return sum(map(len, cells)) + len(cell) + 4 * (len(cells) + 1) <= PAGE - 16

    def tree(self, entries):
        """Writes a tree of entries in the order of their keys, and gives its root."""
        if not entries:
            return 0
        groups = [[]]
        for key, value in entries:
            if not self.has_room([leaf_cell(*entry) for entry in groups[-1]], leaf_cell(key, value)):
                groups.append([])
            groups[-1].append((key, value))
        first = len(self.pages)
        nodes = []
        for place, group in enumerate(groups):
            link = first + place + 1 if place + 1 < len(groups) else 0
            nodes.append((group[0][0], self.add(page_of(LEAF, link, [leaf_cell(*entry) for entry in group]))))
        while len(nodes) > 1:
            nodes = self.level(nodes)
        return nodes[0][1]

    def level(self, nodes):
        """Writes the inner pages over these children, each with its least key."""
        groups = [[]]
        for key, child in nodes:
            cells = [inner_cell(*node) for node in groups[-1][1:]]
            if groups[-1] and not self.has_room(cells, inner_cell(key, child)):
                groups.append([])
            groups[-1].append((key, child))
        if len(groups[-1]) == 1:
            groups[-1].insert(0, groups[-2].pop())
        return [(group[0][0], self.add(page_of(INNER, group[0][1], [inner_cell(*node) for node in group[1:]]))) for group in groups]

    def table(self, table):
        """Writes the trees of a table, and gives its records."""
        rows = sorted(table.rows.items())
        root = self.tree([(row_number(number), row_of(row)) for number, row in rows])
        roots = []
        for _, _, columns in table.indexes:
            entries = sorted(key_of([row[column] for column in columns]) + row_number(number) for number, row in rows)
            roots.append(self.tree([(key, b"") for key in entries]))
        return table.records(root, roots)

    def free(self, count):
        """Writes free pages, and gives the first."""
        first = len(self.pages)
        for place in range(count):
            self.add(page_of(FREE, first + place + 1 if place + 1 < count else 0, []))
        return first if count else 0


def file_of(tables, free=0, most=None):
    """A file with these tables, and so many free pages."""
    writer = Writer(most)
    records = sorted(record for table in tables for record in writer.table(table))
    catalogue = writer.tree(records)
    first_free = writer.free(free)
    writer.pages[0] = header_of(len(writer.pages), first_free, catalogue)
    return b"".join(map(bytes, writer.pages))
