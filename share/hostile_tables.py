"""Writes a hostile file of DMA tables, at the limit of 64 MiB or of fewer pages: python3 share/hostile_tables.py SHAPE FILE [PAGES]

    shared          the entries of all 65,536 sources refer to one highest table, with a full tree below
    one_context     all buses have one context table
    chains          as many sources as there are pages for have a chain of four tables each
    highest_alone   as many sources as there are pages for have an empty highest table each
    itself          a highest table's first entry refers to it
    empty           one source has a full tree, in which no access gets anywhere
    bad_entries     the same, with a bit set in each entry of the lowest tables that isn't defined
    twice_last      the same, and the last entry of the last table but one refers to the first table of its level again
    outside_last    the same, and that entry refers to a page behind the file
    reaches_last    the same, and the last entry of all lets its source reach a page of memory far above

docs/dma.md has the format. No devices are listed, so a policy without device domains is one that such a file may be asked with.
"""
import struct
import sys

PAGE = 4096
ENTRIES = 512
BUSES = 256
MOST = 16383
FOUR_LEVELS = 2
RIGHTS = 3
# bit 5 of a second-level entry, which isn't defined in the tables that are written here
UNDEFINED = 1 << 5 | RIGHTS
FAR = 1 << 27


class Tables:
    def __init__(self, count):
        self.bytes = bytearray(PAGE * count)
        self.count = count
        self.free = 1

    def table(self):
        """A page that no table has yet."""
        self.free += 1
        return self.free - 1

    def left(self):
        return self.count - self.free

    def put(self, page, index, word):
        struct.pack_into("<Q", self.bytes, PAGE * page + 8 * index, word)

    def refer(self, page, index, below):
        self.put(page, index, PAGE * below | RIGHTS)

    def root(self, bus, context):
        self.put(0, 2 * bus, PAGE * context | 1)

    def context(self, table, devfn, highest):
        self.put(table, 2 * devfn, PAGE * highest | 1)
        self.put(table, 2 * devfn + 1, FOUR_LEVELS)

    def source(self):
        """The context table of bus 0, and the highest table of its first source."""
        context, highest = self.table(), self.table()
        self.root(0, context)
        self.context(context, 0, highest)
        return context, highest

    def below(self, tables):
        """Tables below these, as many as there are pages for, each with the entry that refers to it."""
        made = []
        for table in tables:
            for index in range(ENTRIES):
                if not self.left():
                    return made
                made.append((table, index, self.table()))
                self.refer(*made[-1])
        return made

    def tree(self, highest, lowest=bytes(PAGE)):
        """A tree below a highest table that takes all pages; its lowest tables, each with the entry that refers to it."""
        # 512 of the lowest for each one above them
        parents = self.left() // (ENTRIES + 1) + 1
        second = self.table()
        self.refer(highest, 0, second)
        above = []
        for index in range(parents):
            above.append(self.table())
            self.refer(second, index, above[-1])
        made = self.below(above)
        for _, _, table in made:
            self.bytes[PAGE * table:PAGE * (table + 1)] = lowest
        return made


def contexts(tables):
    """A context table for each bus, by bus."""
    made = [tables.table() for _ in range(BUSES)]
    for bus, context in enumerate(made):
        tables.root(bus, context)
    return made


def shared(tables):
    made, highest = contexts(tables), tables.table()
    for context in made:
        for devfn in range(256):
            tables.context(context, devfn, highest)
    tables.tree(highest)


def one_context(tables):
    context, highest = tables.source()
    for bus in range(BUSES):
        tables.root(bus, context)
    tables.tree(highest)


def each_source(tables, depth):
    """As many sources as there are pages for, each with so many tables, one below the other."""
    made = contexts(tables)
    for source in range(min(65536, tables.left() // depth)):
        table = tables.table()
        tables.context(made[source // 256], source % 256, table)
        for _ in range(depth - 1):
            above, table = table, tables.table()
            tables.refer(above, 0, table)


def itself(tables):
    _, highest = tables.source()
    tables.refer(highest, 0, highest)


def full(tables, lowest=bytes(PAGE)):
    return tables.tree(tables.source()[1], lowest)


def twice_last(tables):
    made = full(tables)
    tables.refer(made[-1][0], made[-1][1], made[0][2])


def outside_last(tables):
    made = full(tables)
    tables.refer(made[-1][0], made[-1][1], FAR)


def reaches_last(tables):
    tables.refer(full(tables)[-1][2], ENTRIES - 1, FAR)


SHAPES = {
    "shared": shared,
    "one_context": one_context,
    "chains": lambda tables: each_source(tables, 4),
    "highest_alone": lambda tables: each_source(tables, 1),
    "itself": itself,
    "empty": full,
    "bad_entries": lambda tables: full(tables, struct.pack("<Q", UNDEFINED) * ENTRIES),
    "twice_last": twice_last,
    "outside_last": outside_last,
    "reaches_last": reaches_last,
}


def hostile(shape, pages=MOST):
    """The bytes of a file of this shape, at least 512 pages of tables."""
    tables = Tables(pages)
    SHAPES[shape](tables)
    return struct.pack("<8sQIB3x", b"MUENDMA1", 0, pages, 0) + bytes(tables.bytes)


def main(words):
    if len(words) not in (2, 3) or words[0] not in SHAPES:
        print(__doc__, file=sys.stderr)
        return 2
    with open(words[1], "wb") as file:
        file.write(hostile(words[0], int(words[2]) if len(words) == 3 else MOST))
    return 0


if __name__ == "__main__":
    sys.exit(main(sys.argv[1:]))
