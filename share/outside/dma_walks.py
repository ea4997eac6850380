"""Two walks of tables by which devices access memory: as docs/dma.md has it, and as VT-d's manual has it for the
unit that QEMU shows (legacy mode, 48 bits, leaves of 2 MiB and 1 GiB, pass-through, no snoop control)."""
import struct

from domains import INTERRUPTS, NO_CONTEXT, NO_READ, NO_ROOT, NO_WRITE, PAGE

LEVELS = (39, 30, 21, 12)
OURS = (1 << 40) - PAGE
ADDRESS = (1 << 48) - PAGE
# More reasons of fault records: entries that may not be so, tables that can't be read, bits that are reserved.
BEYOND, BAD_CONTEXT, NO_TABLE, NO_CONTEXT_TABLE = 4, 3, 7, 9
ROOT_BITS, CONTEXT_BITS, PAGING_BITS, OF_INTERRUPT = 10, 11, 12, 14
# These are recorded although the context entry says that no faults are; that the last one is, is QEMU's answer.
NEVER_QUIET = {NO_ROOT, NO_CONTEXT_TABLE, ROOT_BITS, CONTEXT_BITS}
READ, WRITE, GREAT, QUIET = 1, 2, 1 << 7, 2
HIGH_BITS = 0xF << 48 | 1 << 62
NOTHING = (1 << 64) - 1


def ours(read, inside, source, address, write):
    """Where docs/dma.md's walk leads, or None; `inside` says which tables are the file's."""
    low, high = read(inside.start + 16 * (source >> 8), 2)
    if not low & 1 or low & ~(OURS | 1) or high or low & OURS not in inside:
        return None
    low, high = read((low & OURS) + 16 * (source & 255), 2)
    if not low & 1 or low & ~(OURS | 1) or high & 7 != 2 or high & ~0xFF_FF07 or address >> 48:
        return None
    table = low & OURS
    for shift in LEVELS:
        if table not in inside:
            return None
        entry = read(table + 8 * (address >> shift & 511), 1)[0]
        if not entry & (WRITE if write else READ) or entry & ~(OURS | 3):
            return None
        table = entry & OURS
    return table + address % PAGE


class Manual:
    """The manual's walk over memory: `read` answers numbers of eight bytes at a place, or None where nothing is."""

    def __init__(self, read, base):
        self.read, self.base = read, base

    def walk(self, source, address, write):
        """(reason that is recorded or None, place or None). Both are None where nothing is recorded of a fault."""
        reason, found = self.context(source)
        quiet = False
        if reason is None:
            low, high = found
            quiet = low & QUIET
            reason, place = self.paging(low, high & 7, address, write)
            if reason is None:
                return None, place
        return (None if quiet and reason not in NEVER_QUIET else reason), None

    def context(self, source):
        """(reason, context entry)."""
        low, high = self.read(self.base + 16 * (source >> 8), 2)
        if not low & 1:
            return NO_ROOT, None
        if low & ~(ADDRESS | 1) or high:
            return ROOT_BITS, None
        entry = self.read((low & ADDRESS) + 16 * (source & 255), 2)
        if entry is None:
            return NO_CONTEXT_TABLE, None
        if not entry[0] & 1:
            return NO_CONTEXT, None
        if entry[0] & ~(ADDRESS | 0xF) or entry[1] & ~0xFF_FF7F:
            return CONTEXT_BITS, None
        return None, entry

    def paging(self, low, width, address, write):
        """(reason, place) by a context entry with this width."""
        kind = low >> 2 & 3
        if width not in (1, 2) or kind not in (0, 2):
            return BAD_CONTEXT, None
        if kind == 2:
            return None, address
        if address >> 30 + 9 * width:
            return BEYOND, None
        table, first = low & ADDRESS, 2 - width
        for level in range(4 - first, 0, -1):
            shift = 3 + 9 * level
            found = self.read(table + 8 * (address >> shift & 511), 1)
            if found is None or found[0] == NOTHING:
                # QEMU's answers: that all bits set are as what can't be read, and another reason of the highest table
                return BAD_CONTEXT if level == 4 - first else NO_TABLE, None
            entry = found[0]
            if not entry & (WRITE if write else READ):
                return NO_WRITE if write else NO_READ, None
            great = level == 1 or entry & GREAT
            if entry & reserved(level, great):
                return PAGING_BITS, None
            table = entry & ADDRESS
            if great:
                return self.leaf(table >> shift << shift, 1 << shift, address)
        raise AssertionError

    @staticmethod
    def leaf(place, size, address):
        """(reason, place) of a leaf."""
        if place < INTERRUPTS[1] and place + size > INTERRUPTS[0]:
            return OF_INTERRUPT, None
        return None, place + address % size


def reserved(level, great):
    """The bits that an entry of a level may not have."""
    bits = HIGH_BITS | 1 << 11
    if level == 4:
        return bits | GREAT
    if great and level > 1:
        return bits | (1 << 3 + 9 * level) - PAGE
    return bits


def reader(content, start):
    """Reads numbers of bytes that begin at a place."""
    return lambda place, count: struct.unpack_from(f"<{count}Q", content, place - start)
