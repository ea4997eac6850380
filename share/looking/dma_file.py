"""The file of tables by which devices access memory by themselves, after docs/dma.md."""
import struct
from dataclasses import dataclass

from looking.files import MEBIBYTE, read_bytes
from looking.guest import ADDRESSES_END
from looking.image_file import MEMORY_END, PAGE, Bytes
from looking.walk import ENTRIES, MOST_ENTRIES
from looking.wrong import Wrong

ADDRESS_BITS = MEMORY_END - PAGE
RIGHTS = {1: "r", 2: "w", 3: "rw"}
# what is said of an image with devices without its file of tables
NO_TABLES = "DMA tables not given: devices' windows aren't shown"
WIDE_ENTRIES = struct.Struct("<QQ")


@dataclass
class Reach:
    """Addresses of a device, one after another, that lead to memory one after another."""
    address: int
    size: int
    place: int
    rights: str


@dataclass
class Master:
    """A device of the file, by its name and its place on a bus."""
    name: str
    bus: int
    function: int

    @property
    def bus_place(self):
        """Bus, device and function as lspci spells them."""
        return f"{self.bus:02x}:{self.function >> 3:02x}.{self.function & 7}"


@dataclass
class DmaFile:
    """The base, the pages from it on, and the devices."""
    base: int
    pages: list[memoryview]
    masters: list[Master]

    def page(self, address):
        """The page of the tables at this address, or None."""
        number, rest = divmod(address - self.base, PAGE)
        return self.pages[number] if rest == 0 and 0 <= number < len(self.pages) else None


def read_dma(name):
    """The tables in a file of at most 64 MiB (docs/outside.md)."""
    take = Bytes(read_bytes(name, 64 * MEBIBYTE), "dma", name)
    take.want(bytes(take.take(8)) == b"MUENDMA1", "magic")
    base = take.number(8)
    take.want(base % PAGE == 0, "place")
    count = take.within(4, 1, 16384, "pages")
    take.want(base + count * PAGE <= MEMORY_END, "pages")
    devices = take.within(1, 0, 32, "count")
    take.zero(3)
    masters = []
    for number in range(devices):
        take.part = f"device {number}"
        own = take.name()
        take.want(own not in [one.name for one in masters], "name")
        masters.append(Master(own, take.number(1), take.number(1)))
        take.zero(2)
    take.part = "the pages"
    content = take.take(count * PAGE)
    take.part = "the end"
    take.end()
    pages = [content[at:at + PAGE] for at in range(0, len(content), PAGE)]
    return DmaFile(base, pages, masters)


def is_root(file, bus):
    """Whether the root entry of a bus is one that is present."""
    low, high = WIDE_ENTRIES.unpack_from(file.page(file.base), 16 * bus)
    return low & ~ADDRESS_BITS == 1 and high == 0


def context_table(file, bus):
    """The context table of a bus, or None."""
    low, _ = WIDE_ENTRIES.unpack_from(file.page(file.base), 16 * bus)
    return file.page(low & ADDRESS_BITS) if is_root(file, bus) else None


def context_entries(file):
    """Of each bus and function that has a context entry: the entry's two halves."""
    for bus in range(256):
        context = context_table(file, bus)
        for function in range(256 if context else 0):
            entry = WIDE_ENTRIES.unpack_from(context, 16 * function)
            if entry[0] & 1:
                yield (bus, function), entry


def domain_of(entry):
    """The number of the domain of a context entry, and its highest table; None where a bit is set
    that the table of docs/dma.md hasn't, or it has no four levels."""
    low, high = entry
    if low & ~(ADDRESS_BITS | 1) or high & ~0xffff07 or high & 7 != 2:
        return None
    return (high >> 8 & 0xffff) - 1, low & ADDRESS_BITS


def led(file, name, address, right="w"):
    """Where a write of the device of this name, or with `r` a read, comes to by an address of its own, and None; or None,
    and why it comes nowhere (docs/dma.md, What is told of a line)."""
    if file is None:
        return None, "no tables"
    master = next((one for one in file.masters if one.name == name), None)
    if master is None:
        return None, "no device"
    if address >= ADDRESSES_END:
        return None, "too high"
    table, why = highest_table(file, master)
    for level in (3, 2, 1, 0):
        page = None if why else file.page(table)
        if page is None:
            return None, why or "no table"
        entry = ENTRIES.unpack(page)[address // (PAGE << 9 * level) % 512]
        if not entry & 3:
            return None, "not present"
        if entry & ~(ADDRESS_BITS | 3):
            return None, "bad entry"
        if right not in RIGHTS[entry & 3]:
            return None, "no right"
        table = entry & ADDRESS_BITS
    return table + address % PAGE, None


def highest_table(file, master):
    """The highest table of a device, and None; or None, and why there is none."""
    low, _ = WIDE_ENTRIES.unpack_from(file.page(file.base), 16 * master.bus)
    if not low & 1:
        return None, "no table"
    if not is_root(file, master.bus):
        return None, "bad entry"
    context = context_table(file, master.bus)
    entry = WIDE_ENTRIES.unpack_from(context, 16 * master.function) if context else (0, 0)
    if not entry[0] & 1:
        return None, "no table"
    domain = domain_of(entry)
    return (domain[1], None) if domain else (None, "bad entry")


def domains_of(file):
    """Of each domain that has devices its number, their names, and what they reach."""
    known = {(master.bus, master.function): master.name for master in file.masters}
    found = {}
    for key, entry in context_entries(file):
        if key in known and (domain := domain_of(entry)):
            found.setdefault(domain, []).append(known[key])
    return [(number, names, Reaches(file, table, names[0]).found) for (number, table), names in sorted(found.items())]


class Reaches:
    """What a device reaches by its highest table."""

    def __init__(self, file, table, name):
        self.file, self.name, self.found, self.entries = file, name, [], 0
        self.walk(table, 3, 0, 3)

    def walk(self, table, level, address, rights):
        """Goes through a table, as the file has it."""
        page = self.file.page(table)
        for at, value in enumerate(ENTRIES.unpack(page) if page else ()):
            if not value & 3 or value & ~(ADDRESS_BITS | 3):
                continue
            self.entries += 1
            if self.entries > MOST_ENTRIES:
                raise Wrong(f"the tables of {self.name} have more than {MOST_ENTRIES} entries on all ways")
            here = address + at * (PAGE << 9 * level)
            if level:
                self.walk(value & ADDRESS_BITS, level - 1, here, rights & value)
            elif rights & value:
                self.join(here, value & ADDRESS_BITS, RIGHTS[rights & value & 3])

    def join(self, address, place, rights):
        """Neighbours that go on alike are one."""
        last = self.found[-1] if self.found else None
        if last and (last.address + last.size, last.place + last.size, last.rights) == (
                address, place, rights):
            last.size += PAGE
        else:
            self.found.append(Reach(address, PAGE, place, rights))
