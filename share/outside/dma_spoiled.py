"""The judge's own test of devices' access: one entry of QEMU's tables is changed, and that has to be seen."""
import pathlib
import random
import struct
from dataclasses import dataclass

import bus
import dma_questions
import domains
from domains import PAGE

POLICY = pathlib.Path(__file__).resolve().parent / "domains.json"
ADDRESS = (1 << 52) - PAGE
READ, WRITE, GREAT = 1, 2, 1 << 7
NIC, DISK, SECOND, APART = 0x003 << 3, 0x511, 0x512, 0x538


@dataclass
class Spoil:
    """Eight bytes of the tables with other bits: where, and which."""

    name: str
    place: int
    flip: int


class Tables:
    """The tables' bytes, by physical address."""

    def __init__(self, made):
        self.made = made

    def entry(self, place):
        """The eight bytes at a place."""
        return struct.unpack_from("<Q", self.made.tables, place - self.made.base)[0]

    def root(self, source):
        """The place of a bus's entry."""
        return self.made.base + 16 * (source >> 8)

    def context(self, source):
        """The place of a device's entry."""
        return (self.entry(self.root(source)) & ADDRESS) + 16 * (source & 255)

    def way(self, source, address):
        """The places of the entries of the four levels on the way to an address."""
        table = self.entry(self.context(source)) & ADDRESS
        for low in (39, 30, 21, 12):
            place = table + 8 * (address >> low & 511)
            yield place
            table = self.entry(place) & ADDRESS


def spoils(made):
    """Each kind of spoiled tables."""
    tables = Tables(made)
    ring, shown = list(tables.way(NIC, 0x1000)), list(tables.way(NIC, 0x80_0000_0000))
    blocks, nic, disk = list(tables.way(DISK, 0x4020_0000)), tables.context(NIC), tables.context(DISK)
    yield Spoil("a right more: write", shown[3], WRITE)
    yield Spoil("a right less: write", ring[3], WRITE)
    yield Spoil("a right less: read", ring[3], READ)
    for level, place in zip((4, 3, 2), ring):
        yield Spoil(f"a right less in a table of level {level}: write", place, WRITE)
    yield Spoil("another page", blocks[3], 1 << 12)
    yield Spoil("a page far away", blocks[3], 1 << 22)
    yield Spoil("an absent entry made a leaf", ring[3] + 16, tables.entry(ring[3]))
    for level, place in zip((4, 3, 2), blocks):
        yield Spoil(f"an entry of level {level} doubled", place + 8, tables.entry(place))
        yield Spoil(f"an entry of level {level} cleared", place, tables.entry(place))
    yield Spoil("a leaf of 2 MiB", blocks[2], GREAT)
    yield Spoil("a bit that is reserved: level 4", ring[0], GREAT)
    yield Spoil("a bit that is reserved: a leaf", ring[3], 1 << 11)
    yield Spoil("a bit that is reserved: root", tables.root(NIC), 2)
    yield Spoil("a bit that is reserved: context", nic, 1 << 4)
    yield Spoil("a root entry cleared", tables.root(DISK), 1)
    yield Spoil("a root entry added", tables.root(0x100), tables.entry(tables.root(DISK)))
    yield Spoil("a context entry cleared", disk, 1)
    yield Spoil("a context entry of another domain", disk, (tables.entry(disk) ^ tables.entry(nic)) & ADDRESS)
    yield Spoil("a context entry of three levels", disk + 8, 3)
    yield Spoil("a context entry that passes through", disk, 1 << 3)
    yield Spoil("a context entry that records no faults", disk, 2)


def accesses(made, sources, draw):
    """What is asked of each spoiled table: windows and what is beside them."""
    for source in sources:
        domain = made.by_source.get(source)
        windows = domain.windows if domain else [one for other in made.domains for one in other.windows]
        for window in windows:
            near = dict.fromkeys(dma_questions.near(window, draw))
            beside = [(window.address + far, 8) for far in (1 << 21, 1 << 30, 1 << 39)]
            yield from (dma_questions.Access(source, *one) for one in [*near, *beside]
                        if dma_questions.can_be_asked(*one))


def answers(machine, made, spoil, sources, draw):
    """How many accesses differ with spoiled tables."""
    machine.translate()
    machine.ram.clear()
    asking = dma_questions.Asking(machine, made, draw)
    asking.lay()
    if spoil:
        old = struct.unpack("<Q", machine.ram.read(spoil.place, 8))[0]
        asking.put(spoil.place, struct.pack("<Q", old ^ spoil.flip))
    machine.forget()
    asked = list(accesses(made, sources, draw))
    for access in asked:
        asking.write(access)
    if not asking.counts.differ:
        # what was written may have changed the tables
        asking.seed()
        asking.reads(asked)
    return len(asking.counts.differ)


def asked(program, folder, seed):
    """The part: of each spoil how many accesses differ; of None, unspoiled, none may."""
    made, draw = domains.made(program, POLICY, folder), random.Random(seed)
    sources = [NIC, DISK, SECOND, APART, 0x110]
    with bus.Bus(folder, sources, bus.ram_bytes(made.spans())) as machine:
        seen = {"nothing": answers(machine, made, None, sources, draw)}
        for spoil in spoils(made):
            seen[spoil.name] = answers(machine, made, spoil, sources, draw)
    return seen
