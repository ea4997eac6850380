"""Damaged entries of tables by which devices access memory: `run` has to do what docs/dma.md's walk says, and QEMU
what the manual's says.

A policy with 31 domains on 31 buses has 31 damages at once. Each device writes once and reads once.
"""
import json
import random
import struct
from dataclasses import dataclass

import bus
import dma_questions
import dma_walks
import domains
import runs
from domains import PAGE

DOMAINS, WINDOW, RAM = 31, 0x4020_3000, 0x100_0000


@dataclass(frozen=True)
class Damage:
    """Eight bytes of the tables with another value, on the way of a device."""

    source: int
    place: int
    new: int


def policy():
    """A policy with a domain on each of 31 buses, each with a window of two pages."""
    numbers = range(DOMAINS)
    subject = {"name": "one", "cpu": 0, "entry": 0x40_0000,
               "memory": [{"region": "code", "virtualAddress": 0x40_0000, "rights": "rx"}]}
    return {"processor": {"logicalCpus": 1},
            "memoryBlocks": [{"name": "low", "physicalAddress": 0, "size": 0x9_0000},
                             {"name": "ram", "physicalAddress": RAM, "size": 0x20_0000}],
            "devices": [{"name": f"device{i}", "bdf": {"bus": 1 + i, "device": i, "function": i % 8}} for i in numbers],
            "memory": [{"name": "code", "size": PAGE, "content": {"hex": "1700000000000000"}},
                       *({"name": f"region{i}", "size": 2 * PAGE} for i in numbers)],
            "subjects": [subject],
            "scheduling": {"groups": [{"name": "g", "cpu": 0, "subjects": ["one"]}], "majorFrames": [
                {"cpus": [{"cpu": 0, "minorFrames": [{"group": "g", "ticks": 10}]}]}]},
            "deviceDomains": [{"name": f"domain{i}", "devices": [f"device{i}"], "memory": [
                {"region": f"region{i}", "virtualAddress": WINDOW, "rights": "rw"}]} for i in numbers]}


def way(made, source):
    """The places of the numbers on a device's way: of both entries of 16 bytes, and of the four levels."""
    read = dma_walks.reader(made.tables, made.base)
    root = made.base + 16 * (source >> 8)
    context = (read(root, 1)[0] & dma_walks.ADDRESS) + 16 * (source & 255)
    yield from (root, root + 8, context, context + 8)
    table = read(context, 1)[0] & dma_walks.ADDRESS
    for shift in dma_walks.LEVELS:
        place = table + 8 * (WINDOW >> shift & 511)
        yield place
        table = read(place, 1)[0] & dma_walks.ADDRESS


def values(old, made, draw):
    """Other values of eight bytes: each bit, bits of chance, other pages, all bits."""
    yield from (old ^ 1 << bit for bit in range(64))
    for _ in range(24):
        yield old ^ 1 << draw.randrange(64) ^ 1 << draw.randrange(64) ^ 1 << draw.randrange(16)
    for start, size in ((made.base, len(made.tables)), (0, RAM), (RAM, 0x20_0000)):
        for _ in range(8):
            yield old & ~dma_walks.ADDRESS | draw.randrange(start, start + size) // PAGE * PAGE
    yield (1 << 64) - 1


def damages(made, draw, count):
    """So many damages, each of the next device's way, all kinds of them equally often."""
    read = dma_walks.reader(made.tables, made.base)
    kinds = []
    for at, place in enumerate(way(made, min(made.names))):
        kinds += [(at, value) for value in range(len(list(values(0, made, draw))))]
    draw.shuffle(kinds)
    sources = sorted(made.names)
    for i, (at, number) in enumerate(kinds[:count]):
        source = sources[i % len(sources)]
        place = list(way(made, source))[at]
        new = list(values(read(place, 1)[0], made, draw))[number]
        # there are the devices' own registers
        if not bus.FIRST_WINDOW <= new & dma_walks.ADDRESS < bus.HIGH:
            yield Damage(source, place, new)


class Damaged(dma_questions.Asking):
    """A machine whose tables are damaged: what is expected is what the manual's walk says."""

    def numbers(self, place, count):
        """Numbers of eight bytes at a place of memory, or None where there is no memory."""
        if place + 8 * count > self.bus.ram.size:
            return None
        return struct.unpack(f"<{count}Q", self.memory.read(place, 8 * count))

    def expected(self, access, write):
        """As of a sound machine, but by the manual's walk; what leads out of memory goes nowhere."""
        reason, place = dma_walks.Manual(self.numbers, self.made.base).walk(access.source, access.address, write)
        if reason is not None:
            return bus.Fault(reason, access.source, access.address & ~(PAGE - 1), not write), []
        if place is None or place + access.size > self.bus.ram.size:
            return None, []
        return None, [(place, access.size, 0)]

    def damage(self, damaged):
        """Lays all anew, with these damages. Translation stays on: turning it takes long with so many devices."""
        self.bus.ram.clear()
        self.memory = dma_questions.Memory()
        self.lay_memory()
        for one in damaged:
            self.put(one.place, struct.pack("<Q", one.new))
        self.bus.forget()

    def read_all(self, accesses, damaged):
        """Lets each device read once by damaged tables, and write what it found by sound ones."""
        self.damage(damaged)
        self.seed()
        found = [(access, self.read(access, 0)) for access in accesses]
        self.damage([])
        for access, content in found:
            self.bus.move(access.source, bus.OUTWARD, WINDOW, 0, access.size)
            self.buffers[access.source] = content + self.buffers[access.source][access.size:]
            place = self.made.by_source[access.source].windows[0].place
            if self.bus.ram.read(place, access.size) != content:
                self.differs(access, "reads other bytes")


def lines_of(made, damaged, draw):
    """What each device writes, and the lines of a record."""
    accesses = [dma_questions.Access(one.source, WINDOW + 8 * draw.randrange(512), 8) for one in damaged]
    tags = [draw.randbytes(8) for _ in damaged]
    return accesses, [(access, tag, f"dma 0 {made.names[access.source]} {access.address} {tag.hex()}")
                      for access, tag in zip(accesses, tags)]


def hold_run(asking, program, damaged, told, folder):
    """Holds what `run` does with the lines against docs/dma.md's walk."""
    made, tables = asking.made, bytearray(asking.made.tables)
    for one in damaged:
        struct.pack_into("<Q", tables, one.place - made.base, one.new)
    dma = made.dma[:len(made.dma) - len(tables)] + bytes(tables)
    memory, inside = made.image.memory(), range(made.base, made.base + len(tables), PAGE)
    for access, tag, _ in told:
        place = dma_walks.ours(dma_walks.reader(tables, made.base), inside, access.source, access.address, True)
        if place is not None and any(low <= place < high for low, high in made.spans()[:-1]):
            memory.write(place, tag)
    printed = domains.digests(program, domains.stilled(made), dma, [line for *_, line in told], folder)
    asking.counts.asked["lines"] = asking.counts.asked.get("lines", 0) + len(told)
    for name, (place, size) in made.regions.items():
        if printed.get(name) != runs.digest(memory.read(place, size)):
            asking.counts.differ.append(f"run leaves other bytes in {name}")


def asked(program, folder, seed, count):
    """The part: so many damages."""
    path, draw = folder / "many.json", random.Random(seed)
    path.write_text(json.dumps(policy()))
    made = domains.made(program, path, folder)
    left = list(damages(made, draw, count))
    with bus.Bus(folder, sorted(made.names), bus.ram_bytes([*made.spans(), (0, 4 * RAM)])) as machine:
        asking = Damaged(machine, made, draw)
        asking.lay()
        while left:
            damaged, left = left[:DOMAINS], left[DOMAINS:]
            accesses, told = lines_of(made, damaged, draw)
            hold_run(asking, program, damaged, told, folder)
            asking.damage(damaged)
            for access in accesses:
                asking.write(access)
            asking.look_through()
            asking.read_all(accesses, damaged)
        return asking.counts
