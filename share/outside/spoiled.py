"""The judge's own test: one byte or two of what the emulator is given is changed, and that has to be seen."""
import struct
from dataclasses import dataclass

import damage
import emulator
import questions
import small

PAGE = 4096
WRITE, EXECUTE, LEAF = 2, 4, 1 << 7
TYPES = 7 << 3
MEMORY, AREAS = ("memory",), ("areas",)
PART = 0x1000


@dataclass
class Spoil:
    """A number of eight bytes with other bits, and what is asked then: words and numbers."""

    name: str
    place: int
    flip: int
    want: tuple


def leaf(base, memory, address):
    """The place of the entry that maps an address, or where the way to it ends."""
    return list(damage.path(memory, base.control.eptp, address))[-1][1]


def above(base, memory, address):
    """The place of the entry that leads to the last table on the way to an address."""
    return list(damage.path(memory, base.control.eptp, address))[-2][1]


def bit_of(page, number):
    """The place of the eight bytes that have a bit of a bitmap, and that bit in them."""
    return page + number // 64 * 8, 1 << number % 64


def spoils(base, memory):
    """Each kind of spoiled image."""
    window = {name: next(one for one in base.subject.windows if one.place == base.places[name]).guest
              for name in ("near", "read", "run", "pool")}
    absent = leaf(base, memory, window["near"] + 9 * PAGE)
    yield Spoil("a right more: write", leaf(base, memory, window["read"]), WRITE, MEMORY)
    yield Spoil("a right more: execute", leaf(base, memory, window["near"]), EXECUTE, MEMORY)
    yield Spoil("a right less: write, in the PML4 table", base.control.eptp & ~0xFFF, WRITE, MEMORY)
    yield Spoil("another place: a page", leaf(base, memory, window["near"]), PAGE, MEMORY)
    yield Spoil("another place: 2 MiB", leaf(base, memory, window["pool"]), 0x200000 ^ 0x400000, MEMORY)
    yield Spoil("an absent entry made a leaf", absent, base.places["data"] | 0x37, MEMORY)
    yield Spoil("a page size bit set", above(base, memory, window["near"]), LEAF, MEMORY)
    yield Spoil("a page size bit cleared", leaf(base, memory, window["pool"]), LEAF, MEMORY)
    yield Spoil("an invalid memory type", leaf(base, memory, window["run"]), (6 ^ 7) << 3 & TYPES, MEMORY)
    for name, port in (("A, set", 0x3FA), ("A, cleared", 0x5155), ("B, set", 0x8001), ("B, cleared", 0xA0A3)):
        yield Spoil(f"I/O bitmap {name}", *bit_of(base.control.ports, port), ("ports", port // PART * PART))
    for part, way, first in ((0, "rdmsr", 0), (1, "rdmsr", 0xC0000000), (2, "wrmsr", 0), (3, "wrmsr", 0xC0000000)):
        name = f"{way} {'high' if first else 'low'}"
        for kind, index in (("set", 0x82 if first else 0x175), ("cleared", 0x1230 + part)):
            yield Spoil(f"MSR bitmap {name}, {kind}", *bit_of(base.control.msr_bitmap, part * 0x2000 + index),
                        ("MSRs", way, first))
    yield Spoil("an index of the MSR area", base.control.area, 0x174 ^ 0x175, AREAS)


def ask(sheet, base, host, spoil):
    """The questions that may see a spoiled byte."""
    first, (topic, *more) = len(sheet.asked), spoil.want
    others = [one for one in base.subjects if one is not base.subject]
    if topic == "memory":
        questions.ask_memory(sheet, base.subject, others, base.image.spans, host, True, True)
    elif topic == "ports":
        questions.scan_ports(sheet, base.subject, "ins", 1, *more, PART)
    elif topic == "MSRs":
        questions.scan_msrs(sheet, base.subject, *more, 0x2000)
    else:
        questions.ask_area(sheet, base.subject, base.control)
    sheet.asked[first:] = [((spoil.name, words), expected) for (_, words), expected in sheet.asked[first:]]


def asked(program, folder):
    """The part: of each spoil how many answers differ, and first, unspoiled, that none does."""
    base = small.Small(program, folder)
    memory, sheet = base.memory(), questions.Sheet()
    host = questions.host_of(base.subject, base.window)
    spoiled = list(spoils(base, memory))
    sheet.begin(**base.fields(host))
    for want in {spoil.want for spoil in spoiled}:
        ask(sheet, base, host, Spoil("nothing", 0, 0, want))
    for spoil in spoiled:
        old = struct.unpack("<Q", memory.read(spoil.place, 8))[0]
        sheet.tell(emulator.POKE, size=8, place=spoil.place, value=old ^ spoil.flip)
        ask(sheet, base, host, spoil)
        sheet.tell(emulator.POKE, size=8, place=spoil.place, value=old)
    counts = questions.compare(sheet, base.ask(memory, sheet.packed))
    seen = {spoil.name: 0 for spoil in [Spoil("nothing", 0, 0, ()), *spoiled]}
    for name, _ in counts.differ:
        seen[name] += 1
    return seen
