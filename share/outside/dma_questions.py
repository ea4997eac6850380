"""What devices are asked, and what has to come of it: by what a policy declares, and by the digests of `run`."""
import random
from dataclasses import dataclass, field

import bus
import domains
import runs
from domains import ADDRESSES, INTERRUPTS, PAGE
from emulator import Memory

LAST = (1 << 64) - 2 * PAGE
# Of a window with more pages some are asked; so many addresses are drawn for each device.
MOST_PAGES, DRAWN = 64, 64
SIZES = (2, 3, 4, 5, 7, 9, 16, 31, 32, 33, 63, 64)


@dataclass(frozen=True)
class Access:
    """Bytes from an address on that a device accesses."""

    source: int
    address: int
    size: int

    def pieces(self):
        """Its addresses page by page: (address, size, where in its bytes)."""
        at = 0
        while at < self.size:
            size = min(self.size - at, PAGE - (self.address + at) % PAGE)
            yield self.address + at, size, at
            at += size


@dataclass
class Counts:
    """How much was asked, how many of it arrived, and what differs."""

    asked: dict = field(default_factory=dict)
    arrived: dict = field(default_factory=dict)
    differ: list = field(default_factory=list)

    def add(self, what, arrives):
        """One more."""
        self.asked[what] = self.asked.get(what, 0) + 1
        self.arrived[what] = self.arrived.get(what, 0) + arrives

    def join(self, other):
        """Those of another, too."""
        for mine, theirs in ((self.asked, other.asked), (self.arrived, other.arrived)):
            for what, count in theirs.items():
                mine[what] = mine.get(what, 0) + count
        self.differ += other.differ


def can_be_asked(address, size):
    """Whether it's an address that tables speak of: no request of an interrupt, and below the last page."""
    return 0 <= address <= LAST and (address + size <= INTERRUPTS[0] or address >= INTERRUPTS[1])


def near(window, draw):
    """Addresses in and beside a window: its pages, its edges, and sizes of 1 to 64 bytes."""
    pages = list(range(window.address, window.end, PAGE))
    if len(pages) > MOST_PAGES:
        pages = pages[:8] + draw.sample(pages[8:-8], MOST_PAGES - 16) + pages[-8:]
    for page in pages:
        yield page + 8 * draw.randrange(PAGE // 8), 8
    for edge in (window.address, window.end):
        yield from ((edge - 8, 8), (edge - 4, 8), (edge - 1, 1), (edge, 1), (edge, 8), (edge + PAGE, 8))
    for size in SIZES:
        yield draw.randrange(window.address, window.end), size


def entries(address):
    """An address for each entry of the four tables on the way to this one."""
    for low in (39, 30, 21, 12):
        for i in range(512):
            yield address & ~(511 << low) | i << low, 8


def elsewhere(made, own, draw):
    """Addresses that are others': of windows, of all spans and table pages; and any."""
    for domain in made.domains:
        for window in domain.windows:
            yield window.address + 8 * draw.randrange(window.size // 8), 8
    for place, end in made.spans():
        yield place, 8
        yield end - 8, 8
    yield from ((made.base + page, 8) for page in range(0, len(made.tables), PAGE))
    yield from ((own ^ 1 << bit, 8) for bit in range(12, 64))
    for bits in (20, 32, 40, 48, 49, 64):
        yield from ((draw.randrange(1 << bits) & ~7, 8) for _ in range(DRAWN // 6))
    yield from ((ADDRESSES - 8, 8), (ADDRESSES - 4, 8), (ADDRESSES, 8))


def sources_of(made):
    """The policy's devices that can be asked, and neighbours that it doesn't have."""
    found = {source for source in made.names if source not in bus.CHIPSET}
    without = next((one for one in range(1, 256) if one not in made.buses), None)
    for source in sorted(made.by_source)[:4]:
        found |= {source ^ 1, source ^ 8}
        if without is not None:
            found.add(without << 8 | source & 255)
    return sorted(found - bus.CHIPSET)


def accesses(made, source, draw, all_entries, short):
    """What a device is asked, none twice; shortly only windows and what is beside them."""
    domain = made.by_source.get(source)
    windows = domain.windows if domain else [one for other in made.domains for one in other.windows[:1]]
    own = draw.choice(windows).address if windows else PAGE
    wanted = [one for window in windows for one in near(window, draw)]
    if not short:
        wanted += elsewhere(made, own, draw)
    if all_entries and not short:
        wanted += entries(own)
    return [Access(source, *one) for one in dict.fromkeys(wanted) if can_be_asked(*one)]


class Asking:
    """A machine with what was built of a policy, and what its memory has to be."""

    def __init__(self, machine, made, draw):
        self.bus, self.made, self.draw, self.counts = machine, made, draw, Counts()
        self.memory, self.buffers, self.at = Memory(), {}, 0

    def lay(self):
        """Lays spans and tables, fills the devices' buffers, and turns translation on."""
        self.bus.translate()
        self.buffers = {source: self.draw.randbytes(bus.MOST) for source in self.bus.windows}
        self.bus.fill(self.buffers, self.buffers)
        self.lay_memory()
        self.bus.translate(self.made.base)

    def lay_memory(self):
        """Lays spans and tables."""
        laid = self.made.image.memory()
        laid.write(self.made.base, self.made.tables)
        for place, content in laid.runs():
            self.put(place, content)

    def put(self, place, content):
        """Writes into memory, as it is and as it has to be."""
        self.bus.ram.write(place, content)
        self.memory.write(place, content)

    def expected(self, access, write):
        """The fault that has to be recorded, or None, and what arrives: (place, size, where in its bytes)."""
        fault, arrives = None, []
        for address, size, at in access.pieces():
            reason, place = self.made.reason(access.source, address, write)
            if reason is None:
                arrives.append((place, size, at))
            elif fault is None:
                fault = bus.Fault(reason, access.source, address & ~(PAGE - 1), not write)
        return fault, arrives

    def is_whole(self, access):
        """Whether all pages of an access are granted to be written, or none."""
        fault, arrives = self.expected(access, True)
        return fault is None or not arrives

    def differs(self, access, what):
        """One more difference."""
        self.counts.differ.append(f"{bus.spelled(access.source)} {access.size} bytes at {access.address:#x}: {what}")

    def write(self, access):
        """Lets a device write bytes that aren't there yet; they are to be where they have to be."""
        fault, arrives = self.expected(access, True)
        buffer = self.buffers[access.source]
        for _ in range(64):
            self.at = (self.at + access.size + 1) % (bus.MOST - access.size)
            content = buffer[self.at:self.at + access.size]
            if all(self.memory.read(place, 1) != content[at:at + 1] for place, _, at in arrives):
                break
        came = self.bus.move(access.source, bus.OUTWARD, access.address, self.at, access.size)
        self.counts.add("writes", not fault)
        for place, size, at in arrives:
            self.memory.write(place, content[at:at + size])
        if came != fault:
            self.differs(access, f"writes with {came}, not {fault}")
        elif any(self.bus.ram.read(place, size) != content[at:at + size] for place, size, at in arrives):
            self.differs(access, "what it writes doesn't arrive")
        return content

    def look_through(self):
        """Holds all of memory against what it has to be."""
        left = {number for number, page in self.memory.pages.items() if any(page)}
        for place, part in self.bus.ram.runs():
            for at in range(0, len(part), PAGE):
                number = (place + at) // PAGE
                left.discard(number)
                if part[at:at + PAGE] != bytes(self.memory.pages.get(number, bytes(PAGE))):
                    self.counts.differ.append(f"the page at {place + at:#x} has other bytes")
        self.counts.differ += [f"the page at {number * PAGE:#x} is empty" for number in sorted(left)]

    def seed(self):
        """Puts bytes of chance into all that windows show."""
        for domain in self.made.domains:
            for window in domain.windows:
                self.put(window.place, self.draw.randbytes(window.size))

    def reads(self, asked):
        """Lets devices read, in rounds that fill their buffers; translation is off at the end of each."""
        left = {}
        for access in asked:
            left.setdefault(access.source, []).append(access)
        while left:
            wanted = []
            for source in list(left):
                at = 0
                while left[source] and at + left[source][-1].size < bus.MOST:
                    access = left[source].pop()
                    wanted.append((access, at, self.read(access, at)))
                    at += access.size
                if not left[source]:
                    del left[source]
            self.bus.translate()
            found = self.bus.buffers({access.source for access, _, _ in wanted})
            self.bus.translate(self.made.base)
            for access, at, content in wanted:
                if found[access.source][at:at + access.size] != content:
                    self.differs(access, "reads other bytes")

    def read(self, access, at):
        """Lets a device read into its buffer; answers what it has to find."""
        fault, arrives = self.expected(access, False)
        content = bytearray(access.size)
        for place, size, where in arrives:
            content[where:where + size] = self.memory.read(place, size)
        came = self.bus.move(access.source, bus.INWARD, access.address, at, access.size)
        self.counts.add("reads", not fault)
        if came != fault:
            self.differs(access, f"reads with {came}, not {fault}")
        return content


def hold_against_run(asking, program, lines, folder):
    """Holds the regions against the digests that `run` prints after the lines of a record."""
    made, asking.counts.asked["lines"] = asking.made, len(lines)
    printed = domains.digests(program, domains.stilled(made), made.dma, lines, folder)
    for name, (place, size) in made.regions.items():
        asking.counts.add("regions", True)
        if printed.get(name) != runs.digest(asking.bus.ram.read(place, size)):
            asking.counts.differ.append(f"run prints another digest of {name}")


def written(asking, asked):
    """Lets devices write where an access is granted wholly or not at all; answers the lines of a record for it."""
    names, lines = asking.made.names, []
    for access in filter(asking.is_whole, asked):
        content = asking.write(access)
        if access.source in names and access.address + access.size <= ADDRESSES:
            lines.append(f"dma 0 {names[access.source]} {access.address} {content.hex()}")
    return lines


def ask_policy(program, made, folder, words):
    """All questions about a policy: writes first, as what a unit keeps of a read is kept for a write, too."""
    draw, first = random.Random(words.seed), {one.sources[0] for one in made.domains[:3] if one.sources}
    with bus.Bus(folder, sources_of(made), bus.ram_bytes(made.spans())) as machine:
        asking = Asking(machine, made, draw)
        asking.lay()
        asked = [one for source in machine.windows
                 for one in accesses(made, source, draw, source in first, words.short)]
        hold_against_run(asking, program, written(asking, asked), folder)
        # `run` drops a line whole where one of its pages is refused; a bus lets the other arrive
        for access in asked:
            if not asking.is_whole(access):
                asking.write(access)
        asking.look_through()
        asking.seed()
        asking.reads(asked)
        asking.look_through()
        return asking.counts
