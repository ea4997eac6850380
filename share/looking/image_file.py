"""The parts of a system image, read from its bytes after docs/image.md. The first fault in the order
of offsets ends the reading, with the offset and the word that `muen run` answers."""
from dataclasses import dataclass, field

from looking.files import MEBIBYTE, read_bytes
from looking.wrong import Wrong

PAGE = 4096
MEMORY_END = 1 << 40
OWN, CHANNEL, PROVIDED, KERNEL, DEVICE = range(5)
KINDS = ["own", "channel", "provided", "kernel", "device"]
# parts of their owner: the kernel's five have the names that `map` prints (docs/placement.md)
WHOLE, NAMED, STATE, TABLES, PORT_BITMAPS, MSR_BITMAP, MSR_AREA = range(7)
PART_NAMES = {STATE: "state", TABLES: "ept", PORT_BITMAPS: "iobm", MSR_BITMAP: "msrbm",
              MSR_AREA: "msrs"}
PARTS_OF = {OWN: {WHOLE}, CHANNEL: {WHOLE}, PROVIDED: {NAMED}, DEVICE: {NAMED},
            KERNEL: {STATE, TABLES, PORT_BITMAPS, MSR_BITMAP, MSR_AREA}}
MODES = ["none", "asap", "async", "self", "switch"]
SWITCH = 4
NOBODY = 255
LETTERS = frozenset(b"ABCDEFGHIJKLMNOPQRSTUVWXYZabcdefghijklmnopqrstuvwxyz0123456789_-.")


@dataclass(eq=False)
class Span:
    """A span of physical memory; `content` is None for the memory of a device."""
    place: int
    pages: int
    number: int
    kind: int
    part: int
    owner: str
    own_name: str | None
    content: memoryview | None = None

    @property
    def size(self):
        """How many bytes it has."""
        return self.pages * PAGE

    @property
    def end(self):
        """The address behind its last byte."""
        return self.place + self.size

    @property
    def name(self):
        """The name that `map` prints."""
        if self.part == WHOLE:
            return self.owner
        if self.part == NAMED:
            return f"{self.owner}|{self.own_name}"
        return f"{self.owner}:{PART_NAMES[self.part]}"


@dataclass
class Group:
    """A scheduling group."""
    cpu: int
    first: int


@dataclass(frozen=True)
class Event:
    """What a call or a trap raises."""
    mode: int
    target: int
    vector: int


@dataclass
class Subject:
    """A subject; calls and traps are by their numbers, those alone that raise something."""
    cpu: int
    group: int
    area_entries: int
    state: Span
    port_bitmaps: Span
    msr_bitmap: Span
    msr_area: Span
    table_pointer: int
    name: str
    calls: dict[int, Event]
    traps: dict[int, Event]


@dataclass
class MajorFrame:
    """Its ticks, and for each CPU its minor frames: the group and the ticks of each."""
    ticks: int
    minor_frames: list[list[tuple[int, int]]]


@dataclass
class Interrupt:
    """An interrupt of a device; without a target nobody has it."""
    name: str
    target: int | None
    vector: int


@dataclass
class Device:
    """A device: its ranges of ports (first and last), memories and interrupts."""
    name: str
    ports: list[tuple[int, int]]
    memories: list[Span]
    interrupts: list[Interrupt]


@dataclass
class Image:
    """All parts. The spans are by address; a choice is the span that tau0 names."""
    cpus: int
    choice: Span | None = None
    spans: list[Span] = field(default_factory=list)
    groups: list[Group] = field(default_factory=list)
    subjects: list[Subject] = field(default_factory=list)
    frames: list[MajorFrame] = field(default_factory=list)
    devices: list[Device] = field(default_factory=list)


class Refused(Wrong):
    """A fault of bytes: where, the part that the field is of, the bytes of the field as far as there are any, and the word."""

    def __init__(self, take, at, word):
        super().__init__(f"{take.source}: {take.what} refused at {at}: {word}")
        self.at, self.part, self.word, self.field = at, take.part, word, bytes(take.content[at:max(take.at, at)])


class Bytes:
    """Bytes that are read field by field. `what` is the word of the line, image or dma, and `part` says what is read."""

    def __init__(self, content, what, source):
        self.content, self.what, self.source, self.at = memoryview(content), what, source, 0
        self.field_at, self.part = 0, "the header"

    def fault(self, word, at=None):
        """A fault, at the field that was read last where nothing else is said."""
        return Refused(self, self.field_at if at is None else at, word)

    def take(self, size):
        """The bytes of the next field."""
        if self.at + size > len(self.content):
            raise self.fault("short", self.at)
        self.field_at, self.at = self.at, self.at + size
        return self.content[self.field_at:self.at]

    def number(self, size):
        """A number, the lowest byte first."""
        return int.from_bytes(self.take(size), "little")

    def want(self, right, word):
        """The field that was read last has to keep its condition."""
        if not right:
            raise self.fault(word)

    def within(self, size, low, high, word):
        """A number from low to high."""
        value = self.number(size)
        self.want(low <= value <= high, word)
        return value

    def zero(self, size):
        """A run of zeros."""
        self.want(not any(self.take(size)), "zero")

    def name(self, absent=False):
        """A name in 64 bytes, or an absent one, where it has to be absent."""
        raw = bytes(self.take(64))
        size, letters = raw[0], raw[1:1 + raw[0]]
        if absent:
            self.want(not any(raw), "name")
            return None
        self.want(1 <= size <= 63 and set(letters) <= LETTERS and not any(raw[1 + size:]), "name")
        return letters.decode("ascii")

    def end(self):
        """Nothing is behind."""
        if self.at < len(self.content):
            raise self.fault("trailing", self.at)


class Reader:
    """Reads the parts in their order."""

    def __init__(self, content, source):
        self.bytes = Bytes(content, "image", source)
        self.by_number = {}

    def read(self):
        """The image."""
        counts, choice = self.header()
        spans_count, subjects, groups, frames, devices = counts
        self.spans(spans_count, choice)
        self.image.choice = self.by_number.get(choice)
        for _ in self.parts(groups, "group"):
            self.image.groups.append(self.group(subjects))
        for number in self.parts(subjects, "subject"):
            self.image.subjects.append(self.subject(number, subjects))
        for _ in self.parts(frames, "major frame"):
            self.image.frames.append(self.frame())
        for _ in self.parts(devices, "device"):
            self.image.devices.append(self.device(subjects))
        for span in self.image.spans:
            self.bytes.part = f"the content of {span.name}"
            if span.kind != DEVICE:
                span.content = self.bytes.take(span.size)
        self.bytes.part = "the end"
        self.bytes.end()
        return self.image

    def parts(self, count, word):
        """The numbers of so many parts, each of which is read then."""
        for number in range(count):
            self.bytes.part = f"{word} {number}"
            yield number

    def header(self):
        """How many of each part there are, and the number of the span that tau0 names."""
        magic = bytes(self.bytes.take(8))
        self.bytes.want(magic in (b"MUENIMG1", b"MUENIMG2"), "magic")
        self.image = Image(self.bytes.within(1, 1, 8, "count"))
        subjects = self.bytes.within(1, 1, 32, "count")
        groups = self.bytes.within(1, 1, 32, "count")
        frames = self.bytes.within(1, 1, 16, "count")
        devices = self.bytes.within(1, 0, 32, "count")
        self.bytes.zero(3)
        spans = self.bytes.within(2, 0, 1152, "count")
        choice = None
        if magic == b"MUENIMG2":
            choice = self.bytes.within(2, 0, spans - 1, "span")
        self.bytes.zero(6 if choice is None else 4)
        return (spans, subjects, groups, frames, devices), choice

    def spans(self, count, choice):
        """The table of spans, by address."""
        end = 0
        for at in self.parts(count, "span"):
            span = self.span(end, count, choice, at == count - 1)
            self.by_number[span.number] = span
            self.image.spans.append(span)
            end = span.end

    def span(self, end, count, choice, last):
        """A span that begins at `end` or above it."""
        take = self.bytes
        place = take.number(8)
        take.want(place % PAGE == 0 and place >= end, "place")
        pages = take.number(4)
        take.want(pages > 0 and place + pages * PAGE <= MEMORY_END, "pages")
        number = take.within(2, 0, count - 1, "number")
        take.want(number not in self.by_number, "number")
        kind = take.within(1, OWN, DEVICE, "kind")
        take.want(number != choice or kind == OWN, "kind")
        if last:
            every = [(span.kind == DEVICE, span.pages) for span in self.image.spans]
            every.append((kind == DEVICE, pages))
            take.want(sum(size for device, size in every if not device) <= 16384
                      and sum(size for device, size in every if device) <= 4096, "kind")
        part = take.number(1)
        take.want(part in PARTS_OF[kind], "part")
        owner = take.name()
        own_name = take.name(absent=part != NAMED)
        take.zero(16)
        return Span(place, pages, number, kind, part, owner, own_name)

    def group(self, subjects):
        """A scheduling group."""
        cpu = self.bytes.within(1, 0, self.image.cpus - 1, "cpu")
        first = self.bytes.within(1, 0, subjects - 1, "first")
        self.bytes.zero(6)
        return Group(cpu, first)

    def subject(self, number, subjects):
        """A subject of this number."""
        take, groups = self.bytes, self.image.groups
        cpu = take.within(1, 0, self.image.cpus - 1, "cpu")
        group = take.within(1, 0, len(groups) - 1, "group")
        firsts = [at for at, one in enumerate(groups) if one.first == number]
        take.want(groups[group].cpu == cpu and all(at == group for at in firsts), "group")
        entries = take.within(1, 0, 64, "msrs")
        take.zero(1)
        spans = [self.kernel_span(part)
                 for part in (STATE, PORT_BITMAPS, MSR_BITMAP, MSR_AREA)]
        take.zero(4)
        pointer = take.number(8)
        take.want(pointer & 0xfff == 0x1e and pointer < MEMORY_END, "eptp")
        name = take.name()
        take.zero(8)
        calls, traps = self.events(subjects), self.events(subjects)
        return Subject(cpu, group, entries, *spans, pointer, name, calls, traps)

    def kernel_span(self, part):
        """A span of the kernel, by its number."""
        span = self.by_number.get(self.bytes.number(2))
        self.bytes.want(span is not None and span.part == part
                        and (part != PORT_BITMAPS or span.pages >= 2), "span")
        return span

    def events(self, subjects):
        """What 64 calls, or traps, raise."""
        found = {}
        for number in range(64):
            mode, target, vector, zero = self.bytes.take(4)
            if mode == 0:
                self.bytes.want(target == vector == zero == 0, "event")
                continue
            self.bytes.want(mode <= SWITCH and target < subjects and zero == 0
                            and (vector >= 32 or (vector == 0 and mode == SWITCH)), "event")
            found[number] = Event(mode, target, vector)
        return found

    def frame(self):
        """A major frame."""
        take = self.bytes
        ticks = take.within(4, 1, 100_000, "ticks")
        return MajorFrame(ticks, [self.minor_frames(cpu, ticks) for cpu in range(self.image.cpus)])

    def minor_frames(self, cpu, ticks):
        """Those of a CPU; they have so many ticks together."""
        take, groups = self.bytes, self.image.groups
        count = take.within(2, 1, 64, "count")
        take.zero(2)
        frames, left = [], ticks
        for at in range(count):
            group = take.within(1, 0, len(groups) - 1, "group")
            take.want(groups[group].cpu == cpu, "group")
            take.zero(3)
            own = take.number(4)
            left -= own
            take.want(own > 0 and (at < count - 1 or left == 0), "ticks")
            frames.append((group, own))
        return frames

    def device(self, subjects):
        """A device."""
        take = self.bytes
        name = take.name()
        take.want(name not in [one.name for one in self.image.devices], "name")
        ranges, memories, interrupts = (take.within(1, 0, 16, "count") for _ in range(3))
        take.zero(1)
        found = Device(name, [], [], [])
        for _ in range(ranges):
            first, last = take.number(2), take.number(2)
            take.want(first <= last, "port")
            found.ports.append((first, last))
        for _ in range(memories):
            span = self.by_number.get(take.number(2))
            take.want(span is not None and span.kind == DEVICE and span.own_name
                      not in [one.own_name for one in found.memories], "span")
            found.memories.append(span)
        for _ in range(interrupts):
            found.interrupts.append(self.interrupt(found, subjects))
        return found

    def interrupt(self, device, subjects):
        """An interrupt of a device."""
        take = self.bytes
        name = take.name()
        take.want(name not in [one.name for one in device.interrupts], "name")
        target, vector = take.number(1), take.number(1)
        nobody = (target, vector) == (NOBODY, 0)
        take.want(nobody or (target < subjects and vector >= 32), "irq")
        take.zero(2)
        return Interrupt(name, None if nobody else target, vector)


def read_image(name):
    """The image in a file of at most 96 MiB (docs/outside.md)."""
    return Reader(read_bytes(name, 96 * MEBIBYTE), name).read()
