"""The lines of a device record that a run has accepted, after docs/record.md, and which memory they write."""
import hashlib
from dataclasses import dataclass, field

from looking import dma_file
from looking.files import read_text
from looking.image_file import CHANNEL, DEVICE, OWN, PAGE, PROVIDED
from looking.words import decimals
from looking.wrong import Wrong

WORDS = {"order": None, "port": 5, "mem": 6, "irq": 4, "dma": 5, "end": 2}
PRINTED = (OWN, CHANNEL, PROVIDED, DEVICE)


@dataclass
class Input:
    """A line: its tick, its kind, its device (of an order none), what it does in words, and what it writes where."""
    tick: int
    kind: str
    device: str
    text: str
    writes: list[tuple[int, bytes]] = field(default_factory=list)

    @property
    def is_dropped(self):
        """Whether a device would have written by itself, and nothing was written."""
        return self.kind == "dma" and not self.writes

    @property
    def decimals(self):
        """Its numbers in decimal; bytes that are written are none."""
        return decimals(self.text if self.kind == "port" else self.text.replace(" = ", " is "))


class Inputs:
    """The lines of a record by tick, for an image and the DMA tables of the run, or None; `ticks` is how many the run has."""

    def __init__(self, system, tables, text, source):
        self.system, self.tables, self.lines, self.ticks, self.done = system, tables, [], 0, 0
        self.devices = {device.name: device for device in system.image.devices}
        for number, line in enumerate(text.splitlines(), 1):
            kind, *words = line.split(" ")
            if kind not in WORDS or WORDS[kind] not in (None, len(words) + 1):
                raise Wrong(f"{source}: line {number}: no line of a record: {line[:60]!r}")
            try:
                if kind == "end":
                    self.ticks = int(words[0])
                else:
                    self.lines.append(getattr(self, kind)(int(words[0]), *words[1:]))
            except (KeyError, StopIteration, ValueError):
                raise Wrong(f"{source}: line {number}: `muen run` takes no such line: {line[:60]!r}") from None

    def go_to(self, tick):
        """Writes what is written before the turns of this tick; the numbers of the lines that do."""
        begun = self.done
        while self.done < len(self.lines) and self.lines[self.done].tick <= tick:
            for place, content in self.lines[self.done].writes:
                self.system.memory.write(place, content)
            self.done += 1
        return range(begun, self.done)

    def order(self, tick, *cpus):
        """The order of the CPUs' turns."""
        return Input(tick, "order", "", f"CPUs take their turns in the order {' '.join(cpus)}")

    def port(self, tick, device, port, value):
        """The byte of a port."""
        return Input(tick, "port", device, f"port {int(port):x} = {int(value):x}")

    def irq(self, tick, device, irq):
        """An interrupt, with who gets it."""
        taken = [one for one in self.devices[device].interrupts if one.name == irq and one.target is not None]
        whom = "".join(f"event {one.vector} at {self.system.name(one.target)}" for one in taken)
        return Input(tick, "irq", device, f"interrupt {irq}: {whom or 'nobody has it'}")

    def mem(self, tick, device, memory, offset, digits):
        """Bytes of a device's memory."""
        span = next(span for span in self.devices[device].memories if span.own_name == memory)
        return Input(tick, "mem", device, f"{span.name}+{int(offset):x} = {digits.lower()}",
                     list(by_page(span.place + int(offset), bytes.fromhex(digits))))

    def dma(self, tick, device, address, digits):
        """Bytes that a device writes by itself: all of them, or none where one is led nowhere (docs/dma.md)."""
        content, writes = bytes.fromhex(digits), []
        for at, part in by_page(int(address), content):
            place, why = self.led(device, at)
            if place is None:
                return Input(tick, "dma", device, f"dma at {int(address):x} = {digits.lower()}: dropped at {at:x}, {why}")
            writes.append((place, part))
        names = " and ".join(self.where(place) for place, _ in writes)
        return Input(tick, "dma", device, f"dma at {int(address):x} = {digits.lower()} into {names}", writes)

    def led(self, device, address, right="w"):
        """Where a device's address leads for a write, or with `r` for a read, and None; or None, and why nowhere."""
        place, why = dma_file.led(self.tables, device, address, right)
        return (place, why) if place is None or self.system.memory.span_at(place) else (None, "outside")

    def where(self, place):
        """A place as the span that has it, with the offset."""
        span = self.system.memory.span_at(place)
        return f"{span.name}+{place - span.place:x}"


def by_page(address, content):
    """Bytes as parts that lie in one page each."""
    while content:
        size = min(len(content), PAGE - address % PAGE)
        yield address, content[:size]
        address, content = address + size, content[size:]


# ---- memory at the end

@dataclass
class Held:
    """A region or a device's memory with its bytes; `printed` is the digest that the text has, none where it has none."""
    span: object
    content: bytes
    printed: str | None

    @property
    def digest(self):
        """That of the bytes."""
        return hashlib.sha256(self.content).hexdigest()

    @property
    def agrees(self):
        """Whether the text has this digest."""
        return self.printed == self.digest


def held(system, lines):
    """Memory as it is now, by number as it is printed, with the digests of the final lines."""
    printed = {words[1]: words[2] for words in (line.split(" ") for line in lines) if words[0] in ("region", "device")}
    for span in sorted(system.image.spans, key=lambda span: span.number):
        if span.kind in PRINTED:
            pages = range(span.place // PAGE, span.end // PAGE)
            yield Held(span, b"".join(bytes(system.memory.page(page)) for page in pages), printed.get(span.name))


# ---- those of a run that is looked at

def add_record(parser):
    """The words that name the record of a run, and its tables."""
    parser.add_argument("--record", metavar="RECORD", help="the device record of the run: what each of its lines did is told before the turns of its tick")
    parser.add_argument("--dma", metavar="DMA", help="the file of DMA tables that the run was given, if it was; without tables all `dma` lines are dropped")


def inputs_of(arguments, system):
    """The inputs of the record that the words name, or None."""
    if arguments.record is None:
        if arguments.dma is not None:
            raise Wrong("--dma wants --record: the tables say what the record's dma lines did")
        return None
    tables = None if arguments.dma is None else dma_file.read_dma(arguments.dma)
    return Inputs(system, tables, read_text(arguments.record), arguments.record)
