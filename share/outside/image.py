"""What a loader takes from an image (docs/image.md): spans with their bytes, and of each subject what the
processor is told. No table, bitmap or area is read here."""
import struct
from dataclasses import dataclass

from declared import called
from emulator import Broken, Memory

PAGE = 4096
HEADER, SPAN, GROUP, SUBJECT = 24, 160, 8, 608
DEVICE = 4


@dataclass
class Span:
    """Whole pages of physical memory."""

    place: int
    size: int
    number: int
    kind: int


@dataclass
class Control:
    """What the processor is told of a subject: addresses, and the number of entries of its MSR area."""

    name: str
    eptp: int
    ports: int
    msr_bitmap: int
    area: int
    entries: int


@dataclass
class Image:
    """The spans in the order of their places, the subjects, and memory at the start."""

    content: bytes
    spans: list
    subjects: list
    offsets: dict

    def memory(self):
        """Physical memory as the image has it at the start."""
        memory = Memory()
        for span in self.spans:
            if span.number in self.offsets:
                offset = self.offsets[span.number]
                memory.write(span.place, self.content[offset:offset + span.size])
        return memory

    def top(self):
        """The end of the highest span."""
        return max(span.place + span.size for span in self.spans)

    def offset_of(self, place):
        """Where in the image's file the byte of a place stands."""
        for span in self.spans:
            if span.place <= place < span.place + span.size:
                return self.offsets[span.number] + place - span.place
        raise Broken(f"the image has no byte at {place:#x}")


def read(content):
    """The image that these bytes spell."""
    if content[:7] != b"MUENIMG":
        raise Broken("the image has no header")
    subjects, groups = content[9], content[10]
    spans = []
    for i in range(struct.unpack_from("<H", content, 16)[0]):
        place, pages, number, kind = struct.unpack_from("<QIHB", content, HEADER + SPAN * i)
        spans.append(Span(place, pages * PAGE, number, kind))
    # the contents are the last bytes, those of all spans but devices'
    offset = len(content) - sum(span.size for span in spans if span.kind != DEVICE)
    offsets = {}
    for span in spans:
        if span.kind != DEVICE:
            offsets[span.number] = offset
            offset += span.size
    places = {span.number: span.place for span in spans}
    first = HEADER + SPAN * len(spans) + GROUP * groups
    controls = [control(content, first + SUBJECT * i, places) for i in range(subjects)]
    return Image(content, spans, controls, offsets)


def control(content, at, places):
    """A subject of the image."""
    ports, bitmap, area = struct.unpack_from("<3H", content, at + 6)
    eptp = struct.unpack_from("<Q", content, at + 16)[0]
    length = content[at + 24]
    name = content[at + 25:at + 25 + length].decode("ascii")
    return Control(name, eptp, places[ports], places[bitmap], places[area], content[at + 2])


def built(program, path, folder):
    """The bytes of the image that the program builds of a policy."""
    target = folder / "image"
    called(program, ["build", path.name, target], path.parent)
    return target.read_bytes()
