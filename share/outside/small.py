"""The small policy (small.json): its image, and what of it is changed."""
import pathlib
import struct

import declared
import emulator
import image
import runs
from runs import instruction

PAGE = 4096
POLICY = pathlib.Path(__file__).resolve().parent / "small.json"
# Where in each page the marks are, and where a store goes. No walk that is asked about reads an entry there.
RUNS_AT, LOADS_AT, STORES_AT = 0xC00, 0xC08, 0xC10


class Small:
    """The image of the small policy, the subject that is asked, and how it is entered."""

    def __init__(self, program, folder):
        self.program, self.folder = program, folder
        self.subjects, self.places = declared.declared(program, POLICY)
        self.content = image.built(program, POLICY, folder)
        self.image = image.read(self.content)
        self.subject = next(one for one in self.subjects if one.name == runs.ASKED)
        self.control = next(one for one in self.image.subjects if one.name == runs.ASKED)
        self.sizes = {span.place: span.size for span in self.image.spans}
        self.window = self.subject.window_at(self.subject.entry)
        self.regions = [name for name in self.places if ":" not in name]
        self.marked = []
        self.digests = {}

    def mark(self):
        """Writes into each page of the regions an instruction that tells the page's number, and a number."""
        for name in self.regions:
            self.marked += range(self.places[name], self.places[name] + self.sizes[self.places[name]], PAGE)
        changes = []
        for page in self.marked:
            marks = instruction(runs.LI, 5, immediate=page // PAGE) + struct.pack("<Q", 0x1234_0000_0000_0000 + page)
            changes.append((self.image.offset_of(page + RUNS_AT), marks))
        self.content = runs.changed(self.content, changes)

    def memory(self):
        """What the emulator is given: the same, with the mark to be run in its own instructions."""
        memory = image.read(self.content).memory()
        for page in self.marked:
            # MOV EAX, number; HLT
            memory.write(page + RUNS_AT, b"\xb8" + struct.pack("<I", page // PAGE) + b"\xf4\0\0")
        return memory

    def program_at(self, code):
        """A change of the image: what the subject runs."""
        return self.image.offset_of(self.window.place + self.subject.entry - self.window.guest), code

    def digest(self, name, changes):
        """The digest of a region with other bytes at some places."""
        start = self.places[name]
        size, offset = self.sizes[start], self.image.offset_of(start)
        inside = tuple((place - start, new) for place, new in changes if start <= place < start + size)
        if inside or name not in self.digests:
            found = runs.digest(runs.changed(self.content[offset:offset + size], inside))
            if inside:
                return found
            self.digests[name] = found
        return self.digests[name]

    def there(self, place):
        """Whether there is memory at a place."""
        return any(span.place <= place < span.place + span.size for span in self.image.spans)

    def fields(self, host):
        """The fields by which the subject is entered."""
        return {"eptp": self.control.eptp, "ports_a": self.control.ports, "ports_b": self.control.ports + PAGE,
                "msr_bitmap": self.control.msr_bitmap, "area": self.control.area, "mode": host.mode,
                "code_address": host.page, "code_place": host.place,
                "find_low": self.image.spans[0].place, "find_high": self.image.top()}

    def ask(self, memory, questions):
        """The emulator's answers."""
        return emulator.ask(self.folder, memory, self.image.spans, questions)
