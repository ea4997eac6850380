"""What a subject sees: its EPT tables, walked from all guest addresses at once (docs/tables.md)."""
import bisect
import struct
from dataclasses import dataclass, field

from looking.image_file import MEMORY_END, PAGE, Span
from looking.wrong import Wrong

# docs/tables.md: bits 5:3 of a leaf
CACHINGS = {0: "UC", 1: "WC", 4: "WT", 5: "WP", 6: "WB"}
RIGHTS = {1: "r", 3: "rw", 5: "rx", 7: "rwx"}
PAGE_SIZES = {0: "4 KiB", 1: "2 MiB", 2: "1 GiB"}
HIGHEST = 3
ENTRIES = struct.Struct("<512Q")
ADDRESS_BITS = (1 << 52) - PAGE
# tables that lead into one another can show more than any sound image
MOST_ENTRIES = 1 << 20


@dataclass
class Window:
    """Guest addresses, one after another, that show bytes one after another of a span, or of no
    span, with the same rights and memory type."""
    guest: int
    size: int
    place: int
    span: Span | None
    rights: str
    caching: str
    pages: dict[str, int] = field(default_factory=dict)

    @property
    def end(self):
        """The guest address behind it."""
        return self.guest + self.size

    @property
    def offset(self):
        """From which byte of its span on it shows it."""
        return self.place - self.span.place


@dataclass
class Misfit:
    """An entry that is present and may not be so: a walk through it is a misconfiguration."""
    guest: int
    level: int
    value: int
    why: str


class View:
    """The windows and misfits of an extended-page-table pointer, by guest address."""

    def __init__(self, memory, pointer, name):
        self.memory, self.name = memory, name
        self.windows, self.misfits, self.table_pages = [], [], set()
        self.entries = 0
        self.walk((pointer & ADDRESS_BITS) // PAGE, HIGHEST, 0, 7)
        self.guests = [window.guest for window in self.windows]

    def walk(self, table, level, guest, rights):
        """Goes through a table, whose page is in memory or not."""
        self.table_pages.add(table)
        page = self.memory.page(table)
        if page is None:
            self.misfits.append(Misfit(guest, level, table * PAGE, "its table isn't in memory"))
            return
        span = PAGE << 9 * level
        for at, value in enumerate(ENTRIES.unpack(page)):
            if value & 7:
                self.entry(value, level, guest + at * span, rights)

    def entry(self, value, level, guest, rights):
        """An entry that is present, with the rights so far."""
        self.entries += 1
        if self.entries > MOST_ENTRIES:
            raise Wrong(f"the tables of {self.name} have more than {MOST_ENTRIES} entries on all ways")
        leaf = level == 0 or (level < HIGHEST and value & 0x80)
        why = misfit_of(value, level, leaf)
        if why:
            self.misfits.append(Misfit(guest, level, value, why))
        elif leaf:
            self.show(guest, PAGE << 9 * level, value, level, rights & value)
        else:
            self.walk((value & ADDRESS_BITS) // PAGE, level - 1, guest, rights & value)

    def show(self, guest, size, value, level, rights):
        """A leaf: its part of each span, and between them of none."""
        place, end = value & ADDRESS_BITS, (value & ADDRESS_BITS) + size
        while place < end:
            span = self.memory.span_at(place)
            until = span.end if span else self.memory.next_place(place) or end
            until = min(until, end)
            self.join(Window(guest, until - place, place, span, RIGHTS[rights & 7],
                             CACHINGS[value >> 3 & 7], {PAGE_SIZES[level]: 1}))
            guest, place = guest + until - place, until

    def join(self, new):
        """Neighbours that go on alike are one window."""
        last = self.windows[-1] if self.windows else None
        if last and (last.end, last.place + last.size, last.rights, last.caching) == (
                new.guest, new.place, new.rights, new.caching) and last.span is new.span:
            last.size += new.size
            for size, count in new.pages.items():
                last.pages[size] = last.pages.get(size, 0) + count
        else:
            self.windows.append(new)

    def window_at(self, guest):
        """The window that has this guest address, or None."""
        at = bisect.bisect_right(self.guests, guest) - 1
        if at >= 0 and guest < self.windows[at].end:
            return self.windows[at]
        return None


def misfit_of(value, level, leaf):
    """Which of its bits an entry that is present may not have, in words, or None (docs/tables.md)."""
    if value & 7 not in RIGHTS:
        return "its rights are none that there are"
    if value & ADDRESS_BITS >= MEMORY_END:
        return "its address is 2^40 or above"
    if leaf:
        if value >> 3 & 7 not in CACHINGS:
            return "its memory type is none"
        if value & ADDRESS_BITS & ((PAGE << 9 * level) - 1):
            return "its address is no multiple of its page"
        return None
    if value & (0xf8 if level == HIGHEST else 0x78):
        return "it refers to a table, and has bits of a page"
    return None
