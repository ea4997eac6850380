"""What a policy declares, as questions to the processor: memory, ports, MSRs and MSR areas of each subject.

Expected is what docs/tables.md and docs/machine.md say of the declaration, with two differences of any
processor: bits 7 and 8 of an EPT violation's qualification are set, as the linear address is known; and bit 4
of an I/O instruction's, with INS and OUTS (Intel SDM 3C, tables "Exit Qualification for EPT Violations" and
"Exit Qualification for I/O Instructions").
"""
import struct
from dataclasses import dataclass, field

import emulator
from declared import EXECUTE, READ, WRITE
from emulator import EXITS, FLAT, NOWHERE, PAGED, PASSES, PIECES, question

PAGE = 4096
# Bochs' processors have 40 physical bits: a guest has no way to name an address above (SDM 3A, "4-Level
# Paging": bits from MAXPHYADDR on are reserved).
REACHED = 1 << 40
# Without paging a guest has 32 bits.
REACHED_FLAT = 1 << 32
VALID_LINEAR = 0x180
# Exit reasons (SDM 3D, appendix C); bit 31 says that VM entry failed.
HLT, VMCALL, PORT, RDMSR, WRMSR, VIOLATION, ENTRY_REFUSED = 12, 18, 30, 31, 32, 48, 0x80000022
LOAD, STORE, FETCH = emulator.LOAD, emulator.STORE, emulator.FETCH
WAYS = {LOAD: ("load", READ), STORE: ("store", WRITE), FETCH: ("fetch", EXECUTE)}
# The keyboard's controller and two more that can reset the machine, the disk, the ports of Bochs itself, and
# those of the interrupt controllers and of PCI: no access that is let through is made there.
DISTURBING = {*range(0x60, 0x65), 0x92, *range(0xCF8, 0xD00), *range(0x1F0, 0x1F8), 0x3F6, 0x3F7, 0xE9,
              *range(0x20, 0x22), *range(0xA0, 0xA2), 0x8900, *range(0x40, 0x44), *range(0x70, 0x72)}
MSR_SCANS = [(0, 0x2100), (0x40000000 - 32, 64), (0x80000000 - 32, 64), (0xBFFFFF00, 0x2200), (0xFFFFFFC0, 64)]
UNFIT = 0xA5A5A5A5
REFUSED = "entries of MSRs that VM entry refuses"


@dataclass
class Sheet:
    """Questions, and of each that is answered what was asked and what is expected; what is wrong before any."""

    packed: list = field(default_factory=list)
    asked: list = field(default_factory=list)
    wrong: list = field(default_factory=list)
    tag: int = 0

    def tell(self, *words, **named):
        """A question without an answer."""
        self.packed.append(question(*words, **named))

    def ask(self, label, expected, *words, **named):
        """A question with an answer: label is (topic, words); expected a tuple, bytes of a scan, or a function."""
        self.packed.append(question(*words, **named))
        self.asked.append((label, expected))

    def new_tag(self):
        """64 bits that no tag before had (a step of the golden ratio)."""
        self.tag = (self.tag + 0x9E3779B97F4A7C15) % (1 << 64)
        return self.tag

    def begin(self, **fields):
        """What follows is asked of a subject with these fields."""
        for count, name in enumerate(emulator.FIELDS):
            self.tell(emulator.SET, number=count, value=fields.get(name, 0))
        self.tell(emulator.BEGIN)


@dataclass
class Host:
    """How a subject is entered: the page that it lends, and which ways of access can be asked."""

    page: int
    place: int
    mode: int
    ways: tuple
    below: int


def host_of(subject, *preferred):
    """The page that a subject has for the code and the tables of questions, or the way without."""
    for needed, ways in [(READ | EXECUTE, (LOAD, STORE, FETCH)), (READ, (FETCH,))]:
        for window in (*preferred, *subject.windows):
            if window.rights & needed == needed and window.end <= REACHED:
                return Host(window.guest, window.place, PAGED, ways, REACHED)
    return Host(0, 0, FLAT, (FETCH,), REACHED_FLAT)


def table_addresses(windows):
    """An address for each entry of each table that these windows need."""
    for shift in (12, 21, 30):
        tables = {number for window in windows
                  for number in range(window.guest >> shift + 9, (window.end - 1 >> shift + 9) + 1)}
        for table in sorted(tables):
            for entry in range(512):
                yield (table << 9 | entry) << shift
    for entry in range(512):
        yield entry << 39


def edges(first, end):
    """The first and the last page of what begins and ends there."""
    return sorted({first, end - PAGE})


def pages_asked(subject, others, spans, short):
    """The pages whose edges are asked about: the subject's, their neighbours, others', and those of spans."""
    pages = set()
    for window in subject.windows:
        pages.update(edges(window.guest, window.end) if short else range(window.guest, window.end, PAGE))
        pages.update((window.guest - PAGE, window.end))
    for other in others:
        for window in other.windows:
            pages.update(edges(window.guest, window.end))
    for span in spans:
        pages.update(edges(span.place, span.place + span.size))
    pages.add(subject.entry // PAGE * PAGE)
    return sorted(page for page in pages if page >= 0)


def expected_access(subject, way, address, tag, size):
    """What an access comes to, and the declared place."""
    window = subject.window_at(address)
    right = WAYS[way][1]
    if window is None or not window.rights & right:
        found = window.rights if window else 0
        return (VIOLATION, right + (found << 3) + VALID_LINEAR, address, None), None
    place = window.place + address - window.guest
    if way == FETCH:
        return (HLT, 0, None, None), place
    return (VMCALL, 0, None, tag % (1 << 8 * size)), place


def addresses_asked(subject, others, spans, short, entries):
    """Addresses and sizes: the edges of pages, and the first bytes of what an entry of a table stands for."""
    pages = pages_asked(subject, others, spans, short)
    yield from ((page + offset, size) for page in pages for offset, size in ((0, 8), (PAGE - 4, 4), (PAGE - 1, 1)))
    if entries:
        yield from ((address, 8) for address in sorted(set(table_addresses(subject.windows)) - set(pages)))


def ask_memory(sheet, subject, others, spans, host, short, entries):
    """Loads, stores and fetches; returns how many addresses of its windows no guest reaches."""
    beyond = 0
    for address, size in addresses_asked(subject, others, spans, short, entries):
        if address >= host.below:
            beyond += subject.window_at(address) is not None
            continue
        for way in host.ways:
            tag = sheet.new_tag()
            expected, place = expected_access(subject, way, address, tag, size)
            label = ("memory", f"{subject.name}: {WAYS[way][0]} {size} at {address:#x}")
            sheet.ask(label, expected, way, size=size, address=address,
                      place=NOWHERE if place is None else place, value=tag)
    return beyond


def ask_ports(sheet, subject, short):
    """IN and OUT at the edges of grants; INS and OUTS of every port."""
    near = {*range(4), *range(0x7FFC, 0x8002), *range(0xFFFC, 0x10000)}
    for low, high in subject.ports:
        near.update({*range(low - 4, low + 5), *range(high - 4, high + 5)})
    for port in sorted(port for port in near if 0 <= port <= 0xFFFF):
        for way in ("in", "out"):
            for size in (1, 2, 4):
                granted = subject.grants_ports(port, size)
                if granted and DISTURBING & set(range(port, port + size)):
                    continue
                qualification = size - 1 + 8 * (way == "in") + (port << 16)
                expected = (VMCALL, 0, None, None) if granted else (PORT, qualification, None, None)
                sheet.ask(("ports", f"{subject.name}: {way} {size} at {port:#x}"), expected,
                          emulator.RUN, size=PIECES[way][size], number=port)
    for way in () if short else ("ins", "outs"):
        for size in (1, 2, 4):
            scan_ports(sheet, subject, way, size)


def scan_ports(sheet, subject, way, size, first=0, count=65536):
    """Every port of a range, by INS or OUTS."""
    granted = {port for low, high in subject.ports for port in range(max(low, first), min(high + 1, first + count))}
    classes = bytearray([EXITS]) * count
    for port in granted:
        classes[port - first] = PASSES if subject.grants_ports(port, size) else EXITS
    sheet.ask(("ports", f"{subject.name}: {way} {size} at port"), (first, bytes(classes)),
              emulator.SCAN_PORTS, size=PIECES[way][size], number=first, value=count)


def ask_msrs(sheet, subject, short):
    """RDMSR and WRMSR, each MSR of both ranges and around them; at the edges with the whole qualification."""
    near = {0, 0x1FFF, 0x2000, 0xBFFFFFFF, 0xC0000000, 0xC0001FFF, 0xC0002000, 0xFFFFFFFF}
    near.update(index + step for index, _ in subject.msrs for step in (-1, 0, 1) if index + step >= 0)
    for way, right, reason in (("rdmsr", "r", RDMSR), ("wrmsr", "w", WRMSR)):
        for index in sorted(near):
            if not subject.grants_msr(index, right):
                sheet.ask(("MSRs", f"{subject.name}: {way} {index:#x}"), (reason, 0, None, None),
                          emulator.RUN, size=PIECES[way], number=index, value=UNFIT)
        blocks = sorted({(index // 32 * 32, 32) for index in near})
        for first, count in blocks if short else MSR_SCANS:
            scan_msrs(sheet, subject, way, first, count)


def scan_msrs(sheet, subject, way, first, count):
    """Every MSR of a range, by RDMSR or WRMSR."""
    classes = bytearray([EXITS]) * count
    for index, _ in subject.msrs:
        if first <= index < first + count and subject.grants_msr(index, way[0]):
            classes[index - first] = PASSES
    sheet.ask(("MSRs", f"{subject.name}: {way} of"), (first, bytes(classes)),
              emulator.SCAN_MSRS, size=PIECES[way], number=first, value=count)


def judge_area(answer, loads):
    """What an entry of the area comes to: None if right, the word of a known difference, or what is wrong."""
    reason, detail, qualification, _, value = answer
    if detail == emulator.REFUSED:
        if not loads:
            return REFUSED
        return REFUSED if (reason, qualification) == (ENTRY_REFUSED, 1) else "loaded, though refused elsewhere"
    if detail == emulator.UNREADABLE:
        return None if reason in (0, VMCALL) else "not loaded"
    return None if (reason, value) == (VMCALL, 1) else "another MSR"


def ask_area(sheet, subject, control):
    """The entries of the MSR area, in the order of the grants (docs/tables.md)."""
    for count, (index, _) in enumerate(subject.msrs):
        for kind, way in ((emulator.AREA_LOAD, "loaded"), (emulator.AREA_STORE, "stored")):
            sheet.ask(("areas", f"{subject.name}: entry {count} for MSR {index:#x}, {way}"),
                      lambda answer, loads=kind == emulator.AREA_LOAD: judge_area(answer, loads),
                      kind, number=count, value=index)
    if control.entries != len(subject.msrs):
        sheet.wrong.append(("areas", f"{subject.name}: {control.entries} entries, not {len(subject.msrs)}"))


def ask_policy(sheet, subjects, image, short):
    """All questions about a policy; returns how many addresses of windows no guest reaches."""
    beyond = 0
    names = [[one.name for one in side] for side in (image.subjects, subjects)]
    if names[0] != names[1]:
        raise emulator.Broken(f"the image has the subjects {names[0]}, not {names[1]}")
    for control, subject in zip(image.subjects, subjects):
        host = host_of(subject)
        bitmaps = {"ports_a": control.ports, "ports_b": control.ports + PAGE, "msr_bitmap": control.msr_bitmap,
                   "area": control.area}
        sheet.begin(eptp=control.eptp, code_address=host.page, code_place=host.place, mode=host.mode, **bitmaps)
        others = [one for one in subjects if one is not subject]
        beyond += ask_memory(sheet, subject, others, image.spans, host, short, not short)
        if LOAD not in host.ways:
            # it may run nothing: its bitmaps are asked over the stub's own memory
            sheet.begin(mode=PAGED, **bitmaps)
        ask_ports(sheet, subject, short)
        ask_msrs(sheet, subject, short)
        ask_area(sheet, subject, control)
    return beyond


@dataclass
class Counts:
    """Of each topic how much was asked; what differs; known differences by their words."""

    asked: dict = field(default_factory=dict)
    differ: list = field(default_factory=list)
    known: dict = field(default_factory=dict)

    def add(self, topic, count=1):
        """So much was asked."""
        self.asked[topic] = self.asked.get(topic, 0) + count


def fits(answer, expected):
    """Whether an answer is the expected one; None stands for anything."""
    reason, _, qualification, address, value = answer
    found = (reason, qualification, address, value)
    return all(want is None or want == have for want, have in zip(expected, found))


def spelled(values):
    """Numbers for a line of differences."""
    return " ".join("-" if value is None else f"{value:#x}" for value in values)


def compare(sheet, answers):
    """Holds the answers against what is expected."""
    counts, at = Counts(differ=list(sheet.wrong)), 0
    for (topic, words), expected in sheet.asked:
        if isinstance(expected, tuple) and isinstance(expected[1], bytes):
            first, classes = expected
            found = answers[at:at + len(classes)]
            counts.add(topic, len(classes))
            if found != classes:
                counts.differ += [(topic, f"{words} {first + i:#x}: {found[i]}, not {classes[i]}")
                                  for i in range(len(classes)) if found[i] != classes[i]]
            at += len(classes)
            continue
        answer = struct.unpack_from("<IIQQQ", answers, at)
        at += 32
        counts.add(topic)
        if callable(expected):
            wrong = expected(answer)
            if wrong == REFUSED:
                counts.known[wrong] = counts.known.get(wrong, 0) + 1
            elif wrong:
                counts.differ.append((topic, f"{words}: {wrong}: {spelled(answer)}"))
        elif not fits(answer, expected):
            reason, _, *rest = answer
            counts.differ.append((topic, f"{words}: {spelled([reason, *rest])}, not {spelled(expected)}"))
    return counts
