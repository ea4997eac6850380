"""look image: what the bytes of an image say."""
import hashlib

from looking import bitmaps, guest
from looking.dma_file import NO_TABLES, Reaches, context_entries, domain_of, read_dma
from looking.image_file import DEVICE, KINDS, PAGE
from looking.system import System, size_text, span_part
from looking.words import counted

HELP = "what an image's bytes say: spans, windows, grants, events, plan, devices, DMA tables"
LONG_HELP = """Prints what an image's bytes say, section by section: spans of memory; of each subject
its state at the start, its windows by a walk of its tables, its ports and MSRs by the
bitmaps, what its calls and traps raise, its interrupts; scheduling groups and plan;
devices; and the tables of a DMA file where one is given. Addresses and sizes in bytes
are hexadecimal, other numbers decimal."""


def add_arguments(parser):
    """The words of this form."""
    parser.add_argument("image", metavar="IMAGE", help="an image, as `muen build` writes it")
    parser.add_argument("dma", metavar="DMA", nargs="?",
                        help="the file of DMA tables of the same build")
    parser.add_argument("--code", action="store_true",
                        help="list the instructions of spans that may run, too")


def run(arguments):
    """Prints the sections, with an empty line between them."""
    sections = sections_of(arguments.image, arguments.dma, arguments.code)
    print("\n\n".join("\n".join([title, *(f"  {line}" for line in lines)])
                      for title, lines in sections))
    return 0


def sections_of(name, dma, code):
    """Titles with lines: what an image says. Titles differ."""
    system = System(name)
    sections = [("image", header_lines(system)), ("spans", list(map(span_line, system.image.spans)))]
    names = [subject.name for subject in system.image.subjects]
    for number, subject in enumerate(system.image.subjects):
        first = names.index(subject.name) == number
        title = f"subject {subject.name}" if first else f"subject {subject.name}, number {number}"
        sections.append((title, subject_lines(system, number)))
    sections += [("groups", group_lines(system)), *frame_sections(system)]
    sections += [(f"device {device.name}", device_lines(system, device))
                 for device in system.image.devices]
    if code:
        sections += code_sections(system)
    if dma is not None:
        sections += dma_sections(system, read_dma(dma))
    elif system.image.devices:
        sections.append(("DMA tables", [NO_TABLES]))
    return sections


def header_lines(system):
    """docs/image.md, the header."""
    image = system.image
    counts = [(image.cpus, "CPU"), (len(image.subjects), "subject"), (len(image.groups), "group"),
              (len(image.frames), "major frame"), (len(image.devices), "device"),
              (len(image.spans), "span")]
    text = ", ".join(counted(count, word) for count, word in counts)
    choice = image.choice
    return [text, f"the first byte of {choice.name} chooses the next major frame" if choice
            else "major frames follow one another"]


def span_line(span):
    """docs/image.md, each span of memory, with its content in short."""
    text = f"{span.place:10x} {size_text(span.size):>8} {KINDS[span.kind]:8} {span.name}"
    if span.content is None:
        return f"{text} (number {span.number})"
    zeros = bytes(span.content).count(0) == span.size
    digest = f"SHA-256 {hashlib.sha256(span.content).hexdigest()[:16]}"
    return f"{text} (number {span.number}): {'zeros' if zeros else digest}"


def subject_lines(system, number):
    """docs/image.md, each subject, with what docs/tables.md says of its tables and bitmaps."""
    subject, view = system.image.subjects[number], system.view(number)
    lines = [f"number {number}, CPU {subject.cpu}, group {subject.group}", *state_lines(subject)]
    table = system.memory.span_at(subject.table_pointer & -PAGE)
    lines.append(f"tables from {subject.table_pointer & -PAGE:x} on,"
                 f" in {table.name if table else 'no span'}")
    lines += map(window_line, view.windows)
    lines += [f"misfit {one.guest:x}: {one.why} (level {one.level}, {one.value:x})"
              for one in view.misfits]
    lines += port_lines(system, subject) + msr_lines(subject)
    for way, events in (("call", subject.calls), ("trap", subject.traps)):
        lines += [system.raised(way, at, number, event) for at, event in sorted(events.items())]
    lines += [f"interrupt {one.name} of {device.name}: vector {one.vector}"
              for device in system.image.devices for one in device.interrupts if one.target == number]
    return lines


def state_lines(subject):
    """docs/tables.md, the state page."""
    page = subject.state.content

    def word(at):
        """A field of eight bytes."""
        return int.from_bytes(page[at:at + 8], "little")
    text = f"starts at {word(128):x} ({guest.flags(page[152] & 15)})"
    others = [("epc", word(136)), ("vbase", word(144))]
    others += [(f"r{at}", word(8 * at)) for at in range(16)]
    return [text + "".join(f", {name} {value:x}" for name, value in others if value)]


def window_line(window):
    """A window: where, how much, rights, what it shows, by which pages, with which memory type."""
    pages = ", ".join(f"{count} of {size}" for size, count in window.pages.items())
    shows = (span_part(window.span, window.place, window.size) if window.span
             else f"no memory at {window.place:x}")
    return (f"window {window.guest:x} {window.size:x} {window.rights} {shows}"
            f" ({pages}, {window.caching})")


def spread(word, first, last, number="{:x}".format):
    """One number, or from which to which they are."""
    return f"{word} {number(first)}" if first == last else f"{word}s {number(first)} to {number(last)}"


def port_lines(system, subject):
    """The ports whose bits are zero, with the devices that have them."""
    lines = []
    for first, last in bitmaps.granted_ports(subject):
        owners = [device.name for device in system.image.devices
                  if any(low <= last and first <= high for low, high in device.ports)]
        lines.append(f"{spread('port', first, last)} of {' '.join(owners) or 'no device'}")
    return lines or ["no ports"]


def msr_lines(subject):
    """The MSRs whose bits are zero, and those that the area has."""
    lines = [f"{spread('MSR', first, last)} {rights}"
             for first, last, rights in bitmaps.granted_msrs(subject)]
    area = list(bitmaps.area_indexes(subject))
    lines += [f"its area has {spread('MSR', first, last)}"
              for first, last in bitmaps.ranges([index for index, _ in area])]
    lines += [f"MSR {index:x} is {value:x} at first" for index, value in area if value]
    return lines or ["no MSRs"]


def group_lines(system):
    """docs/image.md, each scheduling group; the first member is the active one at first."""
    lines = []
    for number, group in enumerate(system.image.groups):
        others = [subject.name for at, subject in enumerate(system.image.subjects)
                  if subject.group == number and at != group.first]
        members = " ".join([system.name(group.first), *others])
        lines.append(f"group {number}, CPU {group.cpu}: {members}")
    return lines


def frame_sections(system):
    """docs/image.md, each major frame; docs/scheduling.md has the plan."""
    for number, frame in enumerate(system.image.frames):
        lines = [counted(frame.ticks, "tick")]
        for cpu, minors in enumerate(frame.minor_frames):
            row = [f"group {group} ({system.name(system.image.groups[group].first)}) {ticks}"
                   for group, ticks in minors]
            lines.append(f"CPU {cpu}: {', '.join(row)}")
        yield f"major frame {number}", lines


def device_lines(system, device):
    """docs/image.md, each device."""
    lines = [spread("port", first, last) for first, last in device.ports]
    lines += [f"memory {span.name} at {span.place:x}, {size_text(span.size)}"
              for span in device.memories]
    for one in device.interrupts:
        target = "nobody" if one.target is None else f"{system.name(one.target)}, vector {one.vector}"
        lines.append(f"interrupt {one.name}: {target}")
    return lines or ["has nothing"]


def code_sections(system):
    """The instructions of spans that some subject may run, from their first byte on."""
    views = [system.view(number) for number in range(len(system.image.subjects))]
    shown = {window.span.number for view in views for window in view.windows
             if window.span and window.span.kind != DEVICE and "x" in window.rights}
    for span in system.image.spans:
        if span.number in shown:
            yield f"code {span.name}", list(code_lines(span))


def code_lines(span):
    """Its instructions, of which those of zeros, NOPs, behind the last other one are left out."""
    content = bytes(span.content)
    size = -(-len(content.rstrip(b"\0")) // 8) * 8
    for at in range(0, size, 8):
        word = content[at:at + 8]
        yield f"{at:6x} {word.hex()} {guest.decode(word) or 'no instruction'}"
    if size < len(content):
        yield f"{size:6x} zeros up to {len(content):x}"


def dma_sections(system, file):
    """docs/dma.md: what each device reaches by itself."""
    lines = [f"{len(file.pages)} pages from {file.base:x} on"]
    known = {(master.bus, master.function): master.name for master in file.masters}
    found = {key: domain_of(entry) for key, entry in context_entries(file)}
    lines += [f"an entry for {bus:02x}:{function >> 3:02x}.{function & 7}, which is no device's"
              for bus, function in found if (bus, function) not in known]
    yield "DMA tables", lines
    for master in file.masters:
        domain = found.get((master.bus, master.function))
        rows = [f"at {master.bus_place}, {f'domain {domain[0]}' if domain else 'in no domain'}"]
        for reach in Reaches(file, domain[1], master.name).found if domain else ():
            rows += [reach_line(*one) for one in reached(system, reach)]
        yield f"DMA of {master.name}", rows


def reach_line(span, place, address, size, rights):
    """Addresses of a device with the span that they lead to."""
    shows = span_part(span, place, size) if span else f"no memory at {place:x}"
    return f"window {address:x} {size:x} {rights} {shows}"


def reached(system, reach):
    """Parts of what a device reaches: the span or none, the place, the device's address, the size, the rights."""
    done = 0
    while done < reach.size:
        place = reach.place + done
        span = system.memory.span_at(place)
        end = span.end if span else system.memory.next_place(place) or place + reach.size
        size = min(end - place, reach.size - done)
        yield span, place, reach.address + done, size, reach.rights
        done += size
