"""look draw memory: physical memory in the order of its addresses, and each subject's addresses, both with their gaps."""
from dataclasses import dataclass

from looking.draw_matrix import COLOURS, MEANINGS
from looking.image_file import KERNEL, KINDS, STATE
from looking.scene import add_system, scene_of
from looking.svg import Picture, width
from looking.system import size_text
from looking.words import both

HELP = "what lies where in physical memory, and at which addresses each subject sees what, with gaps"
LONG_HELP = """Draws a row for each region in the order of addresses, with its size, and who sees it with
which rights; the pages of the kernel that follow one another are one row, and so is a gap.
Below stand the addresses of each subject, and those of each domain of devices, with what
they show. A policy tells no places, so of one the first part is left out. Addresses are
hexadecimal; the pointer tells them in decimal."""
OWN, KERNEL_COLOUR, DEVICE_COLOUR = "#e8eef5", "#dddddd", "#fde9c4"
LINE, WIDE, BLOCK, GAP = 17, 806, 394, 18
AT, NAME, SIZE = 96, 112, 78


@dataclass
class Row:
    """A row: where it begins, how long it is, its name, its colour, what stands behind it; a gap has no colour."""
    begin: int
    size: int
    name: str
    colour: str = ""
    fact: str = ""


def add_arguments(parser):
    """The words of this picture."""
    add_system(parser)


def draw(arguments):
    """The picture."""
    return drawn(scene_of(arguments))


def drawn(scene):
    """The picture of a scene."""
    picture, title = Picture(), f"memory of {scene.source}"
    picture.text(12, 19, title, room=WIDE, bold=True, size=12)
    used = {sight.rights for subject in (*scene.subjects, *scene.bodies) for sight in subject.sights}
    marks = [(colour, f"{rights}: {MEANINGS[rights]}") for rights, colour in COLOURS.items() if rights in used]
    rows = physical(scene)
    there = {row.colour for row in rows}
    marks += [mark for mark in ((KERNEL_COLOUR, "the kernel's"), (DEVICE_COLOUR, "a device's")) if mark[0] in there]
    y = picture.legend(12, 40, WIDE, marks) + 8
    if rows:
        y = draw_block(picture, "physical memory", rows, 12, y, WIDE) + GAP
    blocks = [(f"{subject.name}, CPU {subject.cpu}", subject.sights) for subject in scene.by_cpu]
    blocks += [(f"{body.title}, by itself", body.sights) for body in scene.bodies if body.sights]
    for at in range(0, len(blocks), 2):
        y = max(draw_block(picture, heading, seen(sights), 12 + side * (BLOCK + GAP), y, BLOCK)
                for side, (heading, sights) in enumerate(blocks[at:at + 2])) + GAP
    return picture.svg(title)


# ---- rows

def physical(scene):
    """The rows of physical memory, by address; none of a policy."""
    seers, rows = {}, []
    for one in (*scene.subjects, *scene.bodies):
        for sight in one.sights:
            seers.setdefault(sight.thing.number, []).append(f"{getattr(one, 'name', None) or one.title} {sight.rights}")
    for span in sorted(scene.spans, key=lambda span: span.place):
        kernel = KINDS[span.kind] == KINDS[KERNEL] and not (span.part == STATE and span.number in seers)
        last = rows[-1] if rows else None
        if kernel and last and last.colour == KERNEL_COLOUR and last.begin + last.size == span.place:
            last.size += span.size
            last.fact += f", {span.name}"
            last.name = "kernel"
            continue
        colour = KERNEL_COLOUR if kernel else DEVICE_COLOUR if span.content is None else OWN
        fact = span.name if kernel else ", ".join(seers.get(span.number, ())) or "seen by nobody"
        rows.append(Row(span.place, span.size, "kernel" if kernel else span.name, colour, fact))
    return with_gaps(rows)


def seen(sights):
    """The rows of who sees these."""
    return with_gaps([Row(sight.address, size_of(sight), sight.thing.name, COLOURS[sight.rights], sight.rights)
                      for sight in sorted(sights, key=lambda sight: sight.address)])


def size_of(sight):
    """How many bytes a window has: all of the thing, or the part that it says."""
    return int(sight.part.split()[0], 16) if sight.part else sight.thing.size


def with_gaps(rows):
    """The rows with one between two that don't adjoin."""
    found = []
    for row in rows:
        if found and found[-1].begin + found[-1].size < row.begin:
            end = found[-1].begin + found[-1].size
            found.append(Row(end, row.begin - end, "gap"))
        found.append(row)
    return found


# ---- the picture

def draw_block(picture, heading, rows, x, y, wide):
    """Rows below a heading; where the next line would be."""
    picture.text(x, y + 12, heading, room=wide, bold=True)
    y += LINE + 2
    if not rows:
        picture.text(x, y + 12, "nothing", fill="#555", size=10)
        return y + LINE
    for row in rows:
        whole = f"{both(row.begin)} to {both(row.begin + row.size - 1)}, {size_text(row.size)}: {row.name}{', ' if row.fact else ''}{row.fact}"
        draw_row(picture, row, whole, x, y, wide)
        y += LINE
    return y


def draw_row(picture, row, whole, x, y, wide):
    """A row: address, name, size, and what stands behind."""
    base = y + 12.5
    if not row.colour:
        picture.path(f"M{x + AT} {y + LINE / 2}H{x + wide}", title=whole, stroke="#999", stroke_width=".8", stroke_dasharray="3 3")
        picture.text(x + AT - 8, base, f"{gap_text(row.size)} free", text_anchor="end", size=9, fill="#555", title=whole)
        return
    picture.rect(x + AT, y, wide - AT, LINE, title=whole, fill=row.colour, stroke="#999", stroke_width=".6")
    picture.text(x + AT - 8, base, f"{row.begin:x}", room=AT - 8, title=both(row.begin), text_anchor="end", size=10)
    size, fact_room = size_text(row.size), 36 if wide == BLOCK else 330
    name_room = wide - AT - 8 - SIZE - fact_room
    picture.text(x + AT + 6, base, row.name, room=name_room, title=whole if width(row.name) > name_room else "")
    picture.text(x + wide - fact_room - 12, base, size, text_anchor="end", size=10, fill="#333")
    picture.text(x + wide - fact_room, base, row.fact, room=fact_room - 4, size=10, fill="#333")


def gap_text(size):
    """About how long a gap is; its title has all digits."""
    exact = size_text(size)
    if len(exact) < 10:
        return exact
    power = min((size.bit_length() - 1) // 10, 4)
    return f"{size / (1 << 10 * power):.1f} {('bytes', 'KiB', 'MiB', 'GiB', 'TiB')[power]}"
