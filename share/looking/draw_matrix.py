"""look draw matrix: which subject sees which memory, with rights and addresses; ports, MSRs and interrupts."""
from dataclasses import dataclass, field
from itertools import accumulate, groupby

from looking.dma_file import NO_TABLES
from looking.image import spread
from looking.scene import MANY, add_system, scene_of
from looking.svg import Picture, widest
from looking.system import size_text
from looking.words import both

HELP = "who sees which region, with rights and addresses; ports, MSRs and interrupts"
LONG_HELP = f"""Draws a row for each region, channel and device's memory, and for each state page that is
monitored, and a column for each subject and for each domain of devices: in a cell stand
the rights and the address of a window. What several see is bold. Further rows are ports,
MSRs and interrupts. Addresses, ports and MSRs are hexadecimal; the pointer tells them in
decimal. From {MANY} subjects on it has parts below one another, each of the CPUs for which a
page has room, with what somebody there sees; `--whole` draws one."""
COLOURS = {"r": "#d6e6f5", "w": "#f9c9a0", "rw": "#f9d5ab", "rx": "#d3ecd0", "rwx": "#f4b6b6"}
MEANINGS = {"r": "read", "w": "write", "rw": "read, write", "rx": "read, execute", "rwx": "all three"}
GRANTED = "#e6dff0"
LINE, PAD, MOST_HEAD = 17, 10, 200
# how wide a picture of several parts is at most, and how far one is below the other
WIDE, GAP = 818, 28


@dataclass
class Row:
    """A row: its name, of each column the cells (a text, a colour, a title), and what stands at its end."""
    name: str
    cells: dict[int, list[tuple[str, str, str]]]
    facts: tuple[str, str] = ("", "")
    # of each column who sees it, where the row is memory
    seers: dict[int, str] = field(default_factory=dict)
    # the name, and the first of what stands at the end, with numbers in decimal
    titles: tuple[str, str] = ("", "")

    @property
    def shared(self):
        """Whether several have it."""
        return len(self.cells) > 1

    @property
    def high(self):
        """How high it is."""
        return LINE * max([1, *map(len, self.cells.values())])


def add_arguments(parser):
    """The words of this picture."""
    add_system(parser)
    parser.add_argument("--whole", action="store_true", help=f"draw one matrix, also of {MANY} subjects or more")


def draw(arguments):
    """The picture."""
    return drawn(scene_of(arguments), arguments.whole)


def drawn(scene, whole=False):
    """The picture of a scene."""
    picture = Picture()
    columns = [(f"CPU {subject.cpu}", subject.name, subject) for subject in scene.by_cpu]
    columns += [("DMA", body.title, body) for body in scene.bodies if body.sights]
    sections = list(sections_of(scene, [column for _, _, column in columns]))
    rows = [row for _, of_section in sections for row in of_section]
    frame = Frame([names[:2] for names in columns], rows)
    used = sorted({colour for row in rows for cells in row.cells.values() for _, colour, _ in cells} & set(COLOURS.values()))
    marks = [(colour, f"{rights}: {MEANINGS[rights]}") for rights, colour in COLOURS.items() if colour in used]
    title = f"who sees what of {scene.source}"
    picture.text(12, 19, title, room=800, bold=True, size=12)
    picture.text(12, 40, "bold: several see it", bold=True)
    y = picture.legend(160, 40, 700, marks) + 12
    if not scene.knows_dma:
        picture.text(12, y + 2, NO_TABLES, fill="#a4241c")
        y += 18
    parts = [list(range(len(columns)))] if whole or len(scene.subjects) < MANY else frame.parts()
    for part in parts:
        # what nobody sees stands in the last part
        shown = [(heading, [row for row in of_section if row.cells.keys() & set(part) or part is parts[-1] and not row.cells])
                 for heading, of_section in sections]
        y = draw_part(picture, frame, part, shown, y) + GAP
    return picture.svg(title)


class Frame:
    """Where columns and rows are: of each column its headings and how wide it is, and how wide what stands beside cells is."""

    def __init__(self, heads, rows):
        self.heads, self.name_room = heads, min(widest((row.name for row in rows), bold=True), 230)
        self.left = 12 + self.name_room + PAD
        self.rooms = [max(56, min(widest((head,), bold=True), MOST_HEAD),
                          widest((text for row in rows for text, *_ in row.cells.get(at, ())), 10)) + PAD
                      for at, (_, head) in enumerate(heads)]
        self.fact_room, self.last_room = (widest((row.facts[at] for row in rows), 10) for at in (0, 1))

    def edges(self, part):
        """Of each column of a part where it begins, and where the last one ends."""
        *begins, end = accumulate((self.rooms[at] for at in part), initial=self.left)
        return dict(zip(part, begins)), end

    def parts(self):
        """The columns as parts that are no wider than a page; those of a CPU are in one where they have room."""
        room = WIDE - self.left - PAD - self.fact_room - 14 - self.last_room
        found = [[]]
        for _, group in groupby(range(len(self.heads)), key=lambda at: self.heads[at][0]):
            group = list(group)
            for more in [group] if sum(self.rooms[at] for at in group) <= room else [[at] for at in group]:
                if found[-1] and sum(self.rooms[at] for at in (*found[-1], *more)) > room:
                    found.append([])
                found[-1] += more
        return found


def draw_part(picture, frame, part, sections, y):
    """Some columns with the rows of each section; where the next line would be."""
    edges, end = frame.edges(part)
    y = draw_heads(picture, frame, part, y)
    ends = [end + PAD, end + PAD + frame.fact_room + 14]
    for title, rows in sections:
        if rows:
            picture.text(12, y + 16, title, size=10, fill="#555")
            y += LINE + 4
            for row in rows:
                draw_row(picture, frame, row, (edges, end, ends), y)
                y += row.high
    return y


def draw_heads(picture, frame, part, y):
    """The names of the columns, and those of their CPUs above."""
    edges, end = frame.edges(part)
    for over, group in groupby(part, key=lambda at: frame.heads[at][0]):
        group = list(group)
        picture.text(edges[group[0]] + 2, y, over, room=sum(frame.rooms[at] for at in group), fill="#555", size=10)
    for at in part:
        picture.text(edges[at] + frame.rooms[at] / 2, y + 16, frame.heads[at][1], room=frame.rooms[at] - 4, bold=True, text_anchor="middle")
    return y + 22


def draw_row(picture, frame, row, places, y):
    """A row: its name, its cells, and what stands at its end."""
    edges, end, ends = places
    base = y + row.high / 2 + 4
    picture.text(frame.left - PAD, base, row.name, room=frame.name_room, title=row.titles[0], bold=row.shared, text_anchor="end")
    begins = [*edges.values(), end]
    picture.path(f"M{frame.left:.1f} {y}H{end:.1f}M{frame.left:.1f} {y + row.high}H{end:.1f}" + "".join(f"M{x:.1f} {y}v{row.high}" for x in begins),
                 stroke="#ccc", stroke_width=".6")
    for at, x in edges.items():
        if at in row.cells:
            draw_cells(picture, row, at, (x, y, frame.rooms[at]))
    for x, fact, title in zip(ends, row.facts, (row.titles[1], "")):
        picture.text(x, base, fact, title=title, size=10, fill="#333")


def draw_cells(picture, row, at, place):
    """The cells of a row in a column."""
    (x, y, wide), high = place, row.high / len(row.cells[at])
    marks = {"data_thing": row.name, "data_subject": row.seers[at]} if at in row.seers else {}
    for line, (text, colour, title) in enumerate(row.cells[at]):
        picture.rect(x, y + line * high, wide, high, title=title, fill=colour, stroke="#999", stroke_width=".6", **marks)
        picture.text(x + wide / 2, y + line * high + high / 2 + 4, text, size=10, text_anchor="middle")


# ---- rows

def sections_of(scene, columns):
    """Titles with their rows."""
    yield "memory", [thing_row(thing, columns) for thing in scene.things]
    yield "ports", [port_row(columns, *one) for one in every(columns, "ports")]
    yield "MSRs", list(msr_rows(columns))
    yield "interrupts", list(interrupt_rows(columns))


def every(columns, kind):
    """All ports, MSRs or interrupts that a column has, each once, in order."""
    return sorted({one for column in columns for one in getattr(column, kind, ())})


def thing_row(thing, columns):
    """A row of memory: who sees it, its place and size."""
    cells, seers, seen = {}, {}, {"writes": [], "reads": []}
    for at, column in enumerate(columns):
        sights = [sight for sight in column.sights if sight.thing == thing]
        name = getattr(column, "name", None) or column.title
        if sights:
            cells[at], seers[at] = [sight_cell(name, sight) for sight in sights], name
            seen["writes" if any("w" in sight.rights for sight in sights) else "reads"].append(name)
    place, exact = ("", "") if thing.place is None else (f"{thing.place:x}, ", f"{both(thing.place)}, {thing.size} bytes")
    writers = len(seen["writes"])
    shared = f"shared by {len(cells)}, {writers or 'nobody'} write{'s' if writers < 2 else ''}" if len(cells) > 1 else ""
    return Row(thing.name, cells, (place + size_text(thing.size), shared if cells else "seen by nobody"), seers, ("", exact))


def sight_cell(name, sight):
    """The cell of a window."""
    part = f" ({sight.part})" if sight.part else ""
    text = f"{sight.rights} {sight.address:x}"
    return text + part, COLOURS[sight.rights], f"{name} sees {sight.thing.name}{part} at {both(sight.address)}, {sight.rights}"


def port_row(columns, device, first, last):
    """A row of ports, and who has them."""
    name, exact = (f"{device or 'no device'}: {spread('port', first, last, number)}" for number in ("{:x}".format, both))
    cells = {at: [("granted", GRANTED, f"{column.name} has {exact}")] for at, column in enumerate(columns)
             if (device, first, last) in getattr(column, "ports", ())}
    return Row(name, cells, titles=(exact, ""))


def msr_rows(columns):
    """A row for each range of MSRs that somebody has."""
    for first, last in sorted({(first, last) for first, last, _ in every(columns, "msrs")}):
        name, exact = (spread("MSR", first, last, number) for number in ("{:x}".format, both))
        yield Row(name, {at: [(rights, COLOURS[rights], f"{column.name} has {exact}, {rights}")] for at, column in enumerate(columns)
                         for low, high, rights in getattr(column, "msrs", ()) if (low, high) == (first, last)}, titles=(exact, ""))


def interrupt_rows(columns):
    """A row for each interrupt that somebody has."""
    for device, irq in sorted({(device, irq) for device, irq, _ in every(columns, "interrupts")}):
        yield Row(f"{device}: {irq}", {at: [(f"vector {vector}", GRANTED, f"{column.name} has {irq} of {device}, vector {vector}")]
                                       for at, column in enumerate(columns) for other, name, vector in getattr(column, "interrupts", ())
                                       if (other, name) == (device, irq)})
