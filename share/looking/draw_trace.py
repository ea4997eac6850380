"""look draw trace: the turns of a run, by CPU and subject, with arrows from calls to deliveries."""
import pathlib
from bisect import bisect_right
from collections import Counter
from dataclasses import dataclass
from itertools import accumulate, groupby

from looking.draw_plan import draw_ticks
from looking.files import read_text
from looking.image_file import STATE, SWITCH
from looking.inputs import add_record, inputs_of
from looking.svg import Picture, shortened, widest, width
from looking.system import System
from looking.trace import Teller
from looking.turns import kind_of, lines_of
from looking.words import decimals
from looking.wrong import Wrong

HELP = "the turns of a run by CPU and subject, with arrows from calls to deliveries"
LONG_HELP = """Draws a lane for each subject, those of a CPU together, and in it a cell for each turn, whose
title is what `look trace` says of it, with numbers in decimal; a letter tells its kind where
there is room. Behind it is grey in the ticks that its group has. An arrow leads from the call or trap that raised
an event first to the event's delivery, a dashed one from a handover to the first turn of the
subject that gets the CPU, and a dotted one from a monitor's last store into a state to the
next turn of the subject whose state it is. Above stand the value of an output, hexadecimal,
and the name of a device's interrupt. What the text doesn't tell is left out. With the record
of the run a lane on top has what its lines did, and what was dropped. More than 400
ticks are summed up: how many turns of each kind there are in so many ticks."""
# the kinds of lines, each with its colour; each is of another lightness, so that they print in black and white; halts and
# outputs are hatched, and all but the two that are most have a letter
KINDS = {"instruction": "#6699d0", "jump, flag, NOP": "#c6dcf1", "store": "#f7b45c", "call": "#2c7a3f", "halt": "#a9a9a9",
         "event": "#6536a0", "output": "#dc4136", "trapped fault": "#5a3322", "fault, stops": "#000000"}
LETTERS = {"store": "S", "call": "C", "halt": "H", "event": "E", "output": "O", "trapped fault": "T", "fault, stops": "X"}
LIGHT = {"store", "halt"}
HATCHES = {"halt": "M0 2H6", "output": "M-1 7L7 -1"}
SLOT = "#ececec"
# the kinds of arrows: the colour, the dashes, and what the key says of them
ARROWS = {"arrow": ("#2c7a3f", "", "from the call or trap that raised an event to its delivery"),
          "handover": ("#5a3322", "4 2", "dashed: to the first turn after a handover"),
          "monitor": ("#8a2b6b", "1.5 2", "dotted: from a monitor's last store into a state to the subject's next turn")}
# the lane of a record: the colours of ticks with lines, of which none or one was dropped
GIVEN, DROPPED, RECORD = "#8c7a3d", "#dc4136", "record"
SHOWN, MOST_EACH, MOST, MOST_TOLD = 150, 400, 10_000, 12
COLUMNS, LEAST_COLUMNS = 300, 40
HIGH, HIGH_SUMS, GAP, WIDE = 19, 44, 13, 1200


@dataclass
class Cell:
    """A turn: its tick, its subject, its kind, what is told of it, and what stands above it."""
    tick: int
    who: int
    kind: str
    title: str
    value: str


@dataclass
class Arrow:
    """From a turn to a later one, each by its tick and its subject; its kind is one of ARROWS."""
    start: tuple[int, int]
    end: tuple[int, int]
    kind: str = "arrow"


def add_arguments(parser):
    """The words of this picture."""
    parser.add_argument("image", metavar="IMAGE", help="the image that was run")
    parser.add_argument("trace", metavar="TRACE", help="what `muen run` printed; - is standard input")
    parser.add_argument("--from", metavar="TICK", dest="first", type=int, help="the first tick that is drawn; without it, that of the text")
    parser.add_argument("--until", metavar="TICK", dest="end", type=int,
                        help=f"the tick behind the last; at most {MOST} are drawn, and {SHOWN} without it")
    add_record(parser)


def draw(arguments):
    """The picture."""
    system, text = System(arguments.image), read_text(arguments.trace, 1 << 30)
    inputs = inputs_of(arguments, system)
    teller = Teller(system, lines_of(text, arguments.trace), arguments.trace)
    first = teller.ticks.start if arguments.first is None else arguments.first
    if first >= teller.ticks.stop:
        raise Wrong(f"{arguments.trace}: no turn from tick {first} on is in it")
    end = min(first + SHOWN, teller.ticks.stop) if arguments.end is None else arguments.end
    if not 0 <= first < end <= first + MOST:
        raise Wrong(f"from {first} until {end}: want 1 to {MOST} ticks")
    run = Run(teller, lines_of(text, arguments.trace), first, end, inputs)
    return drawn(run, first, end, f"{pathlib.Path(arguments.image).name}, {pathlib.Path(arguments.trace).name}: ticks {first} to {end - 1}")


class Run:
    """Goes through lines, and those of a record: the cells and slots of a window of ticks, and the arrows that end in it."""

    def __init__(self, teller, lines, first, end, inputs=None):
        self.teller, self.system, self.replay, self.first = teller, teller.system, teller.replay, first
        self.inputs, self.given = inputs, []
        self.plan = Plan(self.system, self.replay.complete)
        # of a subject the turn that handed it the CPU, and the monitor's last store into its state
        self.cells, self.arrows, self.handed, self.stored = [], [], {}, {}
        for _, turn in lines:
            if turn is None or turn.tick >= end:
                break
            self.take(turn, teller.numbers[turn.subject, turn.cpu])
        self.plan.go_to(end - 1)
        self.read(end - 1)

    def read(self, tick):
        """The lines of the record up to those of a tick, which come before its turns."""
        for number in self.inputs.go_to(tick) if self.inputs else ():
            self.meet_input(number, self.inputs.lines[number])

    def meet_input(self, _, line):
        """A line of the record that is drawn."""
        if line.tick >= self.first:
            self.given.append(line)

    def take(self, turn, who):
        """A turn, behind the inputs of its tick: its cell, and the arrows that end in it."""
        self.read(turn.tick)
        self.plan.go_to(turn.tick)
        self.plan.agree(self.system.image.subjects[who].group)
        ends = {kept.pop(who): kind for kind, kept in (("handover", self.handed), ("monitor", self.stored)) if who in kept}
        raised = self.replay.waiting.get((who, turn.facts["vector"])) if turn.kind == "inject" else None
        if raised:
            ends.setdefault((raised.first, raised.who), "arrow")
        self.replay.meet(who, turn)
        found = self.replay.instruction(who, turn)
        self.note(turn, who, found)
        told = self.teller.parts(who, turn, found)
        if turn.tick >= self.first:
            self.arrows += [Arrow(start, (turn.tick, who), kind) for start, kind in ends.items()]
            self.keep(turn, who, told, self.value(turn, who, raised))

    def note(self, turn, who, found):
        """Whom a turn hands the CPU to, or whose state it stores into."""
        event = self.replay.raised_by(who, turn, found) if turn.kind == "exit" else None
        if event and event[2] and event[2].mode == SWITCH:
            self.handed[event[2].target] = (turn.tick, who)
        place = self.replay.place_of(who, turn.facts["address"]) if turn.kind == "store" else None
        span = None if place is None else self.system.memory.span_at(place)
        if span and span.part == STATE:
            self.stored.update((other, (turn.tick, who)) for other, subject in enumerate(self.system.image.subjects)
                               if subject.state is span and other != who)

    def keep(self, turn, who, told, value):
        """A turn that is drawn."""
        title = f"{turn.tick} {turn.cpu} {turn.subject} {told.place} {told.code} {told.what}"
        self.cells.append(Cell(turn.tick, who, kind_of(turn), " ".join(title.split()), value))

    def value(self, turn, who, raised):
        """What an output sends, or which interrupt of a device comes."""
        if turn.kind == "inject" and not raised:
            return "/".join(irq.name for _, irq in self.teller.interrupts(who, turn.facts["vector"]))
        return f"{turn.facts['sent']:x}" if turn.kind == "out" else ""


class Plan:
    """Which groups have a CPU at each tick. Where a subject chooses the major frames, its stores tell which; devices may
    choose others, and then no more is told."""

    def __init__(self, system, complete):
        self.image, self.memory = system.image, system.memory
        self.told = complete or self.image.choice is None
        # of each major frame and CPU where the minor frames end, and their groups
        self.minors = [[(list(accumulate(ticks for _, ticks in minors)), [group for group, _ in minors]) for minors in frame.minor_frames]
                       for frame in self.image.frames]
        self.tick, self.frame, self.begun = 0, 0, [(0, 0)]
        self.ticks = [self.groups(0)]

    def groups(self, at):
        """The groups that have a CPU when so many ticks of the major frame are over."""
        return {groups[bisect_right(ends, at)] for ends, groups in self.minors[self.frame]}

    def go_to(self, tick):
        """Goes on to this tick, before its first turn."""
        while self.told and self.tick < tick:
            self.tick += 1
            at = self.tick - self.begun[-1][0]
            if at == self.image.frames[self.frame].ticks:
                self.frame, at = self.next_frame(), 0
                self.begun.append((self.tick, self.frame))
            self.ticks.append(self.groups(at))

    def next_frame(self):
        """The major frame that comes next (docs/scheduling.md)."""
        count = len(self.image.frames)
        if self.image.choice is None:
            return (self.frame + 1) % count
        chosen = self.memory.read(self.image.choice.place, 1)[0]
        return chosen if chosen < count else self.frame

    def agree(self, group):
        """A group has a turn now; where the plan has others, it isn't told from here on."""
        if self.told and group not in self.ticks[-1]:
            self.told = False
            self.ticks.pop()

    def slots(self, group, first, end):
        """From which tick to which a group has its CPU, each as a first tick and the one behind."""
        found = []
        for tick in range(first, min(end, len(self.ticks))):
            if group in self.ticks[tick]:
                if found and found[-1][1] == tick:
                    found[-1][1] = tick + 1
                else:
                    found.append([tick, tick + 1])
        return found


# ---- the picture

class Lanes:
    """Where ticks and subjects are."""

    def __init__(self, image, first, end):
        subjects = image.subjects
        self.order = sorted(range(len(subjects)), key=lambda who: subjects[who].cpu)
        self.subjects, self.first, self.end, self.top = subjects, first, end, 0
        self.name_room = min(widest(subject.name for subject in subjects), 160)
        self.left = 12 + width("CPU 0") + 12 + self.name_room + 10
        # how many ticks are one column, whole rounds of the plan where there are enough of them, and how wide a tick is
        count, plan = end - first, sum(frame.ticks for frame in image.frames)
        self.step = 1 if count <= MOST_EACH else -(-count // COLUMNS)
        if self.step > 1 and plan * LEAST_COLUMNS <= count:
            self.step = -(-self.step // plan) * plan
        self.cell = max(3, min(24, WIDE // count)) if self.step == 1 else WIDE / count
        self.high = HIGH if self.step == 1 else HIGH_SUMS
        self.lettered = self.step == 1 and self.cell >= width("O", 9)

    def fill(self, kind):
        """How a cell of this kind is filled: hatched where no letter has room."""
        return KINDS[kind] if self.lettered or kind not in HATCHES else f"url(#{kind})"

    def x(self, tick):
        """Where a tick begins."""
        return self.left + (tick - self.first) * self.cell

    def y(self, who):
        """The top of a subject's cells."""
        return self.top + self.order.index(who) * (self.high + GAP)


def drawn(run, first, end, title):
    """The picture of what was gone through."""
    picture, subjects = Picture(), run.system.image.subjects
    lanes = Lanes(run.system.image, first, end)
    right = max(lanes.x(end), 900)
    picture.text(12, 19, title, room=right - 12, bold=True, size=12)
    used = {cell.kind for cell in run.cells}
    given = [(colour, text) for colour, text, is_dropped in ((GIVEN, "lines of the record", False), (DROPPED, "of which one was dropped", True))
             if any(line.is_dropped == is_dropped for line in run.given)]
    y = draw_key(picture, lanes, [kind for kind in KINDS if kind in used], given, right)
    if lanes.step > 1:
        picture.text(12, y, f"how many turns of each kind there are in {lanes.step} ticks, on top of one another", size=10, fill="#444")
        y += 16
    elif run.arrows:
        there = {arrow.kind for arrow in run.arrows}
        picture.text(12, y, "arrow: " + "; ".join(text for kind, (_, _, text) in ARROWS.items() if kind in there), size=10, fill="#444")
        y += 16
    lanes.top = y + 18
    if run.inputs:
        draw_given(picture, lanes, run.given)
        lanes.top += HIGH + GAP
    draw_names(picture, lanes)
    bottom = lanes.top + len(subjects) * (lanes.high + GAP)
    if lanes.step > 1:
        draw_sums(picture, lanes, run.cells)
    else:
        draw_slots(picture, lanes, run.plan)
        draw_frames(picture, lanes, run.plan.begun, len(run.system.image.frames) > 1, bottom)
        draw_cells(picture, lanes, run.cells)
        if lanes.lettered:
            draw_letters(picture, lanes, run.cells)
        for arrow in run.arrows:
            draw_arrow(picture, lanes, arrow)
    draw_ticks(picture, lanes.left, bottom, first, end, lanes.cell)
    return picture.svg(title)


def definitions(kinds):
    """The heads of arrows, and the hatches of these kinds."""
    heads = (f'<marker id="{name}" markerWidth="7" markerHeight="7" refX="6" refY="3.5" orient="auto">'
             f'<path d="M0 1L6 3.5L0 6Z" fill="{colour}"/></marker>' for name, (colour, _, _) in ARROWS.items())
    hatches = (f'<pattern id="{kind}" width="6" height="4" patternUnits="userSpaceOnUse" viewBox="0 0 6 6" preserveAspectRatio="none">'
               f'<rect width="6" height="6" fill="{KINDS[kind]}"/><path d="{steps}" stroke="#fff" stroke-width="1.2"/></pattern>'
               for kind, steps in HATCHES.items() if kind in kinds)
    return f"<defs>{''.join((*heads, *hatches))}</defs>"


def draw_key(picture, lanes, kinds, given, right):
    """What colours, hatches and letters mean, those of a record's lines too; where the next line would be."""
    picture.parts.append(definitions([] if lanes.lettered else kinds))
    marks = [(lanes.fill(kind), f"{kind} ({LETTERS[kind]})" if kind in LETTERS and lanes.lettered else kind) for kind in kinds]
    marks += [(SLOT, "its group's ticks")] if lanes.step == 1 else []
    return picture.legend(12, 40, right, marks + given)


def draw_sums(picture, lanes, cells):
    """Of each column how many turns are of which kind, on top of one another."""
    counts = Counter(((cell.tick - lanes.first) // lanes.step, cell.who, cell.kind) for cell in cells)
    for column, who in sorted({key[:2] for key in counts}):
        first, y = lanes.first + column * lanes.step, lanes.y(who) + lanes.high
        behind = min(first + lanes.step, lanes.end)
        for kind in KINDS:
            if count := counts[column, who, kind]:
                high = lanes.high * count / (behind - first)
                y -= high
                picture.rect(lanes.x(first), y, (behind - first) * lanes.cell, high, fill=lanes.fill(kind),
                             title=f"ticks {first} to {behind - 1} of {lanes.subjects[who].name}: {count} {kind}")


def draw_slots(picture, lanes, plan):
    """The ticks that the groups of subjects have."""
    for who, subject in enumerate(lanes.subjects):
        for start, behind in plan.slots(subject.group, lanes.first, lanes.end):
            picture.rect(lanes.x(start), lanes.y(who) - 3, (behind - start) * lanes.cell, lanes.high + 6, fill=SLOT)


def draw_given(picture, lanes, lines):
    """The lane of a record: of each column of ticks its lines."""
    picture.text(lanes.left - 10, lanes.top + HIGH / 2 + 4, RECORD, room=lanes.name_room, text_anchor="end")
    for column, group in groupby(lines, key=lambda line: (line.tick - lanes.first) // lanes.step):
        group = list(group)
        first = lanes.first + column * lanes.step
        behind = min(first + lanes.step, lanes.end)
        told = [" ".join(f"{line.tick} {line.device} {line.text}".split()) for line in group[:MOST_TOLD]]
        more = [f"and {len(group) - MOST_TOLD} more"] if len(group) > MOST_TOLD else []
        picture.rect(lanes.x(first), lanes.top, (behind - first) * lanes.cell - .5, HIGH, title="\n".join(told + more),
                     fill=DROPPED if any(line.is_dropped for line in group) else GIVEN)


def draw_names(picture, lanes):
    """The names of the lanes, and a line between CPUs."""
    before = None
    for who in lanes.order:
        subject, y = lanes.subjects[who], lanes.y(who)
        if subject.cpu != before:
            picture.text(12, y + lanes.high / 2 + 4, f"CPU {subject.cpu}", fill="#555")
        if before not in (None, subject.cpu):
            picture.path(f"M12 {y - 7:.1f}H{lanes.x(lanes.end):.1f}", stroke_width=".8")
        before = subject.cpu
        picture.text(lanes.left - 10, y + lanes.high / 2 + 4, subject.name, room=lanes.name_room, text_anchor="end")


def draw_frames(picture, lanes, begun, many, bottom):
    """Where major frames begin, and which, where there are several."""
    free = 0
    for tick, frame in begun:
        if not lanes.first <= tick < lanes.end:
            continue
        x, text = lanes.x(tick), f"frame {frame}"
        picture.path(f"M{x:.1f} {lanes.top - 8}V{bottom}", stroke="#bbb", stroke_width=".8", stroke_dasharray="2 2")
        if many and x >= free:
            picture.text(x, lanes.top - 11, text, size=8, fill="#555")
            free = x + width(text, 8) + 4


def draw_cells(picture, lanes, cells):
    """The turns, and values of outputs and names of interrupts above them, where there is room."""
    free = {}
    for cell in cells:
        x, y = lanes.x(cell.tick), lanes.y(cell.who)
        picture.rect(x, y, lanes.cell - .5, lanes.high, title="\n".join(filter(None, (cell.title, decimals(cell.title)))), fill=lanes.fill(cell.kind))
        if cell.value and x >= free.get(cell.who, 0):
            value = shortened(cell.value, 60, 8)
            told = decimals(f"= {cell.value}") if cell.kind == "output" else ""
            picture.text(x, y - 2, value, title=told or (cell.value if value != cell.value else ""), size=8, fill="#a4241c")
            free[cell.who] = x + width(value, 8) + 2


def draw_letters(picture, lanes, cells):
    """The letters of cells: black ones on light kinds, and white ones."""
    for colour, kinds in (("#000", LIGHT), ("#fff", set(LETTERS) - LIGHT)):
        picture.parts.append(f'<g font-size="9" fill="{colour}">')
        for cell in cells:
            if cell.kind in kinds:
                letter = LETTERS[cell.kind]
                picture.shape("text", "", letter, x=float(lanes.x(cell.tick) + (lanes.cell - width(letter, 9)) / 2), y=float(lanes.y(cell.who) + 13))
        picture.parts.append("</g>")


def draw_arrow(picture, lanes, arrow):
    """From a turn to a later one; where the first isn't drawn, from the left edge on."""
    (begun, by), (ended, who) = arrow.start, arrow.end
    start = lanes.x(begun) + lanes.cell / 2 if begun >= lanes.first else lanes.left
    end, top, bottom = lanes.x(ended) + lanes.cell / 2, lanes.y(by), lanes.y(who)
    if top < bottom:
        top += lanes.high
    elif top > bottom:
        bottom += lanes.high
    bend = (top + bottom) / 2 if by != who else top - 10
    colour, dashes, _ = ARROWS[arrow.kind]
    picture.path(f"M{start:.1f} {top}C{start:.1f} {bend:.1f} {end:.1f} {bend:.1f} {end:.1f} {bottom}",
                 title=f"{arrow.kind} of tick {begun} to tick {ended}", stroke=colour, marker_end=f"url(#{arrow.kind})",
                 **({"stroke_dasharray": dashes} if dashes else {}))
