"""What a page tells of a run: its turns as columns of numbers, with all texts once; arrows, inputs, and memory at the end."""
from looking.draw_trace import ARROWS, HATCHES, KINDS, LETTERS, Run
from looking.inputs import held
from looking.replay import INSTRUCTION
from looking.svg import shortened
from looking.turns import lines_of

FIELDS = [*(f"r{number}" for number in range(16)), "epc", "vbase"]
COLUMNS = ("tick", "who", "kind", "pc", "place", "code", "what", "source", "change", "above")
ROW, MOST_ROWS, MOST_ALL = 16, 1024, 16384


class Texts:
    """Texts, each with a number by which columns name it; 0 is the empty one."""

    def __init__(self):
        self.numbers = {"": 0}

    def number(self, text):
        """The number of a text."""
        return self.numbers.setdefault(text, len(self.numbers))


class Told(Run):
    """Goes through a whole run, with the inputs of its record, and keeps all that is told of each turn."""

    def __init__(self, teller, lines, inputs, sources):
        self.sources, self.texts = sources, Texts()
        self.columns = {name: [] for name in COLUMNS}
        self.kinds = list(KINDS)
        self.known = [fields_of(state) for state in teller.replay.states]
        # of each byte that a device has written by itself the input that did, and of each input and subject the turn that read it first
        self.written, self.reads = {}, {}
        self.starts = [[shown(value) for value in known] for known in self.known]
        self.before = self.line = ""
        self.begin = teller.ticks.start
        super().__init__(teller, lines, 0, max(teller.ticks.stop, 1), inputs)
        self.read(inputs.ticks - 1)

    def meet_input(self, number, line):
        """A line of the record: which bytes a device has written by itself."""
        if line.kind == "dma":
            self.written.update((place + at, number) for place, content in line.writes for at in range(len(content)))

    def note(self, turn, who, found):
        """Before a turn is carried out: what has changed since the last one, and the line of its source."""
        super().note(turn, who, found)
        self.meet_written(turn, who, found)
        self.before, self.line = self.changed(who), ""
        place = self.replay.place_of(who, turn.pc) if self.sources.folder else None
        span = None if place is None else self.system.memory.span_at(place)
        if span:
            self.line = self.sources.line(span, place - span.place, found)

    def meet_written(self, turn, who, found):
        """Which inputs a turn reads, in its instruction and by a load; bytes that it stores aren't a device's any more."""
        if not self.written or turn.kind == "inject":
            return
        parts = [(turn.pc, INSTRUCTION)]
        if found and found.name == "LOAD" and turn.kind == "register":
            parts.append((self.replay.states[who].sum(found.rs, found.imm), found.size))
        for place in self.places(who, parts):
            if place in self.written:
                self.reads.setdefault((self.written[place], who), len(self.columns["tick"]))
        if turn.kind == "store":
            for place in self.places(who, [(turn.facts["address"], turn.facts["size"])]):
                self.written.pop(place, None)

    def places(self, who, parts):
        """The places of the bytes that a subject sees at its addresses, each with so many bytes."""
        for address, size in parts:
            place = None if address is None else self.replay.place_of(who, address)
            yield from () if place is None else range(place, place + size)

    def changed(self, who):
        """Which registers of a subject have other values than it was told of last, and which."""
        now = fields_of(self.replay.states[who])
        if now == self.known[who]:
            return ""
        text = " ".join(f"{name}={shown(new)}" for name, old, new in zip(FIELDS, self.known[who], now) if old != new)
        self.known[who] = now
        return text

    def keep(self, turn, who, told, value):
        """A turn as a row of the columns."""
        super().keep(turn, who, told, value)
        number, pc = self.texts.number, self.replay.states[who].pc
        onward = "" if pc == turn.pc + 8 else f" pc={shown(pc)}"
        change = f"{self.before}|{self.changed(who)}{onward}"
        row = (turn.tick, who, self.kinds.index(self.cells.pop().kind), number(f"{turn.pc:x}"), number(told.place), number(told.code),
               number(told.what), number(self.line), number(change), number(shortened(value, 60, 8)))
        for name, one in zip(COLUMNS, row):
            self.columns[name].append(one)


def fields_of(state):
    """The registers of a state, but for `pc`."""
    return (*state.registers, state.epc, state.vbase)


def shown(value):
    """A number as the page has it; what isn't known is a question mark."""
    return "?" if value is None else f"{value:x}"


def steps_of(values):
    """Each value as the difference to the one before: these are small, and pack well."""
    return [value - before for before, value in zip([0, *values], values)]


def data_of(told, ticks):
    """All that the page's timeline needs."""
    image, rows = told.system.image, {}
    for at, key in enumerate(zip(told.columns["tick"], told.columns["who"])):
        rows[key] = at
    arrows = [(rows[arrow.start], rows[arrow.end], list(ARROWS).index(arrow.kind)) for arrow in told.arrows
              if arrow.start in rows and arrow.end in rows]
    return {
        "ticks": ticks, "texts": list(told.texts.numbers), "fields": FIELDS,
        "kinds": [[kind, LETTERS.get(kind, ""), colour, kind in HATCHES] for kind, colour in KINDS.items()],
        "arrows": sorted(arrows, key=lambda one: one[1]), "arrow_kinds": [[name, *look] for name, look in ARROWS.items()],
        "subjects": [{"name": subject.name, "cpu": subject.cpu, "start": start, "slots": told.plan.slots(subject.group, 0, ticks)}
                     for subject, start in zip(image.subjects, told.starts)],
        "frames": told.plan.begun if len(image.frames) > 1 else [],
        "inputs": [[one.tick, one.kind, one.device, one.text, one.decimals] for one in told.inputs.lines],
        "reads": sorted(([number, row] for (number, _), row in told.reads.items()), key=lambda one: one[1]),
        "turns": {**told.columns, "tick": steps_of(told.columns["tick"])}}


def told_of(teller, text, source, inputs, sources):
    """Goes through the text of a run."""
    return Told(teller, lines_of(text, source), inputs, sources)


# ---- memory at the end

def memory_of(system, lines):
    """Of each region and each device's memory: whether it is as the digest says, and its rows."""
    left = MOST_ALL
    for one in held(system, lines):
        rows = list(rows_of(one.content, min(left, MOST_ROWS)))
        left -= len(rows)
        yield one, rows


def rows_of(content, most):
    """Rows of sixteen bytes, of which a repeated one stands once: each with its offset and how often it comes, most at most."""
    at, given = 0, 0
    while at < len(content) and given < most:
        row, end = content[at:at + ROW], at + ROW
        while content[end:end + ROW] == row:
            end += ROW
        yield at, row, (end - at) // ROW
        at, given = end, given + 1
    if at < len(content):
        yield at, b"", 0
