"""The checks of the pictures that share/look draws, of each example and of the policy of docs/rules.md.

Each picture is XML that stands by itself, whose texts neither overlap nor leave it; and what it says is what the
program prints, or what is worked out here from the policy, or by hand.
"""
import argparse
import copy
import json
import pathlib
import re
import shutil
import sys
import tempfile
import xml.etree.ElementTree as xml
from collections import Counter
from dataclasses import dataclass
from fractions import Fraction
from itertools import groupby, product

from checking import EXAMPLES, LOOK, NO_DOT, PROGRAM, TOP, Case, Wrong, call, each, looked, said, want, with_program
from checking_examples import RUNNING
from checking_rules import POLICY
from looking.draw_flows import dot_text
from looking.draw_trace import KINDS, LETTERS, SLOT
from looking.scene import scene_of
from looking.svg import width
from looking.words import counted

SVG = "{http://www.w3.org/2000/svg}"
PICTURES = EXAMPLES / "pictures"
LEAST_SIZE = 8


# ---- systems

class Built:
    """A policy with its image, its DMA tables and what a run printed."""

    def __init__(self, policy, record, folder):
        self.policy, self.folder = pathlib.Path(policy), pathlib.Path(folder)
        self.image, self.tables, self.text = (self.folder / f"{self.policy.stem}.{kind}" for kind in ("img", "dma", "trace"))
        self.document = json.loads(self.policy.read_text(encoding="utf-8"))
        self.program("build", self.policy, self.image, self.tables)
        self.text.write_bytes(self.program("run", self.image, record, self.tables))
        self.sound = [self.image, "--dma", self.tables]
        self.lines = [line for line in self.text.read_text(encoding="ascii").splitlines() if line[0].isdigit()]

    def program(self, *words):
        """What a call of the program prints."""
        done = call([PROGRAM, *words])
        want((done.returncode, done.stderr), (0, b""), " ".join(map(str, words)))
        return done.stdout

    def mapped(self, kind):
        """The words of the lines of this kind that `map` prints."""
        return [line.split()[1:] for line in self.program("map", self.policy).decode().splitlines() if line.startswith(f"{kind} ")]


def of_example(name, check):
    """A check of an example, with its own record or with twenty ticks."""
    record = name.replace(".json", ".record")
    with tempfile.TemporaryDirectory() as folder:
        check(Built(EXAMPLES / name, record if (EXAMPLES / record).is_file() else "twenty_ticks.record", folder))


def of_document(document, check):
    """The same of a policy that is no example."""
    with tempfile.TemporaryDirectory() as folder:
        policy = pathlib.Path(folder, "policy.json")
        policy.write_text(json.dumps(document), encoding="utf-8")
        check(Built(policy, "twenty_ticks.record", folder))


def scene(system, dma=None):
    """What is drawn of a policy or an image."""
    return scene_of(argparse.Namespace(system=str(system), dma=dma and str(dma)))


def number(value):
    """A number of a policy."""
    return value if isinstance(value, int) else int(value[3:-1].replace("_", ""), 16)


def both(value):
    """A number as titles have it: in hexadecimal, and behind that in decimal where it looks otherwise."""
    return f"{value:x}" if value < 10 else f"{value:x} ({value})"


def named(items, name):
    """The item of this name."""
    return next(item for item in items if item["name"] == name)


# ---- what a picture says

@dataclass
class Text:
    """A text of a picture: what is shown, the whole where that is shortened, its four sides as they are estimated, and its size."""
    words: str
    whole: str
    left: float
    top: float
    right: float
    bottom: float
    size: float

    @property
    def middle(self):
        """Its middle."""
        return (self.left + self.right) / 2, (self.top + self.bottom) / 2

    @property
    def base(self):
        """The line on which it stands."""
        return round(self.bottom - .22 * self.size, 1)


class Seen:
    """A picture, read as XML: its texts and its titles."""

    def __init__(self, text):
        text.encode("ascii")
        self.text, self.root = text, xml.fromstring(text)
        want(self.root.tag, f"{SVG}svg", "the root")
        want(re.findall(r"<(?:script|image|use|foreignObject|style|!)|\bhref=|url\((?!#)", text), [], "what it needs besides")
        self.texts = list(texts_of(self.root, 11, 0, 0))
        self.titles = [element.text for element in self.root.iter(f"{SVG}title")]
        self.is_legible()

    def is_legible(self):
        """Texts don't overlap, are large enough to be read, and lie in the picture."""
        wide, high = map(float, self.root.get("viewBox").split()[2:])
        ordered = sorted(self.texts, key=lambda text: text.left)
        for at, text in enumerate(ordered):
            if text.size < LEAST_SIZE or text.left < 0 or text.top < 0 or text.right > wide or text.bottom > high:
                raise Wrong(f"{text} is too small, or isn't in the picture of {wide} by {high}")
            for other in ordered[at + 1:]:
                if other.left < text.right - .5 and min(text.bottom, other.bottom) - max(text.top, other.top) > .5:
                    raise Wrong(f"{text.words!r} and {other.words!r} overlap")

    def names(self, names):
        """Each of these names is a text, or stands whole in a title."""
        for name in names:
            want(any(name in whole for whole in (*self.titles, *(text.words for text in self.texts))), True, f"{name} is named")

    def place(self, whole):
        """The middle of the text of these words."""
        return next(text.middle for text in self.texts if text.whole == whole)

    def rows(self):
        """Texts beside one another, from left to right."""
        ordered = sorted(self.texts, key=lambda text: (text.base, text.left))
        return [tuple(text.words for text in row) for _, row in groupby(ordered, key=lambda text: text.base)]

    def titled(self, tag):
        """Each element of this tag that has a title, with it."""
        return [(element, title.text) for element in self.root.iter(f"{SVG}{tag}")
                if (title := element.find(f"{SVG}title")) is not None]


def texts_of(element, size, x, y):
    """Each text below an element, whose size and place these are."""
    size = float(element.get("font-size", size))
    if move := re.search(r"translate\((\S+) (\S+)\)", element.get("transform", "")):
        x, y = x + float(move[1]), y + float(move[2])
    if element.tag == f"{SVG}text":
        words = "".join([element.text or "", *(part.tail or "" for part in element)])
        wide = width(words, size, element.get("font-weight") == "bold")
        left = x + float(element.get("x")) - wide * {"middle": .5, "end": 1}.get(element.get("text-anchor"), 0)
        base = y + float(element.get("y"))
        title = element.find(f"{SVG}title")
        yield Text(words, words if title is None else title.text, left, base - .76 * size, left + wide, base + .22 * size, size)
    for part in element:
        yield from texts_of(part, size, x, y)


def side(element, *names):
    """Attributes of an element as numbers."""
    return [float(element.get(name)) for name in names]


# ---- the trace

# how lines are told apart by their words behind the address, and what the legend calls them
LINES = [("inject", "event"), ("out", "output"), ("store", "store"), ("wrmsr", "store"), ("-", "jump, flag, NOP"), ("r", "instruction"),
         ("exit .* on$", "call"), ("exit .* halt$", "halt"), ("exit .* trap$", "trapped fault"), ("exit .* stop$", "fault, stops")]
CAUSED = re.compile(r"(\d+) \S+ \S+ .*\bevent \d+: (?:call|trap) \d+ of \S+ in tick (\d+)")


def trace(case, built):
    """A cell for each line, in the place of its tick and its subject and with its kind's colour, and an arrow for each event."""
    told = [" ".join(line.split()) for line in looked("trace", built.image, built.text).splitlines()]
    middle = (int(built.lines[-1].split()[0]) + 1) // 2
    for begin, end, words in ((0, 150, []), (middle, middle + 40, ["--from", middle, "--until", middle + 40])):
        with case.subTest(f"ticks from {begin} until {end}"):
            trace_between(built, told, begin, end, words)


def trace_between(built, told, begin, end, words):
    """The cells and arrows of these ticks."""
    seen = Seen(looked("draw", "trace", built.image, built.text, *words))
    lines = {title: line for line, title in zip(built.lines, told) if begin <= int(line.split()[0]) < end}
    cells = [(element, *title.partition("\n")[::2]) for element, title in seen.titled("rect") if re.match(r"\d+ \d ", title)]
    want(Counter(title for _, title, _ in cells), Counter(lines.keys()), "the cells")
    for _, title, decimal in cells:
        values = dict(re.findall(r"(\w+) is (\d+)", decimal))
        want({one: str(int(one, 16)) for one in values}, values, f"numbers in decimal: {title}")
        want({one for one in re.findall(r"(?:0x|= )([0-9a-f]+)\b", title) if int(one, 16) > 9} - set(values), set(), f"numbers without decimal: {title}")
    seen.names(subject["name"] for subject in built.document["subjects"])
    at, colours = tick_places(seen), legend(seen)
    for element, title, _ in cells:
        is_cell(seen, element, lines[title], at, colours)
    # where one letter has room, all have
    letters = Counter(LETTERS[kind] for kind in map(kind_of, lines.values()) if kind in LETTERS)
    want(Counter(text.words for text in seen.texts if text.size == 9 and text.words in LETTERS.values()) in (letters, Counter()), True, "the letters")
    want(bool(re.search("[(][A-Z][)]", seen.text)) or end - begin > 150 or not letters, True, "letters are in the key")
    caused = Counter((match[2], match[1]) for match in map(CAUSED.match, lines) if match)
    arrows = [(element, re.fullmatch(r"(arrow|handover|monitor) of tick (\d+) to tick (\d+)", title)) for element, title in seen.titled("path")]
    drawn = Counter((match[2], match[3]) for _, match in arrows)
    want(caused - drawn, Counter(), "events without an arrow")
    want(Counter((match[2], match[3]) for _, match in arrows if match[1] == "arrow") - caused, Counter(), "arrows without an event")
    for element, match in arrows:
        is_arrow(element.get("d"), max(int(match[2]), begin), int(match[3]), at)


def tick_places(seen):
    """A function of ticks: where they begin, by the numbers of the axis."""
    axis = max(text.base for text in seen.texts)
    (one, x), (other, right), *_ = sorted((int(text.words), text.middle[0]) for text in seen.texts if text.base == axis)
    return lambda tick: x + (tick - one) * (right - x) / (other - one)


def legend(seen):
    """Of each kind its colour: that of the mark in front of its name."""
    marks = [(side(element, "x", "y"), element.get("fill")) for element in seen.root.iter(f"{SVG}rect") if element.get("stroke") == "#888"]
    return {re.sub(r" \([A-Z]\)$", "", text.words): colour for text in seen.texts for (x, y), colour in marks
            if 0 < text.left - x < 20 and text.top - 4 < y < text.bottom}


def kind_of(line):
    """What the legend calls a line."""
    return next(kind for pattern, kind in LINES if re.match(pattern, line.split(" ", 4)[4]))


def is_cell(seen, element, line, at, colours):
    """The cell of a line."""
    tick, _, subject, *_ = line.split()
    x, y, wide, high = side(element, "x", "y", "width", "height")
    want(element.get("fill"), colours[kind_of(line)], f"the colour of {line}")
    want(y < seen.place(subject)[1] < y + high, True, f"the lane of {line}")
    want(abs(x - at(int(tick))) < .2 and at(int(tick) + 1) - wide - x < 1, True, f"the place of {line}")


def is_arrow(steps, begin, end, at):
    """It leads from the one tick, or from the left edge, to the other."""
    numbers = [float(word) for word in re.findall(r"[\d.]+", steps)]
    want(at(begin) - .2 <= numbers[0] < at(begin + 1) and at(end) < numbers[-2] < at(end + 1), True, f"the arrow from {begin} to {end}")


def lightness():
    """No two kinds of lines have nearly the same lightness (L* of CIE 1976)."""
    def light(colour):
        """The lightness of a colour, 0 to 100."""
        parts = [int(colour[at:at + 2], 16) / 255 for at in (1, 3, 5)]
        red, green, blue = (part / 12.92 if part <= .04045 else ((part + .055) / 1.055) ** 2.4 for part in parts)
        bright = .2126 * red + .7152 * green + .0722 * blue
        return 116 * bright ** (1 / 3) - 16 if bright > .008856 else 903.3 * bright
    lights = sorted(map(light, (*KINDS.values(), SLOT, "#ffffff")))
    want(min(later - earlier for earlier, later in zip(lights, lights[1:])) > 5, True, f"the lightness of kinds: {lights}")


def gateway_arrows(case, built):
    """Which calls of cipher lead to which events of black: those of the calls in the ticks 27 and 33 come in tick 34, since
    black had no tick before 30 and needed four to turn events on."""
    seen = Seen(looked("draw", "trace", built.image, built.text, "--until", 60))
    arrows = [f"arrow of tick {begin} to tick {end}" for begin, end in ((27, 34), (39, 40), (45, 46))]
    case.want([title for _, title in seen.titled("path")], arrows, "arrows")
    case.want([text.words for text in seen.texts if text.size == 8], ["5", "5", "5"], "the outputs in front of tick 60")
    later = Seen(looked("draw", "trace", built.image, built.text, "--until", 150))
    case.want({text.whole for text in later.texts if text.size == 8 and len(text.words) > 1},
              {"11 is 17", "16 is 22", "18 is 24", "1e is 30"}, "outputs in decimal")
    sums = Counter()
    for element, title in Seen(looked("draw", "trace", built.image, built.text, "--until", 5000)).titled("rect"):
        subject, count, kind = re.fullmatch(r"ticks \d+ to \d+ of (\S+): (\d+) (.*)", title).groups()
        sums[subject, kind] += int(count)
    case.want(sums, Counter((line.split()[2], kind_of(line)) for line in built.lines), "the sums of all ticks")
    grey = sorted(side(element, "y", "x", "width") for element in seen.root.iter(f"{SVG}rect") if element.get("fill") == SLOT)[1:]
    case.want([round(one[2] / grey[0][2] * 30) for one in grey], [30, 10, 20, 10, 10, 10, 30], "the slots of plain, black, keys, slots, cipher")


def above(built):
    """The three interrupts of the record are named above their deliveries, which come in the same ticks."""
    seen = Seen(looked("draw", "trace", built.image, built.text))
    at = tick_places(seen)
    want([(text.words, at(tick) - .1 < text.left < at(tick + 1)) for text, tick in zip((text for text in seen.texts if text.size == 8), (8, 24, 40))],
         3 * [("rx", True)], "the interrupts")


# ---- the plan

NO_END = "no end, if frame {} is chosen again and again"
# of examples the rows of their groups: ticks, share, longest wait
PLANS = {
    "gateway.json": [("gplain", "plain", "0", "30 of 50", "60 %", "20 ticks"), ("gblack", "black", "0", "20 of 50", "40 %", "30 ticks"),
                     ("gkeys", "keys", "1", "10 of 50", "20 %", "40 ticks"), ("gslots", "slots", "1", "10 of 50", "20 %", "40 ticks"),
                     ("gcipher", "cipher", "1", "30 of 50", "60 %", "20 ticks")],
    # the ticks are a a b, then b b b b a: a waits from the first b to the last, b from the last a over the first two
    "major_frames.json": [("ga", "a", "0", "3 of 8", "37.5 %", "5 ticks"), ("gb", "b", "0", "5 of 8", "62.5 %", "3 ticks")],
    "two_subjects.json": [("ga", "a", "0", "2 of 5", "40 %", "3 ticks"), ("gb", "b", "0", "3 of 5", "60 %", "2 ticks")],
    "frame_choice.json": [("gt", "t", "0", "3 of 3 / 0 of 3", "100 % / 0 %", NO_END.format(1)),
                          ("ga", "a", "0", "0 of 3 / 3 of 3", "0 % / 100 %", NO_END.format(0))],
}


def plan_is(policy, rows):
    """The rows of the groups."""
    found = Seen(looked("draw", "plan", policy)).rows()
    want(groups_of(found), rows, "the rows of the groups")


def groups_of(rows):
    """The rows of the table of groups, which has a line below."""
    return rows[rows.index(("group", "members", "CPU", "ticks", "share of its CPU", "longest wait")) + 1:-1]


def chosen_frames():
    """The frames t t a a a t and a t t t t, in any order: t waits 3 ticks inside the first one, and less around; a waits longest from
    the end of the second to its own ticks in the first, 4 and 2 ticks."""
    document = json.loads((EXAMPLES / "frame_choice.json").read_text(encoding="utf-8"))
    frames = [[("gt", 2), ("ga", 3), ("gt", 1)], [("ga", 1), ("gt", 4)]]
    document["scheduling"]["majorFrames"] = [{"cpus": [{"cpu": 0, "minorFrames": [{"group": group, "ticks": ticks} for group, ticks in frame]}]}
                                             for frame in frames]
    of_document(document, lambda built: plan_is(built.policy, [("gt", "t", "0", "3 of 6 / 4 of 5", "50 % / 80 %", "3 ticks"),
                                                               ("ga", "a", "0", "3 of 6 / 1 of 5", "50 % / 20 %", "6 ticks")]))


def plan(case, built):
    """A bar for each minor frame, in proportion to its ticks, and the rows as they come out tick by tick."""
    scheduling = built.document["scheduling"]
    titles = [group["name"] for group in scheduling["groups"]]
    for source, names in ((built.policy, titles), (built.image, [f"group {at}" for at in range(len(titles))])):
        with case.subTest(source.name):
            plan_of(scheduling, dict(zip(titles, names)), source)


def plan_of(scheduling, names, source):
    """The bars and rows of a system whose groups have these names there."""
    seen = Seen(looked("draw", "plan", source))
    bars = {title: side(element, "width")[0] for element, title in seen.titled("rect") if title.startswith("major frame")}
    wanted = {title: ticks for title, ticks in bars_of(scheduling, names)}
    want(sorted(bars), sorted(wanted), "the bars")
    for _, frame in groupby(sorted(bars), key=lambda title: title.split(",")[0]):
        scales = [bars[title] / wanted[title] for title in frame]
        want(max(scales) - min(scales) < .2, True, f"bars in proportion: {scales}")
    want(groups_of(seen.rows()), [(name, *row) for name, row in zip(names.values(), rows_of(scheduling))], "the rows of the groups")


def minor_frames(scheduling):
    """Of each major frame and CPU its minor frames, each as the group and its ticks."""
    for at, frame in enumerate(scheduling["majorFrames"]):
        for cpu in frame["cpus"]:
            yield at, number(cpu["cpu"]), [(minor["group"], number(minor["ticks"])) for minor in cpu["minorFrames"]]


def bars_of(scheduling, names):
    """The title and the ticks of each bar."""
    for frame, cpu, minors in minor_frames(scheduling):
        at = 0
        for group, ticks in minors:
            members = "/".join(named(scheduling["groups"], group)["subjects"])
            yield f"major frame {frame}, CPU {cpu}, ticks {at} to {at + ticks - 1}: {names[group]} ({members})", ticks
            at += ticks


def rows_of(scheduling):
    """The row of each group but its name, from all ticks one by one."""
    for group in scheduling["groups"]:
        own, chosen = number(group["cpu"]), "tau0" in scheduling
        frames = [[one for one, ticks in minors for _ in range(ticks)] for _, cpu, minors in minor_frames(scheduling) if cpu == own]
        orders = [one + other for one, other in product(frames, repeat=2)] if chosen else [2 * sum(frames, [])]
        rows = frames if chosen else [sum(frames, [])]
        counts = [(row.count(group["name"]), len(row)) for row in rows]
        waits = [max((len(list(run)) for has, run in groupby(order, key=group["name"].__eq__) if not has), default=0) for order in orders]
        lacking = [at for at, (ticks, _) in enumerate(counts) if not ticks]
        wait = counted(max(waits), "tick") if not lacking else NO_END.format(lacking[0]) if chosen else "no end"
        yield (" ".join(group["subjects"]), str(own), " / ".join(f"{ticks} of {every}" for ticks, every in counts),
               " / ".join(f"{float(Fraction(100 * ticks, every)):.1f}".removesuffix(".0") + " %" for ticks, every in counts), wait)


# ---- the matrix

def matrix(case, built):
    """Of the image and of the policy: a cell for each window of `map`, and for all else that the policy grants."""
    regions = {words[2]: int(words[0], 16) for words in built.mapped("region")}
    for words, domain_name in ((built.sound, lambda at, _: str(at)), ([built.policy], lambda _, domain: domain["name"])):
        with case.subTest(words[0].name):
            matrix_of(built, regions, words, domain_name)


def matrix_of(built, regions, words, domain_name):
    """The cells, names and places of one of them."""
    seen = Seen(looked("draw", "matrix", *words))
    want(seen.titles[0], f"who sees what of {words[0].name}", "the title")
    cells = seen.titled("rect")
    windows = [f"{subject} sees {shown} at {both(int(place, 16))}, {rights}" for subject, place, _, rights, shown in built.mapped("window")]
    want(Counter(title for _, title in cells), Counter([*windows, *granted(built.document, domain_name)]), "the cells")
    seen.names(subject["name"] for subject in built.document["subjects"])
    # the kernel's pages are left out, but for states that are monitored
    shown = [name for name in regions if ":" not in name or any(f" sees {name} " in window for window in windows)]
    seen.names(shown)
    for name in shown if words is built.sound else ():
        want(any(fact.startswith(f"{regions[name]:x}, ") for row in seen.rows() if name in row for fact in row), True, f"the place of {name}")
        want(any(title.startswith(f"{both(regions[name])}, ") for title in seen.titles), True, f"the place of {name} in decimal")
    are_cells(seen, [(re.match(r"(.*) sees (\S+) at ", title), element) for element, title in cells])


def are_cells(seen, cells):
    """Those of windows stand below who sees, and beside what is seen; several below one another."""
    places = {}
    for match, element in cells:
        if match:
            places.setdefault(match.groups(), []).append(side(element, "x", "y", "width", "height"))
    for (who, what), found in places.items():
        across, down = seen.place(who)[0], seen.place(what)[1]
        want(all(x < across < x + wide for x, _, wide, _ in found), True, f"the column of {who}")
        want(min(y for _, y, _, _ in found) < down < max(y + high for _, y, _, high in found), True, f"the row of {what}")


def granted(document, domain_name):
    """The titles of cells that are no subject's window."""
    for subject in document["subjects"]:
        for use in subject.get("devices", []):
            device = named(document["devices"], use["device"])
            for name in use.get("ioPorts", []):
                first, last = (number(named(device["ioPorts"], name)[key]) for key in ("start", "end"))
                yield f"{subject['name']} has {device['name']}: {f'port {both(first)}' if first == last else f'ports {both(first)} to {both(last)}'}"
            for irq in use.get("irqs", []):
                yield f"{subject['name']} has {irq['irq']} of {device['name']}, vector {irq['vector']}"
        for msrs in subject.get("msrs", []):
            start, end = number(msrs["start"]), number(msrs["end"])
            yield f"{subject['name']} has {f'MSR {both(start)}' if start == end else f'MSRs {both(start)} to {both(end)}'}, {msrs['rights']}"
    for at, domain in enumerate(document.get("deviceDomains", [])):
        for entry in domain.get("memory", []):
            yield (f"{', '.join(sorted(domain['devices']))} in domain {domain_name(at, domain)} sees {entry['region']}"
                   f" at {both(number(entry['virtualAddress']))}, {entry['rights']}")


def same_scene(case, built):
    """A policy and its image are drawn alike, but for the names and places that one of them lacks."""
    one, other = scene(built.policy), scene(built.image, built.tables)
    for part in ("cpus", "subjects", "things", "groups", "frames", "bodies", "choice", "choosers"):
        case.want(getattr(one, part), getattr(other, part), part)


# ---- flows

ARROW = re.compile(r'  "(.*?)" -> "(.*?)" \[label="(.*?)"(?:, tooltip=".*?")?, color="(#\w+)"(.*?)(, class=\w+)(, dir=both)?\]')
# how each kind looks: its colour, and what else tells it
LOOKS = {("#1f1f1f", ""): "channel", ("#6a3d9a", ""): "event", ("#8a4b20", "dashed"): "handover", ("#c25a00", ""): "region",
         ("#1f1f1f", "dotted"): "monitor", ("#c8102e", "dashed"): "tau0", ("#808080", ""): "device"}


def arrows_of(text):
    """Each arrow of a text for dot, with both ways apart: from whom, to whom, its kind, its lines."""
    for source, target, label, colour, rest, _, both in map(re.Match.groups, filter(None, map(ARROW.fullmatch, text.splitlines()))):
        style = re.search("style=(\\w+)", rest)
        kind = LOOKS[colour, style[1] if style else ""]
        lines = re.sub(r"(:| may change| sees)\\n", r"\1 ", label).split("\\n")
        yield source, target, kind, lines
        if both:
            yield target, source, kind, lines


def flows(case, built):
    """Over the arrows, those of devices left out, each subject is reached by those that `flows` prints; the arrows are the steps of
    `look ways`; and each subject and device is there, also as dot has laid it out."""
    printed = [line.split() for line in built.program("flows", built.policy).decode().splitlines()]
    steps = [re.match(r"(\S+) -> (\S+): (\S+) ", line).groups() for line in looked("ways", built.policy).splitlines()]
    for words in ([built.policy], built.sound):
        with case.subTest(words[0].name):
            text = dot_text(scene(*words[::2]))
            arrows_agree(case, text, printed, steps)
            with case.subTest("as dot lays it out"):
                laid_out(case, built, words, text)


def arrows_agree(case, text, printed, steps):
    """The arrows of a text for dot agree with what `flows` prints and with the steps of `look ways`."""
    arrows = list(arrows_of(text))
    channels = {(source, target) for source, target, kind in steps if kind == "channel"}
    # events along a channel are on its arrow, and who chooses frames has one arrow to all
    wanted = {(source, target, kind) for source, target, kind in steps if kind not in ("device", "tau0")
              and not (kind == "event" and (source, target) in channels)}
    choosers = {source for source, _, kind in steps if kind == "tau0"}
    for _, name, _, *sources in printed:
        case.want(reaching(name, arrows), set(sources), f"who reaches {name}")
    case.want(len(arrows) - text.count("dir=both"), text.count(" -> "), "arrows that are understood")
    case.want({(source, target, kind) for source, target, kind, _ in arrows if kind not in ("device", "tau0")}, wanted, "the arrows")
    case.want({source for source, _, kind, _ in arrows if kind == "tau0"} >= choosers, True, "tau0")
    over = {(source, other, "device") for source, device, kind, _ in arrows for begin, other, _, _ in arrows
            if kind == "device" and device == begin and source != other and not source.startswith("device ")}
    case.want(over, {step for step in steps if step[2] == "device"}, "ways over devices")


def laid_out(case, built, words, text):
    """Each subject, device and arrow is in the picture that dot makes."""
    if not shutil.which("dot"):
        case.skipTest(NO_DOT)
    seen = Seen(looked("draw", "flows", *words))
    names = [subject["name"] for subject in built.document["subjects"]]
    seen.names(names)
    for device in built.document.get("devices", []):
        want(any(title.startswith("device ") and device["name"] in title for title in seen.titles), True, f"{device['name']} is there")
    drawn = Counter(tuple(title.split("->")) for title in seen.titles if "->" in title)
    want(sum(drawn.values()), text.count(" -> "), "the arrows that are drawn")


def reaching(name, arrows):
    """Who reaches a subject over arrows that are flows."""
    reached = {name}
    while more := {source for source, target, kind, _ in arrows if kind != "device" and target in (*reached, "next major frame")} - reached:
        reached |= more
    return reached


def gateway_flows(case):
    """That dot isn't there, its text, and the arrows of docs/flows.md; without a subject, and of CPUs."""
    done = call([sys.executable, LOOK, "draw", "flows", "gateway.json"], env={"PATH": ""})
    line = b"look: graphviz's dot, which lays out flows, isn't there; look draw flows --text prints what it takes\n"
    case.want((done.returncode, done.stdout, done.stderr), (1, b"", line), "without dot")
    text = looked("draw", "flows", EXAMPLES / "gateway.json", "--text")
    net = ["ports 300 to 30f", "rx, vector 43"]
    channels = [("plain", "job", 40, "asap"), ("keys", "key", 41, "asap"), ("slots", "beat", 42, "async")]
    case.want(list(arrows_of(text)), [
        *((name, "cipher", "channel", [f"{channel}: call 1, {mode}, vector {vector}"]) for name, channel, vector, mode in channels),
        ("cipher", "black", "channel", ["sealed: call 1, asap, vector 40"]), ("black", "device net", "device", net), ("device net", "black", "device", net)], "the arrows")
    case.want('tooltip="ports 300 to 30f, rx, vector 43; 300 is 768, 30f is 783"' in text, True, "ports in decimal")
    few = looked("draw", "flows", EXAMPLES / "gateway.json", "--text", "--without", "cipher", "--without", "net")
    case.want((list(arrows_of(few)), "cipher" in few, '"black"' in few), ([], False, True), "without cipher and net")
    folded = looked("draw", "flows", EXAMPLES / "gateway.json", "--text", "--fold")
    case.want(list(arrows_of(folded)), [("CPU 0", "CPU 1", "channel", ["job"]), ("CPU 1", "CPU 0", "channel", ["sealed"]),
                                        ("CPU 0", "device net", "device", net), ("device net", "CPU 0", "device", net)], "of CPUs")
    case.want(said("draw", "flows", EXAMPLES / "gateway.json", "--without", "nobody"), (1, "look: no subject and no device is nobody\n"), "without nobody")


# ---- all kinds in one system

# LI r1, 2; VMCALL r1; LI r1, 1; VMCALL r1; HLT
CALLS = "01100000020000001601000000000000" "01100000010000001601000000000000" "1700000000000000"
# LI r9, 0x3ffee8, which is 400028 - 8 x 40; SETV r9; STI; HLT; JMP -8; RETI
WAITS = "01900000e8fe3f001a09000000000000" "18000000000000001700000000000000" "0d000000f8ffffff1b00000000000000"


def running(rules):
    """The policy of docs/rules.md with programs: a and c call 2 and 1 and halt, and b waits for events."""
    document = copy.deepcopy(rules)
    document["memory"][0]["content"] = {"hex": CALLS}
    document["components"][0]["provides"][0]["content"] = {"hex": WAITS}
    return document


def of_rules(case, built):
    """The same checks of the policy of docs/rules.md, and what it has that no example has: call 2 of a hands the CPU to b, whose first
    turn is in tick 2. Call 1 of c comes in tick 3, and reaches b behind its STI of tick 4."""
    for check in (trace, plan, matrix, flows, memory, same_scene):
        with case.subTest(check.__name__):
            check(case, built)
    seen = Seen(looked("draw", "trace", built.image, built.text))
    case.want([title for _, title in seen.titled("path")], ["handover of tick 1 to tick 2", "arrow of tick 3 to tick 5"], "the arrows")
    found = [(source, target, kind) for source, target, kind, _ in arrows_of(dot_text(scene(built.policy)))]
    net = "device net in domain dnet"
    case.want(found, [("a", "c", "channel"), ("c", "b", "channel"), ("a", "b", "region"), ("a", "b", "handover"), ("c", "a", "event"),
                 ("b", "a", "monitor"), ("a", "next major frame", "tau0"), ("a", net, "device"), (net, "a", "device")], "the arrows of flows")
    case.want(("MSRs c0000080 to c0000082", "rw") in Seen(looked("draw", "matrix", built.policy)).rows(), True, "the row of MSRs")


def long_names(case):
    """Names of 63 wide letters are shortened, and stand whole in titles."""
    def longer(value, key=""):
        """A value with its names made longer."""
        if isinstance(value, dict):
            return {inner: longer(one, inner) for inner, one in value.items()}
        if isinstance(value, list):
            return [longer(one, key) for one in value]
        plain = not isinstance(value, str) or key in ("mode", "role", "rights", "hasEvent", "caching", "hex") or value.startswith("16#")
        return value if plain else f"{value}_".ljust(63, "W")

    def drawn(built):
        """All pictures of it."""
        names = [subject["name"] for subject in built.document["subjects"]]
        for picture, *words in (("trace", built.image, built.text), ("plan", built.policy), ("matrix", *built.sound),
                                ("matrix", built.policy), ("memory", *built.sound), ("flows", built.policy)):
            with case.subTest(f"{picture} of {words[0].name}"):
                if picture == "flows" and not shutil.which("dot"):
                    case.skipTest(NO_DOT)
                Seen(looked("draw", picture, *words)).names(names)
    of_document(longer(running(RULES)), drawn)


# ---- memory

def memory(case, built):
    """Each window of `map` is a row, and so is each region, but for the kernel's, of which those that adjoin are one."""
    windows = Counter(f"{place}, {size}, {shown}, {rights}" for place, size, rights, shown in
                      ((int(place, 16), int(size, 16), rights, shown) for _, place, size, rights, shown in built.mapped("window")))
    windows += Counter(f"{number(entry['virtualAddress'])}, {region_size(built.document, entry['region'])}, {entry['region']}, {entry['rights']}"
                       for domain in built.document.get("deviceDomains", []) for entry in domain.get("memory", []))
    seen = Seen(looked("draw", "memory", *built.sound))
    rows = [ROW.fullmatch(title).groups() for _, title in seen.titled("rect")]
    found = Counter(f"{int(begin, 16)}, {int(end, 16) + 1 - int(begin, 16)}, {name}, {fact}" for begin, end, name, fact in rows)
    case.want(windows - found, Counter(), "windows without a row")
    physical = [(int(begin, 16), int(end, 16) + 1, name, fact) for begin, end, name, fact in rows[:len(rows) - sum(windows.values())]]
    for place, size, name in ((int(place, 16), int(size, 16), name) for place, size, name in built.mapped("region")):
        row = next((row for row in physical if row[0] <= place and place + size <= row[1]), None)
        case.want(row is not None and (row[2] == name or name in row[3]), True, f"the row of {name}")
    case.want(physical, sorted(physical), "the order of rows")
    gaps = {f"{both(one[1])} to {both(other[0] - 1)}" for one, other in zip(physical, physical[1:]) if one[1] < other[0]}
    case.want(gaps - {title.split(",")[0] for title in seen.titles if title.endswith(": gap")}, set(), "the gaps")
    policy = Seen(looked("draw", "memory", built.policy))
    case.want(len(policy.titled("rect")), sum(windows.values()), "the rows of a policy")


ROW = re.compile(r"([0-9a-f]+)(?: \(\d+\))? to ([0-9a-f]+)(?: \(\d+\))?, [^:]*?: (.*?)(?:, (.*))?")


def region_size(document, name):
    """How many bytes a region of a policy has."""
    return number(named([*document["memory"], *document.get("channels", [])], name)["size"])


# ---- faults, and what is stored

def faults(case):
    """What can't be drawn is answered by one line."""
    def answered(words, line):
        """This line, and status 1."""
        case.want(said("draw", *words), (1, f"look: {line}\n"), " ".join(map(str, words)))
    policy, record, unlawful = (EXAMPLES / name for name in ("gateway.json", "gateway.record", "refused/shared_writable.json"))
    answered([], "the following arguments are required: PICTURE; look draw --help says more")
    answered(["plan"], "the following arguments are required: SYSTEM; look draw plan --help says more")
    answered(["map", policy], "argument PICTURE: invalid choice: 'map' (choose from 'trace', 'plan', 'matrix', 'flows', 'memory'); look draw --help says more")
    answered(["plan", "nothing"], "nothing: No such file or directory")
    answered(["matrix", "."], ".: Is a directory")
    answered(["flows", record], f"{record}:1:1: not JSON: here stands no value")
    answered(["plan", unlawful], f"{unlawful}:17:3: rule 8: data b: b maps data, which a may write")
    answered(["matrix", policy, "--dma", policy], f"{policy}: it is no image, and a policy has its domains in itself")
    answered(["trace", policy, record], f"{policy}: image refused at 0: magic")
    answered(["plan", policy, "--output", "nowhere/plan.svg"], "nowhere/plan.svg: No such file or directory")

    def of_images(built):
        """Faults of an image, of its tables, of a text, and of ticks."""
        image, text, short = built.image, built.text, built.folder / "short"
        short.write_bytes(image.read_bytes()[:100])
        answered(["plan", short], f"{short}: image refused at 40: short")
        answered(["matrix", image, "--dma", image], f"{image}: dma refused at 0: magic")
        answered(["trace", image, record], f"{record}: line 1: no line of a run: 'port 100 net 768 5'")
        answered(["trace", image, "/dev/null"], "/dev/null: no turn from tick 0 on is in it")
        answered(["trace", image, text, "--from", "20"], f"{text}: no turn from tick 20 on is in it")
        answered(["trace", image, text, "--from", "3", "--until", "3"], "from 3 until 3: want 1 to 10000 ticks")
        answered(["trace", image, text, "--from", "x"], "argument --from: invalid int value: 'x'; look draw trace --help says more")
        picture = built.folder / "plan.svg"
        case.look(["draw", "plan", built.policy, "--output", picture], 0, "", "")
        case.want(picture.read_text(encoding="ascii"), looked("draw", "plan", built.policy), "the file that is written")
    of_example("jumps.json", of_images)


# what is stored of an example beside its trace
FURTHER = {"gateway": ("plan", "matrix", "flows"), "two_subjects": ("plan",), "major_frames": ("plan",), "second_member": ("plan",),
           "private_memory": ("matrix",), "shared_memory": ("flows",), "frame_choice": ("plan",), "device_domains": ("matrix",),
           "packet_ring": ("flows",), "monitor": ("matrix",), "network_in": ("matrix",), "msrs_of_two": ("matrix",),
           "handover": ("plan",), "two_way_gateway": ("plan", "matrix", "flows", "memory"), "joined_gateways": ("matrix",)}


def pictures_of(name):
    """The pictures that are stored of an example."""
    return "trace", *FURTHER.get(name.removesuffix(".json"), ())


def file_of(name, picture):
    """The file of such a picture; the first one of README is in docs."""
    stem = name.removesuffix(".json")
    return TOP / "docs" / "gateway.svg" if (stem, picture) == ("gateway", "trace") else PICTURES / f"{stem}-{picture}.svg"


def now(built, picture):
    """Such a picture as it is drawn now. An image tells places, and a policy names."""
    words = {"trace": (built.image, built.text), "matrix": built.sound, "memory": built.sound}.get(picture, (built.policy,))
    return looked("draw", picture, *words)


def stored(case, name, picture):
    """A picture that is stored is what is drawn now; of flows, which each version of dot lays out in its way, the words are the same."""
    file = file_of(name, picture)
    if picture == "flows" and not shutil.which("dot"):
        case.skipTest(NO_DOT)

    def same(built):
        """Drawn anew."""
        drawn, there = now(built, picture), file.read_text(encoding="ascii")
        want(len(there) < 70_000, True, "it is small")
        if picture == "flows":
            drawn, there = ((sorted(text.words for text in seen.texts), sorted(seen.titles)) for seen in map(Seen, (drawn, there)))
        want(drawn == there, True, "it is what share/draw-pictures draws")
    of_example(name, same)


# ---- the tests

RULES = json.loads(POLICY)
CHECKS = (("trace", trace), ("plan", plan), ("matrix", matrix), ("flows", flows), ("memory", memory))
STORED = [(name, picture) for name in RUNNING for picture in pictures_of(name)]


@with_program
class OfExamples(Case):
    """Each picture of each example that runs."""

    @each((f"look draw {picture} of examples/{name}", name, check) for name in RUNNING for picture, check in CHECKS)
    def test_picture(self, name, check):
        """It says what it has to."""
        of_example(name, lambda built: check(self, built))

    @each((f"what is drawn of examples/{name} and of its image", name) for name in RUNNING)
    def test_same_scene(self, name):
        """The same, but for names and places."""
        of_example(name, lambda built: same_scene(self, built))


@with_program
class OfOthers(Case):
    """Pictures of the policy of docs/rules.md, and of it with long names; faults."""

    def test_rules(self):
        """The pictures of the policy of docs/rules.md, with what no example has."""
        of_document(running(RULES), lambda built: of_rules(self, built))

    def test_long_names(self):
        """Pictures with names of 63 letters."""
        long_names(self)

    def test_faults(self):
        """What can't be drawn is answered by one line."""
        faults(self)


class ByHand(Case):
    """What was worked out by hand."""

    @each((f"look draw plan of examples/{name}, by hand", name, rows) for name, rows in PLANS.items())
    def test_plan(self, name, rows):
        """The rows of the groups."""
        plan_is(EXAMPLES / name, rows)

    @with_program
    def test_chosen_frames(self):
        """The plan of frames that are chosen."""
        chosen_frames()

    @with_program
    def test_trace_of_gateway(self):
        """Which calls of cipher lead to which events of black."""
        of_example("gateway.json", lambda built: gateway_arrows(self, built))

    @with_program
    def test_trace_of_packet_ring(self):
        """The interrupts stand above their deliveries."""
        of_example("packet_ring.json", above)

    def test_flows_of_gateway(self):
        """The text for dot, and the arrows of docs/flows.md."""
        gateway_flows(self)

    def test_lightness(self):
        """Kinds of lines differ when they are printed in black and white."""
        lightness()


@with_program
class Stored(Case):
    """The pictures that are stored."""

    @each((f"the picture {file_of(name, picture).relative_to(TOP)}", name, picture) for name, picture in STORED)
    def test_stored(self, name, picture):
        """It is what is drawn now."""
        stored(self, name, picture)

    def test_no_others(self):
        """There are no other pictures."""
        self.want(set(PICTURES.iterdir()) - {file_of(*one) for one in STORED}, set(), "the files of examples/pictures")
