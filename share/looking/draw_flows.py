"""look draw flows: the direct flows between subjects, and what leads over devices."""
import re
import subprocess
from dataclasses import dataclass, replace

from looking.scene import add_system, scene_of
from looking.steps import steps, touches
from looking.svg import FONT, shortened
from looking.words import counted, decimals
from looking.wrong import Wrong

HELP = "the direct flows, typed: channels, events, handovers, shared memory, monitors, tau0; devices"
LONG_HELP = """Draws subjects and devices, with an arrow for each direct flow (docs/flows.md), and grey ones
for what is granted of devices, which is none. `--fold` draws the subjects of a CPU as one,
with how many flows lead from CPU to CPU; `--without NAME` leaves out a subject or a device,
as one to which all write a log. Graphviz's program `dot` lays it out; where that isn't there,
a line says so, and the status is 1; `--text` prints what `dot` takes."""
# the kinds of arrows: how they look, and what the key says of them
KINDS = {
    "channel": ("color=\"#1f1f1f\"", "full head: channel, and events along it"),
    "event": ("color=\"#6a3d9a\", fontcolor=\"#6a3d9a\", arrowhead=empty", "purple, empty head: event"),
    "handover": ("color=\"#8a4b20\", fontcolor=\"#8a4b20\", style=dashed", "brown, dashed: handover of the CPU"),
    "region": ("color=\"#c25a00\", fontcolor=\"#a04800\", penwidth=2", "orange, thick: shared memory"),
    "monitor": ("color=\"#1f1f1f\", style=dotted, penwidth=1.6", "dotted: monitor of a state"),
    "tau0": ("color=\"#c8102e\", fontcolor=\"#c8102e\", style=dashed, arrowhead=diamond", "red, dashed, diamond: tau0 chooses the major frames"),
    "device": ("color=\"#808080\", fontcolor=\"#505050\", arrowhead=vee, arrowtail=vee", "grey, open head: devices, which are no flow"),
}
FRAMES = "next major frame"
SHADES = ["#dbe8f7", "#fde6cc", "#dff0d8", "#eadff2", "#fff6cc", "#dcefee", "#f6dede", "#e9e9e9"]
MOST_LINES, MOST_FOLDED, LABEL_ROOM, WIDE_LABEL = 5, 2, 330, 18


def add_arguments(parser):
    """The words of this picture."""
    add_system(parser)
    parser.add_argument("--fold", action="store_true", help="draw the subjects of a CPU as one")
    parser.add_argument("--without", metavar="NAME", action="append", default=[], help="leave out this subject or device; may stand several times")
    parser.add_argument("--text", action="store_true", help="print the text that dot takes, and no picture")


def draw(arguments):
    """The picture, or the text for dot."""
    scene = scene_of(arguments)
    text = dot_text(scene, arguments.fold, known(scene, arguments.without))
    return text if arguments.text else laid_out(text)


def known(scene, names):
    """These names, each of which is a subject's or a device's, or Wrong."""
    there = {subject.name for subject in scene.subjects} | {device for body in scene.bodies for device in body.devices}
    for name in names:
        if name not in there:
            raise Wrong(f"no subject and no device is {name}")
    return set(names)


def laid_out(text):
    """The picture that dot makes of a text."""
    try:
        done = subprocess.run(["dot", "-Tsvg"], input=text.encode("ascii"), capture_output=True, check=False)
    except FileNotFoundError:
        raise Wrong("graphviz's dot, which lays out flows, isn't there; look draw flows --text prints what it takes") from None
    if done.returncode:
        raise Wrong(f"dot ended with status {done.returncode}: {done.stderr.decode('utf-8', 'replace').strip()[:200]}")
    picture = done.stdout.decode("utf-8").encode("ascii", "xmlcharrefreplace").decode()
    picture = re.sub("<!--.*?-->\n", "", picture[picture.index("<svg"):], flags=re.S)
    # a point is a pixel, as in the other pictures
    return re.sub(r'(<svg width="[0-9.]+)pt" height="([0-9.]+)pt"', r'\1" height="\2"', picture, count=1)


# ---- the text for dot

@dataclass
class Arrow:
    """An arrow that is drawn: of all flows of its kind between two, and back too where the same leads back."""
    source: str
    target: str
    kind: str
    labels: list[str]
    back: bool = False


def arrows_of(scene):
    """The arrows of a system. Events along a channel are on its arrow; who chooses major frames has one arrow; and so have a
    subject and a device."""
    arrows, found = {}, [step for step in steps(scene) if step.kind != "tau0"]
    channels = {(step.source, step.target) for step in found if step.kind == "channel"}
    for step in found:
        kind = "channel" if step.kind == "event" and (step.source, step.target) in channels else step.kind
        key = (step.source, step.target, kind)
        arrows.setdefault(key, Arrow(*key, [])).labels.append(step.by)
    for (source, target, kind), arrow in list(arrows.items()):
        other = arrows.get((target, source, kind))
        if other and arrow is arrows.get((source, target, kind)) and other.labels == arrow.labels:
            arrow.back = True
            del arrows[target, source, kind]
    yield from arrows.values()
    for chooser in scene.choosers:
        yield Arrow(chooser, FRAMES, "tau0", [scene.choice])
    for touch in touches(scene):
        ends = (touch.subject, of_devices(touch.devices)) if touch.gives else (of_devices(touch.devices), touch.subject)
        if touch.gives or touch.takes:
            yield Arrow(*ends, "device", list(dict.fromkeys(touch.gives + touch.takes)), bool(touch.gives and touch.takes))


def left_out(scene, without):
    """A scene without some subjects and devices."""
    subjects = [subject for subject in scene.subjects if subject.name not in without]
    bodies = [body for body in scene.bodies if not without & set(body.devices)]
    causes = {subject.name: [cause for cause in subject.causes if cause.target not in without] for subject in subjects}
    return replace(scene, subjects=[replace(subject, causes=causes[subject.name]) for subject in subjects], bodies=bodies,
                   choosers=[name for name in scene.choosers if name not in without])


def folded(scene, arrows):
    """The arrows between CPUs, and between CPUs and devices, each with what carries it, or by how much; what stays on a CPU is left out."""
    cpus, found = {subject.name: cpu_name(subject.cpu) for subject in scene.subjects}, {}
    for arrow in arrows:
        for source, target in [(arrow.source, arrow.target), (arrow.target, arrow.source)][:1 + arrow.back]:
            ends = cpus.get(source, source), cpus.get(target, target)
            if ends[0] != ends[1]:
                found.setdefault((*ends, arrow.kind), []).extend(arrow.labels)
    for key, labels in found.items():
        names = list(dict.fromkeys(label.split(":")[0] for label in labels))
        yield Arrow(*key, names if len(names) <= MOST_FOLDED else [counted(len(names), key[2])])


def cpu_name(cpu):
    """The node of a CPU's subjects."""
    return f"CPU {cpu}"


def nodes(scene, fold):
    """Of each node its name, its label and the CPU whose colour it has."""
    if not fold:
        return [(subject.name, f"{shown(subject.name)}\\n{cpu_name(subject.cpu)}", subject.cpu) for subject in scene.subjects]
    names = {cpu: [subject.name for subject in scene.subjects if subject.cpu == cpu] for cpu in range(scene.cpus)}
    return [(cpu_name(cpu), "\\n".join([cpu_name(cpu), *map(shown, [", ".join(own[at:at + 4]) for at in range(0, len(own), 4)])]), cpu)
            for cpu, own in names.items() if own]


def dot_text(scene, fold=False, without=frozenset()):
    """All nodes, and the arrows with what they are by."""
    scene = left_out(scene, without) if without else scene
    arrows = list(arrows_of(scene))
    if fold:
        arrows = list(folded(scene, arrows))
    key = f"{shown(scene.source)}: direct flows\\l" + "".join(f"{KINDS[kind][1]}\\l" for kind in KINDS if any(arrow.kind == kind for arrow in arrows))
    lines = [f"digraph {quoted(f'the direct flows of {scene.source}')} {{",
             f"  graph [rankdir={'TB' if fold else 'LR'}, pad=.3, nodesep=.3, ranksep=.4, labeljust=l, fontsize=10, fontname={quoted(FONT)}, label=\"{key}\"]",
             f"  node [shape=box, style=\"rounded,filled\", fontsize=11, fontname={quoted(FONT)}]",
             f"  edge [fontsize=9, fontname={quoted(FONT)}, arrowsize=.8]"]
    for name, text, cpu in nodes(scene, fold):
        lines.append(f"  {quoted(name)} [label=\"{text}\", fillcolor=\"{SHADES[cpu]}\"]")
    for body in scene.bodies:
        lines.append(f"  {quoted(of_devices(body.title))} [label=\"{shown(body.title)}\", shape=box3d, style=filled, fillcolor=\"#f2f2f2\"]")
    if scene.choosers:
        lines.append(f"  {quoted(FRAMES)} [label=\"{FRAMES}\\n(all subjects)\", shape=note, style=filled, fillcolor=\"#ffffff\"]")
    for arrow in arrows:
        back = ", dir=both" if arrow.back else ""
        lines.append(f"  {quoted(arrow.source)} -> {quoted(arrow.target)} [{label(arrow.labels)}, {KINDS[arrow.kind][0]}, class={arrow.kind}{back}]")
    return "\n".join([*lines, "}", ""])


def of_devices(title):
    """The node of devices; one may have a subject's name."""
    return f"device {title}"


def label(labels):
    """What an arrow is by, in a few lines; all of it where the pointer is, if some is left out, or has numbers that aren't decimal."""
    # an event of a channel has its name in front
    labels = [text for text in labels if not any(other.startswith(f"{text}: ") for other in labels)]
    lines = [shown(part) for text in labels[:MOST_LINES] for part in parted(text)]
    lines += [f"and {len(labels) - MOST_LINES} more"] if len(labels) > MOST_LINES else []
    every = ", ".join(labels)
    told = decimals(every)
    whole = f", tooltip={quoted(every + (told and f'; {told}'))}" if told or len(labels) > MOST_LINES or any(".." in line for line in lines) else ""
    return "label=\"" + "\\n".join(lines) + f"\"{whole}"


def parted(text):
    """A label as two lines where it is long, so that pictures are narrow: `x: call 1, ..`, `x may change the state of y`."""
    for mark in (":", " may change", " sees"):
        front, found, behind = text.partition(f"{mark} ")
        if found and len(text) > WIDE_LABEL:
            return front + mark, behind
    return (text,)


def shown(text):
    """A text, shortened where it is long."""
    return shortened(text, LABEL_ROOM, 10)


def quoted(text):
    """A text in double quotes."""
    return '"' + text.replace("\\", "\\\\").replace('"', '\\"') + '"'
