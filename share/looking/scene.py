"""What pictures show of a system: that of a policy, or of an image with its DMA tables.

Both say the same, but that an image has no names of groups, events and domains, and no order of a group's
further members, and a policy has no places.
"""
from __future__ import annotations

import pathlib
from dataclasses import dataclass, field

from looking import bitmaps
from looking.dma_file import domains_of, read_dma
from looking.document import lawful
from looking.files import MEBIBYTE, read_bytes
from looking.image import reached
from looking.image_file import DEVICE, KERNEL, KINDS, MODES, PART_NAMES, STATE, MajorFrame, Span
from looking.policy import PAGE, first, name
from looking.schema import number_of
from looking.system import System
from looking.wrong import Wrong

# from so many subjects on pictures are parted or folded by CPU, where nobody says otherwise
MANY = 13


@dataclass(frozen=True)
class Thing:
    """A region, a channel, a device's memory or a page of the kernel, with its number and the name that `map` prints."""
    number: int
    name: str
    kind: str
    size: int
    place: int | None = field(default=None, compare=False)


@dataclass(frozen=True)
class Sight:
    """A window on a thing; `part` says which part of it, where it isn't the whole."""
    thing: Thing
    address: int
    rights: str
    part: str = ""


@dataclass(frozen=True)
class Cause:
    """An event that a subject raises by a call or a trap, with its target's name; 0 is no vector."""
    way: str
    number: int
    mode: str
    target: str
    vector: int
    name: str = field(default="", compare=False)


@dataclass
class Subject:
    """What a subject has. Ports are with their device, and MSRs with their rights."""
    name: str
    cpu: int
    sights: list[Sight] = field(default_factory=list)
    ports: list[tuple[str, int, int]] = field(default_factory=list)
    msrs: list[tuple[int, int, str]] = field(default_factory=list)
    causes: list[Cause] = field(default_factory=list)
    interrupts: list[tuple[str, str, int]] = field(default_factory=list)


@dataclass
class Group:
    """A scheduling group, its first member foremost."""
    name: str = field(compare=False)
    cpu: int = 0
    members: list[str] = field(default_factory=list)


@dataclass
class Body:
    """A device in no domain, or those of a domain, with what they reach by themselves."""
    devices: list[str]
    domain: str | None = field(default=None, compare=False)
    sights: list[Sight] = field(default_factory=list)

    @property
    def title(self):
        """Its devices, and the domain."""
        return ", ".join(self.devices) + (f" in {self.domain}" if self.domain else "")


@dataclass
class Scene:
    """A system, by the name of its file. `choosers` may write the region that chooses the next major frame."""
    source: str
    cpus: int
    subjects: list[Subject]
    things: list[Thing]
    groups: list[Group]
    frames: list[MajorFrame]
    bodies: list[Body]
    choice: str | None
    choosers: list[str]
    # all of physical memory, the kernel's too; a policy has no places
    spans: list[Span] = field(default_factory=list, compare=False)
    # whether it is known what devices reach by themselves: of an image with devices only by its DMA tables
    knows_dma: bool = field(default=True, compare=False)

    @property
    def by_cpu(self):
        """The subjects, those of a CPU together."""
        return sorted(self.subjects, key=lambda subject: subject.cpu)


def add_system(parser):
    """The words that name a system."""
    parser.add_argument("system", metavar="SYSTEM", help="a policy; or an image, which tells places, and no names of groups and events")
    parser.add_argument("--dma", metavar="DMA", help="the file of DMA tables of the image's build")


def scene_of(arguments):
    """The scene of an image with the file of its DMA tables, or of a policy."""
    file, dma = arguments.system, arguments.dma
    # standard input can be read once alone, and is a policy
    if file != "-" and read_bytes(file, 96 * MEBIBYTE).startswith(b"MUENIMG"):
        return image_scene(file, dma)
    if dma is not None:
        raise Wrong(f"{file}: it is no image, and a policy has its domains in itself")
    return policy_scene(file)


# ---- an image

def image_scene(file, dma):
    """What the bytes say."""
    system = System(file)
    image = system.image
    things = {span.number: Thing(span.number, span.name, "state" if span.part == STATE else KINDS[span.kind], span.size, span.place)
              for span in sorted(image.spans, key=lambda span: span.number)}
    subjects = [image_subject(system, things, number) for number in range(len(image.subjects))]
    shown = {sight.thing for subject in subjects for sight in subject.sights}
    listed = [thing for thing in things.values() if thing.kind not in ("state", KINDS[KERNEL]) or thing in shown]
    listed += sorted((thing for thing in shown if thing.kind == "nothing"), key=lambda thing: thing.place)
    groups = []
    for number, group in enumerate(image.groups):
        others = [at for at, one in enumerate(image.subjects) if one.group == number and at != group.first]
        groups.append(Group(f"group {number}", group.cpu, list(map(system.name, [group.first, *others]))))
    bodies = [Body(sorted(names), f"domain {number}", [sight_of(things, *one) for reach in reaches for one in reached(system, reach)])
              for number, names, reaches in (domains_of(read_dma(dma)) if dma is not None else ())]
    choosers = [] if image.choice is None else writers(subjects, things[image.choice.number])
    return Scene(pathlib.Path(file).name, image.cpus, subjects, listed, groups, image.frames,
                 with_others(bodies, [device.name for device in image.devices]), image.choice and image.choice.name, choosers, image.spans,
                 dma is not None or not image.devices)


def sight_of(things, span, place, address, size, rights):
    """What is seen at an address of a span, or of no span."""
    if span is None:
        return Sight(Thing(-1, f"no memory at {place:x}", "nothing", size, place), address, rights)
    part = "" if (place, size) == (span.place, span.size) else f"{size:x} from {place - span.place:x}"
    return Sight(things[span.number], address, rights, part)


def image_subject(system, things, number):
    """What a subject has by its tables and bitmaps, and what it raises."""
    one, devices = system.image.subjects[number], system.image.devices
    subject = Subject(one.name, one.cpu, msrs=bitmaps.granted_msrs(one))
    subject.sights = [sight_of(things, window.span, window.place, window.guest, window.size, window.rights)
                      for window in system.view(number).windows]
    ranges = [(device.name, low, high) for device in devices for low, high in device.ports]
    for low, high in bitmaps.granted_ports(one):
        subject.ports += cut(low, high, ranges)
    subject.causes = [Cause(way, at, MODES[event.mode], system.name(event.target), event.vector)
                      for way, events in (("call", one.calls), ("trap", one.traps)) for at, event in sorted(events.items())]
    subject.interrupts = [(device.name, irq.name, irq.vector) for device in devices for irq in device.interrupts if irq.target == number]
    return subject


def with_others(domains, devices):
    """Those of domains that have devices, and each device that is in none."""
    domestic = {device for domain in domains for device in domain.devices}
    return [domain for domain in domains if domain.devices] + [Body([device]) for device in devices if device not in domestic]


def cut(low, high, ranges):
    """A range of ports as parts that are all of a device's range, or of none."""
    edges = sorted({low, high + 1, *(edge for _, first, last in ranges for edge in (first, last + 1) if low < edge <= high)})
    for first, behind in zip(edges, edges[1:]):
        owner = next((device for device, start, end in ranges if start <= first <= end), "")
        yield owner, first, behind - 1


def writers(subjects, thing):
    """Who may write a thing."""
    return [subject.name for subject in subjects
            if any(sight.thing == thing and "w" in sight.rights for sight in subject.sights)]


# ---- a policy

def policy_scene(file):
    """What a policy grants."""
    policy = lawful(file)
    things = {thing.name: thing for thing in things_of(policy)}
    bodies = []
    for domain in policy.domains:
        sights = [Sight(things[name(node, "region")], number_of(node.get("virtualAddress")), name(node, "rights"))
                  for node in domain.items("memory")]
        bodies.append(Body(sorted(node.value for node in domain.items("devices")), f"domain {name(domain)}",
                           sorted(sights, key=lambda sight: sight.address)))
    groups = [Group(name(group), number_of(group.get("cpu")), [member.value for member in group.items("subjects")])
              for group in policy.groups]
    tau0 = policy.tau0
    return Scene(pathlib.Path(file).name, policy.cpus, [policy_subject(policy, node, things) for node in policy.subjects],
                 list(things.values()), groups, list(map(frame_of(policy), policy.frames)), with_others(bodies, list(map(name, policy.devices))),
                 name(tau0, "region") if tau0 else None, [name(tau0, "subject")] if tau0 else [])


def things_of(policy):
    """All that windows may show, by number (docs/placement.md); of the kernel's regions the states that are monitored."""
    plain = [(name(node), kind, node) for kind, nodes in (("own", policy.memory), ("channel", policy.channels)) for node in nodes]
    for subject in policy.subjects:
        component = policy.component(subject)
        plain += [(f"{name(subject)}|{name(node, 'logical')}", "provided", node) for node in (component.items("provides") if component else [])]
    devices = [(f"{name(device)}|{name(node)}", KINDS[DEVICE], node) for device in policy.devices for node in device.items("memory")]
    monitored = {name(node, "subject") for subject in policy.subjects for node in subject.items("monitors")}
    kernel = len(plain) + len(PART_NAMES) * len(policy.subjects)

    def thing(number, named):
        """A region or a device's memory."""
        words, kind, node = named
        return Thing(number, words, kind, number_of(node.get("size")), number_of(node.get("physicalAddress")))
    yield from (thing(number, named) for number, named in enumerate(plain))
    for number, subject in enumerate(policy.subjects):
        if name(subject) in monitored:
            yield Thing(len(plain) + len(PART_NAMES) * number, f"{name(subject)}:state", "state", PAGE)
    yield from (thing(kernel + number, named) for number, named in enumerate(devices))


def frame_of(policy):
    """A function that takes a major frame of the policy as an image has it."""
    places = {name(group): number for number, group in enumerate(policy.groups)}

    def taken(frame):
        """The frame, by the numbers of CPUs and groups."""
        cpus = sorted(frame.items("cpus"), key=lambda cpu: number_of(cpu.get("cpu")))
        minors = [[(places[name(minor, "group")], number_of(minor.get("ticks"))) for minor in cpu.items("minorFrames")] for cpu in cpus]
        return MajorFrame(sum(ticks for _, ticks in minors[0]), minors)
    return taken


def policy_subject(policy, node, things):
    """What a subject has by itself, and by its component."""
    subject = Subject(name(node), number_of(node.get("cpu")))
    for window in policy.windows(node):
        shown = {"provided": f"{name(node)}|{window.shows}", "state": f"{window.shows}:state",
                 "device": f"{window.device}|{window.shows}"}.get(window.kind, window.shows)
        subject.sights.append(Sight(things[shown], window.start, window.rights))
    subject.sights.sort(key=lambda sight: sight.address)
    for use in node.items("devices"):
        device = first(policy.devices, use.text("device"))
        ranges = [first(device.items("ioPorts"), port.value) for port in use.items("ioPorts")]
        subject.ports += [(name(device), number_of(one.get("start")), number_of(one.get("end"))) for one in ranges]
        subject.interrupts += [(name(device), name(irq, "irq"), number_of(irq.get("vector"))) for irq in use.items("irqs")]
    subject.ports.sort(key=lambda one: one[1])
    granted = {right: {index for one in node.items("msrs") if right in name(one, "rights")
                       for index in range(number_of(one.get("start")), number_of(one.get("end")) + 1)} for right in "rw"}
    subject.msrs = bitmaps.by_rights(granted["r"], granted["w"])
    subject.causes = sorted(policy_causes(policy, node), key=lambda cause: (cause.way, cause.number))
    return subject


def policy_causes(policy, node):
    """The events of a subject's channels, and those that are no channel's."""
    for end in policy.ends(node):
        mode = first(policy.channels, end.channel).text("hasEvent")
        for other in policy.all_ends:
            if mode and end.role == "writer" and other.role == "reader" and other.channel == end.channel:
                yield Cause("call", number_of(end.call), mode, name(other.subject), number_of(other.vector) or 0, end.channel)
    for entry in node.items("sources"):
        event = name(entry, "event")
        mode = first(policy.events, event).text("mode")
        way = "call" if entry.get("call") is not None else "trap"
        for target, other in policy.targets(event):
            yield Cause(way, number_of(entry.get(way)), mode, name(target), number_of(other.get("vector")) or 0, event)
