"""A document as a policy: its elements, and what subjects have by their components too.

It takes documents with faults: what isn't there, or isn't what it should be, is none.
"""
from __future__ import annotations

from collections import defaultdict
from dataclasses import dataclass
from functools import cached_property

from looking.places import Items, Node
from looking.schema import number_of

PAGE = 4096


@dataclass
class Window:
    """A window of a subject: what it shows, where, and by which value of the document."""
    kind: str
    shows: str
    node: Node
    address: Node | None
    size: int | None
    rights: str
    device: str = ""

    @property
    def start(self):
        """The first address, or none."""
        return number_of(self.address)

    @property
    def end(self):
        """The address behind the last one, or none."""
        return None if self.start is None or self.size is None else self.start + self.size


@dataclass
class End:
    """An end of a channel that a subject has."""
    channel: str
    role: str
    subject: Node
    node: Node
    # the value that names the channel: the end itself, or the map entry of a component's
    named: Node

    @property
    def call(self):
        """The call that raises its event, or none."""
        return self.node.get("call")

    @property
    def vector(self):
        """The vector of its event, or none."""
        return self.node.get("vector")


def first(nodes, name, key="name"):
    """The first of these that has this name."""
    if name is None:
        return None
    return nodes.first(key, name) if isinstance(nodes, Items) else next((node for node in nodes if node.text(key) == name), None)


def name(node, key="name"):
    """A name that stands in a value, or the empty text."""
    return node.text(key) or ""


def gathered(pairs):
    """Of each first part of these pairs the list of its second parts."""
    found = defaultdict(list)
    for key, value in pairs:
        found[key].append(value)
    return found


def size_of(node):
    """The size that a value has, or none."""
    return number_of(node.get("size")) if node is not None else None


class Policy:
    """The lists of a document, and what follows from them."""

    def __init__(self, document):
        self.document = document
        self.blocks = document.items("memoryBlocks")
        self.devices = document.items("devices")
        self.memory = document.items("memory")
        self.channels = document.items("channels")
        self.components = document.items("components")
        self.events = document.items("events")
        self.subjects = document.items("subjects")
        self.domains = document.items("deviceDomains")
        scheduling = document.get("scheduling")
        self.groups = scheduling.items("groups") if scheduling else []
        self.frames = scheduling.items("majorFrames") if scheduling else []
        self.tau0 = scheduling.get("tau0") if scheduling else None
        self._windows = {}

    @cached_property
    def cpus(self):
        """How many CPUs there are, or none."""
        processor = self.document.get("processor")
        return number_of(processor.get("logicalCpus")) if processor else None

    def component(self, subject):
        """The component of a subject, or none."""
        use = subject.get("component")
        return first(self.components, use.text("ref")) if use else None

    def entries(self, subject):
        """The entries of the map of a subject's component."""
        use = subject.get("component")
        return use.items("map") if use else []

    def given(self, subject, logical):
        """The first entry of the map that has this logical name, or none."""
        return first(self.entries(subject), logical, "logical")

    def ends(self, subject):
        """The ends of channels of a subject, those of its component last."""
        found = [End(name(end, "channel"), name(end, "role"), subject, end, end) for end in subject.items("channels")]
        component = self.component(subject)
        for end in component.items("channels") if component else []:
            if entry := self.given(subject, end.text("logical")):
                found.append(End(name(entry, "physical"), name(end, "role"), subject, end, entry))
        return found

    @cached_property
    def all_ends(self):
        """The ends of channels of all subjects."""
        return [end for subject in self.subjects for end in self.ends(subject)]

    def windows(self, subject):
        """The windows of a subject in the order of docs/rules.md."""
        found = self._windows.get(subject.path)
        if found is None:
            found = self._windows[subject.path] = [*self.own_windows(subject), *self.component_windows(subject),
                                                   *self.state_windows(subject)]
        return found

    def own_windows(self, subject):
        """Those of `memory`, `channels` and `devices`."""
        for node in subject.items("memory"):
            region = first(self.memory, node.text("region"))
            yield Window("region", name(node, "region"), node, node.get("virtualAddress"), size_of(region), name(node, "rights"))
        for node in subject.items("channels"):
            yield self.channel_window(name(node, "channel"), node, node)
        for use in subject.items("devices"):
            device = first(self.devices, use.text("device"))
            for node in use.items("memory"):
                memory = first(device.items("memory"), node.text("memory")) if device else None
                yield Window("device", name(node, "memory"), node, node.get("virtualAddress"), size_of(memory),
                             name(node, "rights"), name(use, "device"))

    def channel_window(self, channel, node, end):
        """The window of an end of a channel, which this value of a subject gives."""
        rights = {"writer": "rw", "reader": "r"}.get(end.text("role"), "")
        return Window("channel", channel, node, end.get("virtualAddress"), size_of(first(self.channels, channel)), rights)

    def component_windows(self, subject):
        """Those that its component gives it."""
        component = self.component(subject)
        if component is None:
            return
        for node in component.items("provides"):
            yield Window("provided", name(node, "logical"), node, node.get("virtualAddress"), size_of(node), name(node, "rights"))
        for node in component.items("memory"):
            if entry := self.given(subject, node.text("logical")):
                region = first(self.memory, entry.text("physical"))
                yield Window("region", name(entry, "physical"), entry, node.get("virtualAddress"), size_of(region),
                             entry.text("rights") or name(node, "rights"))
        for node in component.items("channels"):
            if entry := self.given(subject, node.text("logical")):
                yield self.channel_window(name(entry, "physical"), entry, node)

    def state_windows(self, subject):
        """Those on the state pages that it monitors."""
        for node in subject.items("monitors"):
            yield Window("state", name(node, "subject"), node, node.get("virtualAddress"), PAGE, name(node, "rights"))

    def mapped(self, region):
        """Of each window of a subject on a region of `memory` the subject and the window."""
        return self._mapped.get(region, [])

    @cached_property
    def _mapped(self):
        """Those of mapped, by the region's name."""
        return gathered((window.shows, (subject, window)) for subject in self.subjects
                        for window in self.windows(subject) if window.kind == "region")

    def sources(self, event):
        """Of each source entry of an event the subject and the entry."""
        return self._raised["sources"].get(event, [])

    def targets(self, event):
        """Of each target entry of an event the subject and the entry."""
        return self._raised["targets"].get(event, [])

    @cached_property
    def _raised(self):
        """Those of sources and of targets, by the event's name."""
        return {key: gathered((node.text("event"), (subject, node)) for subject in self.subjects for node in subject.items(key))
                for key in ("sources", "targets")}

    def ends_of(self, channel):
        """The ends of a channel, in the order of the subjects."""
        return self._ends_of.get(name(channel), []) if name(channel) else []

    @cached_property
    def _ends_of(self):
        """Those of ends_of, by the channel's name."""
        return gathered((end.channel, end) for end in self.all_ends)

    def group_of(self, subject):
        """The first group that lists a subject, or none."""
        return self._group_of.get(subject)

    @cached_property
    def _group_of(self):
        """Those of group_of, by the subject's name."""
        found = {}
        for group in self.groups:
            for member in group.items("subjects"):
                if member.kind == "text":
                    found.setdefault(member.value, group)
        return found

    def ticks(self, group):
        """The ticks of a group in all major frames together."""
        return sum(self._ticks.get(group, []))

    @cached_property
    def _ticks(self):
        """Of each group the ticks of its minor frames."""
        return gathered((minor.text("group"), number_of(minor.get("ticks")) or 0) for frame in self.frames
                        for cpu in frame.items("cpus") for minor in cpu.items("minorFrames"))
