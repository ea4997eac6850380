"""What is lawful in a policy, and mostly not meant: warnings, each with a name (docs/rules.md, Warnings)."""
from __future__ import annotations

import pathlib
from dataclasses import dataclass

from looking.places import Node
from looking.policy import first, name
from looking.schema import number_of, repeated_keys
from looking.words import counted

# the exit reasons that may be trapped, as docs/policy.md has them
TRAPPED = {0, 30, 31, 32, 48, 49}
INSTRUCTION = 8
HEXADECIMAL = set("0123456789abcdefABCDEF")


@dataclass(frozen=True)
class Hint:
    """A warning by its name, and the value that it is about."""
    name: str
    node: Node
    text: str
    is_key: bool = False

    @property
    def spot(self):
        """Where the value stands, or its key."""
        return self.node.key_spot if self.is_key else self.node.spot


def hints(policy):
    """All warnings on a policy."""
    for key, node in repeated_keys(policy.document):
        yield Hint("repeated-key", node, f'the key "{key}" stands twice in this object; the last value counts', True)
    yield from of_entries(policy)
    yield from of_code(policy)
    yield from of_unused(policy)
    yield from of_plan(policy)
    yield from of_events(policy)
    yield from of_rights(policy)
    yield from of_domains(policy)
    yield from of_parts(policy)


def content_bytes(content):
    """The bytes of a content, where they stand in the policy or in a file of the current folder; else none."""
    if content is None:
        return b""
    digits, file = content.text("hex"), content.text("file")
    if digits is not None:
        return bytes.fromhex(digits) if len(digits) % 2 == 0 and set(digits) <= HEXADECIMAL else None
    if file is None:
        # a byte that is repeated
        return None
    try:
        held = pathlib.Path(file).read_bytes()
    except OSError:
        return None
    offset, length = number_of(content.get("offset")) or 0, number_of(content.get("length"))
    return held[offset:] if length is None else held[offset:offset + length]


def contents_of_window(policy, window):
    """The bytes that a window shows at the start, without the zeros behind them; none where they aren't known."""
    if window.kind == "region":
        region = first(policy.memory, window.shows)
    elif window.kind == "provided":
        region = window.node
    else:
        return None
    return None if region is None else content_bytes(region.get("content"))


def of_entries(policy):
    """Entries where nothing can run."""
    for subject in policy.subjects:
        entry = number_of(subject.get("entry"))
        windows = [window for window in policy.windows(subject) if None not in (window.start, window.end)]
        if entry is None:
            continue
        if not any("x" in window.rights and window.start <= entry < window.end for window in windows):
            yield Hint("entry-outside-code", subject.get("entry"), f"the entry of {name(subject)} lies in no window with the right to execute")
        elif entry % INSTRUCTION:
            yield Hint("odd-entry", subject.get("entry"), f"the entry of {name(subject)} is no multiple of 8")


def of_code(policy):
    """Code that doesn't end with an instruction, and parts of files that have no byte."""
    run = {window.shows for subject in policy.subjects for window in policy.windows(subject)
           if window.kind == "region" and "x" in window.rights}
    provided = [node for each in policy.components for node in each.items("provides")]
    code = [region for region in policy.memory if name(region) in run] + [node for node in provided if "x" in name(node, "rights")]
    for node in [*policy.memory, *provided]:
        content = node.get("content")
        held = content_bytes(content)
        if content is None or held is None:
            continue
        where = content.get("hex") or content.get("file")
        if not held and content.get("file"):
            yield Hint("empty-part", where, f"no byte of the file {content.text('file')} is in that part")
        elif len(held) % INSTRUCTION and any(node is one for one in code):
            yield Hint("cut-code", where, f"the code has {counted(len(held), 'byte')}, no multiple of 8")


def of_unused(policy):
    """What nobody has."""
    seen = {window.shows for subject in policy.subjects for window in policy.windows(subject) if window.kind == "region"}
    reached = {name(node, "region") for domain in policy.domains for node in domain.items("memory")}
    for region in policy.memory:
        if name(region) not in seen:
            whose = "a domain's devices alone have it" if name(region) in reached else "nobody has a window on it"
            yield Hint("unused-region", region.get("name") or region, f"the region {name(region)}: {whose}")
    used = {name(component) for subject in policy.subjects if (component := policy.component(subject)) is not None}
    for component in policy.components:
        if name(component) not in used:
            yield Hint("unused-component", component.get("name") or component, f"no subject uses the component {name(component)}")
    granted = {name(use, "device") for subject in policy.subjects for use in subject.items("devices")}
    granted |= {node.value for domain in policy.domains for node in domain.items("devices") if node.kind == "text"}
    for device in policy.devices:
        if name(device) not in granted:
            yield Hint("unused-device", device.get("name") or device, f"nobody has anything of the device {name(device)}")


def of_parts(policy):
    """Parts of devices that nobody has, though somebody has others; and events that can't come, or that nobody takes."""
    for device in policy.devices:
        uses = [use for subject in policy.subjects for use in subject.items("devices") if name(use, "device") == name(device)]
        if not uses:
            continue
        had = {"ioPorts": {node.value for use in uses for node in use.items("ioPorts")},
               "memory": {name(node, "memory") for use in uses for node in use.items("memory")},
               "irqs": {name(node, "irq") for use in uses for node in use.items("irqs")}}
        for key, what in (("ioPorts", "the ports"), ("memory", "the memory"), ("irqs", "the interrupt")):
            for part in device.items(key):
                if name(part) not in had[key]:
                    yield Hint("unused-part", part.get("name") or part, f"nobody has {what} {name(part)} of the device {name(device)}")
    for event in policy.events:
        missing = [word for word, there in (("raises", policy.sources(name(event))), ("takes", policy.targets(name(event)))) if not there]
        if missing:
            yield Hint("unused-event", event.get("name") or event, f"nobody {' or '.join(missing)} the event {name(event)}")


def of_rights(policy):
    """Windows by which a subject can write what it runs."""
    for subject in policy.subjects:
        for window in policy.windows(subject):
            if window.rights == "rwx":
                yield Hint("writable-code", window.node, f"{name(subject)} may write and run {window.shows}")


def of_domains(policy):
    """What devices may write by themselves, and mostly shouldn't; and devices of several subjects in one domain."""
    users = {name(device): {name(subject) for subject in policy.subjects for use in subject.items("devices") if name(use, "device") == name(device)}
             for device in policy.devices}
    for domain in policy.domains:
        for node in domain.items("memory"):
            region, seen = name(node, "region"), policy.mapped(name(node, "region"))
            runs = list(dict.fromkeys(name(subject) for subject, window in seen if "x" in window.rights))
            sees = list(dict.fromkeys(name(subject) for subject, _ in seen))
            if "w" in name(node, "rights") and runs:
                yield Hint("dma-into-code", node.get("region"), f"devices of the domain {name(domain)} may write {region}, which {' and '.join(runs)} may run")
            elif "w" in name(node, "rights") and len(sees) > 1:
                yield Hint("dma-into-shared", node.get("region"), f"devices of the domain {name(domain)} may write {region}, which {' and '.join(sees)} see")
        owners = []
        for node in domain.items("devices"):
            before, own = list(owners), sorted(users.get(node.value, ())) if node.kind == "text" else []
            owners += [owner for owner in own if owner not in owners]
            if len(before) < 2 <= len(owners):
                yield Hint("shared-domain", node, f"the domain {name(domain)} has devices of {' and '.join(owners)}: "
                                                  "what the one tells its device to do reaches what the other's may")


def of_plan(policy):
    """Groups and subjects that never have a tick."""
    for group in policy.groups:
        if not policy.ticks(name(group)):
            yield Hint("idle-group", group.get("name") or group, f"the group {name(group)} has no ticks, so no member runs")
    handed = {subject.path for subject, _ in handovers(policy)}
    for group in policy.groups:
        for member in group.items("subjects")[1:]:
            subject = first(policy.subjects, member.value if member.kind == "text" else None)
            if subject is not None and subject.path not in handed:
                yield Hint("idle-member", member, f"{member.value} never runs: it isn't the first member, and no event of mode switch leads to it")


def handovers(policy):
    """Of each event of mode switch the target, and the value that declares the event."""
    for event in policy.events:
        if event.text("mode") == "switch":
            for subject, _ in policy.targets(name(event)):
                yield subject, event
    for channel in policy.channels:
        if channel.text("hasEvent") == "switch":
            for end in policy.ends_of(channel):
                if end.role == "reader":
                    yield end.subject, channel


def of_events(policy):
    """Events that never come, or that nobody can take."""
    for subject in policy.subjects:
        group = policy.group_of(name(subject))
        if group is not None and not policy.ticks(name(group)):
            for node, what in incoming(policy, subject):
                yield Hint("never-taken", node, f"{name(subject)} never takes {what}: its group {name(group)} has no ticks")
        for source in subject.items("sources"):
            reason = number_of(source.get("trap"))
            if reason is not None and reason not in TRAPPED:
                yield Hint("untrappable", source.get("trap"), f"no exit with the reason {reason} can be trapped")


def incoming(policy, subject):
    """Each value by which an event or an interrupt reaches a subject, and its name in words."""
    for target in subject.items("targets"):
        yield target, f"the event {name(target, 'event')}"
    for end in policy.ends(subject):
        channel = first(policy.channels, end.channel)
        if end.role == "reader" and channel is not None and channel.get("hasEvent") is not None:
            yield end.named, f"the event of the channel {end.channel}"
    for use in subject.items("devices"):
        for node in use.items("irqs"):
            yield node, f"the interrupt {name(node, 'irq')} of {name(use, 'device')}"
