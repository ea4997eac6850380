"""Rules 1, 2, 3, 7, 9 and 20: names, references, CPUs, components' needs, grants of devices, limits."""
from looking.causes import PARTS, cpus_named, frames_named, named, undeclared
from looking.policy import first, name
from looking.schema import number_of


def rule_1(policy, one, _):
    """Names are unique."""
    for what, key, nodes in kinds_of(policy):
        same = [node.get(key) for node in named(nodes, one, key)]
        if len(same) > 1:
            yield f"{what} {one} stands twice", same[1], same[0]


def kinds_of(policy):
    """Each list within which names are unique: what has them, and by which key."""
    yield "the block", "name", policy.blocks
    yield "the device", "name", policy.devices
    for device in policy.devices:
        for part, _ in PARTS:
            yield f"in {part} of {name(device)} the name", "name", device.items(part)
    yield "the region or channel", "name", [*policy.memory, *policy.channels]
    yield "the component", "name", policy.components
    for each in policy.components:
        yield f"in {name(each)} the logical name", "logical", [*each.items("provides"), *each.items("memory"), *each.items("channels")]
    yield "the event", "name", policy.events
    yield "the subject", "name", policy.subjects
    yield "the group", "name", policy.groups


def rule_2(policy, who, what):
    """References are declared."""
    for owner in [*named(policy.subjects, who), *named(policy.groups, who), *frames_named(policy, who)]:
        for node in owner.walk():
            declared = declared_for(policy, owner, node) if node.kind == "text" and node.value == what else None
            if declared and first(declared[0], what, *declared[3:]) is None:
                yield undeclared(node, *declared)


def declared_for(policy, owner, node):
    """What a value of a subject, a group or a frame may be the name of, as undeclared takes it; none where it is no reference."""
    key = next(step for step in reversed(node.path) if isinstance(step, str))
    regions, channels = (policy.memory, "region of `memory`"), (policy.channels, "channel")
    simple = {"ref": (policy.components, "no component"), "device": (policy.devices, "no device"), "event": (policy.events, "no event"),
              "subject": (policy.subjects, "no subject"), "subjects": (policy.subjects, "no subject"), "group": (policy.groups, "no group"),
              "region": (policy.memory, "no region", channels), "channel": (policy.channels, "no channel", regions)}
    if key in simple:
        return simple[key]
    if key in ("logical", "physical"):
        component, need = policy.component(owner), policy.document.at(node.path[:-1]).text("logical")
        if key == "logical":
            return [*component.items("memory"), *component.items("channels")], f"of the needs of {name(component)} none", ((), ""), "logical"
        if first(component.items("channels"), need, "logical"):
            return policy.channels, f"{need} asks for a channel, and no channel", regions
        return policy.memory, f"{need} asks for memory, and no region", channels
    for part, own in PARTS:
        if key == (own or part) and node.path[2] == "devices":
            device = first(policy.devices, policy.document.at(node.path[:4]).text("device"))
            return device and (device.items(part), f"in {part} of {name(device)} no")
    return None


def rule_3(policy, one, other):
    """CPUs are there."""
    if not 1 <= policy.cpus <= 8:
        yield "there are 1 to 8 logical CPUs", policy.document.get("processor").get("logicalCpus")
    listed = [cpu for frame in frames_named(policy, one) for cpu in cpus_named(frame, other)]
    for node in [*named(policy.subjects, one), *named(policy.groups, one), *listed]:
        if number_of(node.get("cpu")) >= policy.cpus:
            yield f"the CPUs are 0 to {policy.cpus - 1}", node.get("cpu")


def rule_7(policy, who, logical):
    """What stands for the needs of a component."""
    subject = first(policy.subjects, who)
    use, component = subject.get("component"), policy.component(subject)
    need = named([*component.items("memory"), *component.items("channels")], logical, "logical")[0]
    entries = named(policy.entries(subject), logical, "logical")
    if len(entries) != 1:
        text = f"no map entry stands for {logical}" if not entries else f"{len(entries)} map entries stand for {logical}"
        yield text, *(entry.get("logical") for entry in entries[1:]), use.get("map") or use, need.get("logical")
    entry, rights, is_memory = entries[0], entries[0].get("rights"), need.path[2] == "memory"
    given = first(policy.memory if is_memory else policy.channels, entry.text("physical"))
    sizes = [number_of(each.get("size")) for each in (need, given)]
    if sizes[0] != sizes[1]:
        yield f"{logical} has {sizes[0]} bytes, and {name(given)} {sizes[1]}", entry.get("physical"), need.get("size"), given.get("size")
    if is_memory:
        yield f"{rights.value} is more than {need.text('rights')}", rights, need.get("rights")
    yield "a channel's rights are those of its role", rights


def rule_9(policy, one, other):
    """What is granted of a device is granted once."""
    uses = [use for subject in policy.subjects for use in named(subject.items("devices"), one, "device")]
    for part, key in PARTS:
        granted = [node for use in uses for item in use.items(part) if (node := item.get(key) if key else item).value == other]
        if len(granted) > 1:
            yield f"{other} of {one} is granted {len(granted)} times", *granted[1:], granted[0]


# ---- rule 20

def rule_20(policy, _one, _other):
    """Limits, in the order of docs/rules.md."""
    top, memories = policy.document.get, [node for device in policy.devices for node in device.items("memory")]
    yield from most(len(policy.blocks), "of memoryBlocks", 16, top("memoryBlocks"))
    yield from most_bytes(policy.blocks, 2**26)
    yield from most(len(policy.devices), "of devices", 32, top("devices"))
    for device in policy.devices:
        for part, _ in PARTS:
            yield from most(len(device.items(part)), f"of {part}", 16, device.get(part))
    yield from most(len(memories), "of devices", 128, top("devices"))
    yield from most_bytes(memories, 2**24)
    yield from most(len(policy.channels), "of channels", 128, top("channels"))
    yield from most(len(policy.components), "of components", 64, top("components"))
    for each in policy.components:
        yield from most(sum(len(each.items(part)) for part in ("provides", "memory", "channels")), "logical names", 64, each)
    signals = len(policy.events) + sum(channel.get("hasEvent") is not None for channel in policy.channels)
    yield from most(signals, "events, those of channels with them", 256, top("events") or top("channels"), top("channels"))
    yield from limits_of_subjects(policy)
    yield from limits_of_frames(policy)


def most(count, what, limit, *nodes):
    """That there are more than may be."""
    if count > limit:
        yield f"{count} {what}, and at most {limit}", *nodes


def most_bytes(nodes, limit):
    """That sizes together are above a limit."""
    sizes = [node.get("size") for node in nodes]
    yield from most(sum(map(number_of, sizes)), "bytes together", limit, *sorted(sizes, key=number_of, reverse=True))


def limits_of_subjects(policy):
    """Those of subjects, windows, MSRs and regions."""
    if not 1 <= len(policy.subjects) <= 32:
        yield f"{len(policy.subjects)} subjects, and 1 to 32 may be", policy.document.get("subjects") or policy.document, policy.document
    for subject in policy.subjects:
        yield from most(len(policy.windows(subject)), "windows", 128, subject)
        ranges = [(number_of(each.get("start")), number_of(each.get("end"))) for each in subject.items("msrs")]
        yield from most(sum(max(end - start + 1, 0) for start, end in ranges), "MSRs", 64, subject.get("msrs"))
    components = [policy.component(subject) for subject in policy.subjects]
    provided = sum(len(each.items("provides")) for each in components if each is not None)
    regions = len(policy.memory) + len(policy.channels) + provided + 5 * len(policy.subjects)
    yield from most(regions, "regions, the kernel's with them", 1024, policy.document.get("memory") or policy.document, policy.document)


def limits_of_frames(policy):
    """Those of major frames, minor frames and ticks."""
    if not 1 <= len(policy.frames) <= 16:
        scheduling = policy.document.get("scheduling")
        yield f"{len(policy.frames)} major frames, and 1 to 16 may be", scheduling.get("majorFrames") or scheduling
    for frame in policy.frames:
        for cpu in frame.items("cpus"):
            minors = cpu.items("minorFrames")
            ticks = sum(number_of(minor.get("ticks")) for minor in minors)
            if ticks > 100000 or len(minors) > 64:
                yield f"{ticks} ticks in {len(minors)} minor frames, and at most 100000 in 64", cpu.get("minorFrames")
