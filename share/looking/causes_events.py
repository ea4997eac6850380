"""Rules 6 and 12 to 17: ends of channels, events, calls, vectors, the plan."""
from looking.causes import cpus_named, frames_named, named, no_region, repeats, undeclared
from looking.policy import first, name
from looking.schema import number_of


def rule_6(policy, one, _):
    """The ends of a channel."""
    channel = first(policy.channels, one)
    ends, mode = policy.ends_of(channel), channel.text("hasEvent")
    writers, readers = ([end for end in ends if end.role == role] for role in ("writer", "reader"))
    if len(writers) != 1:
        roles = [end.node.get("role") for end in writers]
        yield f"{len(writers)} ends are writers" if writers else "nobody has the writer's end", *roles[1:], channel.get("name"), *roles[:1]
    if not readers:
        yield "nobody has a reader's end", channel.get("name"), *(end.named for end in writers)
    for reader in readers:
        if reader.subject is writers[0].subject:
            yield f"{name(reader.subject)} writes and reads it", reader.named, writers[0].named
    if mode is None:
        for node in [node for end in ends for node in (end.call, end.vector) if node is not None]:
            yield "the channel has no event, and an end has a call or a vector", node, channel
    if len(readers) > 1:
        yield "the event of a channel has one reader", *(end.named for end in readers[1:]), readers[0].named
    for end in ends:
        is_writer = end.role == "writer"
        needed, barred = (end.call, end.vector) if is_writer else (end.vector, end.call)
        if barred is not None:
            yield "a writer's end has no vector" if is_writer else "a reader's end has no call", barred
        if needed is None and (is_writer or mode != "switch"):
            lacking = "the writer's end no call" if is_writer else "the reader's end no vector"
            yield f"the channel has an event, and {lacking}", end.node, channel.get("hasEvent")


def rule_12(policy, one, _):
    """An event has sources and a target."""
    event, targets = first(policy.events, one), [node.get("event") for _, node in policy.targets(one)]
    if not policy.sources(one):
        empty = [node for subject in policy.subjects if (node := subject.get("sources")) is not None and not node.items()]
        yield "no subject has it as a source", event.get("name"), *empty
    text = f"{len(targets)} entries are targets" if targets else "no subject has it as a target"
    yield text, *targets[1:], event.get("name"), *targets[:1]


def rule_13(policy, one, who):
    """The mode of an event."""
    for thing in named([*policy.channels, *policy.events], one):
        if thing.path[0] == "events":
            sources, targets = policy.sources(one), policy.targets(one)
        else:
            sources, targets = ([(end.subject, end.named) for end in policy.ends_of(thing) if end.role == role] for role in ("writer", "reader"))
        mode = thing.get("mode") or thing.get("hasEvent")
        for source in [source for source in sources if name(source[0]) == who] if mode else ():
            for target in targets:
                yield from mode_of(policy, mode, source, target)


def mode_of(policy, mode, source, target):
    """That a mode doesn't fit a source and a target."""
    one, other = name(source[0]), name(target[0])
    together = any({one, other} <= {member.value for member in group.items("subjects")} for group in policy.groups)
    if (one == other) != (mode.value == "self"):
        yield f"mode {mode.value} with the source {one} and the target {other}", mode, source[1], target[1]
    elif mode.value == "switch" and not together:
        yield f"no group lists both {one} and {other}", mode, source[1], target[1]


def numbers_of(who, nodes, what, low, high):
    """That numbers of a subject are out of bounds, or equal."""
    nodes = [node for node in nodes if node is not None]
    for node in nodes:
        if not low <= number_of(node) <= high:
            yield f"of {who} the {what} {number_of(node)} isn't in {low} to {high}", node
    for earlier, later in repeats(nodes, number_of):
        yield f"of {who} the {what} {number_of(later)} stands twice", later, earlier


def rule_14(policy, one, _):
    """Call numbers and trap reasons."""
    subject = first(policy.subjects, one)
    sources = subject.items("sources")
    yield from numbers_of(one, [*(node.get("call") for node in sources), *(end.call for end in policy.ends(subject))], "call", 0, 63)
    yield from numbers_of(one, [node.get("trap") for node in sources], "trap", 0, 63)


def rule_15(policy, one, _):
    """Vectors."""
    subject = first(policy.subjects, one)
    for target in subject.items("targets"):
        if target.get("vector") is None and first(policy.events, target.text("event")).text("mode") != "switch":
            yield f"of {one} the target of {name(target, 'event')} has no vector", target
    vectors = [*(node.get("vector") for node in subject.items("targets")), *(end.vector for end in policy.ends(subject)),
               *(node.get("vector") for use in subject.items("devices") for node in use.items("irqs"))]
    yield from numbers_of(one, vectors, "vector", 32, 255)


# ---- the plan

def rule_16(policy, one, other):
    """Major frames, and who chooses them."""
    if one == "tau0":
        yield from choice_of(policy)
    frame, which = frames_named(policy, one)[0], other.removeprefix("cpu.")
    listed, leading = cpus_named(frame, other), frame.items("cpus")[:1]
    for number, cpu in enumerate(listed):
        if number:
            yield f"CPU {which} is listed twice", cpu.get("cpu"), listed[0].get("cpu")
        minors = cpu.items("minorFrames")
        if not minors:
            yield f"CPU {which} has no minor frame", cpu.get("minorFrames") or cpu
        for minor in minors:
            group = first(policy.groups, minor.text("group"))
            if number_of(minor.get("ticks")) == 0:
                yield "a minor frame has no ticks", minor.get("ticks")
            if number_of(group.get("cpu")) != number_of(cpu.get("cpu")):
                yield f"the group {name(group)} is on CPU {number_of(group.get('cpu'))}, and runs on {which}", minor.get("group"), group.get("cpu")
        if ticks_of(cpu) != ticks_of(leading[0]):
            ticks = [minor.get("ticks") for each in (cpu, leading[0]) for minor in each.items("minorFrames")]
            yield f"CPU {which} has {ticks_of(cpu)} ticks, and the first listed one {ticks_of(leading[0])}", cpu.get("minorFrames"), *ticks
    yield f"CPU {which} isn't listed", frame.get("cpus") or frame


def ticks_of(cpu):
    """The ticks of all minor frames of a CPU together."""
    return sum(number_of(minor.get("ticks")) for minor in cpu.items("minorFrames"))


def choice_of(policy):
    """On who chooses the next major frame."""
    tau0 = policy.tau0
    subject, region = first(policy.subjects, tau0.text("subject")), first(policy.memory, tau0.text("region"))
    if subject is None:
        yield undeclared(tau0.get("subject"), policy.subjects, "no subject")
    if region is None:
        yield no_region(policy, tau0.get("region"))
    if region.items("sharedMemory"):
        yield f"{name(region)} is shared", tau0.get("region"), region.get("sharedMemory")
    windows = [window.node for window in policy.windows(subject) if window.kind == "region" and window.shows == name(region)]
    yield f"{name(subject)} has no window with write on {name(region)}", tau0.get("region"), *windows


def rule_17(policy, one, _):
    """Groups and their members."""
    for group in named(policy.groups, one):
        if not group.items("subjects"):
            yield "the group has no member", group.get("subjects") or group.get("name"), group.get("name")
        for member in group.items("subjects"):
            cpus = [node.get("cpu") for node in (first(policy.subjects, member.value), group)]
            if number_of(cpus[0]) != number_of(cpus[1]):
                yield f"{member.value} is on CPU {number_of(cpus[0])}, and the group on {number_of(cpus[1])}", member, *cpus
    places = [member for group in policy.groups for member in group.items("subjects") if member.value == one]
    text = f"{one} is a member {len(places)} times" if places else f"{one} is in no group"
    yield text, *places[1:], first(policy.subjects, one).get("name"), *places[:1]
