"""Rules 4, 5, 8, 10, 11, 18, 19 and 21 to 24: addresses, windows, ports, MSRs, domains, monitors."""
from looking.causes import clashes, named, no_region, repeats, span, undeclared
from looking.policy import PAGE, first, name
from looking.schema import number_of
from looking.words import both

PHYSICAL, GUEST = 2**40, 2**48
MSRS = ((0, 0x1FFF), (0xC0000000, 0xC0001FFF))


def spelled(number):
    """A number in the spelling of policies, for addresses and sizes."""
    return f"16#{number:x}#"


def misplaced(node, size, limit):
    """That an address, or the end that it has with this size, isn't where it may be."""
    address = number_of(node)
    if address % PAGE:
        yield f"{spelled(address)} is no multiple of 4096", node
    elif address + size > limit:
        yield f"the end, {spelled(address + size)}, is above {spelled(limit)}", node


def bad_size(node):
    """That a size is no multiple of 4,096, or 0."""
    size = number_of(node.get("size"))
    if size == 0 or size % PAGE:
        yield "the size is 0" if size == 0 else f"the size, {size}, is no multiple of 4096", node.get("size")


def placed(node, key="physicalAddress", limit=PHYSICAL):
    """On an element with an address and a size."""
    yield from misplaced(node.get(key), number_of(node.get("size")), limit)
    yield from bad_size(node)


def rule_4(policy, one, other):
    """Addresses and sizes."""
    for node in [*named(policy.blocks, one), *(node for device in named(policy.devices, one) for node in named(device.items("memory"), other))]:
        yield from placed(node)
    for region in named([*policy.memory, *policy.channels], one):
        yield from bad_size(region)
        yield from aligned(region)
    for each in named(policy.components, one):
        for part in ("provides", "memory", "channels"):
            for node in named(each.items(part), other, "logical"):
                yield from placed(node, "virtualAddress", GUEST)
    for subject in named(policy.subjects, one):
        for window in policy.windows(subject):
            if window.shows == other:
                yield from misplaced(window.address, window.size, GUEST)


def aligned(region):
    """On the alignment and the fixed address of a region."""
    address, alignment = region.get("physicalAddress"), region.get("alignment")
    wanted = number_of(alignment) if alignment is not None else PAGE
    if wanted not in (PAGE, 2**21):
        yield "an alignment is 4096 or 2097152", alignment
    elif address is not None and number_of(address) % wanted:
        yield f"{spelled(number_of(address))} is no multiple of {wanted}", address, alignment
    elif address is not None:
        yield from misplaced(address, number_of(region.get("size")), PHYSICAL)


def rule_5(policy, one, other):
    """The windows of a subject are disjoint."""
    for subject in policy.subjects:
        ones, others = ([window for window in policy.windows(subject) if window.shows == shows] for shows in (one, other))
        for pair in clashes(ones, others, lambda window: (window.start, window.end)):
            told = [f"on {'the state of ' if window.kind == 'state' else ''}{window.shows}, {spelled(window.start)} up to {spelled(window.end)}" for window in pair]
            # what a map entry gives stands at the component's address
            entries = [window.node for window in reversed(pair) if window.address.path[:2] != window.node.path[:2]]
            yield (f"of {name(subject)} the window {told[0]}, and that {told[1]}, have addresses in common",
                   *(window.address for window in reversed(pair)), *entries)


def rule_8(policy, one, who):
    """Who maps what another may write."""
    region, shown = first(policy.memory, one), policy.mapped(one)
    windows, listed = [window.node for subject, window in shown if name(subject) == who], region.items("sharedMemory")
    if not listed:
        writer, window = next(pair for pair in shown if "w" in pair[1].rights)
        yield f"{who} maps {one}, which {name(writer)} may write", windows[0], window.node.get("rights") or window.node
    entries = [node for node in listed if node.value == who]
    if not entries:
        yield f"{who} maps {one} and isn't listed", region.get("sharedMemory"), windows[0]
    if windows:
        yield f"{who} is listed twice", entries[1]
    yield f"{who} is listed, and has no window on {one}", entries[0]


def rule_10(policy, one, other):
    """Port ranges."""
    ranges = [(device, node, number_of(node.get("start")), number_of(node.get("end"))) for device in policy.devices for node in device.items("ioPorts")]
    ones, others = ([item for item in ranges if name(item[1]) == word] for word in (one, other))
    for device, node, start, end in others if one == other else ():
        if start > end or end > 65535:
            why = f"its start, {both(start)}, is above its end, {both(end)}" if start > end else f"its end, {both(end)}, is above {both(65535)}"
            yield f"of {name(device)} the range {one}: {why}", node.get("end"), node.get("start")
    for pair in clashes(ones, others, lambda item: (item[2], item[3] + 1)):
        told = [f"{name(node)} of {name(device)}, {both(start)} to {both(end)}" for device, node, start, end in pair]
        yield f"{told[0]}, and {told[1]}, have ports in common", *(item[1].get(key) for item in reversed(pair) for key in ("start", "end"))


def rule_11(policy, one, _):
    """MSR ranges."""
    good = []
    for node in first(policy.subjects, one).items("msrs"):
        start, end = number_of(node.get("start")), number_of(node.get("end"))
        if not any(low <= start <= end <= high for low, high in MSRS):
            yield f"the range {start:x} to {end:x} isn't in 0 to 1fff or c0000000 to c0001fff", node.get("start"), node.get("end")
        for earlier, low, high in good:
            if max(start, low) <= min(end, high):
                yield f"the ranges {low:x} to {high:x} and {start:x} to {end:x} have MSRs in common", node, earlier
        good.append((node, start, end))


def rule_18(policy, one, other):
    """Physical memory is that of one block or device."""
    physical = [(f"the block {name(block)}", block) for block in policy.blocks]
    physical += [(f"{name(node)} of the device {name(device)}", node) for device in policy.devices for node in device.items("memory")]
    ones, others = ([item for item in physical if name(item[1]) == word] for word in (one, other))
    for pair in clashes(ones, others, lambda item: span(item[1])):
        yield (f"{pair[0][0]} and {pair[1][0]} have addresses in common",
               *(item[1].get(key) for key in ("physicalAddress", "size") for item in reversed(pair)))


def rule_19(policy, one, other):
    """Regions at fixed addresses."""
    region, earlier = first(policy.memory, other), first(policy.memory, one)
    if one == other:
        start, end = span(region)
        yield f"{spelled(start)} up to {spelled(end)} isn't inside one block", region.get("physicalAddress"), region.get("size")
    yield f"{one} and {other} have addresses in common", region.get("physicalAddress"), earlier.get("physicalAddress")


# ---- domains of devices

def rule_21(policy, one, other):
    """The devices of domains, condition by condition."""
    if len(policy.domains) > 32:
        yield f"{len(policy.domains)} domains, and at most 32", policy.document.get("deviceDomains")
    for earlier, later in repeats(named(policy.domains, one), name):
        yield f"the domain {one} stands twice", later.get("name"), earlier.get("name")
    listed = [(domain, node) for domain in policy.domains for node in domain.items("devices")]
    own = [node for domain, node in listed if (name(domain), node.value) == (one, other)]
    for node in own:
        if first(policy.devices, other) is None:
            yield undeclared(node, policy.devices, "no device")
    for earlier, later in repeats([node for _, node in listed], lambda node: node.value):
        if later in own:
            yield f"{other} stands in domains twice", later, earlier
    for node in own:
        if first(policy.devices, other).get("bdf") is None:
            yield f"the device {other} is in a domain and has no bdf", first(policy.devices, other), node
    device, earlier = (first(policy.devices, word).get("bdf") for word in (other, one))
    for key, limit in (("device", 32), ("function", 8)):
        if number_of(device.get(key)) >= limit:
            yield f"{key} is below {limit}", device.get(key)
    yield "the two have one place on the bus", *(each.get(key) for each in (device, earlier) for key in ("device", "bus", "function"))


def rule_22(policy, one, other):
    """The windows of domains, condition by condition."""
    domain = next(each for each in named(policy.domains, one) if named(each.items("memory"), other, "region"))
    own, region = named(domain.items("memory"), other, "region"), first(policy.memory, other)
    if region is None:
        yield no_region(policy, own[0].get("region"))
    for node in own:
        yield from misplaced(node.get("virtualAddress"), number_of(region.get("size")), GUEST)
    for node in own:
        if "x" in name(node, "rights"):
            yield "a device has the rights r or rw", node.get("rights")

    def reach(node):
        """The addresses of a window."""
        start = number_of(node.get("virtualAddress"))
        return start, start + number_of(first(policy.memory, name(node, "region")).get("size"))

    for earlier, later in clashes(domain.items("memory"), own, reach):
        yield "two windows of the domain have addresses in common", later.get("virtualAddress"), earlier.get("virtualAddress")


def rule_23(policy, one, _):
    """A region is in one domain."""
    places = [node.get("region") for domain in policy.domains for node in named(domain.items("memory"), one, "region")]
    yield f"{one} stands in domains twice", places[1], places[0]


def rule_24(policy, one, other):
    """Who monitors whom."""
    subject, monitored = first(policy.subjects, one), first(policy.subjects, other)
    for number, node in enumerate(named(subject.items("monitors"), other, "subject")):
        cpus = [each.get("cpu") for each in (subject, monitored)]
        if one == other:
            yield "a subject monitors another one", node.get("subject")
        if number_of(cpus[0]) != number_of(cpus[1]):
            yield f"{one} is on CPU {number_of(cpus[0])}, and {other} on {number_of(cpus[1])}", node.get("subject"), *cpus
        if number:
            yield f"{one} monitors {other} already", node.get("subject")
        if "x" in name(node, "rights"):
            yield "the rights are r or rw", node.get("rights")
