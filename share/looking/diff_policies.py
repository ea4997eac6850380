"""What was added, removed or changed from one policy to another, element by element."""
from looking.schema import definitions, is_object, keys_of, number_of
from looking.words import counted

# what an element of a list is called, and the key by which it is found again
ELEMENTS = {
    "Block": ("memory block", "name"), "Device": ("device", "name"), "DeviceMemory": ("memory", "name"), "Ports": ("ports", "name"),
    "Irq": ("interrupt", "name"), "Region": ("region", "name"), "Channel": ("channel", "name"), "Component": ("component", "name"),
    "Provided": ("provided region", "logical"), "Required": ("required region", "logical"), "ComponentChannel": ("required channel", "logical"),
    "Event": ("event", "name"), "Subject": ("subject", "name"), "MapEntry": ("map entry", "logical"), "Mapping": ("window on", "region"),
    "ChannelUse": ("end of channel", "channel"), "DeviceUse": ("use of device", "device"), "DeviceMapping": ("window on", "memory"),
    "IrqUse": ("interrupt", "irq"), "Msrs": ("MSRs from", "start"), "EventSource": ("source of event", "event"),
    "EventTarget": ("target of event", "event"), "Monitor": ("monitor of", "subject"), "Group": ("group", "name"),
    "CpuFrames": ("CPU", "cpu"), "Domain": ("device domain", "name"),
}
# lists in which the order of elements means something (docs/placement.md, docs/flows.md)
ORDERED = {"Device", "Region", "Channel", "Component", "Provided", "Subject", "Group", "Domain"}
HEXADECIMAL = {"physicalAddress", "virtualAddress", "size", "entry", "alignment", "start", "end", "offset", "length"}


def differences(first, second):
    """The lines on two documents that have no fault by the schema."""
    yield from of_objects("System", [], plain(first, "System"), plain(second, "System"))


def plain(node, kind):
    """A value as its numbers, texts, lists and keys, with the defaults of the schema."""
    if not is_object(kind):
        return number_of(node) if kind in ("number", "byte") else node.value.lower() if kind == "hexadecimal" else node.value
    found = defaults(kind)
    for key in found:
        says, value = keys_of(kind)[key], node.get(key)
        if value is not None:
            found[key] = [plain(item, says.kind) for item in value.items()] if says.is_list else plain(value, says.kind)
    return found


def defaults(kind):
    """The keys of an object of a kind with what they are where they aren't given; descriptions are left out."""
    found = {}
    for key, says in keys_of(kind).items():
        if key != "description":
            value = definitions()[kind]["properties"][key].get("default")
            found[key] = {**defaults(says.kind), **value} if isinstance(value, dict) else value
    return found


def line(path, text):
    """A line on an element."""
    return f"{', '.join(path) or 'the policy'}: {text}"


def of_objects(kind, path, old, new):
    """The lines on two objects of a kind."""
    for key, says in keys_of(kind).items():
        before, after = old.get(key), new.get(key)
        if before == after:
            continue
        if says.is_list and says.kind in ELEMENTS:
            yield from of_elements(says.kind, path, before, after)
        elif says.kind == "MajorFrame":
            yield from of_frames(path, before, after)
        elif says.is_list and says.kind != "MinorFrame":
            yield from of_names(path, key, before, after, kind != "Group")
        elif is_object(says.kind) and says.kind not in ("Content", "MinorFrame"):
            below = path if says.kind == "Scheduling" else [*path, key]
            yield from of_one(says.kind, below, before, after)
        else:
            yield line(path, f"{key} {shown(key, after)}, was {shown(key, before)}{where(before, after)}")


def of_one(kind, path, before, after):
    """The lines on an object that is there once, or isn't."""
    if before is None:
        yield from added(kind, path, after, "")
    elif after is None:
        yield line(path, "removed")
    else:
        yield from of_objects(kind, path, before, after)


def of_elements(kind, path, before, after):
    """The lines on the elements of two lists."""
    word, own = ELEMENTS[kind]
    old, new = without(before, after), without(after, before)
    for name in dict.fromkeys(one[own] for one in [*old, *new]):
        here = [*path, f"{word} {shown(own, name)}"]
        pairs = [[one for one in these if one[own] == name] for these in (old, new)]
        for one, other in zip(*pairs):
            yield from of_objects(kind, here, one, other)
        for _ in pairs[0][len(pairs[1]):]:
            yield line(here, "removed")
        for other in pairs[1][len(pairs[0]):]:
            yield from added(kind, here, other, own)
    orders = [[one[own] for one in these if one[own] in {other[own] for other in those}] for these, those in ((before, after), (after, before))]
    if kind in ORDERED and orders[0] != orders[1]:
        yield line(path, f"the order of {word}s is {' '.join(orders[1])}, was {' '.join(orders[0])}")


def without(these, those):
    """These elements without those that are there, too, each as often as it is there."""
    left = list(those)
    return [one for one in these if one not in left or left.remove(one)]


def added(kind, path, new, own):
    """The lines on an element that is new, with all that it has."""
    keys = {key: says for key, says in keys_of(kind).items() if key not in (own, "description") and new.get(key) not in (None, [])}
    own_words = [f"{key} {shown(key, new[key])}" for key, says in keys.items() if not is_object(says.kind) or says.kind in ("Content", "MinorFrame")]
    yield line(path, ", ".join(["added", *own_words]))
    for key, says in keys.items():
        if says.is_list and says.kind in ELEMENTS:
            yield from of_elements(says.kind, path, [], new[key])
        elif not says.is_list and is_object(says.kind) and says.kind != "Content":
            yield from added(says.kind, [*path, key], new[key], "")


def of_frames(path, before, after):
    """The lines on major frames, which have numbers."""
    for number, (one, other) in enumerate(zip(before, after)):
        yield from of_objects("MajorFrame", [*path, f"major frame {number}"], one, other)
    for number in range(len(after), len(before)):
        yield line([*path, f"major frame {number}"], "removed")
    for number in range(len(before), len(after)):
        yield from added("MajorFrame", [*path, f"major frame {number}"], after[number], "")


def of_names(path, key, before, after, is_set):
    """The line on two lists of names, whose order counts or doesn't."""
    if not is_set or sorted(before) != sorted(after):
        yield line(path, f"{key} {shown(key, after)}, was {shown(key, before)}")


# ---- values in words

def shown(key, value):
    """A value of a key in words."""
    if value is None or value == []:
        return "none"
    if isinstance(value, list):
        return " ".join(f"{one['group']} {one['ticks']}" if isinstance(one, dict) else one for one in value)
    if isinstance(value, dict):
        return content(value)
    return f"{value:x}" if key in HEXADECIMAL else str(value)


def content(value):
    """A content in words."""
    if value["hex"] is not None:
        return f"of {counted(len(value['hex']) // 2, 'byte')}"
    if value["file"] is not None:
        length = "" if value["length"] is None else f", length {value['length']:x}"
        return f"of {value['file']} from {value['offset']:x} on{length}"
    return f"all {value['fill']:x}"


def where(before, after):
    """From which byte on two contents of bytes differ."""
    if not (isinstance(before, dict) and isinstance(after, dict)) or None in (before["hex"], after["hex"]):
        return ""
    one, other = (bytes.fromhex(value["hex"]) for value in (before, after))
    at = next((at for at, (left, right) in enumerate(zip(one, other)) if left != right), min(len(one), len(other)))
    return f", differs from byte {at:x} on"
