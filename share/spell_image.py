#!/usr/bin/env python3
"""Spells the image of a policy, after docs/placement.md, docs/tables.md, docs/scheduling.md and
docs/image.md, and shares no code with the crates. It takes policies that keep all rules and have
contents from no file; it checks no rule.

    spell_image.py POLICY IMAGE     writes the image's bytes
    spell_image.py POLICY           prints its layout: the offset of each part, its bytes in
                                    runs; and the image's length and Adler-32 (RFC 1950)
"""

import itertools
import json
import pathlib
import sys
import zlib

PAGE = 4096
KINDS = {"own": 0, "channel": 1, "provided": 2, "kernel": 3, "device": 4}
WHOLE, NAMED = 0, 1
# the kernel's regions of a subject: printed name, byte in a span, pages (those of the tables are
# counted later)
KERNEL = [("state", 2, 1), ("ept", 3, 0), ("iobm", 4, 2), ("msrbm", 5, 1), ("msrs", 6, 1)]
MODES = {"asap": 1, "async": 2, "self": 3, "switch": 4}
CACHINGS = {"UC": 0, "WC": 1, "WT": 4, "WP": 5, "WB": 6}
RIGHTS = {"r": 1, "rw": 3, "rx": 5, "rwx": 7}
NOBODY = 255
EXITED = 8


def number(value):
    return value if isinstance(value, int) else int(value[3:-1].replace("_", ""), 16)


def little(value, size):
    return value.to_bytes(size, "little")


def name_field(text):
    """A name in 64 bytes."""
    letters = text.encode("ascii")
    return (bytes([len(letters)]) + letters).ljust(64, b"\0")


def named(items, name):
    return next(item for item in items if item["name"] == name)


def place_in(items, name):
    return [item["name"] for item in items].index(name)


class Region:
    """A region, or a device's memory: what it is, whose, its size and its place."""

    def __init__(self, kind, owner, part, size, content=b"", name="", alignment=PAGE, fixed=None):
        self.kind, self.owner, self.part, self.name = kind, owner, part, name
        self.size, self.alignment, self.fixed = size, alignment, fixed
        self.content = content
        self.place = self.number = None


class Window:
    """What a subject sees from a guest address on."""

    def __init__(self, guest, size, rights, place, caching="WB"):
        self.guest, self.size, self.rights, self.caching = guest, size, rights, caching
        # the place isn't known before all regions have theirs
        self.place = place


def content_of(item, size):
    content = item.get("content", {"fill": 0})
    if "file" in content:
        sys.exit("contents from files aren't spelled")
    if "fill" in content:
        return bytes([number(content["fill"])]) * size
    return bytes.fromhex(content["hex"]).ljust(size, b"\0")


class System:
    """A policy with its regions by number, their places, and its spans."""

    def __init__(self, policy):
        self.policy = policy
        self.subjects = policy["subjects"]
        self.devices = policy.get("devices", [])
        self.channels = policy.get("channels", [])
        self.components = policy.get("components", [])
        self.groups = policy["scheduling"]["groups"]
        self.cpus = number(policy["processor"]["logicalCpus"])
        self.number_regions()
        self.place_regions()
        self.number_spans()

    # ---- regions by number

    def number_regions(self):
        self.regions = []
        self.by_name = {}
        for one in self.policy.get("memory", []):
            size = number(one["size"])
            fixed = one.get("physicalAddress")
            self.by_name[one["name"]] = self.add(Region(
                "own", one["name"], WHOLE, size, content_of(one, size),
                alignment=number(one.get("alignment", PAGE)),
                fixed=None if fixed is None else number(fixed)))
        for one in self.channels:
            size = number(one["size"])
            self.by_name[one["name"]] = self.add(Region(
                "channel", one["name"], WHOLE, size, bytes(size)))
        self.provided = {}
        for subject in self.subjects:
            for one in self.component_of(subject).get("provides", []):
                size = number(one["size"])
                self.provided[subject["name"], one["logical"]] = self.add(Region(
                    "provided", subject["name"], NAMED, size, content_of(one, size),
                    one["logical"]))
        self.kernel = {}
        for subject in self.subjects:
            for name, part, pages in KERNEL:
                self.kernel[subject["name"], name] = self.add(Region(
                    "kernel", subject["name"], part, PAGE * pages))
        self.windows = {one["name"]: self.windows_of(one) for one in self.subjects}
        for subject in self.subjects:
            tables = self.kernel[subject["name"], "ept"]
            tables.size = PAGE * count_tables(self.windows[subject["name"]])

    def add(self, region):
        self.regions.append(region)
        return region

    def component_of(self, subject):
        use = subject.get("component")
        return named(self.components, use["ref"]) if use else {}

    def mapped(self, subject):
        """What the logical names of a subject's component stand for."""
        use = subject.get("component", {})
        return {entry["logical"]: entry for entry in use.get("map", [])}

    def ends_of(self, subject):
        """Its ends of channels, with the channel's name in each."""
        for end in subject.get("channels", []):
            yield end
        for end in self.component_of(subject).get("channels", []):
            yield {**end, "channel": self.mapped(subject)[end["logical"]]["physical"]}

    def windows_of(self, subject):
        windows = []

        def show(region, guest, rights, caching="WB"):
            windows.append(Window(number(guest), region.size, RIGHTS[rights],
                                  lambda: region.place, caching))

        def show_region(name, guest, rights):
            region = named(self.policy.get("memory", []), name)
            show(self.by_name[name], guest, rights, region.get("caching", "WB"))

        for one in subject.get("memory", []):
            show_region(one["region"], one["virtualAddress"], one["rights"])
        for end in self.ends_of(subject):
            show(self.by_name[end["channel"]], end["virtualAddress"],
                 "rw" if end["role"] == "writer" else "r")
        for use in subject.get("devices", []):
            memories = named(self.devices, use["device"]).get("memory", [])
            for one in use.get("memory", []):
                memory = named(memories, one["memory"])
                place = number(memory["physicalAddress"])
                windows.append(Window(number(one["virtualAddress"]), number(memory["size"]),
                                      RIGHTS[one["rights"]], lambda place=place: place, "UC"))
        component = self.component_of(subject)
        for one in component.get("provides", []):
            show(self.provided[subject["name"], one["logical"]], one["virtualAddress"],
                 one["rights"])
        for one in component.get("memory", []):
            entry = self.mapped(subject)[one["logical"]]
            show_region(entry["physical"], one["virtualAddress"],
                        entry.get("rights", one["rights"]))
        for one in subject.get("monitors", []):
            show(self.kernel[one["subject"], "state"], one["virtualAddress"], one["rights"])
        return sorted(windows, key=lambda window: window.guest)

    # ---- places

    def place_regions(self):
        blocks = [(number(block["physicalAddress"]), number(block["size"]))
                  for block in self.policy.get("memoryBlocks", [])]
        free = sorted((start, start + size) for start, size in blocks)
        fixed = [region for region in self.regions if region.fixed is not None]
        others = [region for region in self.regions if region.fixed is None]
        for region in fixed + sorted(others, key=lambda region: -region.size):
            region.place = lowest_place(free, region)
            if region.place is None:
                sys.exit(f"no room for {region.owner} {region.name} of {region.size} bytes")
            free = [piece for start, end in free
                    for piece in without(start, end, region.place, region.place + region.size)]

    # ---- spans

    def number_spans(self):
        """The regions, and behind them the memory of devices; in a table by their places."""
        self.memories = {}
        spans = list(self.regions)
        for device in self.devices:
            for one in device.get("memory", []):
                span = Region("device", device["name"], NAMED, number(one["size"]),
                              name=one["name"])
                span.place = number(one["physicalAddress"])
                self.memories[device["name"], one["name"]] = span
                spans.append(span)
        for count, span in enumerate(spans):
            span.number = count
        self.spans = sorted(spans, key=lambda span: span.place)

    # ---- events

    def events_of(self, subject, way):
        """By the number of a call or of a trap: mode, target and vector."""
        events = {}
        if way == "call":
            for end in self.ends_of(subject):
                if end["role"] == "writer" and "call" in end:
                    events[number(end["call"])] = self.channel_event(end["channel"])
        for source in subject.get("sources", []):
            if way in source:
                events[number(source[way])] = self.plain_event(source["event"])
        return events

    def channel_event(self, name):
        for count, subject in enumerate(self.subjects):
            for end in self.ends_of(subject):
                if end["channel"] == name and end["role"] == "reader":
                    mode = named(self.channels, name)["hasEvent"]
                    return MODES[mode], count, number(end.get("vector", 0))
        return None

    def plain_event(self, name):
        for count, subject in enumerate(self.subjects):
            for target in subject.get("targets", []):
                if target["event"] == name:
                    mode = named(self.policy["events"], name)["mode"]
                    return MODES[mode], count, number(target.get("vector", 0))
        return None

    def irq_target(self, device, irq):
        for count, subject in enumerate(self.subjects):
            for use in subject.get("devices", []):
                for one in use.get("irqs", []):
                    if use["device"] == device and one["irq"] == irq:
                        return count, number(one["vector"])
        return NOBODY, 0

    # ---- pages of a subject

    def pages_of(self, subject):
        tables = self.kernel[subject["name"], "ept"]
        return {
            "state": bytes(128) + little(number(subject["entry"]), 8) + bytes(16) + bytes([EXITED]),
            "ept": tables_of(self.windows[subject["name"]], tables.place),
            "iobm": self.port_bitmaps(subject),
            "msrbm": msr_bitmap(subject),
            "msrs": b"".join(little(msr, 4) + bytes(12) for msr in msrs_of(subject)),
        }

    def port_bitmaps(self, subject):
        bits = bytearray(b"\xff" * 2 * PAGE)
        for use in subject.get("devices", []):
            ranges = named(self.devices, use["device"]).get("ioPorts", [])
            for name in use.get("ioPorts", []):
                one = named(ranges, name)
                for port in range(number(one["start"]), number(one["end"]) + 1):
                    bits[port // 8] &= ~(1 << port % 8)
        return bytes(bits)


def lowest_place(free, region):
    """The lowest place in the free pieces; none of them crosses from a block to another."""
    for start, end in sorted(free):
        place = -(-start // region.alignment) * region.alignment
        if region.fixed is not None:
            place = region.fixed
        if start <= place and place + region.size <= end:
            return place
    return None


def without(start, end, low, high):
    """What a region leaves of a free piece."""
    for piece in [(start, min(end, low)), (max(start, high), end)]:
        if piece[0] < piece[1]:
            yield piece


# ---- tables, bitmaps, area

def count_tables(windows):
    """The PML4 table, and a table for each value of bits 47:39, 47:30 and 47:21."""
    def values(shift):
        ends = [(window.guest >> shift, window.guest + window.size - 1 >> shift)
                for window in windows]
        return {value for first, last in ends for value in range(first, last + 1)}
    return 1 + len(values(39)) + len(values(30)) + len(values(21))


def tables_of(windows, base):
    """The tables of windows, from an address on. Level 3 is that of the PML4 table."""
    tables = [[0] * 512]
    entered = {(3, 0): 0}

    def reach(level, guest):
        """The table of this level for an address, and its number, made where it is first needed."""
        key = level, guest >> 21 + 9 * level if level < 3 else 0
        if key not in entered:
            above = tables[reach(level + 1, guest)]
            entered[key] = len(tables)
            above[guest >> 12 + 9 * (level + 1) & 511] = base + PAGE * entered[key] + 7
            tables.append([0] * 512)
        return entered[key]

    for window in windows:
        place = window.place()
        done = window.guest
        while done < window.guest + window.size:
            level = leaf_level(window, place, done)
            span = PAGE << 9 * level
            at = place + done - window.guest
            kind = window.rights + (CACHINGS[window.caching] << 3) + (0x80 if level else 0)
            tables[reach(level, done)][done >> 12 + 9 * level & 511] = at + kind
            done += span
    return b"".join(little(entry, 8) for table in tables for entry in table)


def leaf_level(window, place, at):
    """That of the greatest page at an address: one whole in the window, and at a multiple of its
    size in memory."""
    for level in [2, 1]:
        span = PAGE << 9 * level
        inside = at % span == 0 and at + span <= window.guest + window.size
        if inside and (place + at - window.guest) % span == 0:
            return level
    return 0


def msrs_of(subject):
    return [msr for one in subject.get("msrs", [])
            for msr in range(number(one["start"]), number(one["end"]) + 1)]


def msr_bitmap(subject):
    bits = bytearray(b"\xff" * PAGE)
    for one in subject.get("msrs", []):
        for msr in range(number(one["start"]), number(one["end"]) + 1):
            high = 1024 if msr >= 0xC000_0000 else 0
            for right, first in [("r", 0), ("w", 2048)]:
                if right in one["rights"]:
                    bits[first + high + msr % 0x2000 // 8] &= ~(1 << msr % 8)
    return bytes(bits)


# ---- the image, part by part: (what it is, its bytes)

def header_of(system):
    tau0 = system.policy["scheduling"].get("tau0")
    counts = [system.cpus, len(system.subjects), len(system.groups),
              len(system.policy["scheduling"]["majorFrames"]), len(system.devices), 0, 0, 0]
    chosen = little(system.by_name[tau0["region"]].number, 2) if tau0 else b""
    return ((b"MUENIMG2" if tau0 else b"MUENIMG1") + bytes(counts)
            + little(len(system.spans), 2) + chosen.ljust(6, b"\0"))


def span_of(span):
    return (little(span.place, 8) + little(span.size // PAGE, 4) + little(span.number, 2)
            + bytes([KINDS[span.kind], span.part])
            + name_field(span.owner) + (name_field(span.name) if span.name else bytes(64))
            + bytes(16))


def group_of(system, group):
    return bytes([number(group["cpu"]), place_in(system.subjects, group["subjects"][0])]) + bytes(6)


def event_table(events):
    entries = [bytes(4)] * 64
    for count, (mode, target, vector) in events.items():
        entries[count] = bytes([mode, target, vector, 0])
    return b"".join(entries)


def subject_of(system, subject):
    name = subject["name"]
    group = next(count for count, one in enumerate(system.groups) if name in one["subjects"])
    spans = [little(system.kernel[name, part].number, 2)
             for part in ["state", "iobm", "msrbm", "msrs"]]
    eptp = system.kernel[name, "ept"].place + 0x1E
    return (bytes([number(subject["cpu"]), group, len(msrs_of(subject)), 0]) + b"".join(spans)
            + bytes(4) + little(eptp, 8) + name_field(name) + bytes(8)
            + event_table(system.events_of(subject, "call"))
            + event_table(system.events_of(subject, "trap")))


def major_of(system, major):
    frames = sorted(major["cpus"], key=lambda one: number(one["cpu"]))
    ticks = sum(number(minor["ticks"]) for minor in frames[0]["minorFrames"])
    parts = [little(ticks, 4)]
    for one in frames:
        parts.append(little(len(one["minorFrames"]), 2) + bytes(2))
        for minor in one["minorFrames"]:
            parts.append(bytes([place_in(system.groups, minor["group"]), 0, 0, 0])
                         + little(number(minor["ticks"]), 4))
    return b"".join(parts)


def device_of(system, device):
    ports, irqs = device.get("ioPorts", []), device.get("irqs", [])
    memories = device.get("memory", [])
    parts = [name_field(device["name"]), bytes([len(ports), len(memories), len(irqs), 0])]
    parts += [little(number(one["start"]), 2) + little(number(one["end"]), 2) for one in ports]
    parts += [little(system.memories[device["name"], one["name"]].number, 2) for one in memories]
    parts += [name_field(one["name"])
              + bytes(system.irq_target(device["name"], one["name"])) + bytes(2) for one in irqs]
    return b"".join(parts)


def contents_of(system):
    for subject in system.subjects:
        pages = system.pages_of(subject)
        for part, _, _ in KERNEL:
            region = system.kernel[subject["name"], part]
            region.content = pages[part].ljust(region.size, b"\0")
    return [span for span in system.spans if span.kind != "device"]


def parts_of(system):
    yield "header", header_of(system)
    for span in system.spans:
        yield f"span {span.number} of {span.owner}", span_of(span)
    for group in system.groups:
        yield f"group {group['name']}", group_of(system, group)
    for subject in system.subjects:
        yield f"subject {subject['name']}", subject_of(system, subject)
    for count, major in enumerate(system.policy["scheduling"]["majorFrames"]):
        yield f"major frame {count}", major_of(system, major)
    for device in system.devices:
        yield f"device {device['name']}", device_of(system, device)
    for span in contents_of(system):
        yield f"content of span {span.number} of {span.owner}", span.content


def runs_of(content):
    """Equal bytes side by side, as many as each."""
    return [(len(list(run)), byte) for byte, run in itertools.groupby(content)]


def main(words):
    if words in (["-h"], ["--help"]):
        print(__doc__.strip())
        return
    if len(words) not in (1, 2):
        sys.exit(__doc__.strip())
    try:
        policy = json.loads(pathlib.Path(words[0]).read_text(encoding="utf-8"))
    except (OSError, ValueError) as error:
        sys.exit(f"spell_image: {words[0]}: {error}")
    try:
        parts = list(parts_of(System(policy)))
    except (AttributeError, LookupError, TypeError, ValueError) as error:
        sys.exit(f"spell_image: {words[0]}: no policy that keeps all rules, or one with contents from files: {error!r}")
    if len(words) == 2:
        pathlib.Path(words[1]).write_bytes(b"".join(part for _, part in parts))
        return
    at = 0
    for what, part in parts:
        runs = " ".join(f"{size}*{byte:02x}" if size > 1 else f"{byte:02x}"
                        for size, byte in runs_of(part))
        print(f"{at} {what}: {runs}")
        at += len(part)
    print(f"{at} the end, Adler-32 {zlib.adler32(b''.join(part for _, part in parts)):08x}")


if __name__ == "__main__":
    main(sys.argv[1:])
