"""Policies of chance (docs/policy.md), with windows anywhere below 2^40: 1 to 4 subjects on one CPU, regions of
their own and shared ones, greater pages, channels, monitors, device memory, ports and MSRs."""
import json
import random

PAGE = 4096
BIG = 2 << 20
RAM, DEVICES = 0x20_0000, 0x400_0000
RIGHTS = ("r", "rw", "rx", "rwx")
# MSRs that are there on the emulated processor, and some that aren't.
MSRS = (0x10, 0x1B, 0x174, 0x175, 0x200, 0x277, 0x3FF, 0x480, 0x6E0, 0x1FFF,
        0xC0000080, 0xC0000081, 0xC0000084, 0xC0000100, 0xC0000103, 0xC0001FFF)


class Space:
    """Guest addresses of a subject: windows at places of chance that don't overlap."""

    def __init__(self, draw):
        self.draw, self.taken = draw, []

    def place(self, size):
        """A place for a window."""
        while True:
            unit = BIG if size >= BIG and self.draw.random() < 0.7 else PAGE
            below = 1 << self.draw.choice([23, 30, 32, 34, 39, 40])
            start = self.draw.randrange(0, max(1, (below - size) // unit)) * unit
            if all(start + size <= low or high <= start for low, high in self.taken):
                self.taken.append((start, start + size))
                return start


class Policy:
    """A policy in the making."""

    def __init__(self, draw):
        self.draw = draw
        names = ["a", "b", "c", "d"][:draw.randrange(1, 5)]
        self.subjects = {name: {"name": name, "cpu": 0, "entry": 0, "memory": [], "channels": [], "devices": [],
                                "msrs": [], "monitors": []} for name in names}
        self.spaces = {name: Space(draw) for name in names}
        self.regions, self.channels, self.devices = [], [], []

    def region(self, sharers):
        """A region that these subjects map."""
        name = f"region{len(self.regions)}"
        size = self.draw.choice([1, 1, 2, 5, 512, 600, 1024]) * PAGE
        one = {"name": name, "size": size, "caching": self.draw.choice(["UC", "WC", "WT", "WP", "WB"]),
               "alignment": BIG if size >= BIG else PAGE}
        if len(sharers) > 1:
            one["sharedMemory"] = sharers
        self.regions.append(one)
        for sharer in sharers:
            for _ in range(self.draw.choice([1, 1, 2])):
                self.subjects[sharer]["memory"].append({"region": name, "rights": self.draw.choice(RIGHTS),
                                                        "virtualAddress": self.spaces[sharer].place(size)})

    def channel(self, writer, readers):
        """A channel with its ends."""
        name, size = f"channel{len(self.channels)}", self.draw.choice([1, 3]) * PAGE
        self.channels.append({"name": name, "size": size})
        for end, role in [(writer, "writer"), *[(reader, "reader") for reader in readers]]:
            self.subjects[end]["channels"].append({"channel": name, "role": role,
                                                   "virtualAddress": self.spaces[end].place(size)})

    def device(self, owner):
        """A device whose memory and ports a subject has."""
        count = len(self.devices)
        size = self.draw.choice([1, 4, 512]) * PAGE
        # from 400H on: the emulator has little there; ranges of devices don't overlap
        first = 0x400 + 0x2000 * count + self.draw.randrange(0x1000)
        if self.draw.random() < 0.3:
            first = 0x7FF0 + 0x10000 * (count > 0)
        ports = [] if first > 0xFFFF else [{"name": "ports", "start": first,
                                           "end": first + self.draw.randrange(40)}]
        self.devices.append({"name": f"device{count}", "ioPorts": ports,
                             "memory": [{"name": "memory", "physicalAddress": DEVICES + 0x40_0000 * count,
                                         "size": size}]})
        self.subjects[owner]["devices"].append({
            "device": f"device{count}", "ioPorts": [one["name"] for one in ports],
            "memory": [{"memory": "memory", "virtualAddress": self.spaces[owner].place(size),
                        "rights": self.draw.choice(RIGHTS)}]})

    def document(self):
        """The document."""
        draw, names = self.draw, list(self.subjects)
        for name in names:
            for _ in range(draw.randrange(1, 4)):
                self.region([name])
            if draw.random() < 0.5:
                self.device(name)
            for msr in draw.sample(MSRS, draw.randrange(4)):
                self.subjects[name]["msrs"].append({"start": msr, "end": msr, "rights": draw.choice(["r", "w", "rw"])})
            others = [other for other in names if other != name]
            if others and draw.random() < 0.6:
                self.channel(name, draw.sample(others, draw.randrange(1, len(others) + 1)))
            if others and draw.random() < 0.5:
                self.subjects[name]["monitors"].append({
                    "subject": draw.choice(others), "rights": draw.choice(["r", "rw"]),
                    "virtualAddress": self.spaces[name].place(PAGE)})
            windows = self.subjects[name]["memory"]
            self.subjects[name]["entry"] = draw.choice(windows)["virtualAddress"]
        if len(names) > 1:
            self.region(draw.sample(names, 2))
        return {"processor": {"logicalCpus": 1},
                "memoryBlocks": [{"name": "ram", "physicalAddress": RAM, "size": DEVICES - RAM}],
                "devices": self.devices, "memory": self.regions, "channels": self.channels,
                "subjects": list(self.subjects.values()),
                "scheduling": {"groups": [{"name": "g", "cpu": 0, "subjects": names}], "majorFrames": [
                    {"cpus": [{"cpu": 0, "minorFrames": [{"group": "g", "ticks": 10}]}]}]}}


def write(folder, seed, count):
    """Writes so many policies, of the seeds from this one on, and returns their paths."""
    paths = []
    for one in range(seed, seed + count):
        paths.append(folder / f"random-{one}.json")
        paths[-1].write_text(json.dumps(Policy(random.Random(one)).document()))
    return paths
