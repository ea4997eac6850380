"""Policies of chance with device domains (docs/policy.md, "Domain"): devices on several buses, some in no domain,
windows at the edges of tables and anywhere below 2^48, memory anywhere below 2^40."""
import json
import random

import bus
from domains import ADDRESSES, INTERRUPTS, PAGE

# Memory of 32 MiB: where it may begin.
RAM = 0x200_0000
BEGINS = (0x10_0000, 0x20_0000, 0x1000_0000, 0x7E00_0000, 1 << 32, 0x12_3456_7000, 1 << 39, (1 << 40) - RAM)
BUSES = (0, 0, 1, 2, 0x7F, 0x80, 0xFE, 0xFF)


class Policy:
    """A policy in the making, with so many devices."""

    def __init__(self, draw, devices):
        self.draw, self.devices, self.regions, self.domains = draw, [], [], []
        places = set()
        while len(places) < devices:
            source = draw.choice(BUSES) << 8 | draw.randrange(256)
            if source not in bus.CHIPSET:
                places.add(source)
        for i, source in enumerate(sorted(places)):
            self.devices.append({"name": f"device{i}", "bdf": {
                "bus": source >> 8, "device": source >> 3 & 31, "function": source & 7}})

    def address(self, size, taken):
        """Where a window begins: at or around an edge of tables, or anywhere."""
        while True:
            start = self.draw.randrange(ADDRESSES // PAGE) * PAGE
            if self.draw.random() < 0.6:
                span = 1 << self.draw.choice([21, 30, 39])
                edge = self.draw.randrange(ADDRESSES // span + 1) * span
                start = edge - self.draw.randrange(size // PAGE + 1) * PAGE
            elif self.draw.random() < 0.5:
                start = start % (1 << 32)
            if not 0 <= start <= ADDRESSES - size:
                continue
            if all(start + size <= low or high <= start for low, high in [*taken, INTERRUPTS]):
                taken.append((start, start + size))
                return start

    def domain(self, devices):
        """A domain of these devices."""
        windows, taken = [], []
        for _ in range(self.draw.randrange(1, 5)):
            size = self.draw.choice([1, 1, 1, 2, 5, 17, 512, 600]) * PAGE
            name = f"region{len(self.regions)}"
            self.regions.append({"name": name, "size": size})
            windows.append({"region": name, "rights": self.draw.choice(["r", "rw", "rw"]),
                            "virtualAddress": self.address(size, taken)})
        windows[0]["rights"] = "rw"
        self.domains.append({"name": f"domain{len(self.domains)}", "devices": devices, "memory": windows})

    def document(self):
        """The document."""
        names = [one["name"] for one in self.devices]
        self.draw.shuffle(names)
        while names and len(self.domains) < 6:
            count = self.draw.randrange(1, 4)
            self.domain(names[:count])
            # one in some is left in no domain
            names = names[count + self.draw.choice([0, 0, 1]):]
        subject = {"name": "one", "cpu": 0, "entry": "16#0040_0000#", "memory": [
            {"region": "code", "virtualAddress": "16#0040_0000#", "rights": "rx"}]}
        return {"processor": {"logicalCpus": 1},
                "memoryBlocks": [{"name": "ram", "physicalAddress": self.draw.choice(BEGINS), "size": RAM}],
                "devices": self.devices, "subjects": [subject],
                "memory": [{"name": "code", "size": PAGE, "content": {"hex": "1700000000000000"}}, *self.regions],
                "scheduling": {"groups": [{"name": "g", "cpu": 0, "subjects": ["one"]}], "majorFrames": [
                    {"cpus": [{"cpu": 0, "minorFrames": [{"group": "g", "ticks": 10}]}]}]},
                "deviceDomains": self.domains}


def write(folder, seed, count, devices=None):
    """Writes so many policies, of these seeds and with 1 to 8 devices, or so many, and returns their paths."""
    paths = []
    for one in range(seed, seed + count):
        draw = random.Random(one)
        paths.append(folder / f"random-{one}.json")
        paths[-1].write_text(json.dumps(Policy(draw, devices or draw.randrange(1, 9)).document()))
    return paths
