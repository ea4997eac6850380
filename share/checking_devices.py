"""The checks of muen_dma: verdicts on tables, each with what a search in Python finds; what is told of each line of a record; windows; statuses."""
import json
import pathlib
import random
import struct

from calling import Calls
from checking import DEVICES_PROGRAM, EXAMPLES, PROGRAM, call, each, want, with_devices, with_program
from looking.dma_file import read_dma
from looking.document import document_in_shape
from looking.image_file import read_image
from looking.policy import Policy
from looking.scene import policy_scene
from looking.steps import device_names, end_steps, steps
from looking.tables_verdict import verdict

USAGE = "usage: verify IMAGE POLICY DMA, lines IMAGE RECORD DMA, map POLICY, flows POLICY"
NIC, RING = "device_domains", "descriptor_ring"
WINDOWS = {NIC: "window nic 0000000000001000 0000000000107000 0000000000001000 rw buf\n",
           RING: "window card 0000000000001000 0000000000107000 0000000000001000 rw ring\n"}
# the seeds of random systems
RANDOM = range(60)
# where the pages begin in the file of tables of one device
PAGES = 24 + 68
# words of the tables of device_domains (docs/dma.md, "An example") by page and place, and the verdict: a leaf elsewhere, in the code and behind
# all memory; one without the right to write, and one that isn't there; one more; a context entry of a function, and a root entry of a bus,
# that no device has; a page used twice, which its bus's root entry, a level's entry and another function share; an entry to its own table;
# and tables that aren't in the file
SPOILED = [
    ([(5, 8, 0x106003)], "leak 00:03.0 0000000000001000"),
    ([(5, 8, 0x40000003)], "outside 00:03.0 0000000000001000"),
    ([(5, 8, 0x107001)], "lacks 00:03.0 0000000000001000"),
    ([(5, 8, 0x107002)], "lacks 00:03.0 0000000000001000"),
    ([(5, 8, 0)], "lacks 00:03.0 0000000000001000"),
    ([(5, 8, 0x107007)], "lacks 00:03.0 0000000000001000"),
    ([(5, 16, 0x106001)], "leak 00:03.0 0000000000002000"),
    ([(5, 16, 0x107002)], "leak 00:03.0 0000000000002000"),
    ([(5, 4088, 0x40000001)], "outside 00:03.0 00000000001ff000"),
    ([(1, 16 * 25, 0x2001), (1, 16 * 25 + 8, 0x102)], "leak 00:03.1 0000000000001000"),
    ([(1, 16 * 2, 0x2001), (1, 16 * 2 + 8, 0x102)], "leak 00:00.2 0000000000001000"),
    ([(1, 16 * 25, 0x3001), (1, 16 * 25 + 8, 0x202)], "twice 00:03.1 0000000000000000"),
    ([(0, 16 * 7, 0x1001)], "twice 07:00.0 0000000000000000"),
    ([(0, 0, 0x1)], "twice 00:00.0 0000000000000000"),
    ([(0, 16 * 255, 0x9001)], "outside ff:00.0 0000000000000000"),
    ([(2, 8, 0x3003)], "twice 00:03.0 0000008000000000"),
    ([(2, 8, 0x2003)], "twice 00:03.0 0000008000000000"),
    ([(4, 8, 0x5001)], "twice 00:03.0 0000000000200000"),
    ([(4, 8, 0x6001)], "outside 00:03.0 0000000000200000"),
    ([(1, 16 * 24, 0x2003)], "lacks 00:03.0 0000000000001000"),
    ([(0, 0, 0)], "lacks 00:03.0 0000000000001000"),
    ([(1, 16 * 24 + 8, 0x502)], None),
    ([(4, 8, 0x5004)], None),
]
# a record's lines, words of the tables that are changed, and what is told
LINES = [
    ("0 nic 4104 0700", [], "0 nic 0000000000001008 2 0000000000107008 2 buf"),
    ("0 nic 4096 " + 64 * "07", [], "0 nic 0000000000001000 64 0000000000107000 64 buf"),
    ("0 nic 8191 0707", [(5, 16, 0x106003)], "0 nic 0000000000001fff 2 0000000000107fff 1 buf 0000000000106000 1 code"),
    ("0 nic 8191 0707", [], "0 nic 0000000000001fff 2 dropped at 0000000000002000: not present"),
    ("0 nic 4095 0707", [], "0 nic 0000000000000fff 2 dropped at 0000000000000fff: not present"),
    ("0 nic 8191 0707", [(5, 16, 0x106001)], "0 nic 0000000000001fff 2 dropped at 0000000000002000: no right"),
    ("0 nic 8191 0707", [(5, 16, 0x40000003)], "0 nic 0000000000001fff 2 dropped at 0000000000002000: outside"),
    ("0 nic 4104 07", [(5, 8, 0x107007)], "0 nic 0000000000001008 1 dropped at 0000000000001008: bad entry"),
    ("0 nic 4104 07", [(0, 0, 0x1003)], "0 nic 0000000000001008 1 dropped at 0000000000001008: bad entry"),
    ("0 nic 4104 07", [(1, 16 * 24 + 8, 0x103)], "0 nic 0000000000001008 1 dropped at 0000000000001008: bad entry"),
    ("0 nic 4104 07", [(0, 0, 0)], "0 nic 0000000000001008 1 dropped at 0000000000001008: no table"),
    ("0 nic 4104 07", [(1, 16 * 24, 0)], "0 nic 0000000000001008 1 dropped at 0000000000001008: no table"),
    ("0 nic 4104 07", [(3, 0, 0x9003)], "0 nic 0000000000001008 1 dropped at 0000000000001008: no table"),
    ("1 nic 281474976710655 0707", [(2, 4088, 0x3003), (3, 4088, 0x4003), (4, 4088, 0x5003), (5, 4088, 0x107003)],
     "1 nic 0000ffffffffffff 2 dropped at 0001000000000000: too high"),
]


def spoiled(tables, words, begin=PAGES):
    """The file with these words of eight bytes, by page and place."""
    tables = bytearray(tables)
    for page, place, word in words:
        struct.pack_into("<Q", tables, begin + 4096 * page + place, word)
    return bytes(tables)


def random_system(draw):
    """A policy with one to five devices, of which some stand in domains with small windows anywhere and at edges of tables."""
    sources = sorted(draw.sample(range(65536), draw.randrange(1, 6)))
    if draw.random() < 0.5:
        sources = sorted({source & 0x3ff for source in sources})
    devices = [{"name": f"d{at}", "bdf": {"bus": source >> 8, "device": source >> 3 & 31, "function": source & 7}} for at, source in enumerate(sources)]
    names, regions, domains = [device["name"] for device in devices], [], []
    draw.shuffle(names)
    while names:
        owners, names = names[:draw.randrange(1, 3)], names[draw.randrange(1, 4):]
        names = [name for name in names if name not in owners]
        windows, address = [], 0
        for _ in range(draw.randrange(1, 4)):
            size = 4096 * draw.choice([1, 1, 2, 3])
            address += draw.choice([0, 4096, (1 << 21) - 4096, 1 << 30, (1 << 39) - 8192])
            region = f"r{len(regions)}"
            regions.append({"name": region, "size": size})
            windows.append({"region": region, "virtualAddress": address, "rights": draw.choice(["r", "rw"])})
            address += size
        domains.append({"name": f"g{len(domains)}", "devices": owners, "memory": windows})
    return {"processor": {"logicalCpus": 1}, "memoryBlocks": [{"name": "ram", "physicalAddress": draw.choice([1 << 20, 0, 1 << 32]), "size": 1 << 20}],
            "devices": devices, "memory": [{"name": "code", "size": 4096, "content": {"hex": "1700000000000000"}}, *regions],
            "subjects": [{"name": "one", "cpu": 0, "entry": 1 << 22, "memory": [{"region": "code", "virtualAddress": 1 << 22, "rights": "rx"}]}],
            "scheduling": {"groups": [{"name": "g", "cpu": 0, "subjects": ["one"]}], "majorFrames": [{"cpus": [{"cpu": 0, "minorFrames": [{"group": "g", "ticks": 10}]}]}]},
            "deviceDomains": domains}


def damaged(draw, tables, devices):
    """The file with another word: an entry that is there or its neighbour is changed, or refers elsewhere."""
    begin = 24 + 68 * devices
    words = list(struct.unpack_from(f"<{(len(tables) - begin) // 8}Q", tables, begin))
    at = draw.choice([at for at, word in enumerate(words) if word])
    base, = struct.unpack_from("<Q", tables, 8)
    other = base + 4096 * draw.randrange(len(words) // 512 + 1)
    value = draw.choice([0, words[at] ^ 1, words[at] ^ 2, words[at] ^ 1 << draw.randrange(64), words[at] & 4095 | other, words[at] & 4095 | draw.randrange(1 << 28) << 12])
    words[draw.choice([at, at, min(at + draw.choice([1, 2, 300]), len(words) - 1)])] = value
    return tables[:begin] + struct.pack(f"<{len(words)}Q", *words)


class Devices(Calls):
    """Calls of muen_dma in a folder that is each test's own."""

    def dma(self, words, status, out, line=""):
        """A call ends with this status, output and line of errors: a sub-case."""
        with self.subTest(words):
            want(self.asked(words), (status, out, f"muen_dma: {line}\n" if line else ""), words)

    def asked(self, words):
        """The status and the streams of a call."""
        done = call([DEVICES_PROGRAM, *words.split()], self.folder)
        return done.returncode, done.stdout.decode(), done.stderr.decode()

    def built(self, policy):
        """What `build` writes of a document: the tables."""
        self.file("p").write_text(policy, encoding="utf-8")
        want(call([PROGRAM, "build", "p", "i", "t"], self.folder).stderr, b"", "build")
        return self.file("t").read_bytes()

    def file(self, name):
        """A file of the folder."""
        return pathlib.Path(self.folder, name)

    def searched(self):
        """The verdict that the search comes to."""
        return verdict(Policy(document_in_shape(str(self.file("p")))), read_image(str(self.file("i"))), read_dma(str(self.file("t"))))

    def judged(self, wanted, why):
        """The program comes to this verdict, and so does the search."""
        with self.subTest(why):
            want(self.searched(), wanted, "the search's verdict")
            want(self.asked("verify i p t"), (0, "sound\n", "") if wanted == "sound" else (9, "", f"muen_dma: {wanted}\n"), "the program's")


def example(name):
    """The text of an example's policy."""
    return (EXAMPLES / f"{name}.json").read_text(encoding="utf-8")


@with_program
@with_devices
class Verdicts(Devices):
    """`verify`."""

    @each((f"muen_dma on the tables of {name}", name) for name in (NIC, RING))
    def test_example(self, name):
        """What `build` writes is sound, and its windows are these; the tables of the other example aren't."""
        self.built(example(name))
        self.judged("sound", "its own tables")
        self.dma("map p", 0, WINDOWS[name])
        other = RING if name == NIC else NIC
        tables = self.file("t").read_bytes()
        self.built(example(other))
        self.file("t").write_bytes(tables)
        self.judged(f"not sound: device {'nic' if name == NIC else 'card'}", "tables of another policy")

    def test_spoiled(self):
        """Words of tables that are changed."""
        tables = self.built(example(NIC))
        for words, line in SPOILED:
            self.file("t").write_bytes(spoiled(tables, words))
            self.judged("sound" if line is None else f"not sound: {line}", str(words))

    def test_listing(self):
        """A list of devices that lacks one, that has another name, another place, or one more."""
        tables = self.built(example(NIC))
        name = tables[24:92]
        for count, entries, line in ((0, b"", "device nic"), (1, name.replace(b"nic", b"nib"), "device nib"),
                                     (1, name[:64] + b"\0\x19\0\0", "device nic"), (2, name + name.replace(b"nic", b"two"), "device two")):
            self.file("t").write_bytes(tables[:20] + bytes([count, 0, 0, 0]) + entries + tables[92:])
            self.judged(f"not sound: {line}", line)

    def test_other_policy(self):
        """Tables of the same device with a window that lies elsewhere, is longer, or may be written."""
        for old, new, line in (('"16#1000#","rights":"rw"}]}]}', '"16#2000#","rights":"rw"}]}]}', "lacks 00:03.0 0000000000001000"),
                               ('"16#1000#","rights":"rw"}]}]}', '"16#1000#","rights":"r"}]}]}', "lacks 00:03.0 0000000000001000"),
                               ('"device":3', '"device":4', "device nic")):
            text = example(NIC)
            want(text.count(old), 1, old)
            tables = self.built(text.replace(old, new))
            self.built(text)
            self.file("t").write_bytes(tables)
            self.judged(f"not sound: {line}", new)

    @each((f"muen_dma on random system {seed}", seed) for seed in RANDOM)
    def test_random(self, seed):
        """What is built of a random system is sound, and of a damaged file the verdict is the search's."""
        draw = random.Random(seed)
        tables = self.built(json.dumps(random_system(draw)))
        self.judged("sound", f"system {seed}")
        self.file("t").write_bytes(damaged(draw, tables, tables[20]))
        self.judged(self.searched(), f"system {seed}, damaged")


def random_grants(draw):
    """A policy whose subjects have what devices have, and see regions of their domains, by chance."""
    subjects = [{"name": f"s{at}", "cpu": 0, "entry": 1 << 22, "memory": [{"region": f"c{at}", "virtualAddress": 1 << 22, "rights": "rx"}], "devices": []}
                for at in range(draw.randrange(2, 6))]
    regions, devices, domains = [{"name": f"c{at}", "size": 4096} for at in range(len(subjects))], [], []
    for at in range(draw.randrange(1, 4)):
        places = range(2 * at, 2 * at + 2)
        devices.append({"name": f"d{at}", "bdf": {"bus": 0, "device": at + 1, "function": 0}, "irqs": [{"name": f"i{place}"} for place in places],
                        "memory": [{"name": f"m{place}", "physicalAddress": (1 << 28) + 4096 * place, "size": 4096} for place in places],
                        "ioPorts": [{"name": f"p{place}", "start": 768 + 8 * place, "end": 775 + 8 * place} for place in places]})
        uses = [{"device": f"d{at}", "memory": [], "ioPorts": [], "irqs": []} for _ in subjects]
        for place in places:
            draw.choice(uses)["memory"].append({"memory": f"m{place}", "virtualAddress": (1 << 28) + 4096 * place, "rights": draw.choice(["r", "rw"])})
            draw.choice(uses)["ioPorts"].append(f"p{place}")
            draw.choice(uses)["irqs"].append({"irq": f"i{place}", "vector": 32 + place})
        for subject, use in zip(subjects, uses):
            if any(list(use.values())[1:]) and draw.random() < 0.7:
                subject["devices"].append(use)
        if draw.random() < 0.7:
            if domains and draw.random() < 0.4:
                domains[-1]["devices"].append(f"d{at}")
            else:
                domains.append({"name": f"g{at}", "devices": [f"d{at}"], "memory": [{"region": f"r{at}", "virtualAddress": 4096, "rights": draw.choice(["r", "rw"])}]})
                regions.append({"name": f"r{at}", "size": 4096})
                rights, seeing = draw.choice([("rw", 1), ("r", 2)])
                for subject in draw.sample(subjects, seeing):
                    subject["memory"].append({"region": f"r{at}", "virtualAddress": (1 << 29) + 4096 * at, "rights": rights})
    return {"processor": {"logicalCpus": 1}, "memoryBlocks": [{"name": "ram", "physicalAddress": 1 << 20, "size": 1 << 20}], "devices": devices, "memory": regions,
            "subjects": subjects, "deviceDomains": domains,
            "scheduling": {"groups": [{"name": "g", "cpu": 0, "subjects": [subject["name"] for subject in subjects]}],
                           "majorFrames": [{"cpus": [{"cpu": 0, "minorFrames": [{"group": "g", "ticks": 10}]}]}]}}


def closed(scene):
    """The lines of the least sets closed under the steps of look ways, and those to a device of which a subject may only read memory."""
    names, subjects = device_names(scene), [subject.name for subject in scene.subjects]
    every = {(step.source, step.target) for step in [*steps(scene), *end_steps(scene)]}
    every |= {(subject.name, names[sight.thing.name.partition("|")[0]]) for subject in scene.subjects for sight in subject.sights if sight.thing.kind == "device"}
    for subject in subjects:
        found, size = {subject}, 0
        while size < len(found):
            size = len(found)
            found |= {source for source, target in every if target in found}
        yield " ".join(["flow", subject, "from", *(name for name in subjects if name in found)])


@with_program
@with_devices
class Flows(Devices):
    """`flows`."""

    def test_random(self):
        """Of random systems the sets are those that a search in Python finds, and mostly more than those of muen flows."""
        more = 0
        for seed in range(200):
            self.file("p").write_text(json.dumps(random_grants(random.Random(seed))), encoding="utf-8")
            self.dma("flows p", 0, "".join(f"{line}\n" for line in closed(policy_scene(str(self.file("p"))))))
            more += call([PROGRAM, "flows", "p"], self.folder).stdout.decode() != self.asked("flows p")[1]
        self.want(more > 100, True, "many have flows over devices")


@with_program
@with_devices
class Lines(Devices):
    """`lines`, and what all commands answer."""

    def test_lines(self):
        """Where a line writes, and each reason for which one is dropped."""
        document = json.loads(example(NIC))
        document["devices"].append({"name": "card"})
        tables = self.built(json.dumps(document))
        for number, (line, words, told) in enumerate(LINES):
            self.file("r").write_text(f"dma {line}\nend 3\n", encoding="ascii")
            self.file("t").write_bytes(spoiled(tables, words))
            with self.subTest(f"line {number}"):
                want(self.asked("lines i r t"), (0, f"{told}\n", ""), line)
        self.file("t").write_bytes(tables)
        self.file("r").write_text("dma 0 card 4104 07\ndma 2 nic 4104 07\nend 3\n", encoding="ascii")
        self.dma("lines i r t", 0, "0 card 0000000000001008 1 dropped at 0000000000001008: no device\n2 nic 0000000000001008 1 0000000000107008 1 buf\n")

    def test_statuses(self):
        """Each status with its line."""
        tables = self.built(example(NIC))
        self.file("none").write_text("end 3\n", encoding="ascii")
        self.file("bad").write_text("irq 0 nic rx\nend 3\n", encoding="ascii")
        self.file("odd").write_bytes(spoiled(tables, [(5, 8, 0)]))
        with self.file("large").open("wb") as large:
            large.truncate((64 << 20) + 1)
        image = self.file("i").read_bytes()
        self.file("other").write_text(example(NIC).replace('"entry":"16#0040_0000#"', '"entry":"16#0040_0008#"'), encoding="utf-8")
        self.file("cut").write_bytes(image[:-1])
        for words in ("", "verify i p", "lines i r", "map", "maps p", "map p p", "flows", "verify i p t t"):
            self.dma(words, 1, "", USAGE)
        for words, status, line in (
                ("map i", 2, "not JSON"), ("flows i", 2, "not JSON"), ("verify i i t", 2, "not JSON"), ("map nothing", 3, "missing file nothing"), ("verify nothing p t", 3, "missing file nothing"),
                ("verify i nothing t", 3, "missing file nothing"), ("verify i p nothing", 3, "missing file nothing"), ("lines i none nothing", 3, "missing file nothing"),
                ("lines i nothing t", 3, "missing file nothing"), ("verify i p large", 3, "file large has 67108865 bytes"), ("lines i none large", 3, "file large has 67108865 bytes"),
                ("verify p p t", 5, "image refused at 0: magic"), ("lines p none t", 5, "image refused at 0: magic"), ("lines i bad t", 6, "record refused at line 1: unknown"),
                ("verify i other t", 9, "not sound: section f one"), ("verify i p odd", 9, "not sound: lacks 00:03.0 0000000000001000"),
                ("verify i p p", 10, "dma refused at 0: magic"), ("lines i none p", 10, "dma refused at 0: magic"), ("lines i nothing p", 10, "dma refused at 0: magic"),
                ("verify cut p t", 5, f"image refused at {len(image) - 4096}: short"), ("verify i other p", 9, "not sound: section f one")):
            self.dma(words, status, "", line)
        self.dma("lines i none t", 0, "")
        self.dma("verify i p t", 0, "sound\n")

    def test_flows(self):
        """Of each example the sets hold those of muen flows, and are the same where there is no device."""
        for policy in sorted(EXAMPLES.glob("*.json")):
            with self.subTest(policy.name):
                declared, through = (call([program, "flows", policy]).stdout.decode().splitlines() for program in (PROGRAM, DEVICES_PROGRAM))
                if not json.loads(policy.read_text(encoding="utf-8")).get("devices"):
                    want(through, declared, "flows without devices")
                want([set(line.split(" ")) <= set(more.split(" ")) and line.split(" ")[:3] == more.split(" ")[:3] for line, more in zip(declared, through, strict=True)],
                     [True] * len(declared), "sets that hold the declared ones")
