"""The checks of what share/look tells of policies: refusals explained, faults found at once, ways, names for assembly."""
import json
import pathlib
import re
import tempfile

from checking import ASSEMBLER_PROGRAM, EXAMPLES, PROGRAM, TOP, Case, call, each, looked, said, want, with_assembler, with_program
from checking_examples import REFUSED, RUNNING
from checking_rules import POLICY, ROWS, changed


def told_by_look(*words):
    """The status and the lines of a form of share/look."""
    status, text = said(*words)
    return status, text.splitlines()


def spread(policy, at, value):
    """The changed policy over many lines, and from where to where the changed value stands in it with its key."""
    text, marked = (json.dumps(json.loads(changed(policy, at, one)), separators=(",\n", ": ")) for one in (value, "here"))
    begin = marked.index('"here"')
    end = begin + len('"here"') + len(text) - len(marked)
    key = json.dumps(at.split("/")[-1]) + ": "
    return text, begin - len(key) if marked[:begin].endswith(key) else begin, end


def offsets(text, lines):
    """Where in a text the places are with which these lines begin."""
    starts = [0, *(match.end() for match in re.finditer("\n", text))]
    for line in lines:
        if place := re.match(r"\S+\.json:(\d+):(\d+): ", line):
            yield starts[int(place[1]) - 1] + int(place[2]) - 1

# texts with one fault between the two marks, and what muen says of each
FAULTS = [
    ('{"processor": {"logicalCpus": 1<,>}, "scheduling": {}}', "not JSON"),
    ('{"processor": {"logicalCpus": 1},\n </>/ plan\n "scheduling": {}}', "not JSON"),
    ('{"processor": {<"logicalCpu">: 1}, "scheduling": {}}', "shape at /processor: want known keys"),
    ('{"processor": {"logicalCpus": 1}, "subjects": <[]>, "scheduling": {"groups": []}}', "rule 20: subjects subjects"),
    ('{"processor": {"logicalCpus": "16#1<g>#"}, "scheduling": {}}', "shape at /processor/logicalCpus: want number"),
    ('{"processor": {"logicalCpus": 1},\n "memory": [{"name": "m", "size": 4096, "content": {"hex": "00< >11"}}], "scheduling": {}}',
     "shape at /memory/0/content/hex: want hexadecimal"),
    ('{"processor": <{>}, "scheduling": {}}', "shape at /processor/logicalCpus: want present"),
]

# contents in the policy of docs/rules.md, and what muen says of each
CONTENTS = [
    ("/memory/0/content", {"hex": 4097 * "00"}, "code: 4097 bytes in room for 4096"),
    ("/components/0/provides/0/content", {"hex": 4097 * "00"}, "b|text: 4097 bytes in room for 4096"),
    ("/memory/1/content", {"file": "nothing.bin"}, "missing file nothing.bin"),
    ("/memory/4/size", 2**25, "no room for buf of 33554432 bytes"),
]

@with_program
class Refusal(Case):
    """`look refusal`: the line of the program, and where the fault is."""

    def explained(self, text, line, begin, end):
        """`look refusal` tells the line, and a place from begin to end."""
        with tempfile.TemporaryDirectory() as folder:
            policy = pathlib.Path(folder, "policy.json")
            policy.write_text(text, encoding="utf-8")
            status, lines = told_by_look("refusal", policy)
        want((status, lines[:1]), (1, [line]), "look refusal")
        want(any(begin <= offset <= end for offset in offsets(text, lines)), True, f"a place is in the changed value: {lines}")

    @each((f"look refusal: {stands} at {at}", at, json.loads(stands), line) for at, stands, line in ROWS)
    def test_row(self, at, value, line):
        """`look refusal` tells the line of a row of docs/rules.md, and a place in the changed value."""
        text, begin, end = spread(POLICY, at, value)
        self.explained(text, line, begin, end)

    @each((f"look refusal: {line}", at, value, f"muen: {line}") for at, value, line in CONTENTS)
    def test_content(self, at, value, line):
        """As of a row, of contents."""
        text, begin, end = spread(POLICY, at, value)
        self.explained(text, line, begin, end)

    @each((f"look refusal: {marked}", marked, line) for marked, line in FAULTS)
    def test_fault(self, marked, line):
        """`look refusal` points to what stands between the marks."""
        begin, text = marked.index("<"), marked.replace("<", "").replace(">", "")
        self.explained(text, f"muen: {line}", begin, marked.index(">") - 2)


class Ways(Case):
    """`look ways`: the steps between subjects."""

    @with_program
    @each((f"look ways of examples/{name}", name) for name in RUNNING)
    def test_closed(self, name):
        """Over the steps of `look ways`, those over devices left out, each subject is reached by those that `flows` prints."""
        printed = call([PROGRAM, "flows", name]).stdout.decode().splitlines()
        flows = {words[1]: set(words[3:]) for words in map(str.split, printed)}
        status, lines = told_by_look("ways", EXAMPLES / name)
        want(status, 0, f"look ways: {lines}")
        steps = [re.match(r"(\S+) -> (\S+): (\S+) ", line).groups() for line in lines]
        for subject, sources in flows.items():
            reached = {subject}
            while more := {source for source, target, kind in steps if kind != "device" and target in reached} - reached:
                reached |= more
            self.want(reached, sources, f"those who reach {subject}")

    def test_gateway(self):
        """A shortest way, and that there is none without a subject which all ways pass."""
        gateway = EXAMPLES / "gateway.json"
        self.want(told_by_look("ways", gateway, "plain", "black"), (0, ["plain -> cipher: channel job", "cipher -> black: channel sealed"]), "a way")
        self.want(told_by_look("ways", gateway, "plain", "black", "without", "cipher"),
                  (0, ["no declared way from plain to black without cipher"]), "none")
        self.want(told_by_look("ways", gateway, "plain", "nobody")[0], 1, "the status of a name that isn't there")

    def test_two_way_gateway(self):
        """Each direction passes one subject."""
        gateway = EXAMPLES / "two_way_gateway.json"
        for source, target, between in (("red", "black", "encrypt"), ("black", "red", "decrypt")):
            self.want(told_by_look("ways", gateway, source, target, "without", between),
                      (0, [f"no declared way from {source} to {target} without {between}"]), f"no way from {source} to {target}")
            self.want(len(told_by_look("ways", gateway, source, target)[1]), 2, f"the steps from {source} to {target}")

    def test_over_devices(self):
        """What leads over a device is listed as such, and told where no flow leads from A to B."""
        text = changed(POLICY, "/subjects/1/memory/1", {"region": "buf", "virtualAddress": "16#0090_0000#", "rights": "rw"})
        with tempfile.TemporaryDirectory() as folder:
            file = pathlib.Path(folder, "policy.json")
            file.write_text(changed(text, "/subjects/0/monitors", []), encoding="utf-8")
            step = "b -> a: device net in domain dnet"
            self.want(told_by_look("ways", file, "b", "a"), (0, ["no declared way from b to a", "over devices, which are no flows:", step]), "the way")
            self.want(step in told_by_look("ways", file)[1], True, "it is listed")

    def test_devices(self):
        """A device is an end, and a step."""
        gateway = EXAMPLES / "two_way_gateway.json"
        self.want(told_by_look("ways", gateway, "outside", "red"),
                  (0, ["outside -> black: device ports 320 to 32f, rx, vector 41, DMA black_buffer", "black -> decrypt: channel to_open",
                       "decrypt -> red: channel opened"]), "from a device")
        self.want(told_by_look("ways", gateway, "outside", "inside", "without", "decrypt"), (0, ["no way from outside to inside without decrypt"]), "none")


# claims on the two-way gateway with what each prints where it is broken or none
CLAIMS = [
    ("never red black", ["red -> encrypt: channel to_seal", "encrypt -> black: channel sealed"]),
    ("never red black without encrypt", None),
    ("only inside outside by encrypt", None),
    ("only inside outside by decrypt", ["inside -> red: device ports 300 to 30f, rx, vector 41, DMA red_buffer", "red -> encrypt: channel to_seal",
                                        "encrypt -> black: channel sealed", "black -> outside: device ports 320 to 32f"]),
    ("reaches outside keys", None),
    ("reaches outside keys without watch", ["no way from outside to keys without watch"]),
]
# what is no claim on it, and why
NO_CLAIMS = [
    ("never red nobody", "no subject or device is nobody; there are red, black, keys, encrypt, guard, decrypt, watch, inside, outside"),
    ("never red red", "the ends and the names behind them are different ones"),
    ("only red black by black", "the ends and the names behind them are different ones"),
    *((line, "a claim is never A B [without X ..], only A B by X .., or reaches A B [without X ..]")
      for line in ("never red", "ever red black", "only red black", "only red black by", "only red black without keys", "never red black keys")),
]


class Claims(Case):
    """`look ways` with claims."""

    GATEWAY = EXAMPLES / "two_way_gateway.json"

    @each((f"the claims of examples/{file.name}", file) for file in sorted(EXAMPLES.glob("*.claims")))
    def test_example(self, file):
        """The claims beside an example hold of its policy."""
        status, lines = told_by_look("ways", file.with_suffix(".json"), "--claims", file)
        want((status, len(lines), lines[0].endswith(" hold, 0 broken, 0 faults")), (0, 1, True), f"look ways: {lines}")

    @each((f"the claim {line}", line, way) for line, way in CLAIMS)
    def test_claim(self, line, way):
        """A claim holds, or a way breaks it: by options, and as a line of a file."""
        kind, source, target, *rest = line.split()
        behind = [f"--{rest[0]}", *rest[1:]] if rest else []
        self.want(told_by_look("ways", self.GATEWAY, f"--{kind}", source, target, *behind), (1, way) if way else (0, ["holds"]), "by options")
        broken = [f"FILE:2: broken: {line}", *(f"  {step}" for step in way), "1 claim: 0 hold, 1 broken, 0 faults"] if way else []
        self.want(self.of_file(f"# a comment\n{line} # another\n"), (1, broken) if way else (0, ["1 claim: 1 hold, 0 broken, 0 faults"]), "of a file")

    def test_one_domain(self):
        """What docs/flows.md quotes is printed of the two-way gateway with both devices in one domain."""
        text = self.GATEWAY.read_text(encoding="utf-8")
        for at, devices in ((0, ["inside", "outside"]), (1, [])):
            text = changed(text, f"/deviceDomains/{at}/devices", devices)
        claims = self.GATEWAY.with_suffix(".claims")
        with tempfile.TemporaryDirectory() as folder:
            file = pathlib.Path(folder, "policy.json")
            file.write_text(text, encoding="utf-8")
            status, lines = told_by_look("ways", file, "--claims", claims)
        quoted = (TOP / "docs" / "flows.md").read_text(encoding="utf-8")
        printed = "\n".join(lines[:2]).replace(str(claims), claims.name)
        want((status, printed.count("\n"), f"```\n{printed}\n```" in quoted, f"`{lines[-1]}`" in quoted), (1, 1, True, True), f"the lines: {lines}")

    @each((f"no claim {line}", line, why) for line, why in NO_CLAIMS)
    def test_no_claim(self, line, why):
        """What is no claim, or names nobody, is a fault of its line, and the others are looked at."""
        self.want(self.of_file(f"{line}\nreaches red black\n"), (1, [f"FILE:1: fault: {why}", "2 claims: 1 hold, 0 broken, 1 fault"]), "the lines")

    def of_file(self, text):
        """The status and the lines of `look ways` on a file of claims, which is FILE in the lines."""
        with tempfile.TemporaryDirectory() as folder:
            file = pathlib.Path(folder, "system.claims")
            file.write_text(text, encoding="ascii")
            status, lines = told_by_look("ways", self.GATEWAY, "--claims", file)
        return status, [line.replace(str(file), "FILE") for line in lines]

    @each((f"look ways {words}", words, why) for words, why in [
        ("--only red black", "--only wants --by"), ("--without encrypt", "--without goes with --never and --reaches"),
        ("--never red black --by encrypt", "--by goes with --only"), ("red --never red black", "red: a claim has no other words"),
        ("--claims /dev/null", "/dev/null: no claim is in it"),
        ("--never red nobody", "no subject or device is nobody; there are red, black, keys, encrypt, guard, decrypt, watch, inside, outside")])
    def test_words(self, words, why):
        """Words that don't go together are a line of errors."""
        want(told_by_look("ways", self.GATEWAY, *words.split()), (1, [f"look: {why}"]), "status and lines")

    def test_same_name(self):
        """A device that has a subject's name is told apart from it, and devices of a domain count as one."""
        text = changed(changed(changed(POLICY, "/devices/1/name", "a"), "/deviceDomains/0/devices", ["net", "a"]), "/deviceDomains/1/devices", [])
        with tempfile.TemporaryDirectory() as folder:
            file = pathlib.Path(folder, "policy.json")
            file.write_text(text, encoding="utf-8")
            self.want(told_by_look("ways", file, "--never", "a", "b"),
                      (1, ["look: a subject and a device are a: subject:a or device:a is wanted"]), "which one")
            self.want(told_by_look("ways", file, "--never", "device:a", "subject:a"),
                      (1, ["device:a -> net: device in domain dnet", "net -> a: device ports 300 to 30f, ring, rx, vector 42"]), "the way")

    @with_program
    def test_image(self):
        """Claims on an image are as those on its policy, and want its tables."""
        with tempfile.TemporaryDirectory() as folder:
            image, tables = (pathlib.Path(folder, part) for part in ("image", "tables"))
            self.program(["build", self.GATEWAY, image, tables], 0, b"", None)
            file = self.GATEWAY.with_suffix(".claims")
            self.want(told_by_look("ways", image, "--dma", tables, "--claims", file), told_by_look("ways", self.GATEWAY, "--claims", file), "of both")
            self.want(told_by_look("ways", image, "--claims", file),
                      (1, [f"look: {image}: what its devices write by themselves isn't known without --dma"]), "without tables")


# of subjects of the policy of docs/rules.md their constants, but for the size and the end of windows
NAMES = {
    "a": {"entry": 0x400000, "code": 0x400000, "board": 0x500000, "pick": 0x510000, "log": 0x600000, "net.ring": 0x700000, "b.state": 0x800000, "b.state.entry": 0x400000,
          "net.regs": 768, "net.regs.last": 783, "net.rx.vector": 42, "net.rx.handler": 336, "dnet.buf": 0x1000,
          "msr.c0000080": 0xc0000080, "msr.c0000081": 0xc0000081, "msr.c0000082": 0xc0000082, "turn.call": 2, "tell.vector": 41, "tell.handler": 328},
    "b": {"entry": 0x400000, "board": 0x500000, "text": 0x400000, "store": 0x600000, "in": 0x700000, "in.vector": 40, "in.handler": 320},
    "c": {"entry": 0x400000, "code": 0x400000, "job": 0x600000, "job.call": 1, "log": 0x610000, "tell.call": 2}}
# what is changed in that policy, and which constants of a subject are others then
RENAMED = [
    ("a second window", "a", {"/subjects/0/memory/3": {"region": "pick", "virtualAddress": 0x520000, "rights": "r"}}, {"pick.2": 0x520000}),
    ("a second call", "a", {"/subjects/0/sources/1": {"event": "turn", "call": 9}}, {"turn.2.call": 9}),
    ("another spelling", "c", {"/channels/0/name": "1.lo-g", "/subjects/0/channels/0/channel": "1.lo-g", "/subjects/2/channels/1/channel": "1.lo-g"},
     {"_1.lo_g": 0x610000, "log": None}),
    ("an event of two names", "a", {"/events/1/name": "turn.2", "/subjects/0/targets/0/event": "turn.2", "/subjects/2/sources/0/event": "turn.2"},
     {"turn.2.vector": 41, "turn.2.handler": 328, "tell.vector": None, "tell.handler": None}),
]
# what can't have names, and the line that says so
UNNAMED = [
    ("a", {"/memory/0/name": "entry", "/subjects/0/memory/0/region": "entry", "/subjects/2/memory/0/region": "entry"},
     "entry would be the entry, and the region entry: one of them wants another name"),
    ("c", {"/channels/0/name": "job.size", "/subjects/0/channels/0/channel": "job.size", "/subjects/2/channels/1/channel": "job.size"},
     "job.size would be the channel job, and the channel job.size: one of them wants another name"),
    ("a", {"/devices/0/ioPorts/0/name": "ring", "/subjects/0/devices/0/ioPorts/0": "ring"},
     "net.ring would be the memory ring of net, and the ports ring of net: one of them wants another name"),
    ("c", {"/events/1/name": "job", "/subjects/0/targets/0/event": "job", "/subjects/2/sources/0/event": "job"},
     "job.call would be the channel job, and the call of the event job: one of them wants another name"),
    ("a", {"/devices/0/name": 60 * "n", "/subjects/0/devices/0/device": 60 * "n", "/deviceDomains/0/devices/0": 60 * "n"},
     f"{60 * 'n'}.ring has 65 characters, and a name in assembly at most 63"),
    ("nobody", {}, "no subject is nobody; there are a, b, c"),
    ("a", {"/subjects/0/cpu": 9}, "rule 3: a a: the CPUs are 0 to 1"),
]


class Names(Case):
    """`look names`: the constants of subjects."""

    LINE = re.compile(r"(\S+) = (\S+) +; \S.*")

    def constants(self, policy, subject):
        """The constants that are printed, by their names."""
        head, *lines = looked("names", policy, subject).splitlines()
        want(head, f"; the constants of {subject}, by share/look names", "the first line")
        found = {name: int(value, 0) for name, value in (self.LINE.fullmatch(line).groups() for line in lines)}
        want(len(found), len(lines), "how many names there are")
        return found

    def of_changed(self, changes, check):
        """A check of the policy of docs/rules.md with these values elsewhere."""
        policy = POLICY
        for at, value in changes.items():
            policy = changed(policy, at, value)
        with tempfile.TemporaryDirectory() as folder:
            file = pathlib.Path(folder, "policy.json")
            file.write_text(policy, encoding="utf-8")
            return check(file)

    @with_program
    @each((f"look names of examples/{name}", name) for name in RUNNING)
    def test_windows(self, name):
        """Each window that `map` prints has a name for its address, its size and its end."""
        printed = [words.split() for words in call([PROGRAM, "map", name]).stdout.decode().splitlines()]
        for subject in {words[1] for words in printed if words[0] == "window"}:
            found = self.constants(EXAMPLES / name, subject)
            domains = tuple(f"{domain['name']}." for domain in json.loads((EXAMPLES / name).read_text(encoding="utf-8")).get("deviceDomains", []))
            named = sorted((found[one.removesuffix(".size")], size, found[f"{one.removesuffix('.size')}.end"])
                           for one, size in found.items() if one.endswith(".size") and not one.startswith(domains))
            places = sorted((int(words[2], 16), int(words[3], 16)) for words in printed if words[:2] == ["window", subject])
            self.want(named, [(place, size, place + size) for place, size in places], f"the windows of {subject}")

    @with_assembler
    @each((f"muen_asm on the constants of examples/{name}", name) for name in RUNNING)
    def test_assembled(self, name):
        """They are assembly, which gives each name its number."""
        for subject in json.loads((EXAMPLES / name).read_text(encoding="utf-8"))["subjects"]:
            found = self.constants(EXAMPLES / name, subject["name"])
            text = looked("names", EXAMPLES / name, subject["name"]) + "".join(f".u64 {one}\n" for one in found)
            self.want(self.assembled(text), b"".join(value.to_bytes(8, "little") for value in found.values()).hex(), subject["name"])

    @with_assembler
    @each((f"{source} of the two-way gateway by the constants of {one} and {other}", one, other, source) for one, other, source in
          [("red", "black", "nic_text"), ("encrypt", "decrypt", "crypt_text")])
    def test_source(self, one, other, source):
        """A source gives the same bytes behind the constants of each who runs it, and behind those that all have."""
        policy, text = EXAMPLES / "two_way_gateway.json", (EXAMPLES / "two_way_gateway" / f"{source}.asm").read_text(encoding="ascii")
        found = [self.constants(policy, subject) for subject in (one, other)]
        common = looked("names", policy, one, other)
        self.want({line.split()[0] for line in common.splitlines()[1:]}, {name for name, number in found[0].items() if found[1].get(name) == number}, "what both have")
        self.want(len({self.assembled(names + text) for names in (looked("names", policy, one), looked("names", policy, other), common)}), 1, "how many bytes there are")

    @with_assembler
    def test_file_of_names(self):
        """A file of names before a source is as both in one, and a fault is told of its file."""
        with tempfile.TemporaryDirectory() as folder:
            names, source, whole = (pathlib.Path(folder, part) for part in ("names", "source", "whole"))
            names.write_text(looked("names", EXAMPLES / "gateway.json", "black").rstrip("\n"), encoding="ascii")
            source.write_text("\nLI r1, sealed\n", encoding="ascii")
            whole.write_text(f"{names.read_text(encoding='ascii')}\n{source.read_text(encoding='ascii')}", encoding="ascii")
            self.want(call([ASSEMBLER_PROGRAM, "hex", names, source]).stdout, call([ASSEMBLER_PROGRAM, "hex", whole]).stdout, "the bytes")
            source.write_text("\nLI r1, selaed\n", encoding="ascii")
            self.want(call([ASSEMBLER_PROGRAM, "hex", names, source]).stderr.decode(), f"muen_asm: file {source}, line 2, column 8: no such name\n", "a fault of the source")
            names.write_text("k = 1\nk = 2", encoding="ascii")
            self.want(call([ASSEMBLER_PROGRAM, "hex", names, source]).stderr.decode(), f"muen_asm: file {names}, line 2, column 1: the name stands before\n", "one of the names")

    def test_quoted(self):
        """What docs/guests.md quotes is printed."""
        quoted = re.search(r"\$ share/look names examples/(\S+) (\S+) .*\n((?:in.*\n)+)```", (TOP / "docs" / "guests.md").read_text(encoding="utf-8"))
        want(re.findall(r"(?m)^in\b.*\n", looked("names", EXAMPLES / quoted[1], quoted[2])), quoted[3].splitlines(True), "the lines")

    def assembled(self, text):
        """The hexadecimal digits of a source's bytes."""
        with tempfile.TemporaryDirectory() as folder:
            file = pathlib.Path(folder, "source.asm")
            file.write_text(text, encoding="ascii")
            done = call([ASSEMBLER_PROGRAM, "hex", file])
        want((done.returncode, done.stderr), (0, b""), "muen_asm")
        return done.stdout.decode().strip()

    @each((f"look names of {subject} of docs/rules.md", subject, values) for subject, values in NAMES.items())
    def test_rules(self, subject, values):
        """All that a subject has, in its order, and nothing else."""
        found = self.of_changed({}, lambda file: self.constants(file, subject))
        want([one for one in found if not one.endswith((".size", ".end"))], list(values), "the names in their order")
        self.want({one: found[one] for one in values}, values, "the numbers")

    @each((f"look names, {what}", subject, changes, others) for what, subject, changes, others in RENAMED)
    def test_renamed(self, subject, changes, others):
        """What would have one name, or isn't spelled as names are, is told apart."""
        found = self.of_changed(changes, lambda file: self.constants(file, subject))
        wanted = {name: value for name, value in {**NAMES[subject], **others}.items() if value is not None}
        want({one: value for one, value in found.items() if not one.endswith((".size", ".end"))}, wanted, "the constants")

    @each((f"look names: {line}", subject, changes, line) for subject, changes, line in UNNAMED)
    def test_unnamed(self, subject, changes, line):
        """One line says why there are none, behind the place of a fault of the policy."""
        status, lines = self.of_changed(changes, lambda file: told_by_look("names", file, subject))
        want((status, [re.sub(r"\S+:\d+:\d+: ", "", one) for one in lines]), (1, [f"look: {line}"]), "status and lines")
