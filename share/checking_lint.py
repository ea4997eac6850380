"""The checks of what share/look lint tells: refusals, also of policies changed by chance; warnings by their names, those that are silenced, and of programs."""
import contextlib
import copy
import json
import os
import pathlib
import random
import re
import tempfile
from concurrent.futures import ProcessPoolExecutor

from checking import EXAMPLES, PROGRAM, TOP, Case, call, each, looked, said, want, with_linter, with_program
from checking_examples import REFUSED, RUNNING, values
from checking_look import offsets, spread, told_by_look
from checking_ring import CODE, word
from checking_rules import POLICY, changed
from looking.refused import refusals

# a subject more in the policy of docs/rules.md, whose group has no ticks
IDLE = [
    ("/devices/1/irqs", [{"name": "late"}]),
    ("/subjects/3", {"name": "d", "cpu": 1, "entry": 0, "devices": [{"device": "disk", "irqs": [{"irq": "late", "vector": 50}]}]}),
    ("/scheduling/groups/2", {"name": "g2", "cpu": 1, "subjects": ["d"]}),
]

# what may stand there, and of what `look lint` warns then, by which name
WARNINGS = [
    ("/subjects/0/entry", 0, "entry-outside-code", "the entry of a lies in no window with the right to execute"),
    ("/subjects/0/entry", 0x400004, "odd-entry", "the entry of a is no multiple of 8"),
    ("/memory/0/content", {"hex": "00"}, "cut-code", "the code has 1 byte, no multiple of 8"),
    ("/memory/5", {"name": "spare", "size": 4096}, "unused-region", "the region spare: nobody has a window on it"),
    ("/components/1", {"name": "idle", "provides": [{"logical": "text", "virtualAddress": 0, "size": 4096, "rights": "r", "content": {"hex": 4097 * "00"}}]},
     "unused-component", "no subject uses the component idle"),
    ("/devices/2", {"name": "card"}, "unused-device", "nobody has anything of the device card"),
    ("/devices/0/irqs/1", {"name": "tx"}, "unused-part", "nobody has the interrupt tx of the device net"),
    ("/devices/0/ioPorts/1", {"name": "more", "start": 800, "end": 801}, "unused-part", "nobody has the ports more of the device net"),
    ("/subjects/0/sources/1", {"event": "turn", "trap": 5}, "untrappable", "no exit with the reason 5 can be trapped"),
    ("/scheduling/groups/2", {"name": "g2", "cpu": 1, "subjects": ["d"]}, "idle-group", "the group g2 has no ticks, so no member runs"),
    ("/scheduling/groups/1/subjects/1", "d", "idle-member", "d never runs: it isn't the first member, and no event of mode switch leads to it"),
    ("/subjects/3/devices/0/irqs/0", {"irq": "late", "vector": 51}, "never-taken", "d never takes the interrupt late of disk: its group g2 has no ticks"),
    ("/subjects/0/memory/3", {"region": "own", "virtualAddress": 0x900000, "rights": "rwx"}, "writable-code", "a may write and run own"),
    ("/deviceDomains/0/memory/0/region", "code", "dma-into-code", "devices of the domain dnet may write code, which a and c may run"),
    ("/deviceDomains/0/memory/0/region", "board", "dma-into-shared", "devices of the domain dnet may write board, which a and b see"),
    ("/deviceDomains/0/devices/1", "disk", "shared-domain",
     "the domain dnet has devices of a and d: what the one tells its device to do reaches what the other's may"),
    ("/memory/0/content", {"file": "code.bin", "offset": 4096}, "empty-part", "no byte of the file code.bin is in that part"),
]
# before another value of this place keeps the rules
BEFORE = {"/deviceDomains/0/devices/1": [("/deviceDomains/1", {"name": "none"})], "/subjects/0/memory/3": [("/memory/5", {"name": "own", "size": 4096})],
          "/scheduling/groups/1/subjects/1": [("/scheduling/groups/2", {"name": "g2", "cpu": 1, "subjects": ["e"]}),
                                              ("/subjects/4", {"name": "e", "cpu": 1, "entry": 0})]}

# what may stand there, and what `look lint` tells of the fault
MEANT = [
    ("/subjects/0/memory/1/virtualAddress", 0x400000, "of a the window on code, 16#400000# up to 16#401000#, and that on board, 16#400000# up to 16#401000#, have addresses in common"),
    ("/subjects/0/memory/1/virtualAddress", 0x800000, "of a the window on board, 16#800000# up to 16#801000#, and that on the state of b, 16#800000# up to 16#801000#, have addresses in common"),
    ("/subjects/1/component/map/0/physical", "log", 'store asks for memory, and no region "log" is declared; log is a channel'),
    ("/subjects/1/component/map/1/physical", "buf", 'in asks for a channel, and no channel "buf" is declared; buf is a region of `memory`'),
    ("/subjects/0/memory/1/region", "job", 'no region "job" is declared; job is a channel'),
    ("/deviceDomains/1/devices/0", "disc", 'no device "disc" is declared; did you mean "disk"?'),
    ("/deviceDomains/0/memory/0/region", "buff", 'no region "buff" is declared; did you mean "buf"?'),
    ("/scheduling/tau0/subject", "aa", 'no subject "aa" is declared'),
    ("/scheduling/tau0/region", "pik", 'no region "pik" is declared; did you mean "pick"?'),
    ("/devices/1/ioPorts/0/start", 783, "its start, 30f (783), is above its end, 1f7 (503)"),
    ("/devices/1/ioPorts/0", {"name": "cmd", "start": 780, "end": 800}, "regs of net, 300 (768) to 30f (783), and cmd of disk, 30c (780) to 320 (800), have ports in common"),
    ("/subject", [], 'unknown key "subject"; did you mean "subjects"? (shape at : want known keys); the rules are asked behind this'),
]

TABLE, BOARD = 0x500000, 0x501000
# programs, and the warnings on each without `one `, in their order; vector 40 comes to the subject, and it has call 1
HANDLERS = [word("LI", 1, imm=CODE - 8 * 40 + 40), word("SETV", 0, 1), word("STI"), word("HLT")]
PROGRAMS = [
    ("it halts", [word("HLT")], ["waits-with-events-off: halts at 400000 with events off, so none wakes it"]),
    ("nothing stands there", [], ["runs-into-zeros: runs at 400000 where zeros are, behind its code"]),
    ("the end is missing", [word("LI", 1, imm=5)], ["runs-into-zeros: runs at 400008 where zeros are, behind its code"]),
    ("a loop", [word("JMP")], []),
    ("a call that is there", [word("LI", 1, imm=1), word("VMCALL", 0, 1), word("JMP")], []),
    ("a call that isn't", [word("LI", 1, imm=2), word("VMCALL", 0, 1), word("JMP")], ["call-of-nothing: makes at 400008 the call 2, which raises nothing"]),
    ("a call of a sum", [word("LI", 1, imm=2), word("LI", 2, imm=7), word("ADD", 1, 2), word("VMCALL", 0, 1), word("JMP")],
     ["call-of-nothing: makes at 400018 the call 9, which raises nothing"]),
    ("a call that is loaded", [word("LI", 1, imm=TABLE), word("LOAD", 1, 1, size=3), word("VMCALL", 0, 1), word("JMP")], []),
    ("a call on which two ways differ", [word("LI", 2, imm=TABLE), word("LOAD", 2, 2), word("LI", 1, imm=1), word("JZ", 2, imm=16), word("LI", 1, imm=2),
                                         word("VMCALL", 0, 1), word("JMP")], []),
    ("a store where it may only read", [word("LI", 1, imm=BOARD), word("STORE", 0, 1, size=3)],
     ["no-right: stores at 400008 to 501000, where it sees board with r"]),
    ("a load where nothing is", [word("LI", 1, imm=0x600000), word("LOAD", 0, 1, size=3)], ["no-right: loads at 400008 from 600000, where no window is"]),
    ("a load at an odd address", [word("LI", 1, imm=TABLE), word("LOAD", 0, 1, imm=4, size=3)],
     ["odd-access: reaches at 400008 for 8 bytes at 500004, which is no multiple of 8"]),
    ("a port that it has", [word("LI", 1, imm=768), word("IN", 0, 1), word("JMP")], []),
    ("a port that it hasn't", [word("LI", 1, imm=783), word("OUT", 0, 1, size=1)], ["no-right: asks at 400008 for the port 30f, which it hasn't"]),
    ("a handler", [*HANDLERS, word("JMP", imm=-8), word("RETI")], []),
    ("no handler", [*HANDLERS, word("JMP", imm=-8)],
     ["no-handler: has zeros at 400028, where the handler of vector 40 is to be"]),
    ("handlers nowhere", [word("STI"), word("JMP")], ["no-handler: has no code at 140, where the handler of vector 40 is to be"]),
    ("a halt in a handler", [*HANDLERS, word("JMP", imm=-8), word("HLT")], ["waits-with-events-off: halts at 400028 with events off, so none wakes it"]),
]
SYSTEM = {"processor": {"logicalCpus": 1}, "memoryBlocks": [{"name": "ram", "physicalAddress": 0x100000, "size": 0x100000}],
          "devices": [{"name": "net", "ioPorts": [{"name": "regs", "start": 768, "end": 783}]}],
          "memory": [{"name": "code", "size": 4096}, {"name": "table", "size": 4096}, {"name": "board", "size": 4096}],
          "events": [{"name": "tell", "mode": "self"}],
          "subjects": [{"name": "one", "cpu": 0, "entry": CODE,
                        "memory": [{"region": "code", "virtualAddress": CODE, "rights": "rx"}, {"region": "table", "virtualAddress": TABLE, "rights": "rw"},
                                   {"region": "board", "virtualAddress": BOARD, "rights": "r"}],
                        "devices": [{"device": "net", "ioPorts": ["regs"]}],
                        "sources": [{"event": "tell", "call": 1}], "targets": [{"event": "tell", "vector": 40}]}],
          "scheduling": {"groups": [{"name": "g", "cpu": 0, "subjects": ["one"]}], "majorFrames": [{"cpus": [{"cpu": 0, "minorFrames": [{"group": "g", "ticks": 9}]}]}]}}


@with_linter
class Lint(Case):
    """`look lint`: faults and warnings."""

    @each((f"look lint of examples/{name}", name, line) for name, line in [*((name, None) for name in RUNNING), *REFUSED])
    def test_lint(self, name, line):
        """`look lint` finds no fault, or first the one of muen's line."""
        with contextlib.chdir(EXAMPLES):
            status, lines = told_by_look("lint", name)
        told = [one for one in lines if ": fault: " in one]
        want((status, len(told) > 0), (1, True) if line else (0, False), f"look lint: {lines}")
        want(not line or line.removeprefix("muen: ") in told[0], True, f"the first fault of look lint: {lines}")

    @each((f"look lint: {warning}", at, value, title, warning) for at, value, title, warning in WARNINGS)
    def test_warning(self, at, value, title, warning):
        """`look lint` finds no fault in the changed policy, and warns of it so."""
        policy = POLICY
        for place, stands in [*IDLE, *BEFORE.get(at, ())]:
            policy = changed(policy, place, stands)
        text, begin, end = spread(policy, at, value)
        with tempfile.TemporaryDirectory() as folder:
            file = pathlib.Path(folder, "policy.json")
            file.write_text(text, encoding="utf-8")
            # a file is looked for in the current folder
            with contextlib.chdir(EXAMPLES):
                status, lines = told_by_look("lint", file)
        told = [line for line in lines if line.endswith(f": warning: {warning} [{title}]")]
        want((status, len(told)), (0, 1), f"look lint: {lines}")
        want(begin <= next(offsets(text, told)) <= end, True, "its place")

    @each((f"look lint tells {text}", at, value, text) for at, value, text in MEANT)
    def test_meant(self, at, value, text):
        """The fault is told so, first of all."""
        with tempfile.TemporaryDirectory() as folder:
            file = pathlib.Path(folder, "policy.json")
            file.write_text(changed(POLICY, at, value), encoding="utf-8")
            status, lines = told_by_look("lint", file)
        want((status, text in lines[0]), (1, True), f"look lint: {lines}")

    def test_one_slip(self):
        """A key at the top that isn't known is the one fault that is told; a number that isn't between quotes is told as one."""
        with tempfile.TemporaryDirectory() as folder:
            file = pathlib.Path(folder, "policy.json")
            document = json.loads(POLICY)
            document["subject"] = document.pop("subjects")
            file.write_text(json.dumps(document), encoding="utf-8")
            self.want(told_by_look("lint", file)[1][1:], ["1 fault, 0 warnings"], "the other lines")
            file.write_text('{"processor": {"logicalCpus": 16#1#}}', encoding="utf-8")
            self.want(told_by_look("lint", file)[1][0].endswith("a number such as 16#1000# stands between double quotes"), True, "the number")

    @each((f"look lint of a program: {title}", digits, lines) for title, digits, lines in PROGRAMS)
    def test_program(self, digits, lines):
        """The warnings on a program."""
        system = json.loads(json.dumps(SYSTEM))
        system["memory"][0]["content"] = {"hex": "".join(digits)}
        with tempfile.TemporaryDirectory() as folder:
            file = pathlib.Path(folder, "policy.json")
            file.write_text(json.dumps(system), encoding="utf-8")
            found = json.loads(looked("lint", file, "--json"))
        want([f"{one['name']}: {one['text'].removeprefix('one ')}" for one in found], lines, "the warnings")

    def test_silenced(self):
        """Those that are silenced aren't told, but counted; a line that silences none is warned of; no line of another form is taken."""
        with tempfile.TemporaryDirectory() as folder:
            file, beside = pathlib.Path(folder, "policy.json"), pathlib.Path(folder, "policy.silenced")
            file.write_text(changed(changed(POLICY, "/devices/2", {"name": "card"}), "/devices/3", {"name": "disc"}), encoding="utf-8")
            plain = told_by_look("lint", file)[1]
            for text, left in (("unused-device: built in\n", ()), ("# of these\n\nunused-device at /devices/2/name: built in\n", ("disc",)),
                               ("unused-device at /devices/9: built in\n", ("card", "disc"))):
                beside.write_text(text, encoding="ascii")
                status, lines = told_by_look("lint", file)
                self.want(status, 0, text)
                told = [re.search(r"of the device (\w+) \[unused-device\]", line)[1] for line in lines if "unused-device" in line]
                self.want(told, list(left), f"{text}: the devices")
                unmet = [f"{beside}:1:1: warning: there is no such warning [silences-nothing]"] if len(left) == 2 else []
                self.want([line for line in lines if "silences" in line], unmet, f"{text}: the file")
                count = f", {2 - len(left)} silenced" if len(left) < 2 else ""
                self.want(lines[-1], re.sub(r"\d+ warnings?", lambda found: f"{int(found[0].split()[0]) - 2 + len(left) + len(unmet)} warnings", plain[-1]) + count, text)
            beside.write_text("unused-device\n", encoding="ascii")
            self.want(said("lint", file), (1, f"look: {beside}: line 1: want NAME: REASON, or NAME at PLACE: REASON\n"), "no reason")

    def test_json(self):
        """The same as objects."""
        objects = json.loads(looked("lint", EXAMPLES / "second_member.json", "--json"))
        lines = told_by_look("lint", EXAMPLES / "second_member.json")[1][:-1]
        self.want([f"{one['file']}:{one['line']}:{one['column']}: {one['kind']}: {one['text']} [{one['name']}]" for one in objects], lines, "the objects")
        self.want(objects[0]["place"], "/scheduling/groups/0/subjects/1", "the place")

    def test_documented(self):
        """docs/rules.md has each name of a warning, and no other."""
        section = (TOP / "docs" / "rules.md").read_text(encoding="utf-8").split("\n## Warnings\n")[1]
        named = {one for row in re.findall(r"(?m)^\| (`.*?) \|", section) for one in re.findall(r"`([a-z-]+)`", row)}
        code = "".join((TOP / "share" / "looking" / f"{file}.py").read_text(encoding="utf-8") for file in ("hints", "hints_code"))
        self.want(set(re.findall(r'Hint\("([a-z-]+)"', code)), named, "the names")


# ---- policies changed by chance

SEEDS, NUMBERS, OTHERS = 2000, (0, 1, 2, 31, 33, 64, 4096, 4097, 2**21, 2**40, 2**48), ("", "r", "rwx", "16#1000#", "0x10", None, [], {}, -1, 2**64)
SMALL = [POLICY, *(text for name in RUNNING if len(text := (EXAMPLES / name).read_text(encoding="utf-8")) < 20_000)]


def change(document, chance):
    """Changes a document at one place, mostly to what the schema lets stand there."""
    places = [(above, step) for above in values(document) if isinstance(above, (dict, list)) for step in (above if isinstance(above, dict) else range(len(above)))]
    above, step = chance.choice(places)
    like = [other[at] for other, at in places if at == step and isinstance(other[at], type(above[step]))]
    way = chance.randrange(20)
    if way == 19:
        del above[step]
    elif way == 18:
        above[step] = chance.choice(OTHERS)
    elif way > 12 and isinstance(above, list):
        above.insert(step, copy.deepcopy(above[step]))
    elif way > 8 and isinstance(above[step], int):
        above[step] = chance.choice(NUMBERS)
    else:
        above[step] = copy.deepcopy(chance.choice(like))


def mutated(seed):
    """A policy with up to three changes, now and then without one of its characters."""
    chance = random.Random(seed)
    document = json.loads(chance.choice(SMALL))
    for _ in range(chance.randint(1, 3)):
        change(document, chance)
    text = json.dumps(document)
    cut = chance.randrange(len(text)) if chance.random() < 0.05 else len(text)
    return text[:cut] + text[cut + 1:]


def answers(seed):
    """Of a policy the status of `build`, its line, the first line of muen_lint, and how many refusals there are."""
    with tempfile.TemporaryDirectory() as folder:
        file = pathlib.Path(folder, "policy.json")
        file.write_text(mutated(seed), encoding="utf-8")
        done, (_, found) = call([PROGRAM, "build", file, "/dev/null"], folder), refusals(str(file))
    return done.returncode, done.stderr.decode().rstrip("\n"), f"muen: {found[0].line}" if found else "", len(found)


@with_program
@with_linter
class Mutated(Case):
    """What muen_lint tells of policies changed by chance, and where and why by share/look."""

    def test_first(self):
        """The first line is that of `build`, none where an image is written; a place and a cause are found for each."""
        with ProcessPoolExecutor(os.cpu_count()) as pool:
            found = list(pool.map(answers, range(SEEDS), chunksize=50))
        for seed, (status, line, first, count) in enumerate(found):
            want((status in (0, 2, 3), status == 0, line), (True, count == 0, first), f"policy {seed}")
        self.want(min(sum(count == least for *_, count in found) for least in (0, 1, 2)) > 50, True, "how many are refused for so much")
