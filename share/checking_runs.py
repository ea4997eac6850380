"""The checks of what share/look tells of a guest's run, and of two policies or two runs: turns of some kinds, coverage, differences."""
import json
import pathlib
import re
import sys
import tempfile
from collections import Counter

from checking import EXAMPLES, TOP, Case, call, each, looked, said, want, with_program
from checking_examples import RUNNING
from checking_look import told_by_look
from checking_pictures import of_example
from checking_rules import POLICY, changed
from looking.diff_policies import ELEMENTS
from looking.schema import definitions, is_object, keys_of

RUN = "look trace of the two-way gateway"
# words of look trace, and which lines of the text are told then
FILTERS = [
    ("--subject guard watch", lambda words: words[2] in ("guard", "watch")),
    ("--from 94 --until 120", lambda words: 94 <= int(words[0]) < 120),
    ("--only trap", lambda words: words[-1] == "trap"),
    ("--only halt event", lambda words: words[-1] == "halt" or words[4] == "inject"),
    ("--only store --subject keys --until 40", lambda words: words[4] == "store" and words[2] == "keys" and int(words[0]) < 40),
    ("--only jump instruction call output", lambda words: words[4] in ("-", "out") or "=" in words[4] or words[-1] == "on"),
    ("--only stop", lambda words: words[-1] == "stop"),
]


@with_program
class Turns(Case):
    """`look trace` of some turns."""

    @each((f"{RUN} {words}", words, is_told) for words, is_told in FILTERS)
    def test_filter(self, words, is_told):
        """Those turns alone are told, each as it is told among all."""
        def of_run(built):
            """Of one run."""
            told = looked("trace", built.image, built.text).splitlines()
            wanted = [one for one, line in zip(told, built.lines) if is_told(line.split())]
            want(looked("trace", built.image, built.text, *words.split()).splitlines(), wanted, "the turns")
        of_example("two_way_gateway.json", of_run)

    def test_faults(self):
        """What isn't there is a line of errors."""
        def of_run(built):
            """Of one run."""
            for words, line in (("--subject two", "no subject is two; there are one"), ("--from 3 --until 3", "from 3 until 3: no tick is there")):
                self.want(said("trace", built.image, built.text, *words.split()), (1, f"look: {line}\n"), words)
        of_example("one_subject.json", of_run)


class Worked(Case):
    """The run of private_memory.json that examples/worked.md quotes, up to the store of `b`, on an image that is spelled."""

    def of_run(self, *words):
        """What a form of look prints of the image and the text."""
        section = (EXAMPLES / "worked.md").read_text(encoding="utf-8").split("\n## Two subjects, each in its own memory\n")[1].split("\n## ")[0]
        with tempfile.TemporaryDirectory() as folder:
            image, text = pathlib.Path(folder, "image"), pathlib.Path(folder, "text")
            want(call([sys.executable, TOP / "share" / "spell_image.py", "private_memory.json", image]).returncode, 0, "spell_image.py")
            text.write_text("".join(f"{line}\n" for line in re.findall(r"(?m)^\d+ 0 [ab] .*$", section)[:12]), encoding="ascii")
            return looked(words[0], image, text, *words[1:]).splitlines()

    def test_trace(self):
        """What is told of some turns goes by all: where they load from, too."""
        self.want(self.of_run("trace", "--subject", "b", "--from", "5", "--until", "10"),
                  [" 5 0 b code+10  LOAD r3, 8 bytes at r1 + 0        r3 = a from table+0",
                   " 9 0 b code+18  LOAD r4, 8 bytes at r2 + 0        r4 = 2 from data_b+0"], "of b")
        self.want([line.split()[0] for line in self.of_run("trace", "--only", "store")], ["8", "11"], "ticks of stores")

    def test_coverage(self):
        """All but the last instruction ran, with their lines where the policy says where sources are."""
        lines = self.of_run("coverage", "--policy", EXAMPLES / "private_memory.json")
        self.want([lines[at] for at in (0, 1, 7, 16)], [
            "a, code from 400000 on: 6 of 7 instructions ran", "  400000 1 LI r1, 0x500000                  code.asm:3: LI r1, table",
            "! 400030 0 HLT                              code.asm:9: HLT", "all: 12 of 14 instructions ran"], "some lines")
        self.want(self.of_run("coverage", "--missed"), [
            "a, code from 400000 on: 6 of 7 instructions ran", "! 400030 0 HLT",
            "b, code from 400000 on: 6 of 7 instructions ran", "! 400030 0 HLT", "all: 12 of 14 instructions ran"], "those that never ran")


@with_program
class Coverage(Case):
    """`look coverage`."""

    @each((f"look coverage of examples/{name}", name) for name in RUNNING)
    def test_counts(self, name):
        """Each address is told as often as the text has a turn there, and the sums agree with the rows."""
        def of_run(built):
            """Of one run."""
            lines = looked("coverage", built.image, built.text, "--policy", EXAMPLES / name).splitlines()
            found, sums, subject = Counter(), [], ""
            for line in lines[:-1]:
                if title := re.fullmatch(r"(\S+), \S+ from [0-9a-f]+ on: (\d+) of (\d+) instructions? ran", line):
                    subject = title[1]
                    sums.append([int(title[2]), int(title[3])])
                else:
                    mark, address, count = re.match(r"([! ]) ([0-9a-f]+) +(\d+) ", line).groups()
                    want(mark == "!", count == "0", f"the mark of {line}")
                    found[subject, int(address, 16)] += int(count)
                    sums[-1] = [sums[-1][0] - (count != "0"), sums[-1][1] - 1]
            self.want([pair for pair in sums if any(pair)], [], "what is left of the sums")
            words = [line.split() for line in built.lines if " inject " not in line]
            ran = Counter((one[2], int(one[3], 16)) for one in words)
            self.want({key: count for key, count in found.items() if count}, {key: ran[key] for key in found if ran[key]}, "the counts")
            fetched = {(one[2], int(one[3], 16)) for one in words if not (one[4:6] == ["exit", "48"] and int(one[6], 16) & 4)}
            self.want(fetched - set(found), set(), "addresses that aren't told")
            self.want(lines[-1].startswith(f"all: {sum(map(bool, found.values()))} of {len(found)} instruction"), True, lines[-1])
        of_example(name, of_run)

    def test_sources(self):
        """Of the two-way gateway, what ran how often, with its line; one that never ran; and those alone that never ran."""
        def of_run(built):
            """Of one run."""
            words = ["coverage", built.image, built.text, "--policy", EXAMPLES / "two_way_gateway.json"]
            lines = looked(*words).splitlines()
            self.want([line for line in lines if line.endswith("crypt_text.asm:14: drop:   RETI")],
                      ["  400148 1 RETI                             crypt_text.asm:14: drop:   RETI",
                       "! 400148 0 RETI                             crypt_text.asm:14: drop:   RETI"], "encrypt has dropped one, decrypt none")
            self.want(looked(*words, "--missed").splitlines(), [line for line in lines if not line.startswith("  ")], "those that never ran")
            self.want(said(*words[:3], "--policy", built.text)[1].startswith(f"look: {built.text}:1:3: not JSON: "), True, "what is no policy")
        of_example("two_way_gateway.json", of_run)


# ---- differences

# a place of the policy of docs/rules.md, what stands there then, and what differs
CHANGES = [
    ("/subjects/0/entry", "16#0040_0008#", ["subject a: entry 400008, was 400000"]),
    ("/subjects/1/memory/0/rights", "rw", ["subject b, window on board: rights rw, was r"]),
    ("/subjects/2/memory/1", {"region": "data", "virtualAddress": 8192, "rights": "r"}, ["subject c, window on data: added, virtualAddress 2000, rights r"]),
    ("/subjects/0/monitors", [], ["subject a, monitor of b: removed"]),
    ("/subjects/1/component/map/0/physical", "pick", ["subject b, component, map entry store: physical pick, was data"]),
    ("/channels/1/hasEvent", "async", ["channel job: hasEvent async, was asap"]),
    ("/memory/0/content", {"hex": "0011"}, ["region code: content of 2 bytes, was all 0"]),
    ("/devices/0/bdf/function", 1, ["device net, bdf: function 1, was 0"]),
    ("/devices/1", {"name": "disc"}, ["device disk: removed", "device disc: added"]),
    ("/scheduling/groups/0/subjects", ["b", "a"], ["group g0: subjects b a, was a b"]),
    ("/scheduling/majorFrames/0/cpus/1/minorFrames/0/ticks", 9, ["major frame 0, CPU 1: minorFrames g1 9 g1 6, was g1 10 g1 6"]),
    ("/scheduling/tau0", {"subject": "b", "region": "pick"}, ["tau0: subject b, was a"]),
    ("/deviceDomains/0/memory", [], ["device domain dnet, window on buf: removed"]),
    ("/processor/logicalCpus", 3, ["processor: logicalCpus 3, was 2"]),
    ("/events", [{"name": "tell", "mode": "asap"}, {"name": "turn", "mode": "switch"}], []),
    ("/channels", [{"name": "job", "size": 4096, "hasEvent": "asap"}, {"name": "log", "size": 4096}], ["the policy: the order of channels is job log, was log job"]),
    ("/memory/2/sharedMemory", ["b", "a"], []),
    ("/memory/0/caching", "WB", []),
    ("/memory/0/content", {"fill": 0}, []),
    ("/subjects/0/description", "words", []),
    ("/memory/0/size", "16#1000#", []),
]


class Differences(Case):
    """`look diff` of policies and of runs."""

    def of_texts(self, first, second, *words):
        """What `look diff` of two texts answers, which are A and B in its lines."""
        with tempfile.TemporaryDirectory() as folder:
            files = [pathlib.Path(folder, one) for one in "AB"]
            for file, text in zip(files, (first, second)):
                file.write_text(text, encoding="utf-8")
            status, lines = told_by_look("diff", *files, *words)
        return status, [line.replace(f"{folder}/", "") for line in lines]

    @each((f"look diff of a policy with {json.dumps(value)} at {at}", at, value, lines) for at, value, lines in CHANGES)
    def test_policies(self, at, value, lines):
        """What a change of a policy is in words; nothing where it means nothing."""
        want(self.of_texts(POLICY, changed(POLICY, at, value)), (1, ["--- A", "+++ B", *lines]) if lines else (0, []), "what differs")

    def test_elements(self):
        """Each kind of elements of a list has a name, and a key by which one is found again."""
        found = {says.kind for kind in definitions() if is_object(kind) for says in keys_of(kind).values() if says.is_list and is_object(says.kind)}
        self.want(found - {"MajorFrame", "MinorFrame"}, set(ELEMENTS), "the kinds")
        self.want([kind for kind, (_, own) in ELEMENTS.items() if own not in keys_of(kind)], [], "kinds without their key")

    def test_twice(self):
        """An element that stands twice is one more."""
        msrs = json.loads(POLICY)["subjects"][0]["msrs"]
        want(self.of_texts(POLICY, changed(POLICY, "/subjects/0/msrs", 2 * msrs)),
             (1, ["--- A", "+++ B", "subject a, MSRs from c0000080: added, end c0000082, rights rw"]), "what differs")

    def test_bytes(self):
        """From which byte on contents differ."""
        one, other = (changed(POLICY, "/memory/0/content", {"hex": digits}) for digits in ("0A11", "0a1222"))
        want(self.of_texts(one, other), (1, ["--- A", "+++ B", "region code: content of 3 bytes, was of 2 bytes, differs from byte 1 on"]), "what differs")

    def test_texts(self):
        """Of two runs' texts the first line that differs, behind what came before and its subject's last turns."""
        lines = [f"{tick} {cpu} {who} {8 * tick:016x} -" for tick in range(6) for cpu, who in ((0, "a"), (1, "b"))]
        other = [*lines[:8], f"4 0 c {0:016x} -", *lines[9:]]
        before = [f"  {line}" for line in [lines[2], *lines[4:8]]]
        self.want(self.of_texts("\n".join(lines), "\n".join(other)), (1, ["--- A", "+++ B", "@@ line 9 @@", *before, f"- {lines[8]}", f"+ {other[8]}"]), "a turn")
        self.want(self.of_texts("\n".join(lines), "\n".join(lines[:1])),
                  (1, ["--- A", "+++ B", "@@ line 2 @@", f"  {lines[0]}", f"- {lines[1]}", "+ the end of the text"]), "a front")
        self.want(self.of_texts("\n".join(lines), "\n".join(lines)), (0, []), "the same")

    @with_program
    def test_race(self):
        """Two orders of CPUs: the runs of race.json differ first in tick 3, where the other CPU stores first; with the image it is told in words."""
        def of_run(built):
            """Of the runs with two records."""
            other = built.folder / "other"
            other.write_bytes(built.program("run", built.image, EXAMPLES / "race_other.record"))
            status, lines = told_by_look("diff", built.text, other, "--image", built.image)
            self.want((status, [line.split()[1:4] for line in lines[-2:]]), (1, [["3", "0", "a"], ["3", "1", "b"]]), f"the lines: {lines}")
            self.want(told_by_look("diff", built.text, built.text, "--image", built.image), (0, []), "the same")
            self.want(told_by_look("diff", built.image, other), (1, [f"look: {built.image} and {other} are of two kinds: image and trace"]), "two kinds")
            self.want(told_by_look("diff", built.image, built.image, "--image", built.image), (1, ["look: --image goes with two runs' texts"]), "an option")
        of_example("race.json", of_run)

    @with_program
    def test_images(self):
        """The status of two images that differ."""
        of_example("one_subject.json", lambda one: of_example("two_subjects.json", lambda other: self.want(
            (told_by_look("diff", one.image, other.image)[0], told_by_look("diff", one.image, one.image)), (1, (0, [])), "the statuses")))

    def test_fault(self):
        """A policy that breaks the schema is a line of errors."""
        status, lines = self.of_texts(POLICY, changed(POLICY, "/subjects/0/entry", -1))
        want((status, len(lines), "shape at /subjects/0/entry" in lines[0]), (1, 1, True), f"the lines: {lines}")
