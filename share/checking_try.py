"""The checks of share/new and share/try: a system that is laid out passes, and of what is wrong with it the right step tells."""
import pathlib
import re
import shlex
import signal
import subprocess
import tempfile

from checking import EXAMPLES, TOP, Case, call, each, looked, want, with_assembler, with_program

NEW, TRY, TEMPLATE = (TOP / "share" / name for name in ("new", "try", "template"))
STEPS = ["lint", "assemble", "contents", "build", "verify", "run", "compare", "claims", "pictures", "report"]


def changed(file, old, new):
    """A change of a file of the system: other words in it, or more behind it."""
    def change(folder):
        """In this folder."""
        there = folder / file
        text = there.read_text(encoding="utf-8") if there.exists() else ""
        want(old in text, True, f"{old!r} is in {file}")
        there.write_text(text.replace(old, new) if old else text + new, encoding="utf-8")
    return change


def removed(*files):
    """A change that removes files."""
    return lambda folder: [(folder / file).unlink() for file in files]


def lines_of(text):
    """Of each step its mark and its lines, and the last line."""
    *lines, last = text.splitlines()
    found, name = {}, None
    for line in lines:
        if step := re.fullmatch(r"(ok|NO|--)  (\w+) +(.*)", line):
            name = step[2]
            found[name] = [step[1], step[3]]
        else:
            found[name].append(line.strip())
    return found, last


# what is changed in the system that share/new lays out, the steps that fail by themselves, and what the first of them tells
FAULTS = [
    ("a word of a source", changed("counter_code.asm", "HLT", "HALT"), ["assemble"], ["1 of 2 sources refused", "counter_code.asm:8:9: want an instruction, data, .at or a name"]),
    ("a name that the policy has, too", changed("display_code.asm", "told:", "count:"), ["assemble"], ["1 of 2 sources refused", "display_code.asm:8:1: the name stands before"]),
    ("a source of nothing", changed("lone.asm", "", "HLT\n"), ["contents"], ["1 fault", "lone.asm: no content of the policy is named so"]),
    ("a source of a filled content", changed("policy.json", '"content":{"file":"display_code.bin"}', '"content":{"fill":0}'), ["contents"],
     ["1 fault", "display_code.asm: no content of the policy is named so"]),
    ("a source that isn't there", removed("display_code.asm"), ["contents"], ["1 fault", "display_code.bin: neither it nor display_code.asm is there"]),
    ("digits of other bytes", changed("policy.json", '{"file":"display_code.bin"}', '{"hex":"0011223344556677"}'), ["contents"],
     ["1 fault", "policy.json:9:60: display_code.asm has other bytes; --fill puts them into the policy"]),
    ("a policy that is no JSON", changed("policy.json", "", ","), ["lint"], ["1 fault, 0 warnings", "policy.json:23:1: fault: not JSON: "]),
    ("a policy that breaks a rule", changed("policy.json", '"region":"display_code"', '"region":"counter"'), ["lint"], ["1 fault, 2 warnings", "policy.json:17:"]),
    ("a block that is too small", changed("policy.json", "0010_0000", "0000_5000"), ["build"], ["no room for display:ept of 20480 bytes", "policy.json:16:2: there is no place for it: the blocks have 20480 bytes; "]),
    ("a line of a record", changed("system.lines", "every", "evry"), ["run"], ["system.lines: line 3: want when: "]),
    ("a device of a record", changed("system.lines", "button", "knob"), ["run"], ["new.record: record refused at line 1: unknown", "irq 15 knob press", "new.record:1:8: no device is knob; "]),
    ("two files of lines", changed("more.lines", "", "end 5\n"), ["run"], ["more than one .lines: more.lines, system.lines"]),
    ("an expected text that isn't one", changed("system.expected", "", "hello\n"), ["compare"], ["not the text of system.expected", "look: system.expected: line 1: no line of a run: 'hello'"]),
    ("a claim that is broken", changed("system.claims", "", "never button panel\n"), ["claims"],
     ["6 claims: 5 hold, 1 broken, 0 faults", "system.claims:9: broken: never button panel", "button -> counter: device press, vector 40"]),
]

# what is changed in it so that no step can be tried, and the line
NO_SYSTEM = [
    ("no policy", removed("policy.json"), "no policy (.json) is in it, nor new.json beside it"),
    ("two policies", lambda folder: [(folder / "policy.json").rename(folder / "a.json"), changed("b.json", "", "{}")(folder)],
     "more than one policy: a.json, b.json; one that is named policy.json would be taken"),
]


class Laid(Case):
    """Tests with a system that share/new has laid out."""

    def setUp(self):
        held = tempfile.TemporaryDirectory()
        self.addCleanup(held.cleanup)
        self.folder = pathlib.Path(held.name).resolve() / "new"
        want(call([NEW, self.folder]).returncode, 0, "the status of share/new")

    def tried(self, status, *words):
        """Each step's mark and lines, and the last line."""
        done = call([TRY, self.folder, *words])
        want((done.returncode, done.stderr), (status, b""), f"status and errors; {done.stdout.decode()}")
        return lines_of(done.stdout.decode())


class New(Laid):
    """share/new."""

    def test_files(self):
        """It lays out what the template has, and says so."""
        want({file.name: file.read_bytes() for file in self.folder.iterdir()}, {file.name: file.read_bytes() for file in TEMPLATE.iterdir()}, "the files")

    def test_refused(self):
        """What is there stays, and the line says why."""
        file = self.folder / "policy.json"
        file.write_text("mine", encoding="utf-8")
        for words, line in (([self.folder], f"{self.folder}: the folder isn't empty, so it stays as it is"), ([file], f"{file}: a file is there"),
                            ([], "it takes one word, a folder; --help says more"), ([file / "below"], f"{file}/below: Not a directory")):
            done = call([NEW, *words])
            self.want((done.returncode, done.stdout, done.stderr.decode()), (1, b"", f"share/new: {line}\n"), line)
        self.want((file.read_text(encoding="utf-8"), len(list(self.folder.iterdir()))), ("mine", len(list(TEMPLATE.iterdir()))), "what is there")

    def test_empty(self):
        """A folder that is empty is taken."""
        with tempfile.TemporaryDirectory() as folder:
            self.want(call([NEW, folder]).returncode, 0, "the status")


@with_program
@with_assembler
class Try(Laid):
    """share/try."""

    def test_holds(self):
        """A system that is laid out passes at once, and its outputs are there; with the text that is expected, too."""
        steps, last = self.tried(0)
        self.want((last, list(steps)), ("all holds", STEPS), "the steps")
        self.want([name for name, (mark, *_) in steps.items() if mark != "ok"], ["compare"], "what isn't there")
        out = self.folder / "out"
        self.want([kind for kind in (".img", ".dma", ".record", ".text", ".html", "-trace.svg", "-plan.svg", "-matrix.svg", "-memory.svg")
                   if not (out / f"new{kind}").is_file()], [], "outputs that aren't there")
        text = (out / "new.text").read_text(encoding="ascii")
        (self.folder / "system.expected").write_text(text, encoding="ascii")
        self.want(self.tried(0)[0]["compare"], ["ok", "the text of system.expected"], "the comparison")
        (self.folder / "system.expected").write_text(text.replace("out 4 0300 00000002", "out 4 0300 00000003"), encoding="ascii")
        other = self.tried(1)[0]["compare"]
        self.want((other[:2], [line[:1] for line in other[2:]]), (["NO", "not the text of system.expected"], ["@", "-", "+"]), f"another text: {other}")

    @each((f"share/try with {title}", *what) for title, *what in FAULTS)
    def test_fault(self, change, failing, wanted):
        """The step fails, those that need it aren't done, and its first fault is told; what it would have made isn't there."""
        self.tried(0)
        change(self.folder)
        steps, last = self.tried(1)
        want([name for name, (mark, *_) in steps.items() if mark == "NO"], failing, "the steps that fail")
        for line, begin in zip(steps[failing[0]][1:], wanted):
            self.want(line[:len(begin)], begin, f"the lines of {failing[0]}")
        self.want(len(steps[failing[0]]) > len(wanted), True, "the lines are there")
        left = [name for name, (mark, text, *_) in steps.items() if mark == "--" and text.startswith("not done without ")]
        count = len(left) + 1
        self.want(last, f"{count} step{'s' * (count > 1)} of 10 without success", "the last line")
        self.want("build" in left and (self.folder / "out" / "new.img").exists(), False, "an image of before is there")

    @each((f"share/try with {title}", *what) for title, *what in NO_SYSTEM)
    def test_no_system(self, change, line):
        """A line tells why there is nothing to try."""
        change(self.folder)
        done = call([TRY, self.folder])
        want((done.returncode, done.stdout, done.stderr.decode()), (2, b"", f"share/try: {self.folder}: {line}\n"), "status and streams")

    def test_fill(self):
        """The bytes of a source are written into the policy, and nothing else of it changes."""
        policy, other = self.folder / "policy.json", '{"hex":"0011223344556677"}'
        changed("policy.json", '{"file":"display_code.bin"}', other)(self.folder)
        before = policy.read_text(encoding="utf-8")
        self.want(self.tried(0, "--fill")[0]["contents"], ["ok", "2 sources in place, 1 of them filled in"], "with --fill")
        digits = (self.folder / "out" / "assembled" / "display_code.bin").read_bytes().hex()
        self.want(policy.read_text(encoding="utf-8"), before.replace(other, f'{{"hex":"{digits}"}}'), "the policy")
        self.want(self.tried(0)[0]["contents"], ["ok", "2 sources in place"], "then")

    def test_source_by_file(self):
        """A source may have the name of the content's file in place of the region's; share/look finds it, too."""
        changed("policy.json", "counter_code.bin", "count.bin")(self.folder)
        (self.folder / "counter_code.asm").rename(self.folder / "count.asm")
        self.want(self.tried(0)[0]["contents"], ["ok", "2 sources in place"], "the contents")
        lines = looked("coverage", self.folder / "out" / "new.img", self.folder / "out" / "new.text", "--policy", self.folder / "policy.json", "--sources", self.folder)
        self.want("count.asm:9: JMP wait" in lines, True, f"its line is told: {lines}")

    def test_content_beside(self):
        """A content without a source is looked for beside the policy."""
        self.tried(0)
        (self.folder / "out" / "display_code.bin").rename(self.folder / "display_code.bin")
        removed("display_code.asm")(self.folder)
        self.want(self.tried(0)[0]["contents"], ["ok", "1 source in place"], "the contents")

    def test_short_reader(self):
        """A reader that ends early ends it quietly."""
        done = call(["bash", "-c", f"{shlex.quote(str(TRY))} {shlex.quote(str(self.folder))} | head -1"])
        self.want((done.stdout, done.stderr), (b"ok  lint      0 faults, 0 warnings\n", b""), "the streams")

    def test_output(self):
        """What is made can be put elsewhere, and not beside the sources."""
        with tempfile.TemporaryDirectory() as folder:
            self.tried(0, "--output", folder)
            self.want(((self.folder / "out").exists(), pathlib.Path(folder, "new.html").is_file()), (False, True), "where the outputs are")
        done = call([TRY, self.folder, "--output", self.folder])
        self.want((done.returncode, done.stderr.decode()), (2, f"share/try: {self.folder}: what is made is put into a folder of its own\n"), "beside the sources")

    def test_watch(self):
        """It begins anew when a file changes, and ends when it is interrupted."""
        # a shell starts what runs behind it deaf to interrupts
        with subprocess.Popen([TRY, self.folder, "--watch"], stdout=subprocess.PIPE, text=True, preexec_fn=lambda: signal.signal(signal.SIGINT, signal.SIG_DFL)) as running:
            for change, wanted in ((changed("counter_code.asm", "HLT", "HALT"), "all holds\n"), (changed("counter_code.asm", "HALT", "HLT"), "8 steps of 10 without success\n"),
                                   (lambda folder: running.send_signal(signal.SIGINT), "all holds\n")):
                last = next((line for line in running.stdout if line.startswith("all holds") or "without success" in line), None)
                self.want(last, wanted, "the last line")
                change(self.folder)
            self.want((running.wait(30), running.stdout.read()), (0, ""), "the end")

    @each((f"share/try examples/{name}", name) for name in ("two_way_gateway", "packet_ring", "file_content"))
    def test_example(self, name):
        """An example, whose policy stands beside its folder, holds."""
        with tempfile.TemporaryDirectory() as folder:
            done = call([TRY, name, "--output", folder])
            steps, last = lines_of(done.stdout.decode())
            want((done.returncode, last), (0, "all holds"), done.stdout.decode())
            has_claims = (EXAMPLES / f"{name}.claims").is_file()
            self.want({key for key, (mark, *_) in steps.items() if mark == "--"}, {"compare"} if has_claims else {"compare", "claims"}, "what isn't there")
