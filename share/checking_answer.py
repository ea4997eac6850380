"""The checks of share/answer: the records of devices that answer, whom they hear, and what is wrong with a strategy."""
import contextlib
import json
import pathlib
import tempfile

from answering import Lines, Play, Strategy
from checking import EXAMPLES, PROGRAM, TOP, Case, call, each, want, with_program
from looking.inputs import held
from looking.turns import lines_of

ANSWER = TOP / "share" / "answer"
PLAYED = [file.stem for file in sorted(EXAMPLES.glob("*.py"))]
GATEWAYS = "joined_gateways"
# programs of the subject guest
OTHERS = {"one that halts": "1700000000000000", "one that is stopped": "0b11030000000000", "one that calls": "16010000000000000d000000f8ffffff"}
# a strategy that hears guest, too: whenever it puts something out, red_a has an interrupt
GOSSIP = """
def answer(tick, lines, memory):
    return ["irq lan_a rx" for turn in lines.of(tick - 1) if turn.subject == "guest" and turn.kind == "out"]
"""


@contextlib.contextmanager
def played(policy, strategy, ticks=None):
    """The play of a strategy with a policy; both are files, of examples where they are relative."""
    with tempfile.TemporaryDirectory() as folder:
        one = Strategy(str(EXAMPLES / strategy))
        play = Play(str(PROGRAM), EXAMPLES / policy, one, folder)
        play.play(one.ticks if ticks is None else ticks)
        yield play


@contextlib.contextmanager
def written(text, name="strategy.py"):
    """A file of this text."""
    with tempfile.TemporaryDirectory() as folder:
        file = pathlib.Path(folder, name)
        file.write_text(text, encoding="utf-8")
        yield file


def with_guest(digits):
    """The policy of the two gateways with another program of guest."""
    document = json.loads((EXAMPLES / f"{GATEWAYS}.json").read_text(encoding="utf-8"))
    next(region for region in document["memory"] if region["name"] == "guest_code")["content"]["hex"] = digits
    return json.dumps(document)


def booted(policy, record):
    """What `boot` prints."""
    done = call([PROGRAM, "boot", policy, record])
    want((done.returncode, done.stderr), (0, b""), "boot")
    return done.stdout.decode("ascii")


def but_of_guest(text):
    """The lines of a text that tell nothing of guest."""
    return [line for line in text.splitlines() if "guest" not in " ".join(line.split()[:3])]


@with_program
class Records(Case):
    """The examples whose devices answer."""

    @each((f"share/answer examples/{name}", name) for name in PLAYED)
    def test_record(self, name):
        """The record is what it writes."""
        with tempfile.TemporaryDirectory() as folder:
            made = pathlib.Path(folder, "record")
            done = call([ANSWER, f"{name}.json", f"{name}.py", "--output", made])
            want((done.returncode, done.stdout, done.stderr), (0, b"", b""), "status and streams")
            want(made.read_text(encoding="ascii"), (EXAMPLES / f"{name}.record").read_text(encoding="ascii"), "the record")

    @each((f"what examples/{name}.py answers", name) for name in PLAYED)
    def test_follows(self, name):
        """Of each tick the record has what is answered to the lines of `boot` before it; and the memory that was read ends as it is printed."""
        policy, record = EXAMPLES / f"{name}.json", EXAMPLES / f"{name}.record"
        text = booted(policy, record)
        with played(policy, f"{name}.py") as play:
            turns = [turn for _, turn in lines_of(text, name) if turn is not None and turn.subject in play.heard]
            self.want(list(play.lines), turns, "what was heard")
            memory = [one for one in held(play.memory.system, text.splitlines()) if one.span in play.memory.seen]
            self.want([one.span.name for one in memory if not one.agrees], [], "memory that differs")
            self.want(play.runs <= 1 + len(play.record), True, f"{play.runs} runs are few")
        # what goes by memory, too, can't be asked with lines alone
        if name != "descriptor_ring":
            strategy = Strategy(str(EXAMPLES / f"{name}.py"))
            answers = [line for tick in range(strategy.ticks) for line in strategy.lines(tick, Lines(turn for turn in turns if turn.tick < tick), None)]
            self.want([*answers, f"end {strategy.ticks}"], record.read_text(encoding="ascii").splitlines(), "the record")

    def test_quoted(self):
        """The strategy in docs/record.md is that of the timer."""
        quoted = (TOP / "docs" / "record.md").read_text(encoding="utf-8").split("```python\n")[1].split("```")[0]
        want(quoted in (EXAMPLES / "timer.py").read_text(encoding="utf-8"), True, "it is a part of examples/timer.py")

    def test_joined(self):
        """What black_a puts out is what wan_b takes in, and what the machine behind a sent comes to the one behind b."""
        text = booted(f"{GATEWAYS}.json", f"{GATEWAYS}.record")
        out = {turn.subject: turn.facts["sent"] for _, turn in reversed(list(lines_of(text, GATEWAYS)))
               if turn is not None and turn.kind == "out"}
        want([out[name] for name in ("black_a", "red_b", "black_b", "red_a")], [5 ^ 0xa5a5, 5, 10 ^ 0xa5a5, 10], "the first messages")


@with_program
class Outsiders(Case):
    """The two gateways with another program of guest, which belongs to neither."""

    @each((f"the gateways with a guest, {which}", digits) for which, digits in OTHERS.items())
    def test_guest(self, digits):
        """The record is the same, and so is all that is printed but of guest; also where inputs of its device come."""
        record = EXAMPLES / f"{GATEWAYS}.record"
        text = record.read_text(encoding="ascii")
        before = but_of_guest(booted(f"{GATEWAYS}.json", record))
        with written(with_guest(digits), "policy.json") as policy, written(f"irq 7 pad press\nport 9 pad 896 5\n{text}", "record") as more:
            with played(policy, f"{GATEWAYS}.py") as play:
                self.want(play.text(), text, "the record")
            for file in (record, more):
                self.want(but_of_guest(booted(policy, file)), before, f"what is printed of the gateways, with {file}")

    def test_gossip(self):
        """It matters who is heard: where guest is, the gateways' lines are others with another program of it."""
        with written(GOSSIP) as strategy, written(with_guest(OTHERS["one that halts"]), "policy.json") as policy:
            found = []
            for one in (f"{GATEWAYS}.json", policy):
                with played(one, strategy, 60) as play:
                    found.append([turn for turn in play.lines if turn.subject == "red_a"])
        want(found[0] == found[1], False, "the lines of red_a are the same")


# strategies for the timer with what is wrong with each
WRONG = [
    ("no function", "TICKS = 5\n", "STRATEGY: it has no function `answer`"),
    ("no Python", "def\n", "STRATEGY:1: SyntaxError: invalid syntax (STRATEGY, line 1)"),
    ("a name that isn't there", "\nTICKS = five\n", "STRATEGY:2: NameError: name 'five' is not defined"),
    ("no ticks", "def answer(tick, lines, memory):\n    return []\n", "STRATEGY: it has no `TICKS`; --ticks says how many"),
    ("too many ticks", "TICKS = 100_001\ndef answer(tick, lines, memory):\n    return []\n", "the run has 0 to 100000 ticks, not 100001"),
    ("a fault", "TICKS = 5\ndef answer(tick, lines, memory):\n    return [str(1 // (3 - tick))][1:]\n", "STRATEGY:3: ZeroDivisionError: integer division or modulo by zero (tick 3)"),
    ("no list", "TICKS = 5\ndef answer(tick, lines, memory):\n    return 5\n", "STRATEGY: TypeError: 'int' object is not iterable (tick 0)"),
    ("a line that is none", "TICKS = 5\ndef answer(tick, lines, memory):\n    return ['irq timer']\n", "STRATEGY: want `irq DEVICE IRQ` (tick 0)"),
    ("an interrupt that isn't there", "TICKS = 5\ndef answer(tick, lines, memory):\n    return ['irq timer tock']\n",
     "STRATEGY: it answers `irq 0 timer tock`, which is no line of this system's record: unknown"),
    ("two orders", "TICKS = 5\ndef answer(tick, lines, memory):\n    return 2 * ['order 0']\n",
     "STRATEGY: it answers `order 0 0`, which is no line of this system's record: order"),
    ("a device that isn't there", "TICKS = 5\ndef answer(tick, lines, memory):\n    return memory.mem('clock', 'buf', 0, 8)\n", "STRATEGY:3: no device is clock (tick 0)"),
    ("a memory that isn't there", "TICKS = 5\ndef answer(tick, lines, memory):\n    return memory.mem('timer', 'buf', 0, 8)\n", "STRATEGY:3: timer has no memory buf (tick 0)"),
    ("a state of its own", "TICKS = 5\ncount = [0]\ndef answer(tick, lines, memory):\n    count[0] += 1\n    return ['irq timer ring'] * (count[0] > 7)\n",
     "STRATEGY: it answers ['irq 0 timer ring'], and before []: it may go by what it is given alone (tick 0)"),
    ("nobody", "HEARD = ['keeper']\nTICKS = 5\ndef answer(tick, lines, memory):\n    return []\n", "STRATEGY: HEARD: no subject is keeper; there are sleeper"),
]


@with_program
class Strategies(Case):
    """Strategies by themselves."""

    def fails(self, policy, text, line):
        """share/answer says this line, in which STRATEGY is the file, and prints nothing."""
        with written(text) as strategy:
            done = call([ANSWER, policy, strategy])
            want((done.returncode, done.stdout, done.stderr.decode()), (1, b"", f"share/answer: {line}\n".replace("(STRATEGY", f"({strategy.name}").replace("STRATEGY", str(strategy))),
                 "status and streams")

    @each((f"a strategy with {title}", text, line) for title, text, line in WRONG)
    def test_wrong(self, text, line):
        """A line says what is wrong."""
        self.fails("timer.json", text, line)

    def test_open(self):
        """Who is heard is a closed set, and what is read is seen by one of it."""
        body = "TICKS = 5\ndef answer(tick, lines, memory):\n    return "
        self.fails("gateway.json", f"HEARD = ['cipher', 'keys']\n{body}[]\n", "STRATEGY: HEARD: cipher is heard, and depends on plain, slots: not a closed set (docs/flows.md)")
        self.fails(f"{GATEWAYS}.json", f"HEARD = ['guest']\n{body}memory.dma('lan_a', 4096, 8)\n", "STRATEGY:4: lan_a reads lan_a_buffer, which no subject that is heard sees (tick 0)")
        self.fails("nothing.json", f"{body}[]\n", "nothing.json: missing file nothing.json")

    def test_memory(self):
        """What a device reads by itself, of its memory, and of neither; over the end of a page, and behind the end."""
        body = "def answer(tick, lines, memory):\n    return [LINE] if tick == 2 else []\n"
        with written(body.replace("LINE", "'mem net packet 4094 0a0b'")) as strategy, played("network_in.json", strategy, 5) as play:
            self.want([play.memory.mem("net", "packet", *words) for words in ((0, 4), (4094, 2), (4094, 3), (-1, 1))], [bytes(4), b"\x0a\x0b", None, None], "mem")
            self.want(play.memory.dma("net", 4096, 8), None, "dma of a device without a domain")
        with written(body.replace("LINE", "'dma card 4102 0a0b'")) as strategy, played("descriptor_ring.json", strategy, 5) as play:
            self.want([play.memory.dma("card", *words) for words in ((4100, 4), (8190, 2), (8190, 3), (4095, 2))], [bytes([0, 0, 10, 11]), bytes(2), None, None], "dma")

    def test_runs(self):
        """Answers that don't depend on what is heard take few runs, and others at most one for each tick and one more; orders are lines, too."""
        for text, ticks, most, count in (("[f'order {tick % 2} {1 - tick % 2}', *(['irq net rx'] if tick % 10 == 0 else [])]", 3000, 12, 3300),
                                         ("['irq net rx' for turn in lines.of(tick - 1) if turn.subject == 'cipher' and turn.kind == 'store']", 200, 50, 19)):
            with written(f"HEARD = ['plain', 'keys', 'slots', 'cipher', 'black']\ndef answer(tick, lines, memory):\n    return {text}\n") as strategy:
                with played("gateway.json", strategy, ticks) as play:
                    self.want((play.runs <= most, sum(map(len, play.record))), (True, count), f"{play.runs} runs are few; lines")

    def test_ticks(self):
        """It plays as many as asked, and prints the record."""
        for ticks, lines in (("0", "end 0\n"), ("10", "irq 9 timer ring\nend 10\n"), ("23", "irq 9 timer ring\nirq 22 timer ring\nend 23\n")):
            done = call([ANSWER, "timer.json", "timer.py", "--ticks", ticks])
            self.want((done.returncode, done.stdout.decode(), done.stderr), (0, lines, b""), ticks)
