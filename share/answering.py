"""What share/answer does: runs of a system, with what a strategy answers to what was printed, until all of a record is answered."""
import pathlib
import re
import runpy
import traceback
from bisect import bisect_left, bisect_right

from looking.dma_file import read_dma
from looking.files import write_text
from looking.image_file import PAGE
from looking.inputs import Inputs
from looking.program import answer, output
from looking.record import MOST_TICKS, input_of, printed, spaced
from looking.system import System
from looking.turns import turn_of
from looking.wrong import Wrong

# how many ticks a run goes on behind the settled ones, at the least
LEAST = 16


# ---- what a strategy is given

class Lines(list):
    """The turns of the subjects that are heard, in the run's order."""

    def of(self, tick):
        """Those of one tick."""
        return self[bisect_left(self, tick, key=tick_of):bisect_right(self, tick, key=tick_of)]


def tick_of(turn):
    """The tick of a turn."""
    return turn.tick


class Memory:
    """The bytes of all that the subjects that are heard see, as they are before a tick."""

    def __init__(self, system, tables, heard):
        self.system, self.inputs = system, Inputs(system, tables, "", "")
        self.views = {name: system.view(at) for at, name in enumerate(one.name for one in system.image.subjects) if name in heard}
        self.seen = {window.span for view in self.views.values() for window in view.windows}

    def dma(self, device, address, size):
        """The bytes that a device reads by itself from an address of its own on; none where one of them is led nowhere (docs/dma.md)."""
        self.device(device)
        content = b""
        while len(content) < size:
            at = address + len(content)
            place, _ = self.inputs.led(device, at, "r")
            if place is None:
                return None
            content += self.read(device, place, min(size - len(content), PAGE - at % PAGE))
        return content

    def mem(self, device, memory, offset, size):
        """The bytes of a memory of the device from an offset on; none where they pass its end."""
        span = next((span for span in self.device(device).memories if span.own_name == memory), None)
        if span is None:
            raise Wrong(f"{device} has no memory {memory}")
        if not 0 <= offset <= offset + size <= span.size:
            return None
        content, end = b"", span.place + offset + size
        while (place := end - size + len(content)) < end:
            content += self.read(device, place, min(end - place, PAGE - place % PAGE))
        return content

    def device(self, name):
        """The device of this name."""
        if name not in self.inputs.devices:
            raise Wrong(f"no device is {name}")
        return self.inputs.devices[name]

    def read(self, device, place, size):
        """Bytes of a page, of which others than the subjects that are heard change none."""
        span = self.system.memory.span_at(place)
        if span not in self.seen:
            raise Wrong(f"{device} reads {span.name}, which no subject that is heard sees")
        return self.system.memory.read(place, size)

    def write(self, line):
        """What an input writes."""
        kind, tick, *words = line.split(" ")
        for place, content in getattr(self.inputs, kind)(int(tick), *words).writes:
            self.system.memory.write(place, content)

    def store(self, turn):
        """What a turn stores."""
        window = self.views[turn.subject].window_at(turn.facts["address"])
        place = window.place + turn.facts["address"] - window.guest
        self.system.memory.write(place, turn.facts["stored"].to_bytes(8, "little")[:turn.facts["size"]])


# ---- a strategy

class Strategy:
    """What a file says: `answer`, and `HEARD` and `TICKS` where they stand there."""

    def __init__(self, file):
        self.file = file
        try:
            found = runpy.run_path(file)
        except OSError as error:
            raise Wrong(f"{file}: {error.strerror}") from None
        except Exception as error:
            raise Wrong(self.fault(error)) from None
        self.answer, self.heard, self.ticks = (found.get(name) for name in ("answer", "HEARD", "TICKS"))
        if not callable(self.answer):
            raise Wrong(f"{file}: it has no function `answer`")

    def fault(self, error):
        """What went wrong, behind the file and the last of its lines that was gone through."""
        lines = [frame.lineno for frame in traceback.extract_tb(error.__traceback__) if frame.filename == self.file]
        line = lines[-1] if lines else getattr(error, "lineno", None)
        return f"{self.file}{f':{line}' if line else ''}: {error if isinstance(error, Wrong) else f'{type(error).__name__}: {error}'}"

    def lines(self, tick, lines, memory):
        """The lines of a record that it answers for a tick."""
        try:
            return [line_of(tick, line) for line in self.answer(tick, lines, memory) or ()]
        except Exception as error:
            raise Wrong(f"{self.fault(error)} (tick {tick})") from None

    def members(self, program, policy):
        """The names of the subjects that it hears, all where it names none; Wrong where these are no closed set."""
        flows = {words[1]: words[3:] for words in map(str.split, output(program, "flows", policy).splitlines())}
        heard = list(flows if self.heard is None else self.heard)
        for name in heard:
            if name not in flows:
                raise Wrong(f"{self.file}: HEARD: no subject is {name}; there are {', '.join(flows)}")
            if others := [other for other in flows[name] if other not in heard]:
                raise Wrong(f"{self.file}: HEARD: {name} is heard, and depends on {', '.join(others)}: not a closed set (docs/flows.md)")
        return heard


def line_of(tick, text):
    """A line of a record: what happens, as `share/look record` takes it, in a tick."""
    kind, words = input_of(spaced(text))
    return " ".join([kind, str(tick), *words])


# ---- the play

class Play:
    """A system, its settled ticks, each with its lines of the record, and what was heard in them.

    A tick is settled where its lines are what the strategy answers to the run with the settled ticks before it.
    """

    def __init__(self, program, policy, strategy, folder):
        self.program, self.strategy, self.runs = program, strategy, 0
        self.image, self.tables, self.file = (str(pathlib.Path(folder, name)) for name in ("image", "tables", "record"))
        status, line, _ = answer(program, "build", policy, self.image, self.tables)
        if status:
            raise Wrong(f"{policy}: {line}")
        self.heard = strategy.members(program, policy)
        self.begin()

    def begin(self):
        """No tick is settled."""
        self.record, self.lines, self.at = [], Lines(), 0
        self.memory = Memory(System(self.image), read_dma(self.tables), self.heard)

    def ask(self, tick):
        """What the strategy answers for a tick to what was heard so far."""
        return self.strategy.lines(tick, self.lines, self.memory)

    def run(self, record):
        """The text of a run of as many ticks as have lines here."""
        self.runs += 1
        lines = [(tick, line) for tick, one in enumerate(record) for line in one]
        write_text(self.file, printed(lines, len(record)))
        status, line, text = answer(self.program, "run", self.image, self.file, self.tables)
        if refused := re.match(r"record refused at line (\d+): (\w+)", line):
            raise Wrong(f"{self.strategy.file}: it answers `{lines[int(refused[1]) - 1][1]}`, which is no line of this system's record: {refused[2]}")
        if status:
            raise Wrong(f"run: {line}")
        return text.decode("ascii")

    def settle(self, tick, lines, text):
        """One more tick is settled, with its lines; a run's text tells what is printed in it."""
        for line in lines:
            self.memory.write(line)
        while self.at < len(text):
            end = text.index("\n", self.at)
            turn = turn_of(text[self.at:end])
            if turn is None or turn.tick != tick:
                break
            if turn.subject in self.memory.views:
                self.lines.append(turn)
                if turn.kind == "store":
                    self.memory.store(turn)
            self.at = end + 1
        self.record.append(lines)

    def go_on(self, ticks):
        """A run further on than what is settled, with answers as if nothing more were heard, settles at least the first tick there; whether all.

        Those of the first tick are right, for all before it is heard; those of each next one where the strategy, asked again
        when all before it is heard, answers the same.
        """
        first = len(self.record)
        guesses = [self.ask(tick) for tick in range(first, ticks)]
        text = self.run(self.record + guesses)
        for tick, lines in enumerate(guesses, first):
            if tick > first and self.ask(tick) != lines:
                return False
            self.settle(tick, lines, text)
        return True

    def play(self, ticks):
        """All ticks are settled. Each run settles one at least, so this ends."""
        further = LEAST
        while len(self.record) < ticks:
            done = self.go_on(min(ticks, len(self.record) + further))
            further = 2 * further if done else max(LEAST, further // 2)
        self.again()

    def again(self):
        """One run with the whole record: asked about each tick again, the strategy answers the same; Wrong where it doesn't."""
        record = self.record
        text = self.run(record)
        self.begin()
        for tick, lines in enumerate(record):
            if (other := self.ask(tick)) != lines:
                raise Wrong(f"{self.strategy.file}: it answers {other}, and before {lines}: it may go by what it is given alone (tick {tick})")
            self.settle(tick, lines, text)

    def text(self):
        """The record."""
        return printed([(tick, line) for tick, lines in enumerate(self.record) for line in lines], len(self.record))


def ticks_of(strategy, asked):
    """How many ticks are played: as asked, or as the strategy says."""
    ticks = strategy.ticks if asked is None else asked
    if ticks is None:
        raise Wrong(f"{strategy.file}: it has no `TICKS`; --ticks says how many")
    if not isinstance(ticks, int) or not 0 <= ticks <= MOST_TICKS:
        raise Wrong(f"the run has 0 to {MOST_TICKS} ticks, not {ticks}")
    return ticks
