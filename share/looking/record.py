"""look record: a device record from a few lines. docs/record.md says what a record is."""
import re
import sys
from dataclasses import dataclass

from looking.document import lawful
from looking.files import read_text
from looking.record_faults import Line, devices_of_policy, idle
from looking.words import counted
from looking.wrong import Wrong

HELP = "makes a device record from a few lines, such as `every 200 from 100: irq net rx`"
LONG_HELP = """Makes a device record (docs/record.md) from lines of this language, and prints it:

  end 5000                                the run has 5000 ticks; one such line, anywhere
  at 7: port net 768 5                    in tick 7; `at 7 9 12:` in each of these
  every 200 from 100 until 5000: irq net rx
                                          in the ticks 100, 300, .. below 5000; without `from`
                                          from tick 0 on, without `until` up to the end
  from 10 until 20: order 1 0             in each tick from 10 to 19
  order 1 0 from 10 until 20              the same
  mem net buf 4094 ff01 every 50          when it happens may stand behind, without a colon
  # a comment                             so is what stands behind a blank and #

What happens is written as in a record, without the tick: `port DEVICE PORT VALUE`,
`mem DEVICE MEMORY OFFSET HEX`, `irq DEVICE IRQ`, `dma DEVICE ADDRESS HEX`, `order C1 .. Cn`.
Numbers are decimal, or hexadecimal behind 0x or as 16#300#. Of one tick the lines keep
their order. Devices and CPUs are the system's: `muen run` looks whether they are there, and so
does this form with --for POLICY, by file and line. Then it also warns, on standard error, of
lines that do nothing: an interrupt that nobody has, and a `dma` line that is dropped."""

MOST_TICKS = 100_000
LONGEST = 16 << 20
NUMBER = re.compile(r"\d+|0[xX][0-9a-fA-F]+|16#[0-9a-fA-F]+(_[0-9a-fA-F]+)*#")
NAME = re.compile(r"[A-Za-z0-9_.-]{1,63}")
HEX = re.compile(r"([0-9a-fA-F]{2}){1,64}")
TIMES = ("at", "every", "from", "until")
# by kind of input its words: a name, HEX, or a number up to a most (docs/record.md, Lines)
SHAPES = {"port": ("DEVICE", ("PORT", 65535), ("VALUE", 255)),
          "mem": ("DEVICE", "MEMORY", ("OFFSET", (1 << 64) - 1), "HEX"),
          "irq": ("DEVICE", "IRQ"),
          "dma": ("DEVICE", ("ADDRESS", (1 << 48) - 1), "HEX")}


def add_arguments(parser):
    """The words of this form."""
    parser.add_argument("file", metavar="FILE", nargs="?", default="-",
                        help="the lines; without it, or with -, they are those of standard input")
    parser.add_argument("--for", metavar="POLICY", dest="policy", help="the policy whose devices and CPUs these are")


def run(arguments):
    """Prints the record."""
    text, source = read_text(arguments.file), arguments.file
    record = record_of(text, source)
    if arguments.policy is not None:
        for number, why in idle_rules(rules_of(text, source)[0], lawful(arguments.policy), source):
            print(f"look: {source}: line {number}: warning: {why}", file=sys.stderr)
    print(record, end="")
    return 0


@dataclass
class Rule:
    """A line: what happens, as a record's words before and behind the tick, and when."""
    line: int
    kind: str
    words: list[str]
    ticks: list[int] | None
    step: int = 1
    first: int = 0
    until: int | None = None

    def times(self, end):
        """Its ticks in a run that has so many."""
        if self.ticks is not None:
            return self.ticks
        return range(self.first, end if self.until is None else self.until, self.step)


def rules_of(text, source):
    """The rules of a text, and how many ticks the run has."""
    rules, end, number = [], None, 0
    try:
        for number, line in enumerate(text.splitlines(), 1):
            words = spaced(line)
            if words[:1] == ["end"]:
                if end is not None:
                    raise Wrong("a second `end`")
                end = end_of(words)
            elif words:
                rules.append(rule_of(words, number))
        number += 1
        if end is None:
            raise Wrong("no line is `end TICKS`")
    except Wrong as error:
        raise Wrong(f"{source}: line {number}: {error}") from None
    return rules, end


def record_of(text, source):
    """The record that the lines of a text make."""
    rules, end = rules_of(text, source)
    inputs, number = [], 0
    try:
        for rule in rules:
            number = rule.line
            inputs += inputs_of(rule, end, inputs)
        number = max((rule.line for rule in rules), default=1)
        return printed(inputs, end)
    except Wrong as error:
        raise Wrong(f"{source}: line {number}: {error}") from None


def idle_rules(rules, policy, source):
    """Of each rule that does nothing its line, and why; Wrong at the first that names what the policy hasn't."""
    devices = devices_of_policy(policy)
    for rule in rules:
        words = [rule.kind, "0", *rule.words]
        if rule.kind == "order" and len(rule.words) != policy.cpus:
            raise Wrong(f"{source}: line {rule.line}: an order names each CPU once, and there {'is' if policy.cpus == 1 else 'are'} {counted(policy.cpus, 'CPU')}")
        line = Line(" ".join(words), [], devices, policy.cpus)
        if not line.is_known():
            raise Wrong(f"{source}: line {rule.line}: {line.fault_unknown()[1]}")
    for rule in rules:
        if why := idle(policy, devices, [rule.kind, "0", *rule.words]):
            yield rule.line, why


def spaced(line):
    """The words of a line without its comment, with a colon as a word; commas are blanks."""
    # the # of 16#300# has no blank before it
    content = re.split(r"(?:^|\s)#", line)[0]
    return content.replace(":", " : ").replace(",", " ").split()


def number_of(word, name, most):
    """A number up to a most."""
    if word is None or not NUMBER.fullmatch(word):
        raise Wrong(f"{name} is to be a number, and is {word!r}" if word else f"no number behind {name}")
    digits = word[3:-1].replace("_", "") if word.startswith("16#") else word
    value = int(digits, 16 if word.startswith("16#") or word[:2] in ("0x", "0X") else 10)
    if value > most:
        raise Wrong(f"{name} is at most {most}, and is {value}")
    return value


def end_of(words):
    """The ticks of a line `end`."""
    if len(words) != 2:
        raise Wrong("want `end TICKS`")
    return number_of(words[1], "end", MOST_TICKS)


def rule_of(words, line):
    """A line with when and what: `WHEN: WHAT`, or `WHAT WHEN`."""
    if ":" in words:
        at = words.index(":")
        when, what = words[:at], words[at + 1:]
        if ":" in what:
            raise Wrong("a second colon")
    else:
        at = next((at for at, word in enumerate(words) if at and word in TIMES), len(words))
        what, when = words[:at], words[at:]
    if not when or when[0] not in TIMES:
        raise Wrong("want when: at TICK .., every TICKS, from TICK, until TICK")
    rule = Rule(line, *input_of(what), None)
    if when[0] == "at":
        rule.ticks = sorted({number_of(word, "at", MOST_TICKS) for word in when[1:]})
        if not rule.ticks:
            raise Wrong("no number behind at")
        return rule
    return repeated(rule, when)


def repeated(rule, when):
    """The rule with `every`, `from` and `until`, each once, in any order."""
    seen = set()
    for name, word in zip(when[::2], [*when[1::2], None]):
        if name not in TIMES[1:] or name in seen:
            raise Wrong(f"{name!r} can't stand there")
        seen.add(name)
        value = number_of(word, name, MOST_TICKS)
        if name == "every":
            if value == 0:
                raise Wrong("every is at least 1")
            rule.step = value
        elif name == "from":
            rule.first = value
        else:
            rule.until = value
    return rule


def input_of(words):
    """The kind of what happens, and its words as a record has them."""
    kind, *rest = words or [""]
    if kind == "order":
        cpus = [number_of(word, "a CPU", 7) for word in rest]
        if not cpus or sorted(cpus) != list(range(len(cpus))):
            raise Wrong("an order names each CPU from 0 on once")
        return kind, list(map(str, cpus))
    if kind not in SHAPES:
        raise Wrong(f"{kind!r} is none of order, port, mem, irq, dma, end")
    shape = SHAPES[kind]
    if len(rest) != len(shape):
        names = [want if isinstance(want, str) else want[0] for want in shape]
        raise Wrong(f"want `{kind} {' '.join(names)}`")
    return kind, [word_of(word, want) for word, want in zip(rest, shape)]


def word_of(word, want):
    """A word of an input, as a record has it."""
    if isinstance(want, tuple):
        return str(number_of(word, *want))
    if want == "HEX":
        if not HEX.fullmatch(word):
            raise Wrong(f"want 1 to 64 bytes in hexadecimal digits, not {word!r}")
    elif not NAME.fullmatch(word):
        raise Wrong(f"want a name, not {word!r}")
    return word


def inputs_of(rule, end, before):
    """The inputs of a rule, with those of the rules before it: one order a tick, none behind the end."""
    ordered = {tick for tick, line in before if line.startswith("order")} if rule.kind == "order" else set()
    found = []
    for tick in rule.times(end):
        if tick >= end:
            raise Wrong(f"tick {tick} isn't in the run, which has {end} ticks")
        if tick in ordered:
            raise Wrong(f"tick {tick} has an order already")
        found.append((tick, " ".join([rule.kind, str(tick), *rule.words])))
    return found


def printed(inputs, end):
    """The record: ticks in order, and of one tick the lines' order."""
    lines = [line for _, line in sorted(inputs, key=lambda one: one[0])]
    text = "".join(f"{line}\n" for line in [*lines, f"end {end}"])
    if len(text) > LONGEST:
        raise Wrong(f"the record is longer than {LONGEST} bytes")
    return text
