"""Where and why a device record is refused (docs/record.md, Faults), and which lines of one do nothing."""
import re
from dataclasses import dataclass, field

from looking.policy import name
from looking.schema import nearest, number_of
from looking.words import counted

KINDS = {"port": "T DEVICE PORT V", "mem": "T DEVICE MEMORY OFFSET HEX", "irq": "T DEVICE IRQ", "dma": "T DEVICE ADDR HEX", "end": "T"}
MOST = {"T": 100_000, "PORT": 65535, "V": 255, "OFFSET": (1 << 64) - 1, "ADDR": (1 << 48) - 1}
NUMBER = re.compile("0|[1-9][0-9]*")
RETURNS = "the line ends with a carriage return; lines end with a line feed alone"


@dataclass
class Device:
    """What a device has: ranges of ports, the sizes of its memories, and whether somebody has each of its interrupts."""
    ports: list[tuple[int, int]] = field(default_factory=list)
    memories: dict[str, int] = field(default_factory=dict)
    interrupts: dict[str, bool] = field(default_factory=dict)


def devices_of_policy(policy):
    """The devices of a policy by their names."""
    taken = {(name(use, "device"), name(node, "irq")) for subject in policy.subjects for use in subject.items("devices") for node in use.items("irqs")}
    return {name(device): Device([(number_of(one.get("start")), number_of(one.get("end"))) for one in device.items("ioPorts")],
                                 {name(one): number_of(one.get("size")) for one in device.items("memory")},
                                 {name(one): (name(device), name(one)) in taken for one in device.items("irqs")}) for device in policy.devices}


def devices_of_image(image):
    """The devices of an image by their names."""
    return {device.name: Device(list(device.ports), {span.own_name: span.size for span in device.memories},
                                {one.name: one.target is not None for one in device.interrupts}) for device in image.devices}


def meant(word, names, what):
    """The name that is meant, most likely, or all there are."""
    if guess := nearest(word, names):
        return f"; is {guess} meant?"
    return f"; there {'is' if len(names) == 1 else 'are'} {', '.join(names)}" if names else f"; there is no {what}"


# ---- the fault that is told

def explained(text, number, why, devices, cpus):
    """The column of the fault of a line, and what is wrong there."""
    lines = text.split("\n")
    line = lines[number - 1] if number <= len(lines) else ""
    return Line(line, lines[:number - 1], devices, cpus).fault(why)


class Line:
    """A line of a record with those before it."""

    def __init__(self, line, before, devices, cpus):
        self.line, self.words, self.before, self.devices, self.cpus = line, line.split(" "), before, devices, cpus

    def column(self, at):
        """Where a word begins, from 1 on."""
        return 1 + sum(len(word) + 1 for word in self.words[:at])

    def fault(self, why):
        """The column and the words for a fault."""
        found = getattr(self, f"fault_{why.replace(' ', '_')}", None)
        return found() if found else (1, why)

    def fault_not_ASCII(self):
        """A byte above 127."""
        at = next((at for at, one in enumerate(self.line) if ord(one) > 127), 0)
        return at + 1, "a record is ASCII"

    def fault_after_end(self):
        """A line behind the last."""
        return 1, "the line `end` is the last one" + (", and no empty line is behind it" if not self.line else "")

    def fault_no_end(self):
        """No line `end`."""
        return 1, "no line is `end T`, with how many ticks the run has"

    def fault_word(self):
        """The first word."""
        word = self.words[0]
        if self.line.endswith("\r") and word.rstrip("\r") in (*KINDS, "order"):
            return len(self.line), RETURNS
        if word == "":
            return 1, "an empty line" if not self.line else "a blank stands at the begin"
        if word.startswith("#"):
            return 1, "a record has no comments; share/look record makes one of lines that may have them"
        return 1, f"{word} is none of order, port, mem, irq, dma, end{meant(word, [*KINDS, 'order'], 'such word')}"

    def fault_count(self):
        """How many words there are."""
        if "" in self.words[1:]:
            at = self.words.index("", 1)
            return self.column(at), "a blank too many" if at < len(self.words) - 1 else "a blank at the line's end"
        kind = self.words[0]
        if kind == "order":
            return 1, f"there {'is' if self.cpus == 1 else 'are'} {counted(self.cpus, 'CPU')}: want `order T` and each CPU's number once"
        return 1, f"want `{kind} {KINDS[kind]}`"

    def wanted(self):
        """Of each word behind the first its place, the word, and what it is to be."""
        names = ["T", *["CPU"] * (len(self.words) - 2)] if self.words[0] == "order" else KINDS[self.words[0]].split(" ")
        return list(zip(range(1, len(self.words)), self.words[1:], names))

    def fault_number(self):
        """The first word that is to be a number, and is none."""
        for at, word, want in self.wanted():
            if (want in MOST or want == "CPU") and not NUMBER.fullmatch(word):
                zeros = word.isdigit() and ": no zeros stand in front" or ""
                if word.endswith("\r"):
                    return self.column(at) + len(word) - 1, RETURNS
                return self.column(at), f"{want} is to be a number in decimal digits, and is {word!r}{zeros}"
        return 1, "a word is no number"

    def fault_range(self):
        """The first number that is too large."""
        for at, word, want in self.wanted():
            most = self.cpus - 1 if want == "CPU" else MOST.get(want)
            if most is not None and NUMBER.fullmatch(word) and int(word) > most:
                return self.column(at), f"{'a CPU' if want == 'CPU' else want} is at most {most}, and is {word}"
        return 1, "a number is too large"

    def fault_hex(self):
        """Bytes that are none."""
        at, word = len(self.words) - 1, self.words[-1]
        if word.endswith("\r"):
            return self.column(at) + len(word) - 1, RETURNS
        if len(word) % 2:
            return self.column(at), f"want two hexadecimal digits a byte, and there are {counted(len(word), 'digit')}"
        if len(word) > 128:
            return self.column(at), f"a line has 64 bytes at most, and this one has {len(word) // 2}"
        return self.column(at), "want 1 to 64 bytes in hexadecimal digits"

    def fault_back(self):
        """A tick before that of the line before."""
        last = self.before[-1].split(" ")[1] if self.before and " " in self.before[-1] else "later"
        return self.column(1), f"tick {self.words[1]} is behind tick {last} of the line before; ticks don't fall"

    def fault_order(self):
        """An order that isn't one."""
        cpus = self.words[2:]
        twice = next((at for at, cpu in enumerate(cpus) if cpu in cpus[:at]), None)
        if twice is not None:
            return self.column(2 + twice), f"CPU {cpus[twice]} stands twice"
        return 1, f"tick {self.words[1]} has an order already"

    def is_known(self):
        """Whether the devices have what the line names."""
        kind, _, *rest = self.words
        if kind in ("order", "end"):
            return True
        if rest[0] not in self.devices:
            return False
        had = self.devices[rest[0]]
        if kind == "port":
            return any(low <= int(rest[1]) <= high for low, high in had.ports)
        if kind == "mem":
            return int(rest[2]) + len(rest[3]) // 2 <= had.memories.get(rest[1], -1)
        return kind == "dma" or rest[1] in had.interrupts

    def fault_unknown(self):
        """What a device hasn't."""
        kind, _, device, *rest = self.words
        if self.line.endswith("\r") and Line(self.line[:-1], self.before, self.devices, self.cpus).is_known():
            return len(self.line), RETURNS
        if device not in self.devices:
            return self.column(2), f"no device is {device}{meant(device, list(self.devices), 'device')}"
        had = self.devices[device]
        if kind == "port":
            ranges = ", ".join(f"{low} to {high}" for low, high in had.ports)
            return self.column(3), f"{device} has no port {rest[0]}" + (f"; it has {ranges}" if ranges else "; it has none")
        if kind == "irq":
            return self.column(3), f"{device} has no interrupt {rest[0]}{meant(rest[0], list(had.interrupts), 'interrupt')}"
        if rest[0] not in had.memories:
            return self.column(3), f"{device} has no memory {rest[0]}{meant(rest[0], list(had.memories), 'memory')}"
        return self.column(4), f"{counted(len(rest[2]) // 2, 'byte')} from {rest[1]} on pass the end of {rest[0]}, which has {had.memories[rest[0]]} bytes"


# ---- lines that do nothing

def idle(policy, devices, words):
    """Why a line does nothing, one of an interrupt that nobody has or of direct memory access that is dropped; or none."""
    kind, _, *rest = words
    if kind == "irq" and not devices[rest[0]].interrupts[rest[1]]:
        return f"nobody has the interrupt {rest[1]} of {rest[0]}"
    if kind == "dma" and (why := dropped(policy, rest[0], int(rest[1]), len(rest[2]) // 2)):
        return f"the line is dropped: {why}"
    return None


def dropped(policy, device, address, size):
    """Why a device's write of so many bytes is dropped, or none."""
    domain = next((one for one in policy.domains if device in [node.value for node in one.items("devices")]), None)
    if domain is None:
        return f"no domain has the device {device}"
    windows = [(number_of(node.get("virtualAddress")), size_in(policy, name(node, "region")), name(node, "rights"), name(node, "region"))
               for node in domain.items("memory")]
    at = address
    while at < address + size:
        shown = next((window for window in windows if window[0] <= at < window[0] + window[1]), None)
        if shown is None:
            return f"the domain {name(domain)} has no window at {at}"
        if "w" not in shown[2]:
            return f"the window of the domain {name(domain)} on {shown[3]}, at {at}, has {shown[2]}"
        at = shown[0] + shown[1]
    return None


def size_in(policy, region):
    """The size of a region or of a channel."""
    found = policy.memory.first("name", region) or policy.channels.first("name", region)
    return number_of(found.get("size")) if found else 0
