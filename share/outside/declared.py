"""What a policy declares: windows by the lines of `map`, ports and MSRs by the policy itself (docs/policy.md,
docs/placement.md)."""
import bisect
import json
import pathlib
import subprocess
from dataclasses import dataclass, field

from emulator import Broken

READ, WRITE, EXECUTE = 1, 2, 4
RIGHTS = {"r": READ, "rw": READ | WRITE, "rx": READ | EXECUTE, "rwx": READ | WRITE | EXECUTE}


@dataclass
class Window:
    """What a subject sees from a guest address on."""

    guest: int
    size: int
    rights: int
    place: int

    @property
    def end(self):
        """The guest address behind its last byte."""
        return self.guest + self.size


@dataclass
class Subject:
    """A subject, its windows by guest address, its ports, and its MSRs with their rights in the policy's order."""

    name: str
    entry: int
    windows: list = field(default_factory=list)
    ports: list = field(default_factory=list)
    msrs: list = field(default_factory=list)

    def window_at(self, address):
        """The window that holds an address, or None."""
        i = bisect.bisect_right(self.windows, address, key=lambda window: window.guest) - 1
        return self.windows[i] if i >= 0 and address < self.windows[i].end else None

    def grants_ports(self, first, size):
        """Whether an access of so many ports is granted."""
        touched = range(first, first + size)
        return all(any(low <= port <= high for low, high in self.ports) for port in touched)

    def grants_msr(self, index, right):
        """Whether reading ("r") or writing ("w") an MSR is granted."""
        return any(index == msr and right in rights for msr, rights in self.msrs)


def number(value):
    """A number of a policy, of either spelling."""
    return value if isinstance(value, int) else int(value[3:-1].replace("_", ""), 16)


def called(program, words, folder):
    """The output of a call of the program that has to succeed."""
    done = subprocess.run([str(program), *map(str, words)], cwd=folder, capture_output=True, timeout=600)
    if done.returncode:
        raise Broken(f"{words[0]}: {done.stderr.decode(errors='replace').strip()}")
    return done.stdout.decode("ascii")


def ports_of(policy, subject):
    """The ranges of ports that a subject is granted."""
    devices = {device["name"]: device for device in policy.get("devices", [])}
    for use in subject.get("devices", []):
        ranges = {one["name"]: one for one in devices[use["device"]].get("ioPorts", [])}
        for name in use.get("ioPorts", []):
            yield number(ranges[name]["start"]), number(ranges[name]["end"])


def msrs_of(subject):
    """Each MSR that a subject is granted, with its rights."""
    for one in subject.get("msrs", []):
        for index in range(number(one["start"]), number(one["end"]) + 1):
            yield index, one["rights"]


def declared(program, path):
    """The subjects of a policy, as the policy and `map` declare them."""
    try:
        policy = json.loads(pathlib.Path(path).read_text(encoding="utf-8"))
    except (OSError, ValueError) as error:
        raise Broken(f"{path}: {error}") from None
    subjects = {}
    text = called(program, ["map", path.name], path.parent)
    for one in policy["subjects"]:
        subjects[one["name"]] = Subject(one["name"], number(one["entry"]), ports=list(ports_of(policy, one)),
                                        msrs=list(msrs_of(one)))
    on_devices = {(one["name"], number(window["virtualAddress"])) for one in policy["subjects"]
                  for use in one.get("devices", []) for window in use.get("memory", [])}
    places = {"region": {}, "device": {}}
    for line in text.splitlines():
        kind, *words = line.split(" ")
        if kind in places:
            places[kind][words[2]] = int(words[0], 16)
        else:
            name, guest, size, rights, shown = words
            # a region and a device's memory may have one printed name
            of = "device" if (name, int(guest, 16)) in on_devices else "region"
            subjects[name].windows.append(Window(int(guest, 16), int(size, 16), RIGHTS[rights], places[of][shown]))
    return list(subjects.values()), places["region"]
