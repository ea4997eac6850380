"""The direct flows of a system, as docs/flows.md calls them, and what leads over devices, which is told apart from them."""
from dataclasses import dataclass
from itertools import permutations

from looking.image import spread
from looking.scene import Body


@dataclass(frozen=True)
class Step:
    """A direct way from a subject to another one, or from or to a device, its kind, and what carries it."""
    source: str
    target: str
    kind: str
    by: str

    def __str__(self):
        """The line of the step."""
        return f"{self.source} -> {self.target}: {self.kind} {self.by}"


def steps(scene):
    """All direct flows between two subjects, each once, in the order of docs/flows.md."""
    every = [*memory_steps(scene), *event_steps(scene), *plan_steps(scene), *monitor_steps(scene)]
    return [step for step in dict.fromkeys(every) if step.source != step.target]


def memory_steps(scene):
    """From those who may write a channel or a region to those who see it, channels first."""
    for thing in sorted(scene.things, key=lambda thing: thing.kind != "channel"):
        seen = [(subject.name, sight.rights) for subject in scene.subjects for sight in subject.sights
                if sight.thing == thing and thing.kind not in ("state", "device")]
        for (writer, rights), (reader, _) in permutations(seen, 2):
            if "w" in rights:
                yield Step(writer, reader, "channel" if thing.kind == "channel" else "region", thing.name)


def event_steps(scene):
    """From sources of events to targets."""
    for subject in scene.subjects:
        for cause in subject.causes:
            vector = f", vector {cause.vector}" if cause.vector else ""
            by = f"{cause.name + ': ' if cause.name else ''}{cause.way} {cause.number}, {cause.mode}{vector}"
            yield Step(subject.name, cause.target, "handover" if cause.mode == "switch" else "event", by)


def plan_steps(scene):
    """From those who choose major frames to all."""
    for chooser in scene.choosers:
        for subject in scene.subjects:
            yield Step(chooser, subject.name, "tau0", f"chooses the major frames by {scene.choice}")


def monitor_steps(scene):
    """To those who monitor, and from those who may change what they monitor."""
    for subject in scene.subjects:
        for sight in subject.sights:
            if sight.thing.kind == "state":
                who, whom = subject.name, sight.thing.name.rpartition(":")[0]
                yield Step(whom, who, "monitor", f"{who} sees the state of {whom}")
                if "w" in sight.rights:
                    yield Step(who, whom, "monitor", f"{who} may change the state of {whom}")


# ---- devices

@dataclass
class Touch:
    """What a subject gives to devices that count as one, and what it takes from them; some is both."""
    subject: str
    devices: str
    gives: list[str]
    takes: list[str]


def touches(scene, bodies=None):
    """What each subject has to do with the devices of each body, or of each of these."""
    for body in scene.bodies if bodies is None else bodies:
        reached = {sight.thing: sight.rights for sight in body.sights}
        for subject in scene.subjects:
            both = [spread("port", first, last) for device, first, last in subject.ports if device in body.devices]
            takes = [f"{irq}, vector {vector}" for device, irq, vector in subject.interrupts if device in body.devices]
            gives = []
            for sight in subject.sights:
                device, _, memory = sight.thing.name.partition("|")
                if sight.thing.kind == "device" and device in body.devices:
                    (both if "w" in sight.rights else takes).append(memory)
                if "w" in sight.rights and "r" in reached.get(sight.thing, ""):
                    gives.append(f"DMA {sight.thing.name}")
                if "w" in reached.get(sight.thing, ""):
                    takes.append(f"DMA {sight.thing.name}")
            yield Touch(subject.name, body.title, *(list(dict.fromkeys(both + more)) for more in (gives, takes)))


def device_steps(scene):
    """The ways over a device, or over those of a domain, which count as one."""
    found = list(touches(scene))
    return [Step(one.subject, other.subject, "device", one.devices) for one in found for other in found
            if one.gives and other.takes and one.devices == other.devices and one.subject != other.subject]


def device_names(scene):
    """Of each device the name by which steps have it: its own, or device:NAME where a subject has that, too."""
    subjects = {subject.name for subject in scene.subjects}
    return {device: f"device:{device}" if device in subjects else device for body in scene.bodies for device in body.devices}


def end_steps(scene):
    """From subjects to the devices that they give something, back from these, and between those of a domain, which count as one."""
    names = device_names(scene)
    for body in scene.bodies:
        for device in body.devices:
            for touch in touches(scene, [Body([device], None, body.sights)]):
                if touch.gives:
                    yield Step(touch.subject, names[device], "device", ", ".join(touch.gives))
                if touch.takes:
                    yield Step(names[device], touch.subject, "device", ", ".join(touch.takes))
        for one, other in permutations(body.devices, 2):
            yield Step(names[one], names[other], "device", f"in {body.domain}")
