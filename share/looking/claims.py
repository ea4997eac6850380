"""Claims on ways: that none leads from one end to another, that each passes one of some, or that one leads there."""
from dataclasses import dataclass

from looking.files import read_text
from looking.steps import device_names, end_steps, steps
from looking.words import counted
from looking.wrong import Wrong

# of each kind the word before the names behind its ends, and whether these have to be there
KINDS = {"never": ("without", False), "only": ("by", True), "reaches": ("without", False)}
FORMS = "never A B [without X ..], only A B by X .., or reaches A B [without X ..]"


@dataclass(frozen=True)
class Claim:
    """A claim: its kind, its two ends, and those whom the ways that count don't pass."""
    kind: str
    source: str
    target: str
    names: tuple[str, ...] = ()

    def __str__(self):
        """As a line of a file has it."""
        behind = [KINDS[self.kind][0], *self.names] if self.names else []
        return " ".join([self.kind, self.source, self.target, *behind])


def asked(arguments):
    """The claim of the options, or none."""
    behind = {"without": arguments.without, "by": arguments.by}
    kind = next((kind for kind in KINDS if getattr(arguments, kind)), None)
    for word, names in behind.items():
        if names and (kind is None or KINDS[kind][0] != word):
            fitting = " and ".join(f"--{kind}" for kind, (one, _) in KINDS.items() if one == word)
            raise Wrong(f"--{word} goes with {fitting}")
    if kind is None:
        return None
    names = behind[KINDS[kind][0]]
    if KINDS[kind][1] and not names:
        raise Wrong(f"--{kind} wants --{KINDS[kind][0]}")
    return Claim(kind, *getattr(arguments, kind), tuple(names or ()))


def claim_of(words):
    """The claim of a line's words, or Wrong."""
    kind, rest = words[0], words[3:]
    if kind not in KINDS or len(words) < 3:
        raise Wrong(f"a claim is {FORMS}")
    word, is_wanted = KINDS[kind]
    if (is_wanted or rest) and (len(rest) < 2 or rest[0] != word):
        raise Wrong(f"a claim is {FORMS}")
    return Claim(kind, words[1], words[2], tuple(rest[1:]))


def want_tables(arguments, scene):
    """What devices write has to be known, or Wrong."""
    if not scene.knows_dma:
        raise Wrong(f"{arguments.system}: what its devices write by themselves isn't known without --dma")


# ---- ends and ways

def named(scene, source, target, names):
    """These ends and names as steps have them, or Wrong."""
    known = {}
    for subject in scene.subjects:
        known[subject.name] = known[f"subject:{subject.name}"] = subject.name
    for device, name in device_names(scene).items():
        known[f"device:{device}"] = name
        known[device] = name if name == device else None
    found = []
    for word in (source, target, *names):
        if word not in known:
            listed = ", ".join(word for word in known if ":" not in word)
            raise Wrong(f"no subject or device is {word}; there are {listed}")
        if known[word] is None:
            raise Wrong(f"a subject and a device are {word}: subject:{word} or device:{word} is wanted")
        found.append(known[word])
    if found[0] == found[1] or {*found[:2]} & {*found[2:]}:
        raise Wrong("the ends and the names behind them are different ones")
    return found[0], found[1], found[2:]


def passing(barred):
    """What a way doesn't pass, in words."""
    return f" without {' and '.join(barred)}" if barred else ""


def shortest(all_steps, source, target, barred=()):
    """The steps of a shortest way that passes none of the barred ones, or none."""
    came, round_ = {source: None}, [source]
    while round_ and target not in came:
        reached = []
        for here in round_:
            for step in all_steps:
                if step.source == here and step.target not in came and step.target not in barred:
                    came[step.target] = step
                    reached.append(step.target)
        round_ = reached
    way = []
    while came.get(target):
        way.insert(0, came[target])
        target = came[target].source
    return way


# ---- what becomes of claims

def all_steps(scene):
    """The steps that claims count."""
    return [*steps(scene), *end_steps(scene)]


def why_broken(claim, scene, counted_steps):
    """The lines that tell why a claim doesn't hold; none where it holds."""
    source, target, barred = named(scene, claim.source, claim.target, claim.names)
    way = shortest(counted_steps, source, target, barred)
    if claim.kind == "reaches":
        return [] if way else [f"no way from {source} to {target}{passing(barred)}"]
    return [str(step) for step in way]


def check(claim, scene):
    """Prints that a claim holds, or why it doesn't; 1 where it doesn't."""
    broken = why_broken(claim, scene, all_steps(scene))
    print("\n".join(broken or ["holds"]))
    return 1 if broken else 0


def check_file(file, scene):
    """Prints each claim of a file that is broken or none, and how many hold; 1 where one doesn't."""
    counted_steps, hold, broken, faults = all_steps(scene), 0, 0, 0
    for number, line in enumerate(read_text(file).splitlines(), 1):
        words = line.split("#")[0].split()
        if not words:
            continue
        try:
            claim = claim_of(words)
            lines = why_broken(claim, scene, counted_steps)
        except Wrong as error:
            print(f"{file}:{number}: fault: {error}")
            faults += 1
            continue
        hold, broken = (hold, broken + 1) if lines else (hold + 1, broken)
        if lines:
            print("\n".join([f"{file}:{number}: broken: {claim}", *(f"  {one}" for one in lines)]))
    if not hold + broken + faults:
        raise Wrong(f"{file}: no claim is in it")
    print(f"{counted(hold + broken + faults, 'claim')}: {hold} hold, {broken} broken, {counted(faults, 'fault')}")
    return 1 if broken + faults else 0
