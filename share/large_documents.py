#!/usr/bin/env python3
"""Writes documents of up to the most bytes that muen takes, of the shapes that take it longest, and times it on them.

With --chosen, names that would all fall together in a table whose hash has no key are made first (colliding_names.c, some
minutes), and documents of these are written too."""
import argparse
import json
import pathlib
import random
import resource
import subprocess
import sys
import tempfile

MOST = 4 << 20
PAGE = 4096
DIGITS = "0123456789abcdefghijklmnopqrstuvwxyzABCDEFGHIJKLMNOPQRSTUVWXYZ_-"
# names that somebody has chosen
CHOSEN = []


def name(kind, number):
    """A short name of a kind."""
    text = ""
    while True:
        number, digit = divmod(number, len(DIGITS))
        text = DIGITS[digit] + text
        if number == 0:
            return kind + text


def names(kind, count, style="short"):
    """So many names: short ones, or of 63 letters that differ in the last ones, rising or falling; or chosen ones, as many as there are."""
    if style == "chosen":
        return CHOSEN[:count]
    if style == "short":
        return [name(kind, n) for n in range(count)]
    found = [f"{kind}{n:0>62}" for n in range(count)]
    return found[::-1] if style == "falling" else found


def mixed(items, chance):
    """The same items in another order."""
    items = list(items)
    chance.shuffle(items)
    return items


# ---- policies

def window(region, page, rights="r"):
    return {"region": region, "virtualAddress": page * PAGE, "rights": rights}


class Policy:
    """A policy that keeps the rules but for limits, to which many of a kind can be added."""

    def __init__(self):
        self.top = {"processor": {"logicalCpus": 1}, "memoryBlocks": [], "devices": [], "memory": [{"name": "m", "size": PAGE}],
                    "channels": [], "components": [], "events": [], "subjects": [], "scheduling": {"groups": [], "majorFrames": []},
                    "deviceDomains": []}

    def subject(self, subject_name, **parts):
        made = {"name": subject_name, "cpu": 0, "entry": 0, **parts}
        self.top["subjects"].append(made)
        return made

    def text(self):
        """With each subject in one group, and a major frame, unless there are others."""
        plan = self.top["scheduling"]
        if not self.top["subjects"]:
            self.subject("s")
        if not plan["groups"]:
            plan["groups"] = [{"name": "g", "cpu": 0, "subjects": [s["name"] for s in self.top["subjects"]]}]
        if not plan["majorFrames"]:
            plan["majorFrames"] = [{"cpus": [{"cpu": 0, "minorFrames": [{"group": plan["groups"][0]["name"], "ticks": 1}]}]}]
        return json.dumps({key: value for key, value in self.top.items() if value != []}, separators=(",", ":")).encode()


def subjects(p, n, chance, style):
    for s in names("s", n, style):
        p.subject(s)


def groups(p, n, chance, style):
    for s, g in zip(names("s", n, style), names("g", n, style)):
        p.subject(s)
        p.top["scheduling"]["groups"].append({"name": g, "cpu": 0, "subjects": [s]})


def blocks(p, n, chance, style):
    places = mixed(range(n), chance)
    p.top["memoryBlocks"] = [{"name": b, "physicalAddress": 2 * PAGE * k, "size": PAGE} for b, k in zip(names("b", n, style), places)]


def blocks_meet(p, n, chance, style):
    blocks(p, n, chance, style)
    p.top["memoryBlocks"][-1]["size"] = 2 * PAGE * n


def fixed(p, n, chance, style):
    """Regions at addresses in blocks of their own."""
    blocks(p, n // 2, chance, style)
    places = mixed([b["physicalAddress"] for b in p.top["memoryBlocks"]], chance)
    p.top["memory"] = [{"name": r, "size": PAGE, "physicalAddress": k} for r, k in zip(names("m", n // 2, style), places)]


def fixed_meet(p, n, chance, style):
    fixed(p, n, chance, style)
    p.top["memory"].append({"name": "last", "size": PAGE, "physicalAddress": p.top["memory"][-1]["physicalAddress"]})


def devices(p, n, chance, style):
    """A device for a few of its parts, granted to subjects in turn."""
    each = chance.choice([1, 3, 30, 1000, n])
    p.top["devices"] = [{"name": d} for d in names("d", max(1, n // each))]
    users = [p.subject(s, devices=[]) for s in names("s", max(1, n // chance.choice([1, 10, 1000, n])))]
    for k, d in enumerate(p.top["devices"]):
        parts = names("p", each, style)
        d["ioPorts"] = [{"name": x, "start": (k * each + i) % 65536, "end": (k * each + i) % 65536} for i, x in enumerate(parts)]
        d["irqs"] = [{"name": x} for x in parts]
        d["memory"] = [{"name": x, "physicalAddress": (1 << 30) + PAGE * (k * each + i), "size": PAGE} for i, x in enumerate(parts)]
        users[k % len(users)]["devices"].append({"device": d["name"], "ioPorts": parts, "memory": [
            {"memory": x, "virtualAddress": PAGE * (k * each + i), "rights": "rw"} for i, x in enumerate(parts)]})


def ports(p, n, chance, style):
    """All ports but the last by one range each, and the last two meet."""
    p.top["devices"] = [{"name": "d", "ioPorts": [{"name": x, "start": k, "end": k} for x, k in zip(names("p", min(n, 65536), style), mixed(range(65536), chance))]}]
    p.top["devices"][0]["ioPorts"].append({"name": "last", "start": 0, "end": 0})


def windows(p, n, chance, style):
    """Windows of subjects on regions of their own, or on one."""
    each = chance.choice([1, 10, 1000, n])
    shared = chance.random() < 0.5
    regions = ["m"] if shared else names("m", n, style)
    p.top["memory"] = [{"name": r, "size": PAGE} for r in regions]
    for k, s in enumerate(names("s", max(1, n // each))):
        p.subject(s, memory=[window(regions[(k * each + i) % len(regions)], i, "r" if shared else "rw") for i in mixed(range(each), chance)])


def windows_meet(p, n, chance, style):
    windows(p, n, chance, style)
    last = p.top["subjects"][-1]["memory"]
    last.append(window("m" if p.top["memory"][0]["name"] == "m" else p.top["memory"][0]["name"], last[0]["virtualAddress"] // PAGE))


def sharers(p, n, chance, style):
    """Regions that lists of subjects share."""
    regions = chance.choice([1, 10, 100])
    users = names("s", max(1, n // regions), style)
    p.top["memory"] = [{"name": m, "size": PAGE, "sharedMemory": mixed(users, chance)} for m in names("m", regions)]
    for s in users:
        p.subject(s, memory=[window(m["name"], i, "rw") for i, m in enumerate(p.top["memory"])])


def channels(p, n, chance, style):
    """Channels from some subjects to others, with or without an event."""
    writers = max(1, n // chance.choice([1, 20, 60, 1000]))
    wrote = [p.subject(s, channels=[]) for s in names("w", writers)]
    read = [p.subject(s, channels=[]) for s in names("r", max(1, n // chance.choice([1, 20, 200])))]
    event = chance.random() < 0.5
    for k, c in enumerate(names("c", n, style)):
        p.top["channels"].append({"name": c, "size": PAGE, **({"hasEvent": "switch"} if event else {})})
        a, b = wrote[k % len(wrote)]["channels"], read[k % len(read)]["channels"]
        a.append({"channel": c, "role": "writer", "virtualAddress": PAGE * len(a), **({"call": len(a) % 64} if event else {})})
        b.append({"channel": c, "role": "reader", "virtualAddress": PAGE * len(b)})


def readers(p, n, chance, style):
    """Channels with many readers."""
    many = chance.choice([1, 10, 100])
    p.top["channels"] = [{"name": c, "size": PAGE} for c in names("c", many)]
    p.subject("w", channels=[{"channel": c["name"], "role": "writer", "virtualAddress": PAGE * i} for i, c in enumerate(p.top["channels"])])
    for s in names("r", max(1, n // many), style):
        p.subject(s, channels=[{"channel": c["name"], "role": "reader", "virtualAddress": PAGE * i} for i, c in enumerate(p.top["channels"])])


def components(p, n, chance, style):
    """Many subjects that use components, which provide and ask for much."""
    share = chance.choice([0.02, 0.1, 0.3, 0.5, 0.7])
    each = chance.choice([0, 0, 1, 3, 30])
    provided, many = max(1, int(n * share)), chance.choice([1, 1, 1, 2, 10])
    for c in names("k", many):
        p.top["components"].append({"name": c, "provides": [
            {"logical": x, "virtualAddress": 2 * PAGE * i, "size": PAGE, "rights": "r"}
            for x, i in zip(names("p", max(1, provided // many), style), mixed(range(provided), chance))],
            "memory": [{"logical": x, "virtualAddress": PAGE * (2 * provided + i), "size": PAGE, "rights": "r"} for i, x in enumerate(names("q", each))]})
    for k, s in enumerate(names("s", max(1, int(n * (1 - share)) // (1 + 3 * each)))):
        own = [window("m", 2 * chance.randrange(provided) + 1)] if chance.random() < 0.3 else []
        p.subject(s, component={"ref": name("k", k % many), "map": [{"logical": x, "physical": "m"} for x in names("q", each)]}, memory=own)


def asked(p, n, chance, style):
    """A component that asks for much, and subjects that give some of it, or all."""
    wanted = max(1, int(n * chance.choice([0.01, 0.1, 0.5])))
    users = max(1, int(n * 0.4))
    p.top["components"] = [{"name": "k", "memory": [{"logical": x, "virtualAddress": PAGE * i, "size": PAGE, "rights": "r"} for i, x in enumerate(names("q", wanted, style))]}]
    for k, s in enumerate(names("s", users)):
        p.subject(s, component={"ref": "k", "map": [{"logical": name("q", k % wanted) if style == "short" else p.top["components"][0]["memory"][k % wanted]["logical"], "physical": "m"}]})


def events(p, n, chance, style, modes=("asap", "async", "switch", "self")):
    """Events of all modes between subjects."""
    users = [p.subject(s, sources=[], targets=[]) for s in names("s", max(2, n // chance.choice([1, 10, 50, 100])))]
    for k, e in enumerate(names("e", n, style)):
        mode = chance.choice(modes)
        p.top["events"].append({"name": e, "mode": mode})
        a, b = chance.sample(range(len(users)), 2)
        users[a]["sources"].append({"event": e, "call": len(users[a]["sources"])})
        target = users[a if mode == "self" else b]["targets"]
        target.append({"event": e, **({} if mode == "switch" else {"vector": 32 + len(target) % 224})})


def switches(p, n, chance, style):
    """Events that switch, between subjects of other classes; those of a class are listed by many groups, and the last group lists all, or none does."""
    classes, each, times = chance.choice([(2, 140, 1), (2, 140, 16), (4, 57, 1), (8, 27, 1), (2, 60, 1), (2, 60, 30)])
    found = names("", classes * each)
    users = [p.subject(s, sources=[], targets=[]) for s in found]
    listed = []
    for k in range(max(1, n // (classes * each))):
        listed += [found[c * each:(c + 1) * each] for c in range(classes) if c == 0 or k % times == 0]
    if chance.random() < 0.7:
        listed.append(found)
    p.top["scheduling"]["groups"] = [{"name": g, "cpu": 0, "subjects": x} for g, x in zip(names("", len(listed)), listed)]
    pairs = [(a, b) for a in range(len(users)) for b in range(len(users)) if a // each != b // each]
    for (a, b), e in zip(pairs, names("", len(pairs))):
        p.top["events"].append({"name": e, "mode": "switch"})
        users[a]["sources"].append({"event": e, "call": 0})
        users[b]["targets"].append({"event": e})


def frames(p, n, chance, style):
    """Major frames of eight CPUs, with many minor frames."""
    each = chance.choice([1, 8, 100, n // 8])
    p.top["processor"]["logicalCpus"] = 8
    for cpu in range(8):
        p.subject(name("s", cpu))["cpu"] = cpu
        p.top["scheduling"]["groups"].append({"name": name("g", cpu), "cpu": cpu, "subjects": [name("s", cpu)]})
    p.top["scheduling"]["majorFrames"] = [
        {"cpus": [{"cpu": c, "minorFrames": [{"group": name("g", c), "ticks": 1}] * max(1, each)} for c in range(8)]} for _ in range(max(1, n // (8 * max(1, each))))]


def msrs(p, n, chance, style):
    """Ranges of MSRs, of which the last two meet."""
    each = chance.choice([64, 1000, 8192])
    for s in names("s", max(1, n // each), style):
        p.subject(s, msrs=[{"start": k, "end": k, "rights": "r"} for k in mixed(range(min(each, 8192)), chance)])
    p.top["subjects"][-1]["msrs"].append({"start": 0, "end": 8191, "rights": "r"})


def monitors(p, n, chance, style):
    """Subjects that monitor many others."""
    watching = chance.choice([1, 30, 200])
    watched = names("s", max(1, n // watching), style)
    for s in watched:
        p.subject(s)
    for s in names("t", watching):
        p.subject(s, monitors=[{"subject": x, "virtualAddress": PAGE * i, "rights": "r"} for i, x in enumerate(mixed(watched, chance))])


def domains(p, n, chance, style):
    """As many windows of domains as fit on one region, of which the last two meet."""
    many = chance.choice([1, 32])
    blocks(p, 1, chance, "short")
    p.top["deviceDomains"] = [{"name": d, "memory": [window("m", i, "rw") for i in mixed(range(n // many), chance)]} for d in names("x", many)]
    p.top["deviceDomains"][-1]["memory"].append(window("m", 0, "rw"))


def domain_devices(p, n, chance, style):
    """As many devices of domains as fit, of which the last isn't there."""
    p.top["devices"] = [{"name": d, "bdf": {"bus": 0, "device": k, "function": 0}} for k, d in enumerate(names("d", 32))]
    p.top["deviceDomains"] = [{"name": "x", "devices": [name("d", k % 32) for k in range(n)] + ["none"]}]


SHAPES = [subjects, groups, blocks, blocks_meet, fixed, fixed_meet, devices, ports, windows, windows_meet, sharers, channels, readers,
          components, asked, events, switches, frames, msrs, monitors, domains, domain_devices]


def policy(shapes, seed, style):
    """The text of a policy of these shapes, as large as is taken."""
    def made(count):
        chance, p = random.Random(seed), Policy()
        p.top["memory"] = []
        for shape in shapes:
            part = Policy()
            shape(part, max(2, count // len(shapes)), chance, style)
            join(p, part, shape.__name__ if len(shapes) > 1 else "")
        return p.text()
    count = len(CHOSEN) if style == "chosen" else 20000
    for _ in range(1 if style == "chosen" else 8):
        text = made(count)
        if 0.9 * MOST < len(text) <= MOST:
            break
        count = max(2, int(count * min(4, 0.97 * MOST / len(text))))
    return text if len(text) <= MOST else made(count // 2)


def join(p, part, mark):
    """Adds all of a policy to another, whose names get a mark."""
    def marked(value, key=""):
        if isinstance(value, dict):
            return {k: marked(v, k) for k, v in value.items()}
        if isinstance(value, list):
            return [marked(v, key) for v in value]
        own = isinstance(value, str) and key not in ("rights", "role", "mode", "hasEvent", "logical")
        return (value + "." + mark)[:63] if own and mark else value
    for key, value in marked(part.top).items():
        if isinstance(value, list):
            p.top[key] += value
        elif key == "processor":
            p.top[key]["logicalCpus"] = max(p.top[key]["logicalCpus"], value["logicalCpus"])
        else:
            p.top[key]["groups"] += value["groups"]
            p.top[key]["majorFrames"] += value["majorFrames"]


# ---- texts that are no policies

def texts():
    """Texts whose only fault comes last, by their names."""
    def filled(front, item, back):
        return front + (item * (MOST // len(item)))[:MOST - len(front) - len(back) - len(item)].rsplit(item[-1:], 1)[0] + item[-1:] + back
    rising = [b'"%s":0' % name("", k).encode() for k in range(MOST // 9)]
    digits = b"".join(b"%d" % k for k in range(1000))
    yield "brackets", b"[" * MOST
    yield "open_lists", b"[[" * 60 + b"[]," * (MOST // 3 - 100)
    for what, item in (("numbers", b"0,"), ("texts", b'"",'), ("lists", b"[],"), ("objects", b"{},"), ("escapes", b'"\\u00e9",'), ("halves", b"9007199254740993.0,"),
                       ("hard_floats", b"1.00000000000000011102230246251565404236316680908203124,"), ("small_floats", b"2.2250738585072011e-308,"),
                       ("powers", b"1e-300,"), ("long_floats", b"0." + digits[:700] + b"e-5,")):
        yield what, (b'{"description":[' + item * ((MOST - 20) // len(item)))[:-1] + b"]"
    yield "one_number", b"[" + b"7" * (MOST - 2) + b"]"
    yield "one_fraction", b"[0." + b"7" * (MOST - 4) + b"]"
    yield "one_text", b'["' + b"x" * (MOST - 4) + b'"]'
    yield "one_key", b"{" + b'"a":{},' * (MOST // 7 - 1) + b'"a":1}'
    for what, keys in (("rising", sorted(rising)), ("falling", sorted(rising)[::-1]), ("mixed", mixed(rising, random.Random(0)))):
        yield f"keys_{what}", b"{" + b",".join(keys)[:MOST - 2].rsplit(b",", 1)[0] + b"}"
    yield "keys_long", b"{" + b",".join(b'"%s%06x":0' % (b"k" * 200, k) for k in range(MOST // 220)) + b"}"
    yield "not_utf8", b'"' + "é".encode() * (MOST // 2 - 2) + b"\xff"
    yield "blanks", b" " * MOST


# ---- names that fall together

def colliding(count, folder):
    """So many names that have one group and one tag in a table of 2^11 groups whose hash has no key."""
    made = pathlib.Path(folder, "colliding_names")
    subprocess.run(["cc", "-O2", "-o", made, pathlib.Path(__file__).with_name("colliding_names.c")], check=True)
    return subprocess.run([made, str(count), "11"], check=True, capture_output=True, text=True).stdout.split()


# ---- times

def timed(words, folder):
    """The processor's seconds, the status and the line of errors of a call."""
    before = resource.getrusage(resource.RUSAGE_CHILDREN)
    done = subprocess.run(words, cwd=folder, capture_output=True)
    after = resource.getrusage(resource.RUSAGE_CHILDREN)
    return after.ru_utime + after.ru_stime - before.ru_utime - before.ru_stime, done.returncode, done.stderr.decode().strip()[:80]


def documents(chance, count):
    """Each text, each shape by itself, and so many shapes and pairs of shapes by chance."""
    yield from texts()
    for shape in SHAPES:
        for style in ("short", "rising", "falling") + (("chosen",) if CHOSEN else ()):
            yield f"{shape.__name__}-{style}", policy([shape], 1, style)
    for _ in range(count):
        shapes, seed, style = chance.sample(SHAPES, chance.choice([1, 1, 2, 3])), chance.randrange(10 ** 6), chance.choice(["short", "short", "rising", "falling"])
        yield f"{'+'.join(s.__name__ for s in shapes)}-{style}-{seed}", policy(shapes, seed, style)


def main():
    words = argparse.ArgumentParser(description=__doc__)
    words.add_argument("program", help="the program, as crates/muen/out/muen")
    words.add_argument("--random", type=int, default=40, help="how many documents of shapes by chance (40)")
    words.add_argument("--seed", type=int, default=0)
    words.add_argument("--command", default="flows", choices=["flows", "map"], help="flows, or map")
    words.add_argument("--chosen", type=int, default=0, metavar="COUNT", help="documents of so many names that fall together without a key, too")
    words.add_argument("--keep", type=pathlib.Path, help="a folder for the ten slowest documents")
    said = words.parse_args()
    program = pathlib.Path(said.program).resolve()
    if not program.is_file():
        sys.exit(f"large_documents: {said.program} isn't there")
    found = []
    with tempfile.TemporaryDirectory() as folder:
        CHOSEN.extend(colliding(said.chosen, folder) if said.chosen else [])
        for what, text in documents(random.Random(said.seed), said.random):
            pathlib.Path(folder, "policy").write_bytes(text)
            seconds, status, line = timed([program, said.command, "policy"], folder)
            print(f"{seconds:7.2f} s {len(text):8} bytes  {what}: {status} {line}", flush=True)
            found.append((seconds, what, text, line))
    print("\nThe ten slowest:")
    for seconds, what, text, line in sorted(found, reverse=True, key=lambda x: x[0])[:10]:
        print(f"{seconds:7.2f} s  {what}: {line}")
        if said.keep:
            said.keep.mkdir(exist_ok=True)
            (said.keep / f"{what}.json").write_bytes(text)


if __name__ == "__main__":
    main()
