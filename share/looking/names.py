"""look names: the constants of a subject as assembly, from its policy."""
import re
from collections import Counter
from dataclasses import dataclass

from looking.document import lawful
from looking.policy import first, name
from looking.schema import number_of
from looking.words import want_subject
from looking.wrong import Wrong

HELP = "the constants of subjects as assembly: addresses, calls, vectors, ports, MSRs"
LONG_HELP = """Prints what a policy says of a subject as names for numbers, a line each, which stand before
a source, so that no number of the policy stands in it; share/try does so by itself:

  share/look names gateway.json black > black.names
  share/muen_asm hex black.names black_code.asm

Of several subjects, which run one source, it prints what stands for the same number with all.

  entry                the address of its first instruction
  job, .size, .end     a window on the region or channel job: where it begins, its bytes, what
                       is behind it; by its logical name where a component has it
  net.ring             the same of the memory ring of the device net
  keys.state           the same of the state page of the subject keys, which it monitors;
                       keys.state.entry is the entry of keys
  job.call             the call that raises an event, a channel's or one by itself
  job.vector           the vector under which one comes; job.handler is 8 times as much
  net.regs, .last      the first and the last of the ports regs of the device net
  net.rx.vector        the vector of its interrupt rx, and so .handler
  dnet.ring, .size ..  the same of the region ring for the devices of their domain dnet
  msr.c0000080         an MSR that is granted

The second window on one thing is job.2, the second call of an event tell tell.2.call. In names
- becomes _, and one that begins with no letter has _ in front. Where two things would have one
name then, or one would have more than 63 characters, that is told, and nothing printed."""
MOST = 63
HANDLER = 8


@dataclass
class Thing:
    """What has a name: what it is, and of each of its constants the end of the name, the number, and what this is."""
    name: str
    what: str
    constants: list[tuple[str, str, str]]


def add_arguments(parser):
    """The words of the form."""
    parser.add_argument("policy", metavar="POLICY", help="a policy; - is standard input")
    parser.add_argument("subjects", metavar="SUBJECT", nargs="+", help="whose constants are printed")


def run(arguments):
    """Prints the lines."""
    policy = lawful(arguments.policy)
    for subject in arguments.subjects:
        want_subject(subject, map(name, policy.subjects))
    print(text_of(policy, [first(policy.subjects, subject) for subject in arguments.subjects]), end="")
    return 0


def text_of(policy, subjects):
    """The lines of the constants that all these subjects have; a comment stands where it is that of all."""
    first_lines, *others = [dict(named(things(policy, subject))) for subject in subjects]
    wide = max(map(len, first_lines))
    lines = [f"; the constants of {', '.join(map(name, subjects))}, by share/look names"]
    for text, comment in first_lines.items():
        if all(text in other for other in others):
            is_common = all(other[text] == comment for other in others)
            lines.append(f"{text:{wide}}  ; {comment}" if is_common else text)
    return "".join(f"{line}\n" for line in lines)


def names_of(policy, titles):
    """The names that stand before the source of contents: of the subjects that may run them, or else of those that see them. Nothing where nobody does."""
    windows = [(subject, window) for subject in policy.subjects for window in policy.windows(subject) if title_of(policy, subject, window) in titles]
    runners = [subject for subject, window in windows if "x" in window.rights] or [subject for subject, _ in windows]
    return text_of(policy, list({name(subject): subject for subject in runners}.values())) if runners else ""


def title_of(policy, subject, window):
    """The name of the content that a window shows: as `contents_of` has it, or none."""
    if window.kind == "provided":
        return f"{name(policy.component(subject))}_{window.shows}"
    return window.shows if window.kind == "region" else None


def named(all_things):
    """Of each constant its line and the comment behind it; no two have one name, or Wrong."""
    owners, met = {}, Counter()
    for thing in all_things:
        met[thing.name, thing.what] += 1
        times = met[thing.name, thing.what]
        front = spelled(thing.name) + (f".{times}" if times > 1 else "")
        for end, number, comment in thing.constants:
            whole = front + end
            if len(whole) > MOST:
                raise Wrong(f"{whole} has {len(whole)} characters, and a name in assembly at most {MOST}")
            if whole in owners:
                raise Wrong(f"{whole} would be {owners[whole]}, and {thing.what}: one of them wants another name")
            owners[whole] = thing.what
            yield f"{whole} = {number}", comment


def spelled(text):
    """A name of a policy as a name in assembly."""
    text = text.replace("-", "_")
    return text if re.match("[A-Za-z_]", text) else f"_{text}"


def hexadecimal(value):
    """A number with an underscore between each four digits."""
    return f"0x{value:_x}"


# ---- what has a name

def things(policy, subject):
    """All that a subject has, each kind in the order of the policy."""
    yield Thing("entry", "the entry", [("", hexadecimal(number_of(subject.get("entry"))), "its first instruction")])
    ends = {end.named.path: end for end in policy.ends(subject)}
    logical = {entry.path: name(entry, "logical") for entry in policy.entries(subject)}
    for window in policy.windows(subject):
        yield window_thing(policy, window, logical.get(window.node.path), ends.get(window.node.path))
    for use in subject.items("devices"):
        yield from device_things(policy, first(policy.devices, use.text("device")), use)
    for grant in subject.items("msrs"):
        for index in range(number_of(grant.get("start")), number_of(grant.get("end")) + 1):
            yield Thing(f"msr.{index:x}", f"MSR {index:x}", [("", hexadecimal(index), f"MSR, {name(grant, 'rights')}")])
    for key, role in (("sources", "call"), ("targets", "vector")):
        for node in subject.items(key):
            event = name(node, "event")
            yield Thing(event, f"the {role} of the event {event}", event_constants(node.get("call"), node.get("vector"), f"event {event}"))


def window_thing(policy, window, logical, end):
    """A window, with the event of its channel, if it is an end of one that has an event."""
    own = {"device": f"{window.device}.{window.shows}", "state": f"{window.shows}.state"}.get(window.kind, logical or window.shows)
    shows = {"device": f"memory {window.shows} of {window.device}", "state": f"state of {window.shows}",
             "channel": f"channel {window.shows}"}.get(window.kind, f"{window.kind} {window.shows}")
    constants = [("", hexadecimal(window.start), f"{shows}, {window.rights}"), (".size", hexadecimal(window.size), "its bytes"),
                 (".end", hexadecimal(window.end), "behind its last byte")]
    if window.kind == "state":
        entry = first(policy.subjects, window.shows).get("entry")
        constants.append((".entry", hexadecimal(number_of(entry)), f"the first instruction of {window.shows}"))
    if end:
        constants += event_constants(end.call, end.vector, f"event of {window.shows}")
    return Thing(own, f"the {shows}", constants)


def device_things(policy, device, use):
    """The ports and interrupts of a device that a subject is granted, and what it sees by itself."""
    for port in use.items("ioPorts"):
        ports = first(device.items("ioPorts"), port.value)
        begin, last = (hexadecimal(number_of(ports.get(key))) for key in ("start", "end"))
        yield Thing(f"{name(device)}.{port.value}", f"the ports {port.value} of {name(device)}",
                    [("", begin, f"first port of {name(device)}"), (".last", last, "its last port")])
    for irq in use.items("irqs"):
        yield Thing(f"{name(device)}.{name(irq, 'irq')}", f"the interrupt {name(irq, 'irq')} of {name(device)}",
                    event_constants(None, irq.get("vector"), f"interrupt of {name(device)}"))
    yield from domain_things(policy, device)


def domain_things(policy, device):
    """What the domain of a device shows it."""
    for domain in policy.domains:
        if name(device) in [member.value for member in domain.items("devices")]:
            for node in domain.items("memory"):
                region, start = first(policy.memory, node.text("region")), number_of(node.get("virtualAddress"))
                size = number_of(region.get("size"))
                yield Thing(f"{name(domain)}.{name(region)}", f"the region {name(region)} of the domain {name(domain)}",
                            [("", hexadecimal(start), f"region {name(region)}, as {name(device)} has it"), (".size", hexadecimal(size), "its bytes"),
                             (".end", hexadecimal(start + size), "behind its last byte")])


def event_constants(call, vector, told):
    """Those of the values that spell a call and a vector, as far as they stand there."""
    found = []
    if call is not None:
        found.append((".call", str(number_of(call)), f"raises the {told}"))
    if vector is not None:
        found += [(".vector", str(number_of(vector)), f"of the {told}"), (".handler", str(HANDLER * number_of(vector)), "from SETV's base on")]
    return found
