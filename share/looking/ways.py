"""look ways: the direct flows of a system, whether a way leads from one end to another, and whether claims on ways hold.

A flow is what docs/flows.md calls so. Ways over devices are told apart from these, as `muen flows`
doesn't count them; claims count them.
"""
from looking import claims
from looking.scene import add_system, scene_of
from looking.steps import device_names, device_steps, end_steps, steps
from looking.wrong import Wrong

HELP = "Lists the direct flows of a policy or an image, tells a shortest way from A to B, or checks claims on ways."
LONG_HELP = """Lists the direct flows of a policy or an image, and the ways over devices; or tells a shortest
way from A to B, also one that doesn't pass X; or checks a claim, or a file of claims:

  look ways gateway.json
  look ways gateway.json plain black without cipher
  look ways gateway.json --never black plain
  look ways gateway.json --only plain net --by cipher
  look ways gateway.json --reaches keys black --without plain slots
  look ways gateway.json --claims gateway.claims

Ends are subjects and devices. A claim counts all steps, those to and from devices too, by ports,
memory, interrupts and what a device's domain shows; devices of one domain count as one. Where it
holds, `holds` is printed; else a shortest way that breaks it, step by step, and the status is 1.

A file has a claim on each line, and comments behind #:

  never black plain
  never black plain without cipher keys
  only plain net by cipher
  reaches keys black

It is told which of them are broken, and how many hold; the status is 1 where one is broken or
names nobody. A device whose name a subject has, too, is device:NAME. An image with devices
wants --dma here."""


def add_arguments(parser):
    """The words of the form."""
    add_system(parser)
    parser.add_argument("words", metavar="A B without X", nargs="*",
                        help="two subjects or devices, and those that the way shall not pass")
    kinds = parser.add_mutually_exclusive_group()
    kinds.add_argument("--never", nargs=2, metavar=("FROM", "TO"), help="claim that no way leads there")
    kinds.add_argument("--only", nargs=2, metavar=("FROM", "TO"), help="claim that each way there passes one of --by")
    kinds.add_argument("--reaches", nargs=2, metavar=("FROM", "TO"), help="claim that a way leads there")
    kinds.add_argument("--claims", metavar="FILE", help="check all claims of a file; - is standard input")
    parser.add_argument("--without", nargs="+", metavar="NAME", help="with --never or --reaches: ways through these don't count")
    parser.add_argument("--by", nargs="+", metavar="NAME", help="with --only: through whom the ways lead")


def run(arguments):
    """Prints the steps that are asked for, or what becomes of claims."""
    claim = claims.asked(arguments)
    if (claim or arguments.claims) and arguments.words:
        raise Wrong(f"{arguments.words[0]}: a claim has no other words")
    scene = scene_of(arguments)
    if claim or arguments.claims:
        claims.want_tables(arguments, scene)
        return claims.check_file(arguments.claims, scene) if arguments.claims else claims.check(claim, scene)
    flows = steps(scene)
    if not arguments.words:
        for step in [*flows, *device_steps(scene)]:
            print(step)
        return 0
    print("\n".join(answer(scene, flows, *ends(scene, arguments.words))))
    return 0


def ends(scene, words):
    """The two ends and the barred ones that the words name, or Wrong."""
    if len(words) != 2 and not (len(words) > 3 and words[2] == "without"):
        raise Wrong("the words are A B, or A B without X")
    return claims.named(scene, words[0], words[1], words[3:])


def answer(scene, flows, source, target, barred):
    """The lines that tell a shortest way, or that there is none."""
    devices = set(device_names(scene).values()) & {source, target, *barred}
    way = claims.shortest([*flows, *end_steps(scene)] if devices else flows, source, target, barred)
    if way:
        return [str(step) for step in way]
    lines = [f"no {'' if devices else 'declared '}way from {source} to {target}{claims.passing(barred)}"]
    over = [] if devices else claims.shortest([*flows, *device_steps(scene)], source, target, barred)
    return lines + (["over devices, which are no flows:", *map(str, over)] if over else [])
