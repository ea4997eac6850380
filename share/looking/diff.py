"""look diff: where two images, two policies or two runs' texts say different things."""
import difflib
import pathlib

from looking.diff_policies import differences
from looking.diff_traces import first_difference
from looking.document import document_in_shape
from looking.image import sections_of
from looking.wrong import Wrong

HELP = "the difference of two images, two policies or two runs; nothing, and status 0, where they say the same"
LONG_HELP = """Prints where two files of a kind say different things. The status is 0 where both say the same,
and then nothing is printed, and 1 where they differ.

  look diff old.img new.img --dma old.dma new.dma
  look diff old.json new.json
  look diff old.trace new.trace --image gateway.img

Of two images: of each section of `look image` that differs its title, then the lines of A alone
behind -, those of B alone behind +, with a line around them.
Of two policies: what was added, removed or changed from A to B, element by element, and lists
whose order matters in another order. How numbers are spelled, defaults that are written out,
descriptions and the order of other lists don't count. Addresses and sizes are hexadecimal.
Of two runs' texts: the first line that differs, behind the lines that came before it and the
last turns of its subjects; with --image, turns are told as `look trace` does."""
KINDS = {"image": "two images", "policy": "two policies", "trace": "two runs' texts"}


def add_arguments(parser):
    """The words of this form."""
    parser.add_argument("first", metavar="A", help="an image, a policy, or what `muen run` printed")
    parser.add_argument("second", metavar="B", help="another one")
    parser.add_argument("--dma", nargs=2, metavar=("A", "B"), help="of two images: their files of DMA tables")
    parser.add_argument("--code", action="store_true",
                        help="of two images: compare the instructions of spans that may run, too")
    parser.add_argument("--image", metavar="IMAGE", help="of two runs' texts: the image that was run")


def run(arguments):
    """Prints what differs; 1 where something does."""
    kind = common_kind(arguments.first, arguments.second)
    for word, given, wanted in (("--dma", arguments.dma, "image"), ("--code", arguments.code, "image"), ("--image", arguments.image, "trace")):
        if given and kind != wanted:
            raise Wrong(f"{word} goes with {KINDS[wanted]}")
    if kind == "policy":
        lines = list(differences(*map(document_in_shape, (arguments.first, arguments.second))))
    elif kind == "trace":
        lines = first_difference(arguments.first, arguments.second, arguments.image)
    else:
        lines = list(sections(arguments))
    if lines:
        print("\n".join([f"--- {arguments.first}", f"+++ {arguments.second}", *lines]))
    return 1 if lines else 0


def common_kind(first, second):
    """The kind of two files, or Wrong; a pipe is of the other one's kind."""
    found = [kind for kind in map(kind_of, (first, second)) if kind]
    if len(set(found)) > 1:
        raise Wrong(f"{first} and {second} are of two kinds: {found[0]} and {found[1]}")
    return found[0] if found else "trace"


def kind_of(file):
    """Which kind a file is of by its first bytes; none of a pipe, which can be read once alone."""
    if not pathlib.Path(file).is_file():
        return None
    with open(file, "rb") as opened:
        begin = opened.read(4096)
    if begin.startswith(b"MUENIMG"):
        return "image"
    return "policy" if begin.lstrip().startswith(b"{") else "trace"


# ---- images

def sections(arguments):
    """The sections of two images that differ, with their lines."""
    dma = arguments.dma or (None, None)
    first = dict(sections_of(arguments.first, dma[0], arguments.code))
    second = dict(sections_of(arguments.second, dma[1], arguments.code))
    for title in [*first, *(title for title in second if title not in first)]:
        if lines := difference(first.get(title, []), second.get(title, [])):
            yield from [f"@@ {title} @@", *lines]


def difference(first, second):
    """The lines of a section that differ, unified."""
    lines = difflib.unified_diff(first, second, n=1, lineterm="")
    return [line for at, line in enumerate(lines) if at > 1 and not line.startswith("@@")]
