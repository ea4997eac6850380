"""look draw: pictures of a run and of a system, as SVG."""
import argparse

from looking import draw_flows, draw_matrix, draw_memory, draw_plan, draw_trace
from looking.files import write_text

HELP = "draws a run's turns, the plan, who sees what, the direct flows, or memory, as SVG"
LONG_HELP = """Draws a picture, and prints it as SVG, which any browser shows; where the pointer rests it
tells more, as the whole of a name that is shortened. The same input gives the same picture.
`look draw PICTURE --help` says more of each."""
PICTURES = {"trace": draw_trace, "plan": draw_plan, "matrix": draw_matrix, "flows": draw_flows, "memory": draw_memory}


def add_arguments(parser):
    """The words of this form: those of each picture."""
    pictures = parser.add_subparsers(dest="picture", metavar="PICTURE", required=True)
    for name, module in PICTURES.items():
        own = pictures.add_parser(name, help=module.HELP, description=module.LONG_HELP,
                                  formatter_class=argparse.RawDescriptionHelpFormatter)
        module.add_arguments(own)
        own.add_argument("--output", metavar="FILE", help="write it into this file")


def run(arguments):
    """Prints the picture, or writes it into a file."""
    text = PICTURES[arguments.picture].draw(arguments)
    if arguments.output is None:
        print(text, end="")
    else:
        write_text(arguments.output, text)
    return 0
