"""The words of share/look: which form they are, and how each fault ends."""
import argparse
import contextlib
import importlib
import io
import os
import signal
import sys

from looking.wrong import Wrong

# the forms, each with the module of this package that has HELP, add_arguments and run
FORMS = {
    "coverage": "coverage",
    "diff": "diff",
    "draw": "draw",
    "image": "image",
    "lint": "lint",
    "names": "names",
    "record": "record",
    "refusal": "refusal",
    "report": "report",
    "trace": "trace",
    "ways": "ways",
}


class Parser(argparse.ArgumentParser):
    """Words that are no form's end as every other fault does."""

    def error(self, message):
        """Ends with one line."""
        raise Wrong(f"{message}; {self.prog} --help says more")

    def print_help(self, file=None):
        """Help that can't be put is a fault, too."""
        (file or sys.stdout).write(self.format_help())


def form(name):
    """The module of a form."""
    return importlib.import_module(f"looking.{FORMS[name]}")


def parser(words):
    """The form that is asked for with its words; all forms where it is none of them."""
    top = Parser(prog="look", description="Looks at what muen reads and writes. An error is one "
                 "line on standard error, and status 1.")
    forms = top.add_subparsers(dest="form", metavar="FORM", required=True)
    for name in words[:1] if words and words[0] in FORMS else FORMS:
        module = form(name)
        text = getattr(module, "LONG_HELP", module.HELP)
        own = forms.add_parser(name, help=module.HELP, description=text,
                               formatter_class=argparse.RawDescriptionHelpFormatter)
        module.add_arguments(own)
    return top


def ended_early():
    """A reader that ends early, as head does, ends this quietly, as it ends share/muen."""
    signal.signal(signal.SIGPIPE, signal.SIG_DFL)
    signal.raise_signal(signal.SIGPIPE)


def drop_output():
    """What is left to be written would only fail again when Python ends."""
    if sys.stdout is not None:
        os.dup2(os.open(os.devnull, os.O_WRONLY), sys.stdout.fileno())


def answer(words):
    """Runs the form, and puts all its output before the status is known."""
    if sys.stdout is None:
        raise Wrong("standard output is closed")
    try:
        arguments = parser(words).parse_args(words)
        return form(arguments.form).run(arguments)
    finally:
        sys.stdout.flush()


def main(words):
    """The status: that of the form, or 1 with a line that says what is wrong."""
    try:
        return answer(words)
    except BrokenPipeError:
        drop_output()
        ended_early()
    except SystemExit as end:
        # argparse has put its help
        return end.code or 0
    except Wrong as error:
        line = str(error)
    except OSError as error:
        drop_output()
        line = f"{error.filename or 'output'}: {error.strerror or error}"
    except UnicodeError as error:
        line = f"text that can't be shown: {error}"
    except KeyboardInterrupt:
        line = "interrupted"
    if sys.stderr is not None:
        print(f"look: {line}".encode("ascii", "backslashreplace").decode(), file=sys.stderr)
    return 1


def said(*words):
    """The status of a form, and what it prints on both streams, without a process of its own."""
    with contextlib.redirect_stdout(io.StringIO()) as out, contextlib.redirect_stderr(out):
        status = main(list(map(str, words)))
    return status, out.getvalue()
