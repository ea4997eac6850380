"""What the programs answer."""
import re
import subprocess

import running
from looking.wrong import Wrong

NAME = re.compile("muen(_asm|_lint)?: ")


def add_program(parser):
    """The option that names the program."""
    parser.add_argument("--program", metavar="PROGRAM", help="the program muen; without it, the one that share/muen runs")


def program_of(arguments):
    """The program of the option, or the one that is built or kept, or Wrong."""
    return arguments.program or program_named("muen")


def program_named(name):
    """The program of this name that is built or kept, or Wrong."""
    try:
        return str(running.program(name))
    except running.NoProgram as error:
        raise Wrong(f"the program {name}: {error}") from None


def call(program, *words):
    """The status and the line of errors of a call, without its `muen: `."""
    return answer(program, *words)[:2]


def output(program, *words):
    """What a call prints, or Wrong with its line."""
    status, line, text = answer(program, *words)
    if status:
        raise Wrong(f"muen {words[0]} answers with status {status}: {line}")
    return text.decode("ascii")


def answer(program, *words, given=b""):
    """The status of a call that is given these bytes, its line of errors without the program's name, and what it prints."""
    try:
        done = subprocess.run([program, *map(str, words)], input=given, capture_output=True, check=False)
    except OSError as error:
        raise Wrong(f"the program {program}: {error.strerror}; README says how it is built") from None
    line = done.stderr.decode("utf-8", "replace").rstrip("\n")
    own = NAME.match(line)
    if done.returncode not in range(11) or done.returncode and not own:
        raise Wrong(f"{program} ended with status {done.returncode}: {line}")
    return done.returncode, line[own.end():] if own else line, done.stdout
