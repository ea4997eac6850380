"""Numbers with what they count, or in decimal, and names that have to be known."""
import re

from looking.wrong import Wrong

# what the forms have before a hexadecimal number, and what isn't behind one; the report's script takes the same
HEXADECIMAL = re.compile(r"(?:= |[+(]|\b0x|\bports? |\bMSRs? |\bfrom |\bdma at |\bdropped at |(?<!CPU )\bto )([0-9a-f]+)(?![\w.|:+-])")


def counted(count, word):
    """So many of what the word names."""
    return f"{count} {word}{'' if count == 1 else 's'}"


def both(value):
    """A number in hexadecimal, and in decimal where that looks otherwise."""
    return f"{value:x} ({value})" if value > 9 else f"{value:x}"


def decimals(text):
    """What the hexadecimal numbers in the words of a form are in decimal, where that looks otherwise."""
    digits = dict.fromkeys(HEXADECIMAL.findall(text))
    return ", ".join(f"{one} is {int(one, 16)}" for one in digits if int(one, 16) > 9)


def want_subject(name, subjects):
    """One of the subjects has this name, or Wrong."""
    subjects = list(subjects)
    if name not in subjects:
        raise Wrong(f"no subject is {name}; there are {', '.join(subjects)}")
