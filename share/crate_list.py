"""What crates.txt says: which crates there are, lowest first, and what each stands on."""
import pathlib
import re

TOP = pathlib.Path(__file__).resolve().parent.parent


def crates():
    """Of each crate, lowest first, the crates that its own files cite; libraries of the toolchain are left out."""
    cited = {}
    for line in (TOP / "crates.txt").read_text(encoding="utf-8").splitlines():
        name, _, below = line.split("#")[0].partition(":")
        if name.strip():
            cited[name.split()[0]] = below.replace(",", " ").split()
    return {name: [one for one in below if one in cited] for name, below in cited.items()}


def below(crate):
    """The crates that this one stands on, directly or not."""
    cited, found, waiting = crates(), set(), [crate]
    while waiting:
        new = set(cited[waiting.pop()]) - found
        found |= new
        waiting += new
    return found


def above(crate):
    """The crates that stand on this one, directly or not, lowest first: an edit of it proves them anew."""
    cited = crates()
    found = {crate}
    # a crate stands behind all that it cites, so one pass finds all
    for name, below in cited.items():
        if not found.isdisjoint(below):
            found.add(name)
    return [name for name in cited if name in found - {crate}]


def standing_on(what, count):
    """The words that tell how many crates stand on one."""
    return f"{count or 'No'} crate{' stands' if count < 2 else 's stand'} on {what}"


def readme(crate):
    """The README of a crate."""
    return TOP / "crates" / crate / "README.md"


def count_line(crate):
    """The line at the end of its README."""
    count = len(above(crate))
    return standing_on("it", count) + (f" (`share/modules --above {crate}`)." if count else ".")


def counted(text, crate):
    """The text of its README with this line at its end, in place of one that tells another count."""
    kept = re.sub(r"(?m)^(\d+|No) crates? stands? on it\b.*\n?", "", text).rstrip("\n")
    return f"{kept}\n\n{count_line(crate)}\n"
