"""What the checks of whole calls have in common: the texts of share/rows, systems with changes, and calls in a folder of their own."""
import functools
import pathlib
import re
import tempfile

from checking import PROGRAM, TOP, Case, Wrong, call, want

# by this name unittest leaves the lines of this file out of what it shows of a failure
__unittest = True


@functools.cache
def texts(name):
    """The texts of a file of share/rows by their names: a line `## NAME` begins each, and lines behind it that begin with `# ` tell of it."""
    found = {}
    for part in re.split(r"(?m)^## ", (TOP / "share" / "rows" / f"{name}.text").read_text(encoding="utf-8"))[1:]:
        title, text = part.split("\n", 1)
        found[title] = re.sub(r"\A(# .*\n)*", "", text).rstrip("\n")
    return found


SYSTEMS = texts("systems")


def numbered(name, lines):
    """Each of these with a title of its own and itself."""
    return ((f"{name} {number}", line) for number, line in enumerate(lines, 1))


def changed(document, changes):
    """The document with changes, between which are bars: the text before `=>` gives way where it first stands to that behind it."""
    for change in changes.split(" | ") if changes else ():
        old, arrow, new = change.partition("=>")
        if not arrow or old not in document:
            raise Wrong(f"there is no place for {change}")
        document = document.replace(old, new, 1)
    return document


def has_pieces(text, pieces):
    """Whether a text begins with the first of these pieces, between which are three points, and has the others anywhere; whether it is
    the piece where there is but one."""
    first, *others = pieces.split("...")
    return text.startswith(first) and all(piece in text for piece in others) if others else text == first


def with_words(image, words):
    """The image with these words of eight bytes at these places."""
    image = bytearray(image)
    for at, word in words:
        image[at:at + 8] = word.to_bytes(8, "little")
    return bytes(image)


class Calls(Case):
    """Calls in a folder that is each test's own."""

    def setUp(self):
        held = tempfile.TemporaryDirectory()
        self.addCleanup(held.cleanup)
        self.folder = pathlib.Path(held.name)

    def hold(self, **files):
        """Puts files of these bytes or texts into the folder."""
        for name, held in files.items():
            (self.folder / name).write_bytes(held if isinstance(held, bytes) else held.encode())

    def bytes_of(self, name):
        """What a file has, or None where there is none."""
        file = self.folder / name
        return file.read_bytes() if file.is_file() else None

    def ended(self, words):
        """The status of a call, a space and the line of errors; and what it prints."""
        done = call([PROGRAM, *words.split()], self.folder)
        line = done.stderr.decode()
        want(line == "" or line.index("\n") == len(line) - 1, True, f"{words}: it says one line at most")
        return f"{done.returncode} {line.strip()}", done.stdout.decode()

    def answer(self, words):
        """The status of a call that prints nothing, a space and the line of errors."""
        answer, out = self.ended(words)
        want(out, "", f"what {words} prints: {answer}")
        return answer

    def printed(self, words):
        """What is printed by a call that ends well."""
        answer, out = self.ended(words)
        want(answer, "0 ", words)
        return out

    def image(self, policy, **files):
        """The image `i` that `build` writes for a policy, `p`, beside these files."""
        self.hold(p=policy, **files)
        want(self.answer("build p i"), "0 ", "build p i")
        return self.bytes_of("i")
