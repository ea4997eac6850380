"""Files as forms read them: whole, within a limit, and with each fault in words."""
import pathlib
import sys
import tempfile

from looking.wrong import Wrong

MEBIBYTE = 1 << 20


def read_bytes(name, limit=64 * MEBIBYTE):
    """The bytes of a file of at most so many; `-` is standard input."""
    try:
        if name == "-":
            if sys.stdin is None:
                raise Wrong("standard input is closed")
            content = sys.stdin.buffer.read(limit + 1)
        else:
            with open(name, "rb") as file:
                content = file.read(limit + 1)
    except (OSError, ValueError) as error:
        raise Wrong(f"{name}: {getattr(error, 'strerror', None) or error}") from None
    if len(content) > limit:
        raise Wrong(f"{name}: more than {limit} bytes")
    return content


def write_text(name, text, encoding="ascii"):
    """Writes a file in one step, so that it is never there in part."""
    file = pathlib.Path(name)
    try:
        if file.exists() and not file.is_file():
            # a device or a pipe can't be replaced
            file.write_text(text, encoding=encoding)
            return
        with tempfile.NamedTemporaryFile("w", encoding=encoding, newline="", dir=file.parent, prefix=f".{file.name[:40]}.", delete=False) as begun:
            begun.write(text)
        pathlib.Path(begun.name).chmod(0o644)
        pathlib.Path(begun.name).replace(file)
    except OSError as error:
        raise Wrong(f"{name}: {error.strerror}") from None


def read_text(name, limit=64 * MEBIBYTE):
    """The text of such a file."""
    try:
        return read_bytes(name, limit).decode("ascii")
    except UnicodeDecodeError as error:
        raise Wrong(f"{name}: a byte above 127 at {error.start}") from None
