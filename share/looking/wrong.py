"""What ends a form with one line on standard error."""


class Wrong(Exception):
    """A fault of the input; its text is the line, without `look: `."""
