"""A policy's file as the forms read it, and how they write places."""
from looking.files import read_bytes
from looking.places import document_of
from looking.policy import Policy
from looking.refused import refusals
from looking.wrong import Wrong


def at(file, spot):
    """A place of a file."""
    return f"{file}:{spot.line}:{spot.column}"


def opened(file):
    """The document of a file, or NotJson."""
    return document_of(read_bytes(file))


def document_in_shape(file):
    """The document of a file that is JSON and follows the schema, or Wrong."""
    document, found = refusals(file)
    if found and found[0].kind in ("not-json", "shape"):
        raise Wrong(f"{at(file, found[0].spot)}: {found[0].line}: {found[0].text}")
    return document


def lawful(file):
    """The policy of a file that keeps the rules too, or Wrong; whether its contents are there isn't asked."""
    document, found = refusals(file)
    if found and found[0].of_policy:
        raise Wrong(f"{at(file, found[0].spot)}: {found[0].line}: {found[0].text}")
    return Policy(document)
