"""The first line in which two runs' texts differ, with what came before it."""
from collections import deque
from itertools import zip_longest

from looking.files import read_text
from looking.system import System
from looking.trace import Teller
from looking.turns import lines_of

# so many lines before it, and so many of its subjects' last turns
LINES, TURNS = 4, 3
END = "the end of the text"


def first_difference(first, second, image):
    """The lines that tell it; none where the texts are the same."""
    texts = [told(file, image) for file in (first, second)]
    before, last = deque(maxlen=LINES), {}
    for number, (one, other) in enumerate(zip_longest(*texts, fillvalue=(END, END, None)), 1):
        if one[0] != other[0]:
            owners = {turn.subject for _, _, turn in (one, other) if turn}
            kept = sorted({*before, *(row for owner in owners for row in last.get(owner, ()))})
            return [f"@@ line {number} @@", *(f"  {text}" for _, text in kept), f"- {one[1]}", f"+ {other[1]}"]
        _, text, turn = one
        before.append((number, text))
        if turn:
            last.setdefault(turn.subject, deque(maxlen=TURNS)).append((number, text))
    return []


def told(file, image):
    """Of each line the line, how it is told, and its turn, or none of a final line."""
    text = read_text(file, 1 << 30)
    teller = Teller(System(image), lines_of(text, file), file) if image else None
    for line, turn in lines_of(text, file):
        yield line, teller.tell(turn) if teller and turn else line, turn
