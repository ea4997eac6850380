"""A timer. A number that is put out to its port says in how many ticks it rings."""
TICKS = 60


def answer(tick, lines, memory):
    """It rings where an order was as long ago as it says."""
    return ["irq timer ring" for turn in lines if turn.kind == "out" and turn.tick + turn.facts["sent"] == tick]
