"""A card with a ring in the driver's memory. At its doorbell it takes all descriptors that it may, and turns the bytes of each message round."""
import struct

HEARD = ["driver"]
TICKS = 150
RING, DESCRIPTORS = 0x1000, 4


def answer(tick, lines, memory):
    """It has done so three ticks after the doorbell: it writes the message, sets the descriptor's state to 0, and says so."""
    if any(turn.kind == "out" for turn in lines.of(tick - 3)):
        for place in range(RING, RING + 16 * DESCRIPTORS, 16):
            address, length, state = struct.unpack("<QII", memory.dma("card", place, 16))
            message = memory.dma("card", address, length) if 1 <= length <= 64 else None
            if state == 1 and message is not None:
                yield f"dma card {address} {message[::-1].hex()}"
                yield f"dma card {place + 12} 00000000"
                yield "irq card done"
