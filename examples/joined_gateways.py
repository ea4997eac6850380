"""The network between two gateways, and a machine behind each of them."""
# both gateways; the subject guest isn't heard
HEARD = [f"{part}_{side}" for side in "ab" for part in ("red", "encrypt", "decrypt", "black")]
TICKS = 400

# who puts a message out, which device has it so many ticks later, and what has become of the message then
WAYS = [
    # the network: what one gateway puts out, the other one takes in
    ("black_a", "wan_b", 5, lambda message: message),
    ("black_b", "wan_a", 5, lambda message: message),
    # the machine behind b answers each number by twice as much, the one behind a each answer by the next number
    ("red_b", "lan_b", 8, lambda message: 2 * message),
    ("red_a", "lan_a", 8, lambda message: message + 1)]


def comes(device, message):
    """The device writes the message, and says so."""
    return [f"dma {device} 4096 {message.to_bytes(8, 'little').hex()}", f"irq {device} rx"]


def answer(tick, lines, memory):
    """The machine behind a begins, with the number 5."""
    found = comes("lan_a", 5) if tick == 10 else []
    for subject, device, ticks, becomes in WAYS:
        for turn in lines.of(tick - ticks):
            if turn.subject == subject and turn.kind == "out":
                found += comes(device, becomes(turn.facts["sent"]))
    return found
