"""A system of many subjects on many CPUs, which pass a number round a ring of channels with events, for pages and pictures."""
import json

OPCODES = {"LI": 0x01, "ADD": 0x04, "LOAD": 0x0b, "STORE": 0x0c, "JMP": 0x0d, "JZ": 0x0e, "IN": 0x11, "OUT": 0x12, "VMCALL": 0x16, "HLT": 0x17,
           "STI": 0x18, "SETV": 0x1a, "RETI": 0x1b}
CODE, OUT, IN, BUS = 0x400000, 0x600000, 0x601000, 0x700000
VECTOR, CLOCK, HANDLER = 40, 41, 0x200


def word(name, rd=0, rs=0, imm=0, size=0):
    """An instruction in hexadecimal digits."""
    return (bytes([OPCODES[name], rd << 4 | rs, size, 0]) + imm.to_bytes(4, "little", signed=True)).hex()


def program():
    """Waits; adds one to the number that comes in, sends it on, and raises an event. The clock's interrupt begins it."""
    parts = {0: [word("LI", 9, imm=CODE), word("SETV", 0, 9), word("LI", 1, imm=OUT), word("LI", 2, imm=IN), word("LI", 3, imm=1), word("STI"),
                 word("HLT"), word("JMP", imm=-8)],
             8 * VECTOR: [word("JMP", imm=HANDLER - 8 * VECTOR)], 8 * CLOCK: [word("JMP", imm=HANDLER + 8 - 8 * CLOCK)],
             HANDLER: [word("LOAD", 5, 2, size=3), word("ADD", 5, 3), word("STORE", 5, 1, size=3), word("VMCALL", 0, 3), word("RETI")]}
    text = ""
    for at, words in parts.items():
        text = text.ljust(2 * at, "0") + "".join(words)
    return text


def record(ticks):
    """The clock ticks in every five thousandth tick."""
    return "".join(f"irq {tick} clock tick\n" for tick in range(100, ticks, 5000)) + f"end {ticks}\n"


def system(cpus, each):
    """The policy, with so many subjects on each CPU; the first writes a bus that all others read."""
    count = cpus * each
    memory = [{"name": "code", "size": 4096, "content": {"hex": program()}},
              {"name": "bus", "size": 4096, "sharedMemory": [f"s{at}" for at in range(count)]}]
    channels = [{"name": f"c{at}", "size": 4096, "hasEvent": "asap"} for at in range(count)]
    subjects = [{"name": f"s{at}", "cpu": at % cpus, "entry": CODE,
                 "memory": [{"region": "code", "virtualAddress": CODE, "rights": "rx"}, {"region": "bus", "virtualAddress": BUS, "rights": "r" if at else "rw"}],
                 "channels": [{"channel": f"c{at}", "role": "writer", "virtualAddress": OUT, "call": 1},
                              {"channel": f"c{(at - 1) % count}", "role": "reader", "virtualAddress": IN, "vector": VECTOR}]} for at in range(count)]
    subjects[0]["devices"] = [{"device": "clock", "irqs": [{"irq": "tick", "vector": CLOCK}]}]
    groups = [{"name": f"g{at}", "cpu": at % cpus, "subjects": [f"s{at}"]} for at in range(count)]
    frame = [{"cpu": cpu, "minorFrames": [{"group": f"g{at}", "ticks": 10} for at in range(cpu, count, cpus)]} for cpu in range(cpus)]
    return json.dumps({"description": "A ring, made for pages.", "processor": {"logicalCpus": cpus},
                       "memoryBlocks": [{"name": "ram", "physicalAddress": 0x1000000, "size": 0x4000000}], "memory": memory,
                       "devices": [{"name": "clock", "irqs": [{"name": "tick"}], "bdf": {"bus": 0, "device": 3, "function": 0}}], "channels": channels,
                       "subjects": subjects, "scheduling": {"groups": groups, "majorFrames": [{"cpus": frame}]}})
