"""Random scripts: commands of all kinds over 64 objects."""
from common import joined

NODES, PAGES = 40, 24
PAGE, NODE = range(6, 14), range(14, 18)
HELD = """[6, "page 40"], [7, "page 41"], [8, "page 42"], [9, "page 43"], [10, "page 44"], [11, "page 45"], [12, "page 46"],
    [13, "page 63"], [14, "node 6"], [15, "node 7"], [16, "node 8"], [17, "node 39"]"""
# Processes 1 and 9 run, and hold pages in registers 6 to 13 and nodes in 14 to 17. Process 3 waits to be started.
DESCRIPTION = f"""nodes = {NODES}
pages = {PAGES}
log = 24
ranges = [[0, 24], [24, 16], [40, 9], [49, 15]]

[[bank]]
number = 0
owner = 0
limit = 1000

[[bank]]
number = 5
owner = 0
limit = 12

[[process]]
root = 1
annex = 2
owner = 0
state = "running"
space = "space 6 2"
registers = [
    [1, "process 1"], [2, "bank 0"], [3, "start 3 7"], [4, "process 3"], [5, "bank 5"], {HELD},
    [18, "discrim"], [19, "page 40 ro"], [20, "node 6 weak"],
]

[[process]]
root = 3
annex = 4
owner = 0
state = "available"
registers = [[1, "process 3"], [2, "bank 5"]]

[[process]]
root = 9
annex = 10
owner = 5
state = "running"
space = "space 6 2"
registers = [[1, "process 9"], [2, "bank 5"], [3, "start 3 9"], {HELD}]

[[node]]
number = 6
owner = 0
slots = [[0, "space 7 1"], [1, "space 8 1 ro"], [2, "page 44"]]

[[node]]
number = 7
owner = 0
slots = [[0, "page 40"], [1, "page 41"], [31, "page 42"]]

[[node]]
number = 8
owner = 0
slots = [[0, "page 40"], [1, "page 46"]]

[[node]]
number = 39
owner = 5
""" + "".join(f"\n[[page]]\nnumber = {it}\nowner = {5 if it == 63 else 0}\n" for it in (*range(40, 47), 63))

# A checkpoint, and how it goes on.
CYCLE = (b"checkpoint", b"stabilize 2", b"stabilize 99", b"commit", b"migrate 2", b"migrate 99")
ADDRESSES = (0, 511, 512, 600, 15872, 16384, 16385, 16900, 32768, 524288, 2**64 - 1)


def any_register(chance):
    return chance.choice((0, 28, 28, 28, 29, 31, *range(1, 28)))


def write(chance):
    """Writes to a page or a node."""
    process, how = chance.choice((1, 1, 9)), chance.choice(("call", "send"))
    if chance.random() < 0.6:
        return joined(how, process, chance.choice(PAGE), 2, chance.choice((0, 1, 511)), chance.randrange(1, 10**6), 0, 0, 0, 0, 0)
    words = (chance.choice((2, 5)), chance.randrange(32), chance.randrange(100), 0)
    return joined(how, process, chance.choice(NODE), *words, any_register(chance), 0, 0, 0)


def order_of_bank(chance):
    """Makes an object, or frees one. The object made last is in register 28."""
    order = chance.choice((1, 1, 2, 2, 3, 4, 5, 5, 6, 7, 8))
    held = chance.choice((28, 28, *range(21, 28), *PAGE, *NODE))
    return joined("call", 1, chance.choice((2, 5, 5, 28)), order, chance.choice((0, 2, 10)), 0, 0, held, 0, 0, 0)


def kept(chance):
    return joined("send", 1, 1, 2, chance.randrange(21, 28), 0, 0, 28, 0, 0, 0)


def invocation(chance):
    """Any process invokes anything."""
    words = [chance.randrange(11), chance.choice((0, 1, 2, 3, 31, 32, 99, 2**64 - 1)), chance.choice((0, 1, 5, 2**63)), 0]
    process = chance.choice((1, 1, 3, 3, 9, chance.randrange(66)))
    registers = [chance.choice((0, any_register(chance))) for _ in range(4)]
    return joined(chance.choice(("call", "return", "send")), process, any_register(chance), *words, *registers)


def start(chance):
    """Process 3 is started."""
    return joined("send", chance.choice((1, 9)), 3, chance.randrange(9), 0, 0, 0, chance.choice((0, 2, 6)), 0, 0, 0)


def exchange(chance):
    """Process 3 is called, and answers."""
    return [joined("call", 1, 3, chance.randrange(9), 0, 0, 0, chance.choice((0, 2, 6)), 0, 0, 0), answer(chance)]


def answer(chance):
    """Process 3 answers, so that process 1 continues if it waits."""
    return joined(chance.choice(("return", "return", "send")), 3, 31, chance.randrange(9), 0, 0, 0, any_register(chance), 0, 0, 0)


def of_memory(chance):
    process, address = chance.choice((1, 1, 3, 9, 9)), chance.choice(ADDRESSES)
    return joined("load", process, address) if chance.random() < 0.4 else joined("store", process, address, chance.randrange(1, 10**6))


def looked(chance):
    return joined(chance.choice(("show", "evict", "evict")), chance.choice((*range(20), *range(38, 50), 63, 64)))


def of_checkpoint(chance):
    number = chance.choice((0, 1, 2, 3, 99))
    return chance.choice((b"checkpoint", joined("stabilize", number), b"commit", joined("migrate", number), joined("journal", chance.choice((6, *range(40, 50), 63)))))


def odd(chance):
    return chance.choice((b"", b"# nothing", b"show  5", b"commit 1", b"restart", b"show 64", b"evict 64"))


KINDS = (write,) * 12 + (order_of_bank, kept, looked) * 3 + (exchange, of_memory) * 2 + (answer, invocation, start, of_checkpoint, odd)


def some(chance, count, cuts):
    """At least `count` lines, among them the steps of checkpoints. If `cuts` isn't 0, one line of `cuts` is a cut."""
    lines, step = [], 0
    for _ in range(count):
        if chance.random() < 0.35:
            lines.append(CYCLE[step])
            step = (step + 1) % len(CYCLE)
            if step == 0 and chance.random() < 0.5:
                lines.append(joined("journal", chance.randrange(40, 47)))
                lines.append(b"migrate 9")
        elif cuts and chance.random() < 1 / cuts:
            lines.append(b"cut")
        else:
            made = chance.choice(KINDS)(chance)
            lines += made if isinstance(made, list) else [made]
    return lines


def by_chance(chance):
    """The lines of a script, and the lines that run over what a stop leaves: none, or more of the same kind and a checkpoint."""
    rest = [] if chance.random() < 0.5 else [*some(chance, 12, 0), b"migrate 99", *CYCLE]
    return some(chance, 60, 40), rest


def long_one(chance):
    """The lines of a long script with cuts."""
    return some(chance, 600, 50)
