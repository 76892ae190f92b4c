"""Descriptions of the greatest size that make searches long: chains through nearly all nodes, with every slot filled."""
import random

NODES, PAGES = 4096, 4096
HEAD = f"nodes = {NODES}\npages = {PAGES}\nlog = 4096\n[[bank]]\nnumber = 0\nowner = 0\nlimit = 100000\n"


def orders():
    """The numbers 3 to 4095 in orders that are hard for a search that goes over all numbers again and again."""
    rising = [*range(3, NODES)]
    falling = rising[::-1]
    zigzag = [it for pair in zip(rising, falling) for it in pair][: len(rising)]
    return {"rising": rising, "falling": falling, "zigzag": zigzag, "zagzig": zigzag[::-1], "random": random.Random(1).sample(rising, len(rising))}


def filled(number, first, named):
    """All slots from the first on: the last names the next of a chain, the others pages."""
    held = [*(f"page {NODES + (31 * number + it) % PAGES}" for it in range(first, 31)), named]
    return ", ".join(f'[{slot}, "{it}"]' for slot, it in enumerate(held, first))


def process(root, named, more=""):
    return f'[[process]]\nroot = {root}\nannex = {root + 1}\nowner = 0\nstate = "running"\n{more}registers = [{filled(root, 1, named)}]\n'


def bank(number):
    return f"[[bank]]\nnumber = {number}\nowner = 0\nlimit = 9\n"


def node(number, named, owner=0):
    return f"[[node]]\nnumber = {number}\nowner = {owner}\nslots = [{filled(number, 0, named)}]\n"


def text_of(rows):
    return "".join([HEAD, *rows, *(f"[[page]]\nnumber = {NODES + it}\nowner = 0\n" for it in range(PAGES))]).encode()


def nodes_chain(order, access=""):
    """Process 1 holds the first node, and each node the next."""
    following = [f"node {it}{access}" for it in order[1:]]
    return text_of([process(1, f"node {order[0]}{access}"), *map(node, order, [*following, "page 8191"])])


def banks_chain(order):
    """Process 1 holds the first bank. Each bank owns a node, which holds the next bank."""
    banks, nodes = order[:-1:2], order[1::2]
    following = [*(f"bank {it}" for it in banks[1:]), "page 8191"]
    return text_of([process(1, f"bank {banks[0]}"), *map(bank, banks), *map(node, nodes, following, banks)])


def processes_chain(order):
    """Each process holds the next."""
    roots = [it for it in order if it % 2 and it + 1 < NODES]
    following = [f"process {it}" for it in roots[1:]]
    return text_of([process(root, named, 'space = "page 4096"\n') for root, named in zip(roots, [*following, "page 8191"])])


def worlds():
    """The name of each description, its text, the process that its chain begins at, the object that it ends at, how many steps it has
    without and with weak ones (None if that is no chain), and the processes that can change that object and read it."""
    for name, order in orders().items():
        roots = [it for it in order if it % 2 and it + 1 < NODES]
        yield f"nodes {name}", nodes_chain(order), 1, order[-1], (len(order), len(order)), ([1], [1])
        yield f"weak nodes {name}", nodes_chain(order, " weak"), 1, order[-1], (None, len(order)), ([], [1])
        yield f"banks {name}", banks_chain(order), 1, order[1::2][-1], (len(order) - 1, len(order) - 1), ([1], [1])
        yield f"processes {name}", processes_chain(order), roots[0], roots[-1], (len(roots) - 1, len(roots) - 1), (sorted(roots), sorted(roots))
