"""Descriptions of many pages in one address space, and the loads of all of them."""


def wide(nodes, pages, log):
    """A description with an address space of all pages: process 1 has it in node 3, over the nodes from 4 on."""
    parts = range(pages // 32)
    slots = ", ".join(f'[{it}, "space {4 + it} 1"]' for it in parts)
    below = "".join(
        f"[[node]]\nnumber = {4 + it}\nowner = 0\nslots = [" + ", ".join(f'[{at}, "page {nodes + 32 * it + at}"]' for at in range(32)) + "]\n" for it in parts)
    return f"""nodes = {nodes}
pages = {pages}
log = {log}
[[bank]]
number = 0
owner = 0
limit = 2000
[[process]]
root = 1
annex = 2
owner = 0
state = "running"
space = "space 3 2"
[[node]]
number = 3
owner = 0
slots = [{slots}]
""" + below + "".join(f"[[page]]\nnumber = {nodes + it}\nowner = 0\n" for it in range(pages))


def loads(pages):
    return "".join(f"load 1 {512 * it}\n" for it in range(pages))
