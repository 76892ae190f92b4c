"""Counts in a page of a persistent machine, and prints each count once it is saved. Kill it at any moment and start it again: it
continues after the last count that it printed, or after the next one.

    ./eros build examples/embed/counter.toml counter.image
    PYTHONPATH=python python3 examples/embed/counter.py counter.image 1000
"""
import sys

import vezhnake


def main(image, times):
    with vezhnake.open(image) as machine:
        first = machine.page(16)[0]
        for count in range(first + 1, first + 1 + times):
            machine.call(1, 6, 2, 0, count)
            machine.save()
            print(count, flush=True)


if __name__ == "__main__":
    if len(sys.argv) != 3 or not sys.argv[2].isdecimal():
        sys.exit("usage: counter.py IMAGE TIMES")
    try:
        main(sys.argv[1], int(sys.argv[2]))
    except (OSError, vezhnake.Error) as error:
        sys.exit(f"counter.py: {error}")
