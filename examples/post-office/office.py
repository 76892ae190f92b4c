"""A post office that outlives its program. The code of each process is a function here, which runs when its process runs.

A writer numbers its letters. The office keeps each letter in a page of the mailbox's bank, until the reader asks for it. The viewer looks
at the mailbox, and can change nothing. Each turn ends with a save, and only then prints. So no kill loses or doubles a letter.

    eros build examples/post-office/post.toml post.image
    python3 examples/post-office/office.py post.image 100
"""
import sys

import vezhnake

OFFICE, WRITER, READER, VIEWER = 1, 3, 5, 7
# Registers of the office, of its clients, and of whoever gets a reply.
SELF, ANSWER, MAILBOX, BANK, LETTER = 1, 5, 6, 7, 8
DESK, NOTES = 3, 6
RESULT, CALLER = 28, 31
# Orders of a process, a page, a node and a bank.
PUT_REGISTER, READ, WRITE, FETCH, STORE, NEW_PAGE, FREE = 2, 1, 2, 1, 2, 1, 5
# What clients wish, and what the office answers.
DELIVER, TAKE = 1, 2
DONE, NOT_NOW = 0, 1
SLOTS = 32


class Process:
    """A process of the machine, as its code sees it. `words` are those sent to it last."""

    def __init__(self, machine, number):
        self.machine, self.number = machine, number
        first = machine.show(number).splitlines()[0].split()
        place = first.index("words") + 1
        self.is_running, self.words = "running" in first, [int(it) for it in first[place : place + 4]]

    def call(self, register, *words, sent=()):
        """The other words of a kernel object's reply."""
        return self.machine.call(self.number, register, *words, sent=sent).values

    def keep(self, register):
        """Moves what a reply brought, because the next reply overwrites it."""
        self.call(SELF, PUT_REGISTER, register, sent=(CALLER if register == ANSWER else RESULT,))


def deliver(me, number, text):
    """Keeps a letter in a new page of the bank, unless the bank is at its limit."""
    try:
        me.call(BANK, NEW_PAGE)
    except vezhnake.OrderRefused:
        return (NOT_NOW,)
    me.keep(LETTER)
    me.call(LETTER, WRITE, 0, number)
    me.call(LETTER, WRITE, 1, text)
    me.call(MAILBOX, STORE, number % SLOTS, sent=(LETTER,))
    return (DONE,)


def take(me, number):
    """Hands a letter out, and frees its page."""
    me.call(MAILBOX, FETCH, number % SLOTS)
    me.keep(LETTER)
    try:
        (text, *_) = me.call(LETTER, READ, 1)
    except vezhnake.OrderRefused:
        return (NOT_NOW,)
    me.call(MAILBOX, STORE, number % SLOTS)
    me.call(BANK, FREE, sent=(LETTER,))
    return DONE, number, text


def office(me):
    """Does what a client wishes, and answers."""
    wish, number, text, _ = me.words
    me.keep(ANSWER)
    answer = deliver(me, number, text) if wish == DELIVER else take(me, number)
    me.machine.return_(OFFICE, ANSWER, *answer)


def client(wish, what):
    """The code of a client. Its page has the number of its last letter, and whether it awaits an answer. It returns what to print."""

    def run(me):
        answer, _, text, _ = me.words
        number, awaits = me.call(NOTES, READ, 0)[0], me.call(NOTES, READ, 1)[0]
        if awaits:
            # This run is the answer. The next one calls again, so that another client comes first.
            me.call(NOTES, WRITE, 1, 0)
            if answer == NOT_NOW:
                return None
            number += 1
            me.call(NOTES, WRITE, 0, number)
            if wish == TAKE and text != number**2:
                sys.exit(f"office: letter {number} says {text}")
            return f"{what} {number}"
        me.call(NOTES, WRITE, 1, 1)
        try:
            me.call(DESK, wish, number + 1, (number + 1) ** 2)
        except vezhnake.Stalled:
            # The office serves another client.
            me.call(NOTES, WRITE, 1, 0)
        return None

    return run


def viewer(me):
    """Counts the letters, and is refused where it tries to take one."""
    slots = [line for line in me.machine.show(9).splitlines() if line.startswith("slot ")]
    me.call(1, FETCH, 0)
    try:
        me.call(1, STORE, 0)
    except vezhnake.OrderRefused as refused:
        if refused.code == vezhnake.Code.NO_ACCESS:
            return f"waiting {len(slots)}" if slots else None
    sys.exit("office: the viewer changed the mailbox")


CODE = {OFFICE: office, WRITER: client(DELIVER, "sent"), READER: client(TAKE, "read"), VIEWER: viewer}


def main(image, turns):
    with vezhnake.open(image) as machine:
        for _ in range(turns):
            for number, code in CODE.items():
                process = Process(machine, number)
                said = code(process) if process.is_running else None
                machine.save()
                if said:
                    print(said, flush=True)


if __name__ == "__main__":
    if len(sys.argv) != 3 or not sys.argv[2].isdecimal():
        sys.exit("usage: office.py IMAGE TURNS")
    try:
        main(sys.argv[1], int(sys.argv[2]))
    except (OSError, vezhnake.Error) as error:
        sys.exit(f"office.py: {error}")
