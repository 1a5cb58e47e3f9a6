"""The runs of which pictures are made: a script for each, and the calls of media that fail."""
import os
import sys

TOP = os.path.dirname(os.path.dirname(os.path.dirname(os.path.abspath(__file__))))
sys.path.insert(0, os.path.join(TOP, "tools"))
sys.dont_write_bytecode = True

from pictures.script import read_front  # noqa: E402
from serial import Engine, words_of  # noqa: E402


class Guest:
    """The acts of a lane as they are written, with identifiers that count up."""

    def __init__(self, lane):
        self.lane, self.sent, self.acts = lane, 0, []

    def add(self, words):
        """An act."""
        self.acts.append(f"{self.lane} {words}")

    def submit(self, opcode, first, count, pages="0 1"):
        """A command over at most two data pages."""
        self.sent += 1
        first_page, second = pages.split(" ")
        self.add(f"submit {self.sent} {opcode} {first} {count} {first_page} {second if count > 8 else '-'}")

    def turn(self, *commands):
        """The commands of one turn, each an opcode, a first block and a number of blocks."""
        for opcode, first, count in commands:
            self.submit(opcode, first, count)
        self.add("idle")


WORDS = ("burst", "mix", "change", "slice", "small", "pages", "patience", "migrate")


def script_of(sizes, lanes, guests):
    """The text of a script: sizes by their words, `lanes` the queues' sizes and data pages of each."""
    lines = ["nvmigrate script 1", f"blocks {sizes['blocks']}", f"shelf {sizes['shelf']}", f"lanes {len(guests)}"]
    lines += [f"lane {guest.lane} {lanes}" for guest in guests]
    lines += [f"{word} {sizes[word]}" for word in WORDS if word in sizes]
    lines += [act for guest in guests for act in guest.acts]
    return "\n".join(lines + ["end"]) + "\n"


SIZES = {
    "blocks": 256, "shelf": 32, "burst": 16, "mix": 7, "change": 12, "slice": 24, "small": 16, "pages": 4, "patience": 64,
}


def none():
    """No migration: three lanes with all opcodes, of which some fail."""
    guests = [Guest(lane) for lane in (1, 2, 3)]
    for turn in range(10):
        at = 24 * turn
        guests[0].turn(("write", at, 16), ("read", at, 16), ("write", at + 30, 4))
        if turn % 2:
            guests[1].turn(("compare", at, 8), ("verify", at, 12), ("flush", 0, 1))
        else:
            guests[1].turn(("zeroes", at + 8, 40))
        guests[2].turn(*[("write" if turn < 5 else "read", 250 - turn + i, 2) for i in range(turn % 4 + 1)])
    guests[0].turn(("write", 255, 2))
    return script_of(SIZES, "sq 8 cq 8 pages 4", guests), {}


def three():
    """Three rounds, as few as there can be to see them."""
    guest = Guest(1)
    for turn in range(5):
        guest.add(f"fill 0 {turn + 16}")
        guest.turn(("write", 6 * turn, 4), ("read", 2 * turn, 2))
    sizes = {**SIZES, "blocks": 64, "shelf": 16, "slice": 20, "small": 16, "pages": 4, "migrate": 2}
    return script_of(sizes, "sq 8 cq 8 pages 4", [guest]), {}


def restart():
    """Rounds in which writes come faster than the copying for a while, and then a change is lost."""
    guests = [Guest(1), Guest(2)]
    for turn in range(1, 27):
        rush = 7 <= turn < 10
        writes = [("write", 8 * ((6 * turn + i) % 16), 8) for i in range(6 if rush else turn % 2)]
        guests[0].turn(*writes, ("read", 8 * (turn % 30), 4))
        if turn == 12:
            guests[1].turn(*[("zeroes", 34 * i, 30) for i in range(7)])
        elif turn % 8 == 4:
            guests[1].add(f"fill 2 {turn:02x}")
            guests[1].submit("compare", 200, 4, "2 -")
            guests[1].turn(("write", 240, 8))
        elif turn % 2:
            guests[1].add(f"fill {turn % 4} {turn + 16:02x}")
            guests[1].turn(("write", 200 + turn, 4), ("verify", turn, 16))
        else:
            guests[1].turn(("read", 200 + turn, 8))
    sizes = {**SIZES, "mix": 0, "slice": 32, "change": 8, "pages": 6, "migrate": 4}
    return script_of(sizes, "sq 16 cq 16 pages 6", guests), {}


def given_up():
    """A migration that is given up since a block can't be put at the destination."""
    guests = [Guest(1), Guest(2)]
    for turn in range(12):
        guests[0].turn(("write", 16 * turn, 16), ("read", 16 * turn, 8))
        guests[1].turn(("write", 255 - turn, 1), ("compare", 200, 8))
    return script_of({**SIZES, "migrate": 3}, "sq 8 cq 8 pages 4", guests), {"to": {"put": {160}}}


def eight():
    """Eight lanes with 65,536 acts, by the words of SplitMix64."""
    guests, words = [Guest(lane) for lane in range(1, 9)], words_of(38)
    opcodes = ("write", "write", "write", "read", "read", "zeroes", "verify", "flush")
    for guest in guests:
        for place in range(4096):
            word = next(words)
            opcode = opcodes[word % 8] if place % 1024 < 512 or guest.lane > 3 else "read"
            page = 2 * (word >> 8) % 32
            guest.add(f"fill {page} {word >> 16 & 255:02x}")
            # Hot blocks of the lane's own, and one in 512 past the end.
            first = 8192 * (guest.lane - 1) + 16 * (word >> 24) % 256 if word >> 40 & 511 else 65535
            guest.submit(opcode, first, 1 + (word >> 52) % 16, f"{page} {page + 1}")
    sizes = {
        "blocks": 65536, "shelf": 1024, "burst": 16, "mix": 5, "change": 1024, "slice": 384, "small": 900, "pages": 128,
        "patience": 400, "migrate": 60,
    }
    return script_of(sizes, "sq 64 cq 64 pages 64", guests), {}


RUNS = {run.__name__: run for run in (none, three, restart, given_up, eight)}


def judged(name):
    """A run's script with its transcript behind it, as `check` and tools/picture take them."""
    script, fails = RUNS[name]()
    return script + Engine(read_front(script)[0], fails).run()
