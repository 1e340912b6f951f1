#!/usr/bin/env python3
"""Counts the instructions of `tlbox replay` for a step of each kind: how much more a journal takes that has a thousand of them more.

A `post` is of one message of four bytes, a `hear` of such a push in its turn. `again` is a hear of a push that is known. `asks` is a
restart and the tick after it, which asks for a difference. `serve` is of a request that 100 messages answer.
"""
import os
import struct
import tempfile

import runs
from replay import hear, post

# How many steps more.
MORE = 1_000

TICK, RESTART, SERVE = 0xB0C50505, 0xB0C50508, 0xB0C50503


def word_step(number, *words):
    return struct.pack("<%dI" % (1 + len(words)), number, *words)


def posts(count):
    return [post(number, b"abcd") for number in range(count)]


def asks(count):
    return (word_step(RESTART, 0) + word_step(TICK, 0) for _ in range(count))


def served(count):
    """A hundred messages and one request for them, which is served so often."""
    yield from posts(100)
    yield word_step(RESTART, 0) + word_step(TICK, 0)
    for _ in range(count):
        yield word_step(SERVE, 100)


# Each kind by a journal that has so many of it.
KINDS = {
    "post": posts,
    "hear": lambda count: [*posts(MORE * 2), *map(hear, range(count))],
    "again": lambda count: [*posts(1), *(hear(0) for _ in range(count))],
    "asks": asks,
    "serve": served,
}


def counted(words, path, steps):
    runs.write(path, b"".join(steps))
    return runs.instructions(words)


def main():
    tlbox, data, _numbers = runs.arguments()
    profile = os.path.join(data, "profile.tl")
    print(f"{'':>7} {'instructions':>12}")
    with tempfile.TemporaryDirectory() as folder:
        path = os.path.join(folder, "journal")
        words = [tlbox, "replay", profile, path, "1"]
        for name, journal in KINDS.items():
            more = counted(words, path, journal(2 * MORE))
            less = counted(words, path, journal(MORE))
            told = "-" if more is None or less is None else "%d" % ((more - less) / MORE)
            print(f"{name:>7} {told:>12}")


if __name__ == "__main__":
    main()
