#!/usr/bin/env python3
"""Counts the instructions of calls of which no command makes many: searches in a box, items held in a gap, posts and differences of a server, plans
of all calls of a schema, bytes that are fed to a decoder in small and large pieces, and messages as bytes.

Each figure is the difference of two runs of the program of the folder calls under callgrind, with the calls and without them, by the number of calls.
"""
import os
import sys

import runs

EVENTS, CALLS, ITEMS, DECLARATIONS, PUSHES = 1_000_000, 1_000, 1_024, 1_500, 100_000


def each(program, words, more, fewer, count):
    """The instructions of one call."""
    counted = [runs.instructions([program, *words, str(number)]) for number in (more, fewer)]
    return "-" if None in counted else "%.0f" % ((counted[0] - counted[1]) / count)


def main():
    program = os.path.join(sys.argv[1], "out", "calls")
    print(f"{'call':<44} {'instructions':>12}")
    for name, words, count in (
        ("at_boundary, of 1,000,000 events", ["boundary", str(EVENTS)], CALLS),
        ("between, 100 of 1,000,000 events", ["between", str(EVENTS)], CALLS),
    ):
        print(f"{name:<44} {each(program, words, count, 0, count):>12}")
    for name, word in (("hold, 1,024 items in order of start", "forward"), ("hold, 1,024 items, the last first", "backward")):
        print(f"{name:<44} {each(program, [word], ITEMS, 0, ITEMS):>12}")
    for posts in (10_000, 100_000):
        name = f"post of one message, of {posts:,}"
        made = [runs.instructions([program, "last", str(number), "0"]) for number in (posts, 0)]
        print(f"{name:<44} {'-' if None in made else '%.0f' % ((made[0] - made[1]) / posts):>12}")
        name = f"difference, the last 100 of {posts:,}"
        print(f"{name:<44} {each(program, ['last', str(posts)], CALLS, 0, CALLS):>12}")
    name = f"plan of all calls, of {DECLARATIONS:,} declarations"
    print(f"{name:<44} {each(program, ['plan', str(DECLARATIONS)], 1, 0, 1):>12}")
    for records, size, name in ((100_000, 1, "a byte fed alone"), (200_000, 1, "a byte fed alone"), (200_000, 8_192, "a byte fed in pieces of 8,192")):
        # A record takes 36 bytes, and one in four has four more; the vector begins with eight.
        length = 37 * records + 8
        name = f"{name}, of {length:,}"
        print(f"{name:<44} {each(program, ['bytes', str(records)], size, 0, length):>12}")
    for length in (1, 1_000):
        for word, name in (("spell", "spell_frame"), ("encode", "the codec alone, written"), ("read", "read_frame"), ("decode", "the codec alone, read")):
            name = f"{name}, a body of {length:,}"
            print(f"{name:<44} {each(program, [word, str(length)], PUSHES, 0, PUSHES):>12}")


main()
