#!/usr/bin/env python3
"""Times `tlbox calls` on files of packets: calls and, after each window of them, their answers in the opposite order.

`plain` calls a function of one field, `wrapped` the same in ten wrappers. `stale` is answers to no call. `wide` is one call after the other whose result
has 2^59 leaves and isn't the answer's type. The answer is compared with the text that Python makes.
"""
import os
import struct
import tempfile

import runs

SCHEMA = b"""pong#00000010 id:int = Pong;
pair#00000020 {A:Type} {B:Type} a:A b:B = Pair A B;
yes#00000022 = Bool;
---functions---
ping#00000011 id:int = Pong;
wrap#00000012 {X:Type} n:int query:!X = X;
twice#00000014 {X:Type} query:!X = Pair X X;
forget#00000015 {X:Type} query:!X = Bool;
"""

WINDOW = 1_000
WRAPPERS = 10
DOUBLED = 59


def packet(*words):
    content = struct.pack("<%dI" % len(words), *words)
    return struct.pack("<I", len(content)) + content


def windows(count, call, answer):
    """So many calls and their answers, in windows."""
    packets, lines = [], []
    for first in range(1, count + 1, WINDOW):
        numbers = range(first, min(first + WINDOW, count + 1))
        for number in numbers:
            words, text = call(number)
            packets.append(packet(0, *words))
            lines.append("call %d %s\n" % (number, text))
        for number in reversed(numbers):
            words, text = answer(number)
            packets.append(packet(number, *words))
            lines.append("answer %d %s\n" % (number, text))
    return b"".join(packets), "".join(lines)


def ping(number):
    return [0x11, number], '{"_":"ping","id":%d}' % number


def pong(number):
    return [0x10, number], '{"_":"pong","id":%d}' % number


def wrapped(number):
    words, text = ping(number)
    for _ in range(WRAPPERS):
        words, text = [0x12, 7, *words], '{"_":"wrap","n":7,"query":%s}' % text
    return words, text


def doubled(number):
    words, text = ping(number)
    for _ in range(DOUBLED):
        words, text = [0x14, *words], '{"_":"twice","query":%s}' % text
    return [0x15, *words], '{"_":"forget","query":%s}' % text


def yes(_number):
    return [0x22], '{"_":"yes"}'


def stale(count):
    return b"".join(packet(number, 0x10, number) for number in range(1, count + 1)), "".join("answer %d stale\n" % number for number in range(1, count + 1))


def main():
    tlbox, _data, numbers = runs.arguments()
    count = numbers[0] if numbers else 100_000
    print(f"{'':>8} {'calls':>7} {'bytes':>9} {'answer':>9} {'seconds':>8} {'MB':>6} {'instr/packet':>12}")
    with tempfile.TemporaryDirectory() as folder:
        schema, given, answer = (os.path.join(folder, name) for name in ("schema", "packets", "answer"))
        runs.write(schema, SCHEMA)
        for name, calls, packets, (content, text) in (
            ("plain", count, 2 * count, windows(count, ping, pong)),
            ("wrapped", count, 2 * count, windows(count, wrapped, pong)),
            ("wide", count // 100, count // 50, windows(count // 100, doubled, yes)),
            ("stale", 0, count, stale(count)),
        ):
            runs.write(given, content)
            words = [tlbox, "calls", schema, given]
            took = runs.least_time(words, answer)
            with open(answer, encoding="ascii") as file:
                if file.read() != text:
                    raise SystemExit(f"{name}: another answer")
            peak, counted = runs.peak_memory(words), runs.instructions(words)
            megabytes = "-" if peak is None else "%.1f" % (peak / 1e6)
            each = "-" if counted is None else "%d" % (counted / packets)
            print(f"{name:>8} {calls:>7} {len(content):>9} {len(text):>9} {took:>8.3f} {megabytes:>6} {each:>12}")


if __name__ == "__main__":
    main()
