#!/usr/bin/env python3
"""Times `tlbox replay` on journals of growing length, and `tlbox make`.

Posts come in windows of 300. Each window is heard twice: backwards, so that 299 pushes are held until the first one comes, and
then in order, when each is known already. `posts` is a journal of nearly 33,554,432 bytes, posts of messages of 320 bytes alone.
`made` is the made run of number 7.
"""
import os
import struct
import tempfile

import runs

WINDOW = 300

# How many bytes a journal may have.
LONGEST = 33_554_432

LONG_BODY = bytes(320)


def spelled_bytes(body):
    """Bytes as TL spells them, up to 2^24 - 1 of them."""
    head = bytes([len(body)]) if len(body) < 254 else struct.pack("<I", len(body) << 8 | 254)
    item = head + body
    return item + bytes(-len(item) % 4)


def post(number, body):
    head = struct.pack("<IqIII", 0xB0C50501, number, 0x1CB5C415, 1, 0xB0C50411)
    return head + spelled_bytes(body)


def hear(packet):
    return struct.pack("<III", 0xB0C50504, 0, packet)


def journal(count):
    """A journal of so many steps, a third of them posts."""
    steps = []
    sent = 0
    while len(steps) < count:
        posts = min(WINDOW, (count - len(steps) + 2) // 3)
        packets = range(sent, sent + posts)
        steps += [post(packet, b"message %d" % packet) for packet in packets]
        steps += [hear(packet) for packet in reversed(packets)]
        steps += [hear(packet) for packet in packets]
        sent += posts
    return b"".join(steps[:count])


def posts():
    """How many posts a journal has room for, and the journal of them."""
    count = LONGEST // len(post(0, LONG_BODY))
    return count, b"".join(post(number, LONG_BODY) for number in range(count))


def measure(name, count, words, size, report):
    took = runs.least_time(words, report)
    peak = runs.peak_memory(words)
    counted = runs.instructions(words)
    megabytes = "-" if peak is None else "%.1f" % (peak / 1e6)
    each = "-" if counted is None else "%d" % (counted / count)
    sizes = f"{size:>9} {os.path.getsize(report):>9}"
    print(f"{name:>7} {count:>7} {sizes} {took:>8.3f} {took / count * 1e6:>8.2f} {megabytes:>6} {each:>10}")


def main():
    tlbox, data, numbers = runs.arguments()
    profile = os.path.join(data, "profile.tl")
    print(f"{'':>7} {'steps':>7} {'journal':>9} {'report':>9} {'seconds':>8} {'us/step':>8} {'MB':>6} {'instr/step':>10}")
    with tempfile.TemporaryDirectory() as folder:
        steps, report = (os.path.join(folder, name) for name in ("journal", "report"))

        def replayed(name, count, content):
            runs.write(steps, content)
            measure(name, count, [tlbox, "replay", profile, steps, "1"], len(content), report)

        for count in numbers or [1_000, 10_000, 50_000, 100_000]:
            replayed("windows", count, journal(count))
        if not numbers:
            replayed("posts", *posts())
            for count in (20_000, 100_000):
                measure("made", count, [tlbox, "make", profile, "7", str(count)], 0, report)


if __name__ == "__main__":
    main()
