#!/usr/bin/env python3
"""Times `tlbox serve` and `tlbox client` over loopback, beside a bare echo of as many packets and bytes.

`states` are 1,000 calls for the server's state, `posts` 10,000 posts of one message, each answered by its receipt and its push, and
`slices` 1,000 calls for a difference, each answered by 100 messages: one session each, whose other end is this script. `echo` beside
them is a server in Python that reads and writes packets of the same lengths. `client` recovers these 100,000 messages; `state` is a
client with a saved state of 48 MB that nothing is new for.
"""
import multiprocessing
import os
import socket
import struct
import subprocess
import sys
import tempfile
import time

import runs

HOST = "127.0.0.1"
VECTOR = 0x1CB5C415
MESSAGES = 100_000


def words(*numbers):
    return struct.pack("<%dI" % len(numbers), *numbers)


def call(number, query):
    return words(0xB0C50421, number) + query


def get_state(number):
    return call(number, words(0xB0C50311))


def get_difference(number, pts):
    return call(number, words(0xB0C50312, pts, 0, 0))


def post(number, messages):
    return call(number, struct.pack("<IqII", 0xB0C50422, number, VECTOR, messages) + (words(0xB0C50411) + b"\x03abc") * messages)


def read_exactly(link, count):
    pieces = []
    while count:
        piece = link.recv(min(count, 1 << 20))
        if not piece:
            sys.exit("the link ended too soon")
        pieces.append(piece)
        count -= len(piece)
    return b"".join(pieces)


def read_packet(link):
    (length,) = struct.unpack("<I", read_exactly(link, 4))
    return read_exactly(link, length)


def linked(port):
    """A link to a server that may not be there yet."""
    for _ in range(500):
        try:
            link = socket.create_connection((HOST, port))
            link.setsockopt(socket.IPPROTO_TCP, socket.TCP_NODELAY, 1)
            return link
        except ConnectionRefusedError:
            time.sleep(0.01)
    sys.exit("no server")


def free_port():
    with socket.socket() as one:
        one.bind((HOST, 0))
        return one.getsockname()[1]


def exchanged(link, calls, answers):
    """The seconds that calls take with so many answers each, and how long these were."""
    lengths = []
    begin = time.monotonic()
    for one in calls:
        link.sendall(struct.pack("<I", len(one)) + one)
        lengths.append([len(read_packet(link)) for _ in range(answers)])
    return time.monotonic() - begin, lengths


def echo(port, calls, lengths):
    with socket.create_server((HOST, port)) as server:
        link, _from = server.accept()
        link.setsockopt(socket.IPPROTO_TCP, socket.TCP_NODELAY, 1)
        for _call, answers in zip(calls, lengths):
            read_packet(link)
            link.sendall(b"".join(struct.pack("<I", length) + bytes(length) for length in answers))


def echoed(calls, answers, lengths):
    port = free_port()
    server = multiprocessing.Process(target=echo, args=(port, calls, lengths))
    server.start()
    with linked(port) as link:
        seconds, _lengths = exchanged(link, calls, answers)
    server.join()
    return seconds


def tell(name, calls, lengths, seconds, beside):
    frames = len(calls) + sum(map(len, lengths))
    size = sum(map(len, calls)) + sum(map(sum, lengths))
    print(f"{name:>7} {frames:>7} {size:>10} {seconds:>8.3f} {frames / seconds:>9.0f} {beside:>8.3f}")


def sessions(tlbox, profile, folder):
    port = free_port()
    server = subprocess.Popen([tlbox, "serve", profile, f"{HOST}:{port}", "5"], stdout=subprocess.PIPE)
    kinds = [
        ("states", [get_state(number) for number in range(1, 1_001)], 1),
        ("posts", [post(number, 1) for number in range(1, 10_001)], 2),
        ("", [post(number, 1_000) for number in range(10_001, 10_001 + MESSAGES // 1_000 - 10)], 2),
        ("slices", [get_difference(number, 100 * (number - 1)) for number in range(1, MESSAGES // 100 + 1)], 1),
    ]
    for name, calls, answers in kinds:
        with linked(port) as link:
            seconds, lengths = exchanged(link, calls, answers)
        if name:
            tell(name, calls, lengths, seconds, echoed(calls, answers, lengths))
    state = os.path.join(folder, "new")
    runs.write(state, b"")
    begin = time.monotonic()
    told = subprocess.run([tlbox, "client", profile, f"{HOST}:{port}", state], stdout=subprocess.PIPE, check=True).stdout
    seconds = time.monotonic() - begin
    server.wait()
    print(f"{'client':>7} {'':>7} {os.path.getsize(state):>10} {seconds:>8.3f}   {told.decode().strip()}")


def saved(events, body):
    """A saved client with so many messages."""
    head = struct.pack("<I", len(body) << 8 | 254)
    message = words(0xB0C50601) + head + body
    lane = words(0, events, VECTOR, events) + message * events
    return words(0xB0C50607, 2, 2) + lane + words(0, 0, VECTOR, 0) + words(0, 0, VECTOR, 0, VECTOR, 0)


def answer_once(listener):
    link, _from = listener.accept()
    with link:
        read_packet(link)
        empty = words(0xB0C50403, 2, 0xB0C50302, 0, 0)
        link.sendall(struct.pack("<I", len(empty)) + empty)
        link.recv(1)


def large_state(tlbox, profile, folder):
    state = os.path.join(folder, "large")
    runs.write(state, saved(750, bytes(64_000)))
    with socket.create_server((HOST, 0)) as listener:
        server = multiprocessing.Process(target=answer_once, args=(listener,))
        server.start()
        report = os.path.join(folder, "report")
        begin = time.monotonic()
        subprocess.run([runs.TIME, "-f", "%M", "-o", report, tlbox, "client", profile, "%s:%d" % listener.getsockname(), state], stdout=subprocess.DEVNULL, check=True)
        seconds = time.monotonic() - begin
        server.join()
    with open(report, encoding="ascii") as file:
        print(f"{'state':>7} {'':>7} {os.path.getsize(state):>10} {seconds:>8.3f}   {int(file.read()) / 1000:.1f} MB")


def main():
    tlbox, data, _numbers = runs.arguments()
    profile = os.path.join(data, "profile.tl")
    print(f"{'':>7} {'frames':>7} {'bytes':>10} {'seconds':>8} {'frames/s':>9} {'echo':>8}")
    with tempfile.TemporaryDirectory() as folder:
        sessions(tlbox, profile, folder)
        large_state(tlbox, profile, folder)


if __name__ == "__main__":
    main()
