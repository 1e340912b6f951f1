#!/usr/bin/env python3
"""keep.py TLBOX [NAME]: how fast `keep` takes posts, and how long it opens.

Posts of one message of 100 bytes go over one link, each after the receipt of the one before; beside it Python's sqlite3 puts the same rows into a file,
a transaction each, with the same log. Then files of 1,000, 10,000 and 100,000 such entries, which Python's sqlite3 writes, are opened: until the address
is listened at. Processor time is that of the program alone.
"""
import os, resource, socket, sqlite3, struct, subprocess, sys, tempfile, time

ROOT = os.path.dirname(os.path.dirname(os.path.abspath(__file__)))
PROFILE = f"{ROOT}/crates/tlbox/data/profile.tl"
HOST = "127.0.0.1"
POSTS = 2000
BODY = b"a" * 100
TABLES = (
    "CREATE TABLE IF NOT EXISTS entry (n INTEGER PRIMARY KEY, date INTEGER NOT NULL, random_id INTEGER NOT NULL, posts INTEGER NOT NULL) STRICT",
    "CREATE TABLE IF NOT EXISTS post (id INTEGER PRIMARY KEY, kind INTEGER NOT NULL, number INTEGER NOT NULL, body BLOB NOT NULL, more BLOB NOT NULL) STRICT",
)


def free_port():
    with socket.socket() as probe:
        probe.bind((HOST, 0))
        return probe.getsockname()[1]


def connect(port):
    while True:
        try:
            return socket.create_connection((HOST, port))
        except ConnectionRefusedError:
            time.sleep(0.002)


def take(link, size):
    got = b""
    while len(got) < size:
        piece = link.recv(size - len(got))
        if not piece:
            raise EOFError
        got += piece
    return got


def take_packet(link):
    return take(link, struct.unpack("<I", take(link, 4))[0])


def post(number):
    body = bytes([len(BODY)]) + BODY
    body += bytes(-len(body) % 4)
    call = bytes.fromhex("2104c5b0") + struct.pack("<I", number) + bytes.fromhex("2204c5b0") + struct.pack("<q", number) + bytes.fromhex("15c4b51c 01000000 1104c5b0") + body
    return struct.pack("<I", len(call)) + call


def serve(program, room, name):
    port = free_port()
    start = time.monotonic()
    process = subprocess.Popen([program, "keep", PROFILE, f"{HOST}:{port}", "1", name], cwd=room, stdout=subprocess.DEVNULL)
    return process, connect(port), time.monotonic() - start


def end(process, link):
    """Ends a run, and says how much processor time it took."""
    before = resource.getrusage(resource.RUSAGE_CHILDREN)
    link.close()
    if process.wait() != 0:
        raise SystemExit(f"keep ended with {process.returncode}")
    after = resource.getrusage(resource.RUSAGE_CHILDREN)
    return after.ru_utime + after.ru_stime - before.ru_utime - before.ru_stime


def posts(program, room):
    process, link, _ = serve(program, room, "posts.db")
    start = time.monotonic()
    for number in range(1, POSTS + 1):
        link.sendall(post(number))
        take_packet(link)
        take_packet(link)
    seconds = time.monotonic() - start
    print(f"keep: {POSTS / seconds:.0f} posts a second, processor {1000 * end(process, link) / POSTS:.2f} ms each")


def rows(path, count, each):
    """Puts so many entries into a file: a transaction each, or all in one."""
    base = sqlite3.connect(path, isolation_level=None)
    base.execute("PRAGMA journal_mode = WAL")
    base.execute("PRAGMA synchronous = FULL")
    for table in TABLES:
        base.execute(table)
    start = time.monotonic()
    if not each:
        base.execute("BEGIN")
    for n in range(count):
        if each:
            base.execute("BEGIN")
        base.execute("INSERT INTO entry VALUES (?, ?, ?, 1)", (n, 100, n + 1))
        base.execute("INSERT INTO post VALUES (?, 0, 0, ?, x'')", (1024 * n, BODY))
        if each:
            base.execute("COMMIT")
    if not each:
        base.execute("COMMIT")
    seconds = time.monotonic() - start
    base.execute("PRAGMA wal_checkpoint(TRUNCATE)")
    base.close()
    return seconds


def main(folder):
    program = os.path.abspath(f"{folder}/out/tlbox")
    with tempfile.TemporaryDirectory(prefix="keep-bench-") as room:
        posts(program, room)
        print(f"sqlite3: {POSTS / rows(f'{room}/beside.db', POSTS, True):.0f} transactions a second of the same rows")
        for count in (1000, 10000, 100000):
            rows(f"{room}/of_{count}.db", count, False)
            process, link, seconds = serve(program, room, f"of_{count}.db")
            print(f"open {count} entries: {seconds:.2f} s, processor {end(process, link):.2f} s")


if __name__ == "__main__":
    if len(sys.argv) < 2:
        raise SystemExit(__doc__.split("\n")[0])
    main(sys.argv[1])
