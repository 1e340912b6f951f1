#!/usr/bin/env python3
"""Gives a built tlbox thousands of damaged inputs: mutants.py TLBOX [RUNS [SEED [FIRST]]].

Each run takes one of the runs of the case files, damages one of its files, or what one of its links gives, and makes it with the built program, over
files and over TCP on loopback. It looks at how the program ends: with a status of the table; with nothing on Errors where that is 0 and else one
line, of `serve` and `keep` one for each session at most; and within a memory of a gigabyte and a time that its bytes explain. It knows no right answers.

The same seed and number damage the same bytes in the same way; numbers begin with FIRST, or with 0. The script prints how often each command ended
with each status, and its longest run; it ends with status 1 where a run ended in another way, whose files it leaves and names. Each command of the case
files has its share, so one that gets cases gets its share.
"""
import collections
import os
import random
import resource
import shutil
import signal
import struct
import subprocess
import sys
import tempfile
import threading

from case_files import runs_of
from peers import called, over_link

TOP = os.path.dirname(os.path.dirname(os.path.abspath(__file__)))
DATA = os.path.join(TOP, "crates", "cases", "data")
MEMORY = 1_000_000_000
CPU_SECONDS = 20  # then it is ended
CLOCK_SECONDS = 120
# What a run may take: this, and so much for each byte that it is given.
FREE_SECONDS = 0.5
SECONDS_A_BYTE = 0.000_002
SECONDS_A_STEP = 0.000_02  # of a made run, whose steps are a word
SESSIONS = 3
SERVERS = ("serve", "keep")

# The words that are put into texts: what schemas, JSON and journals are made of, and numbers at their limits.
PIECES = [
    b"{", b"}", b"[", b"]", b"(", b")", b"<", b">", b"=", b";", b"#", b"?", b"!", b"%", b".", b":", b",", b'"', b"\\u0000", b"_",
    b"int", b"long", b"string", b"Vector", b"vector", b"flags", b"Type", b"---functions---", b"---types---", b"true", b"null", b"-",
    b"0", b"1", b"31", b"32", b"2147483647", b"2147483648", b"4294967295", b"9223372036854775808", b"1e400", b"\x00", b"\xff", b"\n", b" ",
    b"\xfe\xff\xff\xff", b"\xfe\x00\x00\x00", b"\x00\x00\x00\x80", b"\xff\xff\xff\xff", b"\x15\xc4\xb5\x1c",
]

# The words of four bytes that are put into values and frames: counts, numbers, positions and dates at their limits.
NUMBERS = [0, 1, 2, 3, 4, 5, 100, 1_000_000, 1_000_001, 1_048_576, 0x7FFFFFFF, 0x80000000, 0xFFFFFFFF, 0x1CB5C415, 0x3072CFA1]


def with_piece(chance, content):
    """One part of the content lost, added, put in place of another, repeated or moved, or one bit turned."""
    at = chance.randint(0, len(content))
    to = min(len(content), at + chance.choice([1, 1, 2, 4, 8, 64, 1_000]))
    kind = chance.randrange(7)
    if kind == 0:
        return content[:at] + content[to:]
    if kind == 1:
        return content[:at] + chance.choice(PIECES) + content[at:]
    if kind == 2:
        return content[:at] + chance.choice(PIECES) + content[to:]
    if kind == 3:
        return content[:at] + content[at:to] * chance.choice([2, 3, 200]) + content[to:]
    if kind == 4:
        return content[:at]
    if kind == 5 and at < len(content):
        return content[:at] + bytes([content[at] ^ 1 << chance.randrange(8)]) + content[at + 1 :]
    other = chance.randint(0, len(content))
    return content[:at] + content[other : other + to - at] + content[at:]


def with_word(chance, content):
    """One word of four bytes another, lost, or there twice."""
    if len(content) < 4:
        return with_piece(chance, content)
    at = 4 * chance.randrange(len(content) // 4)
    other = 4 * chance.randrange(len(content) // 4)
    word = chance.choice([struct.pack("<I", chance.choice(NUMBERS)), content[other : other + 4], b""])
    return content[:at] + word + content[at + chance.choice([0, 4, 4]) :]


def damaged(chance, content, binary):
    """The content with one damage, or with a few."""
    for _ in range(chance.choice([1, 1, 1, 2, 4])):
        content = (with_word if binary and chance.random() < 0.6 else with_piece)(chance, content)
    return content[:4_000_000]


def packets_of(stream):
    """The bodies of the packets of a stream, or None where it isn't packets alone."""
    bodies, at = [], 0
    while at < len(stream):
        size = struct.unpack("<I", stream[at : at + 4])[0] if len(stream) >= at + 4 else len(stream)
        if at + 4 + size > len(stream):
            return None
        bodies.append(stream[at + 4 : at + 4 + size])
        at += 4 + size
    return bodies


def damaged_stream(chance, stream):
    """The stream damaged anywhere; or its packets in another order; or the body of one of them damaged, in a packet of its new length."""
    bodies = packets_of(stream)
    if not bodies or chance.random() < 0.3:
        return damaged(chance, stream, True)
    at, how = chance.randrange(len(bodies)), chance.random()
    if how < 0.1:
        bodies.insert(chance.randint(0, len(bodies)), bodies[at])
    elif how < 0.15:
        chance.shuffle(bodies)
    else:
        body = damaged(chance, bodies[at], True)[:1_048_576]
        bodies[at] = body + bytes(-len(body) % 4)
    return b"".join(struct.pack("<I", len(body)) + body for body in bodies)


class Trial:
    """A run of the program over one damaged input: its words, files and links."""

    def __init__(self, number, chance, run, database):
        self.number, self.where = number, run.where
        self.words, self.files, self.links = list(run.words), dict(run.files), list(run.links)
        if self.command == "keep" and chance.random() < 0.7:
            self.files[self.words[4]] = database
        targets = [name for name in self.files if name in self.words[1:]] + list(range(len(self.links))) * 2
        self.target = chance.choice(targets)
        if isinstance(self.target, int):
            self.links[self.target] = damaged_stream(chance, self.links[self.target])
        else:
            content = self.files[self.target]
            binary = any(byte < 9 or byte > 126 for byte in content[:64])
            self.files[self.target] = damaged(chance, content, binary)
        self.size = sum(map(len, self.files.values())) + sum(map(len, self.links))

    @property
    def command(self):
        return self.words[0]

    def write(self, folder):
        os.makedirs(folder, exist_ok=True)
        for name, content in self.files.items():
            with open(os.path.join(folder, name), "wb") as file:
                file.write(content)

    def start(self, tlbox, folder, address=None):
        return started(tlbox, folder, [*self.words[:2], address, *self.words[3:]] if address else self.words)

    def run(self, tlbox, folder):
        """The status, the bytes on Errors, and the seconds of a processor."""
        self.write(folder)
        if self.command in SERVERS:
            process, _ = called(lambda address: self.start(tlbox, folder, address), self.links)
        elif self.links:
            process, _ = over_link(lambda address: self.start(tlbox, folder, address), self.links[0])
        else:
            process = self.start(tlbox, folder)
        watch = threading.Timer(CLOCK_SECONDS, process.kill)
        watch.start()
        errors = process.stderr.read()
        _, status, used = os.wait4(process.pid, 0)
        process.returncode = os.waitstatus_to_exitcode(status)
        watch.cancel()
        process.stderr.close()
        return process.returncode, errors, used.ru_utime + used.ru_stime

    def is_right(self, status, errors):
        lines = errors.count(b"\n")
        if status not in range(9 if self.command == "keep" else 8) or (errors and not errors.endswith(b"\n")):
            return False
        if self.command in SERVERS:
            return (lines == 0) == (status == 0) and lines <= max(1, len(self.links))
        return lines == (0 if status == 0 else 1)

    def is_slow(self, seconds):
        steps = int(self.words[3]) if self.words[0] == "make" and self.words[3:] and self.words[3].isdigit() else 0
        return seconds > FREE_SECONDS + SECONDS_A_BYTE * self.size + SECONDS_A_STEP * min(steps, 100_000)


def started(tlbox, folder, words):
    return subprocess.Popen(
        [tlbox, *words], cwd=folder, stdin=subprocess.DEVNULL, stdout=subprocess.DEVNULL, stderr=subprocess.PIPE, preexec_fn=limits
    )


def limits():
    resource.setrlimit(resource.RLIMIT_AS, (MEMORY, MEMORY))
    resource.setrlimit(resource.RLIMIT_CPU, (CPU_SECONDS, CPU_SECONDS))
    resource.setrlimit(resource.RLIMIT_CORE, (0, 0))


def is_seed(run):
    """Whether a run of a case can be made with the built program, and has something to be damaged."""
    named = [name for name in run.files if name in run.words[1:]]
    if not run.plain or not named or any("/" in name or name in (".", "..") for name in run.files):
        return False
    if run.words[0] in SERVERS:
        return len(run.words) == 4 + (run.words[0] == "keep") and 1 <= len(run.links) <= SESSIONS and run.words[3] == str(len(run.links))
    if run.words[0] in ("post", "client"):
        return len(run.words) >= 4 and len(run.links) == 1
    return not run.links


def seeds():
    """The runs that are damaged, by their command."""
    with open(os.path.join(os.path.dirname(DATA), "args"), encoding="utf-8") as file:
        names = file.read().split()
    found = collections.defaultdict(list)
    for name in names:
        for run in runs_of(os.path.join(DATA, name)):
            if run.words and is_seed(run) and sum(map(len, run.files.values())) < 500_000:
                found[run.words[0]].append(run)
    # What is no command of the table is a word of a case that is refused for it.
    return {command: runs for command, runs in sorted(found.items()) if len(runs) >= 10}


def database_of(tlbox, place, runs):
    """The database that `keep` has after the first of these runs, so that others find it damaged."""
    folder = os.path.join(place, "database")
    os.makedirs(folder)
    for run in runs[:8]:
        for name, content in run.files.items():
            with open(os.path.join(folder, name), "wb") as file:
                file.write(content)
        process, _ = called(lambda address: started(tlbox, folder, [*run.words[:2], address, run.words[3], "posts.db"]), run.links)
        process.communicate()
    with open(os.path.join(folder, "posts.db"), "rb") as file:
        database = file.read()
    shutil.rmtree(folder)
    return database


def kept(trial, folder):
    """Leaves the files of a run, and what its links give, and tells where."""
    for number, link in enumerate(trial.links):
        with open(os.path.join(folder, f"link-{number}"), "wb") as file:
            file.write(link)
    return folder


def main():
    tlbox = os.path.abspath(sys.argv[1])
    count, seed, first = (int(word) for word in [*sys.argv[2:5], *["2000", "1", "0"][len(sys.argv) - 2 :]])
    signal.signal(signal.SIGPIPE, signal.SIG_IGN)
    sources = seeds()
    table, longest, wrong = collections.Counter(), {}, []
    place = tempfile.mkdtemp(prefix="tlbox-mutants-")
    database = database_of(tlbox, place, sources["keep"])
    for number in range(first, first + count):
        chance = random.Random(f"{seed} {number}")
        command = chance.choice(list(sources))
        trial = Trial(number, chance, chance.choice(sources[command]), database)
        folder = os.path.join(place, str(number))
        status, errors, seconds = trial.run(tlbox, folder)
        table[command, status] += 1
        longest[command] = max(longest.get(command, (0.0, 0)), (seconds, trial.size))
        why = "wrong" if not trial.is_right(status, errors) else "slow" if trial.is_slow(seconds) else None
        if why:
            wrong.append(f"{why}: run {number}, of {trial.where}, {trial.target} damaged: status {status}, {seconds:.3f} s, {errors[:200]!r}: {kept(trial, folder)}")
            continue
        for name in os.listdir(folder):
            os.remove(os.path.join(folder, name))
        os.rmdir(folder)
    for command, runs in sources.items():
        told = ", ".join(f"{times} of status {status}" for (name, status), times in sorted(table.items(), key=str) if name == command)
        seconds, size = longest.get(command, (0.0, 0))
        print(f"{command:>7}: of {len(runs)} runs: {told}; the longest took {seconds:.3f} s over {size} bytes")
    print("\n".join(wrong), end="\n" if wrong else "")
    print(f"{count} runs, {len(wrong)} wrong or slow, seed {seed}")
    sys.exit(1 if wrong else 0)


if __name__ == "__main__":
    main()
