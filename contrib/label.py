#!/usr/bin/env python3
"""label.py [INPUT] [--clients N] [--schema FILE] [--bytes]: writes a journal whose JSON names packets, with their numbers in place of the names.

    contrib/label.py named.json --bytes > gap.journal && tlbox replay crates/tlbox/data/profile.tl gap.journal 1

A step may have a key `name`; a post without one is named by its first message, where that is text. Then `packet` may be, in place of a number,

    "b's push"          the push of the post named b, or of a `tooLong` or `channelTooLong` that has the name
    "ask's request"     the request of the tick named ask; where it has more, "ask's request 2" is the second, in the order of the report
    "reply's answer"    the answer of the serve named reply

    [{"_":"replay.post","random_id":1,"posts":[{"_":"peer.postMessage","body":"62"}]},
     {"_":"replay.tick","client":0,"name":"ask"},
     {"_":"replay.serve","packet":"ask's request","name":"reply"},
     {"_":"replay.hear","client":0,"packet":"reply's answer"},
     {"_":"replay.hear","client":0,"packet":"b's push"}]

INPUT is standard input where it isn't named. What is written is JSON for `tlbox encode SCHEMA 'vector<replay.Step>'`, or with --bytes the journal itself.
Which packets a step sends, the program tells, which replays the steps so far (TLBOX names it where it isn't on the PATH), with --clients clients, or as
many as the steps speak of. The status is 0, 1 with a line where a label names no packet, or one of two, or the input can't be read, and 2 for other words.
"""
import json, re, sys

sys.dont_write_bytecode = True
from command_table import ROOT
from replay_reading import journal_of, read_schema, replayed_steps
from script_ends import Refusal, Usage, ended, number_of, options_of, read_bytes

USAGE = "label.py [INPUT] [--clients N] [--schema FILE] [--bytes]"
SENDS = {"replay.post": "push", "replay.tooLong": "push", "replay.channelTooLong": "push", "replay.serve": "answer", "replay.tick": "request"}
LABEL = re.compile(r"(.+)'s (push|answer|request)(?: ([1-9][0-9]*))?", re.DOTALL)


def name_of(step):
    """What a step is called: as it says, or by the text of its first post."""
    if "name" in step:
        return step["name"]
    posts = step.get("posts")
    try:
        return bytes.fromhex(posts[0]["body"]).decode() or None
    except (IndexError, KeyError, TypeError, ValueError):
        return None


class Labels:
    """The steps so far, and the packets that they send by the names of their steps."""

    def __init__(self, schema_path, clients):
        self.schema_path, self.schema, self.clients = schema_path, read_schema(schema_path), clients
        self.steps, self.named = [], {}  # the indices of the steps that have a name, by it and by what they send
        self.known = []  # the packets of each step that was replayed

    def add(self, step):
        """Adds a step, with a number in place of the name of its packet."""
        name, plain = name_of(step), {key: value for key, value in step.items() if key != "name"}
        if isinstance(plain.get("packet"), str):
            plain["packet"] = self.number_of(plain["packet"])
        if name is not None and plain["_"] in SENDS:
            self.named.setdefault((name, SENDS[plain["_"]]), []).append(len(self.steps))
        self.steps.append(plain)

    def number_of(self, label):
        """The number of the packet that a label names."""
        match = LABEL.fullmatch(label)
        indices = self.named.get((match[1], match[2]), []) if match else []
        if len(indices) > 1:
            raise Refusal(f"step {len(self.steps)}: {json.dumps(label)} may be of each of the steps {', '.join(map(str, indices))}")
        packets = self.packets_of(indices[0]) if indices else []
        index = int(match[3] or 1) - 1 if match else 0
        if index >= len(packets):
            known = ", ".join(f"{name}'s {kind}" for name, kind in self.named)
            raise Refusal(f"step {len(self.steps)}: no packet is called {json.dumps(label)}; so far there are: {known or 'none'}")
        return packets[index]

    def packets_of(self, index):
        """The packets that a step sends, which the program knows alone."""
        if index >= len(self.known):
            report = replayed_steps(self.schema_path, self.schema, self.steps, self.clients)
            self.known = [[packet.number for packet in step.packets] for step in report.steps]
        return self.known[index]


def read_steps(path):
    data = read_bytes(path) if path else sys.stdin.buffer.read()
    try:
        steps = json.loads(data.decode("utf-8-sig"))
    except ValueError as fault:
        raise Refusal(f"{path or 'standard input'}: {fault}") from None
    if not isinstance(steps, list) or not all(isinstance(step, dict) and isinstance(step.get("_"), str) for step in steps):
        raise Refusal(f"{path or 'standard input'}: a journal is a list of steps, each an object with the key _")
    return steps


def main(words):
    values, left = options_of(words, {"clients": "0", "schema": f"{ROOT}/crates/tlbox/data/profile.tl", "bytes": False})
    if len(left) > 1:
        raise Usage
    steps = read_steps(left[0] if left else None)
    spoken = [step["client"] + 1 for step in steps if isinstance(step.get("client"), int)]
    labels = Labels(values["schema"], number_of(values["clients"], 0, 16) or max(spoken, default=1))
    for step in steps:
        labels.add(step)
    if values["bytes"]:
        sys.stdout.buffer.write(journal_of(labels.schema, labels.steps))
    else:
        sys.stdout.write("[\n" + ",\n".join(json.dumps(step, separators=(",", ":")) for step in labels.steps) + "\n]\n")
    return 0


if __name__ == "__main__":
    sys.exit(ended("label.py", USAGE, main))
