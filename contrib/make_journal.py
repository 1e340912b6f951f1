#!/usr/bin/env python3
"""make_journal.py NUMBER STEPS [--OPTION VALUE ..]: writes a journal that a number draws: posts, and a network that loses, repeats and reorders.

    contrib/make_journal.py 7 200 --lose 20 > drawn.journal && tlbox replay crates/tlbox/data/profile.tl drawn.journal 2

The draw is this script's own, and not that of `tlbox make`; the same words write the same journal. Options, with what they are without being named:

    --clients 2  --channels 2     how many clients there are, and channels, of which each client watches about two thirds
    --lose 10  --repeat 10        of a hundred packets on their way to a client, how many are never heard, and how many once more
    --reorder 30                  of a hundred that are heard, how many are not the earliest
    --post 20  --hear 40  --tick 12  --serve 16  --wake 3  --restart 2  --date 5  --long 2
                                  how often each step is drawn, against the others; `long` is tooLong, of the boxes or of a channel
    --gap 9  --slice 7  --late-answer 7  --far-behind 6  --anew 3  --flood 2
                                  how often each scene is drawn, against the steps; with 0 for all of them there are steps alone
    --schema FILE                 the schema, crates/tlbox/data/profile.tl
    --json                        the steps as JSON, one on a line, in place of bytes

A scene is some steps of one client, with others between them. `gap`: pushes of one box come, and one before them later or never. `slice`: 101 to 300
messages aren't heard, and the client asks till it has them. `late-answer`: a push comes between an answer and its being heard, and the answer once more.
`far-behind`: 501 to 600 messages of a channel aren't heard, and one comes before the answer. `anew`: the client is restarted, or woken, between a request
and its answer. `flood`: before the answer the client hears more than the 1,024 pushes that it may hold.

The requests of a tick are those of the program, which replays the steps so far at each tick: 200 steps take some seconds. The status is 0; 1 with a line
where the program or the schema can't be used; 2 for other words.
"""
import json, random, sys

sys.dont_write_bytecode = True
from command_table import ROOT
from replay_reading import journal_of, packets_of_last, read_schema
from script_ends import Usage, ended, number_of, options_of

USAGE = "make_journal.py NUMBER STEPS [--OPTION VALUE ..]"
STEPS = {"post": 20, "hear": 40, "tick": 12, "serve": 16, "wake": 3, "restart": 2, "date": 5, "long": 2}
SCENES = {"gap": 9, "slice": 7, "late_answer": 7, "far_behind": 6, "anew": 3, "flood": 2}
OPTIONS = {**STEPS, **SCENES, "clients": 2, "channels": 2, "lose": 10, "repeat": 10, "reorder": 30}
LIMITS = {"clients": (1, 16), "channels": (0, 64)}
BETWEEN = 40  # of a hundred steps of a scene, how many have another step before them
COMMON, SECRET, SETTINGS = "", "Secret", "Setting"  # boxes, beside the ids of channels
KEYS = ("dark", "font", "mute", "sort")


class Draw:
    """Draws from a number. It uses `random()` alone, which Python promises to keep."""

    def __init__(self, number):
        self.next = random.Random(number).random

    def below(self, number):
        return int(self.next() * number)

    def one_of(self, items):
        return items[self.below(len(items))]

    def happens(self, percent):
        return self.next() * 100 < percent

    def weighted(self, weights):
        """One of these names, by how much each weighs."""
        at = self.next() * sum(weights.values())
        for name, weight in weights.items():
            at -= weight
            if at < 0:
                return name
        return name


class Network:
    """The packets on their way: to each client those that it will hear, and the requests that the server will answer."""

    def __init__(self, draw, options):
        self.draw, self.options, self.sent = draw, options, 0
        self.ways = [[] for _ in range(options["clients"])]
        self.requests = []  # packets and their clients

    def send(self, clients):
        """The next packet goes to each of these clients, unless it is lost."""
        for client in clients:
            if not self.draw.happens(self.options["lose"]):
                self.ways[client].append(self.sent)
        self.sent += 1
        return self.sent - 1

    def pick(self, way):
        """Takes the earliest packet of a way, or another; it stays where it is to be repeated."""
        index = self.draw.below(len(way)) if self.draw.happens(self.options["reorder"]) else 0
        packet = way[index]
        if not self.draw.happens(self.options["repeat"]):
            way.pop(index)
        return packet


class Maker:
    """Draws the steps of a journal, one after the other."""

    def __init__(self, number, options, schema_path):
        self.draw, self.options = Draw(number), options
        self.network = Network(self.draw, options)
        self.channels = list(range(5, 5 + options["channels"]))
        self.schema_path, self.schema = schema_path, read_schema(schema_path)
        self.steps, self.bodies, self.now, self.watched = [], 0, 0, []

    def make(self, number):
        self.watched = [(client, channel) for client in range(self.options["clients"]) for channel in self.channels if self.draw.happens(65)]
        for client, channel in self.watched:
            self.add("watch", client=client, channel_id=channel)
        while len(self.steps) < number:
            getattr(self, self.draw.weighted({name: self.options[name] for name in (*STEPS, *SCENES)}))()
        return self.steps[:number]

    def add(self, kind, **fields):
        self.steps.append({"_": f"replay.{kind}", **fields})

    def client(self):
        return self.draw.below(self.options["clients"])

    def others(self, client):
        return [each for each in range(self.options["clients"]) if each != client]

    # ---- steps

    def post(self):
        boxes = [self.any_box(self.channels) for _ in range(1 + self.draw.below(3))]
        self.push([self.part(box) for box in boxes], range(self.options["clients"]))

    def push(self, posts, clients):
        """Posts these; the push goes to clients, and its number is answered."""
        self.add("post", random_id=len(self.steps), posts=posts)
        return self.network.send(clients)

    def any_box(self, channels):
        return self.draw.one_of([COMMON, COMMON, SECRET, SETTINGS, SETTINGS, *channels, *channels])

    def part(self, box):
        if box == SETTINGS:
            return {"_": "peer.postSetting", "key": self.draw.one_of(KEYS), "value": self.body()}
        if box == SECRET:
            return {"_": "peer.postSecret", "body": self.body()}
        what = self.draw.weighted({"Message": 4, "Edit": 2, "Delete": 2, "Read": 2})
        part = {"_": f"peer.post{what}"} if box == COMMON else {"_": f"peer.postChannel{what}", "channel_id": box}
        if what == "Delete":
            return {**part, "ids": [self.draw.below(1000) for _ in range(1 + self.draw.below(4))]}
        return {**part, "max_id": self.draw.below(1000)} if what == "Read" else {**part, "body": self.body()}

    def message(self, box):
        where = {} if box in (COMMON, SECRET) else {"channel_id": box}
        return {"_": f"peer.post{'Secret' if box == SECRET else 'ChannelMessage' if where else 'Message'}", **where, "body": self.body()}

    def body(self):
        self.bodies += 1
        return f"m{self.bodies}".encode().hex()

    def hear(self):
        client = self.client()
        if way := self.network.ways[client]:
            self.add("hear", client=client, packet=self.network.pick(way))

    def tick(self):
        self.ask(self.client())

    def ask(self, client):
        """Whether the client asks for something at a tick."""
        self.add("tick", client=client)
        requests = packets_of_last(self.schema_path, self.schema, self.steps, self.options["clients"])
        self.network.requests += [(packet, client) for packet in requests]
        self.network.sent += len(requests)
        return requests != []

    def serve(self):
        if self.network.requests:
            packet, client = self.network.pick(self.network.requests)
            self.add("serve", packet=packet)
            self.network.send([client])

    def wake(self):
        self.add("wake", client=self.client())

    def restart(self):
        self.add("restart", client=self.client())

    def date(self):
        self.now += 1 + self.draw.below(60)
        self.add("date", date=self.now)

    def long(self):
        channel = self.draw.one_of([None, *self.channels])
        self.add("tooLong") if channel is None else self.add("channelTooLong", channel_id=channel)
        self.network.send(range(self.options["clients"]))

    # ---- scenes

    def between(self):
        if self.draw.happens(BETWEEN) and any(self.options[name] for name in STEPS):
            getattr(self, self.draw.weighted({name: self.options[name] for name in STEPS}))()

    def channels_of(self, client):
        return [channel for one, channel in self.watched if one == client]

    def box_of(self, client):
        """A box of those that the client has."""
        return self.any_box(self.channels_of(client))

    def parts(self, box):
        return [self.part(box) for _ in range(1 + self.draw.below(3))]

    def post_past(self, client, posts):
        """Posts these, of which the client hears when the scene says so; the push's number."""
        self.between()
        return self.push(posts, self.others(client))

    def hear_now(self, client, packet):
        """The client hears a packet, which may be repeated later."""
        self.add("hear", client=client, packet=packet)
        if self.draw.happens(self.options["repeat"]):
            self.network.ways[client].append(packet)

    def serve_all(self, client):
        """The answers to what the client asks, each of which it is still to hear."""
        answers, requests = [], [packet for packet, one in self.network.requests if one == client]
        self.network.requests = [each for each in self.network.requests if each[1] != client]
        for packet in requests:
            self.between()
            self.add("serve", packet=packet)
            answers.append(self.network.send([]))
        return answers

    def wake_up(self, client):
        """The client is woken and asks: the answers that it is still to hear."""
        self.add("wake", client=client)
        self.ask(client)
        return self.serve_all(client)

    def hear_all(self, client, packets):
        for packet in packets:
            self.hear_now(client, packet)

    def catch_up(self, client):
        """The client asks until nothing is asked any more, or it is disturbed."""
        for _ in range(8):
            self.between()
            if not self.ask(client) or self.draw.happens(self.options["lose"]):
                return
            self.hear_all(client, self.serve_all(client))

    def gap(self):
        client = self.client()
        box = self.box_of(client)
        first, *later = [self.post_past(client, self.parts(box)) for _ in range(2 + self.draw.below(2))]
        self.hear_all(client, later)
        what = self.draw.weighted({"asks": 5, "hears": 2, "is restarted": 3})
        if what == "asks":
            return self.catch_up(client)
        if what == "is restarted":
            self.add("restart", client=client)
        self.hear_now(client, first)

    def miss(self, client, box, least, most):
        """So many messages that the client doesn't hear, with other parts among them."""
        number = least + self.draw.below(most - least + 1)
        return self.post_past(client, [self.part(box) if self.draw.happens(10) else self.message(box) for _ in range(number)])

    def slice(self):
        client = self.client()
        box = self.draw.one_of([COMMON, SECRET, *self.channels_of(client)])
        missed = self.miss(client, box, 101, 300)
        self.hear_now(client, self.post_past(client, self.parts(box)))
        if self.ask(client):
            answers = self.serve_all(client)
            is_late = [self.draw.happens(30) for _ in range(2)]
            self.hear_all(client, [missed] * is_late[0] + answers + [missed] * is_late[1])
            self.catch_up(client)

    def late_answer(self):
        client = self.client()
        box = self.box_of(client)
        self.post_past(client, self.parts(box))
        answers = self.wake_up(client)
        self.hear_now(client, self.post_past(client, self.parts(box)))
        self.hear_all(client, answers + answers[: self.draw.below(2)])

    def far_behind(self):
        client = self.client()
        if not self.channels_of(client):
            return
        channel = self.draw.one_of(self.channels_of(client))
        self.miss(client, channel, 501, 600)
        self.add("channelTooLong", channel_id=channel)
        self.hear_now(client, self.network.send(self.others(client)))
        self.ask(client)
        answers = self.serve_all(client)
        self.hear_now(client, self.post_past(client, self.parts(channel)))
        self.hear_all(client, answers)

    def anew(self):
        client = self.client()
        self.post_past(client, self.parts(self.box_of(client)))
        answers = self.wake_up(client)
        self.add("restart" if self.draw.happens(60) else "wake", client=client)
        self.hear_all(client, answers)
        self.catch_up(client)

    def flood(self):
        client = self.client()
        missed = [self.miss(client, COMMON, 101, 200)] if self.draw.happens(50) else []
        answers = self.wake_up(client)
        if missed:  # it holds what the first part brings
            self.hear_all(client, missed + answers)
            self.ask(client)
            answers = self.serve_all(client)
        for _ in range(2):
            self.hear_now(client, self.push([self.message(COMMON) for _ in range(513 + self.draw.below(88))], self.others(client)))
        self.hear_all(client, answers)
        self.catch_up(client)


def main(words):
    values, left = options_of(words, {**{name: str(value) for name, value in OPTIONS.items()}, "schema": f"{ROOT}/crates/tlbox/data/profile.tl", "json": False})
    if len(left) != 2:
        raise Usage
    number, steps = number_of(left[0], 0, 2**63), number_of(left[1], 1, 100000)
    options = {name: number_of(values[name], *LIMITS.get(name, (0, 1000))) for name in OPTIONS}
    if not any(options[name] for name in (*STEPS, *SCENES) if name not in ("hear", "serve", "far_behind")):
        raise Usage
    maker = Maker(number, options, values["schema"])
    made = maker.make(steps)
    if values["json"]:
        sys.stdout.write("[\n" + ",\n".join(json.dumps(step, separators=(",", ":")) for step in made) + "\n]\n")
    else:
        sys.stdout.buffer.write(journal_of(maker.schema, made))
    return 0


if __name__ == "__main__":
    sys.exit(ended("make_journal.py", USAGE, main))
