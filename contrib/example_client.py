#!/usr/bin/env python3
"""example_client.py: a client of updates to try `contrib/against` with, and to write one's own after. It reads and answers the lines of `against`.

Written from "Working with Updates" (core.telegram.org/api/updates), in the layout of crates/tlbox/data/profile.tl.
"""
import json, sys

MOST_HELD = 1024
KINDS = {"New": "new", "Edi": "edit", "Del": "delete", "Rea": "read"}


class Lane:
    """What is applied of a box, from a restart up to a position, and what came before its turn, by where it begins."""

    def __init__(self, apply=None):
        self.restart = self.at = 0
        self.events, self.held, self.recent = [], {}, []
        self.apply = apply or (lambda end, item: self.events.append(f"{item[0]} {end} {item[1]}"))

    def hear(self, start, end, item, is_live):
        """Whether there was room for an item, where it is neither known nor next."""
        if start < self.at or start in self.held:
            return True
        if is_live and start == self.at:
            self.take(end, item)
            self.settle()
        elif len(self.held) >= MOST_HELD:
            return False
        else:
            self.held[start] = end, item
        return True

    def take(self, end, item):
        self.apply(end, item)
        self.at = end

    def settle(self):
        while self.at in self.held:
            self.take(*self.held.pop(self.at))
        self.drop_known()

    def drop_known(self):
        self.held = {start: held for start, held in self.held.items() if start >= self.at}

    def extend(self, bodies, others):
        """Takes what a difference brings: each message stands in the first number that the other events leave free."""
        bodies = iter(bodies)
        for each in others:
            while self.at < each["pts"] - each["pts_count"]:
                self.take(self.at + 1, ("new", next(bodies)))
            self.take(each["pts"], event_of(each))
        for body in bodies:
            self.take(self.at + 1, ("new", body))
        self.drop_known()

    def begin_anew(self, at, recent):
        self.restart = self.at = at
        self.events, self.recent = [], recent
        self.settle()

    def shown(self):
        return {"from": self.restart, "to": self.at, "events": self.events}


class Group:
    """Lanes that ask together: live, asking under a number, or to ask again after a slice."""

    def __init__(self, *lanes):
        self.lanes, self.mode, self.number, self.is_told = lanes, "live", None, False

    def hear(self, lane, start, end, item):
        self.is_told |= not lane.hear(start, end, item, self.mode == "live")

    def is_due(self):
        return self.mode == "again" or self.mode == "live" and (self.is_told or any(lane.held for lane in self.lanes))

    def ask(self, number):
        self.mode, self.number, self.is_told = "asking", number, False

    def finish(self, is_last):
        """An answer was taken: what was held follows after the last part, and after a slice the rest is asked for."""
        self.mode, self.number = "live" if is_last else "again", None
        for lane in self.lanes if is_last else ():
            lane.settle()

    def begin_anew(self):
        self.mode, self.number, self.is_told = "live", None, True
        for lane in self.lanes:
            lane.held.clear()


class Client:
    def __init__(self):
        self.next, self.date, self.values, self.channels = 1, 0, {}, {}
        self.common, self.secret, self.settings = Lane(), Lane(), Lane(self.apply_settings)
        self.group = Group(self.common, self.secret, self.settings)

    def groups(self):
        return [self.group, *self.channels.values()]

    def apply_settings(self, _end, pack):
        self.date, changed = pack
        self.values.update({each["key"].encode().hex(): each["value"] for each in changed})

    def watch(self, channel):
        self.channels[channel] = Group(Lane())

    def wake(self):
        for group in self.groups():
            group.is_told = True

    def begin_anew(self):
        for group in self.groups():
            group.begin_anew()

    def tick(self):
        calls = []
        for channel, group in [(None, self.group), *self.channels.items()]:
            if group.is_due():
                calls.append({"_": "peer.invoke", "number": self.next, "query": self.query(channel, group)})
                group.ask(self.next)
                self.next += 1
        return calls

    def query(self, channel, group):
        if channel is None:
            return {"_": "updates.getDifference", "pts": self.common.at, "qts": self.secret.at, "date": self.date}
        return {"_": "updates.getChannelDifference", "channel_id": channel, "pts": group.lanes[0].at}

    def hear(self, frame):
        if frame["_"] == "peer.push":
            return self.hear_push(frame["updates"])
        group = next((each for each in self.groups() if each.number == frame["number"]), None)
        if group is self.group:
            self.take_difference(frame["difference"])
        elif group is not None:
            self.take_channel_difference(group, frame["difference"])

    def hear_push(self, push):
        if push["_"] == "updatesTooLong":
            self.group.is_told = True
            return
        for each in push["updates"]:
            self.hear_update(each)
        if push["seq"]:
            pack = [each for each in push["updates"] if each["_"] == "updateSetting"]
            self.group.hear(self.settings, push.get("seq_start", push["seq"]) - 1, push["seq"], (push["date"], pack))

    def hear_update(self, update):
        channel = self.channels.get(update.get("channel_id"))
        if update["_"] == "updateNewEncryptedMessage":
            self.group.hear(self.secret, update["qts"] - 1, update["qts"], ("new", update["body"]))
        elif update["_"] == "updateChannelTooLong" and channel:
            channel.is_told = True
        elif "pts" in update and (channel or "channel_id" not in update):
            group = channel or self.group
            group.hear(group.lanes[0], update["pts"] - update["pts_count"], update["pts"], event_of(update))

    def take_difference(self, answer):
        others = answer.get("other_updates", [])
        self.common.extend(answer.get("new_messages", []), [each for each in others if "pts" in each])
        self.secret.extend(answer.get("new_encrypted_messages", []), [])
        if answer["_"] != "updates.differenceSlice":
            state = answer.get("state", answer)
            self.settings.take(state["seq"], (state["date"], [each for each in others if each["_"] == "updateSetting"]))
        self.group.finish(answer["_"] != "updates.differenceSlice")

    def take_channel_difference(self, group, answer):
        if answer["_"] == "updates.channelDifferenceTooLong":
            group.lanes[0].begin_anew(answer["pts"], answer["messages"])
            return group.finish(True)
        group.lanes[0].extend(answer.get("new_messages", []), answer.get("other_updates", []))
        group.finish(answer.get("final", False))

    def positions(self):
        channels = {str(channel): group.lanes[0].at for channel, group in self.channels.items()}
        return {"pts": self.common.at, "qts": self.secret.at, "seq": self.settings.at, "channels": channels}

    def end(self):
        channels = {str(channel): {**group.lanes[0].shown(), "recent": group.lanes[0].recent} for channel, group in self.channels.items()}
        return {"common": self.common.shown(), "secret": self.secret.shown(), "channels": channels,
                "settings": {"seq": self.settings.at, "values": self.values}}


def event_of(update):
    """An event as `replay` shows it: its kind, and its body or its ids in hexadecimal digits."""
    ids = update.get("ids", [update.get("max_id")])
    return KINDS[update["_"][6:9]], update["body"] if "body" in update else b"".join(each.to_bytes(4, "little", signed=True) for each in ids).hex()


def answer_to(client, said):
    if said["do"] == "end":
        return client.end()
    answer = {}
    if said["do"] == "hear":
        client.hear(said["frame"])
    elif said["do"] == "tick":
        answer["requests"] = client.tick()
    elif said["do"] == "watch":
        client.watch(said["channel_id"])
    elif said["do"] == "wake":
        client.wake()
    else:
        client.begin_anew()
    return {**answer, **client.positions()}


def main():
    client = Client()
    for line in sys.stdin:
        print(json.dumps(answer_to(client, json.loads(line))), flush=True)


if __name__ == "__main__":
    main()
