"""A run of `tlbox replay`, read: the steps of its journal, each with its line and its packets, and the closing lines."""
import contextlib, os, re, subprocess, tempfile
from dataclasses import dataclass, field

from script_ends import Refusal, read_bytes
from tl_reading import Schema
from tl_values import Unspelled, all_decoded, closed_type, decoded, encoded

POSITIONS = re.compile(r" pts (\d+) qts (\d+) seq (\d+)((?: ch -?\d+ at \d+)*)$")


@dataclass
class Packet:
    number: int
    step: int
    data: bytes
    value: dict  # as `decode` shows it

    @property
    def is_call(self):
        return self.value["_"] == "peer.invoke"


@dataclass
class Step:
    index: int
    said: dict  # the step of the journal
    line: str = ""
    packets: list = field(default_factory=list)

    @property
    def kind(self):
        return self.said["_"].split(".")[-1]

    @property
    def outcome(self):
        """Of a hear: push, reply or stale."""
        return self.line.split()[4]


@dataclass
class Report:
    schema: Schema
    steps: list
    packets: list
    closings: list  # the lines after the last step


def program():
    """The name of the program; TLBOX names another one than that on the PATH."""
    return os.environ.get("TLBOX", "tlbox")


def run_program(*words):
    try:
        ended = subprocess.run([program(), *words], stdin=subprocess.DEVNULL, stdout=subprocess.PIPE, stderr=subprocess.PIPE, check=False)
    except OSError as fault:
        raise Refusal(f"{program()} can't be run ({fault.strerror}): put it on the PATH, or its path into TLBOX") from None
    if ended.returncode:
        raise Refusal(ended.stderr.decode(errors="replace").strip() or f"{program()} ended with status {ended.returncode}")
    return ended.stdout.decode()


def read_schema(path):
    return Schema(read_bytes(path))


def read_steps(schema, path):
    """The steps of a journal that the program accepted."""
    try:
        return all_decoded(schema, closed_type(schema, "replay.Step"), read_bytes(path))
    except Unspelled as fault:
        raise Refusal(f"{path}: {fault}; a journal that begins with a count comes from `encode` without `tail -c +5`") from None


def journal_of(schema, steps):
    """The bytes of a journal."""
    step = closed_type(schema, "replay.Step")
    try:
        return b"".join(encoded(schema, step, each) for each in steps)
    except Unspelled as fault:
        raise Refusal(fault) from None


def replayed(schema_path, journal_path, clients):
    """What `replay` reports of a journal."""
    output = run_program("replay", schema_path, journal_path, str(clients))
    schema = read_schema(schema_path)
    report = Report(schema, [Step(index, said) for index, said in enumerate(read_steps(schema, journal_path))], [], [])
    frame, call = closed_type(schema, "peer.Frame"), ("call",)
    made = -1
    for line in output.splitlines():
        words = line.split(" ")
        if words[0] == "step":
            made += 1
            report.steps[made].line = line
        elif words[0] == "packet":
            of = call if report.steps[made].kind == "tick" else frame
            data = bytes.fromhex(words[2])
            report.packets.append(Packet(int(words[1]), made, data, decoded(schema, of, data)))
            report.steps[made].packets.append(report.packets[-1])
        else:
            report.closings.append(line)
    return report


@contextlib.contextmanager
def written(schema, steps):
    """The path of a journal with these steps, for as long as it is needed."""
    with tempfile.NamedTemporaryFile(suffix=".journal") as file:
        file.write(journal_of(schema, steps))
        file.flush()
        yield file.name


def replayed_steps(schema_path, schema, steps, clients):
    """What `replay` reports of steps given as JSON."""
    with written(schema, steps) as path:
        return replayed(schema_path, path, clients)


def packets_of_last(schema_path, schema, steps, clients):
    """The numbers of the packets that the last of these steps sends: how many requests a tick has, the program alone knows."""
    with written(schema, steps) as path:
        output = "\n" + run_program("replay", schema_path, path, str(clients))
    return [int(number) for number in re.findall(r"^packet (\d+) ", output[output.rindex("\nstep ") :], re.MULTILINE)]


def positions_of(line):
    """Where a line says that a client, or the server, is."""
    pts, qts, seq, channels = POSITIONS.search(line).groups()
    words = channels.split()
    return {"pts": int(pts), "qts": int(qts), "seq": int(seq), "channels": {words[i + 1]: int(words[i + 3]) for i in range(0, len(words), 4)}}


def closing_of(report, client):
    """What the closing lines say that a client has."""
    end, lane, mine = {"channels": {}}, None, False
    for line in report.closings:
        words = line.split(" ")
        if words[0] in ("client", "server"):
            mine = words[:2] == ["client", str(client)]
            lane = add_part(end, words) if mine else None
        elif mine and words[0] == "setting":
            end["settings"]["values"][words[1]] = words[2]
        elif mine:
            lane["recent" if words[0] == "recent" else "events"].append(words[1] if words[0] == "recent" else line)
    return end


def add_part(end, words):
    """Adds the part of a client that a closing line names: a lane, which it answers, or the settings."""
    if words[2] == "settings":
        end["settings"] = {"seq": int(words[4]), "values": {}}
        return None
    at = words.index("from")
    lane = {"from": int(words[at + 1]), "to": int(words[at + 3]), "events": []}
    if words[2] == "channel":
        lane["recent"] = []
        end["channels"][words[3]] = lane
    else:
        end[words[2]] = lane
    return lane
