"""Values of a schema's types, between bytes and the JSON of `tlbox decode`, for scripts that read thousands of packets: a process for each would take
minutes. tests/contrib compares it with the program. It checks no more than it needs in order to go on.
"""
from script_ends import Refusal
from tl_reading import PLAIN, STRINGS, VECTOR, Unread, text_of

NUMBERS = {"int": True, "long": True, "#": False}  # whether each has a sign


class Unspelled(Exception):
    """Bytes, or JSON, that are no value of the type."""


def closed_type(schema, word):
    """The type that a word names, which the schema is to have."""
    try:
        return schema.type_of(word)
    except Unread:
        raise Refusal(f"the schema has no type {word}") from None


class Decoder:
    """Reads values from bytes, one after the other."""

    def __init__(self, schema, data):
        self.schema, self.data, self.at = schema, data, 0

    def take(self, size):
        if self.at + size > len(self.data):
            raise Unspelled(f"the bytes end at {len(self.data)}, inside of an item")
        self.at += size
        return self.data[self.at - size : self.at]

    def word(self):
        return int.from_bytes(self.take(4), "little")

    def string(self):
        first = self.take(1)[0]
        size, head = (int.from_bytes(self.take(3), "little"), 4) if first == 254 else (first, 1)
        text = self.take(size)
        self.take(-(head + size) % 4)
        return text

    def value(self, of):
        if of[0] in NUMBERS:
            return int.from_bytes(self.take(PLAIN[of[0]]), "little", signed=NUMBERS[of[0]])
        if of[0] in PLAIN:
            return self.take(PLAIN[of[0]]).hex()
        if of[0] in STRINGS:
            return shown_string(of, self.string())
        if of[0] == "vector":
            if of[1] and self.word() != VECTOR:
                raise Unspelled(f"no boxed vector at {self.at - 4}")
            return [self.value(of[2]) for _ in range(self.word())]
        return self.record(of, self.declaration(of))

    def declaration(self, of):
        if of[0] == "bare":
            return of[1]
        number = self.word()
        for one in self.schema.members(of):
            if one.number == number:
                return one
        raise Unspelled(f"at {self.at - 4} stands {number:08x}, which is no number of {text_of(of)}")

    def record(self, of, one):
        value, types = {"_": one.name}, self.schema.arguments(of, one)
        for each in one.fields:
            if each.condition and not value[each.condition[0]] >> each.condition[1] & 1:
                continue
            value[each.name] = True if each.is_flag else self.value(type_of_field(self.schema, each, types))
        return value


def type_of_field(schema, each, types):
    return ("call",) if each.variable else schema.closed(each.type, types)


def shown_string(of, text):
    if of[0] == "bytes":
        return text.hex()
    try:
        return text.decode()
    except UnicodeDecodeError:
        return {"hex": text.hex()}


def decoded(schema, of, data):
    """The one value that these bytes spell, as JSON."""
    decoder = Decoder(schema, data)
    value = decoder.value(of)
    if decoder.at < len(data):
        raise Unspelled(f"more stands after the value, which ends at {decoder.at}")
    return value


def all_decoded(schema, of, data):
    """The values that these bytes spell, one after the other."""
    decoder, values = Decoder(schema, data), []
    while decoder.at < len(data):
        values.append(decoder.value(of))
    return values


def encoded(schema, of, value):
    """The bytes of a value given as JSON."""
    try:
        return spelled(schema, of, value)
    except (AttributeError, LookupError, OverflowError, StopIteration, TypeError, ValueError):
        raise Unspelled(f"no value of {text_of(of)}: {str(value)[:80]}") from None


def spelled(schema, of, value):
    if of[0] in NUMBERS:
        return value.to_bytes(PLAIN[of[0]], "little", signed=NUMBERS[of[0]])
    if of[0] in PLAIN:
        return bytes.fromhex(value)
    if of[0] in STRINGS:
        return padded(bytes.fromhex(value["hex"] if isinstance(value, dict) else value) if of[0] == "bytes" or isinstance(value, dict) else value.encode())
    if of[0] == "vector":
        head = VECTOR.to_bytes(4, "little") if of[1] else b""
        return head + len(value).to_bytes(4, "little") + b"".join(spelled(schema, of[2], each) for each in value)
    one = next(each for each in schema.members(of) if each.name == value["_"]) if of[0] != "bare" else of[1]
    types = schema.arguments(of, one)
    parts = [] if of[0] == "bare" else [one.number.to_bytes(4, "little")]
    for each in one.fields:
        if not each.is_flag and (not each.condition or value[each.condition[0]] >> each.condition[1] & 1):
            parts.append(spelled(schema, type_of_field(schema, each, types), value[each.name]))
    return b"".join(parts)


def padded(text):
    head = bytes([len(text)]) if len(text) < 254 else b"\xfe" + len(text).to_bytes(3, "little")
    return head + text + bytes(-(len(head) + len(text)) % 4)
