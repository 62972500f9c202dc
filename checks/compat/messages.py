"""Messages by docs/FORMAT.md: written, read, what they say, and their JSON."""
import math
import struct
from dataclasses import dataclass

from kinds import UNIT, Array, Enum, Group, Map, Maybe, Number, Scalar, Seq

# The most bytes of a varint of some bits.
MOST = {16: 3, 32: 5, 64: 10, 128: 19}
FLOATS = {"f32": (4, "<f", 0x7FC00000), "f64": (8, "<d", 0x7FF8000000000000)}


@dataclass(frozen=True)
class Some:
    """The value of an option that has one. `None` is that of another."""

    value: object


@dataclass(frozen=True)
class Variant:
    """The value of an enum."""

    index: int
    value: object


# A float's value is its bits.


def varint(number):
    """The fewest digits of a number."""
    found = bytearray()
    while number > 127:
        found.append(number & 127 | 128)
        number >>= 7
    return bytes(found) + bytes([number])


def padded(number, bits, chance):
    """Some digits of a number of these bits."""
    digits = bytearray(varint(number))
    more = chance.randint(0, MOST[bits] - len(digits)) if chance.random() < 0.5 else 0
    if more:
        digits[-1] |= 128
        digits += b"\x80" * (more - 1) + b"\0"
    return bytes(digits)


def written(kind, value, chance=None):
    """The canonical encoding of a value, or with `chance` any accepted one."""
    number = (lambda n, bits: varint(n)) if chance is None else (lambda n, bits: padded(n, bits, chance))

    def row(kinds, values):
        return b"".join(written(each, part, chance) for each, part in zip(kinds, values))

    if isinstance(kind, Number):
        if kind.is_varint:
            folded = value if not kind.is_signed else 2 * value if value >= 0 else -2 * value - 1
            return number(folded, kind.bits)
        return value.to_bytes(kind.bits // 8, "big" if kind.order == "BE" else "little", signed=kind.is_signed)
    if isinstance(kind, Scalar):
        return written_scalar(kind.name, value, number, chance)
    if isinstance(kind, Maybe):
        return b"\0" if value is None else b"\1" + written(kind.content, value.value, chance)
    if isinstance(kind, Seq):
        return number(len(value), 64) + row([kind.element] * len(value), value)
    if isinstance(kind, Map):
        return number(len(value), 64) + row([Group((kind.key, kind.value))] * len(value), value)
    if isinstance(kind, Array):
        return row([kind.element] * kind.count, value)
    if isinstance(kind, Group):
        return row(kind.parts, value)
    return number(value.index, 32) + written(kind.contents[value.index], value.value, chance)


def written_scalar(name, value, number, chance):
    """The same of a scalar. A character may have more text after it."""
    if name == "bool":
        return bytes([value])
    if name in FLOATS:
        return value.to_bytes(FLOATS[name][0], "little")
    data = value if name == "bytes" else value.encode()
    if name == "char" and chance is not None and chance.random() < 0.3:
        data += b"z" * chance.randint(0, 4 - len(data))
    return number(len(data), 64) + data


class Refused(Exception):
    """Bytes are no message: why, in which part, and where it begins."""

    def __init__(self, why, at, path):
        super().__init__(why)
        self.why, self.at, self.path = why, at, path


def under(path, name):
    """The path of a part with a name or a number."""
    return f"{path}.{name}" if path else str(name)


class Reader:
    """Bytes, and how many of them are read."""

    def __init__(self, data):
        self.data, self.at = data, 0

    def take(self, size, start, path):
        """The next bytes, of a part that begins at `start`."""
        if len(self.data) - self.at < size:
            raise Refused("unexpected end", start, path)
        self.at += size
        return self.data[self.at - size : self.at]

    def varint(self, bits, start, path):
        number = 0
        for place in range(MOST[bits]):
            (digit,) = self.take(1, start, path)
            number |= (digit & 127) << 7 * place
            if digit < 128:
                break
        else:
            raise Refused("bad varint", start, path)
        if number >> bits:
            raise Refused("bad varint", start, path)
        return number

    def read(self, kind, path=""):
        """The value of the next bytes."""
        start = self.at
        if isinstance(kind, Number):
            return self.number(kind, start, path)
        if isinstance(kind, Scalar):
            return self.scalar(kind.name, start, path)
        if isinstance(kind, Maybe):
            (is_some,) = self.take(1, start, path)
            if is_some > 1:
                raise Refused("bad option", start, path)
            return Some(self.read(kind.content, path)) if is_some else None
        if isinstance(kind, (Seq, Map)):
            element = kind.element if isinstance(kind, Seq) else Group((kind.key, kind.value))
            return [self.read(element, f"{path}[{i}]") for i in range(self.varint(64, start, path))]
        if isinstance(kind, Array):
            return tuple(self.read(kind.element, f"{path}[{i}]") for i in range(kind.count))
        if isinstance(kind, Group):
            names = kind.names or range(len(kind.parts))
            return tuple(self.read(part, under(path, name)) for name, part in zip(names, kind.parts))
        index = self.varint(32, start, path)
        if index >= len(kind.names):
            raise Refused("unknown variant", start, path)
        return Variant(index, self.read(kind.contents[index], under(path, kind.names[index])))

    def number(self, kind, start, path):
        if not kind.is_varint:
            order = "big" if kind.order == "BE" else "little"
            return int.from_bytes(self.take(kind.bits // 8, start, path), order, signed=kind.is_signed)
        number = self.varint(kind.bits, start, path)
        if not kind.is_signed:
            return number
        return -(number + 1) // 2 if number % 2 else number // 2

    def scalar(self, name, start, path):
        if name == "bool":
            (byte,) = self.take(1, start, path)
            if byte > 1:
                raise Refused("bad bool", start, path)
            return byte == 1
        if name in FLOATS:
            return int.from_bytes(self.take(FLOATS[name][0], start, path), "little")
        size = self.varint(64, start, path)
        if name == "char" and not 1 <= size <= 4:
            raise Refused("bad char", start, path)
        data = self.take(size, start, path)
        if name == "bytes":
            return data
        try:
            return data.decode() if name == "str" else data.decode()[0]
        except UnicodeDecodeError:
            raise Refused("bad char" if name == "char" else "bad UTF-8", start, path) from None


def read(kind, data):
    """The value of the first bytes, and the bytes after it. Raises `Refused`."""
    reader = Reader(data)
    return reader.read(kind), data[reader.at :]


END = ("end",)


def said(kind, value):
    """What a message says: its parts without parts, in order. Widths, names and groups say nothing."""
    if isinstance(kind, Number):
        return [("number", value)]
    if isinstance(kind, Scalar):
        return [("count", len(value))] + [it for b in value for it in (("number", b), END)] if kind.name == "bytes" else [(kind.name, value)]
    if isinstance(kind, Maybe):
        return [("index", 0), END] if value is None else [("index", 1), *said(kind.content, value.value), END]
    if isinstance(kind, (Seq, Map)):
        element = kind.element if isinstance(kind, Seq) else Group((kind.key, kind.value))
        return [("count", len(value))] + [it for each in value for it in (*said(element, each), END)]
    if isinstance(kind, (Array, Group)):
        kinds = [kind.element] * kind.count if isinstance(kind, Array) else kind.parts
        return [it for each, part in zip(kinds, value) for it in said(each, part)]
    return [("index", value.index), *said(kind.contents[value.index], value.value), END]


def json_of(kind, value):
    """The JSON of a value, by docs/PCARD.md, as Python reads it."""
    if isinstance(kind, Number):
        return value if -(2**53) < value < 2**53 else str(value)
    if isinstance(kind, Scalar):
        return json_of_float(kind.name, value) if kind.name in FLOATS else value.hex() if kind.name == "bytes" else value
    if isinstance(kind, Maybe):
        content = None if value is None else json_of(kind.content, value.value)
        return {"Some": content} if value is not None and may_be_null(kind.content) else content
    if isinstance(kind, Map):
        return [[json_of(kind.key, key), json_of(kind.value, each)] for key, each in value]
    if isinstance(kind, (Seq, Array)):
        return [json_of(kind.element, each) for each in value]
    if isinstance(kind, Enum):
        name, content = kind.names[value.index], kind.contents[value.index]
        return name if content == UNIT else {name: json_of(content, value.value)}
    parts = [json_of(each, part) for each, part in zip(kind.parts, value)]
    return dict(zip(kind.names, parts)) if kind.names else parts or None


def may_be_null(kind):
    return isinstance(kind, Maybe) or kind == UNIT


def json_of_float(name, bits):
    size, layout, nan = FLOATS[name]
    (value,) = struct.unpack(layout, bits.to_bytes(size, "little"))
    if math.isnan(value):
        return "nan" if bits == nan else f"nan({bits:#x})"
    return value if math.isfinite(value) else str(value)
