"""python_trip.py TYPES FOLDER COUNT SEED: requires that the module for the types of a file, in a folder, does with about COUNT messages what
the oracle does, and that it refuses values that are none of a type."""
import importlib
import os
import struct
import sys

import kinds
from cases import Cases
from oracle import bits

# Words and types of Python, and names of a class of messages, that are names in the files of declarations here.
WORDS = {"def", "class", "lambda", "None", "True", "False", "value", "encode", "frame", "int", "from", "name"}


def named(name):
    return f"_{name}" if name.isdigit() else f"{name}_" if name in WORDS else name


def float_of(width, number):
    """Returns the float of these bits. Of an f32, a NaN has them at the front of its content."""
    exponent = number >> 23 & 0xFF
    if width == 32 and exponent == 0xFF:
        number = number >> 31 << 63 | 0x7FF << 52 | (number & 0x7FFFFF) << 29
        width = 64
    return struct.unpack("<f" if width == 32 else "<d", number.to_bytes(width // 8, "little"))[0]


class Values:
    """The values of a module for those of an oracle."""

    def __init__(self, module, runtime, oracle):
        self.module, self.runtime, self.oracle = module, runtime, oracle

    def of(self, kind, value):
        """Returns the value of Python."""
        kind = self.oracle.plain(kind)
        what = kind[0]
        if what in ("int", "fixed", "nonzero", "bool", "bytes"):
            return value
        if what in ("f32", "f64"):
            return float_of(bits(what), value)
        if what == "char":
            return chr(value)
        if what == "str":
            return value.decode()
        if what == "option":
            return self.option(kind[1], value)
        if what == "array" and kind[1] == ("int", "u8"):
            return bytes(value)
        if what in ("list", "map", "array"):
            element = ("tuple", kind[1:3]) if what == "map" else kind[1]
            return [self.of(element, each) for each in value]
        if what == "tuple":
            return tuple(map(self.of, kind[1], value)) if kind[1] else None
        if what == "result":
            return (self.runtime.Err if value[0] else self.runtime.Ok)(self.of(kind[1 + value[0]], value[1][0]))
        return self.instance(kind[1], self.oracle.declared[kind[1]], value)

    def option(self, kind, value):
        """Returns the value of an option. Its content is in a `Some` if that may be None."""
        if not value:
            return None
        content = self.of(kind, value[0])
        is_nested = self.oracle.plain(kind)[0] == "option" or self.oracle.plain(kind) == ("tuple", ())
        return self.runtime.Some(content) if is_nested else content

    def instance(self, name, definition, value):
        cls = getattr(self.module, name)
        if definition.kind == "struct":
            return cls(**{named(field): self.of(kind, each) for (field, kind), each in zip(definition.fields, value)})
        if all(not fields for _, _, fields in definition.variants):
            return cls(value[0])
        variant, _, fields = definition.variants[value[0]]
        return getattr(cls, named(variant))(**{named(field): self.of(kind, each) for (field, kind), each in zip(fields, value[1])})


def answer(cls, message):
    """Returns what reading a message gives, and what is written of it again."""
    try:
        value, rest = cls.take(message)
    except ValueError as problem:
        return "err", problem.status, problem.place
    after = len(message) - len(rest)
    assert cls.unframe(value.frame()).encode() == value.encode()
    if not rest:
        assert repr(cls.decode(message)) == repr(value)
    return "ok", after, repr(value), value.encode()


def wanted(cases, values, name, message):
    what, first, second = cases.expected(name, message)
    if what == "err":
        return what, first, second
    kind = ("named", name)
    return what, first, repr(values.of(kind, second)), cases.oracle.write(kind, second)


def refused_beyond(cases, values, name):
    """Returns the limits of a type of which a value beyond is written, and not refused with status 13."""
    wrong, kind = [], ("named", name)
    for number in range(1, 60):
        left = [number]
        value = cases.chance.beyond(kind, left)
        if left[0] > 0:
            break
        try:
            written = values.of(kind, value).encode()
            wrong.append(f"{name}: {value} is written as {written.hex()}")
        except (IndexError, KeyError):
            pass  # an index beyond the variants is no value of Python at all
        except ValueError as problem:
            if getattr(problem, "status", 13) != 13:
                wrong.append(f"{name}: {problem}")
    return wrong


def main():
    types, folder, count, seed = sys.argv[1], os.path.abspath(sys.argv[2]), int(sys.argv[3]), int(sys.argv[4])
    sys.path.insert(0, folder)
    module = importlib.import_module(os.path.splitext(os.path.basename(types))[0])
    runtime = importlib.import_module("postcard_runtime")
    cases = Cases(kinds.read(types), seed)
    values, total, wrong = Values(module, runtime, cases.oracle), 0, []
    for name, message in cases.all(count):
        total += 1
        found, must = answer(getattr(module, name), message), wanted(cases, values, name, message)
        if found != must:
            wrong.append(f"{name} {message.hex()}\n    is {found}\n    not {must}")
    for name in cases.names:
        wrong += refused_beyond(cases, values, name)
    for line in wrong[:5]:
        print(line)
    print(f"{os.path.basename(types)}: {total} messages of {len(cases.names)} types in Python, {len(wrong)} differ")
    return 1 if wrong or total < count else 0


if __name__ == "__main__":
    sys.exit(main())
