"""Messages of the types of `kinds`, written and read as docs/FORMAT.md says, and nothing else: what tests compare with.

A value is a number (a float its bits, a character its code), a bool, bytes (a text its UTF-8), a list of parts or elements, a list of one
or no value for an option, or a pair of an index and a value for a result, of an index and a list of parts for a variant.
"""
UNEXPECTED_END, BAD_VARINT, BAD_BOOL, BAD_CHAR, BAD_UTF8, BAD_OPTION, NO_VALUE = 4, 5, 6, 7, 8, 9, 14
MOST_BYTES = {16: 3, 32: 5, 64: 10, 128: 19}


class Bad(Exception):
    """A message that is refused: the status, and the place of the first byte of what can't be read."""


def bits(name):
    return int(name[1:])


def varint(number):
    out = []
    while True:
        number, low = divmod(number, 128)
        out.append(low + (128 if number else 0))
        if not number:
            return bytes(out)


class Oracle:
    """The format over the declarations of a file."""

    def __init__(self, declared):
        self.declared = declared

    def parts(self, kind):
        """Returns the types of the parts of a tuple or a struct, or `None` for another type."""
        if kind[0] == "tuple":
            return list(kind[1])
        if kind[0] == "named" and self.declared[kind[1]].kind == "struct":
            return [each for _, each in self.declared[kind[1]].fields]
        return None

    def variants(self, kind):
        """Returns the types of the parts of each variant."""
        if kind[0] == "result":
            return [[kind[1]], [kind[2]]]
        return [[each for _, each in fields] for _, _, fields in self.declared[kind[1]].variants]

    def plain(self, kind):
        """Returns a type with an alias replaced."""
        while kind[0] == "named" and isinstance(self.declared[kind[1]], tuple):
            kind = self.declared[kind[1]]
        return kind

    def write(self, kind, value):
        """Returns the message of a value."""
        kind = self.plain(kind)
        what = kind[0]
        if what in ("int", "nonzero"):
            width = bits(kind[1])
            if width == 8:
                return bytes([value % 256])
            return varint(value if kind[1][0] == "u" else 2 * value if value >= 0 else -2 * value - 1)
        if what == "fixed":
            width = bits(kind[2])
            return (value % 2**width).to_bytes(width // 8, "little" if kind[1] == "le" else "big")
        if what in ("f32", "f64"):
            return value.to_bytes(bits(what) // 8, "little")
        if what == "bool":
            return b"\1" if value else b"\0"
        if what == "char":
            return varint(len(chr(value).encode())) + chr(value).encode()
        if what in ("str", "bytes"):
            return varint(len(value)) + value
        if what == "option":
            return b"\1" + self.write(kind[1], value[0]) if value else b"\0"
        if what == "list":
            return varint(len(value)) + b"".join(self.write(kind[1], each) for each in value)
        if what == "map":
            return varint(len(value)) + b"".join(self.write(("tuple", kind[1:3]), each) for each in value)
        if what == "array":
            return b"".join(self.write(kind[1], each) for each in value)
        if self.parts(kind) is not None:
            return b"".join(map(self.write, self.parts(kind), value))
        index, content = value
        known = self.variants(kind)
        return varint(index) + b"".join(map(self.write, known[index] if index < len(known) else [], content))

    def number(self, message, at, width):
        """Returns the number of the varint at a place, and the place after it."""
        number = 0
        for index in range(MOST_BYTES[width]):
            if at + index >= len(message):
                raise Bad(UNEXPECTED_END, at)
            byte = message[at + index]
            number += byte % 128 * 128**index
            if byte < 128:
                if number >= 2**width:
                    break
                return number, at + index + 1
        raise Bad(BAD_VARINT, at)

    def run(self, message, at, size, start):
        """Returns so many bytes, and the place after them. What begins at `start` is refused if they aren't there."""
        if at + size > len(message):
            raise Bad(UNEXPECTED_END, start)
        return message[at : at + size], at + size

    def read(self, kind, message, at=0):
        """Returns the value of the message at a place, and the place after it."""
        kind = self.plain(kind)
        what = kind[0]
        if what in ("int", "nonzero", "fixed"):
            return self.read_integer(kind, message, at)
        if what in ("f32", "f64"):
            content, after = self.run(message, at, bits(what) // 8, at)
            return int.from_bytes(content, "little"), after
        if what in ("bool", "option"):
            content, after = self.run(message, at, 1, at)
            if content[0] > 1:
                raise Bad(BAD_BOOL if what == "bool" else BAD_OPTION, at)
            if what == "bool":
                return content[0] == 1, after
            return self.read_row([kind[1]] * content[0], message, after)
        if what == "char":
            return self.read_char(message, at)
        if what in ("str", "bytes"):
            return self.read_run(kind, message, at)
        if what in ("list", "map"):
            return self.read_list(("tuple", kind[1:3]) if what == "map" else kind[1], kind[-1], message, at)
        if what == "array" and kind[1] == ("int", "u8"):
            # An array of bytes is one piece, as texts and counted bytes are: if its bytes aren't there, its place is that of the first.
            content, after = self.run(message, at, kind[2], at)
            return list(content), after
        if what == "array":
            return self.read_row([kind[1]] * kind[2], message, at)
        if self.parts(kind) is not None:
            return self.read_row(self.parts(kind), message, at)
        index, after = self.number(message, at, 32)
        if index >= len(self.variants(kind)):
            raise Bad(NO_VALUE, at)
        content, after = self.read_row(self.variants(kind)[index], message, after)
        return (index, content), after

    def read_integer(self, kind, message, at):
        name = kind[-1]
        width, is_signed = bits(name), name[0] == "i"
        if kind[0] == "fixed" or width == 8:
            content, after = self.run(message, at, width // 8, at)
            order = "big" if kind[0] == "fixed" and kind[1] == "be" else "little"
            value = int.from_bytes(content, order, signed=is_signed)
        else:
            value, after = self.number(message, at, width)
            if is_signed:
                value = value // 2 if value % 2 == 0 else -(value + 1) // 2
        if kind[0] == "nonzero" and value == 0:
            raise Bad(NO_VALUE, at)
        return value, after

    def read_char(self, message, at):
        size, begin = self.number(message, at, 64)
        if not 1 <= size <= 4:
            raise Bad(BAD_CHAR, at)
        content, after = self.run(message, begin, size, at)
        try:
            return ord(content.decode()[0]), after
        except UnicodeDecodeError:
            raise Bad(BAD_CHAR, at) from None

    def read_run(self, kind, message, at):
        """Reads a text or bytes. A capacity is looked at last."""
        size, begin = self.number(message, at, 64)
        content, after = self.run(message, begin, size, at)
        if kind[0] == "str":
            try:
                content.decode()
            except UnicodeDecodeError:
                raise Bad(BAD_UTF8, at) from None
        if kind[1] is not None and size > kind[1]:
            raise Bad(NO_VALUE, at)
        return content, after

    def read_list(self, element, most, message, at):
        count, after = self.number(message, at, 64)
        if most is not None and count > most:
            raise Bad(NO_VALUE, at)
        values = []
        while len(values) < count:
            value, after = self.read(element, message, after)
            values.append(value)
        return values, after

    def read_row(self, kinds, message, at):
        values = []
        for kind in kinds:
            value, at = self.read(kind, message, at)
            values.append(value)
        return values, at
