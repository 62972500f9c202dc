"""Messages for tests, each with what reading it must give."""
import random

from chance import Chance
from oracle import NO_VALUE, Bad, Oracle
from shown import show

# How many limits of a type are tried, and how often each, one beyond it.
LIMITS, TIMES = 60, 2


class Cases:
    """Messages of the types of a file of declarations: valid, the greatest, one beyond each limit, cut, damaged, padded and random."""

    def __init__(self, declared, seed):
        self.declared, self.oracle, self.random = declared, Oracle(declared), random.Random(seed)
        self.chance = Chance(self.oracle, self.random)
        self.names = [name for name in declared if not isinstance(declared[name], tuple)]

    def fixed(self, name):
        """Returns messages that a type has whatever the chance: the greatest, that with a byte after it, and one beyond each limit."""
        kind = ("named", name)
        greatest = self.chance.greatest(kind)
        found = [] if greatest is None else [self.oracle.write(kind, greatest), self.oracle.write(kind, greatest) + b"\0"]
        for number in range(1, LIMITS):
            for _ in range(TIMES):
                left = [number]
                value = self.chance.beyond(kind, left)
                if left[0] > 0:
                    continue
                found.append(self.oracle.write(kind, value))
                assert self.expected(name, found[-1])[:2] == ("err", NO_VALUE), (name, value)
        return found

    def some(self, name):
        """Returns a valid message, and nine that are cut, damaged, padded or random."""
        kind = ("named", name)
        value = self.chance.any(kind)
        message = self.oracle.write(kind, value)
        assert self.oracle.read(kind, message) == (value, len(message)), (name, value)
        cut = [message[: max(len(message) - 1, 0)], message[: self.random.randrange(len(message) + 1)]]
        damaged = [self.damaged(message) for _ in range(4)]
        padded = [self.padded(message) for _ in range(2)]
        return [message, *cut, *damaged, *padded, self.random.randbytes(self.random.randint(0, 30))]

    def damaged(self, message):
        found = bytearray(message + self.random.randbytes(self.random.randint(0, 3)))
        for _ in range(self.random.randint(1, 3) if found else 0):
            byte = self.random.choice([0, 1, 2, 0x7F, 0x80, 0xFF, self.random.randrange(256)])
            found[self.random.randrange(len(found))] = byte
        return bytes(found)

    def padded(self, message):
        """Returns the message with up to 20 bytes of padding behind one of its bytes: where a varint ends, it is accepted up to its most."""
        if not message:
            return message
        at = self.random.randrange(len(message))
        zeros = b"\x80" * self.random.choice([0, 1, 1, 2, 3, 4, 8, 9, 17, 18, 19]) + b"\0"
        return message[:at] + bytes([message[at] | 128]) + zeros + message[at + 1 :]

    def expected(self, name, message):
        """Returns `ok`, the place after the value and the value; or `err`, the status and the place."""
        try:
            value, after = self.oracle.read(("named", name), message)
        except Bad as problem:
            return ("err", *problem.args)
        return "ok", after, value

    def line(self, name, message):
        """Returns the line that the test program in C prints."""
        what, first, second = self.expected(name, message)
        if what == "err":
            return f"err {first} {second}"
        written = self.oracle.write(("named", name), second).hex()
        return f"ok {first} {show(self.oracle, ('named', name), second)} {written}| {written}|"

    def all(self, count):
        """Gives the names of types with messages, about `count` in all."""
        total = 0
        for name in self.names:
            for message in self.fixed(name):
                total += 1
                yield name, message
        while total < count:
            for name in self.names:
                for message in self.some(name):
                    total += 1
                    yield name, message
