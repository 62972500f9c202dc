"""Random values of the types of `kinds`: any, the ones with the longest message, and ones with a single count, size or index too great."""
from oracle import bits


def text(random, most):
    """Returns the UTF-8 of a random text of at most so many bytes."""
    found = b""
    while random.random() < 0.8:
        code = random.choice([(32, 127), (128, 0x800), (0x800, 0xD800), (0xE000, 0x110000), (0, 1)])
        more = chr(random.randrange(*code)).encode()
        if len(found) + len(more) > most:
            break
        found += more
    return found


class Chance:
    """Random values over the declarations of an oracle."""

    def __init__(self, oracle, random):
        self.oracle, self.random = oracle, random

    def integer(self, name):
        width, random = bits(name), self.random
        value = random.getrandbits(random.randint(0, width)) if random.random() < 0.8 else 2**width - 1
        if name[0] == "u":
            return value
        return value - 2**width if value >= 2 ** (width - 1) else random.choice([1, -1]) * value

    def float(self, width):
        """Returns the bits of a float: any, both zeros, both infinities, a quiet and a signalling NaN."""
        exponent = {32: 0xFF << 23, 64: 0x7FF << 52}[width]
        sign = 1 << (width - 1)
        return self.random.choice([self.random.getrandbits(width)] * 5 + [0, sign, exponent, exponent | sign, exponent + 1, 2**width - 1])

    def leaf(self, kind):
        """Returns a value of a type without parts."""
        what, random = kind[0], self.random
        if what in ("int", "fixed", "nonzero"):
            value = self.integer(kind[-1])
            return value or 1 if what == "nonzero" else value
        if what in ("f32", "f64"):
            return self.float(bits(what))
        if what == "bool":
            return random.random() < 0.5
        if what == "char":
            return ord(text(random, 4).decode()[:1] or "x")
        if what == "str":
            return text(random, random.choice([0, 5, 40, 300]) if kind[1] is None else kind[1])
        return random.randbytes(random.randint(0, random.choice([0, 3, 200]) if kind[1] is None else kind[1]))

    def any(self, kind):
        """Returns a value of a type."""
        kind = self.oracle.plain(kind)
        what, random = kind[0], self.random
        if what == "option":
            return [self.any(kind[1])] if random.random() < 0.6 else []
        if what in ("list", "map"):
            element = ("tuple", kind[1:3]) if what == "map" else kind[1]
            most = random.choice([0, 1, 3, 6]) if kind[-1] is None else kind[-1]
            return [self.any(element) for _ in range(random.randint(0, most))]
        if what == "array":
            return [self.any(kind[1]) for _ in range(kind[2])]
        parts = self.oracle.parts(kind) if what in ("tuple", "named") else None
        if parts is not None:
            return [self.any(part) for part in parts]
        if what not in ("result", "named"):
            return self.leaf(kind)
        variants = self.oracle.variants(kind)
        index = random.randrange(len(variants))
        return index, [self.any(part) for part in variants[index]]

    def greatest(self, kind):
        """Returns a value with the longest message, or `None` if there is none."""
        kind = self.oracle.plain(kind)
        what = kind[0]
        if what in ("int", "fixed", "nonzero"):
            width = bits(kind[-1])
            return 2**width - 1 if kind[-1][0] == "u" else -(2 ** (width - 1))
        if what in ("f32", "f64", "bool", "char"):
            return {"bool": True, "char": 0x10FFFF}.get(what, 0)
        if what in ("str", "bytes"):
            return None if kind[1] is None else b"x" * kind[1]
        if what == "option":
            inner = self.greatest(kind[1])
            return None if inner is None else [inner]
        if what in ("list", "map", "array"):
            element = self.greatest(("tuple", kind[1:3]) if what == "map" else kind[1])
            return None if element is None or kind[-1] is None else [element] * kind[-1]
        parts = self.oracle.parts(kind)
        if parts is not None:
            return self.row(parts)
        rows = [self.row(each) for each in self.oracle.variants(kind)]
        if None in rows:
            return None
        return max(enumerate(rows), key=lambda it: len(self.oracle.write(kind, it)))

    def row(self, kinds):
        values = [self.greatest(kind) for kind in kinds]
        return None if None in values else values

    def beyond(self, kind, left):
        """Returns a value in which the place with a limit that is the `left[0]`th in order is beyond it. The number is counted down, and
        stays above 0 if the value has too few such places."""
        kind = self.oracle.plain(kind)
        what = kind[0]
        has_limit = what == "nonzero" or what in ("str", "bytes", "list", "map") and kind[-1] is not None or self.is_choice(kind)
        left[0] -= has_limit
        if has_limit and left[0] == 0:
            return self.over(kind)
        if what == "option":
            return [self.beyond(kind[1], left)]
        if what in ("list", "map"):
            element = ("tuple", kind[1:3]) if what == "map" else kind[1]
            return [self.beyond(element, left) for _ in range(2 if kind[-1] is None else kind[-1])]
        if what == "array":
            return [self.beyond(kind[1], left) for _ in range(kind[2])]
        parts = self.oracle.parts(kind) if what in ("tuple", "named") else None
        if parts is not None:
            return [self.beyond(part, left) for part in parts]
        if not self.is_choice(kind):
            return self.leaf(kind)
        variants = self.oracle.variants(kind)
        index = self.random.randrange(len(variants))
        return index, [self.beyond(part, left) for part in variants[index]]

    def is_choice(self, kind):
        return kind[0] == "result" or kind[0] == "named" and self.oracle.declared[kind[1]].kind == "enum"

    def over(self, kind):
        """Returns what is one beyond the limit of a type."""
        if kind[0] == "nonzero":
            return 0
        if kind[0] in ("str", "bytes"):
            return b"x" * (kind[1] + 1)
        if kind[0] in ("list", "map"):
            element = ("tuple", kind[1:3]) if kind[0] == "map" else kind[1]
            return [self.any(element) for _ in range(kind[-1] + 1)]
        return len(self.oracle.variants(kind)), []
