"""Types for the tests, read from a file that is written by hand, as sensor.types: a line a declaration.

    struct Reading = {id: u32, label: str<16>, level: Level?}
    enum Level = Low | High(u8) | Both{low: u8, high: u8}
    type Samples = [i16]<8>

A number in `<` and `>` is a capacity. A type is a tuple, whose first part says what it is:

    ("int", "u16")  ("fixed", "le", "u32")  ("nonzero", "u8")  ("f32",) ("f64",) ("bool",) ("char",)  ("str", most)  ("bytes", most)
    ("option", T)  ("list", T, most)  ("map", K, V, most)  ("array", T, count)  ("tuple", (T, ..))  ("result", T, E)  ("named", name)

`()` is the tuple of no parts, and `most` is None if there is no capacity.
"""
import re

WORD = re.compile(r"\s*(\w+|=>|.)")
INTEGERS = {f"{sign}{bits}" for sign in "ui" for bits in (8, 16, 32, 64, 128)}


class Definition:
    """A struct with its `fields`, or an enum with its `variants`: names and types, or names, styles and fields."""

    def __init__(self, kind, style="tuple", fields=(), variants=()):
        self.kind, self.style, self.fields, self.variants = kind, style, list(fields), list(variants)


class Reader:
    """A line of such a file, word by word."""

    def __init__(self, line):
        self.words, self.at = WORD.findall(line.strip()), 0

    def peek(self, ahead=0):
        return self.words[self.at + ahead] if self.at + ahead < len(self.words) else ""

    def next(self):
        self.at += 1
        return self.words[self.at - 1]

    def expect(self, word):
        found = self.next()
        assert found == word, (found, word, self.words)

    def most(self):
        """Reads the capacity after a type, if there is one."""
        if self.peek() != "<":
            return None
        self.next()
        number = int(self.next())
        self.expect(">")
        return number

    def kinds(self, end):
        """Reads types and commas up to a word, and returns the types."""
        found = []
        while self.peek() != end:
            found.append(self.kind())
            if self.peek() == ",":
                self.next()
        self.next()
        return found

    def fields(self):
        """Reads the fields of a struct or a variant: their style, and the names and types."""
        if self.peek() == "{":
            self.next()
            found = []
            while self.peek() != "}":
                name = self.next()
                self.expect(":")
                found.append((name, self.kind()))
                if self.peek() == ",":
                    self.next()
            self.next()
            return "named", found
        if self.peek() == "(":
            self.next()
            return "tuple", [(str(index), kind) for index, kind in enumerate(self.kinds(")"))]
        return "tuple", []

    def kind(self):
        found = self.plain()
        while self.peek() == "?":
            self.next()
            found = ("option", found)
        return found

    def plain(self):
        word = self.next()
        if word in INTEGERS:
            return ("int", word)
        if word in ("f32", "f64", "bool", "char"):
            return (word,)
        if word in ("str", "bytes"):
            return (word, self.most())
        if word == "(":
            parts = self.kinds(")")
            is_alone = len(parts) == 1 and self.words[self.at - 2] != ","
            return parts[0] if is_alone else ("tuple", tuple(parts))
        if word == "[":
            element = self.kind()
            if self.next() == "]":
                return ("list", element, self.most())
            count = int(self.next())
            self.expect("]")
            return ("array", element, count)
        if word == "{":
            key = self.kind()
            self.expect("=>")
            value = self.kind()
            self.expect("}")
            return ("map", key, value, self.most())
        return self.angled(word)

    def angled(self, word):
        """Reads what has types in `<` and `>`, or the name of a declaration."""
        if word not in ("LE", "BE", "NonZero", "Result"):
            return ("named", word)
        self.expect("<")
        parts = self.kinds(">")
        if word == "Result":
            return ("result", *parts)
        return ("nonzero", parts[0][1]) if word == "NonZero" else ("fixed", word.lower(), parts[0][1])


def definition(line):
    """Returns the name of a line's declaration, and what it declares: a `Definition`, or the type of an alias."""
    reader = Reader(line)
    kind, name = reader.next(), reader.next()
    reader.expect("=")
    if kind == "type":
        return name, reader.kind()
    if kind == "struct":
        return name, Definition(kind, *reader.fields())
    variants = []
    while True:
        variant = reader.next()
        variants.append((variant, *reader.fields()))
        if reader.peek() != "|":
            return name, Definition(kind, variants=variants)
        reader.next()


def read(file):
    """Returns the declarations of a file by their names."""
    with open(file, encoding="utf-8") as it:
        return dict(definition(line) for line in it if line.strip() and not line.startswith("#"))


def expression(declared, kind):
    """Returns a type as an expression of the program pcard. It has no capacities, and no numbers without 0."""

    def of(inner):
        return expression(declared, inner)

    what = kind[0]
    if what in ("int", "nonzero"):
        return kind[1]
    if what == "fixed":
        return f"{kind[1].upper()}<{kind[2]}>"
    if what in ("option", "result"):
        return f"{what.capitalize()}<{', '.join(map(of, kind[1:]))}>"
    if what == "list":
        return f"[{of(kind[1])}]"
    if what == "array":
        return f"[{of(kind[1])}; {kind[2]}]"
    if what == "map":
        return f"{{{of(kind[1])} => {of(kind[2])}}}"
    if what == "tuple":
        return f"({''.join(of(part) + ', ' for part in kind[1])})"
    if what != "named":
        return what
    found = declared[kind[1]]
    if isinstance(found, tuple):
        return of(found)
    if found.kind == "struct":
        return content(found.style, found.fields, of) or "()"
    return f"(| {' | '.join(name + content(style, fields, of) for name, style, fields in found.variants)})"


def content(style, fields, of):
    """Returns the expression of the fields of a struct or a variant, or nothing if there are none."""
    if style == "named":
        return f"{{{', '.join(f'{name}: {of(kind)}' for name, kind in fields)}}}"
    return f"({', '.join(of(kind) for _, kind in fields)})" if fields else ""
