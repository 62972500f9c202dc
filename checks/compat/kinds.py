"""Types of messages, and the expressions that pcard takes for them."""
import re
from dataclasses import dataclass


@dataclass(frozen=True)
class Number:
    """An integer: a byte, a varint, or with the order "LE" or "BE" at its full width."""

    bits: int
    is_signed: bool
    order: str = ""

    @property
    def is_varint(self):
        return self.bits > 8 and not self.order


@dataclass(frozen=True)
class Scalar:
    """`bool`, `f32`, `f64`, `char`, `str` or `bytes`."""

    name: str


@dataclass(frozen=True)
class Maybe:
    """An option."""

    content: object


@dataclass(frozen=True)
class Seq:
    """A list."""

    element: object


@dataclass(frozen=True)
class Map:
    """A map."""

    key: object
    value: object


@dataclass(frozen=True)
class Array:
    """An array."""

    element: object
    count: int


@dataclass(frozen=True)
class Group:
    """A struct, or without names a tuple."""

    parts: tuple
    names: tuple = ()


@dataclass(frozen=True)
class Enum:
    """An enum: the names of the variants, and their contents."""

    names: tuple
    contents: tuple


UNIT = Group(())
NUMBERS = {f"{sign}{bits}": Number(bits, sign == "i") for sign in "ui" for bits in (8, 16, 32, 64, 128)}
SCALARS = {name: Scalar(name) for name in ("bool", "f32", "f64", "char", "str", "bytes")}
LEAVES = {**NUMBERS, **SCALARS}


def has_bytes(kind):
    """Whether each message of the type has a byte."""
    if isinstance(kind, Array):
        return kind.count > 0 and has_bytes(kind.element)
    return not isinstance(kind, Group) or any(map(has_bytes, kind.parts))


class Parser:
    """What is left of the words of an expression. It takes the forms of docs/PCARD.md but for references and `Box`."""

    def __init__(self, text):
        self.words = re.findall(r"=>|\w+|[^\s\w]", text)[::-1]

    def next(self):
        return self.words[-1] if self.words else ""

    def skip(self, sign):
        """Whether the sign comes next. It is passed then."""
        return self.next() == sign and bool(self.words.pop())

    def need(self, sign):
        assert self.skip(sign), f"expected {sign} before {self.words[::-1]}"

    def is_variant(self):
        """Whether a variant comes next."""
        return self.next()[:1].isupper() and (self.words[-2:-1] or [""])[0] in ("|", "(", "{")

    def kind(self):
        """Any type."""
        if self.next() == "|" or self.is_variant():
            return self.enum()
        found = self.plain()
        while self.skip("?"):
            found = Maybe(found)
        return found

    def enum(self):
        self.skip("|")
        variants = [self.variant()]
        while self.skip("|"):
            variants.append(self.variant())
        return Enum(tuple(name for name, _ in variants), tuple(content for _, content in variants))

    def variant(self):
        name = self.words.pop()
        return name, self.plain() if self.next() in ("(", "{") else UNIT

    def plain(self):
        """A type that is no enum, without a `?` after it."""
        word = self.words.pop()
        forms = {"(": self.tuple, "[": self.list, "{": self.braces, "LE": self.fixed, "BE": self.fixed, "Result": self.result}
        return forms[word](word) if word in forms else LEAVES[word]

    def tuple(self, _):
        parts, comma = [], True
        while not self.skip(")"):
            assert comma, "expected ,"
            parts.append(self.kind())
            comma = self.skip(",")
        return parts[0] if len(parts) == 1 and not comma else Group(tuple(parts))

    def list(self, _):
        element = self.kind()
        found = Array(element, int(self.words.pop())) if self.skip(";") else Seq(element)
        self.need("]")
        return found

    def braces(self, _):
        if self.words[-2] != ":":
            return self.map()
        names, parts = [], []
        while not self.skip("}"):
            names.append(self.words.pop())
            self.need(":")
            parts.append(self.kind())
            self.skip(",")
        return Group(tuple(parts), tuple(names))

    def map(self):
        key = self.kind()
        self.need("=>")
        value = self.kind()
        self.need("}")
        return Map(key, value)

    def fixed(self, order):
        self.need("<")
        number = NUMBERS[self.words.pop()]
        self.need(">")
        return Number(number.bits, number.is_signed, order)

    def result(self, _):
        self.need("<")
        ok = self.kind()
        self.need(",")
        failed = self.kind()
        self.need(">")
        return Enum(("Ok", "Err"), (ok, failed))


def parsed(text):
    """The type of an expression."""
    parser = Parser(text)
    found = parser.kind()
    assert not parser.words, f"{text}: {parser.words[::-1]} is left"
    return found


def shown(kind):
    """The expression of a type."""
    if isinstance(kind, Number):
        name = f"{'i' if kind.is_signed else 'u'}{kind.bits}"
        return f"{kind.order}<{name}>" if kind.order else name
    if isinstance(kind, Scalar):
        return kind.name
    if isinstance(kind, Maybe):
        inner = shown(kind.content)
        return f"({inner})?" if isinstance(kind.content, Enum) else f"{inner}?"
    if isinstance(kind, Seq):
        return f"[{shown(kind.element)}]"
    if isinstance(kind, Array):
        return f"[{shown(kind.element)}; {kind.count}]"
    if isinstance(kind, Map):
        return f"{{{shown(kind.key)} => {shown(kind.value)}}}"
    if isinstance(kind, Group):
        return shown_group(kind)
    variants = [name + ("" if content == UNIT else shown_content(content)) for name, content in zip(kind.names, kind.contents)]
    return ("| " if len(variants) == 1 else "") + " | ".join(variants)


def shown_group(kind):
    """The expression of a tuple or a struct."""
    if kind.names:
        return "{" + ", ".join(f"{name}: {shown(part)}" for name, part in zip(kind.names, kind.parts)) + "}"
    return "(" + ", ".join(map(shown, kind.parts)) + ("," if len(kind.parts) == 1 else "") + ")"


def shown_content(kind):
    """The content of a variant, in brackets."""
    return shown(kind) if isinstance(kind, Group) else f"({shown(kind)})"
