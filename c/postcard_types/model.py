"""The types of messages, and how many bytes their messages have."""
from dataclasses import dataclass, field
from typing import Any, List, Optional, Tuple

DIGITS = {16: 3, 32: 5, 64: 10, 128: 19}
# The most bytes of the message of a type that is written to C, and the greatest capacity; and the most types in a type.
MOST, MOST_PARTS = 2**31 - 1, 65_536


class TooLong(Exception):
    """A type is made of more than `MOST_PARTS` others."""


class Compound:
    """A type that is made of others. `weight` is how many there are in it, itself included."""

    def __post_init__(self):
        weight = 1 + sum(getattr(each, "weight", 1) for each in inner_of(self))
        if weight > MOST_PARTS:
            raise TooLong
        object.__setattr__(self, "weight", weight)


@dataclass(frozen=True)
class Number:
    """A number: a varint, or all its bytes in the `order` `le` or `be`. `nonzero` says that 0 is no value of the type."""

    name: str
    order: Optional[str] = None
    nonzero: bool = False

    @property
    def bits(self):
        return int(self.name[1:])

    @property
    def is_signed(self):
        return self.name[0] == "i"


@dataclass(frozen=True)
class Scalar:
    """`bool`, `char`, `f32`, `f64`, or `unit`, which has no bytes."""

    name: str


@dataclass(frozen=True)
class Text:
    """UTF-8 of at most `most` bytes, or of any length."""

    most: Optional[int] = None


@dataclass(frozen=True)
class Bytes:
    """Counted bytes, at most `most` or any number. `is_string` says that an expression has `bytes` for it, and not `[u8]`."""

    most: Optional[int] = None
    is_string: bool = field(default=False, compare=False)


@dataclass(frozen=True)
class Option(Compound):
    content: Any


@dataclass(frozen=True)
class List_(Compound):
    """Counted elements. The entries of a map are its elements, tuples of a key and a value."""

    element: Any
    most: Optional[int] = None
    is_map: bool = False


@dataclass(frozen=True)
class Array(Compound):
    element: Any
    count: int


@dataclass(frozen=True)
class Tuple_(Compound):
    parts: Tuple[Any, ...]


@dataclass(frozen=True)
class Result(Compound):
    ok: Any
    err: Any


@dataclass(frozen=True)
class Named(Compound):
    """A struct or an enum, whose parameters are these arguments."""

    name: str
    arguments: Tuple[Any, ...] = ()


@dataclass
class Member:
    """A field of a struct or a variant."""

    name: str
    kind: Any
    docs: List[str]
    place: Tuple[int, int]


@dataclass
class Case:
    """A variant. `style` is `named`, `tuple` or `unit`."""

    name: str
    style: str
    members: List[Member]
    docs: List[str]
    place: Tuple[int, int]


@dataclass
class Definition:
    """A struct with its `members`, or an enum with its `cases`."""

    is_struct: bool
    docs: List[str]
    place: Tuple[int, int]
    style: str = "unit"
    members: List[Member] = field(default_factory=list)
    cases: List[Case] = field(default_factory=list)

    @property
    def is_plain(self):
        """Whether it is an enum whose variants have no content."""
        return not self.is_struct and all(not case.members for case in self.cases)


UNIT = Scalar("unit")
BYTE = Number("u8")


def inner_of(kind):
    """Returns the types that a type is made of: the arguments of a named one."""
    if isinstance(kind, (List_, Array)):
        return [kind.element]
    if isinstance(kind, Option):
        return [kind.content]
    if isinstance(kind, Result):
        return [kind.ok, kind.err]
    if isinstance(kind, Tuple_):
        return list(kind.parts)
    return list(kind.arguments) if isinstance(kind, Named) else []


def varint_size(number):
    """Returns the bytes of a number's varint."""
    return max(1, -(-number.bit_length() // 7))


def remembered(size_of):
    """Makes a method of the model keep the size that it found for a type."""

    def call(self, kind):
        key = size_of.__name__, kind
        if key not in self.sizes:
            self.sizes[key] = size_of(self, kind)
        return self.sizes[key]

    return call


class Model:
    """The types that a file declares.

    `definitions` has the structs and enums. `order` has every type that they are made of, each after those that it needs. `aliases` has
    the declared aliases, as their names, types, comments and places; `alias_of` the first alias of a type. `skipped` has the generic
    types that no declaration makes concrete.
    """

    def __init__(self):
        self.definitions, self.order, self.aliases, self.alias_of, self.skipped = {}, [], [], {}, []
        self.sizes = {}

    def parts(self, kind):
        """Returns the types of the parts of a tuple or a struct."""
        if isinstance(kind, Tuple_):
            return list(kind.parts)
        return [member.kind for member in self.definitions[kind].members]

    def needs(self, kind):
        """Returns the types that the declaration of a type names."""
        if not isinstance(kind, Named):
            return inner_of(kind)
        definition = self.definitions[kind]
        return [member.kind for case in [definition, *definition.cases] for member in case.members]

    def add(self, kind):
        """Adds a type and those that it needs to the order, if they aren't there."""
        if ("added", kind) in self.sizes:
            return
        self.sizes["added", kind] = True
        for each in self.needs(kind):
            self.add(each)
        self.order.append(kind)

    @remembered
    def min_size(self, kind):
        """Returns the number of bytes of the shortest message."""
        if isinstance(kind, Number):
            return kind.bits // 8 if kind.order else 1
        if isinstance(kind, Scalar):
            return {"unit": 0, "f32": 4, "f64": 8, "char": 2}.get(kind.name, 1)
        if isinstance(kind, Array):
            return kind.count * self.min_size(kind.element)
        if isinstance(kind, Tuple_) or isinstance(kind, Named) and self.definitions[kind].is_struct:
            return sum(map(self.min_size, self.parts(kind)))
        if isinstance(kind, Result):
            return 1 + min(self.min_size(kind.ok), self.min_size(kind.err))
        if isinstance(kind, Named):
            return min(varint_size(index) + size for index, size in enumerate(self.case_sizes(kind, self.min_size)))
        return 1

    def case_sizes(self, kind, size_of):
        """Returns the size of the content of each variant, or `None` where it has none."""
        return [added(size_of(member.kind) for member in case.members) for case in self.definitions[kind].cases]

    @remembered
    def max_size(self, kind):
        """Returns the number of bytes of the longest message, or `None` if there is none."""
        if isinstance(kind, Number):
            return kind.bits // 8 if kind.order or kind.bits == 8 else DIGITS[kind.bits]
        if isinstance(kind, Scalar):
            return {"unit": 0, "f32": 4, "f64": 8, "char": 5}.get(kind.name, 1)
        if isinstance(kind, (Text, Bytes)):
            return None if kind.most is None else varint_size(kind.most) + kind.most
        if isinstance(kind, List_):
            size = None if kind.most is None else self.max_size(kind.element)
            return None if size is None else varint_size(kind.most) + kind.most * size
        if isinstance(kind, Array):
            size = self.max_size(kind.element)
            return None if size is None else kind.count * size
        if isinstance(kind, Option):
            return added([1, self.max_size(kind.content)])
        if isinstance(kind, Result):
            sizes = [self.max_size(kind.ok), self.max_size(kind.err)]
        elif isinstance(kind, Named) and not self.definitions[kind].is_struct:
            sizes = self.case_sizes(kind, self.max_size)
        else:
            return added(map(self.max_size, self.parts(kind)))
        return None if None in sizes else max(varint_size(index) + size for index, size in enumerate(sizes))


def added(sizes):
    """Returns the sum, or `None` if one of the sizes is `None`."""
    sizes = list(sizes)
    return None if None in sizes else sum(sizes)
