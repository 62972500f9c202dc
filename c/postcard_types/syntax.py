"""The parts of a declaration, as they are written. `token` is where a part begins."""
from dataclasses import dataclass, field
from typing import Any, List, Optional

from .tokens import Token


@dataclass
class Path:
    """A name with its arguments, as `Vec<u8>`. An argument is a type or a `Count`."""

    token: Token
    arguments: List[Any] = field(default_factory=list)


@dataclass
class Count:
    """A number in the place of an argument of a type."""

    token: Token
    number: int


@dataclass
class Sequence:
    """`[T; N]`, or `[T]` if there is no count."""

    token: Token
    element: Any
    count: Optional[int]


@dataclass
class Group:
    """`()`, `(T, U)` or `(T,)`."""

    token: Token
    parts: List[Any]


@dataclass
class Entries:
    """`{K => V}`."""

    token: Token
    key: Any
    value: Any


@dataclass
class Maybe:
    """`T?`."""

    token: Token
    content: Any


@dataclass
class Field:
    """A field with a name, or the part of a tuple, whose name is its number."""

    token: Token
    name: str
    kind: Any
    docs: List[str]
    attributes: List[List[Token]]


@dataclass
class Fields:
    """The fields of a struct or a variant. `style` is `named`, `tuple` or `unit`."""

    token: Token
    style: str
    fields: List[Field]


@dataclass
class Variant:
    token: Token
    name: str
    docs: List[str]
    attributes: List[List[Token]]
    content: Fields


@dataclass
class Choice:
    """`A | B(T) | C {name: U}`, or the variants of an `enum`."""

    token: Token
    variants: List[Variant]


@dataclass
class Item:
    """A declaration. `body` is `Fields` of a struct, a `Choice` of an enum, and a type of an alias."""

    kind: str
    name: str
    token: Token
    parameters: List[str]
    docs: List[str]
    attributes: List[List[Token]]
    body: Any
