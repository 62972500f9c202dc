"""Messages of forms.rs. Written by `pcard python`: don't edit it, but write it again."""
from __future__ import annotations

import enum as _enum
import importlib as _importlib
import typing as _t
from dataclasses import dataclass as _dataclass

if _t.TYPE_CHECKING or not __package__:
    import postcard_runtime as _p
    from postcard_runtime import containers as _c, numbers as _n
else:
    _p = _importlib.import_module(".postcard_runtime", __package__)
    _c, _n = _p.containers, _p.numbers


@_dataclass
class Unit(_p.Message):
    """A struct without fields, a tuple of none, and one with empty braces."""
    __slots__ = ()


Unit._codec = _c.record(Unit, [])


@_dataclass
class Nothing(_p.Message):
    __slots__ = ()


Nothing._codec = _c.record(Nothing, [])


@_dataclass
class Braces(_p.Message):
    __slots__ = ()


Braces._codec = _c.record(Braces, [])


@_dataclass
class Serial(_p.Message):
    """A newtype."""
    __slots__ = ("_0",)
    _0: int


Serial._codec = _c.record(Serial, ['_0'], _n.unsigned(64))


@_dataclass
class Pair(_p.Message):
    __slots__ = ("_0", "_1",)
    _0: int
    _1: Unit


Pair._codec = _c.record(Pair, ['_0', '_1'], _n.signed(8), Unit._codec)


@_dataclass
class Numbers(_p.Message):
    """Numbers of each width. /* this is no comment"""
    __slots__ = ("a", "b", "c", "d", "e", "f", "g", "h", "i", "j", "k", "l", "m", "n", "o", "p",)
    a: int
    b: int
    c: int
    d: int
    e: int
    f: int
    g: int
    h: int
    i: int
    j: int
    k: int
    l: int
    m: float
    n: float
    o: bool
    p: str


Numbers._codec = _c.record(Numbers, ['a', 'b', 'c', 'd', 'e', 'f', 'g', 'h', 'i', 'j', 'k', 'l', 'm', 'n', 'o', 'p'], _n.unsigned(8), _n.unsigned(16), _n.unsigned(32), _n.unsigned(64), _n.unsigned(128), _n.signed(8), _n.signed(16), _n.signed(32), _n.signed(64), _n.signed(128), _n.unsigned(64), _n.signed(64), _n.f32, _n.f64, _n.boolean, _n.char)


@_dataclass
class Widths(_p.Message):
    """Numbers at their full width, by the type and by the attribute."""
    __slots__ = ("a", "b", "c", "d", "e", "f", "g", "h", "i", "j", "k", "l", "m", "n", "o", "p", "q", "r",)
    a: int
    b: int
    c: int
    d: int
    e: int
    f: int
    g: int
    h: int
    i: int
    j: int
    k: int
    l: int
    m: int
    n: int
    o: int
    p: int
    q: int
    r: int


Widths._codec = _c.record(Widths, ['a', 'b', 'c', 'd', 'e', 'f', 'g', 'h', 'i', 'j', 'k', 'l', 'm', 'n', 'o', 'p', 'q', 'r'], _n.fixed(2, "little", False), _n.fixed(4, "little", False), _n.fixed(8, "little", False), _n.fixed(16, "little", False), _n.fixed(2, "little", True), _n.fixed(4, "little", True), _n.fixed(8, "little", True), _n.fixed(16, "little", True), _n.fixed(2, "big", False), _n.fixed(4, "big", False), _n.fixed(8, "big", False), _n.fixed(16, "big", False), _n.fixed(2, "big", True), _n.fixed(4, "big", True), _n.fixed(8, "big", True), _n.fixed(16, "big", True), _n.fixed(8, "little", False), _n.fixed(16, "big", True))


class Counted(_p.Message):
    __slots__ = ()
    Off: _t.ClassVar[_t.Type[Counted_Off]]
    On: _t.ClassVar[_t.Type[Counted_On]]
    Both: _t.ClassVar[_t.Type[Counted_Both]]


@_dataclass
class Counted_Off(Counted):
    __slots__ = ()


@_dataclass
class Counted_On(Counted):
    __slots__ = ("_0",)
    _0: int


@_dataclass
class Counted_Both(Counted):
    __slots__ = ("a", "b",)
    a: int
    b: _t.Optional[int]


Counted.Off = Counted_Off
Counted_Off.__qualname__ = "Counted.Off"
Counted.On = Counted_On
Counted_On.__qualname__ = "Counted.On"
Counted.Both = Counted_Both
Counted_Both.__qualname__ = "Counted.Both"
Counted._codec = _c.variants([Counted_Off, Counted_On, Counted_Both], [
    _c.record(Counted_Off, []),
    _c.record(Counted_On, ['_0'], _n.nonzero(_n.signed(8))),
    _c.record(Counted_Both, ['a', 'b'], _n.nonzero(_n.signed(32)), _c.option(_n.nonzero(_n.signed(64)), False)),
])


@_dataclass
class NonZeros(_p.Message):
    """Numbers without 0."""
    __slots__ = ("a", "b", "c", "d", "e", "f", "g", "h", "i",)
    a: int
    b: int
    c: int
    d: _t.Optional[int]
    e: int
    f: _t.List[int]
    g: _t.List[int]
    h: _t.Union[_p.Ok, _p.Err]
    i: Counted


NonZeros._codec = _c.record(NonZeros, ['a', 'b', 'c', 'd', 'e', 'f', 'g', 'h', 'i'], _n.nonzero(_n.unsigned(8)), _n.nonzero(_n.signed(16)), _n.nonzero(_n.unsigned(32)), _c.option(_n.nonzero(_n.unsigned(64)), False), _n.nonzero(_n.unsigned(128)), _c.sequence(_n.nonzero(_n.unsigned(8)), None), _c.sequence(_n.nonzero(_n.signed(64)), 2), _c.result(_n.nonzero(_n.unsigned(16)), _n.unsigned(8)), Counted._codec)


@_dataclass
class Capacities(_p.Message):
    """Capacities of each kind: of the type, of an attribute, and more than 255."""
    __slots__ = ("a", "b", "c", "d", "e", "f", "g", "h", "i", "j", "k",)
    a: str
    b: str
    c: bytes
    d: _t.List[_t.Optional[bool]]
    e: str
    f: _t.List[str]
    g: _t.List[_t.Tuple[str, bytes]]
    h: _t.List[_t.Tuple[int, int]]
    i: _t.List[int]
    j: _t.List[_t.Tuple[str, float]]
    k: _t.List[bool]


Capacities._codec = _c.record(Capacities, ['a', 'b', 'c', 'd', 'e', 'f', 'g', 'h', 'i', 'j', 'k'], _n.text(255), _n.text(256), _n.data(256), _c.sequence(_c.option(_n.boolean, False), 3), _n.text(5), _c.sequence(_n.text(3), 2), _c.sequence(_c.group(_n.text(4), _n.data(6)), 2), _c.sequence(_c.group(_n.unsigned(8), _n.unsigned(16)), 1), _c.sequence(_n.unsigned(16), 0), _c.sequence(_c.group(_n.char, _n.f32), 2), _c.sequence(_n.boolean, 255))


class Level(_p.Message, _enum.IntEnum):
    """A plain enum; its numbers in Rust are not those of a message."""
    # It can wait.
    Low = 0
    Normal = 1
    High = 2


Level._codec = _c.names(Level)


@_dataclass
class Lists(_p.Message):
    """Texts, bytes and lists of any length."""
    __slots__ = ("a", "b", "c", "d", "e", "f", "g", "h", "i", "j", "k", "l", "m", "n",)
    a: str
    b: bytes
    c: _t.List[int]
    d: _t.List[_t.List[_t.Optional[int]]]
    e: _t.List[_t.Tuple[int, str]]
    f: _t.List[_t.Tuple[int, bool]]
    g: _t.List[_t.List[int]]
    h: _t.List[Level]
    i: _t.List[Serial]
    j: bytes
    k: _t.Optional[_t.List[str]]
    l: _t.List[_t.Union[_p.Ok, _p.Err]]
    m: _t.List[int]
    n: _t.List[str]


Lists._codec = _c.record(Lists, ['a', 'b', 'c', 'd', 'e', 'f', 'g', 'h', 'i', 'j', 'k', 'l', 'm', 'n'], _n.text(None), _n.data(None), _c.sequence(_n.unsigned(16), None), _c.sequence(_c.sequence(_c.option(_n.signed(32), False), None), None), _c.sequence(_c.group(_n.unsigned(16), _n.text(None)), None), _c.sequence(_c.group(_n.unsigned(8), _n.boolean), None), _c.sequence(_c.array(_n.signed(16), 2), None), _c.sequence(Level._codec, None), _c.sequence(Serial._codec, None), _n.data(None), _c.option(_c.sequence(_n.text(None), None), False), _c.sequence(_c.result(_n.unsigned(8), _n.unit), None), _c.sequence(_n.unsigned(128), None), _c.sequence(_n.char, None))


@_dataclass
class Arrays(_p.Message):
    """Arrays."""
    __slots__ = ("a", "b", "c", "d", "e", "f", "g", "h",)
    a: bytes
    b: _t.List[_t.List[int]]
    c: _t.List[_t.Optional[Serial]]
    d: _t.List[int]
    e: _t.List[_t.Tuple[int, float]]
    f: _t.List[bytes]
    g: _t.List[int]
    h: _t.List[Level]


Arrays._codec = _c.record(Arrays, ['a', 'b', 'c', 'd', 'e', 'f', 'g', 'h'], _c.byte_array(4), _c.array(_c.array(_n.unsigned(16), 2), 3), _c.array(_c.option(Serial._codec, False), 2), _c.array(_n.unsigned(32), 0), _c.array(_c.group(_n.signed(8), _n.f64), 3), _c.array(_c.byte_array(2), 2), _c.array(_n.nonzero(_n.unsigned(16)), 2), _c.array(Level._codec, 2))


@_dataclass
class Owners(_p.Message):
    """Owners, which are written as their content."""
    __slots__ = ("a", "b", "c", "d", "e", "f", "g",)
    a: Serial
    b: str
    c: _t.List[int]
    d: str
    e: Pair
    f: int
    g: None


Owners._codec = _c.record(Owners, ['a', 'b', 'c', 'd', 'e', 'f', 'g'], Serial._codec, _n.text(None), _c.sequence(_n.unsigned(16), None), _n.text(None), Pair._codec, _n.unsigned(32), _n.unit)


@_dataclass
class Options(_p.Message):
    """Options in options, and of what has no bytes."""
    __slots__ = ("a", "b", "c", "d", "e", "f", "g",)
    a: _t.Optional[int]
    b: _t.Optional[_p.Some]
    c: _t.Optional[_p.Some]
    d: _t.Optional[Unit]
    e: _t.Optional[_t.Tuple[int, _t.Optional[str]]]
    f: _t.Optional[_p.Some]
    g: _t.Optional[bytes]


Options._codec = _c.record(Options, ['a', 'b', 'c', 'd', 'e', 'f', 'g'], _c.option(_n.unsigned(8), False), _c.option(_c.option(_n.boolean, False), True), _c.option(_n.unit, True), _c.option(Unit._codec, False), _c.option(_c.group(_n.unsigned(8), _c.option(_n.char, False)), False), _c.option(_c.option(_c.option(Level._codec, False), True), True), _c.option(_c.byte_array(3), False))


@_dataclass
class Results(_p.Message):
    __slots__ = ("a", "b", "c", "d", "e",)
    a: _t.Union[_p.Ok, _p.Err]
    b: _t.Union[_p.Ok, _p.Err]
    c: _t.Union[_p.Ok, _p.Err]
    d: _t.Union[_p.Ok, _p.Err]
    e: _t.Union[_p.Ok, _p.Err]


Results._codec = _c.record(Results, ['a', 'b', 'c', 'd', 'e'], _c.result(_n.unsigned(8), Level._codec), _c.result(_n.unit, _n.unit), _c.result(_n.unit, _n.text(4)), _c.result(Numbers._codec, _c.array(_n.signed(32), 2)), _c.result(_c.result(_n.unsigned(8), _n.signed(8)), _c.option(_n.unsigned(8), False)))


@_dataclass
class Tuples(_p.Message):
    __slots__ = ("_0", "_1", "_2", "_3",)
    _0: None
    _1: _t.Tuple[int]
    _2: _t.Tuple[_t.Tuple[int, int], _t.List[_t.Tuple[bool, bool]]]
    _3: _t.Tuple[None, None]


Tuples._codec = _c.record(Tuples, ['_0', '_1', '_2', '_3'], _n.unit, _c.group(_n.unsigned(8)), _c.group(_c.group(_n.unsigned(8), _n.unsigned(16)), _c.array(_c.group(_n.boolean, _n.boolean), 2)), _c.group(_n.unit, _n.unit))


@_dataclass
class Holder_option_u8(_p.Message):
    """A generic type, made concrete by its uses."""
    __slots__ = ("old", "new",)
    old: _t.Optional[int]
    new: _t.Optional[int]


Holder_option_u8._codec = _c.record(Holder_option_u8, ['old', 'new'], _c.option(_n.unsigned(8), False), _c.option(_n.unsigned(8), False))


class Shape(_p.Message):
    """An enum with content of each form."""
    __slots__ = ()
    Empty: _t.ClassVar[_t.Type[Shape_Empty]]
    NoParts: _t.ClassVar[_t.Type[Shape_NoParts]]
    NoFields: _t.ClassVar[_t.Type[Shape_NoFields]]
    Unit: _t.ClassVar[_t.Type[Shape_Unit]]
    One: _t.ClassVar[_t.Type[Shape_One]]
    Two: _t.ClassVar[_t.Type[Shape_Two]]
    Named: _t.ClassVar[_t.Type[Shape_Named]]
    Inner: _t.ClassVar[_t.Type[Shape_Inner]]
    HTTPServer: _t.ClassVar[_t.Type[Shape_HTTPServer]]
    List: _t.ClassVar[_t.Type[Shape_List]]
    Deep: _t.ClassVar[_t.Type[Shape_Deep]]


@_dataclass
class Shape_Empty(Shape):
    __slots__ = ()


@_dataclass
class Shape_NoParts(Shape):
    __slots__ = ()


@_dataclass
class Shape_NoFields(Shape):
    __slots__ = ()


@_dataclass
class Shape_Unit(Shape):
    __slots__ = ("_0",)
    _0: None


@_dataclass
class Shape_One(Shape):
    __slots__ = ("_0",)
    _0: int


@_dataclass
class Shape_Two(Shape):
    __slots__ = ("_0", "_1",)
    _0: int
    _1: int


@_dataclass
class Shape_Named(Shape):
    __slots__ = ("width", "height",)
    width: int
    height: int


@_dataclass
class Shape_Inner(Shape):
    __slots__ = ("_0",)
    _0: Level


@_dataclass
class Shape_HTTPServer(Shape):
    __slots__ = ("port",)
    port: int


@_dataclass
class Shape_List(Shape):
    __slots__ = ("_0",)
    _0: _t.List[int]


@_dataclass
class Shape_Deep(Shape):
    __slots__ = ("_0",)
    _0: Holder_option_u8


Shape.Empty = Shape_Empty
Shape_Empty.__qualname__ = "Shape.Empty"
Shape.NoParts = Shape_NoParts
Shape_NoParts.__qualname__ = "Shape.NoParts"
Shape.NoFields = Shape_NoFields
Shape_NoFields.__qualname__ = "Shape.NoFields"
Shape.Unit = Shape_Unit
Shape_Unit.__qualname__ = "Shape.Unit"
Shape.One = Shape_One
Shape_One.__qualname__ = "Shape.One"
Shape.Two = Shape_Two
Shape_Two.__qualname__ = "Shape.Two"
Shape.Named = Shape_Named
Shape_Named.__qualname__ = "Shape.Named"
Shape.Inner = Shape_Inner
Shape_Inner.__qualname__ = "Shape.Inner"
Shape.HTTPServer = Shape_HTTPServer
Shape_HTTPServer.__qualname__ = "Shape.HTTPServer"
Shape.List = Shape_List
Shape_List.__qualname__ = "Shape.List"
Shape.Deep = Shape_Deep
Shape_Deep.__qualname__ = "Shape.Deep"
Shape._codec = _c.variants([Shape_Empty, Shape_NoParts, Shape_NoFields, Shape_Unit, Shape_One, Shape_Two, Shape_Named, Shape_Inner, Shape_HTTPServer, Shape_List, Shape_Deep], [
    _c.record(Shape_Empty, []),
    _c.record(Shape_NoParts, []),
    _c.record(Shape_NoFields, []),
    _c.record(Shape_Unit, ['_0'], _n.unit),
    _c.record(Shape_One, ['_0'], _n.unsigned(8)),
    _c.record(Shape_Two, ['_0', '_1'], _n.unsigned(8), _n.signed(16)),
    _c.record(Shape_Named, ['width', 'height'], _n.unsigned(16), _n.unsigned(16)),
    _c.record(Shape_Inner, ['_0'], Level._codec),
    _c.record(Shape_HTTPServer, ['port'], _n.unsigned(16)),
    _c.record(Shape_List, ['_0'], _c.sequence(_n.unsigned(16), None)),
    _c.record(Shape_Deep, ['_0'], Holder_option_u8._codec),
])


class Single(_p.Message):
    """One variant alone."""
    __slots__ = ()
    Only: _t.ClassVar[_t.Type[Single_Only]]


@_dataclass
class Single_Only(Single):
    __slots__ = ("a",)
    a: int


Single.Only = Single_Only
Single_Only.__qualname__ = "Single.Only"
Single._codec = _c.variants([Single_Only], [
    _c.record(Single_Only, ['a'], _n.unsigned(8)),
])


class Hollow(_p.Message):
    """Variants, none of which has bytes behind its number."""
    __slots__ = ()
    A: _t.ClassVar[_t.Type[Hollow_A]]
    B: _t.ClassVar[_t.Type[Hollow_B]]


@_dataclass
class Hollow_A(Hollow):
    __slots__ = ("_0",)
    _0: None


@_dataclass
class Hollow_B(Hollow):
    __slots__ = ()


Hollow.A = Hollow_A
Hollow_A.__qualname__ = "Hollow.A"
Hollow.B = Hollow_B
Hollow_B.__qualname__ = "Hollow.B"
Hollow._codec = _c.variants([Hollow_A, Hollow_B], [
    _c.record(Hollow_A, ['_0'], _n.unit),
    _c.record(Hollow_B, []),
])


class Many(_p.Message):
    """More than 128 variants, whose numbers have two bytes from the 129th on."""
    __slots__ = ()
    V0: _t.ClassVar[_t.Type[Many_V0]]
    V1: _t.ClassVar[_t.Type[Many_V1]]
    V2: _t.ClassVar[_t.Type[Many_V2]]
    V3: _t.ClassVar[_t.Type[Many_V3]]
    V4: _t.ClassVar[_t.Type[Many_V4]]
    V5: _t.ClassVar[_t.Type[Many_V5]]
    V6: _t.ClassVar[_t.Type[Many_V6]]
    V7: _t.ClassVar[_t.Type[Many_V7]]
    V8: _t.ClassVar[_t.Type[Many_V8]]
    V9: _t.ClassVar[_t.Type[Many_V9]]
    V10: _t.ClassVar[_t.Type[Many_V10]]
    V11: _t.ClassVar[_t.Type[Many_V11]]
    V12: _t.ClassVar[_t.Type[Many_V12]]
    V13: _t.ClassVar[_t.Type[Many_V13]]
    V14: _t.ClassVar[_t.Type[Many_V14]]
    V15: _t.ClassVar[_t.Type[Many_V15]]
    V16: _t.ClassVar[_t.Type[Many_V16]]
    V17: _t.ClassVar[_t.Type[Many_V17]]
    V18: _t.ClassVar[_t.Type[Many_V18]]
    V19: _t.ClassVar[_t.Type[Many_V19]]
    V20: _t.ClassVar[_t.Type[Many_V20]]
    V21: _t.ClassVar[_t.Type[Many_V21]]
    V22: _t.ClassVar[_t.Type[Many_V22]]
    V23: _t.ClassVar[_t.Type[Many_V23]]
    V24: _t.ClassVar[_t.Type[Many_V24]]
    V25: _t.ClassVar[_t.Type[Many_V25]]
    V26: _t.ClassVar[_t.Type[Many_V26]]
    V27: _t.ClassVar[_t.Type[Many_V27]]
    V28: _t.ClassVar[_t.Type[Many_V28]]
    V29: _t.ClassVar[_t.Type[Many_V29]]
    V30: _t.ClassVar[_t.Type[Many_V30]]
    V31: _t.ClassVar[_t.Type[Many_V31]]
    V32: _t.ClassVar[_t.Type[Many_V32]]
    V33: _t.ClassVar[_t.Type[Many_V33]]
    V34: _t.ClassVar[_t.Type[Many_V34]]
    V35: _t.ClassVar[_t.Type[Many_V35]]
    V36: _t.ClassVar[_t.Type[Many_V36]]
    V37: _t.ClassVar[_t.Type[Many_V37]]
    V38: _t.ClassVar[_t.Type[Many_V38]]
    V39: _t.ClassVar[_t.Type[Many_V39]]
    V40: _t.ClassVar[_t.Type[Many_V40]]
    V41: _t.ClassVar[_t.Type[Many_V41]]
    V42: _t.ClassVar[_t.Type[Many_V42]]
    V43: _t.ClassVar[_t.Type[Many_V43]]
    V44: _t.ClassVar[_t.Type[Many_V44]]
    V45: _t.ClassVar[_t.Type[Many_V45]]
    V46: _t.ClassVar[_t.Type[Many_V46]]
    V47: _t.ClassVar[_t.Type[Many_V47]]
    V48: _t.ClassVar[_t.Type[Many_V48]]
    V49: _t.ClassVar[_t.Type[Many_V49]]
    V50: _t.ClassVar[_t.Type[Many_V50]]
    V51: _t.ClassVar[_t.Type[Many_V51]]
    V52: _t.ClassVar[_t.Type[Many_V52]]
    V53: _t.ClassVar[_t.Type[Many_V53]]
    V54: _t.ClassVar[_t.Type[Many_V54]]
    V55: _t.ClassVar[_t.Type[Many_V55]]
    V56: _t.ClassVar[_t.Type[Many_V56]]
    V57: _t.ClassVar[_t.Type[Many_V57]]
    V58: _t.ClassVar[_t.Type[Many_V58]]
    V59: _t.ClassVar[_t.Type[Many_V59]]
    V60: _t.ClassVar[_t.Type[Many_V60]]
    V61: _t.ClassVar[_t.Type[Many_V61]]
    V62: _t.ClassVar[_t.Type[Many_V62]]
    V63: _t.ClassVar[_t.Type[Many_V63]]
    V64: _t.ClassVar[_t.Type[Many_V64]]
    V65: _t.ClassVar[_t.Type[Many_V65]]
    V66: _t.ClassVar[_t.Type[Many_V66]]
    V67: _t.ClassVar[_t.Type[Many_V67]]
    V68: _t.ClassVar[_t.Type[Many_V68]]
    V69: _t.ClassVar[_t.Type[Many_V69]]
    V70: _t.ClassVar[_t.Type[Many_V70]]
    V71: _t.ClassVar[_t.Type[Many_V71]]
    V72: _t.ClassVar[_t.Type[Many_V72]]
    V73: _t.ClassVar[_t.Type[Many_V73]]
    V74: _t.ClassVar[_t.Type[Many_V74]]
    V75: _t.ClassVar[_t.Type[Many_V75]]
    V76: _t.ClassVar[_t.Type[Many_V76]]
    V77: _t.ClassVar[_t.Type[Many_V77]]
    V78: _t.ClassVar[_t.Type[Many_V78]]
    V79: _t.ClassVar[_t.Type[Many_V79]]
    V80: _t.ClassVar[_t.Type[Many_V80]]
    V81: _t.ClassVar[_t.Type[Many_V81]]
    V82: _t.ClassVar[_t.Type[Many_V82]]
    V83: _t.ClassVar[_t.Type[Many_V83]]
    V84: _t.ClassVar[_t.Type[Many_V84]]
    V85: _t.ClassVar[_t.Type[Many_V85]]
    V86: _t.ClassVar[_t.Type[Many_V86]]
    V87: _t.ClassVar[_t.Type[Many_V87]]
    V88: _t.ClassVar[_t.Type[Many_V88]]
    V89: _t.ClassVar[_t.Type[Many_V89]]
    V90: _t.ClassVar[_t.Type[Many_V90]]
    V91: _t.ClassVar[_t.Type[Many_V91]]
    V92: _t.ClassVar[_t.Type[Many_V92]]
    V93: _t.ClassVar[_t.Type[Many_V93]]
    V94: _t.ClassVar[_t.Type[Many_V94]]
    V95: _t.ClassVar[_t.Type[Many_V95]]
    V96: _t.ClassVar[_t.Type[Many_V96]]
    V97: _t.ClassVar[_t.Type[Many_V97]]
    V98: _t.ClassVar[_t.Type[Many_V98]]
    V99: _t.ClassVar[_t.Type[Many_V99]]
    V100: _t.ClassVar[_t.Type[Many_V100]]
    V101: _t.ClassVar[_t.Type[Many_V101]]
    V102: _t.ClassVar[_t.Type[Many_V102]]
    V103: _t.ClassVar[_t.Type[Many_V103]]
    V104: _t.ClassVar[_t.Type[Many_V104]]
    V105: _t.ClassVar[_t.Type[Many_V105]]
    V106: _t.ClassVar[_t.Type[Many_V106]]
    V107: _t.ClassVar[_t.Type[Many_V107]]
    V108: _t.ClassVar[_t.Type[Many_V108]]
    V109: _t.ClassVar[_t.Type[Many_V109]]
    V110: _t.ClassVar[_t.Type[Many_V110]]
    V111: _t.ClassVar[_t.Type[Many_V111]]
    V112: _t.ClassVar[_t.Type[Many_V112]]
    V113: _t.ClassVar[_t.Type[Many_V113]]
    V114: _t.ClassVar[_t.Type[Many_V114]]
    V115: _t.ClassVar[_t.Type[Many_V115]]
    V116: _t.ClassVar[_t.Type[Many_V116]]
    V117: _t.ClassVar[_t.Type[Many_V117]]
    V118: _t.ClassVar[_t.Type[Many_V118]]
    V119: _t.ClassVar[_t.Type[Many_V119]]
    V120: _t.ClassVar[_t.Type[Many_V120]]
    V121: _t.ClassVar[_t.Type[Many_V121]]
    V122: _t.ClassVar[_t.Type[Many_V122]]
    V123: _t.ClassVar[_t.Type[Many_V123]]
    V124: _t.ClassVar[_t.Type[Many_V124]]
    V125: _t.ClassVar[_t.Type[Many_V125]]
    V126: _t.ClassVar[_t.Type[Many_V126]]
    V127: _t.ClassVar[_t.Type[Many_V127]]
    Last: _t.ClassVar[_t.Type[Many_Last]]
    Other: _t.ClassVar[_t.Type[Many_Other]]


@_dataclass
class Many_V0(Many):
    __slots__ = ()


@_dataclass
class Many_V1(Many):
    __slots__ = ()


@_dataclass
class Many_V2(Many):
    __slots__ = ()


@_dataclass
class Many_V3(Many):
    __slots__ = ()


@_dataclass
class Many_V4(Many):
    __slots__ = ()


@_dataclass
class Many_V5(Many):
    __slots__ = ()


@_dataclass
class Many_V6(Many):
    __slots__ = ()


@_dataclass
class Many_V7(Many):
    __slots__ = ()


@_dataclass
class Many_V8(Many):
    __slots__ = ()


@_dataclass
class Many_V9(Many):
    __slots__ = ()


@_dataclass
class Many_V10(Many):
    __slots__ = ()


@_dataclass
class Many_V11(Many):
    __slots__ = ()


@_dataclass
class Many_V12(Many):
    __slots__ = ()


@_dataclass
class Many_V13(Many):
    __slots__ = ()


@_dataclass
class Many_V14(Many):
    __slots__ = ()


@_dataclass
class Many_V15(Many):
    __slots__ = ()


@_dataclass
class Many_V16(Many):
    __slots__ = ()


@_dataclass
class Many_V17(Many):
    __slots__ = ()


@_dataclass
class Many_V18(Many):
    __slots__ = ()


@_dataclass
class Many_V19(Many):
    __slots__ = ()


@_dataclass
class Many_V20(Many):
    __slots__ = ()


@_dataclass
class Many_V21(Many):
    __slots__ = ()


@_dataclass
class Many_V22(Many):
    __slots__ = ()


@_dataclass
class Many_V23(Many):
    __slots__ = ()


@_dataclass
class Many_V24(Many):
    __slots__ = ()


@_dataclass
class Many_V25(Many):
    __slots__ = ()


@_dataclass
class Many_V26(Many):
    __slots__ = ()


@_dataclass
class Many_V27(Many):
    __slots__ = ()


@_dataclass
class Many_V28(Many):
    __slots__ = ()


@_dataclass
class Many_V29(Many):
    __slots__ = ()


@_dataclass
class Many_V30(Many):
    __slots__ = ()


@_dataclass
class Many_V31(Many):
    __slots__ = ()


@_dataclass
class Many_V32(Many):
    __slots__ = ()


@_dataclass
class Many_V33(Many):
    __slots__ = ()


@_dataclass
class Many_V34(Many):
    __slots__ = ()


@_dataclass
class Many_V35(Many):
    __slots__ = ()


@_dataclass
class Many_V36(Many):
    __slots__ = ()


@_dataclass
class Many_V37(Many):
    __slots__ = ()


@_dataclass
class Many_V38(Many):
    __slots__ = ()


@_dataclass
class Many_V39(Many):
    __slots__ = ()


@_dataclass
class Many_V40(Many):
    __slots__ = ()


@_dataclass
class Many_V41(Many):
    __slots__ = ()


@_dataclass
class Many_V42(Many):
    __slots__ = ()


@_dataclass
class Many_V43(Many):
    __slots__ = ()


@_dataclass
class Many_V44(Many):
    __slots__ = ()


@_dataclass
class Many_V45(Many):
    __slots__ = ()


@_dataclass
class Many_V46(Many):
    __slots__ = ()


@_dataclass
class Many_V47(Many):
    __slots__ = ()


@_dataclass
class Many_V48(Many):
    __slots__ = ()


@_dataclass
class Many_V49(Many):
    __slots__ = ()


@_dataclass
class Many_V50(Many):
    __slots__ = ()


@_dataclass
class Many_V51(Many):
    __slots__ = ()


@_dataclass
class Many_V52(Many):
    __slots__ = ()


@_dataclass
class Many_V53(Many):
    __slots__ = ()


@_dataclass
class Many_V54(Many):
    __slots__ = ()


@_dataclass
class Many_V55(Many):
    __slots__ = ()


@_dataclass
class Many_V56(Many):
    __slots__ = ()


@_dataclass
class Many_V57(Many):
    __slots__ = ()


@_dataclass
class Many_V58(Many):
    __slots__ = ()


@_dataclass
class Many_V59(Many):
    __slots__ = ()


@_dataclass
class Many_V60(Many):
    __slots__ = ()


@_dataclass
class Many_V61(Many):
    __slots__ = ()


@_dataclass
class Many_V62(Many):
    __slots__ = ()


@_dataclass
class Many_V63(Many):
    __slots__ = ()


@_dataclass
class Many_V64(Many):
    __slots__ = ()


@_dataclass
class Many_V65(Many):
    __slots__ = ()


@_dataclass
class Many_V66(Many):
    __slots__ = ()


@_dataclass
class Many_V67(Many):
    __slots__ = ()


@_dataclass
class Many_V68(Many):
    __slots__ = ()


@_dataclass
class Many_V69(Many):
    __slots__ = ()


@_dataclass
class Many_V70(Many):
    __slots__ = ()


@_dataclass
class Many_V71(Many):
    __slots__ = ()


@_dataclass
class Many_V72(Many):
    __slots__ = ()


@_dataclass
class Many_V73(Many):
    __slots__ = ()


@_dataclass
class Many_V74(Many):
    __slots__ = ()


@_dataclass
class Many_V75(Many):
    __slots__ = ()


@_dataclass
class Many_V76(Many):
    __slots__ = ()


@_dataclass
class Many_V77(Many):
    __slots__ = ()


@_dataclass
class Many_V78(Many):
    __slots__ = ()


@_dataclass
class Many_V79(Many):
    __slots__ = ()


@_dataclass
class Many_V80(Many):
    __slots__ = ()


@_dataclass
class Many_V81(Many):
    __slots__ = ()


@_dataclass
class Many_V82(Many):
    __slots__ = ()


@_dataclass
class Many_V83(Many):
    __slots__ = ()


@_dataclass
class Many_V84(Many):
    __slots__ = ()


@_dataclass
class Many_V85(Many):
    __slots__ = ()


@_dataclass
class Many_V86(Many):
    __slots__ = ()


@_dataclass
class Many_V87(Many):
    __slots__ = ()


@_dataclass
class Many_V88(Many):
    __slots__ = ()


@_dataclass
class Many_V89(Many):
    __slots__ = ()


@_dataclass
class Many_V90(Many):
    __slots__ = ()


@_dataclass
class Many_V91(Many):
    __slots__ = ()


@_dataclass
class Many_V92(Many):
    __slots__ = ()


@_dataclass
class Many_V93(Many):
    __slots__ = ()


@_dataclass
class Many_V94(Many):
    __slots__ = ()


@_dataclass
class Many_V95(Many):
    __slots__ = ()


@_dataclass
class Many_V96(Many):
    __slots__ = ()


@_dataclass
class Many_V97(Many):
    __slots__ = ()


@_dataclass
class Many_V98(Many):
    __slots__ = ()


@_dataclass
class Many_V99(Many):
    __slots__ = ()


@_dataclass
class Many_V100(Many):
    __slots__ = ()


@_dataclass
class Many_V101(Many):
    __slots__ = ()


@_dataclass
class Many_V102(Many):
    __slots__ = ()


@_dataclass
class Many_V103(Many):
    __slots__ = ()


@_dataclass
class Many_V104(Many):
    __slots__ = ()


@_dataclass
class Many_V105(Many):
    __slots__ = ()


@_dataclass
class Many_V106(Many):
    __slots__ = ()


@_dataclass
class Many_V107(Many):
    __slots__ = ()


@_dataclass
class Many_V108(Many):
    __slots__ = ()


@_dataclass
class Many_V109(Many):
    __slots__ = ()


@_dataclass
class Many_V110(Many):
    __slots__ = ()


@_dataclass
class Many_V111(Many):
    __slots__ = ()


@_dataclass
class Many_V112(Many):
    __slots__ = ()


@_dataclass
class Many_V113(Many):
    __slots__ = ()


@_dataclass
class Many_V114(Many):
    __slots__ = ()


@_dataclass
class Many_V115(Many):
    __slots__ = ()


@_dataclass
class Many_V116(Many):
    __slots__ = ()


@_dataclass
class Many_V117(Many):
    __slots__ = ()


@_dataclass
class Many_V118(Many):
    __slots__ = ()


@_dataclass
class Many_V119(Many):
    __slots__ = ()


@_dataclass
class Many_V120(Many):
    __slots__ = ()


@_dataclass
class Many_V121(Many):
    __slots__ = ()


@_dataclass
class Many_V122(Many):
    __slots__ = ()


@_dataclass
class Many_V123(Many):
    __slots__ = ()


@_dataclass
class Many_V124(Many):
    __slots__ = ()


@_dataclass
class Many_V125(Many):
    __slots__ = ()


@_dataclass
class Many_V126(Many):
    __slots__ = ()


@_dataclass
class Many_V127(Many):
    __slots__ = ()


@_dataclass
class Many_Last(Many):
    __slots__ = ("_0",)
    _0: int


@_dataclass
class Many_Other(Many):
    __slots__ = ("a",)
    a: int


Many.V0 = Many_V0
Many_V0.__qualname__ = "Many.V0"
Many.V1 = Many_V1
Many_V1.__qualname__ = "Many.V1"
Many.V2 = Many_V2
Many_V2.__qualname__ = "Many.V2"
Many.V3 = Many_V3
Many_V3.__qualname__ = "Many.V3"
Many.V4 = Many_V4
Many_V4.__qualname__ = "Many.V4"
Many.V5 = Many_V5
Many_V5.__qualname__ = "Many.V5"
Many.V6 = Many_V6
Many_V6.__qualname__ = "Many.V6"
Many.V7 = Many_V7
Many_V7.__qualname__ = "Many.V7"
Many.V8 = Many_V8
Many_V8.__qualname__ = "Many.V8"
Many.V9 = Many_V9
Many_V9.__qualname__ = "Many.V9"
Many.V10 = Many_V10
Many_V10.__qualname__ = "Many.V10"
Many.V11 = Many_V11
Many_V11.__qualname__ = "Many.V11"
Many.V12 = Many_V12
Many_V12.__qualname__ = "Many.V12"
Many.V13 = Many_V13
Many_V13.__qualname__ = "Many.V13"
Many.V14 = Many_V14
Many_V14.__qualname__ = "Many.V14"
Many.V15 = Many_V15
Many_V15.__qualname__ = "Many.V15"
Many.V16 = Many_V16
Many_V16.__qualname__ = "Many.V16"
Many.V17 = Many_V17
Many_V17.__qualname__ = "Many.V17"
Many.V18 = Many_V18
Many_V18.__qualname__ = "Many.V18"
Many.V19 = Many_V19
Many_V19.__qualname__ = "Many.V19"
Many.V20 = Many_V20
Many_V20.__qualname__ = "Many.V20"
Many.V21 = Many_V21
Many_V21.__qualname__ = "Many.V21"
Many.V22 = Many_V22
Many_V22.__qualname__ = "Many.V22"
Many.V23 = Many_V23
Many_V23.__qualname__ = "Many.V23"
Many.V24 = Many_V24
Many_V24.__qualname__ = "Many.V24"
Many.V25 = Many_V25
Many_V25.__qualname__ = "Many.V25"
Many.V26 = Many_V26
Many_V26.__qualname__ = "Many.V26"
Many.V27 = Many_V27
Many_V27.__qualname__ = "Many.V27"
Many.V28 = Many_V28
Many_V28.__qualname__ = "Many.V28"
Many.V29 = Many_V29
Many_V29.__qualname__ = "Many.V29"
Many.V30 = Many_V30
Many_V30.__qualname__ = "Many.V30"
Many.V31 = Many_V31
Many_V31.__qualname__ = "Many.V31"
Many.V32 = Many_V32
Many_V32.__qualname__ = "Many.V32"
Many.V33 = Many_V33
Many_V33.__qualname__ = "Many.V33"
Many.V34 = Many_V34
Many_V34.__qualname__ = "Many.V34"
Many.V35 = Many_V35
Many_V35.__qualname__ = "Many.V35"
Many.V36 = Many_V36
Many_V36.__qualname__ = "Many.V36"
Many.V37 = Many_V37
Many_V37.__qualname__ = "Many.V37"
Many.V38 = Many_V38
Many_V38.__qualname__ = "Many.V38"
Many.V39 = Many_V39
Many_V39.__qualname__ = "Many.V39"
Many.V40 = Many_V40
Many_V40.__qualname__ = "Many.V40"
Many.V41 = Many_V41
Many_V41.__qualname__ = "Many.V41"
Many.V42 = Many_V42
Many_V42.__qualname__ = "Many.V42"
Many.V43 = Many_V43
Many_V43.__qualname__ = "Many.V43"
Many.V44 = Many_V44
Many_V44.__qualname__ = "Many.V44"
Many.V45 = Many_V45
Many_V45.__qualname__ = "Many.V45"
Many.V46 = Many_V46
Many_V46.__qualname__ = "Many.V46"
Many.V47 = Many_V47
Many_V47.__qualname__ = "Many.V47"
Many.V48 = Many_V48
Many_V48.__qualname__ = "Many.V48"
Many.V49 = Many_V49
Many_V49.__qualname__ = "Many.V49"
Many.V50 = Many_V50
Many_V50.__qualname__ = "Many.V50"
Many.V51 = Many_V51
Many_V51.__qualname__ = "Many.V51"
Many.V52 = Many_V52
Many_V52.__qualname__ = "Many.V52"
Many.V53 = Many_V53
Many_V53.__qualname__ = "Many.V53"
Many.V54 = Many_V54
Many_V54.__qualname__ = "Many.V54"
Many.V55 = Many_V55
Many_V55.__qualname__ = "Many.V55"
Many.V56 = Many_V56
Many_V56.__qualname__ = "Many.V56"
Many.V57 = Many_V57
Many_V57.__qualname__ = "Many.V57"
Many.V58 = Many_V58
Many_V58.__qualname__ = "Many.V58"
Many.V59 = Many_V59
Many_V59.__qualname__ = "Many.V59"
Many.V60 = Many_V60
Many_V60.__qualname__ = "Many.V60"
Many.V61 = Many_V61
Many_V61.__qualname__ = "Many.V61"
Many.V62 = Many_V62
Many_V62.__qualname__ = "Many.V62"
Many.V63 = Many_V63
Many_V63.__qualname__ = "Many.V63"
Many.V64 = Many_V64
Many_V64.__qualname__ = "Many.V64"
Many.V65 = Many_V65
Many_V65.__qualname__ = "Many.V65"
Many.V66 = Many_V66
Many_V66.__qualname__ = "Many.V66"
Many.V67 = Many_V67
Many_V67.__qualname__ = "Many.V67"
Many.V68 = Many_V68
Many_V68.__qualname__ = "Many.V68"
Many.V69 = Many_V69
Many_V69.__qualname__ = "Many.V69"
Many.V70 = Many_V70
Many_V70.__qualname__ = "Many.V70"
Many.V71 = Many_V71
Many_V71.__qualname__ = "Many.V71"
Many.V72 = Many_V72
Many_V72.__qualname__ = "Many.V72"
Many.V73 = Many_V73
Many_V73.__qualname__ = "Many.V73"
Many.V74 = Many_V74
Many_V74.__qualname__ = "Many.V74"
Many.V75 = Many_V75
Many_V75.__qualname__ = "Many.V75"
Many.V76 = Many_V76
Many_V76.__qualname__ = "Many.V76"
Many.V77 = Many_V77
Many_V77.__qualname__ = "Many.V77"
Many.V78 = Many_V78
Many_V78.__qualname__ = "Many.V78"
Many.V79 = Many_V79
Many_V79.__qualname__ = "Many.V79"
Many.V80 = Many_V80
Many_V80.__qualname__ = "Many.V80"
Many.V81 = Many_V81
Many_V81.__qualname__ = "Many.V81"
Many.V82 = Many_V82
Many_V82.__qualname__ = "Many.V82"
Many.V83 = Many_V83
Many_V83.__qualname__ = "Many.V83"
Many.V84 = Many_V84
Many_V84.__qualname__ = "Many.V84"
Many.V85 = Many_V85
Many_V85.__qualname__ = "Many.V85"
Many.V86 = Many_V86
Many_V86.__qualname__ = "Many.V86"
Many.V87 = Many_V87
Many_V87.__qualname__ = "Many.V87"
Many.V88 = Many_V88
Many_V88.__qualname__ = "Many.V88"
Many.V89 = Many_V89
Many_V89.__qualname__ = "Many.V89"
Many.V90 = Many_V90
Many_V90.__qualname__ = "Many.V90"
Many.V91 = Many_V91
Many_V91.__qualname__ = "Many.V91"
Many.V92 = Many_V92
Many_V92.__qualname__ = "Many.V92"
Many.V93 = Many_V93
Many_V93.__qualname__ = "Many.V93"
Many.V94 = Many_V94
Many_V94.__qualname__ = "Many.V94"
Many.V95 = Many_V95
Many_V95.__qualname__ = "Many.V95"
Many.V96 = Many_V96
Many_V96.__qualname__ = "Many.V96"
Many.V97 = Many_V97
Many_V97.__qualname__ = "Many.V97"
Many.V98 = Many_V98
Many_V98.__qualname__ = "Many.V98"
Many.V99 = Many_V99
Many_V99.__qualname__ = "Many.V99"
Many.V100 = Many_V100
Many_V100.__qualname__ = "Many.V100"
Many.V101 = Many_V101
Many_V101.__qualname__ = "Many.V101"
Many.V102 = Many_V102
Many_V102.__qualname__ = "Many.V102"
Many.V103 = Many_V103
Many_V103.__qualname__ = "Many.V103"
Many.V104 = Many_V104
Many_V104.__qualname__ = "Many.V104"
Many.V105 = Many_V105
Many_V105.__qualname__ = "Many.V105"
Many.V106 = Many_V106
Many_V106.__qualname__ = "Many.V106"
Many.V107 = Many_V107
Many_V107.__qualname__ = "Many.V107"
Many.V108 = Many_V108
Many_V108.__qualname__ = "Many.V108"
Many.V109 = Many_V109
Many_V109.__qualname__ = "Many.V109"
Many.V110 = Many_V110
Many_V110.__qualname__ = "Many.V110"
Many.V111 = Many_V111
Many_V111.__qualname__ = "Many.V111"
Many.V112 = Many_V112
Many_V112.__qualname__ = "Many.V112"
Many.V113 = Many_V113
Many_V113.__qualname__ = "Many.V113"
Many.V114 = Many_V114
Many_V114.__qualname__ = "Many.V114"
Many.V115 = Many_V115
Many_V115.__qualname__ = "Many.V115"
Many.V116 = Many_V116
Many_V116.__qualname__ = "Many.V116"
Many.V117 = Many_V117
Many_V117.__qualname__ = "Many.V117"
Many.V118 = Many_V118
Many_V118.__qualname__ = "Many.V118"
Many.V119 = Many_V119
Many_V119.__qualname__ = "Many.V119"
Many.V120 = Many_V120
Many_V120.__qualname__ = "Many.V120"
Many.V121 = Many_V121
Many_V121.__qualname__ = "Many.V121"
Many.V122 = Many_V122
Many_V122.__qualname__ = "Many.V122"
Many.V123 = Many_V123
Many_V123.__qualname__ = "Many.V123"
Many.V124 = Many_V124
Many_V124.__qualname__ = "Many.V124"
Many.V125 = Many_V125
Many_V125.__qualname__ = "Many.V125"
Many.V126 = Many_V126
Many_V126.__qualname__ = "Many.V126"
Many.V127 = Many_V127
Many_V127.__qualname__ = "Many.V127"
Many.Last = Many_Last
Many_Last.__qualname__ = "Many.Last"
Many.Other = Many_Other
Many_Other.__qualname__ = "Many.Other"
Many._codec = _c.variants([Many_V0, Many_V1, Many_V2, Many_V3, Many_V4, Many_V5, Many_V6, Many_V7, Many_V8, Many_V9, Many_V10, Many_V11, Many_V12, Many_V13, Many_V14, Many_V15, Many_V16, Many_V17, Many_V18, Many_V19, Many_V20, Many_V21, Many_V22, Many_V23, Many_V24, Many_V25, Many_V26, Many_V27, Many_V28, Many_V29, Many_V30, Many_V31, Many_V32, Many_V33, Many_V34, Many_V35, Many_V36, Many_V37, Many_V38, Many_V39, Many_V40, Many_V41, Many_V42, Many_V43, Many_V44, Many_V45, Many_V46, Many_V47, Many_V48, Many_V49, Many_V50, Many_V51, Many_V52, Many_V53, Many_V54, Many_V55, Many_V56, Many_V57, Many_V58, Many_V59, Many_V60, Many_V61, Many_V62, Many_V63, Many_V64, Many_V65, Many_V66, Many_V67, Many_V68, Many_V69, Many_V70, Many_V71, Many_V72, Many_V73, Many_V74, Many_V75, Many_V76, Many_V77, Many_V78, Many_V79, Many_V80, Many_V81, Many_V82, Many_V83, Many_V84, Many_V85, Many_V86, Many_V87, Many_V88, Many_V89, Many_V90, Many_V91, Many_V92, Many_V93, Many_V94, Many_V95, Many_V96, Many_V97, Many_V98, Many_V99, Many_V100, Many_V101, Many_V102, Many_V103, Many_V104, Many_V105, Many_V106, Many_V107, Many_V108, Many_V109, Many_V110, Many_V111, Many_V112, Many_V113, Many_V114, Many_V115, Many_V116, Many_V117, Many_V118, Many_V119, Many_V120, Many_V121, Many_V122, Many_V123, Many_V124, Many_V125, Many_V126, Many_V127, Many_Last, Many_Other], [
    _c.record(Many_V0, []),
    _c.record(Many_V1, []),
    _c.record(Many_V2, []),
    _c.record(Many_V3, []),
    _c.record(Many_V4, []),
    _c.record(Many_V5, []),
    _c.record(Many_V6, []),
    _c.record(Many_V7, []),
    _c.record(Many_V8, []),
    _c.record(Many_V9, []),
    _c.record(Many_V10, []),
    _c.record(Many_V11, []),
    _c.record(Many_V12, []),
    _c.record(Many_V13, []),
    _c.record(Many_V14, []),
    _c.record(Many_V15, []),
    _c.record(Many_V16, []),
    _c.record(Many_V17, []),
    _c.record(Many_V18, []),
    _c.record(Many_V19, []),
    _c.record(Many_V20, []),
    _c.record(Many_V21, []),
    _c.record(Many_V22, []),
    _c.record(Many_V23, []),
    _c.record(Many_V24, []),
    _c.record(Many_V25, []),
    _c.record(Many_V26, []),
    _c.record(Many_V27, []),
    _c.record(Many_V28, []),
    _c.record(Many_V29, []),
    _c.record(Many_V30, []),
    _c.record(Many_V31, []),
    _c.record(Many_V32, []),
    _c.record(Many_V33, []),
    _c.record(Many_V34, []),
    _c.record(Many_V35, []),
    _c.record(Many_V36, []),
    _c.record(Many_V37, []),
    _c.record(Many_V38, []),
    _c.record(Many_V39, []),
    _c.record(Many_V40, []),
    _c.record(Many_V41, []),
    _c.record(Many_V42, []),
    _c.record(Many_V43, []),
    _c.record(Many_V44, []),
    _c.record(Many_V45, []),
    _c.record(Many_V46, []),
    _c.record(Many_V47, []),
    _c.record(Many_V48, []),
    _c.record(Many_V49, []),
    _c.record(Many_V50, []),
    _c.record(Many_V51, []),
    _c.record(Many_V52, []),
    _c.record(Many_V53, []),
    _c.record(Many_V54, []),
    _c.record(Many_V55, []),
    _c.record(Many_V56, []),
    _c.record(Many_V57, []),
    _c.record(Many_V58, []),
    _c.record(Many_V59, []),
    _c.record(Many_V60, []),
    _c.record(Many_V61, []),
    _c.record(Many_V62, []),
    _c.record(Many_V63, []),
    _c.record(Many_V64, []),
    _c.record(Many_V65, []),
    _c.record(Many_V66, []),
    _c.record(Many_V67, []),
    _c.record(Many_V68, []),
    _c.record(Many_V69, []),
    _c.record(Many_V70, []),
    _c.record(Many_V71, []),
    _c.record(Many_V72, []),
    _c.record(Many_V73, []),
    _c.record(Many_V74, []),
    _c.record(Many_V75, []),
    _c.record(Many_V76, []),
    _c.record(Many_V77, []),
    _c.record(Many_V78, []),
    _c.record(Many_V79, []),
    _c.record(Many_V80, []),
    _c.record(Many_V81, []),
    _c.record(Many_V82, []),
    _c.record(Many_V83, []),
    _c.record(Many_V84, []),
    _c.record(Many_V85, []),
    _c.record(Many_V86, []),
    _c.record(Many_V87, []),
    _c.record(Many_V88, []),
    _c.record(Many_V89, []),
    _c.record(Many_V90, []),
    _c.record(Many_V91, []),
    _c.record(Many_V92, []),
    _c.record(Many_V93, []),
    _c.record(Many_V94, []),
    _c.record(Many_V95, []),
    _c.record(Many_V96, []),
    _c.record(Many_V97, []),
    _c.record(Many_V98, []),
    _c.record(Many_V99, []),
    _c.record(Many_V100, []),
    _c.record(Many_V101, []),
    _c.record(Many_V102, []),
    _c.record(Many_V103, []),
    _c.record(Many_V104, []),
    _c.record(Many_V105, []),
    _c.record(Many_V106, []),
    _c.record(Many_V107, []),
    _c.record(Many_V108, []),
    _c.record(Many_V109, []),
    _c.record(Many_V110, []),
    _c.record(Many_V111, []),
    _c.record(Many_V112, []),
    _c.record(Many_V113, []),
    _c.record(Many_V114, []),
    _c.record(Many_V115, []),
    _c.record(Many_V116, []),
    _c.record(Many_V117, []),
    _c.record(Many_V118, []),
    _c.record(Many_V119, []),
    _c.record(Many_V120, []),
    _c.record(Many_V121, []),
    _c.record(Many_V122, []),
    _c.record(Many_V123, []),
    _c.record(Many_V124, []),
    _c.record(Many_V125, []),
    _c.record(Many_V126, []),
    _c.record(Many_V127, []),
    _c.record(Many_Last, ['_0'], _n.unsigned(8)),
    _c.record(Many_Other, ['a'], _n.signed(8)),
])


@_dataclass
class HolderByte(_p.Message):
    """A generic type, made concrete by its uses."""
    __slots__ = ("old", "new",)
    old: int
    new: int


HolderByte._codec = _c.record(HolderByte, ['old', 'new'], _n.unsigned(8), _n.unsigned(8))


class RequestShort(_p.Message):
    __slots__ = ()
    Get: _t.ClassVar[_t.Type[RequestShort_Get]]
    Set: _t.ClassVar[_t.Type[RequestShort_Set]]
    Limit: _t.ClassVar[_t.Type[RequestShort_Limit]]
    Fail: _t.ClassVar[_t.Type[RequestShort_Fail]]


@_dataclass
class RequestShort_Get(RequestShort):
    __slots__ = ()


@_dataclass
class RequestShort_Set(RequestShort):
    __slots__ = ("_0",)
    _0: int


@_dataclass
class RequestShort_Limit(RequestShort):
    __slots__ = ("low", "high",)
    low: int
    high: int


@_dataclass
class RequestShort_Fail(RequestShort):
    __slots__ = ("_0",)
    _0: Level


RequestShort.Get = RequestShort_Get
RequestShort_Get.__qualname__ = "RequestShort.Get"
RequestShort.Set = RequestShort_Set
RequestShort_Set.__qualname__ = "RequestShort.Set"
RequestShort.Limit = RequestShort_Limit
RequestShort_Limit.__qualname__ = "RequestShort.Limit"
RequestShort.Fail = RequestShort_Fail
RequestShort_Fail.__qualname__ = "RequestShort.Fail"
RequestShort._codec = _c.variants([RequestShort_Get, RequestShort_Set, RequestShort_Limit, RequestShort_Fail], [
    _c.record(RequestShort_Get, []),
    _c.record(RequestShort_Set, ['_0'], _n.unsigned(16)),
    _c.record(RequestShort_Limit, ['low', 'high'], _n.unsigned(16), _n.unsigned(16)),
    _c.record(RequestShort_Fail, ['_0'], Level._codec),
])


@_dataclass
class Holder_bool(_p.Message):
    """A generic type, made concrete by its uses."""
    __slots__ = ("old", "new",)
    old: bool
    new: bool


Holder_bool._codec = _c.record(Holder_bool, ['old', 'new'], _n.boolean, _n.boolean)


@_dataclass
class Holder_Holder_bool(_p.Message):
    """A generic type, made concrete by its uses."""
    __slots__ = ("old", "new",)
    old: Holder_bool
    new: Holder_bool


Holder_Holder_bool._codec = _c.record(Holder_Holder_bool, ['old', 'new'], Holder_bool._codec, Holder_bool._codec)


class Request_i32_unit(_p.Message):
    __slots__ = ()
    Get: _t.ClassVar[_t.Type[Request_i32_unit_Get]]
    Set: _t.ClassVar[_t.Type[Request_i32_unit_Set]]
    Limit: _t.ClassVar[_t.Type[Request_i32_unit_Limit]]
    Fail: _t.ClassVar[_t.Type[Request_i32_unit_Fail]]


@_dataclass
class Request_i32_unit_Get(Request_i32_unit):
    __slots__ = ()


@_dataclass
class Request_i32_unit_Set(Request_i32_unit):
    __slots__ = ("_0",)
    _0: int


@_dataclass
class Request_i32_unit_Limit(Request_i32_unit):
    __slots__ = ("low", "high",)
    low: int
    high: int


@_dataclass
class Request_i32_unit_Fail(Request_i32_unit):
    __slots__ = ("_0",)
    _0: None


Request_i32_unit.Get = Request_i32_unit_Get
Request_i32_unit_Get.__qualname__ = "Request_i32_unit.Get"
Request_i32_unit.Set = Request_i32_unit_Set
Request_i32_unit_Set.__qualname__ = "Request_i32_unit.Set"
Request_i32_unit.Limit = Request_i32_unit_Limit
Request_i32_unit_Limit.__qualname__ = "Request_i32_unit.Limit"
Request_i32_unit.Fail = Request_i32_unit_Fail
Request_i32_unit_Fail.__qualname__ = "Request_i32_unit.Fail"
Request_i32_unit._codec = _c.variants([Request_i32_unit_Get, Request_i32_unit_Set, Request_i32_unit_Limit, Request_i32_unit_Fail], [
    _c.record(Request_i32_unit_Get, []),
    _c.record(Request_i32_unit_Set, ['_0'], _n.signed(32)),
    _c.record(Request_i32_unit_Limit, ['low', 'high'], _n.signed(32), _n.signed(32)),
    _c.record(Request_i32_unit_Fail, ['_0'], _n.unit),
])


@_dataclass
class Holder_bytes(_p.Message):
    """A generic type, made concrete by its uses."""
    __slots__ = ("old", "new",)
    old: bytes
    new: bytes


Holder_bytes._codec = _c.record(Holder_bytes, ['old', 'new'], _n.data(None), _n.data(None))


@_dataclass
class Generics(_p.Message):
    __slots__ = ("a", "b", "c", "d", "e",)
    a: HolderByte
    b: Holder_Holder_bool
    c: RequestShort
    d: Request_i32_unit
    e: Holder_bytes


Generics._codec = _c.record(Generics, ['a', 'b', 'c', 'd', 'e'], HolderByte._codec, Holder_Holder_bool._codec, RequestShort._codec, Request_i32_unit._codec, Holder_bytes._codec)


@_dataclass
class Aliases(_p.Message):
    __slots__ = ("a", "b", "c", "d",)
    a: int
    b: _t.List[int]
    c: _t.Tuple[int, str]
    d: Shape


Aliases._codec = _c.record(Aliases, ['a', 'b', 'c', 'd'], _n.signed(32), _c.sequence(_n.signed(32), None), _c.group(_n.signed(32), _n.text(None)), Shape._codec)


class State(_p.Message):
    """Types as expressions of pcard."""
    __slots__ = ()
    Boot: _t.ClassVar[_t.Type[State_Boot]]
    Fault: _t.ClassVar[_t.Type[State_Fault]]
    Stopped: _t.ClassVar[_t.Type[State_Stopped]]


@_dataclass
class State_Boot(State):
    __slots__ = ()


@_dataclass
class State_Fault(State):
    __slots__ = ("_0",)
    _0: int


@_dataclass
class State_Stopped(State):
    __slots__ = ("_0", "_1",)
    _0: int
    _1: bool


State.Boot = State_Boot
State_Boot.__qualname__ = "State.Boot"
State.Fault = State_Fault
State_Fault.__qualname__ = "State.Fault"
State.Stopped = State_Stopped
State_Stopped.__qualname__ = "State.Stopped"
State._codec = _c.variants([State_Boot, State_Fault, State_Stopped], [
    _c.record(State_Boot, []),
    _c.record(State_Fault, ['_0'], _n.unsigned(8)),
    _c.record(State_Stopped, ['_0', '_1'], _n.unsigned(16), _n.boolean),
])


class Expressions_d_y(_p.Message, _enum.IntEnum):
    A = 0
    B = 1


Expressions_d_y._codec = _c.names(Expressions_d_y)


@_dataclass
class Expressions_d(_p.Message):
    __slots__ = ("x", "y",)
    x: int
    y: Expressions_d_y


Expressions_d._codec = _c.record(Expressions_d, ['x', 'y'], _n.unsigned(8), Expressions_d_y._codec)


@_dataclass
class Expressions(_p.Message):
    __slots__ = ("a", "b", "c", "d", "e",)
    a: _t.Optional[State]
    b: _t.List[int]
    c: _t.List[_t.Tuple[int, str]]
    d: Expressions_d
    e: bytes


Expressions._codec = _c.record(Expressions, ['a', 'b', 'c', 'd', 'e'], _c.option(State._codec, False), _c.sequence(_n.signed(16), None), _c.sequence(_c.group(_n.unsigned(8), _n.text(None)), None), Expressions_d._codec, _n.data(None))


@_dataclass
class Words(_p.Message):
    """Names that are words of C, of C++ or of Python, or that generated code has."""
    __slots__ = ("int_", "class_", "new", "def_", "lambda_", "unix", "value_", "writer", "encode_", "frame_", "name_", "errno", "None_",)
    int_: int
    class_: int
    new: int
    def_: int
    lambda_: int
    unix: int
    value_: int
    writer: int
    encode_: int
    frame_: int
    name_: int
    errno: int
    None_: _t.Optional[_p.Some]


Words._codec = _c.record(Words, ['int_', 'class_', 'new', 'def_', 'lambda_', 'unix', 'value_', 'writer', 'encode_', 'frame_', 'name_', 'errno', 'None_'], _n.unsigned(8), _n.unsigned(8), _n.unsigned(8), _n.unsigned(8), _n.unsigned(8), _n.unsigned(8), _n.unsigned(8), _n.unsigned(8), _n.unsigned(8), _n.unsigned(8), _n.unsigned(8), _n.unsigned(8), _c.option(_n.unit, True))


@_dataclass
class writer(_p.Message):
    __slots__ = ("_0",)
    _0: int


writer._codec = _c.record(writer, ['_0'], _n.unsigned(8))


class Error(_p.Message):
    __slots__ = ()
    None_: _t.ClassVar[_t.Type[Error_None_]]
    True_: _t.ClassVar[_t.Type[Error_True_]]
    Default: _t.ClassVar[_t.Type[Error_Default]]


@_dataclass
class Error_None_(Error):
    __slots__ = ()


@_dataclass
class Error_True_(Error):
    __slots__ = ()


@_dataclass
class Error_Default(Error):
    __slots__ = ("_0",)
    _0: int


Error.None_ = Error_None_
Error_None_.__qualname__ = "Error.None_"
Error.True_ = Error_True_
Error_True_.__qualname__ = "Error.True_"
Error.Default = Error_Default
Error_Default.__qualname__ = "Error.Default"
Error._codec = _c.variants([Error_None_, Error_True_, Error_Default], [
    _c.record(Error_None_, []),
    _c.record(Error_True_, []),
    _c.record(Error_Default, ['_0'], _n.unsigned(8)),
])


@_dataclass
class Option_(_p.Message):
    __slots__ = ("self_",)
    self_: int


Option_._codec = _c.record(Option_, ['self_'], _n.unsigned(8))


@_dataclass
class Shadows(_p.Message):
    """Fields with the names of types."""
    __slots__ = ("Serial", "writer", "Level",)
    Serial: Serial
    writer: int
    Level: _t.Optional[Level]


Shadows._codec = _c.record(Shadows, ['Serial', 'writer', 'Level'], Serial._codec, _n.unsigned(8), _c.option(Level._codec, False))


# Aliases.
Millimetres = int

Samples = _t.List[int]

Place = _t.Tuple[int, str]

Same = Shape
