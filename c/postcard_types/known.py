"""The types that a file needn't declare: those of Rust, of `heapless`, `arrayvec` and `serde_bytes`, and `LE` and `BE` of `postcard`."""
from .model import BYTE, UNIT, Bytes, List_, Number, Option, Result, Scalar, Text, Tuple_
from .tokens import Refused

NUMBERS = {f"{sign}{bits}": Number(f"{sign}{bits}") for sign in "ui" for bits in (8, 16, 32, 64, 128)}
NUMBERS.update(usize=Number("u64"), isize=Number("i64"))
LEAVES = {name: Scalar(name) for name in ("bool", "char", "f32", "f64")}
LEAVES.update(NUMBERS, str=Text(), String=Text(), **dict.fromkeys(("bytes", "ByteBuf", "Bytes"), Bytes(None, True)))
NONZERO = {f"NonZero{name[0].upper()}{name[1:]}": name for name in NUMBERS}
# Types of one type that are written as it is.
SAME = frozenset("Box Rc Arc Cow Wrapping Saturating Reverse".split())
LISTS = frozenset("Vec VecDeque LinkedList BinaryHeap ArrayVec Deque".split())
# The other arguments of these are hashers.
SETS = frozenset("BTreeSet HashSet IndexSet FnvIndexSet".split())
MAPS = frozenset("BTreeMap HashMap IndexMap FnvIndexMap LinearMap".split())
TEXTS = frozenset("String ArrayString".split())


def list_of(model, token, element, most, is_map=False):
    """Returns the type of a list, or refuses one whose elements have no bytes."""
    if model.min_size(element) == 0:
        raise Refused(token.place, "elements of this type have no bytes")
    return Bytes(most) if element == BYTE else List_(element, most, is_map)


class Use:
    """The use of a name with its arguments, a `Path`: the types and the numbers in its `<` and `>`."""

    def __init__(self, model, path, types, counts):
        self.model, self.token, self.types, self.counts = model, path.token, types, counts
        self.name = path.token.text
        self.first = path.arguments[0].token if path.arguments else path.token

    def refuse(self, what):
        raise Refused(self.token.place, f"`{self.name}`{what}")

    def require(self, types, counts=0, hashers=0):
        """Refuses a use with another number of types, more than so many of them for hashers, or with too many numbers."""
        if not types <= len(self.types) <= types + hashers or len(self.counts) > counts:
            self.refuse(f" takes {types} type{'' if types == 1 else 's'}" + (" and a number" if counts else ""))

    @property
    def most(self):
        return self.counts[0] if self.counts else None

    def fixed(self):
        self.require(1)
        number = self.types[0]
        if not isinstance(number, Number) or number.bits == 8 or number.order or number.nonzero:
            self.refuse(" takes a number of 16 bits or more")
        return Number(number.name, self.name.lower())

    def nonzero(self):
        self.require(1)
        if not isinstance(self.types[0], Number):
            self.refuse(" takes a number")
        return Number(self.types[0].name, None, True)

    def kind(self):
        """Returns the type, or `None` if the name is none of these."""
        name = self.name
        if name in LISTS or name in SETS:
            self.require(1, 1, name in SETS)
            return list_of(self.model, self.first, self.types[0], self.most)
        if name in MAPS:
            self.require(2, 1, 1)
            return list_of(self.model, self.first, Tuple_(tuple(self.types[:2])), self.most, True)
        if name in TEXTS and self.counts:
            self.require(0, 1)
            return Text(self.most)
        if name in LEAVES or name in NONZERO or name == "PhantomData":
            self.require(1 if name == "PhantomData" else 0)
            return UNIT if name == "PhantomData" else LEAVES.get(name) or Number(NUMBERS[NONZERO[name]].name, None, True)
        if name in SAME or name == "Option":
            self.require(1)
            return Option(self.types[0]) if name == "Option" else self.types[0]
        if name == "Result":
            self.require(2)
            return Result(*self.types)
        if name in ("LE", "BE"):
            return self.fixed()
        return self.nonzero() if name == "NonZero" else None
