"""Pairs of types near each other, and values of a type, by chance. Numbers, texts and lists are small, so that few bytes often mean
something to another type, too."""
from kinds import LEAVES, UNIT, Array, Enum, Group, Map, Maybe, Number, Scalar, Seq, has_bytes
from messages import FLOATS, Some, Variant

FIELDS = "id lat lon alt temp unit rate mode label".split()
VARIANTS = "Idle Busy Fault Boot Stop Go Ping Open Shut Data".split()
PARTS = [LEAVES[name] for name in "bool u8 i8 u16 u32 u64 i16 i32 f32 char str bytes".split()]
PARTS += [Number(16, False, "LE"), Number(16, False, "BE"), Number(32, True, "LE")]
UNSIGNED = (0, 1, 2, 3, 5, 97, 127, 128, 194, 200, 255, 300, 16383, 16384, 65535, 65536)
SIGNED = (0, 1, -1, 2, -2, -3, 63, -64, 64, 127, -128, 150, -300, 8191, 32767, -32768, 65536)
BITS = (0, 1, 0x3FC00000, 0x80000000, 0x7F800000, 0x01010101)
TEXTS = ("", "a", "ab", "\0", "\1", "\2\1", "é", "abc")
LETTERS = "\0\1\2a\x7fé€😀"


def leaf(chance):
    return chance.choice(PARTS)


def some_kind(chance, depth):
    """A type whose parts nest at most so deep."""
    if depth == 0 or chance.random() < 0.3:
        return leaf(chance)
    form = chance.choice((Maybe, Seq, Map, Array, Group, Group, Group, Enum, Enum))
    if form is Maybe:
        return Maybe(some_kind(chance, depth - 1))
    if form is Seq:
        return Seq(element(some_kind(chance, depth - 1)))
    if form is Map:
        return Map(element(some_kind(chance, depth - 1)), some_kind(chance, depth - 1))
    if form is Array:
        return Array(element(some_kind(chance, depth - 1)), chance.randrange(5))
    return some_group(chance, depth) if form is Group else some_enum(chance, depth)


def element(kind):
    """The type, or a byte if it has none, since the elements of a list have one."""
    return kind if has_bytes(kind) else LEAVES["u8"]


def some_group(chance, depth):
    parts = tuple(some_kind(chance, depth - 1) for _ in range(chance.choice((0, 1, 2, 2, 3, 3, 4))))
    return Group(parts, tuple(chance.sample(FIELDS, len(parts))) if chance.random() < 0.6 else ())


def some_enum(chance, depth):
    count = chance.choice((1, 2, 2, 3, 3, 4))
    return Enum(tuple(chance.sample(VARIANTS, count)), tuple(some_content(chance, depth - 1) for _ in range(count)))


def some_content(chance, depth):
    return UNIT if depth == 0 or chance.random() < 0.4 else some_kind(chance, depth)


def with_part(parts, index, part):
    return (*parts[:index], part, *parts[index + 1 :])


def changed(chance, kind):
    """The type with one change: in a part, or else of its own."""
    if chance.random() < 0.6:
        inner = changed_inside(chance, kind)
        if inner is not None:
            return inner
    if isinstance(kind, Group):
        return changed_group(chance, kind)
    if isinstance(kind, Enum):
        return changed_enum(chance, kind)
    return chance.choice(forms_near(chance, kind) or [leaf(chance)]) if chance.random() < 0.7 else around(chance, kind)


def changed_inside(chance, kind):
    """The type with a change in a part, or `None` if it has no parts."""
    if isinstance(kind, Maybe):
        return Maybe(changed(chance, kind.content))
    if isinstance(kind, Seq):
        return Seq(element(changed(chance, kind.element)))
    if isinstance(kind, Map):
        return Map(element(changed(chance, kind.key)), kind.value)
    if isinstance(kind, Array):
        return Array(element(changed(chance, kind.element)), kind.count)
    parts = kind.parts if isinstance(kind, Group) else kind.contents if isinstance(kind, Enum) else ()
    if not parts:
        return None
    index = chance.randrange(len(parts))
    parts = with_part(parts, index, changed(chance, parts[index]))
    return Group(parts, kind.names) if isinstance(kind, Group) else Enum(kind.names, parts)


def around(chance, kind):
    """The type inside another one, or another type."""
    return chance.choice((Group((kind,)), Group((kind, UNIT)), Group((kind,), ("inner",)), Maybe(kind), Seq(element(kind)), Array(element(kind), 1), leaf(chance)))


def forms_near(chance, kind):
    """Types that are near to one that is no group and no enum."""
    if isinstance(kind, Number):
        bits = chance.choice((16, 32, 64, 128))
        return [Number(bits, kind.is_signed), Number(bits, kind.is_signed, kind.order), Number(kind.bits, not kind.is_signed, kind.order),
                Number(max(kind.bits, 16), kind.is_signed, chance.choice(("LE", "BE", "")))]
    if isinstance(kind, Scalar):
        return {"bytes": [Seq(LEAVES["u8"])], "str": [Scalar("bytes"), Scalar("char")], "char": [Scalar("str")], "bool": [LEAVES["u8"]],
                "f32": [Number(32, False, "LE"), Array(LEAVES["u8"], 4)]}.get(kind.name, [])
    if isinstance(kind, Maybe):
        return [kind.content, Enum(("No", "Yes"), (UNIT, kind.content)), Seq(element(kind.content))]
    if isinstance(kind, Seq):
        return [Array(kind.element, chance.randrange(4)), Maybe(kind.element)]
    if isinstance(kind, Map):
        return [Seq(Group((kind.key, kind.value)))]
    return [Group((kind.element,) * kind.count), Array(kind.element, kind.count + 1), Array(kind.element, max(kind.count - 1, 0)), Seq(kind.element)]


def new_name(chance, names, used):
    return chance.choice([name for name in names if name not in used])


def changed_group(chance, kind):
    """A tuple or a struct with a part more or less, moved, renamed, or grouped otherwise."""
    parts, names = list(kind.parts), list(kind.names)
    index = chance.randrange(len(parts) + 1)
    form = chance.choice(("insert", "append", "append", "remove", "cut", "swap", "rename", "nest", "spread", "absorb"))
    if form in ("insert", "append"):
        index = len(parts) if form == "append" else index
        names[index:index] = [new_name(chance, FIELDS, names)] if names or not parts and chance.random() < 0.5 else []
        parts.insert(index, some_kind(chance, 1))
    elif index >= len(parts):
        return Group(kind.parts[:-1], kind.names[:-1])
    elif form in ("remove", "cut"):
        index = len(parts) - 1 if form == "cut" else index
        parts.pop(index)
        names[index : index + 1] = []
    elif form == "swap":
        for row in (parts, names):
            row[index : index + 2] = row[index : index + 2][::-1]
    elif form == "rename" and names:
        names[index] = new_name(chance, FIELDS, names)
    elif form == "nest":
        parts[index : index + 2] = [Group(tuple(parts[index : index + 2]), tuple(names[index : index + 2]))]
        names[index + 1 : index + 2] = []
    elif index + 1 < len(parts):
        whole = spread(parts[index], parts[index + 1]) if form == "spread" else absorbed(parts[index], parts[index + 1])
        if whole is not None:
            parts[index : index + 2] = [whole]
            names[index + 1 : index + 2] = []
    return Group(tuple(parts), tuple(names))


def spread(kind, after):
    """An enum whose variants have what follows an enum, an option or a `bool`. `None` for another type."""
    if kind == Scalar("bool"):
        kind = Enum(("Off", "On"), (UNIT, UNIT))
    if isinstance(kind, Maybe):
        kind = Enum(("No", "Yes"), (UNIT, Group((kind.content,))))
    if not isinstance(kind, Enum):
        return None
    return Enum(kind.names, tuple(Group((content, after)) for content in kind.contents))


def absorbed(kind, after):
    """A list whose elements have what follows a list. `None` for another type."""
    return Seq(Group((kind.element, after))) if isinstance(kind, Seq) else None


def changed_enum(chance, kind):
    """An enum with a variant more or less, moved or renamed, or the option that has the same bytes."""
    names, contents = list(kind.names), list(kind.contents)
    index = chance.randrange(len(names))
    form = chance.choice(("append", "append", "insert", "remove", "cut", "swap", "rename", "option"))
    if form in ("append", "insert") and len(names) < len(VARIANTS):
        index = len(names) if form == "append" else index
        names.insert(index, new_name(chance, VARIANTS, names))
        contents.insert(index, some_content(chance, 1))
    elif form in ("remove", "cut") and len(names) > 1:
        index = len(names) - 1 if form == "cut" else index
        names.pop(index)
        contents.pop(index)
    elif form == "swap":
        for row in (names, contents):
            row[index : index + 2] = row[index : index + 2][::-1]
    elif form == "option" and len(names) == 2 and not has_bytes(contents[0]):
        return Maybe(contents[1])
    else:
        names[index] = new_name(chance, VARIANTS, names)
    return Enum(tuple(names), tuple(contents))


def pair(chance):
    """Two types, of which one is the other with at most three changes, and sometimes unrelated ones."""
    first = some_kind(chance, chance.choice((1, 2, 2, 3)))
    if chance.random() < 0.08:
        return first, some_kind(chance, 2)
    second = first
    for _ in range(chance.choice((0, 1, 1, 1, 2, 2, 3))):
        second = changed(chance, second)
    return (first, second) if chance.random() < 0.5 else (second, first)


def some_value(chance, kind):
    """A value of a type."""
    if isinstance(kind, Number):
        least, most = (-(1 << kind.bits - 1), (1 << kind.bits - 1) - 1) if kind.is_signed else (0, (1 << kind.bits) - 1)
        found = [it for it in (SIGNED if kind.is_signed else UNSIGNED) if least <= it <= most]
        return chance.choice((*found, least, most, chance.randint(least, most)))
    if isinstance(kind, Scalar):
        return some_scalar(chance, kind.name)
    if isinstance(kind, Maybe):
        return None if chance.random() < 0.4 else Some(some_value(chance, kind.content))
    if isinstance(kind, (Seq, Map)):
        each = kind.element if isinstance(kind, Seq) else Group((kind.key, kind.value))
        return [some_value(chance, each) for _ in range(chance.choice((0, 0, 1, 1, 2, 3)))]
    if isinstance(kind, (Array, Group)):
        return tuple(some_value(chance, each) for each in ([kind.element] * kind.count if isinstance(kind, Array) else kind.parts))
    index = chance.randrange(len(kind.names))
    return Variant(index, some_value(chance, kind.contents[index]))


def some_scalar(chance, name):
    if name == "bool":
        return chance.random() < 0.5
    if name in FLOATS:
        return chance.choice(BITS) if name == "f32" else chance.choice(BITS) << 32
    if name == "bytes":
        return bytes(chance.choice((0, 1, 2, 3, 97, 128, 200, 255)) for _ in range(chance.choice((0, 0, 1, 2, 3))))
    return chance.choice(LETTERS if name == "char" else TEXTS)


def all_values(kind, most):
    """Each value of a type, or `None` if there are more than `most`."""
    if kind == Scalar("bool"):
        return [False, True]
    if isinstance(kind, Maybe):
        inner = all_values(kind.content, most - 1)
        return None if inner is None else [None, *map(Some, inner)]
    if isinstance(kind, (Array, Group)):
        found = [()]
        for each in [kind.element] * kind.count if isinstance(kind, Array) else kind.parts:
            inner = all_values(each, most)
            if inner is None or len(found) * len(inner) > most:
                return None
            found = [(*row, part) for row in found for part in inner]
        return found
    if isinstance(kind, Enum):
        inner = [all_values(content, most) for content in kind.contents]
        if None in inner or sum(map(len, inner)) > most:
            return None
        return [Variant(index, value) for index, values in enumerate(inner) for value in values]
    return None
