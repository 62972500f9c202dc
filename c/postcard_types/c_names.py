"""Names in C: of types, fields, variants and functions."""
import re

from .model import Array, Bytes, List_, Named, Number, Option, Result, Scalar, Text, Tuple_
from .tokens import Refused

# Words of C99 to C23 and of C++20, and macros and types that usual headers define.
RESERVED = frozenset(
    """auto break case char const continue default do double else enum extern float for goto if inline int long register restrict return
    short signed sizeof static struct switch typedef union unsigned void volatile while _Bool _Complex _Imaginary _Generic _Atomic
    bool true false alignas alignof constexpr nullptr static_assert thread_local typeof typeof_unqual and and_eq asm bitand bitor catch
    char8_t char16_t char32_t class compl concept consteval constinit const_cast co_await co_return co_yield decltype delete
    dynamic_cast explicit export friend mutable namespace new noexcept not not_eq operator or or_eq private protected public
    reinterpret_cast requires static_cast template this throw try typeid typename using virtual wchar_t xor xor_eq
    unix linux i386 near far min max errno stdin stdout stderr assert interrupt fortran small huge hyper complex imaginary I
    NULL EOF FILE offsetof signbit isnan isinf size_t ptrdiff_t intptr_t uintptr_t memcpy memmove memset strlen main
    int8_t int16_t int32_t int64_t uint8_t uint16_t uint32_t uint64_t""".split()
)
# What functions that are written have as names of their own.
LOCALS = frozenset("writer reader value message frame size count used status index start begin item most text bytes again".split())


def size_type(most):
    """Returns the type of a count of at most so many."""
    return "uint8_t" if most < 2**8 else "uint16_t" if most < 2**16 else "uint32_t"


class Names:
    """The names of the types of a model. `prefix` is before each, and `stem` also before those of types without a name of their own."""

    def __init__(self, model, prefix, stem):
        self.model, self.prefix, self.stem, self.taken = model, prefix, stem, {}
        self.declared = {self.top(name) for name in (*(kind.name for kind in model.definitions), *(alias[0] for alias in model.aliases))}

    def take(self, name, place):
        """Refuses a name at file scope that a second declaration would have."""
        if name in self.taken:
            raise Refused(place, f"the C name `{name}` is that of line {self.taken[name][0]} too")
        if not name.isascii():
            raise Refused(place, f"the C name `{name}` has a letter beyond ASCII")
        if name.startswith("postcard_"):
            raise Refused(place, f"the C name `{name}` is one of the library: give a --prefix")
        self.taken[name] = place

    def member(self, name):
        """Returns the name of a field or of a part of a tuple. In C++ a type's name can't be that of a member too."""
        if name[0].isdigit():
            return f"_{name}"
        return f"{name}_" if name in RESERVED or name in self.declared else name

    def content(self, name):
        """Returns the name of a variant's content in the union of its enum, in snake case."""
        return self.member(re.sub(r"(?<=[a-z0-9])(?=[A-Z])|(?<=[A-Z])(?=[A-Z][a-z])", "_", name).lower())

    def of(self, kind):
        """Returns the C name of a type that has its own: a struct, an enum, or another type that is declared as a `struct`."""
        alias = self.model.alias_of.get(kind)
        if isinstance(kind, Named) and not kind.arguments:
            return self.top(kind.name)
        if alias is not None:
            return self.top(alias)
        return f"{self.prefix}{self.spelled(kind)}" if isinstance(kind, Named) else f"{self.prefix}{self.stem}_{self.spelled(kind)}"

    def top(self, name):
        """Returns the name of a declared type."""
        name = f"{self.prefix}{name}"
        return f"{name}_" if name in RESERVED or name in LOCALS else name

    def spelled(self, kind):
        """Returns a name that says what a type is, as `list_u16`."""
        of = self.spelled
        if isinstance(kind, Number):
            return f"{'nonzero_' if kind.nonzero else ''}{kind.name}{'_' + kind.order if kind.order else ''}"
        if isinstance(kind, Scalar):
            return kind.name
        if isinstance(kind, (Text, Bytes)):
            return f"{'str' if isinstance(kind, Text) else 'bytes'}{'' if kind.most is None else kind.most}"
        if isinstance(kind, Option):
            return f"option_{of(kind.content)}"
        if isinstance(kind, List_):
            parts = kind.element.parts if kind.is_map else [kind.element]
            return "_".join([f"{'map' if kind.is_map else 'list'}{'' if kind.most is None else kind.most}", *map(of, parts)])
        if isinstance(kind, Array):
            return f"array{kind.count}_{of(kind.element)}"
        if isinstance(kind, Tuple_):
            return "_".join([f"tuple{len(kind.parts)}", *map(of, kind.parts)])
        if isinstance(kind, Result):
            return f"result_{of(kind.ok)}_{of(kind.err)}"
        alias = self.model.alias_of.get(kind) if kind.arguments else None
        return alias or "_".join([kind.name, *map(of, kind.arguments)])
