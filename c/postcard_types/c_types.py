"""The declarations of types in C."""
from .c_names import size_type
from .model import Array, Bytes, Named, Number, Option, Result, Scalar, Text, Tuple_
from .tokens import Refused

NUMBERS = {f"{sign}{bits}": f"{'u' if sign == 'u' else ''}int{bits}_t" for sign in "ui" for bits in (8, 16, 32, 64)}
NUMBERS.update(u128="postcard_u128", i128="postcard_u128")
SCALARS = {"bool": "bool", "char": "uint32_t", "f32": "float", "f64": "double"}


def is_lent(kind):
    """Whether a text or bytes are a slice, which lies in the message that is read."""
    return isinstance(kind, (Text, Bytes)) and kind.most is None


def has_struct(kind):
    """Whether a type is declared in C under a name of its own, with its functions."""
    if isinstance(kind, (Number, Scalar, Array)):
        return False
    return not is_lent(kind)


def comment(lines, indent=""):
    """Returns the lines of a comment of Rust as comments of C."""
    return [f"{indent}/* {line.replace('*/', '* /').replace('/*', '/ *')} */" for line in lines if line]


class Types:
    """Writes the types of a model as C."""

    def __init__(self, model, names):
        self.model, self.names = model, names

    def is_empty(self, kind):
        """Whether values of the type have no bytes, and are no member in C."""
        if isinstance(kind, Array):
            return kind.count == 0 or self.is_empty(kind.element)
        return kind == Scalar("unit")

    def named(self, kind):
        """Returns the C type of values that are no arrays."""
        if isinstance(kind, Number):
            return NUMBERS[kind.name]
        if isinstance(kind, Scalar):
            return SCALARS[kind.name]
        return "postcard_slice" if is_lent(kind) else self.names.of(kind)

    def declared(self, kind, name):
        """Returns the declaration of a name with a type, without its `;`."""
        if isinstance(kind, Array):
            return self.declared(kind.element, f"{name}[{kind.count}]")
        return f"{self.named(kind)} {name}"

    def pointer(self, kind, name, const=""):
        """Returns the declaration of a pointer to values of a type."""
        return const + self.declared(kind, f"(*{name})" if isinstance(kind, Array) else f"*{name}")

    def distinct(self, places):
        """Refuses two members of a struct or a union with the same name in C: `places` has each name and where it is declared."""
        seen = {}
        for name, place in places:
            if name in seen:
                raise Refused(place, f"the C name `{name}` is that of line {seen[name][0]} too")
            seen[name] = place

    def members(self, members, indent):
        """Returns the lines of the members of a struct. C has no struct without members, so one without bytes has a byte."""
        self.distinct([(self.names.member(each.name), each.place) for each in members])
        lines = []
        for each in members:
            lines += comment(each.docs, indent)
            if self.is_empty(each.kind):
                lines.append(f"{indent}/* {self.names.member(each.name)} has no bytes */")
            else:
                lines.append(f"{indent}{self.declared(each.kind, self.names.member(each.name))};")
        if all(self.is_empty(each.kind) for each in members):
            lines.append(f"{indent}uint8_t nothing_;")
        return lines

    def declaration(self, kind):
        """Returns the lines that declare a type in C."""
        name = self.names.of(kind)
        if isinstance(kind, Named):
            definition = self.model.definitions[kind]
            if definition.is_struct:
                lines = [f"typedef struct {name} {{", *self.members(definition.members, "    "), f"}} {name};"]
            else:
                lines = self.enum(kind, name, definition)
            return comment(definition.docs) + lines
        return self.about(kind) + [f"typedef struct {name} {{ {self.inner(kind)} }} {name};"]

    def about(self, kind):
        """Returns what is said of a type without a name of its own."""
        if isinstance(kind, Text):
            return [f"/* A text of at most {kind.most} bytes of UTF-8. Reading puts a NUL after it. */"]
        return []

    def inner(self, kind):
        """Returns the members of the struct of a type without a name of its own."""
        if isinstance(kind, Option):
            return "bool some;" + self.unless_empty(kind.content, "value")
        if isinstance(kind, Tuple_):
            return "".join(self.unless_empty(part, f"_{index}") for index, part in enumerate(kind.parts)).strip() or "uint8_t nothing_;"
        if isinstance(kind, Result):
            union = self.unless_empty(kind.ok, "ok") + self.unless_empty(kind.err, "err")
            return "bool is_ok;" + (f" union {{{union} }} as;" if union else "")
        if isinstance(kind, Text):
            return f"{size_type(kind.most)} size; char text[{kind.most + 1}];"
        if isinstance(kind, Bytes):
            return f"{size_type(kind.most)} count; uint8_t items[{max(kind.most, 1)}];"
        if kind.most is None:
            return f"size_t count; {self.pointer(kind.element, 'items', 'const ')}; postcard_slice encoded;"
        return f"{size_type(kind.most)} count; {self.declared(Array(kind.element, max(kind.most, 1)), 'items')};"

    def unless_empty(self, kind, name):
        return "" if self.is_empty(kind) else f" {self.declared(kind, name)};"

    def enum(self, kind, name, definition):
        """Returns the declaration of an enum: its tags, and if a variant has content, the struct of a tag and a union."""
        tag = name if definition.is_plain else f"{name}_tag"
        lines = [f"typedef enum {tag} {{ /* the numbers of the variants in a message */"]
        for index, case in enumerate(definition.cases):
            self.names.take(f"{name}_{case.name}", case.place)
            comma = "," if index + 1 < len(definition.cases) else ""
            lines += comment(case.docs, "    ") + [f"    {name}_{case.name} = {index}{comma}"]
        lines.append(f"}} {tag};")
        if definition.is_plain:
            return lines
        self.names.take(tag, definition.place)
        filled = [case for case in definition.cases if any(not self.is_empty(each.kind) for each in case.members)]
        self.distinct([(self.names.content(case.name), case.place) for case in filled])
        union = [line for case in filled for line in self.case(case)]
        lines += [f"typedef struct {name} {{", f"    {tag} tag;", *(["    union {", *union, "    } as;"] if union else [])]
        return lines + [f"}} {name};"]

    def case(self, case):
        """Returns the lines of a variant's content in the union: its only part, or a struct."""
        if is_newtype(case):
            return [f"        {self.declared(case.members[0].kind, self.names.content(case.name))};"]
        return ["        struct {", *self.members(case.members, "            "), f"        }} {self.names.content(case.name)};"]


def is_newtype(case):
    """Whether a variant has one part without a name, which is then its content."""
    return case.style == "tuple" and len(case.members) == 1
