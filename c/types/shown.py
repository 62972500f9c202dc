"""The text by which tests compare values: that of a value of `oracle`, and the statements of C that print the same of a struct."""
import re

from oracle import bits

# Names of the files of declarations here that are words of C or names of the generated code.
WORDS = set("Level Serial auto bool case char class default double errno float for if int long max min new register short unix".split())
TYPES = {"writer": "writer_"}
PLAIN = {"bool": "bool", "char": "uint32_t", "f32": "float", "f64": "double"}


def show(oracle, kind, value):
    """Returns the text of a value."""
    kind = oracle.plain(kind)
    what = kind[0]
    if what in ("int", "fixed", "nonzero"):
        return f"{value % 2**128:032x}" if kind[-1].endswith("128") else str(value)
    if what in ("f32", "f64"):
        return f"f{value:0{bits(what) // 4}x}"
    if what in ("bool", "char"):
        return str(value).lower()
    if what in ("str", "bytes"):
        return f'"{value.hex()}"'
    if what == "option":
        return f"Some({show(oracle, kind[1], value[0])})" if value else "None"
    if what in ("list", "map", "array"):
        element = ("tuple", kind[1:3]) if what == "map" else kind[1]
        return f"[{','.join(show(oracle, element, each) for each in value)}]"
    parts = oracle.parts(kind)
    index = "" if parts is not None else f"#{value[0]}"
    row, content = (parts, value) if parts is not None else (oracle.variants(kind)[value[0]], value[1])
    return f"{index}({','.join(show(oracle, each, it) for each, it in zip(row, content))})"


def field_name(name):
    """Returns the name of a field in C."""
    return f"_{name}" if name.isdigit() else f"{name}_" if name in WORDS else name


def variant_name(name):
    """Returns the name of a variant's content in C."""
    found = re.sub(r"([a-z0-9])([A-Z])", r"\1_\2", re.sub(r"([A-Z]+)([A-Z][a-z])", r"\1_\2", name)).lower()
    return field_name(found)


class C:
    """Writes C over the declarations of an oracle. `stem` is before the names of types without a name of their own."""

    def __init__(self, oracle, stem):
        self.oracle, self.stem = oracle, stem

    def spelled(self, kind):
        """Returns a type as a part of a name."""
        what, of = kind[0], self.spelled
        if what == "int":
            return kind[1]
        if what in ("fixed", "nonzero"):
            return f"{kind[2]}_{kind[1]}" if what == "fixed" else f"nonzero_{kind[1]}"
        if what in ("str", "bytes"):
            return what + ("" if kind[1] is None else str(kind[1]))
        if what in ("option", "result"):
            return "_".join([what, *map(of, kind[1:])])
        if what in ("list", "map"):
            return "_".join([what + ("" if kind[-1] is None else str(kind[-1])), *map(of, kind[1:-1])])
        if what == "array":
            return f"array{kind[2]}_{of(kind[1])}"
        if what == "tuple":
            return "_".join([f"tuple{len(kind[1])}", *map(of, kind[1])]) if kind[1] else "unit"
        return kind[1] if what == "named" else what

    def name(self, kind):
        """Returns the C name of a type that is a struct or an enum."""
        kind = self.oracle.plain(kind)
        if kind[0] == "named":
            return TYPES.get(kind[1], kind[1])
        alias = next((name for name, it in self.oracle.declared.items() if it == kind), None)
        return alias or f"{self.stem}_{self.spelled(kind)}"

    def is_empty(self, kind):
        return kind == ("tuple", ()) or kind[0] == "array" and (kind[2] == 0 or self.is_empty(kind[1]))

    def is_plain_enum(self, kind):
        return all(not fields for _, _, fields in self.oracle.declared[kind[1]].variants)

    def declared(self, kind, name):
        """Returns the declaration of a name with a type."""
        kind = self.oracle.plain(kind)
        if kind[0] == "array":
            return self.declared(kind[1], f"{name}[{kind[2]}]")
        if kind[0] in ("int", "fixed", "nonzero"):
            number = kind[-1]
            wide = number.endswith("128")
            return f"{'postcard_u128' if wide else f'{chr(117) * (number[0] == chr(117))}int{number[1:]}_t'} {name}"
        if kind[0] in ("str", "bytes") and kind[1] is None:
            return f"postcard_slice {name}"
        return f"{PLAIN.get(kind[0]) or self.name(kind)} {name}"

    def pieces(self, kind, place):
        """Returns the types and places of the parts of a tuple or a struct."""
        if kind[0] == "tuple":
            return [(each, f"{place}._{index}") for index, each in enumerate(kind[1])]
        return [(each, f"{place}.{field_name(name)}") for name, each in self.oracle.declared[kind[1]].fields]

    def cases(self, kind, place):
        """Returns the types and places of the parts of each variant."""
        if kind[0] == "result":
            return [[(kind[1], f"{place}.as.ok")], [(kind[2], f"{place}.as.err")]]
        rows = []
        for name, style, fields in self.oracle.declared[kind[1]].variants:
            content = f"{place}.as.{variant_name(name)}"
            alone = style == "tuple" and len(fields) == 1
            rows.append([(each, content if alone else f"{content}.{field_name(field)}") for field, each in fields])
        return rows

    def index(self, kind, place):
        """Returns the expression for the index of a variant."""
        if kind[0] == "result":
            return f"({place}.is_ok ? 0u : 1u)"
        return f"(unsigned){place}" if self.is_plain_enum(kind) else f"(unsigned){place}.tag"

    def dump(self, kind, place, level=0):
        """Returns the statements that print the value at a place."""
        kind = self.oracle.plain(kind)
        what = kind[0]
        if self.is_empty(kind):
            return [f'text("{"[]" if what == "array" else "()"}");']
        if what in ("int", "fixed", "nonzero"):
            if kind[-1].endswith("128"):
                return [f"wide({place}.low, {place}.high);"]
            return [f"whole({place});" if kind[-1][0] == "i" else f"natural({place});"]
        if what in ("f32", "f64", "bool"):
            return [f"show_{what}({place});"]
        if what == "char":
            return [f"natural({place});"]
        if what in ("str", "bytes"):
            return self.dump_run(kind, place)
        if what == "option":
            inner = self.dump(kind[1], f"{place}.value", level)
            return [f"if ({place}.some) {{", 'text("Some(");', *inner, "text(\")\");", '} else text("None");']
        if what == "array":
            return self.row("[", "]", f"i{level}", str(kind[2]), self.dump(kind[1], f"{place}[i{level}]", level + 1))
        if what == "tuple":
            return self.sequence(self.pieces(kind, place), level)
        return [f"dump_{self.name(kind)}(&{place});"]

    def dump_run(self, kind, place):
        """Returns the statements that print a text or bytes. After a text with a capacity there is a NUL."""
        if kind[1] is None:
            return [f"hexadecimal({place}.bytes, {place}.size);"]
        if kind[0] == "bytes":
            return [f"hexadecimal({place}.items, {place}.count);"]
        return [f"if ({place}.text[{place}.size] != 0) abort();", f"hexadecimal({place}.text, {place}.size);"]

    def row(self, opening, closing, index, count, inner):
        loop = [f"for (size_t {index} = 0; {index} < {count}; {index}++) {{", f'if ({index}) text(",");', *inner, "}"]
        return [f'text("{opening}");', *loop, f'text("{closing}");']

    def sequence(self, pieces, level=0):
        lines = ['text("(");']
        for number, (kind, place) in enumerate(pieces):
            lines += (['text(",");'] if number else []) + self.dump(kind, place, level)
        return [*lines, 'text(")");']

    def switch(self, kind, place, inner):
        """Returns a switch over the variants of an enum or a result, in which `inner` gives the statements of one."""
        lines = [f"switch ({self.index(kind, place)}) {{"]
        for index, pieces in enumerate(self.cases(kind, place)):
            lines += [f"case {index}:", *inner(pieces), "break;"]
        return [*lines, "}"]

    def dump_body(self, kind):
        """Returns the body of the function that prints a list, a result, a struct or an enum."""
        place = "(*value)"
        if kind[0] in ("list", "map"):
            return self.dump_list(kind)
        if kind[0] != "result" and self.oracle.declared[kind[1]].kind == "struct":
            return self.sequence(self.pieces(kind, place)) + ["(void)value;"]
        return [f'text("#"), natural({self.index(kind, place)});', *self.switch(kind, place, self.sequence)]

    def dump_list(self, kind):
        element = ("tuple", kind[1:3]) if kind[0] == "map" else kind[1]
        owned = self.row("[", "]", "i", "value->count", self.dump(element, "value->items[i]", 1))
        if kind[-1] is not None:
            return owned
        name = self.name(kind)
        inner = [f'if (count++) text(",");', *self.dump(element, "item", 1)]
        return [
            *["if (value->items) {", *owned, "} else {", f"postcard_reader reader = {name}_reader(value);", "size_t count = 0;"],
            *[f"{self.declared(element, 'item')};", 'text("[");', f"while ({name}_next(&reader, &item)) {{", *inner, "}"],
            *["if (count != value->count || reader.status || reader.at != reader.size) abort();", 'text("]");', "}"],
        ]

    def thaw(self, kind, place, level=0):
        """Returns the statements that replace each list that was read by its elements."""
        kind = self.oracle.plain(kind)
        what = kind[0]
        if what == "option":
            inner = self.thaw(kind[1], f"{place}.value", level)
            return [f"if ({place}.some) {{", *inner, "}"] if inner else []
        if what == "array":
            inner = [] if self.is_empty(kind) else self.thaw(kind[1], f"{place}[i{level}]", level + 1)
            return [f"for (size_t i{level} = 0; i{level} < {kind[2]}; i{level}++) {{", *inner, "}"] if inner else []
        if what == "tuple":
            return [line for each, it in self.pieces(kind, place) for line in self.thaw(each, it, level)]
        return [f"thaw_{self.name(kind)}(&{place});"] if what in ("list", "map", "result", "named") else []

    def thaw_body(self, kind):
        place = "(*value)"
        if kind[0] in ("list", "map"):
            return self.thaw_list(kind)
        if kind[0] != "result" and self.oracle.declared[kind[1]].kind == "struct":
            return [line for each, it in self.pieces(kind, place) for line in self.thaw(each, it)] + ["(void)value;"]
        return self.switch(kind, place, lambda pieces: [line for each, it in pieces for line in self.thaw(each, it)])

    def thaw_list(self, kind):
        element = ("tuple", kind[1:3]) if kind[0] == "map" else kind[1]
        if kind[-1] is not None:
            inner = self.thaw(element, "value->items[i]", 1)
            return ["for (size_t i = 0; i < value->count; i++) {", *inner, "}"]
        pointer = self.declared(element, "(*all)" if element[0] == "array" else "*all")
        return [
            *["if (value->items || value->count == 0) return;", f"{pointer};", "all = room(value->count * sizeof *all);"],
            *[f"postcard_reader reader = {self.name(kind)}_reader(value);", "size_t count = 0;"],
            f"while ({self.name(kind)}_next(&reader, &all[count])) {{",
            *[*self.thaw(element, "all[count]", 1), "if (++count == value->count) break;", "}"],
            *["value->items = (void *)all;", "value->encoded.bytes = NULL, value->encoded.size = 0;"],
        ]
