"""The functions that write and read a type in C: the bodies of its `_put`, `_get` and `_next`.

A *place* is an expression of C for a value: `value->field`, or `*value` for what a pointer points to. After a failure every later call
does nothing, so a body tests the status only where it would loop. Reading gives each count and flag a value before it can fail, so a
struct that was read in part may be walked.
"""
from .c_names import size_type
from .c_types import is_lent, is_newtype
from .model import BYTE, Array, Bytes, List_, Named, Number, Option, Result, Scalar, Text, Tuple_

# Functions that a source has if it uses them, in this order.
HELPERS = {
    "bad_value_(": """
/* Fails since a value is none of its type. */
static void bad_value_(postcard_writer *writer) {
    if (writer->status == POSTCARD_OK) writer->status = POSTCARD_BAD_VALUE;
}
""",
    "bad_message_(": """
/* Fails since what begins at a place is no value of the type. */
static void bad_message_(postcard_reader *reader, size_t start) {
    if (reader->status == POSTCARD_OK) reader->at = start, reader->status = POSTCARD_NO_VALUE;
}
""",
    "get_text_(": """
static size_t get_text_(postcard_reader *reader, char *text, size_t most) {
    postcard_slice found = {NULL, 0};
    size_t start = reader->at;
    if (postcard_get_str(reader, &found) == POSTCARD_OK && found.size > most) bad_message_(reader, start);
    if (reader->status != POSTCARD_OK) found.size = 0;
    if (found.size) memcpy(text, found.bytes, found.size);
    text[found.size] = 0;
    return found.size;
}
""",
    "get_bytes_(": """
static size_t get_bytes_(postcard_reader *reader, uint8_t *items, size_t most) {
    postcard_slice found = {NULL, 0};
    size_t start = reader->at;
    if (postcard_get_bytes(reader, &found) == POSTCARD_OK && found.size > most) bad_message_(reader, start);
    if (reader->status != POSTCARD_OK) found.size = 0;
    if (found.size) memcpy(items, found.bytes, found.size);
    return found.size;
}
""",
    "get_array_(": """
static void get_array_(postcard_reader *reader, uint8_t *items, size_t size) {
    postcard_slice found = {NULL, 0};
    memset(items, 0, size);
    if (postcard_get_raw(reader, size, &found) == POSTCARD_OK) memcpy(items, found.bytes, size);
}
""",
}


def part(place, name):
    return f"{place[1:]}->{name}" if place.startswith("*") else f"{place}.{name}"


def address(place):
    return place[1:] if place.startswith("*") else f"&{place}"


def element(place, index):
    return f"({place})[{index}]" if place.startswith("*") else f"{place}[{index}]"


def indented(lines):
    return [f"    {line}" for line in lines]


def block(head, lines):
    """Returns a statement with a block, or nothing if the block is empty."""
    return [f"{head} {{", *indented(lines), "}"] if lines else []


def suffix(number):
    """Returns the end of the names of the calls for a number. At full width 128 bits have no sign."""
    name = f"u{number.bits}" if number.order and number.bits == 128 else number.name
    return f"{name}_{number.order}" if number.order else name


class Functions:
    """Writes the functions of the types of a model."""

    def __init__(self, model, types):
        self.model, self.types, self.name = model, types, types.names.of

    def loop(self, kind, place, level, inner):
        """Returns a loop over the elements of an array, in which `inner` gives the lines of one."""
        index = f"i{level}"
        lines = inner(kind.element, element(place, index), level + 1)
        return block(f"for (size_t {index} = 0; {index} < {kind.count}u; {index}++)", lines)

    # Writing

    def put(self, kind, place, level=0):
        """Returns the lines that write the value at a place, inside of `level` loops."""
        if self.types.is_empty(kind):
            return []
        if isinstance(kind, Number):
            return self.put_number(kind, place)
        if isinstance(kind, Scalar):
            return [f"postcard_put_{kind.name}(writer, {place});"]
        if isinstance(kind, (Text, Bytes)):
            return self.put_bytes(kind, place)
        if isinstance(kind, Option):
            some = ["postcard_put_some(writer);", *self.put(kind.content, part(place, "value"), level)]
            return [f"if ({part(place, 'some')}) {{", *indented(some), "} else {", "    postcard_put_none(writer);", "}"]
        if isinstance(kind, Array):
            if kind.element == BYTE:
                return [f"postcard_put_raw(writer, {place}, {kind.count}u);"]
            return self.loop(kind, place, level, self.put)
        if isinstance(kind, Tuple_):
            return [line for index, each in enumerate(kind.parts) for line in self.put(each, part(place, f"_{index}"), level)]
        return [f"{self.name(kind)}_put(writer, {address(place)});"]

    def put_number(self, kind, place):
        is_wide = kind.bits == 128
        values = f"{part(place, 'low')}, {part(place, 'high')}" if is_wide else place
        zero = f"({part(place, 'low')} | {part(place, 'high')}) == 0" if is_wide else f"{place} == 0"
        check = [f"if ({zero}) bad_value_(writer);"] if kind.nonzero else []
        return [*check, f"postcard_put_{suffix(kind)}(writer, {values});"]

    def put_bytes(self, kind, place):
        """Returns the lines that write a text or bytes, which are lent or have a capacity."""
        call, content, size = ("str", "text", "size") if isinstance(kind, Text) else ("bytes", "items", "count")
        if is_lent(kind):
            cast = "(const char *)" if isinstance(kind, Text) else ""
            return [f"postcard_put_{call}(writer, {cast}{part(place, 'bytes')}, {part(place, 'size')});"]
        size = part(place, size)
        lines = [f"if ({size} > {kind.most}u) bad_value_(writer);", f"else postcard_put_{call}(writer, {part(place, content)}, {size});"]
        # A count that has no room for a greater number needs no check.
        return lines if kind.most + 1 not in (2**8, 2**16, 2**32) else [lines[1][5:]]

    def put_body(self, kind):
        """Returns the lines of the function that writes a type."""
        if isinstance(kind, List_):
            return self.put_list(kind)
        if isinstance(kind, Result):
            lines = ["postcard_put_variant(writer, value->is_ok ? 0u : 1u);"]
            ok, err = self.put(kind.ok, "value->as.ok"), self.put(kind.err, "value->as.err")
            return lines + block("if (value->is_ok)", ok) + block("if (!value->is_ok)", err)
        if isinstance(kind, Named) and not self.model.definitions[kind].is_struct:
            return self.put_enum(kind, self.model.definitions[kind])
        if isinstance(kind, Named):
            members = self.model.definitions[kind].members
            lines = [line for each in members for line in self.put(each.kind, f"value->{self.types.names.member(each.name)}")]
        else:
            lines = self.put(kind, "*value")
        return lines or ["(void)value;"]

    def put_list(self, kind):
        body = self.put(kind.element, "value->items[i]")
        loop = block("for (size_t i = 0; i < value->count; i++)", body)
        if kind.most is not None:
            check = [f"if (value->count > {kind.most}u) return bad_value_(writer), writer->status;"]
            return [*(check if kind.most + 1 not in (2**8, 2**16, 2**32) else []), "postcard_put_count(writer, value->count);", *loop]
        name = self.name(kind)
        again = [
            f"{self.types.declared(kind.element, 'item')};",
            "size_t read = 0;",
            f"postcard_reader reader = {name}_reader(value);",
            *block(f"for (; {name}_next(&reader, &item); read++)", self.put(kind.element, "item")),
            "if (read != value->count || reader.status != POSTCARD_OK) bad_value_(writer);",
            "return writer->status;",
        ]
        return ["postcard_put_count(writer, value->count);", *block("if (value->items == NULL)", again), *loop]

    def put_enum(self, kind, definition):
        tag = "*value" if definition.is_plain else "value->tag"
        count = len(definition.cases)
        lines = [f"if ((uint32_t){tag} >= {count}u) bad_value_(writer);", f"postcard_put_variant(writer, (uint32_t){tag});"]
        return lines + ([] if definition.is_plain else self.switch(kind, definition, self.put))

    def switch(self, kind, definition, inner):
        """Returns a switch over the variants, in which `inner` gives the lines of each part."""
        lines = ["switch (value->tag) {"]
        for case in definition.cases:
            content = f"value->as.{self.types.names.content(case.name)}"
            lines.append(f"    case {self.name(kind)}_{case.name}:")
            for each in case.members:
                place = content if is_newtype(case) else f"{content}.{self.types.names.member(each.name)}"
                lines += indented(indented(inner(each.kind, place)))
            lines.append("        break;")
        return [*lines, "}"]

    # Reading

    def get(self, kind, place, level=0):
        """Returns the lines that read a value to a place, inside of `level` loops."""
        if self.types.is_empty(kind):
            return []
        if isinstance(kind, Number):
            return self.get_number(kind, place)
        if isinstance(kind, Scalar):
            zero = "false" if kind.name == "bool" else "0"
            return [f"{place} = {zero};", f"postcard_get_{kind.name}(reader, {address(place)});"]
        if isinstance(kind, (Text, Bytes)):
            return self.get_bytes(kind, place)
        if isinstance(kind, Option):
            some = part(place, "some")
            inner = self.get(kind.content, part(place, "value"), level)
            return [f"{some} = false;", f"postcard_get_option(reader, &{some});", *block(f"if ({some})", inner)]
        if isinstance(kind, Array):
            if kind.element == BYTE:
                return [f"get_array_(reader, {place}, {kind.count}u);"]
            return self.loop(kind, place, level, self.get)
        if isinstance(kind, Tuple_):
            return [line for index, each in enumerate(kind.parts) for line in self.get(each, part(place, f"_{index}"), level)]
        return [f"{self.name(kind)}_get(reader, {address(place)});"]

    def get_number(self, kind, place):
        low, high = part(place, "low"), part(place, "high")
        is_wide = kind.bits == 128
        lines = [f"{low} = {high} = 0;" if is_wide else f"{place} = 0;"]
        lines.append(f"postcard_get_{suffix(kind)}(reader, {f'&{low}, &{high}' if is_wide else address(place)});")
        if not kind.nonzero:
            return lines
        zero = f"({low} | {high}) == 0" if is_wide else f"{place} == 0"
        return ["{", *indented(["size_t begin = reader->at;", *lines, f"if ({zero}) bad_message_(reader, begin);"]), "}"]

    def get_bytes(self, kind, place):
        """Returns the lines that read a text or bytes."""
        call = "str" if isinstance(kind, Text) else "bytes"
        if is_lent(kind):
            return [f"{part(place, 'bytes')} = NULL, {part(place, 'size')} = 0;", f"postcard_get_{call}(reader, {address(place)});"]
        cast = f"({size_type(kind.most)})"
        if isinstance(kind, Text):
            return [f"{part(place, 'size')} = {cast}get_text_(reader, {part(place, 'text')}, {kind.most}u);"]
        return [f"{part(place, 'count')} = {cast}get_bytes_(reader, {part(place, 'items')}, {kind.most}u);"]

    def get_body(self, kind):
        """Returns the lines of the function that reads a type."""
        if isinstance(kind, List_):
            return self.get_list(kind)
        if isinstance(kind, Result):
            ok, err = self.get(kind.ok, "value->as.ok"), self.get(kind.err, "value->as.err")
            lines = [*self.get_index(2), "value->is_ok = index == 0;"]
            return lines + block("if (value->is_ok)", ok) + block("if (!value->is_ok)", err)
        if isinstance(kind, Named) and not self.model.definitions[kind].is_struct:
            definition = self.model.definitions[kind]
            name = self.name(kind)
            if definition.is_plain:
                return [*self.get_index(len(definition.cases)), f"*value = ({name})index;"]
            lines = [*self.get_index(len(definition.cases)), f"value->tag = ({name}_tag)index;"]
            return lines + self.switch(kind, definition, self.get)
        if isinstance(kind, Named):
            members = self.model.definitions[kind].members
            lines = [line for each in members for line in self.get(each.kind, f"value->{self.types.names.member(each.name)}")]
        else:
            lines = self.get(kind, "*value")
        return lines or ["value->nothing_ = 0;"]

    def get_index(self, count):
        """Returns the lines that read the index of a variant. It is 0 after a failure."""
        read = ["uint32_t index = 0;", "size_t start = reader->at;", "postcard_get_variant(reader, &index);"]
        return [*read, f"if (index >= {count}u) index = 0, bad_message_(reader, start);"]

    def get_list(self, kind):
        inner = self.get(kind.element, "item" if kind.most is None else "value->items[i]")
        begin = ["size_t count = 0, start = reader->at;", "value->count = 0;"]
        loop = block("for (size_t i = 0; i < count && reader->status == POSTCARD_OK; i++)", inner)
        read = "if (postcard_get_count(reader, &count) != POSTCARD_OK) return reader->status;"
        if kind.most is not None:
            check = f"if (count > {kind.most}u) return bad_message_(reader, start), reader->status;"
            end = f"if (reader->status == POSTCARD_OK) value->count = ({size_type(kind.most)})count;"
            return [*begin, read, check, *loop, end]
        empty = "value->items = NULL, value->encoded.bytes = NULL, value->encoded.size = 0;"
        lent = "value->count = count, value->encoded.bytes = reader->bytes + start, value->encoded.size = reader->at - start;"
        item = f"{self.types.declared(kind.element, 'item')};"
        return [item, *begin, empty, read, "start = reader->at;", *loop, f"if (reader->status == POSTCARD_OK) {lent}"]

    # Whole functions

    def head_of_next(self, kind):
        return f"bool {self.name(kind)}_next(postcard_reader *reader, {self.types.pointer(kind.element, 'item')})"

    def heads(self, kind):
        """Returns the heads of the functions that write and read a type."""
        name = self.name(kind)
        put = f"postcard_status {name}_put(postcard_writer *writer, const {name} *value)"
        return [put, f"postcard_status {name}_get(postcard_reader *reader, {name} *value)"]

    def definitions(self, kind):
        """Returns the functions of a type."""
        put, get = self.heads(kind)
        lines = block(put, [*self.put_body(kind), "return writer->status;"]) + [""]
        lines += block(get, [*self.get_body(kind), "return reader->status;"]) + [""]
        if isinstance(kind, List_) and kind.most is None:
            check = "if (reader->status != POSTCARD_OK || reader->at >= reader->size) return false;"
            inner = self.get(kind.element, "*item")
            lines += block(self.head_of_next(kind), [check, *inner, "return reader->status == POSTCARD_OK;"]) + [""]
        return lines
