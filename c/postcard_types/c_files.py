"""The header and the source of C for the types of a file."""
from .c_functions import HELPERS, Functions
from .c_names import Names
from .c_types import Types, comment, has_struct
from .model import MOST, Bytes, List_, Named, Text
from .tokens import Refused

ABOUT = """/* Messages of {}, as structs of C99 and C++. Written by `pcard c`: don't edit it, but write it again.
 *
 * Each call returns 0 or a status of postcard.h. Of a type T,
 *   - T_put and T_get write and read a value among others, and T_encode and T_decode a whole message, after which nothing may follow;
 *   - T_encode sets *count to the size that the message needs, also where it has no room and fails with POSTCARD_BUFFER_FULL;
 *   - T_frame writes the message as a frame, its zero included, and takes T_MAX_SIZE bytes of stack;
 *   - T_MAX_SIZE and T_FRAME_SIZE are the bytes of the longest message and frame;
 *   - of a list without a capacity, T_reader and T_next give the elements that were read one by one. They are lent as `encoded`, and
 *     `items` is NULL. To write a list, set `items`, or leave both as they were read.
 *
 * Writing fails with POSTCARD_BAD_VALUE if a tag, a count or a size is none of the type. A `postcard_slice` that was read lies in the
 * message. After a failure a struct is read in part; its counts, flags and tags have a value. */"""
BEGIN_CPP = ["#ifdef __cplusplus", 'extern "C" {', "#endif", ""]
END_CPP = ["#ifdef __cplusplus", "}", "#endif"]


class Files:
    """Writes the header and the source. `source_name` is the name of the file of declarations, and `stem` that of the two files."""

    def __init__(self, model, source_name, stem, prefix):
        self.model, self.source_name, self.stem, self.prefix = model, source_name, stem, prefix
        self.names = Names(model, prefix, stem)
        self.types = Types(model, self.names)
        self.functions = Functions(model, self.types)
        self.structs = [kind for kind in model.order if has_struct(kind)]

    def place(self, kind):
        """Returns where a type is declared, or the first line for one without a declaration."""
        return self.model.definitions[kind].place if isinstance(kind, Named) else (1, 1)

    def is_top(self, kind):
        """Whether a type has a name in the file, and so functions for whole messages."""
        return isinstance(kind, Named) or kind in self.model.alias_of

    def has_functions(self, kind):
        return not isinstance(kind, (Text, Bytes))

    def take_names(self):
        """Refuses two declarations with the same name in C."""
        for kind in self.structs:
            name, place = self.names.of(kind), self.place(kind)
            self.names.take(name, place)
            ends = ["put", "get"] * self.has_functions(kind)
            ends += ["next", "reader"] * isinstance(kind, List_)
            ends += ["encode", "decode", "frame", "MAX_SIZE", "FRAME_SIZE"] * (self.is_top(kind) and self.has_functions(kind))
            for end in ends:
                self.names.take(f"{name}_{end}", place)

    def header(self):
        """Returns the text of the header."""
        self.take_names()
        guard = f"{self.prefix}{self.stem}_H".upper()
        lines = [
            *ABOUT.format(self.source_name).split("\n"),
            *[f"#ifndef {guard}", f"#define {guard}", '#include "postcard.h"', *BEGIN_CPP],
        ]
        instances = {kind.name for kind in self.model.definitions if kind.arguments}
        for name in self.model.skipped:
            if name not in instances:
                lines += [f"/* {name} has parameters, and no type of the file says what they are: declare `type Name = {name}<..>;`. */", ""]
        for kind in self.structs:
            lines += self.declarations(kind) + [""]
        lines += self.aliases()
        return "\n".join([*lines, *END_CPP, "#endif"]) + "\n"

    def declarations(self, kind):
        """Returns the lines of the header for a type."""
        lines = self.types.declaration(kind)
        if not self.has_functions(kind):
            return lines
        lines += [f"{head};" for head in self.functions.heads(kind)]
        if isinstance(kind, List_) and kind.most is None:
            name = self.names.of(kind)
            lines += [
                f"{self.functions.head_of_next(kind)};",
                f"static inline postcard_reader {name}_reader(const {name} *value) {{",
                "    return postcard_reader_over(value->encoded.bytes, value->encoded.size);",
                "}",
            ]
        return lines + (self.whole(kind) if self.is_top(kind) else [])

    def whole(self, kind):
        """Returns the lines of the header for whole messages of a type."""
        name, most = self.names.of(kind), self.model.max_size(kind)
        if most is not None and most > MOST:
            raise Refused(self.place(kind), f"a message of this type has up to {most} bytes, which C can't hold")
        lines = [
            f"static inline postcard_status {name}_encode(const {name} *value, void *message, size_t size, size_t *count) {{",
            "    postcard_writer writer = postcard_writer_over(message, size);",
            f"    {name}_put(&writer, value);",
            "    *count = writer.needed;",
            "    return writer.status;",
            "}",
            f"static inline postcard_status {name}_decode({name} *value, const void *message, size_t size) {{",
            "    postcard_reader reader = postcard_reader_over(message, size);",
            f"    if ({name}_get(&reader, value) == POSTCARD_OK && reader.at != reader.size) reader.status = POSTCARD_NO_VALUE;",
            "    return reader.status;",
            "}",
        ]
        if most is None:
            return [f"/* {name} has no greatest size, since a text, a list or a map has no capacity. */", *lines]
        return [f"#define {name}_MAX_SIZE {most}u", *lines, *self.frame(name, most)]

    def frame(self, name, most):
        return [
            f"#define {name}_FRAME_SIZE POSTCARD_FRAME_SIZE({name}_MAX_SIZE)",
            f"static inline postcard_status {name}_frame(const {name} *value, uint8_t *frame, size_t size, size_t *count) {{",
            f"    uint8_t message[{max(most, 1)}];",
            "    size_t used = 0;",
            f"    postcard_status status = {name}_encode(value, message, sizeof message, &used);",
            "    return status == POSTCARD_OK ? postcard_cobs_encode(message, used, frame, size, count) : status;",
            "}",
        ]

    def aliases(self):
        """Returns other names of types."""
        lines = []
        for name, kind, docs, place in self.model.aliases:
            if self.types.is_empty(kind) or has_struct(kind) and self.names.of(kind) == self.names.top(name):
                continue
            self.names.take(self.names.top(name), place)
            lines += [*comment(docs), f"typedef {self.types.declared(kind, self.names.top(name))};"]
        return lines + ([""] if lines else [])

    def source(self):
        """Returns the text of the source."""
        functions = [line for kind in self.structs if self.has_functions(kind) for line in self.functions.definitions(kind)]
        text = "\n".join(functions)
        helpers = ""
        for name, helper in reversed(list(HELPERS.items())):
            if name in text or name in helpers:
                helpers = helper + helpers
        head = f"/* Messages of {self.source_name}. Written by `pcard c`: don't edit it, but write it again. */\n"
        return f'{head}#include "{self.stem}.h"\n{helpers}\n{text}'.rstrip("\n") + "\n"
