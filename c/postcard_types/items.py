"""Reading declarations and types. A type is written as in Rust, or as an expression of the program `pcard`, as `[u8]`, `{u8 => bool}`,
`u32?` or `Boot | Fault(u8)`.
"""
from .declarations import number_of
from .limits import MAX_DEPTH
from .syntax import Choice, Count, Entries, Field, Fields, Group, Item, Maybe, Path, Sequence, Variant
from .tokens import Refused, Token

MAX_OPTIONS = 4
# Words that begin a type of Rust without messages.
UNWRITTEN = frozenset(("dyn", "impl", "fn", "unsafe", "extern"))


class Cursor:
    """The tokens of a declaration and how far they are read."""

    def __init__(self, file, declaration):
        self.file, self.at, self.end = file, declaration.start, declaration.end

    @property
    def token(self):
        """The token here, or an empty one at the end."""
        return self.file.tokens[self.at] if self.at < self.end else Token("", self.file.place(self.at), 0)

    def ahead(self, count):
        return self.file.tokens[self.at + count].text if self.at + count < self.end else ""

    def refuse(self, what, token=None):
        raise Refused((token or self.token).place, what)

    def next(self):
        """Returns the token here, and goes on after it."""
        token = self.token
        self.at += 1
        return token

    def take(self, sign):
        if self.at >= self.end or self.token.text != sign:
            return False
        self.at += 1
        return True

    def expect(self, sign, what=None):
        if not self.take(sign):
            self.refuse(what or f"expected `{sign}`")

    def skip_to(self, *signs):
        """Goes to the next of these signs that is outside of brackets, or to the end."""
        while self.at < self.end and not (self.token.depth == 0 and self.token.text in signs):
            self.at += 1


def item_of(file, declaration):
    """Returns the parts of a declaration."""
    cursor, name = Cursor(file, declaration), declaration.name
    parameters = read_parameters(cursor)
    if parameters and cursor.token.text == "where":
        cursor.skip_to("{", ";")
    body = {"struct": read_struct, "enum": read_enum, "type": read_alias}[declaration.kind](cursor, bool(parameters))
    return Item(declaration.kind, name.text, name, parameters, name.docs, name.attributes, body)


def read_parameters(cursor):
    """Reads the type parameters after the name of a declaration, as `<T: Copy, U = u8>`."""
    parameters, opening = [], cursor.token
    if not cursor.take("<"):
        return parameters
    depth, begins = 1, True
    while depth:
        token = cursor.next()
        if not token.text:
            cursor.refuse("this declaration doesn't end", opening)
        depth += {"<": 1, ">": -1}.get(token.text, 0)
        if depth == 1 and token.text == "const":
            cursor.refuse("a parameter can't be a number", token)
        if depth == 1 and begins and token.is_name:
            parameters.append(token.text)
        begins = depth == 1 and token.text == ","
    return parameters


def read_struct(cursor, has_parameters):
    fields = read_content(cursor, MAX_DEPTH - 1)
    if fields.style == "unit" and fields.token.text not in (";", "{", "("):
        cursor.refuse("expected `{`, `(` or `;`", fields.token)
    if fields.token.text != "{":
        if cursor.token.text == "where" and has_parameters:
            cursor.skip_to(";")
        cursor.expect(";")
    return fields


def read_enum(cursor, _):
    opening, variants = cursor.token, []
    cursor.expect("{")
    if cursor.token.text == "}":
        cursor.refuse("an enum without variants has no values")
    while not cursor.take("}"):
        variants.append(read_variant(cursor, variants, MAX_DEPTH - 2))
        if cursor.take("="):
            while cursor.token.text and not (cursor.token.depth == 1 and cursor.token.text == "," or cursor.token.depth == 0):
                cursor.at += 1
        if cursor.token.text != "}":
            cursor.expect(",", "expected `,` or `}`")
    return Choice(opening, variants)


def read_alias(cursor, _):
    cursor.expect("=")
    kind = read_type(cursor, MAX_DEPTH - 1)
    cursor.expect(";")
    return kind


def name_of_part(cursor):
    """Returns the token where the name of a field or a variant must stand. Its letters are those of ASCII."""
    if not cursor.token.text.isascii():
        cursor.refuse("expected a letter of ASCII, a digit or `_`")
    return cursor.token


def read_variant(cursor, before, depth):
    """Reads a variant after others."""
    name = name_of_part(cursor)
    if not name.is_name or not name.text[0].isupper():
        cursor.refuse("expected the name of a variant")
    if any(variant.name == name.text for variant in before):
        cursor.refuse("this name was used before")
    cursor.next()
    return Variant(name, name.text, name.docs, name.attributes, read_content(cursor, depth))


def read_content(cursor, depth):
    """Reads the fields of a struct or a variant, if there are any."""
    opening = cursor.token
    if cursor.take("{"):
        fields = read_fields(cursor, depth)
    elif cursor.take("("):
        fields = read_parts(cursor, depth)
    else:
        fields = []
    style = {"{": "named", "(": "tuple"}.get(opening.text, "unit")
    return Fields(opening, style if fields else "unit", fields)


def read_fields(cursor, depth):
    """Reads `name: T, ..` up to the `}`."""
    fields = []
    while not cursor.take("}"):
        name = name_of_part(cursor)
        if not name.is_name:
            cursor.refuse("expected the name of a field")
        if any(field.name == name.text for field in fields):
            cursor.refuse("this name was used before")
        cursor.next()
        cursor.expect(":")
        fields.append(Field(name, name.text, read_type(cursor, depth), name.docs, name.attributes))
        if cursor.token.text != "}":
            cursor.expect(",", "expected `,` or `}`")
    return fields


def read_parts(cursor, depth):
    """Reads `T, ..` up to the `)`."""
    fields = []
    while not cursor.take(")"):
        first = cursor.token
        fields.append(Field(first, str(len(fields)), read_type(cursor, depth), first.docs, first.attributes))
        if cursor.token.text != ")":
            cursor.expect(",", "expected `,` or `)`")
    return fields


def begins_choice(cursor):
    """Returns whether an enum comes next: `|`, or a capital word and then `|`, `(` or `{`."""
    word = cursor.token.text
    return word == "|" or cursor.token.is_name and word[0].isupper() and cursor.ahead(1) in ("|", "(", "{")


def read_type(cursor, depth):
    """Reads a type that may have `depth` levels, itself included."""
    first = cursor.token
    if depth <= 0:
        cursor.refuse("nested too deeply")
    if begins_choice(cursor):
        return read_choice(cursor, depth - 1)
    while cursor.take("&"):
        if cursor.token.text == "mut":
            cursor.refuse("`&mut`: values of this type aren't written and read")
    kind = read_plain(cursor, depth - 1)
    for _ in range(MAX_OPTIONS):
        if not cursor.take("?"):
            return kind
        kind = Maybe(first, kind)
    if cursor.token.text == "?":
        cursor.refuse("nested too deeply")
    return kind


def read_choice(cursor, depth):
    """Reads the variants of an enum without a name."""
    first, variants = cursor.token, []
    leads = cursor.take("|")
    while True:
        if cursor.token.text in cursor.file.declared:
            cursor.refuse("expected the name of a variant")
        variants.append(read_variant(cursor, variants, depth))
        if cursor.take("|"):
            continue
        if len(variants) == 1 and not leads:
            cursor.refuse(f"`{first.text}`: no declaration of this file, and no type that is known", first)
        return Choice(first, variants)


def read_plain(cursor, depth):
    """Reads a type that is no enum, without the `&` before it and the `?` after it."""
    first = cursor.token
    if cursor.take("["):
        return read_sequence(cursor, first, depth)
    if cursor.take("("):
        return read_group(cursor, first, depth)
    if cursor.take("{"):
        return read_braces(cursor, first, depth)
    if not first.is_name:
        cursor.refuse("expected a type")
    if first.text in UNWRITTEN:
        cursor.refuse(f"`{first.text}`: values of this type aren't written and read")
    cursor.next()
    return Path(first, read_arguments(cursor, depth) if cursor.take("<") else [])


def read_sequence(cursor, first, depth):
    element = read_type(cursor, depth)
    count = read_count(cursor) if cursor.take(";") else None
    cursor.expect("]", "expected `;` or `]`" if count is None else None)
    return Sequence(first, element, count)


def read_group(cursor, first, depth):
    """Reads a tuple after its `(`. A single type without `,` is that type."""
    parts = []
    while not cursor.take(")"):
        parts.append(read_type(cursor, depth))
        if cursor.token.text != ")":
            cursor.expect(",", "expected `,` or `)`")
        elif len(parts) == 1:
            cursor.next()
            return Group(first, parts) if cursor.file.tokens[cursor.at - 2].text == "," else parts[0]
    return Group(first, parts)


def read_braces(cursor, first, depth):
    """Reads a struct without a name, or a map, after its `{`. It is a struct if a word and `:` come first."""
    if cursor.token.text == "}":
        cursor.next()
        return Group(first, [])
    if cursor.ahead(1) == ":":
        return Fields(first, "named", read_fields(cursor, depth))
    key = read_type(cursor, depth)
    cursor.expect("=", "expected `:`")
    cursor.expect(">", "expected `=>`")
    value = read_type(cursor, depth)
    cursor.expect("}")
    return Entries(first, key, value)


def read_arguments(cursor, depth):
    """Reads the arguments of a type after their `<`."""
    arguments = []
    while True:
        first = cursor.token
        if cursor.take("{"):
            arguments.append(Count(first, read_count(cursor)))
            cursor.expect("}")
        elif first.text[:1].isdigit() or first.text in cursor.file.constants and first.text not in cursor.file.declared:
            arguments.append(Count(first, read_count(cursor)))
        else:
            arguments.append(read_type(cursor, depth))
        if cursor.take(">"):
            return arguments
        cursor.expect(",", "expected `,` or `>`")


def read_count(cursor):
    """Reads a number, or a constant of the file that is one."""
    token = cursor.token
    number = number_of(token.text) if token.text[:1].isdigit() else cursor.file.constants.get(token.text)
    if number is None or cursor.ahead(1) not in ("]", ">", ",", "}"):
        cursor.refuse(f"`{token.text}`: expected a number, or a constant of this file that is one")
    cursor.next()
    return number
