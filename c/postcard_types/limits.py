"""How long a type is and how deep it nests, with declared names replaced. A type in brackets, in `<` and `>`, in the fields of a struct or
the variants of an enum is one level below, and the content of a declared enum two. The program `pcard` has the same limits.
"""
from .syntax import Choice, Count, Entries, Fields, Group, Maybe, Path, Sequence
from .tokens import text_at

MAX_DEPTH, MAX_WORDS = 64, 65_536


def words_of(file, name, known=None):
    """Returns how many words and signs the type has that a declaration declares. No type has itself in it. `known` has the numbers of
    other names."""
    known = {} if known is None else known
    if name not in known:
        declaration, count, is_discriminant = file.declared[name], 0, False
        for at in range(declaration.start, declaration.end):
            token, is_enum = file.tokens[at], declaration.kind == "enum"
            if is_enum and token.depth == 1 and token.text in (",", "="):
                is_discriminant = token.text == "="
            is_member = text_at(file.tokens, at + 1) == ":" or is_enum and (token.depth == 1 or is_discriminant)
            count += words_of(file, token.text, known) if token.text in file.declared and not is_member else 1
        known[name] = count
    return known[name]


def height_of(items, name, known=None):
    """Returns the levels of the type that a declaration declares. No type has itself in it. `known` has the levels of other names."""
    known = {} if known is None else known
    if name not in known:
        item = items[name]
        within = height(items, item.body, known)
        known[name] = within + (item.kind != "struct")
    return known[name]


def height(items, part, known):
    """Returns the levels of a part of a declaration."""
    if isinstance(part, Path) and part.token.text in items and not part.arguments:
        return height_of(items, part.token.text, known)
    if isinstance(part, Maybe):
        return height(items, part.content, known)
    return 1 + max((height(items, each, known) for each in inner(part)), default=0)


def inner(part):
    """Returns the parts that are a level below a part."""
    if isinstance(part, Path):
        return [each for each in part.arguments if not isinstance(each, Count)]
    if isinstance(part, Sequence):
        return [part.element]
    if isinstance(part, Group):
        return part.parts
    if isinstance(part, Entries):
        return [part.key, part.value]
    if isinstance(part, Fields):
        return [field.kind for field in part.fields]
    assert isinstance(part, Choice)
    return [field.kind for variant in part.variants for field in variant.content.fields]
