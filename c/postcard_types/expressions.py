"""A type as an expression of the program `pcard`, in which every name is replaced: `{id: u32, label: str}`."""
from .model import UNIT, Array, Bytes, List_, Number, Option, Result, Scalar, Text, Tuple_


def expression(model, kind):
    """Returns the expression of a type. Capacities, and that a number isn't 0, have no expression."""

    def of(inner):
        return expression(model, inner)

    if isinstance(kind, Number):
        return f"{kind.order.upper()}<{kind.name}>" if kind.order else kind.name
    if isinstance(kind, Scalar):
        return "()" if kind == UNIT else kind.name
    if isinstance(kind, (Text, Bytes)):
        return "str" if isinstance(kind, Text) else "bytes" if kind.is_string else "[u8]"
    if isinstance(kind, Option):
        return f"Option<{of(kind.content)}>"
    if isinstance(kind, List_):
        return f"{{{of(kind.element.parts[0])} => {of(kind.element.parts[1])}}}" if kind.is_map else f"[{of(kind.element)}]"
    if isinstance(kind, Array):
        return f"[{of(kind.element)}; {kind.count}]"
    if isinstance(kind, Tuple_):
        return f"({', '.join(map(of, kind.parts))}{',' if len(kind.parts) == 1 else ''})"
    if isinstance(kind, Result):
        return f"Result<{of(kind.ok)}, {of(kind.err)}>"
    definition = model.definitions[kind]
    if definition.is_struct:
        return content(definition.style, definition.members, of) or "()"
    return f"(| {' | '.join(case.name + content(case.style, case.members, of) for case in definition.cases)})"


def content(style, members, of):
    """Returns the expression of the fields of a struct or a variant, or nothing if there are none."""
    if style == "named":
        return f"{{{', '.join(f'{member.name}: {of(member.kind)}' for member in members)}}}"
    return f"({', '.join(of(member.kind) for member in members)})" if members else ""
