"""The module of Python for the types of a file: a dataclass for each struct and each variant, and an `IntEnum` for an enum whose variants
have no content.
"""
from . import c_names
from .model import BYTE, UNIT, Array, Bytes, List_, Number, Option, Result, Scalar, Text, Tuple_
from .python_names import Names, member, variant

HINTS = {"bool": "bool", "char": "str", "f32": "float", "f64": "float", "unit": "None"}
CODECS = {"bool": "_n.boolean", "char": "_n.char", "f32": "_n.f32", "f64": "_n.f64", "unit": "_n.unit"}
IMPORTS = '''
from __future__ import annotations

import enum as _enum
import importlib as _importlib
import typing as _t
from dataclasses import dataclass as _dataclass

if _t.TYPE_CHECKING or not __package__:
    import postcard_runtime as _p
    from postcard_runtime import containers as _c, numbers as _n
else:
    _p = _importlib.import_module(".postcard_runtime", __package__)
    _c, _n = _p.containers, _p.numbers
'''


def docstring(lines, indent):
    """Returns the comment of a declaration as a docstring, or nothing if there is none."""
    lines = [line.replace("\\", "\\\\").replace('"', "'") for line in lines]
    while lines and not lines[-1]:
        lines.pop()
    if not lines:
        return []
    body = [f"{indent}{line}".rstrip() for line in lines[1:]]
    return [f'{indent}"""{lines[0]}', *body, f'{indent}"""'] if body else [f'{indent}"""{lines[0]}"""']


class PythonFile:
    """Writes the module. `source_name` is the name of the file of declarations."""

    def __init__(self, model, source_name):
        self.model, self.source_name = model, source_name
        self.names = Names(model)
        self.spelled = c_names.Names(model, "", "").spelled

    def name(self, kind):
        return self.names.of(kind, self.spelled)

    def is_nested(self, content):
        """Whether `None` may be the content of an option."""
        return content == UNIT or isinstance(content, Option)

    def hint(self, kind):
        """Returns the type of a field as a hint."""
        if isinstance(kind, Number):
            return "int"
        if isinstance(kind, Scalar):
            return HINTS[kind.name]
        if isinstance(kind, Text):
            return "str"
        if isinstance(kind, Bytes) or isinstance(kind, Array) and kind.element == BYTE:
            return "bytes"
        if isinstance(kind, Option):
            return f"_t.Optional[{'_p.Some' if self.is_nested(kind.content) else self.hint(kind.content)}]"
        if isinstance(kind, (List_, Array)):
            return f"_t.List[{self.hint(kind.element)}]"
        if isinstance(kind, Tuple_):
            return f"_t.Tuple[{', '.join(map(self.hint, kind.parts))}]"
        return "_t.Union[_p.Ok, _p.Err]" if isinstance(kind, Result) else self.name(kind)

    def codec(self, kind):
        """Returns the codec of a type."""
        if isinstance(kind, Number):
            return self.number(kind)
        if isinstance(kind, Scalar):
            return CODECS[kind.name]
        if isinstance(kind, (Text, Bytes)):
            return f"_n.{'text' if isinstance(kind, Text) else 'data'}({kind.most})"
        if isinstance(kind, Option):
            return f"_c.option({self.codec(kind.content)}, {self.is_nested(kind.content)})"
        if isinstance(kind, List_):
            return f"_c.sequence({self.codec(kind.element)}, {kind.most})"
        if isinstance(kind, Array):
            return f"_c.byte_array({kind.count})" if kind.element == BYTE else f"_c.array({self.codec(kind.element)}, {kind.count})"
        if isinstance(kind, Tuple_):
            return f"_c.group({', '.join(map(self.codec, kind.parts))})"
        if isinstance(kind, Result):
            return f"_c.result({self.codec(kind.ok)}, {self.codec(kind.err)})"
        return f"{self.name(kind)}._codec"

    def number(self, kind):
        call = f"_n.{'signed' if kind.is_signed else 'unsigned'}({kind.bits})"
        if kind.order:
            call = f'_n.fixed({kind.bits // 8}, "{"little" if kind.order == "le" else "big"}", {kind.is_signed})'
        return f"_n.nonzero({call})" if kind.nonzero else call

    def dataclass(self, name, base, members, docs):
        """Returns the class of a struct or of a variant's content."""
        fields = {}
        for each in members:
            fields[member(each.name)] = each
            self.names.take(f"{name}.{member(each.name)}", each.place)
        slots = "".join(f'"{field}", ' for field in fields)
        lines = ["@_dataclass", f"class {name}({base}):", *docstring(docs, "    "), f"    __slots__ = ({slots.strip()})"]
        for field, each in fields.items():
            lines += [f"    # {line}" for line in each.docs if line]
            lines.append(f"    {field}: {self.hint(each.kind)}")
        return lines

    def record(self, name, members):
        """Returns the codec of a class with these fields."""
        names = [member(each.name) for each in members]
        return f"_c.record({', '.join([name, repr(names), *(self.codec(each.kind) for each in members)])})"

    def struct(self, name, definition):
        lines = self.dataclass(name, "_p.Message", definition.members, definition.docs)
        return [*lines, "", "", f"{name}._codec = {self.record(name, definition.members)}"]

    def plain_enum(self, name, definition):
        lines = [f"class {name}(_p.Message, _enum.IntEnum):", *docstring(definition.docs, "    ")]
        for index, case in enumerate(definition.cases):
            lines += [f"    # {line}" for line in case.docs if line] + [f"    {variant(case.name)} = {index}"]
        return [*lines, "", "", f"{name}._codec = _c.names({name})"]

    def enum(self, name, definition):
        """Returns the class of an enum and a class for each variant, which is also an attribute of the first."""
        classes = [f"{name}_{variant(case.name)}" for case in definition.cases]
        lines = [f"class {name}(_p.Message):", *docstring(definition.docs, "    "), "    __slots__ = ()"]
        lines += [f"    {variant(case.name)}: _t.ClassVar[_t.Type[{each}]]" for case, each in zip(definition.cases, classes)]
        for case, each in zip(definition.cases, classes):
            self.names.take(each, case.place)
            lines += ["", "", *self.dataclass(each, name, case.members, case.docs)]
        lines += ["", ""]
        for case, each in zip(definition.cases, classes):
            lines += [f"{name}.{variant(case.name)} = {each}", f'{each}.__qualname__ = "{name}.{variant(case.name)}"']
        records = [f"    {self.record(each, case.members)}," for case, each in zip(definition.cases, classes)]
        return [*lines, f"{name}._codec = _c.variants([{', '.join(classes)}], [", *records, "])"]

    def definition(self, kind):
        """Returns the lines of a struct or an enum."""
        definition, name = self.model.definitions[kind], self.name(kind)
        self.names.take(name, definition.place)
        if definition.is_struct:
            return self.struct(name, definition)
        return self.plain_enum(name, definition) if definition.is_plain else self.enum(name, definition)

    def text(self):
        """Returns the text of the module."""
        lines = [f'"""Messages of {self.source_name}. Written by `pcard python`: don\'t edit it, but write it again."""{IMPORTS}']
        for kind in self.model.order:
            if kind in self.model.definitions:
                lines += ["", *self.definition(kind), ""]
        for name, kind, docs, place in self.model.aliases:
            if kind in self.model.definitions and self.name(kind) == self.names.top(name):
                continue
            self.names.take(self.names.top(name), place)
            lines += ["", *[f"# {line}" for line in docs if line], f"{self.names.top(name)} = {self.hint(kind)}"]
        return "\n".join(lines).rstrip("\n") + "\n"
