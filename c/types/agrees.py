"""agrees.py [PCARD]: requires that the types of declarations are those that `@FILE:NAME` of pcard has for them.

The rows of crates/test_source/src/declarations.rt say what `@FILE:NAME` accepts, as what type, and what it refuses where. With the
program PCARD, each type that a file of c/types or of crates/test_pcard/data declares is compared too: both must accept it or refuse
it, and print the same for the same bytes by the name as by the expression.
"""
import ast
import glob
import os
import random
import re
import subprocess
import sys

HERE = os.path.dirname(os.path.abspath(__file__))
ROOT = os.path.dirname(os.path.dirname(HERE))
sys.path.insert(0, os.path.join(ROOT, "c"))

from postcard_types.concrete import model_of  # noqa: E402
from postcard_types.declarations import File  # noqa: E402
from postcard_types.expressions import expression  # noqa: E402
from postcard_types.model import (  # noqa: E402
    UNIT, Array, Bytes, List_, Named, Number, Option, Result, Scalar, Text, Tuple_, varint_size,
)
from postcard_types.tokens import Refused  # noqa: E402

# Types of the files of c/types that `@FILE:NAME` refuses, for what MORE has, and those of which it doesn't read an attribute.
REFUSED_THERE = {
    "capacity.rs": set("Packet Name Event".split()),
    "forms.rs": set("""NonZeros Counted Capacities Lists Arrays Owners Results Shape Holder Request HolderByte RequestShort Generics Unused Same
        Aliases""".split()),
    "sensor.rs": set("Info Log Arg Settings Answer Fault Message".split()),
}
OTHER_THERE = {"forms.rs": {"Widths"}, "sensor.rs": {"Chunk"}}

# The refusal of pcard for which this package has no row: it takes capacities, and refuses other parameters elsewhere.
PARAMETER = "a parameter such as a capacity isn't supported"

# The longest expression or HEX that is given to the program as a word.
MOST_WRITTEN = 100_000

LITERAL = r'"(?:\\.|[^"\\])*"'
ROW = re.compile(rf"\(\s*({LITERAL}|LONG_FILE),\s*({LITERAL}),\s*({LITERAL}),?\s*\)", re.S)
# Declarations that only one of both takes: a file, a name, and why. The first list is of those that this package takes.
MORE = [
    ("struct A { b: B<u8> } struct B<T>(T);", "A", "a generic type made concrete"),
    ("struct A(heapless::Vec<u8, 4>);", "A", "a capacity"),
    ("const N: usize = 4; struct A([u8; N]);", "A", "a constant as a count"),
    ("struct A(NonZeroU8);", "A", "a number without 0"),
    ("struct A(Rc<str>, BTreeSet<u8>, PhantomData<u8>);", "A", "other types of Rust"),
]
LESS = [
    ("struct A { #[serde(skip)] b: u8 }", "A", "an attribute that changes the message"),
    ('struct A { #[serde(with = "module")] b: u8 }', "A", "the same"),
    ('#[serde(untagged)] enum A { B }', "A", "the same"),
    ('enum A { B, #[serde(other)] C }', "A", "the same"),
    ('struct A { #[cfg(feature = "b")] b: u8 }', "A", "a field that a build may leave out"),
    ("#[derive(Serialize_repr)] enum A { B }", "A", "another derive than serde's"),
    ("struct A([u8; 4294967296]);", "A", "a count that C can't have"),
]


def unescaped(literal):
    """Returns the text of a literal of Rust."""
    joined = re.sub(r"\\\n\s*", "", literal)
    return ast.literal_eval(re.sub(r"\\u\{([0-9a-f]+)\}", lambda it: f"\\u{it[1]:0>4}", joined).replace("\n", "\\n"))


def rows(table):
    """Returns the rows of a table of declarations.rt: the file, the name and the type or the error."""
    with open(os.path.join(ROOT, "crates/test_source/src/declarations.rt"), encoding="utf-8") as it:
        text = it.read()
    long_file = re.search(rf"const LONG_FILE: &str = ({LITERAL});", text, re.S)[1]
    content = re.search(rf"const {table}: \[Row; (\d+)\] = \[(.*?)\n\];", text, re.S)
    found = [[unescaped(long_file if it == "LONG_FILE" else it) for it in row] for row in ROW.findall(content[2])]
    assert len(found) == int(content[1]), (table, len(found))
    return found


def shown(model, kind):
    """Returns a type as the test prints its schema."""

    def of(inner):
        return shown(model, inner)

    if isinstance(kind, Number):
        order = {"le": "Little", "be": "Big"}.get(kind.order)
        return f"Leaf(Fixed({order}, {kind.name.upper()}))" if order else f"Leaf(Integer({kind.name.upper()}))"
    if kind == UNIT:
        return "Tuple([])"
    if isinstance(kind, Scalar) and kind.name in ("f32", "f64"):
        return f"Leaf(Float({kind.name.upper()}))"
    if isinstance(kind, (Scalar, Text)):
        return f"Leaf({'Str' if isinstance(kind, Text) else kind.name.capitalize()})"
    if isinstance(kind, Bytes):
        return "Leaf(Bytes)" if kind.is_string else "Seq(Leaf(Integer(U8)))"
    if isinstance(kind, Option):
        return f"Option({of(kind.content)})"
    if isinstance(kind, List_):
        return f"Map({', '.join(map(of, kind.element.parts))})" if kind.is_map else f"Seq({of(kind.element)})"
    if isinstance(kind, Array):
        return f"Array({of(kind.element)}, {kind.count})"
    if isinstance(kind, Tuple_):
        return f"Tuple([{', '.join(map(of, kind.parts))}])"
    if isinstance(kind, Result):
        return f"Enum([{named('Ok', of(kind.ok))}, {named('Err', of(kind.err))}])"
    definition = model.definitions[kind]
    if definition.is_struct:
        return fields(definition.style, definition.members, of)
    return f"Enum([{', '.join(named(it.name, fields(it.style, it.members, of)) for it in definition.cases)}])"


def named(name, content):
    """Returns a field or a variant as the test prints it."""
    return f'Named {{ name: "{name}", content: {content} }}'


def fields(style, members, of):
    """Returns the fields of a struct or a variant as the test prints them. One field without a name is what it has."""
    if style == "tuple" and len(members) == 1:
        return of(members[0].kind)
    if style == "named" and members:
        return f"Struct([{', '.join(named(it.name, of(it.kind)) for it in members)}])"
    return f"Tuple([{', '.join(of(it.kind) for it in members)}])"


def type_of(text, name):
    """Returns the model of a name and its type, or the error as it is printed."""
    try:
        file = File(text)
        model = model_of(file, [name])
    except Refused as problem:
        return None, f"line {problem.line}, column {problem.column}: {problem}"
    alias = next((kind for alias, kind, _, _ in model.aliases if alias == name), None)
    return model, Named(name) if alias is None else alias


def refusals():
    """Returns the rows that both refuse at one place."""
    return [row for row in rows("REFUSED") if not row[2].endswith(PARAMETER)]


def check_rows():
    """Returns the differences from the rows of declarations.rt: in the type, or in the place of an error."""
    wrong = []
    for text, name, wanted in rows("TYPES"):
        model, found = type_of(text, name)
        printed = shown(model, found) if model else found
        if printed != wanted:
            wrong.append(f"{text!r}: {printed}, and not {wanted}")
    for text, name, wanted in refusals():
        model, found = type_of(text, name)
        if model or found.split(":")[0] != wanted.split(":")[0]:
            wrong.append(f"{text!r}: {'accepted' if model else found}, and not {wanted}")
    for text, name, why in MORE:
        if type_of(text, name)[0] is None:
            wrong.append(f"{text!r} is refused, though it has {why}: {type_of(text, name)[1]}")
    for text, name, why in LESS:
        if type_of(text, name)[0] is not None:
            wrong.append(f"{text!r} is accepted, though it has {why}")
    return wrong


def message(model, kind, chance):
    """Returns a message of a type, with values by chance."""
    if isinstance(kind, Number):
        size = kind.bits // 8
        return chance.randbytes(size) if kind.order or size == 1 else bytes([chance.randrange(128)])
    if isinstance(kind, Scalar):
        return {"unit": b"", "bool": bytes([chance.randrange(2)]), "char": b"\1x", "f32": b"\0\0\xc0\x3f"}.get(kind.name, bytes(8))
    if isinstance(kind, (Text, Bytes)):
        return b"\2ab"
    if isinstance(kind, Option):
        return b"\1" + message(model, kind.content, chance) if chance.randrange(3) else b"\0"
    if isinstance(kind, List_):
        count = chance.randrange(3)
        return bytes([count]) + b"".join(message(model, kind.element, chance) for _ in range(count))
    if isinstance(kind, Array):
        return b"".join(message(model, kind.element, chance) for _ in range(kind.count))
    if isinstance(kind, Result):
        index = chance.randrange(2)
        return bytes([index]) + message(model, kind.err if index else kind.ok, chance)
    if isinstance(kind, Tuple_) or model.definitions[kind].is_struct:
        return b"".join(message(model, part, chance) for part in model.parts(kind))
    cases = model.definitions[kind].cases
    index = chance.randrange(len(cases))
    prefix = bytes([index]) if varint_size(index) == 1 else bytes([index & 127 | 128, index >> 7])
    return prefix + b"".join(message(model, it.kind, chance) for it in cases[index].members)


def call(program, *words):
    """Returns the status of a call of pcard, and what it prints."""
    done = subprocess.run([program, *words], capture_output=True, text=True, check=False)
    return done.returncode, done.stdout + done.stderr.partition("; ./pcard --build proves it\n")[2]


def difference(program, file, name, chance):
    """Returns what a type of a file is here and isn't for the program, or nothing."""
    base = os.path.basename(file)
    with open(file, "rb") as it:
        content = it.read()
    try:
        model, found = type_of(content.decode(), name)
    except UnicodeDecodeError:
        model, found = None, "the file is not UTF-8"
    status, said = call(program, "size", f"@{file}:{name}")
    if (status == 0) != (model is not None and name not in REFUSED_THERE.get(base, ())):
        return f"{file}: {name}: {said.strip()}, and here {'accepted' if model else found}"
    written = f"({expression(model, found)})" if model else ""
    hexes = "".join(message(model, found, chance).hex() for _ in range(8)) if model else ""
    if status or max(len(written), len(hexes)) > MOST_WRITTEN:
        return ""
    command = "decs" if model.min_size(found) else "dec"
    is_same = call(program, command, f"@{file}:{name}", hexes) == call(program, command, written, hexes)
    return "" if is_same != (name in OTHER_THERE.get(base, ())) else f"{file}: {name} is {'' if is_same else 'not '}{written}"


def check_file(program, file, chance):
    """Returns the number of types of a file that are compared, and the differences."""
    with open(file, "rb") as it:
        names = re.findall(rb"^\s*(?:/\*.*\*/ )?(?:pub(?:\(crate\))? )?(?:struct|enum|type) +(\w+)", it.read(), re.M)
    names = [it.decode() for it in names] or ["A"]
    return len(names), [it for it in (difference(program, file, name, chance) for name in names) if it]


def main():
    wrong, taken = check_rows(), 0
    if sys.argv[1:]:
        chance = random.Random(1)
        files = glob.glob(f"{HERE}/*.rs") + glob.glob(f"{ROOT}/crates/test_pcard/data/*.rs")
        for file in sorted(files):
            count, found = check_file(sys.argv[1], file, chance)
            taken, wrong = taken + count, wrong + found
    for line in wrong:
        print(line)
    more = f", and {taken} types of files are compared with the program's" if sys.argv[1:] else ""
    print(f"declarations: {len(rows('TYPES'))} types and {len(refusals())} refusals are those of pcard{more}")
    return 1 if wrong else 0


if __name__ == "__main__":
    sys.exit(main())
