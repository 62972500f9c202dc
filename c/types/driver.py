"""driver.py TYPES STEM: prints the test program in C for the header STEM.h of the types of a file: `driver.c` with functions of the types."""
import os
import sys

import kinds
import oracle as oracle_
import shown
from chance import Chance

HERE = os.path.dirname(os.path.abspath(__file__))


def with_functions(c, kind, found):
    """Adds the types that are printed by a function of their own, each after those that it needs."""
    kind = c.oracle.plain(kind)
    if kind in found:
        return
    declared = c.oracle.declared
    if kind[0] == "named":
        definition = declared[kind[1]]
        rows = [definition.fields, *(fields for _, _, fields in definition.variants)]
        inner = [each for row in rows for _, each in row]
    elif kind[0] == "tuple":
        inner = kind[1]
    else:
        inner = [each for each in kind[1:] if isinstance(each, tuple)]
    for each in inner:
        with_functions(c, each, found)
    if kind[0] in ("named", "list", "map", "result"):
        found.append(kind)


def function(head, body):
    return [f"static void {head} {{", *(f"    {line}" for line in body), "}", ""]


def program(declared, stem):
    """Returns the text of the program."""
    oracle = oracle_.Oracle(declared)
    c, found = shown.C(oracle, stem), []
    for name in declared:
        with_functions(c, ("named", name), found)
    with open(os.path.join(HERE, "driver.c"), encoding="utf-8") as it:
        lines = [f'#include "{stem}.h"', it.read()]
    for kind in found:
        name = c.name(kind)
        lines += function(f"dump_{name}(const {name} *value)", c.dump_body(kind))
        lines += function(f"thaw_{name}({name} *value)", c.thaw_body(kind))
    tops = [name for name in declared if not isinstance(declared[name], tuple)]
    for top in tops:
        name = c.name(("named", top))
        is_bounded = Chance(oracle, None).greatest(("named", top)) is not None
        body = [f"READ({name}, bytes, size);"] + ([f"FRAME({name});"] if is_bounded else [])
        lines += function(f"test_{name}(const uint8_t *bytes, size_t size)", body)
    rows = [f'    {{"{top}", test_{c.name(("named", top))}}},' for top in tops]
    return "\n".join([*lines, "static const test tests[] = {", *rows, "    {NULL, NULL},", "};", "", "int main(void) { return run_all(tests); }"])


if __name__ == "__main__":
    print(program(kinds.read(sys.argv[1]), sys.argv[2]))
