"""calls.py: requires that calls of postcard_types are refused with their line on standard error, status 2, and no file; and that others
leave their files, with what their options say.
"""
import os
import subprocess
import sys
import tempfile

HERE = os.path.dirname(os.path.abspath(__file__))
PROGRAM = os.path.join(os.path.dirname(HERE), "postcard_types")
SERDE = "this attribute of serde may change what is written"

# Files of declarations that `c` and `python` refuse, and the line and column, and what is wrong.
FILES = [
    ("struct A { b: u9 }", "line 1, column 15: `u9`: no declaration of this file, and no type that is known"),
    ("struct A {\n    b: Vec<C>,\n}", "line 2, column 12: `C`: no declaration of this file, and no type that is known"),
    ("struct A { b: dyn B }", "line 1, column 15: `dyn`: values of this type aren't written and read"),
    ("struct A { b: &mut u8 }", "line 1, column 16: `&mut`: values of this type aren't written and read"),
    ("struct A(Option<Box<A>>);", "line 1, column 21: this type has itself in it"),
    ("type A = B; struct B(Vec<A>);", "line 1, column 26: this type has itself in it"),
    ("struct A<T>(Vec<T>); struct B(A<()>);", "line 1, column 17: elements of this type have no bytes"),
    ("struct A(BTreeMap<(), ()>);", "line 1, column 19: elements of this type have no bytes"),
    ("struct A<const N: usize>([u8; N]);", "line 1, column 10: a parameter can't be a number"),
    ("const N: usize = 2 * 4; struct A([u8; N]);", "line 1, column 39: `N`: expected a number, or a constant of this file that is one"),
    ("struct A([u8; 2 * 4]);", "line 1, column 15: `2`: expected a number, or a constant of this file that is one"),
    ("struct A(heapless::Vec<u8, M>);", "line 1, column 28: `M`: no declaration of this file, and no type that is known"),
    ("struct A([u8; 2147483648]);", "line 1, column 10: a count above 2147483647 can't be had"),
    ("struct A(LE<u8>);", "line 1, column 10: `LE` takes a number of 16 bits or more"),
    ("struct A(BE<f32>);", "line 1, column 10: `BE` takes a number of 16 bits or more"),
    ("struct A(NonZero<bool>);", "line 1, column 10: `NonZero` takes a number"),
    ("struct A(Option);", "line 1, column 10: `Option` takes 1 type"),
    ("struct A(Result<u8>);", "line 1, column 10: `Result` takes 2 types"),
    ("struct A(HashMap<u8>);", "line 1, column 10: `HashMap` takes 2 types and a number"),
    ("struct A(u8<u8>);", "line 1, column 10: `u8` takes 0 types"),
    ("struct A<T>(T); struct B(A<u8, u8>);", "line 1, column 26: `A` takes 1 types"),
    ("struct A { #[serde(skip)] b: u8 }", f"line 1, column 20: `skip`: {SERDE}"),
    ("struct A { #[serde(default, skip_serializing_if = \"B\")] b: u8 }", f"line 1, column 29: `skip_serializing_if`: {SERDE}"),
    ("struct A { #[serde(flatten)] b: B } struct B { c: u8 }", f"line 1, column 20: `flatten`: {SERDE}"),
    ("struct A { #[serde(with = \"module\")] b: u8 }", f"line 1, column 20: `with`: {SERDE}"),
    ("#[serde(tag = \"t\")] enum A { B }", f"line 1, column 9: `tag`: {SERDE}"),
    ("#[cfg_attr(feature = \"serde\", derive(Serialize), serde(untagged))] enum A { B }", f"line 1, column 56: `untagged`: {SERDE}"),
    ("enum A { B, #[serde(other)] C }", f"line 1, column 21: `other`: {SERDE}"),
    ("#[serde(try_from = \"B\")] struct A(u8);", f"line 1, column 9: `try_from`: {SERDE}"),
    ("#[derive(Serialize_repr)] enum A { B }", "line 1, column 10: `Serialize_repr`: this derive writes something else than serde's"),
    ("struct A { #[cfg(test)] b: u8 }", "line 1, column 14: `cfg`: with this attribute the declaration doesn't say what is written"),
    ("struct A(#[serde(with = \"postcard::fixint::le\")] u8);", "line 1, column 18: `postcard::fixint` is for a number of 16 bits or more"),
    ("struct A(#[serde(with = \"serde_bytes\")] [u8; 4]);", "line 1, column 18: `serde_bytes` is for a list of bytes"),
    ("struct A(#[max_len(4)] u8);", "line 1, column 12: `max_len` is for a text, a list or a map, and has a number for each"),
    ("struct A(#[max_len(4)] Vec<String>);", "line 1, column 12: `max_len` is for a text, a list or a map, and has a number for each"),
    ("struct A(#[max_len(4, 4)] String);", "line 1, column 12: `max_len` is for a text, a list or a map, and has a number for each"),
    ("struct A(#[max_len(N)] String);", "line 1, column 20: `N`: expected a number, or a constant of this file that is one"),
    ("#[max_len(4)] struct A(String);", "line 1, column 3: `max_len`: this attribute is for a field"),
    ("enum A {}", "line 1, column 9: an enum without variants has no values"),
    ("enum A { b }", "line 1, column 10: expected the name of a variant"),
    ("struct A { r#b: u8 }", "line 1, column 13: expected `:`"),
    ("struct A { b: u8 c: u8 }", "line 1, column 18: expected `,` or `}`"),
    ("struct A(" + "Vec<" * 63 + "u8" + ">" * 63 + ");", "line 1, column 262: nested too deeply"),
    # The words of S14 are 8 * 2^14 - 4, and those of S13 are 65,532.
    ("struct S0(u8);" + "".join(f"struct S{it}(S{it - 1}, S{it - 1});" for it in range(1, 60)), "line 1, column 266: this type is too long"),
    ("type P<T> = (T, T); struct A(" + "P<" * 50 + "u8" + ">" * 50 + ");", "line 1, column 28: this type is too long"),
    ("struct A(u8" + "?" * 5 + ");", "line 1, column 16: nested too deeply"),
]
# Words of a call, a file, and what is said.
CALLS = [
    (["c", "--only", "B", "{}"], "struct A;", "{}: line 1, column 10: no declaration has the name `B`"),
    (["c", "--only", "A", "{}"], "struct A<T>(T);", "{}: line 1, column 9: `A` has parameters: declare `type Name = A<..>;`"),
    (["c", "--capacity", "A.b=4", "{}"], "struct A { b: u8 }", "{}: line 1, column 12: `max_len` is for a text, a list or a map, and has a number for each"),
    (["c", "--capacity", "A.c=4", "{}"], "struct A { b: String }", "{}: --capacity A.c: no field of the types has this name"),
    (["c", "--capacity", "A=4", "{}"], "struct A(String);", "--capacity takes NAME.field=N, and not A=4"),
    (["c", "--prefix", "1", "{}"], "struct A;", "--prefix takes the beginning of a name in C, and not 1"),
    (["c", "--frames", "{}"], "struct A;", "unknown option --frames"),
    (["c", "{}", "--out"], "struct A;", "--out takes a word"),
    (["c"], "struct A;", "c takes a FILE"),
    (["python", "--only", "A", "{}"], "struct A;", "unknown option --only"),
    (["c", "{}"], "struct A { new: u8, new_: u8 }", "{}: line 1, column 21: the C name `new_` is that of line 1 too"),
    (["c", "{}"], "struct A;\nstruct A_put;", "{}: line 2, column 13: the C name `A_put` is that of line 1 too"),
    (["c", "{}"], "enum A { OneTwo(u8), One_two(u8) }", "{}: line 1, column 22: the C name `one_two` is that of line 1 too"),
    (["c", "{}"], "enum A { B }\nstruct A_B;", "{}: line 1, column 10: the C name `A_B` is that of line 2 too"),
    (["c", "{}"], "struct postcard_writer(u8);", "{}: line 1, column 23: the C name `postcard_writer` is one of the library: give a --prefix"),
    (["c", "{}"], "struct A([[u64; 100000]; 100000]);", "{}: line 1, column 9: a message of this type has up to 100000000000 bytes, which C can't hold"),
    (["python", "{}"], "struct A { def: u8, def_: u8 }", "{}: line 1, column 21: the Python name `A.def_` is that of line 1 too"),
    (["python", "{}"], "enum A { B(u8) }\nstruct A_B;", "{}: line 2, column 11: the Python name `A_B` is that of line 1 too"),
]
NAMES = [
    ("c", "postcard.rs", "postcard.h is a header of the library: rename the file"),
    ("python", "types.rs", "a module `types` would hide one that Python needs: rename the file"),
    ("python", "class.rs", "a module `class` would hide one that Python needs: rename the file"),
]
# Words of a call, a file, the files that are left, and words that the first of them has and that it hasn't.
LEFT = [
    (["c", "{}"], "struct A; struct B(A);", ["a.c", "a.h"], ["A_put", "B_put"], ["app_"]),
    (["c", "{}", "--out", "b/c"], "struct A;", ["b/c/a.h", "b/c/a.c"], ["#ifndef A_H"], []),
    (["c", "{}", "--only", "B,C"], "struct A; struct B(D); struct C; struct D;", ["a.h", "a.c"], ["B_put", "C_put", "D_put"], ["A_put"]),
    (["c", "--prefix", "app_", "{}"], "struct A(Vec<u16>);", ["a.h", "a.c"], ["app_A_put", "app_a_list_u16_next", "#ifndef APP_A_H"], [" A_put"]),
    (["c", "{}", "--capacity", "A.b=4", "--capacity", "B.C.0=2,3"], "struct A { b: String } enum B { C(Vec<String>) }", ["a.h", "a.c"],
     ["uint8_t size; char text[5];", "A_MAX_SIZE 5u", "uint8_t count; a_str3 items[2];", "B_MAX_SIZE 10u"], ["postcard_slice b;"]),
    (["c", "{}"], "struct A<T>(T); struct B<T>(T); struct C(B<u8>);", ["a.h", "a.c"], ["A has parameters", "B_u8_put"], ["B has parameters"]),
    (["c", "{}"], "/// One.\n/// Two */.\npub struct A { /** Three */ pub b: u8 }", ["a.h", "a.c"], ["/* One. */", "/* Two * /. */", "/* Three */"], []),
    (["python", "{}"], "/// One.\nstruct A { b: u8 }", ["a.py", "postcard_runtime/__init__.py"], ["class A(_p.Message):", '"""One."""'], []),
    (["python", "--out", "b", "{}"], "enum A { B, C } type D = A; type E = u8;", ["b/a.py"], ["_enum.IntEnum", "D = A", "E = int"], ["_dataclass\nclass"]),
]


def call(folder, words):
    """Returns the status of a call, what it says, and the files that it leaves beside its own."""
    done = subprocess.run([sys.executable, "-B", PROGRAM, *words], cwd=folder, capture_output=True, text=True, check=False)
    return done.returncode, done.stdout, done.stderr, sorted(it for it in os.listdir(folder) if not it.endswith(".rs"))


def tried(words, name, text, wanted):
    """Returns what a call does that it must not, or nothing."""
    with tempfile.TemporaryDirectory() as folder:
        with open(os.path.join(folder, name), "wb") as it:
            it.write(text if isinstance(text, bytes) else text.encode())
        found = call(folder, [name if word == "{}" else word for word in words])
    must = (2, "", f"pcard: {wanted.replace('{}', name, 1)}\n", [])
    return [] if found == must else [f"{words} {text!r}\n    is {found}\n    not {must}"]


def left(words, text, files, has, has_not):
    """Returns what a call doesn't leave, or leaves and must not. A second call must leave the files with their times."""
    with tempfile.TemporaryDirectory() as folder:
        with open(os.path.join(folder, "a.rs"), "w", encoding="utf-8") as it:
            it.write(text)
        found = call(folder, ["a.rs" if word == "{}" else word for word in words])[:3]
        paths = [os.path.join(folder, file) for file in files]
        if found != (0, "", "") or not all(map(os.path.exists, paths)):
            return [f"{words} {text!r}: {found}"]
        for path in paths:
            os.utime(path, (1, 1))
        call(folder, ["a.rs" if word == "{}" else word for word in words])
        content = ""
        for path in paths[:1] if words[0] == "python" else [path for path in paths if path.endswith(".h")]:
            with open(path, encoding="utf-8") as it:
                content += it.read()
        wrong = [f"{words} {text!r}: no {each}" for each in has if each not in content]
        wrong += [f"{words} {text!r}: {each}" for each in has_not if each in content]
        return wrong + [f"{words}: {path} is written again" for path in paths if os.stat(path).st_mtime != 1]


def main():
    wrong = []
    for row in LEFT:
        wrong += left(*row)
    for text, wanted in FILES:
        for command in ("c", "python"):
            wrong += tried([command, "{}"], "a.rs", text, f"{{}}: {wanted}")
    for words, text, wanted in CALLS:
        wrong += tried(words, "a.rs", text, wanted)
    for command, name, wanted in NAMES:
        wrong += tried([command, "{}"], name, "struct A;", f"{{}}: {wanted}")
    wrong += tried(["c", "b.rs"], "a.rs", "", "b.rs: the file can't be read")
    wrong += tried(["c", "{}"], "a.rs", b"struct A;\xff", "{}: the file is not UTF-8")
    wrong += tried(["c", "{}"], "a.rs", " " * 1_048_577, "{}: the file has more than 1048576 bytes")
    wrong += tried(["c", "{}", "--out", "a.rs"], "a.rs", "struct A;", "a.rs: the files can't be written: File exists")
    count = 2 * len(FILES) + len(CALLS) + len(NAMES) + len(LEFT) + 4
    for line in wrong:
        print(line)
    print(f"calls: {count}, {len(wrong)} differ")
    return 1 if wrong else 0


if __name__ == "__main__":
    sys.exit(main())
