"""The command line: `c FILE` and `python FILE`."""
import os
import re
import shutil
import sys

from .c_files import Files
from .concrete import UnusedCapacity, model_of
from .declarations import File, number_of
from .python_files import PythonFile
from .python_names import hides_module
from .tokens import Refused

USAGE = """usage: pcard c FILE [--out DIR] [--prefix P] [--only NAME,..] [--capacity NAME.field=N,..]..
       pcard python FILE [--out DIR]"""
MOST_BYTES = 1_048_576
RUNTIME = "postcard_runtime"


class Failed(Exception):
    """Why a call writes no file."""


def words(arguments):
    """Returns the file and the options of a call, or fails with what is wrong with its words."""
    options = {"--out": ".", "--prefix": "", "--only": [], "--capacity": {}}
    allowed = options if arguments[:1] == ["c"] else {"--out": "."}
    files, rest = [], list(arguments[1:])
    while rest:
        word = rest.pop(0)
        if not word.startswith("--"):
            files.append(word)
            continue
        if word not in allowed or not rest:
            raise Failed(f"{word} takes a word" if word in allowed else f"unknown option {word}")
        take_option(options, word, rest.pop(0))
    if len(files) != 1:
        raise Failed(f"{arguments[0]} takes a FILE")
    return files[0], options


def take_option(options, option, word):
    """Sets an option of a call."""
    if option == "--capacity":
        path, _, numbers = word.partition("=")
        found = [number_of(number) for number in numbers.split(",")]
        if "." not in path or None in found:
            raise Failed(f"--capacity takes NAME.field=N, and not {word}")
        options[option][path] = found
    elif option == "--only":
        options[option] += word.split(",")
    elif option == "--prefix" and not re.fullmatch(r"[A-Za-z][A-Za-z0-9_]*", word):
        raise Failed(f"--prefix takes the beginning of a name in C, and not {word}")
    else:
        options[option] = word


def text_of(file):
    """Returns the text of a file."""
    try:
        with open(file, "rb") as it:
            content = it.read(MOST_BYTES + 1)
    except OSError:
        raise Failed(f"{file}: the file can't be read") from None
    if len(content) > MOST_BYTES:
        raise Failed(f"{file}: the file has more than {MOST_BYTES} bytes")
    try:
        return content.decode()
    except UnicodeDecodeError:
        raise Failed(f"{file}: the file is not UTF-8") from None


def stem_of(file):
    """Returns the name of the files that are written, without its end."""
    stem = re.sub(r"\W", "_", os.path.splitext(os.path.basename(file))[0], flags=re.ASCII)
    return f"file_{stem}" if stem[:1].isdigit() else stem


def shown_name(file):
    """Returns the name of the file as it may stand in a comment."""
    return re.sub(r"[^\w. -]", "_", os.path.basename(file))


def c_texts(file, options):
    """Returns the names and texts of the header and the source."""
    stem = stem_of(file)
    if stem in ("postcard", "postcard_text"):
        raise Failed(f"{file}: {stem}.h is a header of the library: rename the file")
    model = model_of(File(text_of(file)), options["--only"], options["--capacity"])
    files = Files(model, shown_name(file), stem, options["--prefix"])
    return {f"{stem}.h": files.header(), f"{stem}.c": files.source()}


def python_texts(file, _):
    """Returns the names and texts of the module and of the package that it needs."""
    stem = stem_of(file)
    if hides_module(stem):
        raise Failed(f"{file}: a module `{stem}` would hide one that Python needs: rename the file")
    model = model_of(File(text_of(file)))
    texts = {f"{stem}.py": PythonFile(model, shown_name(file)).text()}
    try:
        for name in sorted(os.listdir(runtime_folder())):
            if name.endswith(".py"):
                with open(os.path.join(runtime_folder(), name), encoding="utf-8") as it:
                    texts[os.path.join(RUNTIME, name)] = it.read()
    except OSError:
        raise Failed(f"{runtime_folder()}: the package can't be read") from None
    return texts


def runtime_folder():
    return os.path.join(os.path.dirname(os.path.dirname(os.path.abspath(__file__))), RUNTIME)


def write(folder, texts):
    """Writes all files or none. A file that has its text already keeps its time."""
    changed = {name: text for name, text in texts.items() if not has_text(os.path.join(folder, name), text)}
    try:
        for name, text in changed.items():
            os.makedirs(os.path.dirname(os.path.join(folder, name)) or ".", exist_ok=True)
            with open(os.path.join(folder, f"{name}.new"), "w", encoding="utf-8", newline="\n") as it:
                it.write(text)
        for name in changed:
            shutil.move(os.path.join(folder, f"{name}.new"), os.path.join(folder, name))
    except OSError as problem:
        for name in changed:
            if os.path.exists(os.path.join(folder, f"{name}.new")):
                os.remove(os.path.join(folder, f"{name}.new"))
        raise Failed(f"{folder}: the files can't be written: {problem.strerror}") from None


def has_text(file, text):
    try:
        with open(file, encoding="utf-8", newline="") as it:
            return it.read() == text
    except (OSError, UnicodeDecodeError):
        return False


def main(arguments):
    """Runs a call. Returns 0, or 2 if it is refused and no file is written."""
    if "--help" in arguments:
        print(USAGE)
        return 0
    makers = {"c": c_texts, "python": python_texts}
    if not arguments or arguments[0] not in makers:
        print(USAGE, file=sys.stderr)
        return 2
    try:
        file, options = words(arguments)
        texts = makers[arguments[0]](file, options)
        write(options["--out"], texts)
    except Refused as problem:
        print(f"pcard: {file}: line {problem.line}, column {problem.column}: {problem}", file=sys.stderr)
    except UnusedCapacity as problem:
        print(f"pcard: {file}: --capacity {problem}: no field of the types has this name", file=sys.stderr)
    except Failed as problem:
        print(f"pcard: {problem}", file=sys.stderr)
    else:
        return 0
    return 2
