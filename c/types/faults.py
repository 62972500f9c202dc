"""faults.py LIBRARY: requires that the tests of generated code fail for each fault of faults.txt.

LIBRARY is the folder with postcard.h and libpostcard.a. The files without a fault must pass first. A fault that the tests don't see is
tried once more with sanitizers, which take longer to compile.
"""
import os
import resource
import shutil
import subprocess
import sys
import tempfile

HERE = os.path.dirname(os.path.abspath(__file__))
COUNT, SEED = "800", "5"
# The seconds of a processor that a test may take. A fault may make one endless.
SECONDS = 8
FLAGS = "-std=c99 -O0 -w".split()
SANITIZERS = "-g -fsanitize=address,undefined -fno-sanitize-recover".split()


def faults():
    """Returns the file, what is wrong, the text and what takes its place, for each fault."""
    with open(os.path.join(HERE, "faults.txt"), encoding="utf-8") as it:
        blocks = it.read().split("\n\n")[1:]
    found = []
    for block in blocks:
        head, before, after = block.strip("\n").split("\n")
        file, _, what = head.partition(": ")
        found.append((file, what, before.replace("\\n", "\n"), after[3:].replace("\\n", "\n")))
    return found


class Tests:
    """The tests of generated code, in a new folder, compiled with these flags."""

    def __init__(self, folder, library, flags):
        self.folder, self.library, self.flags = folder, library, flags
        shutil.copytree(os.path.join(os.path.dirname(HERE), "postcard_runtime"), os.path.join(folder, "postcard_runtime"))
        for name in os.listdir(os.path.join(HERE, "generated")):
            shutil.copy(os.path.join(HERE, "generated", name), folder)
        for stem in ("sensor", "forms"):
            words = [sys.executable, os.path.join(HERE, "driver.py"), os.path.join(HERE, f"{stem}.types"), stem]
            with open(os.path.join(folder, f"{stem}_test.c"), "w", encoding="utf-8") as it:
                subprocess.run(words, stdout=it, check=True)
        shutil.copy(os.path.join(HERE, "values.c"), folder)
        for stem in ("sensor", "forms"):
            for name in (stem, f"{stem}_test"):
                self.compiled(name)
        self.compiled("values")

    def run(self, *words):
        """Returns the status of a command."""

        def limit():
            resource.setrlimit(resource.RLIMIT_CPU, (SECONDS, SECONDS))

        done = subprocess.run(words, cwd=self.folder, stdout=subprocess.PIPE, stderr=subprocess.STDOUT, preexec_fn=limit, check=False)
        return done.returncode

    def compiled(self, name):
        compiler = os.environ.get("CC", "cc")
        return self.run(compiler, *self.flags, f"-I{self.library}", "-c", f"{name}.c", "-o", f"{name}.o") == 0

    def linked(self, name, *objects):
        library = os.path.join(self.library, "libpostcard.a")
        return self.run(os.environ.get("CC", "cc"), *self.flags, *objects, library, "-o", name) == 0

    def pass_in_c(self, stem, anew):
        """Returns whether the tests in C pass, once these files are compiled again."""
        assert all(self.compiled(name) for name in anew), stem
        assert self.linked("program", f"{stem}.o", f"{stem}_test.o") and self.linked("values_", "values.o", "forms.o", "sensor.o"), stem
        types = os.path.join(HERE, f"{stem}.types")
        if self.run("./values_") != 0:
            return False
        return self.run(sys.executable, os.path.join(HERE, "roundtrip.py"), types, "program", COUNT, SEED) == 0

    def pass_in_python(self):
        words = [sys.executable, "-B", os.path.join(HERE, "python_trip.py")]
        if self.run(sys.executable, "-B", os.path.join(HERE, "python_frames.py"), ".") != 0:
            return False
        return all(self.run(*words, os.path.join(HERE, f"{stem}.types"), ".", COUNT, SEED) == 0 for stem in ("sensor", "forms"))

    def passes(self, file):
        """Returns whether the tests pass that a change of a file concerns."""
        stem, end = os.path.splitext(file)
        if end == ".py":
            return self.pass_in_python()
        return self.pass_in_c(stem, [stem] if end == ".c" else [stem, f"{stem}_test"])

    def sees(self, file, before, after):
        """Returns whether the tests fail for a fault, after which the file is as it was."""
        path = os.path.join(self.folder, "postcard_runtime" if file.endswith(".py") else "", file)
        with open(path, encoding="utf-8") as it:
            text = it.read()
        assert before in text, (file, before)
        kept = [os.path.join(self.folder, name) for name in os.listdir(self.folder) if name.endswith(".o")]
        for name in kept:
            shutil.copy(name, f"{name}.kept")
        with open(path, "w", encoding="utf-8") as it:
            it.write(text.replace(before, after))
        seen = not self.passes(file)
        with open(path, "w", encoding="utf-8") as it:
            it.write(text)
        for name in kept:
            shutil.move(f"{name}.kept", name)
        return seen


def main():
    wrong = []
    with tempfile.TemporaryDirectory() as plain, tempfile.TemporaryDirectory() as sanitized:
        library = os.path.abspath(sys.argv[1])
        all_tests = [Tests(plain, library, FLAGS), Tests(sanitized, library, FLAGS + SANITIZERS)]
        for tests in all_tests:
            for file in ("sensor.c", "forms.c", "numbers.py"):
                if not tests.passes(file):
                    wrong.append(f"{file}: the tests fail without a fault")
        for file, what, before, after in [] if wrong else faults():
            if not any(tests.sees(file, before, after) for tests in all_tests):
                wrong.append(f"{file}: {what}: no test sees it")
    for line in wrong:
        print(line)
    print(f"faults of generated code: {len(faults())}, {len(wrong)} unseen")
    return 1 if wrong else 0


if __name__ == "__main__":
    sys.exit(main())
