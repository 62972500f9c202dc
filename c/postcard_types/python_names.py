"""Names in Python: of classes, fields and variants."""
import builtins
import importlib.machinery
import keyword
import sys
import sysconfig

from .model import Named
from .tokens import Refused

# Names of `postcard_runtime.Message` and of every class, and those that a module of messages imports.
METHODS = frozenset(("encode", "decode", "take", "frame", "unframe", "mro", "name", "value", "_codec"))
# Types of Python by which fields are declared.
HINTED = frozenset(("int", "str", "bytes", "float", "bool"))
IMPORTED = frozenset(("_p", "_n", "_c", "_dataclass", "_enum", "_importlib", "_t", "annotations"))


def hides_module(stem):
    """Returns whether a module of this name would hide one of Python's own, or isn't one that can be imported."""
    if keyword.iskeyword(stem) or stem in sys.builtin_module_names or stem.startswith("postcard"):
        return True
    return importlib.machinery.PathFinder.find_spec(stem, [sysconfig.get_paths()["stdlib"]]) is not None


def member(name):
    """Returns the name of a field or of a part of a tuple."""
    if name[0].isdigit():
        return f"_{name}"
    return f"{name}_" if keyword.iskeyword(name) or name in METHODS or name in HINTED or name.startswith("__") else name


def variant(name):
    """Returns the name of a variant's class in the class of its enum, or of a member of an `IntEnum`."""
    return f"{name}_" if keyword.iskeyword(name) else name


class Names:
    """The names of the classes of a model. Two that are the same are refused."""

    def __init__(self, model):
        self.model, self.taken = model, {}

    def take(self, name, place):
        if name in self.taken:
            raise Refused(place, f"the Python name `{name}` is that of line {self.taken[name][0]} too")
        self.taken[name] = place

    def top(self, name):
        """Returns the name of a declared type."""
        return f"{name}_" if keyword.iskeyword(name) or hasattr(builtins, name) or name in IMPORTED else name

    def of(self, kind, spelled):
        """Returns the name of the class of a struct or an enum. `spelled` says what another type is, as a part of a name."""
        assert isinstance(kind, Named)
        if not kind.arguments:
            return self.top(kind.name)
        alias = self.model.alias_of.get(kind)
        return self.top(alias or "_".join([kind.name, *map(spelled, kind.arguments)]))
