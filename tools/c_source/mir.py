"""The proved MIR of crates, read from the `mir.json` that the toolchain leaves in each library, with every key checked.

The format is undocumented and moves with the toolchain. So each object's keys must be those of a list below, and each tag must be one
that the translator knows: all else raises `Unsupported`.
"""
import hashlib
import json


class Unsupported(Exception):
    """The MIR has a construct, key or tag that the translator doesn't know."""


# What the translator reads of each kind of object, and what it may ignore: lifetimes and ownership have no place in C.
KEYS = {
    'function': {'lifetimes', 'outlives', 'params', 'generics', 'types', 'locals', 'body'},
    'generics': {'types', 'outlives', 'bounds', 'method_of', 'trait_lifetimes', 'impls'},
    'local': {'ty', 'home'},
    'type': {'name', 'lifetimes', 'bounds', 'type_params', 'const_params', 'type_bounds', 'owns', 'is_cell', 'shape', 'is_tuple'},
    'impl': {'name', 'lifetimes', 'outlives', 'types', 'type_outlives', 'bounds', 'of', 'methods'},
    'named': {'name', 'lifetimes'},
    'instance': {'types', 'dicts'},
    'place': {'local', 'steps'},
    'number': {'width', 'value'},
    'numbers': {'width', 'values'},
}
# Keys that some toolchains add, and that say nothing of what a function computes.
OPTIONAL = {'generics': {'spends_self'}, 'type': {'view'}}


def checked(what, x):
    """Returns the object `x`, which must have just the keys of a `what`."""
    if not isinstance(x, dict):
        raise Unsupported('%s is no object: %s' % (what, short(x)))
    missing = KEYS[what] - set(x)
    unknown = set(x) - KEYS[what] - OPTIONAL.get(what, set())
    if missing or unknown:
        raise Unsupported('%s has the unknown keys %s and lacks %s' % (what, sorted(unknown), sorted(missing)))
    return x


def short(x):
    """Returns the first characters of some JSON, for a message."""
    return json.dumps(x)[:80]


def tagged(what, x, known):
    """Returns the tag and the content of `x`: a string alone is a tag without content."""
    if isinstance(x, str):
        tag, content = x, None
    elif isinstance(x, dict) and len(x) == 1:
        tag, content = next(iter(x.items()))
    else:
        raise Unsupported('%s has no tag: %s' % (what, short(x)))
    if tag not in known:
        raise Unsupported('unknown %s %s' % (what, tag))
    return tag, content


class Mir:
    """The functions, types and impls of some crates."""

    def __init__(self, files):
        self.functions, self.types, self.impls = {}, {}, {}
        for file in files:
            self.read(file)

    def read(self, file):
        """Adds the crate whose MIR is in a file."""
        with open(file, 'rb') as stream:
            text = stream.read()
        for entry in json.loads(text.decode('utf-8')):
            if not (isinstance(entry, list) and len(entry) == 2 and isinstance(entry[0], str)):
                raise Unsupported('%s: an entry is no pair of a name and a function' % file)
            name, function = entry
            self.functions[name] = function
            for each in function['types']:
                self.types[each['name']] = each
            for each in function['generics']['impls']:
                self.impls[each['name']] = each

    def function(self, name):
        """Returns the function with a name, its keys checked."""
        if name not in self.functions:
            raise Unsupported('no function ' + name)
        function = checked('function', self.functions[name])
        checked('generics', function['generics'])
        for each in function['locals']:
            checked('local', each)
            tagged('home of a local', each['home'], ('ValueLocal', 'MemorySlot'))
        if not isinstance(function['body'], list):
            raise Unsupported('no body')
        return function

    def type(self, name):
        """Returns the type with a name, its keys checked."""
        if name not in self.types:
            raise Unsupported('no type ' + name)
        return checked('type', self.types[name])

    def impl(self, name):
        """Returns the impl with a name, its keys checked."""
        if name not in self.impls:
            raise Unsupported('no impl ' + name)
        return checked('impl', self.impls[name])

    def checksum(self, names):
        """Returns the SHA-256 of the MIR of some functions."""
        found = hashlib.sha256()
        for name in sorted(names):
            found.update(json.dumps([name, self.functions[name]], sort_keys=True).encode())
        return found.hexdigest()
