"""The exported functions: from the types of the C header to those of the translated code, where each size has 64 bits, and back."""
import re

from .mir import Unsupported
from .types import SLICE, integer

TYPES = r'(?:const )?\w+'
DECLARED = re.compile(r'^(%s)[ ]+(\w+)\(([^()]*)\);' % TYPES, re.M)
PARAMETER = re.compile(r'(?:const )?(\w+) ?(\*?) ?(\w+)')
MEMBER = re.compile(r'\s*(?:const )?(\w+) ?(\*?) ?(\w+);')


class Header:
    """What a C header declares."""

    def __init__(self, file):
        with open(file, encoding='utf-8') as stream:
            text = re.sub(r'/\*.*?\*/', '', stream.read(), flags=re.S)
        self.structs = {name: MEMBER.findall(members) for members, name in re.findall(r'^typedef struct \w+ \{(.*?)\} (\w+);', text, re.M | re.S)}
        self.functions = {}
        for result, name, parameters in DECLARED.findall(text):
            listed = [] if parameters.strip() == 'void' else [PARAMETER.fullmatch(p.strip()) for p in parameters.split(',')]
            if None in listed:
                raise Unsupported('%s: the header\'s parameters of %s' % (file, name))
            self.functions[name] = (result, [p.groups() for p in listed], [p.group(0) for p in listed])


class Shim:
    """One exported function."""

    def __init__(self, program, header, name, key):
        self.program, self.layout, self.header, self.name, self.key = program, program.layout, header, name, key
        self.result, self.parameters, self.texts = header.functions[name]
        self.before, self.after, self.arguments, self.limits = [], [], [], []
        self.left = list(self.parameters)
        self.reader = next((n for c, _, n in self.parameters if c == 'postcard_reader'), None)

    def text(self):
        """Returns the function's definition."""
        signature = self.program.signature(self.key)
        for t in signature[1:]:
            self.parameter(t)
        if self.left:
            raise Unsupported('%s: the header has more parameters' % self.name)
        call = '%s(%s)' % (self.program.name(self.key), ', '.join(self.arguments))
        if self.result == 'void' or self.layout.is_empty(signature[0]):
            body = self.before + [call + ';'] + self.after
        elif self.after:
            body = self.before + ['%s status = %s;' % (self.result, call)] + self.limits + self.after + ['return status;']
        else:
            body = self.before + ['return %s;' % self.as_c(self.result, self.layout.c(signature[0]), call)]
        lines = ''.join(x + '\n' if x.startswith('#') else '    %s\n' % x for x in body)
        return '%s %s(%s) {\n%s}\n' % (self.result, self.name, ', '.join(self.texts) or 'void', lines)

    def take(self):
        """Returns the header's next parameter."""
        if not self.left:
            raise Unsupported('%s: the header has fewer parameters' % self.name)
        return self.left.pop(0)

    def as_c(self, have, want, text):
        """Returns a number as one of another type."""
        return text if have == want else '(%s)%s' % (want, text)

    def parameter(self, t):
        """Takes in one parameter."""
        c, star, name = self.take()
        if t[0] == 'struct' and t[1] == SLICE:
            self.bytes(t, name)
        elif t[0] == 'ref' and c in self.header.structs:
            self.struct(t[1], c, name)
        elif t == ('ref', integer(64)) and c == 'size_t':
            self.size(name)
        elif t[0] == 'ref' and star:
            self.arguments.append(name if self.layout.c(t) == c + ' *' else '(%s)%s' % (self.layout.c(t), name))
        elif self.layout.is_scalar(t) and not star:
            self.arguments.append(name if c == 'size_t' else self.as_c(c, self.layout.c(t), name))
        else:
            raise Unsupported('%s: %s as %s' % (self.name, name, self.layout.short(t)))

    def bytes(self, t, name):
        """A pointer and a size become a slice. NULL points to no byte."""
        _, _, size = self.take()
        self.program.uses_nothing = True
        self.before += ['%s in_%s;' % (self.layout.c(t), name),
                        'in_%s.at = %s != NULL ? (uint8_t *)%s : &pc_nothing;' % (name, name, name), 'in_%s.len = %s;' % (name, size)]
        self.arguments.append('in_' + name)

    def size(self, name):
        """A size becomes one of 64 bits. A reader fails if what it reads doesn't fit back."""
        self.before.append('uint64_t in_%s = *%s;' % (name, name))
        self.after.append('*%s = pc_size(in_%s);' % (name, name))
        self.arguments.append('&in_' + name)
        if self.reader:
            self.limits += ['#if SIZE_MAX < UINT64_MAX', 'if (in_%s > SIZE_MAX) { /* nothing is read */' % name,
                            '    %s->status = POSTCARD_TOO_LARGE;' % self.reader, '    return POSTCARD_TOO_LARGE;', '}', '#endif']

    def members(self, t, path):
        """Returns the members of a struct in their order, those of slices in it too, and whether each can change."""
        found = []
        for f, name in zip(self.layout.fields(t), self.layout.field_names(t)):
            if f[0] == 'struct' and f[1] == SLICE:  # what the struct was made over
                found += [(path + name + '.at', False), (path + name + '.len', False)]
            elif not self.layout.is_empty(f):
                found.append((path + name, True))
        return found

    def struct(self, t, c, name):
        """A struct is copied in, and what a call can change is copied out."""
        is_slice = t[0] == 'struct' and t[1] == SLICE
        members = [('at', True), ('len', True)] if is_slice else self.members(t, '')
        listed = self.header.structs[c]
        if len(members) != len(listed):
            raise Unsupported('%s: the fields of %s' % (self.name, c))
        self.before.append('%s in_%s;' % (self.layout.c(t), name))
        for (path, changes), (of, star, member) in zip(members, listed):
            self.before.append('in_%s.%s = %s%s->%s;' % (name, path, '(uint8_t *)' if star else '', name, member))
            value = 'in_%s.%s' % (name, path)
            if changes:
                self.after.append('%s->%s = %s;' % (name, member, 'pc_size(%s)' % value if of == 'size_t' else value))
        self.arguments.append('&in_' + name)
