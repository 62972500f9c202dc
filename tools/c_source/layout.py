"""Types as C has them: structs with all variants' fields side by side, and nothing at all for a type without size.

An enum is a struct of a `tag` and the fields of each variant. It is no union, since compilers keep the fields of a struct in registers
and don't do so with a union's. An enum whose variants have no fields is its tag alone.
"""
import re

from .mir import Unsupported, tagged
from .types import BOOL, POINTER, SLICE, Instance

LONGEST = 60  # characters of a name; C99 tells names apart by their first 63


class Layout:
    """The C types, declared as they are asked for, each after those that it has."""

    def __init__(self, mir, sources, taken):
        self.mir, self.sources, self.taken = mir, sources, set(taken)
        self.names, self.declared, self.empty = {}, [], {}

    def unique(self, name):
        """Returns a name that nothing has yet: this one, or with a number."""
        made, number = name[:LONGEST].rstrip('_'), 1
        while made in self.taken:
            number += 1
            made = '%s_%d' % (name[:LONGEST - 4].rstrip('_'), number)
        self.taken.add(made)
        return made

    def shape(self, t):
        """Returns the fields of a struct and None, or None and the fields of each variant of an enum."""
        if t[0] == 'struct':
            return list(t[2]), None
        tag, v = tagged('shape', self.mir.type(t[1])['shape'], ('Fields', 'Variants'))
        filled = Instance(t[2], ())
        if tag == 'Fields':
            return list(filled.all(v)), None
        return None, [list(filled.all(each)) for each in v]

    def fields(self, t):
        """Returns the types of a struct's fields."""
        return self.shape(t)[0]

    def variants(self, t):
        """Returns the types of the fields of each variant of an enum, or None for another type."""
        return self.shape(t)[1] if t[0] == 'named' else None

    def is_empty(self, t):
        """Whether a type has no size."""
        if t not in self.empty:
            self.empty[t] = self.find_empty(t)
        return self.empty[t]

    def find_empty(self, t):
        """Whether a type has no size, worked out."""
        if t[0] in ('int', 'bool', 'pointer', 'ref'):
            return False
        if t[0] in ('unit', 'number'):
            return True
        if t[0] in ('array', 'lanes'):
            return t[2] == 0 or self.is_empty(t[1])
        fields, variants = self.shape(t)
        return not variants if fields is None else all(map(self.is_empty, fields))

    def is_plain(self, t):
        """Whether a type is an enum whose variants have no content."""
        variants = self.variants(t)
        return variants is not None and all(self.is_empty(f) for fields in variants for f in fields)

    def is_scalar(self, t):
        """Whether a type is no struct in C."""
        return t[0] in ('int', 'bool', 'pointer', 'ref') or self.is_plain(t)

    def short(self, t):
        """Returns a type's name as part of another."""
        kind = t[0]
        if kind == 'int':
            return 'u%d' % t[1]
        if kind == 'number':
            return '%d' % t[1]
        if kind == 'ref':
            return 'ref_' + self.short(t[1])
        if kind in ('array', 'lanes'):
            return '%s%d_%s' % (kind, t[2], self.short(t[1]))
        if kind == 'struct' and t[1] == SLICE:
            element = t[2][0]
            return 'slice_' + self.short(element[1] if element[0] == 'ref' else element)
        if kind in ('struct', 'named'):
            last = t[1].split('::')[-1]
            name = 'tuple' if last.startswith('(') else re.sub(r'\W+', '_', last).strip('_') or 'record'
            return '_'.join([name] + [self.short(x) for x in t[2]])
        return {'unit': 'unit', 'bool': 'bool', 'pointer': 'pointer'}[kind]

    def c(self, t):
        """Returns a type as C has it before a declarator."""
        if t[0] == 'int':
            return 'pc_u128' if t[1] == 128 else 'uint%d_t' % t[1]
        if t == BOOL:
            return 'bool'
        if t == POINTER or t[0] == 'ref' and self.is_empty(t[1]):
            return 'uint8_t *'
        if t[0] == 'ref':
            pointed = self.c(t[1])
            return pointed + ('*' if pointed.endswith('*') else ' *')
        if self.is_empty(t):
            raise Unsupported('a value of the type %s, which has no size' % self.short(t))
        if t not in self.names:
            members = self.members(t)  # which declares what the type has, first
            self.names[t] = name = self.unique('pc_' + self.short(t))
            self.declared.append('typedef uint8_t %s; /* %s */' % (name, self.legend(t)) if self.is_plain(t) else
                                 'typedef struct %s {\n    %s\n} %s;' % (name, '\n    '.join(members), name))
        return self.names[t]

    def declaration(self, t, name):
        """Returns the declaration of a variable, a parameter or a member."""
        c = self.c(t)
        return c + ('' if c.endswith('*') else ' ') + name

    def members(self, t):
        """Returns the declarations of a struct's members."""
        if t[0] in ('array', 'lanes'):
            return ['%s[%d];' % (self.declaration(t[1], 'at'), t[2])]
        variants = self.variants(t)
        if variants is None:
            members = zip(self.fields(t), self.field_names(t))
            return [self.declaration(f, n) + ';' for f, n in members if not self.is_empty(f)]
        listed = [(f, self.member(t, v, i)) for v, fields in enumerate(variants) for i, f in enumerate(fields) if not self.is_empty(f)]
        listed.sort(key=lambda x: self.alignment(x[0]))  # so that what is as small as the tag lies beside it
        return ['uint8_t tag; /* %s */' % self.legend(t)] + [self.declaration(f, name) + ';' for f, name in listed]

    def alignment(self, t):
        """Returns what a type's alignment is at most on a processor of 32 bits."""
        if t[0] == 'int':
            return min(t[1] // 8, 8)
        if self.is_empty(t) or t[0] == 'bool' or self.is_plain(t):
            return 1
        if t[0] in ('pointer', 'ref'):
            return 4
        if t[0] in ('array', 'lanes'):
            return self.alignment(t[1])
        fields, variants = self.shape(t)
        return max(map(self.alignment, fields if variants is None else [f for each in variants for f in each]))

    def legend(self, t):
        """Returns which number stands for which variant."""
        return ', '.join('%d %s' % x for x in enumerate(self.variant_names(t)))

    def field_names(self, t):
        """Returns the names of a struct's members."""
        if t[0] == 'struct' and t[1] == SLICE:
            return ['at', 'len']
        count = len(self.fields(t))
        found = self.sources.fields(t[1], count) if t[0] == 'named' and not t[1].split('::')[-1].startswith('(') else None
        return found or ['f%d' % i for i in range(count)]

    def variant_names(self, t):
        """Returns the names of an enum's variants."""
        count = len(self.variants(t))
        return self.sources.variants(t[1], count) or ['V%d' % i for i in range(count)]

    def member(self, t, variant, field):
        """Returns the member that is a variant's field."""
        name = self.variant_names(t)[variant]
        several = sum(not self.is_empty(f) for f in self.variants(t)[variant]) > 1
        return '%s_%d' % (name, field) if several else name
