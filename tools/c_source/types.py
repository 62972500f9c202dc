"""Types with their parameters filled in, and the traits' dictionaries with them.

A type is a tuple: `('int', 32)`, `('ref', T)`, `('named', NAME, (ARGUMENT, ..))` and so on. So a function's instance is a triple of its
name, its types and its dictionaries, by which instances are compared.
"""
from .mir import Unsupported, checked, tagged

UNIT, BOOL, POINTER = ('unit',), ('bool',), ('pointer',)
TYPES = ('Unit', 'Bool', 'Ptr', 'Int', 'Param', 'Const', 'Ref', 'Struct', 'Named', 'Array', 'Vector')
WIDTHS = (8, 16, 32, 64, 128)
SLICE = '&[]'


def integer(width):
    """Returns the type of an integer, which in MIR has a width and no sign."""
    if width not in WIDTHS:
        raise Unsupported('an integer of %s bits' % width)
    return ('int', width)


class Instance:
    """What the parameters of a function or a type stand for."""

    def __init__(self, types, dicts):
        self.types, self.dicts = types, dicts

    def type(self, t):
        """Returns a type, with the parameters filled in."""
        tag, v = tagged('type', t, TYPES)
        if v is None:
            if tag not in ('Unit', 'Bool', 'Ptr'):
                raise Unsupported('type ' + tag)
            return {'Unit': UNIT, 'Bool': BOOL, 'Ptr': POINTER}[tag]
        if tag == 'Int':
            return integer(v)
        if tag == 'Param':
            return self.types[v]
        if tag == 'Const':
            return ('number', v)
        if tag == 'Ref':
            return ('ref', self.type(v[2]))
        if tag == 'Struct':
            return ('struct', v[0], self.all(v[1]))
        if tag == 'Named':
            return ('named', checked('named', v[0])['name'], self.all(v[1]))
        return ('array' if tag == 'Array' else 'lanes', self.type(v[0]), self.number(v[1]))

    def all(self, types):
        """Returns some types, with the parameters filled in."""
        return tuple(self.type(t) for t in types)

    def number(self, n):
        """Returns the number of elements of an array."""
        tag, v = tagged('count', n, ('Lit', 'Param'))
        if tag == 'Lit':
            return v
        kind, number = self.types[v]
        if kind != 'number':
            raise Unsupported('a count that is a type')
        return number

    def dict(self, d):
        """Returns the impl by which a type has a trait."""
        tag, v = tagged('dictionary', d, ('Given', 'Impl'))
        if tag == 'Given':
            return self.dicts[v]
        name, types, dicts = v
        return (name, self.all(types), tuple(self.dict(x) for x in dicts))

    def callee(self, c, mir):
        """Returns the instance of a function that a call calls."""
        tag, v = tagged('callee', c, ('Fn', 'Method'))
        if tag == 'Fn':
            name, instance = v
            types, dicts = (), ()
        else:
            impl, types, dicts = self.dict(v[0])
            name, instance = mir.impl(impl)['methods'][v[1]], v[2]
        checked('instance', instance)
        return (name, types + self.all(instance['types']), dicts + tuple(self.dict(x) for x in instance['dicts']))
