"""C expressions of places and operands, with as many parentheses as C's precedence and its compilers' warnings ask for."""
from .mir import Unsupported, checked, tagged
from .tree import through_pointer
from .types import BOOL, POINTER, UNIT, integer

ATOM, UNARY, BINARY, CONDITIONAL = range(4)


class Expression:
    """The text of a C expression, and how tightly it binds."""

    def __init__(self, text, level=ATOM, opposite=None, literal=None):
        self.text, self.level = text, level
        self.opposite = opposite  # the text of the opposite of a comparison
        self.literal = literal    # the number, if the expression is one

    def __str__(self):
        return self.text

    def atom(self):
        """Returns the text as it stands before `.` or `[`."""
        return self.text if self.level == ATOM else '(%s)' % self.text

    def operand(self):
        """Returns the text as it stands beside a binary operator, or behind a unary one."""
        return self.text if self.level <= UNARY else '(%s)' % self.text

    def negated(self):
        """Returns the opposite of a condition."""
        if self.opposite is not None:
            return Expression(self.opposite, BINARY, self.text)
        if self.text.startswith('!') and self.level == UNARY:
            return Expression(self.text[1:], UNARY)
        return Expression('!' + self.operand(), UNARY)


def unary(operator, e):
    """Returns a unary operator's expression."""
    return Expression(operator + e.operand(), UNARY)


def binary(a, operator, b, opposite=None):
    """Returns a binary operator's expression."""
    a, b = a.operand(), b.operand()
    return Expression('%s %s %s' % (a, operator, b), BINARY, opposite and '%s %s %s' % (a, opposite, b))


def called(name, *arguments):
    """Returns a call."""
    return Expression('%s(%s)' % (name, ', '.join(map(str, arguments))))


def literal(width, value):
    """Returns a number, as narrow as C lets it be."""
    value &= (1 << width) - 1
    digits = '%du' % value if value < 4096 else '0x%xu' % value
    if width == 128:
        low, high = literal(64, value), literal(64, value >> 64)
        return Expression('pc_u128_of(%s, %s)' % (low, high), ATOM, None, value)
    return Expression('UINT64_C(%s)' % digits[:-1] if width == 64 and value > 0xffff else digits, ATOM, None, value)


def wide(e, width):
    """Returns an expression that has the type of its width, which that of a number has only with a cast."""
    return Expression('(uint%d_t)%s' % (width, e.text), UNARY) if e.literal is not None and width <= 64 else e


class Place:
    """Something that C can assign to: a variable or a member, or what a pointer points to."""

    def __init__(self, t, text=None, pointer=None, expression=None):
        self.type, self.text, self.pointer = t, text, pointer
        self.expression = expression  # of a value that is no place, and so can only be read

    def value(self):
        """Returns what is in the place."""
        return unary('*', self.pointer) if self.pointer else self.expression or Expression(self.text)

    def address(self):
        """Returns a pointer to the place."""
        return self.pointer or Expression('&' + self.text, UNARY)

    def member(self, name, t):
        """Returns a member of the struct in the place."""
        return Place(t, '%s->%s' % (self.pointer.atom(), name) if self.pointer else '%s.%s' % (self.text, name))


class Expressions:
    """The expressions of a function. `Function` has what is used here: `layout`, `types`, `instance`, `folded`, `variable` and `program`."""

    def matters(self, place):
        """Whether what is in a place has a size."""
        return not self.layout.is_empty(self.place_type(place))

    def is_read(self, node, place):
        """Whether a statement reads something that has a size to have what is in a place, or its address."""
        addressed = node.kind == 'Assign' and 'AddrOf' in node.says[1] and through_pointer(place)
        return addressed or self.matters(place)

    def place_type(self, place):
        """Returns the type of what is in a place."""
        t, variant = self.types[place['local']], None
        for step in place['steps']:
            t, variant = self.step_type(t, variant, step)
        return t

    def step_type(self, t, variant, step):
        """Returns the type and the variant that a step of a place leads to."""
        tag, v = tagged('step', step, ('Deref', 'Variant', 'Field'))
        if tag == 'Deref':
            return self.instance.type(v), None
        if tag == 'Variant':
            return t, v
        if self.layout.variants(t) is None:
            return self.layout.fields(t)[v], None
        return (integer(8) if v == 0 else self.layout.variants(t)[variant][v - 1]), None

    def place(self, place):
        """Returns a place, in which is something that has a size."""
        local, variant = place['local'], None
        t = self.types[local]
        found = None if self.layout.is_empty(t) else self.root(local, t)
        for step in place['steps']:
            before, was = t, variant
            t, variant = self.step_type(t, variant, step)
            tag, v = tagged('step', step, ('Deref', 'Variant', 'Field'))
            if tag == 'Deref':
                pointer = self.converted(found.value(), before, ('ref', t))
                found = None if self.layout.is_empty(t) else Place(t, None, pointer)
            elif tag == 'Field':
                found = None if self.layout.is_empty(t) or found is None else self.field(found, before, was, v, t)
        if found is None:
            raise Unsupported('a place behind one without size')
        return found

    def root(self, local, t):
        """Returns the place that is a local, or the value that is written in its stead."""
        if local in self.folded:
            e = self.folded_value(local)
            return Place(t, e.atom(), None, e)
        return self.variable(local)

    def field(self, found, struct, variant, number, t):
        """Returns the member for a field of a struct or of a variant. Field 0 of an enum is its tag."""
        if self.layout.variants(struct) is None:
            return found.member(self.layout.field_names(struct)[number], t)
        if number:
            return found.member(self.layout.member(struct, variant, number - 1), t)
        return Place(t, found.text, found.pointer) if self.layout.is_plain(struct) else found.member('tag', t)

    def converted(self, e, have, want):
        """Returns a value of one type where one of another is wanted. Only pointers differ."""
        a, b = self.layout.c(have), self.layout.c(want)
        if a == b:
            return e
        if not (a.endswith('*') and b.endswith('*')):
            raise Unsupported('a value of the type %s as one of %s' % (a, b))
        return unary('(%s)' % b, e)

    def operand(self, o):
        """Returns the expression of an operand, None if it has no size, and its type."""
        tag, v = tagged('operand', o, ('Copy', 'Move', 'Int', 'Bool', 'True', 'False', 'Unit', 'Null', 'NumOf', 'SizeOf'))
        if tag in ('Copy', 'Move'):
            t = self.place_type(v)
            if self.layout.is_empty(t):
                return None, t
            is_folded = v['local'] in self.folded and not v['steps']
            return (self.folded_value(v['local']) if is_folded else self.place(v).value()), t
        if tag == 'Int':
            checked('number', v)
            return literal(v['width'], v['value']), integer(v['width'])
        if tag in ('Bool', 'True', 'False'):
            return Expression('true' if v or tag == 'True' else 'false'), BOOL
        if tag == 'Unit':
            return None, UNIT
        if tag == 'Null':
            return Expression('(uint8_t *)0', UNARY), POINTER
        if tag == 'NumOf':
            return literal(v[0], self.instance.number(v[1])), integer(v[0])
        return self.size_of(self.instance.type(v)), integer(64)

    def size_of(self, t):
        """Returns the size of a type in bytes, as C has it."""
        if self.layout.is_empty(t) or t == BOOL or t[0] == 'int' and t[1] <= 64:
            return literal(64, 0 if self.layout.is_empty(t) else 1 if t == BOOL else t[1] // 8)
        return Expression('(uint64_t)sizeof(%s)' % self.layout.c(t), UNARY)

    def address(self, place, t):
        """Returns a pointer of the type `t` to a place."""
        steps = place['steps']
        if steps and 'Deref' in steps[-1]:
            pointer = {'local': place['local'], 'steps': steps[:-1]}
            return self.converted(self.place(pointer).value(), self.place_type(pointer), t)
        if not self.matters(place):
            return self.converted(self.nothing(), POINTER, t)
        found = self.place(place)
        return self.converted(found.address(), ('ref', found.type), t)

    def nothing(self):
        """Returns a pointer to something without size."""
        self.program.uses_nothing = True
        return Expression('&pc_nothing', UNARY)
