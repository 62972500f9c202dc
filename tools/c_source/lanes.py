"""Vectors: loops over their lanes, and words of 8 bytes for the test which bytes equal one."""
from . import operators
from .expressions import CONDITIONAL, Expression, binary, called, literal, unary
from .mir import Unsupported, tagged
from .tree import copied, through_pointer, value_of
from .types import POINTER, integer

BYTE = integer(8)


class Lanes:
    """A vector's value: `at` gives the expression of the lane with an index. The rest is there if the value is of that kind."""

    def __init__(self, t, at, pointer=None, same=None, equals=None):
        self.type, self.at = t, at
        self.pointer = pointer  # to the bytes that are the lanes
        self.same = same        # the one expression that every lane has
        self.equals = equals    # the two vectors of which each lane says whether they are equal


class OfLanes:
    """The vectors of a function."""

    def lanes(self, o):
        """Returns the value of an operand that is a vector."""
        place = copied(o)
        if place is None or place['steps'] and not through_pointer(place):
            raise Unsupported('a vector that is no local')
        t = self.place_type(place)
        if not place['steps'] and place['local'] in self.folded:
            kind, v = value_of(self.folded[place['local']])
            return self.lanes(v) if kind == 'Opd' else self.lanes_of(kind, v, t)
        if through_pointer(place):
            if t[1] != BYTE:
                raise Unsupported('a vector of %s behind a pointer' % (t[1],))
            pointer = self.address(place, POINTER)
            return Lanes(t, lambda i: Expression('%s[%s]' % (pointer.atom(), i)), pointer)
        text = self.variable(place['local']).text
        return Lanes(t, lambda i: Expression('%s.at[%s]' % (text, i)), Expression(text + '.at') if t[1] == BYTE else None)

    def lanes_of(self, kind, v, t):
        """Returns a vector that is computed."""
        if kind == 'Repeat':
            same = self.operand(v[0])[0]
            return Lanes(t, lambda i: same, None, same)
        if kind != 'Vec2':
            raise Unsupported('a vector made by ' + kind)
        name, operator = tagged('operator of two vectors', v[0], ('Mask', 'Map'))
        a, b = self.lanes(v[1]), self.lanes(v[2])

        def lane(i):
            e = operators.two(self.converted, operator, a.at(i), a.type[1], b.at(i), b.type[1])
            return e if name == 'Map' else Expression('%s ? %s : 0u' % (e.operand(), literal(t[1][1], -1)), CONDITIONAL)
        return Lanes(t, lane, None, None, (a, b) if name == 'Mask' and operator == 'Eq' else None)

    def assign_lanes(self, target, kind, v, t):
        """Writes the assignment of a vector."""
        value = self.lanes(v) if kind == 'Opd' else self.lanes_of(kind, v, t)
        if value.same is not None and value.same.literal == 0:
            self.line('memset(&%s, 0, sizeof %s);' % (target, target))
            return
        self.line('for (unsigned i = 0; i < %du; i++) %s.at[i] = %s;' % (t[2], target, self.as_lane(t, value.at('i'))))

    def as_lane(self, t, e):
        """Returns an expression as a lane holds it."""
        return unary('(%s)' % self.layout.c(t[1]), e) if e.level == CONDITIONAL else e

    def assign_of_lanes(self, target, v, t):
        """Writes the assignment of a number with a bit for each lane of a vector of all ones and all zeros."""
        tagged('operator of a vector', v[0], ('Bitmask',))
        value = self.lanes(v[1])
        if value.equals and value.type[1] == BYTE and value.type[2] % 8 == 0 and t == integer(64):
            a, b = value.equals
            if a.pointer and b.same is not None:
                self.line('%s = %s;' % (target, called('pc_equal_bytes', a.pointer, b.same, literal(32, value.type[2]))))
                return
        bits = self.another_temporary(integer(64))
        lane = binary(value.at('i'), '!=', literal(8, 0))
        self.line('%s = 0u;' % bits)
        self.line('for (unsigned i = 0; i < %du; i++) %s |= (uint64_t)(%s) << i;' % (value.type[2], bits, lane))
        self.line('%s = %s;' % (target, operators.cast(('Unsigned', 'Unsigned', t[1]), Expression(bits), integer(64))))
