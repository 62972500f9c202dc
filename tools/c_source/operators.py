"""What MIR's operators are in C: integers are unsigned there, and a sign is that of two's complement."""
from .expressions import UNARY, Expression, binary, called, literal, unary, wide
from .mir import Unsupported, tagged
from .types import BOOL, POINTER, integer

ARITHMETIC = {'Add': '+', 'Sub': '-', 'Mul': '*', 'WrapAdd': '+', 'WrapSub': '-', 'WrapMul': '*', 'And': '&', 'Or': '|', 'Xor': '^'}
COMPARISONS = {'Lt': ('<', '>='), 'Le': ('<=', '>'), 'Eq': ('==', '!='), 'Ne': ('!=', '==')}
OF_BOOLS = {'And': ('&&', None), 'Or': ('||', None), 'Xor': ('!=', '=='), 'Eq': ('==', '!='), 'Ne': ('!=', '==')}
OF_POINTERS = {'PtrEq': ('==', '!='), 'PtrLt': ('<', '>=')}
BINARIES = set(ARITHMETIC) | set(COMPARISONS) | set(OF_POINTERS) | {'Offset', 'Shl', 'Shr', 'Div', 'Rem'}
COUNTS = {'TrailingZeros': 'pc_trailing_zeros', 'LeadingZeros': 'pc_leading_zeros', 'CountOnes': 'pc_count_ones'}
SIGNS = (None, 'Signed', 'Unsigned')


def narrow(width, e):
    """Returns a value of `width` bits, of which C may have computed more."""
    return unary('(uint%d_t)' % width, e) if width < 32 else e


def sign_of(operator):
    """Returns an operator's name, and whether its numbers have a sign."""
    name, sign = tagged('operator', operator, BINARIES)
    if sign not in SIGNS:
        raise Unsupported('operator %s of %s' % (name, sign))
    return name, sign == 'Signed'


def two(convert, operator, a, type_a, b, type_b):
    """Returns the expression of an operator with two operands. `convert` makes a pointer one of another type."""
    name, signed = sign_of(operator)
    if name in OF_POINTERS or name == 'Offset':
        a = convert(a, type_a, POINTER)
        if name == 'Offset':
            return a if b.literal == 0 else binary(a, '+', b)
        sign, opposite = OF_POINTERS[name]
        return binary(a, sign, convert(b, type_b, POINTER), opposite)
    if type_a == BOOL and name in OF_BOOLS:
        sign, opposite = OF_BOOLS[name]
        return binary(a, sign, b, opposite)
    if type_a[0] != 'int' or type_a != type_b:
        raise Unsupported('operator %s of %s and %s' % (name, type_a, type_b))
    width = type_a[1]
    if name in COMPARISONS:
        return compared(name, signed, width, a, b)
    if name in ('Shl', 'Shr'):
        return shifted(name, signed, width, a, b)
    if name in ('Div', 'Rem'):
        return divided(name, signed, width, a, b)
    if width == 128:
        return called('pc_u128_' + name.lower().replace('wrap', ''), a, b)
    if name.endswith('Mul') and b.literal == 1:
        return a
    if b.literal is not None or (width < 32 and name.endswith('Mul')):
        a = unary('(uint32_t)', a) if width < 32 and name.endswith('Mul') else wide(a, width)
    return narrow(width, binary(a, ARITHMETIC[name], b))


def compared(name, signed, width, a, b):
    """Returns a comparison. The order of signed numbers is that of unsigned ones whose highest bit is turned over."""
    if width == 128:
        if signed:
            a, b = called('pc_u128_flip', a), called('pc_u128_flip', b)
        return called('pc_u128_' + name.lower(), a, b)
    if signed:
        flip = literal(width, 1 << (width - 1))
        a, b = binary(a, '^', flip), binary(b, '^', flip)
    sign, opposite = COMPARISONS[name]
    return binary(a, sign, b, opposite)


def shifted(name, signed, width, a, b):
    """Returns a shift. The number of places has the type of what is shifted, and is below its width."""
    if width == 128:
        b = literal(32, b.literal) if b.literal is not None else called('pc_u128_low', b)
    b = b if b.literal is not None else unary('(unsigned)', b)
    if width == 128:
        return called('pc_u128_' + ('shl' if name == 'Shl' else 'sar' if signed else 'shr'), a, b)
    if name == 'Shr':
        return called('pc_sar%d' % width, a, b) if signed else narrow(width, binary(wide(a, width), '>>', b))
    return narrow(width, binary(unary('(uint32_t)', a) if width < 32 else wide(a, width), '<<', b))


def divided(name, signed, width, a, b):
    """Returns a quotient or a remainder. A signed one is made of 64 or of 128 bits."""
    if width == 128:
        power = b.literal.bit_length() - 1 if b.literal and not signed else -1
        if power >= 0 and b.literal == 1 << power:
            return called('pc_u128_shr', a, literal(32, power)) if name == 'Div' else called('pc_u128_and', a, literal(128, b.literal - 1))
        return called('pc_u128_' + ('s' if signed else '') + name.lower(), a, b)
    if not signed:
        return narrow(width, binary(wide(a, width), '/' if name == 'Div' else '%', b))
    quotient = called('pc_s%s64' % name.lower(), extended(a, width, 64), extended(b, width, 64))
    return quotient if width == 64 else unary('(uint%d_t)' % width, quotient)


def extended(e, width, to):
    """Returns a signed number as a wider one."""
    return e if width == to else called('pc_sext%d_%d' % (width, to), e)


def one(operator, a, type_a):
    """Returns the expression of an operator with one operand."""
    name, v = tagged('operator', operator, ('Not', 'Cast') + tuple(COUNTS))
    if name == 'Not':
        if type_a == BOOL:
            return a.negated()
        if type_a[1] == 128:
            return called('pc_u128_not', a)
        return narrow(type_a[1], unary('~', wide(a, type_a[1])))
    if name == 'Cast':
        return cast(v, a, type_a)
    return called('%s%d' % (COUNTS[name], type_a[1]), a)


def cast(says, a, type_a):
    """Returns a number of another width, or a `bool` as a number."""
    signed, width = says[0] == 'Signed' and type_a != BOOL, integer(says[2])[1]
    if says[0] not in SIGNS or says[1] not in SIGNS or type_a != BOOL and type_a[0] != 'int':
        raise Unsupported('a cast of %s by %s' % (type_a, says))
    have = 1 if type_a == BOOL else type_a[1]
    if have == width:
        return a
    if signed and width > have:
        return extended(a, have, width)
    if width == 128:
        return called('pc_u128_of', a, literal(64, 0))
    if have == 128:
        a = called('pc_u128_low', a)
        return a if width == 64 else unary('(uint%d_t)' % width, a)
    return Expression('(uint%d_t)%s' % (width, a.operand()), UNARY)
