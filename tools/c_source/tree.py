"""A function's statements as a tree, and the places that each reads and writes."""
import copy

from .mir import Unsupported, checked, tagged

# The tags of MIR: statements without content, all statements, and the values that an assignment writes.
WORDS = ('Seq', 'Block', 'Loop', 'Skip', 'Return', 'Unreachable')
STATEMENTS = WORDS + ('If', 'Switch', 'Assign', 'Call', 'Exit', 'LendStatic')
VALUES = ('Opd', 'Op1', 'Op2', 'AddrOf', 'Aggregate', 'Repeat', 'Select', 'Vec1', 'Vec2', 'SizeOf', 'NumOf')


class Node:
    """A statement: its kind, what it says, and the statements in it."""
    __slots__ = ('kind', 'says', 'inner', 'hidden')

    def __init__(self, kind, says=None, inner=()):
        self.kind, self.says, self.inner = kind, says, list(inner)
        self.hidden = False  # whether its value is written where it is read, and the statement itself not at all


def parse(body):
    """Returns the tree of a function's body, which in MIR is a row of statements, each before those in it."""
    row = iter(copy.deepcopy(body))

    def statement(first):
        tag, says = tagged('statement', first, STATEMENTS)
        if (says is None) != (tag in WORDS):
            raise Unsupported('statement %s with another content' % tag)
        if tag == 'Seq':  # which nests to the right, too deep for a recursion
            inner = [statement(next(row))]
            following = next(row)
            while following == 'Seq':
                inner.append(statement(next(row)))
                following = next(row)
            return Node(tag, None, inner + [statement(following)])
        count = len(says[1]) + bool(says[2]) if tag == 'Switch' else {'Block': 1, 'Loop': 1, 'If': 2}.get(tag, 0)
        return Node(tag, says, [statement(next(row)) for _ in range(count)])

    try:
        tree = statement(next(row))
    except StopIteration as error:
        raise Unsupported('a body that ends early') from error
    if next(row, None) is not None:
        raise Unsupported('a body that goes on after its end')
    tree = flat(tree)
    for node in list(each_node(tree)):
        return_early(node)
    return flat(tree)


def flat(node):
    """Returns a tree in which no sequence is in a sequence, and no block is left by nothing."""
    inner = []
    for each in map(flat, node.inner):
        if each.kind == 'Block' and not leaves(each.inner[0], 0):
            lower(each.inner[0], 0)
            each = each.inner[0]
        if node.kind == 'Seq':
            inner += each.inner if each.kind == 'Seq' else [] if each.kind == 'Skip' else [each]
        else:
            inner.append(each)
    node.inner = inner
    return node


def return_early(node):
    """Has what exits a block after which the function returns at once return there. Loops are left by `break` as well."""
    for i, each in enumerate(node.inner if node.kind == 'Seq' else ()):
        tail = node.inner[i + 1:]
        copies = len(tail) == 2 and tail[0].kind == 'Assign' and value_of(tail[0])[0] == 'Opd' and written(tail[0]) == 0
        if each.kind == 'Block' and each.inner[0].kind != 'Loop' and tail and tail[-1].kind == 'Return' and (len(tail) == 1 or copies):
            replace_exits(each.inner[0], 0, each, tail)


def replace_exits(node, depth, parent, tail):
    """Puts a tail in the place of each exit of the block that is `depth` blocks and loops out."""
    if node.kind == 'Exit' and node.says == depth:
        parent.inner[[x is node for x in parent.inner].index(True)] = Node('Seq', None, copy.deepcopy(tail))
    for each in list(node.inner):
        replace_exits(each, depth + (node.kind in ('Block', 'Loop')), node, tail)


def leaves(node, depth):
    """Whether a statement exits the block that is `depth` blocks and loops out."""
    if node.kind == 'Exit':
        return node.says == depth
    return any(leaves(each, depth + (node.kind in ('Block', 'Loop'))) for each in node.inner)


def lower(node, depth):
    """Counts one block less for all that exits a block further out than `depth`."""
    if node.kind == 'Exit' and node.says > depth:
        node.says -= 1
    for each in node.inner:
        lower(each, depth + (node.kind in ('Block', 'Loop')))


def live(node):
    """Returns the statement, of a sequence of one that one, without what is hidden."""
    if node.kind != 'Seq':
        return Node('Skip') if node.hidden else node
    node.inner = [each for each in map(live, node.inner) if each.kind != 'Skip']
    return Node('Skip') if not node.inner else node.inner[0] if len(node.inner) == 1 else node


def through_pointer(place):
    """Whether a place is reached through a pointer."""
    return any('Deref' in step for step in place['steps'])


def places(x):
    """Returns all places in some JSON."""
    if isinstance(x, dict):
        if 'local' in x:
            return [checked('place', x)]
        return [p for y in x.values() for p in places(y)]
    return [p for y in x for p in places(y)] if isinstance(x, list) else []


def target(node):
    """Returns the place that a statement writes, or None."""
    index = {'Assign': 0, 'LendStatic': 0, 'Call': 2}.get(node.kind)
    return None if index is None else node.says[index]


def written(node):
    """Returns the local that a statement writes, or None."""
    place = target(node)
    return None if place is None or through_pointer(place) else place['local']


def read(node):
    """Returns the places that a statement reads itself, not those in it. A pointer that it writes through is read."""
    found = []
    if node.kind in ('Assign', 'Call'):
        found = places(node.says[1])
    elif node.kind == 'If':
        found = places(node.says)
    elif node.kind == 'Switch':
        found = places(node.says[0])
    place = target(node)
    return found + [place] if place is not None and through_pointer(place) else found


def each_node(node):
    """Goes through a statement and all in it."""
    yield node
    for inner in node.inner:
        yield from each_node(inner)


def value_of(node):
    """Returns the kind of value that an assignment writes, and what it is made of."""
    return tagged('value', node.says[1], VALUES)


def copied(operand):
    """Returns the place that an operand copies, or None."""
    return (operand.get('Copy') or operand.get('Move')) if isinstance(operand, dict) else None
