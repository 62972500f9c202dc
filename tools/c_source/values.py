"""Fewer and clearer locals: each value gets its own, copies of a value share one, and what nothing reads is left out."""
from collections import Counter, defaultdict

from .tree import copied, each_node, read, target, through_pointer, value_of, written


def in_memory(function):
    """Returns the locals that something points to."""
    taken = {i for i, each in enumerate(function.mir['locals']) if each['home'] == 'MemorySlot'}
    for node in each_node(function.body):
        if node.kind == 'Assign' and value_of(node)[0] == 'AddrOf' and not through_pointer(node.says[1]['AddrOf']):
            taken.add(node.says[1]['AddrOf']['local'])
    return taken


class Uses:
    """How often each local is read and written, where what is read has a size."""

    def __init__(self, function):
        self.reads, self.writes, self.in_parts = Counter(), Counter(), set()
        for node in each_node(function.body):
            self.reads.update(p['local'] for p in read(node) if function.is_read(node, p))
            local = written(node)
            if local is not None:
                self.writes[local] += 1
                if target(node)['steps']:
                    self.in_parts.add(local)


def drop_unread(function):
    """Takes out the assignments to locals that nothing reads."""
    found = True
    while found:
        uses, taken = Uses(function), in_memory(function)
        found = False
        for node in each_node(function.body):
            local = written(node)
            if node.kind in ('Assign', 'LendStatic') and local and not uses.reads[local] and local not in taken:
                node.kind, node.says, found = 'Skip', None, True


def writes_within(node, kept):
    """Returns the locals that a statement and all in it write."""
    if id(node) not in kept:
        own = {written(node)} - {None}
        kept[id(node)] = own.union(*(writes_within(each, kept) for each in node.inner))
    return kept[id(node)]


def definition(local, chain, kept):
    """Returns the one statement that gives a local the value that is read at the end of a chain of statements, or None."""
    for parent, place in reversed(chain):
        if parent.kind == 'Loop' and local in writes_within(parent, kept):
            return None
        for before in reversed(parent.inner[:place]) if parent.kind == 'Seq' else ():
            if written(before) == local:
                return before
            if local in writes_within(before, kept):
                return None
    return None


def split(function):
    """Gives each value its own local, where a local holds several, one after the other."""
    uses = Uses(function)
    kept, readers, unclear = {}, defaultdict(list), set()
    several = {l for l, n in uses.writes.items() if n > 1 and l > function.mir['params']} - in_memory(function) - uses.in_parts

    def follow(node, chain):
        for place in read(node):
            if place['local'] in several:
                by = definition(place['local'], chain, kept)
                readers[id(by)].append(place)
                if by is None:
                    unclear.add(place['local'])
        for i, each in enumerate(node.inner):
            follow(each, chain + [(node, i)])

    follow(function.body, [])
    first = set()
    for node in each_node(function.body):
        local = written(node)
        if local in several - unclear:
            if local in first:
                rename(node, readers[id(node)], function.another(local))
            first.add(local)


def rename(node, readers, local):
    """Has a statement write another local, and its readers read that."""
    target(node)['local'] = local
    for place in readers:
        place['local'] = local


def count(nodes, local, of):
    """Returns how often some statements read or write a local."""
    return sum(of(each, local) for node in nodes for each in each_node(node))


def writes_it(node, local):
    """1 if a statement writes a local."""
    return int(written(node) == local)


def reads_it(node, local):
    """Returns how often a statement reads a local."""
    return sum(p['local'] == local for p in read(node))


class Join:
    """A copy `x = y` after which nothing reads `y`: both can be `x`."""

    def __init__(self, function):
        self.function, self.uses, self.taken = function, Uses(function), in_memory(function)

    def fits(self, inner, i):
        """Returns the two locals if the statement at a place of a sequence is such a copy, or None."""
        node = inner[i]
        source = copied(value_of(node)[1]) if node.kind == 'Assign' and value_of(node)[0] == 'Opd' else None
        if source is None or source['steps'] or node.says[0]['steps']:
            return None
        x, y = node.says[0]['local'], source['local']
        if min(x, y) <= self.function.mir['params'] or x == y or y in self.taken or self.function.types[x] != self.function.types[y]:
            return None
        before = inner[:i]
        while before and not count(before[:1], y, writes_it):
            before = before[1:]
        if x in self.taken and not self.is_written_at_once(before, y):
            return None
        alone = self.uses.reads[y] == 1 and 0 < self.uses.writes[y] == count(before, y, writes_it)
        between = count(before, x, writes_it) + count(before, x, reads_it)
        exits = any(each.kind == 'Exit' for node in before for each in each_node(node))
        return (x, y) if alone and not between and not exits else None

    def is_written_at_once(self, before, y):
        """Whether one statement writes `y` and ends with that, so that it can write what a pointer that it reads points to."""
        return len(before) == 1 and written(before[0]) == y and self.function.types[y][0] not in ('array', 'lanes')


def join(function):
    """Has one local for two, where the second only takes over the value of the first."""
    again = True
    while again:
        again = False
        joins = Join(function)
        for node in list(each_node(function.body)):
            found = next(((i, p) for i in range(len(node.inner)) for p in [joins.fits(node.inner, i)] if p), None) if node.kind == 'Seq' else None
            if found:
                i, (x, y) = found
                del node.inner[i]
                replace(function.body, y, x)
                again = True
                break


def replace(body, old, new):
    """Puts one local in the place of another."""
    for node in each_node(body):
        for place in read(node) + [target(node)]:
            if place is not None and place['local'] == old:
                place['local'] = new
