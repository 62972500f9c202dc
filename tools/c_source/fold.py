"""Puts a value that is read once into the place that reads it, where nothing between the two can change it."""
from .tree import Node, copied, each_node, places, read, target, through_pointer, value_of, written
from .values import Uses, in_memory

EXPRESSIONS = ('Opd', 'Op1', 'Op2', 'AddrOf', 'SizeOf', 'NumOf')
OF_LANES = ('Repeat', 'Vec2')


class Fold:
    """The values of a function that are written where they are read: `function.folded` has them, by local."""

    def __init__(self, function):
        self.function, self.uses, self.taken = function, Uses(function), in_memory(function)
        self.needs = {}  # of a folded local: the locals that its value reads, and whether it reads memory
        self.calls = set()  # the folded locals that are results of calls

    def run(self):
        """Folds what can be."""
        for node in each_node(self.function.body):
            if node.kind == 'Seq':
                for i, each in enumerate(node.inner):
                    self.assignment(node.inner, i) if each.kind == 'Assign' else self.call(node.inner, i) if each.kind == 'Call' else None

    def once(self, node):
        """Returns the local that only this statement writes, and only one place reads, or None."""
        local = written(node)
        if local is None or target(node)['steps'] or local <= self.function.mir['params'] or local in self.taken:
            return None
        single = self.uses.reads[local] == self.uses.writes[local] == 1
        return local if single and not self.function.layout.is_empty(self.function.types[local]) else None

    def assignment(self, inner, i):
        """Folds the assignment at a place of a sequence, if it can be."""
        node, local = inner[i], self.once(inner[i])
        if local is None or not self.foldable(node, local):
            return
        for j in range(i + 1, len(inner)):
            if self.reads(inner[j], local):
                needs = self.needed(node)
                if self.holds(inner[j], node, local) and not self.changed(needs, inner[i + 1:j]):
                    self.hide(node, local, needs)
                return

    def reads(self, node, local):
        """Whether a statement reads a local itself."""
        return any(p['local'] == local and self.function.is_read(node, p) for p in read(node))

    def hide(self, node, local, needs):
        """Notes that a value is written where it is read."""
        self.function.folded[local] = node
        self.needs[local] = needs
        node.hidden = True

    def foldable(self, node, local):
        """Whether a value can be written as an expression."""
        kind, v = value_of(node)
        t = self.function.types[local]
        if any(p['local'] in self.calls for p in places(node.says[1])):
            return False  # a call stays where it is
        if kind == 'Aggregate':
            return self.function.layout.is_plain(t)
        if kind in OF_LANES:
            return t[0] == 'lanes'
        if kind == 'Opd' and t[0] in ('array', 'lanes'):
            return t[0] == 'lanes' and copied(v) is not None
        return kind in EXPRESSIONS

    def holds(self, user, node, local):
        """Whether the statement that reads a value can hold its expression."""
        lanes = self.function.types[local][0] == 'lanes'
        if user.kind != 'Assign':
            return not lanes
        kind, v = value_of(user)
        if lanes:
            return kind in ('Vec1', 'Vec2')
        return kind not in ('Repeat', 'Select', 'Vec1', 'Vec2') and not (kind == 'AddrOf' and v['local'] == local and not through_pointer(v))

    def needed(self, node):
        """Returns the locals that a value reads, and whether it reads memory."""
        kind, v = value_of(node)
        locals_, memory = set(), False
        for place in places(node.says[1]):
            locals_.add(place['local'])
            inner, of_inner = self.needs.get(place['local'], (set(), False))
            locals_ |= inner
            pointers = sum('Deref' in step for step in place['steps']) - (kind == 'AddrOf')
            memory = memory or of_inner or pointers > 0 or (place['local'] in self.taken and pointers == 0)
        return locals_, memory

    def changed(self, needs, between):
        """Whether statements change what a value reads."""
        for node in between:
            for each in each_node(node):
                if each.kind in ('Assign', 'Call', 'LendStatic'):
                    local = written(each)
                    if local in needs[0] or (needs[1] and (local is None or local in self.taken or each.kind == 'Call')):
                        return True
        return False

    def call(self, inner, i):
        """Folds the call at a place of a sequence into the next statement, if its result is all that this reads."""
        node, local = inner[i], self.once(inner[i])
        user = inner[i + 1] if i + 1 < len(inner) else Node('Skip')
        found = read(user)
        if local is None or len(found) != 1 or found[0] != {'local': local, 'steps': []}:
            return
        if not self.function.layout.is_scalar(self.function.types[local]):
            return
        assigns = user.kind == 'Assign' and value_of(user)[0] == 'Opd' and not through_pointer(user.says[0])
        if user.kind == 'If' or (user.kind == 'Switch' and len(user.inner) > 2) or assigns:
            self.hide(node, local, (set(), True))
            self.calls.add(local)
