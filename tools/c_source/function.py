"""One function of the MIR as a function of C."""
import re

from . import fold, operators, scopes, values
from .expressions import Expressions, Place, called
from .lanes import OfLanes
from .mir import Unsupported, checked
from .statements import Statements
from .tree import each_node, live, parse, places, through_pointer
from .types import Instance


class Function(Expressions, OfLanes, Statements):
    """An instance of a function: a name, types and dictionaries, by which its parameters are filled in."""

    def __init__(self, program, key):
        self.program, self.key, self.layout = program, key, program.layout
        self.mir = program.mir.function(key[0])
        self.instance = Instance(key[1], key[2])
        self.types = [self.instance.type(each['ty']) for each in self.mir['locals']]
        self.body = parse(self.mir['body'])
        self.folded, self.callees = {}, []
        self.lines, self.depth, self.frames, self.labels, self.temporaries = [], 1, [], 0, []
        count = self.mir['params']
        self.parameters = program.sources.parameters(key[0], count) or ['a%d' % (i + 1) for i in range(count)]

    def another(self, local):
        """Returns a new local of the same type."""
        self.types.append(self.types[local])
        return len(self.types) - 1

    def another_temporary(self, t):
        """Returns the name of a new variable."""
        self.temporaries.append(t)
        return 't%d' % len(self.temporaries)

    def variable(self, local):
        """Returns the place that is a local."""
        count = self.mir['params']
        return Place(self.types[local], 'result' if local == 0 else self.parameters[local - 1] if local <= count else 'v%d' % local)

    def returns_nothing(self):
        """Whether the result has no size."""
        return self.layout.is_empty(self.types[0])

    def variant_number(self, v):
        """Returns the number of the variant that an enum's parts begin with."""
        return checked('number', v[0]['Int'])['value']

    def value(self, t, kind, v):
        """Returns a value as an expression of the type `t`."""
        if kind == 'Opd':
            return self.converted_operand(v, t)
        if kind == 'Op2':
            (a, type_a), (b, type_b) = self.operand(v[1]), self.operand(v[2])
            e = operators.two(self.converted, v[0], a, type_a, b, type_b)
            return self.converted(e, ('pointer',), t) if v[0] == 'Offset' else e
        if kind == 'Op1':
            return operators.one(v[0], *self.operand(v[1]))
        if kind == 'AddrOf':
            return self.address(v, t)
        return self.operand({kind: v})[0]

    def converted_operand(self, o, t):
        """Returns an operand as an expression of the type `t`."""
        e, have = self.operand(o)
        return self.converted(e, have, t)

    def folded_value(self, local):
        """Returns the value that is written in the stead of a local that is read once."""
        node, t = self.folded[local], self.types[local]
        if node.kind == 'Call':
            e, have = self.call(node.says)
            return self.converted(e, have, t)
        kind, v = values.value_of(node)
        if kind == 'Aggregate':
            return operators.literal(8, self.variant_number(v))
        return self.value(t, kind, v)

    def is_read_by(self, place, v):
        """Whether parts read what is in a place that they are assigned to."""
        memory = through_pointer(place) or place['local'] in self.fold.taken
        for each in places(v):
            locals_, of_memory = self.fold.needs.get(each['local'], (set(), False))
            if place['local'] in locals_ | {each['local']} or memory and (of_memory or through_pointer(each)):
                return True
        return False

    def is_unread(self, place):
        """Whether nothing reads a place."""
        local = place['local']
        return local != 0 and not place['steps'] and not self.fold.uses.reads[local] and local not in self.fold.taken

    def callee(self, node):
        """Returns the instance that a call calls."""
        return self.instance.callee(node.says[0], self.program.mir)

    def call(self, says):
        """Returns a call, and the type of its result."""
        key = self.instance.callee(says[0], self.program.mir)
        types = self.program.signature(key)
        if len(types) != len(says[1]) + 1:
            raise Unsupported('a call with %d arguments of %s' % (len(says[1]), key[0]))
        arguments = [self.converted_operand(o, t) for o, t in zip(says[1], types[1:]) if not self.layout.is_empty(t)]
        self.callees.append(key)
        return called(self.program.name(key), *arguments), types[0]

    def called_instances(self):
        """Returns the instances that the function calls, as MIR has it."""
        found = [self.callee(node) for node in each_node(self.body) if node.kind == 'Call']
        return [key for key in found if not self.program.does_nothing(key)]

    # The function's text.

    def declaration(self):
        """Returns the function's return type, name and parameters."""
        pairs = [(t, n) for t, n in zip(self.types[1:], self.parameters) if not self.layout.is_empty(t)]
        parameters = ', '.join(self.layout.declaration(t, n) for t, n in pairs) or 'void'
        name = self.program.name(self.key)
        return 'static inline ' + ('void ' + name if self.returns_nothing() else self.layout.declaration(self.types[0], name)) + '(%s)' % parameters

    def text(self):
        """Returns the function's comment and definition."""
        for node in each_node(self.body):
            if node.kind == 'Call' and self.program.does_nothing(self.callee(node)):
                node.kind, node.says = 'Skip', None
        values.drop_unread(self)
        values.split(self)
        values.join(self)
        self.fold = fold.Fold(self)
        self.fold.run()
        self.statement(live(self.body))
        if self.lines and self.lines[-1] == '    return;':
            self.lines.pop()
        pointed = {self.variable(local).text for local in self.fold.taken}
        lines = scopes.Scopes(self.unread() + self.lines, self.variables(), pointed).text()
        return '%s%s {\n%s}\n' % (self.comment(), self.declaration(), ''.join(x + '\n' for x in lines))

    def variables(self):
        """Returns the types in C of the variables that the lines name."""
        words, count = set(re.findall(r'\w+', '\n'.join(self.lines))), self.mir['params']
        named = [(t, self.variable(i).text) for i, t in enumerate(self.types) if i == 0 or i > count]
        named += [(t, 't%d' % (i + 1)) for i, t in enumerate(self.temporaries)]
        return {name: self.layout.c(t) for t, name in named if name in words}

    def unread(self):
        """Returns the lines that name parameters that nothing reads."""
        words = set(re.findall(r'\w+', '\n'.join(self.lines)))
        return ['    (void)%s;' % n for t, n in zip(self.types[1:], self.parameters) if n not in words and not self.layout.is_empty(t)]

    def comment(self):
        """Returns the function's path with its types, and what its source says of it."""
        name, types, _ = self.key
        lines = [name + ('::<%s>' % ', '.join(map(self.layout.short, types)) if types else '')] + self.program.sources.comment(name)
        lines = [x.replace('*/', '* /').replace('/*', '/ *') for x in lines]
        return '/* %s */\n' % lines[0] if len(lines) == 1 else '/* %s\n */\n' % '\n * '.join(lines).replace(' * \n', ' *\n')
