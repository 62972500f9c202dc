"""All functions that some exports reach, each once for its types, in an order in which each stands after those that it calls."""
import re

from .expressions import literal
from .function import Function
from .layout import Layout
from .mir import Unsupported, checked, tagged
from .tree import through_pointer
from .types import BOOL, Instance


class Program:
    """The C functions, types and tables that are reached."""

    def __init__(self, mir, sources, helpers):
        self.mir, self.sources, self.helpers = mir, sources, helpers
        self.layout = Layout(mir, sources, re.findall(r'\w+', helpers))
        self.names, self.functions, self.signatures, self.idle = {}, {}, {}, {}
        self.tables, self.table_lines = {}, []
        self.uses_nothing = False

    def function(self, key):
        """Returns the function of an instance."""
        if key not in self.functions:
            self.functions[key] = within(key, Function, self, key)
        return self.functions[key]

    def signature(self, key):
        """Returns the types of an instance's result and parameters."""
        if key not in self.signatures:
            mir, instance = self.mir.function(key[0]), Instance(key[1], key[2])
            self.signatures[key] = [instance.type(each['ty']) for each in mir['locals'][:mir['params'] + 1]]
        return self.signatures[key]

    def name(self, key):
        """Returns the name of an instance in C: the last words of its path, and its types."""
        if key not in self.names:
            path = [re.sub(r'\W+', '_', x).strip('_') for x in key[0].split('::')[-2:]]
            self.names[key] = self.layout.unique('_'.join(['pc'] + path + [self.layout.short(t) for t in key[1]]))
        return self.names[key]

    def does_nothing(self, key):
        """Whether a function's call can be left out: it has no result, and writes nothing but locals."""
        if key not in self.idle:
            self.idle[key] = False  # of a function that calls itself
            function = Function(self, key) if self.layout.is_empty(self.signature(key)[0]) else None
            self.idle[key] = function is not None and self.is_idle(function, function.body)
        return self.idle[key]

    def is_idle(self, function, node):
        """Whether a statement writes nothing but locals."""
        if node.kind == 'Assign':
            return not through_pointer(node.says[0])
        if node.kind == 'Call':
            return self.does_nothing(function.callee(node))
        return node.kind in ('Seq', 'Skip', 'Return', 'Block', 'If', 'Switch') and all(self.is_idle(function, x) for x in node.inner)

    def translate(self, roots):
        """Returns the text of each function that the roots reach, after those that it calls."""
        order, begun, texts = [], set(), {}
        stack = [(key, False) for key in reversed(roots)]
        while stack:
            key, is_done = stack.pop()
            if is_done:
                order.append(key)
            elif key not in begun:
                begun.add(key)
                stack.append((key, True))
                stack += [(x, False) for x in reversed(within(key, self.function(key).called_instances)) if x not in begun]
        for key in order:
            texts[key] = within(key, self.functions[key].text)
        reached, todo = set(), list(roots)
        while todo:
            key = todo.pop()
            if key not in reached:
                reached.add(key)
                todo += self.functions[key].callees
        return [(key, texts[key]) for key in order if key in reached]

    def prototypes(self, order):
        """Returns the declarations of the functions that are called before they are defined."""
        place = {key: i for i, key in enumerate(order)}
        early = {x for key in order for x in self.functions[key].callees if place[x] >= place[key]}
        return [self.functions[key].declaration() + ';' for key in order if key in early]

    def static(self, t, constant):
        """Returns the name of a table, which is made if there is none that is the same."""
        text = self.initializer(t, constant)
        if (t, text) not in self.tables:
            self.tables[t, text] = name = self.layout.unique('pc_table')
            self.table_lines.append('static const %s = %s;' % (self.layout.declaration(t, name), text))
        return self.tables[t, text]

    def initializer(self, t, constant):
        """Returns the initializer of a constant."""
        tag, v = tagged('constant', constant, ('Int', 'Ints', 'Bool', 'Parts', 'Repeat'))
        if tag == 'Int' and t[0] == 'int':
            checked('number', v)
            if v['width'] == 128:
                raise Unsupported('a table of numbers of 128 bits')
            return str(literal(v['width'], v['value']))
        if tag == 'Bool' and t == BOOL:
            return 'true' if v else 'false'
        if tag == 'Parts' and t[0] in ('named', 'struct') and self.layout.variants(t) is None:
            parts = [self.initializer(f, x) for f, x in zip(self.layout.fields(t), v) if not self.layout.is_empty(f)]
            return '{%s}' % ', '.join(parts)
        if t[0] != 'array' or tag in ('Int', 'Bool'):
            raise Unsupported('a constant %s of the type %s' % (tag, t[0]))
        if tag == 'Ints':
            checked('numbers', v)
            return '{{%s}}' % ', '.join(str(literal(v['width'], x)) for x in v['values'])
        parts = v if tag == 'Parts' else [v[0]] * t[2]
        if len(parts) != t[2]:
            raise Unsupported('a constant of %d parts for %d' % (len(parts), t[2]))
        return '{{%s}}' % ', '.join(self.initializer(t[1], x) for x in parts)


def within(key, do, *arguments):
    """Does something for a function, whose name an error then has."""
    try:
        return do(*arguments)
    except Unsupported as error:
        raise Unsupported('%s: %s' % (key[0], error)) from error
    except (KeyError, IndexError, TypeError, ValueError, AttributeError) as error:
        raise Unsupported('%s: MIR of another form (%s: %s)' % (key[0], type(error).__name__, error)) from error
