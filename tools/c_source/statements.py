"""C statements: MIR's blocks, loops and exits as `while`, `break`, `continue` and, where these don't do, `goto`."""
import re

from . import idioms
from .expressions import literal
from .mir import Unsupported
from .tree import Node, copied, live, through_pointer, value_of

EXPRESSIONS = ('Opd', 'Op1', 'Op2', 'AddrOf', 'SizeOf', 'NumOf')


class Frame:
    """A block, a loop or a switch around what is being written."""

    def __init__(self, kind, label, only=None):
        self.kind, self.label = kind, label
        self.only = only  # of a block: the kind of its one statement
        self.is_left = self.is_labelled = False


class Statements:
    """The statements of a function. Each method that writes one returns whether control can come to its end."""

    def line(self, text):
        """Writes a line."""
        self.lines.append('    ' * self.depth + text)

    def inside(self, node):
        """Writes a statement one level further in."""
        self.depth += 1
        falls = self.statement(node)
        self.depth -= 1
        return falls

    def statement(self, node):
        """Writes a statement."""
        if node.hidden:
            return True
        return getattr(self, 'write_' + node.kind.lower())(node)

    def write_seq(self, node):
        inner = [each for each in node.inner if not each.hidden]
        for each, following in zip(inner, inner[1:] + [Node('Skip')]):
            if following.kind == 'Return' and self.returned(each):
                return False
            if not self.statement(each):
                return False
        return True

    def write_skip(self, _):
        return True

    def write_return(self, _):
        self.line('return;' if self.returns_nothing() else 'return result;')
        return False

    def write_unreachable(self, _):
        self.line('for (;;) {} /* proved never to be reached */')
        return False

    def write_assign(self, node):
        place, t = node.says[0], self.place_type(node.says[0])
        if self.matters(place):
            self.assign(place, t, *value_of(node))
        return True

    def assign(self, place, t, kind, v):
        """Writes an assignment."""
        if t[0] in ('array', 'lanes') and through_pointer(place):
            self.line('memcpy(%s, %s, sizeof(%s));' % (self.address(place, ('pointer',)), self.bytes_of(t, kind, v), self.layout.c(t)))
            return
        target = self.place(place).value()
        source = copied(v) if kind == 'Opd' else None
        if t[0] == 'array' and source is not None and through_pointer(source):
            self.line('memcpy(&%s, %s, sizeof %s);' % (target, self.address(source, ('pointer',)), target))
        elif kind == 'Aggregate' and self.is_read_by(place, v):
            temporary = self.another_temporary(t)
            self.assign_to(temporary, t, kind, v)
            self.line('%s = %s;' % (target, temporary))
        else:
            self.assign_to(target.text, t, kind, v)

    def bytes_of(self, t, kind, v):
        """Returns a pointer to an array that is to be copied to memory."""
        source = copied(v) if kind == 'Opd' else None
        if source is not None and t[0] == 'array':
            return self.address(source, ('pointer',))
        temporary = self.another_temporary(t)
        self.assign_to(temporary, t, kind, v)
        return '&' + temporary

    def assign_to(self, target, t, kind, v):
        """Writes the assignment of a value to what has no part in the value."""
        if kind == 'Vec1':
            self.assign_of_lanes(target, v, t)
        elif t[0] == 'lanes':
            self.assign_lanes(target, kind, v, t)
        elif kind in EXPRESSIONS:
            self.line('%s = %s;' % (target, self.value(t, kind, v)))
        elif kind == 'Aggregate':
            self.assign_parts(target, t, v)
        elif kind == 'Repeat' and t[0] == 'array':
            self.assign_repeated(target, t, v)
        else:
            raise Unsupported('a value made by %s of the type %s' % (kind, t[0]))

    def assign_repeated(self, target, t, v):
        """Writes the assignment of an array whose elements are all the same."""
        e = self.converted_operand(v[0], t[1])
        if e.text in ('0u', 'false'):
            self.line('memset(&%s, 0, sizeof %s);' % (target, target))
        else:
            self.line('for (unsigned i = 0; i < %du; i++) %s.at[i] = %s;' % (self.instance.number(v[1]), target, e))

    def assign_parts(self, target, t, v):
        """Writes the assignment of a value, part by part."""
        member = '%s.%s' if re.fullmatch(r'[\w.>\[\]-]+', target) else '(%s).%s'
        variants = self.layout.variants(t)
        if t[0] == 'array':
            parts = [(t[1], 'at[%d]' % i) for i in range(t[2])]
        elif variants is None:
            parts = list(zip(self.layout.fields(t), self.layout.field_names(t)))
        else:
            number = self.variant_number(v)
            self.line('%s = %du;' % (target if self.layout.is_plain(t) else member % (target, 'tag'), number))
            parts, v = [(f, self.layout.member(t, number, i)) for i, f in enumerate(variants[number])], v[1:]
        if len(parts) != len(v):
            raise Unsupported('a value of %d parts for %d' % (len(v), len(parts)))
        for (part, name), o in zip(parts, v):
            if not self.layout.is_empty(part):
                self.line('%s = %s;' % (member % (target, name), self.converted_operand(o, part)))

    def write_lendstatic(self, node):
        place, t, constant = node.says
        held = self.instance.type(t)
        pointer = self.layout.c(self.place_type(place))
        table = '&pc_nothing' if self.layout.is_empty(held) else '(%s)&%s' % (pointer, self.program.static(held, constant))
        self.program.uses_nothing |= self.layout.is_empty(held)
        self.line('%s = %s;' % (self.place(place).value(), table))
        return True

    def write_call(self, node):
        e, t = self.call(node.says)
        place = node.says[2]
        if not self.matters(place) or self.is_unread(place):
            self.line(('%s;' if self.layout.is_empty(t) else '(void)%s;') % e)
        elif t[0] == 'array' and through_pointer(place):
            temporary = self.another_temporary(t)
            self.line('%s = %s;' % (temporary, e))
            self.line('memcpy(%s, &%s, sizeof %s);' % (self.address(place, ('pointer',)), temporary, temporary))
        else:
            self.line('%s = %s;' % (self.place(place).value(), self.converted(e, t, self.place_type(place))))
        return True

    def returned(self, node):
        """Writes `return E;` for the assignment of the result before a return, if it can. Returns whether it did."""
        if self.returns_nothing() or node.kind not in ('Assign', 'Call') or node.says[0 if node.kind == 'Assign' else 2] != {'local': 0, 'steps': []}:
            return False
        t = self.types[0]
        if node.kind == 'Call':
            e, have = self.call(node.says)
            self.line('return %s;' % self.converted(e, have, t))
            return True
        kind, v = value_of(node)
        if kind == 'Aggregate' and self.layout.is_plain(t):
            self.line('return %du;' % self.variant_number(v))
            return True
        if kind not in EXPRESSIONS or t[0] in ('array', 'lanes'):
            return False
        self.line('return %s;' % self.value(t, kind, v))
        return True

    # Blocks and loops.

    def new_frame(self, kind, only=None):
        """Enters a block, a loop or a switch."""
        self.labels += 1
        frame = Frame(kind, '%s_%d' % ('next' if kind == 'loop' else 'out', self.labels), only)
        self.frames.append(frame)
        return frame

    def write_block(self, node):
        inner = live(node.inner[0])
        frame = self.new_frame('block', inner.kind)
        falls = self.statement(inner)
        self.frames.pop()
        if frame.is_labelled:
            self.lines.append('    ' * (self.depth - 1) + frame.label + ':;')
        return falls or frame.is_left

    def write_loop(self, node):
        frame = self.new_frame('loop')
        body = live(node.inner[0])
        condition = self.condition(body)
        begin = len(self.lines)
        self.line('while (%s) {' % condition if condition else 'for (;;) {')
        self.inside(body)
        self.frames.pop()
        if frame.is_labelled:
            self.line(frame.label + ':;')
        self.line('}')
        copying = idioms.copied(self.lines[begin:], {self.variable(local).text for local in self.fold.taken})
        if copying:
            del self.lines[begin:]
            for each in copying:
                self.line(each)
        return False

    def condition(self, body):
        """Returns the condition of a loop that begins with a test after which it may end, and takes out the test."""
        first = body.inner[0] if body.kind == 'Seq' and body.inner else body
        around = self.frames[-2] if len(self.frames) > 1 else None
        if first.kind != 'If' or around is None or around.only != 'Loop':
            return None
        a, b = map(live, first.inner)
        if a.kind == 'Skip' and b.kind == 'Exit' and b.says == 1:
            around.is_left = first.hidden = True
            return self.operand(first.says)[0]
        return None

    def write_exit(self, node):
        frames = [f for f in self.frames if f.kind != 'switch']
        frame = frames[-1 - node.says]
        frame.is_left = True
        within = [f.kind for f in self.frames[self.frames.index(frame) + 1:] if f.kind != 'block']
        if frame.kind == 'loop' and 'loop' not in within:
            self.line('continue;')
        elif frame.only in ('Loop', 'Switch') and within == [frame.only.lower()]:
            self.line('break;')
        else:
            frame.is_labelled = True
            self.line('goto %s;' % frame.label)
        return False

    # Choices.

    def write_if(self, node):
        condition = self.operand(node.says)[0]
        return self.choice(condition, live(node.inner[0]), live(node.inner[1]))

    def choice(self, condition, a, b, word='if'):
        """Writes `if`, of which a branch that does nothing is left out."""
        if a.kind == 'Skip' and b.kind == 'Skip':
            return True
        if a.kind == 'Skip':
            condition, a, b = condition.negated(), b, a
        self.line('%s (%s) {' % (word, condition))
        falls = self.inside(a)
        if b.kind == 'Skip':
            self.line('}')
            return True
        if b.kind == 'If' and 'Skip' not in [live(each).kind for each in b.inner]:
            return self.choice(self.operand(b.says)[0], live(b.inner[0]), live(b.inner[1]), '} else if') or falls
        self.line('} else {')
        falls = self.inside(b) or falls
        self.line('}')
        return falls

    def write_switch(self, node):
        chosen, values, _ = node.says
        e, t = self.operand(chosen)
        if t[0] != 'int' and t[0] != 'bool' or t == ('int', 128):
            raise Unsupported('a switch over the type %s' % (t,))
        inner = [live(each) for each in node.inner]
        if len(inner) == 1:
            return self.statement(inner[0])
        if len(inner) == 2 and len(values[0]) == 1:
            from .operators import compared
            number = literal(t[1] if t[0] == 'int' else 8, values[0][0])
            return self.choice(compared('Eq', False, 64, e, number), *inner)
        return self.switch(e, t, values, inner)

    def switch(self, e, t, values, inner):
        """Writes a switch. The last choice is the default: MIR has it so, or it is proved that there is no other."""
        if t[0] == 'bool':
            raise Unsupported('a switch over a bool')
        self.line('switch (%s) {' % e)
        self.new_frame('switch')
        falls = False
        for i, each in enumerate(inner):
            cases = ['default:'] if i == len(inner) - 1 else ['case %s:' % literal(t[1], x) for x in values[i]]
            for case in cases:
                self.line(case)
            if self.inside(each):
                falls = True
                self.line('    break;')
        self.frames.pop()
        self.line('}')
        return falls
