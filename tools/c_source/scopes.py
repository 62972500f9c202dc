"""The declarations of a function's variables, each in the innermost block that has all its uses, so that they share room on the stack.

A variable that something points to is declared at the head of the function, or at its outermost level: the pointer may outlive a block.
Any other is written before it is read each time that a block is entered, since MIR is so on every path.
"""
import re
from collections import defaultdict


def paths(lines):
    """Returns for each line the places of the lines that open the blocks around it, from outside in."""
    found, around = [], []
    for i, line in enumerate(lines):
        if line.lstrip().startswith('}'):
            around.pop()
        found.append(tuple(around))
        if line.endswith('{'):
            around.append(i)
    return found


def joined(c, name):
    """Returns a declaration without its semicolon."""
    return c + ('' if c.endswith('*') else ' ') + name


class Scopes:
    """Where the variables of some lines are declared. `variables` has their types in C, and `pointed` those that something points to."""

    def __init__(self, lines, variables, pointed):
        self.lines, self.variables, self.pointed = lines, variables, pointed
        self.paths, self.uses = paths(lines), defaultdict(list)
        for i, line in enumerate(lines):
            for word in set(re.findall(r'\w+', line)) & set(variables):
                self.uses[word].append(i)

    def block(self, name):
        """Returns the blocks around the declaration of a variable. The cases of a switch are no blocks of their own."""
        if name in self.pointed:
            return ()
        path = self.paths[self.uses[name][0]]
        for i in self.uses[name]:
            while self.paths[i][:len(path)] != path:
                path = path[:-1]
        while path and self.lines[path[-1]].lstrip().startswith('switch ('):
            path = path[:-1]
        return path

    def is_jumped_over(self, at):
        """Whether a jump leads from before a line to after it, within the line's block: C++ allows no value there."""
        within = [i for i in range(at, len(self.lines)) if self.paths[i][:len(self.paths[at])] == self.paths[at]]
        labels = {self.lines[i].strip()[:-2] for i in within if self.lines[i].endswith(':;')}
        return any(line.strip() == 'goto %s;' % label for label in labels for line in self.lines[:at])

    def with_value(self, name):
        """Returns the line that declares a variable where it first gets its value, or None if it doesn't get it in the right block."""
        at = self.uses[name][0]
        written = re.fullmatch(r'( *)%s = (.*;)' % name, self.lines[at])
        if written is None or self.paths[at] != self.block(name) or self.is_jumped_over(at):
            return None
        return '%s%s = %s' % (written.group(1), joined(self.variables[name], name), written.group(2))

    def text(self):
        """Returns the lines with the declarations among them."""
        lines, heads = list(self.lines), defaultdict(lambda: defaultdict(list))
        for name, c in self.variables.items():
            declared = self.with_value(name) if self.uses[name] else None
            if declared:
                lines[self.uses[name][0]] = declared
            elif self.uses[name]:
                heads[(-1,) + self.block(name)][c].append(name)
        made = self.head(heads, (-1,))
        for i, line in enumerate(lines):
            made += [line] + (self.head(heads, (-1,) + self.paths[i] + (i,)) if line.endswith('{') else [])
        return made

    def head(self, heads, path):
        """Returns the declarations at the head of a block, those of one type in one line."""
        return ['    ' * len(path) + joined(c, (', *' if c.endswith('*') else ', ').join(names)) + ';' for c, names in heads.get(path, {}).items()]
