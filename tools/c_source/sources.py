"""What the sources say beyond the MIR: names of parameters, fields and variants, and the comments of our own crates.

Names and comments change no code. So a place that isn't found, or a spelling that isn't understood, gives no name, and the C code has a
number instead. The kit's comments aren't copied.
"""
import functools
import os
import re

WORDS = set('''auto break case char const continue default do double else enum extern float for goto if inline int long register restrict
return short signed sizeof static struct switch typedef union unsigned void volatile while bool true false nullptr constexpr alignas
alignof typeof thread_local static_assert class new delete this template typename operator private public protected friend virtual try
catch throw using namespace explicit export mutable and or not xor asm far near interrupt result tag nothing'''.split())
VISIBLE = r'(?:pub\s*(?:\(\s*\w+\s*\)\s*)?)?'


def fitting(names, count):
    """Returns the names as C may have them, or None if they aren't `count` different words."""
    names = [n + '_' if n in WORDS or re.fullmatch(r'u?int\d+_t|[vt]\d+|i', n) else n for n in names]
    fits = len(names) == count and len(set(names)) == count and all(re.fullmatch(r'[A-Za-z]\w*', n) for n in names)
    return names if fits else None


def parts(text):
    """Returns what stands between the commas of a list."""
    found, depth, begin = [], 0, 0
    for i, c in enumerate(text):
        if c in '([{<':
            depth += 1
        elif c in ')]}' or (c == '>' and text[i - 1] not in '-='):
            depth -= 1
        elif c == ',' and depth == 0:
            found.append(text[begin:i])
            begin = i + 1
    return [p for p in found + [text[begin:]] if p.strip()]


def inside(text, opening, closing):
    """Returns what stands between the first bracket of a text and the one that closes it."""
    depth = 0
    begin = text.index(opening)
    for i in range(begin, len(text)):
        depth += (text[i] == opening) - (text[i] == closing and not (closing == '>' and text[i - 1] in '-='))
        if depth == 0:
            return text[begin + 1:i]
    return ''


def bare(text):
    """Returns a text without comments and attributes."""
    return re.sub(r'//[^\n]*|#\s*\[[^\]]*\]', ' ', text)


class Sources:
    """The files of our crates, and the interfaces of the kit's libraries."""

    def __init__(self, crates, libraries):
        self.crates, self.libraries = crates, libraries
        self.text = functools.lru_cache(None)(self.text)

    def text(self, file):
        """Returns the text of a file, or None if there is none."""
        if not os.path.isfile(file):
            return None
        with open(file, encoding='utf-8') as stream:
            return stream.read()

    def ours(self, name):
        """Whether an item is of one of our crates."""
        return os.path.isdir(os.path.join(self.crates, name.split('::')[0], 'src'))

    def module(self, name):
        """Returns the text of the file that has an item, and what of the item's path is below that file."""
        crate, *path = name.split('::')
        base = os.path.join(self.crates, crate, 'src')
        if not os.path.isdir(base):
            base = os.path.join(self.libraries, crate + '.rlib', 'lang', 'src')
        for k in range(len(path) - 1, -1, -1):
            stem = os.path.join(base, *path[:k])
            for file in (stem + '.rt', os.path.join(stem, 'mod.rt')) if k else (os.path.join(base, 'lib.rt'),):
                text = self.text(file)
                if text:
                    return text, path[k:]
        return None, None

    def function(self, name):
        """Returns the file of a function, and where in it the function's declaration begins and its name ends."""
        text, path = self.module(name)
        if text is None:
            return None
        begin = 0
        if len(path) > 1:  # a method: it stands after the first impl for its type, or of its trait
            impl = re.search(r'\b(impl|trait)\b[^{;]*\b%s\b' % re.escape(re.sub(r'\W.*', '', path[-2])), text)
            begin = impl.start() if impl else 0
        pattern = re.compile(r'^[ \t]*%s(?:const )?(?:unsafe )?(?:extern "C" )?fn %s\b' % (VISIBLE, re.escape(path[-1])), re.M)
        found = pattern.search(text, begin) or pattern.search(text)
        return (text, found.start(), found.end()) if found else None

    def comment(self, name):
        """Returns the lines of the comment of a function of ours."""
        place = self.function(name) if self.ours(name) else None
        lines = []
        for line in reversed(place[0][:place[1]].rstrip('\n').split('\n') if place else []):
            if not re.match(r'\s*(#|///)', line):
                break
            comment = re.match(r'\s*/// ?(.*)', line)
            if comment:
                lines.insert(0, comment.group(1).rstrip())
        return lines

    def parameters(self, name, count):
        """Returns the names of a function's parameters."""
        place = self.function(name)
        if place is None:
            return None
        rest = place[0][place[2]:].lstrip()
        if rest.startswith('<'):
            rest = rest[len(inside(rest, '<', '>')) + 2:]
        names = []
        for each in parts(bare(inside(rest, '(', ')'))):
            named = re.match(r"\s*(?:&\s*(?:'\w+\s*)?)?(?:mut\s+)?(self)\b|\s*(?:mut\s+)?(\w+)\s*:", each)
            if named and not each.strip().startswith('ghost'):
                names.append(named.group(1) or named.group(2).lstrip('_') or 'unused')
        return fitting(names, count)

    def body(self, name, word):
        """Returns what stands between the braces of a struct or an enum."""
        text, path = self.module(name)
        found = re.search(r'\b%s %s\b[^{;(]*' % (word, re.escape(path[-1])), text) if text else None
        return bare(inside(text[found.end():], '{', '}')) if found and text[found.end():found.end() + 1] == '{' else ''

    def fields(self, name, count):
        """Returns the names of a struct's fields."""
        found = [re.match(r'\s*%s(ghost\b)?\s*(\w+)\s*:' % VISIBLE, p) for p in parts(self.body(name, 'struct'))]
        return fitting([f.group(2) for f in found if f and not f.group(1)], count)

    def variants(self, name, count):
        """Returns the names of an enum's variants."""
        found = [re.match(r'\s*(\w+)', p) for p in parts(self.body(name, 'enum'))]
        return fitting([f.group(1) for f in found if f], count)
