"""Loops that copy bytes, which C does at once."""
import re

NAME = r'\w+(?:\.\w+)?'
INDEXED = r'%s \+ (?:{i}|\(\w+ \+ {i}\))' % NAME
COPY = r'''while \((?P<i>\w+) < (?P<end>%s)\) {{
\*\((?P<to>{to})\) = \*\((?P<from>{to})\);
(?P=i) = (?P=i) \+ 1u;
}}''' % NAME


def copied(lines, in_memory):
    """Returns other lines for those of a loop that copies byte after byte, or None if it is another.

    A byte, since what a pointer to another type points to is written with a cast. The names that the loop reads must be no variables
    that something points to, since then the bytes could be theirs.
    """
    text = '\n'.join(x.strip() for x in lines)
    found = re.fullmatch(COPY.format(to=INDEXED.format(i='(?P=i)')), text)
    if found is None or in_memory & set(re.findall(r'\w+', text)):
        return None
    i, end, to, at = found.group('i', 'end', 'to', 'from')
    if i in re.findall(r'\w+', end) or any(re.findall(r'\w+', x).count(i) != 1 for x in (to, at)):
        return None
    return ['if (%s < %s) {' % (i, end), '    pc_copy_bytes(%s, %s, %s - %s);' % (to, at, end, i), '    %s = %s;' % (i, end), '}']
