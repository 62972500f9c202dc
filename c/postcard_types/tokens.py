"""The words, signs and literals of a file, each with its place, the doc comments before it, and its attributes.

Passed over are blanks, comments, lifetimes, `pub` and its scope, paths before a name, a comma before `>`, and `<` and `>` with nothing
between them.
"""
import re

BLANK = re.compile(r"[ \t\n\r\f]+")
LINE_COMMENT = re.compile(r"//[^\n]*")
COMMENT_SIGN = re.compile(r"/\*|\*/")
# The characters of a word: letters, digits, `_`, and each character beyond ASCII.
LETTERS = "A-Za-z0-9_\x80-\U0010ffff"
LIFETIME = re.compile(rf"'[{LETTERS}]+(?!['{LETTERS}]),?")
RAW_OPENING = re.compile(r'(?:r|br|cr)(#*)"')
WORD = re.compile(rf"[{LETTERS}]+")
LITERAL = re.compile(r'"(?:\\.|[^"\\])*"|\'(?:\\.|[^\'\\])*\'', re.DOTALL)
CONTROL = re.compile("[\x00-\x1f\x7f-\x9f\u2028\u2029]")
NAME = re.compile(rf"(?![0-9])[{LETTERS}]+")


class Refused(Exception):
    """What is wrong with a file, and the line and the column where it is, counted from 1."""

    def __init__(self, place, what):
        super().__init__(what)
        self.line, self.column = place


class Token:
    """A word, a sign or a literal. `depth` is the number of brackets around it; a bracket isn't around itself."""

    def __init__(self, text, place, depth):
        self.text, self.place, self.depth = text, place, depth
        self.docs, self.attributes = [], []

    @property
    def is_name(self):
        return NAME.fullmatch(self.text) is not None

    def __repr__(self):
        return f"{self.text} at {self.place}"


class Scanner:
    """The text of a file and how far it is read."""

    def __init__(self, text):
        self.text, self.at = text, 0
        self.line, self.line_start = 1, 0

    @property
    def place(self):
        return self.line, self.at - self.line_start + 1

    def take(self, length):
        """Returns the next characters, and goes on after them."""
        taken = self.text[self.at : self.at + length]
        self.at += length
        if "\n" in taken:
            self.line += taken.count("\n")
            self.line_start = self.at - (len(taken) - taken.rindex("\n") - 1)
        return taken

    def match(self, pattern):
        """Returns the length of the pattern here, or 0 if something else is here."""
        found = pattern.match(self.text, self.at)
        return found.end() - self.at if found else 0

    def block_comment(self):
        """Returns the length of the comment in `/*` and `*/` here, which may have others in it, or 0."""
        if not self.text.startswith("/*", self.at):
            return 0
        depth = 0
        for found in COMMENT_SIGN.finditer(self.text, self.at):
            depth += 1 if found.group() == "/*" else -1
            if depth == 0:
                return found.end() - self.at
        raise Refused(self.place, "this comment isn't closed")

    def raw_literal(self):
        """Returns the length of the raw literal here, as `r#"a " b"#`, or 0."""
        found = RAW_OPENING.match(self.text, self.at)
        if not found:
            return 0
        closing = '"' + found.group(1)
        end = self.text.find(closing, found.end())
        if end < 0:
            raise Refused(self.place, "this literal isn't closed")
        return end + len(closing) - self.at

    def token(self):
        """Returns the length of the token here."""
        length = self.raw_literal() or self.match(WORD)
        if length:
            return length
        character = self.text[self.at]
        if self.text.startswith("::", self.at):
            return 2
        if character in "\"'":
            length = self.match(LITERAL)
            if not length:
                raise Refused(self.place, "this literal isn't closed")
            return length
        return 1


def docs_of(comment):
    """Returns the lines of a doc comment without control characters, or none for another comment."""
    lines = []
    if comment.startswith("///") and not comment.startswith("////"):
        lines = [comment[3:]]
    elif comment.startswith("/**") and not comment.startswith("/***") and len(comment) > 4:
        lines = [line.strip().lstrip("*") for line in comment[3:-2].split("\n")]
    return [CONTROL.sub(" ", line).strip() for line in lines]


def all_tokens(text):
    """Returns every token of a file. Brackets are closed, each after it was opened."""
    scanner, tokens, docs, depth = Scanner(text), [], [], 0
    while scanner.at < len(text):
        gap = scanner.match(BLANK) or scanner.match(LINE_COMMENT) or scanner.match(LIFETIME) or scanner.block_comment()
        if gap:
            docs += docs_of(scanner.take(gap))
            continue
        place = scanner.place
        word = scanner.take(scanner.token())
        if word in (")", "]", "}"):
            depth -= 1
        if depth < 0:
            raise Refused(place, "no bracket is open here")
        token = Token(word, place, depth)
        token.docs, docs = docs, []
        tokens.append(token)
        if word in ("(", "[", "{"):
            depth += 1
    if depth > 0:
        opened = [token for token in tokens if token.depth < depth]
        raise Refused(opened[-1].place, "this bracket isn't closed")
    return tokens, scanner.place


def text_at(tokens, at):
    """Returns the text of the token at an index, or nothing outside of the list."""
    return tokens[at].text if 0 <= at < len(tokens) else ""


def after_bracket(tokens, at):
    """Returns the index after the bracket that closes the one at the index."""
    for last in range(at + 1, len(tokens)):
        if tokens[last].depth <= tokens[at].depth:
            return last + 1
    raise Refused(tokens[at].place, "this bracket isn't closed")


def attribute_bracket(tokens, at):
    """Returns the index of the `[` of the attribute that begins at the index, or `None` if none does."""
    if text_at(tokens, at) != "#":
        return None
    bracket = at + 2 if text_at(tokens, at + 1) == "!" else at + 1
    return bracket if text_at(tokens, bracket) == "[" else None


def scope_end(tokens, at):
    """Returns the index after the scope of a `pub` before the index, as `(crate)`, or the index if there is none."""
    first, second = text_at(tokens, at + 1), text_at(tokens, at + 2)
    if text_at(tokens, at) == "(" and (first == "in" or first in ("crate", "self", "super") and second == ")"):
        return after_bracket(tokens, at)
    return at


def is_passed(tokens, at):
    """Returns whether the token at the index is of a path, a comma before `>`, or one of `<` and `>` with nothing between them."""
    word, after = tokens[at].text, text_at(tokens, at + 1)
    if word == "::" or tokens[at].is_name and after == "::":
        return True
    if word in (",", "<") and after == ">":
        return True
    return word == ">" and text_at(tokens, at - 1) == "<"


def tokens_of(text):
    """Returns the tokens of a file that declarations are read from, and the place of its end."""
    tokens, end = all_tokens(text)
    kept, docs, attributes, at = [], [], [], 0
    while at < len(tokens):
        docs += tokens[at].docs
        bracket = attribute_bracket(tokens, at)
        if bracket is not None:
            after = after_bracket(tokens, bracket)
            if bracket == at + 1:
                attributes.append(tokens[bracket + 1 : after - 1])
            at = after
        elif tokens[at].text == "pub":
            at = scope_end(tokens, at + 1)
        elif is_passed(tokens, at):
            at += 1
        else:
            tokens[at].docs, tokens[at].attributes, docs, attributes = docs, attributes, [], []
            kept.append(tokens[at])
            at += 1
    return kept, end
