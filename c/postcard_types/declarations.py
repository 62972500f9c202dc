"""The items that a file declares, each as the range of its tokens. The parts of one are read when they are asked for (`items`)."""
from .tokens import Refused, text_at, tokens_of

KINDS = ("struct", "enum", "type")


class Declaration:
    """A declaration of a type: its kind, its name, and the indices of the tokens after the name, up to `end`."""

    def __init__(self, kind, name, start, end):
        self.kind, self.name, self.start, self.end = kind, name, start, end


class File:
    """The declarations of a file by their names, in order, and its constants that are numbers."""

    def __init__(self, text):
        self.tokens, self.end = tokens_of(text)
        self.declared, self.constants = {}, {}
        for at in range(len(self.tokens)):
            if at == 0 or self.ends_item(at - 1):
                self.read_item(at)

    def place(self, at):
        """Returns the place of the token at an index, or of the file's end."""
        return self.tokens[at].place if at < len(self.tokens) else self.end

    def ends_item(self, at):
        token = self.tokens[at]
        return token.depth == 0 and token.text in (";", "}")

    def read_item(self, at):
        """Adds the declaration or the constant that begins at the index, if one does."""
        word = self.tokens[at].text
        if word == "const":
            self.read_constant(at)
        if word not in KINDS:
            return
        if at + 1 >= len(self.tokens) or not self.tokens[at + 1].is_name:
            raise Refused(self.place(at + 1), "expected a name")
        last = next((last for last in range(at + 2, len(self.tokens)) if self.ends_item(last)), None)
        name = self.tokens[at + 1]
        if last is None:
            raise Refused(self.tokens[at].place, "this declaration doesn't end")
        if name.text in self.declared:
            raise Refused(name.place, "this name was declared before")
        name.docs, name.attributes = self.tokens[at].docs, self.tokens[at].attributes
        self.declared[name.text] = Declaration(word, name, at + 2, last + 1)

    def read_constant(self, at):
        """Adds a constant whose value is a number, as `const NAME: usize = 16;`."""
        equals = at + 4
        if text_at(self.tokens, at + 2) != ":" or text_at(self.tokens, equals) != "=" or text_at(self.tokens, equals + 2) != ";":
            return
        value = number_of(text_at(self.tokens, equals + 1))
        if value is not None:
            self.constants[self.tokens[at + 1].text] = value


def number_of(word):
    """Returns the number of an integer literal, as `16`, `0x10`, `1_024` or `8usize`, or `None` for another word."""
    for kind in ("usize", "u8", "u16", "u32", "u64", "u128", "isize", "i8", "i16", "i32", "i64", "i128"):
        if word.endswith(kind) and not word.startswith("0x"):
            word = word[: -len(kind)]
            break
    base = {"0x": 16, "0o": 8, "0b": 2}.get(word[:2], 10)
    digits = (word if base == 10 else word[2:]).replace("_", "")
    if word[:1] == "_" or not digits or not digits.isascii() or not digits.isalnum():
        return None
    try:
        return int(digits, base)
    except ValueError:
        return None
