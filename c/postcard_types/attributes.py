"""What the attributes of a declaration, a variant or a field say of its messages.

An attribute that may change what is written is refused by its name. `#[cfg_attr(condition, ..)]` counts as what it holds, whatever its
condition is; so `#[cfg_attr(any(), max_len(16))]`, which the Rust compiler never reads, gives a field a capacity.
"""
from .declarations import number_of
from .tokens import NAME, Refused

# Words of `#[serde(..)]` that change no byte of a message, and don't change which messages are read.
HARMLESS = frozenset(
    "alias borrow bound crate default deny_unknown_fields expecting rename rename_all rename_all_fields transparent".split()
)
# Words of `#[derive(..)]` that write something else than serde's derive does.
OTHER_DERIVES = frozenset("Serialize_repr Deserialize_repr SerializeDisplay DeserializeFromStr".split())
FIXED = {'"postcard::fixint::le"': "le", '"postcard::fixint::be"': "be"}


class Meaning:
    """What the attributes of a field say: `order` of a number at its full width, whether it `is_bytes`, and its `capacities`."""

    def __init__(self):
        self.order, self.is_bytes, self.capacities, self.token = None, False, None, None


def split(tokens):
    """Returns the parts of an attribute's tokens, which are separated by commas outside of brackets."""
    parts, depth = [[]], min((token.depth for token in tokens), default=0)
    for token in tokens:
        if token.text == "," and token.depth == depth:
            parts.append([])
        else:
            parts[-1].append(token)
    return [part for part in parts if part]


def plain(attributes):
    """Returns the attributes, each of `cfg_attr` replaced by those that it holds."""
    found = []
    for tokens in attributes:
        if tokens and tokens[0].text == "cfg_attr":
            found += plain(split(tokens[2:-1])[1:])
        elif tokens:
            found.append(tokens)
    return found


def refuse(token, what="this attribute of serde may change what is written"):
    raise Refused(token.place, f"`{token.text}`: {what}")


def check_derives(tokens):
    for token in tokens:
        if token.text in OTHER_DERIVES:
            refuse(token, "this derive writes something else than serde's")


def harmful(attributes):
    """Returns the parts of serde's attributes that aren't harmless, and those of `max_len`. Refuses an attribute that hides a field."""
    found = []
    for tokens in plain(attributes):
        name = tokens[0].text
        if name == "derive":
            check_derives(tokens)
        elif name in ("cfg", "serde_as"):
            refuse(tokens[0], "with this attribute the declaration doesn't say what is written")
        elif name == "serde":
            found += [part for part in split(tokens[2:-1]) if part[0].text not in HARMLESS]
        elif name == "max_len":
            found.append(tokens)
    return found


def check_declaration(attributes):
    """Refuses attributes of a declaration or a variant that may change what is written."""
    for part in harmful(attributes):
        if part[0].text == "max_len":
            refuse(part[0], "this attribute is for a field")
        refuse(part[0])


def numbers(file, tokens):
    """Returns the numbers of `max_len(8, NAME)`."""
    found = []
    for part in split(tokens[2:-1]):
        word = part[0].text
        number = file.constants.get(word) if NAME.fullmatch(word) else number_of(word)
        if number is None or len(part) > 1:
            raise Refused(part[0].place, f"`{word}`: expected a number, or a constant of this file that is one")
        found.append(number)
    return found


def meaning_of(file, attributes):
    """Returns what the attributes of a field say."""
    meaning = Meaning()
    for part in harmful(attributes):
        value = part[2].text if len(part) == 3 and part[1].text == "=" else ""
        if part[0].text == "max_len":
            meaning.capacities = numbers(file, part)
        elif part[0].text == "with" and value in FIXED:
            meaning.order = FIXED[value]
        elif part[0].text == "with" and value == '"serde_bytes"':
            meaning.is_bytes = True
        else:
            refuse(part[0])
        meaning.token = part[0]
    return meaning
