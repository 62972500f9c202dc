"""The types that the declarations of a file mean: names replaced by what they stand for, and parameters by their arguments."""
from dataclasses import replace

from .attributes import check_declaration, meaning_of
from .items import item_of
from .known import Use, list_of
from .limits import MAX_DEPTH, MAX_WORDS, height_of, words_of
from .model import (
    MOST, UNIT, Array, Bytes, Case, Definition, List_, Member, Model, Named, Number, Option, Result, Text, TooLong, Tuple_, inner_of,
)
from .syntax import Choice, Count, Entries, Fields, Group, Maybe, Path, Sequence
from .tokens import Refused


class UnusedCapacity(Exception):
    """A capacity of the command line is for a field that the types don't have."""


def capped(kind, numbers):
    """Returns the type with these capacities for its texts, lists and maps without one, from outside in. Takes them off the list."""
    if isinstance(kind, (Text, Bytes)) and kind.most is None and numbers:
        return replace(kind, most=numbers.pop(0))
    if isinstance(kind, List_):
        most = numbers.pop(0) if kind.most is None and numbers else kind.most
        return List_(capped(kind.element, numbers), most, kind.is_map)
    if isinstance(kind, Option):
        return Option(capped(kind.content, numbers))
    if isinstance(kind, Array):
        return Array(capped(kind.element, numbers), kind.count)
    if isinstance(kind, Tuple_):
        return Tuple_(tuple(capped(part, numbers) for part in kind.parts))
    if isinstance(kind, Result):
        return Result(capped(kind.ok, numbers), capped(kind.err, numbers))
    return kind


def capacities_of(kind):
    """Returns how many capacities a type takes."""
    if isinstance(kind, Named):
        return 0
    takes_one = isinstance(kind, (Text, Bytes, List_)) and kind.most is None
    return takes_one + sum(map(capacities_of, inner_of(kind)))


class Resolver:
    """Makes the types of a file concrete. `open` has the names that are being replaced, each in the one before it."""

    def __init__(self, file, capacities):
        self.file, self.capacities = file, dict(capacities)
        self.model, self.items, self.open, self.used = Model(), {}, [], set()

    def item(self, name):
        if name not in self.items:
            self.items[name] = item_of(self.file, self.file.declared[name])
            check_declaration(self.items[name].attributes)
        return self.items[name]

    def enter(self, token, key):
        """Notes that a name is being replaced."""
        if key in self.open:
            raise Refused(token.place, "this type has itself in it")
        if len(self.open) > MAX_DEPTH:
            raise Refused(token.place, "nested too deeply")
        self.open.append(key)

    def kind(self, part, scope, owner):
        """Returns the type of a part of a declaration. `scope` has the types of parameters, and `owner` is the name of a type that the
        part would declare itself."""
        if isinstance(part, Path):
            return self.path(part, scope, owner)
        if isinstance(part, Sequence):
            return self.sequence(part, self.kind(part.element, scope, owner))
        if isinstance(part, Group):
            parts = [self.kind(each, scope, f"{owner}_{index}") for index, each in enumerate(part.parts)]
            return Tuple_(tuple(parts)) if parts else UNIT
        if isinstance(part, Entries):
            entry = (self.kind(part.key, scope, f"{owner}_key"), self.kind(part.value, scope, f"{owner}_value"))
            return list_of(self.model, part.key.token, Tuple_(entry), None, True)
        if isinstance(part, Maybe):
            return Option(self.kind(part.content, scope, owner))
        return self.define(Named(self.new_name(owner)), part, scope)

    def sequence(self, part, element):
        """Returns the type of a list or an array of these elements."""
        listed = list_of(self.model, part.element.token, element, None)
        if part.count is None:
            return listed
        if part.count > MOST:
            raise Refused(part.token.place, f"a count above {MOST} can't be had")
        return Array(element, part.count)

    def new_name(self, owner):
        """Returns a name for a type that is declared where it is used: that of its owner, with a number if it is taken."""
        taken = {kind.name for kind in self.model.definitions} | (set(self.file.declared) - {self.open[-1] if self.open else None})
        number = 2
        name = owner
        while name in taken:
            name, number = f"{owner}_{number}", number + 1
        return name

    def path(self, part, scope, owner):
        """Returns the type that a name with its arguments stands for."""
        name = part.token.text
        if name in scope and not part.arguments:
            return scope[name]
        counts = [each for each in part.arguments if isinstance(each, Count)]
        types = [self.kind(each, scope, owner) for each in part.arguments if not isinstance(each, Count)]
        if name in self.file.declared:
            return self.declared(part, types, counts)
        if any(count.number > MOST for count in counts):
            raise Refused(part.token.place, f"a count above {MOST} can't be had")
        kind = Use(self.model, part, types, [count.number for count in counts]).kind()
        if kind is None:
            raise Refused(part.token.place, f"`{name}`: no declaration of this file, and no type that is known")
        return kind

    def declared(self, part, types, counts):
        """Returns the type of a declaration with these types for its parameters."""
        name = part.token.text
        item = self.item(name)
        if len(types) != len(item.parameters) or counts:
            raise Refused(part.token.place, f"`{name}` takes {len(item.parameters)} types")
        return self.instance(part.token, item, tuple(types))

    def instance(self, token, item, types):
        scope = dict(zip(item.parameters, types))
        if item.kind != "type" or isinstance(item.body, (Choice, Fields)):
            named = Named(item.name, types)
            return named if named in self.model.definitions else self.define(named, item.body, scope, token)
        self.enter(token, item.name)
        kind = self.kind(item.body, scope, item.name)
        self.open.pop()
        return kind

    def define(self, named, body, scope, token=None):
        """Adds the definition of a struct or an enum, and returns its type."""
        self.enter(token or body.token, named.name)
        docs = self.items[named.name].docs if named.name in self.items else []
        definition = Definition(isinstance(body, Fields), docs, body.token.place)
        if isinstance(body, Fields):
            definition.style = body.style
            definition.members = [self.member(each, scope, named.name) for each in body.fields]
        else:
            definition.cases = [self.case(each, scope, named.name) for each in body.variants]
        self.open.pop()
        self.model.definitions[named] = definition
        return named

    def case(self, variant, scope, owner):
        check_declaration(variant.attributes)
        members = [self.member(each, scope, f"{owner}.{variant.name}") for each in variant.content.fields]
        return Case(variant.name, variant.content.style, members, variant.docs, variant.token.place)

    def member(self, field, scope, owner):
        """Returns a field with what its attributes and the command line say of it."""
        path = f"{owner}.{field.name}"
        kind = self.kind(field.kind, scope, path.replace(".", "_"))
        meaning = meaning_of(self.file, field.attributes)
        if meaning.order:
            kind = self.with_order(kind, meaning)
        if meaning.is_bytes and not isinstance(kind, Bytes) and kind != Option(Bytes()):
            raise Refused(meaning.token.place, "`serde_bytes` is for a list of bytes")
        if meaning.capacities is not None:
            kind = self.with_capacities(kind, meaning.capacities, meaning.token.place)
        if path in self.capacities:
            numbers = self.capacities[path]
            kind = self.with_capacities(kind, numbers, field.token.place)
            self.used.add(path)
        return Member(field.name, kind, field.docs, field.token.place)

    def with_order(self, kind, meaning):
        if not isinstance(kind, Number) or kind.bits == 8 or kind.order or kind.nonzero:
            raise Refused(meaning.token.place, "`postcard::fixint` is for a number of 16 bits or more")
        return Number(kind.name, meaning.order)

    def with_capacities(self, kind, numbers, place):
        if capacities_of(kind) != len(numbers):
            raise Refused(place, "`max_len` is for a text, a list or a map, and has a number for each")
        if any(number > MOST for number in numbers):
            raise Refused(place, f"a count above {MOST} can't be had")
        return capped(kind, list(numbers))

    def add_root(self, name):
        """Adds the type of a declaration to the model."""
        item = self.item(name)
        if item.parameters:
            self.model.skipped.append(name)
            return
        try:
            kind = self.instance(item.token, item, ())
        except TooLong:
            raise Refused(item.token.place, "this type is too long") from None
        if height_of(self.items, name) > MAX_DEPTH:
            raise Refused(item.token.place, "nested too deeply")
        if words_of(self.file, name) > MAX_WORDS:
            raise Refused(item.token.place, "this type is too long")
        if item.kind == "type" and kind != Named(name):
            self.model.aliases.append((name, kind, item.docs, item.token.place))
            self.model.alias_of.setdefault(kind, name)
        self.model.add(kind)


def model_of(file, only=(), capacities=()):
    """Returns the types that a file declares, or those of the names `only` and the types that these need."""
    resolver = Resolver(file, capacities)
    for name in only:
        if name not in file.declared:
            raise Refused(file.end, f"no declaration has the name `{name}`")
        if resolver.item(name).parameters:
            raise Refused(file.place(file.declared[name].start), f"`{name}` has parameters: declare `type Name = {name}<..>;`")
    for name in file.declared:
        if not only or name in only:
            resolver.add_root(name)
    for path in resolver.capacities:
        if path not in resolver.used:
            raise UnusedCapacity(path)
    return resolver.model
