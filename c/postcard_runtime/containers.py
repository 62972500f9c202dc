"""The codecs of types with parts: options, lists, arrays, tuples, structs and enums. `numbers` says what a codec is."""
from .numbers import check_length, flag, put_varint, take_number
from .values import BAD_OPTION, BAD_VALUES, NO_VALUE, UNEXPECTED_END, BadField, Err, Error, Ok, Some


def option(codec, is_nested):
    """The codec of an option. If `is_nested`, the content may be `None`, and a value is a `Some`."""
    (put_content, get_content), get_flag = codec, flag(BAD_OPTION)

    def put(value, out):
        if value is None:
            out.append(0)
            return
        out.append(1)
        if is_nested and not isinstance(value, Some):
            raise ValueError(f"{value!r} is neither None nor Some(..)")
        put_content(value.value if is_nested else value, out)

    def get(message, at):
        is_some, at = get_flag(message, at)
        if not is_some:
            return None, at
        value, at = get_content(message, at)
        return Some(value) if is_nested else value, at

    return put, get


def sequence(codec, most):
    """The codec of a counted list, of at most `most` elements if that isn't `None`."""
    put_element, get_element = codec

    def put(value, out):
        check_length(value, most)
        put_varint(len(value), out)
        for element in value:
            put_element(element, out)

    def get(message, at):
        count, after = take_number(message, at, 64)
        if most is not None and count > most:
            raise Error(NO_VALUE, at)
        value, at = [], after
        for _ in range(count):
            element, at = get_element(message, at)
            value.append(element)
        return value, at

    return put, get


def array(codec, count):
    """The codec of an array."""
    put_element, get_element = codec

    def put(value, out):
        if len(value) != count:
            raise ValueError(f"{len(value)} elements, and not {count}")
        for element in value:
            put_element(element, out)

    def get(message, at):
        value = []
        for _ in range(count):
            element, at = get_element(message, at)
            value.append(element)
        return value, at

    return put, get


def byte_array(count):
    """The codec of an array of `u8`."""

    def put(value, out):
        content = bytes(memoryview(value))
        if len(content) != count:
            raise ValueError(f"{len(content)} bytes, and not {count}")
        out += content

    def get(message, at):
        after = at + count
        if after > len(message):
            raise Error(UNEXPECTED_END, at)
        return message[at:after], after

    return put, get


def group(*codecs):
    """The codec of a tuple."""
    puts, gets = [codec[0] for codec in codecs], [codec[1] for codec in codecs]

    def put(value, out):
        if len(value) != len(puts):
            raise ValueError(f"{len(value)} parts, and not {len(puts)}")
        for put_part, part in zip(puts, value):
            put_part(part, out)

    def get(message, at):
        parts = []
        for get_part in gets:
            part, at = get_part(message, at)
            parts.append(part)
        return tuple(parts), at

    return put, get


def record(cls, names, *codecs):
    """The codec of a class with these fields."""
    puts, gets = [(name, codec[0]) for name, codec in zip(names, codecs)], [codec[1] for codec in codecs]

    def put(value, out):
        if type(value) is not cls:
            raise ValueError(f"{value!r} is no {cls.__qualname__}")
        for name, put_part in puts:
            try:
                put_part(getattr(value, name), out)
            except BAD_VALUES as problem:
                raise BadField(name, problem) from None

    def get(message, at):
        parts = []
        for get_part in gets:
            part, at = get_part(message, at)
            parts.append(part)
        return cls(*parts), at

    return put, get


def variants(classes, codecs):
    """The codec of an enum: a class for each variant, and its codec."""
    index_of = {cls: index for index, cls in enumerate(classes)}
    puts, gets = [codec[0] for codec in codecs], [codec[1] for codec in codecs]

    def put(value, out):
        index = index_of.get(type(value))
        if index is None:
            raise ValueError(f"{value!r} is no variant")
        put_varint(index, out)
        puts[index](value, out)

    def get(message, at):
        index, after = take_number(message, at, 32)
        if index >= len(gets):
            raise Error(NO_VALUE, at)
        return gets[index](message, after)

    return put, get


def result(ok, err):
    """The codec of `Ok(value)` or `Err(value)`."""
    return variants([Ok, Err], [record(Ok, ["value"], ok), record(Err, ["value"], err)])


def names(cls):
    """The codec of an `IntEnum` whose numbers are those of the variants in a message."""
    members = list(cls)

    def put(value, out):
        if not isinstance(value, cls):
            raise ValueError(f"{value!r} is no {cls.__name__}")
        put_varint(value.value, out)

    def get(message, at):
        index, after = take_number(message, at, 32)
        if index >= len(members):
            raise Error(NO_VALUE, at)
        return members[index], after

    return put, get
