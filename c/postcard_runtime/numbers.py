"""The codecs of types without parts: numbers, floats, `bool`, `char`, texts and bytes.

A codec is a pair of functions: put(value, bytearray) appends a value, and get(bytes, at) returns a value and the index after it. Putting
a value that is none of the type raises one of `BAD_VALUES`.
"""
import struct

from .values import BAD_BOOL, BAD_CHAR, BAD_UTF8, BAD_VARINT, NO_VALUE, UNEXPECTED_END, Error


def take_number(message, at, bits):
    """Returns the number of the varint at an index, and the index after it."""
    number = shift = 0
    after = at
    while True:
        if after >= len(message):
            raise Error(UNEXPECTED_END, at)
        byte = message[after]
        after += 1
        number |= (byte & 127) << shift
        shift += 7
        if byte < 128:
            break
        if shift >= bits:
            raise Error(BAD_VARINT, at)
    if number >> bits:
        raise Error(BAD_VARINT, at)
    return number, after


def put_varint(number, out):
    while number > 127:
        out.append(number & 127 | 128)
        number >>= 7
    out.append(number)


def take_byte(message, at):
    if at >= len(message):
        raise Error(UNEXPECTED_END, at)
    return message[at]


def _refuse_number(value, name):
    raise ValueError(f"{value!r} is no number of {name}")


def unsigned(bits):
    """The codec of a varint without a sign, or of `u8`."""
    end = 1 << bits

    def put(value, out):
        if not 0 <= value < end:
            _refuse_number(value, f"u{bits}")
        while value > 127:
            out.append(value & 127 | 128)
            value >>= 7
        out.append(value)

    def put_byte(value, out):
        if not 0 <= value < 256:
            _refuse_number(value, "u8")
        out.append(value)

    def get(message, at):
        if at < len(message) and message[at] < 128:
            return message[at], at + 1
        return take_number(message, at, bits)

    def get_byte(message, at):
        return take_byte(message, at), at + 1

    return (put_byte, get_byte) if bits == 8 else (put, get)


def signed(bits):
    """The codec of a varint with a sign, or of `i8`."""
    half = 1 << (bits - 1)

    def put(value, out):
        if not -half <= value < half:
            _refuse_number(value, f"i{bits}")
        put_varint(2 * value if value >= 0 else -2 * value - 1, out)

    def put_byte(value, out):
        if not -half <= value < half:
            _refuse_number(value, "i8")
        out.append(value & 255)

    def get(message, at):
        number, after = take_number(message, at, bits)
        return (number >> 1) ^ -(number & 1), after

    def get_byte(message, at):
        byte = take_byte(message, at)
        return byte - 256 if byte > 127 else byte, at + 1

    return (put_byte, get_byte) if bits == 8 else (put, get)


def fixed(size, order, is_signed):
    """The codec of a number at its full width of `size` bytes, `order` of which is `little` or `big`."""

    def put(value, out):
        out += value.to_bytes(size, order, signed=is_signed)

    def get(message, at):
        after = at + size
        if after > len(message):
            raise Error(UNEXPECTED_END, at)
        return int.from_bytes(message[at:after], order, signed=is_signed), after

    return put, get


def nonzero(codec):
    """The codec of a number that isn't 0."""
    put_number, get_number = codec

    def put(value, out):
        if value == 0:
            raise ValueError("0 is no number of a type without 0")
        put_number(value, out)

    def get(message, at):
        value, after = get_number(message, at)
        if value == 0:
            raise Error(NO_VALUE, at)
        return value, after

    return put, get


def _double():
    form = struct.Struct("<d")

    def put(value, out):
        out += form.pack(value)

    def get(message, at):
        if at + 8 > len(message):
            raise Error(UNEXPECTED_END, at)
        return form.unpack_from(message, at)[0], at + 8

    return put, get


def _single():
    """The codec of `f32`. The bits of a NaN are those of the float's, cut to 23; C would change a signalling one."""
    form, double, word, wide = struct.Struct("<f"), struct.Struct("<d"), struct.Struct("<I"), struct.Struct("<Q")

    def put(value, out):
        if value == value:
            out += form.pack(value)
            return
        (bits,) = wide.unpack(double.pack(value))
        content = bits >> 29 & 0x7FFFFF or 0x400000
        out += word.pack(bits >> 63 << 31 | 0xFF << 23 | content)

    def get(message, at):
        if at + 4 > len(message):
            raise Error(UNEXPECTED_END, at)
        (value,) = form.unpack_from(message, at)
        if value != value:
            (bits,) = word.unpack_from(message, at)
            (value,) = double.unpack(wide.pack(bits >> 31 << 63 | 0x7FF << 52 | (bits & 0x7FFFFF) << 29))
        return value, at + 4

    return put, get


def _put_bool(value, out):
    if value is not True and value is not False:
        raise ValueError(f"{value!r} is no bool")
    out.append(value)


def flag(status):
    """Returns the function that reads a byte that is 0 or 1."""

    def get(message, at):
        byte = take_byte(message, at)
        if byte > 1:
            raise Error(status, at)
        return byte == 1, at + 1

    return get


def _put_char(value, out):
    if not isinstance(value, str) or len(value) != 1:
        raise ValueError(f"{value!r} is no character")
    encoded = value.encode()
    out.append(len(encoded))
    out += encoded


def _get_char(message, at):
    size, begin = take_number(message, at, 64)
    if not 0 < size < 5:
        raise Error(BAD_CHAR, at)
    if begin + size > len(message):
        raise Error(UNEXPECTED_END, at)
    try:
        return message[begin : begin + size].decode()[0], begin + size
    except UnicodeDecodeError:
        raise Error(BAD_CHAR, at) from None


def _put_unit(value, _):
    if value is not None:
        raise ValueError(f"{value!r} is not None")


f32, f64 = _single(), _double()
boolean = _put_bool, flag(BAD_BOOL)
char = _put_char, _get_char
unit = _put_unit, lambda _, at: (None, at)


def check_length(value, most):
    if most is not None and len(value) > most:
        raise ValueError(f"{len(value)} is more than {most}")


def _take_run(message, at):
    """Returns the counted bytes at an index, and the index after them."""
    size, begin = take_number(message, at, 64)
    after = begin + size
    if after > len(message):
        raise Error(UNEXPECTED_END, at)
    return message[begin:after], after


def data(most):
    """The codec of counted bytes, at most `most` if that isn't `None`."""

    def put(value, out):
        content = bytes(memoryview(value))
        check_length(content, most)
        put_varint(len(content), out)
        out += content

    def get(message, at):
        content, after = _take_run(message, at)
        if most is not None and len(content) > most:
            raise Error(NO_VALUE, at)
        return content, after

    return put, get


def text(most):
    """The codec of a text, of at most `most` bytes of UTF-8 if that isn't `None`."""

    def put(value, out):
        content = value.encode()
        check_length(content, most)
        put_varint(len(content), out)
        out += content

    def get(message, at):
        content, after = _take_run(message, at)
        try:
            value = content.decode()
        except UnicodeDecodeError:
            raise Error(BAD_UTF8, at) from None
        if most is not None and len(content) > most:
            raise Error(NO_VALUE, at)
        return value, after

    return put, get
