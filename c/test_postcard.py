"""Tests of postcard.py and of the library that it calls: `python3 -m unittest` in this folder, with POSTCARD_LIBRARY."""
import os
import re
import unittest
import zlib

import postcard

ROWS = os.path.join(os.path.dirname(os.path.abspath(__file__)), "../crates/test_vectors/stdin")
# The type expressions of the types of the rows that have one by name.
LEAVES = {it: it for it in "bool u8 u16 u32 u64 u128 i8 i16 i32 i64 i128 char".split()}
LEAVES |= {"usize": "u64", "isize": "i64", "&str": "str", "String": "str"}
STATUS = {
    "DeserializeUnexpectedEnd": 4,
    "DeserializeBadVarint": 5,
    "DeserializeBadBool": 6,
    "DeserializeBadChar": 7,
    "DeserializeBadUtf8": 8,
    "DeserializeBadOption": 9,
    "SerdeDeCustom": 14,
}
MESSAGE = "{id: u32, label: str, samples: [i16]}"


def expression(kind):
    """The type expression of a row's type, or `None` if it has none."""
    found = re.fullmatch(r"Option<(.*)>", kind)
    if found:
        content = expression(found[1])
        return content and f"{content}?"
    found = re.fullmatch(r"Vec<(.*)>", kind)
    if found and found[1] != "u8":
        element = expression(found[1])
        return element and f"[{element}]"
    return LEAVES.get(kind)


def rows():
    """The rows whose types have an expression: the line, the expression, the bytes, those after them, the sign, and the value."""
    with open(ROWS, encoding="utf-8") as it:
        for line in it.read().split("\n"):
            found = re.fullmatch(r"([^#:][^:]*): ([0-9A-F]+|-)(?:\+([0-9A-F]*))? (=|greatest|reads|error) (.*)", line)
            kind = found and not line.startswith("not ") and expression(found[1])
            if kind:
                first = "" if found[2] == "-" else found[2]
                yield line, kind, bytes.fromhex(first), bytes.fromhex(found[3] or ""), found[4], found[5]


class Rows(unittest.TestCase):
    def test_rows(self):
        count = 0
        for line, kind, message, after, sign, value in rows():
            with self.subTest(line):
                if sign == "error":
                    with self.assertRaises(postcard.Error) as caught:
                        postcard.dec(kind, message + after)
                    self.assertEqual(caught.exception.status, STATUS[value])
                else:
                    self.assertEqual(postcard.dec(kind, message + after), (value, after))
                    self.assertEqual(postcard.check(kind, message + after), len(message))
                    if sign != "reads":
                        self.assertEqual(postcard.enc(kind, value), message)
                count += 1
        self.assertGreater(count, 100)


class Calls(unittest.TestCase):
    def test_there_and_back(self):
        message = postcard.enc(MESSAGE, '{id: 42, label: "x", samples: [1, 2]}')
        self.assertEqual(message.hex(), "2a0178020204")
        self.assertEqual(postcard.dec(MESSAGE, message + b"\x99"), ('{id: 42, label: "x", samples: [1, 2]}', b"\x99"))

    def test_fixed_width(self):
        self.assertEqual(postcard.enc("[LE<u16>]", "[300]").hex(), "012c01")
        self.assertEqual(postcard.dec("BE<i32>", bytes.fromhex("fffffffe07")), ("-2", b"\x07"))

    def test_larger_than_the_first_buffer(self):
        text = '"' + "long" * 200 + '"'
        message = postcard.enc("str", text)
        self.assertEqual(message[:2].hex(), "a006")
        self.assertEqual(postcard.dec("str", message), (text, b""))

    def test_where_it_fails(self):
        for call, arguments, status, place in [
            (postcard.dec, ("{id: u3}", b""), 17, 6),
            (postcard.enc, ("u8", "256"), 18, 1),
            (postcard.dec, ("(u8, bool)", b"\x07\x02"), 6, 1),
            (postcard.dec, ("[u16]", b"\x02\x07\xff\xff\x07"), 5, 2),
            (postcard.check, ("str", b"\x05ab"), 4, 0),
            (postcard.dec_all, ("(u8, bool)", b"\x07\x01\x07\x02"), 6, 3),
        ]:
            with self.subTest(arguments), self.assertRaises(postcard.Error) as caught:
                call(*arguments)
            self.assertEqual((caught.exception.status, caught.exception.place), (status, place))

    def test_messages_in_a_row(self):
        self.assertEqual(postcard.dec_all("u16", bytes.fromhex("05ac02")), ["5", "300"])
        with self.assertRaises(ValueError):
            postcard.dec_all("()", b"\x00")


class Checksums(unittest.TestCase):
    def test_of_bytes(self):
        self.assertEqual((postcard.crc16(b"123456789"), postcard.crc32(b"123456789")), (0x906E, 0xCBF43926))
        content = bytes(i * i % 251 for i in range(1000))
        for cut in (0, 1, 500, 1000):
            self.assertEqual(postcard.crc32(content[cut:], postcard.crc32(content[:cut])), zlib.crc32(content))

    def test_after_messages(self):
        self.assertEqual(postcard.enc("u8", "0", crc=16).hex(), "0078f0")
        self.assertEqual(postcard.dec("u8", bytes.fromhex("0078f099"), crc=16), ("0", b"\x99"))
        message = b"\x03abc"
        sent = message + zlib.crc32(message).to_bytes(4, "little")
        self.assertEqual(postcard.enc("str", '"abc"', crc=32), sent)
        self.assertEqual(postcard.dec("str", sent, crc=32), ('"abc"', b""))

    def test_refused(self):
        for message, status, place in [("0078", 4, 1), ("0078f1", 12, 1), ("", 4, 0)]:
            with self.subTest(message), self.assertRaises(postcard.Error) as caught:
                postcard.dec("u8", bytes.fromhex(message), crc=16)
            self.assertEqual((caught.exception.status, caught.exception.place), (status, place))

    def test_in_frames(self):
        frames = postcard.Frames("u8", crc=16)
        answers = frames.feed(bytes.fromhex("010378f000" "0103f07800" "01037899f000" "010378f000" "010379f000"))
        self.assertEqual([answers[0], answers[3]], ["0", "0"])
        self.assertEqual([(it.status, it.place) for it in (answers[1], answers[2], answers[4])], [(12, 1), (11, 0), (12, 1)])
        self.assertEqual(frames.feed(postcard.frame(bytes.fromhex("0078f001")))[0].status, 11)


class Streams(unittest.TestCase):
    STREAM = bytes.fromhex("072a017802020400" "072a0178020400" "072a017802020400") + b"\x11" + b"a" * 16 + b"\x00"

    def test_however_it_is_cut(self):
        value = '{id: 42, label: "x", samples: [1, 2]}'
        for size in range(1, len(self.STREAM) + 1):
            frames = postcard.Frames(MESSAGE, 12)
            answers = []
            for start in range(0, len(self.STREAM), size):
                answers += frames.feed(self.STREAM[start : start + size])
            self.assertEqual([answers[0], answers[2]], [value, value])
            self.assertEqual([answers[1].status, answers[3].status, len(answers)], [11, 2, 4])

    def test_made_frames(self):
        self.assertEqual(postcard.frame(b"\x01\x00\x20\x30").hex(), "020103203000")
        frames = postcard.Frames("[u8]", 600)
        message = postcard.enc("[u8]", str([7] * 500))
        self.assertEqual(frames.feed(postcard.frame(message)), [postcard.dec("[u8]", message)[0]])

    def test_a_bad_type(self):
        with self.assertRaises(postcard.Error):
            postcard.Frames("{id")


if __name__ == "__main__":
    unittest.main()
