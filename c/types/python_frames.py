"""python_frames.py FOLDER: requires that the frames, streams and checksums of the generated modules in a folder are right: by the examples
of docs/FORMAT.md and the checks of the catalogue of checksums, and, where POSTCARD_LIBRARY names the shared library, by the proved calls.
These must read the same messages, too."""
import os
import random
import sys

HERE = os.path.dirname(os.path.abspath(__file__))
sys.path.insert(0, os.path.abspath(sys.argv[1]))
sys.path.insert(1, os.path.dirname(HERE))

import kinds  # noqa: E402
import messages  # noqa: E402
from cases import Cases  # noqa: E402
from postcard_runtime import Error, Frames  # noqa: E402
from postcard_runtime.messages import _checksum  # noqa: E402

TYPE = "{offset: u32, data: bytes}"


def page(content):
    """Returns a message whose frame has some bytes: those of its `data` behind a size and a number without zeros."""
    return messages.Page(offset=1, data=content)


def examples():
    """Returns what is wrong with the frames and checksums of docs/FORMAT.md."""
    samples = messages.Samples
    rows = [
        (messages.Axes(0, 0, 0).frame(), b"\1\1\1\1\0"),
        (samples(4, [0, 32, 48]).frame(), bytes.fromhex("03 04 03 03 20 30 00")),
        (page(b"\x11" * 252).encode()[:3], b"\1\xfc\1"),
        (page(b"\x11" * 251).frame(), b"\xff\1\xfb\1" + b"\x11" * 251 + b"\1\0"),
        (page(b"\x11" * 252).frame(), b"\xff\1\xfc\1" + b"\x11" * 251 + b"\2\x11\0"),
        (page(b"\x11" * 251 + b"\0").frame(), b"\xff\1\xfc\1" + b"\x11" * 251 + b"\1\1\0"),
        (messages.Gpio.Read(1).encode(crc=16)[:2], b"\0\1"),
        (messages.FixKind.NoFix.encode(crc=16), bytes.fromhex("00 78 F0")),
        (_checksum(b"123456789", 32), 0xCBF43926.to_bytes(4, "little")),
        (_checksum(b"123456789", 16), 0x906E.to_bytes(2, "little")),
    ]
    wrong = [f"{found.hex()} is not {wanted.hex()}" for found, wanted in rows if found != wanted]
    slotless = [it for it in (page(b""), messages.Gpio.Read(1), messages.Call.Ping()) if hasattr(it, "__dict__")]
    return wrong + [f"{it} has no slots" for it in slotless]


def refused(call):
    """Returns the status and the place of the error that a call raises, or `None`."""
    try:
        call()
    except Error as problem:
        return problem.status, problem.place
    return None


def refusals():
    """Returns what is wrong with messages that must be refused."""
    read = messages.Samples
    message = read(7, [300]).encode(crc=32)
    rows = [
        (refused(lambda: read.unframe(b"")), (11, 0)),
        (refused(lambda: read.unframe(b"\0")), (11, 0)),
        (refused(lambda: read.unframe(b"\5\1\0")), (11, 0)),
        (refused(lambda: read.unframe(b"\2\0\1\0")), (11, 0)),
        (refused(lambda: read.decode(message[:-1], crc=32)), (4, 4)),
        (refused(lambda: read.decode(message[:-1] + b"\0", crc=32)), (12, 4)),
        (refused(lambda: read.decode(message + b"\0", crc=32)), (14, 8)),
        (refused(lambda: read.decode(b"\7\0\0")), (14, 2)),
        (refused(lambda: messages.Pointer.decode(b"\0\5abcde")), (7, 1)),
        (refused(lambda: messages.Pointer.decode(b"\0\0")), (7, 1)),
        (refused(lambda: messages.Pointer.decode(b"\0\2\xff\xff")), (7, 1)),
        (refused(lambda: read(256, []).encode()), (13, None)),
        (refused(lambda: read(7, [70000]).encode()), (13, None)),
        (refused(lambda: read("7", []).encode()), (13, None)),
        (refused(lambda: read(7, None).encode()), (13, None)),
        (refused(lambda: messages.Announcement(0, (1, 2), "x", 0).encode()), (13, None)),
        (refused(lambda: messages.Announcement(0, (1, 2, 3), "xy", 0).encode()), (13, None)),
        (refused(lambda: messages.Announcement(0, (1, 2, 3), "\ud800", 0).encode()), (13, None)),
        (refused(lambda: messages.Gpio().encode()), (13, None)),
        (refused(lambda: messages.Request(1, messages.Gpio.Read(1)).encode()), (13, None)),
        (refused(lambda: messages.CanFrame(1, 1, b"").encode()), (13, None)),
        (refused(lambda: messages.Statistics("1", 0.0, 0.0, 0.0).encode()), (13, None)),
    ]
    wrong = [f"refusal {number}: {found}, and not {wanted}" for number, (found, wanted) in enumerate(rows) if found != wanted]
    try:
        messages.Request(1, messages.Call.Gpio(messages.Gpio.Read(300))).encode()
    except Error as problem:
        if str(problem) != "Request: call._0.pin: 300 is no number of u8":
            wrong.append(f"the text of an error is {problem}")
    return wrong


def shown(answer):
    """Returns an answer to a frame: the status and the place of an error, or the bytes of a value."""
    return (answer.status, answer.place) if isinstance(answer, ValueError) else answer


def stream(chance):
    """Returns a stream of frames: messages, some with bytes after them, some too long, some damaged, and empty ones."""
    found = b""
    for _ in range(30):
        frame = page(chance.randbytes(chance.randrange(60))).frame(crc=chance.choice([None, 16, 32]))
        if chance.random() < 0.2:
            at = chance.randrange(len(frame))
            frame = frame[:at] + chance.randbytes(1) + frame[at + 1 :]
        found += frame + b"\0" * (chance.random() < 0.1)
    return found


def checked(call):
    """Returns how many bytes a call takes, or the status and the place of its error. Where the bytes of an array end, the library names the
    place of the byte that isn't there, and a module that of the array."""
    try:
        return call()
    except ValueError as problem:
        return problem.status, problem.place if problem.status != 4 else None


def values_beside_the_library(postcard):
    """Returns how reading random messages differs from the proved library."""
    declared, wrong = kinds.read(os.path.join(HERE, "messages.types")), []
    cases = Cases(declared, 11)
    for name, message in cases.all(4000):
        cls, written = getattr(messages, name), kinds.expression(declared, ("named", name))
        found = checked(lambda: len(message) - len(cls.take(message)[1]))
        wanted = checked(lambda: postcard.check(f"({written})", message))
        if found != wanted:
            wrong.append(f"{name} {message.hex()}: {found}, and not {wanted}")
    return wrong


def beside_the_library(postcard):
    """Returns how answers to random streams differ from those of the proved library."""
    chance, wrong = random.Random(9), []
    for _ in range(200):
        crc, size, bytes_ = chance.choice([None, 16, 32]), chance.choice([1, 8, 40, 1024]), stream(chance)
        ours, theirs = Frames(messages.Page, size, crc), postcard.Frames(TYPE, size, crc)
        found, wanted, at = [], [], 0
        while at < len(bytes_):
            end = at + chance.randint(1, 90)
            found += ours.feed(bytes_[at:end])
            wanted += theirs.feed(bytes_[at:end])
            at = end
        found = [shown(it) if isinstance(it, Error) else it.encode() for it in found]
        wanted = [shown(it) if isinstance(it, ValueError) else postcard.enc(TYPE, it) for it in wanted]
        if found != wanted:
            wrong.append(f"the answers to {bytes_.hex()} with {size} and {crc}\n    are {found}\n    not {wanted}")
    return wrong


def main():
    wrong = examples() + refusals()
    if os.environ.get("POSTCARD_LIBRARY"):
        import postcard

        wrong += beside_the_library(postcard) + values_beside_the_library(postcard)
    for line in wrong[:5]:
        print(line)
    print(f"frames, streams and checksums in Python: {len(wrong)} differ")
    return 1 if wrong else 0


if __name__ == "__main__":
    sys.exit(main())
