"""What the modules that `pcard python` writes stand on: messages of Postcard (wire format 1.0) in pure Python, 3.8 or newer.

A class of such a module is a `Message`: `value.encode()` returns its bytes, and `Class.decode(message)` reads them. A refused message or
value raises `Error`. `Some`, `Ok` and `Err` are values of options and results, and `Frames` takes the frames out of a stream.
"""
from . import containers, numbers
from .messages import Frames, Message
from .values import Err, Error, Ok, Some

__all__ = ["Err", "Error", "Frames", "Message", "Ok", "Some", "containers", "numbers"]
