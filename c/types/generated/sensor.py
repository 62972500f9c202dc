"""Messages of sensor.rs. Written by `pcard python`: don't edit it, but write it again."""
from __future__ import annotations

import enum as _enum
import importlib as _importlib
import typing as _t
from dataclasses import dataclass as _dataclass

if _t.TYPE_CHECKING or not __package__:
    import postcard_runtime as _p
    from postcard_runtime import containers as _c, numbers as _n
else:
    _p = _importlib.import_module(".postcard_runtime", __package__)
    _c, _n = _p.containers, _p.numbers


@_dataclass
class Heartbeat(_p.Message):
    """Sent each second."""
    __slots__ = ("uptime", "battery", "temp", "flags",)
    # Milliseconds since the start.
    uptime: int
    battery: int
    temp: int
    flags: int


Heartbeat._codec = _c.record(Heartbeat, ['uptime', 'battery', 'temp', 'flags'], _n.unsigned(64), _n.unsigned(16), _n.signed(16), _n.unsigned(8))


@_dataclass
class Record(_p.Message):
    """Four fields: the record of docs/C_COSTS.md."""
    __slots__ = ("number", "short", "byte", "text",)
    number: int
    short: int
    byte: _t.Optional[int]
    text: str


Record._codec = _c.record(Record, ['number', 'short', 'byte', 'text'], _n.unsigned(32), _n.unsigned(16), _c.option(_n.unsigned(8), False), _n.text(None))


@_dataclass
class Imu(_p.Message):
    """Samples of an inertial unit."""
    __slots__ = ("t", "accel", "gyro", "quat",)
    t: int
    accel: _t.List[int]
    gyro: _t.Tuple[float, float, float]
    quat: _t.List[float]


Imu._codec = _c.record(Imu, ['t', 'accel', 'gyro', 'quat'], _n.unsigned(32), _c.array(_n.signed(16), 3), _c.group(_n.f32, _n.f32, _n.f32), _c.array(_n.f64, 4))


class Class(_p.Message, _enum.IntEnum):
    Sensor = 0
    Actuator = 1
    Gateway = 2


Class._codec = _c.names(Class)


@_dataclass
class Info(_p.Message):
    """What the node is."""
    __slots__ = ("serial", "mac", "name_", "version", "class_",)
    serial: int
    mac: bytes
    name_: str
    version: _t.Tuple[int, int, int]
    class_: Class


Info._codec = _c.record(Info, ['serial', 'mac', 'name_', 'version', 'class_'], _n.unsigned(128), _c.byte_array(6), _n.text(16), _c.group(_n.unsigned(8), _n.unsigned(8), _n.unsigned(16)), Class._codec)


@_dataclass
class Chunk(_p.Message):
    """A part of an image of firmware."""
    __slots__ = ("offset", "check", "data",)
    offset: int
    check: int
    data: bytes


Chunk._codec = _c.record(Chunk, ['offset', 'check', 'data'], _n.fixed(4, "little", False), _n.fixed(2, "big", True), _n.data(None))


class Arg(_p.Message):
    __slots__ = ()
    Int: _t.ClassVar[_t.Type[Arg_Int]]
    Float: _t.ClassVar[_t.Type[Arg_Float]]
    Char: _t.ClassVar[_t.Type[Arg_Char]]
    Flag: _t.ClassVar[_t.Type[Arg_Flag]]
    Name: _t.ClassVar[_t.Type[Arg_Name]]


@_dataclass
class Arg_Int(Arg):
    __slots__ = ("_0",)
    _0: int


@_dataclass
class Arg_Float(Arg):
    __slots__ = ("_0",)
    _0: float


@_dataclass
class Arg_Char(Arg):
    __slots__ = ("_0",)
    _0: str


@_dataclass
class Arg_Flag(Arg):
    __slots__ = ("_0",)
    _0: bool


@_dataclass
class Arg_Name(Arg):
    __slots__ = ("_0",)
    _0: str


Arg.Int = Arg_Int
Arg_Int.__qualname__ = "Arg.Int"
Arg.Float = Arg_Float
Arg_Float.__qualname__ = "Arg.Float"
Arg.Char = Arg_Char
Arg_Char.__qualname__ = "Arg.Char"
Arg.Flag = Arg_Flag
Arg_Flag.__qualname__ = "Arg.Flag"
Arg.Name = Arg_Name
Arg_Name.__qualname__ = "Arg.Name"
Arg._codec = _c.variants([Arg_Int, Arg_Float, Arg_Char, Arg_Flag, Arg_Name], [
    _c.record(Arg_Int, ['_0'], _n.signed(64)),
    _c.record(Arg_Float, ['_0'], _n.f64),
    _c.record(Arg_Char, ['_0'], _n.char),
    _c.record(Arg_Flag, ['_0'], _n.boolean),
    _c.record(Arg_Name, ['_0'], _n.text(8)),
])


class Log(_p.Message):
    """A line of a log."""
    __slots__ = ()
    Text: _t.ClassVar[_t.Type[Log_Text]]
    Coded: _t.ClassVar[_t.Type[Log_Coded]]
    Dropped: _t.ClassVar[_t.Type[Log_Dropped]]
    Silence: _t.ClassVar[_t.Type[Log_Silence]]


@_dataclass
class Log_Text(Log):
    __slots__ = ("_0",)
    _0: str


@_dataclass
class Log_Coded(Log):
    """The number of a text, with its arguments."""
    __slots__ = ("code", "args",)
    code: int
    args: _t.List[Arg]


@_dataclass
class Log_Dropped(Log):
    __slots__ = ("_0",)
    _0: int


@_dataclass
class Log_Silence(Log):
    __slots__ = ()


Log.Text = Log_Text
Log_Text.__qualname__ = "Log.Text"
Log.Coded = Log_Coded
Log_Coded.__qualname__ = "Log.Coded"
Log.Dropped = Log_Dropped
Log_Dropped.__qualname__ = "Log.Dropped"
Log.Silence = Log_Silence
Log_Silence.__qualname__ = "Log.Silence"
Log._codec = _c.variants([Log_Text, Log_Coded, Log_Dropped, Log_Silence], [
    _c.record(Log_Text, ['_0'], _n.text(None)),
    _c.record(Log_Coded, ['code', 'args'], _n.unsigned(16), _c.sequence(Arg._codec, 4)),
    _c.record(Log_Dropped, ['_0'], _n.unsigned(32)),
    _c.record(Log_Silence, []),
])


@_dataclass
class Setting(_p.Message):
    __slots__ = ("value_", "limits", "unit",)
    value_: int
    limits: _t.Optional[_t.Tuple[int, int]]
    unit: str


Setting._codec = _c.record(Setting, ['value_', 'limits', 'unit'], _n.signed(32), _c.option(_c.group(_n.signed(32), _n.signed(32)), False), _n.char)


@_dataclass
class Settings(_p.Message):
    """Settings, by their number."""
    __slots__ = ("values", "old",)
    values: _t.List[_t.Tuple[int, Setting]]
    old: _t.Optional[_p.Some]


Settings._codec = _c.record(Settings, ['values', 'old'], _c.sequence(_c.group(_n.unsigned(8), Setting._codec), 8), _c.option(_c.option(_n.unsigned(16), False), True))


class Fault(_p.Message):
    __slots__ = ()
    Timeout: _t.ClassVar[_t.Type[Fault_Timeout]]
    Busy: _t.ClassVar[_t.Type[Fault_Busy]]
    Refused: _t.ClassVar[_t.Type[Fault_Refused]]
    Range: _t.ClassVar[_t.Type[Fault_Range]]


@_dataclass
class Fault_Timeout(Fault):
    __slots__ = ()


@_dataclass
class Fault_Busy(Fault):
    __slots__ = ()


@_dataclass
class Fault_Refused(Fault):
    __slots__ = ("_0",)
    _0: str


@_dataclass
class Fault_Range(Fault):
    __slots__ = ("min", "max", "double",)
    min: int
    max: int
    double: int


Fault.Timeout = Fault_Timeout
Fault_Timeout.__qualname__ = "Fault.Timeout"
Fault.Busy = Fault_Busy
Fault_Busy.__qualname__ = "Fault.Busy"
Fault.Refused = Fault_Refused
Fault_Refused.__qualname__ = "Fault.Refused"
Fault.Range = Fault_Range
Fault_Range.__qualname__ = "Fault.Range"
Fault._codec = _c.variants([Fault_Timeout, Fault_Busy, Fault_Refused, Fault_Range], [
    _c.record(Fault_Timeout, []),
    _c.record(Fault_Busy, []),
    _c.record(Fault_Refused, ['_0'], _n.text(16)),
    _c.record(Fault_Range, ['min', 'max', 'double'], _n.signed(8), _n.signed(8), _n.signed(128)),
])


@_dataclass
class Mark(_p.Message):
    __slots__ = ()


Mark._codec = _c.record(Mark, [])


@_dataclass
class Answer(_p.Message):
    """An answer."""
    __slots__ = ("id", "result", "unit", "mark",)
    id: int
    result: _t.Union[_p.Ok, _p.Err]
    unit: None
    mark: Mark


Answer._codec = _c.record(Answer, ['id', 'result', 'unit', 'mark'], _n.unsigned(16), _c.result(_c.option(_n.unsigned(32), False), Fault._codec), _n.unit, Mark._codec)


class Message(_p.Message):
    """All that is sent."""
    __slots__ = ()
    Heartbeat: _t.ClassVar[_t.Type[Message_Heartbeat]]
    Record: _t.ClassVar[_t.Type[Message_Record]]
    Imu: _t.ClassVar[_t.Type[Message_Imu]]
    Info: _t.ClassVar[_t.Type[Message_Info]]
    Chunk: _t.ClassVar[_t.Type[Message_Chunk]]
    Log: _t.ClassVar[_t.Type[Message_Log]]
    Settings: _t.ClassVar[_t.Type[Message_Settings]]
    Answer: _t.ClassVar[_t.Type[Message_Answer]]
    Names: _t.ClassVar[_t.Type[Message_Names]]
    Tiny: _t.ClassVar[_t.Type[Message_Tiny]]


@_dataclass
class Message_Heartbeat(Message):
    __slots__ = ("_0",)
    _0: Heartbeat


@_dataclass
class Message_Record(Message):
    __slots__ = ("_0",)
    _0: Record


@_dataclass
class Message_Imu(Message):
    __slots__ = ("_0",)
    _0: Imu


@_dataclass
class Message_Info(Message):
    __slots__ = ("_0",)
    _0: Info


@_dataclass
class Message_Chunk(Message):
    __slots__ = ("_0",)
    _0: Chunk


@_dataclass
class Message_Log(Message):
    __slots__ = ("_0",)
    _0: Log


@_dataclass
class Message_Settings(Message):
    __slots__ = ("_0",)
    _0: Settings


@_dataclass
class Message_Answer(Message):
    __slots__ = ("_0",)
    _0: Answer


@_dataclass
class Message_Names(Message):
    __slots__ = ("_0",)
    _0: _t.List[str]


@_dataclass
class Message_Tiny(Message):
    __slots__ = ("_0", "_1", "_2", "_3",)
    _0: bytes
    _1: bool
    _2: int
    _3: int


Message.Heartbeat = Message_Heartbeat
Message_Heartbeat.__qualname__ = "Message.Heartbeat"
Message.Record = Message_Record
Message_Record.__qualname__ = "Message.Record"
Message.Imu = Message_Imu
Message_Imu.__qualname__ = "Message.Imu"
Message.Info = Message_Info
Message_Info.__qualname__ = "Message.Info"
Message.Chunk = Message_Chunk
Message_Chunk.__qualname__ = "Message.Chunk"
Message.Log = Message_Log
Message_Log.__qualname__ = "Message.Log"
Message.Settings = Message_Settings
Message_Settings.__qualname__ = "Message.Settings"
Message.Answer = Message_Answer
Message_Answer.__qualname__ = "Message.Answer"
Message.Names = Message_Names
Message_Names.__qualname__ = "Message.Names"
Message.Tiny = Message_Tiny
Message_Tiny.__qualname__ = "Message.Tiny"
Message._codec = _c.variants([Message_Heartbeat, Message_Record, Message_Imu, Message_Info, Message_Chunk, Message_Log, Message_Settings, Message_Answer, Message_Names, Message_Tiny], [
    _c.record(Message_Heartbeat, ['_0'], Heartbeat._codec),
    _c.record(Message_Record, ['_0'], Record._codec),
    _c.record(Message_Imu, ['_0'], Imu._codec),
    _c.record(Message_Info, ['_0'], Info._codec),
    _c.record(Message_Chunk, ['_0'], Chunk._codec),
    _c.record(Message_Log, ['_0'], Log._codec),
    _c.record(Message_Settings, ['_0'], Settings._codec),
    _c.record(Message_Answer, ['_0'], Answer._codec),
    _c.record(Message_Names, ['_0'], _c.sequence(_n.text(16), 5)),
    _c.record(Message_Tiny, ['_0', '_1', '_2', '_3'], _n.data(12), _n.boolean, _n.signed(8), _n.unsigned(64)),
])
