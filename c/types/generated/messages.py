"""Messages of messages.rs. Written by `pcard python`: don't edit it, but write it again."""
from __future__ import annotations

import enum as _enum
import importlib as _importlib
import typing as _t
from dataclasses import dataclass as _dataclass

if _t.TYPE_CHECKING or not __package__:
    import postcard_runtime as _p
    from postcard_runtime import containers as _c, numbers as _n
else:
    _p = _importlib.import_module(".postcard_runtime", __package__)
    _c, _n = _p.containers, _p.numbers


class FixKind(_p.Message, _enum.IntEnum):
    NoFix = 0
    Fix2d = 1
    Fix3d = 2


FixKind._codec = _c.names(FixKind)


@_dataclass
class GnssFix(_p.Message):
    """Where a receiver is: degrees in units of 10^-7, and millimetres."""
    __slots__ = ("time", "lat", "lon", "alt", "sats", "fix",)
    time: int
    lat: int
    lon: int
    alt: int
    sats: int
    fix: FixKind


GnssFix._codec = _c.record(GnssFix, ['time', 'lat', 'lon', 'alt', 'sats', 'fix'], _n.unsigned(64), _n.signed(32), _n.signed(32), _n.signed(32), _n.unsigned(8), FixKind._codec)


@_dataclass
class Motor(_p.Message):
    """The status of a motor."""
    __slots__ = ("id", "rpm", "current", "temps", "fault",)
    id: int
    rpm: int
    current: float
    temps: _t.List[int]
    fault: _t.Optional[int]


Motor._codec = _c.record(Motor, ['id', 'rpm', 'current', 'temps', 'fault'], _n.unsigned(8), _n.signed(16), _n.f32, _c.array(_n.signed(8), 3), _c.option(_n.unsigned(16), False))


class Level(_p.Message, _enum.IntEnum):
    Trace = 0
    Debug = 1
    Info = 2
    Warn = 3
    Error = 4


Level._codec = _c.names(Level)


@_dataclass
class LogLine(_p.Message):
    __slots__ = ("at", "level", "target", "text",)
    at: int
    level: Level
    target: str
    text: str


LogLine._codec = _c.record(LogLine, ['at', 'level', 'target', 'text'], _n.unsigned(64), Level._codec, _n.text(None), _n.text(None))


class Parity(_p.Message, _enum.IntEnum):
    None_ = 0
    Even = 1
    Odd = 2


Parity._codec = _c.names(Parity)


@_dataclass
class Settings(_p.Message):
    __slots__ = ("name_", "baud", "parity", "retries", "address", "debug",)
    name_: str
    baud: int
    parity: Parity
    retries: int
    address: _t.Optional[_t.Tuple[int, int, int, int]]
    debug: bool


Settings._codec = _c.record(Settings, ['name_', 'baud', 'parity', 'retries', 'address', 'debug'], _n.text(None), _n.unsigned(32), Parity._codec, _n.unsigned(8), _c.option(_c.group(_n.unsigned(8), _n.unsigned(8), _n.unsigned(8), _n.unsigned(8)), False), _n.boolean)


@_dataclass
class Chunk(_p.Message):
    __slots__ = ("image", "offset", "data", "last",)
    image: int
    offset: int
    data: bytes
    last: bool


Chunk._codec = _c.record(Chunk, ['image', 'offset', 'data', 'last'], _n.unsigned(32), _n.unsigned(32), _n.data(None), _n.boolean)


@_dataclass
class Page(_p.Message):
    __slots__ = ("offset", "data",)
    offset: int
    data: bytes


Page._codec = _c.record(Page, ['offset', 'data'], _n.unsigned(32), _n.data(None))


class Gpio(_p.Message):
    __slots__ = ()
    Read: _t.ClassVar[_t.Type[Gpio_Read]]
    Write: _t.ClassVar[_t.Type[Gpio_Write]]


@_dataclass
class Gpio_Read(Gpio):
    __slots__ = ("pin",)
    pin: int


@_dataclass
class Gpio_Write(Gpio):
    __slots__ = ("pin", "high",)
    pin: int
    high: bool


Gpio.Read = Gpio_Read
Gpio_Read.__qualname__ = "Gpio.Read"
Gpio.Write = Gpio_Write
Gpio_Write.__qualname__ = "Gpio.Write"
Gpio._codec = _c.variants([Gpio_Read, Gpio_Write], [
    _c.record(Gpio_Read, ['pin'], _n.unsigned(8)),
    _c.record(Gpio_Write, ['pin', 'high'], _n.unsigned(8), _n.boolean),
])


class Flash(_p.Message):
    __slots__ = ()
    Erase: _t.ClassVar[_t.Type[Flash_Erase]]
    Program: _t.ClassVar[_t.Type[Flash_Program]]


@_dataclass
class Flash_Erase(Flash):
    __slots__ = ()


@_dataclass
class Flash_Program(Flash):
    __slots__ = ("_0", "_1",)
    _0: int
    _1: bytes


Flash.Erase = Flash_Erase
Flash_Erase.__qualname__ = "Flash.Erase"
Flash.Program = Flash_Program
Flash_Program.__qualname__ = "Flash.Program"
Flash._codec = _c.variants([Flash_Erase, Flash_Program], [
    _c.record(Flash_Erase, []),
    _c.record(Flash_Program, ['_0', '_1'], _n.unsigned(32), _n.data(None)),
])


class Call(_p.Message):
    __slots__ = ()
    Ping: _t.ClassVar[_t.Type[Call_Ping]]
    Gpio: _t.ClassVar[_t.Type[Call_Gpio]]
    Flash: _t.ClassVar[_t.Type[Call_Flash]]


@_dataclass
class Call_Ping(Call):
    __slots__ = ()


@_dataclass
class Call_Gpio(Call):
    __slots__ = ("_0",)
    _0: Gpio


@_dataclass
class Call_Flash(Call):
    __slots__ = ("_0",)
    _0: Flash


Call.Ping = Call_Ping
Call_Ping.__qualname__ = "Call.Ping"
Call.Gpio = Call_Gpio
Call_Gpio.__qualname__ = "Call.Gpio"
Call.Flash = Call_Flash
Call_Flash.__qualname__ = "Call.Flash"
Call._codec = _c.variants([Call_Ping, Call_Gpio, Call_Flash], [
    _c.record(Call_Ping, []),
    _c.record(Call_Gpio, ['_0'], Gpio._codec),
    _c.record(Call_Flash, ['_0'], Flash._codec),
])


@_dataclass
class Request(_p.Message):
    """A request; requests and answers have the same numbers."""
    __slots__ = ("id", "call",)
    id: int
    call: Call


Request._codec = _c.record(Request, ['id', 'call'], _n.unsigned(16), Call._codec)


class Reason(_p.Message):
    __slots__ = ()
    Timeout: _t.ClassVar[_t.Type[Reason_Timeout]]
    Busy: _t.ClassVar[_t.Type[Reason_Busy]]
    Refused: _t.ClassVar[_t.Type[Reason_Refused]]


@_dataclass
class Reason_Timeout(Reason):
    __slots__ = ()


@_dataclass
class Reason_Busy(Reason):
    __slots__ = ()


@_dataclass
class Reason_Refused(Reason):
    __slots__ = ("_0",)
    _0: str


Reason.Timeout = Reason_Timeout
Reason_Timeout.__qualname__ = "Reason.Timeout"
Reason.Busy = Reason_Busy
Reason_Busy.__qualname__ = "Reason.Busy"
Reason.Refused = Reason_Refused
Reason_Refused.__qualname__ = "Reason.Refused"
Reason._codec = _c.variants([Reason_Timeout, Reason_Busy, Reason_Refused], [
    _c.record(Reason_Timeout, []),
    _c.record(Reason_Busy, []),
    _c.record(Reason_Refused, ['_0'], _n.text(None)),
])


@_dataclass
class Answer(_p.Message):
    __slots__ = ("id", "result",)
    id: int
    result: _t.Union[_p.Ok, _p.Err]


Answer._codec = _c.record(Answer, ['id', 'result'], _n.unsigned(16), _c.result(_n.unsigned(32), Reason._codec))


@_dataclass
class Battery(_p.Message):
    __slots__ = ("cells", "current", "charging", "temp",)
    cells: _t.List[int]
    current: int
    charging: bool
    temp: _t.Optional[int]


Battery._codec = _c.record(Battery, ['cells', 'current', 'charging', 'temp'], _c.array(_n.unsigned(16), 4), _n.signed(32), _n.boolean, _c.option(_n.signed(8), False))


@_dataclass
class Axes(_p.Message):
    __slots__ = ("_0", "_1", "_2",)
    _0: int
    _1: int
    _2: int


Axes._codec = _c.record(Axes, ['_0', '_1', '_2'], _n.signed(16), _n.signed(16), _n.signed(16))


@_dataclass
class Inertial(_p.Message):
    __slots__ = ("t", "accel", "gyro",)
    t: int
    accel: Axes
    gyro: _t.Tuple[float, float, float]


Inertial._codec = _c.record(Inertial, ['t', 'accel', 'gyro'], _n.unsigned(32), Axes._codec, _c.group(_n.f32, _n.f32, _n.f32))


@_dataclass
class CanFrame(_p.Message):
    __slots__ = ("id", "extended", "data",)
    id: int
    extended: bool
    data: bytes


CanFrame._codec = _c.record(CanFrame, ['id', 'extended', 'data'], _n.unsigned(32), _n.boolean, _n.data(None))


@_dataclass
class Weather(_p.Message):
    __slots__ = ("station", "readings",)
    station: str
    readings: _t.List[_t.Tuple[str, float]]


Weather._codec = _c.record(Weather, ['station', 'readings'], _n.text(None), _c.sequence(_c.group(_n.text(None), _n.f32), None))


@_dataclass
class Announcement(_p.Message):
    __slots__ = ("serial", "version", "unit", "uptime",)
    serial: int
    version: _t.Tuple[int, int, int]
    unit: str
    uptime: int


Announcement._codec = _c.record(Announcement, ['serial', 'version', 'unit', 'uptime'], _n.unsigned(128), _c.group(_n.unsigned(8), _n.unsigned(8), _n.unsigned(8)), _n.char, _n.unsigned(16))


class Pointer(_p.Message):
    __slots__ = ()
    Down: _t.ClassVar[_t.Type[Pointer_Down]]
    Up: _t.ClassVar[_t.Type[Pointer_Up]]
    Move: _t.ClassVar[_t.Type[Pointer_Move]]


@_dataclass
class Pointer_Down(Pointer):
    __slots__ = ("_0",)
    _0: str


@_dataclass
class Pointer_Up(Pointer):
    __slots__ = ("_0",)
    _0: str


@_dataclass
class Pointer_Move(Pointer):
    __slots__ = ("dx", "dy",)
    dx: int
    dy: int


Pointer.Down = Pointer_Down
Pointer_Down.__qualname__ = "Pointer.Down"
Pointer.Up = Pointer_Up
Pointer_Up.__qualname__ = "Pointer.Up"
Pointer.Move = Pointer_Move
Pointer_Move.__qualname__ = "Pointer.Move"
Pointer._codec = _c.variants([Pointer_Down, Pointer_Up, Pointer_Move], [
    _c.record(Pointer_Down, ['_0'], _n.char),
    _c.record(Pointer_Up, ['_0'], _n.char),
    _c.record(Pointer_Move, ['dx', 'dy'], _n.signed(8), _n.signed(8)),
])


@_dataclass
class Patch(_p.Message):
    __slots__ = ("volume", "title", "night",)
    volume: _t.Optional[_p.Some]
    title: _t.Optional[str]
    night: _t.Optional[bool]


Patch._codec = _c.record(Patch, ['volume', 'title', 'night'], _c.option(_c.option(_n.unsigned(8), False), True), _c.option(_n.text(None), False), _c.option(_n.boolean, False))


@_dataclass
class Calibration(_p.Message):
    __slots__ = ("matrix", "offsets",)
    matrix: _t.List[_t.List[float]]
    offsets: _t.List[int]


Calibration._codec = _c.record(Calibration, ['matrix', 'offsets'], _c.array(_c.array(_n.f64, 2), 2), _c.sequence(_n.signed(64), None))


@_dataclass
class Crash(_p.Message):
    __slots__ = ("pc", "registers", "message", "backtrace",)
    pc: int
    registers: _t.List[int]
    message: _t.Optional[str]
    backtrace: _t.List[int]


Crash._codec = _c.record(Crash, ['pc', 'registers', 'message', 'backtrace'], _n.unsigned(64), _c.array(_n.unsigned(32), 4), _c.option(_n.text(None), False), _c.sequence(_n.unsigned(64), None))


class Cause(_p.Message, _enum.IntEnum):
    IllegalAddress = 0
    Busy = 1


Cause._codec = _c.names(Cause)


class FieldBus(_p.Message):
    __slots__ = ()
    Read: _t.ClassVar[_t.Type[FieldBus_Read]]
    Write: _t.ClassVar[_t.Type[FieldBus_Write]]
    Refused: _t.ClassVar[_t.Type[FieldBus_Refused]]


@_dataclass
class FieldBus_Read(FieldBus):
    __slots__ = ("unit", "start", "count",)
    unit: int
    start: int
    count: int


@_dataclass
class FieldBus_Write(FieldBus):
    __slots__ = ("_0", "_1", "_2",)
    _0: int
    _1: int
    _2: _t.List[int]


@_dataclass
class FieldBus_Refused(FieldBus):
    __slots__ = ("_0", "_1",)
    _0: int
    _1: Cause


FieldBus.Read = FieldBus_Read
FieldBus_Read.__qualname__ = "FieldBus.Read"
FieldBus.Write = FieldBus_Write
FieldBus_Write.__qualname__ = "FieldBus.Write"
FieldBus.Refused = FieldBus_Refused
FieldBus_Refused.__qualname__ = "FieldBus.Refused"
FieldBus._codec = _c.variants([FieldBus_Read, FieldBus_Write, FieldBus_Refused], [
    _c.record(FieldBus_Read, ['unit', 'start', 'count'], _n.unsigned(8), _n.unsigned(16), _n.unsigned(16)),
    _c.record(FieldBus_Write, ['_0', '_1', '_2'], _n.unsigned(8), _n.unsigned(16), _c.sequence(_n.unsigned(16), None)),
    _c.record(FieldBus_Refused, ['_0', '_1'], _n.unsigned(8), Cause._codec),
])


class Change(_p.Message):
    __slots__ = ()
    Put: _t.ClassVar[_t.Type[Change_Put]]
    Delete: _t.ClassVar[_t.Type[Change_Delete]]


@_dataclass
class Change_Put(Change):
    __slots__ = ("_0",)
    _0: bytes


@_dataclass
class Change_Delete(Change):
    __slots__ = ()


Change.Put = Change_Put
Change_Put.__qualname__ = "Change.Put"
Change.Delete = Change_Delete
Change_Delete.__qualname__ = "Change.Delete"
Change._codec = _c.variants([Change_Put, Change_Delete], [
    _c.record(Change_Put, ['_0'], _n.data(None)),
    _c.record(Change_Delete, []),
])


@_dataclass
class Samples(_p.Message):
    __slots__ = ("channel", "samples",)
    channel: int
    samples: _t.List[int]


Samples._codec = _c.record(Samples, ['channel', 'samples'], _n.unsigned(8), _c.sequence(_n.unsigned(16), None))


@_dataclass
class Note(_p.Message):
    __slots__ = ("from_", "body",)
    from_: str
    body: str


Note._codec = _c.record(Note, ['from_', 'body'], _n.text(None), _n.text(None))


@_dataclass
class Advertisement(_p.Message):
    __slots__ = ("address", "rssi", "name_", "services",)
    address: bytes
    rssi: int
    name_: _t.Optional[str]
    services: _t.List[int]


Advertisement._codec = _c.record(Advertisement, ['address', 'rssi', 'name_', 'services'], _c.byte_array(6), _n.signed(8), _c.option(_n.text(None), False), _c.sequence(_n.unsigned(16), None))


class Task(_p.Message):
    __slots__ = ()
    Idle: _t.ClassVar[_t.Type[Task_Idle]]
    Running: _t.ClassVar[_t.Type[Task_Running]]
    Failed: _t.ClassVar[_t.Type[Task_Failed]]


@_dataclass
class Task_Idle(Task):
    __slots__ = ()


@_dataclass
class Task_Running(Task):
    __slots__ = ("task", "since",)
    task: int
    since: int


@_dataclass
class Task_Failed(Task):
    __slots__ = ("_0",)
    _0: str


Task.Idle = Task_Idle
Task_Idle.__qualname__ = "Task.Idle"
Task.Running = Task_Running
Task_Running.__qualname__ = "Task.Running"
Task.Failed = Task_Failed
Task_Failed.__qualname__ = "Task.Failed"
Task._codec = _c.variants([Task_Idle, Task_Running, Task_Failed], [
    _c.record(Task_Idle, []),
    _c.record(Task_Running, ['task', 'since'], _n.unsigned(16), _n.unsigned(64)),
    _c.record(Task_Failed, ['_0'], _n.text(None)),
])


@_dataclass
class Lock(_p.Message):
    __slots__ = ()


Lock._codec = _c.record(Lock, [])


@_dataclass
class Scheduler(_p.Message):
    __slots__ = ("state", "queue", "lock",)
    state: Task
    queue: _t.List[int]
    lock: Lock


Scheduler._codec = _c.record(Scheduler, ['state', 'queue', 'lock'], Task._codec, _c.sequence(_n.unsigned(16), None), Lock._codec)


@_dataclass
class Statistics(_p.Message):
    __slots__ = ("min", "max", "mean", "last",)
    min: float
    max: float
    mean: float
    last: float


Statistics._codec = _c.record(Statistics, ['min', 'max', 'mean', 'last'], _n.f32, _n.f32, _n.f64, _n.f64)


@_dataclass
class Counters(_p.Message):
    __slots__ = ("sent", "received", "balance",)
    sent: int
    received: int
    balance: int


Counters._codec = _c.record(Counters, ['sent', 'received', 'balance'], _n.unsigned(64), _n.unsigned(64), _n.signed(128))


Rpm = int

FaultCode = int

RequestId = int

Batch = _t.List[_t.Tuple[str, Change]]
