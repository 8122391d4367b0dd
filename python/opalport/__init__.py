"""A self-locking drive in this process, or a port or a controller with a drive behind it: Python over the C library
(include/opalport.h), by `ctypes`. A call of an object waits until a call of it in another thread has ended.

What is given as bytes may be `bytes`, `bytearray`, a `memoryview` or any other buffer of bytes; one that can be written is not
copied, nor are `bytes`.

The shared library is that which the environment variable OPALPORT_LIBRARY names, else libopalport.so.0 beside this file, where
a wheel has it, else that of the system.

    with Drive(ranges=[Range(1, 100, 10, read_locked=True, read_lock_enabled=True)]) as drive:
        answer = drive.accept(command_fis(Command.READ_DMA, lba=100, count=1))
        print(answer.status, answer.error, drive.denial(client=7))
"""
from __future__ import annotations

import ctypes
import enum
import os
import threading
from dataclasses import dataclass
from types import TracebackType
from typing import Any, Iterable, List, NamedTuple, Optional, Sequence, Tuple, Type, TypeVar, Union

__all__ = [
    "Answer", "Carried", "ClosedError", "Code", "Command", "Denied", "Drive", "EngineStep", "Failure", "Hba", "Kind", "OpalError",
    "Port", "Range", "Reason", "Reset", "Shown", "Taken", "Went", "Work", "Worked", "call_named", "command_fis", "decoded_text", "frame",
    "library_version", "opened", "tokens_text", "trusted_fis",
]

__version__ = "0.2.0"

FIS_LENGTH = 20
ANY_SIZE = 2**64 - 1
MSID = b"OPALMSID"
PROFILES = ("base", "field", "opal")
NAME = "libopalport.so.0"

Bytes = Union[bytes, bytearray, memoryview]
Buffer = Union[bytearray, memoryview]
_Self = TypeVar("_Self", bound="_Object")


class Code(enum.IntEnum):
    """Why a call was refused, by the numbers of the header."""

    DONE = 0
    OUT_OF_MEMORY = 1
    NOT_OPEN = 2
    OTHER_KIND = 3
    NULL = 4
    LENGTH = 5
    TAG = 6
    NUMBER = 7
    NOT_HELD = 8
    ROOM = 9
    IN_USE = 10
    NO_RANGE = 12
    OVERLAP = 13
    BEYOND = 14
    MALFORMED = 15
    SECTORS = 16
    SHADOW = 17
    MSID = 18
    PROFILE = 19
    SERIAL = 20
    MODEL = 21
    PSID = 22
    DATASTORE = 23
    RANGE_TWICE = 24
    VERSION_DIFFERS = 25
    SHARED = 26
    MISALIGNED = 27
    BUSY = 28
    SEED = 29
    PORT_SLOT_BUSY = 101
    PORT_NOT_PREPARED = 102
    PORT_QUEUE = 103
    PORT_NOT_ISSUED = 104
    PORT_NOT_ACCEPTED = 105
    PORT_NOT_FAILED = 106
    PORT_FAILED = 107
    PORT_NOT_ANSWERED = 108
    PORT_NOT_YOURS = 109
    PORT_SIZE = 110
    PORT_HISTORY_FULL = 111


_WORDS = {
    Code.OUT_OF_MEMORY: "an allocation was refused; free what is not needed, and call again",
    Code.NOT_OPEN: "the object is closed; make another one",
    Code.OTHER_KIND: "the handle has an object of another kind",
    Code.NULL: "a pointer is null",
    Code.LENGTH: "a FIS has not 20 bytes, or a payload not as many as its command brings: payload_length and expects tell how many",
    Code.TAG: "a tag is above 31; tags are 0 to 31",
    Code.NUMBER: "a number is none of those that the call takes",
    Code.NOT_HELD: "no command is held under the tag; complete what an accept has answered as held",
    Code.ROOM: "the buffer is too short; give a longer one",
    Code.IN_USE: "the handle has something already",
    Code.NO_RANGE: "there is no such range; ranges are 0 to 16",
    Code.OVERLAP: "two ranges have a sector in common; move or shorten one",
    Code.BEYOND: "a range ends beyond the drive, or the global range has a place",
    Code.MALFORMED: "the bytes are not what they are to be",
    Code.SECTORS: "sectors: a drive has 1 to 2**48",
    Code.SHADOW: "shadow: a shadow MBR has at most 262,144 sectors, with the profile opal just so many, and at most all of the drive",
    Code.MSID: "msid: it has 1 to 32 bytes",
    Code.PROFILE: "there is no such profile",
    Code.SERIAL: "serial: at most 20 characters of printable ASCII, and with the profile field or opal alone",
    Code.MODEL: "model: at most 40 characters of printable ASCII, and with the profile field or opal alone",
    Code.PSID: "psid: at most 32 bytes, and with the profile field or opal alone",
    Code.DATASTORE: "datastore: at most 16,777,216 bytes, with the profile opal at least 10,485,760, and base has none",
    Code.SEED: "seed: with the profile base or field it is 0",
    Code.RANGE_TWICE: "ranges: two rows are of one range; give one row for each",
    Code.VERSION_DIFFERS: "the module and the library are of versions that do not fit; OPALPORT_LIBRARY names another library",
    Code.SHARED: "a buffer that is written has a byte in common with another one",
    Code.MISALIGNED: "a pointer to a struct is not aligned",
    Code.BUSY: "another call is at work on the object",
    Code.PORT_SLOT_BUSY: "the slot is not free; take its answer first, or use another tag",
    Code.PORT_NOT_PREPARED: "the slot has no prepared command; put one first",
    Code.PORT_QUEUE: "queued and other commands would mix; wait until the others have ended",
    Code.PORT_NOT_ISSUED: "the slot has no issued command; issue it first",
    Code.PORT_NOT_ACCEPTED: "the slot has no accepted command; accept it first",
    Code.PORT_NOT_FAILED: "the port has not failed",
    Code.PORT_FAILED: "the port has failed; recover or reset it first",
    Code.PORT_NOT_ANSWERED: "the slot has no answer yet",
    Code.PORT_NOT_YOURS: "the answer is another client's",
    Code.PORT_SIZE: "a transfer is empty, above 256 blocks, no whole blocks, or at no address of 48 bits",
    Code.PORT_HISTORY_FULL: "the history of the port is full; no port keeps one any more",
}


class OpalError(Exception):
    """A call was refused, and nothing was done. `code` is a `Code`, or the number of one that this module does not know."""

    code: int

    def __init__(self, code: int) -> None:
        super().__init__(code)
        self.code = Code(code) if code in _CODES else code

    def __str__(self) -> str:
        if not isinstance(self.code, Code):
            return f"the code {self.code}"
        return f"{self.code.name.lower().replace('_', ' ')}: {_WORDS.get(self.code, 'done')}"


class ClosedError(OpalError, ValueError):
    """The object was closed: a ValueError, as that of a file."""


_CODES = frozenset(int(it) for it in Code)


class Command(enum.IntEnum):
    """A command. `command_fis` makes the FIS of the first seven; `Port.put` takes all but READ_QUEUE_ERROR."""

    READ_QUEUED = 0
    WRITE_QUEUED = 1
    READ_DMA = 2
    WRITE_DMA = 3
    IDENTIFY = 4
    READ_QUEUE_ERROR = 5
    FLUSH = 6
    TRUSTED_SEND = 7
    TRUSTED_RECEIVE = 8


class Reset(enum.IntEnum):
    """A reset of a drive or a port."""

    POWER_CYCLE = 0
    HARDWARE = 1


class Work(enum.IntEnum):
    """The work of a controller's turn."""

    NONE = 0
    SIGNATURE = 1
    FETCH = 2
    COMPLETE = 3


class Went(enum.IntEnum):
    """How the work of a turn went: the signature was posted, the drive served the command, the FIS was none; or what was not in
    the memory."""

    POSTED = 0
    SERVED = 1
    CONTROL = 2
    NO_LIST = 3
    NO_TABLE = 4
    NO_DATA = 5
    NO_FIS = 6


class EngineStep(enum.IntEnum):
    """A step that the engine of a port may do."""

    ISSUE = 0
    ACCEPT = 1
    COMPLETE = 2
    RECOVER = 3


class Kind(enum.IntEnum):
    """What bytes are, for `decoded_text`."""

    LEVEL0 = 0
    COM_PACKET = 1
    FIS = 2
    IDENTIFY = 3
    LOG_DIRECTORY = 4
    QUEUE_ERROR = 5
    DATA_PAGE = 6


@dataclass(frozen=True)
class Range:
    """The cells of a locking range; range 0 is the global one."""

    range: int
    start: int
    length: int
    read_lock_enabled: bool = False
    write_lock_enabled: bool = False
    read_locked: bool = False
    write_locked: bool = False


class Answer(NamedTuple):
    """What a drive answers to a command, or to a completion. One is made for each command: a tuple takes less time than the
    dataclasses below."""

    status: int
    error: int
    held: bool
    denied: bool
    data: Bytes

    @property
    def has_failed(self) -> bool:
        return self.status != 0x50


@dataclass(frozen=True)
class Failure:
    """How a queue has failed: what log page 10h tells. The tag of a command that was not queued is None."""

    tag: Optional[int]
    error: int
    device: int
    count: int
    lba: int


@dataclass(frozen=True)
class Carried:
    """What a frame carries, and for whom."""

    com_id: int
    tsn: int
    hsn: int
    payload: bytes


@dataclass(frozen=True)
class Taken:
    """What a client of a port takes: `done`, or failed with status and error, or stopped by a reset."""

    number: int
    done: bool
    reset: bool
    status: int
    error: int
    data: bytes

    @property
    def has_failed(self) -> bool:
        return not self.done and not self.reset


@dataclass(frozen=True)
class Shown:
    """What a port shows: PxIS, PxTFD, PxSACT and PxCI, and how many lines its audit log has."""

    interrupts: int
    task: int
    active: int
    issued: int
    denials: int


@dataclass(frozen=True)
class Worked:
    """The work of a controller's turn, the tag of its command, how it went, and whether the command was denied."""

    work: Work
    tag: int
    went: Went
    denied: bool


class Reason(enum.IntEnum):
    """What denied an act."""

    READ_LOCKED = 1
    WRITE_LOCKED = 2
    READ_SHADOW = 3
    WRITE_SHADOW = 4
    NO_ACE = 5
    NO_ACCESS = 6
    WRONG_PIN = 7
    LOCKED_OUT = 8
    DISABLED = 9
    BLOCKED = 10
    UNKNOWN = 11


@dataclass(frozen=True)
class Denied:
    """A denial: the number of the act, or of a port's step, the client, and what denied it. A transfer has `lba` and `count`, and
    of a locked range `range`; a method has `sp`, `object`, `method`, and the first `column` that is denied; an attempt to
    authenticate has `sp`, and the authority as its `object`. UIDs are numbers; the rest is None."""

    step: int
    client: int
    reason: Reason
    lba: Optional[int] = None
    count: Optional[int] = None
    range: Optional[int] = None
    sp: Optional[str] = None
    object: Optional[int] = None
    method: Optional[int] = None
    column: Optional[int] = None


class _Handle(ctypes.Structure):
    _fields_ = [("mark", ctypes.c_uint64), ("place", ctypes.c_void_p)]


class _Size(ctypes.Structure):
    _fields_ = [("sectors", ctypes.c_uint64), ("shadow", ctypes.c_uint64), ("datastore", ctypes.c_uint64),
                ("seed", ctypes.c_uint64), ("profile", ctypes.c_uint32), ("wide", ctypes.c_bool)]


class _Range(ctypes.Structure):
    _fields_ = [("start", ctypes.c_uint64), ("length", ctypes.c_uint64), ("range", ctypes.c_uint8),
                ("read_lock_enabled", ctypes.c_uint8), ("write_lock_enabled", ctypes.c_uint8),
                ("read_locked", ctypes.c_uint8), ("write_locked", ctypes.c_uint8)]


class _Region(ctypes.Structure):
    _fields_ = [("begin", ctypes.c_uint64), ("length", ctypes.c_uint64)]


class _Answer(ctypes.Structure):
    _fields_ = [("code", ctypes.c_uint32), ("status", ctypes.c_uint8), ("error", ctypes.c_uint8),
                ("held", ctypes.c_bool), ("denied", ctypes.c_bool), ("length", ctypes.c_size_t)]


class _Count(ctypes.Structure):
    _fields_ = [("code", ctypes.c_uint32), ("number", ctypes.c_size_t)]


class _Failed(ctypes.Structure):
    _fields_ = [("code", ctypes.c_uint32), ("failed", ctypes.c_bool), ("queued", ctypes.c_bool),
                ("tag", ctypes.c_uint8), ("error", ctypes.c_uint8), ("device", ctypes.c_uint8),
                ("count", ctypes.c_uint16), ("lba", ctypes.c_uint64)]


class _Carried(ctypes.Structure):
    _fields_ = [("code", ctypes.c_uint32), ("tsn", ctypes.c_uint32), ("hsn", ctypes.c_uint32),
                ("com_id", ctypes.c_uint16), ("at", ctypes.c_size_t), ("length", ctypes.c_size_t)]


class _Asked(ctypes.Structure):
    _fields_ = [("lba", ctypes.c_uint64), ("command", ctypes.c_uint32), ("count", ctypes.c_uint32),
                ("com_id", ctypes.c_uint16), ("protocol", ctypes.c_uint8)]


class _Taken(ctypes.Structure):
    _fields_ = [("code", ctypes.c_uint32), ("ending", ctypes.c_uint8), ("status", ctypes.c_uint8),
                ("error", ctypes.c_uint8), ("number", ctypes.c_size_t), ("length", ctypes.c_size_t)]


class _Ready(ctypes.Structure):
    _fields_ = [("step", ctypes.c_uint8), ("tag", ctypes.c_uint8)]


class _Shown(ctypes.Structure):
    _fields_ = [("code", ctypes.c_uint32), ("interrupts", ctypes.c_uint32), ("task", ctypes.c_uint32),
                ("active", ctypes.c_uint32), ("issued", ctypes.c_uint32), ("denials", ctypes.c_size_t)]


class _Worked(ctypes.Structure):
    _fields_ = [("code", ctypes.c_uint32), ("work", ctypes.c_uint8), ("tag", ctypes.c_uint8), ("went", ctypes.c_uint8),
                ("denied", ctypes.c_bool)]


class _Denied(ctypes.Structure):
    _fields_ = [("code", ctypes.c_uint32), ("client", ctypes.c_uint32), ("reason", ctypes.c_uint8), ("sp", ctypes.c_uint8),
                ("range", ctypes.c_uint8), ("has_column", ctypes.c_bool), ("count", ctypes.c_uint32), ("step", ctypes.c_uint64),
                ("lba", ctypes.c_uint64), ("object", ctypes.c_uint64), ("method", ctypes.c_uint64), ("column", ctypes.c_uint64)]


class _About(ctypes.Structure):
    _fields_ = [("code", ctypes.c_uint32), ("kind", ctypes.c_uint8), ("profile", ctypes.c_uint8),
                ("sectors", ctypes.c_uint64), ("shadow", ctypes.c_uint64)]


_BYTES = [ctypes.c_void_p, ctypes.c_size_t]
_HANDLE = [ctypes.c_void_p]
_MAKE = [*_HANDLE, _Size, *_BYTES, *_BYTES, *_BYTES, *_BYTES, ctypes.POINTER(_Range), ctypes.c_size_t]
_CALLS = {
    "version": (ctypes.c_uint32, []),
    "version_text": (_Count, _BYTES),
    "about": (_About, _HANDLE),
    "media": (_Count, [*_HANDLE, ctypes.c_uint64, *_BYTES]),
    "remedy": (_Count, [*_HANDLE, ctypes.c_size_t, *_BYTES]),
    "drive_new": (ctypes.c_uint32, _MAKE),
    "clone": (ctypes.c_uint32, [*_HANDLE, *_HANDLE]),
    "save": (_Count, [*_HANDLE, *_BYTES]),
    "drive_load": (ctypes.c_uint32, [*_HANDLE, *_BYTES]),
    "hba_load": (ctypes.c_uint32, [*_HANDLE, *_BYTES, ctypes.c_bool]),
    "free": (ctypes.c_uint32, _HANDLE),
    "drive_accept": (_Answer, [*_HANDLE, *_BYTES, *_BYTES]),
    "drive_complete": (_Answer, [*_HANDLE, ctypes.c_uint8, *_BYTES]),
    "drive_accept_into": (_Answer, [*_HANDLE, *_BYTES, *_BYTES, *_BYTES]),
    "drive_complete_into": (_Answer, [*_HANDLE, ctypes.c_uint8, *_BYTES, *_BYTES]),
    "drive_reset": (ctypes.c_uint32, [*_HANDLE, ctypes.c_uint32]),
    "drive_payload": (_Count, [*_HANDLE, *_BYTES]),
    "drive_expects": (_Count, [*_HANDLE, ctypes.c_uint8]),
    "drive_failure": (_Failed, _HANDLE),
    "drive_data": (_Count, [*_HANDLE, *_BYTES]),
    "drive_denial": (_Count, [*_HANDLE, ctypes.c_uint32, *_BYTES]),
    "drive_denied": (_Denied, [*_HANDLE, ctypes.c_uint32]),
    "port_new": (ctypes.c_uint32, _MAKE),
    "port_put": (_Count, [*_HANDLE, ctypes.c_uint32, ctypes.c_uint8, _Asked, *_BYTES]),
    "port_issue": (_Count, [*_HANDLE, ctypes.c_uint8]),
    "port_accept": (_Count, [*_HANDLE, ctypes.c_uint8]),
    "port_complete": (_Count, [*_HANDLE, ctypes.c_uint8]),
    "port_recover": (_Count, _HANDLE),
    "port_reset": (_Count, [*_HANDLE, ctypes.c_uint32, ctypes.c_uint32]),
    "port_take": (_Taken, [*_HANDLE, ctypes.c_uint32, ctypes.c_uint8]),
    "port_turn": (_Count, [*_HANDLE, ctypes.c_size_t]),
    "port_ready": (_Count, [*_HANDLE, ctypes.POINTER(_Ready), ctypes.c_size_t]),
    "port_data": (_Count, [*_HANDLE, *_BYTES]),
    "port_shown": (_Shown, _HANDLE),
    "port_denial": (_Count, [*_HANDLE, ctypes.c_size_t, *_BYTES]),
    "port_denied": (_Denied, [*_HANDLE, ctypes.c_size_t]),
    "hba_new": (ctypes.c_uint32, _MAKE),
    "hba_read": (_Count, [*_HANDLE, ctypes.c_uint32]),
    "hba_write": (ctypes.c_uint32, [*_HANDLE, ctypes.c_uint32, ctypes.c_uint32]),
    "hba_interrupt": (_Count, _HANDLE),
    "hba_power_cycle": (ctypes.c_uint32, _HANDLE),
    "hba_turn": (_Worked, [*_HANDLE, ctypes.c_size_t, ctypes.c_uint64, *_BYTES]),
    "hba_turn_within": (
        _Worked,
        [*_HANDLE, ctypes.c_size_t, ctypes.c_uint64, *_BYTES, ctypes.POINTER(_Region), ctypes.c_size_t],
    ),
    "hba_denial": (_Count, [*_HANDLE, *_BYTES]),
    "hba_denied": (_Denied, _HANDLE),
    "tokens": (_Count, [ctypes.c_bool, *_BYTES, *_BYTES]),
    "decoded": (_Count, [ctypes.c_uint32, *_BYTES, *_BYTES]),
    "call_named": (_Count, [*_BYTES, *_BYTES]),
    "frame": (_Count, [ctypes.c_uint16, ctypes.c_uint32, ctypes.c_uint32, *_BYTES, *_BYTES]),
    "opened": (_Carried, _BYTES),
    "command_fis": (_Count, [ctypes.c_uint32, ctypes.c_uint64, ctypes.c_uint32, ctypes.c_uint8, *_BYTES]),
    "trusted_fis": (_Count, [ctypes.c_bool, ctypes.c_uint8, ctypes.c_uint16, ctypes.c_uint16, *_BYTES]),
}


class _Library:
    """The calls of the shared object, by their names without `opal_raw_`."""

    def __init__(self) -> None:
        beside = os.path.join(os.path.dirname(os.path.abspath(__file__)), NAME)
        found = beside if os.path.isfile(beside) else NAME
        library = ctypes.CDLL(os.environ.get("OPALPORT_LIBRARY", found))
        # One that is older has no version; one that differs may have other numbers in its structs.
        if not hasattr(library, "opal_raw_version") or library.opal_raw_version() >> 8 != _VERSION:
            raise OpalError(Code.VERSION_DIFFERS)
        for name, (result, parameters) in _CALLS.items():
            call = getattr(library, f"opal_raw_{name}")
            call.restype, call.argtypes = result, parameters
            setattr(self, name, call)

    def __getattr__(self, name: str) -> Any:
        raise AttributeError(name)


# What a library that fits has of its version: major and minor, a byte each.
_VERSION = int(__version__.split(".")[0]) << 8 | int(__version__.split(".")[1])
_LIBRARY = _Library()


def _check(code: int) -> None:
    if code:
        raise (ClosedError if code == Code.NOT_OPEN else OpalError)(code)


def _within(number: int, most: int) -> int:
    """A number that its field holds: `ctypes` would take what is left of a larger one."""
    if not 0 <= number <= most:
        raise OpalError(Code.NUMBER)
    return number


def _bytes(data: Bytes) -> Tuple[Any, int]:
    """Bytes for a call. They are copied where they can't be written and are no `bytes`, or do not stand side by side."""
    if isinstance(data, bytes):
        return data, len(data)
    view = memoryview(data)  # a number has no buffer, and is a TypeError
    if view.readonly or not view.c_contiguous:
        return view.tobytes(), view.nbytes
    return _room(view)


def _fis(data: Bytes) -> Tuple[Any, Any]:
    """The bytes of a FIS for a call."""
    if isinstance(data, bytes) and len(data) == FIS_LENGTH:
        return data, _FIS_SIZE
    return _bytes(data)


def _room(into: Buffer) -> Tuple[Any, int]:
    """A buffer that a call writes, as it stands."""
    view = memoryview(into)
    if view.readonly or not view.c_contiguous:
        raise TypeError("a buffer that can be written, of bytes side by side, is wanted")
    return (ctypes.c_char * view.nbytes).from_buffer(view), view.nbytes


def _written(call: Any, *arguments: Any, room: int = 512) -> bytes:
    """What a call writes to a buffer: it is called once more where it tells that there is more of it."""
    while True:
        buffer = ctypes.create_string_buffer(room)
        told = call(*arguments, buffer, room)
        if told.code != Code.ROOM:
            _check(told.code)
            return buffer.raw[:told.number]
        room = told.number


def library_version() -> str:
    """The version of the library, as `0.2.0`, or `0.2.0 unproved` of one that was built without proofs."""
    return _written(_LIBRARY.version_text).decode("ascii")


def _denied(told: _Denied) -> Optional[Denied]:
    _check(told.code)
    if told.reason == 0:
        return None
    reason = Reason(told.reason)
    if reason <= Reason.WRITE_SHADOW:
        locked = told.range if reason <= Reason.WRITE_LOCKED else None
        return Denied(told.step, told.client, reason, lba=told.lba, count=told.count, range=locked)
    called = told.method if reason <= Reason.NO_ACCESS else None
    return Denied(told.step, told.client, reason, sp={1: "Admin", 2: "Locking"}[told.sp], object=told.object, method=called,
                  column=told.column if told.has_column else None)


def tokens_text(data: Bytes, by_name: bool = False) -> str:
    """The item that a token stream spells, or `malformed N NAME`."""
    return _written(_LIBRARY.tokens, by_name, *_bytes(data)).decode("ascii")


def decoded_text(kind: int, data: Bytes) -> str:
    """The fields of bytes, a line for each."""
    return _written(_LIBRARY.decoded, _within(kind, 2**32 - 1), *_bytes(data)).decode("utf-8")


def call_named(line: str) -> bytes:
    """The tokens of the call that a line writes by name, as a script has it: `set 1 Locking_Range1 ReadLocked=0`."""
    return _written(_LIBRARY.call_named, *_bytes(line.encode("utf-8")))


def frame(com_id: int, tsn: int, hsn: int, payload: Bytes) -> bytes:
    """A ComPacket of one packet of a session with one data subpacket."""
    words = _within(com_id, 2**16 - 1), _within(tsn, 2**32 - 1), _within(hsn, 2**32 - 1)
    payload, length = _bytes(payload)
    return _written(_LIBRARY.frame, *words, payload, length, room=length + 64)


def opened(data: Bytes) -> Carried:
    """What the frame carries that the bytes begin with."""
    told = _LIBRARY.opened(*_bytes(data))
    _check(told.code)
    payload = bytes(memoryview(data).cast("B")[told.at:told.at + told.length])
    return Carried(told.com_id, told.tsn, told.hsn, payload)


def command_fis(command: int, lba: int = 0, count: int = 1, tag: int = 0) -> bytes:
    """The FIS of a command. Only a queued one has a tag; a count of 65,536 is the most."""
    words = _within(command, 2**32 - 1), _within(lba, 2**64 - 1), _within(count, 2**32 - 1), _within(tag, 255)
    return _written(_LIBRARY.command_fis, *words, room=FIS_LENGTH)


def trusted_fis(is_send: bool, protocol: int, sp_specific: int, blocks: int) -> bytes:
    """The FIS of TRUSTED SEND DMA, or of TRUSTED RECEIVE DMA, of so many blocks of 512 bytes."""
    words = _within(protocol, 255), _within(sp_specific, 2**16 - 1), _within(blocks, 2**16 - 1)
    return _written(_LIBRARY.trusted_fis, is_send, *words, room=FIS_LENGTH)


class _Object:
    """What a handle has. It is freed by `close`, at the end of a `with`, or with the last reference."""

    _make = ""
    _wide = False

    def __init__(self, *, sectors: Optional[int] = None, shadow: Optional[int] = None, msid: Bytes = MSID, ranges: Sequence[Range] = (),
                 profile: str = "base", serial: str = "", model: str = "", psid: Bytes = b"",
                 datastore: Optional[int] = None, seed: int = 0) -> None:
        self._hold_nothing()
        rows = (_Range * len(ranges))(*(_row(it) for it in ranges))
        store = ANY_SIZE if datastore is None else min(_within(datastore, ANY_SIZE), ANY_SIZE - 1)
        if profile not in PROFILES:
            raise ValueError(f"{profile!r} is no profile: {', '.join(PROFILES)}")
        new = (524_288, 262_144) if profile == "opal" else (1000, 8)
        sizes = (_within(new[at] if it is None else it, 2**64 - 1) for at, it in enumerate((sectors, shadow)))
        size = _Size(*sizes, store, _within(seed, 2**64 - 1), PROFILES.index(profile), self._wide)
        texts = _bytes(serial.encode("utf-8")), _bytes(model.encode("utf-8"))
        make = getattr(_LIBRARY, self._make)
        _check(make(self._handle, size, *_bytes(msid), *texts[0], *texts[1], *_bytes(psid), rows, len(ranges)))

    def _hold_nothing(self) -> None:
        self._words, self._lock = _Handle(), threading.RLock()
        self._handle = ctypes.c_void_p(ctypes.addressof(self._words))

    def close(self) -> None:
        """Frees the object, if that was not done."""
        with self._lock:
            if self._words.mark:
                _check(_LIBRARY.free(self._handle))

    def __enter__(self: _Self) -> _Self:
        return self

    def __exit__(self, kind: Optional[Type[BaseException]], error: Optional[BaseException],
                 trace: Optional[TracebackType]) -> None:
        self.close()

    def __del__(self) -> None:
        if getattr(self, "_lock", None) is not None:
            self.close()

    def clone(self: _Self) -> _Self:
        """The same once more, in memory of its own: both answer the same from then on, and what is done with one changes nothing
        of the other. The copy goes on with the numbers of acts and steps. `copy.copy` and `copy.deepcopy` do this, too."""
        copied = type(self).__new__(type(self))
        copied._hold_nothing()
        with self._lock:
            _check(_LIBRARY.clone(copied._handle, self._handle))
        return copied

    @classmethod
    def _loaded(cls: Type[_Self], call: Any, saved: Bytes, *words: Any) -> _Self:
        """What a call makes of the bytes of a drive."""
        loaded = cls.__new__(cls)
        loaded._hold_nothing()
        _check(call(loaded._handle, *_bytes(saved), *words))
        return loaded

    def save(self) -> bytes:
        """The drive as bytes, as a power cycle leaves it: what `Drive.load` and `Hba.load` take. It goes on as it was. PINs and sectors stand in
        them as they are."""
        with self._lock:
            return _written(_LIBRARY.save, self._handle, room=1 << 16)

    def __copy__(self: _Self) -> _Self:
        return self.clone()

    def __deepcopy__(self: _Self, memo: Any) -> _Self:
        return self.clone()

    def _never_pickled(self, *_: Any) -> Any:
        raise TypeError(f"a {type(self).__name__} has a handle of this process: it is not pickled")

    __reduce__ = __reduce_ex__ = _never_pickled

    def _about(self) -> Any:
        with self._lock:
            told = _LIBRARY.about(self._handle)
        _check(told.code)
        return told

    @property
    def sectors(self) -> int:
        """The sectors of the drive."""
        return int(self._about().sectors)

    @property
    def shadow(self) -> int:
        """Those of them that the shadow MBR can have."""
        return int(self._about().shadow)

    @property
    def profile(self) -> str:
        """How much the drive knows: base, field or opal."""
        return PROFILES[self._about().profile]

    def media(self, lba: int) -> bytes:
        """The 512 bytes of a sector as the media hold them, whatever is locked or shadowed: a look for a test, and no act."""
        with self._lock:
            return _written(_LIBRARY.media, self._handle, _within(lba, 2**64 - 1))

    def _remedy(self, place: int) -> str:
        with self._lock:
            return _written(_LIBRARY.remedy, self._handle, _within(place, 2**64 - 1)).decode("ascii")

    def _number(self, call: Any, *arguments: Any) -> int:
        with self._lock:
            told = call(self._handle, *arguments)
        _check(told.code)
        number: int = told.number
        return number


# The bytes of data of an answer that a drive has a buffer for: 128 sectors. Those of more are asked for by a call more.
_MOST = 65_536
# What most calls have, as `ctypes` takes it with no work.
_ROOM, _FIS_SIZE = ctypes.c_size_t(_MOST), ctypes.c_size_t(FIS_LENGTH)


class Drive(_Object):
    """A self-locking drive."""

    @classmethod
    def load(cls, saved: Bytes) -> "Drive":
        """The drive that was saved as these bytes. It answers as the saved drive does behind a power cycle. `Code.MALFORMED` of
        bytes that are no saved drive."""
        return cls._loaded(_LIBRARY.drive_load, saved)

    _make = "drive_new"
    _data: Optional[memoryview] = None  # a buffer for the data of an answer, which stands at an address
    _place = ctypes.c_void_p()

    def _answer(self, call: Any, *arguments: Any) -> Answer:
        with self._lock:
            if self._data is None:
                self._data = memoryview(bytearray(_MOST))
                self._place = ctypes.c_void_p(ctypes.addressof(ctypes.c_char.from_buffer(self._data)))
            told = call(self._handle, *arguments, self._place, _ROOM)
            if told.code:
                _check(told.code)
            length = told.length
            if length > _MOST:
                data = _written(_LIBRARY.drive_data, self._handle, room=length)
            else:
                data = self._data[:length].tobytes() if length else b""
        return Answer(told.status, told.error, told.held, told.denied, data)

    def accept(self, fis: Bytes, payload: Bytes = b"") -> Answer:
        """Gives the drive the FIS of a command, with the payload that it brings."""
        return self._answer(_LIBRARY.drive_accept_into, *_fis(fis), *_bytes(payload))

    def accept_into(self, fis: Bytes, into: Buffer, payload: Bytes = b"") -> Answer:
        """As `accept`, with the data put into a buffer: the answer has a view of them. Where they have no room there, the command
        is done, and the error is `Code.ROOM`."""
        buffer, room = _room(into)
        with self._lock:
            told = _LIBRARY.drive_accept_into(self._handle, *_fis(fis), *_bytes(payload), buffer, room)
        _check(told.code)
        if told.length > room:
            raise OpalError(Code.ROOM)
        return Answer(told.status, told.error, told.held, told.denied, memoryview(into).cast("B")[:told.length])

    def complete(self, tag: int, payload: Bytes = b"") -> Answer:
        """Moves the data of the command that is held under a tag, and lets it go."""
        return self._answer(_LIBRARY.drive_complete_into, _tag(tag), *_bytes(payload))

    def payload_length(self, fis: Bytes) -> int:
        """How many bytes of payload a command brings."""
        return self._number(_LIBRARY.drive_payload, *_bytes(fis))

    def expects(self, tag: int) -> int:
        """How many bytes of payload a completion under a tag brings."""
        return self._number(_LIBRARY.drive_expects, _tag(tag))

    def reset(self, kind: int) -> None:
        """Resets the drive (`Reset`)."""
        with self._lock:
            _check(_LIBRARY.drive_reset(self._handle, _within(kind, 2**32 - 1)))

    def failure(self) -> Optional[Failure]:
        """How the queue has failed, or None."""
        with self._lock:
            told = _LIBRARY.drive_failure(self._handle)
        _check(told.code)
        if not told.failed:
            return None
        return Failure(told.tag if told.queued else None, told.error, told.device, told.count, told.lba)

    def denial(self, client: int = 0) -> str:
        """The line of the audit log that tells what denied the last command, as
        `3 7 deny read 95+6 range 1 ReadLocked`; empty where nothing did."""
        with self._lock:
            return _written(_LIBRARY.drive_denial, self._handle, _within(client, 2**32 - 1)).decode("ascii")

    def denied(self, client: int = 0) -> Optional[Denied]:
        """What denied the last command, in numbers; None where nothing did."""
        with self._lock:
            return _denied(_LIBRARY.drive_denied(self._handle, _within(client, 2**32 - 1)))

    def remedy(self) -> str:
        """What would lift what denied the last command, by the rows in force, as `lifted by: Set of Locking_Range1 ReadLocked = 0
        by Admins (ACE_Locking_Range1_Set_RdLocked)`; empty where nothing did."""
        return self._remedy(0)


class Port(_Object):
    """One AHCI port with 32 command slots, the drive behind it, and the clients that share it. Each step that is done gives
    its number, from 1."""

    _make = "port_new"

    def put(self, client: int, tag: int, command: int, lba: int = 0, count: int = 1, payload: Bytes = b"", protocol: int = 0,
            com_id: int = 0) -> int:
        """A client puts a request in the slot of a tag. A write and a send move their payload, a read and a receive as many
        blocks of 512 bytes as `count` says."""
        asked = _Asked(_within(lba, 2**64 - 1), _within(command, 2**32 - 1), _within(count, 2**32 - 1),
                       _within(com_id, 2**16 - 1), _within(protocol, 255))
        return self._number(_LIBRARY.port_put, _within(client, 2**32 - 1), _tag(tag), asked, *_bytes(payload))

    def issue(self, tag: int) -> int:
        """The port issues a prepared command."""
        return self._number(_LIBRARY.port_issue, _tag(tag))

    def accept(self, tag: int) -> int:
        """The drive takes an issued command."""
        return self._number(_LIBRARY.port_accept, _tag(tag))

    def complete(self, tag: int) -> int:
        """The drive moves the data of a command that it holds, and ends it."""
        return self._number(_LIBRARY.port_complete, _tag(tag))

    def recover(self) -> int:
        """The port recovers from a command that failed."""
        return self._number(_LIBRARY.port_recover)

    def reset(self, client: int, kind: int) -> int:
        """A client resets the port and the drive (`Reset`)."""
        return self._number(_LIBRARY.port_reset, _within(client, 2**32 - 1), _within(kind, 2**32 - 1))

    def take(self, client: int, tag: int) -> Taken:
        """A client takes its answer, and the slot is free."""
        with self._lock:
            told = _LIBRARY.port_take(self._handle, _within(client, 2**32 - 1), _tag(tag))
            _check(told.code)
            data = _written(_LIBRARY.port_data, self._handle, room=told.length) if told.length else b""
        return Taken(told.number, told.ending == 0, told.ending == 2, told.status, told.error, data)

    def turn(self, choice: int = 0) -> int:
        """The engine does the step at `choice`, modulo their number, of those that are ready. It gives 0 where there is
        none."""
        return self._number(_LIBRARY.port_turn, _within(choice, 2**64 - 1))

    def ready(self) -> List[Tuple[EngineStep, int]]:
        """The steps that the engine may do, each with its tag, by their kind, then by their tag."""
        steps = (_Ready * 32)()
        number = self._number(_LIBRARY.port_ready, steps, 32)
        return [(EngineStep(it.step), it.tag) for it in steps[:number]]

    def shown(self) -> Shown:
        """What the port shows."""
        with self._lock:
            told = _LIBRARY.port_shown(self._handle)
        _check(told.code)
        return Shown(told.interrupts, told.task, told.active, told.issued, told.denials)

    def denial(self, place: int) -> str:
        """The line of the audit log at a place, 0 the oldest, as `6 1 deny read 100+1 range 1 ReadLocked`; empty where it is
        none of the 64 latest."""
        with self._lock:
            return _written(_LIBRARY.port_denial, self._handle, _within(place, 2**64 - 1)).decode("ascii")

    def denied(self, place: int) -> Optional[Denied]:
        """The denial at a place, 0 the oldest, in numbers; None where it is none of the 64 latest."""
        with self._lock:
            return _denied(_LIBRARY.port_denied(self._handle, _within(place, 2**64 - 1)))

    def remedy(self, place: int) -> str:
        """What would lift the denial at a place, by the rows in force now, as `Drive.remedy`."""
        return self._remedy(place)

    def denials(self, since: int = 0) -> List[Denied]:
        """The denials from a place on, the oldest first, as many as the port keeps: `shown().denials` is the place to ask from
        the next time."""
        found = [self.denied(place) for place in range(max(since, self.shown().denials - 64), self.shown().denials)]
        return [it for it in found if it is not None]


class Hba(_Object):
    """An AHCI controller with one port, and the drive behind it: registers, and memory of yours."""

    _make = "hba_new"

    def __init__(self, *, wide_addresses: bool = False, **drive: Any) -> None:
        """A controller over the drive that `Drive` makes of these settings. With `wide_addresses` CAP.S64A is 1: its addresses have
        64 bits, and else are below 4 GiB."""
        self._wide = bool(wide_addresses)
        super().__init__(**drive)

    @classmethod
    def load(cls, saved: Bytes, *, wide_addresses: bool = False) -> "Hba":
        """A controller over the drive that was saved as these bytes, as `Drive.load`. Its registers are as after its reset, and it
        counts the acts of its drive from then on."""
        return cls._loaded(_LIBRARY.hba_load, saved, bool(wide_addresses))

    def read(self, offset: int) -> int:
        """The 32 bits at an offset of the registers; 0 where no register is."""
        return self._number(_LIBRARY.hba_read, _within(offset, 2**32 - 1))

    def write(self, offset: int, value: int) -> None:
        """Writes 32 bits of the registers; nothing where no register is."""
        with self._lock:
            _check(_LIBRARY.hba_write(self._handle, _within(offset, 2**32 - 1), _within(value, 2**32 - 1)))

    def interrupt(self) -> bool:
        """The interrupt line."""
        return self._number(_LIBRARY.hba_interrupt) != 0

    def power_cycle(self) -> None:
        """The controller and its drive lose power, and have it again."""
        with self._lock:
            _check(_LIBRARY.hba_power_cycle(self._handle))

    def turn(
        self,
        memory: Buffer,
        base: int = 0,
        choice: int = 0,
        regions: Optional[Iterable[Tuple[int, int]]] = None,
    ) -> Worked:
        """The controller does a work of those that are ready, the one of the number `choice`, modulo how many they are. The host's
        memory is `memory`, from the address `base` on; it is read and written in this call alone. With `regions`, each the address
        of its first byte and how many bytes it has, the bytes that lie in them alone are memory: an access is answered where all
        its bytes lie in one region, and any other finds no memory."""
        buffer, length = _room(memory)
        words = _within(choice, 2**64 - 1), _within(base, 2**64 - 1)
        if regions is None:
            with self._lock:
                told = _LIBRARY.hba_turn(self._handle, *words, buffer, length)
        else:
            parts = [_Region(_within(begin, 2**64 - 1), _within(size, 2**64 - 1)) for begin, size in regions]
            with self._lock:
                told = _LIBRARY.hba_turn_within(self._handle, *words, buffer, length, (_Region * len(parts))(*parts), len(parts))
        _check(told.code)
        return Worked(Work(told.work), told.tag, Went(told.went), told.denied)

    def denial(self) -> str:
        """The line of the audit log that tells what denied the command of the last turn, as
        `1 0 deny read 100+1 range 1 ReadLocked`; empty where nothing did."""
        with self._lock:
            return _written(_LIBRARY.hba_denial, self._handle).decode("ascii")

    def denied(self) -> Optional[Denied]:
        """What denied the command of the last turn, in numbers; None where nothing did."""
        with self._lock:
            return _denied(_LIBRARY.hba_denied(self._handle))

    def remedy(self) -> str:
        """What would lift what denied the command of the last turn, as `Drive.remedy`."""
        return self._remedy(0)


def _tag(tag: int) -> int:
    """A tag: of a number that no byte holds it is told as of any other above 31."""
    return tag if 0 <= tag <= 255 else 255


def _row(it: Range) -> _Range:
    flags = it.read_lock_enabled, it.write_lock_enabled, it.read_locked, it.write_locked
    words = _within(it.start, 2**64 - 1), _within(it.length, 2**64 - 1), _within(it.range, 255)
    return _Range(*words, *(1 if flag else 0 for flag in flags))
