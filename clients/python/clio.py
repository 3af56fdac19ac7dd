"""Programs keep memory on a clio node: pages, words that change in one step, and key-value objects.

    with Client("127.0.0.1", 7000, client=1, process=1) as c:
        r = c.alloc(16)
        r.write(8, b"hello")
        old = r.word(0).fetch_add(1)
        with r.word(4096).lock():
            text = r.read(8, 5)
        with c.batch() as b:
            b.write(r, 8, b"later")
            x = b.read(r, 8, 5)
        print(old, text, x.value)

A call that is answered was done once, whatever the network lost, repeated or delayed. TimedOut says that it may have been done.

The class Machine does no I/O, for programs that have an event loop of their own. It is the proved client library, which this
module loads: the file that the environment names as CLIO_LIBRARY, else libclio.so beside this file, else where the system
looks. The module wraps it, and is tested.

What a caller has to keep:
- One program at a time has a client number. A number may be used again, by a run that begins after the other ended.
- The clock of the machine isn't set back from one run of a number to the next: first_id tells why.
- A client's tick is no longer than the node's, and no datagram takes 100 ticks.
- The process number is trusted: whoever names it has its memory.
"""

from __future__ import annotations

import ctypes
import enum
import os
import pathlib
import socket
import threading
import time
from collections.abc import Callable
from typing import Any, Generic, NamedTuple, TypeVar

PAGE_BYTES = 4096  # of a page
CALL_BYTES = 65_536  # of a read or a write, at most; more are several calls
OBJECT_BYTES = 1024  # to an object in one call, or from it, at most
FRAME_ROOM = 1200  # of a buffer for a frame
TICK = 0.01  # seconds, at `clio node`

_WORD_BYTES = 8
_VALUE_BYTES = 256  # of a value of a key-value object, at most
_COUNT_BYTES = 4  # of the number of its keys
_WINDOW = 16  # calls of a batch that are held at once: the library walks over what it holds
_LOCK_WAITS = 0.0001, 0.01  # seconds: the first and the longest wait for a lock that another has

T = TypeVar("T")


# ---- errors ----


class Fault(enum.IntEnum):
    """Why a call was not issued."""

    QUEUE_FULL = 1  # the client holds 256 calls
    EMPTY = 2  # a read or a write has no bytes, or an allocation or a free no pages
    TOO_LONG = 3  # more than 65,536 bytes, 1,024 pages, or 1,024 bytes to an object or from it
    BAD_ADDRESS = 4  # the bytes end above 2^28
    MISALIGNED = 5  # a word isn't at a multiple of 8, or a range not at one of 4,096
    NO_MEMORY = 100  # the heap refused memory
    BAD_ARGUMENT = 101  # a process number isn't 1 to 65,279, or a first id not 1 to 2^63
    USED_UP = 102  # the client has issued 2^32 - 1 calls: connect again
    OUT_OF_RANGE = 1000  # the bytes don't lie in their range, or a number isn't one of C: judged here, not by the library


class Refusal(enum.IntEnum):
    """Why the node refused a call. A refused part of a call changed nothing."""

    NO_MAPPING = 1  # the page isn't mapped for the process, or no range starts there with so many pages
    NO_PERMISSION = 2  # the permission of the page lacks what is needed
    NO_PAGE = 3  # the node has no physical page left
    NO_RANGE = 4  # no place has room for so many pages
    NO_OFFLOAD = 5  # the node has no object of this number
    OBJECT_FULL = 6  # a key is new, and the object has as many as it can have
    NO_KEY = 7  # the object doesn't have the key
    BAD_OP = 8  # the object doesn't have the operation, or the bytes aren't of its form


class Error(Exception):
    """A call has no result. Where the socket fails, it is an OSError instead, and the call may have been done."""


class NotIssued(Error):
    """The call was not issued: nothing was sent, and nothing was done."""

    def __init__(self, fault: Fault):
        super().__init__(fault.name.lower().replace("_", " "))
        self.fault = fault


class Refused(Error):
    """The node refused the call. Of a call of several parts the others may have been done."""

    def __init__(self, refusal: Refusal):
        super().__init__(refusal.name.lower().replace("_", " "))
        self.refusal = refusal


class TimedOut(Error):
    """A part had no answer within 400 ticks: the call may have been done, in whole, in part or not."""

    def __init__(self) -> None:
        super().__init__("no answer: the call may have been done")


# ---- the library ----


class _ClientAt(ctypes.Structure):
    _fields_ = [("at", ctypes.c_void_p)]


class _Polled(ctypes.Structure):
    _fields_ = [("what", ctypes.c_uint32), ("len", ctypes.c_size_t)]


class _Ended(ctypes.Structure):
    _fields_ = [("call", ctypes.c_uint32), ("what", ctypes.c_uint32), ("value", ctypes.c_uint64), ("len", ctypes.c_uint32)]


_U8, _U16, _U32, _U64, _SIZE = ctypes.c_uint8, ctypes.c_uint16, ctypes.c_uint32, ctypes.c_uint64, ctypes.c_size_t
_NUMBER, _BYTES, _ROOM = ctypes.POINTER(_U32), ctypes.c_char_p, ctypes.c_void_p
_FUNCTIONS: dict[str, tuple[Any, list[Any]]] = {
    "clio_create": (_U32, [_U16, _U16, _U64, ctypes.POINTER(_ClientAt)]),
    "clio_free": (None, [_ClientAt]),
    "clio_alloc": (_U32, [_ClientAt, _U32, _U8, _NUMBER]),
    "clio_free_pages": (_U32, [_ClientAt, _U32, _U32, _NUMBER]),
    "clio_read": (_U32, [_ClientAt, _U32, _U32, _NUMBER]),
    "clio_write": (_U32, [_ClientAt, _U32, _BYTES, _SIZE, _NUMBER]),
    "clio_atomic": (_U32, [_ClientAt, _U32, _U8, _U64, _U64, _NUMBER]),
    "clio_offload": (_U32, [_ClientAt, _U8, _U8, _BYTES, _SIZE, _U32, _NUMBER]),
    "clio_fence": (_U32, [_ClientAt, _NUMBER]),
    "clio_poll": (None, [_ClientAt, _U64, _ROOM, _SIZE, ctypes.POINTER(_Polled)]),
    "clio_hear": (_U32, [_ClientAt, _BYTES, _SIZE]),
    "clio_done": (ctypes.c_bool, [_ClientAt, _ROOM, _SIZE, ctypes.POINTER(_Ended)]),
    "clio_is_full": (ctypes.c_bool, [_ClientAt]),
    "clio_is_empty": (ctypes.c_bool, [_ClientAt]),
}


def _library() -> ctypes.PyDLL:
    """The library. Its calls take microseconds, so they keep the interpreter's lock."""
    beside = pathlib.Path(__file__).with_name("libclio.so")
    library = ctypes.PyDLL(os.environ.get("CLIO_LIBRARY") or str(beside if beside.exists() else "libclio.so"))
    for name, (result, arguments) in _FUNCTIONS.items():
        function = getattr(library, name)
        function.restype, function.argtypes = result, arguments
    return library


_clio = _library()


# ---- the machine ----


class Perm(enum.IntEnum):
    """What a program may do with the pages of a range."""

    READ_ONLY = 1
    WRITE_ONLY = 2
    READ_WRITE = 3


class Ended(NamedTuple):
    """A call that ended. Its value is an address, an old word, a number of bytes, or 0; its bytes are those that it read."""

    call: int
    error: Error | None
    value: int
    data: bytes


def first_id() -> int:
    """An id above those of all earlier runs: the nanoseconds since 1970.

    A node knows a change by its client's number and an id, and answers one that it knows from its records. A run uses an id
    for each frame that it sends, far fewer than one a nanosecond, so the ids of a run that begins later are above its own. This
    rests on a clock that isn't set back between two runs, and on one program at a time for each client number.
    """
    return time.time_ns()


class Machine:
    """The proved client. Call; send what poll gives, until it gives None; hear what comes back; done hands out what ended.

    A call gives its number: 1, 2 and so on. Moments are in ticks, as long as the node's or shorter; one that falls counts as
    the last. Addresses and lengths are in bytes, addresses below 2^28; words have 8 bytes, little-endian.
    """

    _LOCK, _UNLOCK, _ADD, _CAS = 1, 2, 3, 4
    _IDLE, _SEND = 0, 1
    _ENDED = 1
    _REFUSED, _TIMED_OUT = 1, 2

    def __init__(self, client: int, process: int, first: int):
        """A client whose frames have ids from `first` on, which is 1 to 2^63. A process is 1 to 65,279."""
        self._at: _ClientAt | None = _ClientAt()
        self._has_ended = False  # whether a call may have ended that was not handed out
        self._number, self._polled, self._ended = _U32(), _Polled(), _Ended()
        self._frame, self._bytes = ctypes.create_string_buffer(FRAME_ROOM), ctypes.create_string_buffer(CALL_BYTES)
        if not 0 <= client < 2**16 or not 0 <= process < 2**16 or not 0 <= first < 2**64:
            raise NotIssued(Fault.OUT_OF_RANGE)
        if fault := _clio.clio_create(client, process, first, ctypes.byref(self._at)):
            raise NotIssued(Fault(fault))

    def close(self) -> None:
        """Frees the client. Later calls raise."""
        at, self._at = self._at, None
        if at and at.at:
            _clio.clio_free(at)

    __del__ = close

    def is_closed(self) -> bool:
        """Whether the client was freed."""
        return self._at is None

    def alloc(self, pages: int, perm: Perm = Perm.READ_WRITE) -> int:
        """1 to 1,024 pages of zeros. The value is the address of the first byte."""
        return self._issue(_clio.clio_alloc, _u32(pages), Perm(perm))

    def free(self, addr: int, pages: int) -> int:
        """The range that starts at `addr` and has so many pages goes."""
        return self._issue(_clio.clio_free_pages, _u32(addr), _u32(pages))

    def read(self, addr: int, length: int) -> int:
        """1 to CALL_BYTES bytes."""
        return self._issue(_clio.clio_read, _u32(addr), _u32(length))

    def write(self, addr: int, data: bytes) -> int:
        """1 to CALL_BYTES bytes."""
        return self._issue(_clio.clio_write, _u32(addr), data, len(data))

    def lock(self, addr: int) -> int:
        """A word of 0 becomes 1, and any other stays. The value is the old word, as for the three calls after this."""
        return self._issue(_clio.clio_atomic, _u32(addr), self._LOCK, 0, 0)

    def unlock(self, addr: int) -> int:
        """A word becomes 0."""
        return self._issue(_clio.clio_atomic, _u32(addr), self._UNLOCK, 0, 0)

    def fetch_add(self, addr: int, n: int) -> int:
        """Adds modulo 2^64."""
        return self._issue(_clio.clio_atomic, _u32(addr), self._ADD, n % 2**64, 0)

    def compare_exchange(self, addr: int, current: int, new: int) -> int:
        """A word becomes `new` if it is `current`; both are taken modulo 2^64."""
        return self._issue(_clio.clio_atomic, _u32(addr), self._CAS, current % 2**64, new % 2**64)

    def offload(self, number: int, op: int, data: bytes, room: int) -> int:
        """An operation of an object: at most OBJECT_BYTES bytes to it, and at most `room` from it."""
        if not 0 <= number < 256 or not 0 <= op < 256:
            raise NotIssued(Fault.OUT_OF_RANGE)
        return self._issue(_clio.clio_offload, number, op, data, len(data), _u32(room))

    def fence(self) -> int:
        """Later calls wait for all earlier ones."""
        return self._issue(_clio.clio_fence)

    def poll(self, now: int) -> bytes | None:
        """A frame to send to the node, or None where no other is due at this moment."""
        while True:
            _clio.clio_poll(self._at, now, self._frame, FRAME_ROOM, ctypes.byref(self._polled))
            what = self._polled.what
            if what == self._SEND:
                return self._frame[: self._polled.len]
            if what == self._IDLE:
                return None
            self._has_ended = True

    def hear(self, frame: bytes) -> bool:
        """Takes what came from the node, whatever it is. Tells whether it ended a call."""
        ended = _clio.clio_hear(self._at, frame, len(frame)) == self._ENDED
        self._has_ended |= ended
        return bool(ended)

    def done(self) -> Ended | None:
        """The next call that ended, in the order of ending. Polling and hearing end calls."""
        ended = self._ended
        if self._has_ended:
            self._has_ended = _clio.clio_done(self._at, self._bytes, CALL_BYTES, ctypes.byref(ended))
        if not self._has_ended:
            return None
        error: Error | None = None
        if ended.what == self._REFUSED:
            error = Refused(Refusal(ended.value))
        elif ended.what == self._TIMED_OUT:
            error = TimedOut()
        return Ended(ended.call, error, ended.value, self._bytes[: ended.len])

    def is_full(self) -> bool:
        """Whether 256 calls are held, so that no other is taken. A call is held until it is handed out."""
        return bool(_clio.clio_is_full(self._at))

    def is_empty(self) -> bool:
        """Whether no call is held."""
        return bool(_clio.clio_is_empty(self._at))

    def _issue(self, function: Any, *arguments: Any) -> int:
        if fault := function(self._at, *arguments, ctypes.byref(self._number)):
            raise NotIssued(Fault(fault))
        return self._number.value


def _u32(number: int) -> int:
    """A number that C can take: ctypes would cut off what is above."""
    if not 0 <= number < 2**32:
        raise NotIssued(Fault.OUT_OF_RANGE)
    return number


# ---- the blocking client ----


class _Call:
    """A call of a machine that is made or to be made: a method of the machine, and its arguments."""

    __slots__ = "error", "arguments", "data", "has_ended", "method", "value"

    def __init__(self, method: str, *arguments: Any):
        self.method, self.arguments = method, arguments
        self.has_ended = False
        self.error: Error | None = None
        self.value, self.data = 0, b""

    def end(self, error: Error | None, value: int = 0, data: bytes = b"") -> None:
        self.error, self.value, self.data, self.has_ended = error, value, data, True

    def result(self) -> _Call:
        """The call, which was done. Raises why it was not."""
        if self.error:
            raise self.error
        return self


class Client:
    """A client with a socket and a clock. Each call waits for its answer, for 400 ticks or a little more.

    Threads that share a client take turns. Its ranges, words and objects use it. Leaving a `with` closes it.
    """

    def __init__(self, host: str, port: int, *, client: int, process: int = 1, tick: float = TICK):
        """A client of the node at this address. Nothing is sent: an absent node shows as calls that time out.

        The number `client` (0 to 65,535) is that of one program at a time; clients of one `process` (1 to 65,279) share its
        memory. A tick, in seconds, is as long as the node's, or shorter: then the client gives up sooner.
        """
        self._machine = Machine(client, process, first_id())
        self._held: dict[int, _Call] = {}  # by number
        self._turns = threading.RLock()
        family, kind, _, _, address = socket.getaddrinfo(host, port, type=socket.SOCK_DGRAM)[0]
        self._socket = socket.socket(family, kind)
        self._socket.connect(address)
        self._socket.settimeout(tick)
        self._start, self._tick = time.monotonic(), tick

    def __enter__(self) -> Client:
        return self

    def __exit__(self, *_: object) -> None:
        self.close()

    def close(self) -> None:
        """Closes the socket. What is under way is left, and may still be done."""
        with self._turns:
            self._socket.close()
            self._machine.close()

    def alloc(self, pages: int, perm: Perm = Perm.READ_WRITE) -> Range:
        """Takes 1 to 1,024 pages of zeros for the process. They stay until they are freed, also when the client ends."""
        return Range(self, self._call("alloc", pages, perm).value, pages)

    def range(self, addr: int, pages: int) -> Range:
        """A range that a client of this process allocated: the address of its first byte, and its pages."""
        return Range(self, addr, pages)

    def kv(self, number: int) -> KeyValue:
        """The key-value object of this number at the node."""
        return KeyValue(self, number)

    def offload(self, number: int, op: int, data: bytes, room: int) -> bytes:
        """Calls an operation of an object with at most 1,024 bytes, and gives its answer, which has `room` bytes at most."""
        return self._call("offload", number, op, bytes(data), room).data

    def fence(self) -> None:
        """Waits until no earlier call is under way. That is so already, except after an interrupt or an OSError."""
        self._call("fence")

    def batch(self) -> Batch:
        """Calls that are made together, at the end of a `with`."""
        return Batch(self)

    def _call(self, method: str, *arguments: Any) -> _Call:
        call = _Call(method, *arguments)
        self._run([call])
        return call.result()

    def _run(self, calls: list[_Call]) -> None:
        """Makes all calls, many at once, and waits until all have ended."""
        with self._turns:
            if self._machine.is_closed():
                raise ValueError("the client is closed")
            issued, waiting = 0, []
            while issued < len(calls) or waiting:
                fresh = calls[issued : issued + _WINDOW - len(waiting)]
                judged = self._issue(fresh)
                issued += judged
                waiting += [call for call in fresh[:judged] if not call.has_ended]
                if waiting or self._machine.is_full():
                    self._turn()
                waiting = [call for call in waiting if not call.has_ended]

    def _issue(self, calls: list[_Call]) -> int:
        """Issues calls as long as there is room, and tells how many were judged."""
        for judged, call in enumerate(calls):
            if self._machine.is_full():
                return judged
            try:
                self._held[getattr(self._machine, call.method)(*call.arguments)] = call
            except NotIssued as error:
                call.end(error)
        return len(calls)

    def _turn(self) -> None:
        """Sends all that is due, and takes what ended. If nothing did, waits for one datagram, at most a tick."""
        while frame := self._machine.poll(int((time.monotonic() - self._start) / self._tick)):
            self._pass(self._socket.send, frame)
        if not self._take():
            frame = self._pass(self._socket.recv, FRAME_ROOM)
            if frame is not None and self._machine.hear(frame):
                self._take()

    def _take(self) -> bool:
        """Takes what ended. Calls that an interrupt left are among it, and nobody waits for them."""
        taken = 0
        while ended := self._machine.done():
            if call := self._held.pop(ended.call, None):
                call.end(*ended[1:])
            taken += 1
        return taken > 0

    @staticmethod
    def _pass(transfer: Callable[[Any], Any], argument: Any) -> Any:
        """Sends or receives. A datagram that isn't taken or doesn't come is lost; so is one to a port without a node."""
        try:
            return transfer(argument)
        except (TimeoutError, BlockingIOError, ConnectionRefusedError):
            return None


class Range:
    """Pages of the node that follow one another. Forgetting a range leaves them: free gives them back."""

    def __init__(self, client: Client, addr: int, pages: int):
        self._client = client
        self.addr = addr  # of the first byte, by which other clients of the process find the range
        self.pages = pages

    def __len__(self) -> int:
        """The bytes of the range."""
        return self.pages * PAGE_BYTES

    def read(self, offset: int, length: int) -> bytes:
        """So many bytes from this offset on. More than 1,024 bytes, or those over the end of a page, are no single step."""
        calls = self._reads(offset, length)
        self._client._run(calls)
        return _joined(calls)

    def write(self, offset: int, data: bytes) -> None:
        """Writes from this offset on. More than 1,024 bytes, or those over the end of a page, are no single step."""
        calls = self._writes(offset, data)
        self._client._run(calls)
        _judge(calls)

    def word(self, offset: int) -> Word:
        """The word of 8 bytes at this offset, a multiple of 8."""
        self._place(offset, _WORD_BYTES)
        if offset % _WORD_BYTES:
            raise NotIssued(Fault.MISALIGNED)
        return Word(self._client, self.addr + offset)

    def free(self) -> None:
        """Gives the pages back. Whoever names them later is refused, or meets what was allocated there since."""
        self._client._call("free", self.addr, self.pages)

    def _place(self, offset: int, length: int) -> None:
        if offset < 0 or length < 0 or offset + length > len(self):
            raise NotIssued(Fault.OUT_OF_RANGE)

    def _reads(self, offset: int, length: int) -> list[_Call]:
        self._place(offset, length)
        starts = range(0, length, CALL_BYTES)
        return [_Call("read", self.addr + offset + at, min(length - at, CALL_BYTES)) for at in starts]

    def _writes(self, offset: int, data: bytes) -> list[_Call]:
        self._place(offset, len(data))
        data = bytes(data)
        starts = range(0, len(data), CALL_BYTES)
        return [_Call("write", self.addr + offset + at, data[at : at + CALL_BYTES]) for at in starts]


class Word:
    """A word of 8 bytes at the node, little-endian, 0 to 2^64 - 1. What is done to it is one step, once."""

    def __init__(self, client: Client, addr: int):
        self._client, self._addr = client, addr

    def load(self) -> int:
        """The word."""
        return int.from_bytes(self._client._call("read", self._addr, _WORD_BYTES).data, "little")

    def store(self, word: int) -> None:
        """Puts a word in its place."""
        self._client._call("write", self._addr, word.to_bytes(_WORD_BYTES, "little"))

    def fetch_add(self, n: int = 1) -> int:
        """Adds modulo 2^64, and gives the word before."""
        return self._client._call("fetch_add", self._addr, n).value

    def compare_exchange(self, current: int, new: int) -> int:
        """Puts `new` where the word is `current`, and gives the word before: it was put where that is `current`."""
        return self._client._call("compare_exchange", self._addr, current, new).value

    def lock(self) -> Guard:
        """Locks the word, which is 0 where nobody has it. Waits as long as another does: reads cost the node no record.

        TimedOut leaves open whether the word was locked.
        """
        wait, longest = _LOCK_WAITS
        while True:
            if guard := self.try_lock():
                return guard
            while self.load():
                time.sleep(wait)
                wait = min(2 * wait, longest)

    def try_lock(self) -> Guard | None:
        """Locks the word if nobody has it."""
        return Guard(self) if self._client._call("lock", self._addr).value == 0 else None


class Guard:
    """A lock that is held. Leaving its `with` unlocks the word; where that fails the word may still be locked."""

    def __init__(self, word: Word):
        self._word = word

    def __enter__(self) -> Guard:
        return self

    def __exit__(self, *_: object) -> None:
        self.unlock()

    def unlock(self) -> None:
        """Unlocks the word."""
        self._word._client._call("unlock", self._word._addr)


class KeyValue:
    """A key-value object of a node: keys of 1 to 32 bytes, values of at most 256. Each operation is one step."""

    _PUT, _GET, _DELETE, _COUNT = 1, 2, 3, 4

    def __init__(self, client: Client, number: int):
        self._client, self._number = client, number

    def put(self, key: bytes, value: bytes) -> None:
        """Puts a value under a key, in place of an old one. Refused as OBJECT_FULL if the key is new and there is no room."""
        self._make(self._keyed(self._PUT, key, value)).result()

    def get(self, key: bytes) -> bytes | None:
        """The value of a key, or None."""
        call = self._make(self._keyed(self._GET, key))
        return _found(call) and call.data

    def delete(self, key: bytes) -> bool:
        """Takes a key out, and tells whether it was there."""
        return _found(self._make(self._keyed(self._DELETE, key))) is not None

    def count(self) -> int:
        """How many keys there are."""
        return int.from_bytes(self._client.offload(self._number, self._COUNT, b"", _COUNT_BYTES), "big")

    def _make(self, call: _Call) -> _Call:
        self._client._run([call])
        return call

    def _keyed(self, op: int, key: bytes, value: bytes = b"") -> _Call:
        # A key that is too long for its length to be told keeps its fault, which the node tells.
        data = bytes([min(len(key), 255)]) + bytes(key) + bytes(value)
        return _Call("offload", self._number, op, data, _VALUE_BYTES)


def _found(call: _Call) -> _Call | None:
    """The call, which was done, or None where the key isn't there. Raises why it was not done."""
    if isinstance(call.error, Refused) and call.error.refusal is Refusal.NO_KEY:
        return None
    return call.result()


def _judge(calls: list[_Call]) -> None:
    """Raises why the first of these calls that was not done was not."""
    for call in calls:
        call.result()


def _joined(calls: list[_Call]) -> bytes:
    """The bytes of calls that ended. Raises why the first that was not done was not."""
    return b"".join([call.result().data for call in calls])


# ---- batches ----


class Ticket(Generic[T]):
    """What a call of a batch answers."""

    def __init__(self, calls: list[_Call], answer: Callable[[], T]):
        self._calls, self._answer = calls, answer

    @property
    def value(self) -> T:
        """The answer, once the batch was run. Raises why there is none."""
        if not all(call.has_ended for call in self._calls):
            raise RuntimeError("the batch was not run")
        return self._answer()


class Batch:
    """Calls that are made together, when its `with` is left, or by run. Then tickets have their values.

    Two that touch a common page take effect in the order in which they were added, unless both only read; so do two of one
    object, of which one changes it. The others overlap. If the `with` is left by an exception, no call is made.
    """

    def __init__(self, client: Client):
        self._client = client
        self._tickets: list[Ticket[Any]] = []

    def __enter__(self) -> Batch:
        return self

    def __exit__(self, kind: object, *_: object) -> None:
        if kind is None:
            self.run()

    def run(self) -> None:
        """Makes the calls, and waits until all have ended. If some were not done, the first of these is raised then."""
        tickets, self._tickets = self._tickets, []
        self._client._run([call for ticket in tickets for call in ticket._calls])
        for ticket in tickets:
            _ = ticket.value

    def read(self, r: Range, offset: int, length: int) -> Ticket[bytes]:
        """As Range.read."""
        calls = r._reads(offset, length)
        return self._add(calls, lambda: _joined(calls))

    def write(self, r: Range, offset: int, data: bytes) -> Ticket[None]:
        """As Range.write."""
        calls = r._writes(offset, data)
        return self._add(calls, lambda: _judge(calls))

    def fetch_add(self, word: Word, n: int = 1) -> Ticket[int]:
        """As Word.fetch_add."""
        call = _Call("fetch_add", word._addr, n)
        return self._add([call], lambda: call.result().value)

    def compare_exchange(self, word: Word, current: int, new: int) -> Ticket[int]:
        """As Word.compare_exchange."""
        call = _Call("compare_exchange", word._addr, current, new)
        return self._add([call], lambda: call.result().value)

    def put(self, kv: KeyValue, key: bytes, value: bytes) -> Ticket[None]:
        """As KeyValue.put."""
        call = kv._keyed(kv._PUT, key, value)
        return self._add([call], lambda: _judge([call]))

    def get(self, kv: KeyValue, key: bytes) -> Ticket[bytes | None]:
        """As KeyValue.get."""
        call = kv._keyed(kv._GET, key)
        return self._add([call], lambda: _found(call) and call.data)

    def delete(self, kv: KeyValue, key: bytes) -> Ticket[bool]:
        """As KeyValue.delete."""
        call = kv._keyed(kv._DELETE, key)
        return self._add([call], lambda: _found(call) is not None)

    def offload(self, number: int, op: int, data: bytes, room: int) -> Ticket[bytes]:
        """As Client.offload."""
        call = _Call("offload", number, op, bytes(data), room)
        return self._add([call], lambda: call.result().data)

    def fence(self) -> Ticket[None]:
        """What was added before has ended before what is added after is sent."""
        call = _Call("fence")
        return self._add([call], lambda: _judge([call]))

    def _add(self, calls: list[_Call], answer: Callable[[], T]) -> Ticket[T]:
        ticket = Ticket(calls, answer)
        self._tickets.append(ticket)
        return ticket
