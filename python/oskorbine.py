"""The bench chain from Python: 1 to 32 battery monitors (ADBMS6830B) in a table that the caller lends, the host that writes their
frames and reads their replies, a second engine that clocks the same frames a byte at a time, and readings of cells.

Names, values and refusals are those of include/oskorbine.h, over the shared library that tools/c-library makes. It is looked for at
the path in the environment variable OSKORBINE_LIBRARY, and without one at target/c/liboskorbine.so in the project of this module.

A buffer that is written is lent and changed in place: a bytearray, a writable memoryview, a ctypes array, array('d') for volts. One
that is only read may be any bytes-like object, bytes too. Codes are a sequence of whole numbers; array('h') goes in without a copy.
A refusal is an answer and never an exception. TypeError and ValueError are for what the library could not see (a buffer that cannot
be written, buffers that overlap, a number that does not fit its C type); they come before the library is called, so nothing changed.
"""

from __future__ import annotations

import array
import collections.abc
import ctypes
import itertools
import operator
import os
import sys
from typing import Any, NamedTuple, Sequence, Tuple, Union

__all__ = [
    "Answer", "osk_number", "osk_first", "osk_second", "osk_frame", "osk_store", "osk_compare", "osk_load", "osk_discharge",
    "osk_wake", "osk_relay", "osk_heartbeat", "osk_time_out", "osk_host_frame", "osk_check", "osk_two_ports", "osk_verdict",
    "osk_clock_start", "osk_clock_byte", "osk_clock_window", "osk_clock_release", "osk_microvolts", "osk_volts", "osk_summary",
    "OSK_ACCEPTED", "OSK_TABLE_NOT_SOUND", "OSK_FRAME_SHORT", "OSK_COMMAND_WRONG", "OSK_CODE_NOT_LISTED", "OSK_LENGTH_WRONG",
    "OSK_NO_ROOM", "OSK_POSITION_WRONG", "OSK_COUNT_WRONG", "OSK_CODE_CLEARED", "OSK_BOTH_DAMAGED", "OSK_RECORD_SIZE",
    "OSK_EVENT_SHUTDOWN", "OSK_EVENT_MEASUREMENT", "OSK_EVENT_WRCFGB", "OSK_EVENT_WRPWM", "OSK_OUTPUT_ON", "OSK_PORT_A", "OSK_PORT_B",
    "OSK_PORT_A_DIFFERS", "OSK_PORT_B_DIFFERS", "OSK_RIGHT", "OSK_DAMAGED", "OSK_COUNTER_DIFFERS", "OSK_PASSED", "OSK_FAILED",
    "OSK_MESSAGE_DAMAGED", "OSK_TIMED_OUT", "OSK_CLOCK_STATE",
]

Writable = Union[bytearray, memoryview, "array.array[Any]", "ctypes.Array[Any]"]
Readable = Union[bytes, Writable]
Codes = Union[Sequence[int], "array.array[int]", "ctypes.Array[Any]"]

# ---- the refusals, each given exactly when its condition is the first to hold, in the order that each function names

OSK_ACCEPTED = 0
OSK_TABLE_NOT_SOUND = 1  # the table is not sound; at a release also: it was not, or had another N, at byte four
OSK_FRAME_SHORT = 2  # frame under 4 bytes
OSK_COMMAND_WRONG = 3  # command PEC wrong
OSK_CODE_NOT_LISTED = 4  # code not listed
OSK_LENGTH_WRONG = 5  # length not the one for this command and N; a reply, payload or message of the wrong length
OSK_NO_ROOM = 6  # the buffer to be written is too small
OSK_POSITION_WRONG = 7  # N not 1 to 32, position not 1 to N, phase not 0 to 14, or an expected counter above 63
OSK_COUNT_WRONG = 8  # wrong number of codes or value bytes
OSK_CODE_CLEARED = 9  # a code to store or load is -32768
OSK_BOTH_DAMAGED = 10  # both ports' bytes are damaged

OSK_RECORD_SIZE = 170  # the bytes of one monitor's record

# ---- what goes on at the monitor while its outputs are asked for, added up; bits above these are not looked at

OSK_EVENT_SHUTDOWN = 1  # thermal shutdown
OSK_EVENT_MEASUREMENT = 2  # a measurement that pauses discharge
OSK_EVENT_WRCFGB = 4  # configuration B is being written
OSK_EVENT_WRPWM = 8  # a PWM group is being written

OSK_OUTPUT_ON = 0x80  # added to an output's row where the output is on

# ---- the ends of the chain

OSK_PORT_A = 1  # monitor 1's
OSK_PORT_B = 2  # that of monitor N

# ---- the check of one payload, and what two ports answer beside OSK_PORT_A and OSK_PORT_B

OSK_RIGHT = 1
OSK_DAMAGED = 2
OSK_COUNTER_DIFFERS = 3

OSK_PORT_A_DIFFERS = 3  # port A's, and its counter differs
OSK_PORT_B_DIFFERS = 4  # port B's, likewise

# ---- the host's verdict on a heartbeat in LPCM

OSK_PASSED = 1
OSK_FAILED = 2
OSK_MESSAGE_DAMAGED = 3
OSK_TIMED_OUT = 4

OSK_CLOCK_STATE = 264  # the bytes of one clock's state


# ---- answers

class Answer(int):
    """An osk_answer: the 32-bit number as C has it, and its three parts by name.

    It is an int and not a tuple so that it stays the header's value: osk_number, osk_first and osk_second take it as they do in C, and
    a refusal, being its number only, equals its constant (answer == OSK_NO_ROOM). An accepted answer has values beside OSK_ACCEPTED:
    there compare answer.number, and do not use the answer as a truth value.
    """

    __slots__ = ()

    def __new__(cls, value: int = 0) -> Answer:
        return super().__new__(cls, _whole("answer", value, 0, 0xFFFFFFFF))

    @property
    def number(self) -> int:
        """The number of the refusal, and OSK_ACCEPTED (0) where nothing is refused."""
        return self & 0xFF

    @property
    def first(self) -> int:
        """The first value; 0 in a refusal and where a function has none."""
        return self >> 8 & 0xFF

    @property
    def second(self) -> int:
        """The second value; 0 in a refusal and where a function has none."""
        return self >> 16

    def __repr__(self) -> str:
        return f"<Answer number={self.number} first={self.first} second={self.second}>"


def osk_number(answer: int) -> int:
    """The number of the refusal in an answer, bits 0 to 7, and OSK_ACCEPTED (0) where nothing is refused. Refusals: none."""
    return Answer(answer).number


def osk_first(answer: int) -> int:
    """The first value of an answer, bits 8 to 15; 0 in a refusal and where a function has none. Refusals: none."""
    return Answer(answer).first


def osk_second(answer: int) -> int:
    """The second value of an answer, bits 16 to 31; 0 in a refusal and where a function has none. Refusals: none."""
    return Answer(answer).second


# ---- the library

_BUFFER = (ctypes.c_void_p, ctypes.c_size_t)
_STATE = (ctypes.c_void_p,)
_POSITION = (ctypes.c_size_t,)
_CODE = (ctypes.c_int16,)
_BYTE = (ctypes.c_uint8,)
_PROTOTYPES = {
    "osk_frame": (ctypes.c_uint32, _BUFFER + _BUFFER + _BUFFER),
    "osk_store": (ctypes.c_uint32, _BUFFER + _POSITION + _BUFFER),
    "osk_compare": (ctypes.c_uint32, _BUFFER + _POSITION),
    "osk_load": (ctypes.c_uint32, _BUFFER + _POSITION + _BUFFER),
    "osk_discharge": (ctypes.c_uint32, _BUFFER + _POSITION + _BYTE + _BYTE + _BUFFER),
    "osk_wake": (ctypes.c_uint32, _BUFFER + _POSITION + _BUFFER),
    "osk_relay": (ctypes.c_uint32, _BUFFER + _POSITION + _BUFFER + _BUFFER),
    "osk_heartbeat": (ctypes.c_uint32, _BUFFER + _POSITION + _BUFFER),
    "osk_time_out": (ctypes.c_uint32, _BUFFER + _POSITION),
    "osk_host_frame": (ctypes.c_uint32, (ctypes.c_uint16,) + _POSITION + _BUFFER + _BUFFER),
    "osk_check": (ctypes.c_uint32, _BUFFER + _BYTE),
    "osk_two_ports": (ctypes.c_uint32, _BUFFER + _BUFFER + _POSITION + _POSITION + _BYTE),
    "osk_verdict": (ctypes.c_uint32, _BUFFER + _BYTE),
    "osk_clock_start": (None, _STATE),
    "osk_clock_byte": (ctypes.c_uint32, _STATE + _BUFFER + _BYTE),
    "osk_clock_window": (ctypes.c_uint32, _STATE + _POSITION + _BUFFER),
    "osk_clock_release": (ctypes.c_uint32, _STATE + _BUFFER),
    "osk_microvolts": (ctypes.c_int32, _CODE),
    "osk_volts": (ctypes.c_double, _CODE),
    "osk_summary": (ctypes.c_uint32, _BUFFER + _BUFFER),
}


def _open_library() -> ctypes.PyDLL:
    project = os.path.dirname(os.path.dirname(os.path.realpath(__file__)))
    path = os.path.abspath(os.environ.get("OSKORBINE_LIBRARY") or os.path.join(project, "target", "c", "liboskorbine.so"))
    remedy = "make it with tools/c-library, or name one in the environment variable OSKORBINE_LIBRARY"
    if not os.path.isfile(path):
        raise ImportError(f"there is no library at {path}: {remedy}")
    try:
        # PyDLL keeps Python's other threads out during a call: they could change a lent buffer under the library.
        library = ctypes.PyDLL(path)
    except OSError as error:
        raise ImportError(f"{path} is no library for this machine ({error}): {remedy}") from error
    for name, (result, arguments) in _PROTOTYPES.items():
        try:
            function = getattr(library, name)
        except AttributeError:
            raise ImportError(f"{path} has no {name}: {remedy}") from None
        function.restype = result
        function.argtypes = arguments
    return library


_library = _open_library()


# ---- what is lent to it

_SIZE_MAX = ctypes.c_size_t(-1).value
_OWN_ORDER = "<" if sys.byteorder == "little" else ">"
_NOWHERE = ctypes.c_double()  # a buffer of length 0 still needs a valid address, aligned for any element


class _Lent(NamedTuple):
    """One buffer of a call. What `words` holds keeps the memory alive and its size fixed until the call is over."""

    name: str
    written: bool
    words: Tuple[Any, ...]  # what the C function takes: the pointer, and the length in elements where it takes one
    start: int = 0  # the addresses it covers; none where nobody can write there
    end: int = 0


def _whole(name: str, value: int, low: int, high: int) -> int:
    try:
        number = operator.index(value)
    except TypeError:
        raise TypeError(f"{name}: a whole number is needed, not {type(value).__name__}") from None
    if not low <= number <= high:
        raise ValueError(f"{name}: {number} is not from {low} to {high}")
    return number


def _size(name: str, value: int) -> int:
    return _whole(name, value, 0, _SIZE_MAX)


def _byte(name: str, value: int) -> int:
    return _whole(name, value, 0, 0xFF)


def _code(value: int) -> int:
    return _whole("code", value, -0x8000, 0x7FFF)


def _view(name: str, buffer: Any) -> memoryview:
    try:
        return memoryview(buffer)
    except TypeError:
        raise TypeError(f"{name}: a bytes-like object is needed, not {type(buffer).__name__}") from None


def _holds(view: memoryview, kind: str) -> bool:
    return view.format in (kind, "@" + kind, "=" + kind, _OWN_ORDER + kind)


def _lend(name: str, written: bool, view: memoryview) -> _Lent:
    if written and view.readonly:
        raise TypeError(f"{name}: it is written, and this buffer is read-only")
    if not view.c_contiguous:
        raise ValueError(f"{name}: its elements do not lie side by side")
    if view.nbytes == 0:
        return _Lent(name, written, (ctypes.byref(_NOWHERE), 0))
    length = view.nbytes // view.itemsize
    if view.readonly:
        # ctypes gives the address of a bytes object but of no other read-only memory, so a part of one is copied.
        whole = type(view.obj) is bytes and len(view.obj) == view.nbytes
        return _Lent(name, written, (view.obj if whole else view.tobytes(), length))
    first = ctypes.c_char.from_buffer(view)
    start = ctypes.addressof(first)
    return _Lent(name, written, (ctypes.byref(first), length), start, start + view.nbytes)


def _bytes(name: str, written: bool, buffer: Any) -> _Lent:
    view = _view(name, buffer)
    if view.itemsize != 1:
        raise TypeError(f"{name}: elements of one byte are needed, not of {view.itemsize}")
    return _lend(name, written, view)


def _read(name: str, buffer: Any) -> _Lent:
    return _bytes(name, False, buffer)


def _written(name: str, buffer: Any) -> _Lent:
    return _bytes(name, True, buffer)


def _state(written: bool, buffer: Any) -> _Lent:
    lent = _bytes("state", written, buffer)
    pointer, length = lent.words
    if length != OSK_CLOCK_STATE:
        raise ValueError(f"state: it has {length} bytes, not OSK_CLOCK_STATE ({OSK_CLOCK_STATE})")
    return lent._replace(words=(pointer,))


def _codes(codes: Any) -> _Lent:
    try:
        view = memoryview(codes)
    except TypeError:
        view = None
    if view is not None and view.itemsize == 1:
        raise TypeError("codes: whole numbers of 16 bits are needed, not bytes (array('h') takes bytes in the machine's order)")
    copy = array.array("h")
    if view is not None and _holds(view, "h"):
        if view.c_contiguous and not view.readonly:
            lent = _lend("codes", False, view)
            if lent.start % ctypes.alignment(ctypes.c_int16) == 0:
                return lent
        copy.frombytes(view.tobytes())
    elif view is None and not isinstance(codes, collections.abc.Sequence):
        raise TypeError(f"codes: a sequence of whole numbers is needed, not {type(codes).__name__}")
    else:
        try:
            copy.extend(iter(codes))  # an array of another kind is refused whole, its items are not
        except OverflowError:
            raise ValueError("codes: one is not from -32768 to 32767") from None
        except (TypeError, NotImplementedError) as error:
            raise TypeError(f"codes: whole numbers are needed ({error})") from None
    return _lend("codes", False, memoryview(copy))


def _volts(buffer: Any) -> _Lent:
    view = _view("out", buffer)
    if not _holds(view, "d"):
        raise TypeError(f"out: elements of format 'd' are needed, as in array('d'), not '{view.format}'")
    lent = _lend("out", True, view)
    if lent.start % ctypes.alignment(ctypes.c_double):
        raise ValueError("out: its address is not aligned for elements of format 'd'")
    return lent


def _call(function: Any, *arguments: Any) -> Any:
    lent = [argument for argument in arguments if isinstance(argument, _Lent)]
    for one, other in itertools.combinations(lent, 2):
        if (one.written or other.written) and one.start < other.end and other.start < one.end:
            raise ValueError(f"{one.name} and {other.name} overlap, and one of them is written")
    words = (argument.words if isinstance(argument, _Lent) else (argument,) for argument in arguments)
    return function(*itertools.chain.from_iterable(words))


# ---- the chain: a table of N records of OSK_RECORD_SIZE bytes, nearest monitor first, each laid out as document 01 has it, with more
# behind its byte 69: the groups PWM A and PWM B of six bytes each; the copy of the cells, 32 bytes; and low power cell monitoring (LPCM):
# its configuration at byte 114, the thresholds of the cells at 120 and of the GPIOs at 126, the flags CMF0 to CMF5 at 132, six bytes each,
# and the cells of the last measurement at 138, 32 bytes. Zero bytes are a sound table.

def osk_frame(table: Writable, frame: Readable, reply: Writable) -> Answer:
    """Handles a frame. The table becomes what the monitors keep of it; the reply to a read, nearest monitor first, goes to the start of
    `reply`, and bytes past it stay.

    A snapshot is for a long read of one moment: the cells are read by six frames, and codes stored between two of them are of another. SNAP
    (002D) copies each monitor's cells and sets SNAP_ST (byte 5, bit 5). While that is set, also in a record that was lent so, RDCVA to
    RDCVF show the copy, and a further SNAP leaves it; everything else goes by the live record: every other read, stores, compares, loads
    and CLRCELL. UNSNAP (002F) clears SNAP_ST, and the reads show the live cells again. The sheet freezes bytes of status C and D too; this
    chain does not.

    WRCMCFG (0058) stores the LPCM configuration whole; WRCMCELLT (005A) and WRCMGPIOT (005C) store bytes 0 to 3 of their thresholds and the
    low half of byte 4, and every other bit becomes 0. RDCMCFG (0059), RDCMCELLT (005B) and RDCMGPIOT (005D) show these three, RDCMFLAG
    (005F) the flags. CLRCMFLAG (005E) has two data bytes for each monitor and not six, so a frame of 4 + 4N bytes and windows of four: each
    bit of the first that is 1 clears that bit of CMF0; the second does nothing. CMHB (0043) is sent by monitors: a frame of it is refused
    with 4. CMEN (0041) where CMC_EN (CMF1, byte 133, bit 7) is clear makes CMF1 83 hex and takes the live cells as the last measurement;
    where it is set CMEN changes neither. CMDIS (0040) clears CMC_EN. Both leave CMF0. While CMC_EN is set, also in a record that was lent
    so, a monitor takes no write: it stores nothing and does not count, and its byte 69 becomes 0. Reads and bare commands go on.

    First: how many monitors took the frame: N for a read or a bare command; for a WRRR the monitors that are not in LPCM; and for any other
    write those of them that found the data PEC of their own bytes right. A WRRR is executed whatever its data PEC: every monitor that is
    not in LPCM takes and counts it, and stores its own six bytes only where its retention was unlocked (byte 69 was 1, as ULRR leaves it);
    each is locked after it.
    Second: the length of the reply (8N for a read, else 0).
    Refusals: 1, 2, 3, 4, 5, 6 (6 only for reads).
    """
    return Answer(_call(_library.osk_frame, _written("table", table), _read("frame", frame), _written("reply", reply)))


def osk_store(table: Writable, position: int, codes: Codes) -> Answer:
    """Stores 16 codes of 150 microvolts as the cells of the monitor at a position, 1 to N, and compares nothing: no other byte changes.
    Where SNAP_ST is set the cell reads go on showing the copy, and these codes after UNSNAP.

    No values. Refusals: 1, 7, 8, 9.
    """
    return Answer(_call(_library.osk_store, _written("table", table), _size("position", position), _codes(codes)))


def osk_compare(table: Writable, position: int) -> Answer:
    """Compares the stored cells of the monitor at a position, 1 to N, with its thresholds VUV and VOV (configuration B, 16 codes a step):
    sets in status D UV for each cell below the lower one and OV for each above the upper one. Cells at -32768 are skipped. A compare
    only ever sets flags, and no other byte changes.

    No values. Refusals: 1, 7.
    """
    return Answer(_call(_library.osk_compare, _written("table", table), _size("position", position)))


def osk_load(table: Writable, position: int, codes: Codes) -> Answer:
    """Loads 16 codes of 150 microvolts into the monitor at a position, 1 to N: osk_store and, where that is accepted, osk_compare in one
    call. In a snapshot too: the flags show at once, the codes after UNSNAP.

    No values. Refusals: 1, 7, 8, 9.
    """
    return Answer(_call(_library.osk_load, _written("table", table), _size("position", position), _codes(codes)))


# ---- discharge

def osk_discharge(table: Readable, position: int, events: int, phase: int, out: Writable) -> Answer:
    """Which of the sixteen discharge outputs of the monitor at a position, 1 to N, are on in a phase of the PWM, 0 to 14, and which row of
    the sheet's Table 27 decided each: out[c - 1] is cell c's, its row with OSK_OUTPUT_ON set where the output is on; bytes past the
    sixteenth stay. Events are the OSK_EVENT numbers or-ed together, and bits above them are not looked at; MUTE_ST, the DCC bits and the
    duties are in the table, which is only read.

    A row is called by its priority: 7 thermal shutdown, 6 MUTE_ST, 5 configuration B being written, 4 the cell's own DCC bit, 3 a
    measurement, 2 a PWM group being written, 1 PWM. The highest whose event holds decides, also where there was nothing to hold off; row 1
    is left with the rest. Row 4 turns the output on, row 1 while the phase is below the cell's duty, every other row off. DCTO is not
    looked at.

    First: how many are on. Refusals: 1, 7 (the position, or a phase above 14), 6 (`out` under sixteen).
    """
    asked = _size("position", position), _byte("events", events), _byte("phase", phase)
    return Answer(_call(_library.osk_discharge, _read("table", table), *asked, _written("out", out)))


# ---- the heartbeat of LPCM: what passes from monitor to monitor while CMC_EN is set. Elementary, so that a message can be damaged on any
# hop: a manager wakes, a message reaches a monitor, the time runs out; and the whole of it in one call. No heartbeat is a frame: counters
# and bytes 69 stay.

def osk_wake(table: Writable, position: int, out: Writable) -> Answer:
    """The monitor at a position, 1 to N, wakes. A manager (CMC_EN, and CMC_MAN: configuration byte 0, bit 7) measures and starts a
    heartbeat: its count is CMC_NDEV (byte 1) less one if it passes, else CMC_NDEV, in eight bits, its flags are CMF0, and it is sent
    towards port A where CMC_DIR (byte 4, bit 5) is set, else towards port B. The message (see osk_verdict), with counter bits 0, goes to
    the start of `out`; bytes past it stay. At any other monitor nothing changes, and nothing is sent.

    A measurement looks at each cell that CMM_C does not leave out (bytes 2 and 3 of the configuration), by the thresholds and the code that
    the last measurement left: CUV (bit 0 of CMF0) below 16 x CUV codes, COV (bit 1) above 16 x COV, CDVN (bit 2) where it has fallen by
    more than 8 x CDV and CDVP (bit 3) where it has risen so. A cleared cell is the code -32768 like any other. A diagnostic that is pending
    in status C (byte 4 mask F0, byte 5 mask D3) makes all eight flags. They join CMF0, where they stay until CLRCMFLAG, which no monitor
    takes before CMDIS; and the live cells, those left out too, become the last measurement. The monitor passes where CMF0 is then 0. GPIOs
    are not measured. Counters and bytes 69 stay: no heartbeat is a frame.

    First: OSK_PORT_A or OSK_PORT_B, the end it is sent towards, and 0 where nothing is sent. Second: 8 or 0.
    Refusals: 1, 7, 6 (`out` under eight, also where nothing would be sent).
    """
    return Answer(_call(_library.osk_wake, _written("table", table), _size("position", position), _written("out", out)))


def osk_relay(table: Writable, position: int, message: Readable, out: Writable) -> Answer:
    """A message reaches the monitor at a position, 1 to N. One in LPCM that is no manager takes in a message that is right, its counter
    bits as they stand: it measures (see osk_wake), counts one down (in eight bits) if it passes, joins its CMF0 to the flags, and sends on
    what it sealed anew, at the start of `out`; bytes past it stay. A timeout monitor (CMC_BTM: configuration byte 0, bit 3) takes its own
    step and sends nothing on: where that leaves count 42 hex and flags 00 it clears bits 0 and 1 of CMF1, else it sets bit 0. A message
    that is not right, and any at a manager or at a monitor not in LPCM, is ignored: nothing changes, and nothing is sent.

    What one monitor handed out goes to the next as a copy, bytes(out[:8]), and not in the same memory as `out`. A copy can be damaged too.

    First: 1 where it is sent on, else 0. Second: 8 or 0.
    Refusals: 1, 7, 5 (a message of another length than eight), 6 (as osk_wake).
    """
    lent = _read("message", message), _written("out", out)
    return Answer(_call(_library.osk_relay, _written("table", table), _size("position", position), *lent))


def osk_heartbeat(table: Writable, position: int, out: Writable) -> Answer:
    """A whole heartbeat: the manager at a position, 1 to N, wakes, and its message goes from monitor to monitor, nearest to it first, until
    it leaves the chain or stops. The table and the message are those that osk_wake and osk_relay leave in turn. What left the chain, for
    osk_verdict, goes to the start of `out`; bytes past it stay, and all of `out` where nothing left it.

    First: the port it left at, and 0 where nothing left the chain. Second: 8 or 0.
    Refusals: 1, 7, 6 (as osk_wake).
    """
    return Answer(_call(_library.osk_heartbeat, _written("table", table), _size("position", position), _written("out", out)))


def osk_time_out(table: Writable, position: int) -> Answer:
    """The time runs out at the monitor in a position, 1 to N: a timeout monitor in LPCM (CMC_BTM and no CMC_MAN) sets bit 1 of CMF1, and at
    any other nothing changes. There is no clock here: this is how a bench says so.

    First: 1 where it is a timeout monitor in LPCM, else 0. Refusals: 1, 7.
    """
    return Answer(_call(_library.osk_time_out, _written("table", table), _size("position", position)))


# ---- the host

def osk_host_frame(command: int, monitors: int, values: Readable, out: Writable) -> Answer:
    """Builds the frame for a command and so many monitors at the start of `out`; bytes past it stay. The values are six bytes for each
    monitor in a write (in a CLRCMFLAG two), nearest monitor first, and none (b"") otherwise.

    What a spike on the wire can do to such a frame, at a chain of so many monitors, where it turns over at least one bit:
    all within ten places in a row, and none in the first four bytes: a write is accepted. Each monitor whose own bytes were hit keeps
    its record, counter included, but for its unlock byte (byte 69), which becomes 0; each other one does as without the spike. So fewer
    than N take it. Not so a WRRR, which needs no data PEC: every monitor that is not in LPCM takes it, and an unlocked one of them stores
    what came;
    all within fifteen places in a row, and some in the first four bytes: the frame, of any command, is refused with 3.
    Eleven places behind the first four bytes, and sixteen in them, may get through.

    Second: the length of the frame. Refusals: 4, 7, 8, 6.
    """
    number = _whole("command", command, 0, 0xFFFF)
    return Answer(_call(_library.osk_host_frame, number, _size("monitors", monitors), _read("values", values), _written("out", out)))


def osk_check(payload: Readable, expected: int) -> Answer:
    """Checks one monitor's reply of eight bytes against the counter that the host expects, 0 to 63. One whose data PEC is wrong is damaged,
    whatever counter it carries; else it is right, or right but for its counter.

    A monitor counts the writes and bare commands that it takes: after 63 comes 1, RSTCC (002E) makes it 0, reads leave it. Each reply
    carries the counter as it stands, in the six high bits of the seventh of its eight bytes (payload[6] >> 2). A host that keeps the same
    count knows what to expect: after a write or a bare command the next counter, and of a monitor that missed it the reply has the old one.
    An RSTCC hides what was missed before it, and so do 63 missed in a row, but from 0. A WRRR is counted whatever its check, so a damaged
    one does not show; in LPCM no write is taken, which shows as one that was missed.

    First: OSK_RIGHT, OSK_DAMAGED or OSK_COUNTER_DIFFERS. Second: the counter received where it differs, else 0.
    Refusals: 7 (an expected counter above 63), 5.
    """
    return Answer(_call(_library.osk_check, _read("payload", payload), _byte("expected", expected)))


def osk_two_ports(a: Readable, b: Readable, monitors: int, position: int, expected: int) -> Answer:
    """The chain was read from both ends: port A's reply `a` has monitor 1 first, port B's `b` has monitor N first. Asked for the monitor
    at a position: its eight bytes as they lie in one of the two, A's if right, else B's if right, else A's if only its counter differs from
    the one that the host expects (see osk_check), else B's likewise.

    First: OSK_PORT_A, OSK_PORT_B, OSK_PORT_A_DIFFERS or OSK_PORT_B_DIFFERS. Second: the byte of that reply that the eight start at.
    Refusals: 7 (an expected counter above 63), 7 (N or position), 5 (either reply not 8N bytes), 10.
    """
    asked = _size("monitors", monitors), _size("position", position), _byte("expected", expected)
    return Answer(_call(_library.osk_two_ports, _read("a", a), _read("b", b), *asked))


def osk_verdict(message: Readable, time_ran_out: int) -> Answer:
    """Judges what came to the host of a heartbeat in LPCM, and whether the time ran out: there is no clock here, so that is given, 0 (or
    False) for no and any other value up to 255 (or True) for yes. A message has eight bytes: 00 43 47 B2, the count, the flags (as in
    CMF0), and two of data PEC over these two bytes and the six counter bits as they stand. Where the time ran out eight bytes are
    OSK_TIMED_OUT, whatever they are; else a message that is not right in command, command PEC or data PEC is OSK_MESSAGE_DAMAGED, count 42
    hex and flags 00 are OSK_PASSED, and any other OSK_FAILED. Nothing at all (b""), with the time run out, is timed out too.

    First: one of the four. Second: where it failed, 256 x count + flags. Refusals: 5 (another length than eight, late or not; but for
    nothing where the time ran out).
    """
    return Answer(_call(_library.osk_verdict, _read("message", message), _byte("time_ran_out", time_ran_out)))


# ---- the clocked engine: the same frames, a byte at a time

def osk_clock_start(state: Writable) -> None:
    """Before a frame: the windows are empty. It takes any bytes for the state, OSK_CLOCK_STATE of them, and gives up a frame that had
    begun, at any byte. Two clocks, each with a state of its own, do not disturb each other.

    No values. Refusals: none.
    """
    _call(_library.osk_clock_start, _state(True, state))


def osk_clock_byte(state: Writable, table: Readable, byte: int) -> Answer:
    """Clocks one byte in. N, and whether the command is known, are taken from the table lent with byte four; the table is only read.

    First: the byte answered: what leaves monitor 1 in a known read, otherwise FF. Refusals: none.
    """
    return Answer(_call(_library.osk_clock_byte, _state(True, state), _read("table", table), _byte("byte", byte)))


def osk_clock_window(state: Readable, position: int, out: Writable) -> Answer:
    """The window of the monitor at a position as it stands, oldest byte first, at the start of `out`; bytes past it stay. N is known
    from byte four on, where the table lent then was sound; before that no position is one.

    Second: how many bytes the window holds. Refusals: 7, 6.
    """
    return Answer(_call(_library.osk_clock_window, _state(False, state), _size("position", position), _written("out", out)))


def osk_clock_release(state: Writable, table: Writable) -> Answer:
    """Releases: each monitor acts on its own window, and the table becomes what they keep. The next frame starts empty, refused or not.

    Values as for osk_frame; the bytes answered after the fourth are the reply if a read is accepted. Refusals: 1, 2, 3, 4, 5.
    """
    return Answer(_call(_library.osk_clock_release, _state(True, state), _written("table", table)))


# ---- readings

def osk_microvolts(code: int) -> int:
    """The microvolts of a code, -32768 to 32767: 1,500,000 + 150 code. Refusals: none."""
    return _library.osk_microvolts(_code(code))


def osk_volts(code: int) -> float:
    """A code in volts: the quotient of the microvolts by 1,000,000, rounded once. NaN where the cell is cleared (code -32768).
    Refusals: none.
    """
    return _library.osk_volts(_code(code))


def osk_summary(codes: Codes, out: Writable) -> Answer:
    """The summary of 1 to 512 codes, over the cells not cleared: the lowest, the highest and the total in volts go to out[0], out[1] and
    out[2] (array('d') or another buffer of doubles); what lies past them stays. If all are cleared there is none, and all of `out` stays.

    First: 1 a summary, 0 none. Second: the number of cells not cleared. Refusals: 8, 6 (`out` under three, also where there would be
    none).
    """
    return Answer(_call(_library.osk_summary, _codes(codes), _volts(out)))
