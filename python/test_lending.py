"""What Python lends and how: every kind of buffer, none copied that need not be, and mistakes stopped before the library is called."""

import array
import ctypes
import types
import unittest
from unittest import mock

import oskorbine as osk
import paper_wire as wire

RECORD = osk.OSK_RECORD_SIZE
FRAME = wire.read(wire.RDCFGA, 1)
SIX = bytes.fromhex("0102F8040306")  # nothing in it is masked by WRCFGA
WRITE = wire.write(wire.WRCFGA, wire.payload(SIX))
PAYLOAD = wire.payload(SIX)
LPCM_CONFIGURATION, CMF1 = 114, 133
MANAGER = b"\x80\x43"  # CMC_MAN, and CMC_NDEV for one monitor
MESSAGE = bytes.fromhex("004347B2 42000394")  # what it sends where every cell is at code 0, as each limit and each last one is


def address(pointer):
    """The address that a pointer argument stands for."""
    return ctypes.cast(pointer, ctypes.c_void_p).value


def library_of(**functions):
    """A library in which these functions are replaced, for the time of a `with`."""
    return mock.patch.object(osk, "_library", types.SimpleNamespace(**functions))


class Kinds(unittest.TestCase):
    def test_written_bytes(self):
        around = bytearray(b"\xa5" * (RECORD + 20))
        square = ((ctypes.c_ubyte * (RECORD // 2)) * 2)()
        for table in (bytearray(RECORD), array.array("B", bytes(RECORD)), (ctypes.c_uint8 * RECORD)(), (ctypes.c_char * RECORD)(), square,
                      memoryview(bytearray(RECORD)), memoryview(around)[10:-10]):
            view = memoryview(table).cast("B")
            view[:] = bytes(RECORD)
            with self.subTest(table=type(table).__name__):
                self.assertEqual(osk.osk_frame(table, WRITE, bytearray()).first, 1)
                self.assertEqual(view.tobytes(), SIX + bytes(62) + b"\x01" + bytes(RECORD - 69))
                out = memoryview(bytearray(b"\xa5" * 18))[1:17]
                self.assertEqual(osk.osk_discharge(table, 1, osk.OSK_EVENT_WRCFGB, 0, out), osk.OSK_ACCEPTED)
                self.assertEqual(out.obj, b"\xa5" + b"\x05" * 16 + b"\xa5")
                view[LPCM_CONFIGURATION:LPCM_CONFIGURATION + 2], view[CMF1] = MANAGER, 0x80
                sent = memoryview(bytearray(b"\xa5" * 10))[1:9]
                self.assertEqual(osk.osk_wake(table, 1, sent).first, osk.OSK_PORT_B)
                self.assertEqual(sent.obj, b"\xa5" + MESSAGE + b"\xa5")
        self.assertEqual(around[:10] + around[-10:], b"\xa5" * 20)

    def test_read_bytes(self):
        class Own(bytes):
            pass

        around = b"\xa5" + PAYLOAD + b"\xa5"
        for payload in (PAYLOAD, Own(PAYLOAD), bytearray(PAYLOAD), array.array("B", PAYLOAD), (ctypes.c_uint8 * 8)(*PAYLOAD),
                        memoryview(PAYLOAD), memoryview(around)[1:9], memoryview(bytearray(around))[1:9],
                        memoryview(bytearray(around)).toreadonly()[1:9]):
            with self.subTest(payload=type(payload).__name__):
                self.assertEqual(osk.osk_check(payload, 0).first, osk.OSK_RIGHT)
        for table in bytes(RECORD), memoryview(bytes(RECORD + 1))[1:], memoryview(bytearray(RECORD)).toreadonly():
            self.assertEqual(osk.osk_discharge(table, 1, 0, 0, bytearray(16)), osk.OSK_ACCEPTED)
        for message in MESSAGE, bytearray(MESSAGE), memoryview(b"\xa5" + MESSAGE)[1:], memoryview(bytearray(MESSAGE)).toreadonly():
            table = bytearray(RECORD)
            table[CMF1] = 0x80
            self.assertEqual(osk.osk_relay(table, 1, message, bytearray(8)).first, 1)

    def test_codes(self):
        numbers = [-32767, 32767, -1, 0, 1, 256, -256, 7] * 2
        expected = b"".join(number.to_bytes(2, "little", signed=True) for number in numbers)
        kept = array.array("h", numbers)
        twice = array.array("h", [number for number in numbers for _ in (0, 1)])
        unaligned = memoryview(bytearray(b"\xa5" + kept.tobytes()))[1:].cast("h")
        for codes in (numbers, tuple(numbers), kept, array.array("i", numbers), array.array("q", numbers), memoryview(kept),
                      memoryview(kept).toreadonly(), memoryview(twice)[::2], unaligned, (ctypes.c_int16 * 16)(*numbers),
                      memoryview((ctypes.c_int16 * 16)(*numbers)).toreadonly(), (ctypes.c_int16.__ctype_be__ * 16)(*numbers),
                      (ctypes.c_int32 * 16)(*numbers)):
            table = bytearray(RECORD)
            with self.subTest(codes=repr(codes)):
                self.assertEqual(osk.osk_load(table, 1, codes), osk.OSK_ACCEPTED)
                self.assertEqual(table[12:44], expected)
                stored = bytearray(RECORD)
                self.assertEqual(osk.osk_store(stored, 1, codes), osk.OSK_ACCEPTED)
                self.assertEqual(stored[12:44], expected)
        self.assertEqual(osk.osk_load(bytearray(RECORD), 1, range(16)), osk.OSK_ACCEPTED)

    def test_volts(self):
        for out in array.array("d", [0.0] * 3), (ctypes.c_double * 3)(), memoryview(array.array("d", [0.0] * 5))[1:4]:
            self.assertEqual(osk.osk_summary([0, 2, 1], out).second, 3)
            self.assertEqual([out[0], out[1], out[2]], [1.5, 1.5003, 4.50045])

    def test_whole_numbers(self):
        class Four:
            def __index__(self):
                return 4

        self.assertEqual(osk.osk_microvolts(Four()), 1_500_600)
        self.assertEqual(osk.osk_load(bytearray(RECORD), Four(), [0] * 16), osk.OSK_POSITION_WRONG)
        self.assertEqual(osk.osk_store(bytearray(4 * RECORD), Four(), [0] * 16), osk.OSK_ACCEPTED)
        self.assertEqual(osk.osk_compare(bytearray(3 * RECORD), Four()), osk.OSK_POSITION_WRONG)
        out = bytearray(16)
        self.assertEqual(osk.osk_discharge(bytearray(4 * RECORD), Four(), Four(), Four(), out), osk.OSK_ACCEPTED)
        self.assertEqual(out, b"\x05" * 16)
        self.assertEqual(osk.osk_verdict(b"", Four()).first, osk.OSK_TIMED_OUT)
        fourth = wire.payload(SIX, 4)
        self.assertEqual(osk.osk_check(fourth, Four()).first, osk.OSK_RIGHT)
        self.assertEqual(osk.osk_two_ports(PAYLOAD * 4, fourth * 4, Four(), Four(), Four()).first, osk.OSK_PORT_B)
        for function, more in (osk.osk_wake, ()), (osk.osk_relay, (MESSAGE,)), (osk.osk_heartbeat, ()):
            self.assertEqual(function(bytearray(3 * RECORD), Four(), *more, bytearray(8)), osk.OSK_POSITION_WRONG)
            self.assertEqual(function(bytearray(4 * RECORD), Four(), *more, bytearray(8)), osk.OSK_ACCEPTED)
        self.assertEqual(osk.osk_time_out(bytearray(3 * RECORD), Four()), osk.OSK_POSITION_WRONG)
        self.assertEqual(osk.osk_time_out(bytearray(4 * RECORD), Four()), osk.OSK_ACCEPTED)


class Lending(unittest.TestCase):
    def test_nothing_is_copied(self):
        table, reply, values, codes = bytearray(RECORD), bytearray(8), bytearray(6), array.array("h", [0] * 16)
        lent = {}

        def function(*words):
            lent["words"] = words
            return 0

        def at(buffer):
            return ctypes.addressof(ctypes.c_char.from_buffer(buffer))

        names = ("osk_frame", "osk_host_frame", "osk_store", "osk_compare", "osk_load", "osk_discharge", "osk_wake", "osk_relay",
                 "osk_heartbeat", "osk_time_out")
        with library_of(**{name: function for name in names}):
            osk.osk_frame(table, FRAME, reply)
            self.assertEqual([address(lent["words"][0]), address(lent["words"][4])], [at(table), at(reply)])
            self.assertIs(lent["words"][2], FRAME)
            self.assertEqual(lent["words"][1::2], (RECORD, 12, 8))
            osk.osk_frame(memoryview(table)[1:], memoryview(FRAME), memoryview(reply)[2:5])
            self.assertEqual([address(lent["words"][0]), address(lent["words"][4])], [at(table) + 1, at(reply) + 2])
            self.assertIs(lent["words"][2], FRAME)
            self.assertEqual(lent["words"][1::2], (RECORD - 1, 12, 3))
            osk.osk_host_frame(wire.WRCFGB, 1, values, reply)
            self.assertEqual([address(lent["words"][2]), address(lent["words"][4])], [at(values), at(reply)])
            for with_codes in osk.osk_store, osk.osk_load:
                lent.clear()
                with_codes(table, 3, codes)
                self.assertEqual([address(lent["words"][0]), *lent["words"][1:3]], [at(table), RECORD, 3])
                self.assertEqual([address(lent["words"][3]), lent["words"][4]], [codes.buffer_info()[0], 16])
            osk.osk_compare(memoryview(table)[1:], 3)
            self.assertEqual([address(lent["words"][0]), *lent["words"][1:]], [at(table) + 1, RECORD - 1, 3])
            osk.osk_discharge(table, 3, 0x8F, 14, reply)
            self.assertEqual([address(lent["words"][0]), *lent["words"][1:5]], [at(table), RECORD, 3, 0x8F, 14])
            self.assertEqual([address(lent["words"][5]), lent["words"][6]], [at(reply), 8])
            for function in osk.osk_wake, osk.osk_heartbeat:
                lent.clear()
                function(memoryview(table)[1:], 3, memoryview(reply)[2:5])
                self.assertEqual([address(lent["words"][0]), *lent["words"][1:3]], [at(table) + 1, RECORD - 1, 3])
                self.assertEqual([address(lent["words"][3]), lent["words"][4]], [at(reply) + 2, 3])
            osk.osk_relay(table, 3, values, reply)
            self.assertEqual([address(lent["words"][word]) for word in (0, 3, 5)], [at(table), at(values), at(reply)])
            self.assertEqual([lent["words"][word] for word in (1, 2, 4, 6)], [RECORD, 3, 6, 8])
            osk.osk_relay(table, 3, MESSAGE, reply)
            self.assertIs(lent["words"][3], MESSAGE)
            osk.osk_time_out(memoryview(table)[1:], 3)
            self.assertEqual([address(lent["words"][0]), *lent["words"][1:]], [at(table) + 1, RECORD - 1, 3])

    def test_empty_buffers_have_an_address(self):
        seen = []

        def function(*words):
            for pointer, length in zip(words, words[1:]):
                if not isinstance(pointer, int) and not length:
                    seen.append(address(pointer))
            return 0

        names = ("osk_frame", "osk_store", "osk_compare", "osk_load", "osk_discharge", "osk_wake", "osk_relay", "osk_heartbeat",
                 "osk_time_out", "osk_host_frame", "osk_check", "osk_two_ports", "osk_verdict", "osk_clock_byte", "osk_clock_window",
                 "osk_clock_release", "osk_summary")
        with library_of(**{name: function for name in names}):
            for empty in b"", bytearray(), memoryview(b"abc")[:0], (ctypes.c_uint8 * 0)(), array.array("B"):
                state = bytearray(osk.OSK_CLOCK_STATE)
                osk.osk_frame(bytearray(), empty, bytearray())
                osk.osk_store(bytearray(), 1, [])
                osk.osk_compare(bytearray(), 1)
                osk.osk_load(bytearray(), 1, [])
                osk.osk_discharge(empty, 1, 0, 0, bytearray())
                osk.osk_wake(bytearray(), 1, bytearray())
                osk.osk_relay(bytearray(), 1, empty, bytearray())
                osk.osk_heartbeat(bytearray(), 1, bytearray())
                osk.osk_time_out(bytearray(), 1)
                osk.osk_host_frame(wire.MUTE, 1, empty, bytearray())
                osk.osk_check(empty, 0)
                osk.osk_two_ports(empty, empty, 1, 1, 0)
                osk.osk_verdict(empty, 1)
                osk.osk_clock_byte(state, empty, 1)
                osk.osk_clock_window(state, 1, bytearray())
                osk.osk_clock_release(state, bytearray())
                osk.osk_summary(array.array("h"), array.array("d"))
        self.assertEqual(len(seen), 5 * 29)
        self.assertEqual([each for each in seen if not each or each % 8], [])

    def test_codes_are_aligned(self):
        def function(*words):
            return address(words[3]) % 2

        memory = memoryview(bytearray(40))
        with library_of(osk_load=function):
            for start in 0, 1, 2, 3:
                self.assertEqual(osk.osk_load(bytearray(RECORD), 1, memory[start:start + 32].cast("h")), 0)

    def test_other_threads_wait(self):
        self.assertIsInstance(osk._library, ctypes.PyDLL)

    def test_held_during_a_call_and_not_after_it(self):
        table, codes = bytearray(RECORD), array.array("h", [0] * 16)

        def function(*_):
            for held in table, codes:
                with self.assertRaises(BufferError):
                    held.append(0)
            return 0

        with library_of(osk_load=function):
            osk.osk_load(table, 1, codes)
        osk.osk_load(table, 1, codes)
        table.append(0)
        codes.append(0)

    def test_copies_live_through_the_call(self):
        part = memoryview(b"\xa5" + PAYLOAD)[1:]

        def function(*words):
            noise = [array.array("h", [0x5555] * size) for size in range(64)] + [bytes([0x55]) * size for size in range(64)]
            pointer, length, size = (*words[3:], 2) if len(words) == 5 else (*words[:2], 1)  # of a load, and of a check
            seen.append(ctypes.string_at(address(pointer), length * size))
            return len(noise) * 0

        seen = []
        with library_of(osk_load=function, osk_check=function):
            osk.osk_load(bytearray(RECORD), 1, list(range(1, 17)))
            osk.osk_check(part, 0)
        self.assertEqual(seen, [array.array("h", range(1, 17)).tobytes(), PAYLOAD])

    def test_neighbours_do_not_overlap(self):
        memory = memoryview(bytearray(RECORD + 12 + 8))
        table, frame, reply = memory[:RECORD], memory[RECORD:-8], memory[-8:]
        frame[:] = FRAME
        self.assertEqual(osk.osk_frame(table, frame, reply).second, 8)
        self.assertEqual(osk.osk_frame(table, frame, memory[40:40]), osk.OSK_NO_ROOM)
        self.assertEqual(osk.osk_discharge(table, 1, 0, 0, memory[RECORD:RECORD + 16]), osk.OSK_ACCEPTED)
        reply = bytearray(PAYLOAD)
        self.assertEqual(osk.osk_two_ports(reply, reply, 1, 1, 0).first, osk.OSK_PORT_A)

    def test_read_only_view_of_written_memory_is_read_first(self):
        memory = bytearray(SIX * 2)
        self.assertEqual(osk.osk_host_frame(wire.WRCFGA, 1, memoryview(memory)[:6].toreadonly(), memory).second, 12)
        self.assertEqual(memory, WRITE)


class Mistakes(unittest.TestCase):
    """Each one is stopped here: the library's place is taken by one without functions that could be called."""

    def setUp(self):
        self.table, self.reply, self.state = bytearray(RECORD), bytearray(8), bytearray(osk.OSK_CLOCK_STATE)
        self.volts, self.codes = array.array("d", [0.0] * 3), [0] * 16
        closed = mock.Mock(side_effect=AssertionError("the library was called"))
        names = [name for name in osk.__all__ if name.startswith("osk_")]
        patch = library_of(**{name: closed for name in names})
        patch.start()
        self.addCleanup(patch.stop)
        self.addCleanup(lambda: self.assertFalse(closed.called))

    def stopped(self, error, words, function, *arguments):
        with self.subTest(function=function.__name__, words=words), self.assertRaisesRegex(error, words):
            function(*arguments)

    def bytes_calls(self, written):
        """Each bytes argument of each function: its name, the function, and what makes the arguments with that one replaced."""
        table, reply, state = self.table, self.reply, self.state
        if written:
            yield "table", osk.osk_frame, lambda wrong: (wrong, FRAME, reply)
            yield "reply", osk.osk_frame, lambda wrong: (table, FRAME, wrong)
            yield "table", osk.osk_store, lambda wrong: (wrong, 1, self.codes)
            yield "table", osk.osk_compare, lambda wrong: (wrong, 1)
            yield "table", osk.osk_load, lambda wrong: (wrong, 1, self.codes)
            yield "out", osk.osk_discharge, lambda wrong: (table, 1, 0, 0, wrong)
            yield "table", osk.osk_wake, lambda wrong: (wrong, 1, reply)
            yield "out", osk.osk_wake, lambda wrong: (table, 1, wrong)
            yield "table", osk.osk_relay, lambda wrong: (wrong, 1, MESSAGE, reply)
            yield "out", osk.osk_relay, lambda wrong: (table, 1, MESSAGE, wrong)
            yield "table", osk.osk_heartbeat, lambda wrong: (wrong, 1, reply)
            yield "out", osk.osk_heartbeat, lambda wrong: (table, 1, wrong)
            yield "table", osk.osk_time_out, lambda wrong: (wrong, 1)
            yield "out", osk.osk_host_frame, lambda wrong: (wire.MUTE, 1, b"", wrong)
            yield "out", osk.osk_clock_window, lambda wrong: (state, 1, wrong)
            yield "table", osk.osk_clock_release, lambda wrong: (state, wrong)
            yield "state", osk.osk_clock_start, lambda wrong: (wrong,)
            yield "state", osk.osk_clock_byte, lambda wrong: (wrong, table, 0)
            yield "state", osk.osk_clock_release, lambda wrong: (wrong, table)
        else:
            yield "frame", osk.osk_frame, lambda wrong: (table, wrong, reply)
            yield "table", osk.osk_discharge, lambda wrong: (wrong, 1, 0, 0, reply)
            yield "message", osk.osk_relay, lambda wrong: (table, 1, wrong, reply)
            yield "values", osk.osk_host_frame, lambda wrong: (wire.MUTE, 1, wrong, reply)
            yield "payload", osk.osk_check, lambda wrong: (wrong, 0)
            yield "a", osk.osk_two_ports, lambda wrong: (wrong, PAYLOAD, 1, 1, 0)
            yield "b", osk.osk_two_ports, lambda wrong: (PAYLOAD, wrong, 1, 1, 0)
            yield "message", osk.osk_verdict, lambda wrong: (wrong, 0)
            yield "table", osk.osk_clock_byte, lambda wrong: (state, wrong, 0)
            yield "state", osk.osk_clock_window, lambda wrong: (wrong, 1, reply)

    def test_no_buffer_or_one_of_other_elements(self):
        for written in True, False:
            for name, function, arguments in self.bytes_calls(written):
                for wrong in None, RECORD, "text", [0] * RECORD:
                    self.stopped(TypeError, f"^{name}: a bytes-like object is needed", function, *arguments(wrong))
                for wrong in array.array("h", [0] * 132), (ctypes.c_int32 * 66)(), array.array("d"):
                    self.stopped(TypeError, f"^{name}: elements of one byte", function, *arguments(wrong))
                for wrong in memoryview(bytearray(528))[::2], memoryview(bytearray(264))[::-1], memoryview(bytearray(20))[::2]:
                    self.stopped(ValueError, f"^{name}: its elements do not lie side by side", function, *arguments(wrong))

    def test_not_writable(self):
        for name, function, arguments in self.bytes_calls(True):
            for wrong in bytes(264), b"", memoryview(bytearray(264)).toreadonly():
                self.stopped(TypeError, f"^{name}: it is written", function, *arguments(wrong))
        self.stopped(TypeError, "^out: it is written", osk.osk_summary, self.codes, memoryview(self.volts).toreadonly())

    def test_state_of_another_size(self):
        for written in True, False:
            for name, function, arguments in self.bytes_calls(written):
                if name == "state":
                    for length in 0, 263, 265:
                        self.stopped(ValueError, f"^state: it has {length} bytes", function, *arguments(bytearray(length)))

    def test_overlap(self):
        memory = memoryview(bytearray(400))
        memory[60:72] = FRAME
        state, halves = memory[:264], memoryview(bytearray(32))
        for words, function, *arguments in (
            ("table and frame", osk.osk_frame, memory[:RECORD], memory[60:72], self.reply),
            ("table and reply", osk.osk_frame, memory[:RECORD], FRAME, memory[RECORD - 1:RECORD + 7]),
            ("frame and reply", osk.osk_frame, self.table, memory[60:72], memory[53:61]),
            ("table and reply", osk.osk_frame, self.table, FRAME, self.table),
            ("table and codes", osk.osk_store, memory[:RECORD], 1, memory[RECORD - 2:RECORD + 30].cast("h")),
            ("table and codes", osk.osk_load, memory[:RECORD], 1, memory[RECORD - 2:RECORD + 30].cast("h")),
            ("table and out", osk.osk_discharge, memory[:RECORD], 1, 0, 0, memory[RECORD - 1:RECORD + 15]),
            ("table and out", osk.osk_discharge, memory[15:15 + RECORD], 1, 0, 0, memory[:16]),
            ("table and out", osk.osk_wake, memory[:RECORD], 1, memory[RECORD - 1:RECORD + 7]),
            ("table and message", osk.osk_relay, memory[:RECORD], 1, memory[RECORD - 1:RECORD + 7], self.reply),
            ("table and out", osk.osk_relay, memory[7:7 + RECORD], 1, MESSAGE, memory[:8]),
            ("message and out", osk.osk_relay, self.table, 1, memory[:8], memory[7:15]),
            ("message and out", osk.osk_relay, self.table, 1, self.reply, self.reply),
            ("table and out", osk.osk_heartbeat, memory[7:7 + RECORD], 1, memory[:8]),
            ("values and out", osk.osk_host_frame, wire.WRCFGB, 1, memory[11:17], memory[:12]),
            ("state and table", osk.osk_clock_byte, state, memory[200:200 + RECORD], 0),
            ("state and table", osk.osk_clock_release, state, memory[100:100 + RECORD]),
            ("state and out", osk.osk_clock_window, state, 1, memory[263:271]),
            ("codes and out", osk.osk_summary, halves.cast("h"), halves[8:].cast("d")),
        ):
            self.stopped(ValueError, f"^{words} overlap", function, *arguments)

    def test_sizes(self):
        calls = (
            ("position", osk.osk_store, lambda wrong: (self.table, wrong, self.codes)),
            ("position", osk.osk_compare, lambda wrong: (self.table, wrong)),
            ("position", osk.osk_load, lambda wrong: (self.table, wrong, self.codes)),
            ("position", osk.osk_discharge, lambda wrong: (self.table, wrong, 0, 0, self.reply)),
            ("position", osk.osk_wake, lambda wrong: (self.table, wrong, self.reply)),
            ("position", osk.osk_relay, lambda wrong: (self.table, wrong, MESSAGE, self.reply)),
            ("position", osk.osk_heartbeat, lambda wrong: (self.table, wrong, self.reply)),
            ("position", osk.osk_time_out, lambda wrong: (self.table, wrong)),
            ("monitors", osk.osk_host_frame, lambda wrong: (wire.MUTE, wrong, b"", self.reply)),
            ("monitors", osk.osk_two_ports, lambda wrong: (PAYLOAD, PAYLOAD, wrong, 1, 0)),
            ("position", osk.osk_two_ports, lambda wrong: (PAYLOAD, PAYLOAD, 1, wrong, 0)),
            ("position", osk.osk_clock_window, lambda wrong: (self.state, wrong, self.reply)),
        )
        for name, function, arguments in calls:
            for wrong in -1, 1 << 8 * ctypes.sizeof(ctypes.c_size_t):
                self.stopped(ValueError, f"^{name}: {wrong} is not from 0 to", function, *arguments(wrong))
            for wrong in 1.0, "1", None:
                self.stopped(TypeError, f"^{name}: a whole number is needed", function, *arguments(wrong))

    def test_byte_command_code_and_answer(self):
        calls = (
            ("byte", -1, 256, osk.osk_clock_byte, lambda wrong: (self.state, self.table, wrong)),
            ("events", -1, 256, osk.osk_discharge, lambda wrong: (self.table, 1, wrong, 0, self.reply)),
            ("phase", -1, 256, osk.osk_discharge, lambda wrong: (self.table, 1, 0, wrong, self.reply)),
            ("expected", -1, 256, osk.osk_check, lambda wrong: (PAYLOAD, wrong)),
            ("expected", -1, 256, osk.osk_two_ports, lambda wrong: (PAYLOAD, PAYLOAD, 1, 1, wrong)),
            ("time_ran_out", -1, 256, osk.osk_verdict, lambda wrong: (PAYLOAD, wrong)),
            ("command", -1, 65536, osk.osk_host_frame, lambda wrong: (wrong, 1, b"", self.reply)),
            ("code", -32769, 32768, osk.osk_microvolts, lambda wrong: (wrong,)),
            ("code", -32769, 32768, osk.osk_volts, lambda wrong: (wrong,)),
            ("answer", -1, 1 << 32, osk.osk_number, lambda wrong: (wrong,)),
            ("answer", -1, 1 << 32, osk.osk_first, lambda wrong: (wrong,)),
            ("answer", -1, 1 << 32, osk.osk_second, lambda wrong: (wrong,)),
        )
        for name, below, above, function, arguments in calls:
            for wrong in below, above:
                self.stopped(ValueError, f"^{name}: {wrong} is not from {below + 1} to {above - 1}$", function, *arguments(wrong))
            for wrong in 1.0, "1", b"1", None:
                self.stopped(TypeError, f"^{name}: a whole number is needed", function, *arguments(wrong))

    def test_codes(self):
        calls = (
            (osk.osk_store, lambda wrong: (self.table, 1, wrong)),
            (osk.osk_load, lambda wrong: (self.table, 1, wrong)),
            (osk.osk_summary, lambda wrong: (wrong, self.volts)),
        )
        for function, arguments in calls:
            for wrong in [32768], [0, -32769], [1 << 80], array.array("i", [40000]), array.array("H", [40000]):
                self.stopped(ValueError, "^codes: one is not from -32768 to 32767", function, *arguments(wrong))
            for wrong in (bytes(32), bytearray(32), memoryview(bytes(32)), None, 7, {1, 2}, iter([1]), "text", [1.0], ["1"], [None], [[1]],
                          array.array("d", [1.0]), memoryview(bytearray(32)).cast("i", (2, 4))):
                self.stopped(TypeError, "^codes: ", function, *arguments(wrong))

    def test_volts(self):
        for wrong in array.array("f", [0.0] * 3), array.array("q", [0] * 3), bytearray(24), [0.0] * 3, None:
            self.stopped(TypeError, "^out: ", osk.osk_summary, self.codes, wrong)
        self.stopped(ValueError, "^out: its address is not aligned", osk.osk_summary, self.codes, memoryview(bytearray(25))[1:].cast("d"))
        self.stopped(ValueError, "^out: its elements", osk.osk_summary, self.codes, memoryview(array.array("d", [0.0] * 6))[::2])


if __name__ == "__main__":
    unittest.main()
