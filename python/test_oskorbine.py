"""Every function with values and refusals that the paper gives, or that follow from it by the division in paper_wire.py."""

import array
import itertools
import math
import unittest

import paper_wire as wire
from oskorbine import (
    OSK_ACCEPTED, OSK_BOTH_DAMAGED, OSK_CLOCK_STATE, OSK_CODE_CLEARED, OSK_CODE_NOT_LISTED, OSK_COMMAND_WRONG, OSK_COUNT_WRONG,
    OSK_COUNTER_DIFFERS, OSK_DAMAGED, OSK_EVENT_MEASUREMENT, OSK_EVENT_SHUTDOWN, OSK_EVENT_WRCFGB, OSK_EVENT_WRPWM, OSK_FRAME_SHORT,
    OSK_LENGTH_WRONG, OSK_NO_ROOM, OSK_OUTPUT_ON, OSK_PORT_A, OSK_PORT_A_DIFFERS, OSK_PORT_B, OSK_PORT_B_DIFFERS, OSK_POSITION_WRONG,
    OSK_RECORD_SIZE, OSK_RIGHT, OSK_TABLE_NOT_SOUND, Answer, osk_check, osk_clock_byte, osk_clock_release, osk_clock_start,
    osk_clock_window, osk_compare, osk_discharge, osk_first, osk_frame, osk_heartbeat, osk_host_frame, osk_load, osk_microvolts,
    osk_number, osk_relay, osk_second, osk_store, osk_summary, osk_time_out, osk_two_ports, osk_volts, osk_wake,
)

CANARY = 0xA5
RECORD = wire.RECORD
COUNTER, UNLOCKED = 68, 69
STATUS_D = 50
PWM_A, PWM_B = 70, 76
CELLS, COPY = 12, 82
LPCM_CONFIGURATION, CELL_THRESHOLDS, GPIO_THRESHOLDS, CMF0, CMF1, LAST = 114, 120, 126, 132, 133, 138
CMC_EN = 0x80  # in CMF1
SNAP_ST = 0x20  # in byte 5
CELL_READS = wire.RDCVA, wire.RDCVB, wire.RDCVC, wire.RDCVD, wire.RDCVE, wire.RDCVF
OTHER_READS = {  # where a record has the six bytes that each shows
    wire.RDCFGA: 0, wire.RDCFGB: 6, wire.RDSTATC: 44, wire.RDSTATD: 50, wire.RDRR: 56, wire.RDSID: 62, wire.RDPWMA: 70, wire.RDPWMB: 76,
    wire.RDCMCFG: 114, wire.RDCMCELLT: 120, wire.RDCMGPIOT: 126, wire.RDCMFLAG: 132,
}
PAST_32_BITS = (1 << 32) + 1  # a size_t that would pass for 1 if it went through a C int
WRONG_COMMAND = bytes.fromhex("00022B0B")
UNLISTED = wire.command_bytes(0x0003)


def filled(monitors, counter=5, unlocked=0):
    """A sound table whose registers have no two neighbouring bytes alike, with no monitor in LPCM."""
    table = bytearray((37 * at + 11 * (at // RECORD) + 5) % 256 for at in range(RECORD * monitors))
    for start in range(0, len(table), RECORD):
        table[start + COUNTER:start + COUNTER + 2] = counter, unlocked
        table[start + CMF1] &= 0xFF - CMC_EN
    return table


def edited(table, changes):
    """A copy with bytes put in place of others."""
    copy = bytearray(table)
    for at, some_bytes in changes.items():
        copy[at:at + len(some_bytes)] = some_bytes
    return copy


UNSOUND = {
    "empty": bytes(0), "the record before L2": bytes(70), "the record before L6": bytes(82), "32 records before L6": bytes(32 * 82),
    "the record before L8": bytes(114), "32 records before L8": bytes(32 * 114),
    "a byte short": bytes(RECORD - 1), "a byte long": bytes(RECORD + 1),
    "32 records but a byte": bytes(32 * RECORD - 1), "32 records and a byte": bytes(32 * RECORD + 1), "33 records": bytes(33 * RECORD),
    "counter 64": edited(bytes(RECORD), {COUNTER: b"\x40"}), "byte 69 is 2": edited(bytes(RECORD), {UNLOCKED: b"\x02"}),
    "counter 64 in the last of 32": edited(bytes(32 * RECORD), {31 * RECORD + COUNTER: b"\x40"}),
}


def cells(codes):
    """The bytes of stored codes."""
    return b"".join(code.to_bytes(2, "little", signed=True) for code in codes)


def group(shown, command):
    """What a cell read has of the 32 bytes that are shown: six of them, and RDCVF the last two and then FF."""
    start = 6 * CELL_READS.index(command)
    return (shown + b"\xff" * 4)[start:start + 6]


def stored_and_compared(table, position, codes):
    """A store and, where that is accepted, a compare."""
    answer = osk_store(table, position, codes)
    return osk_compare(table, position) if answer.number == OSK_ACCEPTED else answer


def clocked(state, table, frame):
    """The bytes answered to a frame."""
    return bytes(osk_clock_byte(state, table, byte).first for byte in frame)


def started():
    """The state of a clock before a frame."""
    state = bytearray(OSK_CLOCK_STATE)
    osk_clock_start(state)
    return state


class Case(unittest.TestCase):
    def assert_answer(self, answer, first, second):
        self.assertIsInstance(answer, Answer)
        self.assertEqual((answer.number, answer.first, answer.second), (OSK_ACCEPTED, first, second))

    def assert_refused(self, answer, number):
        self.assertIsInstance(answer, Answer)
        self.assertEqual(int(answer), number, "a refusal is its number only")


class BothEngines(Case):
    """Each frame goes to both engines."""

    @staticmethod
    def each(place, *some_bytes):
        """Changes at one place of every record, nearest monitor first."""
        return {RECORD * at + place: each for at, each in enumerate(some_bytes)}

    def sent(self, table, frame):
        """A frame whole to the table and clocked to one like it: the same answers, reply and bytes left. The answer, and the reply."""
        twin, state, reply = bytearray(table), started(), bytearray([CANARY]) * 300
        answer, answered = osk_frame(table, frame, reply), clocked(state, twin, frame)
        self.assertEqual(osk_clock_release(state, twin), answer)
        self.assertEqual(twin, table)
        self.assertEqual(reply[answer.second:], bytes([CANARY]) * (300 - answer.second))
        if answer.number == OSK_ACCEPTED:
            self.assertEqual(answered, (b"\xff" * 4 + reply[:answer.second]).ljust(len(frame), b"\xff"))
        return answer, reply[:answer.second]

    def takes(self, table, frame, changes):
        """Every monitor takes the frame, counts it (63 is followed by 1) and is locked; beside that it makes these changes and no other."""
        counted = (bytes([counter % 63 + 1, 0]) for counter in table[COUNTER::RECORD])
        expected = edited(table, {**self.each(COUNTER, *counted), **changes})
        self.assert_answer(self.sent(table, frame)[0], len(table) // RECORD, 0)
        self.assertEqual(table, expected)

    def shows(self, table, command, *registers):
        """A read has these six bytes of each monitor, nearest first, and its counter."""
        expected = b"".join(wire.payload(six, counter) for six, counter in zip(registers, table[COUNTER::RECORD]))
        answer, reply = self.sent(table, wire.read(command, len(registers)))
        self.assert_answer(answer, len(table) // RECORD, 8 * len(registers))
        self.assertEqual(reply, expected)

    def keeps(self, table, frame, number):
        """Refused with the number, and every byte stays."""
        before = bytes(table)
        self.assert_refused(self.sent(table, frame)[0], number)
        self.assertEqual(table, before)


class Words(unittest.TestCase):
    """The tests' own check words hold to the paper's worked examples 1 to 7."""

    def test_worked_examples(self):
        self.assertEqual(wire.command_bytes(0x0001).hex(), "00013d6e")
        self.assertEqual(wire.command_bytes(0x0002).hex(), "00022b0a")
        for value, bits, expected in (0x00, 8, 0x23C), (0x01, 8, 0x2B3), (0, 48, 0x331), (0, 54, 0x3E3):
            self.assertEqual(wire.remainder(10, wire.DATA_POLYNOMIAL, value, bits), expected)
        self.assertEqual(wire.payload(bytes(6)).hex(), "00000000000003e3")

    def test_of_two_bytes(self):
        """By x^26 = 248h for two zero bytes, x^24 = 092h for the last bit of the first, x^16 = 337h for that of the second, and those given
        with L8."""
        for some_bytes in "00000248", "010002da", "0001017f", "42000394", "4700014e", "430201e7", "ffff0205":
            self.assertEqual(wire.payload(bytes.fromhex(some_bytes)[:2]).hex(), some_bytes)


class Answers(unittest.TestCase):
    def test_parts(self):
        for value in 0x8001A5C3, Answer(0x8001A5C3):
            self.assertEqual((osk_number(value), osk_first(value), osk_second(value)), (0xC3, 0xA5, 0x8001))
        answer = Answer(0x8001A5C3)
        self.assertEqual((answer.number, answer.first, answer.second), (0xC3, 0xA5, 0x8001))
        self.assertEqual(repr(answer), "<Answer number=195 first=165 second=32769>")
        self.assertEqual(f"{answer}", repr(answer))

    def test_a_refusal_is_its_constant(self):
        self.assertEqual(osk_check(b"", 0), OSK_LENGTH_WRONG)


class Frames(Case):
    def keeps(self, table, frame, room, number):
        """Refused with the number, and every byte lent stays as it was."""
        lent, reply = bytearray(table), bytearray([CANARY]) * room
        self.assert_refused(osk_frame(lent, frame, reply), number)
        self.assertEqual(lent, table)
        self.assertEqual(reply, bytearray([CANARY]) * room)

    def changes(self, table, frame, changes, taken):
        """A write or a bare command: it makes these changes to the table and no other, and does not touch the reply."""
        lent, reply = bytearray(table), bytearray([CANARY]) * 9
        self.assert_answer(osk_frame(lent, frame, reply), taken, 0)
        self.assertEqual(lent, edited(table, changes))
        self.assertEqual(reply, bytearray([CANARY]) * 9)

    def test_every_read(self):
        """The cell reads show the cells, and where a monitor's own SNAP_ST is set the copy. Every other read has one place."""
        for near_cells, far_cells in itertools.product((CELLS, COPY), repeat=2):
            changes = {5: b"\xbe" if near_cells == COPY else b"\x9e", RECORD + 5: b"\x20" if far_cells == COPY else b"\xdf"}
            table = edited(filled(2), {COUNTER: b"\x3f", RECORD + COUNTER: b"\x01", **changes})
            near_one, far_one = table[:RECORD], table[RECORD:]
            registers = {command: (near_one[start:start + 6], far_one[start:start + 6]) for command, start in OTHER_READS.items()}
            for command in CELL_READS:
                registers[command] = group(near_one[near_cells:][:32], command), group(far_one[far_cells:][:32], command)
            self.assertEqual(len(registers), len(wire.READS))
            for command, (near, far) in registers.items():
                with self.subTest(command=f"{command:04X}", near=near_cells, far=far_cells):
                    lent, reply = bytearray(table), bytearray([CANARY]) * 20
                    self.assert_answer(osk_frame(lent, wire.read(command, 2, filler=0x5A), reply), 2, 16)
                    self.assertEqual(reply, wire.payload(near, 63) + wire.payload(far, 1) + bytes([CANARY]) * 4)
                    self.assertEqual(lent, table)

    def test_reply_of_zeros(self):
        reply = bytearray(8)
        self.assert_answer(osk_frame(bytearray(RECORD), bytes.fromhex("00022B0A") + b"\xff" * 8, reply), 1, 8)
        self.assertEqual(reply.hex(), "00000000000003e3")

    def test_longest_chain(self):
        table, reply = filled(32), bytearray(256)
        self.assert_answer(osk_frame(table, wire.read(wire.RDSID, 32), reply), 32, 256)
        self.assertEqual(reply, b"".join(wire.payload(table[at + 62:at + 68], 5) for at in range(0, 32 * RECORD, RECORD)))
        self.keeps(table, wire.read(wire.RDSID, 32), 255, OSK_NO_ROOM)

    def test_write_goes_to_the_far_monitor_first(self):
        near, far = bytes.fromhex("715246000000"), bytes.fromhex("F4813E123456")
        self.changes(filled(2), wire.write(wire.WRCFGB, wire.payload(near), wire.payload(far)),
                     {6: near, COUNTER: b"\x06", RECORD + 6: far, RECORD + COUNTER: b"\x06"}, 2)

    def test_damaged_payload_changes_only_byte_69(self):
        six = bytes.fromhex("010203040506")
        frame = wire.write(wire.WRCFGB, wire.payload(six), wire.damaged(wire.payload(six)), wire.payload(six))
        changes = {6: six, COUNTER: b"\x06\x00", RECORD + UNLOCKED: b"\x00", 2 * RECORD + 6: six, 2 * RECORD + COUNTER: b"\x06\x00"}
        self.changes(filled(3, unlocked=1), frame, changes, 2)

    def test_payload_is_checked_over_the_counter_bits_sent(self):
        six = bytes.fromhex("010203040506")
        self.changes(filled(1), wire.write(wire.WRCFGB, wire.payload(six, 42)), {6: six, COUNTER: b"\x06"}, 1)

    def test_configuration_a_is_masked(self):
        """It keeps SNAP_ST and MUTE_ST, each as it is: a snapshot neither starts nor ends by it, and the copy stays."""
        for kept in 0x00, 0x10, 0x20, 0x30:
            table = edited(filled(1), {0: b"\xff" * 5 + bytes([0xCF | kept])})
            for sent, stored in (b"\xff" * 6, bytes.fromhex("87FFF8FF03") + bytes([0x0F | kept])), (bytes(6), bytes(5) + bytes([kept])):
                self.changes(table, wire.write(wire.WRCFGA, wire.payload(sent)), {0: stored, COUNTER: b"\x06"}, 1)

    def test_flags_are_cleared_where_1_is_sent(self):
        table = edited(filled(1), {44: b"\xff" * 12})
        self.changes(table, wire.write(wire.CLOVUV, wire.payload(bytes.fromhex("01020380FFFF"))),
                     {STATUS_D: bytes.fromhex("FEFDFC7FFFFF"), COUNTER: b"\x06"}, 1)
        self.changes(table, wire.write(wire.CLRFLAG, wire.payload(bytes.fromhex("0102FFFF04FF"))),
                     {44: bytes.fromhex("FEFDFFFFFB20"), COUNTER: b"\x06"}, 1)

    def test_retention(self):
        six = bytes.fromhex("A1A2A3A4A5A6")
        frame = wire.write(wire.WRRR, wire.payload(six))
        self.changes(filled(1), frame, {COUNTER: b"\x06"}, 1)
        self.changes(filled(1), wire.command_bytes(wire.ULRR), {COUNTER: b"\x06\x01"}, 1)
        self.changes(filled(1, unlocked=1), frame, {56: six, COUNTER: b"\x06\x00"}, 1)
        table = filled(1, unlocked=1)
        self.assert_answer(osk_frame(table, wire.read(wire.RDRR, 1), bytearray(8)), 1, 8)
        self.assertEqual(table, filled(1), "a read locks too")

    def test_retention_whatever_the_check(self):
        right = int.from_bytes(wire.payload(bytes.fromhex("A1A2A3A4A5A6")), "big")
        for bit in range(64):
            sent = (right ^ 1 << bit).to_bytes(8, "big")
            with self.subTest(sent=sent.hex()):
                frame = wire.write(wire.WRRR, sent)
                self.changes(filled(1), frame, {COUNTER: b"\x06"}, 1)
                self.changes(filled(1, unlocked=1), frame, {56: sent[:6], COUNTER: b"\x06\x00"}, 1)

    def test_retention_monitor_by_monitor(self):
        near, middle, far = (bytes([number] * 6) for number in (1, 2, 3))
        table = edited(filled(3, unlocked=1), {RECORD + UNLOCKED: b"\x00", 2 * RECORD + COUNTER: b"\x3f"})
        for damage in itertools.product((wire.payload, lambda six: wire.damaged(wire.payload(six))), repeat=3):
            frame = wire.write(wire.WRRR, *(made(six) for made, six in zip(damage, (near, middle, far))))
            self.changes(table, frame, {56: near, COUNTER: b"\x06\x00", RECORD + COUNTER: b"\x06", 2 * RECORD + 56: far,
                                        2 * RECORD + COUNTER: b"\x01\x00"}, 3)

    def test_every_other_write_needs_its_check(self):
        for command in (each for each in wire.WRITES if each != wire.WRRR):
            with self.subTest(command=f"{command:04X}"):
                ones, zeros = b"\xff" * wire.data_bytes(command), bytes(wire.data_bytes(command))
                frame = wire.write(command, wire.damaged(wire.payload(ones)), wire.damaged(wire.payload(zeros)))
                self.changes(filled(2, unlocked=1), frame, {UNLOCKED: b"\x00", RECORD + UNLOCKED: b"\x00"}, 0)

    def test_pwm_groups(self):
        six = bytes.fromhex("0102030405A6")
        self.changes(filled(1, unlocked=1), wire.write(wire.WRPWMA, wire.payload(six)), {PWM_A: six, COUNTER: b"\x06\x00"}, 1)
        for sent in "5AC3FFFFFFFF", "5AC300000000", "5AC3FEDCBA98":
            self.changes(filled(1, unlocked=1), wire.write(wire.WRPWMB, wire.payload(bytes.fromhex(sent))),
                         {PWM_B: bytes.fromhex("5AC3FFFFFFFF"), COUNTER: b"\x06\x00"}, 1)
        for command in wire.WRPWMA, wire.WRPWMB:
            frame = wire.write(command, wire.damaged(wire.payload(six)), wire.payload(bytes(6)))
            far = {wire.WRPWMA: {RECORD + PWM_A: bytes(6)}, wire.WRPWMB: {RECORD + PWM_B: b"\x00\x00\xff\xff\xff\xff"}}[command]
            self.changes(filled(2, unlocked=1), frame, {UNLOCKED: b"\x00", RECORD + COUNTER: b"\x06\x00", **far}, 1)

    def test_bare_commands(self):
        unmuted, muted = (edited(filled(1, counter=63), {5: byte}) for byte in (b"\xcf", b"\xdf"))
        self.changes(unmuted, wire.command_bytes(wire.MUTE), {5: b"\xdf", COUNTER: b"\x01"}, 1)
        self.changes(muted, wire.command_bytes(wire.UNMUTE), {5: b"\xcf", COUNTER: b"\x01"}, 1)
        self.changes(filled(1), wire.command_bytes(wire.CLRCELL), {12: b"\x00\x80" * 16, COUNTER: b"\x06"}, 1)
        self.changes(filled(2), wire.command_bytes(wire.RSTCC), {COUNTER: b"\x00", RECORD + COUNTER: b"\x00"}, 2)

    def test_refusals_in_their_order(self):
        write = wire.write(wire.WRCFGB, wire.payload(bytes(6)))
        for name, table in UNSOUND.items():
            with self.subTest(table=name):
                for frame in wire.read(wire.RDCFGA, 1), b"":
                    self.keeps(table, frame, 300, OSK_TABLE_NOT_SOUND)
        table = filled(1)
        for length in range(4):
            self.keeps(table, WRONG_COMMAND[:length], 8, OSK_FRAME_SHORT)
        self.keeps(table, WRONG_COMMAND, 0, OSK_COMMAND_WRONG)
        self.keeps(table, UNLISTED[:3] + bytes([UNLISTED[3] ^ 2]), 0, OSK_COMMAND_WRONG)
        self.keeps(table, UNLISTED, 0, OSK_CODE_NOT_LISTED)
        for frame in bytes.fromhex("00013D6E"), write[:-1], write + b"\x00", wire.command_bytes(wire.MUTE) + b"\x00":
            self.keeps(table, frame, 8, OSK_LENGTH_WRONG)
        self.keeps(table, wire.read(wire.RDCFGA, 2), 0, OSK_LENGTH_WRONG)
        for room in 0, 7:
            self.keeps(table, wire.read(wire.RDCFGA, 1), room, OSK_NO_ROOM)
        self.assert_answer(osk_frame(bytearray(table), write, bytearray()), 1, 0)


class TakesCodes:
    """What a store and a load have in common: their refusals."""

    def keeps(self, table, position, codes, number):
        lent = bytearray(table)
        self.assert_refused(self.function(lent, position, codes), number)
        self.assertEqual(lent, table)

    def test_refusals_in_their_order(self):
        codes = list(range(16))
        cleared = codes[:15] + [-32768]
        for name, table in UNSOUND.items():
            with self.subTest(table=name):
                for position, given in (0, []), (1, cleared), (1, codes):
                    self.keeps(table, position, given, OSK_TABLE_NOT_SOUND)
        for position in 0, 3, 33, PAST_32_BITS, (1 << 64) - 1:
            for given in [], cleared, codes:
                self.keeps(filled(2), position, given, OSK_POSITION_WRONG)
        for wrong in [], codes[:15], codes + [0], [-32768] * 17:
            self.keeps(filled(2), 2, wrong, OSK_COUNT_WRONG)
        for cell in range(16):
            self.keeps(filled(2), 1, codes[:cell] + [-32768] + codes[cell + 1:], OSK_CODE_CLEARED)


class Stores(TakesCodes, Case):
    function = staticmethod(osk_store)

    def test_cells_change_and_nothing_else(self):
        codes = [1, -1, 256, -256, 32767, -32767, 0, 128] * 2
        stored = bytes.fromhex("0100 FFFF 0001 00FF FF7F 0180 0000 8000" * 2)
        for monitors, position in (1, 1), (2, 1), (2, 2), (32, 17), (32, 32):
            lent = filled(monitors, unlocked=1)
            self.assert_answer(osk_store(lent, position, codes), 0, 0)
            self.assertEqual(lent, edited(filled(monitors, unlocked=1), {RECORD * (position - 1) + 12: stored}))

    def test_flags_stay(self):
        for flags in bytes(6), b"\xff" * 6, bytes.fromhex("0102040810A5"):
            table = edited(bytearray(RECORD), {6: bytes.fromhex("FF0F00"), STATUS_D: flags})  # VUV -1, VOV 0
            for codes in [-17, 1] * 8, [0] * 16:
                lent = bytearray(table)
                self.assert_answer(osk_store(lent, 1, codes), 0, 0)
                self.assertEqual(lent, edited(table, {12: cells(codes)}))

    def test_store_after_store(self):
        table = edited(bytearray(RECORD), {6: bytes.fromhex("FF0F00")})  # VUV -1, VOV 0
        for codes in [-17] * 16, [0] * 15 + [1]:
            self.assert_answer(osk_store(table, 1, codes), 0, 0)
        self.assert_answer(osk_compare(table, 1), 0, 0)
        self.assertEqual(table[12:44], bytes(30) + b"\x01\x00")
        self.assertEqual(table[50:56].hex(), "000000800000", "the codes that were replaced are compared no more")


class Compares(Case):
    def flags(self, lower_and_upper, codes, before=bytes(6)):
        """Status D of monitor 2 of three after a compare, which changes nothing else. The cells are laid in the table as bytes."""
        changes = {6: bytes.fromhex(lower_and_upper), 12: cells(codes), STATUS_D: before}
        table = edited(filled(3, unlocked=1), {RECORD + at: some_bytes for at, some_bytes in changes.items()})
        lent = bytearray(table)
        self.assert_answer(osk_compare(lent, 2), 0, 0)
        flags = lent[RECORD + STATUS_D:][:6]
        self.assertEqual(lent, edited(table, {RECORD + STATUS_D: flags}))
        again = bytearray(lent)
        self.assert_answer(osk_compare(again, 2), 0, 0)
        self.assertEqual(again, lent, "a second compare finds nothing new")
        return flags.hex()

    def test_cleared_cells_are_skipped(self):
        highest = "FFF77F"  # VUV and VOV 2047 are the code 32752
        self.assertEqual(self.flags(highest, [-32768] * 16), "000000000000")
        for code, place in (-32767, 0), (-32512, 0), (0, 0), (128, 0), (32751, 0), (32753, 1):
            for cell in range(1, 17):
                codes = [-32768] * 16
                codes[cell - 1] = code
                bit = 8 * ((cell - 1) // 4) + 2 * ((cell - 1) % 4) + place
                self.assertEqual(self.flags(highest, codes), (1 << bit).to_bytes(6, "little").hex())

    def test_flags_are_only_set(self):
        for code in 0, -32768:
            for before in "ffffffffffff", "0102040810a5":
                self.assertEqual(self.flags("FF0F00", [code] * 16, before=bytes.fromhex(before)), before)  # VUV -1, VOV 0
        self.assertEqual(self.flags("FF0F00", [-17, 1, 0, -32768] * 4, before=bytes.fromhex("90600000FFFF")), "99690909ffff")

    def test_after_clrcell(self):
        table = edited(filled(1), {6: bytes.fromhex("FF0F00"), STATUS_D: bytes(6)})  # VUV -1, VOV 0
        for compared_first, flags in (False, "000000000000"), (True, "999999990000"):
            lent = bytearray(table)
            self.assert_answer(osk_store(lent, 1, [-17, 1] * 8), 0, 0)
            if compared_first:
                self.assert_answer(osk_compare(lent, 1), 0, 0)
            self.assert_answer(osk_frame(lent, wire.command_bytes(wire.CLRCELL), bytearray()), 1, 0)
            self.assert_answer(osk_compare(lent, 1), 0, 0)
            self.assertEqual(lent, edited(table, {12: b"\x00\x80" * 16, STATUS_D: bytes.fromhex(flags), COUNTER: b"\x06"}))

    def test_by_thresholds_that_came_after_the_store(self):
        """VUV and VOV are 0 at the store, and at the compare -1 and 1: of -17 and 1 only -17 is past its threshold then."""
        later = wire.write(wire.WRCFGB, wire.payload(bytes.fromhex("FF1F00000000")))
        table, clocked_table, state = bytearray(RECORD), bytearray(RECORD), started()
        for lent in table, clocked_table:
            self.assert_answer(osk_store(lent, 1, [-17, 1] * 8), 0, 0)
        self.assert_answer(osk_frame(table, later, bytearray()), 1, 0)
        clocked(state, clocked_table, later)
        self.assert_answer(osk_clock_release(state, clocked_table), 1, 0)
        for flags in "000000000000", "111111110000":
            reply = bytearray(8)
            self.assert_answer(osk_frame(table, wire.read(wire.RDSTATD, 1), reply), 1, 8)
            self.assertEqual(reply, wire.payload(bytes.fromhex(flags), 1))
            self.assertEqual(clocked(state, clocked_table, wire.read(wire.RDSTATD, 1))[4:], reply)
            self.assert_answer(osk_clock_release(state, clocked_table), 1, 8)
            for lent in table, clocked_table:
                self.assert_answer(osk_compare(lent, 1), 0, 0)
        self.assertEqual(clocked_table, table)

    def test_refusals_in_their_order(self):
        for name, table in UNSOUND.items():
            with self.subTest(table=name):
                for position in 0, 1:
                    self.keeps(table, position, OSK_TABLE_NOT_SOUND)
        for position in 0, 3, 33, PAST_32_BITS, (1 << 64) - 1:
            self.keeps(filled(2), position, OSK_POSITION_WRONG)

    def keeps(self, table, position, number):
        lent = bytearray(table)
        self.assert_refused(osk_compare(lent, position), number)
        self.assertEqual(lent, table)


class Loads(TakesCodes, Case):
    function = staticmethod(osk_load)

    def flags(self, lower_and_upper, code, cell=1, before=bytes(6)):
        """Status D of monitor 2 after a load that gives one cell the code and the others one between the thresholds."""
        table = edited(bytearray(2 * RECORD), {RECORD + 6: bytes.fromhex(lower_and_upper), RECORD + STATUS_D: before})
        codes = [0] * 16
        codes[cell - 1] = code
        lent = bytearray(table)
        self.assert_answer(self.function(lent, 2, codes), 0, 0)
        flags = lent[RECORD + STATUS_D:][:6]
        self.assertEqual(lent, edited(table, {RECORD + 12: cells(codes), RECORD + STATUS_D: flags}))
        return flags.hex()

    def test_thresholds(self):
        self.assertEqual(self.flags("004006", 1600), "000000000000")  # VUV 0, VOV 100
        self.assertEqual(self.flags("004006", 1601), "020000000000")
        self.assertEqual(self.flags("FF0F00", -16), "000000000000")  # VUV -1, VOV 0
        self.assertEqual(self.flags("FF0F00", -17), "010000000000")
        self.assertEqual(self.flags("004806", -32767), "000000000000")  # VUV -2048 is the code -32768, VOV 100
        self.assertEqual(self.flags("004806", 32767), "020000000000")

    def test_every_cell_has_its_own_two_bits(self):
        for cell in range(1, 17):
            for code, place in (-17, 0), (1, 1):
                bit = 8 * ((cell - 1) // 4) + 2 * ((cell - 1) % 4) + place
                self.assertEqual(self.flags("FF0F00", code, cell), (1 << bit).to_bytes(6, "little").hex())

    def test_flags_are_only_set(self):
        self.assertEqual(self.flags("004006", 0, before=b"\xff" * 6), "ff" * 6)
        self.assertEqual(self.flags("0140FF", 0), "ffffffff0000")  # VUV 1 above VOV -12: every cell, both flags


class LoadsInTwo(Loads):
    """All of it once more by the two calls that a load stands for."""

    function = staticmethod(stored_and_compared)

    def test_same_as_at_once(self):
        for first in range(0, 65535, 4001):
            codes = [(first + 5003 * cell) % 65535 - 32767 for cell in range(16)]
            for position in 1, 2, 3:
                at_once, in_two = filled(3), filled(3)
                self.assertEqual(osk_load(at_once, position, codes), stored_and_compared(in_two, position, codes))
                self.assertEqual(at_once, in_two)


class Record(Case):
    """Each function that is lent a table, by a call that a sound table of any N allows."""

    @staticmethod
    def release(table):
        state = started()
        clocked(state, table, wire.command_bytes(wire.SNAP))
        return osk_clock_release(state, table)

    def functions(self):
        return {
            "frame": lambda table: osk_frame(table, wire.command_bytes(wire.SNAP), bytearray()),
            "store": lambda table: osk_store(table, 1, [0] * 16), "compare": lambda table: osk_compare(table, 1),
            "load": lambda table: osk_load(table, 1, [0] * 16), "discharge": lambda table: osk_discharge(table, 1, 0, 0, bytearray(16)),
            "wake": lambda table: osk_wake(table, 1, bytearray(8)), "relay": lambda table: osk_relay(table, 1, bytes(8), bytearray(8)),
            "heartbeat": lambda table: osk_heartbeat(table, 1, bytearray(8)), "time out": lambda table: osk_time_out(table, 1),
            "release": self.release,
        }.items()

    def test_size_is_the_librarys_own(self):
        """Zeroed records are sound; a byte more or less is not."""
        self.assertEqual(OSK_RECORD_SIZE, RECORD)
        for monitors in 1, 2, 32:
            size = OSK_RECORD_SIZE * monitors
            for name, function in self.functions():
                with self.subTest(function=name, monitors=monitors):
                    self.assertEqual(function(bytearray(size)).number, OSK_ACCEPTED)
                    for wrong in size - 1, size + 1:
                        self.assert_refused(function(bytearray(wrong)), OSK_TABLE_NOT_SOUND)

    def test_records_without_what_came_later(self):
        """N records of 82 bytes, sound before L6, or 114, sound before L8, are refused with 1 for each N, and keep every byte."""
        for monitors, length in itertools.product(range(1, 33), (82, 114)):
            whole = filled(monitors)
            table = b"".join(whole[at:at + length] for at in range(0, len(whole), RECORD))
            for name, function in self.functions():
                with self.subTest(function=name, monitors=monitors, length=length):
                    lent = bytearray(table)
                    self.assert_refused(function(lent), OSK_TABLE_NOT_SOUND)
                    self.assertEqual(lent, table)


class Snapshots(BothEngines):
    """SNAP and UNSNAP, by both engines."""

    SNAP, UNSNAP = bytes.fromhex("002DD2A2"), bytes.fromhex("002F4FF4")

    def bytes_5(self, *values):
        return self.each(5, *(bytes([value]) for value in values))

    def chain(self, *bytes_5, **filling):
        """Monitors with these bytes 5. No byte of a copy is that of its cell."""
        return edited(filled(len(bytes_5), **filling), self.bytes_5(*bytes_5))

    @staticmethod
    def live(table):
        """The cells of each monitor."""
        return [bytes(table[at + CELLS:at + CELLS + 32]) for at in range(0, len(table), RECORD)]

    def stored(self, table, *codes_of_each):
        for position, codes in enumerate(codes_of_each, 1):
            self.assert_answer(osk_store(table, position, codes), 0, 0)

    def shows_cells(self, table, *shown):
        """All six cell reads are of these 32 bytes of each monitor, nearest first."""
        for command in CELL_READS:
            self.shows(table, command, *(group(each, command) for each in shown))

    def test_each_monitor_by_its_own_snap_st(self):
        """SNAP sets it, and copies the cells where it was clear: where it was set the copy stays. UNSNAP clears it and leaves both."""
        bytes_5 = itertools.product((0xDF, 0xFF), (0x00, 0x20), (0x4B, 0x6B))
        for before, counter, unlocked in itertools.product(bytes_5, (0, 5, 62, 63), (0, 1)):
            with self.subTest(before=bytes(before).hex(), counter=counter, unlocked=unlocked):
                table = self.chain(*before, counter=counter, unlocked=unlocked)
                copied = {RECORD * at + COPY: each for at, each in enumerate(self.live(table)) if not before[at] & SNAP_ST}
                self.takes(bytearray(table), self.SNAP, {**self.bytes_5(*(byte | SNAP_ST for byte in before)), **copied})
                self.takes(bytearray(table), self.UNSNAP, self.bytes_5(*(byte & ~SNAP_ST for byte in before)))

    def test_longest_chain(self):
        table = self.chain(*[0x0F] * 32)
        live = self.live(table)
        self.takes(table, self.SNAP, {**self.bytes_5(*[0x2F] * 32), **self.each(COPY, *live)})
        self.takes(table, wire.command_bytes(wire.CLRCELL), self.each(CELLS, *[b"\x00\x80" * 16] * 32))
        self.shows_cells(table, *live)
        self.takes(table, self.UNSNAP, self.bytes_5(*[0x0F] * 32))
        self.shows_cells(table, *[b"\x00\x80" * 16] * 32)

    def test_a_long_read_is_of_one_moment(self):
        """One of six things comes before each of the six reads, each before each in some turn. All show the cells as SNAP found them."""
        moment = [100 * cell - 800 for cell in range(16)], [-32767, 32767, 0, 1, -1, 255, 256, -256] * 2
        later = [5000 + cell for cell in range(16)], [-5000 - cell for cell in range(16)]
        damaged = self.UNSNAP[:3] + bytes([self.UNSNAP[3] ^ 4])
        meanwhile = [
            lambda: self.stored(table, *later),
            lambda: self.assert_answer(osk_load(table, 2, later[0]), 0, 0),
            lambda: self.takes(table, wire.command_bytes(wire.CLRCELL), self.each(CELLS, *[b"\x00\x80" * 16] * 2)),
            lambda: self.takes(table, self.SNAP, {}),
            lambda: self.keeps(table, damaged, OSK_COMMAND_WRONG),
            lambda: self.shows(table, wire.RDSTATD, table[STATUS_D:][:6], table[RECORD + STATUS_D:][:6]),
        ]
        for turn in range(6):
            table = self.chain(0xDF, 0x00)
            self.stored(table, *moment)
            self.takes(table, self.SNAP, {**self.bytes_5(0xFF, 0x20), **self.each(COPY, *map(cells, moment))})
            for command, act in zip(CELL_READS, meanwhile[turn:] + meanwhile[:turn]):
                act()
                self.shows(table, command, *(group(cells(codes), command) for codes in moment))
            self.stored(table, *later)
            self.shows_cells(table, *map(cells, moment))
            self.takes(table, self.UNSNAP, self.bytes_5(0xDF, 0x00))
            self.shows_cells(table, *map(cells, later))
            self.takes(table, self.SNAP, {**self.bytes_5(0xFF, 0x20), **self.each(COPY, *map(cells, later))})

    def test_lent_with_snap_st_set(self):
        """The reads show the copy that was lent, any, and SNAP leaves it; after UNSNAP they show the cells, and SNAP takes them."""
        for copy in bytes(32), b"\xff" * 32, b"\x00\x80" * 16, bytes(range(32)), bytes(range(224, 256)):
            table = edited(self.chain(0x20, 0xDF, 0xFF), self.each(COPY, copy, copy, copy[::-1]))
            near, middle, far = self.live(table)
            self.shows_cells(table, copy, middle, copy[::-1])
            self.takes(table, self.SNAP, {RECORD + 5: b"\xff", RECORD + COPY: middle})
            self.shows_cells(table, copy, middle, copy[::-1])
            self.takes(table, self.UNSNAP, self.bytes_5(0x00, 0xDF, 0xDF))
            self.shows_cells(table, near, middle, far)
            self.takes(table, self.SNAP, {**self.bytes_5(0x20, 0xFF, 0xFF), **self.each(COPY, near, middle, far)})

    def test_stores_and_compares_go_by_the_live_cells(self):
        """Only they are stored, and only they are flagged; status D shows that at once."""
        past, between = [-17, 1] * 8, [0] * 16
        for copy, codes, flags in (past, between, "000000000000"), (between, past, "999999990000"):
            table = edited(self.chain(0x20), {6: bytes.fromhex("FF0F00"), STATUS_D: bytes(6), COPY: cells(copy)})  # VUV -1, VOV 0
            for function in osk_load, stored_and_compared:
                lent = bytearray(table)
                self.assert_answer(function(lent, 1, codes), 0, 0)
                self.assertEqual(lent, edited(table, {CELLS: cells(codes), STATUS_D: bytes.fromhex(flags)}))
                self.shows_cells(lent, cells(copy))
                self.shows(lent, wire.RDSTATD, bytes.fromhex(flags))

    def test_refused_frames_change_nothing(self):
        for byte_5, right in itertools.product((0xDF, 0xFF), (self.SNAP, self.UNSNAP)):
            table = self.chain(byte_5, byte_5, unlocked=1)
            for length in range(4):
                self.keeps(table, right[:length], OSK_FRAME_SHORT)
            for bit in range(32):
                self.keeps(table, (int.from_bytes(right, "big") ^ 1 << bit).to_bytes(4, "big"), OSK_COMMAND_WRONG)
            for more in b"\x00", wire.payload(bytes(6)), wire.payload(bytes(6)) * 2:
                self.keeps(table, right + more, OSK_LENGTH_WRONG)

    def test_clocked_snap_copies_at_its_release(self):
        table, state, codes = self.chain(0x0F), started(), list(range(1, 17))
        self.assertEqual(clocked(state, table, self.SNAP), b"\xff" * 4)
        self.stored(table, codes)
        expected = edited(table, {5: b"\x2f", COUNTER: b"\x06", COPY: cells(codes)})
        self.assert_answer(osk_clock_release(state, table), 1, 0)
        self.assertEqual(table, expected)

    def test_clocked_read_goes_by_snap_st_at_byte_four(self):
        """The windows are loaded then: whether it is set before or after does not show."""
        on, off = self.chain(0x20), self.chain(0x00)
        for at_four, before_and_after, shown in (on, off, on[COPY:COPY + 32]), (off, on, *self.live(off)):
            for command in CELL_READS:
                frame, state, answered = wire.read(command, 1), started(), b""
                for table, part in (before_and_after, frame[:3]), (at_four, frame[3:4]), (before_and_after, frame[4:]):
                    answered += clocked(state, table, part)
                self.assertEqual(answered, b"\xff" * 4 + wire.payload(group(shown, command), 5))
                self.assert_answer(osk_clock_release(state, before_and_after), 1, 8)


class Discharge(Case):
    """By hand from Table 27, the maps of the PWM groups (Tables 95 and 96) and that of configuration B. Output bytes are in hex."""

    FALLING = bytes.fromhex("EFCDAB896745 2301FFFFFFFF")  # cell 1 has duty 15, cell 2 has 14, and so on to cell 16 with 0
    OUTER = b"\x81\x81"  # DCC of cells 1 and 8, 9 and 16

    def record(self, duties=FALLING, dcc=b"\x00\x00", muted=False):
        """Three monitors, of which the second is asked. Its configuration A is all ones but for MUTE_ST."""
        changes = {5: b"\xff" if muted else b"\xef", 10: dcc, PWM_A: duties}
        return bytes(edited(filled(3), {RECORD + at: some_bytes for at, some_bytes in changes.items()}))

    def asked(self, table, events=0, phase=0):
        """The outputs of monitor 2. Nothing past them changes, and the number of those on is answered."""
        out = bytearray([CANARY]) * 18
        answer = osk_discharge(table, 2, events, phase, out)
        self.assert_answer(answer, sum(output >= OSK_OUTPUT_ON for output in out[:16]), 0)
        self.assertEqual(out[16:], bytes([CANARY]) * 2)
        exact = bytearray(16)
        self.assertEqual(osk_discharge(table, 2, events, phase, exact), answer)
        self.assertEqual(exact, out[:16])
        return exact.hex()

    def test_on_while_the_phase_is_below_the_duty(self):
        table = self.record()
        self.assertEqual(self.asked(table, phase=0), "81" * 15 + "01")
        self.assertEqual(self.asked(table, phase=1), "81" * 14 + "01" * 2)
        self.assertEqual(self.asked(table, phase=9), "81" * 6 + "01" * 10)
        self.assertEqual(self.asked(table, phase=14), "81" + "01" * 15)
        for duty in range(16):
            table = self.record(duties=bytes([17 * duty] * 8 + [0xFF] * 4))
            self.assertEqual([self.asked(table, phase=phase) for phase in range(15)], ["81" * 16] * duty + ["01" * 16] * (15 - duty))

    def test_each_cell_has_its_own_half_and_its_own_dcc_bit(self):
        for cell in range(16):
            alone = "81".join(("01" * cell, "01" * (15 - cell)))
            duties = (1 << 4 * cell).to_bytes(8, "little") + b"\xff" * 4  # sixteen halves in a row, a byte's low half first
            self.assertEqual(self.asked(self.record(duties=duties)), alone)
            dcc = (1 << cell).to_bytes(2, "little")
            for held, events in ("01", 0), ("03", OSK_EVENT_MEASUREMENT), ("02", OSK_EVENT_WRPWM):
                table = self.record(duties=bytes(12), dcc=dcc)
                self.assertEqual(self.asked(table, events), "84".join((held * cell, held * (15 - cell))))

    def test_rows(self):
        shutdown, measurement, wrcfgb, wrpwm = OSK_EVENT_SHUTDOWN, OSK_EVENT_MEASUREMENT, OSK_EVENT_WRCFGB, OSK_EVENT_WRPWM
        for events, outputs in (
            (0, "84 81818181 0101 8484 010101010101 84"),
            (wrpwm, "84 02020202 0202 8484 020202020202 84"),
            (measurement, "84 03030303 0303 8484 030303030303 84"),
            (measurement | wrpwm, "84 03030303 0303 8484 030303030303 84"),
            (wrcfgb, "05" * 16), (wrcfgb | measurement | wrpwm, "05" * 16),
            (shutdown, "07" * 16), (shutdown | measurement, "07" * 16), (shutdown | wrcfgb | measurement | wrpwm, "07" * 16),
        ):
            muted = "07" * 16 if events & shutdown else "06" * 16
            for above in 0, 0x10, 0x60, 0xF0:
                with self.subTest(events=events | above):
                    self.assertEqual(self.asked(self.record(dcc=self.OUTER), events | above, 10), outputs.replace(" ", ""))
                    self.assertEqual(self.asked(self.record(dcc=self.OUTER, muted=True), events | above, 10), muted)

    def test_a_row_decides_where_nothing_would_be_on(self):
        table = self.record(duties=bytes(12))
        for events, row in (0, "01"), (OSK_EVENT_WRPWM, "02"), (OSK_EVENT_MEASUREMENT, "03"), (OSK_EVENT_WRCFGB, "05"):
            self.assertEqual(self.asked(table, events), row * 16)

    def test_mute_and_unmute_in_both_engines(self):
        tables, state = [bytearray(self.record(dcc=self.OUTER)) for _ in (0, 1)], started()
        standing = "84818181810101848401010101010184"
        for command, outputs in (wire.RSTCC, standing), (wire.MUTE, "06" * 16), (wire.UNMUTE, standing):
            self.assert_answer(osk_frame(tables[0], wire.command_bytes(command), bytearray()), 3, 0)
            clocked(state, tables[1], wire.command_bytes(command))
            self.assert_answer(osk_clock_release(state, tables[1]), 3, 0)
            self.assertEqual([self.asked(table, phase=10) for table in tables], [outputs] * 2)

    def test_by_the_duties_that_were_written(self):
        table = bytearray(self.record(duties=bytes(12)))
        for command, far in (wire.WRPWMA, self.FALLING[:6]), (wire.WRPWMB, self.FALLING[6:8] + bytes(4)):
            frame = wire.write(command, wire.payload(bytes(6)), wire.payload(far), wire.payload(b"\xff" * 6))
            self.assert_answer(osk_frame(table, frame, bytearray()), 3, 0)
        self.assertEqual(self.asked(table, phase=2), "81" * 13 + "01" * 3)

    def keeps(self, table, position, phase, room, number):
        lent, out = bytearray(table), bytearray([CANARY]) * room
        self.assert_refused(osk_discharge(lent, position, OSK_EVENT_SHUTDOWN, phase, out), number)
        self.assertEqual(lent, table)
        self.assertEqual(out, bytearray([CANARY]) * room)

    def test_refusals_in_their_order(self):
        for name, table in UNSOUND.items():
            with self.subTest(table=name):
                for position, phase, room in (0, 15, 0), (1, 15, 16), (1, 0, 15), (1, 0, 16):
                    self.keeps(table, position, phase, room, OSK_TABLE_NOT_SOUND)
        for position in 0, 4, 33, PAST_32_BITS, (1 << 64) - 1:
            for phase, room in (15, 0), (0, 0), (0, 16):
                self.keeps(self.record(), position, phase, room, OSK_POSITION_WRONG)
        for phase in 15, 16, 128, 255:
            for room in 0, 15, 16:
                self.keeps(self.record(), 2, phase, room, OSK_POSITION_WRONG)
        for phase, room in (0, 0), (14, 1), (14, 15):
            self.keeps(self.record(), 2, phase, room, OSK_NO_ROOM)


class Host(Case):
    def builds(self, command, monitors, values, frame):
        out = bytearray([CANARY]) * (len(frame) + 3)
        self.assert_answer(osk_host_frame(command, monitors, values, out), 0, len(frame))
        self.assertEqual(out, frame + bytes([CANARY]) * 3)
        exact = bytearray(len(frame))
        self.assert_answer(osk_host_frame(command, monitors, values, exact), 0, len(frame))
        self.assertEqual(exact, frame)
        self.keeps(command, monitors, values, len(frame) - 1, OSK_NO_ROOM)

    def keeps(self, command, monitors, values, room, number):
        out = bytearray([CANARY]) * room
        self.assert_refused(osk_host_frame(command, monitors, values, out), number)
        self.assertEqual(out, bytearray([CANARY]) * room)

    def test_frames(self):
        self.builds(wire.WRCFGA, 1, bytes(6), bytes.fromhex("00013D6E 00000000000003E3"))
        self.builds(wire.WRPWMA, 1, bytes(6), bytes.fromhex("00200000 00000000000003E3"))
        self.builds(wire.SNAP, 1, b"", bytes.fromhex("002DD2A2"))
        self.builds(wire.UNSNAP, 1, b"", bytes.fromhex("002F4FF4"))
        self.builds(wire.CLRCMFLAG, 1, b"\xff\xff", bytes.fromhex("005ECE3E FFFF0205"))
        self.builds(wire.CMEN, 1, b"", bytes.fromhex("0041DAE4"))
        self.builds(wire.CMDIS, 1, b"", bytes.fromhex("004051D6"))
        for command in wire.WRITES:
            near, far = (bytes.fromhex(values)[:wire.data_bytes(command)] for values in ("715246000000", "F4813E123456"))
            self.builds(command, 2, near + far, wire.command_bytes(command) + wire.payload(far) + wire.payload(near))
        for command in wire.READS:
            self.builds(command, 32, b"", wire.command_bytes(command) + b"\xff" * 256)
        for command in wire.BARE:
            self.builds(command, 32, b"", wire.command_bytes(command))

    def test_refusals_in_their_order(self):
        for command in 0x0000, 0x0003, 0x2400, 0xFFFF, wire.CMHB:
            self.keeps(command, 0, b"x", 0, OSK_CODE_NOT_LISTED)
        for monitors in 0, 33, PAST_32_BITS, (1 << 64) - 1:
            self.keeps(wire.WRCFGB, monitors, b"x", 0, OSK_POSITION_WRONG)
        for values in b"", bytes(4), bytes(11), bytes(13):
            self.keeps(wire.WRCFGB, 2, values, 0, OSK_COUNT_WRONG)
        for values in b"", bytes(2), bytes(3), bytes(5), bytes(6), bytes(12):
            self.keeps(wire.CLRCMFLAG, 2, values, 0, OSK_COUNT_WRONG)
        for command, values in itertools.product((wire.RDCFGA, wire.MUTE, wire.RDCMFLAG, wire.CMEN, wire.CMDIS), (bytes(2), bytes(6))):
            self.keeps(command, 1, values, 0, OSK_COUNT_WRONG)

    def test_check(self):
        """In hex by hand: 3E3, the check of six zero bytes and counter 0, with 08F (x^10) added for counter 1 and 168 (x^10 to x^15) for
        63. With the counter of one and the check of another they are damaged."""
        zeros = {0: "00000000000003E3", 1: "000000000000076C", 63: "000000000000FE8B"}
        for counter, eight in zeros.items():
            self.assert_answer(osk_check(bytes.fromhex(eight), counter), OSK_RIGHT, 0)
            for expected in set(zeros) - {counter}:
                self.assert_answer(osk_check(bytes.fromhex(eight), expected), OSK_COUNTER_DIFFERS, counter)
                swapped = int(eight, 16) ^ (counter ^ expected) << 10
                self.assert_answer(osk_check(swapped.to_bytes(8, "big"), expected), OSK_DAMAGED, 0)

    def test_every_counter_against_every_expected(self):
        for counter, expected in itertools.product(range(64), repeat=2):
            verdict = (OSK_RIGHT, 0) if counter == expected else (OSK_COUNTER_DIFFERS, counter)
            for six in bytes(6), bytes.fromhex("A1A2A3A4A5A6"), b"\xff" * 6:
                self.assert_answer(osk_check(wire.payload(six, counter), expected), *verdict)

    def test_a_wrong_check_is_damaged_whatever_the_counter(self):
        """Every other check, with the counter that is expected and with another one; and every bit, against all that may be expected."""
        right = int.from_bytes(wire.payload(bytes.fromhex("A1A2A3A4A5A6"), 17), "big")
        for wrong, expected in itertools.product(range(1, 1 << 10), (17, 18)):
            self.assert_answer(osk_check((right ^ wrong).to_bytes(8, "big"), expected), OSK_DAMAGED, 0)
        for bit, expected in itertools.product(range(64), repeat=2):
            self.assert_answer(osk_check((right ^ 1 << bit).to_bytes(8, "big"), expected), OSK_DAMAGED, 0)

    def test_check_refusals_in_their_order(self):
        """What is above 63 is no counter, nor the one that its low six bits are."""
        for expected in range(64, 256):
            right = wire.payload(bytes.fromhex("A1A2A3A4A5A6"), expected % 64)
            for came in right, wire.damaged(right), wire.payload(bytes(6), 0), b"", right[:7], right + b"x":
                self.assert_refused(osk_check(came, expected), OSK_POSITION_WRONG)
        for expected in range(64):
            right = wire.payload(bytes.fromhex("A1A2A3A4A5A6"), expected)
            for came in b"", right[:7], right + b"x", right * 2, wire.payload(b"\xff\xff", expected):
                self.assert_refused(osk_check(came, expected), OSK_LENGTH_WRONG)

    @staticmethod
    def in_three_ways(monitors, expected, other):
        """Each monitor's payload, nearest first: right, with another counter, and with its check wrong and the counter that is expected."""
        right = [wire.payload(bytes([position] * 6), expected) for position in range(1, monitors + 1)]
        differs = [wire.payload(bytes([position] * 6), other) for position in range(1, monitors + 1)]
        return {"right": right, "differs": differs, "damaged": [wire.damaged(each) for each in right]}

    def test_two_ports(self):
        """What A has and what B has, in all nine ways, at each position. What the other monitors have says nothing."""
        ways = {
            ("right", "right"): OSK_PORT_A, ("right", "differs"): OSK_PORT_A, ("right", "damaged"): OSK_PORT_A,
            ("differs", "right"): OSK_PORT_B, ("damaged", "right"): OSK_PORT_B,
            ("differs", "differs"): OSK_PORT_A_DIFFERS, ("differs", "damaged"): OSK_PORT_A_DIFFERS,
            ("damaged", "differs"): OSK_PORT_B_DIFFERS, ("damaged", "damaged"): None,
        }
        for monitors, (expected, other) in itertools.product((1, 2, 5, 32), ((0, 63), (5, 4), (63, 0))):
            made = self.in_three_ways(monitors, expected, other)
            for position, ((way_a, way_b), first), others in itertools.product(range(1, monitors + 1), ways.items(), made):
                near, far = position - 1, monitors - position
                a, b = list(made[others]), made[others][::-1]
                a[near], b[far] = made[way_a][near], made[way_b][near]
                answer = osk_two_ports(b"".join(a), b"".join(b), monitors, position, expected)
                if first is None:
                    self.assert_refused(answer, OSK_BOTH_DAMAGED)
                else:
                    self.assert_answer(answer, first, 8 * (near if first in (OSK_PORT_A, OSK_PORT_A_DIFFERS) else far))

    def test_two_ports_of_every_counter(self):
        """By the check of each port's eight bytes."""
        for in_a, in_b, expected in itertools.product((0, 1, 31, 32, 62, 63), (0, 1, 32, 63), range(64)):
            first = OSK_PORT_A if in_a == expected else OSK_PORT_B if in_b == expected else OSK_PORT_A_DIFFERS
            a, b = wire.payload(b"\x01" * 6, in_a), wire.payload(b"\x01" * 6, in_b)
            self.assert_answer(osk_two_ports(a, b, 1, 1, expected), first, 0)
            first = OSK_PORT_B if in_b == expected else OSK_PORT_B_DIFFERS
            self.assert_answer(osk_two_ports(wire.damaged(a), b, 1, 1, expected), first, 0)

    def test_two_ports_refusals_in_their_order(self):
        """The counter first, then N and the position, then both lengths."""
        wrong = wire.damaged(wire.payload(bytes(6))) * 2
        places = (0, 1), (33, 1), (2, 0), (2, 3), (PAST_32_BITS, 1), (2, PAST_32_BITS), (2, (1 << 64) - 1)
        for expected in range(64, 256):
            right = wire.payload(bytes(6), expected % 64) * 2
            for a, b in (right, right), (wrong, right), (wrong, wrong), (b"", right), (right, b""):
                self.assert_refused(osk_two_ports(a, b, 2, 1, expected), OSK_POSITION_WRONG)
            for monitors, position in places:
                self.assert_refused(osk_two_ports(b"", b"", monitors, position, expected), OSK_POSITION_WRONG)
        for expected in 0, 5, 63:
            for monitors, position in places:
                self.assert_refused(osk_two_ports(b"", b"", monitors, position, expected), OSK_POSITION_WRONG)
            for a, b in (wrong[:15], wrong), (wrong, wrong[:15]), (b"", wrong), (wrong, wrong + b"x"):
                self.assert_refused(osk_two_ports(a, b, 2, 1, expected), OSK_LENGTH_WRONG)
            self.assert_refused(osk_two_ports(wrong, wrong, 2, 2, expected), OSK_BOTH_DAMAGED)

    def test_replies_are_only_read(self):
        right = wire.payload(bytes.fromhex("A1A2A3A4A5A6"), 17)
        for (a, b), expected in itertools.product(itertools.product((right, wire.damaged(right), right[:7]), repeat=2), (17, 18, 64)):
            lent = bytearray(b"\xa5" + a + b"\xa5" + b + b"\xa5")
            view = memoryview(lent)
            osk_check(view[1:1 + len(a)], expected)
            osk_two_ports(view[1:1 + len(a)], view[2 + len(a):-1], 1, 1, expected)
            self.assertEqual(lent, b"\xa5" + a + b"\xa5" + b + b"\xa5")


class Clock(Case):
    def window(self, state, position):
        out = bytearray([CANARY]) * 11
        answer = osk_clock_window(state, position, out)
        self.assertEqual((answer.number, answer.first), (OSK_ACCEPTED, 0))
        self.assertEqual(out[answer.second:], bytearray([CANARY]) * (11 - answer.second))
        return bytes(out[:answer.second])

    def keeps(self, state, table, number):
        lent = bytearray(table)
        self.assert_refused(osk_clock_release(state, lent), number)
        self.assertEqual(lent, table)

    def test_write(self):
        near, far = wire.payload(bytes.fromhex("715246000000")), wire.payload(bytes.fromhex("F4813E123456"))
        frame, table, state = wire.write(wire.WRCFGB, near, far), filled(2, unlocked=1), started()
        for count, byte in enumerate(frame, 1):
            self.assert_answer(osk_clock_byte(state, bytes(table), byte), 0xFF, 0)
            if count >= 4:
                self.assertEqual(self.window(state, 1), frame[4:count][-8:])
                self.assertEqual(self.window(state, 2), frame[4:count][:-8][-8:])
        self.assertEqual(table, filled(2, unlocked=1), "the table changes only at release")
        self.assert_answer(osk_clock_release(state, table), 2, 0)
        self.assertEqual(table, edited(filled(2), {6: near[:6], COUNTER: b"\x06", RECORD + 6: far[:6], RECORD + COUNTER: b"\x06"}))
        self.keeps(state, table, OSK_FRAME_SHORT)

    def test_damaged_payload(self):
        six = bytes.fromhex("010203040506")
        state, table = started(), filled(2)
        clocked(state, table, wire.write(wire.WRCFGB, wire.damaged(wire.payload(six)), wire.payload(six)))
        self.assert_answer(osk_clock_release(state, table), 1, 0)
        self.assertEqual(table, edited(filled(2), {RECORD + 6: six, RECORD + COUNTER: b"\x06"}))

    def test_licence_number_of_a_damaged_wrrr(self):
        """ULRR, WRRR with both payloads damaged, RDRR: by whole frames and clocked. A second WRRR finds both locked."""
        near, far = bytes.fromhex("4C4943313233"), bytes.fromhex("4C4943393837")
        first, second = (wire.write(wire.WRRR, *(wire.damaged(wire.payload(six)) for six in sixes)) for sixes in ((near, far), (far, near)))
        state, tables = started(), (filled(2), filled(2))
        for frame in wire.command_bytes(wire.ULRR), first, second:
            self.assert_answer(osk_frame(tables[0], frame, bytearray()), 2, 0)
            clocked(state, tables[1], frame)
            self.assert_answer(osk_clock_release(state, tables[1]), 2, 0)
            self.assertEqual(*tables)
        reply = bytearray(16)
        self.assert_answer(osk_frame(tables[0], wire.read(wire.RDRR, 2), reply), 2, 16)
        self.assertEqual(reply, wire.payload(near, 8) + wire.payload(far, 8))
        self.assertEqual(clocked(state, tables[1], wire.read(wire.RDRR, 2))[4:], reply)

    def test_read(self):
        state, table = started(), filled(2, unlocked=1)
        replies = wire.payload(table[62:68], 5) + wire.payload(table[RECORD + 62:RECORD + 68], 5)
        past = replies + b"\xff" * 16
        frame = wire.read(wire.RDSID, 2, filler=0x5A)
        self.assertEqual(clocked(state, table, frame[:4]), b"\xff" * 4)
        for count in range(17):
            self.assertEqual(self.window(state, 1), past[count:count + 8])
            self.assertEqual(self.window(state, 2), past[count + 8:count + 16])
            if count < 16:
                self.assert_answer(osk_clock_byte(state, table, frame[4 + count]), replies[count], 0)
        self.assert_answer(osk_clock_release(state, table), 2, 16)
        self.assertEqual(table, filled(2))

    def test_bare(self):
        state, table = started(), filled(32)
        self.assertEqual(clocked(state, table, wire.command_bytes(wire.RSTCC)), b"\xff" * 4)
        self.assertEqual(self.window(state, 32), b"")
        self.assert_answer(osk_clock_release(state, table), 32, 0)
        self.assertEqual(table, filled(32, counter=0))

    def test_window_refusals_in_their_order(self):
        state, table, out = started(), filled(2), bytearray([CANARY]) * 8
        for byte in wire.write(wire.WRCFGB)[:3]:
            osk_clock_byte(state, table, byte)
            self.assert_refused(osk_clock_window(state, 1, out), OSK_POSITION_WRONG)
        osk_clock_byte(state, table, wire.write(wire.WRCFGB)[3])
        self.assert_answer(osk_clock_window(state, 1, bytearray()), 0, 0)
        clocked(state, table, bytes(9))
        for position in 0, 3, PAST_32_BITS, (1 << 64) - 1:
            self.assert_refused(osk_clock_window(state, position, bytearray()), OSK_POSITION_WRONG)
        short = bytearray([CANARY]) * 7
        self.assert_refused(osk_clock_window(bytes(state), 1, short), OSK_NO_ROOM)
        self.assertEqual(short, bytearray([CANARY]) * 7)
        self.assertEqual(out, bytearray([CANARY]) * 8)
        self.assert_answer(osk_clock_window(bytes(state), 2, short), 0, 1)
        self.assertEqual(short, b"\x00" + bytes([CANARY]) * 6)

    def test_release_refusals_in_their_order(self):
        write = wire.write(wire.WRCFGB, wire.payload(bytes(6)), wire.payload(bytes(6)))
        state, table = started(), filled(2)
        for frame, number in ((b"", OSK_FRAME_SHORT), (WRONG_COMMAND[:3], OSK_FRAME_SHORT), (WRONG_COMMAND, OSK_COMMAND_WRONG),
                              (UNLISTED, OSK_CODE_NOT_LISTED), (UNLISTED + bytes(16), OSK_CODE_NOT_LISTED), (write[:-1], OSK_LENGTH_WRONG),
                              (write + b"\x00", OSK_LENGTH_WRONG), (wire.read(wire.RDSID, 1), OSK_LENGTH_WRONG)):
            with self.subTest(frame=frame.hex()):
                clocked(state, table, frame)
                for name, unsound in UNSOUND.items():
                    self.keeps(bytearray(state), unsound, OSK_TABLE_NOT_SOUND)
                self.keeps(state, table, number)
        self.assertEqual(clocked(state, table, write), b"\xff" * 20)
        self.assert_answer(osk_clock_release(state, table), 2, 0)

    def test_table_of_byte_four(self):
        write = wire.write(wire.WRCFGB, wire.payload(bytes(6)))
        for with_byte_four in (filled(2), *UNSOUND.values()):
            state = started()
            clocked(state, filled(1), write[:3])
            clocked(state, with_byte_four, write[3:4])
            clocked(state, filled(1), write[4:])
            self.keeps(state, filled(1), OSK_TABLE_NOT_SOUND)
        state, table = started(), filled(1)
        clocked(state, filled(2), write[:3])
        clocked(state, table, write[3:4])
        clocked(state, b"", write[4:])
        self.assert_answer(osk_clock_release(state, table), 1, 0)

    def test_start_takes_any_bytes_and_gives_up_a_frame(self):
        write = wire.write(wire.WRCFGB, wire.payload(bytes(6)))
        for state in bytearray(b"\xff" * OSK_CLOCK_STATE), bytearray(filled(4)[:OSK_CLOCK_STATE]):
            for given_up in range(len(write) + 1):
                self.assertIsNone(osk_clock_start(state))
                clocked(state, filled(1), write[:given_up])
            self.assertIsNone(osk_clock_start(state))
            table = filled(1)
            clocked(state, table, write)
            self.assert_answer(osk_clock_release(state, table), 1, 0)
            self.assertEqual(table, edited(filled(1), {6: bytes(6), COUNTER: b"\x06"}))

    def test_two_clocks_in_turn(self):
        six = bytes.fromhex("010203040506")
        write, read = wire.write(wire.WRCFGB, wire.payload(six), wire.payload(six)), wire.read(wire.RDSID, 3)
        states, tables = (started(), started()), (filled(2), filled(3, counter=9))
        answered = bytearray()
        for at in range(len(read)):
            if at < len(write):
                self.assert_answer(osk_clock_byte(states[0], tables[0], write[at]), 0xFF, 0)
            answered += clocked(states[1], tables[1], read[at:at + 1])
        self.assert_answer(osk_clock_release(states[0], tables[0]), 2, 0)
        self.assert_answer(osk_clock_release(states[1], tables[1]), 3, 24)
        self.assertEqual(tables[0], edited(filled(2), {6: six, COUNTER: b"\x06", RECORD + 6: six, RECORD + COUNTER: b"\x06"}))
        self.assertEqual(answered[4:], b"".join(wire.payload(tables[1][at + 62:at + 68], 9) for at in range(0, 3 * RECORD, RECORD)))


class Readings(Case):
    def test_microvolts(self):
        for code, microvolts in (0, 1_500_000), (1, 1_500_150), (-10000, 0), (32767, 6_415_050), (-32767, -3_415_050):
            self.assertEqual(osk_microvolts(code), microvolts)
        self.assertEqual(osk_microvolts(-32768), 1_500_000 - 150 * 32768)

    def test_volts(self):
        for code, volts in (0, 1.5), (-10000, 0.0), (32767, 6.41505), (-32767, -3.41505), (12345, 3.35175):
            self.assertEqual(osk_volts(code), volts)
        self.assertTrue(math.isnan(osk_volts(-32768)))

    def test_summary(self):
        for codes, expected in (
            ([0, 2, 1], [1.5, 1.5003, 4.50045]),  # three doubles added up would give 4.500450000000001
            ([-32768, 32767, -32768, -32767], [-3.41505, 6.41505, 3.0]),
            ([-10000], [0.0, 0.0, 0.0]),
            ([32767] * 512, [6.41505, 6.41505, 3284.5056]),
        ):
            out = array.array("d", [-1.0] * 5)
            self.assert_answer(osk_summary(codes, out), 1, sum(code != -32768 for code in codes))
            self.assertEqual(out.tolist(), expected + [-1.0, -1.0])

    def test_no_summary(self):
        out = array.array("d", [-1.0] * 3)
        self.assert_answer(osk_summary([-32768] * 512, out), 0, 0)
        self.assertEqual(out.tolist(), [-1.0] * 3)

    def test_summary_refusals_in_their_order(self):
        for codes, room, number in (([], 0, OSK_COUNT_WRONG), ([], 3, OSK_COUNT_WRONG), ([0] * 513, 2, OSK_COUNT_WRONG),
                                    ([0], 2, OSK_NO_ROOM), ([0], 0, OSK_NO_ROOM), ([-32768], 2, OSK_NO_ROOM)):
            out = array.array("d", [-1.0] * room)
            self.assert_refused(osk_summary(codes, out), number)
            self.assertEqual(out.tolist(), [-1.0] * room)


if __name__ == "__main__":
    unittest.main()
