"""Low power cell monitoring (L8), its settings and its enabling: by hand, and through both engines."""

import itertools
import unittest

import paper_wire as wire
from oskorbine import (
    OSK_CODE_NOT_LISTED, OSK_COMMAND_WRONG, OSK_FRAME_SHORT, OSK_LENGTH_WRONG, OSK_NO_ROOM, OSK_POSITION_WRONG, osk_clock_byte,
    osk_clock_release, osk_clock_start, osk_clock_window, osk_load, osk_store,
)
from test_oskorbine import (
    CANARY, CELL_THRESHOLDS, CELLS, CMC_EN, CMF0, CMF1, COPY, COUNTER, GPIO_THRESHOLDS, LAST, LPCM_CONFIGURATION, RECORD, SNAP_ST, STATUS_D,
    UNLOCKED, BothEngines, cells, clocked, edited, filled, group, started, stored_and_compared,
)

CMEN, CMDIS = bytes.fromhex("0041DAE4"), bytes.fromhex("004051D6")
CLEAR_ALL = bytes.fromhex("FFFF0205")  # the four bytes of a CLRCMFLAG that clear all of CMF0
RETENTION = 56


class Lpcm(BothEngines):
    def chain(self, *flags, **filling):
        """Monitors with these CMF0 and CMF1. No byte of a last measurement is that of its cell, or of its copy."""
        return edited(filled(len(flags), **filling), self.each(CMF0, *(bytes(each) for each in flags)))

    @staticmethod
    def live(table):
        """The cells of each monitor."""
        return [bytes(table[at + CELLS:at + CELLS + 32]) for at in range(0, len(table), RECORD)]

    def changes(self, table, frame, taken, changes):
        """The frame is taken by so many monitors, and makes these changes and no other."""
        expected = edited(table, changes)
        self.assert_answer(self.sent(table, frame)[0], taken, 0)
        self.assertEqual(table, expected)


class Settings(Lpcm):
    def test_stored_and_shown(self):
        """WRCMCFG stores all; of thresholds the high half of byte 4 and all of byte 5 become 0. A read's code comes after its write's."""
        whole, masked = ("112233445566", "FFFFFFFFFFFF"), ("112233440500", "FFFFFFFF0F00")
        sent = [wire.payload(bytes.fromhex(whole[0])), wire.payload(bytes.fromhex(whole[1]), 42)]
        for command, place, kept in ((wire.WRCMCFG, LPCM_CONFIGURATION, whole), (wire.WRCMCELLT, CELL_THRESHOLDS, masked),
                                     (wire.WRCMGPIOT, GPIO_THRESHOLDS, masked)):
            with self.subTest(command=f"{command:04X}"):
                table, stored = filled(2, unlocked=1), [bytes.fromhex(each) for each in kept]
                self.takes(table, wire.write(command, *sent), self.each(place, *stored))
                self.shows(table, command + 1, *stored)
                near_alone = {COUNTER: b"\x06\x00", RECORD + UNLOCKED: b"\x00", place: stored[0]}
                self.changes(filled(2, unlocked=1), wire.write(command, sent[0], wire.damaged(sent[1])), 1, near_alone)

    def test_flags_are_cleared_where_1_is_sent(self):
        """By the first of two bytes, and of CMF0 alone."""
        for sent, before, after in (("ffff", 0xFF, 0x00), ("ff00", 0xA5, 0x00), ("8100", 0xFF, 0x7E), ("8100", 0x7E, 0x7E),
                                    ("00ff", 0xFF, 0xFF), ("0000", 0x01, 0x01), ("01ff", 0x03, 0x02)):
            for counter_bits in 0, 1, 42, 63:
                frame = wire.write(wire.CLRCMFLAG, wire.payload(bytes.fromhex(sent), counter_bits))
                self.takes(self.chain((before, 0x7F), unlocked=1), frame, {CMF0: bytes([after])})

    def test_each_monitor_has_four_bytes(self):
        """The far one's come first. In hex by hand: 8100 has the check 32A, which is 248, 1F0 (x^31) and 092 (x^24) added up."""
        frame = bytes.fromhex("005ECE3E FFFF0204 FFFF0205 8100032A")
        self.assertEqual(frame, wire.write(wire.CLRCMFLAG, bytes.fromhex("8100032A"), CLEAR_ALL, wire.damaged(CLEAR_ALL)))
        counted = {COUNTER: b"\x06\x00", RECORD + COUNTER: b"\x06\x00", 2 * RECORD + UNLOCKED: b"\x00"}
        self.changes(self.chain(*[(0xFF, 0x00)] * 3, unlocked=1), frame, 2, {**counted, CMF0: b"\x7e", RECORD + CMF0: b"\x00"})
        table = self.chain(*[(0xFF, 0x03)] * 32)
        self.takes(table, wire.write(wire.CLRCMFLAG, *[CLEAR_ALL] * 32), self.each(CMF0, *[b"\x00"] * 32))

    def test_lengths(self):
        """Four bytes for each monitor in a CLRCMFLAG, and eight in any other write."""
        for monitors in 1, 2, 3, 32:
            table = self.chain(*[(0xFF, 0x03)] * monitors, unlocked=1)
            for command in wire.WRITES:
                right = wire.own_bytes(command) * monitors
                for length in {0, 1, right - 4, right - 1, right + 1, right + 4, 4 * monitors, 8 * monitors} - {right}:
                    self.keeps(table, wire.command_bytes(command) + (CLEAR_ALL * 65)[:length], OSK_LENGTH_WRONG)
            for command in CMEN, CMDIS:
                for more in b"\x00", CLEAR_ALL, CLEAR_ALL * monitors:
                    self.keeps(table, command + more, OSK_LENGTH_WRONG)

    def test_cmhb_is_not_listed(self):
        """Alone, as the message of a heartbeat, and with eight bytes; also in LPCM."""
        for flags, more in itertools.product(((0, 0), (0, 0x83)), ("", "42000394", "00000000000003E3")):
            self.keeps(self.chain(flags, unlocked=1), bytes.fromhex("004347B2" + more), OSK_CODE_NOT_LISTED)


class Enabling(Lpcm):
    def test_each_monitor_by_its_own_cmc_en(self):
        """CMEN makes CMF1 83 and takes the live cells where CMC_EN is clear, and where it is set changes neither. CMDIS clears it alone."""
        flags = itertools.product((0x00, 0x83), (0x7F, 0xFF), (0x03, 0x80))
        for before, counter, unlocked in itertools.product(flags, (0, 5, 62, 63), (0, 1)):
            with self.subTest(before=bytes(before).hex(), counter=counter, unlocked=unlocked):
                table = self.chain(*((0xA5, cmf1) for cmf1 in before), counter=counter, unlocked=unlocked)
                enabled = [at for at, cmf1 in enumerate(before) if not cmf1 & CMC_EN]
                changes = {RECORD * at + CMF1: b"\x83" for at in enabled}
                changes.update({RECORD * at + LAST: self.live(table)[at] for at in enabled})
                self.takes(bytearray(table), CMEN, changes)
                self.takes(bytearray(table), CMDIS, self.each(CMF1, *(bytes([cmf1 & 0x7F]) for cmf1 in before)))

    def test_longest_chain(self):
        table = self.chain(*[(0x00, 0x00)] * 32)
        self.takes(table, CMEN, {**self.each(CMF1, *[b"\x83"] * 32), **self.each(LAST, *self.live(table))})
        self.takes(table, CMDIS, self.each(CMF1, *[b"\x03"] * 32))

    def test_a_second_cmen_hides_no_jump(self):
        table, first, second = self.chain((0, 0)), [100] * 16, [-32767] * 16
        self.assert_answer(osk_store(table, 1, first), 0, 0)
        self.takes(table, CMEN, {CMF1: b"\x83", LAST: cells(first)})
        self.assert_answer(osk_store(table, 1, second), 0, 0)
        self.takes(table, CMEN, {})
        self.takes(table, CMDIS, {CMF1: b"\x03"})
        self.takes(table, CMEN, {CMF1: b"\x83", LAST: cells(second)})

    def test_the_live_cells_and_not_the_copy(self):
        """SNAP and CMEN in either order: the cell reads show the copy, and the last measurement is of the live cells."""
        table, first, second = edited(self.chain((0, 0)), {5: b"\x00"}), [100] * 16, [200] * 16
        self.assert_answer(osk_store(table, 1, first), 0, 0)
        self.takes(table, wire.command_bytes(wire.SNAP), {5: bytes([SNAP_ST]), COPY: cells(first)})
        self.assert_answer(osk_store(table, 1, second), 0, 0)
        self.takes(table, CMEN, {CMF1: b"\x83", LAST: cells(second)})
        self.shows(table, wire.RDCVA, group(cells(first), wire.RDCVA))
        self.takes(table, wire.command_bytes(wire.UNSNAP), {5: b"\x00"})
        self.takes(table, wire.command_bytes(wire.CLRCELL), {CELLS: b"\x00\x80" * 16})
        self.takes(table, wire.command_bytes(wire.SNAP), {5: bytes([SNAP_ST]), COPY: b"\x00\x80" * 16})

    def test_refused_frames_change_nothing(self):
        for flags, right in itertools.product(((0xFF, 0x7F), (0xFF, 0xFF)), (CMEN, CMDIS)):
            table = self.chain(flags, flags, unlocked=1)
            for length in range(4):
                self.keeps(table, right[:length], OSK_FRAME_SHORT)
            for bit in range(32):
                self.keeps(table, (int.from_bytes(right, "big") ^ 1 << bit).to_bytes(4, "big"), OSK_COMMAND_WRONG)

    def test_clocked_cmen_takes_the_cells_at_its_release(self):
        table, state, codes = self.chain((0, 0)), started(), list(range(1, 17))
        self.assertEqual(clocked(state, table, CMEN), b"\xff" * 4)
        self.assert_answer(osk_store(table, 1, codes), 0, 0)
        expected = edited(table, {CMF1: b"\x83", COUNTER: b"\x06", LAST: cells(codes)})
        self.assert_answer(osk_clock_release(state, table), 1, 0)
        self.assertEqual(table, expected)


class InLpcm(Lpcm):
    @staticmethod
    def sent_to_each(command, monitors):
        """A write with right payloads, and one with damaged ones."""
        right = wire.payload(b"\xff" * wire.data_bytes(command))
        return [wire.write(command, *[each] * monitors) for each in (right, wire.damaged(right))]

    def test_no_write_is_taken(self):
        """Right or damaged, locked or not: no byte changes but the unlock byte, which becomes 0."""
        for command, cmf1, counter, unlocked in itertools.product(wire.WRITES, (0x80, 0x83, 0xFF), (0, 5, 63), (0, 1)):
            with self.subTest(command=f"{command:04X}", cmf1=cmf1, counter=counter, unlocked=unlocked):
                for frame in self.sent_to_each(command, 2):
                    table = self.chain(*[(0xFF, cmf1)] * 2, counter=counter, unlocked=unlocked)
                    self.changes(table, frame, 0, self.each(UNLOCKED, b"\x00", b"\x00"))

    def test_a_monitor_beside_it_does_as_ever(self):
        """Each place of a chain of four alone out of LPCM: its record becomes what it becomes alone."""
        for command, place in itertools.product(wire.WRITES, range(4)):
            with self.subTest(command=f"{command:04X}", place=place):
                for frame, alone_frame in zip(self.sent_to_each(command, 4), self.sent_to_each(command, 1)):
                    flags = [(0xFF, 0x7F if at == place else 0xFF) for at in range(4)]
                    table = self.chain(*flags, unlocked=1)
                    alone = table[RECORD * place:RECORD * (place + 1)]
                    answer, _ = self.sent(alone, alone_frame)
                    kept = self.each(UNLOCKED, *[b"\x00"] * 4)
                    self.changes(table, frame, answer.first, {**kept, RECORD * place: alone})

    def test_number_taken(self):
        """Of five monitors two are in LPCM, and the payloads of one of these and one other are damaged."""
        flags = [(0xFF, each) for each in (0x00, 0x83, 0x7F, 0x80, 0x03)]
        for command in wire.WRITES:
            right = wire.payload(b"\xff" * wire.data_bytes(command))
            for damaged, taken in ((), 3), ((1,), 3), ((0,), 2), ((0, 1), 2), ((0, 2, 4), 0), ((1, 3), 3):
                payloads = [wire.damaged(right) if at in damaged else right for at in range(5)]
                expected = 3 if command == wire.WRRR else taken
                self.assert_answer(self.sent(self.chain(*flags), wire.write(command, *payloads))[0], expected, 0)

    def test_retention(self):
        """ULRR unlocks and is counted; the WRRR after it stores nothing and locks. After CMDIS both do as ever."""
        frame = wire.write(wire.WRRR, wire.payload(b"number"))
        for sent in frame, frame[:-1] + b"\x00":
            table = self.chain((0x00, 0x83))
            self.changes(table, wire.command_bytes(wire.ULRR), 1, {COUNTER: b"\x06\x01"})
            self.changes(table, sent, 0, {UNLOCKED: b"\x00"})
            self.changes(table, CMDIS, 1, {COUNTER: b"\x07", CMF1: b"\x03"})
            self.changes(table, wire.command_bytes(wire.ULRR), 1, {COUNTER: b"\x08\x01"})
            self.changes(table, sent, 1, {COUNTER: b"\x09\x00", RETENTION: b"number"})

    def test_every_read_goes_on(self):
        for command in wire.READS:
            with self.subTest(command=f"{command:04X}"):
                table, asleep = (self.chain((0xA5, cmf1), (0x5A, cmf1), unlocked=1) for cmf1 in (0x00, 0x80))
                answer, reply = self.sent(asleep, wire.read(command, 2))
                self.assert_answer(answer, 2, 16)
                if command == wire.RDCMFLAG:
                    expected = [bytes([cmf0, 0x80]) + table[at + CMF1 + 1:at + CMF1 + 5] for cmf0, at in ((0xA5, 0), (0x5A, RECORD))]
                    self.assertEqual(reply, b"".join(wire.payload(six, 5) for six in expected))
                else:
                    self.assertEqual(reply, self.sent(table, wire.read(command, 2))[1])
                self.assertEqual(asleep, self.chain((0xA5, 0x80), (0x5A, 0x80)))

    def test_bare_commands_go_on(self):
        """Each does what it does out of LPCM."""
        for command in (each for each in wire.BARE if each not in (wire.CMEN, wire.CMDIS)):
            with self.subTest(command=f"{command:04X}"):
                table, asleep = (self.chain((0xFF, cmf1), unlocked=1) for cmf1 in (0x03, 0x83))
                for lent in table, asleep:
                    self.assert_answer(self.sent(lent, wire.command_bytes(command))[0], 1, 0)
                self.assertEqual(asleep, edited(table, {CMF1: b"\x83"}))

    def test_stores_compares_and_loads_go_on(self):
        table = edited(self.chain((0x00, 0x83)), {6: bytes.fromhex("FF0F00"), STATUS_D: bytes(6)})  # VUV -1, VOV 0
        codes, flags = [-17, 1] * 8, bytes.fromhex("999999990000")
        for function in osk_load, stored_and_compared:
            lent = bytearray(table)
            self.assert_answer(function(lent, 1, codes), 0, 0)
            self.assertEqual(lent, edited(table, {CELLS: cells(codes), STATUS_D: flags}))

    def test_to_sleep_and_awake(self):
        """The sheet's example, for two monitors of which the far one is the manager. CUV 2.5 V, COV 4.2 V, CDV 0.2 V; CMC_NDEV 44 hex."""
        table = edited(bytes(2 * RECORD), {CMF0: b"\xff"})
        cell, gpio = bytes.fromhex("A15146A70000"), bytes.fromhex("00F87FFF0F00")
        near, far = bytes.fromhex("00440000C0FF"), bytes.fromhex("80440000E0FF")
        for command, place, values in ((wire.WRCMCELLT, CELL_THRESHOLDS, (cell, cell)), (wire.WRCMGPIOT, GPIO_THRESHOLDS, (gpio, gpio)),
                                       (wire.WRCMCFG, LPCM_CONFIGURATION, (near, far))):
            self.takes(table, wire.write(command, *map(wire.payload, values)), self.each(place, *values))
            self.shows(table, command + 1, *values)
        self.takes(table, wire.write(wire.CLRCMFLAG, CLEAR_ALL, CLEAR_ALL), {CMF0: b"\x00"})
        for position in 1, 2:
            self.assert_answer(osk_store(table, position, [14000] * 16), 0, 0)
        self.takes(table, CMEN, {**self.each(CMF1, b"\x83", b"\x83"), **self.each(LAST, *[cells([14000] * 16)] * 2)})
        self.shows(table, wire.RDCMFLAG, *[bytes.fromhex("008300000000")] * 2)
        self.changes(table, wire.write(wire.WRCMCFG, *[wire.payload(bytes(6))] * 2), 0, {})
        self.takes(table, CMDIS, self.each(CMF1, b"\x03", b"\x03"))
        self.takes(table, wire.write(wire.WRCMCFG, *[wire.payload(bytes(6))] * 2), self.each(LPCM_CONFIGURATION, bytes(6), bytes(6)))


class Windows(Lpcm):
    """The windows of a clock: four bytes in a CLRCMFLAG, and eight in any other write."""

    def window(self, state, position):
        out = bytearray([CANARY]) * 9
        answer = osk_clock_window(state, position, out)
        self.assert_answer(answer, 0, answer.second)
        self.assertEqual(out[answer.second:], bytearray([CANARY]) * (9 - answer.second))
        for room in range(9):
            tight = bytearray([CANARY]) * room
            if room < answer.second:
                self.assert_refused(osk_clock_window(state, position, tight), OSK_NO_ROOM)
                self.assertEqual(tight, bytearray([CANARY]) * room)
            else:
                self.assertEqual(osk_clock_window(state, position, tight), answer)
                self.assertEqual(tight[:answer.second], out[:answer.second])
        return bytes(out[:answer.second])

    def test_after_each_byte(self):
        """In the middle of a frame, at its end and past it; the table changes only at the release."""
        for command in wire.CLRCMFLAG, wire.WRCMCFG, wire.WRCMCELLT, wire.WRCMGPIOT:
            own, table, state = wire.own_bytes(command), self.chain((0xFF, 0x00), (0xFF, 0x80), (0xFF, 0x7F)), started()
            before = bytes(table)
            clocked(state, table, wire.command_bytes(command))
            for count in range(1, 3 * own + 4):
                self.assert_answer(osk_clock_byte(state, table, count), 0xFF, 0)
                came = bytes(range(1, count + 1))
                for position in 1, 2, 3:
                    passed_on = came[:max(count - own * (position - 1), 0)]
                    self.assertEqual(self.window(state, position), passed_on[-own:])
                self.assert_refused(osk_clock_window(state, 4, bytearray(8)), OSK_POSITION_WRONG)
            self.assert_refused(osk_clock_release(state, table), OSK_LENGTH_WRONG)
            self.assertEqual(table, before)

    def test_frame_after_a_clrcmflag(self):
        """Released or given up, its windows are the next command's own."""
        short, long = wire.write(wire.CLRCMFLAG, CLEAR_ALL), wire.write(wire.WRCMCFG, wire.payload(b"config"))
        for (first, second), given_up in itertools.product(((short, long), (long, short)), range(13)):
            table, state = self.chain((0xFF, 0x00)), started()
            clocked(state, table, first[:given_up])
            osk_clock_start(state)
            for frame in second, first, second:
                clocked(state, table, frame)
                self.assert_answer(osk_clock_release(state, table), 1, 0)
            self.assertEqual(table, edited(self.chain((0x00, 0x00), counter=8), {LPCM_CONFIGURATION: b"config"}))

    def test_lpcm_at_the_release(self):
        """A write goes by CMC_EN of the table that it is released with, whatever was lent before."""
        on, off, frame = self.chain((0xFF, 0x80)), self.chain((0xFF, 0x00)), wire.write(wire.CLRCMFLAG, CLEAR_ALL)
        for before, released, taken in (on, off, 1), (off, on, 0):
            state, lent = started(), bytearray(released)
            clocked(state, before, frame)
            self.assert_answer(osk_clock_release(state, lent), taken, 0)
            self.assertEqual(lent, edited(released, {CMF0: b"\x00", COUNTER: b"\x06"} if taken else {}))


if __name__ == "__main__":
    unittest.main()
