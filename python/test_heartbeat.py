"""The heartbeat of LPCM (L8): one monitor's measurement and its turn, whole chains, and nights with frames between the beats. By hand from
the sheet's section and its Tables 97, 98, 100 and 115, with check words of the division in paper_wire.py."""

import itertools
import unittest

import paper_wire as wire
from oskorbine import (
    OSK_FAILED, OSK_LENGTH_WRONG, OSK_MESSAGE_DAMAGED, OSK_NO_ROOM, OSK_PASSED, OSK_PORT_A, OSK_PORT_B, OSK_POSITION_WRONG,
    OSK_TABLE_NOT_SOUND, OSK_TIMED_OUT, osk_clock_release, osk_heartbeat, osk_relay, osk_store, osk_time_out, osk_verdict, osk_wake,
)
from test_lpcm import CLEAR_ALL, CMDIS, CMEN
from test_oskorbine import (
    CANARY, CELL_THRESHOLDS, CELLS, CMC_EN, CMF0, CMF1, COPY, COUNTER, GPIO_THRESHOLDS, LAST, LPCM_CONFIGURATION, PAST_32_BITS, RECORD,
    SNAP_ST, UNLOCKED, UNSOUND, BothEngines, cells, clocked, edited, filled, started,
)
from test_verdict import PASS, message, with_bit

STATUS_C = 44
CUV, COV, CDVN, CDVP = 0x01, 0x02, 0x04, 0x08  # in CMF0, and in the flags of a message
MANAGER, TIMEOUT = 0x80, 0x08  # CMC_MAN and CMC_BTM
TO_A = 0x20  # CMC_DIR
THRESHOLDS = bytes.fromhex("A15146A70000")  # the sheet's CUV 2.5 V and CDV 0.2 V, and COV 4.2 V: 6672, 1336 and 18000 codes
VIOLATIONS = {CUV: (6671, 6671), COV: (18001, 18001), CDVN: (10000, 11337), CDVP: (11337, 10000)}  # a code, and the last one
KINDS = tuple(VIOLATIONS)


def configuration(role=0, ndev=0, direction=0, masked=0):
    """Of LPCM. Every bit that a heartbeat does not look at is set: the periods, and those of cells 17 and 18 and of GPIOs."""
    return bytes([0x77 | role, ndev]) + masked.to_bytes(2, "little") + bytes([0xDF | direction, 0xFF])


def thresholds(cuv, cov, cdv):
    """Of the cells, with the twelve bits set that stand for nothing."""
    lower, upper = cuv & 0xFFF, cov & 0xFFF
    return bytes([lower & 0xFF, lower >> 8 | (upper & 0xF) << 4, upper >> 4, cdv & 0xFF, cdv >> 8 | 0xF0, 0xFF])


def at(position, changes):
    """Changes to the record of the monitor at a position."""
    return {RECORD * (position - 1) + place: some_bytes for place, some_bytes in changes.items()}


def cell(number, code, last):
    """Changes to a record: one cell, 1 to 16, and what the last measurement left of it."""
    return {CELLS + 2 * number - 2: cells([code]), LAST + 2 * number - 2: cells([last])}


def violation(position, kind):
    """Cell 5 of the monitor at a position violates the kind and no other."""
    return at(position, cell(5, *VIOLATIONS[kind]))


def measured(table, found):
    """The table after the monitors at these positions found these flags: they join CMF0, and the live cells become the last ones."""
    after = bytearray(table)
    for position, flags in found.items():
        record = RECORD * (position - 1)
        after[record + CMF0] |= flags
        after[record + LAST:record + LAST + 32] = table[record + CELLS:record + CELLS + 32]
    return after


class Heartbeat(BothEngines):
    @staticmethod
    def chain(*configurations, **filling):
        """Monitors in LPCM that pass: each cell has fallen by 1000 codes. In status C every bit is set that is no diagnostic's."""
        table = filled(len(configurations), **filling)
        for position, each in enumerate(configurations, 1):
            codes = range(14000 + 16 * position, 14016 + 16 * position)
            table = edited(table, at(position, {
                CELLS: cells(codes), STATUS_C: bytes.fromhex("FFFFFFFF0F2C"), LPCM_CONFIGURATION: each, CELL_THRESHOLDS: THRESHOLDS,
                CMF0: b"\x00\x83", LAST: cells(code + 1000 for code in codes)}))
        return table

    def ends(self, monitors, ndev=None, **filling):
        """A manager at the far end that sends towards port A, and one at the near end that sends towards B: the table, the positions on the
        way, the manager's first, and the port that the message leaves at. CMC_NDEV is that of so many where none is given."""
        count, others = 0x42 + monitors if ndev is None else ndev, [configuration()] * (monitors - 1)
        yield self.chain(*others, configuration(MANAGER, count, TO_A), **filling), range(monitors, 0, -1), OSK_PORT_A
        yield self.chain(configuration(MANAGER, count), *others, **filling), range(1, monitors + 1), OSK_PORT_B

    def does(self, function, table, *arguments, first, sent=b"", leaves):
        """What is answered, what is handed out and what the table becomes, with just the room and with more. The table after it."""
        for room in 8, 11:
            lent, out = bytearray(table), bytearray([CANARY]) * room
            self.assert_answer(function(lent, *arguments, out), first, len(sent))
            self.assertEqual(out, sent + bytes([CANARY]) * (room - len(sent)))
            self.assertEqual(lent, leaves)
        return lent

    def ignores(self, function, table, *arguments):
        """Nothing changes, and nothing is sent."""
        return self.does(function, table, *arguments, first=0, leaves=table)

    def judged(self, came, first, second=0):
        """The host's verdict, where the time did not run out."""
        self.assert_answer(osk_verdict(came, False), first, second)


class Measurement(Heartbeat):
    """The same for whoever measures: a manager that wakes, a monitor that a message reaches, a timeout monitor."""

    def finds(self, flags, changes, masked=0):
        """The flags that then stand: where there are none it passes, and counts itself. No byte changes but CMF0 and the last measurement,
        and CMF1 of a timeout monitor."""
        came, sent = message(0x43, 0x00), message(0x43 if flags else 0x42, flags)
        for role in MANAGER, 0, TIMEOUT:
            table = edited(self.chain(configuration(role, 0x43, masked=masked), counter=63, unlocked=1), changes)
            leaves = measured(table, {1: flags})
            if role == MANAGER:
                self.does(osk_wake, table, 1, first=OSK_PORT_B, sent=sent, leaves=leaves)
            elif role == TIMEOUT:
                self.does(osk_relay, table, 1, came, first=0, leaves=edited(leaves, {CMF1: b"\x83" if flags else b"\x80"}))
            else:
                self.does(osk_relay, table, 1, came, first=1, sent=sent, leaves=leaves)

    def test_each_cell_by_each_limit(self):
        """Each limit is strict. The code, the last one, and what it is that the cell violates."""
        for number in range(1, 17):
            for code, last, flags in (
                (6672, 6672, 0), (6671, 6671, CUV), (18000, 18000, 0), (18001, 18001, COV),
                (11336, 10000, 0), (11337, 10000, CDVP), (8664, 10000, 0), (8663, 10000, CDVN),
                (6671, 8007, CUV), (6671, 8008, CUV | CDVN), (18001, 16665, COV), (18001, 16664, COV | CDVP),
            ):
                with self.subTest(cell=number, code=code, last=last):
                    self.finds(flags, cell(number, code, last))
                    self.finds(0, cell(number, code, last), masked=1 << number - 1)
                    self.finds(flags, cell(number, code, last), masked=0xFFFF - (1 << number - 1))

    def test_cells_join(self):
        """Each cell with a kind of its own, or with none."""
        for kinds in itertools.product((0, 1), repeat=4):
            changes, flags = {}, 0
            for number, violated, kind in zip((3, 7, 11, 15), kinds, KINDS):
                if violated:
                    changes.update(cell(number, *VIOLATIONS[kind]))
                    flags |= kind
            self.finds(flags, changes)

    def test_limits_are_twelve_bits(self):
        """CUV and COV in two's complement, 16 codes a step; they may cross. The high half of byte 4 and byte 5 are not looked at."""
        for cuv, cov, code, flags in (
            (-1, 0, -16, 0), (-1, 0, -17, CUV), (-1, 0, 0, 0), (-1, 0, 1, COV), (0, 100, 1600, 0), (0, 100, 1601, COV), (0, 100, -1, CUV),
            (-2048, 2047, -32768, 0), (-2048, 2047, 32752, 0), (-2048, 2047, 32753, COV), (-2048, 2047, 32767, COV),
            (-2047, 2047, -32752, 0), (-2047, 2047, -32753, CUV), (2047, 2047, 32752, 0), (2047, 2047, 32751, CUV),
            (-2048, -2048, -32768, 0), (-2048, -2048, -32767, COV), (100, -100, 0, CUV | COV), (256, 15, 241, CUV | COV),
        ):
            with self.subTest(cuv=cuv, cov=cov, code=code):
                every = {CELLS: cells([code] * 16), LAST: cells([code] * 16)}
                self.finds(flags, {**every, CELL_THRESHOLDS: thresholds(cuv, cov, 0)})

    def test_delta_is_unsigned(self):
        """CDV, 8 codes a step, to 32760; and no jump is too wide to be seen."""
        for cdv, last, code, flags in (
            (0, 5, 5, 0), (0, 5, 6, CDVP), (0, 5, 4, CDVN), (1, 5, 13, 0), (1, 5, 14, CDVP), (1, 5, -3, 0), (1, 5, -4, CDVN),
            (0x100, 0, 2048, 0), (0x100, 0, 2049, CDVP), (0x800, -8192, 8192, 0), (0x800, -8192, 8193, CDVP), (0x800, 8193, -8192, CDVN),
            (0xFFF, -16, 32744, 0), (0xFFF, -17, 32744, CDVP), (0xFFF, 32744, -16, 0), (0xFFF, 32744, -17, CDVN),
            (0xFFF, -32768, 32752, CDVP), (0xFFF, 32767, -32768, CDVN), (0, -32768, 32752, CDVP), (0, 32767, -32768, CDVN),
        ):
            with self.subTest(cdv=cdv, last=last, code=code):
                every = {CELLS: cells([code] * 16), LAST: cells([last] * 16)}
                self.finds(flags, {**every, CELL_THRESHOLDS: thresholds(-2048, 2047, cdv)})

    def test_a_cleared_cell_does_not_pass(self):
        """It is the code -32768, below each CUV but 800 hex, and a jump from any code that is far enough."""
        for last, cuv, flags in ((-32768, -2048, 0), (-32768, -2047, CUV), (-32768, 417, CUV), (14000, 417, CUV | CDVN),
                                 (-31432, 0, CUV), (-31431, 0, CUV | CDVN)):
            self.finds(flags, {**cell(16, -32768, last), CELL_THRESHOLDS: thresholds(cuv, 1125, 167)})
        self.finds(CDVP, cell(1, 14000, -32768))

    def test_pending_diagnostics(self):
        """Each makes all eight flags, whatever the cells are, and those left out too."""
        for byte, others, diagnostics in (4, 0x0F, 0xF0), (5, 0x2C, 0xD3):
            for bit in (1 << bit for bit in range(8) if diagnostics & 1 << bit):
                for pending in bit, bit | others:
                    self.finds(0xFF, {STATUS_C + byte: bytes([pending])})
                    self.finds(0xFF, {STATUS_C + byte: bytes([pending]), **cell(1, 0, 0)}, masked=0xFFFF)
        self.finds(0, {STATUS_C: bytes(6)})

    def test_flags_are_sticky(self):
        """A flag that stood before makes the monitor fail, and is sent with what it finds now."""
        for stood in [1 << bit for bit in range(8)] + [0xA5, 0xFF]:
            self.finds(stood, {CMF0: bytes([stood])})
            for kind in KINDS:
                self.finds(stood | kind, {CMF0: bytes([stood]), **cell(9, *VIOLATIONS[kind])})

    def test_live_cells(self):
        """In a snapshot too."""
        self.finds(0, {5: bytes([SNAP_ST]), COPY: bytes(32)})
        self.finds(CUV, {5: bytes([SNAP_ST]), COPY: cells([14000] * 16), **cell(2, 0, 0)})

    def test_gpios_are_not_measured(self):
        for some_bytes in "000000000000", "FFFFFFFFFFFF", "FF0780000000", "00F87FFF0F00":
            self.finds(0, {GPIO_THRESHOLDS: bytes.fromhex(some_bytes)})

    def test_from_beat_to_beat(self):
        """Up by 1336, by 1337, and not at all; the flag stays. A cell that is left out is measured all the same."""
        for masked in 0x0000, 0x0010:
            table = edited(self.chain(configuration(MANAGER, 0x43, masked=masked)), cell(5, 14000, 14000))
            for code, flags in (15336, 0), (16673, CDVP), (16673, CDVP), (15000, CDVP | CDVN):
                table = edited(table, {CELLS + 8: cells([code])})
                stand = 0 if masked else flags
                sent = message(0x43 if stand else 0x42, stand)
                table = self.does(osk_wake, table, 1, first=OSK_PORT_B, sent=sent, leaves=measured(table, {1: stand}))
                self.assertEqual(table[LAST + 8:LAST + 10], cells([code]))
            unmasked = edited(table, {LPCM_CONFIGURATION + 2: b"\x00\x00", CMF0: b"\x00"})
            self.does(osk_wake, unmasked, 1, first=OSK_PORT_B, sent=PASS, leaves=unmasked)


class Wake(Heartbeat):
    def test_by_hand(self):
        """The sheet's six monitors have CMC_NDEV 48 hex, one alone has 43."""
        for ndev, changes, flags, sent in (0x48, {}, 0, "4700014E"), (0x43, {}, 0, "42000394"), (0x43, violation(1, COV), COV, "430201E7"):
            table = edited(self.chain(configuration(MANAGER, ndev, TO_A)), changes)
            whole = bytes.fromhex("004347B2" + sent)
            for function in osk_wake, osk_heartbeat:
                self.does(function, table, 1, first=OSK_PORT_A, sent=whole, leaves=measured(table, {1: flags}))

    def test_every_number_of_devices(self):
        """One less in eight bits if it passes, else the number itself."""
        for ndev in range(256):
            table = self.chain(configuration(MANAGER, ndev))
            sent = message((ndev - 1) % 256, 0x00)
            self.does(osk_wake, table, 1, first=OSK_PORT_B, sent=sent, leaves=measured(table, {1: 0}))
            table = edited(table, violation(1, CDVN))
            self.does(osk_wake, table, 1, first=OSK_PORT_B, sent=message(ndev, CDVN), leaves=measured(table, {1: CDVN}))

    def test_by_cmc_dir_alone(self):
        """At each position, whatever the other bits are."""
        for position, (direction, port) in itertools.product((1, 2, 3), ((0, OSK_PORT_B), (TO_A, OSK_PORT_A))):
            for each in configuration(MANAGER, 0x45, direction), bytes([MANAGER, 0x45, 0, 0, direction, 0]):
                table = self.chain(each, each, each, counter=0, unlocked=1)
                leaves = measured(table, {position: 0})
                self.does(osk_wake, table, position, first=port, sent=message(0x44, 0x00), leaves=leaves)

    def test_only_a_manager_in_lpcm(self):
        """One that is a timeout monitor by its CMC_BTM too is a manager, and its CMF1 stays."""
        for position, role, cmf1 in itertools.product((1, 2, 3), (0, TIMEOUT, MANAGER, MANAGER | TIMEOUT), (0x00, 0x7F, 0x80, 0x83, 0xFF)):
            with self.subTest(position=position, role=role, cmf1=cmf1):
                table = edited(self.chain(*[configuration(role, 0x45)] * 3), self.each(CMF1, *[bytes([cmf1])] * 3))
                if role & MANAGER and cmf1 & CMC_EN:
                    leaves = measured(table, {position: 0})
                    self.does(osk_wake, table, position, first=OSK_PORT_B, sent=message(0x44, 0x00), leaves=leaves)
                else:
                    for function in osk_wake, osk_heartbeat:
                        self.ignores(function, table, position)


class Relay(Heartbeat):
    def test_by_hand(self):
        """A pass counts one down and leaves the flags; a failure leaves the count and joins its own."""
        for came, kind, sent in (((0x48, 0x00), 0, "4700014E"), ((0x43, 0x00), 0, "42000394"), ((0x44, 0x02), 0, "430201E7"),
                                 ((0x43, 0x00), COV, "430201E7"), ((0x43, 0x02), COV, "430201E7")):
            table = edited(self.chain(configuration()), violation(1, kind) if kind else {})
            whole = bytes.fromhex("004347B2" + sent)
            self.does(osk_relay, table, 1, message(*came), first=1, sent=whole, leaves=measured(table, {1: kind}))

    def test_every_count_and_every_flags(self):
        """In eight bits; after 00 comes FF. Flags are joined and not added up or overwritten."""
        passing = self.chain(configuration())
        failing = edited(passing, {**violation(1, CDVP), CMF0: b"\x21"})
        for count, flags in [(count, 0x24) for count in range(256)] + [(0x00, flags) for flags in range(256)]:
            sent = message((count - 1) % 256, flags)
            self.does(osk_relay, passing, 1, message(count, flags), first=1, sent=sent, leaves=measured(passing, {1: 0}))
            sent = message(count, flags | 0x29)
            self.does(osk_relay, failing, 1, message(count, flags), first=1, sent=sent, leaves=measured(failing, {1: CDVP}))

    def test_counter_bits(self):
        """Checked as they stand, and 0 in what is sent on."""
        table = self.chain(configuration())
        for counter in range(64):
            self.does(osk_relay, table, 1, message(0x43, 0x00, counter), first=1, sent=PASS, leaves=measured(table, {1: 0}))

    def test_at_each_position(self):
        """One monitor is reached, and its CMC_DIR and CMC_NDEV do not matter."""
        for position, direction, ndev in itertools.product(range(1, 5), (0, TO_A), (0x00, 0x46, 0xFF)):
            table = self.chain(*[configuration(0, ndev, direction)] * 4, counter=62, unlocked=1)
            leaves = measured(table, {position: 0})
            self.does(osk_relay, table, position, message(0x43, 0x00), first=1, sent=PASS, leaves=leaves)

    def test_damaged(self):
        """Any one bit of it: nothing changes, and nothing goes on. A timeout monitor does not judge it."""
        messages = message(0x43, 0x00), message(0x47, 0x02, 42), message(0x00, 0xFF, 63)
        for role, cmf1, right in itertools.product((0, TIMEOUT), (0x80, 0x83), messages):
            table = edited(self.chain(configuration(role), unlocked=1), {CMF1: bytes([cmf1])})
            for bit in range(64):
                self.ignores(osk_relay, table, 1, with_bit(right, bit))

    def test_another_command(self):
        """With a right check, and with CMHB's; and CMHB's code with another's check."""
        table = edited(self.chain(configuration(), configuration(TIMEOUT)), self.each(CMF1, b"\x80", b"\x80"))
        for position, code in itertools.product((1, 2), wire.LISTED + (0x0000, 0x0042, 0x4300, 0x0843, 0xFFFF)):
            other = wire.command_bytes(code)
            for head in other, other[:2] + PASS[2:4], PASS[:2] + other[2:]:
                self.ignores(osk_relay, table, position, head + PASS[4:])
        for position, came in itertools.product((1, 2), (bytes(8), b"\xff" * 8, PASS[4:] + PASS[:4], PASS[::-1])):
            self.ignores(osk_relay, table, position, came)

    def test_not_in_lpcm_or_a_manager(self):
        """A right message is ignored, whatever else the monitor is."""
        for role, cmf1 in itertools.product((0, TIMEOUT, MANAGER, MANAGER | TIMEOUT), (0x00, 0x03, 0x7F, 0x80, 0xFF)):
            if role & MANAGER or not cmf1 & CMC_EN:
                table = edited(self.chain(*[configuration(role, 0x44)] * 2), self.each(CMF1, *[bytes([cmf1])] * 2))
                for position, came in itertools.product((1, 2), (PASS, message(0x43, 0x00), message(0x48, 0x02))):
                    self.ignores(osk_relay, table, position, came)

    def test_the_message_is_only_read(self):
        for came in PASS, wire.damaged(PASS), PASS[:7]:
            lent = bytearray(b"\xa5" + came + b"\xa5")
            osk_relay(self.chain(configuration()), 1, memoryview(lent)[1:-1], bytearray(8))
            self.assertEqual(lent, b"\xa5" + came + b"\xa5")


class Timeout(Heartbeat):
    """The bridgeless timeout monitor. CMF1 has its two flags: bit 0 for a message, bit 1 for the time."""

    def leaves_cmf1(self, table, count, flags, own, cmf1):
        """It takes its own step, judges, and sends nothing."""
        leaves = edited(measured(table, {2: own}), at(2, {CMF1: bytes([cmf1])}))
        self.does(osk_relay, table, 2, message(count, flags), first=0, leaves=leaves)

    def watched(self, cmf1, changes):
        """Three of them, of which the second is looked at."""
        table = self.chain(*[configuration(TIMEOUT)] * 3, unlocked=1)
        return edited(table, {**self.each(CMF1, *[bytes([cmf1])] * 3), **changes})

    def test_a_pass_clears_both(self):
        """42 and 00 after its own step, so 43 and 00 before it. Anything else sets the first, and leaves the second as it is."""
        for before, cleared, kept in (0x80, 0x80, 0x81), (0x81, 0x80, 0x81), (0x82, 0x80, 0x83), (0x83, 0x80, 0x83), (0xFE, 0xFC, 0xFF):
            table = self.watched(before, {})
            for count in range(256):
                self.leaves_cmf1(table, count, 0x00, 0, cleared if count == 0x43 else kept)
            for flags in range(1, 256):
                self.leaves_cmf1(table, 0x43, flags, 0, kept)

    def test_its_own_failure_is_no_pass(self):
        """Also where the count that comes is 42, or a flag stood before."""
        for before, kept in (0x80, 0x81), (0x82, 0x83), (0xFC, 0xFD):
            for count in 0x41, 0x42, 0x43, 0x44:
                for kind in KINDS:
                    self.leaves_cmf1(self.watched(before, violation(2, kind)), count, 0x00, kind, kept)
                for stood in (1 << bit for bit in range(8)):
                    self.leaves_cmf1(self.watched(before, at(2, {CMF0: bytes([stood])})), count, 0x00, 0, kept)

    def test_time_runs_out(self):
        """The second flag is set, and no other byte changes: nothing is measured. Only at a timeout monitor in LPCM."""
        for role, cmf1 in itertools.product((0, TIMEOUT, MANAGER, MANAGER | TIMEOUT), (0x00, 0x7D, 0x80, 0x81, 0x82, 0x83, 0xFD)):
            with self.subTest(role=role, cmf1=cmf1):
                table = edited(self.chain(*[configuration(role)] * 3, unlocked=1), self.each(CMF1, *[bytes([cmf1])] * 3))
                its = role == TIMEOUT and cmf1 >= CMC_EN
                for position in 1, 2, 3:
                    lent = bytearray(table)
                    self.assert_answer(osk_time_out(lent, position), int(its), 0)
                    self.assertEqual(lent, edited(table, at(position, {CMF1: bytes([cmf1 | 0x02])}) if its else {}))

    def test_after_the_next_pass(self):
        """Late, failed, passed; the flags as CMEN leaves them stand until the first pass."""
        table = self.chain(configuration(TIMEOUT))
        for came, cmf1 in (PASS, 0x83), (None, 0x83), (message(0x43, 0x00), 0x80), (None, 0x82), (PASS, 0x83), (message(0x43, 0x00), 0x80):
            if came is None:
                self.assert_answer(osk_time_out(table, 1), 1, 0)
            else:
                self.assert_answer(osk_relay(table, 1, came, bytearray(8)), 0, 0)
            self.assertEqual(table[CMF1], cmf1)


class Chain(Heartbeat):
    """Whole heartbeats, from the far end towards port A and from the near end towards port B."""

    def in_turn(self, table, position):
        """A heartbeat by a wake and relays, nearest to the manager first: the port, what leaves the chain, and the table."""
        lent, out = bytearray(table), bytearray(8)
        answer, came = osk_wake(lent, position, out), bytes(out)
        towards, step = answer.first, -1 if answer.first == OSK_PORT_A else 1
        while answer.first and 1 <= position + step <= len(table) // RECORD:
            position += step
            answer = osk_relay(lent, position, came, out)
            came = bytes(out)
        return (towards, came, lent) if answer.first else (0, b"", lent)

    def beats(self, table, position, first, sent, leaves):
        """By the one call, and by a wake and relays."""
        self.assertEqual(self.in_turn(table, position), (first, sent, leaves))
        return self.does(osk_heartbeat, table, position, first=first, sent=sent, leaves=leaves)

    def test_all_pass(self):
        for monitors in range(1, 33):
            for table, way, port in self.ends(monitors, counter=63, unlocked=1):
                self.beats(table, way[0], port, PASS, measured(table, dict.fromkeys(way, 0)))
        self.judged(PASS, OSK_PASSED)

    def test_the_sheets_six(self):
        """47 46 46 45 44 43, the third on the way failing: from there on its flag is in each message."""
        for table, way, port in self.ends(6):
            table = edited(table, violation(way[2], COV))
            leaves = measured(table, {position: COV if position == way[2] else 0 for position in way})
            out, sent = bytearray(8), []
            lent = bytearray(table)
            self.assert_answer(osk_wake(lent, way[0], out), port, 8)
            for position in way[1:]:
                sent.append(bytes(out))
                self.assert_answer(osk_relay(lent, position, sent[-1], out), 1, 8)
            self.assertEqual([each[4:6].hex() for each in sent] + [out[4:6].hex()], ["4700", "4600", "4602", "4502", "4402", "4302"])
            self.assertEqual((sent[0].hex(), out.hex(), lent), ("004347b24700014e", "004347b2430201e7", leaves))
            self.beats(table, way[0], port, bytes.fromhex("004347B2430201E7"), leaves)
            self.judged(out, OSK_FAILED, 0x4302)

    def test_every_set_of_failing_monitors(self):
        """Each of four with a kind of its own: the count is 42 hex and how many failed, the flags are the union of theirs."""
        for failing in itertools.product((0, 1), repeat=4):
            for table, way, port in self.ends(4):
                found = {position: kind * fails for position, kind, fails in zip(way, KINDS, failing)}
                for position, kind in found.items():
                    table = edited(table, violation(position, kind) if kind else {})
                sent = message(0x42 + sum(failing), sum(found.values()))
                self.beats(table, way[0], port, sent, measured(table, found))
                self.judged(sent, *(OSK_FAILED, 256 * sent[4] + sent[5]) if any(failing) else (OSK_PASSED,))

    def test_every_number_of_devices(self):
        """Three that pass take three from it, in eight bits. The host's verdict is passed where it is 45 hex."""
        for ndev in range(256):
            for table, way, port in self.ends(3, ndev):
                sent = message((ndev - 3) % 256, 0x00)
                self.beats(table, way[0], port, sent, measured(table, dict.fromkeys(way, 0)))
                self.judged(sent, *(OSK_PASSED,) if ndev == 0x45 else (OSK_FAILED, 256 * sent[4]))

    def test_two_managers_back_to_back(self):
        """The sheet's both directions: monitor 3 of six sends towards A, monitor 4 towards B. Each has the three of its own side."""
        table = self.chain(*[configuration()] * 2, configuration(MANAGER, 0x45, TO_A), configuration(MANAGER, 0x45), *[configuration()] * 2)
        table = self.beats(table, 3, OSK_PORT_A, PASS, measured(table, {3: 0, 2: 0, 1: 0}))
        table = self.beats(table, 4, OSK_PORT_B, PASS, measured(table, {4: 0, 5: 0, 6: 0}))
        table = edited(table, at(6, {CELLS: cells([6671])}))  # the cell was at 14096, so it has fallen too
        table = self.beats(table, 3, OSK_PORT_A, PASS, table)
        self.beats(table, 4, OSK_PORT_B, message(0x43, CUV | CDVN), measured(table, {6: CUV | CDVN}))

    def test_one_on_the_way_stops_it(self):
        """One that is not in LPCM, or is a manager, does not change; a timeout monitor takes its step and judges, and only the last of the
        five finds 42 hex. Those behind it are not reached, and the host has nothing but that the time ran out."""
        for table, way, _ in self.ends(5):
            for hop in range(1, 5):
                reached = dict.fromkeys(way[:hop], 0)
                managers = [{LPCM_CONFIGURATION: configuration(MANAGER, 0x47, direction)} for direction in (0, TO_A)]
                for changes in {CMF1: b"\x03"}, {CMF1: b"\x7f"}, *managers:
                    stopped = edited(table, at(way[hop], changes))
                    self.beats(stopped, way[0], 0, b"", measured(stopped, reached))
                stopped = edited(table, at(way[hop], {LPCM_CONFIGURATION: configuration(TIMEOUT), CMF1: b"\x82"}))
                leaves = measured(stopped, {**reached, way[hop]: 0})
                self.beats(stopped, way[0], 0, b"", edited(leaves, at(way[hop], {CMF1: b"\x80" if hop == 4 else b"\x83"})))
        self.assert_answer(osk_verdict(b"", True), OSK_TIMED_OUT, 0)

    def test_the_manager_not_in_lpcm(self):
        for table, way, _ in self.ends(3):
            asleep = edited(table, at(way[0], {CMF1: b"\x03"}))
            self.beats(asleep, way[0], 0, b"", asleep)

    def test_damaged_on_a_hop(self):
        """Each bit alone, and each ten in a row of the last four bytes or fifteen of the first four: the monitor behind it does not change,
        and sends nothing on. On the last hop the host sees it."""
        spikes = [1 << bit for bit in range(64)] + [0x3FF << bit for bit in range(23)] + [0x7FFF << 32 + bit for bit in range(18)]
        for (table, way, _), hop in itertools.product(self.ends(3), range(1, 4)):
            lent, out = bytearray(table), bytearray(8)
            self.assertEqual(osk_wake(lent, way[0], out).second, 8)
            for position in way[1:hop]:
                self.assert_answer(osk_relay(lent, position, bytes(out), out), 1, 8)
            self.assertEqual((out, lent), (message(0x45 - hop, 0x00), measured(table, dict.fromkeys(way[:hop], 0))))
            for spike in spikes:
                came = (int.from_bytes(out, "big") ^ spike).to_bytes(8, "big")
                if hop < 3:
                    self.ignores(osk_relay, lent, way[hop], came)
                else:
                    self.judged(came, OSK_MESSAGE_DAMAGED)

    def test_a_timeout_monitor_nearest_the_host(self):
        """Its two flags are clear afterwards exactly when all passed, it too; nothing leaves the chain."""
        for monitors, before in itertools.product((2, 3, 4), (0x80, 0x83)):
            table = self.chain(configuration(TIMEOUT), *[configuration()] * (monitors - 2), configuration(MANAGER, 0x42 + monitors, TO_A))
            table = edited(table, self.each(CMF1, *[bytes([before])] * monitors))
            for failing in itertools.product((0, 1), repeat=monitors):
                found = {position: kind * fails for position, kind, fails in zip(range(1, 5), KINDS, failing)}
                lent = edited(table, {})
                for position, kind in found.items():
                    lent = edited(lent, violation(position, kind) if kind else {})
                cmf1 = before | 0x01 if any(failing) else 0x80
                self.beats(lent, monitors, 0, b"", edited(measured(lent, found), {CMF1: bytes([cmf1])}))

    def test_the_same_by_wakes_and_relays(self):
        """Every chain of four of: not in LPCM, passing, failing, a manager each way, a timeout monitor. From each position."""
        passing, timeout, to_a, to_b = (self.chain(each) for each in (
            configuration(), configuration(TIMEOUT), configuration(MANAGER, 0x46, TO_A), configuration(MANAGER, 0x46)))
        records = passing, timeout, to_a, to_b, edited(passing, {CMF1: b"\x7f"}), edited(passing, violation(1, CUV))
        for table in map(b"".join, itertools.product(records, repeat=4)):
            for position in 1, 2, 3, 4:
                lent, out = bytearray(table), bytearray([CANARY]) * 9
                answer = osk_heartbeat(lent, position, out)
                first, sent, leaves = self.in_turn(table, position)
                self.assert_answer(answer, first, len(sent))
                self.assertEqual((lent, out), (leaves, sent + bytes([CANARY]) * (9 - len(sent))))


class Refusals(Heartbeat):
    def keeps(self, function, table, *arguments, room, number):
        """Refused with the number, and every byte lent stays."""
        lent, out = bytearray(table), bytearray([CANARY]) * room
        self.assert_refused(function(lent, *arguments, out), number)
        self.assertEqual(lent, table)
        self.assertEqual(out, bytearray([CANARY]) * room)

    def calls(self):
        """Each function that hands out a message, with what it takes before the buffer."""
        yield osk_wake, ()
        yield osk_heartbeat, ()
        for came in b"", PASS[:7], PASS, wire.damaged(PASS), PASS + b"\x00":
            yield osk_relay, (came,)

    def tables(self):
        """Three managers, three that are none, and three that are not in LPCM: a refusal does not go by what would be sent."""
        yield self.chain(*[configuration(MANAGER, 0x45)] * 3)
        yield self.chain(*[configuration(TIMEOUT)] * 3)
        yield filled(3)

    def test_table_first(self):
        for name, table in UNSOUND.items():
            with self.subTest(table=name):
                for position, room, (function, more) in itertools.product((0, 1, 33), (0, 7, 8), self.calls()):
                    self.keeps(function, table, position, *more, room=room, number=OSK_TABLE_NOT_SOUND)

    def test_then_the_position(self):
        for table, position, room in itertools.product(self.tables(), (0, 4, 33, PAST_32_BITS, (1 << 64) - 1), (0, 7, 8)):
            for function, more in self.calls():
                self.keeps(function, table, position, *more, room=room, number=OSK_POSITION_WRONG)

    def test_then_the_length_and_the_room(self):
        for table, position, room in itertools.product(self.tables(), (1, 2, 3), (0, 1, 7)):
            for function, more in self.calls():
                number = OSK_LENGTH_WRONG if more and len(more[0]) != 8 else OSK_NO_ROOM
                self.keeps(function, table, position, *more, room=room, number=number)
        for length in (each for each in range(17) if each != 8):
            self.keeps(osk_relay, self.chain(configuration()), 1, (PASS + PASS)[:length], room=8, number=OSK_LENGTH_WRONG)

    def test_of_the_time_that_runs_out(self):
        for name, table in UNSOUND.items():
            with self.subTest(table=name):
                for position in 0, 1, 33:
                    self.times_out(table, position, OSK_TABLE_NOT_SOUND)
        for table, position in itertools.product(self.tables(), (0, 4, 33, PAST_32_BITS, (1 << 64) - 1)):
            self.times_out(table, position, OSK_POSITION_WRONG)

    def times_out(self, table, position, number):
        lent = bytearray(table)
        self.assert_refused(osk_time_out(lent, position), number)
        self.assertEqual(lent, table)


class Night(Heartbeat):
    """Frames between the beats, by both engines."""

    SETTINGS = {wire.WRCMCELLT: [THRESHOLDS] * 2, wire.WRCMCFG: [bytes.fromhex("00440000C0FF"), bytes.fromhex("80440000E0FF")]}

    def asleep(self, **filling):
        """Two monitors whose far one is the manager: settings written, flags cleared, every cell at 3.6 V, enabled."""
        table = edited(filled(2, **filling), self.each(STATUS_C, bytes(6), bytes(6)))
        settings = [wire.write(command, *map(wire.payload, values)) for command, values in self.SETTINGS.items()]
        for position in 1, 2:
            self.assert_answer(osk_store(table, position, [14000] * 16), 0, 0)
        for frame in *settings, wire.write(wire.CLRCMFLAG, CLEAR_ALL, CLEAR_ALL), CMEN:
            self.assert_answer(self.sent(table, frame)[0], 2, 0)
        return table

    def beats(self, table, count, flags, found):
        """From the far end to the host. The table after it."""
        return self.does(osk_heartbeat, table, 2, first=OSK_PORT_A, sent=message(count, flags), leaves=measured(table, found))

    def refused_in_lpcm(self, table, frame):
        """No monitor takes it: no byte changes but the unlock bytes, which become 0."""
        expected = edited(table, self.each(UNLOCKED, b"\x00", b"\x00"))
        self.assert_answer(self.sent(table, frame)[0], 0, 0)
        self.assertEqual(table, expected)

    def shows_flags(self, table, *flags):
        """CMF0 and CMF1 of each monitor, as RDCMFLAG has them."""
        rest = [bytes(table[record + CMF1 + 1:record + CMF1 + 5]) for record in (0, RECORD)]
        self.shows(table, wire.RDCMFLAG, *(bytes(each) + more for each, more in zip(flags, rest)))

    def test_a_night(self):
        """A pass; a low cell; its flag outlasts it, and CLRCMFLAG, until CMDIS; a pass again. CUV 01, CDVN 04, CDVP 08."""
        table = self.asleep()
        table = self.beats(table, 0x42, 0x00, {1: 0, 2: 0})
        self.shows_flags(table, (0x00, 0x83), (0x00, 0x83))
        self.assert_answer(osk_store(table, 1, [14000] * 2 + [6671] + [14000] * 13), 0, 0)
        table = self.beats(table, 0x43, 0x05, {1: 0x05, 2: 0})
        self.shows_flags(table, (0x05, 0x83), (0x00, 0x83))
        self.refused_in_lpcm(table, wire.write(wire.CLRCMFLAG, CLEAR_ALL, CLEAR_ALL))
        self.assert_answer(osk_store(table, 1, [14000] * 16), 0, 0)
        table = self.beats(table, 0x43, 0x0D, {1: 0x08, 2: 0})
        table = self.beats(table, 0x43, 0x0D, {1: 0, 2: 0})
        self.takes(table, CMDIS, self.each(CMF1, b"\x03", b"\x03"))
        self.shows_flags(table, (0x0D, 0x03), (0x00, 0x03))
        for function in osk_wake, osk_heartbeat:
            self.ignores(function, table, 2)
        self.takes(table, wire.write(wire.CLRCMFLAG, CLEAR_ALL, CLEAR_ALL), {CMF0: b"\x00"})
        self.takes(table, CMEN, self.each(CMF1, b"\x83", b"\x83"))
        self.beats(table, 0x42, 0x00, {1: 0, 2: 0})

    def test_flags_of_one_monitor_are_cleared(self):
        """Both failed; one of them is cleared between CMDIS and CMEN, and the other fails on."""
        for position in 1, 2:
            table = edited(self.asleep(), {**violation(1, COV), **violation(2, CUV)})
            table = self.beats(table, 0x44, 0x03, {1: COV, 2: CUV})
            for each in 1, 2:
                self.assert_answer(osk_store(table, each, [14000] * 16), 0, 0)
            self.sent(table, CMDIS)
            payloads = [CLEAR_ALL if each == position else wire.payload(b"\x00\xff") for each in (1, 2)]
            self.takes(table, wire.write(wire.CLRCMFLAG, *payloads), at(position, {CMF0: b"\x00"}))
            self.sent(table, CMEN)
            self.beats(table, 0x43, CUV if position == 1 else COV, {1: 0, 2: 0})

    def test_no_write_between_beats(self):
        """Each write, with every bit set: the beat after it is as the one before."""
        for command in wire.WRITES:
            with self.subTest(command=f"{command:04X}"):
                table = self.beats(self.asleep(), 0x42, 0x00, {1: 0, 2: 0})
                self.sent(table, wire.command_bytes(wire.ULRR))
                self.refused_in_lpcm(table, wire.write(command, *[wire.payload(b"\xff" * wire.data_bytes(command))] * 2))
                self.beats(table, 0x42, 0x00, {1: 0, 2: 0})

    def test_reads_and_bare_commands_go_on(self):
        """A second CMEN hides no jump. CLRCELL makes every cell low, and a jump."""
        table = self.asleep(counter=62)
        self.assert_answer(osk_store(table, 2, [14000] * 15 + [15337]), 0, 0)
        self.takes(table, CMEN, {})
        table = self.beats(table, 0x43, CDVP, {1: 0, 2: CDVP})
        self.takes(table, wire.command_bytes(wire.CLRCELL), self.each(CELLS, *[b"\x00\x80" * 16] * 2))
        self.beats(table, 0x44, CUV | CDVN | CDVP, {1: CUV | CDVN, 2: CUV | CDVN})

    def test_counters_and_locks_stay(self):
        """Four frames have been counted, 62, 63, 1 and 2, and ULRR is the fifth. What it unlocked is unlocked after the beat."""
        table = self.asleep(counter=61)
        self.takes(table, wire.command_bytes(wire.ULRR), self.each(UNLOCKED, b"\x01", b"\x01"))
        table = self.beats(table, 0x42, 0x00, {1: 0, 2: 0})
        self.assertEqual((table[COUNTER::RECORD], table[UNLOCKED::RECORD]), (b"\x03\x03", b"\x01\x01"))

    def test_a_beat_within_a_clocked_frame(self):
        """A read shows the flags of byte four. CMDIS ends it at its release."""
        table, state = edited(self.asleep(), violation(1, COV)), started()
        near, far = (bytes([0x00, 0x83]) + table[record + CMF1 + 1:record + CMF1 + 5] for record in (0, RECORD))
        frame = wire.read(wire.RDCMFLAG, 2)
        answered = clocked(state, table, frame[:4])
        table = self.beats(table, 0x43, COV, {1: COV, 2: 0})
        self.assertEqual(answered + clocked(state, table, frame[4:]), b"\xff" * 4 + wire.payload(near, 9) + wire.payload(far, 9))
        self.assert_answer(osk_clock_release(state, table), 2, 16)
        self.shows_flags(table, (COV, 0x83), (0x00, 0x83))
        clocked(state, table, CMDIS)
        table = self.beats(table, 0x43, COV, {1: 0, 2: 0})
        self.assert_answer(osk_clock_release(state, table), 2, 0)
        self.ignores(osk_heartbeat, table, 2)


if __name__ == "__main__":
    unittest.main()
