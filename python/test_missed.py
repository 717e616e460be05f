"""Missed commands (L5): what the host makes of the replies of a chain in which some monitors did not take what it sent.

What the monitors keep of a frame and what they reply is worked out here from the paper, with the check words of paper_wire.py. The host
sends on a chain that starts with one counter, and expects every monitor to count what it sent.
"""

import itertools
import random
import unittest

import paper_wire as wire
from oskorbine import (
    OSK_ACCEPTED, OSK_BOTH_DAMAGED, OSK_COMMAND_WRONG, OSK_COUNTER_DIFFERS, OSK_PORT_A, OSK_PORT_A_DIFFERS, OSK_PORT_B,
    OSK_PORT_B_DIFFERS, OSK_RIGHT, osk_check, osk_host_frame, osk_two_ports,
)
from test_oskorbine import (
    CELL_READS, CELL_THRESHOLDS, CELLS, CMC_EN, CMF0, CMF1, COPY, COUNTER, GPIO_THRESHOLDS, LAST, LPCM_CONFIGURATION, OTHER_READS, PWM_A,
    PWM_B, RECORD, SNAP_ST, STATUS_D, UNLOCKED, BothEngines, Case, edited, group,
)
from test_spikes import COMMAND, RETENTION, hit, in_lpcm, own_bits, patterns, payloads, records, spikes

STATUS_C = 44
MUTE_ST = 0x10  # in byte 5
COUNTERS = 0, 5, 63  # before what is missed: the next ones are 1, 6 and 1
CHECKED_WRITES = [command for command in wire.WRITES if command != wire.WRRR]
OF_THREE = [set(some) for count in range(4) for some in itertools.combinations((1, 2, 3), count)]  # every set of three monitors

# Of each write, where it stores and which bits of what was sent; the others become 0.
STORED = {
    wire.WRCFGA: (0, "87FFF8FF030F"), wire.WRCFGB: (6, "FFFFFFFFFFFF"), wire.WRRR: (RETENTION, "FFFFFFFFFFFF"),
    wire.WRPWMA: (PWM_A, "FFFFFFFFFFFF"), wire.WRPWMB: (PWM_B, "FFFF00000000"), wire.WRCMCFG: (LPCM_CONFIGURATION, "FFFFFFFFFFFF"),
    wire.WRCMCELLT: (CELL_THRESHOLDS, "FFFFFFFF0F00"), wire.WRCMGPIOT: (GPIO_THRESHOLDS, "FFFFFFFF0F00"),
}
# Where a write clears what was sent as 1, and in which bits.
CLEARED = {wire.CLRFLAG: (STATUS_C, "FFFF0000FFDF"), wire.CLOVUV: (STATUS_D, "FFFFFFFF0000"), wire.CLRCMFLAG: (CMF0, "FF00")}


def counted(counter):
    """The next one: after 63 comes 1."""
    return counter % 63 + 1


def is_right(payload):
    """Whether its check is that of its data and its counter bits."""
    return payload == wire.payload(payload[:-2], payload[-2] >> 2)


def written(record, command, data):
    """What a write that is taken changes beside the counter and the lock."""
    if command == wire.WRRR and not record[UNLOCKED]:
        return {}
    place, bits = STORED.get(command) or CLEARED[command]
    masked = [sent & mask for sent, mask in zip(data, bytes.fromhex(bits))]
    if command in CLEARED:
        return {place: bytes(old & ~cleared for old, cleared in zip(record[place:], masked))}
    if command == wire.WRCFGA:
        masked[5] |= record[5] & (SNAP_ST | MUTE_ST)
    if command == wire.WRPWMB:
        masked[2:] = b"\xff" * 4
    return {place: bytes(masked)}


def done(record, command):
    """What a bare command changes beside the counter and the lock."""
    live, flags, cmf1 = record[CELLS:CELLS + 32], record[5], record[CMF1]
    if command == wire.SNAP and not flags & SNAP_ST:
        return {5: bytes([flags | SNAP_ST]), COPY: live}
    if command == wire.CMEN and not cmf1 & CMC_EN:
        return {CMF1: b"\x83", LAST: live}
    return {
        wire.MUTE: {5: bytes([flags | MUTE_ST])}, wire.UNMUTE: {5: bytes([flags & ~MUTE_ST])},
        wire.UNSNAP: {5: bytes([flags & ~SNAP_ST])}, wire.CLRCELL: {CELLS: b"\x00\x80" * 16}, wire.CMDIS: {CMF1: bytes([cmf1 & ~CMC_EN])},
    }.get(command, {})


def after(record, command, own):
    """Whether a monitor takes a command with its own bytes, and its record then."""
    unlocked = bytes([command == wire.ULRR])
    if command in wire.READS:
        return True, bytes(edited(record, {UNLOCKED: unlocked}))
    if command in wire.WRITES and (in_lpcm(record) or command != wire.WRRR and not is_right(own)):
        return False, bytes(edited(record, {UNLOCKED: unlocked}))
    changes = written(record, command, own[:-2]) if command in wire.WRITES else done(record, command)
    counter = 0 if command == wire.RSTCC else counted(record[COUNTER])
    return True, bytes(edited(record, {**changes, COUNTER: bytes([counter]), UNLOCKED: unlocked}))


def worked_out(table, frame):
    """How many monitors take a frame of the right length, and the table after it. None takes one whose command was struck."""
    command = int.from_bytes(frame[:2], "big")
    if frame[:4] != wire.command_bytes(command):
        return None, bytes(table)
    owns = payloads(frame) if command in wire.WRITES else [b""] * (len(table) // RECORD)
    acts = [after(record, command, own) for record, own in zip(records(table), owns)]
    return sum(taken for taken, _ in acts), b"".join(record for _, record in acts)


def shown(record, command):
    """The eight bytes of a monitor's reply."""
    copied = COPY if record[5] & SNAP_ST else CELLS
    six = group(record[copied:copied + 32], command) if command in CELL_READS else record[OTHER_READS[command]:][:6]
    return wire.payload(six, record[COUNTER])


def damaged(reply):
    """Every monitor's eight bytes with the check wrong and the counter as it was."""
    return b"".join(wire.damaged(reply[at:at + 8]) for at in range(0, len(reply), 8))


class Seen(Case):
    """The host alone, on the replies that were worked out."""

    def setUp(self):
        super().setUp()
        self.random = random.Random(5)

    def any_bytes(self, count):
        return self.random.getrandbits(8 * count).to_bytes(count, "big")

    def chain(self, monitors, counter, lpcm=()):
        """A table of any registers and unlock bytes, one counter in all, and these positions in LPCM."""
        table = bytearray(self.any_bytes(RECORD * monitors))
        for position, start in enumerate(range(0, len(table), RECORD), 1):
            table[start + COUNTER:start + COUNTER + 2] = counter, self.random.randrange(2)
            table[start + CMF1] = table[start + CMF1] & 0xFF - CMC_EN | (CMC_EN if position in lpcm else 0)
        return bytes(table)

    def built(self, command, monitors):
        """A frame of our host, in a write with any values: it is the paper's."""
        size = wire.data_bytes(command)
        values = [self.any_bytes(size) for _ in range(monitors)] if command in wire.WRITES else []
        out = bytearray(4 + 8 * monitors)
        answer = osk_host_frame(command, monitors, b"".join(values), out)
        self.assertEqual(answer.number, OSK_ACCEPTED)
        frame = bytes(out[:answer.second])
        if command in wire.READS:
            self.assertEqual(frame, wire.read(command, monitors))
        else:
            self.assertEqual(frame, wire.write(command, *map(wire.payload, values)))
        return frame

    def struck(self, frame, positions):
        """A write with a spike of up to ten bits within the bytes of each of these monitors."""
        bits = own_bits(int.from_bytes(frame[:2], "big"))
        for position in positions:
            start, length = 8 * len(frame) - bits * position, self.random.randint(1, 10)
            frame = hit(frame, start + self.random.randint(0, bits - length), self.random.choice(patterns(length)))
        return frame

    def struck_command(self, frame):
        """A frame with a spike of up to fifteen bits within its first four bytes."""
        first, length = self.random.choice(spikes(0, COMMAND, 15))
        return hit(frame, first, self.random.choice(patterns(length)))

    def left(self, table, frame):
        """The table after a frame."""
        return worked_out(table, frame)[1]

    def replies(self, table, command):
        """To a read: at port A, with monitor 1 first, and at port B, with monitor N first."""
        each = [shown(record, command) for record in records(table)]
        return b"".join(each), b"".join(reversed(each))

    def read(self, table, command, expected, differing):
        """Against the counter that is expected exactly these positions' replies differ, each with its own counter, and all others are
        right: by the check of each, from both ports, and from each port where the other one's bytes are damaged."""
        a, b = self.replies(table, command)
        monitors = len(table) // RECORD
        for position in range(1, monitors + 1):
            in_a, in_b = 8 * (position - 1), 8 * (monitors - position)
            if position in differing:
                verdict, by_a, by_b = (OSK_COUNTER_DIFFERS, differing[position]), OSK_PORT_A_DIFFERS, OSK_PORT_B_DIFFERS
            else:
                verdict, by_a, by_b = (OSK_RIGHT, 0), OSK_PORT_A, OSK_PORT_B
            self.assert_answer(osk_check(a[in_a:in_a + 8], expected), *verdict)
            self.assert_answer(osk_check(b[in_b:in_b + 8], expected), *verdict)
            self.assert_answer(osk_two_ports(a, b, monitors, position, expected), by_a, in_a)
            self.assert_answer(osk_two_ports(a, damaged(b), monitors, position, expected), by_a, in_a)
            self.assert_answer(osk_two_ports(damaged(a), b, monitors, position, expected), by_b, in_b)
            self.assert_refused(osk_two_ports(damaged(a), damaged(b), monitors, position, expected), OSK_BOTH_DAMAGED)

    def missed(self, table, frame, read, missing):
        """A write or a bare command as it came, and then a read: against the next counter the monitors that missed it differ, with the old
        one, and no others."""
        (counter,) = set(table[COUNTER::RECORD])
        self.read(self.left(table, frame), read, counted(counter), dict.fromkeys(missing, counter))

    def test_every_set_of_monitors_hit(self):
        """None of them, one, several, all; every write and every read in turn."""
        turns = zip(itertools.cycle(CHECKED_WRITES), itertools.cycle(wire.READS))
        for monitors, counter in itertools.product((1, 2, 5), COUNTERS):
            for which in itertools.product((False, True), repeat=monitors):
                positions = [position for position, is_hit in enumerate(which, 1) if is_hit]
                command, read = next(turns)
                with self.subTest(command=f"{command:04X}", read=f"{read:04X}", counter=counter, hit=positions, monitors=monitors):
                    frame = self.struck(self.built(command, monitors), positions)
                    self.missed(self.chain(monitors, counter), frame, read, positions)

    def test_every_write_before_every_read(self):
        for command, read in itertools.product(CHECKED_WRITES, wire.READS):
            with self.subTest(command=f"{command:04X}", read=f"{read:04X}"):
                frame = self.struck(self.built(command, 2), [2])
                self.missed(self.chain(2, self.random.randrange(64)), frame, read, [2])

    def test_longest_chain(self):
        for counter, count in zip(COUNTERS, (1, 17, 32)):
            positions = self.random.sample(range(1, 33), count)
            self.missed(self.chain(32, counter), self.struck(self.built(wire.WRCFGB, 32), positions), wire.RDCFGB, positions)

    def test_every_counter(self):
        """After 63 comes 1, and no counter is the next one of itself."""
        for counter in range(64):
            self.missed(self.chain(2, counter), self.struck(self.built(wire.WRPWMA, 2), [1]), wire.RDPWMA, [1])

    def test_one_spike_over_a_border(self):
        """It hits one monitor, or two neighbours, and these have missed the write."""
        for command in wire.WRCFGB, wire.CLRCMFLAG:
            frame, several = self.built(command, 3), 0
            for first in range(COMMAND, 8 * len(frame) - 9):
                came = hit(frame, first, self.random.choice(patterns(10)))
                missing = [at for at, (own, sent) in enumerate(zip(payloads(came), payloads(frame)), 1) if own != sent]
                self.missed(self.chain(3, 63), came, wire.RDSID, missing)
                several += len(missing) == 2
            self.assertEqual(several, 2 * 9)

    def test_hit_or_in_lpcm(self):
        """Those that differ are the monitors hit and those in LPCM."""
        for (hits, lpcm), command in zip(itertools.product(OF_THREE, repeat=2), itertools.cycle(CHECKED_WRITES)):
            with self.subTest(command=f"{command:04X}", hit=hits, lpcm=lpcm):
                frame = self.struck(self.built(command, 3), hits)
                self.missed(self.chain(3, 63, lpcm), frame, wire.RDCMFLAG, hits | lpcm)

    def test_wrrr_is_not_seen(self):
        """It is counted whatever its check: of the monitors hit none differs, and those in LPCM do."""
        for hits, lpcm in itertools.product(OF_THREE, repeat=2):
            self.missed(self.chain(3, 5, lpcm), self.struck(self.built(wire.WRRR, 3), hits), wire.RDRR, lpcm)

    def test_struck_command(self):
        """All monitors missed it."""
        for command, counter in itertools.product(CHECKED_WRITES + [wire.WRRR, *wire.BARE], COUNTERS):
            if command != wire.RSTCC:
                with self.subTest(command=f"{command:04X}", counter=counter):
                    frame = self.struck_command(self.built(command, 3))
                    self.missed(self.chain(3, counter, lpcm=[2]), frame, wire.RDCFGA, [1, 2, 3])

    def test_struck_rstcc(self):
        """After it 0 is expected: it is not seen that it was missed where the counter was 0 before."""
        for counter in COUNTERS:
            table = self.left(self.chain(2, counter), self.struck_command(self.built(wire.RSTCC, 2)))
            self.read(table, wire.RDSID, 0, {1: counter, 2: counter} if counter else {})

    def test_bare_commands_in_lpcm(self):
        """They are taken there, and RSTCC brings all counters together again."""
        for command in wire.BARE:
            if command != wire.RSTCC:
                self.missed(self.chain(2, 63, lpcm=[1]), self.built(command, 2), wire.RDCFGA, [])
        table = self.left(self.chain(3, 63, lpcm=[1]), self.struck(self.built(wire.WRCFGB, 3), [2]))
        self.read(table, wire.RDCFGB, 1, {1: 63, 2: 63})
        self.read(self.left(table, self.built(wire.RSTCC, 3)), wire.RDCFGB, 0, {})

    def test_a_command_that_came_as_another(self):
        """It is counted as well: no counter tells."""
        for command, came in (wire.MUTE, wire.UNMUTE), (wire.WRPWMA, wire.WRPWMB):
            frame = hit(self.built(command, 2), 15, wire.COMMAND_POLYNOMIAL)
            self.assertEqual(frame[:4], wire.command_bytes(came))
            self.missed(self.chain(2, 5), frame, wire.RDCFGA, [])

    def test_several_missed_in_a_row(self):
        """They are seen up to 62. After 63 the counters are the same again, but for one that stayed at 0."""
        for counter in COUNTERS:
            table, expected = self.chain(2, counter), counter
            for count in range(1, 64):
                table, expected = self.left(table, self.struck(self.built(wire.WRCMCFG, 2), [2])), counted(expected)
                self.read(table, wire.RDCMCFG, expected, {2: counter} if count < 63 or counter == 0 else {})

    def test_history(self):
        """Frames of any kind, whole and struck, and a read after each: who differs is who has another counter than the host."""
        came = {True: 0, False: 0}
        for monitors in 1, 2, 5, 32:
            table, expected = self.chain(monitors, 61, lpcm=[2]), 61
            for _ in range(80):
                command = self.random.choice((*wire.LISTED, *[wire.RSTCC] * 9))
                frame, kind = self.built(command, monitors), self.random.randrange(16)
                if command in wire.WRITES and kind < 8:
                    frame = self.struck(frame, self.random.sample(range(1, monitors + 1), self.random.randint(1, monitors)))
                elif kind == 8:
                    frame = self.struck_command(frame)
                table = self.left(table, frame)
                if command not in wire.READS:
                    expected = 0 if command == wire.RSTCC else counted(expected)
                counters = enumerate(table[COUNTER::RECORD], 1)
                differing = {position: counter for position, counter in counters if counter != expected}
                self.read(table, self.random.choice(wire.READS), expected, differing)
                came[True] += len(differing)
                came[False] += monitors - len(differing)
        self.assertGreater(min(came.values()), 1000)


class Missed(BothEngines, Seen):
    """The same by the chain and by both of its engines, which must keep and reply what was worked out."""

    def left(self, table, frame):
        taken, expected = worked_out(table, frame)
        lent = bytearray(table)
        answer = self.sent(lent, frame)[0]
        if taken is None:
            self.assert_refused(answer, OSK_COMMAND_WRONG)
        else:
            self.assertEqual((answer.number, answer.first), (OSK_ACCEPTED, taken))
        self.assertEqual(lent, expected)
        return expected

    def replies(self, table, command):
        """Seen from port B monitor N is the nearest."""
        both = super().replies(table, command)
        turned = b"".join(reversed(records(table)))
        frame = self.built(command, len(table) // RECORD)
        self.assertEqual(tuple(self.sent(bytearray(end), frame)[1] for end in (table, turned)), both)
        return both


if __name__ == "__main__":
    unittest.main()
