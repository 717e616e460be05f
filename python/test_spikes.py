"""What a spike on the wire can do (L7): bits of a frame that our host wrote are turned over, all of them within so many in a row. A monitor
in LPCM takes no write, hit or not (L8).

Bits are counted along the wire: bit 0 is the most significant one of byte 0. A spike is the bit that it begins at and a pattern, an odd
number whose ones are turned over: so the first and the last bit of the spike always are.
"""

import itertools
import random
import unittest

import paper_wire as wire
from oskorbine import OSK_ACCEPTED, OSK_CODE_NOT_LISTED, OSK_COMMAND_WRONG, OSK_LENGTH_WRONG, osk_frame, osk_host_frame
from test_oskorbine import CMC_EN, CMF0, CMF1, COUNTER, PWM_B, RECORD, UNLOCKED, BothEngines, edited

COMMAND = 32  # the bits of the first four bytes
RETENTION = 56  # the byte of a record that it starts at


def patterns(length):
    """Every pattern of so many bits."""
    return range(1 << length - 1 | 1, 1 << length, 2)


def spikes(start, end, longest):
    """Each first bit and each length that spikes of up to so many bits can have from one bit up to another."""
    return [(first, length) for length in range(1, longest + 1) for first in range(start, end - length + 1)]


def hit(frame, first, pattern):
    """The frame as it comes."""
    after = 8 * len(frame) - first - pattern.bit_length()
    return (int.from_bytes(frame, "big") ^ pattern << after).to_bytes(len(frame), "big")


def own_bits(command):
    """The bits of one monitor's payload."""
    return 8 * wire.own_bytes(command)


def payloads(frame):
    """The payload of each monitor of a write, nearest first: on the wire it comes last."""
    own = wire.own_bytes(int.from_bytes(frame[:2], "big"))
    return [frame[at:at + own] for at in range(len(frame) - own, 3, -own)]


def records(table):
    """The record of each monitor, nearest first."""
    return [bytes(table[at:at + RECORD]) for at in range(0, len(table), RECORD)]


def in_lpcm(record):
    """Whether CMC_EN is set."""
    return bool(record[CMF1] & CMC_EN)


class Spikes(BothEngines):
    def setUp(self):
        self.random = random.Random(7)

    def any_bytes(self, count):
        return self.random.getrandbits(8 * count).to_bytes(count, "big")

    def any_table(self, monitors, unlocked=(1,), lpcm=(0,)):
        """A sound one, with one of these unlock bytes and of these CMC_ENs in each monitor."""
        last = [bytes([self.random.randrange(64), self.random.choice(unlocked)]) for _ in range(monitors)]
        cmf1 = [bytes([self.random.randrange(CMC_EN) | self.random.choice(lpcm)]) for _ in range(monitors)]
        return edited(self.any_bytes(RECORD * monitors), {**self.each(COUNTER, *last), **self.each(CMF1, *cmf1)})

    def built(self, command, monitors):
        """A frame of our host, in a write with any values."""
        out, values = bytearray(4 + 8 * monitors), self.any_bytes(wire.data_bytes(command) * monitors) if command in wire.WRITES else b""
        answer = osk_host_frame(command, monitors, values, out)
        self.assertEqual(answer.number, OSK_ACCEPTED)
        return bytes(out[:answer.second])

    def either_way(self, table, frame):
        """What becomes of each record: where the monitor's own payload is hit, and where it is not. Hit, it keeps all of it but the unlock
        byte, which becomes 0, and so it does in LPCM. Not hit, it does as with the frame that our host wrote, which all others take."""
        done = bytearray(table)
        self.assert_answer(osk_frame(done, frame, bytearray()), sum(not in_lpcm(record) for record in records(table)), 0)
        kept = [bytes(edited(record, {UNLOCKED: b"\x00"})) for record in records(table)]
        self.assertEqual([after for after in records(done) if in_lpcm(after)], [each for each in kept if in_lpcm(each)])
        return list(zip(kept, records(done)))

    @staticmethod
    def outcome(either_way, frame, came):
        """How many take the frame that came, which are those not hit and not in LPCM, and the table after it."""
        as_sent = [own == sent for own, sent in zip(payloads(came), payloads(frame))]
        taken = sum(own and not in_lpcm(ways[0]) for ways, own in zip(either_way, as_sent))
        return taken, b"".join(ways[own] for ways, own in zip(either_way, as_sent))

    def accepts(self, table, command, where):
        """A write with a spike of any pattern at each of these places, by both engines: it is accepted, and what becomes of it is L7's."""
        frame = self.built(command, len(table) // RECORD)
        either_way = self.either_way(table, frame)
        for first, length in where:
            came, lent = hit(frame, first, self.random.choice(patterns(length))), bytearray(table)
            taken, expected = self.outcome(either_way, frame, came)
            self.assert_answer(self.sent(lent, came)[0], taken, 0)
            self.assertEqual(lent, expected, came.hex())

    def test_every_spike_of_ten_bits_or_less(self):
        """All there are in the payloads of two monitors, of eight bytes and of four, by whole frames. Where one goes over the border both
        are hit."""
        border = sum((length - 1) * len(patterns(length)) for length in range(1, 11))
        for command, every in (wire.WRCFGB, 61439), (wire.CLRCMFLAG, 28671):
            table, frame = self.any_table(2), self.built(command, 2)
            either_way, taken_by = self.either_way(table, frame), [0, 0, 0]
            for first, length in spikes(COMMAND, 8 * len(frame), 10):
                for pattern in patterns(length):
                    came, lent = hit(frame, first, pattern), bytearray(table)
                    taken, expected = self.outcome(either_way, frame, came)
                    self.assertEqual((osk_frame(lent, came, bytearray()), lent), (taken << 8, expected), came.hex())
                    taken_by[taken] += 1
            self.assertEqual(taken_by, [border, every - border, 0])

    def test_every_place_in_both_engines(self):
        """By four patterns at each: clocking all there are would take too long."""
        for command in wire.WRCFGB, wire.CLRCMFLAG:
            self.accepts(self.any_table(2), command, spikes(COMMAND, COMMAND + 2 * own_bits(command), 10) * 4)

    def test_every_write_and_other_chains(self):
        """With no monitor in LPCM, some, and all."""
        for command, monitors in itertools.product(wire.WRITES, (1, 3, 32)):
            if command != wire.WRRR:
                with self.subTest(command=f"{command:04X}", monitors=monitors):
                    where = spikes(COMMAND, COMMAND + monitors * own_bits(command), 10)
                    for lpcm, count in ((0,), 40), ((0, CMC_EN), 20), ((CMC_EN,), 5):
                        table = self.any_table(monitors, unlocked=(0, 1), lpcm=lpcm)
                        self.accepts(table, command, self.random.sample(where, count))

    def test_wrrr_in_lpcm(self):
        """All take it but those in LPCM, which store nothing."""
        for monitors, lpcm in itertools.product((1, 2, 3, 32), ((0, CMC_EN), (CMC_EN,))):
            table, frame = self.any_table(monitors, unlocked=(0, 1), lpcm=lpcm), self.built(wire.WRRR, monitors)
            for first, length in self.random.sample(spikes(COMMAND, 8 * len(frame), 10), 20):
                came, lent, expected = hit(frame, first, self.random.choice(patterns(length))), bytearray(table), b""
                for record, own in zip(records(table), payloads(came)):
                    changes = {} if in_lpcm(record) else {COUNTER: bytes([record[COUNTER] % 63 + 1])}
                    if record[UNLOCKED] and not in_lpcm(record):
                        changes[RETENTION] = own[:6]
                    expected += edited(record, {**changes, UNLOCKED: b"\x00"})
                self.assert_answer(self.sent(lent, came)[0], sum(not in_lpcm(record) for record in records(table)), 0)
                self.assertEqual(lent, expected)

    def test_wrrr_is_executed_whatever_comes(self):
        """All take it, and those that were unlocked store their own six bytes as they came."""
        for monitors in 1, 2, 3, 32:
            table, frame = self.any_table(monitors, unlocked=(0, 1)), self.built(wire.WRRR, monitors)
            for first, length in self.random.sample(spikes(COMMAND, 8 * len(frame), 10), 40):
                came = hit(frame, first, self.random.choice(patterns(length)))
                stored = {RECORD * at + RETENTION: own[:6] for at, own in enumerate(payloads(came)) if table[RECORD * at + UNLOCKED]}
                self.takes(bytearray(table), came, stored)

    def test_eleven_bits_can_get_through(self):
        """By the data polynomial, anywhere within one payload: the monitor stores and counts what came. Over the border neither payload has
        more than ten of them, and neither is taken."""
        for command in wire.WRCFGB, wire.CLRCMFLAG:
            table, frame, bits = self.any_table(2), self.built(command, 2), own_bits(command)
            locked = edited(table, self.each(UNLOCKED, b"\x00", b"\x00"))
            for first in range(COMMAND, 8 * len(frame) - 10):
                came, lent = hit(frame, first, wire.DATA_POLYNOMIAL), bytearray(table)
                if (first - COMMAND) % bits <= bits - 11:
                    stored = self.each(6, *(own[:6] for own in payloads(came)))
                    cleared = self.each(CMF0, *(bytes([flags & ~own[0]]) for flags, own in zip(table[CMF0::RECORD], payloads(came))))
                    self.takes(lent, came, stored if command == wire.WRCFGB else cleared)
                else:
                    self.assert_answer(self.sent(lent, came)[0], 0, 0)
                    self.assertEqual(lent, locked)

    def test_fifteen_bits_of_the_command_or_less(self):
        """Every frame of our host is refused then, and nothing changes. The 0 after the check is one of the bits."""
        every = spikes(0, COMMAND, 15)
        for command, (monitors, where) in itertools.product(wire.LISTED, ((1, every), (32, self.random.sample(every, 4)))):
            with self.subTest(command=f"{command:04X}", monitors=monitors):
                table, frame = self.any_table(monitors), self.built(command, monitors)
                for first, length in where:
                    self.keeps(table, hit(frame, first, self.random.choice(patterns(length))), OSK_COMMAND_WRONG)

    def test_sixteen_bits_of_the_command_can_get_through(self):
        """By the command polynomial over the code and its check: another code with a right check. With the 0 after it: refused."""
        for command in wire.LISTED:
            with self.subTest(command=f"{command:04X}"):
                table, frame = self.any_table(2), self.built(command, 2)
                self.keeps(table, hit(frame, 16, wire.COMMAND_POLYNOMIAL), OSK_COMMAND_WRONG)
                for first in range(16):
                    came, number = hit(frame, first, wire.COMMAND_POLYNOMIAL), OSK_ACCEPTED
                    code = int.from_bytes(came[:2], "big")
                    self.assertEqual(came[:4], wire.command_bytes(code))
                    if code not in wire.LISTED:
                        number = OSK_CODE_NOT_LISTED
                    elif wire.own_bytes(code) != wire.own_bytes(command):
                        number = OSK_LENGTH_WRONG
                    self.assertEqual(self.sent(bytearray(table), came)[0].number, number)

    def test_mute_that_comes_as_unmute(self):
        table, frame = edited(self.any_table(2), self.each(5, b"\xff", b"\x10")), self.built(wire.MUTE, 2)
        came = hit(frame, 15, wire.COMMAND_POLYNOMIAL)
        self.assertEqual((frame.hex(), came.hex()), ("0028e80e", "0029633c"))
        self.takes(table, came, self.each(5, b"\xef", b"\x00"))

    def test_wrpwma_that_comes_as_wrpwmb(self):
        table, frame = self.any_table(2), self.built(wire.WRPWMA, 2)
        came = hit(frame, 15, wire.COMMAND_POLYNOMIAL)
        self.assertEqual((frame[:4].hex(), came[:4].hex()), ("00200000", "00218b32"))
        self.takes(table, came, self.each(PWM_B, *(own[:2] + b"\xff" * 4 for own in payloads(frame))))


if __name__ == "__main__":
    unittest.main()
