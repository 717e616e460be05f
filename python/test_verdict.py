"""The host's verdict on a heartbeat (L8): by hand, and with check words of the division in paper_wire.py."""

import itertools
import unittest

import paper_wire as wire
from oskorbine import OSK_FAILED, OSK_LENGTH_WRONG, OSK_MESSAGE_DAMAGED, OSK_PASSED, OSK_TIMED_OUT, osk_verdict
from test_oskorbine import Case

PASS = bytes.fromhex("004347B2 42000394")
YES = True, 1, 2, 0x80, 0xFF


def message(count, flags, counter=0):
    """A right one, with these counter bits."""
    return wire.command_bytes(wire.CMHB) + wire.payload(bytes([count, flags]), counter)


def with_bit(some_bytes, bit):
    """The same with one bit turned over."""
    return (int.from_bytes(some_bytes, "big") ^ 1 << bit).to_bytes(len(some_bytes), "big")


class Verdict(Case):
    def judged(self, came, first, second=0):
        """In time."""
        for no in False, 0:
            self.assert_answer(osk_verdict(came, no), first, second)

    def late(self, came):
        for yes in YES:
            self.assert_answer(osk_verdict(came, yes), OSK_TIMED_OUT, 0)

    def test_by_hand(self):
        self.judged(PASS, OSK_PASSED)
        self.judged(bytes.fromhex("004347B2 4700014E"), OSK_FAILED, 0x4700)
        self.judged(bytes.fromhex("004347B2 430201E7"), OSK_FAILED, 0x4302)
        self.assertEqual((PASS[4:], wire.command_bytes(wire.CMHB)), (wire.payload(b"\x42\x00"), PASS[:4]))

    def test_counter_bits_as_they_stand(self):
        """In hex by hand, the lowest and all six: 394, the check of 42 00, with 08F (x^10) or with 168 (x^10 to x^15) added."""
        self.judged(bytes.fromhex("004347B2 4200071B"), OSK_PASSED)
        self.judged(bytes.fromhex("004347B2 4200FEFC"), OSK_PASSED)
        for counter in range(64):
            self.judged(message(0x42, 0x00, counter), OSK_PASSED)
            self.judged(message(0x43, 0x02, counter), OSK_FAILED, 0x4302)
            if counter:
                self.judged(PASS[:6] + bytes([PASS[6] | counter << 2, PASS[7]]), OSK_MESSAGE_DAMAGED)

    def test_every_count_and_every_flags(self):
        """One of them passes."""
        for count, flags in itertools.product(range(256), repeat=2):
            first, second = (OSK_PASSED, 0) if (count, flags) == (0x42, 0x00) else (OSK_FAILED, 256 * count + flags)
            self.assert_answer(osk_verdict(message(count, flags), False), first, second)

    def test_one_bit_turned_over(self):
        for right in PASS, message(0x47, 0x00), message(0x43, 0x02, 63), message(0xFF, 0xFF):
            for bit in range(64):
                self.judged(with_bit(right, bit), OSK_MESSAGE_DAMAGED)

    def test_another_command(self):
        """With a right check, and with CMHB's; and CMHB's code with another's check."""
        self.judged(bytes.fromhex("004051D6 42000394"), OSK_MESSAGE_DAMAGED)
        for code in wire.LISTED + (0x0000, 0x0042, 0x4300, 0x0843, 0xFFFF):
            other = wire.command_bytes(code)
            for head in other, other[:2] + PASS[2:4], PASS[:2] + other[2:]:
                self.judged(head + PASS[4:], OSK_MESSAGE_DAMAGED)

    def test_other_eight_bytes(self):
        for came in bytes(8), b"\xff" * 8, PASS[4:] + PASS[:4], PASS[::-1], wire.payload(PASS[:6]):
            self.judged(came, OSK_MESSAGE_DAMAGED)
            self.late(came)

    def test_lengths(self):
        """Eight, or nothing where the time ran out."""
        for length in range(17):
            came = (PASS * 2)[:length]
            if length == 8:
                self.judged(came, OSK_PASSED)
            else:
                self.assert_refused(osk_verdict(came, False), OSK_LENGTH_WRONG)
            if length in (0, 8):
                self.late(came)
            else:
                for yes in YES:
                    self.assert_refused(osk_verdict(came, yes), OSK_LENGTH_WRONG)

    def test_late(self):
        """Whatever eight bytes came."""
        for right in PASS, message(0x47, 0x00), message(0x43, 0x02, 42):
            for came in right, wire.damaged(right), with_bit(right, 63):
                self.late(came)

    def test_the_message_is_only_read(self):
        for came in PASS, wire.damaged(PASS), PASS[:7]:
            lent = bytearray(b"\xa5" + came + b"\xa5")
            for given in False, True:
                osk_verdict(memoryview(lent)[1:-1], given)
                self.assertEqual(lent, b"\xa5" + came + b"\xa5")


if __name__ == "__main__":
    unittest.main()
