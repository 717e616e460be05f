"""The example prints what example.txt has, and ends non-zero where something is wrong."""

import contextlib
import io
import os
import subprocess
import sys
import tempfile
import unittest
from unittest import mock

import example
import oskorbine as osk

HERE = os.path.dirname(os.path.abspath(__file__))


class Example(unittest.TestCase):
    def fails(self, words, name, replacement):
        """With a function of the library replaced, the example ends non-zero and says why."""
        with mock.patch.object(osk, name, replacement), contextlib.redirect_stdout(io.StringIO()):
            with self.assertRaises(SystemExit) as ended:
                example.main()
        self.assertRegex(ended.exception.code, words)  # a text as the code is printed, and the exit status is 1

    def test_printed(self):
        with open(os.path.join(HERE, "example.txt"), encoding="ascii") as stored:
            expected = stored.read()
        with tempfile.TemporaryDirectory() as elsewhere:
            done = subprocess.run([sys.executable, "-B", "-W", "error", os.path.join(HERE, "example.py")], cwd=elsewhere,
                                  stdout=subprocess.PIPE, stderr=subprocess.PIPE, universal_newlines=True, timeout=60)
        self.assertEqual((done.returncode, done.stderr), (0, ""))
        self.assertEqual(done.stdout, expected)

    def test_refusal(self):
        for name in ("frame", "load", "store", "host_frame", "check", "two_ports", "clock_byte", "clock_release", "summary",
                     "discharge"):
            with self.subTest(function=name):
                self.fails("^example: .* was refused with number 6$", f"osk_{name}", lambda *_: osk.Answer(osk.OSK_NO_ROOM))

    def test_damaged_reply(self):
        self.fails("^example: RDSTATD: the reply of monitor 1 is damaged$", "osk_check", lambda *_: osk.Answer(osk.OSK_DAMAGED << 8))

    def test_other_counter(self):
        self.fails("^example: RDSTATD: monitor 1 has counter 9, and 1 was expected$", "osk_check",
                   lambda *_: osk.Answer(osk.OSK_COUNTER_DIFFERS << 8 | 9 << 16))

    def test_other_table(self):
        self.fails("^example: the clocked write left another table$", "osk_clock_release", lambda *_: osk.Answer(2 << 8))


if __name__ == "__main__":
    unittest.main()
