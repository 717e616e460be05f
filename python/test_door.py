"""The library of the small controller: the host's functions and no other, held to the tests that the whole library is held to."""

import ctypes
import os
import unittest
from unittest import mock

import oskorbine as osk
import test_missed
import test_oskorbine
import test_verdict

HOST = ["osk_host_frame", "osk_check", "osk_two_ports", "osk_verdict", "osk_microvolts", "osk_volts", "osk_summary"]
PATH = os.path.join(os.path.dirname(os.path.dirname(os.path.abspath(__file__))), "target", "c", "libdoor.so")


class ByDoor:
    """The same calls, but of the small library."""

    @classmethod
    def setUpClass(cls):
        super().setUpClass()
        if not os.path.isfile(PATH):
            raise FileNotFoundError(f"there is no library at {PATH}: make it with tools/door-library")
        cls.door = ctypes.PyDLL(PATH)
        for name in HOST:
            getattr(cls.door, name).restype, getattr(cls.door, name).argtypes = osk._PROTOTYPES[name]

    def setUp(self):
        patch = mock.patch.object(osk, "_library", self.door)
        patch.start()
        self.addCleanup(patch.stop)
        super().setUp()


class Contents(ByDoor, unittest.TestCase):
    def test_the_host_and_no_chain(self):
        self.assertEqual([name for name in osk._PROTOTYPES if hasattr(self.door, name)], HOST)


class Host(ByDoor, test_oskorbine.Host):
    pass


class Seen(ByDoor, test_missed.Seen):
    pass


class Verdict(ByDoor, test_verdict.Verdict):
    pass


class Readings(ByDoor, test_oskorbine.Readings):
    pass


if __name__ == "__main__":
    unittest.main()
