"""Where the module looks for the library, and what it says where there is none that fits."""

import _ctypes
import os
import shutil
import subprocess
import sys
import tempfile
import unittest

import oskorbine

REMEDY = "make it with tools/c-library, or name one in the environment variable OSKORBINE_LIBRARY"
LIBRARY = oskorbine._library._name


class Opening(unittest.TestCase):
    def setUp(self):
        folder = tempfile.TemporaryDirectory()
        self.addCleanup(folder.cleanup)
        self.project = os.path.realpath(folder.name)
        self.module = os.path.join(self.project, "python")
        os.mkdir(self.module)
        shutil.copy(oskorbine.__file__, self.module)
        self.beside = os.path.join(self.project, "target", "c", "liboskorbine.so")

    def imported(self, named=None):
        """How an import in a project elsewhere ends: the exit status and the last line said."""
        environment = {name: value for name, value in os.environ.items() if name != "OSKORBINE_LIBRARY"}
        if named is not None:
            environment["OSKORBINE_LIBRARY"] = named
        program = "import sys; sys.path.insert(0, sys.argv[1]); import oskorbine; print(oskorbine.osk_microvolts(-10000))"
        done = subprocess.run([sys.executable, "-B", "-W", "error", "-c", program, self.module], env=environment, cwd=self.project,
                              stdout=subprocess.PIPE, stderr=subprocess.STDOUT, universal_newlines=True, timeout=60)
        return done.returncode, done.stdout.splitlines()[-1]

    def test_beside_the_module(self):
        self.assertEqual(self.imported(), (1, f"ImportError: there is no library at {self.beside}: {REMEDY}"))
        os.makedirs(os.path.dirname(self.beside))
        shutil.copy(LIBRARY, self.beside)
        self.assertEqual(self.imported(), (0, "0"))
        self.assertEqual(self.imported(named=""), (0, "0"))

    def test_named_in_the_environment(self):
        self.assertEqual(self.imported(named=LIBRARY), (0, "0"))
        shutil.copy(LIBRARY, os.path.join(self.project, "other.so"))
        self.assertEqual(self.imported(named="other.so"), (0, "0"))
        missing = os.path.join(self.project, "missing.so")
        self.assertEqual(self.imported(named=missing), (1, f"ImportError: there is no library at {missing}: {REMEDY}"))
        self.assertEqual(self.imported(named=self.module), (1, f"ImportError: there is no library at {self.module}: {REMEDY}"))

    def test_no_library(self):
        text = os.path.join(self.project, "text.so")
        with open(text, "w", encoding="ascii") as file:
            file.write("no library\n")
        status, said = self.imported(named=text)
        self.assertEqual(status, 1)
        self.assertTrue(said.startswith(f"ImportError: {text} is no library for this machine (") and said.endswith(REMEDY), said)

    @unittest.skipUnless(getattr(_ctypes, "__file__", None), "this Python has no extension module to stand for another library")
    def test_another_library(self):
        self.assertEqual(self.imported(named=_ctypes.__file__), (1, f"ImportError: {_ctypes.__file__} has no osk_frame: {REMEDY}"))


if __name__ == "__main__":
    unittest.main()
