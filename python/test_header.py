"""The module against include/oskorbine.h: a function, a constant or a refusal that is new or different there is noticed here."""

import ctypes
import inspect
import os
import re
import unittest

import oskorbine as osk

HEADER = os.path.join(os.path.dirname(os.path.dirname(os.path.abspath(__file__))), "include", "oskorbine.h")
RESULTS = {"osk_answer": ctypes.c_uint32, "void": None, "int32_t": ctypes.c_int32, "double": ctypes.c_double}
ARGUMENTS = {"size_t": ctypes.c_size_t, "uint16_t": ctypes.c_uint16, "int16_t": ctypes.c_int16, "uint8_t": ctypes.c_uint8}
IN_PYTHON = {"osk_answer": "Answer", "void": "None", "int32_t": "int", "double": "float", "unsigned": "int"}


class Header(unittest.TestCase):
    @classmethod
    def setUpClass(cls):
        with open(HEADER, encoding="ascii") as header:
            cls.text = header.read()
        cls.code = re.sub(r"/\*.*?\*/", "", cls.text, flags=re.DOTALL)
        prototypes = re.findall(r"^(static inline )?(\w+) (osk_\w+)\(([^()]*)\)(?: \{|;)", cls.code, flags=re.MULTILINE)
        cls.inline = {name for inline, _, name, _ in prototypes if inline}
        cls.results = {name: result for _, result, name, _ in prototypes}
        cls.parameters = {name: [cls.parameter(each) for each in parameters.split(",")] for _, _, name, parameters in prototypes}

    @staticmethod
    def parameter(text):
        """Its type, whether it is a pointer, and its name."""
        kind, star, name, size = re.fullmatch(r"(?:const )?(\w+) (\*?)(\w+)(\[OSK_CLOCK_STATE\])?", text.strip()).groups()
        return kind, bool(star or size), name

    def test_every_function(self):
        named = set(re.findall(r"\b(osk_\w+)\s*\(", self.code))
        self.assertEqual(named, set(self.results), "this test reads every prototype")
        wrapped = {name for name, value in vars(osk).items() if name.startswith("osk_") and inspect.isfunction(value)}
        self.assertEqual(wrapped, named)
        self.assertEqual(self.inline, {"osk_number", "osk_first", "osk_second"})

    def test_names_and_hints(self):
        for name, parameters in self.parameters.items():
            with self.subTest(function=name):
                signature = inspect.signature(getattr(osk, name))
                self.assertEqual(list(signature.parameters), [each for _, _, each in parameters if not each.endswith("_length")])
                self.assertEqual(signature.return_annotation, IN_PYTHON[self.results[name]])
                for each in signature.parameters.values():
                    self.assertIsNot(each.annotation, inspect.Parameter.empty)

    def test_types(self):
        for name in set(self.results) - self.inline:
            with self.subTest(function=name):
                function = getattr(osk._library, name)
                expected = [ctypes.c_void_p if pointer else ARGUMENTS[kind] for kind, pointer, _ in self.parameters[name]]
                self.assertEqual(list(function.argtypes), expected)
                self.assertIs(function.restype, RESULTS[self.results[name]])

    def test_docstrings_have_the_refusals(self):
        comments = re.findall(r"/\*((?:(?!\*/).)*)\*/\n(?:\w+) (osk_\w+)\(", self.text, flags=re.DOTALL)
        self.assertEqual({name for _, name in comments}, set(self.results) - self.inline, "each prototype follows its comment")
        for name in self.inline:
            self.assertIn("Refusals: none.", inspect.getdoc(getattr(osk, name)))
        for comment, name in comments:
            with self.subTest(function=name):
                words = " ".join(re.sub(r"\n \*", " ", comment).split())
                refusals = words[words.index("Refusals:"):] if "Refusals:" in words else "Refusals: none."
                self.assertTrue(" ".join(inspect.getdoc(getattr(osk, name)).split()).endswith(refusals), refusals)

    def test_constants(self):
        constants = dict(re.findall(r"\b(OSK_\w+) = (\d+)", self.code) + re.findall(r"^#define (OSK_\w+) (\w+)$", self.code, re.MULTILINE))
        self.assertEqual(set(constants), set(re.findall(r"\bOSK_\w+", self.code)), "this test reads every constant")
        self.assertEqual({name: int(value, 0) for name, value in constants.items()},
                         {name: value for name, value in vars(osk).items() if name.startswith("OSK_")})

    def test_all(self):
        public = {name for name in vars(osk) if name.startswith(("osk_", "OSK_"))} | {"Answer"}
        self.assertEqual(set(osk.__all__), public)
        self.assertEqual(len(osk.__all__), len(public))


if __name__ == "__main__":
    unittest.main()
