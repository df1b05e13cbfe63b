"""Tests of the examples in Python: python3 -m unittest discover -s bindings/python"""
import os
import subprocess
import sys
import unittest
from itertools import product
from pathlib import Path

from slc_link import Refused, Requestor, read_request

HERE = Path(__file__).resolve().parent
EXAMPLES = HERE.parents[1] / "examples"


class SharedRequests(unittest.TestCase):
    def run_on(self, *arguments, text=b"", **env):
        done = subprocess.run([sys.executable, EXAMPLES / "shared_requests.py", *arguments], input=text, env={**os.environ, "PYTHONPATH": str(HERE), **env}, capture_output=True)
        return done.stdout.decode(), done.stderr.decode(), done.returncode

    def test_the_list(self):
        there = (EXAMPLES / "shared_requests.out").read_text("utf-8")
        self.assertEqual(self.run_on(EXAMPLES / "shared_requests.txt"), (there, "", 0))
        self.assertEqual(self.run_on(text=(EXAMPLES / "shared_requests.txt").read_bytes()), (there, "", 0))

    def test_a_list_from_windows(self):
        said, refused, status = self.run_on(text=b"\xEF\xBB\xBFN7:0\r\n\r\nX7:0\r\nt4:0\x07PRE\r\nn7:0\r\nN7:0/3{2}")
        self.assertEqual(said, "A2 02 07 89 00 00: N, file 7, element 0, position 0, count 1\n    N7:0\n    n7:0\n"
                               "A2 06 04 86 00 00: T, file 4, element 0, position 0, count 1\n    t4:0\\x07PRE\n")
        self.assertEqual(refused.splitlines(), [f"line 3: X7:0: {Refused(2)}", f"line 6: N7:0/3{{2}}: {Refused(3)}"])
        self.assertEqual(status, 1)

    def test_utf_8(self):
        # a separator that can't be printed, and lines of another encoding
        text = "ı:0\nI:0\nT4:1éPRE\nT4:1.PRE\nT4:1\u2028PRE\nN7:ı\n".encode() + b"T4:1\xE9PRE\n\xFD:0"
        groups = ("A2 02 01 83 00 00: I, file 1, element 0, position 0, count 1\n    ı:0\n    I:0\n"
                  "A2 06 04 86 01 00: T, file 4, element 1, position 0, count 1\n    T4:1éPRE\n    T4:1.PRE\n    T4:1\\u2028PRE\n")
        refused = f"line 6: N7:ı: {Refused(2)}\nline 7: T4:1\\udce9PRE: {Refused(1)}\nline 8: \\udcfd:0: {Refused(1)}\n"
        # whatever the terminal takes
        for encoding in ("utf-8", "ascii", "iso8859-9"):
            self.assertEqual(self.run_on(text=text, PYTHONIOENCODING=encoding), (groups, refused, 1))

    def test_readme(self):
        lines = (EXAMPLES.parent / "README.md").read_text("utf-8").splitlines()
        at = next(i for i, line in enumerate(lines) if line.startswith("    $ ") and line.endswith("examples/shared_requests.py"))
        there = lines[at + 1:lines.index("", at)]
        done = subprocess.run(lines[at][6:], shell=True, cwd=EXAMPLES.parent, capture_output=True, text=True)
        self.assertEqual((done.stdout.splitlines(), done.stderr), ([line[4:] for line in there], ""))
        self.assertGreater(len(there), 3)

    def test_nothing(self):
        self.assertEqual(self.run_on(), ("", "", 0))

    def test_a_file_that_is_missing(self):
        said, told, status = self.run_on("not-there.txt")
        self.assertEqual((said, status), ("", 2))
        self.assertIn("not-there.txt", told)

    def test_a_library_that_is_missing(self):
        said, told, status = self.run_on(text=b"N7:0", SLC_LINK_SO="not-there.so")
        self.assertEqual((said, status), ("", 2))
        self.assertIn("./slc lib python", told)


class OneRequest(unittest.TestCase):
    """What is proved as OneRequestOfExports, seen through Python on every pair of a thousand addresses."""

    def tags(self):
        numbers, ends = ("0", "1", "254", "255"), ("", "/0", "/15", "{0}", "{1}", "{2}", "{63}", "{127}")
        for letter, element, position, end in product("OI", numbers, ("", ".0", ".1", ".254", ".255", ".256", ".999"), ends):
            yield f"{letter}:{element}{position}{end}"
        for letter, file, element, end in product(("B", "N", "F", "L", "A", "ST"), ("1", "7", "255"), numbers, ends):
            yield f"{letter}{file}:{element}{end}"
        for element, end in product(numbers, ends):
            yield f"S:{element}{end}"
        for bit, end in product((0, 15, 16, 17, 4079, 4080, 4095), ("", "{2}")):
            yield f"B7/{bit}{end}"
        for letter, file, element, end in product("TC", ("1", "7", "255"), numbers, (".PRE", "/ACC", ".DN")):
            yield f"{letter}{file}:{element}{end}"

    def test_same_bytes_exactly_when_the_five_agree(self):
        for requestor, sequence in ((None, 0), (Requestor(b"\xFF\xFF", b"\xFF\x00\x89\x07"), 65535)):
            messages, fives, accepted = {}, {}, 0
            for tag in self.tags():
                try:
                    (code, file, element, position, _, _, count, _), message = read_request(tag, requestor, sequence)
                except Refused:
                    continue
                accepted += 1
                five = code, file, element, position or 0, count
                self.assertEqual(messages.setdefault(five, message), message, tag)
                self.assertEqual(fives.setdefault(message, five), five, tag)
            # by hand: O and I have 240 sets of elements here, B, N and A 180, F and L 96, ST 24, S 20, T and C 24, and B7/ no other
            self.assertEqual((accepted, len(messages)), (1027, 584))
