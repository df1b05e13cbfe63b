"""The stored sample of the console, and the stored lines of the program `tags`, through the library for C. Their answers come from the Rust."""
import unittest
from pathlib import Path

import console
from slc_link import Tags

CRATES = Path(__file__).resolve().parents[2] / "crates"


class Sample(unittest.TestCase):
    def test_console(self):
        sample = CRATES / "console"
        lines = (sample / "stdin").read_bytes().removesuffix(b"\n").split(b"\n")
        stored = (sample / "stdout").read_bytes().removesuffix(b"\n").split(b"\n")
        console_ = console.Console()
        for line, answer in zip(lines, stored, strict=True):
            self.assertEqual(console_.answer(line), answer, line)

    def test_prefixes(self):
        """`new` and `room ROOM` before a call, in either order, each at most once."""
        odd, plain = "T4:123PRE".encode().hex(), "T4:12.PRE".encode().hex().upper()
        rest = "091009101971 0"
        for line, answer in ((f"tag {odd}", "ok 86 4 12 - 1 1 1 9"), (f"new tag {odd}", "refused 39"), (f"new tag {plain}", "ok 86 4 12 - 1 1 1 9"),
                             ("new tag 4E", "refused 2"), ("new tag FF", "refused 1"),
                             (f"read {odd} {rest}", "ok 4B0220672401070910091019710F000000A20604860C00"), (f"new read {odd} {rest}", "refused 39"),
                             (f"write {odd} {rest} bool 1", "refused 4"), (f"new write {odd} {rest} bool 1", "refused 39"),
                             (f"room 0 read {odd} {rest}", "refused 6"), (f"room 0 new read {odd} {rest}", "refused 39"),
                             (f"new room 0 read {odd} {rest}", "refused 39"), (f"new room 0 read {plain} {rest}", "refused 6"),
                             (f"room 27 new read {plain} {rest}", "ok 4B0220672401070910091019710F000000A20604860C00"),
                             (f"dotted {odd}", f"ok {plain}"), ("dotted 4E373A307B327D", "ok 4E373A307B327D"), ("dotted 5434", "refused 2"),
                             (f"room 255 dotted {odd}", f"ok {plain}"), (f"room 254 dotted {odd}", "refused 6"), ("room 0 dotted FF", "refused 1"),
                             # what is none of the protocol
                             ("new", "error fields"), ("room 5 new", "error fields"), ("new room 5", "error fields"), ("new room x tag -", "error number"),
                             ("new ", "error call"), (f"new new tag {odd}", "error call"), (f"new room 5 new tag {odd}", "error call"),
                             (f"room 5 new room 5 tag {odd}", "error call"), (f"new dotted {odd}", "error call"), ("new swap -", "error call"),
                             ("new proc", "error call"), ("new tag", "error fields"), ("new tag x", "error hex")):
            self.assertEqual(console.Console().answer(line.encode()), answer.encode(), line)

    def test_tags(self):
        sample = CRATES / "tags"
        text = (sample / "stdin").read_bytes()
        for size in (1, 7, len(text)):
            tags = Tags()
            said = b"".join(tags.feed(text[at:at + size]) for at in range(0, len(text), size)) + tags.finish()
            self.assertEqual(said, (sample / "stdout").read_bytes())


if __name__ == "__main__":
    unittest.main()
