"""What a program with types may write and gets: mypy reads these lines, and they run."""
import unittest
from typing import Optional

import slc_link as slc


class Typed(unittest.TestCase):
    def test_answers(self) -> None:
        message: bytes = slc.read_request("N7:0", (b"\1\2", [3, 4, 5, 6]), sequence=1).message
        self.assertEqual(slc.parse_tag("ı:0"), slc.parse_tag(memoryview(b"\xC4\xB1:0"), reading=slc.Reading.STORED))
        plain: str = slc.dotted(b"T4:123PRE")
        timer: slc.Request = slc.write_request(plain, b"1234", reading=slc.Reading.NEW)
        self.assertEqual(timer.message, slc.write_request("T4:123PRE", b"1234", reading=1).message)
        processor = slc.Processor([(7, slc.FileCode.N, 10), slc.File(9, 0x8D, 1)], type_text=b"1747-L552", datalog=["A", b"B"])
        reply: bytes = processor.pccc(memoryview(message)[6:])
        self.assertEqual(len(reply), 13)
        processor.set(9, slc.FileCode.ST, 0, "robusta")
        element: slc.Element = processor.read(9, slc.FileCode.ST, 0)
        assert isinstance(element, slc.Text)
        text: bytes = element.text
        self.assertEqual(text, b"robusta")
        place: Optional[slc.FieldPlace] = slc.field_of(slc.FileCode.T, "PRE")
        assert place is not None and place.kind == "word"
        number: int = place.number
        self.assertEqual(number, 1)
        listed: list[slc.ListedFile] = slc.parse_file_directory(0, 3, b"\x89\2\0")
        again = slc.Processor([(f.number, f.code, f.elements) for f in listed])
        self.assertEqual(again.data, bytes(2))


if __name__ == "__main__":
    unittest.main()
