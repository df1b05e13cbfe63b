"""Tests of slc_link against the library: python3 -m unittest discover -s bindings/python"""
import copy
import doctest
import os
import pickle
import re
import shutil
import subprocess
import sys
import tempfile
import threading
import time
import unittest
from unittest import mock
from ctypes import Array, Structure, c_uint8, c_uint32
from pathlib import Path

import slc_link
from slc_link import *
from slc_link import _c, FileCode as Code

W1 = bytes.fromhex("4B 02 20 67 24 01 07 09 10 09 10 19 71 0F 00 34 12 A2 02 07 89 00 00")
BAD = bytes.fromhex("07 09 10 09 10 19 71 4F F0 00 00 06")


def command(function):
    """A command from the function byte on, behind the default requester's id, 0F 00 and sequence 0."""
    return bytes.fromhex("07 09 10 09 10 19 71 0F 00 00 00") + bytes.fromhex(function)


def load_tests(loader, tests, pattern):
    tests.addTests(doctest.DocTestSuite(slc_link))
    tests.addTests(doctest.DocFileSuite(str(Path(__file__).resolve().parents[2] / "README.md"), module_relative=False, encoding="utf-8"))
    return tests


def numbers(value):
    """All numbers in a struct of C."""
    if isinstance(value, Structure):
        return [n for name, _ in value._fields_ for n in numbers(getattr(value, name))]
    return list(value) if isinstance(value, Array) else [value]


class Refusing(unittest.TestCase):
    def refused(self, number, call, *values, **named):
        with self.assertRaises(Refused) as raised:
            call(*values, **named)
        self.assertEqual(raised.exception.number, number)


class Numbers(Refusing):
    def test_refusals_have_their_questions(self):
        self.assertEqual(str(Refused(26)), "refused 26: Is the offset at most 65,535? No.")
        self.assertEqual(str(Refused(39)), "refused 39: Is a timer's or counter's separator in a new entry a full stop or a slash? No.")
        self.assertEqual([str(Refused(n)) for n in (27, 38, 40)], ["refused 27", "refused 38", "refused 40"])
        self.assertEqual([str(Refused(n)) for n in (-1, 0, 256)], ["refused -1", "refused 0", "refused 256"])
        self.assertEqual(question_of(Refusal.UNSOUND), "Is the processor sound?")
        self.assertEqual(question_of(Refusal.TAG_BYTES), "Is the tag at most 255 bytes and well-formed UTF-8?")
        self.assertEqual([n for n in range(256) if question_of(n)], list(Refusal))
        self.refused(6, question_of, 1, room=95)

    def test_numbers_that_c_cannot_hold_are_not_cut(self):
        for call in (lambda: type_of_code(256), lambda: type_of_code(-1), lambda: bit_name(Code.T, 2**64),
                     lambda: encode_element(Code.L, 2**63, bytes(4)), lambda: encode_element(Code.F, Float(2**32), bytes(4)),
                     lambda: read_request("N7:0", sequence=65536), lambda: parse_tag("N7:0", reading=256), lambda: parse_tag("N7:0", reading=-1),
                     lambda: Processor([(2**32, Code.N, 1)]),
                     lambda: Processor().read(65536, Code.N, 0), lambda: Processor().set(7, Code.N, -1, 0)):
            self.assertRaises(OverflowError, call)

    def test_the_error_says_what_is_out_of_range(self):
        with self.assertRaises(OutOfRange) as raised:
            read_request("N7:0", sequence=65536)
        self.assertEqual(str(raised.exception), "sequence is 0 to 65535, not 65536")
        self.assertIsInstance(raised.exception, ValueError)
        with self.assertRaisesRegex(OutOfRange, "a file's number is 0 to 4294967295, not -1"):
            Processor([(-1, Code.N, 1)])

    def test_the_error_says_what_is_no_value(self):
        for bad in (None, True, 1j, [1]):
            with self.assertRaises(TypeError) as raised:
                encode_element(Code.N, bad, bytes(2))
            self.assertEqual(str(raised.exception), f"no value of an element: {bad!r}")
        with self.assertRaisesRegex(TypeError, "a value is a whole number, not 1.5"):
            encode_element(Code.N, Whole(1.5), bytes(2))
        with self.assertRaisesRegex(OutOfRange, "a value is -9223372036854775808 to 9223372036854775807, not 9223372036854775808"):
            Processor().set(7, Code.N, 0, 2**63)

    def test_a_requester_is_not_cut(self):
        self.assertRaises(OutOfRange, read_request, "N7:0", requestor=([300, 1], b"1234"))
        self.assertRaises(TypeError, read_request, "N7:0", requestor=([1.9, 1], b"1234"))
        self.assertRaises(TypeError, read_request, "N7:0", requestor=("ab", b"1234"))
        self.assertRaises(ValueError, read_request, "N7:0", requestor=(b"\1\2\3", b"1234"))
        self.assertEqual(processor_type_request(([1, 2], bytearray(b"\3\4\5\6")))[6:13].hex(), "07010203040506")

    def test_what_is_no_whole_number(self):
        for bad in (1.9, 1.0, "5", None, True, b"\1"):
            for call in (lambda: type_of_code(bad), lambda: bit_name(Code.T, bad), lambda: read_request("N7:0", sequence=bad),
                         lambda: parse_tag("N7:0", reading=bad), lambda: read_request("N7:0", reading=bad), lambda: write_request("N7:0", b"12", reading=bad),
                         lambda: datalog_request(bad), lambda: file_directory_read_request(1, bad, 1), lambda: Processor([(bad, Code.N, 1)]),
                         lambda: Processor([(7, Code.N, bad)]), lambda: Processor().read(bad, Code.N, 0), lambda: Processor().set(7, Code.N, bad, 0),
                         lambda: encode_element(Code.N, Whole(bad), bytes(2)), lambda: encode_element(Code.F, Float(bad), bytes(4)),
                         lambda: encode_element(Code.T, Words(0, bad, 0), bytes(6)), lambda: string_swap(b"", room=bad or 1.5),
                         lambda: parse_file_directory(0, bad, b""), lambda: file_directory_size_request(sys0_info("")._replace(size_len=bad))):
                self.assertRaises(TypeError, call)

    def test_what_has_an_index_is_a_number(self):
        class Seven:
            def __index__(self):
                return 7
        self.assertEqual(Processor().read(Seven(), Code.N, 0), Whole(0))
        self.assertEqual(type_of_code(Code.N), type_of_code(0x89))

    def test_true_and_false(self):
        self.assertRaises(TypeError, encode_element, Code.N, True, bytes(2))
        self.assertRaises(TypeError, Processor().set, 7, Code.N, 0, False)
        for bit in (True, False):
            self.assertEqual(encode_element(Code.T, Field("EN", bit), bytes(6)), encode_element(Code.T, Field("EN", int(bit)), bytes(6)))

    def test_floats(self):
        self.assertRaises(OutOfRange, Float.of, 1e39)
        self.assertRaises(OutOfRange, Processor().set, 8, Code.F, 0, -1e39)
        self.assertEqual(Float.of(0.1), Float(0x3DCCCCCD))

    def test_other_values_are_no_bytes(self):
        self.assertRaises(TypeError, parse_tag, 5)
        self.assertRaises(TypeError, write_request, "N7:0", "text")
        self.assertRaises(TypeError, encode_element, Code.N, None, bytes(2))
        self.assertRaises(UnicodeEncodeError, Processor().set, 7, Code.N, 0, "\u20ac")
        self.assertRaises(ValueError, read_request, "N7:0", requestor=(b"\1", b"1234"))


class FileTypes(unittest.TestCase):
    def test_codes_and_names(self):
        found = [t for t in map(type_of_code, range(256)) if t]
        self.assertEqual([t.code for t in found], list(Code))
        self.assertEqual([t.name for t in found], [code.name for code in Code])
        self.assertEqual([t.element_size for t in found], [2, 2, 2, 2, 6, 6, 6, 2, 4, 84, 2, 4, 50, 46, 12])
        self.assertEqual([t.name for t in found if not t.simulated], ["MG", "PD", "PLS"])
        self.assertEqual([type_of_name(t.name) for t in found], found)
        self.assertIsNone(type_of_name("n"))

    def test_fields(self):
        self.assertEqual([bit_name(Code.R, i) for i in range(9)], ["EN", "EU", "DN", "EM", "ER", "UL", "IN", "FD", ""])
        self.assertEqual([word_name(Code.T, i) for i in range(3)], ["PRE", "ACC", ""])
        self.assertEqual(type_of_code(Code.C).bits, 6)
        self.assertEqual(field_of(Code.R, "pos"), ("word", 2))
        self.assertEqual(field_of(Code.R, b"Fd"), ("bit", 8))
        self.assertIsNone(field_of(Code.N, "EN"))
        self.assertIsNone(field_of(0, "EN"))


class Texts(Refusing):
    def test_swap(self):
        self.assertEqual(string_swap(b"abc"), b"ba\0c")
        self.assertEqual(string_swap(b""), b"")
        self.refused(6, string_swap, b"abc", room=3)
        self.assertEqual(swap_pairs(b"abc"), b"bac")
        self.assertEqual(swap_pairs(b""), b"")

    def test_texts(self):
        self.assertEqual(encode_ascii("x"), b" x")
        self.refused(6, encode_ascii, "x", room=1)
        self.assertEqual(encode_string("abc"), b"\3\0ba\0c".ljust(84, b"\0"))
        self.refused(6, encode_string, "abc", room=83)


class Elements(Refusing):
    def test_numbers(self):
        self.assertEqual(encode_element(Code.N, -2, b"\0\0\xEE"), b"\xFE\xFF\xEE")
        self.assertEqual(decode_element(Code.N, b"\xFE\xFF\xEE", room=0), Whole(-2))
        self.assertEqual(decode_element(Code.L, encode_element(Code.L, -70000, bytes(4))), Whole(-70000))
        float_ = decode_element(Code.F, encode_element(Code.F, -1.5, bytes(4)))
        self.assertEqual((float_, float_.number), (Float(0xBFC00000), -1.5))
        for bits in (0x7F800001, 0xFFFFFFFF):
            self.assertEqual(decode_element(Code.F, encode_element(Code.F, Float(bits), bytes(4))), Float(bits))

    def test_fields(self):
        timer = encode_element(Code.T, Words(1, 500, -3), bytes(6))
        timer = encode_element(Code.T, Field("en", 1), timer)
        self.assertEqual(timer, bytes.fromhex("01 80 F4 01 FD FF"))
        self.assertEqual(decode_element(Code.T, timer), Fields(500, -3, 0x8000))

    def test_text(self):
        line = encode_element(Code.ST, "robusta", bytes(84))
        self.assertEqual(decode_element(Code.ST, line), Text(b"robusta"))
        self.refused(24, decode_element, Code.ST, line, room=81)

    def test_refusals(self):
        self.refused(19, encode_element, Code.L, 1, bytes(3))
        self.refused(19, encode_element, 0, 1, bytes(99))
        self.refused(20, encode_element, Code.N, "a", bytes(2))
        self.refused(20, decode_element, Code.MG, bytes(50))
        self.refused(21, encode_element, Code.T, Field("XX", 1), bytes(6))
        self.refused(22, encode_element, Code.N, 65536, bytes(2))
        self.refused(23, encode_element, Code.ST, bytes(83), bytes(84))


class Requests(Refusing):
    def test_addresses(self):
        self.assertEqual(parse_tag("T4:123PRE", reading=Reading.STORED), Address(Code.T, 4, 12, None, 1, True, 1, 9))
        self.assertEqual(parse_tag("i:3.300/5{2}"), Address(Code.I, 1, 3, 300, 5, True, 2, 9))
        self.assertEqual(parse_tag("N7:0{" + 30 * "9" + "}").element_count, 2**64 - 1)
        self.refused(1, parse_tag, 256 * "N")
        self.refused(2, parse_tag, "")

    def test_reads(self):
        self.assertEqual(read_request("N7:0", sequence=0x1234), (parse_tag("N7:0"), W1))
        self.assertEqual(read_request("I99:3.300/5").message[18:].hex(), "020183" "03" "ff2c01")
        self.assertEqual(read_request("B3/4095").message[19:].hex(), "0385ffff0000")
        self.assertEqual([read_request(tag).message[18] for tag in ("N7:0{0}", "N7:0{127}")], [0, 254])
        for tag, number in (("N7:0{128}", 5), ("ST9:0{3}", 2), ("N7:0/3{2}", 3), ("X7:0", 2)):
            self.refused(number, read_request, tag)
        self.refused(6, read_request, "N7:0", room=26)

    def test_writes(self):
        self.assertEqual(write_request("N7:0/3", True).message[23:].hex(), "08000800")
        self.assertEqual(write_request("N7:0/3", False).message[23:].hex(), "08000000")
        self.assertEqual(write_request("ST9:0", Text("abc")).message[23:31].hex(), "ffff030062610063")
        self.assertEqual(write_request("N7:0", b"\xFF\xFF\1\2").message[17:].hex(), "ab0207890000ffff0102")
        for tag, value, number in (("N7:0", True, 4), ("T4:0.PRE", True, 4), ("N7:0", b"1", 5), ("N7:0/3{2}", b"12", 3)):
            self.refused(number, write_request, tag, value)
        self.refused(6, write_request, "N7:0/3", True, room=283)

    def test_others(self):
        q = Requestor(b"\1\2", b"\3\4\5\6")
        self.assertEqual(default_requestor(), (b"\x09\x10", b"\x09\x10\x19\x71"))
        self.assertEqual(processor_type_request(q, 0x0102).hex(), "4b0220672401" "07010203040506" "0600020103")
        self.assertEqual(len(datalog_request(3)), 23)
        self.refused(6, datalog_request, 3, room=26)
        info = sys0_info("1766-L32BXB")
        self.assertEqual(info, (233, 10, 3, 0x2B, 8, 19968))
        self.assertEqual(file_directory_size_request(info)[17:].hex(), "a10800032b")
        self.refused(26, file_directory_read_request, 3, 65536, 80, room=1)
        self.refused(6, file_directory_read_request, 3, 65535, 80, room=1)
        self.assertEqual(file_directory_read_request(3, 0, 80)[17:].hex(), "a150000300")


class Readings(Refusing):
    # tags that only a stored list may have, and their dotted texts: separators that are a digit, a letter, a sign, and of one to four bytes
    RETIRED = (("T4:123PRE", "T4:12.PRE"), ("t4:12PRE", "t4:1.PRE"), ("T4:1:ACC", "T4:1.ACC"), ("C5:255{DN", "C5:255.DN"), ("C5:0\0CU", "C5:0.CU"),
               ("c005:007 ov", "c005:007.ov"), ("T4:1XEN", "T4:1.EN"), ("T4:1\x7FTT", "T4:1.TT"), ("T4:1éPRE", "T4:1.PRE"), ("T4:1€ACC", "T4:1.ACC"),
               ("C5:12\U0001F600UN", "C5:12.UN"), ("C5:1\U0010FFFFUA", "C5:1.UA"))
    SAME = ("T4:12.PRE", "T4:12/PRE", "c5:0/dn", "C5:255.UA", "N7:0", "N7:0{2}", "F8:1/3", "B3/4095", "ı:3.300/5", "ſ:1/15", "ST9:0{2}")
    REFUSED = (("", 2), ("X7:0", 2), ("T4:1", 2), ("T4:1PRE", 2), ("T4:1..PRE", 2), ("T4:1.é", 2), ("T4:1\nPRE", 2), ("T4:256éPRE", 2), ("R6:0.EN", 2),
               (b"T4:1\xE9PRE", 1), (256 * "N", 1))

    def test_a_new_entry_has_no_odd_separator(self):
        for tag, plain in self.RETIRED:
            stored = parse_tag(tag, reading=Reading.STORED)
            self.assertEqual(parse_tag(plain), stored._replace(kept=len(plain)), tag)
            self.assertEqual(read_request(tag, reading=Reading.STORED), (stored, read_request(plain).message), tag)
            # a new entry by default, and by every number but 1
            self.refused(39, parse_tag, tag)
            for number in (Reading.NEW, 0, 2, 3, 128, 255):
                self.refused(39, parse_tag, tag, reading=number)
                # before 4, 5 and 6
                self.refused(39, read_request, tag, room=0, reading=number)
                for value in (Text("a"), b"1", b"1234"):
                    self.refused(39, write_request, tag, value, room=0, reading=number)

    def test_all_else_is_read_alike(self):
        for tag in self.SAME:
            for call in (parse_tag, read_request, lambda tag, **named: write_request(tag, b"1234", **named)):
                self.assertEqual(call(tag), call(tag, reading=Reading.STORED), tag)
        for tag, number in self.REFUSED:
            for call in (parse_tag, read_request, lambda tag, **named: write_request(tag, b"1234", **named)):
                self.refused(number, call, tag)
                self.refused(number, call, tag, reading=Reading.STORED)
        for reading in Reading:
            self.refused(3, read_request, "N7:0/3{2}", reading=reading)
            self.refused(5, read_request, "N7:0{128}", reading=reading)
            self.refused(4, write_request, "T4:0.PRE", True, reading=reading)
            self.refused(6, write_request, "T4:0.DN", True, room=283, reading=reading)
        self.refused(4, write_request, "T4:123PRE", True, reading=Reading.STORED)

    def test_the_reading_is_named(self):
        # a stored list is never meant by the place of an argument
        self.assertRaises(TypeError, parse_tag, "N7:0", Reading.STORED)
        self.assertRaises(TypeError, read_request, "N7:0", None, 0, REQUEST_ROOM, Reading.STORED)
        self.assertRaises(TypeError, write_request, "N7:0", b"1234", None, 0, WRITE_ROOM, Reading.STORED)
        self.assertEqual([(r.name, r.value) for r in Reading], [("NEW", 0), ("STORED", 1)])

    def test_dotted(self):
        for tag, text in self.RETIRED + (("T4:12/PRE", "T4:12.PRE"), ("c5:0/dn", "c5:0.dn")):
            for given in (tag, tag.encode(), memoryview(tag.encode())):
                self.assertEqual(dotted(given), text, tag)
            self.assertEqual(dotted(text), text)
        for tag in self.SAME:
            self.assertEqual(dotted(tag), tag.replace("/", ".") if tag[0] in "Tc" else tag)
        longest = "N7:0{" + 249 * "0" + "}"
        self.assertEqual((len(longest), dotted(longest)), (255, longest))
        for tag, number in self.REFUSED:
            self.refused(number, dotted, tag)
            self.refused(number, dotted, tag, room=0)
        for tag in ("T4:123PRE", "N7:0"):
            self.refused(6, dotted, tag, room=254)
            self.assertEqual(dotted(tag, room=256), dotted(tag))


class TagsInUtf8(Refusing):
    # a tag, the same in ASCII, and the address
    SAME = (("ı:0", "I:0", Address(Code.I, 1, 0, 0, 0, False, 1, 4)),
            ("ı7:0", "I7:0", Address(Code.I, 1, 0, 0, 0, False, 1, 5)),
            ("ı:3.300/5{1}", "I:3.300/5", Address(Code.I, 1, 3, 300, 5, True, 1, 10)),
            ("ſ:4", "S:4", Address(Code.S, 2, 4, None, None, False, 1, 4)),
            ("ſt9:0", "ST9:0", Address(Code.ST, 9, 0, None, None, False, 1, 6)),
            ("T4:1éPRE", "T4:1.PRE", Address(Code.T, 4, 1, None, 1, True, 1, 9)),
            ("c5:12\U0001F600dn", "C5:12.DN", Address(Code.C, 5, 12, None, 13, True, 1, 11)))
    # no beginning of a character; one that is cut; more bytes than the character needs; surrogates; above U+10FFFF
    ILL_FORMED = ("80", "BF", "FF", "C4", "E2 82", "F0 9F 98", "C0 AF", "C1 BF", "E0 9F BF", "F0 8F BF BF", "ED A0 80", "ED BF BF", "F4 90 80 80", "F5 80 80 80",
                  "F8 88 80 80 80")

    def test_addresses(self):
        for tag, plain, address in self.SAME:
            self.assertEqual(parse_tag(tag, reading=Reading.STORED), address, tag)
            self.assertEqual(parse_tag(plain)[:-1], address[:-1], plain)

    def test_reads(self):
        for tag, plain, address in self.SAME:
            self.assertEqual(read_request(tag, sequence=5, reading=Reading.STORED), (address, read_request(plain, sequence=5).message), tag)
        self.assertEqual([read_request(tag, reading=Reading.STORED).message[17:].hex() for tag in ("ı:0", "ſt9:0", "T4:1éPRE")],
                         ["a20201830000", "a254098d0000", "a20604860100"])

    def test_writes(self):
        # the tag is UTF-8, the text Latin-1
        self.assertEqual(write_request("ſt9:0", Text("é")).message[17:29].hex(), "ab54098d0000" "ffff" "0100" "00e9")
        self.assertEqual(write_request("ſt9:0", Text("é")).message, write_request("ST9:0", Text(b"\xE9")).message)
        self.assertEqual(write_request("ı:0/3", True).message, write_request("I:0/3", True).message)
        self.assertEqual(write_request("T4:1éDN", False, reading=Reading.STORED).message, write_request("T4:1.DN", False).message)
        self.refused(1, write_request, b"\xFD:0/3", True)

    def test_str_and_bytes(self):
        for tag, _, address in self.SAME:
            for given in (tag.encode(), bytearray(tag.encode()), memoryview(tag.encode())):
                self.assertEqual(parse_tag(given, reading=Reading.STORED), address, tag)
        # in Latin-1, and in Latin-5, which is for Turkish
        self.refused(1, parse_tag, "T4:1éPRE".encode("latin-1"))
        self.refused(1, parse_tag, "ı:0".encode("iso8859-9"))

    def test_ill_formed(self):
        for bad in map(bytes.fromhex, self.ILL_FORMED):
            # alone, as a separator, at the end
            for tag in (bad, b"T4:1" + bad + b"PRE", b"N7:0" + bad):
                for call in (parse_tag, read_request, lambda tag, **named: write_request(tag, b"12", **named)):
                    self.refused(1, call, tag)
                    self.refused(1, call, tag, reading=Reading.STORED)
                self.refused(1, dotted, tag)

    def test_a_lone_surrogate(self):
        # the last: the bytes of ı, read as surrogateescape reads bytes that it doesn't know
        for tag in ("\udc80", "T4:1\udc80PRE", "T4:1\ud800PRE", "T4:1\ud83d\ude00PRE", "\udcc4\udcb1:0"):
            for call in (parse_tag, read_request, dotted, lambda tag: write_request(tag, b"12")):
                self.refused(1, call, tag)

    def test_separators(self):
        # the first and the last character of each length, and the neighbours of the surrogates
        for separator in ("\0", "\r", "\x7F", "\x80", "\u07FF", "\u0800", "\uD7FF", "\uE000", "\uFFFF", "\U00010000", "\U0010FFFF", "\u0085", "\u2028"):
            self.assertEqual(parse_tag(f"T4:1{separator}PRE", reading=Reading.STORED), Address(Code.T, 4, 1, None, 1, True, 1, 7 + len(separator.encode())))
            self.refused(39, parse_tag, f"T4:1{separator}PRE")
            self.assertEqual(dotted(f"T4:1{separator}PRE"), "T4:1.PRE")
        # a newline, none, two characters (é as e and an accent)
        for separator in ("\n", "", "éé", ".é", "e\u0301"):
            self.refused(2, parse_tag, f"T4:1{separator}PRE")
            self.refused(2, parse_tag, f"T4:1{separator}PRE", reading=Reading.STORED)

    def test_what_is_no_file_letter_name_digit_or_sign(self):
        # a capital I with a dot; a ligature of s and t; a byte order mark; wide, Arabic and raised ones; a blank that doesn't break
        for tag in ("\u0130:0", "é:0", "ßT9:0", "\uFB06" "9:0", "ſſ9:0", "sſ:0", "\uFEFFN7:0", "\uFF2E7:0", "N7:ı", "N7:é", "N7:0/ı", "Nı:0", "N7\uFF1A0", "N\u0667:0",
                    "N\u00B2:0", "N7:0{\uFF11}", "N7:0\u00A0", "T4:1.PRÉ", "ı", "ſ", "é"):
            self.refused(2, parse_tag, tag)
        # `Names .. as before`: the I of R's bit IN
        self.assertEqual(field_of(Code.R, "in"), ("bit", 9))
        self.assertIsNone(field_of(Code.R, "ın".encode()))
        self.assertIsNone(type_of_name("ı".encode()))

    def test_the_length_counts_bytes(self):
        self.assertEqual(parse_tag("ı:0{" + 248 * "0" + "1}"), Address(Code.I, 1, 0, 0, 0, False, 1, 4))
        # 255 characters, 256 bytes
        self.refused(1, parse_tag, "ı:0{" + 249 * "0" + "1}")
        self.refused(1, parse_tag, 254 * "N" + "é")
        self.refused(2, parse_tag, 253 * "N" + "é")
        self.refused(1, parse_tag, 254 * b"N" + "é".encode()[:1])

    def test_names_and_texts_stay_latin_1(self):
        self.assertEqual((Text("é"), encode_ascii("é"), encode_string("é")[:4]), ((b"\xE9",), b" \xE9", b"\1\0\0\xE9"))
        for call in (Text, encode_ascii, type_of_name, sys0_info, lambda text: Processor(type_text=text), lambda text: field_of(Code.R, text)):
            self.assertRaises(UnicodeEncodeError, call, "ı")


class Replies(Refusing):
    def test_status(self):
        raw = bytearray(64)
        self.assertIsNone(request_status(raw, room=0))
        raw[58], raw[61] = 0xF0, 6
        self.assertEqual(request_status(raw), "Error code in EXT STS Byte (EXT STS 0x06)")
        self.refused(6, request_status, raw, room=95)
        self.assertEqual(request_status(b""), "Unknown Status")
        self.assertEqual(error_text(0x70), "Processor is in Program mode")
        self.assertIsNone(error_text(0x11))

    def replies(self, function, **built):
        """The replies of a processor to a command, behind ids of these many bytes, which count themselves."""
        for length in (7, 1, 2, 8, 255):
            requester = bytes(range(length, 0, -1))
            yield Processor(type_text="1747-L552", **built).pccc(requester + command(function)[7:])

    def test_from_the_id_on(self):
        info = sys0_info("1747-L552")
        for reply in self.replies("A2 02 07 89 64 00"):
            self.assertEqual(reply_status(reply), "Error code in EXT STS Byte (EXT STS 0x06)")
            self.refused(6, reply_status, reply, room=95)
            self.refused(25, reply_directory_size, reply, info)
        for reply in self.replies("A2 6D 00 A5 00 00", datalog=[b"ABC"]):
            self.assertEqual((reply_status(reply, room=0), reply_datalog(reply)), (None, b"ABC"))
        for reply in self.replies(f"A1 02 00 {info.file_type:02X} {info.size_element:02X}"):
            self.assertEqual(reply_directory_size(reply, info), 0xA9)
        self.assertEqual((reply_status(b""), reply_datalog(b""), reply_datalog(b"\t\1")), ("Unknown Status", b"", b""))

    def test_raw_replies_are_those_behind_50_bytes(self):
        info = sys0_info("1766")
        for status in range(256):
            whole = bytes.fromhex("07 09 10 09 10 19 71 4F") + bytes([status, 1, 2, status ^ 255, 4, 5])
            for reply in (whole[:n] for n in range(8, len(whole) + 1)):
                raw = 50 * b"\xEE" + reply
                self.assertEqual((reply_status(reply), reply_datalog(reply)), (request_status(raw), parse_datalog(raw)))
                if len(reply) < 13:
                    self.refused(25, reply_directory_size, reply, info)
                else:
                    self.assertEqual(reply_directory_size(reply, info), parse_file_directory_size(raw, info))

    def test_datalog(self):
        self.assertEqual(parse_datalog(bytes(61) + b"ABC"), b"ABC")
        self.assertEqual(parse_datalog(bytes(61)), b"")
        self.assertEqual(parse_datalog(b""), b"")

    def test_directory(self):
        raw = bytes(61) + b"\xA9\0"
        self.assertEqual(parse_file_directory_size(raw, sys0_info("")), 0xA9)
        self.assertEqual(parse_file_directory_size(raw, sys0_info("1766")), 0xA9 - 19968)
        self.refused(25, parse_file_directory_size, raw[:62], sys0_info(""))
        rows = bytes.fromhex("EE 82 04 00 81 00 00 89 06 00")
        self.assertEqual(parse_file_directory(1, 3, rows), [(0, Code.O, 2, 4), (2, Code.N, 3, 6)])
        self.refused(7, parse_file_directory, 1, 3, bytes(65536))
        # 7 before 8
        self.refused(7, parse_file_directory, 0, 0, bytes(65536))
        self.refused(8, parse_file_directory, 0, 0, bytes(65535))
        self.refused(8, parse_file_directory, 1, 0, rows)
        self.refused(9, parse_file_directory, 1, 3, rows[:9])
        self.refused(10, parse_file_directory, 1, 3, rows, room=1)


class Processors(Refusing):
    def test_default_files(self):
        processor = Processor(type_text="1747-L552")
        files = [(f.code.name, f.number, f.length // type_of_code(f.code).element_size) for f in processor.files]
        self.assertEqual(files, [("O", 0, 8), ("I", 1, 8), ("S", 2, 83), ("B", 3, 32), ("T", 4, 16), ("C", 5, 16), ("R", 6, 8), ("N", 7, 100),
                                 ("F", 8, 50)])
        self.assertEqual(processor.data, bytes(902))
        processor.set(7, Code.N, 0, 0x0F17)
        self.assertEqual(processor.pccc(W1[6:]).hex(), "07091009101971" "4f003412" "170f")
        self.assertEqual(processor.pccc(command("A2 02 07 89 64 00")), BAD)

    def test_w9_masked_write(self):
        processor = Processor([File(7, Code.N, 2)])
        processor.set(7, Code.N, 0, 0x2211)
        processor.set(7, Code.N, 1, 0x0033)
        processor.pccc(command("AB 03 07 89 00 00 F0 0F AA BB CC"))
        self.assertEqual(processor.data.hex(), "a12bc300")

    def test_w10_directory_size(self):
        for text, size in (("1766-LEC", "434f"), ("1747-L552", "a900")):
            info = sys0_info(text)
            reply = Processor(type_text=text).pccc(command(f"A1 02 00 {info.file_type:02X} {info.size_element:02X}"))
            self.assertEqual(reply[11:].hex(), size)

    def test_w11_datalog(self):
        processor = Processor(type_text="1747-L552", datalog=[b"ABC", b""])
        self.assertEqual(processor.pccc(command("A2 6D 00 A5 FF 00")), BAD)
        for left, entry in ((1, b"ABC"), (0, b"")):
            self.assertEqual(processor.pccc(datalog_request(0)[6:])[11:], entry)
            self.assertEqual(processor.datalog_left, left)
        self.assertEqual(processor.pccc(datalog_request(0)[6:])[8], 0x10)

    def test_building_is_refused(self):
        for number, values in ((11, dict(files=[(7, Code.PD, 1)])), (11, dict(files=[(7, 0, 1)])), (12, dict(files=[(256, Code.N, 1)])),
                               (12, dict(files=2 * [(7, Code.N, 1)])), (13, dict(type_text=12 * "1")), (13, dict(type_text=b"\x80")),
                               (14, dict(files=[(7, Code.N, 32768)])), (15, dict(datalog=[bytes(256)])), (15, dict(datalog=[bytes(65536)])),
                               (15, dict(datalog=65 * [b""]))):
            self.refused(number, Processor, **values)
        full = Processor([(number, Code.N, 127) for number in range(256)], 11 * "1", 64 * [bytes(255)])
        self.assertEqual((len(full.files), len(full.data), full.datalog_left), (256, 65024, 64))

    def test_commands_are_refused(self):
        processor = Processor()
        self.refused(17, processor.pccc, W1[6:], room=513)
        for bad in (b"", b"\0\1\2\3\4", b"\1\2\3\4"):
            self.refused(18, processor.pccc, bad)
        self.assertEqual(processor.pccc(b"\1\2\3\4\5"), bytes([1, 0x42, 0x10, 4, 5]))

    def test_elements(self):
        processor = Processor([(9, Code.ST, 2), (4, Code.T, 1), (8, Code.F, 1)])
        processor.set(9, Code.ST, 1, "arabica")
        processor.set(4, Code.T, 0, Field("pre", 500))
        processor.set(8, Code.F, 0, 0.25)
        self.assertEqual([processor.read(9, Code.ST, 1), processor.read(4, Code.T, 0), processor.read(8, Code.F, 0).number],
                         [Text(b"arabica"), Fields(500, 0, 0), 0.25])
        self.refused(24, processor.read, 9, Code.ST, 1, room=81)
        self.refused(19, processor.read, 9, Code.ST, 2)
        before = processor.data
        for number, values in ((19, (5, Code.T, 0, 1)), (20, (4, Code.T, 0, 1)), (21, (4, Code.T, 0, Field("X", 1))),
                               (22, (4, Code.T, 0, Field("PRE", 40000))), (23, (9, Code.ST, 0, bytes(83)))):
            self.refused(number, processor.set, *values)
        self.assertEqual(processor.data, before)

    def test_a_spoilt_processor_is_refused(self):
        processor = Processor()
        processor._slc.files = 10
        self.refused(16, processor.pccc, W1[6:])
        self.refused(16, processor.read, 7, Code.N, 0)
        self.refused(16, processor.set, 7, Code.N, 0, 1)


class Threads(unittest.TestCase):
    def entries(self, processor, each):
        """What four threads get that ask for so many datalog entries each, where every call takes its time."""
        call, got = _c.call, []

        def slow(name, *values):
            answer = call(name, *values)
            time.sleep(0.001)
            return answer

        def ask():
            for _ in range(each):
                got.append(processor.pccc(datalog_request(0)[6:])[11:])

        with mock.patch.object(_c, "call", slow):
            threads = [threading.Thread(target=ask) for _ in range(4)]
            for thread in threads:
                thread.start()
            for thread in threads:
                thread.join()
        return got

    def test_each_entry_is_read_once(self):
        entries = [bytes([n]) for n in range(64)]
        processor = Processor(datalog=entries)
        self.assertEqual(sorted(self.entries(processor, 16)), entries)
        self.assertEqual(processor.datalog_left, 0)

    def test_every_call_on_a_processor_takes_its_turn(self):
        processor = Processor()
        for call in (lambda: processor.pccc(W1[6:]), lambda: processor.read(7, Code.N, 0), lambda: processor.set(7, Code.N, 0, 1),
                     lambda: processor.data, lambda: processor.files, lambda: processor.datalog_left, lambda: copy.copy(processor)):
            thread = threading.Thread(target=call)
            with processor._lock:
                thread.start()
                thread.join(0.01)
                self.assertTrue(thread.is_alive())
            thread.join()

    def test_a_refused_call_gives_the_lock_back(self):
        processor = Processor()
        self.assertRaises(Refused, processor.pccc, b"")
        self.assertRaises(Refused, processor.set, 7, Code.N, 999, 1)
        self.assertFalse(processor._lock.locked())


class Copies(unittest.TestCase):
    def test_a_copy_is_independent(self):
        for made in (copy.copy, copy.deepcopy):
            first = Processor([(7, Code.N, 2)], "1747-L552", [b"A", b"B"])
            first.set(7, Code.N, 0, 5)
            second = made(first)
            self.assertEqual((second.data, second.files, second.datalog_left), (first.data, first.files, 2))
            second.set(7, Code.N, 0, 6)
            self.assertEqual(second.pccc(datalog_request(0)[6:])[11:], b"A")
            self.assertEqual((first.data, first.datalog_left), (b"\5\0\0\0", 2))
            self.assertEqual((second.data, second.datalog_left), (b"\6\0\0\0", 1))
            first._table[0].number = first._log[2] = first._slc.type_text[0] = 0
            self.assertEqual(second.pccc(datalog_request(0)[6:])[11:], b"B")
            self.assertIsNot(first._lock, second._lock)

    def test_a_copy_without_a_datalog(self):
        self.assertEqual(copy.copy(Processor()).data, bytes(902))

    def test_a_processor_is_not_pickled(self):
        with self.assertRaisesRegex(TypeError, "can't be pickled"):
            pickle.dumps(Processor())

    def test_values_and_refusals_are_pickled(self):
        for value in (Text("abc"), Field("EN", 1), Float(1), FileCode.N, Reading.STORED, parse_tag("N7:0"), type_of_code(Code.N), sys0_info("")):
            self.assertEqual(pickle.loads(pickle.dumps(value)), value)
        self.assertEqual(pickle.loads(pickle.dumps(Refused(3))).number, 3)

    def test_tags(self):
        tags = Tags()
        tags.feed(b"N7")
        for twin in (copy.copy(tags), copy.deepcopy(tags), pickle.loads(pickle.dumps(tags))):
            self.assertEqual(twin.feed(b":0/3{2}\n"), b"refused 3\n")
        self.assertEqual(tags.feed(b":0/4{2}\nX\n"), b"refused 3\nrefused 2\n")


class ThePackage(unittest.TestCase):
    HERE = Path(__file__).resolve().parent

    def run_python(self, text, **environment):
        return subprocess.run([sys.executable, "-c", text], cwd=self.HERE, env={**os.environ, **environment}, capture_output=True, text=True)

    def test_all(self):
        names = {}
        exec("from slc_link import *", names)
        public = {n for n, v in vars(slc_link).items() if not n.startswith("_") and getattr(v, "__module__", "").startswith("slc_link")}
        self.assertEqual(set(slc_link.__all__) - public, {n for n in slc_link.__all__ if n.isupper()} | {"Value", "Element"})
        self.assertEqual(public - set(slc_link.__all__), set())
        self.assertEqual(set(names) - {"__builtins__"}, set(slc_link.__all__))
        self.assertEqual(len(set(slc_link.__all__)), len(slc_link.__all__))

    def test_no_field_hides_a_method_of_tuples(self):
        tuples = [v for v in vars(slc_link).values() if isinstance(v, type) and issubclass(v, tuple)]
        self.assertGreater(len(tuples), 10)
        for made in tuples:
            self.assertFalse({"index", "count"} & set(made._fields), made)

    def test_a_shared_object_that_is_missing(self):
        with tempfile.TemporaryDirectory() as folder:
            so = f"{folder}/libslc_link.so"
            done = self.run_python("import slc_link; slc_link.parse_tag('N7:0')", SLC_LINK_SO=so)
        said = done.stderr.splitlines()[-1]
        self.assertEqual(said, "FileNotFoundError: [Errno 2] no shared object of the SLC link: build it with `./slc lib python`, "
                               f"or set SLC_LINK_SO to it: '{so}'")

    def test_a_shared_object_of_another_version(self):
        with mock.patch.dict(_c.CALLS, {"slc_not_there": (None, {})}):
            with self.assertRaisesRegex(OSError, "has no slc_not_there, .* build it anew with `./slc lib python`"):
                _c.library.__wrapped__()

    def test_a_relative_shared_object(self):
        so = os.path.relpath(_c.shared_object(), self.HERE)
        done = self.run_python("import slc_link; print(slc_link.parse_tag('N7:0').file_number)", SLC_LINK_SO=so)
        self.assertEqual((done.stdout, done.stderr), ("7\n", ""))

    def test_versions_agree(self):
        cargo = (self.HERE.parent / "rust/Cargo.toml").read_text()
        self.assertEqual(re.search(r'^version = "(.*)"$', cargo, re.M)[1], slc_link.__version__)

    def test_types_are_shipped(self):
        self.assertTrue((self.HERE / "slc_link/py.typed").is_file())
        self.assertIn('slc_link = ["py.typed"]', (self.HERE / "pyproject.toml").read_text())

    @unittest.skipUnless(shutil.which("mypy"), "no mypy")
    def test_types_are_strict(self):
        done = subprocess.run(["mypy", "--strict", "--cache-dir", os.devnull, "slc_link", "test_types.py", "../../examples/shared_requests.py"], cwd=self.HERE, capture_output=True, text=True)
        self.assertEqual(done.returncode, 0, done.stdout + done.stderr)


class TheCallsOfC(unittest.TestCase):
    def test_kinds_that_there_are_not(self):
        element = _c.output(2)
        self.assertEqual(_c.call("slc_encode_element", Code.N, _c.slc_value(9), b"", element), 20)
        # 39 comes before 4
        for tag, reading, number in ((b"N7:0", 0, 4), (b"T4:123PRE", 1, 4), (b"T4:123PRE", 0, 39), (b"T4:123PRE", 2, 39)):
            request = _c.call("slc_write_request", tag, reading, 9, b"12", slc_link._requestor(None), 0, _c.output(WRITE_ROOM))
            self.assertEqual(request.address.refused, number, tag)

    def test_a_refused_call_changes_and_tells_nothing_else(self):
        before = bytes(range(256))
        out = bytearray(before)

        def lent(item, length):
            return (item * length).from_buffer(out)

        memory, text, files = lent(c_uint8, 256), lent(c_uint8, 81), (c_uint32 * 3 * 0)()
        table, rows = lent(_c.slc_file_record, 9), lent(c_uint32 * 4, 1)
        q, info = slc_link._requestor(None), _c.call("slc_sys0_info", b"")
        for number, name, *values in (
                (6, "slc_string_swap", bytes(257), memory),
                (6, "slc_question", 1, text),
                (6, "slc_reply_status", b"", text),
                (25, "slc_reply_directory_size", W1[6:18], info),
                (24, "slc_decode_element", Code.ST, bytes(84), text),
                (2, "slc_parse_tag", b"", 0),
                (39, "slc_parse_tag", b"T4:123PRE", 0),
                (2, "slc_dotted", b"T4:123", memory),
                (6, "slc_dotted", b"T4:123PRE", lent(c_uint8, 254)),
                (5, "slc_read_request", b"N7:0{128}", 0, q, 0, memory),
                (39, "slc_read_request", b"T4:123PRE", 2, q, 0, memory),
                (4, "slc_write_request", b"N7:0", 1, _c.SLC_TRUE, b"", q, 0, memory),
                (39, "slc_write_request", b"T4:123PRE", 255, _c.SLC_RAW, b"1234", q, 0, memory),
                (26, "slc_file_directory_read_request", 1, 65536, 1, q, 0, memory),
                (25, "slc_parse_file_directory_size", b"", info),
                (10, "slc_parse_file_directory", 0, 3, 2 * b"\x89\2\0", rows),
                (14, "slc_new", table, _c.output(901), b"", 0, files, b""),
                (15, "slc_new", table, _c.output(902), b"", 1, files, b""),
                (16, "slc_pccc", _c.slc_processor(), table, memory, b"", W1[6:], _c.output(514)),
                (16, "slc_read", _c.slc_processor(), table, b"", b"", _c.slc_spot(), text)):
            answer = _c.call(name, *values)
            self.assertEqual([n for n in numbers(answer) if n], [number], name)
            self.assertEqual(out, before, name)


class TheProgramTags(unittest.TestCase):
    def test_cut_anyhow(self):
        text = b"N7:0\nN7:0/3{2}\n\nT4:0.PRE\r\nB3/4095"
        answers = (b"4B0220672401070910091019710F000000A20207890000\nrefused 3\nrefused 2\nrefused 2\n"
                   b"4B0220672401070910091019710F000000A2020385FFFF0000\n")
        tags = Tags()
        for size in range(1, len(text) + 1):
            said = b"".join(tags.feed(text[at:at + size]) for at in range(0, len(text), size)) + tags.finish()
            self.assertEqual(said, answers)

    def test_utf_8(self):
        text = "ı:0\nT4:1éPRE\nN7:ı\nT4:1\U0001F600PRE\nT4:1/PRE\n"
        timer = b"4B0220672401070910091019710F000000A20604860100\n"
        answers = b"4B0220672401070910091019710F000000A20201830000\nrefused 39\nrefused 2\nrefused 39\n" + timer
        # cut between characters, and inside them
        for whole in (text, text.encode()):
            for size in range(1, len(whole) + 1):
                tags = Tags()
                self.assertEqual(b"".join(tags.feed(whole[at:at + size]) for at in range(0, len(whole), size)), answers)
        for ill_formed in ("T4:1\udce9PRE\n", b"T4:1\xE9PRE\n"):
            self.assertEqual(Tags().feed(ill_formed), b"refused 1\n")


if __name__ == "__main__":
    unittest.main()
