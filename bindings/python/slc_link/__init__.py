"""The SLC planner link: addresses, requests, replies, the file directory and a simulated processor for the data files of SLC 500 and MicroLogix
processors over PCCC.

Every call is a proved function of the library; this package lends it memories and turns its answers into Python's values. A call that the library
refuses raises Refused with the number of the question that was answered with no.

    >>> message = read_request("N7:0", sequence=0x1234).message
    >>> processor = Processor(type_text="1747-L552")
    >>> processor.set(7, FileCode.N, 0, 15)
    >>> processor.pccc(message[6:]).hex(" ")
    '07 09 10 09 10 19 71 4f 00 34 12 0f 00'
    >>> read_request("N7:0/3{2}")
    Traceback (most recent call last):
    slc_link.Refused: refused 3: Is the tag free of a bit together with a count above 1? No.

A tag is UTF-8, as bytes or as str; a str with a lone surrogate, which UTF-8 can't have, is refused with 1. It is read as a new entry, or by
`reading=Reading.STORED` as one of a stored list. Names and texts are Latin-1, as bytes or as str. A number is an int, or what has __index__; it is
never cut: 1.9, "5" and True raise TypeError, one that its parameter can't have OutOfRange, which is a ValueError and an OverflowError. `room` is the
size of the output that a call is lent; each has a default that is enough. The library is the file SLC_LINK_SO, or
target/sharedlib/libslc_link.so of this repository (built by `./slc lib python`).
"""
import struct
import threading
from collections.abc import Iterable
from ctypes import c_int64, c_size_t, c_uint8, c_uint32
from enum import IntEnum
from typing import Any, Literal, NamedTuple, NoReturn, Optional, SupportsIndex, Union

from . import _c
from ._c import OutOfRange

__version__ = "0.3.0"
__all__ = [
    "REQUEST_ROOM", "WRITE_ROOM", "STATUS_ROOM", "REPLY_ROOM", "TEXT_ROOM", "DOTTED_ROOM", "TAG_ROOM", "MOST_FILES", "MOST_DATA", "COMMAND_AT",
    "DATA_AT",
    "Refusal", "Refused", "OutOfRange", "question_of",
    "FileCode", "FileType", "FieldPlace", "type_of_code", "type_of_name", "bit_name", "word_name", "field_of",
    "string_swap", "swap_pairs", "encode_ascii", "encode_string",
    "Whole", "Float", "Text", "Words", "Field", "Fields", "Value", "Element", "encode_element", "decode_element",
    "Reading", "Address", "Requestor", "Request", "parse_tag", "dotted", "default_requestor", "read_request", "write_request",
    "processor_type_request", "datalog_request",
    "reply_status", "reply_datalog", "request_status", "error_text", "parse_datalog",
    "Sys0Info", "ListedFile", "sys0_info", "file_directory_size_request", "file_directory_read_request", "reply_directory_size", "parse_file_directory_size",
    "parse_file_directory",
    "File", "FileRecord", "Processor", "Tags",
]

REQUEST_ROOM, WRITE_ROOM, STATUS_ROOM, REPLY_ROOM, TEXT_ROOM, DOTTED_ROOM, TAG_ROOM = 27, 284, 96, 514, 82, 255, 64
MOST_FILES, MOST_DATA = 256, 65535
# a message's PCCC command begins here, and the data of a reply whose requester's id has the usual 7 bytes
COMMAND_AT, DATA_AT = 6, 11

Bytes = Union[bytes, bytearray, memoryview]
# a str is encoded as UTF-8 for a tag, as Latin-1 for all else
Tag = Union[str, Bytes]
Latin1 = Union[str, Bytes]

# ---- refusals

class Refusal(IntEnum):
    """The questions, by what they ask about: docs/QUESTIONS.md has them in full, and the order in which each call asks."""
    TAG_BYTES = 1
    TAG = 2
    BIT_COUNT = 3
    VALUE = 4
    SIZE = 5
    OUTPUT_ROOM = 6
    DIRECTORY_LENGTH = 7
    ROW_SIZE = 8
    ROW_CUT = 9
    FILES_ROOM = 10
    FILE_TYPE = 11
    FILE_NUMBER = 12
    TYPE_TEXT = 13
    DATA_ROOM = 14
    DATALOG = 15
    UNSOUND = 16
    REPLY_ROOM = 17
    COMMAND = 18
    NO_ELEMENT = 19
    KIND = 20
    FIELD = 21
    NUMBER = 22
    TEXT_LENGTH = 23
    TEXT_ROOM = 24
    REPLY_LENGTH = 25
    OFFSET = 26
    SEPARATOR = 39


class Refused(Exception):
    """The number of the question that was answered with no, one of Refusal."""

    def __init__(self, number: int):
        super().__init__(number)
        self.number = number

    def __str__(self) -> str:
        question = question_of(self.number) if 0 <= self.number <= 255 else None
        return f"refused {self.number}: {question} No." if question else f"refused {self.number}"


def question_of(number: SupportsIndex, room: SupportsIndex = STATUS_ROOM) -> Optional[str]:
    """The question of a number, None where none has it. Refused: 6."""
    return _written("slc_question", number, room=room).decode("ascii") or None


def _test(refused: int) -> None:
    if refused:
        raise Refused(refused)


# ---- values for C


def _bytes(text: Latin1) -> bytes:
    return text.encode("latin-1") if isinstance(text, str) else bytes(memoryview(text))


def _tag(tag: Tag) -> bytes:
    """The bytes of a tag, or of lines of tags. A lone surrogate becomes three bytes that aren't well-formed: the library refuses it."""
    return tag.encode("utf-8", "surrogatepass") if isinstance(tag, str) else bytes(memoryview(tag))


def _written(name: str, *values: Any, room: SupportsIndex) -> bytes:
    """What a call has written to an output of this size, its last parameter."""
    out = _c.output(room)
    written = _c.call(name, *values, out)
    _test(written.refused)
    return bytes(out[:written.length])


# ---- file types


class FileCode(IntEnum):
    """The PCCC type codes."""
    O = 0x82
    I = 0x83
    S = 0x84
    B = 0x85
    T = 0x86
    C = 0x87
    R = 0x88
    N = 0x89
    F = 0x8A
    ST = 0x8D
    A = 0x8E
    L = 0x91
    MG = 0x92
    PD = 0x93
    PLS = 0x94


class FileType(NamedTuple):
    """The type of a data file: its name and code, the bytes of an element, whether the simulated processor knows it, its named status bits."""
    name: str
    code: FileCode
    element_size: int
    simulated: bool
    bits: int


class FieldPlace(NamedTuple):
    """What the name of a field stands for: word number 1 or 2, or bit number 0 to 15 of word 0."""
    kind: Literal["word", "bit"]
    number: int


def _file_type(found: Any) -> Optional[FileType]:
    if not found.known:
        return None
    name = bytes(found.name[:found.name_len]).decode("ascii")
    return FileType(name, FileCode(found.code), found.element_size, bool(found.simulated), found.bits)


def type_of_code(code: SupportsIndex) -> Optional[FileType]:
    """The type of a code, or None."""
    return _file_type(_c.call("slc_type_of_code", code))


def type_of_name(name: Latin1) -> Optional[FileType]:
    """The type of a name in capital letters, or None."""
    return _file_type(_c.call("slc_type_of_name", _bytes(name)))


def _name(found: Any) -> str:
    return bytes(found.text[:found.len]).decode("ascii")


def bit_name(code: SupportsIndex, i: SupportsIndex) -> str:
    """The name of bit 15 - i of word 0; empty where it has none."""
    return _name(_c.call("slc_bit_name", code, i))


def word_name(code: SupportsIndex, i: SupportsIndex) -> str:
    """The name of word i + 1; empty where it has none."""
    return _name(_c.call("slc_word_name", code, i))


def field_of(code: SupportsIndex, name: Latin1) -> Optional[FieldPlace]:
    """What a name, in either case, stands for in an element of T, C or R; None for no such name."""
    found = _c.call("slc_field_of", code, _bytes(name))
    places = {1: FieldPlace("word", found.index + 1), 2: FieldPlace("bit", 15 - found.index)}
    return places.get(found.kind)


# ---- text


def string_swap(data: Latin1, room: Optional[SupportsIndex] = None) -> bytes:
    """The bytes with each pair swapped, an odd length padded with a zero first. Refused: 6."""
    data = _bytes(data)
    return _written("slc_string_swap", data, room=len(data) + 1 if room is None else room)


def swap_pairs(data: Latin1) -> bytes:
    """The bytes with each pair swapped; an odd last byte stays."""
    memory = _c.lent(c_uint8, _bytes(data))
    _c.call("slc_swap_pairs", memory)
    return bytes(memory)


def encode_ascii(text: Latin1, room: SupportsIndex = 2) -> bytes:
    """The 2 bytes of an A element with this text. Refused: 6."""
    return _written("slc_encode_ascii", _bytes(text), room=room)


def encode_string(text: Latin1, room: SupportsIndex = 84) -> bytes:
    """The 84 bytes of an ST element with this text. Refused: 6."""
    return _written("slc_encode_string", _bytes(text), room=room)


# ---- elements


class Whole(NamedTuple):
    """A whole number, of O, I, S, B, N and L."""
    number: int


class Float(NamedTuple):
    """The bits of a float, of F."""
    bits: int

    @classmethod
    def of(cls, number: float) -> "Float":
        """The float nearest to a number. OutOfRange: its size is above that of every float of 32 bits."""
        try:
            return cls(*struct.unpack("<I", struct.pack("<f", number)))
        except OverflowError:
            raise OutOfRange(f"{number!r} is beyond the floats of 32 bits") from None

    @property
    def number(self) -> float:
        """The number that the bits stand for."""
        bits = _c.number(c_uint32, self.bits, "bits")
        return float(struct.unpack("<f", struct.pack("<I", bits))[0])


class _Text(NamedTuple):
    text: bytes


class Text(_Text):
    """Latin-1 text, of A and ST; from a str too."""
    __slots__ = ()

    def __new__(cls, text: Latin1) -> "Text":
        return super().__new__(cls, _bytes(text))


class Words(NamedTuple):
    """The three words of T, C and R, to set."""
    a: int
    b: int
    c: int


class Field(NamedTuple):
    """One named field of T, C and R, to set; a bit's number is 1 or 0, or True or False."""
    name: Latin1
    number: int


class Fields(NamedTuple):
    """T, C and R as they are read: words 1 and 2, and word 0 with the bits that have no name cleared."""
    word1: int
    word2: int
    status: int


# what an element can be set to, and what it is read as
Value = Union[SupportsIndex, float, Latin1, Whole, Float, Text, Words, Field]
Element = Union[Whole, Float, Text, Fields]


def _numbers(kind: int, *numbers: Any) -> Any:
    whole = [_c.number(c_int64, number, "a value") for number in numbers]
    return _c.made(_c.slc_value, kind=kind, **dict(zip("abc", whole)))


def _value(value: Value) -> tuple[Any, bytes]:
    """The value for C, and the text beside it. An int is a Whole, a float a Float, text a Text; True and False could mean a bit or a number."""
    if isinstance(value, float):
        value = Float.of(value)
    elif isinstance(value, (str, bytes, bytearray, memoryview)):
        value = Text(value)
    if isinstance(value, Text):
        return _numbers(_c.SLC_TEXT), value.text
    if isinstance(value, Field):
        # a status bit is set to True or False as well
        number = int(value.number) if isinstance(value.number, bool) else value.number
        return _numbers(_c.SLC_FIELD, number), _bytes(value.name)
    if isinstance(value, Float):
        return _numbers(_c.SLC_FLOAT, _c.number(c_uint32, value.bits, "bits")), b""
    if isinstance(value, Words):
        return _numbers(_c.SLC_WORDS, *value), b""
    if isinstance(value, Whole):
        return _numbers(_c.SLC_WHOLE, value.number), b""
    if isinstance(value, bool) or not isinstance(value, SupportsIndex):
        raise TypeError(f"no value of an element: {value!r}")
    return _numbers(_c.SLC_WHOLE, value), b""


def _element(read: Any, text: Any) -> Element:
    _test(read.refused)
    if read.kind == _c.SLC_WHOLE:
        return Whole(read.whole)
    if read.kind == _c.SLC_FLOAT:
        return Float(read.bits)
    if read.kind == _c.SLC_TEXT:
        return Text(bytes(text[:read.length]))
    return Fields(read.word1, read.word2, read.status)


def encode_element(code: SupportsIndex, value: Value, element: Latin1) -> bytes:
    """The bytes, with the element that they begin with set. Refused: 19 to 23."""
    memory = _c.lent(c_uint8, _bytes(element))
    _test(_c.call("slc_encode_element", code, *_value(value), memory))
    return bytes(memory)


def decode_element(code: SupportsIndex, element: Latin1, room: SupportsIndex = TEXT_ROOM) -> Element:
    """The element that these bytes begin with: a Whole, Float, Text or Fields. Refused: 19, 20, 24."""
    text = _c.output(room)
    return _element(_c.call("slc_decode_element", code, _bytes(element), text), text)


# ---- addresses and requests


class Reading(IntEnum):
    """How a tag is read. As a new entry a timer's or counter's tag has a full stop or a slash before the name, as one of a stored list any character but a
    newline; else there is no difference. Any number but that of STORED is a new entry, which takes nothing that a stored list doesn't."""
    NEW = _c.SLC_READING_NEW
    STORED = _c.SLC_READING_STORED


class Address(NamedTuple):
    """The address that a tag spells. `bit` is true where the tag names a bit, or a field of T or C; `kept` counts the bytes of the tag that are kept,
    not the characters: those before `{`, or all of C, of T, and of S with a bit."""
    code: FileCode
    file_number: int
    element_number: int
    position: Optional[int]
    sub_element: Optional[int]
    bit: bool
    element_count: int
    kept: int


class Requestor(NamedTuple):
    """Who asks: two vendor bytes and four serial bytes, as sent."""
    vid: bytes
    vsn: bytes


class Request(NamedTuple):
    """A request: the address that it is for, and the message."""
    address: Address
    message: bytes


# what a requester is given as
Vendor = tuple[Union[Bytes, Iterable[SupportsIndex]], Union[Bytes, Iterable[SupportsIndex]]]


def _address(found: Any) -> Address:
    _test(found.refused)
    return Address(FileCode(found.code), found.file_number, found.element_number, found.position if found.has_position else None,
                   found.sub_element if found.has_sub_element else None, bool(found.bit), found.element_count, found.kept)


def _octets(values: Union[Bytes, Iterable[SupportsIndex]]) -> bytes:
    return bytes(_c.number(c_uint8, value, "a requester's byte") for value in values)


def _requestor(q: Optional[Vendor]) -> Any:
    """The requester for C; None is the default one."""
    if q is None:
        return _c.call("slc_default_requestor")
    vid, vsn = map(_octets, q)
    if len(vid) != 2 or len(vsn) != 4:
        raise ValueError("a requester has two vendor bytes and four serial bytes")
    return _c.slc_requestor((c_uint8 * 2)(*vid), (c_uint8 * 4)(*vsn))


def _request(name: str, *values: Any, room: SupportsIndex) -> Request:
    out = _c.output(room)
    built = _c.call(name, *values, out)
    return Request(_address(built.address), bytes(out[:built.length]))


def parse_tag(tag: Tag, *, reading: SupportsIndex = Reading.NEW) -> Address:
    """The address that a tag spells. Where a file letter is read, a dotless ı is an I and a long ſ an S; the separator of a timer or counter
    address is a full stop or a slash, in a stored list any character but a newline. Refused: 1, 2, 39.

    >>> parse_tag("T4:123PRE", reading=Reading.STORED).element_number, parse_tag("T4:12.PRE").element_number
    (12, 12)
    >>> parse_tag("T4:123PRE")
    Traceback (most recent call last):
    slc_link.Refused: refused 39: Is a timer's or counter's separator in a new entry a full stop or a slash? No.
    """
    return _address(_c.call("slc_parse_tag", _tag(tag), reading))


def dotted(tag: Tag, room: SupportsIndex = DOTTED_ROOM) -> str:
    """The text of a tag of a stored list with a timer's or counter's separator replaced by a full stop; any other tag as it is, with its count. The
    text is accepted as a new entry and names the same address; only `kept` may be less, where the separator had several bytes. Refused: 1, 2, 6.

    >>> dotted("T4:123PRE"), dotted("N7:0{2}")
    ('T4:12.PRE', 'N7:0{2}')
    """
    return _written("slc_dotted", _tag(tag), room=room).decode("utf-8")


def default_requestor() -> Requestor:
    """09 10 and 09 10 19 71."""
    q = _c.call("slc_default_requestor")
    return Requestor(bytes(q.vid), bytes(q.vsn))


def read_request(tag: Tag, requestor: Optional[Vendor] = None, sequence: SupportsIndex = 0, room: SupportsIndex = REQUEST_ROOM, *,
                 reading: SupportsIndex = Reading.NEW) -> Request:
    """The message that reads what a tag names. Refused: 1, 2, 39, 3, 5, 6."""
    return _request("slc_read_request", _tag(tag), reading, _requestor(requestor), sequence, room=room)


def write_request(tag: Tag, value: Union[Bytes, bool, Text], requestor: Optional[Vendor] = None, sequence: SupportsIndex = 0,
                  room: SupportsIndex = WRITE_ROOM, *, reading: SupportsIndex = Reading.NEW) -> Request:
    """The message that writes to what a tag names: bytes (mask and data, as they are), True, False, or a Text. Refused: 1, 2, 39, 3 to 6."""
    if isinstance(value, bool):
        kind, data = _c.SLC_TRUE if value else _c.SLC_FALSE, b""
    elif isinstance(value, Text):
        kind, data = _c.SLC_LATIN1, value.text
    else:
        kind, data = _c.SLC_RAW, bytes(memoryview(value))
    return _request("slc_write_request", _tag(tag), reading, kind, data, _requestor(requestor), sequence, room=room)


def processor_type_request(requestor: Optional[Vendor] = None, sequence: SupportsIndex = 0, room: SupportsIndex = REQUEST_ROOM) -> bytes:
    """The message that asks for the processor's type. Refused: 6."""
    return _written("slc_processor_type_request", _requestor(requestor), sequence, room=room)


def datalog_request(queue: SupportsIndex, room: SupportsIndex = REQUEST_ROOM) -> bytes:
    """The message that asks for the oldest entry of a datalog queue. Refused: 6."""
    return _written("slc_datalog_request", queue, room=room)


# ---- replies


def _part(name: str, data: bytes) -> bytes:
    part = _c.call(name, data)
    start: int = getattr(part, "from")
    return data[start:start + part.length]


def reply_status(reply: Latin1, room: SupportsIndex = STATUS_ROOM) -> Optional[str]:
    """The status of a reply in words, None for success. The reply begins with the requester's id, as Processor.pccc gives it. Refused: 6."""
    return _written("slc_reply_status", _bytes(reply), room=room).decode("ascii") or None


def reply_datalog(reply: Latin1) -> bytes:
    """The datalog entry of a reply that begins with the requester's id, empty where the reply is too short."""
    return _part("slc_reply_datalog", _bytes(reply))


def request_status(raw: Latin1, room: SupportsIndex = STATUS_ROOM) -> Optional[str]:
    """As reply_status, of a connected reply with its encapsulation, whose id has 7 bytes: its PCCC begins at byte 50. Refused: 6."""
    return _written("slc_request_status", _bytes(raw), room=room).decode("ascii") or None


def error_text(status: SupportsIndex, room: SupportsIndex = STATUS_ROOM) -> Optional[str]:
    """The text of a status code, None where it has none. Refused: 6."""
    return _written("slc_error_text", status, room=room).decode("ascii") or None


def parse_datalog(raw: Latin1) -> bytes:
    """As reply_datalog, of a connected reply with its encapsulation, whose id has 7 bytes: its PCCC begins at byte 50."""
    return _part("slc_parse_datalog", _bytes(raw))


# ---- the file directory, as a client reads it


class Sys0Info(NamedTuple):
    """Where a processor keeps its directory: place of the first row, bytes of a row, type code that reads it, element that holds its size and how
    many bytes are asked of that, what the processor adds to the size."""
    file_position: int
    row_size: int
    file_type: int
    size_element: int
    size_len: int
    size_const: int


class ListedFile(NamedTuple):
    """A file of a directory: number, type code, elements, length in bytes. Its first three are what Processor takes."""
    number: int
    code: FileCode
    elements: int
    length: int


def sys0_info(plc_type: Latin1) -> Sys0Info:
    """Where a processor keeps its directory, by its type text."""
    info = _c.call("slc_sys0_info", _bytes(plc_type))
    return Sys0Info(*(getattr(info, name) for name in Sys0Info._fields))


def _sys0(info: Sys0Info) -> Any:
    return _c.made(_c.slc_sys0, **Sys0Info(*info)._asdict())


def file_directory_size_request(info: Sys0Info, requestor: Optional[Vendor] = None, sequence: SupportsIndex = 0,
                                room: SupportsIndex = REQUEST_ROOM) -> bytes:
    """The message that asks for the directory's size. Refused: 6."""
    return _written("slc_file_directory_size_request", _sys0(info), _requestor(requestor), sequence, room=room)


def file_directory_read_request(file_type: SupportsIndex, offset: SupportsIndex, size: SupportsIndex, requestor: Optional[Vendor] = None,
                                sequence: SupportsIndex = 0, room: SupportsIndex = REQUEST_ROOM) -> bytes:
    """The message that reads `size` bytes of the directory from an offset on. Refused: 26, 6."""
    return _written("slc_file_directory_read_request", file_type, offset, size, _requestor(requestor), sequence, room=room)


def _size(found: Any) -> int:
    _test(found.refused)
    return int(found.bytes)


def reply_directory_size(reply: Latin1, info: Sys0Info) -> int:
    """The directory's size in a reply that begins with the requester's id, as Processor.pccc gives it, less what the processor adds; it may be
    negative. Refused: 25, where the reply has less than two bytes of data."""
    return _size(_c.call("slc_reply_directory_size", _bytes(reply), _sys0(info)))


def parse_file_directory_size(raw: Latin1, info: Sys0Info) -> int:
    """As reply_directory_size, of a connected reply with its encapsulation, whose id has 7 bytes: its PCCC begins at byte 50. Refused: 25, where
    that has less than 63 bytes."""
    return _size(_c.call("slc_parse_file_directory_size", _bytes(raw), _sys0(info)))


def parse_file_directory(file_position: SupportsIndex, row_size: SupportsIndex, data: Latin1,
                         room: Optional[SupportsIndex] = None) -> list[ListedFile]:
    """The files of a directory's rows. Refused: 7 to 10; `room` counts files."""
    data, row = _bytes(data), _c.number(c_size_t, row_size, "row_size")
    out = _c.output(min(len(data), MOST_DATA) // max(row, 1) + 1 if room is None else room, c_uint32 * 4)
    written = _c.call("slc_parse_file_directory", file_position, row, data, out)
    _test(written.refused)
    return [ListedFile(number, FileCode(code), elements, length) for code, number, elements, length in out[:written.length]]


# ---- the simulated processor


class File(NamedTuple):
    """A file that a processor is to have."""
    number: int
    code: int
    elements: int


class FileRecord(NamedTuple):
    """A file that a processor has: its bytes are data[start:start + length]."""
    number: int
    code: FileCode
    start: int
    length: int


def _row(number: SupportsIndex, code: SupportsIndex, elements: SupportsIndex) -> Any:
    named = {"a file's number": number, "a file's type code": code, "a file's count of elements": elements}
    return (c_uint32 * 3)(*(_c.number(c_uint32, value, what) for what, value in named.items()))


def _end_to_end(entries: list[bytes]) -> bytes:
    """The entries, each behind its length word. One above 65,535 bytes has none; cut there, it is refused as any above 255 is."""
    return b"".join(struct.pack("<H", min(len(entry), 65535)) + entry[:65535] for entry in entries)


class Processor:
    """The simulated processor, with its file records, its data and its datalog. It stays sound (question 16), since only the library changes it.

    Threads may share one: its calls take turns. copy.copy and copy.deepcopy give an independent one; it can't be pickled.
    """

    def __init__(self, files: Iterable[tuple[SupportsIndex, SupportsIndex, SupportsIndex]] = (), type_text: Latin1 = b"",
                 datalog: Iterable[Latin1] = ()):
        """A processor of these files (each number, type code, elements), of this type text and of these datalog entries, the oldest first. No
        files: the default ones. The data is zeros. Refused: 11 to 15."""
        rows, entries = [_row(*file) for file in files], [_bytes(entry) for entry in datalog]
        table, memory = _c.output(MOST_FILES, _c.slc_file_record), _c.output(MOST_DATA)
        self._log = _c.lent(c_uint8, _end_to_end(entries))
        built = _c.call("slc_new", table, memory, self._log, len(entries), (c_uint32 * 3 * len(rows))(*rows), _bytes(type_text))
        _test(built.refused)
        self._lock = threading.Lock()
        self._slc = built.slc
        self._table = (_c.slc_file_record * built.slc.files).from_buffer_copy(table)
        self._memory = (c_uint8 * sum(record.length for record in self._table)).from_buffer_copy(memory)

    def pccc(self, command: Latin1, room: SupportsIndex = REPLY_ROOM) -> bytes:
        """The reply to a command, from the requester's id on. A command that the processor can't do has a reply too, which says so. Refused:
        17, 18."""
        asked, reply = _bytes(command), _c.output(room)
        with self._lock:
            done = _c.call("slc_pccc", self._slc, self._table, self._memory, self._log, asked, reply)
            _test(done.refused)
            self._slc = done.slc
        return bytes(reply[:done.length])

    def read(self, number: SupportsIndex, code: SupportsIndex, element: SupportsIndex, room: SupportsIndex = TEXT_ROOM) -> Element:
        """An element: a Whole, Float, Text or Fields. Refused: 19, 24."""
        at, text = _c.made(_c.slc_spot, number=number, code=code, element=element), _c.output(room)
        with self._lock:
            read = _c.call("slc_read", self._slc, self._table, self._memory, self._log, at, text)
        return _element(read, text)

    def set(self, number: SupportsIndex, code: SupportsIndex, element: SupportsIndex, value: Value) -> None:
        """Sets an element to an int, a float, text, Words, a Field, or one of the classes above. Refused: 19 to 23."""
        made, text = _value(value)
        to = _c.made(_c.slc_setting, number=number, code=code, element=element, value=made)
        with self._lock:
            _test(_c.call("slc_set", self._slc, self._table, self._memory, self._log, to, text))

    @property
    def files(self) -> list[FileRecord]:
        """Its files, by their numbers."""
        with self._lock:
            return [FileRecord(f.number, FileCode(f.code), f.start, f.length) for f in self._table]

    @property
    def data(self) -> bytes:
        """The bytes of all files, end to end."""
        with self._lock:
            return bytes(self._memory)

    @property
    def datalog_left(self) -> int:
        """How many datalog entries are left."""
        with self._lock:
            return int(self._slc.log_left)

    def __copy__(self) -> "Processor":
        twin = object.__new__(type(self))
        with self._lock:
            twin.__dict__.update(self.__dict__)
            for name in ("_slc", "_table", "_memory", "_log"):
                memory = getattr(self, name)
                setattr(twin, name, type(memory).from_buffer_copy(memory))
        twin._lock = threading.Lock()
        return twin

    def __deepcopy__(self, memo: object) -> "Processor":
        return self.__copy__()

    def __reduce__(self) -> NoReturn:
        raise TypeError("a Processor can't be pickled: copy it, or build another of its files, type text and datalog")


# ---- the program `tags`


class Tags:
    """The program `tags`: a read request in capital hexadecimal for each line of the input, or `refused` and the number, with the default requester
    and sequence 0. The input, lines of tags that are read as new entries, comes in pieces: bytes cut anyhow, also inside a character, or str."""

    def __init__(self) -> None:
        self._line = _c.call("slc_line_empty")

    def feed(self, piece: Tag) -> bytes:
        """The answers to the lines that end in a piece of the input."""
        piece = _tag(piece)
        return b"".join(self._feed(piece[at:at + 1024]) for at in range(0, len(piece), 1024))

    def _feed(self, piece: bytes) -> bytes:
        out = _c.output(TAG_ROOM * len(piece))
        fed = _c.call("slc_tags_feed", self._line, piece, out)
        self._line = fed.line
        return bytes(out[:fed.used])

    def finish(self) -> bytes:
        """The answer to a last line that has no newline. A new input may follow."""
        out = _c.output(TAG_ROOM)
        used = _c.call("slc_tags_finish", self._line, out)
        self._line = _c.call("slc_line_empty")
        return bytes(out[:used])
