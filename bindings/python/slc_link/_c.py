"""The C interface as it is, include/slc_link.h, and how it is called. bindings/test-header compares the declarations with the header and with the
library."""
import ctypes
import errno
import operator
import os
from ctypes import POINTER, Array, Structure, c_int16, c_int32, c_int64, c_size_t, c_uint8, c_uint16, c_uint32, c_uint64
from functools import cache
from pathlib import Path
from typing import Any, NamedTuple



class slc_file_type(Structure):
    _fields_ = [("known", c_uint8), ("code", c_uint8), ("element_size", c_uint8), ("simulated", c_uint8), ("bits", c_uint8),
                ("name_len", c_uint8), ("name", c_uint8 * 3)]


class slc_name(Structure):
    _fields_ = [("len", c_uint8), ("text", c_uint8 * 3)]


class slc_field(Structure):
    _fields_ = [("kind", c_uint8), ("index", c_uint8)]


class slc_written(Structure):
    _fields_ = [("refused", c_uint8), ("length", c_size_t)]


SLC_WHOLE, SLC_FLOAT, SLC_TEXT, SLC_WORDS, SLC_FIELD = 0, 1, 2, 3, 4


class slc_value(Structure):
    _fields_ = [("kind", c_uint8), ("a", c_int64), ("b", c_int64), ("c", c_int64)]


class slc_element(Structure):
    _fields_ = [("refused", c_uint8), ("kind", c_uint8), ("whole", c_int32), ("bits", c_uint32), ("length", c_size_t), ("word1", c_int16),
                ("word2", c_int16), ("status", c_uint16)]


SLC_READING_NEW, SLC_READING_STORED = 0, 1


class slc_address(Structure):
    _fields_ = [("refused", c_uint8), ("code", c_uint8), ("file_number", c_uint16), ("element_number", c_uint16), ("has_position", c_uint8),
                ("position", c_uint16), ("has_sub_element", c_uint8), ("sub_element", c_uint16), ("bit", c_uint8),
                ("element_count", c_uint64), ("kept", c_size_t)]


class slc_requestor(Structure):
    _fields_ = [("vid", c_uint8 * 2), ("vsn", c_uint8 * 4)]


class slc_request(Structure):
    _fields_ = [("address", slc_address), ("length", c_size_t)]


SLC_RAW, SLC_FALSE, SLC_TRUE, SLC_LATIN1 = 0, 1, 2, 3


class slc_part(Structure):
    _fields_ = [("from", c_size_t), ("length", c_size_t)]


class slc_sys0(Structure):
    _fields_ = [("file_position", c_size_t), ("row_size", c_size_t), ("file_type", c_uint8), ("size_element", c_uint8),
                ("size_len", c_uint8), ("size_const", c_uint16)]


class slc_directory_size(Structure):
    _fields_ = [("refused", c_uint8), ("bytes", c_int32)]


class slc_file_record(Structure):
    _fields_ = [("number", c_uint16), ("code", c_uint8), ("start", c_uint16), ("length", c_uint16)]


class slc_processor(Structure):
    _fields_ = [("files", c_size_t), ("type_text", c_uint8 * 11), ("type_len", c_size_t), ("log_at", c_size_t), ("log_left", c_size_t)]


class slc_built(Structure):
    _fields_ = [("slc", slc_processor), ("refused", c_uint8)]


class slc_done(Structure):
    _fields_ = [("slc", slc_processor), ("refused", c_uint8), ("length", c_size_t)]


class slc_spot(Structure):
    _fields_ = [("number", c_uint16), ("code", c_uint8), ("element", c_size_t)]


class slc_setting(Structure):
    _fields_ = [("number", c_uint16), ("code", c_uint8), ("element", c_size_t), ("value", slc_value)]


class slc_line(Structure):
    _fields_ = [("bytes", c_uint8 * 256), ("kept", c_size_t)]


class slc_fed(Structure):
    _fields_ = [("line", slc_line), ("taken", c_size_t), ("used", c_size_t)]


class Lent(NamedTuple):
    """A lent memory, two parameters in C: a pointer to its items, and how many there are."""
    item: Any
    written: bool


_IN, _OUT = Lent(c_uint8, False), Lent(c_uint8, True)
_TABLE = Lent(slc_file_record, False)

# each call: what it gives, and its parameters in their order
CALLS: dict[str, tuple[Any, dict[str, Any]]] = {
    "slc_type_of_code": (slc_file_type, dict(code=c_uint8)),
    "slc_type_of_name": (slc_file_type, dict(name=_IN)),
    "slc_bit_name": (slc_name, dict(code=c_uint8, i=c_size_t)),
    "slc_word_name": (slc_name, dict(code=c_uint8, i=c_size_t)),
    "slc_field_of": (slc_field, dict(code=c_uint8, name=_IN)),
    "slc_string_swap": (slc_written, dict(bytes=_IN, out=_OUT)),
    "slc_swap_pairs": (None, dict(bytes=_OUT)),
    "slc_encode_ascii": (slc_written, dict(text=_IN, out=_OUT)),
    "slc_encode_string": (slc_written, dict(text=_IN, out=_OUT)),
    "slc_encode_element": (c_uint8, dict(code=c_uint8, value=slc_value, text=_IN, element=_OUT)),
    "slc_decode_element": (slc_element, dict(code=c_uint8, element=_IN, text=_OUT)),
    "slc_parse_tag": (slc_address, dict(tag=_IN, reading=c_uint8)),
    "slc_dotted": (slc_written, dict(tag=_IN, out=_OUT)),
    "slc_default_requestor": (slc_requestor, dict()),
    "slc_read_request": (slc_request, dict(tag=_IN, reading=c_uint8, q=slc_requestor, sequence=c_uint16, out=_OUT)),
    "slc_write_request": (slc_request, dict(tag=_IN, reading=c_uint8, kind=c_uint8, bytes=_IN, q=slc_requestor, sequence=c_uint16, out=_OUT)),
    "slc_processor_type_request": (slc_written, dict(q=slc_requestor, sequence=c_uint16, out=_OUT)),
    "slc_datalog_request": (slc_written, dict(queue=c_uint8, out=_OUT)),
    "slc_request_status": (slc_written, dict(raw=_IN, out=_OUT)),
    "slc_reply_status": (slc_written, dict(reply=_IN, out=_OUT)),
    "slc_error_text": (slc_written, dict(status=c_uint8, out=_OUT)),
    "slc_parse_datalog": (slc_part, dict(raw=_IN)),
    "slc_reply_datalog": (slc_part, dict(reply=_IN)),
    "slc_question": (slc_written, dict(number=c_uint8, out=_OUT)),
    "slc_sys0_info": (slc_sys0, dict(plc_type=_IN)),
    "slc_file_directory_size_request": (slc_written, dict(info=slc_sys0, q=slc_requestor, sequence=c_uint16, out=_OUT)),
    "slc_file_directory_read_request": (slc_written, dict(file_type=c_uint8, offset=c_size_t, size=c_uint8, q=slc_requestor, sequence=c_uint16,
                                                          out=_OUT)),
    "slc_parse_file_directory_size": (slc_directory_size, dict(raw=_IN, info=slc_sys0)),
    "slc_reply_directory_size": (slc_directory_size, dict(reply=_IN, info=slc_sys0)),
    "slc_parse_file_directory": (slc_written, dict(file_position=c_size_t, row_size=c_size_t, bytes=_IN, out=Lent(c_uint32 * 4, True))),
    "slc_new": (slc_built, dict(table=Lent(slc_file_record, True), memory=_OUT, log=_IN, count=c_size_t, files=Lent(c_uint32 * 3, False),
                                text=_IN)),
    "slc_pccc": (slc_done, dict(slc=slc_processor, table=_TABLE, memory=_OUT, log=_IN, command=_IN, reply=_OUT)),
    "slc_read": (slc_element, dict(slc=slc_processor, table=_TABLE, memory=_IN, log=_IN, at=slc_spot, text=_OUT)),
    "slc_set": (c_uint8, dict(slc=slc_processor, table=_TABLE, memory=_OUT, log=_IN, to=slc_setting, text=_IN)),
    "slc_line_empty": (slc_line, dict()),
    "slc_tags_feed": (slc_fed, dict(line=slc_line, piece=_IN, out=_OUT)),
    "slc_tags_finish": (c_size_t, dict(line=slc_line, out=_OUT)),
}


# ---- the shared object


def shared_object() -> Path:
    """The file that is loaded: SLC_LINK_SO, or what `./slc lib python` builds in this repository."""
    named = os.environ.get("SLC_LINK_SO")
    return Path(named).absolute() if named else Path(__file__).resolve().parents[3] / "target/sharedlib/libslc_link.so"


@cache
def library() -> ctypes.PyDLL:
    path = shared_object()
    if not path.is_file():
        raise FileNotFoundError(errno.ENOENT, "no shared object of the SLC link: build it with `./slc lib python`, or set SLC_LINK_SO to it", str(path))
    # PyDLL keeps the interpreter's lock; the calls are short
    loaded = ctypes.PyDLL(str(path))
    for name, (result, parameters) in CALLS.items():
        try:
            function = getattr(loaded, name)
        except AttributeError:
            raise OSError(f"{path} has no {name}, so it is of another version than this module: build it anew with `./slc lib python`") from None
        function.restype = result
        function.argtypes = [t for p in parameters.values() for t in ((POINTER(p.item), c_size_t) if isinstance(p, Lent) else (p,))]
    return loaded


# ---- calling it


class OutOfRange(OverflowError, ValueError):
    """A number that its parameter can't have, since C's type doesn't hold it."""


def number(kind: Any, value: Any, what: str) -> int:
    """The number, where C's type holds it: ctypes would cut it. True and False are no numbers."""
    try:
        whole = operator.index(value)
    except TypeError:
        raise TypeError(f"{what} is a whole number, not {value!r}") from None
    if isinstance(value, bool):
        raise TypeError(f"{what} is a whole number, not {value!r}")
    span = 1 << 8 * ctypes.sizeof(kind)
    least = -span // 2 if kind(-1).value < 0 else 0
    if not least <= whole < least + span:
        raise OutOfRange(f"{what} is {least} to {least + span - 1}, not {whole}")
    return whole


def made(struct: Any, /, **fields: Any) -> Any:
    """A struct of C with these fields."""
    types = dict(struct._fields_)
    return struct(**{n: v if issubclass(types[n], (Structure, Array)) else number(types[n], v, n) for n, v in fields.items()})


def lent(item: Any, memory: Any) -> Any:
    """The memory as an array of C: an array as it is, bytes as a copy, so that nothing else writes to it while a call runs."""
    if isinstance(memory, Array):
        return memory
    return (item * len(memory)).from_buffer_copy(memory) if len(memory) else (item * 0)()


def output(room: Any, item: Any = c_uint8) -> Any:
    """A memory of this many items, all zero."""
    return (item * number(c_size_t, room, "room"))()


def call(name: str, *values: Any) -> Any:
    """Calls the library. A lent memory is one value, an array or bytes."""
    arguments: list[Any] = []
    for (what, kind), value in zip(CALLS[name][1].items(), values, strict=True):
        if isinstance(kind, Lent):
            memory = lent(kind.item, value)
            arguments += [memory, len(memory)]
        else:
            arguments.append(value if isinstance(value, Structure) else number(kind, value, what))
    return getattr(library(), name)(*arguments)
