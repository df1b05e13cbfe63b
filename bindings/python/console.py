#!/usr/bin/env python3
"""console.py < lines: answers the lines of oracle/PROTOCOL.md through slc_link, one answer a line, as `./slc console` does. So the library for C can
be held to the stored sample, and to the Rust:

    CONSOLE='python3 bindings/python/console.py' oracle/bin/compare SEED N
"""
import re
import sys
from ctypes import c_uint8

import slc_link as slc
from slc_link._c import slc_file_record

LONGEST_LINE = 262144
WIDE, SIGNED, LOG_ROOM = 2**64 - 1, 2**63, 64 * 257


class Wrong(Exception):
    """The line is none of the protocol."""


# ---- fields


def byte_string(text):
    if text == b"-":
        return b""
    if not re.fullmatch(rb"(?:[0-9A-Fa-f]{2})+", text):
        raise Wrong("hex")
    return bytes.fromhex(text.decode())


def digits(length):
    def field(text):
        if not re.fullmatch(rb"[0-9A-Fa-f]{%d}" % length, text):
            raise Wrong("hex")
        return bytes.fromhex(text.decode())
    return field


def requester(text):
    q = digits(12)(text)
    return q[:2], q[2:]


def number(most=WIDE, least=0):
    def field(text):
        shape = re.fullmatch(rb"(-?)0*([0-9]{1,20})" if least < 0 else rb"()0*([0-9]{1,20})", text)
        value = int(shape[1] + shape[2]) if shape else most + 1
        if not least <= value <= most:
            raise Wrong("number")
        return value
    return field


def words(text):
    parts = text.split(b",")
    if len(parts) != 3:
        raise Wrong("number")
    return slc.Words(*map(signed, parts))


def file_list(text):
    def file(part):
        a, b, c = (part.split(b":", 2) + [b"", b""])[:3]
        # C has 32 bits for each number; what has more is too large in any case
        type_code, number, elements = code(a), unsigned(b), unsigned(c)
        return min(number, 2**32 - 1), type_code, min(elements, 2**32 - 1)
    return [] if text == b"-" else [file(part) for part in text.split(b",")]


def entry_list(text):
    def entry(part):
        if part == b"-":
            raise Wrong("hex")
        return b"" if part == b"." else byte_string(part)
    return [] if text == b"-" else [entry(part) for part in text.split(b",")]


def code(text):
    return digits(2)(text)[0]


def bits(text):
    return slc.Float(int.from_bytes(digits(8)(text), "big"))


unsigned, signed, word, byte, flag = number(), number(SIGNED - 1, -SIGNED), number(65535), number(255), number(1)


# ---- answers


def hexadecimal(data):
    return data.hex().upper() or "-"


def shown_element(code, element):
    if isinstance(element, slc.Whole):
        return f"i:{element.number}"
    if isinstance(element, slc.Float):
        return f"f:{element.bits:08X}"
    if isinstance(element, slc.Text):
        return f"s:{hexadecimal(element.text)}"
    named = "".join(str(element.status >> 15 - i & 1) for i in range(slc.type_of_code(code).bits))
    return f"t:{element.word1}:{element.word2}:{named}"


def shown_type(t):
    return f"{hexadecimal(t.name.encode())} {t.element_size} {t.code:02X}" if t else "none"


def shown_text(text):
    return hexadecimal(text.encode()) if text else "none"


def shown_address(tag, **reading):
    a = slc.parse_tag(tag, **reading)
    maybe = ["-" if n is None else n for n in (a.position, a.sub_element)]
    return " ".join(map(str, (f"{a.code:02X}", a.file_number, a.element_number, *maybe, int(a.bit), a.element_count, a.kept)))


def simulated_type(code):
    t = slc.type_of_code(code)
    if not t or not t.simulated:
        return "none"
    names = [slc.word_name(code, i) for i in range(2)] + [slc.bit_name(code, i) for i in range(t.bits)]
    return " ".join([shown_type(t)] + [hexadecimal(name.encode()) for name in names if name])


def shown_sys0(text):
    i = slc.sys0_info(text)
    return f"{i.file_position} {i.row_size} {i.file_type:02X} {i.size_element:02X} {i.size_len:02X} {i.size_const}"


def shown_directory(first, row_size, data, **room):
    files = slc.parse_file_directory(first, row_size, data, **room)
    return " ".join([str(len(files))] + [f"{f.code:02X}:{f.number}:{f.elements}:{f.length}" for f in files])


# ---- the processor of the lines


def padded(array, item, length):
    """The same items in an array of this length."""
    longer = (item * length)()
    longer[:len(array)] = array
    return longer


class Sim:
    processor = None

    def build(self, text, files, log):
        self.processor = None
        p = slc.Processor(files, text, log)
        # as the console's, which `spoil` can then damage alike
        p._table = padded(p._table, slc_file_record, slc.MOST_FILES)
        p._memory = padded(p._memory, c_uint8, slc.MOST_DATA)
        p._log = padded(p._log, c_uint8, LOG_ROOM)
        self.processor = p

    def there(self):
        if self.processor is None or self.processor._slc.files == 0:
            raise slc.Refused(16)
        return self.processor

    def records(self):
        p = self.there()
        return p, p._table[:min(p._slc.files, slc.MOST_FILES)]

    def fill(self, number, data):
        p, records = self.records()
        for r in records:
            if (r.number, r.length) == (number, len(data)):
                p._memory[r.start:r.start + r.length] = list(data)
                return
        raise slc.Refused(19)

    def command(self, command, **room):
        return hexadecimal(self.there().pccc(command, **room))

    def get(self, code, number, element, **room):
        return shown_element(code, self.there().read(min(number, 65535), code, element, **room))

    def set(self, code, number, element, value):
        self.there().set(min(number, 65535), code, element, value)

    def spoil(self, kind, *values):
        p = self.processor
        if p is None:
            return
        if kind == "record":
            i, number, code, start, length = values
            if i < slc.MOST_FILES:
                p._table[i] = slc_file_record(number % 65536, code, start % 65536, length % 65536)
        elif kind in ("text", "log"):
            memory = p._slc.type_text if kind == "text" else p._log
            if values[0] < len(memory):
                memory[values[0]] = values[1]
        else:
            setattr(p._slc, {"files": "files", "typelen": "type_len", "logat": "log_at", "logleft": "log_left"}[kind], *values)

    def entries(self, p):
        at, log = p._slc.log_at, bytes(p._log)
        for _ in range(min(p._slc.log_left, 64)):
            length = int.from_bytes(log[at:at + 2], "little")
            yield log[at + 2:at + 2 + length]
            at += 2 + length

    def dump(self):
        p, records = self.records()
        data = bytes(p._memory)
        files = [f"{r.number}:{r.code:02X}:{hexadecimal(data[r.start:r.start + r.length])}" for r in records]
        return " ".join([str(len(files))] + files + ["log", str(p._slc.log_left)] + [hexadecimal(e) for e in self.entries(p)])

    def hash(self):
        p, records = self.records()
        data, h = bytes(p._memory), 0xCBF29CE484222325
        for r in records:
            for b in data[r.start:r.start + r.length]:
                h = (h ^ b) * 0x100000001B3 & WIDE
        return f"{h:016X} {p._slc.log_left}"

    def directory(self):
        p = self.there()
        info = slc.sys0_info(bytes(p._slc.type_text[:p._slc.type_len]))

        def asked(message):
            return p.pccc(message[6:])[11:]

        total = int.from_bytes(asked(slc.file_directory_size_request(info))[:2], "little") - info.size_const
        parts = [asked(slc.file_directory_read_request(info.file_type, at // 2, min(200, total - at))) for at in range(0, total, 200)]
        return hexadecimal(b"".join(parts))


# ---- calls: the shapes of the fields, and what answers; `**room` goes to those that have an output, the reading in `**named` to those that are told it

ELEMENT = {b"int": [signed], b"float": [bits], b"text": [byte_string], b"words": [words], b"field": [byte_string, signed]}
WRITE = {b"raw": [byte_string], b"bool": [flag], b"text": [byte_string]}
SPOIL = {b"files": [unsigned], b"typelen": [unsigned], b"logat": [unsigned], b"logleft": [unsigned],
         b"record": [unsigned, unsigned, code, unsigned, unsigned], b"text": [unsigned, code], b"log": [unsigned, code]}


def element_value(kind, *values):
    made = {b"int": slc.Whole, b"text": slc.Text, b"field": slc.Field}
    return made[kind](*values) if kind in made else values[0]


def write_value(kind, value):
    return {b"raw": lambda: value, b"bool": lambda: bool(value), b"text": lambda: slc.Text(value)}[kind]()


def calls(sim):
    def message(call):
        return lambda *values, **room: hexadecimal(call(*values, **room))

    def write(tag, q, sequence, *value, **named):
        return hexadecimal(slc.write_request(tag, write_value(*value), q, sequence, **named).message)

    return {
        "tag": ([byte_string], shown_address),
        "dotted": ([byte_string], lambda tag, **room: hexadecimal(slc.dotted(tag, **room).encode())),
        "read": ([byte_string, requester, word], lambda *v, **named: hexadecimal(slc.read_request(*v, **named).message)),
        "write": ([byte_string, requester, word, WRITE], write),
        "proc": ([requester, word], message(slc.processor_type_request)),
        "datalogreq": ([byte], message(slc.datalog_request)),
        "sys0": ([byte_string], shown_sys0),
        "dirsizereq": ([byte_string, requester, word], message(lambda text, *v, **room: slc.file_directory_size_request(slc.sys0_info(text), *v, **room))),
        "dirreadreq": ([code, unsigned, byte, requester, word], message(slc.file_directory_read_request)),
        "dirsize": ([byte_string, byte_string], lambda text, raw: slc.parse_file_directory_size(raw, slc.sys0_info(text))),
        "dir": ([unsigned, unsigned, byte_string], shown_directory),
        "status": ([byte_string], lambda raw, **room: shown_text(slc.request_status(raw, **room))),
        "errtext": ([code], lambda status, **room: shown_text(slc.error_text(status, **room))),
        "datalogparse": ([byte_string], message(slc.parse_datalog)),
        "ft": ([code], lambda c: shown_type(slc.type_of_code(c))),
        "ftname": ([byte_string], lambda name: shown_type(slc.type_of_name(name))),
        "simft": ([code], simulated_type),
        "swap": ([byte_string], message(slc.string_swap)),
        "pairs": ([byte_string], message(slc.swap_pairs)),
        "ascii": ([byte_string], message(slc.encode_ascii)),
        "string": ([byte_string], message(slc.encode_string)),
        "enc": ([code, byte_string, ELEMENT], lambda c, data, *value: hexadecimal(slc.encode_element(c, element_value(*value), data))),
        "dec": ([code, byte_string], lambda c, data, **room: shown_element(c, slc.decode_element(c, data, **room))),
        "sim": ([byte_string, file_list, entry_list], sim.build),
        "fill": ([unsigned, byte_string], sim.fill),
        "cmd": ([byte_string], sim.command),
        "get": ([code, unsigned, unsigned], sim.get),
        "set": ([code, unsigned, unsigned, ELEMENT], lambda c, n, e, *value: sim.set(c, n, e, element_value(*value))),
        "spoil": ([SPOIL], lambda kind, *values: sim.spoil(kind.decode(), *values)),
        "dump": ([], sim.dump),
        "hash": ([], sim.hash),
        "directory": ([], sim.directory),
    }


# as PROTOCOL.md has it: `room` has no effect on `swap`
WITH_OUTPUT = {"dotted", "read", "write", "proc", "datalogreq", "dirsizereq", "dirreadreq", "dir", "status", "errtext", "dec", "get", "cmd"}
# those that `new` may stand before; without it they read a tag as from a stored list
WITH_READING = {"tag", "read", "write"}


def values_of(shapes, fields):
    """The values of the fields; a KIND stands before its values."""
    kinds = shapes[-1] if shapes and isinstance(shapes[-1], dict) else None
    if kinds is None:
        if len(fields) != len(shapes):
            raise Wrong("fields")
        return [shape(field) for shape, field in zip(shapes, fields)]
    at = len(shapes) - 1
    if len(fields) <= at:
        raise Wrong("fields")
    kind = fields[at]
    if kind not in kinds:
        raise Wrong("kind")
    values = values_of(shapes[:at] + kinds[kind], fields[:at] + fields[at + 1:])
    return values[:at] + [kind] + values[at:]


class Console:
    def __init__(self):
        self.calls = calls(Sim())

    def asked(self, call, *fields, room=None, new=False):
        name = call.decode("latin-1")
        if name == "room" and room is None:
            if len(fields) < 2:
                raise Wrong("fields")
            return self.asked(*fields[1:], room=unsigned(fields[0]), new=new)
        if name == "new" and not new:
            if not fields:
                raise Wrong("fields")
            return self.asked(*fields, room=room, new=True)
        if name not in self.calls or new and name not in WITH_READING:
            raise Wrong("call")
        shapes, answer = self.calls[name]
        # no call needs more room than this
        named = {"room": min(room, 70000)} if room is not None and name in WITH_OUTPUT else {}
        if name in WITH_READING:
            named["reading"] = slc.Reading.NEW if new else slc.Reading.STORED
        return answer(*values_of(shapes, list(fields)), **named)

    def answer(self, line):
        if len(line) > LONGEST_LINE:
            return b"error line"
        if not line or line.startswith(b"#"):
            return line
        try:
            said = self.asked(*line.split(b" "))
            return b"ok" if said is None else f"ok {said}".encode()
        except slc.Refused as refused:
            return b"refused %d" % refused.number
        except Wrong as wrong:
            return f"error {wrong}".encode()


def main():
    console = Console()
    for line in sys.stdin.buffer:
        sys.stdout.buffer.write(console.answer(line.removesuffix(b"\n")) + b"\n")


if __name__ == "__main__":
    main()
