"""frames.py: the file format that the program `test_vectors` reads, and the lines it prints.

A file is a sequence of frames. A frame is

    1 byte    the operation, from the list below
    5 × 4     big-endian lengths: curve, first, second, output, running total
    bytes     of the curve, the first, the second and the running total, in this order

The output is only a length: the program lends a buffer of that many bytes, each 0xA5. The running total is
68 bytes of a scan, eight big-endian 64-bit numbers weight, u0, u1, u2, v0, v1, v2, count and the pole in 32 bits; a check of an order has its
primes there, any number of bytes; a pole file to be written has its pole there, 4 bytes; every other frame has none. A pole file to be read
stands in the place of the first.

Each frame is answered by one line: the answer's fields in decimal with one space between; a scan's total after
number, place and length; for a call with an output one space and the whole buffer in lower-case hexadecimal, `-` for an
empty buffer. Operation 0 is a label: its bytes stand in the place of the curve and are printed with one space
after them and no line feed, so that the next frame's answer ends the line. A multiple is run through both multiply calls,
a scan through the scan by value and the lent one, which must have the same line.
"""
import os
from collections import namedtuple

import reference
from records import in_4_bytes, in_8_bytes

LABEL, CHECK_CURVE, CHECK_DIVISOR, REWRITE_CURVE, REWRITE_DIVISOR, ADD = 0, 1, 2, 3, 4, 5
DOUBLE, OPPOSITE, MULTIPLY, TOTAL_BATCH, FIRST_REPEAT, SCAN = 6, 7, 8, 9, 10, 11
CHECK_ORDER, SPLIT, NEXT_DIVISOR, WRITE_POLE_FILE, READ_POLE_FILE = 15, 16, 17, 18, 19  # 12 to 14 are the program's own

NAMES = {
    LABEL: "label", CHECK_CURVE: "check_curve", CHECK_DIVISOR: "check_divisor", REWRITE_CURVE: "rewrite_curve",
    REWRITE_DIVISOR: "rewrite_divisor", ADD: "add", DOUBLE: "double", OPPOSITE: "opposite", MULTIPLY: "multiply",
    TOTAL_BATCH: "total_batch", FIRST_REPEAT: "first_repeat", SCAN: "scan", CHECK_ORDER: "check_order",
    SPLIT: "split", NEXT_DIVISOR: "next_divisor", WRITE_POLE_FILE: "write_pole_file", READ_POLE_FILE: "read_pole_file",
}  # fmt: skip
CALLS = tuple(operation for operation in NAMES if operation != LABEL)
WITH_OUTPUT = {REWRITE_CURVE, REWRITE_DIVISOR, ADD, DOUBLE, OPPOSITE, MULTIPLY, TOTAL_BATCH, SPLIT, NEXT_DIVISOR, WRITE_POLE_FILE, READ_POLE_FILE}
WITH_FIRST = set(CALLS) - {CHECK_CURVE, REWRITE_CURVE}
WITH_SECOND = {ADD, MULTIPLY, CHECK_ORDER}

GUARD = 0xA5
MOST_PAYLOAD = 65515
MOST_OUTPUT = 208  # a curve record has at most 199
MOST_FILE_OUTPUT = 512  # of a pole file written or read

# output: a length; total: None or a tuple of nine numbers; primes: bytes; pole: None or a number
Frame = namedtuple("Frame", "operation curve first second output total primes pole", defaults=(b"", b"", b"", 0, None, b"", None))


def label(text):
    return Frame(LABEL, text.encode("ascii"))


def running_total_bytes(total):
    return b"" if total is None else in_8_bytes(total[:8]) + in_4_bytes(total[8:])


def most_output(operation):
    return MOST_FILE_OUTPUT if operation in (WRITE_POLE_FILE, READ_POLE_FILE) else MOST_OUTPUT


def encoded(frame):
    """The frame's bytes; what an operation doesn't take must be empty."""
    assert frame.first == b"" or frame.operation in WITH_FIRST
    assert frame.second == b"" or frame.operation in WITH_SECOND
    assert frame.output == 0 or frame.operation in WITH_OUTPUT
    assert (frame.total is not None) == (frame.operation == SCAN)
    assert frame.primes == b"" or frame.operation == CHECK_ORDER
    assert (frame.pole is not None) == (frame.operation == WRITE_POLE_FILE)
    assert frame.curve == b"" or frame.operation != READ_POLE_FILE
    last = running_total_bytes(frame.total) + frame.primes + (b"" if frame.pole is None else in_4_bytes([frame.pole]))
    payload = frame.curve + frame.first + frame.second + last
    assert len(payload) <= MOST_PAYLOAD and frame.output <= most_output(frame.operation)
    lengths = (len(frame.curve), len(frame.first), len(frame.second), frame.output, len(last))
    return bytes([frame.operation]) + b"".join(n.to_bytes(4, "big") for n in lengths) + payload


def decoded(data):
    """All frames of a file; anything left over or cut is an error."""
    frames, at = [], 0
    while at < len(data):
        head = data[at : at + 21]
        if len(head) != 21:
            raise ValueError("a cut frame")
        lengths = [int.from_bytes(head[1 + 4 * i : 5 + 4 * i], "big") for i in range(5)]
        at += 21
        parts = []
        for k in (0, 1, 2, 4):
            part = data[at : at + lengths[k]]
            if len(part) != lengths[k]:
                raise ValueError("a cut frame")
            parts.append(part)
            at += lengths[k]
        operation, last = head[0], parts.pop()
        if operation != CHECK_ORDER and len(last) != {SCAN: 68, WRITE_POLE_FILE: 4}.get(operation, 0):
            raise ValueError("a running total of %d bytes" % len(last))
        total, pole = None, int.from_bytes(last[-4:], "big")
        if operation == SCAN:
            total = (*(reference.number_at(last, 8 * i) for i in range(8)), pole)
        primes = last if operation == CHECK_ORDER else b""
        frames.append(Frame(operation, *parts, lengths[3], total, primes, pole if operation == WRITE_POLE_FILE else None))
    return frames


def answer(frame):
    """The fields and the output as it returns, or None. reference.py's functions have the calls' names, and take what
    the frame has in its order, a scan its total first, a pole file to be written its pole."""
    operation = frame.operation
    if operation not in CALLS:
        raise ValueError("operation %d" % operation)
    given = (
        (operation == SCAN, frame.total),
        (operation == WRITE_POLE_FILE, frame.pole),
        (operation != READ_POLE_FILE, frame.curve),
        (operation in WITH_FIRST, frame.first),
        (operation in WITH_SECOND, frame.second),
        (operation in WITH_OUTPUT, bytes([GUARD]) * frame.output),
        (operation == CHECK_ORDER, frame.primes),
    )
    return getattr(reference, NAMES[operation])(*(part for taken, part in given if taken))


def text_of(frame, answered=None):
    """What the program prints for the frame."""
    if frame.operation == LABEL:
        return frame.curve.decode("ascii") + " "
    fields, out = answered or answer(frame)
    line = " ".join(str(field) for field in fields)
    if frame.operation in WITH_OUTPUT:
        line += " " + (out.hex() or "-")
    return line + "\n"


# A file of frames in parts of at most 65,536 bytes, with no more text, which is what the program has room for at a time: PATH.a, PATH.b and on.
MOST_PART = 65536


def in_parts(frames, lines):
    """The frames' bytes, cut between frames; `lines` has what each prints."""
    parts, printed = [b""], 0
    for data, line in zip(map(encoded, frames), lines):
        assert len(data) <= MOST_PART and len(line) <= MOST_PART
        if len(parts[-1]) + len(data) > MOST_PART or printed + len(line) > MOST_PART:
            parts.append(b"")
            printed = 0
        parts[-1] += data
        printed += len(line)
    return parts


def part_paths(path, count):
    assert count <= 26
    return [path + "." + chr(ord("a") + k) for k in range(count)]


def read_parts(path):
    """The bytes of all parts that are there, one after the other."""
    data = b""
    for part in part_paths(path, 26):
        if os.path.exists(part):
            with open(part, "rb") as file:
                data += file.read()
    return data
