#!/usr/bin/env python3
"""An independent model of a scan's rules, written from document 01 alone, and the cases that the program scan_run is run on.

    python3 make.py ../../crates/scan_run

writes the program's `stdin` (a case a line: length, fill, first 48 bytes, in hexadecimal) and `stdout` (what 01 says of each).
"""
import math
import struct
import sys

HOLD = 70016  # the longest run that the program makes


# ---- the model

def contents(size, fill, first):
    run = bytearray((i * 7 + fill) % 256 for i in range(HOLD))
    run[:48] = first
    return bytes(run[:size])


def whole(eight):
    """The length that a Real*8 holds, or None: sign bit clear, and exactly an integer."""
    x = struct.unpack('>d', eight)[0]
    if math.isnan(x) or math.isinf(x) or math.copysign(1, x) < 0 or x != math.floor(x):
        return None
    return int(x)


def judge(run, saving):
    """(0, HEADLEN, DATALEN), or (number of the first rule broken,)."""
    size = len(run)
    if size < 256 or (saving and size > 65536):
        return (1,)
    words = struct.unpack('>16h', run[:32])
    count, starts = words[0], words[1:]
    if not 13 <= count <= 15:
        return (2,)
    used = starts[:count]
    if used[0] != 5 or used[1] < 21 or any(b <= a for a, b in zip(used, used[1:])):
        return (3,)
    head = whole(run[32:40])
    if head is None or head % 8 or head < 8 * used[-1] or head > size or head > 65536:
        return (4,)
    rest = whole(run[40:48])
    if rest is None or rest % 4 or rest > 65536 or head + rest > size:
        return (5,)
    if saving and head + rest != size:
        return (6,)
    return (0, head, rest)


def class_span(run, number):
    verdict = judge(run, False)
    if verdict[0]:
        return None
    words = struct.unpack('>16h', run[:32])
    count, starts = words[0], words[1:]
    if not 1 <= number <= count:
        return (0, 0)
    begin = 8 * (starts[number - 1] - 1)
    return (begin, verdict[1] if number == count else 8 * (starts[number] - 1))


def data_span(run):
    verdict = judge(run, False)
    return None if verdict[0] else (verdict[1], verdict[1] + verdict[2])


def line(run):
    def rules(saving):
        v = judge(run, saving)
        return f' broken {v[0]} |' if v[0] else f' {v[1]} {v[2]} |'

    def place(span):
        return f' {span[0]} {span[1]} |' if span else f' refused 11 {judge(run, False)[0]} |'

    def total(span):
        return f' {sum(run[span[0]:span[1]]) if span else 0}'

    spans = ''.join(place(class_span(run, k)) for k in (1, 13, 15, 16, 0))
    return (f' {len(run)} |' + rules(False) + rules(True) + spans + place(data_span(run))
            + total(class_span(run, 1)) + total(data_span(run)))


# ---- the cases

def real(x):
    return struct.pack('>d', x)


def bits(n):
    return struct.pack('>Q', n)


STARTS = [5, 21, 22, 23, 24, 25, 26, 27, 28, 29, 30, 31, 32, 33, 34]


def case(size=320, count=13, starts=None, head=None, rest=None, fill=None, patch=()):
    """A scan that keeps the rules but for what is given."""
    starts = list(STARTS if starts is None else starts)
    for k, v in patch:
        starts[k - 1] = v
    if head is None:
        head = real(8 * STARTS[max(1, min(count, 15)) - 1])
    if rest is None:
        h = struct.unpack('>d', head)[0]
        rest = real(max(0, (size - (int(h) if 0 <= h < 1e6 else 0)) // 4 * 4))
    first = struct.pack('>H', count & 0xffff) + b''.join(struct.pack('>H', v & 0xffff) for v in starts) + head + rest
    return (size, (size * 31 + count) % 256 if fill is None else fill, first)


def cases():
    # rule 1: the length
    for size in (0, 1, 2, 31, 32, 33, 39, 40, 47, 48, 49, 100, 255, 256, 257, 259, 260, 264, 512, 1000, 4096, 32768, 65532, 65535, 65536, 65537, 65540, 69996, 70000):
        yield case(size)
        yield case(size, rest=real(0))
    # rule 2: the count of classes, and the classes that there are
    for count in (0, 1, 2, 12, 13, 14, 15, 16, 17, 255, 0x0d00, 0x0e00, 0x7fff, 0x8000, 0x800d, 0xfff3, 0xffff):
        yield case(400, count=count, head=real(272))
    for count in (13, 14, 15):
        for head in (256, 264, 272, 280):
            yield case(600, count=count, head=real(head))
    # rule 3: start 1, start 2, each greater than the one before; unused starts not judged
    for v in (0, 4, 6, 0x0500, -5, 0x8005, 0x7fff):
        yield case(patch=[(1, v)])
    for v in (5, 6, 19, 20, 22, 0x1500, -21, 0x8015):
        yield case(patch=[(2, v)])
    yield case(600, head=real(512), patch=[(k, 20 + 3 * (k - 1)) for k in range(2, 16)])
    for k in range(3, 14):
        yield case(patch=[(k, STARTS[k - 2])])
        yield case(patch=[(k, STARTS[k - 2] - 1)])
    for v in (0, -1, 0x8000, 32, 0x7fff):
        yield case(count=13, patch=[(14, v), (15, v)])
        yield case(600, count=14, patch=[(14, v), (15, v)])
        yield case(600, count=15, patch=[(15, v)])
    yield case(70000, patch=[(13, 8191)], head=real(65528), rest=real(4))
    yield case(70000, patch=[(13, 8192)], head=real(65536), rest=real(0))
    yield case(70000, patch=[(13, 8193)], head=real(65536), rest=real(0))
    yield case(70000, patch=[(13, 0x7fff)], head=real(65536), rest=real(0))
    # rule 4: HEADLEN
    for x in (0.0, -0.0, 1.0, 8.0, 248.0, 252.0, 255.5, 256.5, 257.0, 260.0, 264.0, -256.0, 312.0, 320.0, 328.0, 65536.0, 65544.0, 2.0 ** 32 + 256,
              2.0 ** 53, 2.0 ** 63, 2.0 ** 64, 1e300, 5e-324, math.inf, -math.inf):
        yield case(head=real(x), rest=real(0))
    for b in (0x7ff0000000000001, 0x7ff8000000000000, 0xfff8000000000000, 0x0000000000000100, 0x4070000000000001, 0x4070080000000000, 0x4080000000000000):
        yield case(head=bits(b), rest=real(0))
    for size, head in ((65536, 65536), (65536, 65528), (70000, 65536), (70000, 65544), (70000, 69992), (65535, 65528), (65540, 65536)):
        yield case(size, head=real(head), rest=real(0))
    # rule 5: DATALEN
    for x in (0.0, -0.0, 1.0, 2.0, 4.0, 0.5, 60.0, 62.0, 63.0, 64.0, 65.0, 66.0, 68.0, -4.0, 65536.0, 65540.0, 2.0 ** 32 + 4, 2.0 ** 53, 2.0 ** 64 - 2048, 1e300,
              math.inf, -math.inf):
        yield case(rest=real(x))
    for b in (0x7ff0000000000001, 0x7ff8000000000000, 0x0000000000000004, 0x4050000000000001):
        yield case(rest=bits(b))
    for size, rest in ((65792, 65536), (65800, 65536), (65800, 65540), (70000, 65536), (70000, 69744), (65536, 65280), (65536, 65284), (65536, 65276)):
        yield case(size, rest=real(rest))
    # rule 6: the whole scan, when saving; and two rules broken at once
    for size in (324, 321, 322, 323, 319, 316, 4096, 65536):
        yield case(size, rest=real(64))
    yield case(100, count=2)
    yield case(66000, count=2)
    yield case(count=12, patch=[(1, 6)])
    yield case(patch=[(1, 6)], head=real(-8))
    yield case(head=real(252), rest=real(2))
    yield case(rest=real(2))
    yield case(70000, rest=real(2))


def main():
    folder = sys.argv[1]
    made = list(cases())
    with open(folder + '/stdin', 'w') as out:
        for size, fill, first in made:
            out.write(f'{size:06x} {fill:02x} {first.hex()}\n')
    with open(folder + '/stdout', 'w') as out:
        for size, fill, first in made:
            out.write(line(contents(size, fill, first)) + '\n')
    print(len(made), 'cases')


main()
