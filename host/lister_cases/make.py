#!/usr/bin/env python3
"""A small lister, written from document 01 and request 2026-01 of 02 alone, and the files that the programs lister and lister_cases are run on.

    python3 make.py ../../crates

writes `data/`, `args` and `stdout` of lister_cases, and `stdin` and `stdout` of lister. Each case says by hand what is to be printed, and the
small lister has to say the same, or nothing is written.
"""
import pathlib
import struct
import sys

LONGEST = 65536


def bootstrap(n, d, l, m, u, counter=0, kind=0, version=1):
    return struct.pack(">8I", n, d, l, m, u, counter, kind, version)


def file_of(n, d, l, m, u, entries, counter=0, length=None):
    """A file with these runs in its index. Bytes that the list does not depend on are not zero."""
    f = bytearray((i * 37 + 11) % 251 for i in range((n + d) * l if length is None else length))
    f[: n * l] = bytes(n * l)
    f[:32] = bootstrap(n, d, l, m, u, counter)
    f[32:l] = b"\xa5" * (l - 32)
    for slot, (first, last) in entries.items():
        home = l + (slot - 1) * m
        f[home : home + 8] = struct.pack(">2I", first, last)
        f[home + 8 : home + m] = b"\x5a" * (m - 8)
    return bytes(f)


def old_file_of(n, d, l, m, u, entries, counter=0, magic=2):
    """The same in the old form. Empty entries have a magic number and a position code too, and bytes 12 to 27 are junk."""
    f = bytearray(file_of(n, d, l, m, 0, {}))
    f[:32] = struct.pack(">5hH", n, d, l, m, u, counter) + b"\xa5" * 16 + bytes(4)
    for slot in range(1, (n - 1) * l // m + 1):
        home = l + (slot - 1) * m
        f[home : home + 8] = struct.pack(">4h", *entries.get(slot, (0, 0)), magic, -13)
        f[home + 8 : home + m] = b"\x5a" * (m - 8)
    return bytes(f)


def patched(f, word, value):
    """The same with bootstrap word `word`, counted from 1, changed."""
    return f[: 4 * word - 4] + struct.pack(">I", value) + f[4 * word :]


def old_patched(f, word, value):
    """The same in the old form, whose words have 16 bits."""
    return f[: 2 * word - 2] + struct.pack(">h", value) + f[2 * word :]


def lister(f):
    """What 01 says that the lister prints, of either form."""
    if len(f) > LONGEST:
        return "too long\n"

    def refused(number, slot=0):
        return f"refused {number} slot {slot}\n"

    if len(f) < 512:
        return refused(1)
    n, d, l, m, u, _, kind, version = struct.unpack(">8I", f[:32])
    if version not in (0, 1):
        return refused(3)
    if version == 0:
        n, d, l, m, u, _ = struct.unpack(">5hH", f[:12])
        kind = 0
    if not (2 <= n <= 513 and 0 <= d and n + d <= 1000000 and 512 <= l <= 4096 and 64 <= m <= l and l % m == 0 and kind <= 1):
        return refused(4)
    slots = (n - 1) * l // m
    if slots > 4096 or not 0 <= u <= slots:
        return refused(4)
    if (n + d) * l > len(f):
        return refused(5)
    pair = ">2I" if version == 1 else ">2h"
    runs = [struct.unpack_from(pair, f, l + s * m) for s in range(slots)]
    for s, (first, last) in enumerate(runs[:u], 1):
        if (first, last) != (0, 0) and not n + 1 <= first <= last <= n + d:
            return refused(6, s)
    for s, run in enumerate(runs[u:], u + 1):
        if run != (0, 0):
            return refused(7, s)
    taken = set()
    for s, (first, last) in enumerate(runs[:u], 1):
        records = set(range(first, last + 1)) - {0}
        if taken & records:
            return refused(8, s)
        taken |= records
    scans = [(s, *run) for s, run in enumerate(runs, 1) if run != (0, 0)]
    head = f"slots {slots} used {u} scans {len(scans)}\n"
    return head + "".join(f"{s} {first} {last}\n" for s, first, last in scans)


def run_of_the_paper(make=file_of):
    """Blank 4,096 bytes with N 3, L 512, M 64; then 1,000 bytes to slot 1, 512 to slot 9, and 1,000 to slot 1 again."""
    return make(3, 5, 512, 64, 9, {1: (7, 8), 9: (6, 6)}, counter=3)


PAPER = "slots 16 used 9 scans 2\n1 7 8\n9 6 6\n"
GOOD = file_of(2, 6, 512, 64, 5, {1: (3, 4), 3: (5, 5), 5: (7, 8)})
OLD = old_file_of(2, 6, 512, 64, 5, {1: (3, 4), 3: (5, 5), 5: (7, 8)}, counter=0xFFFF)
FULL = file_of(2, 8, 512, 64, 8, {s: (11 - s, 11 - s) for s in range(1, 9)})
WIDE = file_of(9, 119, 512, 64, 64, {s: (8 + 2 * s, 8 + 2 * s) for s in range(1, 60)} | {64: (127, 128)})

CASES = [
    ("empty", b"", "refused 1 slot 0\n"),
    ("bytes_511", GOOD[:511], "refused 1 slot 0\n"),
    ("unknown_form", patched(GOOD, 8, 2), "refused 3 slot 0\n"),
    ("version_0", patched(GOOD, 8, 0), "refused 4 slot 0\n"),
    ("n_514", patched(GOOD, 1, 514), "refused 4 slot 0\n"),
    ("m_96", patched(GOOD, 4, 96), "refused 4 slot 0\n"),
    ("u_above_capacity", patched(GOOD, 5, 9), "refused 4 slot 0\n"),
    ("kind_2", patched(GOOD, 7, 2), "refused 4 slot 0\n"),
    ("all_ones", patched(GOOD, 2, 0xFFFFFFFF), "refused 4 slot 0\n"),
    ("cut_short", GOOD[:-1], "refused 5 slot 0\n"),
    ("in_the_index", file_of(2, 6, 512, 64, 5, {1: (3, 4), 3: (2, 5), 5: (7, 9)}), "refused 6 slot 3\n"),
    ("past_d", file_of(2, 6, 512, 64, 5, {1: (3, 4), 5: (7, 9)}), "refused 6 slot 5\n"),
    ("turned_round", file_of(2, 6, 512, 64, 5, {2: (6, 5), 4: (3, 3)}), "refused 6 slot 2\n"),
    ("above_use", file_of(2, 6, 512, 64, 5, {1: (3, 4), 6: (5, 5), 7: (3, 3)}), "refused 7 slot 6\n"),
    ("shared", file_of(2, 6, 512, 64, 8, {2: (3, 5), 4: (6, 6), 7: (5, 5), 8: (6, 6)}), "refused 8 slot 7\n"),
    ("six_before_eight", file_of(2, 6, 512, 64, 8, {2: (3, 5), 3: (4, 4), 8: (1, 1)}), "refused 6 slot 8\n"),
    ("blank", file_of(3, 0, 512, 64, 0, {}, length=4096), "slots 16 used 0 scans 0\n"),
    ("entry_u_empty", file_of(2, 6, 512, 64, 8, {1: (3, 4)}), "slots 8 used 8 scans 1\n1 3 4\n"),
    ("one_record_more", GOOD + bytes(511), "slots 8 used 5 scans 3\n1 3 4\n3 5 5\n5 7 8\n"),
    ("full", FULL, "slots 8 used 8 scans 8\n1 10 10\n2 9 9\n3 8 8\n4 7 7\n5 6 6\n6 5 5\n7 4 4\n8 3 3\n"),
    ("paper_run", run_of_the_paper(), PAPER),
    ("old_run", run_of_the_paper(old_file_of), PAPER),
    ("old_magics", run_of_the_paper(lambda *words, **more: old_file_of(*words, magic=1, **more)), PAPER),
    ("old_counter", OLD, "slots 8 used 5 scans 3\n1 3 4\n3 5 5\n5 7 8\n"),
    ("old_bytes_511", OLD[:511], "refused 1 slot 0\n"),
    ("old_unknown", patched(OLD, 8, 0x00010000), "refused 3 slot 0\n"),
    ("old_version_1", patched(OLD, 8, 1), "refused 4 slot 0\n"),
    ("old_minus_1", old_patched(OLD, 2, -1), "refused 4 slot 0\n"),
    ("old_u_minus_1", old_patched(OLD, 5, -1), "refused 4 slot 0\n"),
    ("old_cut_short", OLD[:-1], "refused 5 slot 0\n"),
    ("old_negative", old_file_of(2, 6, 512, 64, 5, {1: (3, 4), 4: (-32768, -32768)}), "refused 6 slot 4\n"),
    ("old_past_d", old_file_of(2, 6, 512, 64, 5, {1: (3, 4), 5: (7, 9)}), "refused 6 slot 5\n"),
    ("old_above_use", old_file_of(2, 6, 512, 64, 5, {1: (3, 4), 7: (-1, 0)}), "refused 7 slot 7\n"),
    ("old_shared", old_file_of(2, 6, 512, 64, 8, {2: (3, 5), 4: (6, 6), 7: (5, 5), 8: (6, 6)}), "refused 8 slot 7\n"),
    ("bytes_65536", WIDE, None),
    ("bytes_65537", WIDE + b"\0", "too long\n"),
]

# What cannot be read has no verdict: a folder, which opens and then fails to be read, and a name that no file has.
UNREAD = [(".", "cannot read"), ("missing", "no such file")]


def main(crates):
    cases, program = crates / "lister_cases", crates / "lister"
    for name, data, text in CASES:
        assert text is None or lister(data) == text, f"{name}: {lister(data)!r} is not {text!r}"
    assert len(WIDE) == LONGEST and lister(WIDE).startswith("slots 64 used 64 scans 60\n1 10 10\n")
    (cases / "data").mkdir(exist_ok=True)
    for left in set(path.name for path in (cases / "data").iterdir()) - set(name for name, _, _ in CASES):
        (cases / "data" / left).unlink()
    for name, data, _ in CASES:
        (cases / "data" / name).write_bytes(data)
    names = [name for name, _, _ in CASES] + [name for name, _ in UNREAD]
    (cases / "args").write_text("".join(f"{name}\n" for name in names))
    texts = [f"{name}:\n{lister(data)}" for name, data, _ in CASES] + [f"{name}:\n{said}\n" for name, said in UNREAD]
    (cases / "stdout").write_text("".join(texts))
    (program / "stdin").write_bytes(run_of_the_paper())
    (program / "stdout").write_text(PAPER)


main(pathlib.Path(sys.argv[1]))
