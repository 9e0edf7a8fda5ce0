"""Makes crates/sheet_cases/stdin and stdout: sheets of every kind, and of each its report and its preview by the reference.

    python3 outside/sheet_cases.py SEED FOLDER
"""

import random
import sys

import reference as ref


def sheet(code, word, marks):
    out = bytearray(4 * (code.n + 2))
    assert ref.write_sheet(code, word, marks, out) == 0
    return bytes(out)


def stripe(rng, numbers, lost):
    """A codeword of a random message with some slots lost."""
    code = ref.Code(*numbers)
    message = bytes(rng.randrange(ref.order(code.field)) for _ in range(code.k))
    word, marks = bytearray(code.n), bytearray(code.n)
    assert ref.encode(code, message, word) == 0
    for p in lost:
        marks[p] = 1
    return code, word, marks


def changed(data, word, value):
    """The sheet with another 32-bit word at a place."""
    return data[: 4 * word] + value.to_bytes(4, "big") + data[4 * word + 4 :]


def samples(rng):
    small, wired = (0, 2, 9, 4), (0, 2, 9, 4, 1)
    yield bytes.fromhex("1002030120000005300001002000020540000003")
    yield sheet(*stripe(rng, small, range(4)))
    yield sheet(*stripe(rng, small, [2, 5, 6, 7, 8]))
    yield sheet(*stripe(rng, small, range(4, 9)))
    yield sheet(*stripe(rng, (1, 16, 255, 240), [7]))
    yield sheet(*stripe(rng, (1, 2, 255, 100), range(3, 90)))
    good = sheet(*stripe(rng, small, []))
    yield changed(good, 9, 2 << 28 | 8 << 8 | (good[39] + 1) % 13)  # foreign
    yield b""  # 12
    yield good[:5]  # 11
    yield changed(good, 0, 2 << 28)  # 12
    yield changed(good, 0, 0x12020904)  # 1
    yield changed(good, 0, 0x10040904)  # 2
    yield changed(good, 0, 0x10020A04)  # 3
    yield changed(good, 0, 0x10020907)  # 4
    yield good + b"\0\0\0\0"  # 13
    yield changed(good, 3, 5 << 28 | 2 << 8)  # 14
    yield changed(good, 3, 3 << 28 | 2 << 8 | 1)  # 14: a lost slot with a symbol
    yield changed(good, 3, 2 << 28 | 3 << 8)  # 14: another slot's word
    yield changed(good, 3, 2 << 28 | 2 << 8 | 13)  # 6
    yield changed(changed(good, 3, 2 << 28 | 2 << 8 | 13), 9, 0)  # 14 before 6
    yield changed(good, 10, 4 << 28 | 8)  # 15
    yield changed(changed(good, 3, 2 << 28 | 2 << 8 | 13), 10, 0)  # 6 before 15
    yield sheet(*stripe(rng, (1, 16, 255, 240), [])) + b"\0" * 8  # the first 1,032 bytes: 13
    yield sheet(*stripe(rng, wired, range(3)))  # one to a group
    yield sheet(*stripe(rng, wired, [1, 2, 4, 7]))
    yield sheet(*stripe(rng, wired, [2, 5, 6, 7, 8]))
    yield sheet(*stripe(rng, wired, [1, 2, 4, 5, 7]))  # undecided
    yield sheet(*stripe(rng, (1, 2, 9, 5, 1), [1, 4]))
    yield sheet(*stripe(rng, (1, 4, 20, 6, 1), (p for p in range(20) if p % 3)))
    yield sheet(*stripe(rng, (1, 2, 9, 5, 1), [0, 3, 6]))  # undecided
    good = sheet(*stripe(rng, wired, []))
    yield good
    yield changed(good, 0, 0x10020904)  # foreign by the other wiring
    yield changed(good, 0, 0x19020904)  # bytes
    yield changed(good, 0, 0x1A020904)  # 1
    yield changed(good, 0, 0x1F020904)  # 1
    yield changed(good, 0, 0x18040904)  # 2
    yield changed(good, 0, 0x18020A04)  # 3
    yield changed(good, 0, 0x18020907)  # 4
    yield good[:-4]  # 13
    short = (0, 2, 11, 5)
    yield sheet(*stripe(rng, short, [0, 4, 10]))  # one to a group
    yield sheet(*stripe(rng, short, [0, 1, 9, 10]))
    yield sheet(*stripe(rng, short, [0, 5, 8, 9, 10]))
    yield sheet(*stripe(rng, short, range(6, 11)))  # undecided
    yield sheet(*stripe(rng, (0, 11, 5, 4), [3]))  # one group
    yield sheet(*stripe(rng, (1, 4, 8, 5), [5, 7]))
    yield sheet(*stripe(rng, (1, 4, 8, 5), [0, 5, 6, 7]))  # undecided
    yield sheet(*stripe(rng, (1, 16, 250, 230), [3, 4, 200, 238, 244, 249]))
    good = sheet(*stripe(rng, short, []))
    yield good
    yield changed(good, 11, 2 << 28 | 10 << 8 | (good[47] + 1) % 13)  # foreign
    yield changed(good, 0, 0x18020B05)  # 17
    yield changed(good, 0, 0x18020B05)[:-4]  # 17 before 13
    yield changed(good, 0, 0x18020B08)  # 4 before 17
    yield changed(good, 0, 0x10020B08)  # 4
    yield changed(good, 0, 0x10030B01)  # 4: below s - 1
    yield changed(good, 0, 0x10020A05)  # 3: one slot in the last group
    yield changed(good, 0, 0x10020005)  # 3: none
    yield changed(good, 0, 0x10020E05)  # 3: past q - 1
    yield changed(good, 0, 0x10020C05)  # 13
    yield sheet(*stripe(rng, small, range(9)))  # nothing kept
    bad = sheet(*stripe(rng, small, range(4, 9)))
    yield changed(bad, 1, 2 << 28 | (bad[7] + 1) % 13)  # foreign, and two codewords would agree on the kept slots
    yield sheet(*stripe(rng, (1, 4, 8, 5), [0, 5, 6]))  # past the guarantee, and decided
    yield sheet(*stripe(rng, (1, 14, 255, 1, 1), []))  # the longest preview
    yield sheet(*stripe(rng, (1, 4, 25, 17), [0, 5, 10, 15]))  # grade 1 or 3 follows


if __name__ == "__main__":
    seed, folder = sys.argv[1:]
    rows = list(samples(random.Random(int(seed))))
    with open(folder + "/stdin", "wb") as f:
        f.write(b"".join(len(row).to_bytes(2, "big") + row for row in rows))
    with open(folder + "/stdout", "w") as f:
        f.write("".join(ref.report_text(row) + ref.preview_text(row) for row in rows))
