"""Checks the reference: the paper's worked cases, brute force over small codes of thirteen by both wirings and with short
last groups, true mates by every codeword and by parity checks, grades, previews and decode_near against decoding, encode_strips
against encode and wrong ways to do it, and which calls vectors.py makes.

    python3 outside/selftest.py
"""

import itertools
import math
import random
import re
import struct
from collections import Counter
from functools import lru_cache
from pathlib import Path

import reference as ref
import vectors
from reference import Code

N = Code(0, 2, 9, 4)
WIRED = N._replace(wiring=1)
ELEVEN = Code(0, 2, 11, 5)  # four groups: the last has slots 9 and 10
ONES = bytes([1, 1, 1, 1])
ONES_WORD = bytes([4, 8, 7, 1, 11, 2, 0, 0, 0])


def encoded(code, message):
    word = bytearray(code.n)
    assert ref.encode(code, bytes(message), word) == 0
    return bytes(word)


def marked(n, lost):
    return bytes(1 if p in lost else 0 for p in range(n))


def decoded(code, word, marks):
    """Decode's answer and message; the work buffer's rule is tested on the way."""
    message, used = bytearray(b"\xaa" * code.k), code.n * (code.k + 1)
    work = bytearray(b"\xbb" * (used + 3))
    refusal = ref.decode(code, word, marks, message, work)
    assert work == bytes(used) + b"\xbb" * 3
    assert refusal == 0 or message == b"\xaa" * code.k
    return refusal, bytes(message)


def near(code, word, marks):
    """What decode_near answers, and its message. Tested on the way: word and marks stay, a refusal's value is 0, and all else
    is as decode has it."""
    used, answers = code.n * (code.k + 1), set()
    for room in (used, used + 3):
        copy, left = bytearray(word), bytearray(marks)
        message, other = bytearray(b"\xaa" * code.k), bytearray(b"\xaa" * code.k)
        work, lent = bytearray(b"\xbb" * room), bytearray(b"\xbb" * room)
        refusal, value = ref.decode_near(code, copy, left, message, work)
        assert refusal == ref.decode(code, word, marks, other, lent) and message == other and work == lent
        assert copy == word and left == marks and (refusal == 0 or value == 0)
        answers.add((refusal, value, bytes(message)))
    assert len(answers) == 1
    return answers.pop()


def grade(code, lost):
    """The grade of these losses; the work buffer's rule is tested on the way."""
    used = code.n * (code.k + 1)
    for room in (used, used + 3):
        work = bytearray(b"\xbb" * room)
        refusal, value = ref.grade(code, marked(code.n, lost), work)
        assert refusal == 0 and work == bytes(used) + b"\xbb" * (room - used)
    return value


def preview(code, slot, lost):
    """The number lost, the grade and the first group with the slot lost too; that the marks stay and the work buffer's rule
    are tested on the way."""
    used, marks = code.n * (code.k + 1), bytearray(marked(code.n, lost))
    for room in (used, used + 3):
        work, out = bytearray(b"\xbb" * room), [7] * 3
        assert ref.preview(code, slot, marks, work, out) == 0 and marks == marked(code.n, lost)
        assert work == bytes(used) + b"\xbb" * (room - used)
    return tuple(out)


def sheet(text):
    return bytes.fromhex(text)


def test_fields():
    assert ref.mul(1, 128, 2) == 29
    for field in (0, 1):
        q = ref.order(field)
        powers = [ref.power(field, 2, e) for e in range(q)]
        assert sorted(powers[:-1]) == list(range(1, q)) and powers[-1] == 1
        assert all(ref.mul(field, a, ref.inverse(field, a)) == 1 for a in range(1, q))


def test_code_numbers():
    refusal = ref.code_refusal
    assert refusal(Code(0, 2, 9, 6)) == 0
    assert refusal(Code(0, 2, 9, 7)) == 4 and refusal(Code(0, 2, 9, 0)) == 4
    assert refusal(Code(0, 2, 12, 4)) == 0
    assert refusal(Code(0, 2, 10, 4)) == 3 and refusal(Code(0, 2, 15, 4)) == 3
    assert refusal(Code(0, 4, 10, 4)) == 2 and refusal(Code(1, 4, 10, 4)) == 0
    largest = Code(1, 16, 255, 240)
    assert refusal(largest) == 0 and ref.guarantee(largest) == 1
    assert refusal(Code(2, 2, 9, 4)) == 1
    legal = [[r for r in range(40) if refusal(Code(f, r, r + 1, 1)) == 0] for f in (0, 1)]
    assert legal == [[1, 2, 3, 5, 11], [2, 4, 14, 16]]
    assert refusal(WIRED) == 0 and refusal(largest._replace(wiring=1)) == 0
    for wiring in (2, 3, 255, 256, 257, 2**32 - 1):
        assert refusal(N._replace(wiring=wiring)) == 17
        assert refusal(Code(0, 2, 9, 7, wiring)) == 4
    assert refusal(Code(0, 2, 10, 4, 1)) == 3  # 17 refuses such n too, behind 3


def test_short_numbers():
    """Every code of thirteen with small numbers, by the sizes of its groups."""
    for r, n, k, wiring in itertools.product(range(18), range(15), range(15), range(3)):
        if r not in (1, 2, 3, 5, 11):
            wanted = 2
        else:
            sizes = [min(r + 1, n - first) for first in range(0, n, r + 1)]
            whole = sizes != [] and min(sizes) == r + 1
            most = sum(size - 1 for size in sizes)  # the symbols that the groups do not settle themselves
            if not sizes or min(sizes) == 1 or len(sizes) * (r + 1) > 12:
                wanted = 3
            elif k not in range(1 if whole else min(sizes) - 1, most + 1):
                wanted = 4
            else:
                wanted = 0 if wiring in ((0, 1) if whole else (0,)) else 17
        assert ref.code_refusal(Code(0, r, n, k, wiring)) == wanted, (r, n, k, wiring)
    for k, wanted in [(10, 4), (11, 0), (230, 0), (235, 0), (236, 4)]:
        assert ref.code_refusal(Code(1, 16, 250, k)) == wanted
    assert ref.code_refusal(Code(1, 2, 254, 1)) == 0 and ref.code_refusal(Code(1, 2, 254, 170)) == 4
    assert ref.code_refusal(Code(1, 2, 253, 100)) == 3 and ref.code_refusal(Code(1, 2, 257, 100)) == 3
    assert ref.code_refusal(Code(1, 16, 16, 15)) == 0 and ref.code_refusal(Code(1, 16, 16, 14)) == 4
    assert ref.code_refusal(Code(1, 16, 250, 10, 1)) == 4 and ref.code_refusal(Code(1, 16, 250, 11, 1)) == 17


def test_classroom():
    assert [ref.point(N, p) for p in range(9)] == [1, 3, 9, 2, 6, 5, 4, 12, 10]
    assert encoded(N, ONES) == ONES_WORD
    assert ref.repair(N, 0, bytes([8, 7])) == (0, 4)
    assert ref.guarantee(N) == 4
    assert decoded(N, ONES_WORD, marked(9, range(4))) == (0, ONES)
    assert grade(N, range(4)) == 2
    assert decoded(N, ONES_WORD, marked(9, [2, 5, 6, 7, 8])) == (0, ONES)
    assert grade(N, [2, 5, 6, 7, 8]) == 3
    assert decoded(N, ONES_WORD, marked(9, range(4, 9)))[0] == 10
    assert grade(N, range(4, 9)) == 4 and grade(N, range(9)) == 4
    assert decoded(N, ONES_WORD[:8] + b"\1", bytes(9))[0] == 9
    assert decoded(N, ONES_WORD, bytes([1] * 9))[0] == 10
    assert ref.repair(Code(0, 2, 3, 1), 0, bytes([5, 7])) == (9, 0)


def test_wired_classroom():
    """N by wiring 1: three groups, slot p is member p div 3 of group p mod 3."""
    assert [ref.point(WIRED, p) for p in range(9)] == [1, 2, 4, 3, 6, 12, 9, 5, 10]
    assert [list(ref.members(WIRED, g)) for g in range(3)] == [[0, 3, 6], [1, 4, 7], [2, 5, 8]]
    assert ref.mates(WIRED, 4) == [1, 7]
    word = encoded(WIRED, [1, 2, 3, 4])
    assert encoded(WIRED, ONES) == bytes([4, 1, 0, 8, 11, 0, 7, 2, 0])
    assert word == bytes([10, 2, 3, 9, 8, 0, 6, 0, 4])
    assert ref.repair(WIRED, 3, bytes([10, 6])) == (0, 9)
    assert ref.guarantee(WIRED) == 4
    spoiled, marks = bytearray(word), bytearray(marked(9, [0, 1]))
    spoiled[0] = spoiled[1] = 255
    assert ref.local_pass(WIRED, spoiled, marks) == (0, 2)
    assert spoiled == word and marks == bytes(9)
    marks = bytearray(marked(9, [0, 3]))  # one group: neighbours of the old wiring are strangers, slots 0 and 3 are mates
    assert ref.local_pass(WIRED, spoiled, marks) == (0, 0)
    for lost, level, first in [([0, 1], 1, 255), ([1, 4], 2, 1), ([0, 1, 3, 4], 2, 0), ([2, 5, 7, 8], 2, 2)]:
        assert decoded(WIRED, word, marked(9, lost)) == (0, bytes([1, 2, 3, 4]))
        assert grade(WIRED, lost) == level
        assert ref.first_crowded(WIRED, marked(9, lost)) == first
    assert decoded(WIRED, word, marked(9, [2, 5, 6, 7, 8])) == (0, bytes([1, 2, 3, 4]))
    assert decoded(WIRED, word, marked(9, [1, 2, 4, 5, 7]))[0] == 10
    assert grade(WIRED, [2, 5, 6, 7, 8]) == grade(WIRED, range(4, 9)) == 3
    assert grade(WIRED, [1, 2, 4, 5, 7]) == grade(WIRED, range(9)) == 4
    assert decoded(WIRED, word[:8] + b"\5", bytes(9))[0] == 9


def test_wired_bytes():
    """The same over bytes; the guarantee of this code is 2."""
    code, message = Code(1, 2, 9, 5, 1), bytes([1, 2, 3, 4, 255])
    word = encoded(code, message)
    assert word == bytes([251, 108, 97, 51, 244, 1, 53, 176, 125])
    assert ref.guarantee(code) == 2
    assert decoded(code, word, marked(9, [1, 4])) == (0, message)
    assert decoded(code, word, marked(9, [0, 3, 7])) == (0, message)
    assert decoded(code, word, marked(9, [0, 3, 6]))[0] == 10
    assert [grade(code, lost) for lost in ([], [0, 1], [1, 4], [0, 3, 7], [0, 3, 6])] == [0, 1, 2, 3, 4]
    assert ref.first_crowded(code, marked(9, [0, 2, 5])) == 2
    code, out = Code(1, 4, 10, 3, 1), bytearray(16)
    assert ref.mates(code, 7) == [1, 3, 5, 9]
    assert ref.weights(code, 7, out) == 0 and out == bytes([68, 146, 221, 10] + [0] * 12)
    assert ref.repair(code, 7, bytes([10, 200, 30, 140])) == (9, 0) and ref.repaired(code, 7, [10, 200, 30, 140]) == 241


def test_wired_is_permuted():
    """Slot g + i * G of a wired codeword has the symbol of slot g * (r + 1) + i of the unwired; so for weights."""
    rng = random.Random(5)
    for code in itertools.chain(small_codes(11), [Code(1, 4, 25, 11), Code(1, 14, 45, 30), Code(1, 2, 255, 9)]):
        plain, wired, count = code._replace(wiring=0), code._replace(wiring=1), ref.groups(code)
        message = [rng.randrange(ref.order(code.field)) for _ in range(code.k)]
        a, b = encoded(plain, message), encoded(wired, message)
        for g in range(count):
            for i in range(code.r + 1):
                assert b[g + i * count] == a[g * (code.r + 1) + i]
                assert ref.repair_weights(wired, g + i * count) == ref.repair_weights(plain, g * (code.r + 1) + i)


def test_short_classroom():
    """Eleven slots in groups of three: group 3 has the points 8 and 11, and 7 is missing."""
    assert [ref.point(ELEVEN, p) for p in range(11)] == [1, 3, 9, 2, 6, 5, 4, 12, 10, 8, 11]
    assert ref.missing(ELEVEN) == [7] and ref.constant(ELEVEN) == 5 and ref.guarantee(ELEVEN) == 4
    assert encoded(ELEVEN, [1] * 5) == bytes([5, 5, 5, 5, 5, 5, 4, 5, 8, 1, 4])
    message, out = bytes([1, 2, 3, 4, 5]), bytearray(16)
    word = encoded(ELEVEN, message)
    assert ref.weights(ELEVEN, 10, out) == 0 and out == bytes([4] + [0] * 15)
    assert ref.weights(ELEVEN, 4, out) == 0 and out == bytes([4, 10] + [0] * 14)
    assert ref.repair(ELEVEN, 10, word[9:10]) == (0, word[10]) and ref.repair(ELEVEN, 9, word[10:]) == (0, word[9])
    assert ref.view(ELEVEN, 10, word) == (0, 9) and ref.view(ELEVEN, 8, word) == (0, 6)
    spoiled, marks = bytearray(word), bytearray(marked(11, [0, 4, 10]))
    spoiled[0] = spoiled[4] = spoiled[10] = 255
    assert ref.local_pass(ELEVEN, spoiled, marks) == (0, 3)
    assert spoiled == word and marks == bytes(11)
    for lost, level, first in [([0, 10], 1, 255), ([9, 10], 2, 3), ([0, 1, 9, 10], 2, 0), ([2, 5, 7, 8, 9, 10], 3, 2)]:
        assert decoded(ELEVEN, word, marked(11, lost)) == (0, message)
        assert grade(ELEVEN, lost) == level
        assert ref.first_crowded(ELEVEN, marked(11, lost)) == first
    for lost in (range(5), range(6, 11), [0, 1, 2, 9, 10], range(11)):
        assert decoded(ELEVEN, word, marked(11, lost))[0] == 10 and grade(ELEVEN, lost) == 4
    assert grade(ELEVEN, [2, 5, 8, 9, 10]) == 3
    eight = Code(1, 4, 8, 5)  # the last group is slots 5 6 7; the guarantee is 2
    assert [grade(eight, lost) for lost in ([5, 6], [0, 5, 6], [5, 6, 7], [0, 1, 2])] == [2, 3, 4, 4]
    assert decoded(ELEVEN, word[:10] + b"\1", bytes(11))[0] == 9


def values(code, coefficients):
    """The values mod 13 of a polynomial, by its coefficients from the lowest, at the code's points."""
    return bytes(sum(c * ref.point(code, p) ** e for e, c in enumerate(coefficients)) % 13 for p in range(code.n))


def test_short_message():
    """The order of the message, by polynomials worked by hand."""
    g, g_x, h = [8, 0, 0, 1], [0, 8, 0, 0, 1], [6, 1]  # x^3 - 5, that times x, x - 7
    g_2, g_2_x = [12, 0, 0, 3, 0, 0, 1], [0, 12, 0, 0, 3, 0, 0, 1]
    for m, poly in enumerate([g, g_x, g_2, g_2_x, h]):
        assert encoded(ELEVEN, [int(i == m) for i in range(5)]) == values(ELEVEN, poly)
    assert encoded(ELEVEN, [1, 2, 3, 4, 5]) == values(ELEVEN, [9, 4, 0, 10, 1, 0, 3, 4])
    code = Code(0, 3, 6, 2)  # points 1 8 12 5 and 2 3: 11 and 10 are missing, and c is 3
    assert encoded(code, [1, 0]) == values(code, [10, 0, 0, 0, 1])
    assert encoded(code, [0, 1]) == values(code, [6, 5, 1])  # (x - 11) (x - 10)
    assert encoded(code, [1, 2]) == values(code, [9, 10, 2, 0, 1]) == bytes([9, 10, 2, 6, 1, 8])
    code = Code(0, 11, 3, 2)  # one group, of three: every symbol is before h
    h = [1]
    for beta in [8, 3, 6, 12, 11, 9, 5, 10, 7]:
        h = [(a - beta * b) % 13 for a, b in zip([0, *h], [*h, 0])]
    assert encoded(code, [1, 0]) == values(code, h) and encoded(code, [0, 1]) == values(code, [0, *h])


def test_short_zeros():
    """Every encoding polynomial of a short code is 0 at the missing points; at a slot's point not all are."""
    for code in itertools.chain(short_codes(9), [Code(1, 4, 8, 5), Code(1, 14, 29, 26), Code(1, 16, 250, 230)]):
        lacking = ref.missing(code)
        assert len(set(lacking)) == code.r + 1 - code.n % (code.r + 1)
        assert all(ref.basis(code, x) == [0] * code.k for x in lacking)
        assert all(any(ref.basis(code, ref.point(code, p))) for p in range(code.n))


def test_sighted_cases():
    """Cases that see the order of the message, and bytes."""
    assert encoded(N, [1, 2, 3, 4]) == bytes([10, 9, 6, 2, 8, 0, 3, 0, 4])
    word = encoded(Code(0, 3, 12, 7), [1, 2, 3, 4, 5, 6, 7])
    assert word == bytes([2, 7, 1, 12, 12, 4, 9, 6, 1, 0, 2, 8])
    word = encoded(Code(1, 2, 9, 5), [1, 2, 3, 4, 255])
    assert word == bytes([251, 51, 53, 108, 244, 176, 97, 1, 125])
    code, out = Code(1, 4, 10, 3), bytearray(16)
    assert ref.weights(code, 7, out) == 0 and out == bytes([146, 221, 10, 68] + [0] * 12)
    assert ref.repair(code, 7, bytes([10, 200, 30, 140])) == (9, 0) and ref.repaired(code, 7, [10, 200, 30, 140]) == 246


def read(data):
    word, marks, code = bytearray(b"\xcc" * 255), bytearray(b"\xdd" * 256), [7] * 5
    refusal = ref.read_sheet(data, word, marks, code)
    if refusal:
        assert word == b"\xcc" * 255 and marks == b"\xdd" * 256 and code == [7] * 5
    return refusal


def test_sheets():
    assert read(b"") == 12 and read(bytes(5)) == 11
    example = sheet("10020301 20000005 30000100 20000205 40000003")
    assert read(example) == 0
    text = "code 0 2 3 1\nlost 1 sure 2 grade 1 first 255\nmessage 5\n"
    assert ref.report_text(example) == text
    assert read(sheet("12020301")) == 1 and read(sheet("10040301")) == 2
    assert read(sheet("10020401")) == 3 and read(sheet("10020303")) == 4
    assert read(example + bytes(4)) == 13 and read(example[:-4]) == 13
    for changed in ("20000105", "50000005", "20010005", "30000005"):
        assert read(example[:4] + sheet(changed) + example[8:]) == 14
    for changed in ("40000004", "40010003", "30000003"):
        assert read(example[:16] + sheet(changed)) == 15
    assert read(sheet("10020301 2000000d 30000100 20000205 40000004")) == 6
    assert read(sheet("10020301 2000000d 31000100 20000205 40000004")) == 14
    assert ref.read_sheet(b"123", bytearray(254), bytearray(255), [0] * 5) == 5
    assert ref.read_sheet(b"123", bytearray(255), bytearray(255), [0] * 4) == 5
    assert ref.report_text(example + bytes(1009)) == "refused 11\n"
    assert ref.report_text(example + bytes(2000)) == "refused 13\n"


def test_wired_sheets():
    """There and back by wiring 1: bit 27 of the first word, and a number after k in the report."""
    for first in range(256):
        wanted = 12 if first >> 4 != 1 else 1 if first & 7 > 1 else 2 if first & 7 == 0 else 13
        assert read(bytes([first, 4, 10, 3])) == wanted
    for code in (WIRED, Code(1, 4, 10, 3, 1)):
        message = bytes(range(1, code.k + 1))
        true, marks, data = encoded(code, message), marked(code.n, [0, 3]), bytearray(4 * (code.n + 2))
        assert ref.write_sheet(code, true, marks, data) == 0
        assert data[0] == 0x18 + code.field and data[1:] == plain_sheet(code, true, marks)[1:]
        word, left, numbers = bytearray(255), bytearray(255), [7] * 5
        assert ref.read_sheet(data, word, left, numbers) == 0 and Code(*numbers) == code
        assert left[: code.n] == marks and all(w == (0 if m else t) for w, m, t in zip(word, marks, true))
        lines = ref.report_text(data).splitlines()
        assert lines[0] == "code " + " ".join(map(str, code)) and lines[0].endswith(" 1")
        assert lines[2] == "message " + " ".join(map(str, message))
    assert read(sheet("18020a04")) == 3 and read(sheet("18020907")) == 4 and read(sheet("18020904")) == 13


def test_short_sheets():
    """There and back with a short last group; wired it is 17, after 4 and before 13."""
    for code in (ELEVEN, Code(1, 4, 8, 5), Code(0, 11, 3, 2)):
        message, lost = bytes(range(1, code.k + 1)), [code.n - 1]
        true, marks = encoded(code, message), marked(code.n, lost)
        data = plain_sheet(code, true, marks)
        word, left, numbers = bytearray(255), bytearray(255), [7] * 5
        assert ref.read_sheet(data, word, left, numbers) == 0 and Code(*numbers) == code
        assert left[: code.n] == marks and all(w == (0 if m else t) for w, m, t in zip(word, marks, true))
        numbers, text = " ".join(map(str, code[:4])), " ".join(map(str, message))
        sure = f"lost 1 sure {ref.guarantee(code)} grade 1 first 255"
        assert ref.report_text(data) == f"code {numbers}\n{sure}\nmessage {text}\n"
        data[0] |= 8
        assert read(data) == 17 and read(data[:-4]) == 17 and ref.report_text(data) == "refused 17\n"
    assert read(sheet("18020b08")) == 4 and read(sheet("18020b05")) == 17 and read(sheet("10020b05")) == 13
    assert read(sheet("10020005")) == 3 and read(sheet("10020a05")) == 3 and read(sheet("10030b01")) == 4


def plain_sheet(code, word, marks):
    data = bytearray(4 * (code.n + 2))
    assert ref.write_sheet(code._replace(wiring=0), word, marks, data) == 0
    return data


def test_report_size():
    """The longest text: all of the largest code's symbols have three digits, and the wiring stands after k."""
    code = Code(1, 16, 255, 240, 1)
    message = bytes(random.Random(1).randrange(100, 256) for _ in range(240))
    data = bytearray(4 * 257)
    assert ref.write_sheet(code, encoded(code, message), marked(255, range(0, 255, 17)), data) == 0
    text = ref.report_text(data)
    assert text.split("\n")[2] == "message " + " ".join(map(str, message))
    longest = "code 1 16 255 240 1\nlost 255 sure 254 grade 4 first 255\nmessage" + 240 * " 255" + "\n"
    assert len(text) == 1021 and len(longest) == 1024 <= ref.REPORT_TEXT


def test_preview_size():
    """The longest text: nothing of the longest code is lost, and every slot is safe. Each number has at most three digits."""
    for code in (Code(1, 14, 255, 1), Code(1, 16, 255, 240, 1)):
        data = bytearray(4 * 257)
        assert ref.write_sheet(code, bytes(255), bytes(255), data) == 0
        text = ref.preview_text(data)
        safe = "safe " + " ".join(map(str, range(255))) + "\n"
        assert text == "".join(f"slot {p} grade 1 first 255\n" for p in range(255)) + safe
        assert len(text) == 27 * 155 + 26 * 90 + 25 * 10 + 4 + 4 * 155 + 3 * 90 + 2 * 10 + 1 == 7690
    longest = 255 * "slot 255 grade 255 first 255\n" + "safe" + 255 * " 255" + "\n"
    assert len(longest) == 8420 == ref.PREVIEW_TEXT


def test_samples():
    """Each sample sheet gives the texts beside it."""
    sheets = sorted(Path(__file__).parent.parent.glob("samples/*.hex"))
    assert sheets
    for path in sheets:
        assert ref.report_text(sheet(path.read_text())) == path.with_suffix(".txt").read_text()
        assert ref.preview_text(sheet(path.read_text())) == path.with_suffix(".preview.txt").read_text()


def small_codes(most_k):
    """Of both wirings."""
    for r in (1, 2, 3, 5, 11):
        for n in range(r + 1, 13, r + 1):
            for k in range(1, min(most_k, r * n // (r + 1)) + 1):
                yield Code(0, r, n, k, 0)
                yield Code(0, r, n, k, 1)


def short_codes(most_k):
    """With a short last group."""
    for r, n in itertools.product((2, 3, 5, 11), range(2, 12)):
        s, m = n % (r + 1), -(-n // (r + 1))
        for k in range(s - 1, min(most_k, n - m) + 1) if s > 1 else ():
            yield Code(0, r, n, k)


def all_messages(code):
    return [bytes(m) for m in itertools.product(range(13), repeat=code.k)]


def test_distance():
    """Two codewords share at most k + ceil(k/r) - 2 places, and some do."""
    for code in small_codes(3):
        words = [encoded(code, m) for m in all_messages(code)]
        most = code.k + -(-code.k // code.r) - 2
        if code.k <= 2:
            pairs = itertools.combinations(words, 2)
        else:
            pairs = ((words[0], w) for w in words[1:])
        assert max(sum(map(int.__eq__, a, b)) for a, b in pairs) == most
        assert ref.guarantee(code) == code.n - most - 1


def test_short_distance():
    """With k' = k + r + 1 - s two codewords share at most k + ceil(k'/r) - 2 places, and some do: zeros of sums of rows."""
    for code in short_codes(4):
        rows = [encoded(code, [int(i == m) for i in range(code.k)]) for m in range(code.k)]
        most = code.k + -(-(code.k + code.r + 1 - code.n % (code.r + 1)) // code.r) - 2
        zeros = []
        for first in range(code.k):  # up to a factor: the first symbol that is not 0 is 1
            for rest in itertools.product(range(13), repeat=code.k - 1 - first):
                word = [sum(map(int.__mul__, (1, *rest), column)) % 13 for column in zip(*rows[first:])]
                zeros.append(word.count(0))
        assert max(zeros) == most
        assert ref.guarantee(code) == code.n - most - 1


def test_local_repair():
    """Every symbol of every codeword is the repair of its mates: of a short last group s - 1 settle the remaining one."""
    for code in itertools.chain(small_codes(2), short_codes(2)):
        for message in all_messages(code):
            word = encoded(code, message)
            for slot in range(code.n):
                symbols = bytes(word[p] for p in ref.mates(code, slot))
                assert ref.repair(code, slot, symbols) == (0, word[slot])
    rng = random.Random(7)
    for code in itertools.chain(short_codes(10), [Code(1, 4, 8, 5), Code(1, 14, 29, 26), Code(1, 16, 250, 230)]):
        word, last = encoded(code, [rng.randrange(ref.order(code.field)) for _ in range(code.k)]), ref.groups(code) - 1
        for slot in range(last * (code.r + 1), code.n):
            symbols = word[last * (code.r + 1) : slot] + word[slot + 1 :]
            assert len(symbols) == code.n % (code.r + 1) - 1 and ref.repair(code, slot, symbols) == (0, word[slot])


def test_repair_is_interpolation():
    """Repair is the value of the polynomial of degree below r through the mates: any, where k is r or more."""
    for r in (1, 2, 3):
        for n, wiring in itertools.product(range(r + 1, 13, r + 1), (0, 1)):
            code = Code(0, r, n, r, wiring)
            for slot in range(n):
                xs = [ref.point(code, p) for p in ref.mates(code, slot)]
                x = ref.point(code, slot)
                for poly in itertools.product(range(13), repeat=r):
                    *ys, y = (sum(c * a**e for e, c in enumerate(poly)) % 13 for a in [*xs, x])
                    assert ref.repair(code, slot, bytes(ys)) == (0, y)


def test_short_repair_is_interpolation():
    """In a short last group it is the value of a polynomial of degree below r that is 0 at the missing points."""
    for code in short_codes(11):
        s, first = code.n % (code.r + 1), code.n - code.n % (code.r + 1)
        if s > 4 or code.k > s - 1:
            continue  # the weights do not depend on k
        points = [pow(2, first // (code.r + 1) + i * (12 // (code.r + 1)), 13) for i in range(code.r + 1)]
        h = [math.prod(x - b for b in points[s:]) for x in points[:s]]
        for factor in itertools.product(range(13), repeat=s - 1):
            ys = [a * sum(c * x**e for e, c in enumerate(factor)) % 13 for a, x in zip(h, points)]
            for i in range(s):
                assert ref.repair(code, first + i, bytes(ys[:i] + ys[i + 1 :])) == (0, ys[i])


def mates_of(code, word, slot):
    return bytes(word[p] for p in ref.mates(code, slot))


def untold(code, slot):
    """Whether all that the mates can hold is some codeword's: where k is r or more, and in a short last group."""
    return code.k >= code.r or len(ref.mates(code, slot)) < code.r


def test_true_mates():
    """Against every codeword: mates are true where one has them. There are q^k such sets, or all of them."""
    rng, seen = random.Random(20), Counter()
    for code in itertools.chain(small_codes(3), short_codes(3)):
        words = [encoded(code, message) for message in all_messages(code)]
        for slot in range(code.n):
            mates, true = ref.mates(code, slot), {mates_of(code, word, slot) for word in words}
            wanted = len(mates) if untold(code, slot) else code.k
            assert len(true) == 13**wanted
            if len(mates) <= 3:
                sets = list(map(bytes, itertools.product(range(13), repeat=len(mates))))
            else:
                sets = rng.sample(sorted(true), min(len(true), 40))
                near = [bytearray(rng.choice(sets)) for _ in range(40)]
                for symbols in near:
                    symbols[rng.randrange(len(mates))] = rng.randrange(13)
                sets += [*map(bytes, near), *(bytes(rng.choices(range(13), k=len(mates))) for _ in range(40))]
            strips = b"".join(bytes(symbols[i] for symbols in sets) for i in range(len(mates)))
            foreign = ref.foreign_columns(code, mates, strips, len(sets))
            assert foreign == [c for c, symbols in enumerate(sets) if symbols not in true], (code, slot)
            for symbols in rng.sample(sets, min(len(sets), 20)):
                answer = ref.repair(code, slot, symbols)
                assert answer == ((0, ref.repaired(code, slot, symbols)) if symbols in true else (9, 0))
                kind = "wired" if code.wiring else "short" if ref.short(code) else "whole"
                seen[kind, untold(code, slot), answer[0]] += 1
    assert set(seen) == {(kind, *told) for kind in ("whole", "wired", "short") for told in ((True, 0), (False, 0), (False, 9))}


def test_true_is_no_degree():
    """In the whole groups of short codes true mates can have the degree k or more, and others a degree below k."""
    six, eleven = Code(0, 3, 6, 2), Code(0, 2, 11, 1)
    points = bytes(ref.point(six, p) for p in (1, 2, 3))
    assert bytes((x * x + 5 * x + 6) % 13 for x in points) == bytes([6, 2, 4])  # h, of degree 2
    assert ref.repair(six, 0, bytes([6, 2, 4])) == (0, 12) and encoded(six, [0, 1])[:4] == bytes([12, 6, 2, 4])
    assert ref.repair(six, 0, points) == (9, 0) and ref.repair(six, 0, bytes([1, 1, 1])) == (0, 1)
    assert ref.repair(eleven, 0, bytes([9, 2])) == (0, 7) and ref.repair(eleven, 0, bytes([5, 5])) == (9, 0)
    seen = set()
    for code in itertools.chain(small_codes(2), short_codes(2)):
        if code.r > 3 or code.k >= code.r or code.n <= code.r:
            continue
        xs = [ref.point(code, p) for p in ref.mates(code, 0)]
        for poly in itertools.product(range(13), repeat=code.r):
            low = not any(poly[code.k :])
            ys = bytes(sum(c * x**e for e, c in enumerate(poly)) % 13 for x in xs)
            seen.add((ref.short(code) > 0, low, ref.repair(code, 0, ys)[0]))
    assert seen == {(False, True, 0), (False, False, 9), *((True, low, answer) for low in (True, False) for answer in (0, 9))}


def checks(code, slot):
    """The weights of r - k parity checks on the mates: of check i the repair weight times the mate's term less the slot's. A
    term is x^(i+1), and where the last group is short x^i / h(x)."""
    field, count = code.field, 0 if untold(code, slot) else code.r - code.k

    def term(x, i):
        scale = ref.inverse(field, ref.value_of_h(code, x)) if ref.short(code) else x
        return ref.mul(field, scale, ref.power(field, x, i))

    xs, own = [ref.point(code, p) for p in ref.mates(code, slot)], ref.point(code, slot)
    pairs = list(zip(ref.repair_weights(code, slot), xs))
    return [[ref.mul(field, w, ref.sub(field, term(x, i), term(own, i))) for w, x in pairs] for i in range(count)]


def test_parity_checks():
    """Mates are true just where every check sums to 0: each check is 0 on every unit codeword, and together they are r - k
    equations. By sums too, of true mates and of others."""
    rng, seen = random.Random(21), Counter()
    large = [Code(1, 2, 9, 1), Code(1, 4, 10, 3, 1), Code(1, 4, 18, 2), Code(1, 4, 18, 3), Code(1, 14, 45, 6)]
    large += [Code(1, 14, 44, 13), Code(1, 16, 34, 8, 1), Code(1, 16, 255, 8)]
    large += [Code(1, 16, 250, 12), Code(1, 16, 20, 2), Code(1, 16, 254, 15)]
    for code in itertools.chain(small_codes(11), short_codes(10), large):
        field, q = code.field, ref.order(code.field)
        for slot in range(code.n) if code.n < 40 else rng.sample(range(code.n), 6):
            mates, rows = ref.mates(code, slot), checks(code, slot)
            assert ref.rank(field, map(bytes, rows)) == len(rows)

            def sums(symbols):
                for row in rows:
                    total = 0
                    for w, s in zip(row, symbols):
                        total = ref.add(field, total, ref.mul(field, w, s))
                    yield total

            parts = ref.kept_parts(code, mates)
            assert not any(total for part in parts for total in sums(part))
            assert ref.rank(field, parts) == len(mates) - len(rows)
            true = mates_of(code, encoded(code, [rng.randrange(q) for _ in range(code.k)]), slot)
            changed, noise = bytearray(true), bytes(rng.randrange(q) for _ in mates)
            changed[rng.randrange(len(mates))] = rng.randrange(q)
            for symbols in (true, changed, noise):
                refused = any(sums(symbols))
                assert ref.foreign(code, mates, symbols) == refused, (code, slot, symbols)
                seen[field, ref.short(code) > 0, refused] += 1
    assert len(seen) == 8 and min(seen.values()) > 20, seen


def test_foreign_repair():
    """Worked cases of 9, over both fields, by both wirings and in whole groups of short codes."""
    five = Code(0, 2, 3, 1)
    assert [ref.repair(five, 0, bytes(pair)) for pair in ((5, 7), (5, 5), (7, 7), (0, 0))] == [(9, 0), (0, 5), (0, 7), (0, 0)]
    for code, slot, true, symbol in [
        (Code(1, 4, 10, 3), 7, [9, 62, 11, 196], 249),
        (Code(1, 4, 10, 3, 1), 7, [9, 62, 249, 196], 11),
        (Code(0, 3, 12, 2, 1), 4, [5, 10, 8], 7),
        (Code(0, 5, 9, 3), 1, [11, 0, 6, 6, 3], 7),
        (Code(1, 4, 8, 2), 2, [171, 29, 99, 211], 11),
        (Code(1, 4, 8, 3), 2, [179, 227, 142, 112], 149),
        (Code(0, 11, 12, 1), 4, [3] * 11, 3),
    ]:
        assert ref.repair(code, slot, bytes(true)) == (0, symbol), code
        for i in range(len(true)):
            symbols = bytearray(true)
            symbols[i] = (symbols[i] + 1) % ref.order(code.field)
            assert ref.repair(code, slot, symbols) == (9, 0), (code, i)
    assert ref.repair(Code(1, 4, 8, 3), 6, bytes([160, 252])) == (0, 70)  # a short group: any two will do
    assert ref.repair(Code(1, 4, 8, 3), 6, bytes([161, 252])) == (0, 70 ^ 221)


def test_foreign_strips():
    """One column that no codeword has refuses the strip, wherever it stands, and the output stays."""
    rng = random.Random(22)
    for code, slot in [(Code(1, 4, 10, 3), 7), (Code(0, 3, 6, 2), 0), (Code(1, 16, 34, 8, 1), 9), (Code(0, 5, 9, 3), 3)]:
        q, mates = ref.order(code.field), ref.mates(code, slot)
        for columns in (1, 2, 3, 65):
            words = [encoded(code, [rng.randrange(q) for _ in range(code.k)]) for _ in range(columns)]
            good = b"".join(bytes(word[p] for word in words) for p in mates)
            out = bytearray(columns)
            assert ref.rebuild(code, slot, good, out) == 0 and out == bytes(word[slot] for word in words)
            for place in {0, columns // 2, columns - 1}:
                row = rng.randrange(len(mates))
                strips, out = bytearray(good), bytearray(b"\xee" * columns)
                strips[row * columns + place] = (strips[row * columns + place] + 1) % q
                assert ref.foreign_columns(code, mates, strips, columns) == [place]
                assert ref.rebuild(code, slot, strips, out) == 9 and out == b"\xee" * columns
                if code.field == 0 and columns > 1:  # 6 is asked of all columns before 9 of any
                    strips[(place + 1) % columns] = 13
                    assert ref.rebuild(code, slot, strips, out) == 6 and out == b"\xee" * columns


def test_foreign_order():
    """9 comes after 5, 7 and 6, in repair and in rebuild."""
    code, out = Code(0, 2, 3, 1), bytearray(b"\xee" * 2)
    assert ref.repair(code, 0, bytes([5, 7, 7])) == (5, 0) and ref.repair(code, 3, bytes([5, 7])) == (7, 0)
    assert ref.repair(code, 0, bytes([5, 13])) == (6, 0) and ref.repair(code, 3, bytes([5, 13])) == (7, 0)
    assert ref.repair(code, 0, bytes([5, 7])) == (9, 0)
    assert ref.repair(code._replace(wiring=2), 0, bytes([5, 7])) == (17, 0)
    assert ref.repair(code._replace(k=3), 0, bytes([5, 7])) == (4, 0)
    assert ref.repair(code._replace(k=2), 0, bytes([5, 7])) == (0, 0)  # with k 2 all mates are true
    for strips, slot, wanted in [([5, 5, 7], 0, 5), ([5, 5, 7, 5], 3, 7), ([5, 13, 7, 5], 0, 6), ([13, 5, 13, 7], 0, 6)]:
        assert ref.rebuild(code, slot, bytes(strips), out) == wanted and out == b"\xee" * 2
    assert ref.rebuild(code, 0, bytes([5, 5, 5, 7]), out) == 9 and out == b"\xee" * 2
    assert ref.rebuild(code, 0, bytes([5, 7, 5, 7]), out) == 0 and out == bytes([5, 7])


def outcome_by_search(code, words, word, marks):
    kept = [p for p in range(code.n) if not marks[p]]
    fitting = [m for m, w in words if all(w[p] == word[p] for p in kept)]
    if len(fitting) == 1:
        return 0, fitting[0]
    return (10 if fitting else 9), b"\xaa" * code.k


def test_decode():
    """Decode against a search of all messages: codewords, codewords with a change, random words."""
    rng = random.Random(2)
    for code in itertools.chain(small_codes(2), short_codes(2)):
        words = [(m, encoded(code, m)) for m in all_messages(code)]
        patterns = list(itertools.product((0, 1), repeat=code.n))
        if len(patterns) > 64:
            patterns = rng.sample(patterns, 64)
        for marks in map(bytes, patterns):
            message, true = rng.choice(words)
            changed = bytearray(true)
            changed[rng.randrange(code.n)] = rng.randrange(13)
            blurred = bytes(rng.randrange(256) if m else s for s, m in zip(true, marks))
            noise = bytes(rng.randrange(13) for _ in range(code.n))
            for word in (blurred, bytes(changed), noise):
                assert decoded(code, word, marks) == outcome_by_search(code, words, word, marks)
            if sum(marks) <= ref.guarantee(code):
                assert decoded(code, blurred, marks) == (0, message)


def test_local_pass():
    """Groups with one loss are mended and counted; all else stays."""
    rng = random.Random(3)
    large = [Code(1, *numbers, wiring) for numbers in ((4, 25, 11), (14, 45, 30)) for wiring in (0, 1)]
    large += [Code(1, 4, 23, 11), Code(1, 14, 43, 30), Code(1, 16, 9, 8)]
    for code in itertools.chain(small_codes(3), short_codes(10), large):
        q = ref.order(code.field)
        true = encoded(code, [rng.randrange(q) for _ in range(code.k)])
        marks = bytearray(rng.choices((0, 1), (3, 1), k=code.n))
        word = bytearray(rng.randrange(256) if m else s for s, m in zip(true, marks))
        before, left = bytes(word), bytes(marks)
        refusal, count = ref.local_pass(code, word, marks)
        sizes = [sum(left[p] for p in ref.members(code, g)) for g in range(ref.groups(code))]
        assert refusal == 0 and count == sizes.count(1)
        crowded = [g for g, size in enumerate(sizes) if size >= 2]
        assert ref.first_crowded(code, left) == min(crowded, default=255)
        for p in range(code.n):
            g = p % ref.groups(code) if code.wiring else p // (code.r + 1)
            mended = sizes[g] == 1
            assert word[p] == (true[p] if mended else before[p])
            assert marks[p] == (0 if mended else left[p])


def test_foreign_pass():
    """Against every codeword: a group with one loss is mended where some codeword has its kept symbols, each group by itself;
    another is left, lost byte and mark, and not counted. 6 is asked of the groups that are left too."""
    rng, seen = random.Random(23), Counter()
    for code in itertools.chain(small_codes(2), short_codes(2)):
        words = [encoded(code, message) for message in all_messages(code)]
        for _ in range(10):
            word, marks = bytearray(code.n), bytearray(code.n)
            for g in range(ref.groups(code)):  # each group of a codeword of its own, at times with a change, and lost slots
                own, slots = rng.choice(words), ref.members(code, g)
                lost = rng.sample(slots, rng.choice([0, 1, 1, 1, 2]))
                for p in slots:
                    word[p], marks[p] = own[p], p in lost
                if rng.random() < 0.4:
                    word[rng.choice(slots)] = rng.randrange(13)
                for p in lost:
                    word[p] = rng.randrange(256)
            after, left, count = bytearray(word), bytearray(marks), 0
            for g in range(ref.groups(code)):
                lost = [p for p in ref.members(code, g) if marks[p]]
                kept = [p for p in ref.members(code, g) if not marks[p]]
                fitting = {w[lost[0]] for w in words if all(w[p] == word[p] for p in kept)} if len(lost) == 1 else set()
                assert len(fitting) <= 1
                if fitting:
                    after[lost[0]], left[lost[0]], count = fitting.pop(), 0, count + 1
                kind = "wired" if code.wiring else "short" if ref.short(code) else "whole"
                seen[kind, len(lost) == 1, bool(left[lost[0]]) if lost else None] += 1
            spoiled, bad = bytearray(word), bytearray(marks)
            single = [p for p in range(code.n) if not marks[p] and sum(marks[m] for m in ref.mates(code, p)) == 1]
            if single:
                spoiled[rng.choice(single)] = rng.randrange(13, 256)
                before = bytes(spoiled)
                assert ref.local_pass(code, spoiled, bad) == (6, 0) and spoiled == before and bad == marks
            assert ref.local_pass(code, word, marks) == (0, count)
            assert word == after and marks == left, code
    assert all(seen[kind, True, left] > 20 for kind in ("whole", "wired", "short") for left in (True, False)), seen
    two = Code(0, 2, 9, 1)  # codewords are all of one symbol
    word, marks = bytearray([99, 5, 7, 4, 99, 4, 99, 99, 6]), bytearray(marked(9, [0, 4, 6, 7]))
    assert ref.local_pass(two, word, marks) == (0, 1)
    assert word == bytes([99, 5, 7, 4, 4, 4, 99, 99, 6]) and marks == marked(9, [0, 6, 7])
    word[1] = 13  # of the group that is left
    assert ref.local_pass(two, word, marks) == (6, 0) and marks == marked(9, [0, 6, 7])


def without(word, lost):
    """The word with 255, which is no symbol of thirteen, in the lost slots."""
    return bytes(255 if p in lost else s for p, s in enumerate(word))


def test_near():
    """Worked numbers: what is lost of a codeword, the refusal and the number of groups mended."""
    one, six = Code(0, 2, 9, 1), Code(0, 3, 6, 2)  # the codewords of one are all of one symbol
    for code, message, lost, wanted in [
        (N, ONES, [], (0, 0)),
        (N, ONES, [0], (0, 1)),
        (N, ONES, [0, 4, 8], (0, 3)),
        (N, ONES, [0, 1], (0, 0)),
        (N, ONES, range(4), (0, 1)),
        (N, ONES, [2, 5, 6, 7, 8], (0, 2)),  # past the guarantee
        (N, ONES, range(4, 9), (10, 0)),
        (N, ONES, range(2, 9), (10, 0)),  # group 0 is mended
        (N, ONES, [0, 1, 3, 6, 7], (0, 1)),
        (N, ONES, range(9), (10, 0)),
        (WIRED, ONES, [0, 1], (0, 2)),
        (WIRED, ONES, [0, 3], (0, 0)),
        (WIRED, ONES, [2, 5, 6, 7, 8], (0, 2)),
        (WIRED, ONES, [1, 2, 4, 5, 6, 7], (10, 0)),
        (ELEVEN, [1, 2, 3, 4, 5], [0, 4, 10], (0, 3)),
        (ELEVEN, [1, 2, 3, 4, 5], [8, 9, 10], (0, 1)),
        (ELEVEN, [1, 2, 3, 4, 5], [0, 1, 2, 9], (0, 1)),
        (ELEVEN, [1, 2, 3, 4, 5], [0, 1, 2, 3, 4, 9], (10, 0)),
        (one, [5], [0, 4, 8], (0, 3)),
        (one, [5], [0, 3, 4, 5, 6, 7, 8], (0, 1)),
        (six, [1, 2], [1, 4], (0, 2)),
        (six, [1, 2], [1, 4, 5], (0, 1)),
        (Code(1, 4, 8, 5), [1, 2, 3, 4, 255], [5, 6], (0, 0)),
        (Code(1, 4, 8, 5), [1, 2, 3, 4, 255], [0, 5, 6], (0, 1)),
        (Code(1, 2, 9, 5, 1), [1, 2, 3, 4, 255], [0, 3, 7], (0, 1)),
        (Code(1, 2, 9, 5, 1), [1, 2, 3, 4, 255], [0, 3, 6, 7], (10, 0)),
        (Code(1, 16, 255, 240), range(240), range(0, 255, 17), (0, 15)),
    ]:
        word, marks = without(encoded(code, message), lost), marked(code.n, lost)
        assert near(code, word, marks) == (*wanted, b"\xaa" * code.k if wanted[0] else bytes(message)), (code, lost)
    for code, word, lost in [
        (N, [4, 8, 7, 1, 11, 2, 0, 0, 1], []),
        (N, [4, 8, 7, 1, 11, 2, 0, 0, 1], [0, 4]),  # two groups are mended
        (N, [4, 8, 7, 1, 11, 2, 0, 2, 1], [0, 3, 4, 6]),  # groups 0 and 2 are mended
        (one, [5, 5, 7, 5, 5, 5, 5, 5, 5], [0]),  # group 0 is left
        (one, [5, 5, 7, 4, 4, 4, 6, 6, 6], [0, 4, 6, 7]),  # group 0 is left, and group 1 is mended
        (one, [5, 5, 7, 5, 5, 5, 5, 5, 5], [0, 3, 4, 5, 6, 7, 8]),
        (six, [1, 1, 8, 12, 1, 8], [0, 4]),
    ]:
        assert near(code, without(word, lost), marked(code.n, lost)) == (9, 0, b"\xaa" * code.k), (code, word, lost)


def agreeing(code, words, word, marks):
    """The messages whose codewords have the kept symbols, by a search of all."""
    kept = [p for p in range(code.n) if not marks[p]]
    return [m for m, w in words if all(w[p] == word[p] for p in kept)]


def test_near_agrees():
    """Against every codeword: before and after the local pass the same agree, also where it leaves a group. On 0 the value is
    the number of groups with one loss. A left group is 9."""
    rng, seen = random.Random(25), Counter()
    for code in itertools.chain(small_codes(3), short_codes(3)):
        words = [(m, encoded(code, m)) for m in all_messages(code)]
        for _ in range(40 if code.k < 3 else 10):
            word, marks = vectors.pick_near(rng, code)
            after, left = bytearray(word), bytearray(marks)
            assert ref.local_pass(code, after, left)[0] == 0
            fitting = agreeing(code, words, word, marks)
            assert fitting == agreeing(code, words, after, left), (code, word, marks)
            singles = [g for g in range(ref.groups(code)) if len(ref.losses(code, marks, g)) == 1]
            behind = [g for g in singles if len(ref.losses(code, left, g)) == 1]
            if len(fitting) == 1:
                assert near(code, word, marks) == (0, len(singles), fitting[0])
            else:
                assert near(code, word, marks) == (10 if fitting else 9, 0, b"\xaa" * code.k)
            assert not (behind and fitting)
            kind = "wired" if code.wiring else "short" if ref.short(code) else "whole"
            seen[kind, min(len(fitting), 2), len(singles) > len(behind), behind != []] += 1
    for kind, count, mended in itertools.product(("whole", "wired", "short"), range(3), (True, False)):
        assert seen[kind, count, mended, False] > 4, (kind, count, mended)
        assert count or seen[kind, count, mended, True] > 10, (kind, mended)


def test_near_is_decode():
    """Over codes of any k and bytes: all but the value is decode's, and the lost bytes do not matter."""
    rng, seen = random.Random(26), Counter()
    codes = [code for code in itertools.chain(small_codes(11), short_codes(10)) for _ in range(4)]
    codes += [vectors.pick_code(rng, 1) for _ in range(400)] + [Code(1, 16, 255, 230, 1), Code(1, 16, 250, 12)]
    for code in codes:
        word, marks = vectors.pick_near(rng, code)
        answer = near(code, word, marks)
        singles = [g for g in range(ref.groups(code)) if len(ref.losses(code, marks, g)) == 1]
        assert answer[1] == (0 if answer[0] else len(singles)), (code, word, marks)
        assert answer == near(code, bytes(rng.randrange(256) if m else s for s, m in zip(word, marks)), marks)
        seen[code.field, answer[0], min(len(singles), 2)] += 1
    assert all(seen[f, a, count] > 4 for f, a, count in itertools.product((0, 1), (0, 9, 10), range(3))), seen


def test_near_order():
    """1 2 3 4 17 5 8 6, 6 of every kept symbol; a refusal leaves every buffer."""
    good, bad, word = marked(9, [0, 4]), bytes([0] * 8 + [2]), without(ONES_WORD, [0, 4])

    def refused(code, word, marks, room, places=4):
        buffers = [bytearray(data) for data in (word, marks, b"\xaa" * places, b"\xbb" * room)]
        refusal, value = ref.decode_near(code, *buffers)
        assert buffers == [word, marks, b"\xaa" * places, b"\xbb" * room] and value == 0
        return refusal

    wrong = [(N._replace(field=2), 1), (N._replace(r=4), 2), (N._replace(n=10), 3), (N._replace(k=7), 4)]
    for code, number in [*wrong, (N._replace(wiring=2), 17), (N._replace(k=7, wiring=2), 4), (ELEVEN._replace(wiring=1), 17)]:
        for symbols, marks, room in itertools.product((word, word[1:], b"\x0d" * 9), (good, bad, good[1:]), (0, 44, 45)):
            assert refused(code, symbols, marks, room) == number
    for symbols, marks in itertools.product((word, b"\x0d" * 9), (good, bad)):
        assert refused(N, symbols, marks, 44) == refused(N, symbols, marks, 0) == 5
        assert refused(N, symbols[1:], marks, 45) == refused(N, symbols, marks[1:], 45) == 5
        assert all(refused(N, symbols, marks, 45, places) == 5 for places in (0, 3, 5))
        assert refused(N, symbols, bad, 45) == 8
    for slot, lost in [(1, [0]), (8, [0]), (8, [0, 6, 7]), (8, []), (8, range(8))]:
        symbols = bytearray(without(ONES_WORD, lost))
        symbols[slot] = 13
        assert refused(N, symbols, marked(9, lost), 45) == 6  # of mended groups, and of those with other losses


def test_strips():
    rng = random.Random(4)
    stripes = [(code, slot) for code in (Code(1, 4, 10, 7), Code(1, 4, 10, 7, 1)) for slot in range(10)]
    stripes += [(Code(1, 4, 9, 7), slot) for slot in range(9)] + [(Code(1, 14, 8, 7), slot) for slot in range(8)]
    for code, slot in stripes:
        words = [encoded(code, [rng.randrange(256) for _ in range(7)]) for _ in range(9)]
        strips = b"".join(bytes(w[p] for w in words) for p in ref.mates(code, slot))
        out = bytearray(9)
        assert ref.rebuild(code, slot, strips, out) == 0
        assert out == bytes(w[slot] for w in words)


def test_encode_strips():
    """Worked columns, and column by column encode, in every kind of code."""
    out = bytearray(18)
    assert ref.encode_strips(N, bytes([1, 1, 1, 2, 1, 3, 1, 4]), out) == 0
    assert out[0::2] == ONES_WORD and out[1::2] == encoded(N, [1, 2, 3, 4])
    rng = random.Random(31)
    for code, columns in itertools.product(vectors.CORNERS, (1, 2, 9)):
        messages, out = vectors.symbols(rng, code, code.k * columns), bytearray(b"\xaa" * code.n * columns)
        assert ref.encode_strips(code, messages, out) == 0
        strips = [messages[m * columns : (m + 1) * columns] for m in range(code.k)]
        words = [encoded(code, [strip[c] for strip in strips]) for c in range(columns)]
        assert out == b"".join(bytes(word[p] for word in words) for p in range(code.n))


def test_encode_strips_order():
    """1 2 3 4 17 5 6; a refusal leaves the buffer, and 6 is asked of every column."""

    def refused(code, messages, length):
        out = bytearray(b"\xaa" * length)
        refusal = ref.encode_strips(code, messages, out)
        assert refusal == 0 or out == b"\xaa" * length
        return refusal

    wrong = [(N._replace(field=2), 1), (N._replace(r=4), 2), (N._replace(n=10), 3), (N._replace(n=0), 3), (N._replace(k=7), 4)]
    for code, number in [*wrong, (N._replace(wiring=2), 17), (N._replace(k=7, wiring=2), 4), (ELEVEN._replace(wiring=1), 17)]:
        for messages, length in itertools.product((b"", bytes(12), b"\x0d" * 12), (0, 27, 28)):
            assert refused(code, messages, length) == number
    right = {(4 * columns, 9 * columns) for columns in (1, 2, 3, 4096)}
    lengths = (0, 1, 3, 4, 5, 8, 11, 12, 13, 16384, 16388), (0, 1, 8, 9, 10, 18, 26, 27, 28, 35, 36864, 36873)
    for a, b in itertools.product(*lengths):
        assert refused(N, bytes(a), b) == (0 if (a, b) in right else 5)
        assert a == 0 or refused(N, b"\x0d" * a, b) == (6 if (a, b) in right else 5)
    for place in range(28):
        messages = bytearray(28)
        messages[place] = 13
        assert refused(N, messages, 63) == 6 and refused(N._replace(field=1), messages, 63) == 0


def taken(data, at):
    """A length, a number given and so many bytes: the bytes in full, and the place behind them."""
    length, given = struct.unpack_from(">2I", data, at)
    part = data[at + 8 : at + 8 + given]
    return (part * (length // given + 1))[:length] if length else b"", at + 8 + given


@lru_cache(maxsize=None)
def strip_calls():
    """Records of encode_strips as the driver reads them: code, messages, codewords before, answer, codewords after."""
    rng, calls = random.Random(32), []
    made = [vectors.make_call(rng, "encode_strips", index) for index in range(3000)]
    for data, shown, _ in [*made, *vectors.encodes(rng)]:
        size, call, *code, slot, buffers = struct.unpack_from(">9I", data)
        assert size == len(data) - 4 and (call, slot, buffers) == (16, 0, 2)
        messages, at = taken(data, 36)
        before, at = taken(data, at)
        refusal, value = struct.unpack_from(">2I", data, at)
        read, at = taken(data, at + 8)
        changed, at = taken(data, at)
        assert at == len(data) and read == b"" and value == 0 and refusal == shown
        calls.append((Code(*code), messages, before, refusal, changed + before[len(changed) :]))
    return calls


def first_strips(code, messages, before, columns):
    """What a call answers that takes so many columns of buffers whose lengths do not fit."""
    out, used = bytearray(before), code.n * columns
    part = bytearray(before[:used])
    refusal = ref.encode_strips(code, (messages + bytes(code.k * columns))[: code.k * columns], part)
    out[:used] = part
    return refusal, bytes(out)


def turned(strips, rows):
    """Columns one after another, of so many strips one after another."""
    columns = len(strips) // rows
    return b"".join(strips[c::columns] for c in range(columns))


def wrong_strips(code, messages, before, refusal, after):
    """What wrong ways to encode strips answer and leave, by name, where all is right else."""
    legal = ref.code_refusal(code) == 0
    columns = len(before) // code.n if legal else 0
    if refusal == 0:
        n, k, q = code.n, code.k, ref.order(code.field)

        def kept(test):
            return 0, bytes(a if test(*divmod(i, columns)) else b for i, (a, b) in enumerate(zip(after, before)))

        yield "codewords interleaved", (0, turned(after, n))
        yield "last column not written", kept(lambda p, c: c < columns - 1)
        yield "last strip not written", kept(lambda p, c: p < n - 1)
        yield "columns behind whole tiles not written", kept(lambda p, c: c < columns // 64 * 64 or columns < 64)
        yield "one column of a tile not written", kept(lambda p, c: c % 64 != 63)
        yield "columns from 256 on not written", kept(lambda p, c: c < 256)
        strips = [after[p * columns : (p + 1) * columns] for p in range(n)]
        yield "columns from 256 on as the first", (0, b"".join((strip[:256] * 16)[:columns] for strip in strips))
        yield "strips in the other order", (0, b"".join(reversed(strips)))
        yield "columns in the other order", (0, b"".join(strip[::-1] for strip in strips))
        yield "added to the buffer", (0, bytes((a + b) % q for a, b in zip(after, before)))
        if columns == 4096:
            yield "4,096 columns refused", (5, before)
        if columns == 1:
            yield "one column refused", (5, before)
        if columns <= 9 and n <= 40:
            out = bytearray(before)
            ref.encode_strips(code, turned(messages, k), out)  # of one column or k = 1 the same
            yield "messages interleaved", (0, bytes(out))
            ref.encode_strips(code, messages[::-1], out)
            yield "messages in the other order", (0, bytes(out))
            if ref.short(code) == 0:
                ref.encode_strips(code._replace(wiring=1 - code.wiring), messages, out)
                yield "the other wiring", (0, bytes(out))
    if refusal:
        yield "buffer cleared under a refusal", (refusal, bytes(len(before)))
        yield "first byte touched under a refusal", (refusal, bytes(b ^ (i == 0) for i, b in enumerate(before)))
        yield "last byte touched under a refusal", (refusal, bytes(b ^ (i == len(before) - 1) for i, b in enumerate(before)))
        yield "no refusal", (0, before)
    if refusal == 6:
        bad = next(i % columns for i, s in enumerate(messages) if s > 12)
        part = bytearray(before)
        for c in range(bad):
            word = bytearray(code.n)
            ref.encode(code, messages[c::columns], word)
            part[c::columns] = word
        yield "columns written before 6 is asked of the next", (6, bytes(part))
        clean = bytes(s % 13 for s in messages)
        yield "6 not asked", first_strips(code, clean, before, columns)
        for name, some in (("first", messages[0::columns]), ("last", messages[columns - 1 :: columns])):
            if max(some) < 13:
                yield f"6 asked of the {name} column alone", first_strips(code, clean, before, columns)
        for name, some in (("first", messages[:columns]), ("last", messages[-columns:])):
            if max(some) < 13:
                yield f"6 asked of the {name} strip alone", first_strips(code, clean, before, columns)
    if refusal == 5:
        if columns == 0:
            yield "no column accepted", (0, before)
        if columns > 4096 and len(messages) == code.k * columns and len(before) == code.n * columns:
            yield "4,097 columns accepted", (0, bytes(len(before)))
        if columns and len(before) % code.n and len(messages) == code.k * columns:
            yield "rest of the codewords ignored", first_strips(code, messages, before, min(columns, 9))
        if columns and len(before) % code.n == 0 and len(messages) > code.k * columns:
            yield "rest of the messages ignored", first_strips(code, messages, before, min(columns, 9))
        if len(messages) // code.k < columns <= 4096 and len(messages) % code.k == 0:
            yield "length by the messages", first_strips(code, messages, before, min(len(messages) // code.k, 9))
        if any(s >= ref.order(code.field) for s in messages):
            yield "6 before 5", (6, before)
    if refusal in (1, 2, 3, 4, 17) and (not before or not messages):
        yield "5 before the code's questions", (5, before)
    if refusal == 17:
        plain = code._replace(wiring=0)
        if len(before) <= 9 * plain.n:
            yield "17 not asked", first_strips(plain, bytes(messages), before, len(before) // plain.n)


def test_wrong_strips():
    """The calls that vectors.py makes tell every wrong way to encode strips from the right one."""
    caught, same = Counter(), Counter()
    for call in strip_calls():
        for name, got in wrong_strips(*call):
            (same if got == call[3:] else caught)[name] += 1
    for name in {**caught, **same}:
        assert caught[name] > (1 if "4,09" in name else 4), (name, caught[name], same[name])
    assert len(caught) == 33, len(caught)


def test_strip_vectors():
    """vectors.py makes encodes of strips of every locality, length and kind of code, with every answer, and faults of 5 and 6
    beside others."""
    seen, lengths = Counter(), set()
    for code, messages, before, refusal, after in strip_calls():
        seen[refusal] += 1
        if refusal in (1, 2, 3, 4, 17):
            seen["empty"] += not before
            continue
        columns = len(before) // code.n
        kind = "wired" if code.wiring else "short" if ref.short(code) else "whole"
        if refusal == 0:
            seen[kind, code.field] += 1
            seen["large"] += code.n >= 250
            seen["large and long"] += code.n >= 250 and columns > 256
            lengths |= {(code.field, code.r, columns), (kind, code.field, columns)}
        if refusal == 5:
            whole = len(before) == code.n * columns, len(messages) == code.k * columns
            seen["5", whole, min(columns, 1) + (columns > 4096)] += 1
            seen["5 and 6"] += any(s >= ref.order(code.field) for s in messages)
        if refusal == 6:
            bad = [i % columns for i, s in enumerate(messages) if s > 12]
            seen["6", len(bad), bad[0] == 0, bad[0] == columns - 1] += 1
    assert {number for number in seen if isinstance(number, int)} == vectors.ANSWERS["encode_strips"]
    assert lengths >= {(f, r, columns) for f, r in vectors.LOCALITIES for columns in vectors.ENCODED}
    assert lengths >= {(kind, f, columns) for kind in ("whole", "short") for f in (0, 1) for columns in vectors.ENCODED}
    some = (1, 2, 7, 8, 9, 63, 64, 255, 256, 257, 300, 512, 4096)
    assert lengths >= {("wired", f, columns) for f in (0, 1) for columns in some}
    assert all(seen[kind, f] > 50 for kind in ("whole", "wired", "short") for f in (0, 1)) and seen["large"] > 20
    assert seen["large and long"] > 2 and seen["5 and 6"] > 5 and seen["empty"] > 5
    assert all(seen["5", (True, True), span] for span in (0, 2))  # no column, and 4,097
    assert all(seen["5", whole, 1] > 5 for whole in ((True, False), (False, True), (False, False))), seen
    assert all(seen["6", 1, first, last] for first, last in ((True, False), (False, True), (False, False)))


def test_driver_numbers():
    """The driver's names and counts of buffers are those of vectors.py, in its order."""
    text = (Path(__file__).parent / "driver.c").read_text()
    names, counts = (re.search(rf"{word}\[CALLS \+ 1\] = {{(.*?)}};", text, re.DOTALL).group(1) for word in ("NAMES", "COUNTS"))
    assert re.findall(r'"(\w*)"', names) == ["", *vectors.CALLS] and vectors.CALLS[15] == "encode_strips"
    assert [int(count) for count in counts.split(",")] == [0, *map(len, vectors.BUFFERS.values())]
    called = dict(re.findall(r"case (\d+): return .*?latsefidy_(\w+)\(", text.replace("default:", f"case {len(vectors.CALLS)}:")))
    assert called.pop("1") == "encode" and [*called.values()] == vectors.CALLS[1:]
    assert f"CALLS = {len(vectors.CALLS)}," in text and f"LONGEST = {vectors.LONGEST}," in text


def test_lengths():
    """vectors.py makes good rebuilds of every locality of both fields at every length, and in every short last group; where k
    is below r good ones and some with one column that no codeword has, at every length, and at every place of one length."""
    seen, wirings, short, told, places = set(), set(), set(), set(), {code: set() for code in vectors.SWEPT}
    for data, refusal, _ in vectors.rebuilds(random.Random(1)):
        _, _, field, r, n, k, wiring, slot, _, strips, given = struct.unpack_from(">11I", data)
        (columns,) = struct.unpack_from(">I", data, 44 + given)
        code, mates = Code(field, r, n, k, wiring), r if slot < n - n % (r + 1) else n % (r + 1) - 1
        assert strips == given == mates * columns and refusal in (0, 9)
        foreign = ref.foreign_columns(code, ref.mates(code, slot), data[44 : 44 + given], columns)
        assert len(foreign) == (refusal == 9)
        if columns == vectors.SWEPT_LENGTH:
            places[code] |= set(foreign)
            continue
        if not untold(code, slot):
            told |= {(field, r, columns, refusal), ("wired" if wiring else "short" if ref.short(code) else "whole", refusal)}
            told |= {(field, {0: "first", columns // 2: "middle", columns - 1: "last"}.get(c)) for c in foreign if columns > 2}
        if refusal == 0:
            (seen if mates == r else short).add((field, r, mates, columns))
            wirings |= {(field, r, wiring), (field, columns, wiring)} if mates == r else set()
    legal = [(f, r) for f in (0, 1) for r in range(40) if ref.code_refusal(Code(f, r, r + 1, 1)) == 0]
    assert seen == {(f, r, r, columns) for f, r in legal for columns in vectors.LENGTHS}
    assert short == {(f, r, mates, c) for f, r in legal for mates in range(1, r) for c in vectors.SHORT_LENGTHS}
    assert {1, 2, 63, 64, 65, 127, 128, 129, 255, 256, 257, 300, 4096} <= set(vectors.LENGTHS)
    assert {(f, x, w) for f, r, _, c in seen for x in (r, c) for w in (0, 1)} == wirings
    assert told >= {(f, r, columns, answer) for f, r in legal for columns in vectors.LENGTHS for answer in (0, 9) if r > 1}
    assert told >= {(kind, answer) for kind in ("whole", "wired", "short") for answer in (0, 9)}
    assert told >= {(f, place) for f in (0, 1) for place in ("first", "middle", "last", None)}
    assert all(places[code] == set(range(vectors.SWEPT_LENGTH)) for code in vectors.SWEPT)


def test_vectors():
    """vectors.py makes codes of both wirings, aims at 17 and 18 with their neighbours, and the first of these answers."""
    rng = random.Random(6)
    wired = sum(vectors.pick_code(rng, None).wiring for _ in range(1000))
    assert 400 < wired < 500
    for name, asked in vectors.QUESTIONS.items():
        aimed = {pair for i in range(3000) for pair in itertools.permutations(vectors.aims(rng, name, i), 2)}
        assert aimed == set(itertools.permutations(asked, 2)), name
    pairs = [("view", pair) for pair in ((4, 17), (17, 18), (17, 5), (18, 5), (18, 7))]
    others = [name for name, asked in vectors.QUESTIONS.items() if 17 in asked and name not in vectors.READERS]
    pairs += [(name, pair) for name in others for pair in ((4, 17), (17, 5))]
    pairs += [("grade", (5, 8)), ("grade", (17, 8))] * 20
    for name, pair in pairs:
        for wiring in (0, 1):
            draft = vectors.Draft(rng, name, N._replace(wiring=wiring if name != "view" else 0))
            for number in pair:
                vectors.FAULTS[number](rng, draft)
            assert draft.finished()[1] == pair[0], (name, pair)
    for wiring in (0, 1):
        fields = set()
        for _ in range(200):
            draft = vectors.Draft(rng, "read_sheet", N._replace(wiring=wiring))
            vectors.fault_field(rng, draft)
            fields.add(draft.rows[0] >> 24)
            assert draft.finished()[1] == 1
        assert fields == {0x10 + 8 * wiring + field for field in range(2, 8)}


def test_short_vectors():
    """A third of the codes of wiring 0 are short, legal and of every kind; a fault in one gives what it is aimed at."""
    rng, seen = random.Random(8), set()
    codes = [vectors.pick_code(rng, None) for _ in range(4000)]
    codes += [vectors.pick_code(rng, field, short) for field in (0, 1, None) for short in (True, False) for _ in range(300)]
    assert all(ref.code_refusal(code) == 0 for code in codes)
    plain = [code for code in codes[:4000] if code.wiring == 0]
    assert 0.28 < sum(ref.short(code) > 0 for code in plain) / len(plain) < 0.42
    for code in filter(ref.short, plain):
        s, m = ref.short(code), ref.groups(code)
        seen |= {(code.field, code.r, s), ("least", code.k == s - 1), ("most", code.k == code.n - m), ("alone", m == 1)}
    wanted = {(f, r, s) for f, r in vectors.LOCALITIES for s in range(2, r + 1)}
    assert seen == wanted | set(itertools.product(("least", "most", "alone"), (True, False)))
    for name, asked in vectors.QUESTIONS.items():
        sure = set(asked) - {6, 7, 9, 18}  # a slot that is none may give 5, the others depend on the losses, k and the wiring
        for number, _ in itertools.product(sure, range(30)):
            draft = vectors.Draft(rng, name, vectors.pick_code(rng, None, True))
            vectors.FAULTS[number](rng, draft)
            assert draft.finished()[1] == number, (name, number, draft.base)


def test_foreign_vectors():
    """vectors.py makes repairs of true and of foreign mates in every kind of code with k below r, foreign columns beside faults
    of 5, 6 and 7, and words for the local pass with groups that are mended, groups that are left, and both."""
    rng, seen = random.Random(24), Counter()
    for index in range(2500):
        data, refusal, _ = vectors.make_call(rng, "repair", index)
        code, (slot, _, length) = Code(*struct.unpack_from(">5I", data, 8)), struct.unpack_from(">3I", data, 28)
        kind = "wired" if code.wiring else "short" if code.r and ref.short(code) else "whole"
        if refusal in (0, 9):
            seen[kind, code.field, untold(code, slot), refusal] += 1
            seen[code.field, code.r, code.k < code.r, refusal] += 1
        data, refusal, did = vectors.make_call(rng, "local_pass", index)
        code = Code(*struct.unpack_from(">5I", data, 8))
        if refusal == 0:
            kind = "wired" if code.wiring else "short" if ref.short(code) else "whole"
            seen["pass", kind, code.field, did] += 1
    for kind, field in itertools.product(("whole", "wired", "short"), (0, 1)):
        assert seen[kind, field, True, 0] > 20 and seen[kind, field, False, 0] > 10 and seen[kind, field, False, 9] > 20, seen
        assert seen[kind, field, True, 9] == 0
        assert all(seen["pass", kind, field, did] > 4 for did in vectors.PASSES.values()), (kind, field)
    assert all(seen[f, r, True, answer] for f, r in vectors.LOCALITIES if r > 1 for answer in (0, 9))
    for number, _ in itertools.product((5, 6, 7), range(60)):
        code = next(c for c in vectors.picks(rng, 0, None) if vectors.tells(c))
        for name, columns in (("repair", 0), ("rebuild", rng.choice([1, 2, 5]))):
            draft = vectors.Draft(rng, name, code, columns, vectors.told_slot(rng, code))
            vectors.FAULTS[9](rng, draft)
            strips, mates = draft.buffers["strips" if columns else "mates"].data, ref.mates(code, draft.slot)
            found = ref.foreign_columns(code, mates, strips, columns or 1)
            assert len(found) == 1
            vectors.FAULTS[number](rng, draft)
            if number == 6:
                changed = draft.buffers["strips" if columns else "mates"].data
                seen["6 beside"] += columns > 1 and all(s < 13 for s in changed[found[0] :: columns])
            assert draft.finished()[1] == number, (name, number, code)
    assert seen["6 beside"] > 10


def test_near_vectors():
    """vectors.py makes decode_near answer 0 with no group mended, one and many, also beside groups with more losses; 9 with
    groups mended, left and both, also where 10 would follow; 10 with some mended; in every kind of code, with any bytes in lost
    slots. 6 comes of mended groups and of others."""
    rng, seen = random.Random(27), Counter()
    for index in range(4000):
        data, refusal, kind = vectors.make_call(rng, "decode_near", index)
        code, (_, count, length, given) = Code(*struct.unpack_from(">5I", data, 8)), struct.unpack_from(">4I", data, 28)
        assert count == 4 and (kind is None) == (refusal not in (0, 9, 10))
        seen[refusal] += 1
        if kind is None and refusal != 6:
            continue
        word, marks = data[44 : 44 + given], data[52 + given : 52 + 2 * given]
        assert length == given == len(marks) == code.n and set(marks) <= {0, 1}
        crowds = [len(ref.losses(code, marks, g)) for g in range(ref.groups(code))]
        if refusal == 6:
            wrong = [p for p in range(code.n) if not marks[p] and word[p] > 12]
            seen["6", {min(crowds[ref.group(code, p)], 2) for p in wrong} == {1}] += 1
            continue
        shape = "wired" if code.wiring else "short" if ref.short(code) else "whole"
        assert kind in vectors.NEARS.values() and kind[0] == refusal
        seen[kind, shape, code.field] += 1
        seen["no symbol", refusal] += code.field == 0 and any(m and s > 12 for m, s in zip(marks, word))
        seen["crowded", kind] += max(crowds) > 1
        seen["9 before 10"] += refusal == 9 and ref.undecided(code, marks)
        if refusal == 0:
            assert kind == (0, min(crowds.count(1), 2), False)
    assert {number for number in seen if isinstance(number, int)} == vectors.ANSWERS["decode_near"]
    for kind, shape, field in itertools.product(vectors.NEARS.values(), ("whole", "wired", "short"), (0, 1)):
        assert seen[kind, shape, field], (kind, shape, field)
    assert all(seen["no symbol", refusal] > 50 for refusal in (0, 9, 10)) and min(seen["6", True], seen["6", False]) > 20
    assert seen["crowded", (0, 1, False)] > 50 and seen["crowded", (0, 2, False)] > 50 and seen["9 before 10"] > 20


def test_short_mates():
    """The calls of vectors.py hand over s - 1 mates and r mates, for slots of short groups, of others, and of none."""
    rng, seen = random.Random(9), set()
    for index in range(3000):
        data, refusal, _ = vectors.make_call(rng, "repair", index + len(vectors.CORNERS))
        code, (slot, _, length) = Code(*struct.unpack_from(">5I", data, 8)), struct.unpack_from(">3I", data, 28)
        if ref.code_refusal(code) == 0 and ref.short(code):
            whose = "none" if slot >= code.n else "short" if slot >= code.n - ref.short(code) else "whole"
            given = "r" if length == code.r else "s - 1" if length == ref.short(code) - 1 else "other"
            seen.add((whose, given, refusal))
    good = {(whose, given, answer) for whose, given in (("short", "s - 1"), ("whole", "r")) for answer in (0, 6)}
    good.add(("whole", "r", 9))
    wrong = {("short", "r", 5), ("whole", "s - 1", 5), ("none", "s - 1", 5), ("short", "other", 5), ("whole", "other", 5)}
    assert seen >= good | wrong | {("none", "r", 7)} and not seen & {("none", "s - 1", 7), ("short", "s - 1", 9)}


def test_order():
    """Several faults at once: the first question that fails answers."""
    word, marks, work = bytearray(b"\x0d" * 9), bytearray(b"\2" * 9), bytearray(45)
    assert ref.repair(N, 99, b"\x0d") == (5, 0)
    assert ref.repair(N, 99, b"\x0d\x0d") == (7, 0)
    assert ref.repair(N, 8, b"\x0d\x0d") == (6, 0)
    assert ref.decode(N, word, marks, bytearray(4), work) == 8
    assert ref.decode(N, word, bytes(9), bytearray(4), work) == 6
    assert ref.decode(N, word, marks, bytearray(4), bytearray(44)) == 5
    assert ref.local_pass(N, word, bytearray(9)) == (0, 0)
    assert ref.local_pass(N, word, bytearray(b"\1" + bytes(8))) == (6, 0)
    assert ref.write_sheet(N, word, marks, bytearray(44)) == 8
    assert ref.view(N, 9, bytes(8)) == (5, 0) and ref.view(N, 9, word) == (7, 0)
    assert ref.view(N, 5, word) == (0, 3)
    above = N._replace(wiring=2)
    assert ref.view(WIRED, 5, word) == (18, 0) and ref.view(WIRED, 9, bytes(8)) == (18, 0)
    assert ref.view(above, 9, bytes(8)) == (17, 0) and ref.view(above._replace(k=7), 9, bytes(8)) == (4, 0)
    assert ref.encode(above, b"\x0d", bytearray(9)) == 17 and ref.weights(above, 99, bytearray(15)) == 17
    assert ref.repair(above, 99, b"\x0d") == (17, 0) and ref.rebuild(above, 99, b"", bytearray()) == 17
    assert ref.local_pass(above, word, marks[1:]) == (17, 0) and ref.grade(above, marks[1:], work[1:]) == (17, 0)
    assert ref.decode(above, word, marks, bytearray(4), bytearray(44)) == 17
    assert ref.record(above, word, marks, bytearray(4), work, [7] * 9) == 17
    assert ref.record(N, word, bytes(9), bytearray(4), work, [7] * 9) == 5
    assert ref.write_sheet(above, word, marks, bytearray(43)) == 17


def test_short_order():
    """Of a short last group 5 wants s - 1 mates, of another r, and r of a slot that is none; 17 comes after 4."""
    code = Code(0, 3, 7, 4)  # slots 4 5 6 are the last group
    for slot, count in [(0, 3), (3, 3), (4, 2), (6, 2), (7, 3), (8, 3), (99, 3), (2**32 - 1, 3)]:
        for length in range(6):
            wanted = 5 if length != count else 7 if slot > 6 else 6
            assert ref.repair(code, slot, b"\x0d" * length) == (wanted, 0)
            assert ref.rebuild(code, slot, b"\x0d" * 5 * length, bytearray(5)) == wanted
    out = bytearray(16)
    assert ref.weights(code, 6, out) == 0 and out[2:] == bytes(14) and 0 not in out[:2]
    assert ref.weights(code, 7, out) == 7 and ref.weights(code, 6, bytearray(2)) == 5
    for wiring in (1, 2, 2**32 - 1):
        wrong = code._replace(wiring=wiring)
        assert ref.repair(wrong, 99, b"") == (17, 0) and ref.view(wrong, 99, b"") == (17, 0)
        assert ref.repair(wrong._replace(k=1), 99, b"") == (4, 0) and ref.repair(wrong._replace(n=5), 99, b"") == (3, 0)
    assert ref.view(code, 6, bytes(7)) == (0, 4) and ref.view(code, 7, bytes(7)) == (7, 0)
    word, marks = bytearray(b"\x0d" * 7), bytearray(marked(7, [5]))
    assert ref.local_pass(code, word, marks) == (6, 0)
    word[4] = word[6] = 1
    assert ref.local_pass(code, word, marks) == (0, 1) and marks == bytes(7) and word[:4] == b"\x0d" * 4


def test_grade_by_search():
    """Of every pattern of losses, some of the longer codes: 4 where two of all codewords have the same kept symbols, else 3."""
    rng, seen = random.Random(10), set()
    for code in itertools.chain(small_codes(2), short_codes(2)):
        words = [encoded(code, m) for m in all_messages(code)]
        assert len(set(words)) == len(words)
        patterns = list(itertools.product((0, 1), repeat=code.n))
        for marks in patterns if len(patterns) <= 64 else rng.sample(patterns, 64):
            lost = [p for p in range(code.n) if marks[p]]
            crowds = [sum(marks[p] for p in ref.members(code, g)) for g in range(ref.groups(code))]
            parts = {bytes(w[p] for p in range(code.n) if not marks[p]) for w in words}
            if max(crowds) <= 1:
                wanted = max(crowds)
            elif sum(marks) <= ref.guarantee(code):
                wanted = 2
            else:
                wanted = 3 if len(parts) == len(words) else 4
            assert grade(code, lost) == wanted, (code, lost)
            assert wanted == 4 or len(parts) == len(words)
            seen.add((code.wiring, ref.short(code) > 0, wanted))
    assert seen == {(w, s, level) for w, s in ((0, False), (0, True), (1, False)) for level in range(5)}


def test_grade_and_decode():
    """Under grade 4 decode answers 10 of each codeword, under the others 10 of no word; 9 is of the word."""
    rng, seen = random.Random(11), set()
    codes = list(itertools.chain(small_codes(11), short_codes(10)))
    codes += [Code(1, 4, 20, 12, 1), Code(1, 4, 25, 14), Code(1, 4, 18, 10), Code(1, 2, 15, 7), Code(1, 14, 45, 30, 1)]
    for code in codes:
        q = ref.order(code.field)
        for _ in range(12):
            lost = [p for p, mark in enumerate(vectors.pick_marks(rng, code)) if mark]
            marks, level = marked(code.n, lost), grade(code, lost)
            message = bytes(rng.randrange(q) for _ in range(code.k))
            word = encoded(code, message)
            blurred = bytes(rng.randrange(256) if m else s for s, m in zip(word, marks))
            assert decoded(code, blurred, marks)[0] == (10 if level == 4 else 0), (code, lost)
            noise = bytes(rng.randrange(q) for _ in range(code.n))
            answer = decoded(code, noise, marks)[0]
            assert answer in ((9, 10) if level == 4 else (0, 9))
            assert level < 2 or level == 4 or len(lost) <= code.n - code.k
            seen |= {(level, code.wiring, ref.short(code) > 0, answer), (level, code.field)}
    kinds = [(0, False), (1, False), (0, True)]
    assert seen >= {(4, *kind, answer) for kind in kinds for answer in (9, 10)} | {(3, *kind, 9) for kind in kinds}
    assert seen >= {(level, field) for level in range(5) for field in (0, 1)}


def test_grade_past_the_guarantee():
    """One loss past the guarantee can be either: whole groups kept leave two codewords, other slots may decide."""
    rng, seen = random.Random(12), set()
    for code in itertools.chain(small_codes(11), short_codes(10), [Code(1, 16, 34, 20), Code(1, 14, 45, 30, 1)]):
        past = ref.guarantee(code) + 1
        order = sorted(range(code.n), key=lambda p: (len(ref.members(code, ref.group(code, p))), ref.group(code, p), p))
        lost = order[code.n - past :]
        assert grade(code, lost) == (4 if ref.first_crowded(code, marked(code.n, lost)) != 255 else 1)
        others = [rng.sample(range(code.n), past) for _ in range(8)]
        seen |= {(grade(code, slots), code.field) for slots in [lost, *others]}
    assert seen >= {(level, field) for level in (3, 4) for field in (0, 1)}


def test_grade_order():
    """Marks of n and work of n * (k + 1) at least are 5, before 8; a refusal leaves work, every grade clears its front."""
    bad, good = bytes([0] * 8 + [2]), marked(9, [2, 5, 6, 7, 8])
    wrong = [(N._replace(field=2), 1), (N._replace(r=4), 2), (N._replace(n=10), 3), (N._replace(k=7), 4)]
    for code, number in [*wrong, (N._replace(wiring=2), 17), (N._replace(k=7, wiring=2), 4)]:
        for marks, room in itertools.product((good, bad, good[1:]), (0, 44, 45)):
            work = bytearray(b"\xbb" * room)
            assert ref.grade(code, marks, work) == (number, 0) and work == b"\xbb" * room
    for marks, room, number in [(good, 44, 5), (bad, 44, 5), (good, 0, 5), (bad, 0, 5), (good[1:], 45, 5), (bad[1:], 45, 5)]:
        work = bytearray(b"\xbb" * room)
        assert ref.grade(N, marks, work) == (number, 0) and work == b"\xbb" * room
    work = bytearray(b"\xbb" * 50)
    assert ref.grade(N, bad, work) == (8, 0) and work == b"\xbb" * 50
    assert ref.grade(N, good + b"\0", work) == (5, 0) and work == b"\xbb" * 50
    for level, lost in enumerate([[], [0, 3, 6], range(4), [2, 5, 6, 7, 8], range(4, 9)]):
        work = bytearray(b"\xbb" * 50)
        assert ref.grade(N, marked(9, lost), work) == (0, level) and work == bytes(45) + b"\xbb" * 5
    assert ref.first_broken(N, bad) == (8, 0) and ref.first_broken(N, bad[1:]) == (5, 0)
    assert ref.first_broken(N, good) == (0, 2) and ref.first_broken(N, bytes(9)) == (0, 255)


def test_grade_vectors():
    """vectors.py makes every grade over both fields, wired, short and neither, and one past the guarantee of 3 and of 4."""
    rng, seen = random.Random(14), Counter()
    for index in range(1500):
        data, refusal, level = vectors.make_call(rng, "grade", index)
        if refusal:
            continue
        code, (_, count, length, given) = Code(*struct.unpack_from(">5I", data, 8)), struct.unpack_from(">4I", data, 28)
        marks = data[44 : 44 + given]
        assert count == 2 and length == given == code.n and ref.graded(code, marks) == level
        (room,) = struct.unpack_from(">I", data, 44 + given)
        assert room >= code.n * (code.k + 1)
        kind = "wired" if code.wiring else "short" if ref.short(code) else "plain"
        seen[level, code.field, kind, room == code.n * (code.k + 1)] += 1
        seen[level, "one past"] += sum(marks) == ref.guarantee(code) + 1
    for level, field, kind, exact in itertools.product(range(5), (0, 1), ("wired", "short", "plain"), (True, False)):
        assert seen[level, field, kind, exact], (level, field, kind, exact)
    assert seen[3, "one past"] > 15 and seen[4, "one past"] > 30


def test_preview():
    """Worked numbers: what is lost, the slot, and the number lost, the grade and the first group that follow."""
    for code, lost, slot, wanted in [
        (N, [], 7, (1, 1, 255)),
        (N, [0], 3, (2, 1, 255)),
        (N, [0, 3], 7, (3, 1, 255)),
        (N, [0], 1, (2, 2, 0)),
        (N, [0, 4, 7], 8, (4, 2, 2)),
        (N, [2, 3, 5], 1, (4, 2, 0)),
        (N, range(4), 4, (5, 4, 0)),
        (N, range(4), 6, (5, 3, 0)),
        (N, range(4), 0, (4, 2, 0)),
        (N, [2, 5, 6, 7], 8, (5, 3, 2)),
        (N, [4, 5, 6, 7], 8, (5, 4, 1)),
        (N, [2, 5, 6, 7, 8], 7, (5, 3, 2)),
        (N, [2, 5, 6, 7, 8], 0, (6, 4, 0)),
        (N, range(1, 9), 0, (9, 4, 0)),
        (N, range(9), 8, (9, 4, 0)),
        (WIRED, [0, 1], 0, (2, 1, 255)),
        (WIRED, [0, 1], 2, (3, 1, 255)),
        (WIRED, [0, 1], 3, (3, 2, 0)),
        (WIRED, [0, 1, 3, 4], 6, (5, 4, 0)),
        (WIRED, [0, 1, 3, 4], 2, (5, 3, 0)),
        (WIRED, [2, 5, 6, 7], 8, (5, 3, 2)),
        (Code(0, 2, 12, 6), [0, 3, 6, 9], 10, (5, 3, 3)),  # three groups mend themselves, and two losses are left
        (Code(0, 2, 12, 8), [0, 3, 6], 9, (4, 1, 255)),
        (Code(0, 2, 12, 8), [0, 3, 6], 7, (4, 4, 2)),
        (ELEVEN, [0, 9], 10, (3, 2, 3)),
        (ELEVEN, [0, 5, 9, 10], 8, (5, 3, 3)),
        (ELEVEN, [0, 1, 2, 9], 10, (5, 4, 0)),
        (ELEVEN, range(6, 10), 10, (5, 4, 2)),
        (Code(1, 4, 8, 5), [5], 6, (2, 2, 1)),
        (Code(1, 4, 8, 5), [5, 6], 0, (3, 3, 1)),
        (Code(1, 4, 8, 5), [5, 6], 7, (3, 4, 1)),
        (Code(1, 2, 9, 5, 1), [0, 3], 6, (3, 4, 0)),
        (Code(1, 2, 9, 5, 1), [0, 3], 7, (3, 3, 0)),
    ]:
        assert preview(code, slot, lost) == wanted, (code, lost, slot)


def test_preview_order():
    """1 2 3 4 17 5 7 8. 5 is marks, work and the answer's length; a refusal leaves every buffer."""
    bad, good = bytes([0] * 8 + [2]), marked(9, [2, 5, 6, 7])

    def refused(code, slot, marks, room, places=3):
        work, out, left = bytearray(b"\xbb" * room), [7] * places, bytearray(marks)
        refusal = ref.preview(code, slot, left, work, out)
        assert work == b"\xbb" * room and out == [7] * places and left == marks
        return refusal

    wrong = [(N._replace(field=2), 1), (N._replace(r=4), 2), (N._replace(n=10), 3), (N._replace(k=7), 4)]
    for code, number in [*wrong, (N._replace(wiring=2), 17), (N._replace(k=7, wiring=2), 4)]:
        for slot, marks, room, places in itertools.product((8, 9), (good, bad, good[1:]), (0, 44, 45), (2, 3)):
            assert refused(code, slot, marks, room, places) == number
    for slot, marks in itertools.product((8, 9, 2**32 - 1), (good, bad)):
        assert refused(N, slot, marks, 44) == refused(N, slot, marks, 0) == refused(N, slot, marks, 44, 2) == 5
        assert refused(N, slot, marks[1:], 45) == refused(N, slot, marks + b"\0", 45) == refused(N, slot, b"", 45) == 5
        assert all(refused(N, slot, marks, 45, places) == 5 for places in (0, 1, 2, 4, 10))
    for slot, marks in itertools.product((9, 10, 255, 256, 2**31, 2**32 - 1), (good, bad, b"\xff" * 9)):
        assert refused(N, slot, marks, 45) == refused(WIRED, slot, marks, 50) == 7
    assert refused(ELEVEN, 11, bytes(11), 66) == 7 and refused(ELEVEN, 11, bytes([2] * 11), 65) == 5
    for slot in range(9):
        assert refused(N, slot, bad, 45) == refused(N, slot, b"\xff" * 9, 50) == 8  # the slot's own mark is asked too
    work, out = bytearray(b"\xbb" * 50), [7] * 3
    assert ref.preview(N, 8, good, work, out) == 0 and out == [5, 3, 2] and work == bytes(45) + b"\xbb" * 5


def test_preview_laws():
    """A lost slot changes nothing. A kept one is one more lost; no grade falls and no first group rises. A slot is safe where
    decode gives a codeword's message back without it."""
    rng, seen = random.Random(16), set()
    codes = list(itertools.chain(small_codes(11), short_codes(10)))
    codes += [Code(1, 4, 20, 12, 1), Code(1, 4, 25, 14), Code(1, 4, 18, 10), Code(1, 2, 15, 7), Code(1, 14, 45, 30, 1)]
    for code in codes:
        for _ in range(4):
            marks = bytes(vectors.pick_marks(rng, code))
            lost = [p for p in range(code.n) if marks[p]]
            level, first = grade(code, lost), ref.first_crowded(code, marks)
            message = bytes(rng.randrange(ref.order(code.field)) for _ in range(code.k))
            word = encoded(code, message)
            for p in range(code.n) if code.n <= 12 else rng.sample(range(code.n), 6):
                follows = preview(code, p, lost)
                assert follows == (sum(marks) + 1 - marks[p], grade(code, [*lost, p]), follows[2])
                assert follows[2] == ref.first_broken(code, marked(code.n, [*lost, p]))[1]
                if marks[p]:
                    assert follows == (len(lost), level, first)
                else:
                    assert follows[0] == len(lost) + 1 and follows[1] >= max(level, 1) and follows[2] <= first
                    answer = decoded(code, word, marked(code.n, [*lost, p]))
                    assert answer == (0, message) if follows[1] < 4 else answer[0] == 10
                    seen.add((level, follows[1]))
    assert seen == set(vectors.STEPS)


def test_previews_of_all():
    """What one count and one elimination tell of all kept slots is what each slot's preview is."""
    rng, seen = random.Random(17), Counter()
    codes = list(itertools.chain(small_codes(11), short_codes(10)))
    codes += [Code(1, 4, 20, 12, 1), Code(1, 4, 25, 14), Code(1, 4, 18, 10), Code(1, 2, 15, 7), Code(1, 14, 45, 30, 1)]
    codes += [Code(1, 16, 255, 240), Code(1, 2, 255, 170, 1), Code(1, 16, 250, 230), Code(1, 14, 255, 1)]
    for code in codes:
        for _ in range(6 if code.n < 250 else 2):
            marks = vectors.pick_marks(rng, code)
            kept, found = ref.kept_slots(code, marks), ref.previews(code, marks)
            assert list(found) == kept
            for p in kept if code.n < 250 else rng.sample(kept, min(len(kept), 4)):
                assert found[p] == ref.previewed(code, p, marks), (code, marks, p)
            levels = {level for _, level, _ in found.values()}
            seen[4 in levels, bool(levels - {4})] += 1
    assert min(seen[True, False], seen[True, True], seen[False, True], seen[False, False]) > 20


def test_preview_sheets():
    """A line for each kept slot and the safe ones; a sheet's refusal as in the report; symbols of no codeword change nothing."""
    foreign = ONES_WORD[:8] + b"\1"
    assert decoded(N, foreign, marked(9, range(4)))[0] == 9
    for lost, text in [
        ([0, 3], "slot 1 grade 2 first 0\nslot 2 grade 2 first 0\nslot 4 grade 2 first 1\nslot 5 grade 2 first 1\n"
         "slot 6 grade 1 first 255\nslot 7 grade 1 first 255\nslot 8 grade 1 first 255\nsafe 1 2 4 5 6 7 8\n"),
        (range(4), "slot 4 grade 4 first 0\nslot 5 grade 4 first 0\n"
         "slot 6 grade 3 first 0\nslot 7 grade 3 first 0\nslot 8 grade 3 first 0\nsafe 6 7 8\n"),
        ([2, 5, 6, 7, 8], "".join(f"slot {p} grade 4 first {p // 3}\n" for p in (0, 1, 3, 4)) + "safe\n"),
        (range(9), "safe\n"),
    ]:
        for word in (ONES_WORD, foreign):
            data = plain_sheet(N, word, marked(9, lost))
            assert ref.preview_text(data) == text, lost
            out = bytearray(b"\xcc" * 8421)
            assert ref.preview_sheet(data, out) == (0, len(text))
            assert out == text.encode() + b"\xcc" * (8421 - len(text))
    example = sheet("10020301 20000005 30000100 20000205 40000003")
    assert ref.preview_text(example) == "slot 0 grade 2 first 0\nslot 2 grade 2 first 0\nsafe 0 2\n"
    assert ref.preview_text(example + bytes(1009)) == "refused 11\n"
    assert ref.preview_text(example + bytes(2000)) == "refused 13\n"
    short = bytearray(8419)
    assert ref.preview_sheet(example, short) == (5, 0) and short == bytes(8419)
    rng, refused = random.Random(18), Counter()
    for index in range(400):
        data, number, _ = vectors.make_call(rng, "preview_sheet", index + len(vectors.CORNERS))
        length, given = struct.unpack_from(">2I", data, 36)
        given = data[44 : 44 + given]
        report, text = ref.report_text(given), ref.preview_text(given)
        assert (text == report) == (text[:7] == "refused") == (report[:7] == "refused")
        assert number in (5, int(text[8:]) if text[:7] == "refused" else 0)
        refused[number] += 1
    assert set(refused) == vectors.ANSWERS["preview_sheet"]


def test_preview_vectors():
    """vectors.py makes previews of lost and kept slots, of n - 1, of every step between grades, and faults of 7 with 8."""
    rng, seen = random.Random(19), Counter()
    for index in range(2000):
        data, refusal, step = vectors.make_call(rng, "preview", index)
        code, (slot, count, length, given) = Code(*struct.unpack_from(">5I", data, 8)), struct.unpack_from(">4I", data, 28)
        marks = data[44 : 44 + given]
        assert count == 3
        seen["7 and 8"] += refusal == 7 and max(marks) > 1
        if refusal:
            continue
        assert length == given == code.n and slot < code.n
        kind = "wired" if code.wiring else "short" if ref.short(code) else "plain"
        assert step == (ref.graded(code, marks), ref.previewed(code, slot, marks)[1])
        seen["lost" if marks[slot] else step, code.field] += 1
        seen[step[1], kind] += 1
        seen["last"] += slot == code.n - 1
    assert all(seen[step, field] for step in ["lost", *vectors.STEPS] for field in (0, 1)), seen
    assert all(seen[level, kind] for level in range(1, 5) for kind in ("wired", "short", "plain"))
    assert seen["7 and 8"] > 100 and seen["last"] > 50
    assert all(sum(seen[step, field] for field in (0, 1)) > 20 for step in ((1, 2), (2, 3), (2, 4), (3, 4)))


def test_record():
    """Ten numbers, with the wiring after k."""
    word, out = encoded(WIRED, ONES), [7] * 10
    for lost, tail in [([1, 4], [2, 4, 2, 1, 0]), ([0, 1], [2, 4, 1, 255, 0]), ([1, 2, 4, 5, 7], [5, 4, 4, 1, 10])]:
        assert ref.record(WIRED, word, marked(9, lost), bytearray(4), bytearray(45), out) == 0
        assert out == [0, 2, 9, 4, 1, *tail]
    word = encoded(ELEVEN, [1] * 5)
    for lost, tail in [([9, 10], [2, 4, 2, 3, 0]), ([0, 10], [2, 4, 1, 255, 0]), (range(6, 11), [5, 4, 4, 2, 10])]:
        assert ref.record(ELEVEN, word, marked(11, lost), bytearray(5), bytearray(66), out) == 0
        assert out == [0, 2, 11, 5, 0, *tail]


def main():
    tests = [(name, run) for name, run in globals().items() if name.startswith("test_")]
    for name, run in tests:
        run()
        print("ok", name)
    print(len(tests), "passed")


if __name__ == "__main__":
    main()
