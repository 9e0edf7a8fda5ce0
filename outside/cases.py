"""Prints what the program `cases` must write, by the reference: crates/cases/stdout is this text."""

import reference as ref


def line(*numbers):
    print("".join(f"{n} " for n in numbers))


def head(name, code):
    print(name, *code, "=", end=" ")


def encodes(code, message, codeword):
    refusal = ref.encode(code, message, codeword)
    head("encode", code)
    line(refusal, *codeword)


def weighs(code, slot):
    out = bytearray(16)
    refusal = ref.weights(code, slot, out)
    head("weights", code)
    line(refusal, *out)


def repairs(code, slot, mates):
    head("repair", code)
    line(*ref.repair(code, slot, mates))


def rebuilds(code, slot, strips, output):
    refusal = ref.rebuild(code, slot, strips, output)
    head("rebuild", code)
    line(refusal, *output)


def views(code, slot, word):
    refusal, first = ref.view(code, slot, word)
    part = [word[p] for p in ref.members(code, ref.group(code, slot))] if refusal == 0 else []
    head("view", code)
    line(refusal, *part)


def passes(code, word, marks):
    head("pass", code)
    line(*ref.local_pass(code, word, marks))
    line(*word)
    line(*marks)


def decodes(code, word, marks, message, work):
    refusal = ref.decode(code, word, marks, message, work)
    head("decode", code)
    line(refusal, *ref.grade(code, marks, work), *message)


def nears(code, word, marks, message, work):
    answer = ref.decode_near(code, word, marks, message, work)
    head("near", code)
    line(*answer, *message)


def previews(code, slot, marks, work):
    out = [0] * 3
    refusal = ref.preview(code, slot, marks, work, out)
    head("preview", code)
    line(refusal, *out)


def breaks(code, marks):
    head("first", code)
    line(*ref.first_broken(code, marks))


def classroom():
    code = ref.Code(0, 2, 9, 4)
    word = bytes([4, 8, 7, 1, 11, 2, 0, 0, 0])
    encodes(code, bytes([1, 1, 1, 1]), bytearray(9))
    encodes(code, bytes([1, 2, 3, 4]), bytearray(9))
    encodes(code, bytes([1, 2, 13, 4]), bytearray(9))
    weighs(code, 0)
    weighs(code, 9)
    repairs(code, 0, bytes([8, 7]))
    repairs(ref.Code(0, 2, 3, 1), 0, bytes([5, 7]))
    views(code, 4, word)
    views(code, 9, word)
    for text, received in [
        ("111100000", word),
        ("001001111", word),
        ("000011111", word),
        ("000000000", word[:8] + b"\x01"),
        ("111111111", word),
        ("000020000", word),
    ]:
        decodes(code, received, bytes(map(int, text)), bytearray([7] * 4), bytearray(45))
    for text, received in [
        ("000000000", word),
        ("100010001", word),
        ("001001111", word),
        ("001111111", word),  # group 0 is mended, and 10
        ("100010000", word[:8] + b"\x01"),  # two groups are mended, and 9
        ("000020000", word),
    ]:
        nears(code, received, bytes(map(int, text)), bytearray([7] * 4), bytearray(45))
    for slot, text in [
        (7, "000000000"),
        (4, "111100000"),
        (0, "111100000"),  # lost already
        (8, "001001110"),
        (8, "000011110"),
        (9, "000020000"),  # 7 before 8
        (3, "000020000"),
    ]:
        previews(code, slot, bytes(map(int, text)), bytearray(45))


def questions():
    ones = bytes([1, 1, 1, 1])
    refused = [(2, 2, 9, 4), (0, 4, 10, 4), (0, 2, 10, 4), (0, 2, 15, 4), (0, 2, 9, 7), (0, 2, 9, 0)]
    for numbers in [*refused, (0, 2, 9, 7, 2), (0, 2, 9, 4, 2)]:
        encodes(ref.Code(*numbers), ones, bytearray(9))
    views(ref.Code(0, 2, 9, 4, 2), 4, bytes([4]))
    encodes(ref.Code(0, 2, 9, 4), ones[:3], bytearray(9))
    encodes(ref.Code(*[2**32 - 1] * 5), ones[:1], bytearray(9))


def short_questions():
    """No slots, one in the last group, k below s - 1 and above n - m, wired, and a codeword of nine for eight."""
    for numbers in [(2, 0, 4), (5, 7, 4), (3, 7, 1), (2, 8, 6), (2, 8, 6, 1), (2, 8, 4, 1), (2, 8, 4)]:
        encodes(ref.Code(0, *numbers), bytes([1, 1, 1, 1]), bytearray(9))


def other_codes():
    encodes(ref.Code(0, 3, 12, 7), bytes([1, 2, 3, 4, 5, 6, 7]), bytearray(12))
    encodes(ref.Code(1, 2, 9, 5), bytes([1, 2, 3, 4, 255]), bytearray(9))
    code = ref.Code(1, 4, 10, 3)
    weighs(code, 7)
    repairs(code, 7, bytes([10, 200, 30, 140]))
    rebuilds(code, 7, bytes([10, 0, 1, 200, 0, 2, 30, 0, 3, 140, 0, 4]), bytearray(3))
    rebuilds(code, 7, b"", bytearray(0))


def told_mates():
    """Where k is below r: mates that some codeword has and mates that none has, alone, in a strip and in the local pass."""
    repairs(ref.Code(0, 2, 3, 1), 0, bytes([5, 5]))
    code, spread, short = ref.Code(1, 4, 10, 3), ref.Code(1, 4, 10, 3, 1), ref.Code(0, 3, 6, 2)
    repairs(code, 7, bytes([9, 62, 11, 196]))
    rebuilds(code, 7, bytes([9, 0, 22, 62, 0, 110, 11, 0, 41, 196, 0, 52]), bytearray(3))
    rebuilds(code, 7, bytes([9, 0, 22, 62, 0, 110, 11, 0, 41, 196, 0, 53]), bytearray(3))
    repairs(spread, 7, bytes([9, 62, 249, 196]))
    repairs(spread, 7, bytes([10, 200, 30, 140]))
    repairs(short, 0, bytes([6, 2, 4]))  # of degree 2
    repairs(short, 0, bytes([8, 12, 5]))  # of degree 1, and of no codeword
    word, marks = bytearray([255, 5, 7, 4, 255, 4, 255, 255, 6]), bytearray([1, 0, 0, 0, 1, 0, 1, 1, 0])
    nears(ref.Code(0, 2, 9, 1), word, marks, bytearray([7]), bytearray(18))
    passes(ref.Code(0, 2, 9, 1), word, marks)


def wired(field, *message):
    """Every call on a code with wiring 1 and the guarantee 4; the slots that are lost first hold no symbols."""
    code, word = ref.Code(field, 2, 9, 4, 1), bytearray(9)
    encodes(code, bytes(message), word)
    word[:2] = [255, 255]
    weighs(code, 4)
    repairs(code, 4, bytes([10, 6]))
    rebuilds(code, 4, bytes([10, 0, 1, 6, 0, 2]), bytearray(3))
    views(code, 4, bytes([10]))
    for text in ("110110000", "111001001", "110110100"):
        decodes(code, word, bytes(map(int, text)), bytearray([7] * 4), bytearray(45))
        nears(code, word, bytes(map(int, text)), bytearray([7] * 4), bytearray(45))
    for slot, text in [(6, "110110000"), (0, "110000000")]:
        previews(code, slot, bytes(map(int, text)), bytearray(45))
    for text in ("110000000", "010010000"):
        breaks(code, bytes(map(int, text)))
    passes(code, word, bytearray([1, 1] + [0] * 7))


def short(field, *message):
    """Every call on a code with the guarantee 4 and slots 9 and 10 for a last group; those lost first hold no symbols."""
    code, word = ref.Code(field, 2, 11, 5), bytearray(11)
    encodes(code, bytes(message), word)
    word[0] = word[10] = 255
    weighs(code, 9)
    weighs(code, 10)
    repairs(code, 10, bytes([7]))
    rebuilds(code, 9, bytes([10, 0, 1]), bytearray(3))
    for slot, mates in [(10, [7, 6]), (4, [7]), (11, [7]), (11, [7, 6])]:
        repairs(code, slot, bytes(mates))
    views(code, 9, word)
    for text in ("10000000001", "11000000011", "10000100111", "11100000011"):
        decodes(code, word, bytes(map(int, text)), bytearray([7] * 5), bytearray(66))
        nears(code, word, bytes(map(int, text)), bytearray([7] * 5), bytearray(66))
    for slot, text in [(10, "10000000010"), (8, "10000100011")]:
        previews(code, slot, bytes(map(int, text)), bytearray(66))
    for text in ("00000000011", "00000000110"):
        breaks(code, bytes(map(int, text)))
    passes(code, word, bytearray([1] + [0] * 9 + [1]))


def more_mates():
    code = ref.Code(1, 4, 8, 5)
    weighs(code, 6)
    repairs(code, 6, bytes([10, 200]))
    rebuilds(code, 6, bytes([10, 0, 1, 200, 0, 2]), bytearray(3))
    weighs(ref.Code(1, 16, 250, 230), 249)
    repairs(ref.Code(0, 11, 5, 4), 2, bytes([1, 2, 3, 4]))


def corner(*numbers):
    code = ref.Code(*numbers)
    message = bytes((7 * i + 3) % ref.order(code.field) for i in range(code.k))
    word, marks = bytearray(code.n), bytearray(code.n)
    encodes(code, message, word)
    word[0], marks[0] = 255, 1
    decodes(code, word, marks, bytearray(code.k), bytearray(code.n * (code.k + 1)))
    nears(code, word, marks, bytearray(code.k), bytearray(code.n * (code.k + 1)))
    previews(code, code.n - 1, marks, bytearray(code.n * (code.k + 1)))
    passes(code, word, marks)


if __name__ == "__main__":
    classroom()
    questions()
    short_questions()
    other_codes()
    told_mates()
    wired(0, 1, 2, 3, 4)
    wired(1, 1, 2, 3, 255)
    short(0, 1, 2, 3, 4, 5)
    short(1, 1, 2, 3, 4, 255)
    more_mates()
    corner(0, 1, 12, 6)
    corner(0, 11, 12, 11)
    corner(0, 2, 12, 1)
    corner(1, 14, 30, 5)
    corner(1, 16, 255, 240)
    corner(1, 4, 10, 3, 1)
    corner(0, 2, 11, 5)
    corner(0, 3, 6, 2)
    corner(1, 16, 250, 230)
    corner(0, 11, 5, 4)
