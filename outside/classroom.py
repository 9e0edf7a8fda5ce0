"""What the program `classroom` answers for an input, by the reference.

    python3 outside/classroom.py < INPUT     the sheet on standard output, or a sentence on standard error; the exit status
"""

import sys

import reference as ref

MOST = 4096  # bytes of an input
SHOWN = 20  # bytes of a word that a sentence shows


def shown(word):
    """The word between quotes: control characters as question marks, and cut."""
    clean = bytes(b if b >= 32 and b != 127 else ord("?") for b in word[:SHOWN])
    return b'"' + clean + (b".." if len(word) > SHOWN else b"") + b'"'


def refused(sentence):
    return 1, b"", b"classroom: " + sentence + b"\n"


def refused_number(words, i, reason):
    return refused(b"number %d, " % (i + 1) + shown(words[i]) + b", is refused: " + reason)


def line(*words):
    return " ".join(map(str, words)) + "\n"


def term(code, m):
    """What message symbol m is the coefficient of."""
    if ref.short(code) == 0:
        return f"x^{ref.exponent(code, m)}"
    if m < ref.g_symbols(code):
        return f"g^{1 + m // code.r} x^{m % code.r}"
    return f"h x^{m - ref.g_symbols(code)}"


def sheet(code, message, codeword):
    lines = [line("powers", *(ref.power(0, ref.GAMMA, e) for e in range(12)))]
    for g in range(ref.groups(code)):
        slots = ["slots", *ref.members(code, g)] if code.wiring else []
        lacking = ["missing", *ref.zeros(code, g)] if ref.zeros(code, g) else []
        lines.append(line("group", g, *slots, "points", *(ref.point(code, p) for p in ref.members(code, g)), *lacking))
    if code.wiring:
        lines.append(line("points", *(ref.point(code, p) for p in range(code.n))))
    if ref.short(code):
        lines.append(line("g", f"x^{code.r + 1}", "-", ref.constant(code)))
        lines.append(line("h", *(f"(x - {beta})" for beta in ref.missing(code))))
    lines.append(line("polynomial", *(f"{s} {term(code, m)}" for m, s in enumerate(message))))
    lines.append(line("codeword", *codeword))
    for p in range(code.n):
        lines.append(line("slot", p, "mates", *ref.mates(code, p), "weights", *ref.repair_weights(code, p)))
    return "".join(lines).encode()


REASONS = {
    2: (0, b"r is 1, 2, 3, 5 or 11 (refusal 2)"),
    3: (1, b"n is from 2 to 12, and n mod (r + 1) is not 1 (refusal 3)"),
    4: (2, b"k is from 1 to r * n / (r + 1) (refusal 4)"),
    17: (1, b"wired groups are whole: n is a multiple of r + 1 (refusal 17)"),
}
SHORT_REASON = 2, b"k is from s - 1 to n - m, for m groups of which the last has s slots (refusal 4)"


def answer(data):
    """The exit status, standard output and standard error for this input."""
    if len(data) > MOST:
        return refused(b"the input is longer than 4,096 bytes")
    words = data.split()  # at the six characters of white space
    wiring = int(words[:1] == [b"wired"])
    words = words[wiring:]  # the numbers, which are counted from 1 behind that word
    for i, word in enumerate(words):
        if any(b not in b"0123456789" for b in word):
            return refused_number(words, i, b"a number is digits 0 to 9, and white space parts numbers")
    if len(words) < 3:
        return refused(b"fewer than three numbers: r, n, k and k message symbols are wanted")
    r, n, k, *message = (int(word.lstrip(b"0")[:9] or b"0") for word in words)
    code = ref.Code(0, r, n, k, wiring)
    refusal = ref.code_refusal(code)
    if refusal:
        reason = SHORT_REASON if refusal == 4 and ref.short(code) else REASONS[refusal]
        return refused_number(words, *reason)
    if len(message) != k:
        return refused(b"%d message symbols are refused: k is %d (refusal 5)" % (len(message), k))
    for i, symbol in enumerate(message):
        if symbol >= 13:
            return refused_number(words, 3 + i, b"a symbol is from 0 to 12 (refusal 6)")
    codeword = bytearray(n)
    assert ref.encode(code, bytes(message), codeword) == 0
    return 0, sheet(code, message, codeword), b""


if __name__ == "__main__":
    status, out, err = answer(sys.stdin.buffer.read())
    sys.stdout.buffer.write(out)
    sys.stderr.buffer.write(err)
    sys.exit(status)
