"""Reference of the stripe code, written from the paper alone by direct, slow definitions.

It shares no code and no table with the library: products are carry-less products reduced by 11D,
inverses are searched for, codewords are values of the encoding polynomial, repair is Lagrange's
formula, and decoding is Gauss-Jordan elimination over all kept equations. A code whose last group
is short has another basis (g and h), and its repair there takes the missing points as zeros. Mates
are true where the equations of their slots have a solution: a message whose codeword has them. The
decoder that mends near home first does the local pass on copies, and decodes the copies alone. The
grade goes by the dimension of the code cut down to the kept slots, and never decodes. The preview
marks the slot on a copy, counts and grades; of a whole sheet one elimination tells it of all slots.

Each call takes the code and the caller's buffers (bytes, bytearray, or a list for 32-bit numbers),
asks its questions in the order that is written above it, writes its outputs in place, and answers
the refusal, or the refusal and a value. A refusal changes nothing and its value is 0; the work
buffer alone is cleared under 9 and 10, as it is by every call that borrows it and is not refused.
"""

from collections import namedtuple
from functools import lru_cache

Code = namedtuple("Code", "field r n k wiring", defaults=[0])

GAMMA = 2  # generates the nonzero elements of both fields
REDUCER = 0x11D
MOST_WEIGHTS = 16
MOST_STRIP = 4096
SHEET_BUFFER = 255  # least length of the sheet reader's word and marks
REPORT_INPUT = 1032
REPORT_TEXT = 1032  # least length of the report's text buffer
PREVIEW_TEXT = 8420  # least length of that of a sheet's preview
NO_GROUP = 255
DECIDED, FOREIGN, UNDECIDED = 0, 9, 10


# Fields ------------------------------------------------------------------------------------------


def order(field):
    """The number of elements, q."""
    return 13 if field == 0 else 256


def add(field, a, b):
    return (a + b) % 13 if field == 0 else a ^ b


def sub(field, a, b):
    return (a - b) % 13 if field == 0 else a ^ b


@lru_cache(maxsize=None)
def mul(field, a, b):
    if field == 0:
        return a * b % 13
    product = 0
    for bit in range(8):
        if b >> bit & 1:
            product ^= a << bit
    for bit in range(14, 7, -1):
        if product >> bit & 1:
            product ^= REDUCER << (bit - 8)
    return product


@lru_cache(maxsize=None)
def inverse(field, a):
    return next(b for b in range(1, order(field)) if mul(field, a, b) == 1)


@lru_cache(maxsize=None)
def power(field, a, e):
    return 1 if e == 0 else mul(field, a, power(field, a, e - 1))


# The code ----------------------------------------------------------------------------------------


def groups(code):
    """The number of groups, m: the last may be short."""
    return -(-code.n // (code.r + 1))


def short(code):
    """The members of a short last group, s, or 0 where every group is whole."""
    return code.n % (code.r + 1)


def place(code, slot):
    """The group of a slot, and which member of it the slot is, by the wiring."""
    if code.wiring == 0:
        return divmod(slot, code.r + 1)
    return slot % groups(code), slot // groups(code)


def group(code, slot):
    return place(code, slot)[0]


def members(code, g):
    """The slots of a group, in order."""
    return [p for p in range(code.n) if group(code, p) == g]


def mates(code, slot):
    return [p for p in members(code, group(code, slot)) if p != slot]


def member_point(code, j, i):
    """The point of member i of group j, whether the code has that slot or not."""
    return power(code.field, GAMMA, j + i * ((order(code.field) - 1) // (code.r + 1)))


def point(code, slot):
    return member_point(code, *place(code, slot))


def missing(code):
    """The points of the members that a short last group lacks, B; none where it is whole."""
    s = short(code)
    return [member_point(code, groups(code) - 1, i) for i in range(s, code.r + 1)] if s else []


def filled_dimension(code):
    """k and one for each missing point, k'."""
    return code.k + (code.r + 1 - short(code) if short(code) else 0)


def exponent(code, m):
    return m // code.r * (code.r + 1) + m % code.r


def constant(code):
    """The power r + 1 of the last group's points, c."""
    return power(code.field, member_point(code, groups(code) - 1, 0), code.r + 1)


def g_symbols(code):
    """How many message symbols of a short code stand before powers of g; the rest are before h."""
    return filled_dimension(code) - code.r


def value_of_g(code, x):
    return sub(code.field, power(code.field, x, code.r + 1), constant(code))


def value_of_h(code, x):
    """The product of x - beta over the missing points."""
    product = 1
    for beta in missing(code):
        product = mul(code.field, product, sub(code.field, x, beta))
    return product


@lru_cache(maxsize=4096)
def basis(code, x):
    """For each message symbol, in order, the value at x of what it is the coefficient of."""
    field, r = code.field, code.r
    if short(code) == 0:
        return [power(field, x, exponent(code, m)) for m in range(code.k)]
    g, h = value_of_g(code, x), value_of_h(code, x)
    powers = [(1 + m // r, m % r) for m in range(g_symbols(code))]  # j and i, with i fastest
    before_g = [mul(field, power(field, g, j), power(field, x, i)) for j, i in powers]
    before_h = [mul(field, h, power(field, x, i)) for i in range(short(code) - 1)]
    return before_g + before_h


def guarantee(code):
    return code.n - code.k - -(-filled_dimension(code) // code.r) + 1


def evaluate(code, message, x):
    """The encoding polynomial's value at x."""
    total = 0
    for symbol, value in zip(message, basis(code, x)):
        total = add(code.field, total, mul(code.field, symbol, value))
    return total


def code_refusal(code):
    """Questions 1 2 3 4 17."""
    if code.field not in (0, 1):
        return 1
    q = order(code.field)
    if not (1 <= code.r <= 16 and (q - 1) % (code.r + 1) == 0):
        return 2
    s, m = short(code), groups(code)
    if code.n == 0 or s == 1 or m * (code.r + 1) > q - 1:
        return 3
    if s == 0 and not 1 <= code.k <= code.r * code.n // (code.r + 1):
        return 4
    if s != 0 and not s - 1 <= code.k <= code.n - m:
        return 4
    if code.wiring not in (0, 1) or code.wiring == 1 and s != 0:
        return 17
    return 0


def symbols_fit(code, symbols):
    return all(s < order(code.field) for s in symbols)


def marks_fit(marks):
    return all(m in (0, 1) for m in marks)


# Linear equations --------------------------------------------------------------------------------


@lru_cache(maxsize=None)
def multiples(field, c):
    """Byte a to c times a, for bytes.translate; bytes that are no symbols go to 0."""
    q = order(field)
    return bytes(mul(field, c, a) if a < q else 0 for a in range(256))


def add_rows(field, a, b):
    if field == 0:
        return bytes((x + y) % 13 for x, y in zip(a, b))
    return (int.from_bytes(a, "big") ^ int.from_bytes(b, "big")).to_bytes(len(a), "big")


def reduced(field, rows, columns):
    """Gauss-Jordan elimination by the first columns: the rows, those first that lead a column, and how many do."""
    rows, rank, minus_one = list(rows), 0, sub(field, 0, 1)
    for column in range(columns):
        pivot = next((i for i in range(rank, len(rows)) if rows[i][column]), None)
        if pivot is None:
            continue
        rows[rank], rows[pivot] = rows[pivot], rows[rank]
        rows[rank] = rows[rank].translate(multiples(field, inverse(field, rows[rank][column])))
        for i in range(len(rows)):
            if i != rank and rows[i][column]:
                factor = mul(field, minus_one, rows[i][column])
                rows[i] = add_rows(field, rows[i], rows[rank].translate(multiples(field, factor)))
        rank += 1
    return rows, rank


# Encoding and repair -----------------------------------------------------------------------------


def encode(code, message, codeword):
    """1 2 3 4 17 5 6"""
    refusal = code_refusal(code)
    if refusal:
        return refusal
    if len(message) != code.k or len(codeword) != code.n:
        return 5
    if not symbols_fit(code, message):
        return 6
    codeword[:] = bytes(evaluate(code, message, point(code, p)) for p in range(code.n))
    return 0


def encode_strips(code, messages, codewords):
    """1 2 3 4 17 5 6, each of all columns before the next; a buffer is its strips end to end"""
    refusal = code_refusal(code)
    if refusal:
        return refusal
    columns = len(codewords) // code.n
    if not 1 <= columns <= MOST_STRIP:
        return 5
    if len(codewords) != code.n * columns or len(messages) != code.k * columns:
        return 5
    if not symbols_fit(code, messages):
        return 6
    for c in range(columns):
        codeword = bytearray(code.n)
        encode(code, messages[c::columns], codeword)
        codewords[c::columns] = codeword
    return 0


def lagrange(field, xs, x):
    """For each of xs the value at x of the polynomial that is 1 there and 0 at the others."""
    weights = []
    for a in xs:
        w = 1
        for b in xs:
            if b != a:
                w = mul(field, w, mul(field, sub(field, x, b), inverse(field, sub(field, a, b))))
        weights.append(w)
    return weights


def zeros(code, g):
    """The points where a group's polynomial is 0 by itself: those that the group lacks."""
    return missing(code) if g == groups(code) - 1 else []


@lru_cache(maxsize=4096)
def repair_weights(code, slot):
    """A weight for each mate; the polynomial is 0 at the points that the slot's group lacks."""
    xs = [point(code, p) for p in mates(code, slot)]
    return lagrange(code.field, xs + zeros(code, group(code, slot)), point(code, slot))[: len(xs)]


def mates_wanted(code, slot):
    """The number of mates that question 5 wants: r for a slot that is none."""
    return len(mates(code, slot)) if slot < code.n else code.r


def repaired(code, slot, symbols):
    """The value at the slot's point of the polynomial of degree below r through mates and zeros."""
    total = 0
    for w, s in zip(repair_weights(code, slot), symbols):
        total = add(code.field, total, mul(code.field, w, s))
    return total


def foreign_columns(code, slots, strips, columns):
    """The columns of the slots' strips that no codeword has there.

    A message whose codeword has a column's symbols solves the equations of the slots. They are reduced with the symbols of
    all columns behind the coefficients: a column without a solution is not 0 in some row that has no coefficient left.
    """
    parts = [bytes(strips[i * columns : (i + 1) * columns]) for i in range(len(slots))]
    rows = [bytes(basis(code, point(code, p))) + part for p, part in zip(slots, parts)]
    rows, rank = reduced(code.field, rows, code.k)
    return [c for c in range(columns) if any(row[code.k + c] for row in rows[rank:])]


def foreign(code, slots, symbols):
    """Whether no codeword has these symbols at these slots."""
    return foreign_columns(code, slots, symbols, 1) != []


def weights(code, slot, out):
    """1 2 3 4 17 5 7"""
    refusal = code_refusal(code)
    if refusal:
        return refusal
    if len(out) != MOST_WEIGHTS:
        return 5
    if not slot < code.n:
        return 7
    found = repair_weights(code, slot)
    out[:] = bytes(found + [0] * (MOST_WEIGHTS - len(found)))
    return 0


def repair(code, slot, symbols):
    """1 2 3 4 17 5 7 6 9; the value is the slot's symbol."""
    refusal = code_refusal(code)
    if refusal:
        return refusal, 0
    if len(symbols) != mates_wanted(code, slot):
        return 5, 0
    if not slot < code.n:
        return 7, 0
    if not symbols_fit(code, symbols):
        return 6, 0
    if foreign(code, mates(code, slot), symbols):
        return 9, 0
    return 0, repaired(code, slot, symbols)


def rebuild(code, slot, strips, out):
    """1 2 3 4 17 5 7 6 9, each of all columns before the next"""
    refusal = code_refusal(code)
    if refusal:
        return refusal
    columns = len(out)
    if not 1 <= columns <= MOST_STRIP or len(strips) != mates_wanted(code, slot) * columns:
        return 5
    if not slot < code.n:
        return 7
    if not symbols_fit(code, strips):
        return 6
    if foreign_columns(code, mates(code, slot), strips, columns):
        return 9
    out[:] = bytes(repaired(code, slot, strips[c::columns]) for c in range(columns))
    return 0


def view(code, slot, word):
    """1 2 3 4 17 18 5 7; the value is the first slot of the group."""
    refusal = code_refusal(code)
    if refusal:
        return refusal, 0
    if code.wiring == 1:
        return 18, 0
    if len(word) != code.n:
        return 5, 0
    if not slot < code.n:
        return 7, 0
    return 0, members(code, group(code, slot))[0]


def losses(code, marks, g):
    """The lost slots of a group."""
    return [p for p in members(code, g) if marks[p] == 1]


def local_pass(code, word, marks):
    """1 2 3 4 17 5 8 6; the value is the number of groups repaired. One whose kept symbols no codeword has is left."""
    refusal = code_refusal(code)
    if refusal:
        return refusal, 0
    if len(word) != code.n or len(marks) != code.n:
        return 5, 0
    if not marks_fit(marks):
        return 8, 0
    lost = [losses(code, marks, g) for g in range(groups(code))]
    kept = {slots[0]: [word[p] for p in mates(code, slots[0])] for slots in lost if len(slots) == 1}
    if not all(symbols_fit(code, symbols) for symbols in kept.values()):
        return 6, 0
    true = [s for s, symbols in kept.items() if not foreign(code, mates(code, s), symbols)]
    for s in true:
        word[s], marks[s] = repaired(code, s, kept[s]), 0
    return 0, len(true)


# Decoding ----------------------------------------------------------------------------------------


def eliminate(field, rows, unknowns):
    """Of rows of coefficients and a constant: FOREIGN where no solution is, UNDECIDED where there are several; else DECIDED
    and the solution."""
    rows, rank = reduced(field, rows, unknowns)
    if any(row[unknowns] for row in rows[rank:]):
        return FOREIGN, None
    if rank < unknowns:
        return UNDECIDED, None
    return DECIDED, bytes(row[unknowns] for row in rows[:unknowns])


def solve(code, word, marks):
    """The outcome over all kept equations, and the message where it is decided."""
    rows = []
    for p in range(code.n):
        if marks[p] == 0:
            rows.append(bytes(basis(code, point(code, p)) + [word[p]]))
    return eliminate(code.field, rows, code.k)


def decode_refusal(code, word, marks, message, work):
    """1 2 3 4 17 5 8 6, as decode, decode_near and record ask them."""
    refusal = code_refusal(code)
    if refusal:
        return refusal
    if len(word) != code.n or len(marks) != code.n or len(message) != code.k:
        return 5
    if len(work) < code.n * (code.k + 1):
        return 5
    if not marks_fit(marks):
        return 8
    if not symbols_fit(code, [s for s, m in zip(word, marks) if m == 0]):
        return 6
    return 0


def decode(code, word, marks, message, work):
    """1 2 3 4 17 5 8 6 9 10"""
    refusal = decode_refusal(code, word, marks, message, work)
    if refusal:
        return refusal
    outcome, solution = solve(code, word, marks)
    used = code.n * (code.k + 1)
    work[:used] = bytes(used)
    if outcome == DECIDED:
        message[:] = solution
    return outcome


def decode_near(code, word, marks, message, work):
    """1 2 3 4 17 5 8 6 9 10; the value is the number of groups repaired."""
    refusal = decode_refusal(code, word, marks, message, work)
    if refusal:
        return refusal, 0
    near, left = bytearray(word), bytearray(marks)
    _, count = local_pass(code, near, left)  # what it asks, and decode, is passed above: a repaired symbol is below q
    outcome = decode(code, near, left, message, work)
    return outcome, count if outcome == DECIDED else 0


# Grading -----------------------------------------------------------------------------------------


def first_crowded(code, marks):
    """The first group with two or more losses, or 255."""
    crowded = [g for g in range(groups(code)) if len(losses(code, marks, g)) >= 2]
    return crowded[0] if crowded else NO_GROUP


def independent(field, rows):
    """The places of the rows that are no sum of multiples of those before them."""
    found, places, minus_one = [], [], sub(field, 0, 1)
    for place, row in enumerate(rows):
        for lead, other in found:  # the row less what makes it 0 where the other one starts
            if row[lead]:
                factor = mul(field, minus_one, mul(field, row[lead], inverse(field, other[lead])))
                row = add_rows(field, row, other.translate(multiples(field, factor)))
        if any(row):
            found.append((next(i for i, symbol in enumerate(row) if symbol), row))
            places.append(place)
    return places


def rank(field, rows):
    return len(independent(field, rows))


@lru_cache(maxsize=64)
def unit_codewords(code):
    """The codeword of each message that is 1 in one place and else 0: all codewords are sums of their multiples."""
    columns = [basis(code, point(code, p)) for p in range(code.n)]
    return [bytes(column[m] for column in columns) for m in range(code.k)]


@lru_cache(maxsize=64)
def dimension(code):
    return rank(code.field, unit_codewords(code))


def kept_parts(code, kept):
    return [bytes(word[p] for p in kept) for word in unit_codewords(code)]


def kept_slots(code, marks):
    return [p for p in range(code.n) if marks[p] == 0]


def undecided(code, marks):
    """Whether some two different codewords agree on the kept slots.

    Cutting codewords down to the kept slots is linear, so it makes two of them one exactly where what is left has a
    smaller dimension than the code.
    """
    return rank(code.field, kept_parts(code, kept_slots(code, marks))) < dimension(code)


def graded(code, marks):
    lost = sum(marks)
    if lost == 0:
        return 0
    if first_crowded(code, marks) == NO_GROUP:
        return 1
    if lost <= guarantee(code):
        return 2
    return 4 if undecided(code, marks) else 3


def grade(code, marks, work):
    """1 2 3 4 17 5 8; the value is the grade."""
    refusal = code_refusal(code)
    if refusal:
        return refusal, 0
    used = code.n * (code.k + 1)
    if len(marks) != code.n or len(work) < used:
        return 5, 0
    if not marks_fit(marks):
        return 8, 0
    work[:used] = bytes(used)
    return 0, graded(code, marks)


def first_broken(code, marks):
    """1 2 3 4 17 5 8; the value is the first group with two or more losses."""
    refusal = code_refusal(code)
    if refusal:
        return refusal, 0
    if len(marks) != code.n:
        return 5, 0
    if not marks_fit(marks):
        return 8, 0
    return 0, first_crowded(code, marks)


def previewed(code, slot, marks):
    """The number lost, the grade and the first group with two or more losses that follow from losing the slot too."""
    copy = bytearray(marks)
    copy[slot] = 1
    return sum(copy), graded(code, copy), first_crowded(code, copy)


def preview(code, slot, marks, work, out):
    """1 2 3 4 17 5 7 8; out: lost grade first."""
    refusal = code_refusal(code)
    if refusal:
        return refusal
    used = code.n * (code.k + 1)
    if len(marks) != code.n or len(work) < used or len(out) != 3:
        return 5
    if not slot < code.n:
        return 7
    if not marks_fit(marks):
        return 8
    work[:used] = bytes(used)
    out[:] = previewed(code, slot, marks)
    return 0


def needed(code, marks):
    """The kept slots each of whose loss leaves some two different codewords that agree on what is then kept.

    Two such codewords differ by one that is 0 on the kept slots but the lost one. Where it is 0 there too, the kept slots
    are undecided before, and all of them are such slots. Else its kept part is not 0 in one place alone, so that it is a
    multiple of a reduced row.
    """
    kept = kept_slots(code, marks)
    rows, rank = reduced(code.field, kept_parts(code, kept), len(kept))
    if rank < dimension(code):
        return kept
    alone = [row for row in rows if row.count(0) == len(kept) - 1]
    return [p for i, p in enumerate(kept) if any(row[i] for row in alone)]


def previews(code, marks):
    """Of each kept slot what previewed gives, by one count of the losses of each group and one elimination."""
    lost, first = sum(marks) + 1, first_crowded(code, marks)
    crowds = [len(losses(code, marks, g)) for g in range(groups(code))]
    undecided_without = needed(code, marks) if lost > guarantee(code) else []
    found = {}
    for p in kept_slots(code, marks):
        g = group(code, p)
        then = min(first, g) if crowds[g] else first  # 255 is above every group
        if then == NO_GROUP:
            level = 1
        elif lost <= guarantee(code):
            level = 2
        else:
            level = 4 if p in undecided_without else 3
        found[p] = lost, level, then
    return found


def record(code, word, marks, message, work, out):
    """1 2 3 4 17 5 8 6; out: field r n k wiring lost sure grade first outcome."""
    refusal = code_refusal(code)
    if refusal:
        return refusal
    if len(out) != 10:
        return 5
    refusal = decode_refusal(code, word, marks, message, work)
    if refusal:
        return refusal
    outcome = decode(code, word, marks, message, work)
    counts = [sum(marks), guarantee(code), graded(code, marks), first_crowded(code, marks)]
    out[:] = [*code, *counts, outcome]
    return 0


# Stripe sheet, report and preview ----------------------------------------------------------------


def read_sheet(sheet, word, marks, out):
    """5 11 12 1 2 3 4 17 13 14 6 15; out: field r n k wiring."""
    if len(word) < SHEET_BUFFER or len(marks) < SHEET_BUFFER or len(out) != 5:
        return 5
    if len(sheet) % 4:
        return 11
    rows = [int.from_bytes(sheet[i : i + 4], "big") for i in range(0, len(sheet), 4)]
    if not rows or rows[0] >> 28 != 1:
        return 12
    head = rows[0]
    code = Code(head >> 24 & 7, head >> 16 & 255, head >> 8 & 255, head & 255, head >> 27 & 1)
    refusal = code_refusal(code)
    if refusal:
        return refusal
    if len(rows) != code.n + 2:
        return 13
    middle, last = rows[1:-1], rows[-1]
    for slot, row in enumerate(middle):
        kept = row & ~0xFF == 2 << 28 | slot << 8
        lost = row == 3 << 28 | slot << 8
        if not (kept or lost):
            return 14
    if not symbols_fit(code, [row & 255 for row in middle if row >> 28 == 2]):
        return 6
    if last != 4 << 28 | code.n:
        return 15
    word[: code.n] = bytes(row & 255 if row >> 28 == 2 else 0 for row in middle)
    marks[: code.n] = bytes(0 if row >> 28 == 2 else 1 for row in middle)
    out[:] = code
    return 0


def write_sheet(code, word, marks, sheet):
    """1 2 3 4 17 5 8 6"""
    refusal = code_refusal(code)
    if refusal:
        return refusal
    if len(word) != code.n or len(marks) != code.n or len(sheet) != 4 * (code.n + 2):
        return 5
    if not marks_fit(marks):
        return 8
    if not symbols_fit(code, [s for s, m in zip(word, marks) if m == 0]):
        return 6
    rows = [1 << 28 | code.wiring << 27 | code.field << 24 | code.r << 16 | code.n << 8 | code.k]
    rows += [3 << 28 | p << 8 if marks[p] else 2 << 28 | p << 8 | word[p] for p in range(code.n)]
    rows.append(4 << 28 | code.n)
    sheet[:] = b"".join(row.to_bytes(4, "big") for row in rows)
    return 0


def text_of(lines):
    return "".join(" ".join(map(str, line)) + "\n" for line in lines)


def report_text(data):
    """What the report program writes for this input."""
    word, marks, out = bytearray(SHEET_BUFFER), bytearray(SHEET_BUFFER), [0] * 5
    refusal = read_sheet(data[:REPORT_INPUT], word, marks, out)
    if refusal:
        return f"refused {refusal}\n"
    code = Code(*out)
    message, work, fields = bytearray(code.k), bytearray(code.n * (code.k + 1)), [0] * 10
    record(code, word[: code.n], marks[: code.n], message, work, fields)
    lost, sure, level, first, outcome = fields[5:]
    answer = ["message", *message] if outcome == DECIDED else ["refused", outcome]
    named = code if code.wiring else code[:4]
    return text_of([["code", *named], ["lost", lost, "sure", sure, "grade", level, "first", first], answer])


def preview_text(data):
    """What the preview program writes for this input: code and marks alone count."""
    word, marks, out = bytearray(SHEET_BUFFER), bytearray(SHEET_BUFFER), [0] * 5
    refusal = read_sheet(data[:REPORT_INPUT], word, marks, out)
    if refusal:
        return f"refused {refusal}\n"
    code = Code(*out)
    found = previews(code, marks[: code.n])
    lines = [["slot", p, "grade", level, "first", first] for p, (_, level, first) in found.items()]
    safe = [p for p, (_, level, _) in found.items() if level < 4]
    return text_of([*lines, ["safe", *safe]])


def written(data, text, least, made):
    if len(text) < least:
        return 5, 0
    line = made(data).encode()
    text[: len(line)] = line
    return 0, len(line)


def report(data, text):
    """5; the value is the length of the text. A refused sheet is no refusal of the call."""
    return written(data, text, REPORT_TEXT, report_text)


def preview_sheet(data, text):
    """5; the value as for report."""
    return written(data, text, PREVIEW_TEXT, preview_text)
