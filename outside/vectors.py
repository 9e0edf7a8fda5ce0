"""Random calls of the library with the reference's answers and every buffer after the call.

    python3 outside/vectors.py SEED COUNT [NAME..] > FILE     COUNT calls of each function but those named, on standard output

The calls are valid, damaged and refused, with one fault or with several at once, over both fields,
both wirings, short last groups and the corner codes. Besides come good rebuilds of every locality r of both fields at
every length where the strip kernel takes another way, and in short last groups with every number of mates; and where k is
below r rebuilds with one column that no codeword has, at every length and at every place; and good encodes of strips of every
locality at every length about the edges of tiles, of large codes and of the longest strips; unless "lengths" is among the
names. A table of how often each answer came, and each grade, goes to standard error; of previews each grade before and
after; of local passes how many mended groups, left groups, and did both; of decode_near the same under each answer, and under
0 whether none, one or many were mended.

Format: a row of records and then the number 0. Every number is 32 bits, high byte first.

    size        bytes of this record after this number; at least 40
    call        1 encode, 2 weights, 3 repair, 4 rebuild, 5 view, 6 local_pass, 7 decode, 8 grade,
                9 record, 10 read_sheet, 11 write_sheet, 12 report, 13 preview, 14 preview_sheet,
                15 decode_near, 16 encode_strips
    field r n k wiring slot    the call's numbers; 0 where it takes none
    buffers     how many buffers follow: those of the C function, in its order
      length given bytes   for each: before the call it has this length, and its byte i is the
                           given byte i mod given. 0 is given only for length 0
    refusal value          the answer; value is 0 where the call answers no more than a refusal
      length given bytes   for each buffer again: after the call its first bytes, this many, are
                           the given bytes in the same way, and the rest is as before

A buffer of 32-bit numbers (record, code, preview) is 4 bytes a number, high byte first; its length
counts bytes. A buffer that the call only reads is given in full. No buffer is longer than 65,600
bytes.
"""

import itertools
import random
import struct
import sys
from collections import Counter

import reference as ref
from reference import Code

BUFFERS = {
    "encode": ("message", "codeword"),
    "weights": ("weights",),
    "repair": ("mates",),
    "rebuild": ("strips", "strip"),
    "view": ("word",),
    "local_pass": ("word", "marks"),
    "decode": ("word", "marks", "message", "work"),
    "grade": ("marks", "work"),
    "record": ("word", "marks", "message", "work", "record"),
    "read_sheet": ("sheet", "word", "marks", "code"),
    "write_sheet": ("word", "marks", "sheet"),
    "report": ("input", "text"),
    "preview": ("marks", "work", "preview"),
    "preview_sheet": ("input", "text"),
    "decode_near": ("word", "marks", "message", "work"),
    "encode_strips": ("messages", "codewords"),
}
CALLS = list(BUFFERS)
WIDE = ("record", "code", "preview")  # buffers of 32-bit numbers

# The questions that a fault can be aimed at. A sheet fails 17 by a short last group alone: its wiring is one bit.
QUESTIONS = {
    "encode": (1, 2, 3, 4, 17, 5, 6),
    "weights": (1, 2, 3, 4, 17, 5, 7),
    "repair": (1, 2, 3, 4, 17, 5, 6, 7, 9),
    "rebuild": (1, 2, 3, 4, 17, 5, 6, 7, 9),
    "view": (1, 2, 3, 4, 17, 18, 5, 7),
    "local_pass": (1, 2, 3, 4, 17, 5, 6, 8),
    "decode": (1, 2, 3, 4, 17, 5, 6, 8),
    "grade": (1, 2, 3, 4, 17, 5, 8),
    "record": (1, 2, 3, 4, 17, 5, 6, 8),
    "read_sheet": (1, 2, 3, 4, 17, 5, 6, 11, 12, 13, 14, 15),
    "write_sheet": (1, 2, 3, 4, 17, 5, 6, 8),
    "report": (1, 2, 3, 4, 17, 5, 6, 11, 12, 13, 14, 15),
    "preview": (1, 2, 3, 4, 17, 5, 7, 8),
    "preview_sheet": (1, 2, 3, 4, 17, 5, 6, 11, 12, 13, 14, 15),
    "decode_near": (1, 2, 3, 4, 17, 5, 6, 8),
    "encode_strips": (1, 2, 3, 4, 17, 5, 6),
}

# Every number that each call can answer; the record's outcome and the texts count too.
ANSWERS = {name: {0, *numbers} for name, numbers in QUESTIONS.items()}
SOLVERS = ("decode", "record", "report", "decode_near")
GRADERS = ("grade", "preview", "preview_sheet", *SOLVERS)
WRITERS = {"report": ref.REPORT_TEXT, "preview_sheet": ref.PREVIEW_TEXT}  # of a text, and its buffer's least length
READERS = ("read_sheet", *WRITERS)
SLOTTED = ("weights", "repair", "rebuild", "view", "preview")
MENDERS = ("repair", "rebuild", "local_pass", "decode_near")
for solver in SOLVERS:
    ANSWERS[solver] |= {9, 10}

CORNERS = [
    Code(0, 2, 9, 4),
    Code(1, 16, 255, 240),
    Code(0, 1, 2, 1),
    Code(0, 1, 12, 6),
    Code(0, 11, 12, 11),
    Code(0, 11, 12, 1),
    Code(0, 2, 12, 8),
    Code(0, 5, 6, 5),
    Code(1, 2, 3, 1),
    Code(1, 2, 255, 170),
    Code(1, 16, 17, 16),
    Code(1, 14, 255, 1),
    Code(1, 4, 10, 3),
    Code(0, 2, 9, 4, 1),
    Code(0, 1, 12, 6, 1),
    Code(0, 5, 12, 10, 1),
    Code(0, 11, 12, 11, 1),
    Code(1, 2, 9, 5, 1),
    Code(1, 4, 10, 3, 1),
    Code(1, 14, 255, 1, 1),
    Code(0, 2, 11, 5),
    Code(0, 3, 6, 2),
    Code(0, 5, 9, 7),
    Code(0, 2, 2, 1),
    Code(0, 3, 3, 2),
    Code(0, 11, 2, 1),
    Code(0, 11, 11, 10),
    Code(1, 4, 8, 5),
    Code(1, 14, 13, 12),
    Code(1, 14, 29, 13),
    Code(1, 16, 2, 1),
    Code(1, 2, 254, 1),
    Code(1, 16, 250, 230),
    Code(1, 16, 254, 239),
    Code(0, 2, 3, 1),
    Code(1, 16, 255, 8),
    Code(1, 16, 34, 8, 1),
    Code(1, 16, 250, 12),
]
LARGE = [code for code in CORNERS if code.n >= 250]
# the localities of both fields, and the lengths of strips about the edges of the kernel's tiles
LOCALITIES = [(0, r) for r in (1, 2, 3, 5, 11)] + [(1, r) for r in (2, 4, 14, 16)]
LENGTHS = (1, 2, 15, 16, 17, 63, 64, 65, 127, 128, 129, 191, 192, 193, 255, 256, 257, 300, 4095, 4096)
SHORT_LENGTHS = (1, 17, 64, 129, 257)  # of strips in short last groups
# lengths of strips that are encoded: few columns, about one tile, and more; of large codes; and of the longest strips
FEW, TILE, MORE = (1, 2, 7, 8, 9), (63, 64, 65), (255, 256, 257, 300, 512)
ENCODED = (*FEW, 15, 16, 17, *TILE, 127, 128, 129, 191, 192, 193, *MORE, 600)
LARGE_ENCODED = (1, 8, 9)
LONG_ENCODED = (Code(0, 2, 9, 4, 1), Code(0, 5, 9, 7), Code(1, 4, 10, 3), Code(1, 2, 9, 6, 1), Code(1, 4, 8, 5))
SWEPT = (Code(1, 4, 10, 2), Code(1, 16, 34, 8, 1), Code(1, 4, 8, 3), Code(0, 3, 6, 2), Code(0, 11, 12, 5))
SWEPT_LENGTH = 145  # a column that no codeword has stands at every place of strips of that length, by these codes
WIRED = 0.45  # the share of codes that have wiring 1
SHORT = 0.35  # the share of the others whose last group is short
ROOMY = 0.6  # of the codes that are graded, the share that is to have losses of grade 3
TOLD = 0.6  # of the codes that groups are mended by, the share that is to have mates of no codeword
SOLVED = 0.1  # of the words that are decoded, the share that is noise
LARGEST = 2**32 - 1
LONGEST = 65600  # bytes of a buffer
MOST_TERMS = 60000  # n k L of most encodes of strips, since the reference is slow
TAILS = (1, 3, 4, 5)  # bytes after the longest sheet; the report and the preview read the first four
STEPS = [(0, 1)] + [(a, b) for a in range(1, 5) for b in range(a, 5)]  # the grades before a preview's slot is lost and after
TITLES = {"grade": "grades", "preview": "previews", "local_pass": "passes", "decode_near": "nears"}  # of rows that count values
PASSES = {"neither": (False, False), "mended": (True, False), "left": (False, True), "both": (True, True)}  # groups of one loss
# The answer, how many groups are mended (2 is more than one, 1 is any under 9 and 10), and whether some are left: 9 then.
NEARS = {"0-none": (0, 0, False), "0-one": (0, 1, False), "0-many": (0, 2, False)}
NEARS |= {f"9-{label}": (9, int(mended), left) for label, (mended, left) in PASSES.items()}
NEARS |= {"10-none": (10, 0, False), "10-mended": (10, 1, False)}


# Buffers and records -----------------------------------------------------------------------------


class Buffer:
    """Bytes before the call, and how many of them the record gives."""

    def __init__(self, data, given=None):
        self.data = bytes(data)
        self.given = len(self.data) if given is None else given

    def resized(self, length):
        if self.given < len(self.data) or not self.data:
            return filled(length, self.data[: self.given] or b"\x5a")
        return Buffer((self.data * (length // len(self.data) + 1))[:length])


def filled(length, pattern):
    return Buffer((pattern * (length // len(pattern) + 1))[:length], min(length, len(pattern)))


def blank(rng, length):
    """An output buffer with any contents."""
    return filled(length, rng.randbytes(rng.randint(1, 16)))


def numbers(*values):
    return struct.pack(f">{len(values)}I", *values)


def given_bytes(data, given):
    return numbers(len(data), given) + data[:given]


def change(before, after):
    """The first bytes of a buffer, up to the last that changed."""
    differs = map(int.__ne__, reversed(before), reversed(after))
    count = len(after) - next((i for i, d in enumerate(differs) if d), len(after))
    part = after[:count]
    return given_bytes(part, 1 if count and part == part[:1] * count else count)


def answer(name, code, slot, args):
    if name in SLOTTED:
        got = getattr(ref, name)(code, slot, *args)
    elif name in READERS:
        got = getattr(ref, name)(*args)
    else:
        got = getattr(ref, name)(code, *args)
    return got if isinstance(got, tuple) else (got, 0)


def shown(name, refusal, args):
    """The number by which a call is counted."""
    if refusal == 0 and name == "record":
        return args[4][9]
    if refusal == 0 and name in WRITERS and b"refused " in args[1]:
        return int(args[1].split(b"refused ")[1].split(b"\n")[0])
    return refusal


def told(name, refusal, value, code, args):
    """The value that a call is counted by, None where it is not: of a preview the grade before the slot's loss and after, of a
    local pass whether it mended groups and whether it left some that have one loss, of decode_near one of NEARS."""
    if name == "decode_near" and refusal in (0, 9, 10):
        word, marks = bytearray(args[0]), bytearray(args[1])
        _, mended = ref.local_pass(code, word, marks)
        return refusal, min(mended, 1 if refusal else 2), single_groups(code, marks) != []
    if refusal:
        return None
    if name == "preview":
        return ref.graded(code, args[0]), args[2][1]
    if name == "local_pass":
        return value > 0, single_groups(code, args[1]) != []
    return value


def make_record(name, code, slot, buffers):
    """The record's bytes, the number that it shows, and the value that it tells."""
    args = []
    for kind, buffer in zip(BUFFERS[name], buffers):
        data = bytearray(buffer.data)
        wide = kind in WIDE
        args.append(list(struct.unpack(f">{len(data) // 4}I", data)) if wide else data)
    refusal, value = answer(name, code, slot, args)
    out = [numbers(CALLS.index(name) + 1, *code, slot, len(buffers))]
    out += [given_bytes(b.data, b.given) for b in buffers]
    out.append(numbers(refusal, value))
    for buffer, arg in zip(buffers, args):
        out.append(change(buffer.data, numbers(*arg) if isinstance(arg, list) else bytes(arg)))
    assert all(len(b.data) <= LONGEST for b in buffers)
    body = b"".join(out)
    return numbers(len(body)) + body, shown(name, refusal, args), told(name, refusal, value, code, args)


# Codes and stripes -------------------------------------------------------------------------------


def pick_code(rng, field, short=None):
    """A legal code of either wiring, or with a short last group: mostly small, at times a corner or a large one."""
    wired = not short and rng.random() < WIRED
    if short is None:
        short = not wired and rng.random() < SHORT
    return pick_numbers(rng, field, short)._replace(wiring=int(wired))


def picks(rng, field, short):
    while True:
        yield pick_code(rng, field, short)


def pick_numbers(rng, field, short):
    """A legal code with a short last group or without, of whose wiring nothing else is said."""
    corners = [c for c in CORNERS if (ref.short(c) > 0) == short and field in (None, c.field)]
    fate = rng.random()
    if fate < 0.003 and field != 0:
        return rng.choice([c for c in corners if c in LARGE])
    if fate < 0.08:
        return rng.choice([c for c in corners if c not in LARGE])
    if field is None:
        field = rng.randrange(2)
    r = rng.choice([2, 3, 5, 11] + [1] * (not short) if field == 0 else [2, 2, 4, 4, 14, 16])
    groups = rng.randint(1, 12 // (r + 1) if field == 0 else 1 + 24 // (r + 1))
    return Code(field, r, *pick_size(rng, r, groups, rng.randint(2, r) if short else r + 1))


def pick_size(rng, r, groups, last):
    """n and a legal k for so many groups, of which the last has so many members."""
    n = (r + 1) * (groups - 1) + last
    least, top = 1 if last == r + 1 else last - 1, n - groups
    return n, rng.choice([least, top, rng.randint(least, top), rng.randint(least, top), rng.randint(least, top)])


def last_slots(code):
    """The slots of a short last group."""
    return range(code.n - ref.short(code), code.n)


def pick_slot(rng, code):
    """Any slot, every other time one of a short last group."""
    return rng.choice(last_slots(code) if ref.short(code) and rng.random() < 0.5 else range(code.n))


def symbols(rng, code, count):
    return bytes(rng.choices(range(ref.order(code.field)), k=count))


def codeword(rng, code):
    word = bytearray(code.n)
    ref.encode(code, symbols(rng, code, code.k), word)
    return word


def pick_marks(rng, code):
    """Losses: none, up to the guarantee, one to a group, whole groups, any, all, in a short last group alone, just past
    the guarantee by groups, or about where the kept slots no longer decide."""
    sure, lost = ref.guarantee(code), []
    shapes = ["none", "sure", "sure", "single", "single", "groups", "any", "any", "all"]
    shapes += ["last", "last"] * (ref.short(code) > 0) + ["tight", "edge", "edge", "edge", "edge"] * has_room(code)
    shape = rng.choice(shapes)
    if shape == "sure":
        lost = rng.sample(range(code.n), rng.randint(1, sure))
    elif shape == "single":
        lost = [rng.choice(ref.members(code, g)) for g in range(ref.groups(code)) if rng.random() < 0.7]
    elif shape == "groups":
        chosen = [g for g in range(ref.groups(code)) if rng.random() < 0.5]
        lost = [p for g in chosen for p in ref.members(code, g)]
    elif shape == "any":
        share = rng.choice([0.1, 0.3, 0.5, 0.8])
        lost = [p for p in range(code.n) if rng.random() < share]
    elif shape == "all":
        lost = range(code.n)
    elif shape == "last":
        lost = rng.sample(last_slots(code), rng.randint(1, ref.short(code)))
    elif shape == "tight":
        lost = tight_losses(rng, code)
    elif shape == "edge":
        lost = edge_losses(rng, code)
    return bytearray(p in lost for p in range(code.n))


def has_room(code):
    """Whether there are losses of grade 3: more than the guarantee and more than one a group, and the kept slots decide."""
    return ref.guarantee(code) < code.n - code.k > ref.groups(code)


def tight_losses(rng, code):
    """As many as the guarantee, or one more. What is kept is whole groups, a short one first, and a part of the next, so that
    one more leaves two codewords; every third time a slot is exchanged for another, which may decide again."""
    order = rng.sample(range(ref.groups(code)), ref.groups(code))
    order.sort(key=lambda g: len(ref.members(code, g)))
    slots = [p for g in order for p in rng.sample(ref.members(code, g), len(ref.members(code, g)))]
    count = ref.guarantee(code) + rng.choice([0, 1, 1, 1])
    kept, lost = slots[: code.n - count], slots[code.n - count :]
    if rng.random() < 0.33:
        lost[rng.randrange(count)] = rng.choice(kept)
    return lost


def independent_slots(code, slots):
    """Those of the slots whose symbols are not settled by the symbols of slots before them."""
    rows = [bytes(ref.basis(code, ref.point(code, p))) for p in slots]
    return [slots[i] for i in ref.independent(code.field, rows)]


def edge_losses(rng, code):
    """Past the guarantee: as much as can be lost, or less, and the kept slots decide; or what is kept is all that the
    symbols of k - 1 slots settle, or less, so that two codewords are left."""
    kept = independent_slots(code, rng.sample(range(code.n), code.n))
    others = [p for p in range(code.n) if p not in kept]
    if rng.random() < 0.6:
        spare = len(others) - ref.guarantee(code) - 1
        kept += rng.sample(others, rng.choice([0, 0, rng.randint(0, spare)]))
    else:
        kept.pop()
        if code.n <= 40:
            kept += [p for p in others if len(independent_slots(code, [*kept, p])) < code.k]
        kept = rng.sample(kept, len(kept) - rng.choice([0, 0, 1]) * (len(kept) > 0))
    return [p for p in range(code.n) if p not in kept]


def pick_stripe(rng, code, noise, pick=pick_marks):
    """A word and its marks: a codeword, one with changes, or noise; any bytes under lost marks."""
    marks = pick(rng, code)
    shape = "noise" if rng.random() < noise else rng.choice(["codeword", "codeword", "changed"])
    word = bytearray(symbols(rng, code, code.n)) if shape == "noise" else codeword(rng, code)
    if shape == "changed":
        for p in rng.sample(range(code.n), rng.randint(1, min(code.n, 2))):
            word[p] = rng.randrange(ref.order(code.field))
    for p in range(code.n):
        if marks[p]:
            word[p] = rng.randrange(256)
    return word, marks


def tells(code):
    """Whether there are mates that no codeword has: k is below r, and some group is whole."""
    return code.k < code.r < code.n


def told_slot(rng, code):
    """A slot with such mates, of a whole group."""
    return rng.randrange(code.n - ref.short(code))


def codeword_strips(rng, code, slots, columns):
    """The strips of some slots, with a random codeword in every column: sums of multiples of the message's strips."""
    message = [symbols(rng, code, columns) for _ in range(code.k)]
    strips = []
    for p in slots:
        strip = bytes(columns)
        for factor, part in zip(ref.basis(code, ref.point(code, p)), message):
            strip = ref.add_rows(code.field, strip, part.translate(ref.multiples(code.field, factor)))
        strips.append(strip)
    return b"".join(strips)


def true_strips(rng, code, slot, columns):
    """The strips of a slot's mates, true in every column. Where any mates are true they are random."""
    mates = ref.mates(code, slot)
    if code.k >= code.r or len(mates) < code.r:
        return symbols(rng, code, len(mates) * columns)
    return codeword_strips(rng, code, mates, columns)


def further(rng, code, slots):
    """Multiples at these slots of the value of a polynomial that codewords have with k up to r, and not with this k."""
    larger, first = code._replace(k=code.r), ref.g_symbols(code) if ref.short(code) else code.k
    m, factor = first + rng.randrange(code.r - code.k), rng.randrange(1, ref.order(code.field))
    return [ref.mul(code.field, factor, ref.basis(larger, ref.point(code, p))[m]) for p in slots]


def one_foreign(rng, code, slot, columns, place):
    """The same but for one column, which no codeword has then: one symbol of it is another, or a further polynomial is added.
    The code tells, and the slot's group is whole."""
    true, mates = true_strips(rng, code, slot, columns), ref.mates(code, slot)
    strips = bytearray(true)
    while not ref.foreign(code, mates, strips[place::columns]):
        strips = bytearray(true)
        if rng.random() < 0.5:
            strips[rng.randrange(len(mates)) * columns + place] = symbols(rng, code, 1)[0]
        else:
            more = further(rng, code, mates)
            strips[place::columns] = bytes(ref.add(code.field, a, b) for a, b in zip(true[place::columns], more))
    return bytes(strips)


def pick_strips(rng, code, slot, columns):
    """Mates' strips: true in every column, in all but some symbols, or noise."""
    shape = rng.choice(["true", "true", "changed", "noise"])
    if shape == "noise":
        return symbols(rng, code, len(ref.mates(code, slot)) * columns)
    strips = bytearray(true_strips(rng, code, slot, columns))
    for _ in range(rng.choice([1, 1, 2]) if shape == "changed" else 0):
        strips[rng.randrange(len(strips))] = rng.randrange(ref.order(code.field))
    return bytes(strips)


def pick_place(rng, columns):
    """The first column, the last, one in the middle, or any."""
    return rng.choice([0, columns - 1, columns // 2, rng.randrange(columns)])


def pick_singles(rng, code):
    """Losses: mostly one slot of each group."""
    marks = pick_marks(rng, code)
    if rng.random() < 0.7:
        for g in range(ref.groups(code)):
            slots = ref.members(code, g)
            lost = rng.sample(slots, rng.choice([0, 1, 1, 1, 1, 2]))
            for p in slots:
                marks[p] = p in lost
    return marks


def pick_groups(rng, code):
    """A word and its marks for the local pass: each group by itself is of a codeword, of another one, of one with a change or
    with a further polynomial, or noise, and mostly one slot of it is lost; any bytes under lost marks."""
    marks = pick_singles(rng, code)
    word = bytearray(code.n)
    first, second = codeword_strips(rng, code, range(code.n), 1), codeword_strips(rng, code, range(code.n), 1)
    shapes = ["codeword", "codeword", "other", "changed", "noise"] + ["further"] * tells(code)
    for g in range(ref.groups(code)):
        slots, shape = ref.members(code, g), rng.choice(shapes)
        for p in slots:
            word[p] = (second if shape == "other" else first)[p] if shape != "noise" else symbols(rng, code, 1)[0]
        if shape == "changed":
            word[rng.choice([p for p in slots if not marks[p]] or slots)] = symbols(rng, code, 1)[0]
        if shape == "further":
            for p, more in zip(slots, further(rng, code, slots)):
                word[p] = ref.add(code.field, word[p], more)
    for p in range(code.n):
        if marks[p]:
            word[p] = rng.randrange(256)
    return word, marks


def pick_crowds(rng, code):
    """Losses: no slot of a group, one, more or all."""
    marks = bytearray(code.n)
    for g in range(ref.groups(code)):
        slots = ref.members(code, g)
        for p in rng.sample(slots, rng.choice([0, 1, 1, rng.randint(1, len(slots)), len(slots)])):
            marks[p] = 1
    return marks


def pick_near(rng, code):
    """A word and its marks for decode_near: as for the local pass, as for decode, or such a word with losses group by group."""
    if rng.random() < (0.6 if tells(code) else 0.2):
        return pick_groups(rng, code)
    return pick_stripe(rng, code, SOLVED, rng.choice([pick_marks, pick_singles, pick_crowds]))


def kept_again(rng, code, word, marks):
    """One of the lost slots, which is kept now with some symbol: its loss makes the losses what they were."""
    slot = rng.choice([p for p in range(code.n) if marks[p]] or range(code.n))
    word[slot], marks[slot] = rng.randrange(ref.order(code.field)), 0
    return slot


def pick_loss(rng, code, slot, word, marks):
    """The slot of a preview: often a lost one that is kept again, at times one that stays lost, or the last, else this one."""
    lost, shape = [p for p in range(code.n) if marks[p]], rng.random()
    if shape < 0.6:
        return kept_again(rng, code, word, marks)
    if shape < 0.75 and lost:
        return rng.choice(lost)
    return code.n - 1 if shape > 0.95 else slot


def single_groups(code, marks):
    return [g for g in range(ref.groups(code)) if sum(marks[p] for p in ref.members(code, g)) == 1]


# Drafts: a sound call, by name -------------------------------------------------------------------


class Draft:
    """A call that passes its questions, before faults are put in."""

    def __init__(self, rng, name, code, columns=0, slot=None):
        self.columns = columns
        self.rng, self.name, self.code, self.base = rng, name, code, code
        self.slot = 0 if slot is None else slot
        if slot is None and name in SLOTTED:
            self.slot = pick_slot(rng, code)
        self.word, self.marks = (bytearray(), bytearray())
        if name == "decode_near":
            self.word, self.marks = pick_near(rng, code)
        elif "word" in BUFFERS[name] or "marks" in BUFFERS[name] or name in WRITERS:
            self.word, self.marks = pick_stripe(rng, code, SOLVED if name in SOLVERS else 0.9)
        if name == "local_pass":
            self.word, self.marks = pick_groups(rng, code)
        if name == "preview":
            self.slot = pick_loss(rng, code, self.slot, self.word, self.marks)
        if name == "preview_sheet" and rng.random() < 0.5:
            kept_again(rng, code, self.word, self.marks)
        self.rows = []
        if name in READERS:
            self.rows = sheet_rows(code, self.word, self.marks)
        self.tail = b""  # bytes after the rows
        self.cut = 0  # bytes cut off at the end
        self.buffers = {kind: self.buffer(kind) for kind in BUFFERS[name]}

    def buffer(self, kind):
        rng, code = self.rng, self.code
        if kind == "message" and self.name == "encode":
            return Buffer(symbols(rng, code, code.k))
        if kind == "messages":
            self.columns = self.columns or pick_encoded(rng, code)
            return Buffer(symbols(rng, code, code.k * self.columns))
        if kind == "mates":
            return Buffer(pick_strips(rng, code, self.slot, 1))
        if kind == "strips":
            self.columns = self.columns or pick_columns(rng, code)
            return Buffer(pick_strips(rng, code, self.slot, self.columns))
        if kind in ("word", "marks") and self.name != "read_sheet":
            return Buffer(getattr(self, kind))
        if kind in ("sheet", "input") and self.name != "write_sheet":
            return Buffer(b"")  # made at the end, from the rows
        return blank(rng, self.length(kind))

    def mates(self):
        """The number of mates that are wanted now."""
        return ref.mates_wanted(self.base, self.slot)

    def length(self, kind):
        """The length of an output buffer."""
        rng, code = self.rng, self.code
        used = code.n * (code.k + 1)
        return {
            "message": code.k,
            "codeword": code.n,
            "codewords": code.n * self.columns,
            "weights": 16,
            "strip": self.columns,
            "work": rng.choice([used] * 20 + [used + rng.randint(1, 40)] * 19 + [61455]),
            "record": 40,
            "word": rng.choice([255, 255, 256, 300]),
            "marks": rng.choice([255, 255, 256, 300]),
            "code": 20,
            "sheet": 4 * (code.n + 2),
            "text": WRITERS.get(self.name, 0) + rng.choice([0, 0, 1, 268]),
            "preview": 12,
        }[kind]

    def finished(self):
        if self.name in READERS:
            data = b"".join(numbers(row) for row in self.rows) + self.tail
            kind = "sheet" if self.name == "read_sheet" else "input"
            self.buffers[kind] = Buffer(data[: len(data) - self.cut])
            self.code = Code(0, 0, 0, 0)
        return make_record(self.name, self.code, self.slot, list(self.buffers.values()))


def pick_columns(rng, code):
    fate = rng.random()
    if fate < 0.004:
        return 4096
    return rng.randint(1, 600) if fate < 0.02 else rng.randint(1, 9)


def pick_encoded(rng, code):
    """The length of strips that are encoded: mostly few columns or about a tile; a long one of a large code is rare."""
    fate = rng.random()
    if fate < 0.004 and code.n <= 12:
        return 4096
    lengths = (600,) if fate < 0.01 else MORE if fate < 0.2 else TILE if fate < 0.45 else FEW if fate < 0.9 else range(1, 70)
    most = LONGEST // code.n if fate < 0.02 else max(9, MOST_TERMS // (code.n * code.k))
    return rng.choice([v for v in lengths if v <= most] or FEW)


def sheet_rows(code, word, marks):
    sheet = bytearray(4 * (code.n + 2))
    ref.write_sheet(code, word, marks, sheet)
    return list(struct.unpack(f">{code.n + 2}I", sheet))


# Faults, by the question that each is aimed at ----------------------------------------------------


# The question that each of the code's numbers fails, and its bits on a sheet.
PLACES = {"field": (1, 3), "r": (2, 8), "n": (3, 8), "k": (4, 8), "wiring": (17, 1)}


def replace(rng, draft, place, values):
    """Puts in a number that the code's questions refuse at this place, of those that fit a sheet."""
    aim, bits = PLACES[place]
    most = 2**bits - 1 if draft.rows else LARGEST
    bad = [draft.base._replace(**{place: v}) for v in values if 0 <= v <= most]
    bad = [c for c in bad if ref.code_refusal(c) == aim]
    draft.code = draft.code._replace(**{place: getattr(rng.choice(bad), place)})
    if draft.rows:
        c = draft.code
        head = c.wiring << 27 | c.field << 24 | c.r << 16 | c.n << 8 | c.k
        draft.rows[0] = draft.rows[0] >> 28 << 28 | head


def fault_field(rng, draft):
    replace(rng, draft, "field", [*range(2, 8), 13, 15, 255, 256, 257, 2**31, LARGEST])


def fault_r(rng, draft):
    near = [draft.code.r + 256, 2**16 + draft.code.r, 2**31, LARGEST - 1, LARGEST]
    replace(rng, draft, "r", list(range(0, 20)) + [23, 50, 84, 254, 255, 256, *near])


def fault_n(rng, draft):
    """No slots, a last group of one, or past q - 1, with whole groups or a short one."""
    base = draft.base
    size, most = base.r + 1, ref.order(base.field) - 1
    past = [most + size, most + 2 * size, 2**16 * size, 2**32 // size * size - size, most + 2, 2**16 * size + 2]
    near = [base.n - 1, base.n + 1, base.n + size // 2, base.n // size * size + 1]
    alone = [1, size + 1, most - size + 1, size * rng.randrange(1, most // size + 1) + 1]
    replace(rng, draft, "n", [0, 13, 254, 256, 510, LARGEST, *near, *past, *alone])


def fault_k(rng, draft):
    """Below the least, s - 1 with a short last group, or above the largest, one a slot but one a group."""
    base = draft.base
    least, top = max(1, ref.short(base) - 1), base.n - ref.groups(base)
    near = [least - 1, top + 1, top + 2, base.n, base.n + 1, base.k + 256]
    replace(rng, draft, "k", [0, 255, 256, 2**31, LARGEST, *near])


def fault_wiring(rng, draft):
    """Above 1, or 1 with a short last group."""
    values = [2, 3, 4, 128, 255, 256, 257, 2**16, 2**31, LARGEST - 1, LARGEST]
    replace(rng, draft, "wiring", values + [1] * len(values))


def fault_wired(rng, draft):
    """Wiring 1, which no group view has; a wiring above 1 stays."""
    draft.code = draft.code._replace(wiring=draft.code.wiring or 1)


def fault_length(rng, draft):
    """A wrong length of one buffer."""
    kinds, base = list(draft.buffers), draft.base
    if draft.name == "encode_strips" and rng.random() < 0.6:
        return fault_strips(rng, draft)
    kind = rng.choice(kinds[1:] if draft.name in READERS else kinds)
    have = len(draft.buffers[kind].data)
    used = base.n * (base.k + 1)
    lengths = [0, have - 1, have + 1, 2 * have, have + 256]
    if kind in WIDE:
        lengths = [0, 4, have - 4, have + 4, 2 * have]
    if kind == "work":
        lengths = [0, used - 1, used - base.n, rng.randrange(used)]
    if kind == "text":
        least = WRITERS[draft.name]
        lengths = [0, 10, least - 1, rng.randrange(least)]
    if kind in ("word", "marks") and draft.name == "read_sheet":
        lengths = [0, 254, base.n - 1, rng.randrange(255)]
    if kind == "strip" and rng.random() < 0.3:
        columns = rng.choice([0, 0, 0, 4097])
        draft.buffers["strips"] = draft.buffers["strips"].resized(draft.mates() * columns)
        lengths = [columns]
    if kind in ("mates", "strips") and ref.short(base):  # as many as a slot of another group wants
        lengths += [count * (draft.columns or 1) for count in (base.r, ref.short(base) - 1)] * 3
    lengths = [v for v in lengths if v != have and 0 <= v <= LONGEST]
    draft.buffers[kind] = draft.buffers[kind].resized(rng.choice(lengths))


def fault_strips(rng, draft):
    """Lengths of both buffers that are wrong together: no column or 4,097; n L or k L alone with one more or less; with a
    remainder; or n and k exchanged."""
    n, k, columns = draft.base.n, draft.base.k, draft.columns
    pairs = [(0, 0), (0, rng.randrange(1, n)), (4097 * k, 4097 * n), (4097 * k, 4097 * n)]
    pairs += [(k * columns, n * (columns + 1)), (k * (columns + 1), n * columns), (k * (columns - 1), n * columns)]
    pairs += [(k * columns, n * columns + rng.randrange(1, n)), (k * columns, n * columns + n - 1)]
    pairs += [(k * (columns - 1), n * columns - 1), (n * columns, k * columns), (n * columns, n * columns)]
    pairs += [(k * columns + rng.randrange(1, k + 1), n * columns), (k, n * columns)] if columns > 1 else []
    messages, codewords = rng.choice([pair for pair in pairs if max(pair) <= LONGEST])
    draft.buffers["messages"] = draft.buffers["messages"].resized(messages)
    draft.buffers["codewords"] = draft.buffers["codewords"].resized(codewords)


def put(draft, kind, place, value):
    data = bytearray(draft.buffers[kind].data)
    if place < len(data):
        data[place] = value
    draft.buffers[kind] = Buffer(data)


def fault_symbol(rng, draft):
    """A symbol that is read and is 13 or more; the base code is over thirteen."""
    value, base = rng.choice([13, 14, 255, rng.randrange(13, 256)]), draft.base
    if draft.rows:
        kept = [i for i, row in enumerate(draft.rows[1:-1], 1) if row >> 28 == 2]
        if kept:
            place = rng.choice(kept)
            draft.rows[place] = draft.rows[place] >> 8 << 8 | value
        return
    kind = next(iter(draft.buffers))
    places = range(max(1, len(draft.buffers[kind].data)))
    if draft.name == "local_pass":
        singles = single_groups(base, draft.marks)
        places = [p for g in singles for p in ref.members(base, g) if not draft.marks[p]]
    elif kind == "word":
        places = [p for p in range(base.n) if not draft.marks[p]]
    elif kind == "messages":
        places = rng.choice([places[:1], places[-1:], places, places])
    if places:
        put(draft, kind, rng.choice(places), value)


def fault_slot(rng, draft):
    """A slot that is none; where its buffer has the mates of a short group it mostly gets r, which 5 wants now."""
    n, r, count = draft.base.n, draft.base.r, draft.mates() * (draft.columns or 1)
    draft.slot = rng.choice([n, n + 1, 255, 256, n + rng.randrange(300), n + 256, 2**31, LARGEST])
    for kind in ("mates", "strips"):
        if kind in draft.buffers and len(draft.buffers[kind].data) == count and rng.random() < 0.7:
            draft.buffers[kind] = draft.buffers[kind].resized(r * (draft.columns or 1))


def fault_mark(rng, draft):
    value = rng.choice([2, 3, 128, 254, 255, rng.randrange(2, 256)])
    put(draft, "marks", rng.randrange(draft.base.n), value)


def fault_foreign(rng, draft):
    """One column that no codeword has, among true ones. Where there is none such the mates stay as they are."""
    base, slot = draft.base, draft.slot
    if tells(base) and slot < base.n - ref.short(base):
        columns = draft.columns or 1
        strips = one_foreign(rng, base, slot, columns, pick_place(rng, columns))
        draft.buffers["mates" if draft.name == "repair" else "strips"] = Buffer(strips)


def fault_bytes(rng, draft):
    """A sheet whose length is no multiple of 4."""
    if rng.random() < 0.5:
        draft.tail += rng.randbytes(rng.randint(1, 3))
    else:
        draft.cut = rng.randint(1, 3)


def fault_first(rng, draft):
    if rng.random() < 0.3:
        draft.rows = []
    elif draft.rows:
        kind = rng.choice([v for v in range(16) if v != 1])
        draft.rows[0] = kind << 28 | draft.rows[0] & 0xFFFFFFF


def fault_words(rng, draft):
    """One word too few or some too many, at times more than the report reads."""
    shape = rng.randrange(4)
    if shape == 0 and len(draft.rows) > 1:
        del draft.rows[rng.randrange(1, len(draft.rows))]
    elif shape == 1 and len(draft.rows) > 1:
        draft.rows.insert(-1, rng.choice(draft.rows[1:]))
    elif shape == 2:
        draft.tail += numbers(draft.rows[-1] if draft.rows else 0)
    else:
        draft.tail += rng.randbytes(4 * rng.choice([1, 255, 256, 257, 258, 300]))


def fault_middle(rng, draft):
    """A middle word of another kind, slot, or with an unnamed bit."""
    if len(draft.rows) < 3:
        return
    place = rng.randrange(1, len(draft.rows) - 1)
    row = draft.rows[place]
    shape = rng.randrange(4)
    if shape == 0:
        row = rng.choice([0, 1, 4, 5, 6, 7, 10, 11, 15]) << 28 | row & 0xFFFFFFF
    elif shape == 1:
        row ^= 1 << rng.randrange(16, 28)
    elif shape == 2:
        row ^= 1 << rng.randrange(8, 16)
    else:
        row = 3 << 28 | (place - 1) << 8 | rng.randrange(1, 256)
    draft.rows[place] = row


def fault_last(rng, draft):
    if draft.rows:
        end = draft.rows[-1]
        other = [end ^ 1 << rng.randrange(32), end + 1, end - 1, end | 0x10000]
        draft.rows[-1] = rng.choice([*other, 4 << 28, 3 << 28 | draft.base.n])


FAULTS = {
    1: fault_field,
    2: fault_r,
    3: fault_n,
    4: fault_k,
    5: fault_length,
    6: fault_symbol,
    7: fault_slot,
    8: fault_mark,
    9: fault_foreign,
    11: fault_bytes,
    12: fault_first,
    13: fault_words,
    14: fault_middle,
    15: fault_last,
    17: fault_wiring,
    18: fault_wired,
}


def unread(rng, draft):
    """Puts bytes that are no symbols where the local pass, the view and the like do not read."""
    base = draft.base
    if base.field == 0 and draft.name == "view":
        put(draft, "word", rng.randrange(base.n), rng.randrange(13, 256))
    if base.field == 0 and draft.name == "local_pass":
        singles = single_groups(base, draft.marks)
        others = [p for p in range(base.n) if ref.group(base, p) not in singles]
        if others:
            put(draft, "word", rng.choice(others), rng.randrange(13, 256))


def aims(rng, name, index):
    """The questions that call number index of a function is to fail: none, one in turn, or several."""
    asked = QUESTIONS[name]
    turn, shape = divmod(index, 10)
    if shape < 4:
        return []
    if shape < 7:
        return [asked[(3 * turn + shape - 4) % len(asked)]]
    if shape == 9 and name == "preview":
        return [7, 8]
    late = [a for a in asked if a > 4]
    pool = late if shape == 7 and len(late) > 1 else asked
    return rng.sample(pool, min(len(pool), rng.choice([2, 2, 3])))


def make_call(rng, name, index):
    """The record of one call: each corner code, the longest sheet with a tail, then any."""
    aimed, late = [], index - len(CORNERS)
    if late < 0:
        draft = Draft(rng, name, CORNERS[index])
    elif name in WRITERS and late < len(TAILS):
        draft = Draft(rng, name, Code(1, 14, 255, 1, late % 2))
        draft.tail = rng.randbytes(TAILS[late])
    else:
        aimed = aims(rng, name, late)
        short = True if 17 in aimed and name in READERS else False if 18 in aimed else None
        roomy = name in GRADERS and rng.random() < ROOMY
        told = 9 in aimed or name in MENDERS and not roomy and rng.random() < TOLD  # few codes are both
        if told and rng.random() < SHORT:
            short = True  # else such codes are rare
        codes = picks(rng, 0 if 6 in aimed else None, short)
        code = next(c for c in codes if (has_room(c) or not roomy) and (tells(c) or not told))
        slot = told_slot(rng, code) if 9 in aimed else None
        if name == "view":
            code = code._replace(wiring=0)  # 18 is aimed at, else 5 and 7 hide
        draft = Draft(rng, name, code, 0, slot)
    if rng.random() < 0.3:
        unread(rng, draft)
    for number in sorted(aimed, key=lambda a: (a in (12, 13), a != 9, a)):  # 9 makes the mates anew, those two move the rows
        FAULTS[number](rng, draft)
    return draft.finished()


def good_rebuild(rng, code, columns, slot=None):
    draft = Draft(rng, "rebuild", code, columns, slot)
    draft.buffers["strips"] = Buffer(true_strips(rng, code, draft.slot, columns))
    return draft.finished()


def foreign_rebuild(rng, code, columns, slot, place):
    draft = Draft(rng, "rebuild", code, columns, slot)
    draft.buffers["strips"] = Buffer(one_foreign(rng, code, slot, columns, place))
    return draft.finished()


def rebuilds(rng):
    """Good rebuilds: of every locality, one at each length, of any slot, by the wirings in turn; some in short groups; and those
    where k is below r."""
    for turn, ((field, r), columns) in enumerate(itertools.product(LOCALITIES, LENGTHS)):
        groups = rng.randint(1, (ref.order(field) - 1) // (r + 1))
        code = Code(field, r, *pick_size(rng, r, groups, r + 1), turn % 2)
        yield good_rebuild(rng, code, columns)
    yield from short_rebuilds(rng)
    yield from told_rebuilds(rng)
    yield from swept_rebuilds(rng)


def short_rebuilds(rng):
    """Of every locality and every number of mates in a short last group, one at each of some lengths."""
    for field, r in LOCALITIES:
        for s, columns in itertools.product(range(2, r + 1), SHORT_LENGTHS):
            groups = rng.randint(1, (ref.order(field) - 1) // (r + 1))
            code = Code(field, r, *pick_size(rng, r, groups, s))
            yield good_rebuild(rng, code, columns, rng.choice(last_slots(code)))


def told_code(rng, field, r, kind):
    """A code with k below r and a whole group, of a kind: whole, wired, or with a short last group."""
    most = (ref.order(field) - 1) // (r + 1)
    groups = rng.randint(1, most)
    if kind == "short" and most > 1:
        groups, last = rng.randint(2, most), rng.randint(2, r)
        return Code(field, r, (r + 1) * (groups - 1) + last, rng.randint(last - 1, r - 1))
    return Code(field, r, (r + 1) * groups, rng.randint(1, r - 1), int(kind == "wired"))


def told_rebuilds(rng):
    """Where k is below r: of every locality, at each length, one that is true in every column, and two with one column that no
    codeword has: at the ends or in the middle, and at any place."""
    for turn, ((field, r), columns) in enumerate(itertools.product(LOCALITIES, LENGTHS)):
        if r == 1:
            continue  # k is never below 1
        for part, kind in enumerate(("whole", "wired", "short")):
            code = told_code(rng, field, r, kind)
            slot, ends = told_slot(rng, code), (0, columns // 2, columns - 1)
            if (turn + part) % 3 == 0:
                yield good_rebuild(rng, code, columns, slot)
            else:
                place = ends[turn // 3 % 3] if (turn + part) % 3 == 1 else rng.randrange(columns)
                yield foreign_rebuild(rng, code, columns, slot, place)


def swept_rebuilds(rng):
    """One column that no codeword has, at every place of strips of one length."""
    for code, place in itertools.product(SWEPT, range(SWEPT_LENGTH)):
        yield foreign_rebuild(rng, code, SWEPT_LENGTH, told_slot(rng, code), place)


def encodes(rng):
    """Good encodes of strips: of every locality and length a whole code, wired or not in turn, and a short one; of large codes
    some lengths, at times one above 256; and the longest strips."""
    for turn, ((field, r), columns) in enumerate(itertools.product(LOCALITIES, ENCODED)):
        groups = rng.randint(1, (12 if field == 0 else 34) // (r + 1))
        yield good_encode(rng, Code(field, r, *pick_size(rng, r, groups, r + 1), turn % 2), columns)
        if r > 1:
            yield good_encode(rng, Code(field, r, *pick_size(rng, r, groups, rng.randint(2, r))), columns)
    for code, columns in itertools.product(LARGE, LARGE_ENCODED):
        yield good_encode(rng, code, columns)
    for code, columns in itertools.product(LONG_ENCODED, (4095, 4096)):
        yield good_encode(rng, code, columns)
    wide = (Code(1, 14, 255, rng.randint(15, 60), 1), Code(1, 2, 255, rng.randint(29, 36)), Code(1, 4, 255, rng.randint(61, 68)))
    for code in (Code(1, 16, 255, 240), *wide):
        yield good_encode(rng, code, 257)


def good_encode(rng, code, columns):
    return Draft(rng, "encode_strips", code, columns).finished()


def main():
    seed, count, left_out = sys.argv[1], int(sys.argv[2]), sys.argv[3:]
    names = [name for name in CALLS if name not in left_out]
    rng, seen, out = random.Random(seed), Counter(), sys.stdout.buffer
    for index in range(count):
        for name in names:
            data, number, value = make_call(rng, name, index)
            out.write(data)
            seen[name, number] += 1
            if name in TITLES and value is not None:
                seen[TITLES[name], value] += 1
    for data, number, _ in rebuilds(rng) if "lengths" not in left_out else ():
        out.write(data)
        seen["rebuild", number] += 1
    for data, number, _ in encodes(rng) if not {"lengths", "encode_strips"} & set(left_out) else ():
        out.write(data)
        seen["encode_strips", number] += 1
    out.write(numbers(0))
    out.flush()
    for name in names:
        row = [f"{a}:{seen[name, a]}" for a in sorted(ANSWERS[name])]
        print(f"{name:13}", *row, file=sys.stderr)
        stray = {a for n, a in seen if n == name} - ANSWERS[name]
        assert not stray, (name, stray)
        assert count < 600 or all(seen[name, a] for a in ANSWERS[name]), name
    grades, steps = {str(v): v for v in range(5)}, {f"{a}-{b}": (a, b) for a, b in STEPS}
    for name, values in (("grade", grades), ("preview", steps), ("local_pass", PASSES), ("decode_near", NEARS)):
        if name in names:
            row = [f"{label}:{seen[TITLES[name], v]}" for label, v in values.items()]
            print(f"{TITLES[name]:13}", *row, file=sys.stderr)
            assert count < 600 or all(seen[TITLES[name], v] for v in values.values())


if __name__ == "__main__":
    main()
