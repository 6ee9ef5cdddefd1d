# Writes data/, args and stdout: windows of every kind with rows of labels, and the answers of a model that keeps all accepted extents and
# looks at the last `span` of them again for each. Run in this folder: python3 make.py
import math
import struct
import sys

sys.path.append("../../tools")
from jobs import write_data

MOST_SPAN, MOST_LABELS, WINDOW_WORDS = 64, 65_535, 68


def extent(pattern):
    return struct.unpack(">f", struct.pack(">I", pattern))[0]


def pattern(x):
    return struct.unpack(">I", struct.pack(">f", x))[0]


# ---- the model

class Window:
    def __init__(self, lent, span):
        self.lent, self.span, self.seen = lent, span, []
        self.number = 19 if not 1 <= span <= MOST_SPAN else 10 if lent < WINDOW_WORDS else 0

    def add(self, x):
        if not math.isfinite(x) or x < 0:
            return 4, 0.0
        if MOST_LABELS <= len(self.seen):
            return 3, 0.0
        if self.lent < WINDOW_WORDS:
            return 10, 0.0
        if self.number != 0:
            return 19, 0.0  # the opening was refused, so that the words hold no window
        self.seen.append(0.0 if x == 0 else x)
        return 0, max(self.seen[-self.span:])


def patterns(rows):
    return [(first + step * i) % 2**32 for count, first, step in rows for i in range(count)]


def answers(window, rows):
    """The numbers, each with the pattern of the width."""
    return [(number, pattern(width)) for number, width in (window.add(extent(p)) for p in patterns(rows))]


def runs(answered):
    out = []
    for answer in answered:
        if out and out[-1][1] == answer:
            out[-1][0] += 1
        else:
            out.append([1, answer])
    return [f"{times} {number} {width:08x}\n" for times, (number, width) in out]


def shown(name, lent, span, rows):
    window = Window(lent, span)
    return f"{name} {window.number}\n" + "".join(runs(answers(window, rows))) + "past kept\n"


# ---- rows and cases

def row(count, first, step=0):
    return count, first, step % 2**32


def of(*extents):
    return [row(1, pattern(x)) for x in extents]


def bare(*some):
    return [row(1, p) for p in some]


def record(lent, span, rows, tail=b""):
    return struct.pack(">BI", lent, span) + b"".join(struct.pack(">HII", *r) for r in rows) + tail


MINUS = 0x80000000
ONE, TWO, FOUR = pattern(1.0), pattern(2.0), pattern(4.0)
NAN, NAN_BELOW, SIGNALLING = 0x7FC00000, 0xFFC00000, 0x7F800001
INFINITY, LARGEST = 0x7F800000, 0x7F7FFFFF
cases = []


def case(name, span, rows, lent=80):
    assert all(0 <= count < 2**16 for count, _, _ in rows)
    cases.append((name, record(lent, span, rows), shown(name, lent, span, rows)))


# the spans
for span in (0, 65, 128, 256 + 5, 2**16 + 5, 2**31, 2**32 - 1):
    case(f"span-{span}", span, [])
for span in (1, 2, 3, 5, 63, 64):
    mixed = [row(1, ONE + 0x9E3779 * i % 0x1000000) for i in range(4 * span + 9)]
    case(f"span-{span}", span, mixed)
    case(f"rising-over-{span}", span, [row(2 * span + 50, ONE, 0x1235)])
    case(f"falling-over-{span}", span, [row(3 * span + 50, pattern(100.0), -0x1235)])
    case(f"equal-over-{span}", span, [row(3 * span + 1, pattern(12.5))])
# a large label leaves with the label that is `span` after it, wherever in the row it stands
for span in (1, 2, 3, 63, 64):
    case(f"large-leaves-over-{span}", span, [row(span, ONE)] + [row(1, FOUR), row(2 * span, ONE)] * (span + 1))
case("large-leaves-below-larger", 3, of(9, 1, 8, 2, 7, 3, 1, 1, 1, 1))
case("large-stays-below-larger", 4, of(2, 5, 3, 3, 3, 9, 3, 4, 3, 3, 3, 3))

# the words
for lent in (0, 1, 2, 67, 68, 69, 80):
    case(f"words-{lent}", 64, [row(1, ONE), row(2, NAN), row(130, TWO, -3), row(70, ONE)], lent)
case("words-67-span-65", 65, [], 67)
case("words-0-span-0", 0, [], 0)
case("words-68-span-0", 0, of(1, -1, 2), 68)
case("words-80-span-65", 65, of(-1, 2), 80)

# the extents
case("zeros-of-both-signs", 2, bare(MINUS, 0, MINUS, MINUS, 0, 0, ONE, MINUS, MINUS, MINUS, 0))
case("minus-zero-alone", 1, [row(3, MINUS)])
case("minus-zero-is-a-label", 3, bare(FOUR, MINUS, MINUS, MINUS, ONE, MINUS, MINUS, MINUS))
case("not-a-number", 2, bare(NAN, ONE, NAN_BELOW, SIGNALLING, SIGNALLING | MINUS, 0x7FFFFFFF, 0xFFFFFFFF, 0x7FBFFFFF, TWO, NAN, ONE, ONE))
case("infinities", 2, bare(INFINITY, ONE, INFINITY | MINUS, TWO, INFINITY, ONE, ONE))
below = [MINUS | p for p in (ONE, 1, 0x007FFFFF, 0x00800000, 0x357FFFFF, 0x35800000, 0x49800001, LARGEST)]
case("below-zero", 2, bare(*below, TWO, MINUS | FOUR, ONE, ONE))
case("subnormals", 2, bare(1, 2, 1, 1, 0x00400000, 0x007FFFFF, 0x00800000, 0x007FFFFF, 0x007FFFFF, 1, MINUS, 1, 0, 0))
case("subnormals-into-normals", 3, [row(8, 0x007FFFFC, 1), row(8, 0x00800003, -1)])
case("largest-finite", 2, bare(LARGEST, ONE, ONE, LARGEST - 1, LARGEST, ONE, ONE))
case("largest-finite-and-on", 3, [row(6, 0x7F7FFFFD, 1)] + of(1, 1, 1))
case("above-2-to-20", 2, bare(0x49800000, 0x49800001, 0x4B000000, 0x60000000, 0x49800001, ONE, ONE))
case("below-2-to-minus-20", 2, bare(0x35800000, 0x357FFFFF, 0x30000000, 0x00800000, 0x357FFFFF, 0x00800000, 0x30000000))
case("pattern-past-the-last", 2, [row(6, 0xFFFFFFFD, 1)])
case("signs-in-turn", 3, [row(9, ONE, MINUS), row(9, FOUR, MINUS + 1)])
case("all-patterns-rising", 7, [row(1024, 0, 0x00400001)])
case("all-patterns-falling", 7, [row(1024, 0xFFFFFFFF, -0x00400001)])

# what is refused is not counted, and leaves the window as it was
case("refused-does-not-count", 3, of(9) + [row(5, NAN)] + of(1, math.inf, 2, -1, 1, -2, 1))
case("refused-first", 2, [row(4, NAN), row(3, MINUS | ONE)] + of(3, 2, 1, 1))
case("refused-65536-then-accepted", 64, [row(65535, NAN), row(1, INFINITY)] + of(3, 2))

# the labels that a window takes
PAST = of(5, math.nan, 6, -1, 0) + bare(LARGEST, MINUS, INFINITY)
for span in (1, 51, 64):
    case(f"labels-65535-and-one-more-over-{span}", span, [row(65534, ONE)] + of(2) + PAST)
case("labels-65535-and-one-refused", 2, [row(65534, ONE), row(1, NAN), row(1, TWO), row(2, NAN_BELOW)] + PAST)
case("labels-65535-refused-between", 5, [row(40000, ONE), row(100, NAN), row(25534, ONE), row(30000, MINUS | ONE)] + of(2) + PAST)
case("labels-65535-all-zero", 64, [row(30000, 0), row(35535, MINUS)] + PAST)

# the same labels from the top and from a place in the middle
LABELS = of(3, 8, 2, math.nan, 5, 1, 9, -4, 1, 1, 2, math.inf, 1, 4, 1, math.nan, 1, 1, 6, -0.5, 1, 1, 1, 1, 0, 7)
MIDDLE, SPAN = 7, 5
case("from-the-top", SPAN, LABELS)
case("from-the-middle", SPAN, LABELS[MIDDLE:])
top, middle = answers(Window(80, SPAN), LABELS)[MIDDLE:], answers(Window(80, SPAN), LABELS[MIDDLE:])
full = [i for i, (number, _) in enumerate(middle) if number == 0][SPAN - 1]
assert top[full:] == middle[full:] and top[:full] != middle[:full]

# the files
case("no-labels", 5, [])
cases.append(("empty-file", b"", shown("empty-file", 0, 0, [])))
cases.append(("cut-row", record(80, 5, of(1, 2), tail=record(0, 0, of(3))[5:-1]), shown("cut-row", 80, 5, of(1, 2))))

assert all(len(data) <= 4096 for _, data, _ in cases)
write_data([(name, data) for name, data, _ in cases])
with open("stdout", "w") as out:
    out.write("".join(text for _, _, text in cases))
