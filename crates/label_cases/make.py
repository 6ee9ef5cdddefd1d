# Writes data/, args and stdout: P1 to P9 of document 01, the label with document 02's adjust 2, a job of two chunks, one of the most
# bytes, and one for each refusal 1 to 10, each with the layout in the document's text form. The answers are those of the Rust's own
# functions, and for adjust 2 of the one that stands for it: build tools/beside first. Run in this folder: python3 make.py
import subprocess
import sys

sys.path.append("../../tools")
from jobs import GLYPHS, ZERO, chunk, f, filled, glyph, job, shift, span, write_data
from rows import read_answer

ORACLE = "../../tools/beside/target/release/beside"
LENT = 65_536


def answered(name, lent=LENT):
    """The number and the answer's bytes."""
    words = subprocess.run([ORACLE, "answer", "data/" + name, str(lent)], capture_output=True, check=True, text=True).stdout.split()
    return int(words[0]), b"" if words[1] == "-" else bytes.fromhex(words[1])


# ---- the text form

def line(*fields):
    return " ".join(f(x).hex() if isinstance(x, float) else str(x) for x in fields) + "\n"


def text_of(number, answer):
    if number:
        return line("refused", number)
    out = ""
    for i, c in enumerate(read_answer(answer)):
        out += line("chunk", i, len(c["clusters"]), c["pen_x"], c["pen_y"])
        for k, row in enumerate(c["clusters"]):
            out += line("cluster", k, row["index"], row["flags"], row["width"], row["advance"], row["x"])
        for s in c["spans"]:
            out += line("span", s["index"], s["baseline"], s["thickness"], s["under"])
            out += "".join(line("run", s["index"], run["first"], run["width"]) for run in s["runs"])
    return out


# ---- P1 to P9

def one(**change):
    return job(chunks=[chunk(spans=[span(**change)])])


def glyphs(**change):
    return [glyph(0, 1280, **change), glyph(1, 512, **change), glyph(2, 1280, **change)]


labels = [
    ("P1-label", job()),
    ("P2-text-length-spacing", one(fixed=1, length=f(54))),
    ("P3-text-length-spacing-and-glyphs", one(fixed=1, length=f(48), adjust=1)),
    ("P4-dx-list", job(dx=[f(0), f(3)])),
    ("P5-letter-spacing-that-collapses", one(letter=f(-11))),
    ("P6-alignment-middle", one(alignment=4)),
    ("P7-superscript", one(shifts=[shift(2)])),
    ("P8-top-to-bottom", job(mode=1, chunks=[chunk(spans=[span(glyphs=[glyph(0, 1280, orientation=1)] + GLYPHS[1:])])])),
    ("P9-tag-arab", one(glyphs=glyphs(tag=b"Arab"))),
]

# ---- adjust 2 of document 02, with a text length and without

natural = [("0-text-length-by-adjust-2", one(fixed=1, length=f(54), adjust=2)), ("0-adjust-2-with-clear-flag", one(adjust=2))]

# ---- more than one of each: the second chunk starts at the pen, and its middle span has no font and so no row


def two_chunks():
    spans = [span(end=1), span(start=1, end=2, font=255, glyphs=[]), span(start=2, decorations=2, glyphs=GLYPHS[2:])]
    return job(dx=[f(0), f(0), f(0), f(5)], chunks=[chunk(), chunk(flags=0, x=ZERO, y=ZERO, anchor=0, spans=spans)])


# a job of the most bytes, and the same with a byte behind it, which must be seen
several = [("0-two-chunks", two_chunks()), ("0-longest-job", filled(65_536)), ("1-longest-job-and-a-byte", filled(65_536) + b"\0")]

# ---- the refusals

LONG_LIST = [glyph(0, 10, length=2)] * 1_024


def alternating(clusters):
    # neighbours differ in their byte index, so each glyph is a cluster
    return [glyph(i % 2, 10) for i in range(clusters)]


def one_byte_too_long():
    # an answer of 6 bytes, 2 chunks of 11, 2 spans of 31 with a run of 6, 1,119 clusters of 45 and 1,160 glyphs of 13: 65,537
    first = alternating(1_000)
    second = alternating(118) + [glyph(0, 10)] * 42
    return job(chunks=[chunk(spans=[span(glyphs=first)]), chunk(spans=[span(glyphs=second)])])


refused = [
    (1, "a-byte-missing", job()[:-1]),
    (2, "version-2", job(version=2)),
    (3, "a-glyph-missing", one(glyph_count=4)),
    (4, "anchor-3", job(chunks=[chunk(anchor=3)])),
    (5, "byte-index-at-the-end", one(glyphs=GLYPHS[:2] + [glyph(3, 1280)])),
    (6, "span-past-the-text", one(end=4)),
    (7, "last-glyph-replaced-by-a-longer-cluster", job(chunks=[chunk(spans=[span(end=2), span(start=2, glyphs=[glyph(2, 1280, length=2)])])])),
    (8, "glyph-1025", job(chunks=[chunk(spans=[span(end=0, glyphs=LONG_LIST), span(end=1, glyphs=[glyph(0, 10)] * 2)])])),
    (9, "all-widths-zero", one(fixed=1, length=f(48), adjust=1, glyphs=[glyph(0, 0), glyph(1, 0), glyph(2, 0)])),
    (10, "answer-a-byte-too-long", one_byte_too_long()),
]

cases = labels + natural + several + [(f"{number}-{name}", record) for number, name, record in refused]
write_data(cases)
with open("stdout", "w") as out:
    for name, _ in cases:
        out.write(name + "\n" + text_of(*answered(name)))

# ---- what document 01 says of them; the text form shows neither P3's scale nor P8's nudge and ascent

rows = [read_answer(answered(name)[1])[0] for name, _ in labels]
advances = [[c["advance"] for c in row["clusters"]] for row in rows]
assert advances[:3] == [[11, 7, 10], [25, 19, 25], [11, 7, 10]]
assert rows[1]["clusters"][0]["x"] == -54
assert all(c["scale"] == 2 for c in rows[2]["clusters"])
assert [c["flags"] for c in rows[3]["clusters"]] == [0, 1, 0]
assert [(run["first"], run["width"]) for run in rows[3]["spans"][0]["runs"]] == [(0, 11), (1, 17)]
assert advances[4] == [0, 2, 10]
assert (rows[5]["spans"][0]["baseline"], rows[6]["spans"][0]["baseline"]) == (4, -5)
assert (rows[7]["clusters"][0]["flags"], rows[7]["clusters"][0]["nudge"], rows[7]["clusters"][0]["ascent"]) == (2, 4, 5)
assert advances[8] == [10, 6, 10]
assert [answered(f"{number}-{name}")[0] for number, name, _ in refused] == list(range(1, 11))
assert [answered(name)[0] for name, _ in several] == [0, 0, 1]
assert len(answered("10-answer-a-byte-too-long", LENT + 1)[1]) == LENT + 1

# ---- what document 02 says of adjust 2; the text form does not show length spacing

spread = read_answer(answered("0-text-length-by-adjust-2")[1])[0]
assert [(c["width"], c["advance"], c["spacing"], c["flags"]) for c in spread["clusters"]] == [(10, 24, 13, 0), (4, 20, 13, 0), (10, 23, 13, 0)]
assert (spread["clusters"][0]["x"], spread["pen_x"], spread["pen_y"]) == (-54, 113, 50)
assert answered("0-adjust-2-with-clear-flag") == answered("P1-label")
