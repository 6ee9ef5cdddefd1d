"""What a host does: it orders a label's letters (FriBidi), shapes them (HarfBuzz), builds the job, calls, and reads the places."""
import ctypes
import json
import os
import struct
import subprocess
import sys
import unicodedata
from dataclasses import dataclass, replace
from functools import cache
from itertools import accumulate, groupby
from pathlib import Path
from typing import NamedTuple

sys.path.insert(0, str(Path(__file__).resolve().parent.parent))
import jobs
from rows import read_answer

FONTS = Path("/usr/share/fonts/truetype")
X, Y = 400, 20  # where a label is set
ANCHORS = ["start", "middle", "end"]

# The first word of a character's name, and the ISO 15924 code of its script. All others are Zyyy, common.
SCRIPTS = {
    "LATIN": "Latn", "CYRILLIC": "Cyrl", "GREEK": "Grek", "GEORGIAN": "Geor", "HEBREW": "Hebr", "ARABIC": "Arab", "NKO": "Nkoo",
    "DEVANAGARI": "Deva", "BENGALI": "Beng", "TAMIL": "Taml", "THAI": "Thai", "KHMER": "Khmr", "ETHIOPIC": "Ethi",
}


def printed(*command, given=None):
    utf8 = {**os.environ, "LC_ALL": "C.UTF-8"}
    run = subprocess.run(command, input=given, capture_output=True, encoding="utf-8", env=utf8, timeout=300)
    if run.returncode != 0:
        sys.exit(f"{command[0]} ends with {run.returncode}: {run.stderr}")
    return run.stdout


# ---- a label

@dataclass(frozen=True)
class Span:
    font: str
    size: float
    letter: float
    word: float
    length: float | None
    text: str


@dataclass(frozen=True)
class Label:
    anchor: str
    direction: str
    spans: tuple


def text_of(spans):
    return "".join(span.text for span in spans)


def ranges(spans):
    """Each span's first byte, and the one behind its last."""
    ends = list(accumulate((len(span.text.encode()) for span in spans), initial=0))
    return list(zip(ends, ends[1:]))


# ---- fonts

def font_file(font):
    return FONTS / ("dejavu" if font.startswith("DejaVu") else "noto") / (font + ".ttf")


@cache
def revision_and_units(font):
    """Both stand in the table `head`."""
    data = font_file(font).read_bytes()
    tables = (struct.unpack_from(">4sIII", data, 12 + 16 * i) for i in range(struct.unpack_from(">H", data, 4)[0]))
    head = next(at for tag, _, at, _ in tables if tag == b"head")
    revision, units = struct.unpack_from(">4xi10xH", data, head)
    return revision / 65536, units


# ---- order

@dataclass(frozen=True)
class Run:
    """Letters that are shaped together: of one level, script and style, from `start` of the text to `end`."""
    start: int
    end: int
    level: int
    script: str
    span: Span


def tag_of(letter):
    return SCRIPTS.get(unicodedata.name(letter, "").partition(" ")[0], "Zyyy")


def scripts(text):
    """What each letter is shaped in: common ones in the script of the letter before, or of the first that has one."""
    tags = [tag_of(letter) for letter in text]
    first = next((tag for tag in tags if tag != "Zyyy"), "Zyyy")
    return list(accumulate(tags, lambda before, tag: before if tag == "Zyyy" else tag, initial=first))[1:]


def runs_in_text(label):
    text = text_of(label.spans)
    levels = printed("fribidi", "--levels", "--novisual", "--nobreak", "--" + label.direction, given=text + "\n").split()
    styles = [replace(span, length=None, text="") for span in label.spans for _ in span.text]
    keys = list(zip(map(int, levels), scripts(text), styles))
    parts = [list(part) for _, part in groupby(range(len(text)), keys.__getitem__)]
    return [Run(part[0], part[-1] + 1, *keys[part[0]]) for part in parts]


def in_view(runs):
    """From left to right: rule L2 of the bidirectional algorithm."""
    for level in range(max(run.level for run in runs), 0, -1):
        parts = [(high, list(part)) for high, part in groupby(runs, lambda run: run.level >= level)]
        runs = [run for high, part in parts for run in (part[::-1] if high else part)]
    return runs


# ---- glyphs

@dataclass(frozen=True)
class Glyph:
    id: int
    index: int
    length: int
    dx: int
    dy: int
    width: int
    font: str
    tag: str
    script: str  # of the run


def shaped(text, run):
    """A run's glyphs from left to right, in font units. Letter spacing does without ligatures, as CSS asks."""
    features = ["--features=-liga,-clig"] if run.span.letter else []
    rows = json.loads(printed(
        "hb-shape", "--output-format=json", "--no-glyph-names", "--utf8-clusters", "--language=en", *features,
        "--direction=" + ("rtl" if run.level % 2 else "ltr"), "--script=" + run.script,
        "--text-before=" + text[: run.start], "--text-after=" + text[run.end :], "--text=" + text[run.start : run.end],
        str(font_file(run.span.font))))
    before, own = len(text[: run.start].encode()), text[run.start : run.end].encode()
    starts = sorted({row["cl"] for row in rows}) + [len(own)]
    for row in rows:
        if row["g"] == 0:
            sys.exit(f"{run.span.font} has no glyph for a letter of {text!r}")
        at, end = row["cl"], starts[starts.index(row["cl"]) + 1]
        tag = tag_of(own[at:end].decode()[0])
        yield Glyph(row["g"], before + at, end - at, row["dx"], row["dy"], row["ax"], run.span.font, tag, run.script)


# ---- the job

@dataclass(frozen=True)
class Line:
    """What the job says of a label."""
    x: float
    anchor: int
    spans: tuple
    glyphs: tuple
    dx: tuple = ()


def line_of(label):
    """The library's start is the left. Right to left, SVG's is the right."""
    text, anchor = text_of(label.spans), ANCHORS.index(label.anchor)
    glyphs = [glyph for run in in_view(runs_in_text(label)) for glyph in shaped(text, run)]
    return Line(X, 2 - anchor if label.direction == "rtl" else anchor, label.spans, tuple(glyphs))


def job_of(line, adjust):
    """The first span has the glyphs of the whole line, so that nothing is merged. Of a font, only its units bear on x."""
    fonts = sorted({span.font for span in line.spans})
    glyphs = [jobs.glyph(g.index, g.width, g.length, fonts.index(g.font), g.id, g.dx, g.dy, g.tag.encode()) for g in line.glyphs]
    spans = []
    for span, (start, end) in zip(line.spans, ranges(line.spans)):
        fixed = {} if span.length is None else {"fixed": 1, "length": jobs.f(span.length), "adjust": adjust}
        spans.append(jobs.span(start, end, fonts.index(span.font), jobs.f(span.size), jobs.f(span.letter), jobs.f(span.word),
                               decorations=0, glyphs=[] if spans else glyphs, **fixed))
    chunk = jobs.chunk(x=jobs.f(line.x), y=jobs.f(Y), anchor=line.anchor, text=text_of(line.spans).encode(), spans=spans)
    rows = [jobs.font(units=revision_and_units(font)[1]) for font in fonts]
    return jobs.job(fonts=rows, dx=[jobs.f(dx) for dx in line.dx], chunks=[chunk])


# ---- the call

class Result(ctypes.Structure):
    _fields_ = [("number", ctypes.c_uint32), ("length", ctypes.c_uint32)]


class Place(NamedTuple):
    """A cluster's left edge, its advance, and how much of that a text length added."""
    x: float
    advance: float
    added: float


def library(archive, scratch):
    """The call, from the archive linked as a shared object: a line and an adjust value give the places of its clusters."""
    shared = str(scratch / "layout.so")
    printed("cc", "-shared", "-o", shared, "-Wl,--whole-archive", str(archive), "-Wl,--no-whole-archive")
    layout_text = ctypes.CDLL(shared).layout_text
    layout_text.restype = Result
    layout_text.argtypes = [ctypes.c_char_p, ctypes.c_size_t, ctypes.c_char_p, ctypes.c_size_t]

    def places(line, adjust):
        job = job_of(line, adjust)
        answer = ctypes.create_string_buffer(3 * len(job))
        result = layout_text(job, len(job), answer, len(answer))
        if result.number != 0:
            sys.exit(f"{text_of(line.spans)!r} with adjust {adjust} is refused with {result.number}")
        return places_in(answer.raw[:result.length])

    return places


def places_in(answer):
    """Each cluster's place by its byte index. Its left edge is the chunk's origin and its shift x."""
    chunk = read_answer(answer)[0]
    origin = chunk["spans"][0]["x"]
    return {row["index"]: Place(origin + row["x"], row["advance"], row["spacing"]) for row in chunk["clusters"]}
