# Jobs as bytes: the worked label of document 01, with what a caller changes in it. Used by the make.py of the programs that store jobs.
import os
import struct

from rows import JOBS, record, written

VERSION = 1
TABLE = JOBS[VERSION]
ZERO = b"\0\0\0\0"


def f(x):
    return struct.pack(">f", x)


def bits(n):
    return struct.pack(">I", n)


FONT = dict(units=2048, ascent=1536, descent=-512, xheight=1024, underline=-256, thickness=128, through=0, subscript=0, superscript=640)


def font(**change):
    return written(TABLE, "font", {**FONT, **change})


def glyph(index, width, length=1, font=0, id=0, dx=0, dy=0, tag=b"Latn", orientation=0):
    return written(TABLE, "glyph", locals())


def shift(kind, number=ZERO):
    return written(TABLE, "shift", locals())


GLYPHS = [glyph(0, 1280), glyph(1, 512), glyph(2, 1280)]


def span(start=0, end=3, font=0, size=f(16), letter=f(1), word=f(2), fixed=0, length=ZERO, adjust=0, dominant=0, alignment=0,
         decorations=1, shifts=(), glyphs=GLYPHS, shift_count=None, glyph_count=None):
    return written(TABLE, "span", {**locals(), "#shifts": shift_count, "#glyphs": glyph_count})


def chunk(flags=3, x=f(100), y=f(50), anchor=2, flow=0, text=b"A B", spans=None, text_length=None, span_count=None):
    spans = [span()] if spans is None else spans
    return written(TABLE, "chunk", {**locals(), "#text": text_length, "#spans": span_count})


def job(mode=0, fonts=None, dx=(), dy=(), rotate=(), chunks=None, version=VERSION, length=None, font_count=None, chunk_count=None,
        list_count=None, tail=b""):
    fonts = [font()] if fonts is None else fonts
    chunks = [chunk()] if chunks is None else chunks
    counts = {"#fonts": font_count, "#chunks": chunk_count, "#dx": list_count, "#dy": list_count, "#rotate": list_count}
    return record(version, written(TABLE, "job", {**locals(), **counts}) + tail, length)


def filled(size):
    # chunks of plain text until the record has `size` bytes
    chunks = []
    bare = len(chunk(text=b"", spans=[]))
    left = size - len(job(chunks=[]))
    while left > 0:
        n = min(left, bare + 4096)
        if 0 < left - n < bare:
            n -= bare
        chunks.append(chunk(text=b"x" * (n - bare), spans=[]))
        left -= n
    return job(chunks=chunks)


def write_data(cases):
    """Each case, a name and its bytes, becomes a file of data/ and a line of args."""
    assert len({name for name, _ in cases}) == len(cases)
    os.makedirs("data", exist_ok=True)
    for old in os.listdir("data"):
        os.remove(os.path.join("data", old))
    for name, record in cases:
        with open(os.path.join("data", name), "wb") as out:
            out.write(record)
    with open("args", "w") as out:
        out.write("".join(name + "\n" for name, _ in cases))
