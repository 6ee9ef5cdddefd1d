"""A job for each kind of label, for the stack that it takes. The number in a name is that of the clusters in its longest chunk.

    python3 tools/stack/kinds.py DIR    # writes them to files in DIR, and prints their names
"""
import os
import sys

sys.path.append(os.path.join(os.path.dirname(os.path.abspath(__file__)), ".."))
from jobs import chunk, f, glyph, job, span

MOST_BYTES = 65_536


def mixed(clusters):
    # place i has byte 367 i modulo the count, a power of two: each byte once, and in no order that a merge sort could leave early
    assert clusters & (clusters - 1) == 0
    return [367 * i % clusters for i in range(clusters)]


def glyphs(clusters, each=1, **change):
    # neighbours of one byte index are one cluster
    return [glyph(index, 512, **change) for index in mixed(clusters) for _ in range(each)]


def line(clusters, lists, lengths=False):
    """A chunk with a byte of text for each cluster, shared by as many spans as there are lists of glyphs. Where two of the lists have
    glyphs, they are merged: so a span brings glyphs of the whole text, of which the merge takes those of its own bytes."""
    ends = [clusters * k // len(lists) for k in range(len(lists) + 1)]
    length = dict(fixed=1, length=f(300)) if lengths else {}
    spans = [span(start=ends[k], end=ends[k + 1], glyphs=lists[k], adjust=k % 3, decorations=7, **length) for k in range(len(lists))]
    return chunk(text=(b"two " * 256)[:clusters], spans=spans)


def one(*chunk_of, **change):
    return job(chunks=[line(*chunk_of)], **change)


def lists(floats):
    return dict(dx=[f(1)] * floats, dy=[f(2)] * floats, rotate=[f(30)] * floats)


def deepest():
    # as long as a job can be, with all that the shorter kinds have
    first, second = glyphs(1024, orientation=1), glyphs(256, orientation=1)
    return job(mode=1, **lists(6), chunks=[line(1024, [first] * 2, lengths=True), line(256, [second] * 2, lengths=True)])


OF_32 = glyphs(32)

KINDS = {
    "label": job(),
    "one-span-32": one(32, [OF_32]),
    "first-span-32": one(32, [OF_32, [], [], []]),
    "merged-32": one(32, [OF_32] * 3),
    "every-cluster-a-span-32": one(32, [OF_32] * 32),
    "three-glyphs-each-32": one(32, [glyphs(32, each=3)] * 3),
    "text-lengths-32": one(32, [OF_32] * 3, True),
    "dx-dy-rotate-32": one(32, [OF_32] * 3, **lists(32)),
    "upright-32": one(32, [glyphs(32, orientation=1)] * 3, mode=1),
    "lines-32": job(chunks=[line(32, [OF_32])] * 4),
    "merged-lines-32": job(chunks=[line(32, [OF_32] * 3)] * 3),
    "one-span-64": one(64, [glyphs(64)]),
    "merged-64": one(64, [glyphs(64)] * 3),
    "merged-lines-64": job(chunks=[line(64, [glyphs(64)] * 3, lengths=True)] * 4),
    "merged-256": one(256, [glyphs(256)] * 3),
    "one-span-512": one(512, [glyphs(512)]),
    "one-span-1024": one(1024, [glyphs(1024)]),
    "merged-1024": one(1024, [glyphs(1024)] * 2),
    "merged-lines-1024": deepest(),
}


def write(folder):
    os.makedirs(folder, exist_ok=True)
    for name, record in KINDS.items():
        assert len(record) <= MOST_BYTES
        with open(os.path.join(folder, name), "wb") as out:
            out.write(record)
        print(name)


if __name__ == "__main__":
    if len(sys.argv) != 2:
        sys.exit(__doc__)
    write(sys.argv[1])
