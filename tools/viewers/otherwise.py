"""What Chromium does otherwise than the library.

Each function has a line ask the library for the same, so that the library itself shows whether that is the reason of a difference.
All are asked for in every label; where one has no bearing it changes nothing.
"""
from dataclasses import dataclass, replace
from itertools import groupby

from host import Line, ranges, text_of

ADVANCES, WIDTHS = 2, 0  # the adjust values that are compared
CURSIVE = "Arab Mand Mong Nkoo Phag Rohg Syrc".split()  # CSS Text 3 (#cursive-tracking)


@dataclass(frozen=True)
class Asked(Line):
    """A line, and what counts for its anchor besides the clusters as they are (`anchored`)."""
    last_more: float = 0  # how much wider the last cluster is
    inner: tuple = ()  # places more: a cluster's byte index, and how far right of the cluster's left edge


def view(line):
    """The clusters' byte indexes from left to right."""
    return [index for index, _ in groupby(glyph.index for glyph in line.glyphs)]


# ---- spacing

def no_word_spacing_after_1361(line, places):
    """The text is given another sign of as many bytes."""
    return replace(line, spans=tuple(replace(span, text=span.text.replace("\u1361", "\u1362")) for span in line.spans))


def digits_join_cursive_letters(line, places):
    """Digits and signs that are shaped with cursive letters get their tag. Spaces do not."""
    data = text_of(line.spans).encode()
    joins = lambda g: g.script in CURSIVE and data[g.index : g.index + 1] != b" "
    return replace(line, glyphs=tuple(replace(g, tag=g.script) if joins(g) else g for g in line.glyphs))


def all_but_cursive_spaced(line, places):
    """A script that CSS does not count as cursive gets the tag of common signs."""
    return replace(line, glyphs=tuple(g if g.tag in CURSIVE else replace(g, tag="Zyyy") for g in line.glyphs))


# ---- the length of a span

def spacing_after_the_last(line, places):
    """It is part of the text length, which is given without it, and of the cluster's width."""
    last = line.glyphs[-1]
    more = [span.letter if last.tag not in CURSIVE and start <= last.index < end else 0
            for span, (start, end) in zip(line.spans, ranges(line.spans))]
    return replace(shorter(line, more), last_more=sum(more))


def split_spans_end_to_end(line, places):
    """What stands of other spans between the parts of one is part of its length."""
    order = view(line)
    plain = places(replace(line, spans=tuple(replace(span, length=None) for span in line.spans)), ADVANCES)
    between = []
    for start, end in ranges(line.spans):
        own = [start <= index < end for index in order]
        first, last = own.index(True), len(own) - own[::-1].index(True)
        between.append(sum(plain[order[at]].advance for at in range(first, last) if not own[at]))
    return shorter(line, between)


def shorter(line, less):
    spans = [span if span.length is None else replace(span, length=span.length - much) for span, much in zip(line.spans, less)]
    return replace(line, spans=tuple(spans))


# ---- what a text length moves

def moved_in_text(line, places):
    """What a text length adds moves what follows in the text, not what follows in the line. dx says so."""
    order, found = view(line), places(line, ADVANCES)
    moves = dict.fromkeys(sorted(order), 0)
    for start, end in ranges(line.spans):
        own = [start <= index < end for index in order]
        added = found[order[own.index(True)]].added
        for at, index in enumerate(order):
            if not own[at]:
                moves[index] += added * ((sum(own) if index >= end else 0) - sum(own[:at]))
    return with_moves(line, moves)


def with_moves(line, moves):
    """dx moves a letter and all that follow in the text; that of the first letter moves the line."""
    data = text_of(line.spans).encode()
    dx, before = [0.0] * len(data.decode()), 0
    for index, move in moves.items():
        dx[len(data[:index].decode())] = round(move - before, 4)
        before = move
    return replace(line, x=line.x - dx[0], dx=tuple(dx))


# ---- the anchor

def inner_letters_count(line, places):
    """A letter inside a cluster has a place too: behind the cluster's by what the text length adds."""
    data, found = text_of(line.spans).encode(), places(line, ADVANCES)
    units = {g.index: len(data[g.index : g.index + g.length].decode().encode("utf-16-le")) // 2 for g in line.glyphs}
    return replace(line, inner=tuple((index, place.added) for index, place in found.items() if units[index] > 1))


def anchored(line, places):
    """The line moved so that the anchor counts what it is asked to count."""
    found = places(line, ADVANCES)
    starts = [place.x for place in found.values()]
    ends = {index: place.x + place.advance - place.added for index, place in found.items()}
    here = starts + list(ends.values())
    ends[line.glyphs[-1].index] += line.last_more
    there = starts + list(ends.values()) + [found[index].x + far for index, far in line.inner]
    left, right = min(there) - min(here), max(there) - max(here)
    return replace(line, x=line.x - left * (1 - line.anchor / 2) - right * line.anchor / 2)


OTHERWISE = {
    "no word spacing after U+1361": no_word_spacing_after_1361,
    "no letter spacing of digits among cursive letters": digits_join_cursive_letters,
    "letter spacing of all but cursive scripts": all_but_cursive_spaced,
    "letter spacing after the last cluster counts": spacing_after_the_last,
    "a split span is measured from end to end": split_spans_end_to_end,
    "what follows in the text is moved on, not in the line": moved_in_text,
    "letters inside clusters count for the anchor": inner_letters_count,
}


def as_chromium(line, places, but=None):
    """The line with all of this asked for, or all but one."""
    line = Asked(**vars(line))
    for name, ask in OTHERWISE.items():
        line = line if name == but else ask(line, places)
    return anchored(line, places)
