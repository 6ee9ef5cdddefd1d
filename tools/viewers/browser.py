"""The same labels as SVG, and where Chromium has their letters."""
import json
import re
import sys
from xml.sax.saxutils import escape, quoteattr

from host import X, Y, font_file, printed, text_of

ZOOM = 64  # Chromium rounds to 1/64 px of the screen

SCRIPT = """
const edges = (text, i) => [text.getStartPositionOfChar(i).x, text.getEndPositionOfChar(i).x]
document.fonts.ready.then(() => {
    const missing = [...document.fonts].filter(font => font.status != "loaded").map(font => font.family)
    const texts = [...document.querySelectorAll("text")]
    const places = texts.map(text => [...Array(text.getNumberOfChars()).keys()].map(i => edges(text, i)))
    document.querySelector("pre").textContent = JSON.stringify({missing, places})
})
"""


def attributes(**values):
    return "".join(f" {name.replace('_', '-')}={quoteattr(str(value))}" for name, value in values.items())


def tspan(span):
    fixed = {} if span.length is None else {"textLength": span.length, "lengthAdjust": "spacing"}
    style = attributes(font_family=span.font, font_size=span.size, letter_spacing=span.letter, word_spacing=span.word, **fixed)
    return f"<tspan{style}>{escape(span.text)}</tspan>"


def text(label):
    place = attributes(x=X, y=Y, text_anchor=label.anchor, direction=label.direction)
    return f'<text xml:space="preserve"{place}>{"".join(map(tspan, label.spans))}</text>'


def page(labels):
    fonts = sorted({span.font for label in labels for span in label.spans})
    faces = [f'@font-face {{ font-family: "{font}"; src: url("{font_file(font).as_uri()}") }}' for font in fonts]
    head = ['<!DOCTYPE html><html lang="en"><meta charset="utf-8"><style>', *faces, f'</style><svg style="zoom: {ZOOM}">']
    return "\n".join([*head, *map(text, labels), f"</svg><pre></pre><script>{SCRIPT}</script>"])


def letters(labels, scratch):
    """For each label, the start and the end of each of its UTF-16 units."""
    file = scratch / "labels.html"
    file.write_text(page(labels), "utf-8")
    dom = printed("chromium", "--headless", "--no-sandbox", "--disable-gpu", "--allow-file-access-from-files",
                  f"--user-data-dir={scratch}/profile", "--virtual-time-budget=10000", "--dump-dom", file.as_uri())
    seen = json.loads(re.search("<pre>(.*)</pre>", dom).group(1) or '{"missing": ["any font in time"]}')
    if seen["missing"]:
        sys.exit("Chromium did not load " + ", ".join(seen["missing"]))
    return seen["places"]


def left_edges(line, units):
    """Where Chromium has each cluster's left edge, by its byte index: the least edge of all its letters."""
    data = text_of(line.spans).encode()
    starts = sorted({glyph.index for glyph in line.glyphs})
    bounds = [len(data[:index].decode().encode("utf-16-le")) // 2 for index in starts] + [len(units)]
    return {index: min(min(units[at]) for at in range(*pair)) for index, pair in zip(starts, zip(bounds, bounds[1:]))}
