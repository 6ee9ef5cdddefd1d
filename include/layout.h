/* SPDX-License-Identifier: Apache-2.0 OR MIT */
/*
 * layout.h: places the shaped glyphs of a label; and, at the end, says how wide a column of labels is.
 *
 * One call reads a job (fonts, text, spans, shaped glyphs) and writes an answer (clusters with their places, decoration runs) into a
 * buffer that the caller lends. It allocates nothing and keeps nothing from one call to the next, so threads may call it at once.
 * Link with liblayout_c.a, which `rt lib` in crates/layout_c writes to crates/layout_c/out.
 *
 * Numbers are big-endian. A float is the 4 bytes of an IEEE 754 binary32, a u16 2 bytes, a u32 4 bytes.
 */
#ifndef LAYOUT_H
#define LAYOUT_H

#include <stddef.h>
#include <stdint.h>

#ifdef __cplusplus
extern "C" {
#endif

struct layout_result {
    uint32_t number; /* LAYOUT_DONE, or why the job is refused */
    uint32_t length; /* bytes of the answer, its length field counted; 0 where the job is refused */
};

/*
 * Neither pointer is null, and the two ranges do not overlap. Any bytes may stand in both.
 * Done: the answer stands in the first `length` bytes of `answer`, and the bytes behind it are as they were.
 * Refused: `answer` is as it was, every byte of it.
 *
 * A buffer three times as long as the job is never refused with 10: an answer has at most 64 / 25 of its job's bytes. Nor is one of
 * LAYOUT_ANSWER_MAX bytes, whatever the job. Both are proved, as the rest is. A buffer that is too short is refused with 10 and left as it
 * was.
 */
struct layout_result layout_text(const uint8_t *job, size_t job_len, uint8_t *answer, size_t answer_len);

/*
 * Why a job is refused. 1 to 6 are found before anything is laid out, each in the whole job before the next. Then the chunks are laid out
 * in order, each with 7 or 8, whichever comes first, then 9. 10 is told last, so a job refused with 10 is laid out with a longer buffer.
 */
enum layout_number {
    LAYOUT_DONE = 0,
    LAYOUT_BAD_LENGTH = 1,     /* under 5 bytes, over 65,536, or the length field is not the byte count less 4 */
    LAYOUT_BAD_VERSION = 2,    /* the version byte is not 1 */
    LAYOUT_BAD_COUNT = 3,      /* a count is over its limit, or the counted rows do not end with the job */
    LAYOUT_BAD_FIELD = 4,      /* a field is outside its values, or a font byte names no font row */
    LAYOUT_BAD_TEXT = 5,       /* text is not UTF-8, or a glyph's byte index is not the start of a character */
    LAYOUT_BAD_SPAN = 6,       /* a span ends before it starts, past the text, or starts before the span before it ends */
    LAYOUT_MERGE_PAST_END = 7, /* a glyph of a later span takes the place of more glyphs than are left */
    LAYOUT_TOO_MANY_GLYPHS = 8, /* a chunk has more than 1,024 glyphs once its spans are merged */
    LAYOUT_NO_WIDTH = 9,       /* a span is to be stretched to a text length, and all its clusters have width 0 */
    LAYOUT_NO_ROOM = 10,       /* the answer is longer than the lent buffer */
    LAYOUT_BAD_WINDOW = 19     /* a column's window only: see the end of this file */
};

/* ---- limits of a job */

#define LAYOUT_VERSION 1
#define LAYOUT_JOB_MAX 65536
#define LAYOUT_FONTS_MAX 16
#define LAYOUT_LIST_MAX 4096 /* of each list: dx, dy, rotate */
#define LAYOUT_CHUNKS_MAX 16
#define LAYOUT_TEXT_MAX 4096 /* bytes of a chunk's text */
#define LAYOUT_SPANS_MAX 32
#define LAYOUT_SHIFTS_MAX 8
#define LAYOUT_GLYPHS_MAX 1024 /* of a span, and of a chunk once its spans are merged */
#define LAYOUT_CLUSTER_LENGTH_MAX 64
#define LAYOUT_ANSWER_MAX 167772 /* bytes of an answer, whatever its job: 64 / 25 of LAYOUT_JOB_MAX */
#define LAYOUT_NO_FONT 255 /* the font byte of a span without a font: such a span has no glyphs */

/* ---- a span's adjust byte: how its clusters are brought to its text length. Without a text length it says nothing.
 *
 * Spacing and the natural length give each cluster the same share of what is missing (or too much), one cluster 0. The natural length is
 * what SVG 1.1 asks for; Spacing is what usvg does, and drops letter and word spacing.
 */
#define LAYOUT_ADJUST_SPACING 0            /* a cluster's advance becomes its width and its share */
#define LAYOUT_ADJUST_SPACING_AND_GLYPHS 1 /* glyphs are stretched along the line, and advances stay; clusters all of width 0 meet 9 */
#define LAYOUT_ADJUST_NATURAL 2            /* a cluster's advance, letter and word spacing in it, gets its share */

/* ---- the answer
 *
 * u32 length of what follows, version byte, chunk count byte, chunks.
 */
#define LAYOUT_CHUNK_COUNT_AT 5
#define LAYOUT_CHUNKS_AT 6

/* ---- a chunk: its head, its cluster rows, its span rows */

#define LAYOUT_CLUSTER_COUNT_AT 0 /* u16 */
#define LAYOUT_SPAN_COUNT_AT 2    /* byte: the spans with a font */
#define LAYOUT_PEN_X_AT 3         /* float: the pen after the chunk; the next chunk starts there if it gives no x */
#define LAYOUT_PEN_Y_AT 7         /* float */
#define LAYOUT_CHUNK_HEAD_BYTES 11

/* ---- a cluster row: the glyphs that are drawn for one place of the text, and where they go
 *
 * Lengths are in the label's units, y downwards. The span that covers the byte index gives font size, colour and origin.
 *
 * Shift x is finite, and proved to be at most (g + 3) T / 2^20 from where the same rules put the cluster with nothing rounded (but for the
 * choice of which clusters collapse), in a chunk in which no span has a text length, and at most (g + 3) T / 2^18 in any other. There are g
 * glyphs in the chunk's clusters, collapsed or not, and T adds the sizes of their advances, of letter spacing, word spacing, dx and dy for
 * each cluster, and of the text lengths. At g = 40 and T = 1000 that is 0.041, and 0.164, rounded.
 */
#define LAYOUT_BYTE_INDEX_AT 0 /* u16: the place in the chunk's text */
#define LAYOUT_FLAGS_AT 2      /* byte: the flags below */
#define LAYOUT_WIDTH_AT 3      /* float: how wide the glyphs are */
#define LAYOUT_ADVANCE_AT 7    /* float: how far the next cluster starts from this one, spacing included */
#define LAYOUT_SPACING_AT 11   /* float: the share that a text length added, by Spacing or the natural length; else 0 */
#define LAYOUT_ASCENT_AT 15    /* float: the height above the baseline */
#define LAYOUT_DESCENT_AT 19   /* float: the depth below it, negative */
#define LAYOUT_NUDGE_AT 23     /* float: top to bottom, the shift that puts the baseline in the middle; else 0 */
#define LAYOUT_SCALE_AT 27     /* float: with LAYOUT_SCALED, the stretch along the line; else 0 */
#define LAYOUT_SHIFT_X_AT 31   /* float: from the origin to the cluster, along the line */
#define LAYOUT_SHIFT_Y_AT 35   /* float: and across it */
#define LAYOUT_ANGLE_AT 39     /* float: with LAYOUT_ROTATED, degrees, clockwise; else 0 */
#define LAYOUT_GLYPH_COUNT_AT 43 /* u16 */
#define LAYOUT_GLYPHS_AT 45
#define LAYOUT_CLUSTER_BYTES(glyphs) (LAYOUT_GLYPHS_AT + LAYOUT_GLYPH_BYTES * (size_t)(glyphs))

/* the flags of a cluster */
#define LAYOUT_RELATIVE_SHIFT 1 /* moved by dx and dy otherwise than the cluster before it, or rotated: a decoration line breaks here */
#define LAYOUT_UPRIGHT 2        /* top to bottom: stands upright */
#define LAYOUT_SIDEWAYS 4       /* top to bottom: lies on its side */
#define LAYOUT_SCALED 8         /* stretched to a text length, by SpacingAndGlyphs */
#define LAYOUT_ROTATED 16       /* turned by the rotate list */
#define LAYOUT_COLLAPSED 32     /* cleared: width 0 and no glyphs; the next comment says when */

/*
 * A cluster is collapsed if its advance, letter spacing added, was not above 0, in a chunk where some span has letter spacing. Clusters of
 * the scripts that take no letter spacing never are. Negative spacing is not needed for it: the last cluster of the chunk, and one whose own
 * span has no letter spacing, get nothing added, so a mark of advance 0 loses its glyphs there with positive spacing too.
 */

/* ---- a glyph of a cluster
 *
 * x and y are in font units, y downwards: times font size ÷ units per em they are lengths.
 */
#define LAYOUT_GLYPH_ID_AT 0   /* u32 */
#define LAYOUT_GLYPH_FONT_AT 4 /* byte: the job's font row */
#define LAYOUT_GLYPH_X_AT 5    /* float */
#define LAYOUT_GLYPH_Y_AT 9    /* float */
#define LAYOUT_GLYPH_BYTES 13

/* ---- a span row: for each span with a font
 *
 * An offset is from the baseline to the middle of the line that is drawn, y downwards, and 0 where the span has no such decoration.
 */
#define LAYOUT_SPAN_INDEX_AT 0      /* byte: the span's place in the job's chunk */
#define LAYOUT_ORIGIN_X_AT 1        /* float: where the chunk starts */
#define LAYOUT_ORIGIN_Y_AT 5        /* float */
#define LAYOUT_BASELINE_SHIFT_AT 9  /* float: how far down the span's baseline is moved */
#define LAYOUT_THICKNESS_AT 13      /* float: of a decoration line */
#define LAYOUT_UNDER_OFFSET_AT 17   /* float */
#define LAYOUT_OVER_OFFSET_AT 21    /* float */
#define LAYOUT_THROUGH_OFFSET_AT 25 /* float */
#define LAYOUT_RUN_COUNT_AT 29      /* u16 */
#define LAYOUT_RUNS_AT 31
#define LAYOUT_SPAN_BYTES(runs) (LAYOUT_RUNS_AT + LAYOUT_RUN_BYTES * (size_t)(runs))

/* ---- a run: a decoration line without a break, from its first cluster's place */

#define LAYOUT_FIRST_CLUSTER_AT 0 /* u16: index of the cluster row in the chunk */
#define LAYOUT_RUN_WIDTH_AT 2     /* float: the advances of its clusters */
#define LAYOUT_RUN_BYTES 6

/*
 * To draw a glyph, start from the identity and append, each step to be applied before the ones already there:
 *
 *   1. top to bottom: rotate 90 about the origin;
 *   2. translate (origin x, origin y), then translate (0, baseline shift), both of the covering span's row;
 *   3. translate (0, nudge) if LAYOUT_SIDEWAYS;
 *   4. scale (scale, 1) if LAYOUT_SCALED;
 *   5. translate (shift x, shift y);
 *   6. rotate angle if LAYOUT_ROTATED;
 *   7. translate (0, nudge) and rotate -90 about (ascent, -nudge) if LAYOUT_UPRIGHT;
 *   8. scale (s, s), s being the span's font size ÷ the glyph font's units per em;
 *   9. translate (glyph x, glyph y); font outlines, whose y goes up, are then mirrored by scale (1, -1).
 *
 * A decoration line takes steps 1 to 6 of its run's first cluster, without 7, and is the rectangle from (0, offset - thickness ÷ 2), as
 * wide as the run and as high as the thickness.
 *
 * Where every bit counts: which steps are multiplied first changes the rounding. The Rust makes the span's transform of 1 and 2, the
 * cluster's of 3 to 6 and the turn of 7, each from the identity. Then it multiplies, one after the other: the span's; by the cluster's
 * times the turn; by 8; by each of the two steps of 9. Multiplied so with the operations of tiny-skia-path, every matrix of a million jobs
 * had the Rust's own bits. With all steps in one chain one in eleven glyphs had others, off by at most 4 x 2^-24 of the sizes (origin,
 * shifts, glyph place) that its place is added up from. docs/DIFFERENCES.md has the figures.
 */

/* ---- the width of a column
 *
 * Down a row of plots the code column is as wide as the widest of the labels now in view. Open a window for a span of as many labels as are
 * in view, 1 to 64, and add the extent of each label as it comes by, up to 65,535 of them. After each the width is the largest extent among
 * the last `span` labels, among all while there are fewer. Zero of either sign counts as plus zero, so that no width is minus zero.
 *
 * Who begins anywhere in the row with the same span sees the widths of who began at the top, at every label that both windows accept, from
 * the label on with which the later window has accepted `span` of them. So to jump to a plot, open a window anew and add the labels that
 * end there, from so far up that `span` of them are accepted.
 *
 * An extent is a length along the line; any finite float that is not below zero passes. examples/host.c takes it from an answer: from the
 * smallest shift x of a chunk's clusters to the largest shift x + advance - length spacing.
 *
 * The window stands in the words that are lent and nowhere else: no memory is allocated, nothing has to be closed, and a copy of the words
 * is a window of its own. Between two calls the words are not to be changed. A label costs three comparisons at most in the mean, whatever
 * the span, and never looks at the others in view again.
 */
#define COLUMN_WINDOW_WORDS 68
#define COLUMN_SPAN_MAX 64
#define COLUMN_LABELS_MAX 65535

struct column_width {
    uint32_t number; /* LAYOUT_DONE, or why the call is refused */
    float width;     /* 0 where it is refused */
};

/*
 * An empty window. The pointer is not null; the words may hold anything. `words` counts those that are lent.
 * Refused, in this order: LAYOUT_BAD_WINDOW, a span of 0 or above 64; LAYOUT_NO_ROOM, fewer than COLUMN_WINDOW_WORDS words.
 * The width is 0, of an empty window too.
 */
struct column_width column_open(uint32_t *window, size_t words, uint32_t span);

/*
 * One label more, and the width after it.
 * Refused, in this order: LAYOUT_BAD_FIELD, an extent that is not finite or is below zero; LAYOUT_BAD_COUNT, one label too many, when 65,535
 * have been accepted; LAYOUT_NO_ROOM, fewer than COLUMN_WINDOW_WORDS words; LAYOUT_BAD_WINDOW, words that no call has left. A refused label
 * leaves the window unchanged and does not count.
 *
 * Both calls: where they refuse, every word is as it was; the words past COLUMN_WINDOW_WORDS always are. Words that were changed between two
 * calls, or never opened, do no harm, but the width then means nothing: it may be below zero, or no number.
 */
struct column_width column_add(uint32_t *window, size_t words, float extent);

#ifdef __cplusplus
}
#endif

#endif
