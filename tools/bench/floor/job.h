/* A job, read once: its spans by value, all else by its place in the record. */
#ifndef JOB_H
#define JOB_H

#include <stddef.h>
#include <stdint.h>

#include "wire.h"

enum { MOST_BYTES = 65536, MOST_FONTS = 16, MOST_LIST = 4096, MOST_CHUNKS = 16 };
enum { MOST_TEXT = 4096, MOST_SPANS = 32, MOST_SHIFTS = 8, MOST_GLYPHS = 1024, MOST_MERGED = 1024 };
enum { FONT_BYTES = 18, CHUNK_BYTES = 13, SPAN_BYTES = 27, SHIFT_BYTES = 5, GLYPH_BYTES = 25 };
enum { NO_FONT = 255, TOP_TO_BOTTOM = 1, HAS_X = 1, HAS_Y = 2, NUMBER_SHIFT = 3 };
enum { BY_SPACING, BY_GLYPHS, BY_ADVANCES }; /* adjust */

/* Places in a glyph row. */
enum { GLYPH_INDEX = 4, GLYPH_LENGTH = 6, GLYPH_DX = 7, GLYPH_DY = 11, GLYPH_WIDTH = 15 };
enum { GLYPH_FONT = 19, GLYPH_TAG = 20, GLYPH_UPRIGHT = 24 };

/* No job has more glyphs, and no merged list more than its chunk's. */
enum { ALL_GLYPHS = MOST_BYTES / GLYPH_BYTES };

struct list {
    const uint8_t *floats;
    unsigned count;
};

struct span {
    const uint8_t *shifts, *glyphs;
    float size, letter, word, length;
    uint16_t start, end, glyph_count;
    uint8_t font, has_length, adjust, dominant, alignment, decorations, shift_count;
};

struct chunk {
    const uint8_t *head, *text;
    const struct span *spans;
    const uint16_t *merged; /* places of glyph rows in the record */
    unsigned text_length, characters, span_count, merged_count;
};

struct job {
    const uint8_t *bytes, *fonts;
    struct list dx, dy, rotate;
    unsigned mode, font_count, chunk_count, span_count;
    int stretches; /* some span has a text length by its glyphs: 9 may be met */
    struct chunk chunks[MOST_CHUNKS];
    struct span spans[MOST_CHUNKS * MOST_SPANS];
    uint16_t merged[ALL_GLYPHS + 1];
};

/* Checks 1 to 6: the number, or 0 and the job. */
unsigned check_job(const uint8_t *bytes, size_t length, struct job *job);

/* How many characters a text has; -1 where it is not UTF-8. */
int utf8_characters(const uint8_t *text, size_t length);

/* Step 1 of each chunk: 0, or 7 or 8, and then the chunk count is that of the chunks before. */
unsigned merge_chunks(struct job *job);

static inline float list_at(const struct list *list, unsigned i)
{
    return i < list->count ? get_float(list->floats + 4 * (size_t)i) : 0.0f;
}

#endif
