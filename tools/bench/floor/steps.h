/* A chunk's clusters, and the steps that lay them out. */
#ifndef STEPS_H
#define STEPS_H

#include "job.h"

/* A cluster's flags, as in its row. */
enum { RELATIVE = 1, UPRIGHT = 2, SIDEWAYS = 4, SCALED = 8, ROTATED = 16, COLLAPSED = 32 };

struct cluster {
    float width, advance, spacing, ascent, descent, nudge, scale, shift_x, shift_y, angle;
    uint32_t tag;
    uint16_t index, first, glyphs; /* the byte index; its glyphs in the merged list */
    uint8_t flags, span, upright;
};

/* The chunk that is laid out. */
struct line {
    const struct job *job;
    const struct chunk *chunk;
    unsigned offset;          /* characters in the chunks before */
    unsigned count;           /* of clusters */
    int rising;               /* each byte index is above the one before */
    float start;              /* where the first cluster is placed, less its shift */
    float last_x, last_y;     /* the shift of the last cluster in text order */
    struct cluster clusters[MOST_MERGED];
};

struct point {
    float x, y;
};

void form_clusters(struct line *line);         /* step 2 */
void space_clusters(struct line *line);        /* steps 3 to 5 */
unsigned adjust_lengths(struct line *line);    /* step 6: 0, or 9 */
void place_clusters(struct line *line);        /* step 7, but for what the writing adds */
float resolve_baseline(const struct job *job, const struct span *span); /* step 8 */

/* Steps 2 to 7: 0, or 9. */
unsigned lay_chunk(struct line *line, const struct job *job, const struct chunk *chunk, unsigned offset);

/* Bytes of the chunk's row. */
size_t measure_chunk(const struct line *line);

/* Writes it and moves the pen; the place behind it. */
uint8_t *write_chunk(uint8_t *out, const struct line *line, struct point *pen);

/* A font's field at a size, which is rounded first by the units per em. */
static inline const uint8_t *font_row(const struct job *job, unsigned font)
{
    return job->fonts + FONT_BYTES * (size_t)font;
}

static inline float font_scale(const uint8_t *font, float size)
{
    return size / (float)get16(font);
}

static inline float font_ascent(const uint8_t *font, float scale)
{
    return (float)get_i16(font + 2) * scale;
}

static inline float font_descent(const uint8_t *font, float scale)
{
    return (float)get_i16(font + 4) * scale;
}

#endif
