/* Step 2: neighbours of one byte index become a cluster, if a span covers it. */
#include "steps.h"

/* What was measured last: neighbours mostly share span and font, and a division is slow. */
struct measure {
    unsigned key;
    float scale, ascent, descent;
};

static void measure_font(struct measure *m, const struct line *line, unsigned span, unsigned font)
{
    unsigned key = span << 8 | font;
    if (m->key != key) {
        const uint8_t *row = font_row(line->job, font);
        m->key = key;
        m->scale = font_scale(row, line->chunk->spans[span].size);
        m->ascent = font_ascent(row, m->scale);
        m->descent = font_descent(row, m->scale);
    }
}

/* The span that covers a byte index, looked for from `span` on, which mostly does; the span count where none does. */
static unsigned find_span(const struct chunk *chunk, unsigned index, unsigned span)
{
    unsigned count = chunk->span_count;
    if (span < count && chunk->spans[span].start <= index && index < chunk->spans[span].end)
        return span;
    for (span = 0; span < count; span++)
        if (chunk->spans[span].start <= index && index < chunk->spans[span].end)
            break;
    return span;
}

static float glyph_advance(const uint8_t *row, float scale)
{
    return (float)get_i32(row + GLYPH_WIDTH) * scale;
}

/* The cluster of the glyphs from place `first` on, which the span covers; the place behind them. */
static unsigned form_cluster(struct cluster *c, const struct line *line, struct measure *m, unsigned first, unsigned span)
{
    const uint8_t *bytes = line->job->bytes;
    const uint16_t *merged = line->chunk->merged;
    const uint8_t *row = bytes + merged[first];
    unsigned index = get16(row + GLYPH_INDEX), count = line->chunk->merged_count, i = first + 1;
    float own, width, advance;
    measure_font(m, line, span, row[GLYPH_FONT]);
    own = glyph_advance(row, m->scale);
    width = own > 0.0f ? own : 0.0f;
    advance = 0.0f + own;
    *c = (struct cluster){.ascent = m->ascent, .descent = m->descent, .tag = get32(row + GLYPH_TAG)};
    c->index = (uint16_t)index;
    c->first = (uint16_t)first;
    c->span = (uint8_t)span;
    c->upright = row[GLYPH_UPRIGHT];
    for (; i < count && get16((row = bytes + merged[i]) + GLYPH_INDEX) == index; i++) {
        measure_font(m, line, span, row[GLYPH_FONT]);
        own = glyph_advance(row, m->scale);
        width = own > width ? own : width;
        advance += own;
    }
    c->width = width;
    c->advance = advance;
    c->glyphs = (uint16_t)(i - first);
    return i;
}

void form_clusters(struct line *line)
{
    const struct chunk *chunk = line->chunk;
    struct measure m = {~0u, 0.0f, 0.0f, 0.0f};
    struct cluster *c = line->clusters;
    unsigned span = 0, before = 0, i = 0;
    int rising = 1;
    while (i < chunk->merged_count) {
        unsigned index = get16(line->job->bytes + chunk->merged[i] + GLYPH_INDEX);
        span = find_span(chunk, index, span);
        if (span == chunk->span_count) {
            i++;
            continue;
        }
        i = form_cluster(c++, line, &m, i, span);
        rising &= index >= before;
        before = index + 1;
    }
    line->rising = rising;
    line->count = (unsigned)(c - line->clusters);
}
