/* A chunk's row: its head, cluster rows with their glyphs, span rows with their runs. */
#include "steps.h"

enum { HEAD_BYTES = 11, CLUSTER_BYTES = 45, GLYPH_ROW_BYTES = 13, SPAN_ROW_BYTES = 31, RUN_BYTES = 6 };
enum { UNDER = 1, OVER = 2, THROUGH = 4 };

/* A decoration run; those of a span hang together by `next`. */
struct run {
    float width;
    uint16_t first, next;
};

struct runs {
    unsigned count;
    uint16_t of_span[MOST_SPANS], head[MOST_SPANS], tail[MOST_SPANS];
    struct run runs[MOST_MERGED];
};

/* A run goes on while its span does, up to a cluster with a relative shift. */
static int run_goes_on(const struct cluster *c)
{
    return c->span == c[-1].span && !(c->flags & RELATIVE);
}

static void begin_run(struct runs *runs, unsigned cluster, unsigned span, float advance)
{
    unsigned run = runs->count++;
    if (runs->of_span[span]++ == 0)
        runs->head[span] = (uint16_t)run;
    else
        runs->runs[runs->tail[span]].next = (uint16_t)run;
    runs->tail[span] = (uint16_t)run;
    runs->runs[run].width = advance;
    runs->runs[run].first = (uint16_t)cluster;
}

static void collect_runs(const struct line *line, struct runs *runs)
{
    const struct cluster *c = line->clusters;
    runs->count = 0;
    memset(runs->of_span, 0, line->chunk->span_count * sizeof *runs->of_span);
    for (unsigned i = 0; i < line->count; i++, c++)
        if (i > 0 && run_goes_on(c))
            runs->runs[runs->count - 1].width += c->advance;
        else
            begin_run(runs, i, c->span, c->advance);
}

static uint8_t *write_glyphs(uint8_t *out, const uint8_t *bytes, const uint16_t *places, unsigned count)
{
    float x = 0.0f;
    for (unsigned i = 0; i < count; i++, out += GLYPH_ROW_BYTES) {
        const uint8_t *row = bytes + places[i];
        memcpy(out, row, 4);
        out[4] = row[GLYPH_FONT];
        put_float(out + 5, x + (float)get_i32(row + GLYPH_DX));
        put_float(out + 9, (float)-get_i32(row + GLYPH_DY));
        x += (float)get_i32(row + GLYPH_WIDTH);
    }
    return out;
}

static void write_cluster(uint8_t *out, const struct cluster *c, float x)
{
    put16(out, c->index);
    out[2] = c->flags;
    put_float(out + 3, c->width);
    put_float(out + 7, c->advance);
    put_float(out + 11, c->spacing);
    put_float(out + 15, c->ascent);
    put_float(out + 19, c->descent);
    put_float(out + 23, c->nudge);
    put_float(out + 27, c->scale);
    put_float(out + 31, x + c->shift_x);
    put_float(out + 35, c->shift_y);
    put_float(out + 39, c->angle);
    put16(out + 43, c->glyphs);
}

/* Each cluster at its shift and the advances before it; where the last one ends goes to `end`. */
static uint8_t *write_clusters(uint8_t *out, const struct line *line, float *end)
{
    const uint8_t *bytes = line->job->bytes;
    const uint16_t *merged = line->chunk->merged;
    float x = line->start;
    for (const struct cluster *c = line->clusters, *behind = c + line->count; c < behind; c++) {
        write_cluster(out, c, x);
        out = write_glyphs(out + CLUSTER_BYTES, bytes, merged + c->first, c->glyphs);
        x += c->advance;
    }
    *end = x;
    return out;
}

/* Zero bits where a decoration is not wanted. */
static void write_offsets(uint8_t *out, const struct job *job, const struct span *span, const uint8_t *font, float scale)
{
    float ascent = font_ascent(font, scale), height = ascent - font_descent(font, scale);
    float under = -((float)get_i16(font + 8) * scale), over = -ascent, through = -((float)get_i16(font + 12) * scale);
    if (job->mode == TOP_TO_BOTTOM) {
        under = height / 2.0f;
        over = -height / 2.0f;
        through = 0.0f;
    }
    put_float(out, span->decorations & UNDER ? under : 0.0f);
    put_float(out + 4, span->decorations & OVER ? over : 0.0f);
    put_float(out + 8, span->decorations & THROUGH ? through : 0.0f);
}

static uint8_t *write_span(uint8_t *out, const struct line *line, unsigned index, struct point origin, const struct runs *runs)
{
    const struct span *span = &line->chunk->spans[index];
    const uint8_t *font = font_row(line->job, span->font);
    float scale = font_scale(font, span->size);
    unsigned count = runs->of_span[index], run = count ? runs->head[index] : 0;
    out[0] = (uint8_t)index;
    put_float(out + 1, origin.x);
    put_float(out + 5, origin.y);
    put_float(out + 9, resolve_baseline(line->job, span));
    put_float(out + 13, (float)get16(font + 10) * scale);
    write_offsets(out + 17, line->job, span, font, scale);
    put16(out + 29, count);
    out += SPAN_ROW_BYTES;
    for (unsigned i = 0; i < count; i++, out += RUN_BYTES) {
        put16(out, runs->runs[run].first);
        put_float(out + 2, runs->runs[run].width);
        run = i + 1 < count ? runs->runs[run].next : 0;
    }
    return out;
}

/* The spans that have a font, if there is a cluster. */
static unsigned count_span_rows(const struct line *line)
{
    unsigned count = 0;
    if (line->count == 0)
        return 0;
    for (unsigned i = 0; i < line->chunk->span_count; i++)
        count += line->chunk->spans[i].font != NO_FONT;
    return count;
}

size_t measure_chunk(const struct line *line)
{
    const struct cluster *c = line->clusters;
    size_t glyphs = 0, runs = 0;
    for (unsigned i = 0; i < line->count; i++, c++) {
        int has_row = line->chunk->spans[c->span].font != NO_FONT;
        glyphs += c->glyphs;
        runs += has_row && !(i > 0 && run_goes_on(c));
    }
    return HEAD_BYTES + CLUSTER_BYTES * (size_t)line->count + GLYPH_ROW_BYTES * glyphs +
           SPAN_ROW_BYTES * (size_t)count_span_rows(line) + RUN_BYTES * runs;
}

/* The origin plus the pair of step 7, swapped top to bottom. */
static struct point pen_behind(const struct line *line, struct point origin, float end)
{
    struct point pen = origin;
    int turned = line->job->mode == TOP_TO_BOTTOM;
    float x = end + line->last_x, y = line->last_y;
    pen.x += turned ? y : x;
    pen.y += turned ? x : y;
    return pen;
}

uint8_t *write_chunk(uint8_t *out, const struct line *line, struct point *pen)
{
    const struct chunk *chunk = line->chunk;
    uint8_t *head = out;
    out += HEAD_BYTES;
    if (line->count != 0) {
        struct runs runs;
        struct point origin = *pen;
        float end;
        if (chunk->head[0] & HAS_X)
            origin.x = get_float(chunk->head + 1);
        if (chunk->head[0] & HAS_Y)
            origin.y = get_float(chunk->head + 5);
        out = write_clusters(out, line, &end);
        collect_runs(line, &runs);
        for (unsigned i = 0; i < chunk->span_count; i++)
            if (chunk->spans[i].font != NO_FONT)
                out = write_span(out, line, i, origin, &runs);
        *pen = pen_behind(line, origin, end);
    }
    put16(head, line->count);
    head[2] = (uint8_t)count_span_rows(line);
    put_float(head + 3, pen->x);
    put_float(head + 7, pen->y);
    return out;
}
