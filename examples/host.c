/* SPDX-License-Identifier: Apache-2.0 OR MIT */
/*
 * A program that draws, in small: it builds the worked label's job, has it laid out, and prints where each glyph and each underline goes.
 * Then it asks how wide a column is in which this label and two others come by, and shows what is refused. `examples/run` builds and runs it.
 */
#include <math.h>
#include <stdio.h>
#include <string.h>

#include "../include/layout.h"

/* ---- what this host knows of its label, as a drawing program would: the font, the text, the spans and what the shaper gave */

enum { UNITS_PER_EM = 2048, GLYPHS = 3 };
static const char TEXT[] = "A B";
static const float FONT_SIZE = 16;
static const int WIDTHS[GLYPHS] = {1280, 512, 1280};

/* ---- a job is written field by field, the highest byte first */

struct writer {
    uint8_t bytes[1024];
    size_t length;
};

static void put(struct writer *w, uint32_t value, int width) {
    while (width-- > 0) w->bytes[w->length++] = (uint8_t)(value >> (8 * width));
}

static void put_float(struct writer *w, float value) {
    uint32_t bits;
    memcpy(&bits, &value, sizeof bits);
    put(w, bits, 4);
}

static void put_font(struct writer *w) {
    put(w, UNITS_PER_EM, 2);
    put(w, 1536, 2);           /* ascent */
    put(w, (uint32_t)-512, 2); /* descent */
    put(w, 1024, 2);           /* x-height */
    put(w, (uint32_t)-256, 2); /* underline position */
    put(w, 128, 2);            /* underline thickness */
    put(w, 0, 2);              /* line-through */
    put(w, 0, 2);              /* subscript */
    put(w, 640, 2);            /* superscript */
}

static void put_glyph(struct writer *w, int byte_index, int width) {
    put(w, 0, 4); /* id */
    put(w, (uint32_t)byte_index, 2);
    put(w, 1, 1); /* cluster length */
    put(w, 0, 4); /* dx */
    put(w, 0, 4); /* dy */
    put(w, (uint32_t)width, 4);
    put(w, 0, 1); /* font */
    for (const char *tag = "Latn"; *tag; tag++) put(w, (uint8_t)*tag, 1);
    put(w, 0, 1); /* orientation: sideways */
}

static void put_span(struct writer *w) {
    put(w, 0, 2);            /* start */
    put(w, strlen(TEXT), 2); /* end */
    put(w, 0, 1);            /* font */
    put_float(w, FONT_SIZE);
    put_float(w, 1); /* letter spacing */
    put_float(w, 2); /* word spacing */
    put(w, 0, 1);    /* no text length .. */
    put(w, 0, 4);    /* .. so four zero bytes */
    put(w, LAYOUT_ADJUST_SPACING, 1);
    put(w, 0, 1);    /* dominant baseline */
    put(w, 0, 1);    /* alignment baseline */
    put(w, 1, 1);    /* decorations: under */
    put(w, 0, 1);    /* no shifts */
    put(w, GLYPHS, 2);
    for (int i = 0; i < GLYPHS; i++) put_glyph(w, i, WIDTHS[i]);
}

static void put_chunk(struct writer *w) {
    put(w, 3, 1); /* x and y are given */
    put_float(w, 100);
    put_float(w, 50);
    put(w, 2, 1); /* anchor: end */
    put(w, 0, 1); /* flow */
    put(w, strlen(TEXT), 2);
    for (const char *c = TEXT; *c; c++) put(w, (uint8_t)*c, 1);
    put(w, 1, 1); /* spans */
    put_span(w);
}

static void build_label(struct writer *w, uint32_t version) {
    w->length = 0;
    put(w, 0, 4); /* the length of what follows, which is written last */
    size_t start = w->length;
    put(w, version, 1);
    put(w, 0, 1); /* left to right */
    put(w, 1, 1); /* fonts */
    put_font(w);
    for (int list = 0; list < 3; list++) put(w, 0, 2); /* no dx, dy or rotate */
    put(w, 1, 1);                                      /* chunks */
    put_chunk(w);
    size_t end = w->length;
    w->length = 0;
    put(w, (uint32_t)(end - start), 4);
    w->length = end;
}

/* ---- an answer is read the same way */

static uint32_t number_at(const uint8_t *row, int at, int width) {
    uint32_t value = 0;
    for (int i = 0; i < width; i++) value = value << 8 | row[at + i];
    return value;
}

static float float_at(const uint8_t *row, int at) {
    uint32_t bits = number_at(row, at, 4);
    float value;
    memcpy(&value, &bits, sizeof value);
    return value;
}

/* ---- transforms: each step is applied before those that are already in `t`, as layout.h says */

struct transform {
    double a, b, c, d, x, y; /* (px, py) goes to (a px + c py + x, b px + d py + y) */
};

static struct transform translate(struct transform t, double x, double y) {
    t.x += t.a * x + t.c * y;
    t.y += t.b * x + t.d * y;
    return t;
}

static struct transform scale(struct transform t, double x, double y) {
    t.a *= x, t.b *= x, t.c *= y, t.d *= y;
    return t;
}

static struct transform rotate(struct transform t, double degrees) {
    double angle = degrees * acos(-1) / 180, cosine = cos(angle), sine = sin(angle);
    struct transform r = t;
    r.a = t.a * cosine + t.c * sine, r.b = t.b * cosine + t.d * sine;
    r.c = t.c * cosine - t.a * sine, r.d = t.d * cosine - t.b * sine;
    return r;
}

static struct transform rotate_about(struct transform t, double degrees, double x, double y) {
    return translate(rotate(translate(t, x, y), degrees), -x, -y);
}

/* steps 1 and 2 */
static struct transform of_span(const uint8_t *span, int top_to_bottom) {
    struct transform t = {1, 0, 0, 1, 0, 0};
    float x = float_at(span, LAYOUT_ORIGIN_X_AT), y = float_at(span, LAYOUT_ORIGIN_Y_AT);
    if (top_to_bottom) t = rotate_about(t, 90, x, y);
    return translate(translate(t, x, y), 0, float_at(span, LAYOUT_BASELINE_SHIFT_AT));
}

/* steps 3 to 6 */
static struct transform of_cluster(struct transform t, const uint8_t *cluster) {
    int flags = cluster[LAYOUT_FLAGS_AT];
    if (flags & LAYOUT_SIDEWAYS) t = translate(t, 0, float_at(cluster, LAYOUT_NUDGE_AT));
    if (flags & LAYOUT_SCALED) t = scale(t, float_at(cluster, LAYOUT_SCALE_AT), 1);
    t = translate(t, float_at(cluster, LAYOUT_SHIFT_X_AT), float_at(cluster, LAYOUT_SHIFT_Y_AT));
    if (flags & LAYOUT_ROTATED) t = rotate(t, float_at(cluster, LAYOUT_ANGLE_AT));
    return t;
}

/* step 7 */
static struct transform upright(struct transform t, const uint8_t *cluster) {
    if (!(cluster[LAYOUT_FLAGS_AT] & LAYOUT_UPRIGHT)) return t;
    float nudge = float_at(cluster, LAYOUT_NUDGE_AT);
    return rotate_about(translate(t, 0, nudge), -90, float_at(cluster, LAYOUT_ASCENT_AT), -nudge);
}

/* ---- the walk over an answer */

/* This label has one span, left to right, so it covers every cluster. A host with more finds the one whose range has the byte index. */
static void print_glyphs(const uint8_t *cluster, const uint8_t *span) {
    int byte_index = (int)number_at(cluster, LAYOUT_BYTE_INDEX_AT, 2);
    int count = (int)number_at(cluster, LAYOUT_GLYPH_COUNT_AT, 2);
    double size = FONT_SIZE / UNITS_PER_EM;
    struct transform t = scale(upright(of_cluster(of_span(span, 0), cluster), cluster), size, size);
    for (int i = 0; i < count; i++) {
        const uint8_t *glyph = cluster + LAYOUT_CLUSTER_BYTES(i);
        struct transform place = translate(t, float_at(glyph, LAYOUT_GLYPH_X_AT), float_at(glyph, LAYOUT_GLYPH_Y_AT));
        printf("'%c': glyph %u of font %u at (%g, %g), a font unit is %g\n", TEXT[byte_index],
               (unsigned)number_at(glyph, LAYOUT_GLYPH_ID_AT, 4), glyph[LAYOUT_GLYPH_FONT_AT], place.x, place.y, place.a);
    }
}

static const uint8_t *after_cluster(const uint8_t *cluster) {
    return cluster + LAYOUT_CLUSTER_BYTES(number_at(cluster, LAYOUT_GLYPH_COUNT_AT, 2));
}

static const uint8_t *cluster_row(const uint8_t *chunk, uint32_t index) {
    const uint8_t *row = chunk + LAYOUT_CHUNK_HEAD_BYTES;
    while (index-- > 0) row = after_cluster(row);
    return row;
}

static void print_underlines(const uint8_t *chunk, const uint8_t *span) {
    int count = (int)number_at(span, LAYOUT_RUN_COUNT_AT, 2);
    for (int i = 0; i < count; i++) {
        const uint8_t *run = span + LAYOUT_SPAN_BYTES(i);
        const uint8_t *first = cluster_row(chunk, number_at(run, LAYOUT_FIRST_CLUSTER_AT, 2));
        struct transform t = translate(of_cluster(of_span(span, 0), first), 0, float_at(span, LAYOUT_UNDER_OFFSET_AT));
        printf("underline from (%g, %g), %g long, %g thick\n", t.x, t.y, float_at(run, LAYOUT_RUN_WIDTH_AT),
               float_at(span, LAYOUT_THICKNESS_AT));
    }
}

/* This label has one chunk. The next one would stand behind its last span row. */
static void print_chunk(const uint8_t *chunk) {
    uint32_t clusters = number_at(chunk, LAYOUT_CLUSTER_COUNT_AT, 2);
    const uint8_t *span = cluster_row(chunk, clusters);
    for (uint32_t i = 0; i < clusters; i++) print_glyphs(cluster_row(chunk, i), span);
    print_underlines(chunk, span);
    printf("the pen is then at (%g, %g)\n", float_at(chunk, LAYOUT_PEN_X_AT), float_at(chunk, LAYOUT_PEN_Y_AT));
}

/* ---- the width of a column */

/* From the chunk's leftmost cluster to the end of its rightmost. */
static float extent_of(const uint8_t *chunk) {
    uint32_t clusters = number_at(chunk, LAYOUT_CLUSTER_COUNT_AT, 2);
    float left = INFINITY, right = -INFINITY;
    for (uint32_t i = 0; i < clusters; i++) {
        const uint8_t *cluster = cluster_row(chunk, i);
        float start = float_at(cluster, LAYOUT_SHIFT_X_AT);
        left = fminf(left, start);
        right = fmaxf(right, start + float_at(cluster, LAYOUT_ADVANCE_AT) - float_at(cluster, LAYOUT_SPACING_AT));
    }
    return clusters ? right - left : 0;
}

/* Two plots are in view. Labels come by: one of 36, the worked one, one of 20, and one that the host could not measure. */
static void print_column(float extent) {
    const float extents[] = {36, extent, 20, NAN};
    uint32_t window[COLUMN_WINDOW_WORDS];
    column_open(window, COLUMN_WINDOW_WORDS, 2);
    for (size_t i = 0; i < sizeof extents / sizeof *extents; i++) {
        struct column_width shown = column_add(window, COLUMN_WINDOW_WORDS, extents[i]);
        if (shown.number == LAYOUT_DONE)
            printf("a label of %g: the column is %g wide\n", extents[i], shown.width);
        else
            printf("a label that is refused with %u: the column stays\n", (unsigned)shown.number);
    }
}

static void lay_out(const struct writer *job) {
    static uint8_t answer[LAYOUT_ANSWER_MAX];
    struct layout_result result = layout_text(job->bytes, job->length, answer, sizeof answer);
    if (result.number != LAYOUT_DONE) {
        printf("refused with %u\n", (unsigned)result.number);
        return;
    }
    printf("an answer of %u bytes\n", (unsigned)result.length);
    print_chunk(answer + LAYOUT_CHUNKS_AT);
    print_column(extent_of(answer + LAYOUT_CHUNKS_AT));
}

int main(void) {
    struct writer job;
    build_label(&job, LAYOUT_VERSION);
    lay_out(&job);
    build_label(&job, LAYOUT_VERSION + 1);
    lay_out(&job);
    return 0;
}
