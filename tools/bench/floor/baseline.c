/* Step 8: how far a span's baseline is moved. */
#include "steps.h"

/* The alignment baselines, in the Rust's order. */
enum { AUTO, BASELINE, BEFORE_EDGE, TEXT_BEFORE_EDGE, MIDDLE, CENTRAL };
enum { AFTER_EDGE = 6, TEXT_AFTER_EDGE, IDEOGRAPHIC, ALPHABETIC, HANGING, MATHEMATICAL };

/* A dominant baseline as an alignment. */
static const uint8_t aligned[] = {AUTO,    AUTO,         AUTO,    AUTO,   IDEOGRAPHIC,     ALPHABETIC,
                                  HANGING, MATHEMATICAL, CENTRAL, MIDDLE, TEXT_AFTER_EDGE, TEXT_BEFORE_EDGE};

static float align(const uint8_t *font, float scale, unsigned alignment)
{
    float ascent = font_ascent(font, scale), descent = font_descent(font, scale);
    switch (alignment) {
    case BEFORE_EDGE:
    case TEXT_BEFORE_EDGE:
        return ascent;
    case MIDDLE:
        return (float)get16(font + 6) * scale * 0.5f;
    case CENTRAL:
        return ascent - (ascent - descent) * 0.5f;
    case AFTER_EDGE:
    case TEXT_AFTER_EDGE:
    case IDEOGRAPHIC:
        return descent;
    case HANGING:
        return ascent * 0.8f;
    case MATHEMATICAL:
        return ascent * 0.5f;
    default:
        return 0.0f;
    }
}

/* The shifts, from the last to the first. */
static float sum_shifts(const struct span *span, const uint8_t *font, float scale)
{
    float sum = 0.0f;
    for (unsigned i = span->shift_count; i-- > 0;) {
        const uint8_t *row = span->shifts + SHIFT_BYTES * i;
        if (row[0] == 1)
            sum -= (float)get_i16(font + 14) * scale;
        else if (row[0] == 2)
            sum += (float)get_i16(font + 16) * scale;
        else if (row[0] == NUMBER_SHIFT)
            sum += get_float(row + 1);
    }
    return sum;
}

float resolve_baseline(const struct job *job, const struct span *span)
{
    const uint8_t *font = font_row(job, span->font);
    float scale = font_scale(font, span->size);
    float shift = -sum_shifts(span, font, scale);
    if (job->mode == TOP_TO_BOTTOM)
        return shift;
    if (span->alignment == AUTO || span->alignment == BASELINE)
        return shift + align(font, scale, aligned[span->dominant]);
    return shift + align(font, scale, span->alignment);
}
