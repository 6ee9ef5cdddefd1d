/*
 * Checks 1 to 6 in one walk. A count that does not fit ends it with 3. The other faults are noted, and the least of them counts: so each
 * check comes before the next over the whole job.
 */
#include "job.h"

enum { BAD_LENGTH = 1, BAD_VERSION, BAD_COUNT, BAD_FIELD, BAD_TEXT, BAD_SPAN };

struct walk {
    const uint8_t *at, *end;
    unsigned field, text, span; /* faults of 4, 5 and 6 */
};

/* Passes over so many bytes; NULL where the record ends before. */
static const uint8_t *take(struct walk *w, size_t bytes)
{
    const uint8_t *at = w->at;
    if ((size_t)(w->end - at) < bytes)
        return NULL;
    w->at = at + bytes;
    return at;
}

/* Zero of either sign, or a size from 2^-20 to 2^20. */
static unsigned bad_float(const uint8_t *p)
{
    uint32_t size = get32(p) & 0x7fffffff;
    return size != 0 && size - 0x35800000u > 0x49800000u - 0x35800000u;
}

/* Four zero bytes where there is no value. */
static unsigned bad_value(int present, const uint8_t *p)
{
    return present ? bad_float(p) : get32(p) != 0;
}

static unsigned bad_units(const uint8_t *p)
{
    return get32(p) + 65535u > 131070u;
}

static unsigned bad_size(const uint8_t *p)
{
    return get32(p) - 0x3d800000u > 0x45800000u - 0x3d800000u;
}

static int check_list(struct walk *w, struct list *list)
{
    const uint8_t *count = take(w, 2);
    if (count == NULL || (list->count = get16(count)) > MOST_LIST)
        return 0;
    if ((list->floats = take(w, 4 * (size_t)list->count)) == NULL)
        return 0;
    for (unsigned i = 0; i < list->count; i++)
        w->field |= bad_float(list->floats + 4 * (size_t)i);
    return 1;
}

static void check_glyphs(struct walk *w, const struct span *span, const struct chunk *chunk, unsigned fonts)
{
    const uint8_t *row = span->glyphs, *end = row + GLYPH_BYTES * (size_t)span->glyph_count;
    const uint8_t *text = chunk->text;
    unsigned length = chunk->text_length, field = 0, bad_text = 0;
    for (; row < end; row += GLYPH_BYTES) {
        unsigned index = get16(row + GLYPH_INDEX);
        field |= row[GLYPH_LENGTH] - 1u > 63u;
        field |= bad_units(row + GLYPH_DX);
        field |= bad_units(row + GLYPH_DY);
        field |= bad_units(row + GLYPH_WIDTH);
        field |= row[GLYPH_FONT] >= fonts;
        field |= row[GLYPH_UPRIGHT] > 1;
        bad_text |= index >= length || (text[index] & 0xc0) == 0x80;
    }
    w->field |= field;
    w->text |= bad_text;
}

static void check_shifts(struct walk *w, const struct span *span)
{
    for (unsigned i = 0; i < span->shift_count; i++) {
        const uint8_t *row = span->shifts + SHIFT_BYTES * i;
        w->field |= row[0] > NUMBER_SHIFT;
        w->field |= bad_value(row[0] == NUMBER_SHIFT, row + 1);
    }
}

/* The span's own fields, whose places README.md draws. */
static void read_span(struct walk *w, const uint8_t *p, struct span *span, unsigned fonts)
{
    span->start = get16(p);
    span->end = get16(p + 2);
    span->font = p[4];
    span->size = get_float(p + 5);
    span->letter = get_float(p + 9);
    span->word = get_float(p + 13);
    span->has_length = p[17];
    span->length = get_float(p + 18);
    span->adjust = p[22];
    span->dominant = p[23];
    span->alignment = p[24];
    span->decorations = p[25];
    span->shift_count = p[26];
    w->field |= span->font >= fonts && span->font != NO_FONT;
    w->field |= bad_size(p + 5) | bad_float(p + 9) | bad_float(p + 13);
    w->field |= span->has_length > 1;
    w->field |= bad_value(span->has_length == 1, p + 18);
    w->field |= span->adjust > BY_ADVANCES || span->dominant > 11 || span->alignment > 11;
    w->field |= span->decorations > 7;
}

static int check_span(struct walk *w, struct job *job, const struct chunk *chunk, struct span *span)
{
    const uint8_t *head = take(w, SPAN_BYTES), *count;
    if (head == NULL)
        return 0;
    read_span(w, head, span, job->font_count);
    if (span->shift_count > MOST_SHIFTS || (span->shifts = take(w, SHIFT_BYTES * (size_t)span->shift_count)) == NULL)
        return 0;
    check_shifts(w, span);
    if ((count = take(w, 2)) == NULL || (span->glyph_count = get16(count)) > MOST_GLYPHS)
        return 0;
    if ((span->glyphs = take(w, GLYPH_BYTES * (size_t)span->glyph_count)) == NULL)
        return 0;
    w->field |= span->font == NO_FONT && span->glyph_count != 0;
    job->stretches |= span->has_length == 1 && span->adjust == BY_GLYPHS;
    check_glyphs(w, span, chunk, job->font_count);
    return 1;
}

static int check_spans(struct walk *w, struct job *job, struct chunk *chunk)
{
    struct span *span = job->spans + job->span_count;
    unsigned before = 0;
    chunk->spans = span;
    for (unsigned i = 0; i < chunk->span_count; i++, span++) {
        if (!check_span(w, job, chunk, span))
            return 0;
        w->span |= span->start < before || span->end < span->start || span->end > chunk->text_length;
        before = span->end;
    }
    job->span_count += chunk->span_count;
    return 1;
}

static int check_chunk(struct walk *w, struct job *job, struct chunk *chunk)
{
    const uint8_t *head = take(w, CHUNK_BYTES), *count;
    int characters;
    if (head == NULL || (chunk->text_length = get16(head + 11)) > MOST_TEXT)
        return 0;
    chunk->head = head;
    if ((chunk->text = take(w, chunk->text_length)) == NULL)
        return 0;
    if ((count = take(w, 1)) == NULL || (chunk->span_count = *count) > MOST_SPANS)
        return 0;
    w->field |= head[0] > 3 || head[9] > 2 || head[10] != 0;
    w->field |= bad_value(head[0] & HAS_X, head + 1) | bad_value(head[0] & HAS_Y, head + 5);
    characters = utf8_characters(chunk->text, chunk->text_length);
    w->text |= characters < 0;
    chunk->characters = (unsigned)characters;
    return check_spans(w, job, chunk);
}

static int check_fonts(struct walk *w, struct job *job)
{
    const uint8_t *head = take(w, 2);
    if (head == NULL || (job->font_count = head[1]) > MOST_FONTS)
        return 0;
    job->mode = head[0];
    w->field |= job->mode > TOP_TO_BOTTOM;
    if ((job->fonts = take(w, FONT_BYTES * (size_t)job->font_count)) == NULL)
        return 0;
    for (unsigned i = 0; i < job->font_count; i++) {
        const uint8_t *font = job->fonts + FONT_BYTES * i;
        w->field |= get16(font) == 0 || get16(font + 6) == 0 || get16(font + 10) == 0;
    }
    return 1;
}

static int check_chunks(struct walk *w, struct job *job)
{
    const uint8_t *count = take(w, 1);
    if (count == NULL || (job->chunk_count = *count) > MOST_CHUNKS)
        return 0;
    for (unsigned i = 0; i < job->chunk_count; i++)
        if (!check_chunk(w, job, &job->chunks[i]))
            return 0;
    return w->at == w->end;
}

unsigned check_job(const uint8_t *bytes, size_t length, struct job *job)
{
    struct walk w = {bytes, bytes + length, 0, 0, 0};
    if (length < 5 || length > MOST_BYTES || get32(bytes) != length - 4)
        return BAD_LENGTH;
    if (bytes[4] != 1)
        return BAD_VERSION;
    w.at += 5;
    job->bytes = bytes;
    job->span_count = 0;
    job->stretches = 0;
    if (!check_fonts(&w, job) || !check_list(&w, &job->dx) || !check_list(&w, &job->dy))
        return BAD_COUNT;
    if (!check_list(&w, &job->rotate) || !check_chunks(&w, job))
        return BAD_COUNT;
    return w.field ? BAD_FIELD : w.text ? BAD_TEXT : w.span ? BAD_SPAN : 0;
}
