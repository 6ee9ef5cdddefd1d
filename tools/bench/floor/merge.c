/* Step 1: the glyphs of a chunk's spans as one list, of places in the record. */
#include "job.h"

enum { PAST_END = 7, TOO_MANY = 8 };

/* So many glyphs may be inserted or removed before the table is made anew. */
enum { MOST_SLACK = 32 };

struct merge {
    const uint8_t *bytes;
    uint16_t *list;
    unsigned count;
    unsigned text_length;
    unsigned slack;                 /* glyphs inserted or removed since the table was made */
    uint16_t first[MOST_TEXT];      /* of each byte index: none of its glyphs stands before this place less the slack */
    uint64_t replaced[MOST_MERGED / 64]; /* places that the span has replaced; they are not moved */
};

static unsigned index_at(const struct merge *m, unsigned place)
{
    return get16(m->bytes + m->list[place] + GLYPH_INDEX);
}

static void make_table(struct merge *m)
{
    for (unsigned i = 0; i < m->text_length; i++)
        m->first[i] = (uint16_t)m->count;
    for (unsigned i = m->count; i-- > 0;)
        m->first[index_at(m, i)] = (uint16_t)i;
    m->slack = 0;
}

static void moved(struct merge *m, unsigned by)
{
    m->slack += by;
    if (m->slack > MOST_SLACK)
        make_table(m);
}

/* The place of the first glyph of this byte index; the count where there is none. */
static unsigned find(const struct merge *m, unsigned index)
{
    unsigned i = m->first[index] > m->slack ? m->first[index] - m->slack : 0;
    while (i < m->count && index_at(m, i) != index)
        i++;
    return i;
}

/* The glyphs after `place`, so many, are gone. */
static unsigned remove_after(struct merge *m, unsigned place, unsigned gone)
{
    if (place + gone >= m->count)
        return PAST_END;
    m->count -= gone;
    memmove(m->list + place + 1, m->list + place + 1 + gone, (m->count - place - 1) * sizeof *m->list);
    moved(m, gone);
    return 0;
}

/* So many rows from `row` on stand after `place`. */
static unsigned insert_after(struct merge *m, unsigned place, unsigned row, unsigned rows)
{
    uint16_t *to = m->list + place + 1;
    if (m->count + rows > MOST_MERGED)
        return TOO_MANY;
    memmove(to + rows, to, (m->count - place - 1) * sizeof *to);
    m->count += rows;
    for (unsigned i = 0; i < rows; i++, row += GLYPH_BYTES) {
        unsigned index = get16(m->bytes + row + GLYPH_INDEX);
        to[i] = (uint16_t)row;
        if (place + 1 + i < m->first[index])
            m->first[index] = (uint16_t)(place + 1 + i);
    }
    moved(m, rows);
    return 0;
}

/* The glyph of `row`, behind which `left` more follow, replaces the one at `place`. How many of these are used up goes to `used`. */
static unsigned replace(struct merge *m, unsigned place, unsigned row, unsigned left, unsigned *used)
{
    unsigned old = m->bytes[m->list[place] + GLYPH_LENGTH];
    unsigned new = m->bytes[row + GLYPH_LENGTH];
    m->list[place] = (uint16_t)row;
    *used = 0;
    if (old < new)
        return remove_after(m, place, new - 1);
    if (old == new)
        return 0;
    *used = old - 1 < left ? old - 1 : left;
    return insert_after(m, place, row + GLYPH_BYTES, *used);
}

static unsigned merge_span(struct merge *m, const struct span *span)
{
    unsigned row = (unsigned)(span->glyphs - m->bytes), refused = 0, used;
    make_table(m);
    memset(m->replaced, 0, sizeof m->replaced);
    for (unsigned left = span->glyph_count; left > 0 && !refused; left -= 1 + used, row += GLYPH_BYTES * (1 + used)) {
        unsigned index = get16(m->bytes + row + GLYPH_INDEX), place;
        used = 0;
        if (index < span->start || index >= span->end)
            continue;
        place = find(m, index);
        if (place == m->count || m->replaced[place / 64] >> place % 64 & 1)
            continue;
        m->replaced[place / 64] |= (uint64_t)1 << place % 64;
        refused = replace(m, place, row, left - 1, &used);
    }
    return refused;
}

/* While the list is empty, a span's whole glyph list becomes it. */
static void take_list(struct merge *m, const struct span *span)
{
    unsigned row = (unsigned)(span->glyphs - m->bytes);
    for (unsigned i = 0; i < span->glyph_count; i++, row += GLYPH_BYTES)
        m->list[i] = (uint16_t)row;
    m->count = span->glyph_count;
}

static unsigned merge_chunk(struct merge *m, struct chunk *chunk)
{
    unsigned refused = 0;
    m->count = 0;
    m->text_length = chunk->text_length;
    for (unsigned i = 0; i < chunk->span_count && !refused; i++) {
        const struct span *span = &chunk->spans[i];
        if (m->count == 0)
            take_list(m, span);
        else if (span->glyph_count != 0)
            refused = merge_span(m, span);
    }
    chunk->merged = m->list;
    chunk->merged_count = m->count;
    return refused;
}

unsigned merge_chunks(struct job *job)
{
    struct merge m;
    m.bytes = job->bytes;
    m.list = job->merged;
    for (unsigned i = 0; i < job->chunk_count; i++) {
        unsigned refused = merge_chunk(&m, &job->chunks[i]);
        if (refused) {
            job->chunk_count = i;
            return refused;
        }
        m.list += m.count;
    }
    return 0;
}
