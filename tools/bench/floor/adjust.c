/* Step 6: spans brought to their text lengths, all in one walk, since no two spans cover one cluster. */
#include "steps.h"

enum { NO_WIDTH = 9 };

struct total {
    float sum, amount; /* what the span's clusters come to, and what each of them gets */
    unsigned count;
};

/* Of clusters with one byte index only the first takes part. */
static void mark_first(const struct line *line, uint8_t *takes_part)
{
    uint64_t seen[MOST_TEXT / 64];
    memset(seen, 0, (line->chunk->text_length + 63) / 64 * sizeof *seen);
    for (unsigned i = 0; i < line->count; i++) {
        unsigned index = line->clusters[i].index;
        uint64_t bit = (uint64_t)1 << index % 64;
        takes_part[i] = !(seen[index / 64] & bit);
        seen[index / 64] |= bit;
    }
}

static void sum_up(const struct line *line, const uint8_t *takes_part, struct total *totals)
{
    for (unsigned i = 0; i < line->count; i++) {
        const struct cluster *c = &line->clusters[i];
        struct total *total = &totals[c->span];
        if (!takes_part[i])
            continue;
        total->sum += line->chunk->spans[c->span].adjust == BY_ADVANCES ? c->advance : c->width;
        total->count++;
    }
}

/* What each cluster of the span gets; 9 where nothing can be stretched. */
static unsigned share_out(const struct span *span, struct total *total)
{
    total->amount = 0.0f;
    if (!span->has_length || total->count == 0)
        return 0;
    if (span->adjust != BY_GLYPHS) {
        if (total->count > 1)
            total->amount = (span->length - total->sum) / (float)(total->count - 1);
        return 0;
    }
    /* no width is below zero, so that a sum of 0 has none that is not */
    if (total->sum == 0.0f)
        return NO_WIDTH;
    total->amount = span->length / total->sum;
    return 0;
}

static void give(struct cluster *c, const struct span *span, float amount)
{
    if (span->adjust != BY_GLYPHS) {
        c->advance = (span->adjust == BY_ADVANCES ? c->advance : c->width) + amount;
        c->spacing = amount;
    } else if (!(amount < 0.001f)) {
        c->scale = amount;
        c->flags |= SCALED;
    }
}

unsigned adjust_lengths(struct line *line)
{
    const struct span *spans = line->chunk->spans;
    struct total totals[MOST_SPANS];
    uint8_t takes_part[MOST_MERGED];
    unsigned wanted = 0;
    for (unsigned i = 0; i < line->chunk->span_count; i++) {
        wanted |= spans[i].has_length;
        totals[i].sum = 0.0f;
        totals[i].count = 0;
    }
    if (!wanted)
        return 0;
    mark_first(line, takes_part);
    sum_up(line, takes_part, totals);
    for (unsigned i = 0; i < line->chunk->span_count; i++)
        if (share_out(&spans[i], &totals[i]))
            return NO_WIDTH;
    for (unsigned i = 0; i < line->count; i++) {
        struct cluster *c = &line->clusters[i];
        if (takes_part[i] && spans[c->span].has_length)
            give(c, &spans[c->span], totals[c->span].amount);
    }
    return 0;
}
