/* Steps 3 to 5: writing mode, letter spacing, word spacing. */
#include "steps.h"

#define TAG(a, b, c, d) ((uint32_t)a << 24 | (uint32_t)b << 16 | (uint32_t)c << 8 | (uint32_t)d)

/* Letters that hang together take no letter spacing. */
static int is_joined(uint32_t tag)
{
    switch (tag) {
    case TAG('A', 'r', 'a', 'b'):
    case TAG('S', 'y', 'r', 'c'):
    case TAG('N', 'k', 'o', 'o'):
    case TAG('M', 'a', 'n', 'i'):
    case TAG('P', 'h', 'l', 'p'):
    case TAG('M', 'a', 'n', 'd'):
    case TAG('M', 'o', 'n', 'g'):
    case TAG('P', 'h', 'a', 'g'):
    case TAG('D', 'e', 'v', 'a'):
    case TAG('B', 'e', 'n', 'g'):
    case TAG('G', 'u', 'r', 'u'):
    case TAG('M', 'o', 'd', 'i'):
    case TAG('S', 'h', 'r', 'd'):
    case TAG('S', 'y', 'l', 'o'):
    case TAG('T', 'i', 'r', 'h'):
    case TAG('O', 'g', 'a', 'm'):
    case TAG('R', 'o', 'h', 'g'):
        return 1;
    default:
        return 0;
    }
}

/* U+0020, 00A0, 1361, 10100, 10101, 1039F, 1091F, by their bytes. The text is UTF-8. */
static int separates_words(const uint8_t *p)
{
    if (p[0] < 0x80)
        return p[0] == ' ';
    if (p[0] == 0xc2)
        return p[1] == 0xa0;
    if (p[0] == 0xe1)
        return p[1] == 0x8d && p[2] == 0xa1;
    if (p[0] != 0xf0 || p[1] != 0x90)
        return 0;
    if (p[2] == 0x84)
        return p[3] == 0x80 || p[3] == 0x81;
    return (p[2] == 0x8e || p[2] == 0xa4) && p[3] == 0x9f;
}

static void turn_clusters(struct line *line)
{
    for (struct cluster *c = line->clusters, *end = c + line->count; c < end; c++) {
        c->nudge = (c->ascent + c->descent) / 2.0f;
        c->flags = c->upright ? UPRIGHT : SIDEWAYS;
        if (c->upright) {
            c->ascent = c->width / 2.0f;
            c->descent = -c->width / 2.0f;
        }
    }
}

static void space_letters(struct line *line)
{
    struct cluster *c = line->clusters, *last = c + line->count - 1;
    uint32_t tag = 0; /* of the cluster before: neighbours mostly share it */
    int joined = 0;
    for (; c <= last; c++) {
        if (c->tag != tag) {
            tag = c->tag;
            joined = is_joined(tag);
        }
        if (joined)
            continue;
        if (c != last)
            c->advance += line->chunk->spans[c->span].letter;
        if (!(c->advance > 0.0f)) {
            c->width = c->advance = 0.0f;
            c->glyphs = 0;
            c->flags |= COLLAPSED;
        }
    }
}

static void space_words(struct line *line)
{
    const uint8_t *text = line->chunk->text;
    for (struct cluster *c = line->clusters, *end = c + line->count; c < end; c++)
        if (separates_words(text + c->index))
            c->advance += line->chunk->spans[c->span].word;
}

void space_clusters(struct line *line)
{
    const struct chunk *chunk = line->chunk;
    int letter = 0, word = 0;
    for (unsigned i = 0; i < chunk->span_count; i++) {
        letter |= chunk->spans[i].letter != 0.0f;
        word |= chunk->spans[i].word != 0.0f;
    }
    if (line->job->mode == TOP_TO_BOTTOM)
        turn_clusters(line);
    if (letter && line->count != 0)
        space_letters(line);
    if (word)
        space_words(line);
}
