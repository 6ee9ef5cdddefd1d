/* The call: nothing is written before it is known that nothing refuses. */
#include "floor.h"
#include "steps.h"

enum { ANSWER_HEAD = 6, NO_ROOM = 10 };

unsigned lay_chunk(struct line *line, const struct job *job, const struct chunk *chunk, unsigned offset)
{
    line->job = job;
    line->chunk = chunk;
    line->offset = offset;
    form_clusters(line);
    if (line->count == 0)
        return 0;
    space_clusters(line);
    if (adjust_lengths(line))
        return 9;
    place_clusters(line);
    return 0;
}

/* Lays the chunks out for 9 and for the answer's length alone. */
static unsigned try_chunks(struct line *line, const struct job *job, size_t *length)
{
    unsigned offset = 0;
    *length = ANSWER_HEAD;
    for (unsigned i = 0; i < job->chunk_count; i++) {
        unsigned refused = lay_chunk(line, job, &job->chunks[i], offset);
        if (refused)
            return refused;
        *length += measure_chunk(line);
        offset += job->chunks[i].characters;
    }
    return 0;
}

static size_t write_chunks(struct line *line, const struct job *job, uint8_t *answer)
{
    struct point pen = {0.0f, 0.0f};
    uint8_t *out = answer + ANSWER_HEAD;
    unsigned offset = 0;
    for (unsigned i = 0; i < job->chunk_count; i++) {
        lay_chunk(line, job, &job->chunks[i], offset);
        out = write_chunk(out, line, &pen);
        offset += job->chunks[i].characters;
    }
    put32(answer, (uint32_t)(out - answer - 4));
    answer[4] = 1;
    answer[5] = (uint8_t)job->chunk_count;
    return (size_t)(out - answer);
}

/* The number of the refusal, or 0. An answer has at most 64 / 25 of its job's bytes. */
static unsigned refusal(struct line *line, struct job *job, size_t job_len, size_t answer_len)
{
    unsigned merged = merge_chunks(job), stretched;
    int fits = (64 * job_len + 24) / 25 <= answer_len;
    size_t length;
    if (fits && !job->stretches)
        return merged;
    /* 9 of an earlier chunk comes before 7 and 8 of a later one */
    stretched = try_chunks(line, job, &length);
    if (stretched || merged)
        return stretched ? stretched : merged;
    return length > answer_len ? NO_ROOM : 0;
}

struct layout_result floor_layout_text(const uint8_t *bytes, size_t job_len, uint8_t *answer, size_t answer_len)
{
    struct layout_result result = {0, 0};
    struct job job;
    struct line line;
    result.number = check_job(bytes, job_len, &job);
    if (result.number == 0)
        result.number = refusal(&line, &job, job_len, answer_len);
    if (result.number == 0)
        result.length = (uint32_t)write_chunks(&line, &job, answer);
    return result;
}
