/* The library's call without proofs: same contract, plain C. README.md in the folder above says what for. */
#ifndef FLOOR_H
#define FLOOR_H

#include <stddef.h>
#include <stdint.h>

struct layout_result {
    uint32_t number; /* 0, or why the job is refused */
    uint32_t length; /* of the answer; 0 where it is refused */
};

struct layout_result floor_layout_text(const uint8_t *job, size_t job_len, uint8_t *answer, size_t answer_len);

#endif
