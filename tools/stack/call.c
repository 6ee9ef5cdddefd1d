// The whole call as a probe: a job in, an answer into a buffer that stands off the stack. The probe has no frame: what is seen is what the call
// takes below its caller, the return address counted, as tools/stack/bound counts it.
#include <stddef.h>
#include <stdint.h>

struct layout_result { uint32_t number; uint32_t length; };
struct layout_result layout_text(const uint8_t *job, size_t job_len, uint8_t *answer, size_t answer_len);

static uint8_t answer[1 << 18];

static inline __attribute__((always_inline)) unsigned char probe(const unsigned char *bytes, size_t length) {
    return layout_text(bytes, length, answer, sizeof answer).number;
}

#include "stack.c"
