/* UTF-8 as the Unicode standard has it: no surrogates, no overlong forms, nothing past U+10FFFF. */
#include "job.h"

static int continues(uint8_t byte)
{
    return (byte & 0xc0) == 0x80;
}

/* Bytes of the character at `p`, of which `left` are there; 0 where it is none. */
static size_t character_bytes(const uint8_t *p, size_t left)
{
    uint8_t a = p[0];
    if (a < 0x80)
        return 1;
    if (a < 0xc2 || left < 2 || !continues(p[1]))
        return 0;
    if (a < 0xe0)
        return 2;
    if (left < 3 || !continues(p[2]))
        return 0;
    if (a < 0xf0) {
        int overlong = a == 0xe0 && p[1] < 0xa0;
        int surrogate = a == 0xed && p[1] >= 0xa0;
        return overlong || surrogate ? 0 : 3;
    }
    if (a > 0xf4 || left < 4 || !continues(p[3]))
        return 0;
    return (a == 0xf0 && p[1] < 0x90) || (a == 0xf4 && p[1] >= 0x90) ? 0 : 4;
}

/* Eight bytes of ASCII at a time, as most text is. */
static size_t ascii_bytes(const uint8_t *text, size_t length)
{
    size_t i = 0;
    uint64_t eight;
    for (; i + 8 <= length; i += 8) {
        memcpy(&eight, text + i, 8);
        if (eight & 0x8080808080808080u)
            break;
    }
    while (i < length && text[i] < 0x80)
        i++;
    return i;
}

int utf8_characters(const uint8_t *text, size_t length)
{
    size_t i = ascii_bytes(text, length);
    int count = (int)i;
    while (i < length) {
        size_t bytes = character_bytes(text + i, length - i);
        if (bytes == 0)
            return -1;
        i += bytes;
        count++;
    }
    return count;
}
