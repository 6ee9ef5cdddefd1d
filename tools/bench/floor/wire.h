/* Big-endian numbers and floats. A compiler makes one load or store of each. */
#ifndef WIRE_H
#define WIRE_H

#include <stdint.h>
#include <string.h>

static inline uint16_t get16(const uint8_t *p)
{
    return (uint16_t)(p[0] << 8 | p[1]);
}

static inline uint32_t get32(const uint8_t *p)
{
    return (uint32_t)p[0] << 24 | (uint32_t)p[1] << 16 | (uint32_t)p[2] << 8 | p[3];
}

static inline int16_t get_i16(const uint8_t *p)
{
    return (int16_t)get16(p);
}

static inline int32_t get_i32(const uint8_t *p)
{
    return (int32_t)get32(p);
}

static inline float get_float(const uint8_t *p)
{
    uint32_t bits = get32(p);
    float x;
    memcpy(&x, &bits, sizeof x);
    return x;
}

static inline void put16(uint8_t *p, unsigned n)
{
    uint8_t bytes[2] = {(uint8_t)(n >> 8), (uint8_t)n};
    memcpy(p, bytes, sizeof bytes);
}

static inline void put32(uint8_t *p, uint32_t n)
{
    uint8_t bytes[4] = {(uint8_t)(n >> 24), (uint8_t)(n >> 16), (uint8_t)(n >> 8), (uint8_t)n};
    memcpy(p, bytes, sizeof bytes);
}

static inline void put_float(uint8_t *p, float x)
{
    uint32_t bits;
    memcpy(&bits, &x, sizeof bits);
    put32(p, bits);
}

#endif
