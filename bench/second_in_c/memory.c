/*
 * What rustc's code asks the C library for. The kit's C library chooses instructions by the processor that it is on, and under the emulator
 * chooses some that count as many times as there are bytes; these are loops of sixteen bytes a store, on every machine the same. Four stores
 * a turn, as a C library has for the plainest x86-64, where a run zeroes its working table.
 */
typedef __SIZE_TYPE__ size_t;
typedef unsigned char block __attribute__((vector_size(16), aligned(1), may_alias));

void *memset(void *to, int byte, size_t bytes)
{
    unsigned char *at = to, *end = at + bytes;
    block filled = (block){0} + (unsigned char)byte;
    for (; (size_t)(end - at) >= 4 * sizeof filled; at += 4 * sizeof filled)
        for (int place = 0; place < 4; place++) ((block *)at)[place] = filled;
    while (at < end) *at++ = (unsigned char)byte;
    return to;
}

void *memcpy(void *restrict to, const void *restrict from, size_t bytes)
{
    unsigned char *at = to;
    for (size_t place = 0; place < bytes; place++) at[place] = ((const unsigned char *)from)[place];
    return to;
}

void *memmove(void *to, const void *from, size_t bytes)
{
    unsigned char *at = to;
    if (to < from) return memcpy(to, from, bytes);
    while (bytes--) at[bytes] = ((const unsigned char *)from)[bytes];
    return to;
}

int memcmp(const void *one, const void *other, size_t bytes)
{
    for (size_t place = 0; place < bytes; place++) {
        int difference = ((const unsigned char *)one)[place] - ((const unsigned char *)other)[place];
        if (difference) return difference;
    }
    return 0;
}

int bcmp(const void *one, const void *other, size_t bytes) { return memcmp(one, other, bytes); }
