/* The MELP frame in C: parameter sets, the order of the bits and the four words. */
#ifndef MELP_H
#define MELP_H

#include <stdbool.h>
#include <stddef.h>
#include <stdint.h>

enum { FRAME_BYTES = 7, FRAME_BITS = 54, SET_BYTES = 11 };

/* A parameter set; the fields from `pitch` on count only where it is voiced. */
struct parameter_set {
    bool voiced;
    uint8_t lsf[4];
    uint8_t g2;
    uint8_t g1;
    uint8_t pitch;
    uint8_t bandpass;
    uint8_t fourier;
    uint8_t aperiodic;
};

/* Whether every field is in its range. Bandpass bits 0001 are, since a receiver may hear them. */
static inline bool set_in_range(const struct parameter_set *set)
{
    if (set->lsf[0] > 127 || set->lsf[1] > 63 || set->lsf[2] > 63 || set->lsf[3] > 63)
        return false;
    if (set->g2 > 31 || set->g1 > 7)
        return false;
    return !set->voiced || (set->pitch <= 98 && set->bandpass <= 15 && set->aperiodic <= 1);
}

/* Where each field starts among the logical bits. */
enum {
    WORD_A = 0,
    WORD_B = 8,
    WORD_C = 14,
    WORD_D = 21,
    PITCH_CODE = 28,
    LSF_2 = 35,
    LSF_3 = 41,
    LSF_4 = 47,
    SYNC = 53
};

/* The number that `count` logical bits from `first` on spell; bit 0 is the most significant of 54. */
static inline unsigned field(uint64_t bits, unsigned first, unsigned count)
{
    return (unsigned)(bits >> (FRAME_BITS - first - count)) & ((1u << count) - 1);
}

/* Place of each logical bit: 7 times its number, modulo 54. */
static const uint8_t PLACE[FRAME_BITS] = {
    0,  7,  14, 21, 28, 35, 42, 49, 2,  9,  16, 23, 30, 37, 44, 51, 4,  11,
    18, 25, 32, 39, 46, 53, 6,  13, 20, 27, 34, 41, 48, 1,  8,  15, 22, 29,
    36, 43, 50, 3,  10, 17, 24, 31, 38, 45, 52, 5,  12, 19, 26, 33, 40, 47,
};

/* Parity p0..p3 of the data u0..u3, both most significant first. The shorter words have no p3. */
static const uint8_t PARITY[16] = {
    0x0, 0xE, 0x7, 0x9, 0xB, 0x5, 0xC, 0x2, 0xD, 0x3, 0xA, 0x4, 0x6, 0x8, 0x1, 0xF,
};

/* Parity of the data of a word of `length` bits. The longest has four parity bits, the others three; the fourth data
   bit of the shortest is the spare 0. */
static inline unsigned parity_of(unsigned data, unsigned length)
{
    if (length == 8)
        return PARITY[data];
    return PARITY[length == 6 ? data << 1 : data] >> 1;
}

/* What a pitch code stands for if not for an index. */
enum { PITCH_UNVOICED = 128, PITCH_ERASED = 129 };

#endif
