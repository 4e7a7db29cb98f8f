/* Packing a parameter set into a frame. The order and placing the bits come from plain.h, or where TUNED is set from
   tuned.h. */
#ifndef PACK_H
#define PACK_H

#ifdef TUNED
#include "tuned.h"
#else
#include "plain.h"
#endif

/* Pitch code of each index: the codes with at least three ones, rising. */
static const uint8_t CODE[99] = {
    7,   11,  13,  14,  15,  19,  21,  22,  23,  25,  26,  27,  28,  29,  30,  31,  35,
    37,  38,  39,  41,  42,  43,  44,  45,  46,  47,  49,  50,  51,  52,  53,  54,  55,
    56,  57,  58,  59,  60,  61,  62,  63,  67,  69,  70,  71,  73,  74,  75,  76,  77,
    78,  79,  81,  82,  83,  84,  85,  86,  87,  88,  89,  90,  91,  92,  93,  94,  95,
    97,  98,  99,  100, 101, 102, 103, 104, 105, 106, 107, 108, 109, 110, 111, 112, 113,
    114, 115, 116, 117, 118, 119, 120, 121, 122, 123, 124, 125, 126, 127,
};

/* What the parity places of words A to D carry. */
static inline void carried_bits(const struct parameter_set *set, const unsigned data[4],
                                unsigned carried[4])
{
    if (set->voiced) {
        carried[0] = set->bandpass;
        carried[1] = set->fourier >> 5;
        carried[2] = set->fourier >> 2 & 7;
        carried[3] = (set->fourier & 3u) << 1 | set->aperiodic;
    } else {
        carried[0] = parity_of(data[0], 8);
        carried[1] = parity_of(data[1], 6);
        carried[2] = parity_of(data[2], 7);
        carried[3] = parity_of(data[3], 7);
    }
}

/* The logical bits of a set in range, bit 0 the most significant of 54. */
static inline uint64_t set_bits(const struct parameter_set *set, bool sync)
{
    const unsigned data[4] = {set->lsf[0] >> 3, set->lsf[0] & 7, set->g2 >> 1,
                              (set->g2 & 1u) << 3 | set->g1};
    unsigned carried[4];
    carried_bits(set, data, carried);
    uint64_t bits = data[0] << 4 | carried[0];
    bits = bits << 6 | data[1] << 3 | carried[1];
    bits = bits << 7 | data[2] << 3 | carried[2];
    bits = bits << 7 | data[3] << 3 | carried[3];
    bits = bits << 7 | (set->voiced ? CODE[set->pitch] : 0);
    for (int i = 1; i < 4; i++)
        bits = bits << 6 | set->lsf[i];
    return bits << 1 | sync;
}

/* The frame of a set that a sender takes, in the default order. */
static inline void pack_default(const struct parameter_set *set, bool sync, uint8_t *frame)
{
    place_default(set_bits(set, sync), frame);
}

/* The same in an order; false where the list is none. */
static inline bool pack(const struct parameter_set *set, bool sync, const uint8_t *order,
                        size_t numbers, uint8_t *frame)
{
    if (!is_default(order, numbers))
        return place_by(order, numbers, set_bits(set, sync), frame);
    pack_default(set, sync, frame);
    return true;
}

/* The set in eleven bytes; false where they are not those of a set that a sender takes. */
static inline bool read_set(const uint8_t *bytes, struct parameter_set *set)
{
    set->voiced = bytes[0] == 1;
    set->pitch = bytes[1];
    for (int i = 0; i < 4; i++)
        set->lsf[i] = bytes[2 + i];
    set->g2 = bytes[6];
    set->g1 = bytes[7];
    set->bandpass = bytes[8];
    set->fourier = bytes[9];
    set->aperiodic = bytes[10];
    if (!set->voiced && (bytes[0] | bytes[1] | bytes[8] | bytes[9] | bytes[10]))
        return false;
    return set_in_range(set) && !(set->voiced && set->bandpass == 1);
}

#endif
