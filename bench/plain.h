/* What plain and tuned C do differently, the plain way: the order, taking and placing bits, pitch code, repair, choice
   by cost, kinds, two digits. */
#ifndef PLAIN_H
#define PLAIN_H

#include <limits.h>
#include <string.h>

#include "melp.h"

/* The place of logical bit j: from the table, or where PRODUCT is set by a product and a remainder. */
static inline unsigned place_of(const uint8_t *places, unsigned j)
{
#ifdef PRODUCT
    (void)places;
    return 7 * j % FRAME_BITS;
#else
    return places[j];
#endif
}

/* Whether a list is known to be the default order. Plain C takes that as it takes any other. */
static inline bool is_default(const uint8_t *order, size_t numbers)
{
    (void)order;
    (void)numbers;
    return false;
}

/* Whether a list is an order: 54 numbers, each from 0 to 53 once. */
static inline bool is_order(const uint8_t *order, size_t numbers)
{
    bool seen[FRAME_BITS] = {false};
    if (numbers != FRAME_BITS)
        return false;
    for (int t = 0; t < FRAME_BITS; t++) {
        if (order[t] >= FRAME_BITS || seen[order[t]])
            return false;
        seen[order[t]] = true;
    }
    return true;
}

/* The place of each logical bit in an order. */
static inline void find_places(const uint8_t *order, uint8_t *places)
{
    for (int t = 0; t < FRAME_BITS; t++)
        places[order[t]] = (uint8_t)t;
}

/* Bytes that `read_order` needs. */
enum { MOST_PLACES = FRAME_BITS };

/* Makes of a list what the bits of a frame are taken by, and where confidences are asked for the place of each; false
   where the list is no order. Plain C needs the places only. */
static inline bool read_order(const uint8_t *order, size_t numbers, const uint8_t *frame,
                              const uint8_t *confidences, uint8_t *places)
{
    (void)frame;
    (void)confidences;
    if (!is_order(order, numbers))
        return false;
    find_places(order, places);
    return true;
}

/* The logical bits of a frame, bit 0 the most significant of 54, each from its place. */
static inline uint64_t logical_bits(const uint8_t *frame, const uint8_t *places)
{
    uint64_t bits = 0;
    for (unsigned j = 0; j < FRAME_BITS; j++) {
        unsigned place = place_of(places, j);
        bits = bits << 1 | (frame[place / 8] >> (7 - place % 8) & 1);
    }
    return bits;
}

/* The same in the default order. */
static inline uint64_t default_bits(const uint8_t *frame)
{
    return logical_bits(frame, PLACE);
}

/* Flips the bit at a place. */
static inline void flip(uint8_t *frame, unsigned place)
{
    frame[place / 8] ^= (uint8_t)(0x80 >> place % 8);
}

/* The frame of logical bits, bit 0 the most significant of 54, each to its place. */
static inline void place_bits(uint64_t bits, const uint8_t *places, uint8_t *frame)
{
    memset(frame, 0, FRAME_BYTES);
    for (unsigned j = 0; j < FRAME_BITS; j++)
        if (bits >> (FRAME_BITS - 1 - j) & 1)
            flip(frame, place_of(places, j));
}

/* The same in the default order. */
static inline void place_default(uint64_t bits, uint8_t *frame)
{
    place_bits(bits, PLACE, frame);
}

/* The same in an order; false where the list is none. */
static inline bool place_by(const uint8_t *order, size_t numbers, uint64_t bits, uint8_t *frame)
{
    uint8_t places[FRAME_BITS];
    if (!is_order(order, numbers))
        return false;
    find_places(order, places);
    place_bits(bits, places, frame);
    return true;
}

/* Of each pitch code how many smaller ones have at least three ones: its index where it is voiced. */
static const uint8_t PITCH_INDEX[128] = {
    0,  0,  0,  0,  0,  0,  0,  0,  1,  1,  1,  1,  2,  2,  3,  4,
    5,  5,  5,  5,  6,  6,  7,  8,  9,  9,  10, 11, 12, 13, 14, 15,
    16, 16, 16, 16, 17, 17, 18, 19, 20, 20, 21, 22, 23, 24, 25, 26,
    27, 27, 28, 29, 30, 31, 32, 33, 34, 35, 36, 37, 38, 39, 40, 41,
    42, 42, 42, 42, 43, 43, 44, 45, 46, 46, 47, 48, 49, 50, 51, 52,
    53, 53, 54, 55, 56, 57, 58, 59, 60, 61, 62, 63, 64, 65, 66, 67,
    68, 68, 69, 70, 71, 72, 73, 74, 75, 76, 77, 78, 79, 80, 81, 82,
    83, 84, 85, 86, 87, 88, 89, 90, 91, 92, 93, 94, 95, 96, 97, 98,
};

/* The class of a pitch code from its count of ones, or its index. */
static inline uint8_t read_pitch(unsigned code)
{
    int ones = __builtin_popcount(code);
    if (ones < 2)
        return PITCH_UNVOICED;
    return ones == 2 ? PITCH_ERASED : PITCH_INDEX[code];
}

/* Syndrome of a word of `length` bits. */
static inline unsigned syndrome(unsigned word, unsigned length)
{
    if (length == 8)
        return (word & 15) ^ parity_of(word >> 4, length);
    return (word & 7) ^ parity_of(word >> 3, length);
}

/* Marks in the table below: no bit to flip, and a frame erased. */
enum { STANDS = 8, ERASES = 9 };

/* The bit to flip by syndrome, counted from the word's first, for words of six, seven and eight bits. */
static const uint8_t FLIP[3][16] = {
    {STANDS, 5, 4, 2, 3, 1, 0, ERASES},
    {STANDS, 6, 5, 2, 4, 1, 0, 3},
    {STANDS, 7, 6, ERASES, 5, ERASES, ERASES, 2, 4, ERASES, ERASES, 1, ERASES, 0, 3, ERASES},
};

/* The data of a word of `length` bits, repaired, or false where it erases the frame. Adds to `repaired`. */
static inline bool repair(unsigned word, unsigned length, unsigned *data, unsigned *repaired)
{
    uint8_t bit = FLIP[length - 6][syndrome(word, length)];
    if (bit == ERASES)
        return false;
    if (bit != STANDS) {
        word ^= 1u << (length - 1 - bit);
        ++*repaired;
    }
    *data = word >> (length == 8 ? 4 : 3);
    return true;
}

/* The data of words A to D, repaired; false where A or B erases the frame. Adds to `repaired`. */
static inline bool repair_words(uint64_t bits, unsigned data[4], unsigned *repaired)
{
    return repair(field(bits, WORD_A, 8), 8, &data[0], repaired) &&
           repair(field(bits, WORD_B, 6), 6, &data[1], repaired) &&
           repair(field(bits, WORD_C, 7), 7, &data[2], repaired) &&
           repair(field(bits, WORD_D, 7), 7, &data[3], repaired);
}

/* The code word of `length` bits with these data. */
static inline unsigned code_word(unsigned data, unsigned length)
{
    return data << (length == 8 ? 4 : 3) | parity_of(data, length);
}

/* What a code word costs that differs so from the word at logical bit `first`: the sum of the confidences there. */
static inline unsigned cost(unsigned differing, unsigned first, unsigned length,
                            const uint8_t *places, const uint8_t *confidences)
{
    unsigned sum = 0;
    for (unsigned i = 0; i < length; i++)
        if (differing >> (length - 1 - i) & 1)
            sum += confidences[place_of(places, first + i)];
    return sum;
}

/* The data of the cheapest code word for the word at logical bit `first`, the smallest of several; whether it is the
   only one. Adds the places where the word differs from it to `repaired`. */
static inline bool choose(uint64_t bits, unsigned first, unsigned length, const uint8_t *places,
                          const uint8_t *confidences, unsigned *data, unsigned *repaired)
{
    unsigned word = field(bits, first, length), least = UINT_MAX, wrong = 0;
    bool only = true;
    for (unsigned u = 0; u < (length == 6 ? 8 : 16); u++) {
        unsigned differing = word ^ code_word(u, length);
        unsigned sum = cost(differing, first, length, places, confidences);
        if (sum < least) {
            least = sum;
            wrong = differing;
            *data = u;
            only = true;
        } else if (sum == least) {
            only = false;
        }
    }
    *repaired += (unsigned)__builtin_popcount(wrong);
    return only;
}

/* The kinds of the latest 16 frames, oldest first, and how many of them are repeats. */
struct kinds {
    bool is_repeat[16];
    uint8_t repeats;
};

/* Whether the number of repeats is true. */
static inline bool repeats_true(const struct kinds *kinds)
{
    int repeats = 0;
    for (int i = 0; i < 16; i++)
        repeats += kinds->is_repeat[i];
    return repeats == kinds->repeats;
}

/* Puts a kind in as the latest; whether at least half of the 16 are repeats. */
static inline bool push_kind(struct kinds *kinds, bool is_repeat)
{
    kinds->repeats = (uint8_t)(kinds->repeats - kinds->is_repeat[0] + is_repeat);
    for (int i = 0; i < 15; i++)
        kinds->is_repeat[i] = kinds->is_repeat[i + 1];
    kinds->is_repeat[15] = is_repeat;
    return kinds->repeats >= 8;
}

/* Puts a number below 100 at `out` in two digits; the end of them. */
static inline char *put_pair(char *out, unsigned n)
{
    out[0] = (char)('0' + n / 10);
    out[1] = (char)('0' + n % 10);
    return out + 2;
}

#endif
