/* What plain and tuned C do differently, the tuned way; plain.h says what each function is for. Where MOVES is set,
   bits are taken many at a time, as they are placed. */
#ifndef TUNED_H
#define TUNED_H

#include <limits.h>
#include <string.h>

#include "melp.h"

/* The default order: at place t the logical bit 31 t, modulo 54. */
static const uint8_t DEFAULT_ORDER[FRAME_BITS] = {
    0,  31, 8,  39, 16, 47, 24, 1,  32, 9,  40, 17, 48, 25, 2,  33, 10, 41,
    18, 49, 26, 3,  34, 11, 42, 19, 50, 27, 4,  35, 12, 43, 20, 51, 28, 5,
    36, 13, 44, 21, 52, 29, 6,  37, 14, 45, 22, 53, 30, 7,  38, 15, 46, 23,
};

/* Compared in two parts of 32 that overlap, which clang does in place where it calls the library for 54. */
static inline bool is_default(const uint8_t *order, size_t numbers)
{
    enum { PART = 32, SECOND = FRAME_BITS - PART };
    return numbers == FRAME_BITS && memcmp(order, DEFAULT_ORDER, PART) == 0 &&
           memcmp(order + SECOND, DEFAULT_ORDER + SECOND, PART) == 0;
}

/* Of each byte its eight bits, the most significant first, each 0 or 128. */
#define SPREAD_1(n) \
    {(n) & 128,      (n) << 1 & 128, (n) << 2 & 128, (n) << 3 & 128, \
     (n) << 4 & 128, (n) << 5 & 128, (n) << 6 & 128, (n) << 7 & 128}
#define SPREAD_4(n) SPREAD_1(n), SPREAD_1((n) + 1), SPREAD_1((n) + 2), SPREAD_1((n) + 3)
#define SPREAD_16(n) SPREAD_4(n), SPREAD_4((n) + 4), SPREAD_4((n) + 8), SPREAD_4((n) + 12)
#define SPREAD_64(n) SPREAD_16(n), SPREAD_16((n) + 16), SPREAD_16((n) + 32), SPREAD_16((n) + 48)
static const uint8_t SPREAD[256][8] = {SPREAD_64(0), SPREAD_64(64), SPREAD_64(128), SPREAD_64(192)};

/* A 1 in each of eight bytes; and what brings the lowest bits of eight bytes side by side when multiplied, the first
   byte's to bit 63. */
static const uint64_t EACH = 0x0101010101010101, GATHER = 0x8040201008040201;

/* Eight bytes as a number, the first least significant. */
static inline uint64_t eight_bytes(const uint8_t *bytes)
{
    uint64_t number = 0;
    for (int i = 0; i < 8; i++)
        number |= (uint64_t)bytes[i] << 8 * i;
    return number;
}

/* Whether one of 54 bytes has one of the bits of a mask. */
static inline bool any_has(const uint8_t *bytes, unsigned mask)
{
    uint64_t all, some;
    memcpy(&all, bytes + FRAME_BITS - sizeof all, sizeof all);
    for (size_t i = 0; i < FRAME_BITS / sizeof some; i++) {
        memcpy(&some, bytes + i * sizeof some, sizeof some);
        all |= some;
    }
    return all & mask * EACH;
}

/* The mark of a number that did not come. */
enum { MISSING = 64 };

/* A place for whatever a byte may name, the first 56 looked at. */
enum { MOST_PLACES = 256 };

/* Stores at the number of each logical bit the bit, as 0 or 128, and where confidences are asked for its place below it.
   Of 54 numbers none is missing only where each comes once. */
static inline bool read_order(const uint8_t *order, size_t numbers, const uint8_t *frame,
                              const uint8_t *confidences, uint8_t *places)
{
    if (numbers != FRAME_BITS)
        return false;
    memset(places, MISSING, FRAME_BITS);
    places[FRAME_BITS] = places[FRAME_BITS + 1] = 0;
    for (int i = 0; i < FRAME_BYTES; i++) {
        const uint8_t *bits = SPREAD[frame[i]];
        for (int t = 8 * i; t < 8 * i + 8 && t < FRAME_BITS; t++)
            places[order[t]] = bits[t % 8] | (uint8_t)(confidences ? t : 0);
    }
    return !any_has(places, MISSING);
}

/* The logical bits of a frame, which are in the places already. */
static inline uint64_t logical_bits(const uint8_t *frame, const uint8_t *places)
{
    (void)frame;
    uint64_t bits = 0;
    for (int i = 0; i < FRAME_BYTES; i++)
        bits = bits << 8 | (eight_bytes(places + 8 * i) >> 7 & EACH) * GATHER >> 56;
    return bits >> 2;
}

/* The place of logical bit j. */
static inline unsigned place_of(const uint8_t *places, unsigned j)
{
    return places[j] & 63;
}

/* A frame as one number, place 0 its bit 55. */
static inline uint64_t placed_bits(const uint8_t *frame)
{
    uint64_t placed = 0;
    for (int i = 0; i < FRAME_BYTES; i++)
        placed |= (uint64_t)frame[i] << (48 - 8 * i);
    return placed;
}

/* The places of logical bits. Bits that go as far move together: fifteen moves. */
static inline uint64_t to_places(uint64_t bits)
{
    return ((bits & 0x400000000000) >> 40) |
           ((bits & 0x804000000000) >> 34) |
           ((bits & 0x1008040000000) >> 28) |
           ((bits & 0x2010080000000) >> 22) |
           ((bits & 0x4020100800000) >> 16) |
           ((bits & 0x8040201008000) >> 10) |
           ((bits & 0x10080402010080) >> 4) |
           ((bits & 0x20100804020100) << 2) |
           ((bits & 0x201008040201) << 8) |
           ((bits & 0x2010080402) << 14) |
           ((bits & 0x20100804) << 20) |
           ((bits & 0x201008) << 26) |
           ((bits & 0x402010) << 32) |
           ((bits & 0x4020) << 38) |
           ((bits & 0x40) << 44);
}

#ifdef MOVES
/* The logical bits of a frame by the same moves, the other way. */
static inline uint64_t default_bits(const uint8_t *frame)
{
    uint64_t placed = placed_bits(frame);
    return (placed << 40 & 0x400000000000) |
           (placed << 34 & 0x804000000000) |
           (placed << 28 & 0x1008040000000) |
           (placed << 22 & 0x2010080000000) |
           (placed << 16 & 0x4020100800000) |
           (placed << 10 & 0x8040201008000) |
           (placed << 4 & 0x10080402010080) |
           (placed >> 2 & 0x20100804020100) |
           (placed >> 8 & 0x201008040201) |
           (placed >> 14 & 0x2010080402) |
           (placed >> 20 & 0x20100804) |
           (placed >> 26 & 0x201008) |
           (placed >> 32 & 0x402010) |
           (placed >> 38 & 0x4020) |
           (placed >> 44 & 0x40);
}
#else
/* The logical bits of a frame, bit 0 the most significant of 54: a shift by its place brings each to the front. */
static inline uint64_t default_bits(const uint8_t *frame)
{
    uint64_t placed = placed_bits(frame) << 8, bits = 0;
    for (int j = 0; j < FRAME_BITS; j++)
        bits = bits << 1 | placed << PLACE[j] >> 63;
    return bits;
}
#endif

static inline void place_default(uint64_t bits, uint8_t *frame)
{
    uint64_t placed = to_places(bits);
    for (int i = 0; i < FRAME_BYTES; i++)
        frame[i] = (uint8_t)(placed >> (48 - 8 * i));
}

/* Each logical bit, as 0 or 1, by its number. */
static inline void spread_bits(uint64_t bits, uint8_t *spread)
{
    for (int i = 0; i < FRAME_BYTES; i++) {
        uint64_t eight;
        memcpy(&eight, SPREAD[bits << 2 >> (48 - 8 * i) & 255], sizeof eight);
        eight >>= 7;
        memcpy(spread + 8 * i, &eight, sizeof eight);
    }
}

/* Fetches each bit by its number and clears the mark of that number. Bits, marks and fetched bits are in one table, since
   clang would take an array that is only asked for at fixed places apart. */
static inline bool place_by(const uint8_t *order, size_t numbers, uint64_t bits, uint8_t *frame)
{
    enum { MARKS = 64, PLACED = 128 };
    uint8_t table[PLACED + 8 * FRAME_BYTES];
    if (numbers != FRAME_BITS || any_has(order, 192))
        return false;
    spread_bits(bits, table);
    memset(table + MARKS, MISSING, FRAME_BITS);
    table[PLACED + FRAME_BITS] = table[PLACED + FRAME_BITS + 1] = 0;
    for (int i = 0; i < FRAME_BITS / 6; i++)
        for (int t = 6 * i; t < 6 * i + 6; t++) {
            table[PLACED + t] = table[order[t]];
            table[MARKS + order[t]] = 0;
        }
    if (any_has(table + MARKS, MISSING))
        return false;
    for (int i = 0; i < FRAME_BYTES; i++)
        frame[i] = (uint8_t)(eight_bytes(table + PLACED + 8 * i) * GATHER >> 56);
    return true;
}

/* Marks in the tables below: an unvoiced and an erased pitch code, a word that erases its frame. */
enum { U = PITCH_UNVOICED, E = PITCH_ERASED, X = 0x80 };

/* Class or index of each pitch code. */
static const uint8_t PITCH[128] = {
    U, U,  U,  E,  U,  E,  E,  0,  U,  E,  E,  1,  E,  2,  3,  4,
    U, E,  E,  5,  E,  6,  7,  8,  E,  9,  10, 11, 12, 13, 14, 15,
    U, E,  E,  16, E,  17, 18, 19, E,  20, 21, 22, 23, 24, 25, 26,
    E, 27, 28, 29, 30, 31, 32, 33, 34, 35, 36, 37, 38, 39, 40, 41,
    U, E,  E,  42, E,  43, 44, 45, E,  46, 47, 48, 49, 50, 51, 52,
    E, 53, 54, 55, 56, 57, 58, 59, 60, 61, 62, 63, 64, 65, 66, 67,
    E, 68, 69, 70, 71, 72, 73, 74, 75, 76, 77, 78, 79, 80, 81, 82,
    83, 84, 85, 86, 87, 88, 89, 90, 91, 92, 93, 94, 95, 96, 97, 98,
};

static inline uint8_t read_pitch(unsigned code)
{
    return PITCH[code];
}

/* Data bits to flip by syndrome, u0 most significant; a wrong parity bit asks for none. */
static const uint8_t FLIP[8] = {0, 0, 0, 2, 0, 4, 8, 1};

/* The same for word A, whose even syndromes erase the frame. */
static const uint8_t FLIP_A[16] = {0, 0, 0, X, 0, X, X, 2, 0, X, X, 4, X, 8, 1, X};

/* The syndrome of word B's spare, which erases the frame. */
enum { SPARE = 7 };

/* Syndrome of a word with three parity bits. */
static inline unsigned syndrome(unsigned data, unsigned parity)
{
    return parity ^ PARITY[data] >> 1;
}

/* The words one beside the other, flipped and counted without a branch. */
static inline bool repair_words(uint64_t bits, unsigned data[4], unsigned *repaired)
{
    unsigned a = field(bits, WORD_A, 4), b = field(bits, WORD_B, 3) << 1;
    unsigned c = field(bits, WORD_C, 4), d = field(bits, WORD_D, 4);
    unsigned in_a = field(bits, WORD_A + 4, 4) ^ PARITY[a];
    if (FLIP_A[in_a] == X)
        return false;
    unsigned in_b = syndrome(b, field(bits, WORD_B + 3, 3));
    if (in_b == SPARE)
        return false;
    unsigned in_c = syndrome(c, field(bits, WORD_C + 4, 3));
    unsigned in_d = syndrome(d, field(bits, WORD_D + 4, 3));
    data[0] = a ^ FLIP_A[in_a];
    data[1] = (b ^ FLIP[in_b]) >> 1; /* The spare falls off. */
    data[2] = c ^ FLIP[in_c];
    data[3] = d ^ FLIP[in_d];
    *repaired += (in_a != 0) + (in_b != 0) + (in_c != 0) + (in_d != 0);
    return true;
}

/* How many confidences of the `count` logical bits from `first` on are 0. */
static inline unsigned count_zeros(const uint8_t *places, const uint8_t *confidences,
                                   unsigned first, unsigned count)
{
    unsigned zeros = 0;
    for (unsigned i = 0; i < count; i++)
        zeros += confidences[place_of(places, first + i)] == 0;
    return zeros;
}

/* What each choice of the `count` logical bits from `first` on costs if it is flipped; the last is least significant. */
static inline void add_costs(const uint8_t *places, const uint8_t *confidences, unsigned first,
                             unsigned count, unsigned costs[16])
{
    costs[0] = 0;
    for (unsigned i = 0; i < count; i++)
        for (unsigned rest = 0; rest < 1u << i; rest++)
            costs[1u << i | rest] =
                costs[rest] + confidences[place_of(places, first + count - 1 - i)];
}

/* The choice by flips: any in the data, and in the parity what those and the syndrome ask for. A key is a cost with the
   data below it, so that the least has the smallest data; with the data complemented it has the largest, and if that is
   the same the code word is the only one. */
static inline bool choose_flips(const uint8_t *places, const uint8_t *confidences, unsigned first,
                                unsigned length, unsigned came, unsigned in_word, unsigned *data,
                                unsigned *repaired)
{
    unsigned count = length == 6 ? 3 : 4, in_data[16], in_parity[16];
    add_costs(places, confidences, first, count, in_data);
    add_costs(places, confidences, first + count, length - count, in_parity);
    unsigned smallest = UINT_MAX, largest = UINT_MAX;
    for (unsigned flips = 0; flips < 1u << count; flips++) {
        unsigned cost = in_data[flips] + in_parity[parity_of(flips, length) ^ in_word];
        unsigned key = cost << 4 | (came ^ flips);
        smallest = key < smallest ? key : smallest;
        largest = (key ^ 15) < largest ? key ^ 15 : largest;
    }
    *data = smallest & 15;
    unsigned flips = came ^ *data;
    *repaired += (unsigned)__builtin_popcount(flips << 4 | (parity_of(flips, length) ^ in_word));
    return (smallest ^ largest) == 15;
}

/* A word that came as a code word costs nothing. Others differ from it in three places or more, so with at most two
   confidences of 0 it is the only one that does. */
static inline bool choose(uint64_t bits, unsigned first, unsigned length, const uint8_t *places,
                          const uint8_t *confidences, unsigned *data, unsigned *repaired)
{
    unsigned count = length == 6 ? 3 : 4, came = field(bits, first, count);
    unsigned in_word = field(bits, first + count, length - count) ^ parity_of(came, length);
    if (in_word != 0 || count_zeros(places, confidences, first, length) > 2)
        return choose_flips(places, confidences, first, length, came, in_word, data, repaired);
    *data = came;
    return true;
}

/* The kinds of the latest 16 frames: a bit for each, 1 for a repeat, the oldest most significant; and how many are. */
struct kinds {
    uint16_t are_repeats;
    uint8_t repeats;
};

static inline bool repeats_true(const struct kinds *kinds)
{
    return __builtin_popcount(kinds->are_repeats) == kinds->repeats;
}

static inline bool push_kind(struct kinds *kinds, bool is_repeat)
{
    kinds->repeats = (uint8_t)(kinds->repeats - (kinds->are_repeats >> 15) + is_repeat);
    kinds->are_repeats = (uint16_t)(kinds->are_repeats << 1 | is_repeat);
    return kinds->repeats >= 8;
}

/* The numbers from 0 to 99 in two digits each. */
static const char PAIRS[] = "00010203040506070809101112131415161718192021222324"
                            "25262728293031323334353637383940414243444546474849"
                            "50515253545556575859606162636465666768697071727374"
                            "75767778798081828384858687888990919293949596979899";

static inline char *put_pair(char *out, unsigned n)
{
    memcpy(out, PAIRS + 2 * n, 2);
    return out + 2;
}

#endif
