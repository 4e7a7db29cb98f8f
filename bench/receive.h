/* Receiving a frame: repair, erasure and repeat, gain levels, mute; soft.h receives with confidences. The order,
   unpacking, the pitch code, repair of the words and the latest kinds come from plain.h, or where TUNED is set from
   tuned.h. */
#ifndef RECEIVE_H
#define RECEIVE_H

#ifdef TUNED
#include "tuned.h"
#else
#include "plain.h"
#endif

enum kind { UNVOICED, VOICED, REPEAT };

/* Numbers of the refusals; 0 is none. */
enum refusal {
    NOT_REFUSED = 0,
    REFUSED_LENGTH = 2,
    REFUSED_PADDING = 3,
    REFUSED_RECORD = 4,
    REFUSED_CONFIDENCES = 9,
    REFUSED_ORDER = 10
};

/* What a receiver keeps. */
struct record {
    struct parameter_set last;
    uint8_t g2;
    struct kinds kinds;
};

/* What a frame yields; levels in units of 1/186 dB. */
struct result {
    enum kind kind;
    struct parameter_set set;
    unsigned first_level;
    unsigned second_level;
    bool mute;
    bool sync;
    uint8_t repaired;
};

/* The LSF indices and gain codes from the data of words A to D and the unprotected fields. */
static inline void read_indices(uint64_t bits, const unsigned data[4], struct parameter_set *set)
{
    set->lsf[0] = (uint8_t)(data[0] << 3 | data[1]);
    set->lsf[1] = (uint8_t)field(bits, LSF_2, 6);
    set->lsf[2] = (uint8_t)field(bits, LSF_3, 6);
    set->lsf[3] = (uint8_t)field(bits, LSF_4, 6);
    set->g2 = (uint8_t)(data[2] << 1 | data[3] >> 3);
    set->g1 = data[3] & 7;
}

/* A voiced frame: no word is checked, and the parity places carry the voicing. */
static inline void read_voiced(uint64_t bits, uint8_t pitch, struct parameter_set *set)
{
    const unsigned data[4] = {field(bits, WORD_A, 4), field(bits, WORD_B, 3),
                              field(bits, WORD_C, 4), field(bits, WORD_D, 4)};
    read_indices(bits, data, set);
    set->voiced = true;
    set->pitch = pitch;
    set->bandpass = (uint8_t)field(bits, WORD_A + 4, 4);
    set->fourier = (uint8_t)(field(bits, WORD_B + 3, 3) << 5 | field(bits, WORD_C + 4, 3) << 2 |
                             field(bits, WORD_D + 4, 2));
    set->aperiodic = (uint8_t)field(bits, WORD_D + 6, 1);
}

/* A way to decide words A to D: their data, or false where the frame is erased. Adds to `repaired`. */
typedef bool decide_words(uint64_t bits, const uint8_t *places, const uint8_t *confidences,
                          unsigned data[4], unsigned *repaired);

/* The way without confidences. */
static inline bool decide_by_syndrome(uint64_t bits, const uint8_t *places,
                                      const uint8_t *confidences, unsigned data[4],
                                      unsigned *repaired)
{
    (void)places;
    (void)confidences;
    return repair_words(bits, data, repaired);
}

/* An unvoiced frame: false where it is erased. Adds to `repaired`. */
static inline bool read_unvoiced(uint64_t bits, const uint8_t *places, decide_words *decide,
                                 const uint8_t *confidences, struct parameter_set *set,
                                 unsigned *repaired)
{
    unsigned data[4];
    if (!decide(bits, places, confidences, data, repaired))
        return false;
    read_indices(bits, data, set);
    set->voiced = false;
    return true;
}

/* Reads a frame's bits into the result's kind, set and repaired count. */
static inline void read_frame(uint64_t bits, const uint8_t *places, decide_words *decide,
                              const uint8_t *confidences, struct result *result)
{
    unsigned code = field(bits, PITCH_CODE, 7), repaired = code != 0;
    uint8_t pitch = read_pitch(code);
    result->kind = REPEAT;
    result->repaired = 0;
    if (pitch < PITCH_UNVOICED) {
        read_voiced(bits, pitch, &result->set);
        result->kind = VOICED;
    } else if (pitch == PITCH_UNVOICED &&
               read_unvoiced(bits, places, decide, confidences, &result->set, &repaired)) {
        result->repaired = (uint8_t)repaired;
        result->kind = UNVOICED;
    }
}

/* Level of a second gain index. */
static inline unsigned level_of(unsigned g2)
{
    return 1860 + 402 * g2;
}

/* First level of a frame by its gain codes and `q`, the G2 accepted before. */
static inline unsigned first_level_of(unsigned g2, unsigned code, unsigned q)
{
    unsigned lower = g2 < q ? g2 : q, higher = g2 < q ? q : g2;
    if (code == 0)
        return (level_of(lower) + level_of(higher)) / 2;
    return level_of(lower) - 1116 + (code - 1) * (67 * (higher - lower) + 372);
}

/* Levels of an accepted frame, whose set and G2 the record then keeps. */
static inline void accept(struct record *record, struct result *result)
{
    const struct parameter_set *set = &result->set;
    result->first_level = first_level_of(set->g2, set->g1, record->g2);
    result->second_level = level_of(set->g2);
    record->last = *set;
    record->g2 = set->g2;
}

/* Set and levels of a repeat: the last ones accepted. */
static inline void repeat(const struct record *record, struct result *result)
{
    result->set = record->last;
    result->first_level = result->second_level = level_of(record->g2);
}

/* The first refusal that applies but for those of length and order; `count` is the number of confidences, 54 where
   none are asked for. */
static inline enum refusal check(const struct record *record, const uint8_t *frame, size_t count)
{
    if (frame[FRAME_BYTES - 1] & 3)
        return REFUSED_PADDING;
    if (count != FRAME_BITS)
        return REFUSED_CONFIDENCES;
    if (!set_in_range(&record->last) || record->g2 > 31 || !repeats_true(&record->kinds))
        return REFUSED_RECORD;
    return NOT_REFUSED;
}

/* The result of a frame that is not refused, by its logical bits and their places, and the record after it. */
static inline void take_frame(struct record *record, uint64_t bits, const uint8_t *places,
                              decide_words *decide, const uint8_t *confidences,
                              struct result *result)
{
    read_frame(bits, places, decide, confidences, result);
    if (result->kind == REPEAT)
        repeat(record, result);
    else
        accept(record, result);
    result->mute = push_kind(&record->kinds, result->kind == REPEAT);
    result->sync = field(bits, SYNC, 1);
}

/* Takes a frame of seven bytes in the default order, by one of the two ways. */
static inline enum refusal take_default(struct record *record, const uint8_t *frame,
                                        decide_words *decide, const uint8_t *confidences,
                                        size_t count, struct result *result)
{
    enum refusal refusal = check(record, frame, count);
    if (refusal == NOT_REFUSED)
        take_frame(record, default_bits(frame), PLACE, decide, confidences, result);
    return refusal;
}

/* The same in an order of `numbers` numbers. */
static inline enum refusal take_by(struct record *record, const uint8_t *order, size_t numbers,
                                   const uint8_t *frame, decide_words *decide,
                                   const uint8_t *confidences, size_t count, struct result *result)
{
    uint8_t places[MOST_PLACES];
    if (is_default(order, numbers))
        return take_default(record, frame, decide, confidences, count, result);
    if (!read_order(order, numbers, frame, confidences, places))
        return REFUSED_ORDER;
    enum refusal refusal = check(record, frame, count);
    if (refusal == NOT_REFUSED)
        take_frame(record, logical_bits(frame, places), places, decide, confidences, result);
    return refusal;
}

/* Takes a frame in an order: the result and the record after it, or a refusal that changes neither. */
static inline enum refusal receive(struct record *record, const uint8_t *order, size_t numbers,
                                   const uint8_t *frame, size_t length, struct result *result)
{
    if (length != FRAME_BYTES)
        return REFUSED_LENGTH;
    return take_by(record, order, numbers, frame, decide_by_syndrome, NULL, FRAME_BITS, result);
}

/* The same in the default order, which is not handed over. */
static inline enum refusal receive_default(struct record *record, const uint8_t *frame,
                                           size_t length, struct result *result)
{
    if (length != FRAME_BYTES)
        return REFUSED_LENGTH;
    return take_default(record, frame, decide_by_syndrome, NULL, FRAME_BITS, result);
}

#endif
