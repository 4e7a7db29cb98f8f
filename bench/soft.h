/* Receiving a frame with a confidence from 0 to 255 for each place. The choice of a word comes from plain.h, or where
   TUNED is set from tuned.h. */
#ifndef SOFT_H
#define SOFT_H

#include "receive.h"

/* The way with confidences: the cheapest words. Where A has several the frame is erased. */
static inline bool decide_by_cost(uint64_t bits, const uint8_t *places, const uint8_t *confidences,
                                  unsigned data[4], unsigned *repaired)
{
    if (!choose(bits, WORD_A, 8, places, confidences, &data[0], repaired))
        return false;
    choose(bits, WORD_B, 6, places, confidences, &data[1], repaired);
    choose(bits, WORD_C, 7, places, confidences, &data[2], repaired);
    choose(bits, WORD_D, 7, places, confidences, &data[3], repaired);
    return true;
}

/* Takes a frame in an order with `count` confidences: the result and the record after it, or a refusal that changes
   neither. */
static inline enum refusal receive_soft(struct record *record, const uint8_t *order, size_t numbers,
                                        const uint8_t *frame, size_t length,
                                        const uint8_t *confidences, size_t count,
                                        struct result *result)
{
    if (length != FRAME_BYTES)
        return REFUSED_LENGTH;
    return take_by(record, order, numbers, frame, decide_by_cost, confidences, count, result);
}

#endif
