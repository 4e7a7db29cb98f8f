/* The sum of all that frames are answered, as bench_receive and bench_soft write it. */
#ifndef SUM_H
#define SUM_H

#include "receive.h"
#include "streams.h"

static unsigned sum_of_set(const struct parameter_set *set)
{
    unsigned sum = set->lsf[0] + set->lsf[1] + set->lsf[2] + set->lsf[3] + set->g2 + set->g1;
    return set->voiced ? sum + set->pitch + set->bandpass + set->fourier + set->aperiodic : sum;
}

/* What an answer adds to the sum: its refusal, or all the numbers of its result. */
static unsigned sum_of_answer(enum refusal refusal, const struct result *result)
{
    if (refusal != NOT_REFUSED)
        return refusal;
    return result->kind + sum_of_set(&result->set) + result->first_level + result->second_level +
           result->mute + result->sync + result->repaired;
}

/* Writes a sum in eight bytes, most significant first. */
static void write_sum(uint64_t sum)
{
    uint8_t bytes[8];
    for (int i = 0; i < 8; i++)
        bytes[i] = (uint8_t)(sum >> (56 - 8 * i));
    write_output(bytes, bytes + sizeof bytes);
}

#endif
