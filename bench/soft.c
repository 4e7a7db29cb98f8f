/* The program bench_soft in C: an order from standard input, 54 bytes, then frames in that order, each with its
   confidences after it, and the sum of all that they are answered, in eight bytes, to standard output. Plain unless
   TUNED is set. */
#include "soft.h"
#include "sum.h"

enum { SOFT_BYTES = FRAME_BYTES + FRAME_BITS, MOST_INPUT = FRAME_BITS + 1074 * SOFT_BYTES };

/* What a frame with its confidences adds to the sum. */
static unsigned sum_of_frame(struct record *record, const uint8_t *order, const uint8_t *frame)
{
    struct result result;
    enum refusal refusal = receive_soft(record, order, FRAME_BITS, frame, FRAME_BYTES,
                                        frame + FRAME_BYTES, FRAME_BITS, &result);
    return sum_of_answer(refusal, &result);
}

int main(void)
{
    static uint8_t input[MOST_INPUT];
    const uint8_t *volatile order = input; /* So that each call tests it. */
    size_t frames = count_after(FRAME_BITS, read_input(input, sizeof input), SOFT_BYTES);
    struct record record = {0};
    uint64_t sum = 0;
    for (size_t i = 0; i < frames; i++)
        sum += sum_of_frame(&record, order, input + FRAME_BITS + i * SOFT_BYTES);
    write_sum(sum);
    return EXIT_SUCCESS;
}
