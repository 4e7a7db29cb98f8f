/* The program bench_pack in C: an order from standard input, 54 bytes, then sets of eleven bytes each, and their frames
   in that order to standard output. A set that is refused, or a list that is no order, ends them. Plain unless TUNED is
   set. */
#include "pack.h"
#include "streams.h"

enum { MOST_SETS = 5957, MOST_INPUT = FRAME_BITS + MOST_SETS * SET_BYTES };

int main(void)
{
    static uint8_t input[MOST_INPUT], output[MOST_SETS * FRAME_BYTES];
    const uint8_t *volatile order = input; /* So that each call tests it. */
    const uint8_t *first = input + FRAME_BITS;
    size_t sets = count_after(FRAME_BITS, read_input(input, sizeof input), SET_BYTES), sent = 0;
    for (struct parameter_set set; sent < sets && read_set(first + sent * SET_BYTES, &set); sent++)
        if (!pack(&set, sent % 2, order, FRAME_BITS, output + sent * FRAME_BYTES))
            break;
    write_output(output, output + sent * FRAME_BYTES);
    return EXIT_SUCCESS;
}
