/* The program send in C: sets from standard input, eleven bytes each, and their frames to standard output. A set
   that is refused ends them. Plain unless TUNED is set. */
#include "pack.h"
#include "streams.h"

enum { MOST_INPUT = 65536, MOST_SETS = MOST_INPUT / SET_BYTES };

int main(void)
{
    static uint8_t input[MOST_INPUT], output[MOST_SETS * FRAME_BYTES];
    size_t sets = read_input(input, sizeof input) / SET_BYTES, sent = 0;
    for (struct parameter_set set; sent < sets && read_set(input + sent * SET_BYTES, &set); sent++)
        pack_default(&set, sent % 2, output + sent * FRAME_BYTES);
    write_output(output, output + sent * FRAME_BYTES);
    return EXIT_SUCCESS;
}
