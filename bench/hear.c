/* The program hear in C: frames from standard input, a line of text for each to standard output. Plain
   unless TUNED is set. */
#include <string.h>

#include "receive.h"
#include "streams.h"

enum { MOST_FRAMES = 9362, MOST_INPUT = MOST_FRAMES * FRAME_BYTES };

/* Room kept free in the text for a line; the longest has 102 characters. */
enum { MOST_LINE = 128 };

/* Lines on their way to standard output. */
static char text[65536];

/* Each `put` function puts something at `out` and gives the end of it. */

static inline char *put_word(char *out, const char *word)
{
    size_t length = strlen(word);
    memcpy(out, word, length);
    return out + length;
}

static inline char *put_digit(char *out, unsigned n)
{
    *out = (char)('0' + n);
    return out + 1;
}

static inline char *put_below_100(char *out, unsigned n)
{
    return n < 10 ? put_digit(out, n) : put_pair(out, n);
}

/* A number of at most five digits. */
static inline char *put_number(char *out, unsigned n)
{
    if (n < 100)
        return put_below_100(out, n);
    if (n < 10000)
        return put_pair(put_below_100(out, n / 100), n % 100);
    out = put_digit(out, n / 10000);
    return put_pair(put_pair(out, n / 100 % 100), n % 100);
}

static char *put_set(char *out, const struct parameter_set *set)
{
    out = put_word(out, " pitch=");
    out = set->voiced ? put_number(out, set->pitch) : put_word(out, "-");
    out = put_number(put_word(out, " lsf="), set->lsf[0]);
    for (int i = 1; i < 4; i++)
        out = put_number(put_word(out, ","), set->lsf[i]);
    if (!set->voiced)
        return put_word(out, " bp=- fm=- ap=-");
    out = put_number(put_word(out, " bp="), set->bandpass);
    out = put_number(put_word(out, " fm="), set->fourier);
    return put_digit(put_word(out, " ap="), set->aperiodic);
}

static char *put_result(char *out, const struct result *result)
{
    out = put_word(out, " kind=");
    *out++ = "UVR"[result->kind];
    out = put_set(out, &result->set);
    out = put_number(put_word(out, " g1="), result->first_level);
    out = put_number(put_word(out, " g2="), result->second_level);
    out = put_digit(put_word(out, " sync="), result->sync);
    out = put_digit(put_word(out, " fixed="), result->repaired);
    return put_digit(put_word(out, " mute="), result->mute);
}

/* Receives a frame and puts what its line says of it; adds it to `repeats` if it is one. */
static char *put_frame(char *out, struct record *record, const uint8_t *frame, unsigned *repeats)
{
    struct result result;
    enum refusal refusal = receive_default(record, frame, FRAME_BYTES, &result);
    if (refusal != NOT_REFUSED)
        return put_digit(put_word(out, " refused="), refusal);
    *repeats += result.kind == REPEAT;
    return put_result(out, &result);
}

static char *put_totals(char *out, unsigned frames, unsigned repeats, size_t left)
{
    out = put_number(put_word(out, "frames="), frames);
    out = put_number(put_word(out, " repeats="), repeats);
    out = put_digit(put_word(out, " left="), (unsigned)left);
    return put_word(out, "\n");
}

/* Writes the lines of all frames by a fresh receiver. */
static void hear(const uint8_t *input, size_t length)
{
    struct record record = {0};
    unsigned frames = (unsigned)(length / FRAME_BYTES), repeats = 0;
    char *out = put_word(text, "grain=186 order=house\n");
    for (unsigned i = 0; i < frames; i++) {
        out = put_number(put_word(out, "frame="), i);
        out = put_frame(out, &record, input + i * FRAME_BYTES, &repeats);
        out = put_word(out, "\n");
        if (text + sizeof text - out < MOST_LINE) {
            write_output(text, out);
            out = text;
        }
    }
    write_output(text, put_totals(out, frames, repeats, length % FRAME_BYTES));
}

int main(void)
{
    static uint8_t input[MOST_INPUT];
    hear(input, read_input(input, sizeof input));
    return EXIT_SUCCESS;
}
