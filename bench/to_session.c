/* The program to_session in C: frames from standard input, and their session file to standard output. */
#include <stdio.h>

#include "session.h"
#include "streams.h"

/* The first refusal that applies. */
static enum refusal check(const uint8_t *frames, size_t length)
{
    if (length % FRAME_BYTES != 0 || length > MOST_FRAMES * FRAME_BYTES)
        return REFUSED_LENGTH;
    for (size_t i = 0; i < length; i += FRAME_BYTES)
        if (has_padding(frames + i))
            return REFUSED_PADDING;
    return NOT_REFUSED;
}

/* Puts the line of a frame at `out` and gives the end of it. */
static char *put_line(char *out, const uint8_t *frame)
{
    static const char digits[] = "0123456789abcdef";
    *out++ = 'f';
    *out++ = '=';
    for (int i = 0; i < FRAME_BYTES; i++) {
        *out++ = digits[frame[i] >> 4];
        *out++ = digits[frame[i] & 15];
    }
    *out++ = '\n';
    return out;
}

/* Writes the file of frames that are not refused. */
static void write_file(const uint8_t *frames, size_t length)
{
    static char text[MOST_TEXT + 1]; /* sprintf puts a 0 after the header. */
    char *out = text + sprintf(text, FILE_LINE ORDER_LINE "frames=%zu\n", length / FRAME_BYTES);
    for (size_t i = 0; i < length; i += FRAME_BYTES)
        out = put_line(out, frames + i);
    write_output(text, out);
}

int main(void)
{
    static uint8_t input[MOST_FRAMES * FRAME_BYTES + 1];
    size_t length = read_input(input, sizeof input);
    enum refusal refusal = check(input, length);
    if (refusal == NOT_REFUSED)
        write_file(input, length);
    else
        fprintf(stderr, "refused=%d\n", refusal);
    return EXIT_SUCCESS;
}
