/* The program from_session in C: a session file from standard input, and its frames to standard output. */
#include <stdio.h>
#include <string.h>

#include "session.h"
#include "streams.h"

/* What is left of a text, and the number of the line. */
struct reader {
    const uint8_t *next;
    const uint8_t *end;
    unsigned line;
};

/* Each `take` function takes something if it comes next; false or a refusal where it does not. */

static bool take_word(struct reader *reader, const char *word)
{
    size_t length = strlen(word);
    if ((size_t)(reader->end - reader->next) < length || memcmp(reader->next, word, length) != 0)
        return false;
    reader->next += length;
    return true;
}

/* A number of frames, without leading zeros. */
static bool take_count(struct reader *reader, unsigned *count)
{
    const uint8_t *first = reader->next, *next = first;
    for (*count = 0; next < reader->end && *next >= '0' && *next <= '9'; next++) {
        *count = 10 * *count + (*next - '0');
        if (*count > MOST_FRAMES)
            return false;
    }
    reader->next = next;
    return next > first && (*first != '0' || next - first == 1);
}

/* The value of a hexadecimal digit, or -1. */
static inline int digit_value(uint8_t digit)
{
    if (digit >= '0' && digit <= '9')
        return digit - '0';
    return digit >= 'a' && digit <= 'f' ? digit - 'a' + 10 : -1;
}

/* The line of a frame. */
static enum refusal take_frame(struct reader *reader, uint8_t *frame)
{
    const uint8_t *line = reader->next;
    if (reader->end - line < LINE_BYTES || line[0] != 'f' || line[1] != '=' ||
        line[LINE_BYTES - 1] != '\n')
        return REFUSED_LINE;
    for (int i = 0; i < FRAME_BYTES; i++) {
        int high = digit_value(line[2 + 2 * i]), low = digit_value(line[3 + 2 * i]);
        if (high < 0 || low < 0)
            return REFUSED_LINE;
        frame[i] = (uint8_t)(high << 4 | low);
    }
    reader->next += LINE_BYTES;
    return has_padding(frame) ? REFUSED_PADDING : NOT_REFUSED;
}

static bool take_header(struct reader *reader, unsigned *count)
{
    reader->line = 1;
    if (!take_word(reader, FILE_LINE))
        return false;
    reader->line = 2;
    if (!take_word(reader, ORDER_LINE))
        return false;
    reader->line = 3;
    return take_word(reader, "frames=") && take_count(reader, count) && take_word(reader, "\n");
}

/* The whole file; `frames` counts those before the line that is refused. */
static enum refusal take_file(struct reader *reader, uint8_t *output, unsigned *frames)
{
    unsigned count;
    if (!take_header(reader, &count))
        return REFUSED_LINE;
    for (; *frames < count; ++*frames) {
        reader->line = *frames + 4;
        enum refusal refusal = take_frame(reader, output + *frames * FRAME_BYTES);
        if (refusal != NOT_REFUSED)
            return refusal;
    }
    reader->line = count + 4;
    return reader->next == reader->end ? NOT_REFUSED : REFUSED_LINE;
}

int main(void)
{
    static uint8_t input[MOST_TEXT + 1], output[MOST_FRAMES * FRAME_BYTES];
    struct reader reader = {.next = input, .end = input + read_input(input, sizeof input)};
    unsigned frames = 0;
    enum refusal refusal = take_file(&reader, output, &frames);
    write_output(output, output + frames * FRAME_BYTES);
    if (refusal != NOT_REFUSED)
        fprintf(stderr, "refused=%d line=%u\n", refusal, reader.line);
    return EXIT_SUCCESS;
}
