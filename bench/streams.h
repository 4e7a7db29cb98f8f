/* Standard input and output, as all C programs here use them. */
#ifndef STREAMS_H
#define STREAMS_H

#include <stdint.h>
#include <stdlib.h>
#include <unistd.h>

/* Reads until `size` bytes are there, the input ends or a read fails; the number of bytes. */
static size_t read_input(uint8_t *input, size_t size)
{
    size_t length = 0;
    while (length < size) {
        ssize_t got = read(STDIN_FILENO, input + length, size - length);
        if (got <= 0)
            break;
        length += (size_t)got;
    }
    return length;
}

/* How many whole pieces of `size` bytes come after the first `front` of an input. */
static inline size_t count_after(size_t front, size_t length, size_t size)
{
    return length < front ? 0 : (length - front) / size;
}

/* Writes from `next` up to `end`; a write that fails ends the program. */
static void write_output(const void *from, const void *end)
{
    const char *next = from;
    while (next < (const char *)end) {
        ssize_t put = write(STDOUT_FILENO, next, (size_t)((const char *)end - next));
        if (put <= 0)
            exit(EXIT_FAILURE);
        next += put;
    }
}

#endif
