/* A session file in C: its sizes, its first lines and its refusals. */
#ifndef SESSION_H
#define SESSION_H

#include "melp.h"

enum { MOST_FRAMES = 2000, LINE_BYTES = 17 };

/* The lines before the number of frames. */
#define FILE_LINE "file=melp\n"
#define ORDER_LINE "order=house\n"

/* The header of a file with the most frames, and that file, the longest. */
#define LONGEST_HEADER FILE_LINE ORDER_LINE "frames=2000\n"
enum { MOST_TEXT = sizeof LONGEST_HEADER - 1 + MOST_FRAMES * LINE_BYTES };

/* Numbers of the refusals; 0 is none. */
enum refusal { NOT_REFUSED = 0, REFUSED_LENGTH = 2, REFUSED_PADDING = 3, REFUSED_LINE = 8 };

/* Whether one of the last two bits of a frame is set. */
static inline bool has_padding(const uint8_t *frame)
{
    return frame[FRAME_BYTES - 1] & 3;
}

#endif
