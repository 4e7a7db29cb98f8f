/* frames COUNT SEED [frames|sets|soft [ORDER]]: packed frames of random sets as a bad channel delivers them, to standard
   output; or the sets, eleven bytes each; or the same frames, each with its 54 confidences after it. The same numbers
   give the same bytes. ORDER puts an order in front, 54 bytes: the default one if it is 0, else a random one. In all
   orders the same logical bits arrive, with the same confidences. Of the first 1,074 frames of seed 1 the pitch code of
   512 is unvoiced, of 477 voiced and of 63 erased, and 22 have a padding bit set. Confidences count in the 512 alone. */
#include <stdio.h>
#include <stdlib.h>
#include <string.h>

#include "pack.h"

enum { FADE_EVERY = 512, FADE_LENGTH = 24, PADDING_SET_EVERY = 64 };

static uint64_t state;

/* The next number below `limit` (xorshift64*). */
static unsigned draw(unsigned limit)
{
    state ^= state >> 12;
    state ^= state << 25;
    state ^= state >> 27;
    return (unsigned)((state * 0x2545F4914F6CDD1D) >> 33) % limit;
}

/* The order of what is written. */
static uint8_t order[FRAME_BITS];

/* The default order if `number` is 0, else a random one. */
static void draw_order(uint64_t number)
{
    for (int j = 0; j < FRAME_BITS; j++)
        order[PLACE[j]] = (uint8_t)j;
    state = 0x9E3779B97F4A7C15 * number;
    for (unsigned t = FRAME_BITS; number && t > 1; t--) {
        unsigned other = draw(t);
        uint8_t kept = order[t - 1];
        order[t - 1] = order[other];
        order[other] = kept;
    }
}

/* A set that a sender takes. */
static struct parameter_set draw_set(bool voiced)
{
    struct parameter_set set = {.voiced = voiced, .g2 = (uint8_t)draw(32), .g1 = (uint8_t)draw(8)};
    set.lsf[0] = (uint8_t)draw(128);
    for (int i = 1; i < 4; i++)
        set.lsf[i] = (uint8_t)draw(64);
    set.pitch = (uint8_t)draw(99);
    set.bandpass = (uint8_t)draw(16);
    set.bandpass -= set.bandpass == 1;
    set.fourier = (uint8_t)draw(256);
    set.aperiodic = (uint8_t)draw(2);
    return set;
}

/* Up to six flips, anywhere or within seven neighbouring places. */
static void damage(uint8_t *frame)
{
    bool burst = draw(2);
    unsigned first = draw(FRAME_BITS - 6);
    for (unsigned flips = 1 + draw(6); flips > 0; flips--)
        flip(frame, burst ? first + draw(7) : draw(FRAME_BITS));
}

/* Half of the frames come as sent and half damaged; in a fade the pitch code has two flips. */
static void send_through(uint8_t *frame, bool fade)
{
    if (fade) {
        flip(frame, PLACE[PITCH_CODE + draw(3)]);
        flip(frame, PLACE[PITCH_CODE + 3 + draw(4)]);
    } else if (draw(2)) {
        damage(frame);
    }
    if (draw(PADDING_SET_EVERY) == 0)
        frame[FRAME_BYTES - 1] |= (uint8_t)(1 + draw(3));
}

/* The eleven bytes of a set; what an unvoiced one lacks is 0. */
static void write_set(const struct parameter_set *set)
{
    bool voiced = set->voiced;
    const uint8_t bytes[SET_BYTES] = {voiced, voiced ? set->pitch : 0, set->lsf[0], set->lsf[1],
                                      set->lsf[2], set->lsf[3], set->g2, set->g1,
                                      voiced ? set->bandpass : 0, voiced ? set->fourier : 0,
                                      voiced ? set->aperiodic : 0};
    fwrite(bytes, 1, sizeof bytes, stdout);
}

/* The confidence of a place: a multiple of 16 below 128 where it is doubtful, else 128 or more, half of these 255. */
static uint8_t draw_confidence(bool doubtful)
{
    if (doubtful)
        return (uint8_t)(16 * draw(8));
    unsigned sure = 128 + draw(256);
    return (uint8_t)(sure < 255 ? sure : 255);
}

/* The bit at a place, 0 or 1. */
static unsigned bit_at(const uint8_t *frame, unsigned place)
{
    return frame[place / 8] >> (7 - place % 8) & 1;
}

/* Writes a frame of the default order in `order`; the padding stays. */
static void write_frame(const uint8_t *frame)
{
    uint8_t bytes[FRAME_BYTES] = {0};
    for (unsigned t = 0; t < FRAME_BITS; t++)
        if (bit_at(frame, PLACE[order[t]]))
            flip(bytes, t);
    bytes[FRAME_BYTES - 1] |= frame[FRAME_BYTES - 1] & 3;
    fwrite(bytes, 1, sizeof bytes, stdout);
}

/* Doubtful are three in four of the flipped places, one in sixteen of the others, and all places in one frame of
   sixteen. The state is left as it was, so that the frames are the same with confidences and without. */
static void write_confidences(const uint8_t *sent, const uint8_t *came)
{
    uint8_t confidences[FRAME_BITS];
    uint64_t kept = state;
    state = ~state;
    bool faint = draw(16) == 0;
    for (unsigned place = 0; place < FRAME_BITS; place++) {
        bool flipped = bit_at(sent, place) != bit_at(came, place);
        confidences[place] = draw_confidence(faint || (flipped ? draw(4) > 0 : draw(16) == 0));
    }
    for (int t = 0; t < FRAME_BITS; t++)
        putchar(confidences[PLACE[order[t]]]);
    state = kept;
}

/* Writes the frame of a set after the channel; every other one has its sync bit set. */
static void write_sent(const struct parameter_set *set, bool sync, bool fade, bool soft)
{
    uint8_t sent[FRAME_BYTES], came[FRAME_BYTES];
    pack_default(set, sync, sent);
    memcpy(came, sent, sizeof came);
    send_through(came, fade);
    write_frame(came);
    if (soft)
        write_confidences(sent, came);
}

int main(int argc, char **argv)
{
    if (argc < 3)
        return 2;
    long count = atol(argv[1]);
    const char *form = argc > 3 ? argv[3] : "frames";
    draw_order(argc > 4 ? (uint64_t)atol(argv[4]) : 0);
    if (argc > 4)
        fwrite(order, 1, sizeof order, stdout);
    state = 0x9E3779B97F4A7C15 + (uint64_t)atol(argv[2]);
    for (long i = 0; i < count; i++) {
        bool fade = i % FADE_EVERY >= FADE_EVERY - FADE_LENGTH;
        struct parameter_set set = draw_set(!fade && draw(2));
        if (strcmp(form, "sets") == 0)
            write_set(&set);
        else
            write_sent(&set, i % 2, fade, strcmp(form, "soft") == 0);
    }
    return 0;
}
