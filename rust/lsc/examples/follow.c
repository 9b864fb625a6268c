/*
 * Follows a log as it grows: after an undo both headings and references are restored, in any
 * order, in at most 40 ticks. The log's records have raw stamps, and its bytes come in pieces that
 * end anywhere. follow.rs does the same in Rust. In the folder rust/:
 *
 *   gcc -std=c99 -Wall -Wextra -Werror -Iinclude lsc/examples/follow.c \
 *       ../crates/lsc_live/out/liblsc_live.a ../crates/lsc_log/out/liblsc_log.a \
 *       -o target/follow
 */
#include "lsc.h"

#include <stdio.h>
#include <string.h>

/* Chart U: 4 lines, 1 clock. C has no part in the Rust constant, so its bytes are written out. */
static const uint8_t chart[38] = {
    0x10, 4, 1,                                      /* heading */
    0x20, 0, 1, 0, 1, 0x40, 1,                       /* prechart: undo resets clock 0 */
    0x50,                                            /* the main chart starts */
    0x20, 1, 0, 0, 2, 0x30, 0, 1, 0, 0, 0, 40, 0x32, /* headings, clock 0 <= 40, hot */
    0x20, 2, 3, 0, 3, 0x30, 0, 1, 0, 0, 0, 40, 0x32, /* references likewise */
    0x7F};

/* Two rounds and a byte behind them. The counter returns to 0 in the first; the second is late. */
static const uint8_t log_bytes[] = {
    3, 0, 1, 0, 1, 0xFF, 0xFF, 0xFF, 0xF0, /* undo */
    3, 2, 3, 0, 3, 0,    0,    0,    4,    /* references, 20 ticks later */
    3, 1, 0, 0, 2, 0,    0,    0,    24,   /* headings, 20 ticks later: kept */
    4, 0, 0, 0, 30,                        /* time alone */
    3, 0, 1, 0, 1, 0,    0,    0,    50,   /* undo */
    3, 1, 0, 0, 2, 0,    0,    0,    91,   /* headings, 41 ticks later: broken */
    9};

/* How many bytes come at a time. */
static const size_t pieces[] = {4, 9, 14, 0, 9, 3, 12};

int main(void)
{
    uint8_t live[67 + sizeof chart], kind[LSC_KIND_SIZE] = {0}, waiting[sizeof log_bytes];
    uint64_t out[LSC_LOG_PLACES], verdict[LSC_VERDICT_PLACES], at = 0;
    size_t come = 0, held = 0, i;

    if (lsc_open(chart, sizeof chart, live, sizeof live, &at) != 0)
        return 1;
    for (i = 0; i < sizeof pieces / sizeof pieces[0]; i++) {
        uint8_t stop;

        memcpy(waiting + held, log_bytes + come, pieces[i]);
        come += pieces[i];
        held += pieces[i];
        stop = lsc_feed_log(live, sizeof live, kind, sizeof kind, waiting, held, out,
                            LSC_LOG_PLACES);
        /* What was not taken waits for more. */
        held -= (size_t)out[1];
        memmove(waiting, waiting + out[1], held);
        printf("%lu bytes: %lu taken, %lu kept, last answer %lu; ", (unsigned long)pieces[i],
               (unsigned long)out[0], (unsigned long)out[4], (unsigned long)out[2]);
        printf("stopped with %u, %lu waiting\n", (unsigned)stop, (unsigned long)held);
        if (stop != 0 && stop != 30)
            break;
    }
    if (lsc_standing(live, sizeof live, verdict, LSC_VERDICT_PLACES) != 0)
        return 1;
    puts("STANDING KEPT DROPPED RECORDS BREAK REASON REGION TERM");
    for (i = 0; i < LSC_VERDICT_PLACES; i++)
        printf("%lu%c", (unsigned long)verdict[i], i + 1 < LSC_VERDICT_PLACES ? ' ' : '\n');
    return 0;
}
