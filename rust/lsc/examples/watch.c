/*
 * Watches messages as they come: after an undo both headings and references are restored, in
 * any order, in at most 40 ticks. After each it tells which messages would break the chart now:
 * the buttons that a drafting window greys out. watch.rs does the same in Rust. In the folder
 * rust/:
 *
 *   gcc -std=c99 -Wall -Wextra -Werror -Iinclude lsc/examples/watch.c \
 *       ../crates/lsc_live/out/liblsc_live.a ../crates/lsc_more/out/liblsc_more.a \
 *       -o target/watch
 */
#include "lsc.h"

#include <stdio.h>

/* Chart U: 4 lines, 1 clock. C has no part in the Rust constant, so its bytes are written out. */
static const uint8_t chart[38] = {
    0x10, 4, 1,                                      /* heading */
    0x20, 0, 1, 0, 1, 0x40, 1,                       /* prechart: undo resets clock 0 */
    0x50,                                            /* the main chart starts */
    0x20, 1, 0, 0, 2, 0x30, 0, 1, 0, 0, 0, 40, 0x32, /* headings, clock 0 <= 40, hot */
    0x20, 2, 3, 0, 3, 0x30, 0, 1, 0, 0, 0, 40, 0x32, /* references likewise */
    0x7F};

struct message {
    const char *name;
    uint8_t source, destination;
    uint16_t label;
    uint32_t time;
};

static const struct message messages[] = {
    {"undo", 0, 1, 1, 100},       {"headings", 1, 0, 2, 120},
    {"references", 2, 3, 3, 140}, {"headings", 1, 0, 2, 150},
    {"undo", 0, 1, 1, 200},       {"references", 2, 3, 3, 199},
    {"references", 2, 3, 3, 230}, {"headings", 1, 0, 2, 241},
    {"undo", 0, 1, 1, 300}};

/* The messages' names in the order of the chart's regions. */
static const char *const buttons[] = {"undo", "headings", "references"};

static const char *const answers[] = {"kept", "dropped", "entered", "moved", "quiet"};

/* What the monitor says to one message: the answer, and the condition that decided, if one did. */
struct said {
    uint8_t answer;
    uint64_t region, term;
};

/* Writes it. */
static void tell(const struct message *m, const struct said *said, const uint64_t *verdict)
{
    uint8_t answer = said->answer;

    printf("%s at %lu: ", m->name, (unsigned long)m->time);
    if (answer == LSC_BROKEN)
        printf("broken at record %lu, reason %lu", (unsigned long)verdict[4],
               (unsigned long)verdict[5]);
    else if (answer <= LSC_QUIET)
        printf("%s", answers[answer - LSC_KEPT]);
    else
        printf("refused %u", (unsigned)answer);
    if (said->region != 0)
        printf(", region %lu, term %lu", (unsigned long)said->region,
               (unsigned long)said->term);
    printf("; standing %lu", (unsigned long)verdict[0]);
}

/* Ends the line with the messages that would break the chart, if this moment is not refused. */
static void tell_grey(const uint8_t *live, size_t live_length, uint32_t time)
{
    uint8_t shown[LSC_PREVIEW_ROOM];
    uint64_t regions = 0, i;
    int grey = 0;

    if (lsc_preview(live, live_length, time, shown, sizeof shown, &regions) == 0) {
        printf("; grey:");
        for (i = 0; i < regions && i < sizeof buttons / sizeof buttons[0]; i++)
            if (shown[i] == LSC_BROKEN) {
                printf(" %s", buttons[i]);
                grey = 1;
            }
        if (!grey)
            printf(" none");
    }
    printf("\n");
}

int main(void)
{
    uint8_t live[67 + sizeof chart];
    uint64_t verdict[LSC_VERDICT_PLACES] = {0};
    uint64_t at = 0;
    uint8_t refused = lsc_open(chart, sizeof chart, live, sizeof live, &at);
    size_t i;

    if (refused != 0) {
        fprintf(stderr, "refused chart %u at %lu\n", (unsigned)refused, (unsigned long)at);
        return 1;
    }
    for (i = 0; i < sizeof messages / sizeof messages[0]; i++) {
        const struct message *m = &messages[i];
        struct said said;
        said.answer = lsc_feed_message_why(live, sizeof live, m->source, m->destination,
                                           m->label, m->time, &said.region, &said.term);
        if (lsc_standing(live, sizeof live, verdict, LSC_VERDICT_PLACES) != 0)
            return 1;
        tell(m, &said, verdict);
        tell_grey(live, sizeof live, m->time);
    }
    puts("STANDING KEPT DROPPED RECORDS BREAK REASON REGION TERM");
    for (i = 0; i < LSC_VERDICT_PLACES; i++)
        printf("%lu%c", (unsigned long)verdict[i], i + 1 < LSC_VERDICT_PLACES ? ' ' : '\n');
    return 0;
}
