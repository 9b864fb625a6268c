/*
 * Saves charts, as an editor of charts does: each in one fixed form, so that two charts are the
 * same exactly if their saved bytes are. In the folder rust/:
 *
 *   gcc -std=c99 -Wall -Wextra -Werror -Iinclude lsc/examples/save.c \
 *       ../crates/lsc_more/out/liblsc_more.a -o target/save
 */
#include "lsc.h"

#include <stdio.h>
#include <string.h>

#define LENGTH 25

struct chart {
    const char *name;
    size_t length;
    uint8_t bytes[LENGTH];
};

/* After the message 1, the message 2 within 40 ticks: hot, and it resets the clock. */
static const struct chart charts[] = {
    {"as typed", LENGTH,
     {0x10, 2, 1, 0x20, 0, 1, 0, 1, 0x50, 0x20, 1, 0, 0, 2, /* the regions */
      0x40, 1, 0x32, 0x30, 0, 1, 0, 0, 0, 40, 0x7F}},       /* the resets, hot, the term */
    {"hot first", LENGTH,
     {0x10, 2, 1, 0x20, 0, 1, 0, 1, 0x50, 0x20, 1, 0, 0, 2, 0x32, 0x40, 1, 0x30, 0, 1, 0, 0, 0,
      40, 0x7F}},
    {"within 41 ticks", LENGTH,
     {0x10, 2, 1, 0x20, 0, 1, 0, 1, 0x50, 0x20, 1, 0, 0, 2, 0x40, 1, 0x32, 0x30, 0, 1, 0, 0, 0,
      41, 0x7F}},
    {"without its end", LENGTH - 1,
     {0x10, 2, 1, 0x20, 0, 1, 0, 1, 0x50, 0x20, 1, 0, 0, 2, 0x40, 1, 0x32, 0x30, 0, 1, 0, 0, 0,
      40}}};

int main(void)
{
    uint8_t first[LSC_CHART_ROOM], saved[LSC_CHART_ROOM];
    uint64_t length = 0, at = 0;
    size_t i;

    /* A buffer without room: 12, and the length that is needed. */
    if (lsc_write(charts[0].bytes, charts[0].length, first, 0, &length) != 12)
        return 1;
    printf("%s: %lu bytes are needed\n", charts[0].name, (unsigned long)length);
    if (lsc_write(charts[0].bytes, charts[0].length, first, length, &length) != 0)
        return 1;
    for (i = 0; i < length; i++)
        printf("%02x%c", (unsigned)first[i], i + 1 < length ? ' ' : '\n');
    for (i = 1; i < sizeof charts / sizeof charts[0]; i++) {
        const struct chart *c = &charts[i];
        uint8_t refused = lsc_write(c->bytes, c->length, saved, sizeof saved, &at);
        if (refused != 0)
            printf("%s: refused %u at %lu\n", c->name, (unsigned)refused, (unsigned long)at);
        else if (at == length && memcmp(saved, first, length) == 0)
            printf("%s: the same chart\n", c->name);
        else
            printf("%s: another chart\n", c->name);
    }
    return 0;
}
