/*
 * lsc.h: Silunovam, which watches programs by live sequence charts; proved from bytes to bytes.
 *
 * Link with liblsc.a (whole logs), liblsc_breaks.a (whether a log breaks a chart), liblsc_live.a
 * (live monitors), liblsc_log.a (live monitors fed from a log's bytes) and liblsc_more.a (one
 * record of a log, what a live monitor would answer, and saving a chart). The functions keep no
 * state and no pointer, allocate nothing, and may be called from several threads at once on
 * different bytes. Every content of the bytes is allowed; only the pointers and lengths must be
 * valid, and bytes written must not overlap bytes read. A pointer with length 0 must still not be
 * NULL.
 *
 * Numbers in charts, logs and live monitors stand most significant byte first.
 *
 * A log is records one after the other. 01 source(1) destination(1) label(2) time(4) is a message,
 * 02 time(4) is time alone; a time is a moment and never falls. 03 and 04 are shaped like 01 and
 * 02, with a raw stamp instead of the time: what a 32-bit counter of milliseconds showed, which
 * returns to 0 after 4,294,967,295. The first raw stamp of a log is moment 0; each later moment is
 * that of the record before and the difference of the two stamps, taken round the wrap. While true
 * gaps stay below 2,147,483,648, each moment is the true time since the first stamp.
 *
 * Refusals: 1 to 11 and 13 a chart's fault; 12 a buffer too short; 20 no live monitor; 21 an unfit
 * monitor; 22 a time that falls, or stamps that differ by 2,147,483,648 or more; 23 more than
 * 1,000,000 records; 24 a raw stamp's moment above 4,294,967,295; 30 a record cut short; 31 an
 * unknown record byte; 32 raw and plain records in one log.
 *
 * In a chart the command 33 marks a region of the main chart as cold to rest on; one without it is
 * hot. The mark changes no answer and no break: only whether the main chart, while it is owed, may
 * rest where it stands (LSC_STANDS_RESTING). In the prechart a 33 is refused with 13; a second one
 * in a region, or one with no region of its half before it, with 3.
 */
#ifndef LSC_H
#define LSC_H

#include <stddef.h>
#include <stdint.h>

#ifdef __cplusplus
extern "C" {
#endif

/* Answers to a record; lsc_preview shows all but the last. */
#define LSC_BROKEN 1  /* the chart is broken, now or earlier; see lsc_standing */
#define LSC_KEPT 2    /* the round is complete */
#define LSC_DROPPED 3 /* the round is given up */
#define LSC_ENTERED 4 /* the prechart was completed */
#define LSC_MOVED 5   /* something fired */
#define LSC_QUIET 6   /* nothing fired */

/* Standings, a verdict's first number. */
#define LSC_STANDS_OPEN 0     /* nothing is fired */
#define LSC_STANDS_PRECHART 1 /* a round runs, in the prechart */
#define LSC_STANDS_OWED 2     /* the main chart is owed, and may not rest here */
#define LSC_STANDS_BROKEN 3   /* broken, for good */
#define LSC_STANDS_RESTING 4  /* the main chart is owed, and may rest here */

/*
 * It may rest where every line that counts is cold. A line counts if it still has an unfired region
 * of the main chart. The last fired one that touches it gives its temperature: cold if that region
 * is marked with 33, else hot. A line on which none of them is fired is hot.
 */

/* Places of a verdict, of a record, of lsc_breaks and of lsc_feed_log, and the room that lsc_print
 * wants. */
#define LSC_VERDICT_PLACES 8
#define LSC_RECORD_PLACES 6
#define LSC_BREAKS_PLACES 3
#define LSC_LOG_PLACES 9
#define LSC_TEXT_ROOM 223

/* Bytes that lsc_feed_log keeps the kind of a log in, and the first of them. */
#define LSC_KIND_SIZE 5
#define LSC_KIND_NONE 0  /* no record was taken yet */
#define LSC_KIND_PLAIN 1 /* the records have times */
#define LSC_KIND_RAW 2   /* the records have raw stamps */

/* Bytes that are enough for lsc_preview, whatever the chart: none has more regions. */
#define LSC_PREVIEW_ROOM 32

/* Bytes that are enough for lsc_write, whatever the chart: none is saved as more. */
#define LSC_CHART_ROOM 1317

/* Kinds of a record, the first number of lsc_read_record. */
#define LSC_RECORD_END 0         /* no record: the place is at the log's end or beyond */
#define LSC_RECORD_MESSAGE 1     /* a message at a moment */
#define LSC_RECORD_TIME 2        /* time alone, up to a moment */
#define LSC_RECORD_RAW_MESSAGE 3 /* a message with a raw stamp */
#define LSC_RECORD_RAW_TIME 4    /* time alone, with a raw stamp */

/* The part at fault, after a refused lsc_judge or lsc_breaks. */
#define LSC_PART_CHART 1
#define LSC_PART_LOG 2

/*
 * Judges a whole log by a chart. The chart is read first. A fault anywhere in the log refuses it,
 * after a break too; otherwise its records are taken up to the end or a break.
 *
 * Returns 0, and out[0..7] = standing, kept, dropped, records, break, reason, region, term; or
 * the refusal's number (chart 1 to 11 and 13; log 22, 23, 24, 30, 31, 32), and out[0..7] = part,
 * number, offset within the part and five zeros; or 12 if out has fewer than 8 places, and out
 * stays as it was. Places of out beyond the eighth stay as they were.
 *
 * Region and term, both from 1, are those of the hot condition that broke the chart: its region,
 * and the first of its terms that failed, in the order of the bytes. They are 0 unless the reason
 * is 2.
 */
uint8_t lsc_judge(const uint8_t *chart, size_t chart_length,
                  const uint8_t *log, size_t log_length,
                  uint64_t *out, size_t out_length);

/*
 * The printing program as a function. The input is the chart's length (2 bytes), the chart,
 * the log. Two lines with the verdict, or one with the refusal, are written to the start of
 * out, without a zero byte after.
 *
 * Returns 0, and *written is the text's length; or 12 if out has fewer than 223 bytes, then
 * *written is 0 and out stays as it was. Bytes after the text stay as they were.
 */
uint8_t lsc_print(const uint8_t *input, size_t input_length,
                  uint8_t *out, size_t out_length, uint64_t *written);

/*
 * The size of a live monitor: 67 bytes more than its chart has, or SIZE_MAX if that is too
 * large. It refuses nothing.
 */
size_t lsc_live_size(size_t chart_length);

/*
 * Reads a chart and makes a fresh live monitor in live: the monitor's image (59 bytes), the
 * chart's length (8 bytes), the chart. The bytes may be copied and stored.
 *
 * Returns 0, and *at is the size of the live monitor; or the chart's refusal (1 to 11 and 13), and
 * *at is its offset; or 12 if live is too short, and *at is the size it needs. A refusal leaves
 * live as it was. Bytes of live beyond the monitor stay as they were.
 */
uint8_t lsc_open(const uint8_t *chart, size_t chart_length,
                 uint8_t *live, size_t live_length, uint64_t *at);

/*
 * Feeds one message to a live monitor. A message out of order in an unfinished prechart drops the
 * round. If a round can start with it, it is offered once more, to the round that opens then with
 * all clocks at zero, and the answer is what it did there. It counts as one record, and may count
 * as two dropped rounds.
 *
 * Returns 1 to 6 (LSC_BROKEN to LSC_QUIET), and the image in live is the monitor after the
 * record; all other bytes stay as they were. After a break the answer is 1 each time, and no
 * byte changes. Or 20 if live holds no live monitor, 21 if the monitor is unfit, 22 if the time
 * falls, 23 after 1,000,000 records; live then stays as it was.
 */
uint8_t lsc_feed_message(uint8_t *live, size_t live_length, uint8_t source,
                         uint8_t destination, uint16_t label, uint32_t time);

/*
 * Feeds one message, as lsc_feed_message does, and says which condition decided. Returns what
 * that function returns, and changes the same bytes.
 *
 * *region and *term, both from 1, are a region and the first of its terms that failed: after
 * LSC_BROKEN those that the monitor holds, also when it was broken earlier; after LSC_DROPPED
 * those of the cold condition that failed. They are 0 if no condition decided (a message that no
 * ready region has), with every other answer and with every refusal. Both are always written.
 */
uint8_t lsc_feed_message_why(uint8_t *live, size_t live_length, uint8_t source,
                             uint8_t destination, uint16_t label, uint32_t time,
                             uint64_t *region, uint64_t *term);

/*
 * Feeds one record of time to a live monitor: time passes, no message comes. Answers, refusals
 * and what stays are those of lsc_feed_message.
 */
uint8_t lsc_feed_time(uint8_t *live, size_t live_length, uint32_t time);

/*
 * Feeds the records that stand in some bytes of a log to a live monitor, from the left. For a host
 * that follows a log as it grows: it hands over whatever has come, cut anywhere, and with the next
 * call the bytes from the place reached on. The chart is read once a call.
 *
 * kind is five bytes that the caller keeps beside the live monitor, zeros at the start: the kind of
 * the log so far (LSC_KIND_NONE, LSC_KIND_PLAIN or LSC_KIND_RAW) and the stamp of its last raw
 * record, zeros if the log is plain. A plain record is fed at its time. A raw record is fed at the
 * monitor's last moment and the difference from the stamp before, taken round the wrap; the first
 * of a log at moment 0.
 *
 * Returns why it stopped:
 *   0   all bytes are read;
 *   1   the monitor is broken, by the last record taken or before the call: nothing behind is read;
 *   30  a record is cut short: more of it is to come;
 *   31  an unknown record byte;
 *   32  a raw record in a plain log, or a plain one in a raw log;
 *   22  a time that falls, or a stamp that differs by 2,147,483,648 or more;
 *   24  a raw stamp's moment above 4,294,967,295;
 *   23  1,000,000 records were taken before.
 * And out[0..8] = how many records were taken; the place reached, just behind the last of them; the
 * answer to the last of them, 1 to 6, or 0 if none was taken; then how many were answered
 * LSC_BROKEN, LSC_KEPT, LSC_DROPPED, LSC_ENTERED, LSC_MOVED and LSC_QUIET. If one was taken or
 * more, the image in live is the monitor after them and kind is that of the last one; all other
 * bytes stay as they were. If none was, all bytes of live and kind do.
 *
 * Or 12 if kind has fewer than 5 bytes or out fewer than 9 places, tested first; 20 if live holds
 * no live monitor; 21 if the monitor is unfit or the first byte of kind is above 2. Then live, kind
 * and out stay as they were. Places of out beyond the ninth, and bytes of kind beyond the fifth,
 * always stay as they were.
 */
uint8_t lsc_feed_log(uint8_t *live, size_t live_length, uint8_t *kind, size_t kind_length,
                     const uint8_t *log, size_t log_length,
                     uint64_t *out, size_t out_length);

/*
 * How a live monitor stands after the records fed so far. It changes nothing in live.
 *
 * Returns 0, and out[0..7] = standing, kept, dropped, records, break, reason, region, term, as
 * lsc_judge has them; or 20 if live holds no live monitor, 21 if the monitor is unfit, 12 if out
 * has fewer than 8 places. A refusal leaves out as it was. Places of out beyond the eighth stay
 * as they were.
 */
uint8_t lsc_standing(const uint8_t *live, size_t live_length,
                     uint64_t *out, size_t out_length);

/*
 * Reads the record of a log at a place: any number, 0 for the first record, then each time the
 * place that was handed out. Times, counts and the other records are not looked at.
 *
 * Returns 0, and out[0..5] = kind, source, destination, label, time, the place just behind the
 * record. For the kinds without a message source, destination and label are 0. For the raw kinds
 * the time is the raw stamp, which is no moment: do not feed it. At the log's end or beyond, the
 * kind is 0, four zeros follow, and out[5] is the place as it came.
 *
 * Or 12 if out has fewer than 6 places, tested first; 31 for an unknown record byte; 30 for a
 * record cut short. A refusal leaves out as it was. Places of out beyond the sixth stay as they
 * were.
 */
uint8_t lsc_read_record(const uint8_t *log, size_t log_length, size_t place,
                        uint64_t *out, size_t out_length);

/*
 * Says only whether a log breaks a chart. The chart is read first, then the log record by record,
 * each checked and then taken, up to the end or a break: nothing behind a break is read. For every
 * log that lsc_judge accepts, the answer is yes if its standing is LSC_STANDS_BROKEN, else no. A
 * fault is refused as in lsc_judge unless a break comes before it; then the answer is yes.
 *
 * Returns 0, and out[0..2] = 1 for yes or 0 for no, and two zeros; or the refusal's number (chart 1
 * to 11 and 13; log 22, 23, 24, 30, 31, 32), and out[0..2] = part, number, offset within the part;
 * or 12 if out has fewer than 3 places, tested first, and out stays as it was. Places of out beyond
 * the third stay as they were.
 */
uint8_t lsc_breaks(const uint8_t *chart, size_t chart_length,
                   const uint8_t *log, size_t log_length,
                   uint64_t *out, size_t out_length);

/*
 * Shows what a live monitor would answer to the chart's messages at a moment. It changes nothing
 * in live.
 *
 * Returns 0, and out[i] for the chart's region i + 1, in the order of its bytes: 0 for a plain
 * region, else what lsc_feed_message would return for the region's message at this time, 1 to 5
 * (LSC_BROKEN to LSC_MOVED). It is the answer to the message, whichever region would fire: regions
 * with one message show the same, and a fired region shows what its message would do again. A
 * broken monitor shows 1 for every message, whatever the time, and after 1,000,000 records too.
 *
 * Or 20 if live holds no live monitor, 21 if the monitor is unfit, 12 if out has fewer bytes than
 * the chart has regions; then, unless the monitor is broken, 22 if the time falls, 23 after
 * 1,000,000 records. A refusal leaves out as it was. Bytes of out beyond the regions stay as they
 * were.
 *
 * *regions is the number of the chart's regions with 0 and with 12, and 0 with every other refusal.
 * It is always written.
 */
uint8_t lsc_preview(const uint8_t *live, size_t live_length, uint32_t time,
                    uint8_t *out, size_t out_length, uint64_t *regions);

/*
 * Saves a chart: reads it and writes it to the start of out in one fixed form. The form is the
 * heading; the regions in order; 50 before the first region of the main chart, just behind the
 * heading if the prechart is empty; 7F. In a region: its 20 or 21, its terms in order, then 32 if
 * its condition is hot, then 40 if it resets a clock, then 33 if it is cold to rest on.
 *
 * Reading what was written gives the same chart, and saving it once more the same bytes. Two charts
 * are the same exactly if they are saved as the same bytes.
 *
 * Returns 0, and *at is the length written, at most 1,317; or the chart's refusal (1 to 11 and 13),
 * and *at is its offset; or 12 if out is too short, and *at is the length needed. A refusal leaves
 * out as it was. Bytes of out beyond the length stay as they were. *at is always written.
 */
uint8_t lsc_write(const uint8_t *chart, size_t chart_length,
                  uint8_t *out, size_t out_length, uint64_t *at);

#ifdef __cplusplus
}
#endif

#endif
