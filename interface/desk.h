/* The hours desk for C. Link target/staticlib/libinterface.a, which `interface/library` makes for x86-64 Linux.
 *
 * A slice is a pointer and a count of elements. The pointer is never null, also where the count is 0, and is aligned for
 * its elements. A buffer that an operation writes to (a pointer without const) overlaps nothing else that is passed.
 * Any content is fine: every operation answers for all words, bytes and numbers.
 *
 * Answers. A number below DESK_ANSWER is a refusal, by its number:
 *    1 a word has no minutes                      9 too few words for the run lines or the changes
 *    2 the total passes 534,240                  10 too few bytes for the text or the record
 *    3 the list is too short                     11 the record is not of the form, or the recording not of whole days
 *    4 the reading buffer is too short           12 the record has an unknown activity
 *    5 m is over the total                       13 the verdict is a breach, so there is no lawful reading
 *    6 the reading has the wrong byte count      14 the list of weeks is too short
 *    7 the reading has no entry of that number   15 the reading has no old form: a week over 11 or a carrier over 255
 *    8 the text is not of the form
 * Otherwise the operation answered, and the macros below give its value. Only desk_entry_refusal answers with a bare
 * number. On a refusal every buffer is as it was. An operation that fills a buffer writes from its start and leaves what
 * lies beyond.
 *
 * A reading has an entry of four bytes for each long rest: kind (0 daily, 1 weekly), week, and the carrier's low and high byte, a
 * number that is low + 256 * high. The old form has three bytes an entry, the carrier in one.
 *
 * Each promise stands with its function in crates/interface_c/src/lib.rt, and is proved. Nothing is kept between calls, so
 * threads may call at the same time, each on buffers that no other is using. Have 4 MiB of stack for desk_verdict,
 * desk_first_reading and desk_breach_spans; the most that was measured, of a library that an older toolchain built, is
 * 2,370 KiB, on a year made to take much.
 */
#ifndef DESK_H
#define DESK_H

#include <stddef.h>
#include <stdint.h>

#ifdef __cplusplus
extern "C" {
#endif

#define DESK_ANSWER ((uint64_t)1 << 56)

/* A recording has at most so many long rests, so lists of this length and readings of four times as many bytes are never
 * too short. */
#define DESK_LONG_RESTS_AT_MOST 987

/* A recording has at most so many weeks, and desk_breach_spans writes at most one record for each first week, so lists of this
 * length are never too short for it. */
#define DESK_WEEKS_AT_MOST 53

/* Whether an answer is one, and not a refusal; then its value: a count, a rule, or a place: an entry's in its reading, from 0,
 * or an article's in the regulation's order, from 1. */
#define DESK_ANSWERED(answer) ((answer) >= DESK_ANSWER)
#define DESK_VALUE(answer) ((answer) % DESK_ANSWER)

/* N, S and k, from an answer of desk_weigh. */
#define DESK_TOTAL(answer) ((uint32_t)(DESK_VALUE(answer) % 1048576))
#define DESK_JUDGED_END(answer) ((uint32_t)(DESK_VALUE(answer) / 1048576 % 1048576))
#define DESK_LONG_RESTS(answer) ((uint32_t)(DESK_VALUE(answer) / 1048576 / 1048576))

/* Whether an answer of desk_verdict is a pass or a breach; then a breach's minute, and its article: 1 to 5 for the
 * smallest broken rule of 1 to 5 (article 7, 6.1, 6.2, 6.3, 8.2), or 6 (article 8). */
#define DESK_PASSED(answer) ((answer) / DESK_ANSWER == 1)
#define DESK_BREACHED(answer) ((answer) / DESK_ANSWER == 2)
#define DESK_MINUTE(answer) ((uint32_t)(DESK_VALUE(answer) / 8))
#define DESK_ARTICLE(answer) ((uint32_t)(DESK_VALUE(answer) % 8))

/* Weighing: N, S and k, or refusal 1 or 2. */
uint64_t desk_weigh(const uint32_t *words, size_t words_count);

/* A record of a list: the minutes from start up to end, which is not included. */
struct desk_span {
    uint32_t start;
    uint32_t end;
};

/* The long rests, one record each; refusal 1, 2, or 3 where the list has fewer than k records. The value is k. */
uint64_t desk_list(const uint32_t *words, size_t words_count, struct desk_span *list, size_t list_count);

/* The smallest of rules 1 to 5 that the first m minutes break, or 0; refusal 1, 2 or 5. */
uint64_t desk_fixed_test(const uint32_t *words, size_t words_count, uint32_t m);

/* The same rules in the regulation's order: the place, 1 to 5, in 6.1, 6.2, 6.3, 7, 8.2 of the first article that the first m
 * minutes break, or 0; refusal 1, 2 or 5. */
uint64_t desk_article_test(const uint32_t *words, size_t words_count, uint32_t m);

/* The smallest of rules 1 to 11 that the recording with this reading breaks, or 0; refusal 1, 2 or 6. */
uint64_t desk_reading_test(const uint32_t *words, size_t words_count, const uint8_t *reading, size_t reading_count);

/* Where the four bytes of the entry of a number (from 1) begin in the reading; refusal 6 or 7. */
uint64_t desk_entry(const uint8_t *reading, size_t reading_count, size_t number);

/* The companion of desk_entry: 0 where it answers, or its refusal. */
uint64_t desk_entry_refusal(const uint8_t *reading, size_t reading_count, size_t number);

/* The words of a bracket text, one a run line; refusal 8 or 9. The value is their count. */
uint64_t desk_read_text(const uint8_t *text, size_t text_count, uint32_t *words, size_t words_count);

/* The bracket text of a recording; refusal 1, 2 or 10. The value is its length. */
uint64_t desk_write_text(const uint32_t *words, size_t words_count, uint8_t *text, size_t text_count);

/* The words of a card's own day record, one a change; refusal 11, 12, 2 or 9. The record is two bytes a change, high byte
 * first: from the top, a bit each for slot, crew and card out, two bits of activity, eleven of the minute in the day. Minute 0
 * begins a day; no bytes are no days. The value is the count of words. */
uint64_t desk_read_card(const uint8_t *bytes, size_t bytes_count, uint32_t *words, size_t words_count);

/* The record of a recording of whole days: a change at each minute 0 and wherever the activity differs from the minute
 * before, the bits for slot, crew and card out zero; refusal 1, 2, 11 or 10. The value is its length. */
uint64_t desk_write_card(const uint32_t *words, size_t words_count, uint8_t *bytes, size_t bytes_count);

/* The verdict: pass or breach, with no buffer lent; refusal 1 or 2. The value of a pass is 0. */
uint64_t desk_verdict(const uint32_t *words, size_t words_count);

/* The first lawful reading, four bytes for each long rest; refusal 1, 2 or 4, then 13 where the verdict is a breach. The
 * value is the count of its bytes.
 *
 * To have both, ask for the reading first, and for the verdict only on refusal 13: what has a lawful reading is a pass, so
 * that a pass then costs one search, and not two. */
uint64_t desk_first_reading(const uint32_t *words, size_t words_count, uint8_t *reading, size_t reading_count);

/* A stored reading of the old form in the form of four bytes an entry, kind, week and carrier as they are; refusal 6 where its
 * count is no multiple of three, then 4. The value is the count of bytes written. */
uint64_t desk_widen_reading(const uint8_t *old, size_t old_count, uint8_t *wide, size_t wide_count);

/* The move back, into three bytes an entry, kind, week and carrier as they are; refusal 6 where the count is no multiple of
 * four, then 4, then 15 where a week is over 11 or a carrier over 255. The value is the count of bytes written. */
uint64_t desk_narrow_reading(const uint8_t *wide, size_t wide_count, uint8_t *old, size_t old_count);

/* A record of a list: the weeks from first to last, both included. Weeks are numbered from 0. */
struct desk_weeks {
    uint32_t first;
    uint32_t last;
};

/* Which weeks make a breach together: the spans of consecutive weeks, each judged as a recording of its own, that are a
 * breach while no shorter span inside is one, by first week, then last, one record each; refusal 1, 2, or 14 where the list
 * has fewer records. The value is their count. A span goes from a Monday to a Sunday, or to N in the last week. */
uint64_t desk_breach_spans(const uint32_t *words, size_t words_count, struct desk_weeks *list, size_t list_count);

#ifdef __cplusplus
}
#endif

#endif
