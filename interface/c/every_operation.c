/* Calls every operation of the desk, and those that refuse with a refusal, and prints the answers. */
#include <inttypes.h>
#include <stdio.h>

#include "../desk.h"

enum { REST, AVAILABILITY, WORK, DRIVING };

#define WORD(minutes, activity) (4u * (minutes) + (activity))

static void print_bytes(const uint8_t *bytes, size_t count)
{
    for (size_t i = 0; i < count; i++)
        printf(" %d", bytes[i]);
    printf("\n");
}

static void print_value(const char *operation, uint64_t answer)
{
    if (DESK_ANSWERED(answer))
        printf("%s: %" PRIu64 "\n", operation, DESK_VALUE(answer));
    else
        printf("%s: refused %" PRIu64 "\n", operation, answer);
}

static void print_weighing(const uint32_t *words, size_t count)
{
    uint64_t answer = desk_weigh(words, count);
    if (DESK_ANSWERED(answer))
        printf("weighing: total %" PRIu32 ", judged end %" PRIu32 ", long rests %" PRIu32 "\n", DESK_TOTAL(answer),
               DESK_JUDGED_END(answer), DESK_LONG_RESTS(answer));
    else
        printf("weighing: refused %" PRIu64 "\n", answer);
}

static void print_both_tests(const uint32_t *words, size_t count, uint32_t m)
{
    print_value("fixed test", desk_fixed_test(words, count, m));
    print_value("article test", desk_article_test(words, count, m));
}

static void print_verdict(const uint32_t *words, size_t count)
{
    uint64_t answer = desk_verdict(words, count);
    if (DESK_PASSED(answer))
        printf("verdict: pass, %" PRIu64 "\n", DESK_VALUE(answer));
    else if (DESK_BREACHED(answer))
        printf("verdict: breach at %" PRIu32 ", article %" PRIu32 "\n", DESK_MINUTE(answer), DESK_ARTICLE(answer));
    else
        printf("verdict: refused %" PRIu64 "\n", answer);
}

/* The first lawful reading in so many bytes of a buffer, and the whole buffer. */
static void print_first_reading(const uint32_t *words, size_t count, size_t lent)
{
    uint8_t reading[10] = {9, 9, 9, 9, 9, 9, 9, 9, 9, 9};
    print_value("first reading", desk_first_reading(words, count, reading, lent));
    printf(" ");
    print_bytes(reading, sizeof reading);
}

/* A stored reading of three bytes an entry in so many bytes of a buffer, and the whole buffer. */
static void print_widening(const uint8_t *old, size_t count, size_t lent)
{
    uint8_t wide[10] = {9, 9, 9, 9, 9, 9, 9, 9, 9, 9};
    print_value("widening", desk_widen_reading(old, count, wide, lent));
    printf(" ");
    print_bytes(wide, sizeof wide);
}

/* The move back, the same way. */
static void print_narrowing(const uint8_t *wide, size_t count, size_t lent)
{
    uint8_t old[8] = {9, 9, 9, 9, 9, 9, 9, 9};
    print_value("narrowing", desk_narrow_reading(wide, count, old, lent));
    printf(" ");
    print_bytes(old, sizeof old);
}

/* A week of five days with 540 minutes of driving, and with so many more on a sixth: its 23 words. */
static size_t put_week(uint32_t *words, uint32_t more)
{
    size_t count = 0;
    for (size_t day = 0; day < 5; day++) {
        words[count++] = WORD(270, DRIVING);
        words[count++] = WORD(45, REST);
        words[count++] = WORD(270, DRIVING);
        words[count++] = WORD(855, REST);
    }
    words[count++] = WORD(more, DRIVING);
    words[count++] = WORD(60, WORK);
    words[count++] = WORD(2820 - more, REST);
    return count;
}

/* The spans that are a breach in so many records of a list, and the whole list. */
static void print_spans(const uint32_t *words, size_t count, size_t lent)
{
    struct desk_weeks list[3] = {{7, 8}, {7, 8}, {7, 8}};
    print_value("breach spans", desk_breach_spans(words, count, list, lent));
    for (size_t i = 0; i < 3; i++)
        printf("  %" PRIu32 " to %" PRIu32 "\n", list[i].first, list[i].last);
}

int main(void)
{
    const uint32_t words[] = {WORD(240, DRIVING), WORD(660, REST), WORD(60, WORK), WORD(2700, REST), WORD(1, WORK)};
    const uint32_t long_day[] = {WORD(901, WORK)};
    const uint32_t long_day_after_rest[] = {WORD(540, REST), WORD(901, WORK)};
    /* These break 6.1, 7 and 8.2 at minute 901, and without their work 6.1 and 7 at 691; the late drive 7 and 8.2 at 901. */
    const uint32_t drives[] = {WORD(210, WORK),    WORD(165, DRIVING), WORD(45, REST),
                               WORD(165, DRIVING), WORD(45, REST),     WORD(271, DRIVING)};
    const uint32_t late_drive[] = {WORD(630, WORK), WORD(271, DRIVING)};
    const uint32_t no_minutes[] = {WORD(0, AVAILABILITY)};
    const uint32_t too_long[] = {WORD(534240, REST), WORD(1, WORK)};
    const uint32_t year[] = {WORD(533339, REST), WORD(901, WORK)};
    const uint8_t reading[] = {0, 0, 0, 0, 1, 0, 0, 0};
    /* The highest week and carrier of the old form. Bytes of no lawful reading, which are moved all the same. Then what has no
     * old form: a week of 12, and carriers of 256 and 65,535, each after an entry that has one. */
    const uint8_t old[] = {0, 0, 0, 1, 11, 255};
    const uint8_t wide[] = {0, 0, 0, 0, 1, 11, 255, 0};
    const uint8_t odd[] = {7, 200, 3, 255, 255, 255};
    const uint8_t odd_kinds[] = {7, 11, 3, 0, 255, 0, 0, 0};
    const uint8_t late_week[] = {0, 0, 0, 0, 1, 12, 0, 0};
    const uint8_t far_carrier[] = {0, 0, 0, 0, 1, 0, 0, 1};
    const uint8_t last_carrier[] = {0, 0, 0, 0, 0, 0, 255, 255};
    /* Rest; work from 05:00; driving from 05:20, with a second driver; a day of rest, entered by hand; then a day unknown. */
    const uint8_t days[] = {0x00, 0x00, 0x11, 0x2C, 0x59, 0x40, 0x60, 0x00, 0x20, 0x00};
    struct desk_span list[3] = {{7, 8}, {7, 8}, {7, 8}};
    uint32_t read[8] = {7, 7, 7, 7, 7, 7, 7, 7};
    uint32_t changes[5] = {7, 7, 7, 7, 7};
    uint8_t text[128];
    uint8_t record[10] = {9, 9, 9, 9, 9, 9, 9, 9, 9, 9};
    uint32_t weeks[3 * 23];
    size_t weeks_count = 0;
    uint32_t most[2 * DESK_LONG_RESTS_AT_MOST];
    uint64_t length;

    print_weighing(words, 5);
    print_weighing(words, 0);
    print_weighing(no_minutes, 1);
    print_weighing(too_long, 1);
    print_weighing(too_long, 2);
    print_weighing(year, 2);
    for (size_t i = 0; i < DESK_LONG_RESTS_AT_MOST; i++) {
        most[2 * i] = WORD(540, REST);
        most[2 * i + 1] = WORD(1, WORK);
    }
    print_weighing(most, 2 * DESK_LONG_RESTS_AT_MOST);

    print_value("listing long rests", desk_list(words, 5, list, 3));
    for (size_t i = 0; i < 3; i++)
        printf("  %" PRIu32 " to %" PRIu32 "\n", list[i].start, list[i].end);
    print_value("listing long rests", desk_list(words, 5, list, 1));

    print_value("fixed test", desk_fixed_test(words, 5, 3661));
    print_value("fixed test", desk_fixed_test(long_day, 1, 901));
    print_value("fixed test", desk_fixed_test(long_day, 1, 902));

    print_value("article test", desk_article_test(words, 5, 3661));
    print_value("article test", desk_article_test(long_day, 1, 901));
    print_value("article test", desk_article_test(long_day, 1, 902));
    print_value("article test", desk_article_test(no_minutes, 1, 0));
    print_value("article test", desk_article_test(too_long, 2, 0));
    print_both_tests(drives + 1, 5, 690);
    print_both_tests(drives + 1, 5, 691);
    print_both_tests(drives, 6, 901);
    print_both_tests(late_drive, 2, 901);

    print_value("reading test", desk_reading_test(words, 5, reading, 8));
    print_value("reading test", desk_reading_test(words, 5, far_carrier, 8));
    print_value("reading test", desk_reading_test(words, 5, reading, 6));

    print_value("entry 2", desk_entry(reading, 8, 2));
    print_value("entry 3", desk_entry(reading, 8, 3));
    print_value("entry 2 of six bytes", desk_entry(reading, 6, 2));
    printf("companion of entry 2: %" PRIu64 "\n", desk_entry_refusal(reading, 8, 2));
    printf("companion of entry 3: %" PRIu64 "\n", desk_entry_refusal(reading, 8, 3));
    printf("companion of entry 2 of six bytes: %" PRIu64 "\n", desk_entry_refusal(reading, 6, 2));

    length = desk_write_text(words, 5, text, sizeof text);
    print_value("writing text", length);
    fwrite(text, 1, DESK_VALUE(length), stdout);
    print_value("writing text", desk_write_text(words, 5, text, 10));

    print_value("reading text", desk_read_text(text, DESK_VALUE(length), read, 8));
    for (size_t i = 0; i < 8; i++)
        printf("  %" PRIu32 "\n", read[i]);
    print_value("reading text", desk_read_text(text, 10, read, 8));

    print_value("reading a card", desk_read_card(days, 8, changes, 5));
    for (size_t i = 0; i < 5; i++)
        printf("  %" PRIu32 "\n", changes[i]);
    print_value("reading a card", desk_read_card(days, 9, changes, 5));
    print_value("reading a card", desk_read_card(days, 10, changes, 5));
    print_value("reading a card", desk_read_card(days, 8, changes, 3));

    print_value("writing a card", desk_write_card(changes, 4, record, 7));
    print_value("writing a card", desk_write_card(changes, 2, record, 10));
    print_value("writing a card", desk_write_card(changes, 4, record, 10));
    printf(" ");
    print_bytes(record, sizeof record);

    print_verdict(words, 5);
    print_verdict(words, 0);
    print_verdict(long_day, 1);
    print_verdict(year, 2);
    print_verdict(no_minutes, 1);
    print_verdict(too_long, 2);

    print_first_reading(words, 5, 10);
    print_first_reading(words, 0, 0);
    print_first_reading(no_minutes, 1, 10);
    print_first_reading(too_long, 2, 10);
    print_first_reading(words, 5, 7);
    print_first_reading(long_day_after_rest, 2, 3);
    print_first_reading(long_day_after_rest, 2, 4);
    print_first_reading(long_day_after_rest, 2, 10);

    print_widening(old, 6, 10);
    print_widening(old, 6, 8);
    print_widening(old, 6, 7);
    print_widening(old, 5, 10);
    print_widening(old, 4, 0);
    print_widening(odd, 6, 10);
    print_widening(odd, 0, 0);

    print_narrowing(wide, 8, 8);
    print_narrowing(wide, 8, 6);
    print_narrowing(wide, 8, 5);
    print_narrowing(wide, 7, 8);
    print_narrowing(late_week, 6, 0);
    print_narrowing(odd_kinds, 8, 8);
    print_narrowing(late_week, 8, 8);
    print_narrowing(late_week, 8, 5);
    print_narrowing(far_carrier, 8, 6);
    print_narrowing(last_carrier, 8, 8);
    print_narrowing(last_carrier, 4, 8);
    print_narrowing(last_carrier, 0, 0);

    /* The first week is a pass and so is the second, but with 2,701 minutes of driving each they break 6.3 together. The third
     * breaks 7 by itself. */
    weeks_count += put_week(weeks, 1);
    weeks_count += put_week(weeks + weeks_count, 1);
    weeks_count += put_week(weeks + weeks_count, 271);
    print_verdict(weeks, 23);
    print_verdict(weeks + 23, 23);
    print_verdict(weeks, weeks_count);
    print_spans(weeks, weeks_count, 3);
    print_spans(weeks, weeks_count, 2);
    print_spans(weeks, weeks_count, 1);
    print_spans(weeks, weeks_count, 0);
    print_spans(weeks, 23, 0);
    print_spans(weeks, 0, 0);
    print_spans(long_day, 1, 1);
    print_spans(no_minutes, 1, 0);
    print_spans(too_long, 2, 3);
    return 0;
}
