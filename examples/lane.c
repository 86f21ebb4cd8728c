/* Pass or breach for lane staff: reads a recording in bracket text from standard input and prints one line. The verdict
 * asks for no reading buffer, so none is lent.
 *
 *     interface/library
 *     cc -std=c11 -O2 -Wall -Wextra -Wpedantic -Werror examples/lane.c target/staticlib/libinterface.a -o lane
 *     ./lane < examples/week.txt
 *
 * Exit status: 0 a pass, 1 a breach, 2 a refusal, or the input cannot be read. */
#include <inttypes.h>
#include <stdio.h>

#include "../interface/desk.h"

/* A text has at most so many bytes, and its shortest run line, (rest 1), has nine. */
enum { BYTES_AT_MOST = 65536, WORDS_AT_MOST = BYTES_AT_MOST / 9 };

/* By the number of a breach's article, 1 to 6. */
static const char *const articles[] = {"", "7", "6.1", "6.2", "6.3", "8.2", "8"};

static int refused(uint64_t number)
{
    printf("refused %" PRIu64 "\n", number);
    return 2;
}

int main(void)
{
    static uint8_t text[BYTES_AT_MOST + 1];
    static uint32_t words[WORDS_AT_MOST];

    size_t length = fread(text, 1, sizeof text, stdin);
    if (ferror(stdin)) {
        perror("lane");
        return 2;
    }
    if (length > BYTES_AT_MOST)
        return refused(9);

    uint64_t read = desk_read_text(text, length, words, WORDS_AT_MOST);
    if (!DESK_ANSWERED(read))
        return refused(read);

    uint64_t verdict = desk_verdict(words, DESK_VALUE(read));
    if (!DESK_ANSWERED(verdict))
        return refused(verdict);
    if (DESK_PASSED(verdict)) {
        printf("pass\n");
        return 0;
    }
    printf("breach at minute %" PRIu32 ", article %s\n", DESK_MINUTE(verdict), articles[DESK_ARTICLE(verdict)]);
    return 1;
}
