/*
 * The words of the numbers. The table is written by tests/words out of crates/words/specs/Words.antt, as rows of an
 * array, so that the words stand in no test.
 */
#include "lent.h"

static const struct {
    size_t number;
    const char *words;
} words_table[] = {
#include "words_table.h"
};
enum { WORDS = sizeof words_table / sizeof *words_table };

/* The words of a number, or "" where the table has none. */
static const char *words_of(size_t number) {
    size_t i;
    for (i = 0; i < WORDS; i++)
        if (words_table[i].number == number) return words_table[i].words;
    return "";
}

/* With just the room and with more, and refused with every room that is less; what is lent past the words stays. */
static int says(size_t number) {
    const char *words = words_of(number);
    size_t room, count = strlen(words);
    fresh();
    for (room = 0; room < count; room++)
        if (!refused(fr_words(number, lent, room), 63, 0)) return 0;
    if (!done(fr_words(number, lent, count), words, count)) return 0;
    fresh();
    return done(fr_words(number, lent, ROOM), words, count);
}

static void test_words(void) {
    static const size_t far[] = {256, 256 + 9, 65536 + 9, (size_t)1 << 32 | 9, (size_t)1 << 63 | 9, ~(size_t)0};
    size_t number, longest = 0;
    for (number = 0; number < 256; number++) CHECK(says(number));
    for (number = 0; number < sizeof far / sizeof *far; number++) CHECK(says(far[number]));
    for (number = 0; number < WORDS; number++)
        if (strlen(words_table[number].words) > longest) longest = strlen(words_table[number].words);
    CHECK(WORDS == 37 && longest == FR_WORDS_MOST);
    CHECK(strcmp(words_of(FR_TAG_USED), "tag already used") == 0);
    fresh();
    CHECK(done(fr_words(13, NULL, 0), NULL, 0) && refused(fr_words(FR_DONE, NULL, 0), 63, 0));
}
