/*
 * The names of the items and the words of the rules. The tables are written by tests/words out of
 * crates/why_words/specs/Names.antt, as rows of arrays.
 */
#include "lent.h"

typedef struct coded {
    size_t code;
    const char *words;
} coded;

static const coded items_table[] = {
#include "items_table.h"
};
static const coded rules_table[] = {
#include "rules_table.h"
};
enum { ITEMS = sizeof items_table / sizeof *items_table, RULES = sizeof rules_table / sizeof *rules_table };

typedef fr_filled (*naming)(size_t, uint8_t *, size_t);

/* The words of a code, or "" where the table has none. */
static const char *coded_of(const coded *coded_table, size_t rows, size_t code) {
    size_t i;
    for (i = 0; i < rows; i++)
        if (coded_table[i].code == code) return coded_table[i].words;
    return "";
}

static size_t longest_of(const coded *coded_table, size_t rows) {
    size_t i, longest = 0;
    for (i = 0; i < rows; i++)
        if (strlen(coded_table[i].words) > longest) longest = strlen(coded_table[i].words);
    return longest;
}

/* In every room up to 70, and in much: the words and nothing past them, or 42 and nothing where the room is less. */
static int names(naming call, size_t code, const char *words) {
    size_t room, count = strlen(words);
    fresh();
    for (room = 0; room <= 70; room++) {
        fr_filled f = call(code, lent, room);
        if (room < count ? !refused(f, 42, 0) : !done(f, words, count)) return 0;
        if (room >= count) fresh();
    }
    return count <= 70 && done(call(code, lent, ROOM), words, count);
}

/* Every code from 0 to 40, and some that are no code in their lower bytes alone. */
static void check_names(naming call, const coded *coded_table, size_t rows) {
    static const size_t far[] = {256, 256 + 9, 65536 + 9, (size_t)1 << 32 | 9, (size_t)1 << 63 | 9, ~(size_t)0};
    size_t code;
    for (code = 0; code <= 40; code++) CHECK(names(call, code, coded_of(coded_table, rows, code)));
    for (code = 0; code < sizeof far / sizeof *far; code++) CHECK(names(call, far[code], ""));
    fresh();
    CHECK(done(call(0, NULL, 0), NULL, 0) && done(call(rows + 1, NULL, 0), NULL, 0));
    CHECK(refused(call(1, NULL, 0), 42, 0) && refused(call(rows, NULL, 0), 42, 0));
}

static void test_why_words(void) {
    check_names(fr_item_name, items_table, ITEMS);
    check_names(fr_rule_words, rules_table, RULES);
    CHECK(ITEMS == 17 && longest_of(items_table, ITEMS) == FR_ITEM_NAME_MOST);
    CHECK(RULES == 18 && longest_of(rules_table, RULES) == FR_RULE_WORDS_MOST);
    CHECK(strcmp(coded_of(items_table, ITEMS, FR_ITEM_TAG), "tag") == 0);
    CHECK(strcmp(coded_of(rules_table, RULES, FR_RULE_NOT_USED_BEFORE), "a tag is used once only") == 0);
}
