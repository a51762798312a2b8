/*
 * What a hall's program can start from. Build it with: cc hall.c $(pkg-config --cflags --libs fenderrope) -o hall
 *
 *   hall FILE             says which press the lock tag in FILE locks, or why it is no lock tag
 *   hall make NAME FILE   makes a version 4 lock tag for the press NAME and writes it to FILE
 *
 * The press is named by feature 11: 1 to 12 upper-case letters and digits, in C40. The line of a locked press ends
 * with the frame that a camera overlay draws around the feature: the place of its tag in FILE, and how many bytes tag,
 * length and value are together. After the line of a refusal come six that tell the crew why: number, item, place,
 * bytes judged, the rule that they break, and how far the tag is good. The status is 0 where a press is locked or a tag
 * made, 1 where FILE is refused or is no lock tag, and 2 where something else is wrong; standard error then says what.
 *
 * Signing is the signing unit's work: make gives it the signed bytes on standard output and takes the raw signature, 64
 * bytes, from standard input. So is verifying: what is printed is what the tag says, not that it is genuine.
 */
#include <errno.h>
#include <fenderrope.h>
#include <signal.h>
#include <stdarg.h>
#include <stdio.h>
#include <string.h>
#include <time.h>

enum { PRESS = 11, NAME_MOST = 12, VALUE_MOST = 8, SIGNATURE = 64, SHOWN = 16 };

/* Something that is not the tag's is wrong. */
static int wrong(const char *words) {
    fprintf(stderr, "hall: %s\n", words);
    return 2;
}

/* A file cannot be opened, read or written; errno says why. */
static int failed(const char *what) {
    fprintf(stderr, "hall: %s: %s\n", what, strerror(errno));
    return 2;
}

/* Prints on standard output and gives the status; a line that did not get there is no answer. */
static int say(int status, const char *format, ...) {
    va_list list;
    va_start(list, format);
    int printed = vprintf(format, list);
    va_end(list);
    return printed < 0 || fflush(stdout) != 0 ? failed("standard output") : status;
}

/* What a number means, with an end mark. */
static const char *words_of(size_t number) {
    static char words[FR_WORDS_MOST + 1];
    words[fr_words(number, (uint8_t *)words, FR_WORDS_MOST).count] = '\0';
    return words;
}

/* Bytes in hexadecimal, the first sixteen and how many more there are, or none. */
static const char *bytes_of(const uint8_t *bytes, size_t count) {
    static char text[3 * SHOWN + sizeof " and 18446744073709551615 more"];
    size_t shown = count < SHOWN ? count : SHOWN;
    int at = 0;
    if (count == 0) return "none";
    for (size_t i = 0; i < shown; i++) at += sprintf(text + at, i == 0 ? "%02X" : " %02X", bytes[i]);
    if (count > shown) sprintf(text + at, " and %zu more", count - shown);
    return text;
}

/* What stands behind the front part of a refused seal: the first byte that no seal has there, if there is one. */
static const char *hopeless(const uint8_t *seal, size_t length, size_t front) {
    static char text[sizeof "no seal has 00 there"];
    if (front == length) return "the input ends too early";
    sprintf(text, "no seal has %02X there", seal[front]);
    return text;
}

/*
 * Why a seal is refused: the number in words, then what the library says of the item that breaks a rule, and of the
 * first hopeless byte.
 */
static int refused(const uint8_t *seal, size_t length, size_t front) {
    fr_reason why = fr_why(seal, length);
    uint8_t item[FR_ITEM_NAME_MOST], rule[FR_RULE_WORDS_MOST];
    int name = (int)fr_item_name(why.item, item, sizeof item).count;
    int words = (int)fr_rule_words(why.rule, rule, sizeof rule).count;
    return say(1, "refused %zu at %zu: %s\nnumber %zu\nitem %.*s\nplace %zu\nbytes %s\nrule %.*s\ngood up to %zu, %s\n",
               why.number, why.place, words_of(why.number), why.number, name, (const char *)item, why.place,
               bytes_of(seal + why.judged.place, why.judged.length), words, (const char *)rule, front,
               hopeless(seal, length, front));
}

/* Text that went through C40 is a press's name if it is not empty and has no space. */
static int is_name(fr_filled c40, const void *text, size_t length) {
    return c40.number == 0 && length != 0 && !memchr(text, ' ', length);
}

static int show(const char *path) {
    static uint8_t seal[FR_SEAL_MOST + 1], text[FR_TEXT_MOST]; /* a byte more than a seal: a longer file is refused */
    static size_t table[FR_TABLE_MOST];
    FILE *file = fopen(path, "rb");
    if (!file) return failed(path);
    size_t length = fread(seal, 1, sizeof seal, file);
    if (ferror(file)) return failed(path);
    fclose(file);
    fr_reading r = fr_read(seal, length, table, FR_TABLE_MOST, text, sizeof text);
    if (r.number != 0) return refused(seal, length, r.front);
    const size_t *row = table, *end = table + FR_ROW * r.count;
    while (row < end && row[FR_ROW_TAG] != PRESS) row += FR_ROW;
    if (row == end) return say(1, "no lock tag: no press is named\n");
    char name[NAME_MOST];
    size_t place = row[FR_ROW_VALUE_PLACE], size = row[FR_ROW_VALUE_LENGTH];
    fr_filled n = fr_c40_read(seal + place, size, (uint8_t *)name, sizeof name);
    if (!is_name(n, name, n.count)) return say(1, "no lock tag: no name of a press at %zu\n", place);
    size_t frame = row[FR_ROW_TAG_PLACE]; /* what the overlay draws: the whole feature, up to its value's end */
    return say(0, "locked %.*s, signer %.4s, reference %.*s, frame at %zu length %zu\n", (int)n.count, name,
               (const char *)text, (int)r.header.length, (const char *)text + 4, frame, place + size - frame);
}

/* Today by UTC; no date, which the writer refuses, where the clock has none. */
static fr_date today(void) {
    time_t now = time(NULL);
    struct tm *day = now < 0 ? NULL : gmtime(&now);
    if (!day) return (fr_date){0, 0, 0};
    return (fr_date){(size_t)day->tm_mon + 1, (size_t)day->tm_mday, (size_t)day->tm_year + 1900};
}

static int make(const char *name, const char *path) {
    static uint8_t value[VALUE_MOST], signature[SIGNATURE + 1], seal[FR_SEAL_MOST];
    const uint8_t *text = (const uint8_t *)"UTAB00001"; /* the signer, and the reference of its certificate */
    fr_date day = today();
    fr_header header = {4, {'U', 'T', 'O'}, 5, day, day, 1, 2};
    fr_filled v = fr_c40_write((const uint8_t *)name, strlen(name), value, sizeof value);
    if (!is_name(v, name, strlen(name))) return wrong("a press's name is 1 to 12 upper-case letters and digits");
    /* the value's place is 0, and the writer ignores the tag's */
    size_t row[FR_ROW] = {[FR_ROW_TAG] = PRESS, [FR_ROW_VALUE_LENGTH] = v.count};
    /* the signature is still zeros */
    fr_filled s = fr_write(header, text, 9, row, FR_ROW, value, v.count, signature, SIGNATURE, seal, sizeof seal);
    if (s.number != 0) {
        fprintf(stderr, "hall: refused %zu at %zu: %s\n", s.number, s.place, words_of(s.number));
        return 1;
    }
    size_t signed_bytes = fr_judge(seal, s.count).ends.message;
    if (fwrite(seal, 1, signed_bytes, stdout) != signed_bytes || fflush(stdout) != 0) return failed("standard output");
    size_t taken = fread(signature, 1, sizeof signature, stdin);
    if (ferror(stdin)) return failed("standard input");
    if (taken != SIGNATURE) return wrong("the raw signature is not 64 bytes");
    s = fr_write(header, text, 9, row, FR_ROW, value, v.count, signature, SIGNATURE, seal, sizeof seal);
    FILE *file = fopen(path, "wb");
    if (!file) return failed(path);
    if (fwrite(seal, 1, s.count, file) != s.count || fflush(file) != 0 || fclose(file) != 0) return failed(path);
    return 0;
}

int main(int count, char **words) {
    signal(SIGPIPE, SIG_IGN); /* output that nobody takes any more is told as any other that fails */
    if (count == 2) return show(words[1]);
    if (count == 4 && strcmp(words[1], "make") == 0) return make(words[2], words[3]);
    return wrong("usage: hall FILE, or hall make NAME FILE");
}
