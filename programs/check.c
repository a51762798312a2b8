/*
 * fenderrope-check [FILE]: whether the seal in FILE, or on standard input, is good, and why if it is not. Prints the
 * first line of its listing: `accepted`, or `refused NUMBER at PLACE`; and after the second the first five lines that
 * fenderrope-why prints. Status 0 accepted, 1 refused, 2 anything else, so that a shell that says
 * `fenderrope-check <tag && start` starts only where the seal was accepted and the line was written.
 */
#include <errno.h>
#include <fenderrope.h>
#include <signal.h>
#include <stdio.h>
#include <string.h>

enum { ACCEPTED = 0, REFUSED = 1, FAILED = 2 };
enum { SHOWN = 16 }; /* bytes judged that are printed, at the most */

/* One byte more than the longest seal, so that a longer input is refused. */
static uint8_t seal[FR_SEAL_MOST + 1];

/* Says on standard error what failed, and why. */
static int failed(const char *what, const char *how) {
    fprintf(stderr, "fenderrope-check: %s %s: %s\n", what, how, strerror(errno));
    return FAILED;
}

/* The bytes judged in hexadecimal, the first of them and how many more there are, or `none`. */
static void bytes(fr_part judged) {
    size_t shown = judged.length < SHOWN ? judged.length : SHOWN;
    printf(shown == 0 ? "bytes none" : "bytes");
    for (size_t i = 0; i < shown; i++) printf(" %02X", seal[judged.place + i]);
    if (judged.length > shown) printf(" and %zu more", judged.length - shown);
    printf("\n");
}

/* The line of a refusal, and the five lines that say why. */
static void refused(fr_reason why) {
    uint8_t item[FR_ITEM_NAME_MOST], rule[FR_RULE_WORDS_MOST];
    int name = (int)fr_item_name(why.item, item, sizeof item).count;
    int words = (int)fr_rule_words(why.rule, rule, sizeof rule).count;
    printf("refused %zu at %zu\n", why.number, why.place);
    printf("number %zu\nitem %.*s\nplace %zu\n", why.number, name, (const char *)item, why.place);
    bytes(why.judged);
    printf("rule %.*s\n", words, (const char *)rule);
}

/*
 * Judges what was read, and is done only when all lines have left the program: they wait in a buffer that holds them,
 * which is written at once as output is closed here, and that is checked.
 */
static int judged(size_t length) {
    static char lines[512];
    fr_reason why = fr_why(seal, length);
    setvbuf(stdout, lines, _IOFBF, sizeof lines);
    if (why.number == FR_DONE) printf("accepted\n");
    else refused(why);
    if (ferror(stdout) || fflush(stdout) != 0 || fclose(stdout) != 0)
        return failed("standard output", "cannot be written");
    return why.number == FR_DONE ? ACCEPTED : REFUSED;
}

/* Reads no byte that is not looked at, as nothing is buffered; the end of input is told from a failed read. */
static int checked(FILE *input, const char *name) {
    if (setvbuf(input, NULL, _IONBF, 0) != 0) return failed(name, "cannot be read");
    size_t length = fread(seal, 1, sizeof seal, input);
    if (ferror(input) != 0) return failed(name, "cannot be read");
    return judged(length);
}

int main(int count, char **words) {
#ifdef SIGPIPE
    signal(SIGPIPE, SIG_IGN); /* a pipe that nobody reads is then an output that cannot be written */
#endif
    if (count > 2 || (count == 2 && words[1][0] == '-')) {
        fprintf(stderr, "usage: fenderrope-check [FILE], or fenderrope-check <FILE\n");
        return FAILED;
    }
    if (count < 2) return checked(stdin, "standard input");
    FILE *input = fopen(words[1], "rb");
    return input ? checked(input, words[1]) : failed(words[1], "cannot be opened");
}
