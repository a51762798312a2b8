/*
 * What a display at the hook can start from: it walks over the features of a lock tag without a table, and shows the
 * press that is locked. Build it with: cc hook.c $(pkg-config --cflags --libs fenderrope) -o hook
 *
 *   hook MAIN [EXTENSION]   shows the tag in the file MAIN, and the one in EXTENSION that is hung behind it
 *
 * Each feature is a line of its tag in decimal and its value in hexadecimal; an empty line stands between the two tags.
 * The last line is `press NAME`: feature 11 as C40 text, out of the extension if it has that feature, otherwise out of
 * the main tag; or `no press` where neither has it, or where it is empty or no C40 text. Of a refused tag there is one
 * line and no other, such as `refused 9 at 24 in main`, or `in extension`. The status is 0, but 1 where a tag is
 * refused, and 2 where something else is wrong; standard error then says what.
 *
 * What is shown is what the tags say, not that they are genuine: verifying them is the signing unit's work.
 */
#include <errno.h>
#include <fenderrope.h>
#include <signal.h>
#include <stdio.h>
#include <string.h>

enum { PRESS = 11 };

/* A tag as it was read, with room for a byte more than a seal has: a longer file is refused. */
typedef struct tag {
    uint8_t seal[FR_SEAL_MOST + 1];
    size_t length;
} tag;

/* A file cannot be opened, read or written; errno says why. */
static int failed(const char *what) {
    fprintf(stderr, "hook: %s: %s\n", what, strerror(errno));
    return 2;
}

/* Reads a tag from a file: 0, or the status to end with. */
static int take(const char *path, tag *t) {
    FILE *file = fopen(path, "rb");
    if (!file) return failed(path);
    t->length = fread(t->seal, 1, sizeof t->seal, file);
    if (ferror(file)) return failed(path);
    fclose(file);
    return 0;
}

/* The features of a tag, one after another. */
static void walk(const tag *t) {
    fr_step s = fr_walk_next(t->seal, t->length, fr_walk_open(t->seal, t->length).at);
    for (; s.number == FR_DONE; s = fr_walk_next(t->seal, t->length, s.at)) {
        printf(s.value.length == 0 ? "%zu" : "%zu ", s.tag);
        for (size_t i = 0; i < s.value.length; i++) printf("%02X", t->seal[s.value.place + i]);
        printf("\n");
    }
}

/* Both tags, and the press. The look-up comes first, as it says whether one of them is refused. */
static int show(const tag *main_tag, const tag *extension) {
    static char name[FR_CHARACTERS_MOST];
    fr_where press = fr_shown(main_tag->seal, main_tag->length, extension->seal, extension->length, PRESS);
    if (press.number != FR_DONE && press.number != FR_NO_FEATURE) {
        const char *which = press.which == FR_MAIN ? "main" : "extension";
        printf("refused %zu at %zu in %s\n", press.number, press.place, which);
        return 1;
    }
    walk(main_tag);
    if (extension != main_tag) {
        printf("\n");
        walk(extension);
    }
    const uint8_t *seal = press.which == FR_EXTENSION ? extension->seal : main_tag->seal;
    fr_filled text = fr_c40_read(seal + press.value.place, press.value.length, (uint8_t *)name, sizeof name);
    /* where neither has the feature the part is empty, and so is the text */
    if (text.number == FR_DONE && text.count > 0) printf("press %.*s\n", (int)text.count, name);
    else printf("no press\n");
    return 0;
}

int main(int count, char **words) {
    static tag tags[2];
    signal(SIGPIPE, SIG_IGN); /* output that nobody takes any more is told as any other that fails */
    if (count != 2 && count != 3) {
        fprintf(stderr, "hook: usage: hook MAIN [EXTENSION]\n");
        return 2;
    }
    for (int i = 1; i < count; i++)
        if (take(words[i], &tags[i - 1]) != 0) return 2;
    int status = show(&tags[0], &tags[count - 2]); /* a tag alone is its own extension */
    return ferror(stdout) || fflush(stdout) != 0 ? failed("standard output") : status;
}
