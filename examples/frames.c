/*
 * What a camera's overlay can start from: a seal as a picture, each feature in a frame from its tag to its value's end;
 * or, of a refused seal, the bytes judged in red, the first byte that no seal has there in a thick box, and beneath
 * them why.
 * Build it with: cc frames.c $(pkg-config --cflags --libs fenderrope) -o frames
 *
 *   frames <SEAL >PICTURE   reads a seal and writes an SVG of its bytes; bytes are in hexadecimal, places in decimal
 *
 * The status is 0 where the picture is written, 1 where it is that of a refused seal, and 2 where something else is
 * wrong; standard error then says what. At most 4,097 bytes are read and drawn: a longer seal is refused.
 */
#include <errno.h>
#include <fenderrope.h>
#include <signal.h>
#include <stdio.h>
#include <string.h>

/* Lengths: a line has CELLS cells; a frame stands INSET into its own, and comes OUT of the line where it goes on. */
enum { CELLS = 16, CELL = 38, HIGH = 28, BASE = 19, LINE = 46, LEFT = 56, TOP = 88, WIDTH = LEFT + CELLS * CELL + 24 };
enum { INSET = 3, OUT = 5, ENTRY = 20, ENTRIES = 6, SWATCH = 14, PART = 64, WORDS = LEFT + 22, LIST = LEFT + 276 };
enum { TITLE = 128 }; /* bytes for a title */

/* What printf takes for a box: kind, x, y, width and height; and for text: kind, x, y and what the words ask for. */
#define BOX "<rect class=\"%s\" x=\"%d\" y=\"%d\" width=\"%d\" height=\"%d\"/>\n"
#define TEXT(words) "<text class=\"%s\" x=\"%d\" y=\"%d\">" words "</text>\n"

/* The shades are told apart in grey too. */
static const char style[] = "text { font: 15px 'DejaVu Sans Mono', Menlo, Consolas, monospace; text-anchor: middle }\n"
    ".place { text-anchor: end } .number, .words, .title { text-anchor: start } text.length { font-style: italic }\n"
    ".place, .column, .number, .words { font-size: 12px } .number, .title, text.tag { font-weight: bold }\n"
    "rect { fill: #fff; stroke: #fff } rect.header { fill: #9cc3e6 } rect.signature { fill: #d9d9d9 }\n"
    "rect.message, rect.value { fill: #fff3c4 } rect.tag { fill: #e69f00 } rect.length { fill: #f8cf7c }\n"
    ".frame { fill: none; stroke: #000; stroke-width: 2; stroke-linecap: square }\n";
static const char red[] = "rect.byte { fill: #e8e8e8 } rect.judged { fill: #c00000 } .reason { text-anchor: start }\n"
    "text.judged { fill: #fff; font-weight: bold } rect.missing { stroke: #c00000; stroke-width: 4 }\n"
    "rect.hopeless, rect.sample { fill: none; stroke: #000; stroke-width: 4 }\n";

/* Where the cell of a place stands. */
static int across(size_t place) { return LEFT + (int)(place % CELLS) * CELL; }
static int down(size_t place) { return TOP + (int)(place / CELLS) * LINE; }

/* The bytes from a place to an end, each in its cell. */
static void cells(const char *kind, const uint8_t *seal, size_t place, size_t end) {
    for (; place < end; place++) {
        printf(BOX, kind, across(place), down(place), CELL, HIGH);
        printf(TEXT("%02X"), kind, across(place) + CELL / 2, down(place) + BASE, seal[place]);
    }
}

/* One frame around them, a piece a line; there is no upright where it goes on. */
static void frame(size_t place, size_t end) {
    printf("<path class=\"frame\" d=\"");
    for (size_t at = place, stop; at < end; at = stop) {
        size_t line = at - at % CELLS + CELLS; /* where the line ends */
        stop = line < end ? line : end;
        int begins = at == place, ends = stop == end, top = down(at) + INSET, bottom = down(at) + HIGH - INSET;
        int left = across(at) + (begins ? INSET : -OUT), right = across(stop - 1) + CELL + (ends ? -INSET : OUT);
        printf("M%d %dH%d%c%d %dH%d", left, top, right, ends ? 'L' : 'M', right, bottom, left);
        if (begins) printf("V%d", top);
    }
    printf("\"/>\n");
}

/* A feature by its row: tag, length and value in a frame, the tag's number above it, and its line in the legend. */
static void feature(const uint8_t *seal, const size_t *row, int y) {
    size_t tag = row[FR_ROW_TAG_PLACE], value = row[FR_ROW_VALUE_PLACE], length = row[FR_ROW_VALUE_LENGTH];
    cells("tag", seal, tag, tag + 1);
    cells("length", seal, tag + 1, value);
    cells("value", seal, value, value + length);
    frame(tag, value + length);
    printf(TEXT("%zu"), "number", across(tag) + INSET, down(tag) - 2, row[FR_ROW_TAG]);
    printf(TEXT("feature %zu at %zu, value at %zu length %zu"), "words", LIST, y, row[FR_ROW_TAG], tag, value, length);
}

/* The other column of the legend: the zones, and what a frame has in it. */
static void legend(fr_ends ends, int y) {
    static const char *const zones[] = {"header", "message", "signature"}, *const parts[] = {"tag", "length", "value"};
    size_t places[] = {0, ends.header, ends.message, ends.seal};
    int sample = y + ENTRY * ENTRIES - 48;
    for (int i = 0; i < 3; i++, y += ENTRY) {
        printf(BOX, zones[i], LEFT, y - 11, SWATCH, SWATCH);
        printf(TEXT("%s zone at %zu length %zu"), "words", WORDS, y, zones[i], places[i], places[i + 1] - places[i]);
        printf(BOX, parts[i], LEFT + i * PART, sample, PART, HIGH);
        printf(TEXT("%s"), parts[i], LEFT + i * PART + PART / 2, sample + BASE, parts[i]);
    }
    printf(TEXT("number"), "number", LEFT + INSET, sample - 2);
    printf(BOX, "frame", LEFT + INSET, sample + INSET, 3 * PART - 2 * INSET, HIGH - 2 * INSET);
}

/* What every picture begins with: size, title, style, columns, and the place of each line of so many cells. */
static void begin(const char *title, const char *more, size_t count, int height) {
    printf("<svg xmlns=\"http://www.w3.org/2000/svg\" version=\"1.1\" role=\"img\" width=\"%d\" height=\"%d\" "
           "viewBox=\"0 0 %d %d\">\n", WIDTH, height, WIDTH, height);
    printf("<title>Seal of %s</title>\n<style>\n%s%s</style>\n", title, style, more);
    printf(BOX TEXT("%s"), "paper", 0, 0, WIDTH, height, "title", LEFT, 32, title);
    for (size_t i = 0; i < CELLS; i++) printf(TEXT("%zu"), "column", across(i) + CELL / 2, TOP - 20, i);
    for (size_t at = 0; at < count; at += CELLS) printf(TEXT("%zu"), "place", LEFT - 12, down(at) + BASE - 1, at);
}

static void draw(const uint8_t *seal, fr_reading r, const size_t *table) {
    int y = down(r.ends.seal - 1) + LINE + 20, height = y + ENTRY * (r.count < ENTRIES ? ENTRIES : (int)r.count);
    char title[TITLE];
    sprintf(title, "version %zu, %zu bytes, features: %zu", r.header.version, r.ends.seal, r.count);
    begin(title, "", r.ends.seal, height);
    cells("header", seal, 0, r.ends.header);
    for (size_t i = 0; i < r.count; i++) feature(seal, table + FR_ROW * i, y + ENTRY * (int)i);
    cells("signature", seal, r.ends.message, r.ends.seal);
    legend(r.ends, y);
    printf("</svg>\n");
}

/* A line of the reason, with words that the library gave: a `<` in them would begin an element. */
static void line(int y, const char *label, const uint8_t *words, size_t count) {
    printf("<text class=\"reason\" x=\"%d\" y=\"%d\">%s ", LEFT, y, label);
    for (size_t i = 0; i < count; i++) {
        if (words[i] == '<') printf("&lt;");
        else putchar(words[i]);
    }
    printf("</text>\n");
}

/* Why a seal is refused. */
static void reason(fr_reason why, int y) {
    uint8_t item[FR_ITEM_NAME_MOST], rule[FR_RULE_WORDS_MOST];
    printf(TEXT("number %zu at place %zu"), "reason", LEFT, y, why.number, why.place);
    line(y + ENTRY, "item", item, fr_item_name(why.item, item, sizeof item).count);
    line(y + 2 * ENTRY, "rule", rule, fr_rule_words(why.rule, rule, sizeof rule).count);
}

/* How far it is good, by a sample of the box around the first byte that no seal has there, if the input has one. */
static void hope(const uint8_t *seal, size_t length, size_t front, int y) {
    if (front == length) {
        printf(TEXT("good up to %zu, the input ends too early"), "reason", LEFT, y, front);
        return;
    }
    printf(BOX, "sample", LEFT + 2, y - 12, SWATCH, SWATCH);
    printf(TEXT("good up to %zu, no seal has %02X there"), "reason", WORDS, y, front, seal[front]);
}

/*
 * A refused seal: the bytes judged in red, or an empty cell for the missing byte where none were there to be judged;
 * and the box, which comes last, as it lies over the neighbours' edges.
 */
static void draw_refused(const uint8_t *seal, size_t length, fr_reason why, size_t front) {
    size_t place = why.judged.place, end = place + why.judged.length, count = place < end ? length : length + 1;
    int y = down(count - 1) + LINE + 20;
    char title[TITLE];
    const char *more = length > FR_SEAL_MOST ? " or more" : ""; /* no more than these were read */
    sprintf(title, "%zu bytes%s, refused %zu at %zu", length, more, why.number, why.place);
    begin(title, red, count, y + 4 * ENTRY);
    cells("byte", seal, 0, place);
    cells("judged", seal, place, end);
    cells("byte", seal, end, length);
    if (place == end)
        printf(BOX, "missing", across(end) + INSET, down(end) + INSET, CELL - 2 * INSET, HIGH - 2 * INSET);
    if (front < length) printf(BOX, "hopeless", across(front), down(front), CELL, HIGH);
    reason(why, y);
    hope(seal, length, front, y + 3 * ENTRY);
    printf("</svg>\n");
}

/* Something that is not the seal's is wrong. */
static int failed(const char *what, const char *why) {
    fprintf(stderr, "frames: %s: %s\n", what, why);
    return 2;
}

int main(int count, char **arguments) {
    static uint8_t seal[FR_SEAL_MOST + 1], text[FR_TEXT_MOST]; /* a byte more than a seal: a longer one is refused */
    static char words[FR_WORDS_MOST + 1];                      /* and one more than words have: their end mark */
    static size_t table[FR_TABLE_MOST];
    signal(SIGPIPE, SIG_IGN); /* output that nobody takes any more is told as any other that fails */
    if (count > 1) return failed(arguments[1], "usage: frames <SEAL >PICTURE");
    size_t length = fread(seal, 1, sizeof seal, stdin);
    if (ferror(stdin)) return failed("standard input", strerror(errno));
    fr_reading r = fr_read(seal, length, table, FR_TABLE_MOST, text, sizeof text);
    if (r.number == 0) draw(seal, r, table);
    else draw_refused(seal, length, fr_why(seal, length), r.front);
    if (ferror(stdout) || fclose(stdout) != 0) return failed("standard output", strerror(errno));
    if (r.number == 0) return 0;
    fr_words(r.number, (uint8_t *)words, FR_WORDS_MOST);
    return fprintf(stderr, "frames: refused %zu at %zu: %s\n", r.number, r.place, words) < 0 ? 2 : 1;
}
