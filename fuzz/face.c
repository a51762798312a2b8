/*
 * Fuzzing of the C face. The same bytes serve as a seal, as C40, as DER and as the arguments of a writing. Held to: no crash, no lent byte changed on a
 * refusal and none outside what is written, what is read writes back the same, and what is written reads back the same. The rows of a seal frame its
 * features, one after another, and the places of the tags change nothing of a writing. Why a seal is refused agrees
 * with the verdict and with the bytes judged (why.h); the walk agrees with the rows, and a look-up with those of two
 * seals (walk.h); some seal begins with the front part of an input, and none with a byte more of it (front.h).
 *
 * The library is compiled code that the fuzzer cannot look into. So each buffer is lent against a page that must not be touched, before it or behind it,
 * and the fuzzer is told the number and place of each answer as its counters.
 */
#define _DEFAULT_SOURCE
#include <fenderrope.h>
#include <stdio.h>
#include <stdlib.h>
#include <string.h>
#include <sys/mman.h>

#define MUST(condition) ((condition) ? (void)0 : broken(#condition, __FILE__, __LINE__))

static void broken(const char *what, const char *file, int line) {
    fprintf(stderr, "%s:%d: does not hold: %s\n", file, line, what);
    abort();
}

#include "why.h"
#include "front.h"

/*
 * How often each number was answered and each call done; and the counters that the fuzzer follows, for each number, or call where it is 0, and a byte of
 * the place.
 */
enum call { READ, WRITE, C40_READ, C40_WRITE, FROM_NUMBER, TO_NUMBER, INTEGER_READ, INTEGER_WRITE, TO_DER, TO_RAW, HASH,
            WALK, STEP, SHOWN, SAY, NAME, RULE, CALLS };
static const char *const names[CALLS] = {"read", "write", "c40_read", "c40_write", "date_from_number", "date_to_number", "integer_read",
                                         "integer_write", "signature_to_der", "signature_to_raw", "hash", "walk",
                                         "walk_next", "shown", "words", "item_name", "rule_words"};
enum { NUMBERS = 66 };
static unsigned long answers[NUMBERS + CALLS];
__attribute__((used, section("__libfuzzer_extra_counters"))) static volatile uint8_t counters[(NUMBERS + CALLS) * 256];

static void seen(enum call call, size_t number, size_t place) {
    MUST(number < NUMBERS);
    size_t row = number == 0 ? NUMBERS + (size_t)call : number;
    answers[row]++;
    counters[row * 256 + (place & 255)] = 1;
}

static void tell(void) {
    fprintf(stderr, "done:");
    for (size_t i = 0; i < CALLS; i++) fprintf(stderr, " %s %lu", names[i], answers[NUMBERS + i]);
    fprintf(stderr, "\nrefused:");
    for (size_t i = 1; i < NUMBERS; i++)
        if (answers[i] != 0) fprintf(stderr, " %zu:%lu", i, answers[i]);
    fprintf(stderr, "\n");
    tell_reasons();
    tell_offsets();
}

/* Lent memory: pages between two that must not be touched, and a copy to compare with. */
enum { PAGE = 4096, SIZE = 2 * PAGE };
enum { SEAL, SECOND, TABLE, TEXT, OUT, ROWS, VALUES, SIGNATURE, BACK, ROOMS };
static struct room {
    uint8_t *low, *at;
    uint8_t before[SIZE];
} rooms[ROOMS];
static int late; /* whether buffers are lent against the page behind, or the page before */

int LLVMFuzzerInitialize(int *count, char ***words) {
    (void)count, (void)words;
    for (size_t i = 0; i < ROOMS; i++) {
        uint8_t *pages = (uint8_t *)mmap(NULL, SIZE + 2 * PAGE, PROT_NONE, MAP_PRIVATE | MAP_ANONYMOUS, -1, 0);
        MUST(pages != (uint8_t *)MAP_FAILED && mprotect(pages + PAGE, SIZE, PROT_READ | PROT_WRITE) == 0);
        rooms[i].low = pages + PAGE;
    }
    find_days();
    atexit(tell);
    return 0;
}

/* Lends `size` bytes, holding those given or, with none given, a pattern. */
static void *lend(int room, const void *bytes, size_t size) {
    struct room *r = &rooms[room];
    MUST(size <= SIZE);
    memset(r->low, 0xC5, SIZE);
    r->at = late ? r->low + SIZE - size : r->low;
    if (bytes && size != 0) memcpy(r->at, bytes, size);
    memcpy(r->before, r->low, SIZE);
    return r->at;
}

/* Whether the room is as it was lent, but for the first `written` bytes. */
static int kept(int room, size_t written) {
    const struct room *r = &rooms[room];
    size_t front = (size_t)(r->at - r->low), back = front + written;
    return back <= SIZE && memcmp(r->low, r->before, front) == 0 && memcmp(r->low + back, r->before + back, SIZE - back) == 0;
}

static int same_header(fr_header a, fr_header b) {
    return a.version == b.version && memcmp(a.country, b.country, 3) == 0 && a.length == b.length && a.definition == b.definition
        && a.category == b.category && memcmp(&a.issued_on, &b.issued_on, sizeof(fr_date)) == 0
        && memcmp(&a.signed_on, &b.signed_on, sizeof(fr_date)) == 0;
}

static int same_reading(fr_reading a, fr_reading b) {
    return a.number == b.number && a.place == b.place && same_header(a.header, b.header) && memcmp(&a.ends, &b.ends, sizeof(fr_ends)) == 0
        && memcmp(&a.signature, &b.signature, sizeof(fr_part)) == 0 && a.count == b.count && a.front == b.front;
}

/* An answer that refuses: every field but number, place and front is 0, and nothing lent has changed. */
static void refused(fr_reading r) {
    fr_reading none;
    seen(READ, r.number, r.place);
    memset(&none, 0, sizeof none);
    none.number = r.number;
    none.place = r.place;
    none.front = r.front;
    MUST(r.number != 0 && same_reading(r, none) && kept(SEAL, 0) && kept(TABLE, 0) && kept(TEXT, 0));
}

/* An answer of a call that fills OUT: what it says it wrote, and no more, has changed. */
static void filled(enum call call, fr_filled f, size_t room) {
    seen(call, f.number, f.number == 0 ? f.count : f.place);
    MUST(f.count <= room && kept(OUT, f.count) && (f.number == 0 ? f.place == 0 : f.count == 0));
}

/* What all bytes of the input choose: a fault, and numbers of any size, one after another. */
static uint32_t choice;
static uint64_t drawn;

static void choose(const uint8_t *data, size_t size) {
    choice = 2166136261u;
    for (size_t i = 0; i < size; i++) choice = (choice ^ data[i]) * 16777619u;
    drawn = choice;
}

static size_t any(void) {
    drawn = drawn * 6364136223846793005u + 1442695040888963407u;
    return (size_t)(drawn << 6) >> (drawn >> 58);
}

#include "walk.h"

/* Lends the rows with other places of their tags. */
static const size_t *with_other_places(const size_t *rows, size_t numbers) {
    static size_t other[FR_TABLE_MOST];
    if (numbers != 0) memcpy(other, rows, numbers * sizeof *rows);
    for (size_t i = FR_ROW_TAG_PLACE; i < numbers; i += FR_ROW) other[i] = any();
    return (const size_t *)lend(ROWS, other, numbers * sizeof *rows);
}

/* Writes the seal that was read, by these rows over its own bytes, in so much room. */
static fr_filled rewrite(fr_reading r, size_t size, const size_t *rows, size_t room) {
    const uint8_t *seal = rooms[SEAL].at;
    uint8_t *out = (uint8_t *)lend(OUT, NULL, room);
    fr_filled f = fr_write(r.header, rooms[TEXT].at, 4 + r.header.length, rows, FR_ROW * r.count, seal, size, seal + r.signature.place,
                           r.signature.length, out, room);
    filled(WRITE, f, room);
    MUST(kept(SEAL, 0) && (f.number != 0 || (f.count == size && memcmp(out, seal, size) == 0)));
    return f;
}

/* The seal that was read is written back as it was, in just its room and in no less, and with any places of the tags. */
static void write_back(fr_reading r, size_t size) {
    const size_t *rows = (const size_t *)(const void *)rooms[TABLE].at;
    MUST(rewrite(r, size, rows, size - 1).number == 28);
    MUST(rewrite(r, size, rows, size).number == 0);
    MUST(rewrite(r, size, with_other_places(rows, FR_ROW * r.count), size).number == 0 && kept(ROWS, 0));
}

/* Reads into a table of so many numbers, and so much room for text. */
static fr_reading read_into(const uint8_t *seal, size_t size, size_t numbers, size_t room) {
    size_t *table = (size_t *)lend(TABLE, NULL, numbers * sizeof(size_t));
    uint8_t *text = (uint8_t *)lend(TEXT, NULL, room);
    return fr_read(seal, size, table, numbers, text, room);
}

static void too_short(const uint8_t *seal, size_t size, size_t numbers, size_t room) {
    fr_reading r = read_into(seal, size, numbers, room);
    refused(r);
    MUST(r.number == 12 && r.place == 0 && r.front == size);
}

/* With just the room, or one more, which is no whole row, the answer is the same; with one less, or a number less a feature, it is 12. */
static void in_rooms(const uint8_t *seal, size_t size, fr_reading whole) {
    size_t count = whole.count, numbers = FR_ROW * count, room = 4 + whole.header.length;
    for (size_t more = 0; more < 2; more++)
        MUST(same_reading(read_into(seal, size, numbers + more, room + more), whole) && kept(TABLE, numbers * sizeof(size_t)) && kept(TEXT, room));
    too_short(seal, size, numbers, room - 1);
    if (count == 0) return;
    too_short(seal, size, numbers - 1, room);
    too_short(seal, size, (FR_ROW - 1) * count, room);
}

/* The rows of a seal: features one after another from the header's end to FF, each of its tag, its length in just the bytes it takes, and its value. */
static void framed(fr_reading r, const uint8_t *seal, const size_t *row) {
    size_t at = r.ends.header, end = r.ends.message;
    for (size_t i = 0; i < r.count; i++, row += FR_ROW) {
        size_t size = row[FR_ROW_VALUE_LENGTH], width = r.header.version == 3 || size < 128 ? 1 : size < 256 ? 2 : 3;
        MUST(at < end && row[FR_ROW_TAG_PLACE] == at && seal[at] == row[FR_ROW_TAG]);
        MUST(end - at > width && row[FR_ROW_VALUE_PLACE] == at + 1 + width && size <= end - at - 1 - width);
        at += 1 + width + size;
    }
    MUST(at == end && seal[at] == 0xFF);
}

static fr_reading read_whole(const void *bytes, size_t size) {
    const uint8_t *seal = (const uint8_t *)lend(SEAL, bytes, size);
    fr_reading r = read_into(seal, size, FR_TABLE_MOST, FR_TEXT_MOST);
    MUST(same_reading(r, fr_judge(seal, size)));
    explained(r, seal, size);
    fronted(r, seal, size);
    walked(r, seal, size, (const size_t *)(const void *)rooms[TABLE].at);
    strayed(seal, size);
    MUST(kept(SEAL, 0));
    if (r.number != 0) return r;
    MUST(r.place == 0 && r.ends.header <= r.ends.message && r.ends.message < r.signature.place && r.ends.seal == size);
    MUST(r.signature.place + r.signature.length == size && r.count <= FR_FEATURES_MOST);
    framed(r, seal, (const size_t *)(const void *)rooms[TABLE].at);
    return r;
}

static void read_seal(const uint8_t *data, size_t size) {
    fr_reading r = read_whole(data, size);
    if (r.number != 0) {
        MUST(r.number <= 11 && r.place <= size && (r.number != 5 || (r.place % 2 == 0 && r.place >= 2 && r.place + 2 <= size)));
        refused(r);
        return;
    }
    seen(READ, 0, r.count);
    MUST(kept(TABLE, FR_ROW * r.count * sizeof(size_t)) && kept(TEXT, 4 + r.header.length));
    write_back(r, size);
    in_rooms(rooms[SEAL].at, size, r);
}

/* The input as a source of numbers; past its end all are 0. */
static const uint8_t *next;
static size_t rest;

static size_t take(size_t bytes) {
    size_t number = 0;
    for (; bytes > 0; bytes--) {
        number = number << 8 | (rest == 0 ? 0 : *next);
        if (rest > 0) next++, rest--;
    }
    return number;
}

/* Once in sixty-four bytes, and not at 00 or FF, which stand everywhere in what a fuzzer makes. */
static int rarely(void) {
    return take(1) >> 2 == 0x2D;
}

/* A number below `bound`, or rarely any number. */
static size_t most(size_t bound) {
    return rarely() ? take(8) : take(2) % bound;
}

/* A day of the calendar; once in eight a day of 29 to 31, which its month may not have. */
static fr_date take_date(void) {
    static const uint8_t days[] = {31, 28, 31, 30, 31, 30, 31, 31, 30, 31, 30, 31};
    fr_date date;
    date.month = 1 + most(12);
    date.day = take(1) % 8 == 0 ? 29 + most(3) : 1 + most(date.month - 1 < 12 ? days[date.month - 1] : 31);
    date.year = 1 + most(9999);
    return date;
}

/* Arguments of a writing, in most cases legal ones. */
static fr_header header;
enum { ROWS_MOST = 16 };
static uint8_t text[300], values[FR_SEAL_MOST], signature[200];
static size_t rows[FR_ROW * ROWS_MOST], text_length, values_length, rows_length, signature_length;

static void take_header(void) {
    static const char letters[] = "ABCDEFGHIJKLMNOPQRSTUVWXYZ0123456789";
    memset(&header, 0, sizeof header);
    header.version = 3 + most(2);
    for (size_t i = 0; i < 3; i++) header.country[i] = (uint8_t)letters[take(1) % 26];
    for (size_t fillers = most(3), i = 0; fillers < 4 && i < fillers; i++) header.country[2 - i] = '<';
    header.issued_on = take_date();
    header.signed_on = take_date();
    header.definition = 1 + most(254);
    header.category = 1 + most(254);
    header.length = header.version == 3 ? 5 : 1 + take(1) % 255;
    text_length = 4 + header.length;
    for (size_t i = 0; i < text_length; i++) text[i] = (uint8_t)letters[take(1) % (i < 2 ? 26 : 36)];
    if (rarely()) text[take(1) % text_length] = (uint8_t)take(1);
    if (rarely()) header.length = take(1);
}

/* A row over the values, its tag rarely over 254, its tag's place any number. */
static void take_row(size_t *row, size_t i, size_t longest) {
    row[FR_ROW_TAG] = rarely() ? take(8) : (take(1) + 17 * i) % 255;
    row[FR_ROW_TAG_PLACE] = any();
    row[FR_ROW_VALUE_PLACE] = most(values_length + 1);
    size_t left = row[FR_ROW_VALUE_PLACE] < values_length ? values_length - row[FR_ROW_VALUE_PLACE] : 0;
    row[FR_ROW_VALUE_LENGTH] = most((left < longest ? left : longest) + 1);
}

/* Values, the input over and over; rows over them, rarely with a part of one more, and a signature. */
static void take_rows(const uint8_t *data, size_t size) {
    static const size_t sizes[] = {56, 64, 96, 128, 132};
    size_t count = take(1) % ROWS_MOST, n = most(5), longest = take(1) % 2 == 0 ? FR_SEAL_MOST : 255;
    values_length = size == 0 ? 0 : take(2) % (FR_SEAL_MOST + 1);
    for (size_t i = 0; i < values_length; i++) values[i] = data[i % size];
    memset(rows, 0, sizeof rows);
    for (size_t i = 0; i < count; i++) take_row(rows + FR_ROW * i, i, longest);
    rows_length = FR_ROW * count + (rarely() ? take(1) % FR_ROW : 0);
    signature_length = n < 5 ? sizes[n] : n % 200;
    for (size_t i = 0; i < signature_length; i++) signature[i] = (uint8_t)take(1);
}

/* What was written reads back as the arguments. */
static void read_back(size_t count) {
    fr_reading r = read_whole(rooms[OUT].at, count);
    const uint8_t *seal = rooms[SEAL].at;
    const size_t *table = (const size_t *)(const void *)rooms[TABLE].at;
    MUST(r.number == 0 && same_header(r.header, header) && memcmp(rooms[TEXT].at, text, text_length) == 0 && r.count == rows_length / FR_ROW);
    for (size_t i = 0; i < r.count; i++) {
        const size_t *given = rows + FR_ROW * i, *got = table + FR_ROW * i;
        size_t size = got[FR_ROW_VALUE_LENGTH];
        MUST(got[FR_ROW_TAG] == given[FR_ROW_TAG] && size == given[FR_ROW_VALUE_LENGTH]);
        MUST(memcmp(seal + got[FR_ROW_VALUE_PLACE], values + given[FR_ROW_VALUE_PLACE], size) == 0);
    }
    MUST(r.signature.length == signature_length && memcmp(seal + r.signature.place, signature, signature_length) == 0);
}

/* A copy of `count` bytes with the fault chosen: cut, a byte longer, or one bit changed. Gives its length. */
static uint8_t damaged[SIZE + 1];

static size_t damage(const uint8_t *bytes, size_t count) {
    size_t at = count == 0 ? 0 : (choice >> 8) % count;
    memcpy(damaged, bytes, count);
    damaged[count] = 0;
    if (choice % 8 > 1) damaged[at] ^= (uint8_t)(1u << (choice >> 3) % 8);
    return choice % 8 == 0 ? at : choice % 8 == 1 ? count + 1 : count;
}

/* Writes by the arguments, with these rows, into OUT. */
static fr_filled write_given(const size_t *given, size_t room) {
    const uint8_t *bytes = (const uint8_t *)lend(VALUES, values, values_length), *given_text = (const uint8_t *)lend(TEXT, text, text_length);
    const uint8_t *raw = (const uint8_t *)lend(SIGNATURE, signature, signature_length);
    uint8_t *out = (uint8_t *)lend(OUT, NULL, room);
    fr_filled f = fr_write(header, given_text, text_length, given, rows_length, bytes, values_length, raw, signature_length, out, room);
    filled(WRITE, f, room);
    MUST(kept(VALUES, 0) && kept(TEXT, 0) && kept(SIGNATURE, 0) && kept(ROWS, 0) && (f.number == 0 || (f.number >= 20 && f.number <= 28)));
    return f;
}

/*
 * Writes twice, the second time with other places of the tags: the same answer and bytes. What is written is looked up
 * in beside the input and beside itself with a fault.
 */
static void write_seal(const uint8_t *data, size_t size) {
    static uint8_t first[SIZE];
    next = data, rest = size;
    take_header();
    take_rows(data, size);
    size_t room = rarely() ? take(2) % (SIZE + 1) : FR_SEAL_MOST;
    fr_filled f = write_given((const size_t *)lend(ROWS, rows, rows_length * sizeof(size_t)), room);
    MUST(rows_length % FR_ROW == 0 || (f.number >= 20 && f.number <= 24));
    memcpy(first, rooms[OUT].low, SIZE);
    fr_filled again = write_given(with_other_places(rows, rows_length), room);
    MUST(again.number == f.number && again.count == f.count && memcmp(first, rooms[OUT].low, SIZE) == 0);
    hung_up(data, size, f.number == 0 ? rooms[OUT].at : data, f.number == 0 ? f.count : size);
    if (f.number != 0) return;
    read_back(f.count);
    size_t length = damage(rooms[OUT].at, f.count);
    hung_up(rooms[OUT].at, f.count, damaged, length);
    read_seal(damaged, length);
}

/* The calls that fill a buffer from bytes; n serves those that take one. */
static fr_filled fill(enum call call, size_t n, const uint8_t *bytes, size_t length, uint8_t *out, size_t room) {
    fr_filled f = call == C40_READ ? fr_c40_read(bytes, length, out, room)
        : call == C40_WRITE        ? fr_c40_write(bytes, length, out, room)
        : call == TO_DER           ? fr_signature_to_der(n, bytes, length, out, room)
                                   : fr_signature_to_raw(n, bytes, length, out, room);
    filled(call, f, room);
    MUST(kept(BACK, 0));
    if (f.number == 41 || f.number == 46 || f.number == 47) { /* the pair's own two bytes tell which */
        MUST(call == C40_READ && f.place % 2 == 0 && f.place + 2 <= length);
        MUST(f.number == (bytes[f.place] == 0xFE ? 47u : bytes[f.place] >= 0xFA || (bytes[f.place] | bytes[f.place + 1]) == 0 ? 41u : 46u));
    }
    return f;
}

/* A call, and the call back, which must give the bytes again. Gives the count of the bytes between, which stay in BACK. */
static size_t there_and_back(enum call there, enum call back, size_t n, const uint8_t *data, size_t size, size_t room) {
    const uint8_t *bytes = (const uint8_t *)lend(BACK, data, size);
    uint8_t *out = (uint8_t *)lend(OUT, NULL, room);
    fr_filled f = fill(there, n, bytes, size, out, room);
    if (f.number != 0) return 0;
    size_t between = f.count;
    bytes = (const uint8_t *)lend(BACK, out, between);
    out = (uint8_t *)lend(OUT, NULL, size);
    f = fill(back, n, bytes, between, out, size);
    MUST(f.number == 0 && f.count == size && (size == 0 || memcmp(out, data, size) == 0));
    return between;
}

/* The same, and then from the bytes between with a fault in them. */
static void with_fault(enum call there, enum call back, size_t n, const uint8_t *data, size_t size, size_t room) {
    size_t between = there_and_back(there, back, n, data, size, room);
    if (between == 0) return;
    size_t length = damage(rooms[BACK].at, between);
    if (length <= SIZE) there_and_back(back, there, n, damaged, length, SIZE);
}

static void integers(const uint8_t *data, size_t size) {
    const uint8_t *bytes = (const uint8_t *)lend(BACK, data, size);
    fr_integer r = fr_integer_read(bytes, size);
    seen(INTEGER_READ, r.number, size);
    MUST(kept(BACK, 0) && r.place == 0 && (r.number == 0 || r.value == 0));
    int64_t value = r.number == 0 ? r.value : (int64_t)take(8) >> take(1) % 64;
    size_t room = r.number == 0 ? size : rarely() ? take(1) % FR_INTEGER_MOST : FR_INTEGER_MOST;
    uint8_t *out = (uint8_t *)lend(OUT, NULL, room);
    fr_filled f = fr_integer_write(value, out, room);
    filled(INTEGER_WRITE, f, room);
    MUST(r.number != 0 || (f.number == 0 && f.count == size && memcmp(out, data, size) == 0));
    if (f.number != 0) return;
    r = fr_integer_read(out, f.count);
    MUST(r.number == 0 && r.value == value);
}

static void dates(size_t number) {
    fr_dated d = fr_date_from_number(number);
    fr_numbered n = fr_date_to_number(d.date);
    seen(FROM_NUMBER, d.number, d.place);
    seen(TO_NUMBER, n.number, n.place);
    MUST(d.number == 0 ? n.number == 0 && n.value == number : d.number == 6 && d.date.month == 0 && d.date.day == 0 && d.date.year == 0 && n.number == 22);
}

/* The calls that give words: the number where there is no room, their most bytes, and the code after the last. */
static const struct {
    fr_filled (*words)(size_t, uint8_t *, size_t);
    size_t no_room, most, end;
} sayings[] = {{fr_words, 63, FR_WORDS_MOST, NUMBERS},
               {fr_item_name, 42, FR_ITEM_NAME_MOST, ITEMS},
               {fr_rule_words, 42, FR_RULE_WORDS_MOST, RULES}};

static fr_filled said_in(enum call call, size_t code, size_t room) {
    fr_filled f = sayings[call - SAY].words(code, (uint8_t *)lend(OUT, NULL, room), room);
    filled(call, f, room);
    return f;
}

/*
 * A code's words in any room: all of them or none, in ASCII; the same in just their room, and refused in one byte less.
 * Every item and every rule has some, and no other code.
 */
static void say(enum call call, size_t code, size_t room) {
    uint8_t words[FR_WORDS_MOST];
    size_t no_room = sayings[call - SAY].no_room, most = sayings[call - SAY].most;
    int listed = code < sayings[call - SAY].end;
    fr_filled f = said_in(call, code, room);
    MUST(f.number == 0 ? f.count <= most && (listed || f.count == 0) : f.number == no_room && room < most && listed);
    MUST(f.place == 0 && (call == SAY || f.number != 0 || (f.count != 0) == (listed && code != 0)));
    if (f.count == 0) return;
    memcpy(words, rooms[OUT].at, f.count);
    for (size_t i = 0; i < f.count; i++) MUST(words[i] >= ' ' && words[i] <= '~');
    MUST(said_in(call, code, f.count).number == 0 && memcmp(rooms[OUT].at, words, f.count) == 0);
    MUST(said_in(call, code, f.count - 1).number == no_room);
}

static void codecs(const uint8_t *data, size_t size) {
    static const size_t sizes[] = {28, 32, 48, 64, 66};
    next = data, rest = size;
    size_t number = take(4), n = most(5), room = most(SIZE + 1);
    n = n < 5 ? sizes[n] : n;
    if (room > SIZE) room = SIZE;
    with_fault(C40_READ, C40_WRITE, 0, data, size, room);
    with_fault(C40_WRITE, C40_READ, 0, data, size, room);
    with_fault(TO_RAW, TO_DER, n, data, size, room);
    with_fault(TO_DER, TO_RAW, n, data, n <= 66 && 2 * n <= size ? 2 * n : size, room);
    integers(data, size);
    dates(number);
    dates((1 + number % 13) * 1000000 + (number >> 8) % 33 * 10000 + (number >> 16) % 10000);
    dates(2000000 + (28 + number % 3) * 10000 + (number >> 8) % 2500 * 4);
    fr_hashed h = fr_hash(n);
    seen(HASH, h.number, h.bits / 2);
    MUST(h.number == 0 ? h.bits >= 224 && h.bits <= 512 : h.number == 60 && h.bits == 0);
    for (size_t call = SAY; call <= RULE; call++) {
        number = most(sayings[call - SAY].end + 14);
        say((enum call)call, number, rarely() ? room : take(1) % (sayings[call - SAY].most + 2));
    }
}

int LLVMFuzzerTestOneInput(const uint8_t *data, size_t size) {
    if (size > FR_SEAL_MOST + 100) return 0;
    late = size == 0 || (data[size - 1] & 1) == 0;
    choose(data, size);
    read_seal(data, size);
    drawn_header();
    crowded();
    write_seal(data, size);
    codecs(data, size);
    return 0;
}
