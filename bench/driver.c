/* The driver: `bench same` compares the three makers on inputs of every call. `bench CASE` prints the nanoseconds of a call by each maker, the
   median of rounds in which each of them runs once, in turn. `bench CASE MAKER TIMES` makes so many calls by one maker, to be counted. Call k
   takes input k % 16. */
#include "real.h"
#include <stdio.h>
#include <stdlib.h>
#include <string.h>
#include <time.h>

#define MAKER(m)                                                                                                       \
    {                                                                                                                  \
        #m, m##_read, m##_judge, m##_why, m##_walk_open, m##_walk_next, m##_shown, m##_write, m##_c40_read,            \
            m##_c40_write, m##_date_from_number, m##_date_to_number, m##_integer_read, m##_integer_write,              \
            m##_signature_to_der, m##_signature_to_raw, m##_hash                                                       \
    }

const maker makers[MAKERS] = {MAKER(c), MAKER(rust), MAKER(fr)};

/* who makes the inputs: not the one whose calls are counted */
static const maker *other = makers;

static given g[INPUTS];
static uint8_t seal[INPUTS][4160], text[INPUTS][6144], bytes[INPUTS][4096], raws[INPUTS][64], ders[INPUTS][144], integers[INPUTS][10], out[6144];
static size_t table[FR_TABLE_MOST], size[INPUTS], characters[INPUTS], widths[INPUTS], number[INPUTS], wanted;
static size_t start[INPUTS], tag[INPUTS];
static fr_date date[INPUTS];

/* calls a call so many times on input i, and gives how many were answered with another number than is wanted, which is 0 where no other is said */
#define LOOP(CALL)                                                                                                                                   \
    size_t bad = 0;                                                                                                                                  \
    for (size_t k = 0; k < times; k++) {                                                                                                             \
        size_t i = k % INPUTS;                                                                                                                       \
        bad += (CALL).number != wanted;                                                                                                              \
    }                                                                                                                                                \
    return bad
#define EACH for (size_t i = 0; i < INPUTS; i++)

static void lend(size_t i, given one) {
    g[i] = one;
    size[i] = write_given(other, g + i, seal[i]).count;
}

static size_t any_version(void) { return 3 + draw(2); }

/* the tag of its first feature */
static size_t tag_of(size_t i) { return g[i].rows[FR_ROW_TAG]; }

static void ready_small(void) { EACH lend(i, real_small(any_version())); }
static void ready_typical(void) { EACH lend(i, real_typical(any_version())); }
static void ready_three(void) { EACH lend(i, real_typical(3)); }
static void ready_four(void) { EACH lend(i, real_typical(4)); }
static void ready_full(void) { EACH lend(i, real_full()); }

/* one byte short: 2 at the signature */
static void ready_cut(void) {
    ready_typical();
    EACH size[i]--;
    wanted = 2;
}

/* the signer begins with digits, 012: 5 at its first byte */
static void ready_signer(void) {
    ready_typical();
    EACH memcpy(seal[i] + 4, "\x1B\x3C", 2);
    wanted = 5;
}

/* the last of 255 tags is another one: 9 there */
static void ready_used(void) {
    ready_full();
    EACH {
        other->read(seal[i], size[i], table, FR_TABLE_MOST, out, FR_TEXT_MOST);
        seal[i][table[FR_ROW * 254 + FR_ROW_TAG_PLACE]] = (uint8_t)table[FR_ROW * draw(254) + FR_ROW_TAG];
    }
    wanted = 9;
}

/* another first byte: 3 there */
static void ready_mark(void) {
    ready_typical();
    EACH seal[i][0] ^= 1;
    wanted = 3;
}

/* another second byte of the country, which no country has with its first: 5 at the first */
static void ready_country(void) {
    ready_typical();
    EACH do seal[i][3] += 7;
    while (other->judge(seal[i], size[i]).number != 5);
    wanted = 5;
}

/* issued on 29 February 1900, of which the third byte alone is in no date: 6 at the first */
static void ready_issued(void) {
    ready_typical();
    EACH memcpy(seal[i] + other->judge(seal[i], size[i]).ends.header - 8, "\x22\xF8\xBC", 3);
    wanted = 6;
}

/* a used tag where FF is to follow 255 features: 9 there */
static void ready_one_more_tag(void) {
    ready_full();
    EACH seal[i][other->judge(seal[i], size[i]).ends.message] = (uint8_t)tag_of(i);
    wanted = 9;
}

/* a signature of 57 bytes: 10 at its length */
static void ready_length(void) {
    ready_typical();
    EACH seal[i][other->judge(seal[i], size[i]).ends.message + 1] = 57;
    wanted = 10;
}

/* a byte behind the seal: 11 there; and behind the longest: 1 */
static void add_byte(size_t number) {
    EACH seal[i][size[i]++] = 0;
    wanted = number;
}

static void ready_more(void) { ready_typical(), add_byte(11); }
static void ready_too_long(void) { ready_full(), add_byte(1); }

/* where the walk over each seal starts; a whole walk ends with 51 */
static void open_all(size_t number) {
    EACH start[i] = other->walk_open(seal[i], size[i]).at;
    wanted = number;
}

static void ready_step(void) { ready_typical(), open_all(0); }
static void ready_walk(void) { ready_typical(), open_all(51); }
static void ready_long_walk(void) { ready_full(), open_all(51); }

/* small seals with a feature each; the extension of each is the next one, which has another tag */
static size_t after(size_t i) { return (i + 1) % INPUTS; }

static void ready_two(void) {
    ready_small();
    EACH while (tag_of(i) == tag_of(after(i))) lend(i, real_small(any_version()));
}

static void ready_in_extension(void) {
    ready_two();
    EACH tag[i] = tag_of(after(i));
}

static void ready_in_main(void) {
    ready_two();
    EACH tag[i] = tag_of(i);
}

static void ready_text(size_t least, size_t most) {
    EACH {
        characters[i] = least + draw(most - least + 1);
        real_text(text[i], characters[i]);
        widths[i] = other->c40_write(text[i], characters[i], bytes[i], 4096).count;
    }
}

static void ready_short(void) { ready_text(6, 60); }
static void ready_long(void) { ready_text(6144, 6144); }

static void ready_dates(void) { EACH date[i] = real_date(), number[i] = date[i].month * 1000000 + date[i].day * 10000 + date[i].year; }

static void ready_signatures(void) {
    EACH {
        real_signature(i, raws[i]);
        widths[i] = other->signature_to_der(32, raws[i], 64, ders[i], 144).count;
    }
}

static void ready_integers(void) { EACH widths[i] = other->integer_write(integer_at(i), integers[i], 10).count; }
static void ready_nothing(void) {}

static size_t run_read(const maker *m, size_t times) { LOOP(m->read(seal[i], size[i], table, FR_TABLE_MOST, out, FR_TEXT_MOST)); }
static size_t run_judge(const maker *m, size_t times) { LOOP(m->judge(seal[i], size[i])); }
static size_t run_why(const maker *m, size_t times) { LOOP(m->why(seal[i], size[i])); }
static size_t run_open(const maker *m, size_t times) { LOOP(m->walk_open(seal[i], size[i])); }
static size_t run_step(const maker *m, size_t times) { LOOP(m->walk_next(seal[i], size[i], start[i])); }
static size_t run_write(const maker *m, size_t times) { LOOP(write_given(m, g + i, out)); }
static size_t run_c40_read(const maker *m, size_t times) { LOOP(m->c40_read(bytes[i], widths[i], out, 6144)); }
static size_t run_c40_write(const maker *m, size_t times) { LOOP(m->c40_write(text[i], characters[i], out, 4096)); }
static size_t run_from_number(const maker *m, size_t times) { LOOP(m->date_from_number(number[i])); }
static size_t run_to_number(const maker *m, size_t times) { LOOP(m->date_to_number(date[i])); }
static size_t run_integer_read(const maker *m, size_t times) { LOOP(m->integer_read(integers[i], widths[i])); }
static size_t run_integer_write(const maker *m, size_t times) { LOOP(m->integer_write(integer_at(i), out, 10)); }
static size_t run_to_der(const maker *m, size_t times) { LOOP(m->signature_to_der(32, raws[i], 64, out, 73)); }
static size_t run_to_raw(const maker *m, size_t times) { LOOP(m->signature_to_raw(32, ders[i], widths[i], out, 64)); }

/* all steps of a walk, with the one that ends it */
static fr_step walk(const maker *m, size_t i) {
    fr_step step = m->walk_next(seal[i], size[i], start[i]);
    while (step.number == 0) step = m->walk_next(seal[i], size[i], step.at);
    return step;
}

static size_t run_walk(const maker *m, size_t times) { LOOP(walk(m, i)); }

static fr_where show(const maker *m, size_t i) {
    return m->shown(seal[i], size[i], seal[after(i)], size[after(i)], tag[i]);
}

static size_t run_shown(const maker *m, size_t times) { LOOP(show(m, i)); }

static size_t run_hash(const maker *m, size_t times) {
    static const size_t n[4] = {28, 32, 48, 64};
    LOOP(m->hash(n[i % 4]));
}

static const struct {
    const char *name;
    void (*ready)(void);
    size_t (*run)(const maker *, size_t);
} cases[] = {
    {"read-82", ready_small, run_read},         {"read-150", ready_typical, run_read},      {"read-4096", ready_full, run_read},
    {"judge-82", ready_small, run_judge},       {"judge-150", ready_typical, run_judge},    {"judge-4096", ready_full, run_judge},
    {"judge-cut", ready_cut, run_judge},        {"judge-signer", ready_signer, run_judge},  {"judge-used", ready_used, run_judge},
    {"judge-mark", ready_mark, run_judge},      {"judge-country", ready_country, run_judge}, {"judge-issued", ready_issued, run_judge},
    {"judge-256", ready_one_more_tag, run_judge}, {"judge-length", ready_length, run_judge}, {"judge-more", ready_more, run_judge},
    {"judge-long", ready_too_long, run_judge},
    {"why-82", ready_small, run_why},           {"why-150", ready_typical, run_why},        {"why-4096", ready_full, run_why},
    {"why-cut", ready_cut, run_why},            {"why-signer", ready_signer, run_why},      {"why-used", ready_used, run_why},
    {"open-150", ready_typical, run_open},      {"open-4096", ready_full, run_open},
    {"step", ready_step, run_step},             {"walk-150", ready_walk, run_walk},
    {"walk-4096", ready_long_walk, run_walk},   {"shown-extension", ready_in_extension, run_shown},
    {"shown-main", ready_in_main, run_shown},
    {"write-82", ready_small, run_write},       {"write-150-4", ready_four, run_write},     {"write-150-3", ready_three, run_write},
    {"write-4096", ready_full, run_write},      {"c40-read-short", ready_short, run_c40_read}, {"c40-read", ready_long, run_c40_read},
    {"c40-write-short", ready_short, run_c40_write}, {"c40-write", ready_long, run_c40_write},
    {"date-from-number", ready_dates, run_from_number}, {"date-to-number", ready_dates, run_to_number},
    {"integer-read", ready_integers, run_integer_read}, {"integer-write", ready_integers, run_integer_write},
    {"to-der", ready_signatures, run_to_der},   {"to-raw", ready_signatures, run_to_raw},   {"hash", ready_nothing, run_hash},
};

/* nanoseconds of processor time, of which other work on the machine takes none */
static double now(void) {
    struct timespec t;
    clock_gettime(CLOCK_PROCESS_CPUTIME_ID, &t);
    return (double)t.tv_sec * 1e9 + (double)t.tv_nsec;
}

/* the nanoseconds of so many calls; stops where one is answered otherwise than is wanted */
static double spend(size_t c, const maker *m, size_t times) {
    double from = now();
    size_t bad = cases[c].run(m, times);
    double spent = now() - from;
    if (bad) {
        fprintf(stderr, "bench: %s by %s: %zu of %zu are not %zu\n", cases[c].name, m->name, bad, times, wanted);
        exit(1);
    }
    return spent;
}

static int below(const void *a, const void *b) {
    double x = *(const double *)a, y = *(const double *)b;
    return (x > y) - (x < y);
}

/* the median of each maker's nanoseconds a call over rounds of about a millisecond a maker, the order turning from round to round */
static void measure(size_t c) {
    enum { ROUNDS = 41 };
    static double spent[MAKERS][ROUNDS];
    size_t times = INPUTS;
    while (spend(c, makers + MAKERS - 1, times) < 1e6) times *= 2;
    for (size_t round = 0; round < ROUNDS; round++)
        for (size_t k = 0; k < MAKERS; k++) {
            size_t m = (k + round) % MAKERS;
            spent[m][round] = spend(c, makers + m, times) / (double)times;
        }
    for (size_t m = 0; m < MAKERS; m++) {
        qsort(spent[m], ROUNDS, sizeof **spent, below);
        printf("%.2f%c", spent[m][ROUNDS / 2], m + 1 < MAKERS ? ' ' : '\n');
    }
}

static size_t find_case(const char *name) {
    for (size_t c = 0; c < sizeof cases / sizeof *cases; c++)
        if (!strcmp(name, cases[c].name)) return c;
    fprintf(stderr, "bench: no such case: %s\n", name);
    exit(2);
}

static size_t find_maker(const char *name) {
    for (size_t m = 0; m < MAKERS; m++)
        if (!strcmp(name, makers[m].name)) return m;
    fprintf(stderr, "bench: no such maker: %s\n", name);
    exit(2);
}

int main(int argc, char **argv) {
    if (argc == 2 && !strcmp(argv[1], "same")) {
        printf("the same answers and bytes from all three on %zu inputs\n", compare_all());
        return 0;
    }
    if (argc != 2 && argc != 4) return 2;
    size_t c = find_case(argv[1]), m = argc == 4 ? find_maker(argv[2]) : 0;
    if (m == 0) other = makers + 1;
    cases[c].ready();
    if (argc == 4) spend(c, makers + m, strtoul(argv[3], NULL, 10));
    else measure(c);
    return 0;
}
