/* The library beside an earlier build of it, in one process. The earlier one's calls are `before_parse`
 * and `before_parse_tokens`.
 *
 *     versions same < CASES                on each line of tools/corpus.py both must answer alike and leave
 *                                          the same words; ours also in a work buffer of the earlier length
 *     versions time < GROUPS               on lines `NAME<TAB>HEX`: nanoseconds a byte, and the ratio
 *     versions once NAME SIDE < GROUPS     one group by one side, `before` or `ours`, inside `collected`
 *
 * Both sides have work buffers of just the words that they ask for.
 */
#define _GNU_SOURCE
#include "../robust/cases.h"
#include <stdio.h>
#include <string.h>
#include <time.h>

typedef uint32_t parse_call(const uint8_t *, size_t, uint32_t *, size_t, uint32_t *, size_t, uint32_t *,
                            size_t, uint64_t *, size_t);
typedef uint32_t tokens_call(const uint8_t *, size_t, const uint32_t *, size_t, size_t, uint32_t *, size_t,
                             uint32_t *, size_t, uint64_t *, size_t);
parse_call before_parse;
tokens_call before_parse_tokens;

enum { LONGEST_WORK = 8 * (MOST + 1), LONGEST_TREE = 32 * (MOST + 1), JUNK = 0xA5 };

/* A build of the library, and what its last call left. */
struct side {
    const char *name;
    parse_call *parse;
    tokens_call *parse_tokens;
    size_t words; /* of work, for each token other than Space and one more */
    uint32_t code;
    uint64_t answer[4];
    uint32_t table[3 * MOST], work[LONGEST_WORK], tree[LONGEST_TREE];
};
static struct side before = {.name = "before", .parse = before_parse, .parse_tokens = before_parse_tokens};
static struct side ours = {.name = "ours", .parse = asciimath_parse, .parse_tokens = asciimath_parse_tokens};

static void fail(const char *what) {
    fprintf(stderr, "%s, on %s\n", what, line ? line : "no line");
    exit(1);
}

static void read_text(struct side *s, size_t words) {
    s->code = s->parse(text, text_len, s->table, table_len, s->work, words * (others + 1), s->tree,
                       ASCIIMATH_TREE_WORDS(others), s->answer, 4);
}

static void read_list(struct side *s, size_t words) {
    s->code = s->parse_tokens(text, text_len, table, table_len, count, s->work, words * (others + 1), s->tree,
                              ASCIIMATH_TREE_WORDS(others), s->answer, 4);
}

/* The least words of work with which a side reads. */
static void find_words(struct side *s) {
    text_len = 1;
    text[0] = 'a';
    tokens_of_text();
    for (s->words = 1; read_text(s, s->words), s->code; s->words++)
        if (s->code != 8 || s->words == 8) fail("no length of work is enough");
}

static void fill(struct side *s) {
    memset(s->answer, JUNK, sizeof s->answer);
    memset(s->table, JUNK, table_len * 4);
    memset(s->work, JUNK, sizeof s->work[0] * 8 * (others + 1));
    memset(s->tree, JUNK, sizeof s->tree[0] * 32 * (others + 1));
}

static void same(void (*read)(struct side *, size_t), size_t words) {
    fill(&before);
    fill(&ours);
    read(&before, before.words);
    read(&ours, words);
    if (before.code != ours.code) fail("another code");
    if (memcmp(before.answer, ours.answer, sizeof ours.answer)) fail("another answer");
    if (memcmp(before.table, ours.table, table_len * 4)) fail("another table");
    if (memcmp(before.tree, ours.tree, sizeof ours.tree[0] * 32 * (others + 1))) fail("another tree");
    for (size_t i = 0; i < words * (others + 1); i++)
        if (ours.work[i] != (ours.code ? JUNK * 0x01010101u : 0)) fail("a work word is another");
}

static double now(void) {
    struct timespec t;
    clock_gettime(CLOCK_MONOTONIC, &t);
    return (double)t.tv_sec * 1e9 + (double)t.tv_nsec;
}

/* Nanoseconds for a call, in the best of three shots. */
static double shot(struct side *s, int calls) {
    double best = 1e300;
    for (int i = 0; i < 3; i++) {
        double start = now();
        for (int j = 0; j < calls; j++) read_text(s, s->words);
        double taken = (now() - start) / calls;
        if (taken < best) best = taken;
    }
    return best;
}

static int by_value(const void *a, const void *b) {
    return (*(const double *)a > *(const double *)b) - (*(const double *)a < *(const double *)b);
}

static double at(double *values, size_t n, double part) {
    qsort(values, n, sizeof *values, by_value);
    return values[(size_t)((double)(n - 1) * part + 0.5)];
}

enum { ROUNDS = 21, TEXTS = 200 };
static double ratios[ROUNDS * TEXTS], sums[2];
static size_t timed, bytes;

static void time_text(void) {
    double times[2][ROUNDS];
    same(read_text, ours.words);
    int calls = (int)(20000 / shot(&before, 3)) + 1;
    if (timed == ROUNDS * TEXTS) fail("too many texts in a group");
    for (int round = 0; round < ROUNDS; round++) {
        /* which side goes first changes from round to round */
        if (round % 2 == 0) times[0][round] = shot(&before, calls);
        times[1][round] = shot(&ours, calls);
        if (round % 2 == 1) times[0][round] = shot(&before, calls);
        ratios[timed++] = times[1][round] / times[0][round];
    }
    bytes += text_len;
    for (int side = 0; side < 2; side++) sums[side] += at(times[side], ROUNDS, 0.5);
}

static void group_done(const char *name) {
    if (!timed) return;
    double low = at(ratios, timed, 0.05), median = at(ratios, timed, 0.5), high = at(ratios, timed, 0.95);
    printf("%s\t%zu\t%.2f\t%.2f\t%.3f\t%.3f\t%.3f\n", name, bytes, sums[0] / (double)bytes,
           sums[1] / (double)bytes, median, low, high);
    timed = bytes = 0;
    sums[0] = sums[1] = 0;
}

/* An instruction counter counts inside this function. */
__attribute__((noinline)) void collected(struct side *s) { read_text(s, s->words); }

int main(int argc, char **argv) {
    const char *mode = argc > 1 ? argv[1] : "";
    int compare = !strcmp(mode, "same"), measure = !strcmp(mode, "time"), once = !strcmp(mode, "once") && argc == 4;
    struct side *one = once && !strcmp(argv[3], before.name) ? &before : &ours;
    if (!compare && !measure && !(once && !strcmp(argv[3], one->name))) {
        fprintf(stderr, "usage: versions same | time | once NAME before | once NAME ours\n");
        return 2;
    }
    find_words(&before);
    find_words(&ours);
    char *given = NULL, name[80] = "";
    size_t size = 0, cases = 0, read = 0;
    while (getline(&given, &size, stdin) > 0) {
        given[strcspn(given, "\n")] = 0;
        char *tab = strchr(given, '\t');
        line = tab ? tab + 1 : given;
        if (tab) {
            *tab = 0;
            if (measure && strcmp(name, given)) group_done(name);
            snprintf(name, sizeof name, "%s", given);
        }
        case_of_line();
        cases++;
        if (compare) {
            if (!is_list) same(read_text, ours.words);
            same(read_list, ours.words);
            same(read_list, before.words);
            read += ours.code == 0;
        } else if (measure) {
            time_text();
        } else if (!strcmp(name, argv[2])) {
            read_text(one, one->words);
            collected(one);
            read++;
        }
    }
    if (measure) group_done(name);
    if (once && !read) fail("no such group");
    if (compare) printf("%zu cases, %zu of them read, the same by both\n", cases, read);
    free(given);
    return 0;
}
