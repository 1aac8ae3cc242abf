/* Calls the exported library on each line of standard input, a text in hex or a text and a token
 * list (tools/corpus.py), and then on N cases of random bytes and words.
 *
 *     robust MODE [N]
 *
 *     guard   buffers begin, then end, at a page that must not be touched; what a call only reads is
 *             write-protected
 *     plain   buffers of just the size from malloc, with nothing in them (for valgrind)
 *     stack   how much stack each call needs, measured on a painted one
 */
#define _GNU_SOURCE
#include "cases.h"
#include <inttypes.h>
#include <pthread.h>
#include <signal.h>
#include <stdio.h>
#include <stdlib.h>
#include <string.h>
#include <sys/mman.h>
#include <unistd.h>

enum { COUNT, TOKENS, LOOKUP, PARSE, PARSE_TOKENS, PRINT, MATHML, CLOSERS, CLOSERS_TEXT, CALLS };
static const char *const NAMES[CALLS] = {"count", "tokens", "lookup",  "parse",       "parse_tokens",
                                         "print", "mathml", "closers", "closers_text"};
enum { PAGE = 4096 };

static uint64_t made[ASCIIMATH_REFUSED_SHORT_MATHML + 1], seed = 1;

static void fail(const char *what) {
    fprintf(stderr, "%s, on %s\n", what, line ? line : "random bytes");
    exit(1);
}

static void on_fault(int number) {
    (void)number;
    static const char said[] = "memory outside a buffer was touched, on ";
    (void)!write(2, said, sizeof said - 1);
    if (line) (void)!write(2, line, strlen(line));
    (void)!write(2, "\n", 1);
    _exit(1);
}

static uint32_t some(uint32_t below) {
    seed = seed * 6364136223846793005u + 1442695040888963407u;
    return (uint32_t)(seed >> 33) % below;
}

/* Buffers: text, table, work, tree, the closers' places, out, answer. */
enum { TEXT, TABLE, WORK, TREE, PLACES, OUT, ANSWER, BUFFERS };
static const size_t SIZES[BUFFERS] = {1, 4, 4, 4, 4, 1, 8};
static size_t most[BUFFERS];

/* Whether a call only reads the table. */
static int of_list(int which) { return which == PARSE_TOKENS || which == CLOSERS; }

struct room {
    void *at[BUFFERS];
    size_t length[BUFFERS];
};

static uint32_t call(int which, const struct room *r) {
    void *const *at = r->at;
    const size_t *n = r->length;
    switch (which) {
    case COUNT:
        return asciimath_count(at[TEXT], n[TEXT], at[ANSWER], n[ANSWER]);
    case TOKENS:
        return asciimath_tokens(at[TEXT], n[TEXT], at[TABLE], n[TABLE], at[ANSWER], n[ANSWER]);
    case LOOKUP: /* at any place, and past the text */
        return asciimath_lookup(at[TEXT], n[TEXT], some((uint32_t)n[TEXT] + 2), at[ANSWER], n[ANSWER]);
    case PARSE:
        return asciimath_parse(at[TEXT], n[TEXT], at[TABLE], n[TABLE], at[WORK], n[WORK], at[TREE],
                               n[TREE], at[ANSWER], n[ANSWER]);
    case PARSE_TOKENS:
        return asciimath_parse_tokens(at[TEXT], n[TEXT], at[TABLE], n[TABLE], count, at[WORK],
                                      n[WORK], at[TREE], n[TREE], at[ANSWER], n[ANSWER]);
    case CLOSERS:
        return asciimath_closers(at[TEXT], n[TEXT], at[TABLE], n[TABLE], count, at[PLACES], n[PLACES],
                                 at[ANSWER], n[ANSWER]);
    case CLOSERS_TEXT:
        return asciimath_closers_text(at[TEXT], n[TEXT], at[TABLE], n[TABLE], at[PLACES], n[PLACES],
                                      at[ANSWER], n[ANSWER]);
    case MATHML:
        return asciimath_mathml(at[TEXT], n[TEXT], at[TABLE], n[TABLE], at[WORK], n[WORK], at[TREE],
                                n[TREE], at[OUT], n[OUT], at[ANSWER], n[ANSWER]);
    default:
        return asciimath_print(at[TEXT], n[TEXT], at[TABLE], n[TABLE], at[WORK], n[WORK], at[TREE],
                               n[TREE], at[OUT], n[OUT], at[ANSWER], n[ANSWER]);
    }
}

/* Lengths that are enough, or for one buffer a little less. */
static void lengths(struct room *r, int which, int one_short) {
    const size_t n[BUFFERS] = {text_len, table_len, ASCIIMATH_WORK_WORDS(others),
                               ASCIIMATH_TREE_WORDS(others), others, ASCIIMATH_PRINT_BYTES(others), 4};
    memcpy(r->length, n, sizeof n);
    if (which == MATHML) r->length[OUT] = ASCIIMATH_MATHML_BYTES(text_len);
    if ((which == PRINT || which == MATHML) && some(2)) r->length[OUT] = some(2000);
    if (one_short) {
        int one = (int[]){TABLE, WORK, TREE}[some(3)];
        if (which >= CLOSERS && one != TABLE) one = PLACES;
        if (r->length[one] > 0 && !(of_list(which) && one == TABLE)) r->length[one] -= 1;
    }
    r->length[ANSWER] = some(6);
}

/* guard: each buffer stands in the middle of a mapping of its own, with a closed page on each side. */
static uint8_t *mapping[BUFFERS];

static size_t room_for(int buffer) { return (most[buffer] * SIZES[buffer] + PAGE - 1) / PAGE * PAGE; }

static void guard_setup(void) {
    for (int b = 0; b < BUFFERS; b++) {
        mapping[b] = mmap(NULL, room_for(b) + 2 * PAGE, PROT_NONE, MAP_PRIVATE | MAP_ANONYMOUS, -1, 0);
        if (mapping[b] == MAP_FAILED) fail("no memory");
        mapping[b] += PAGE;
        mprotect(mapping[b], room_for(b), PROT_READ | PROT_WRITE);
    }
    signal(SIGSEGV, on_fault);
    signal(SIGBUS, on_fault);
}

static void guard_calls(int one_short) {
    for (int which = 0; which < CALLS; which++) {
        for (int at_end = 0; at_end < 2; at_end++) {
            struct room r;
            lengths(&r, which, one_short);
            for (int b = 0; b < BUFFERS; b++)
                r.at[b] = mapping[b] + (at_end ? room_for(b) - r.length[b] * SIZES[b] : 0);
            memcpy(r.at[TEXT], text, text_len);
            memcpy(r.at[TABLE], table, r.length[TABLE] * 4);
            mprotect(mapping[TEXT], room_for(TEXT), PROT_READ);
            if (of_list(which)) mprotect(mapping[TABLE], room_for(TABLE), PROT_READ);
            made[call(which, &r)] += 1;
            mprotect(mapping[TEXT], room_for(TEXT), PROT_READ | PROT_WRITE);
            mprotect(mapping[TABLE], room_for(TABLE), PROT_READ | PROT_WRITE);
        }
    }
}

/* plain: buffers from malloc, of which nothing but the input is written before the call. */
static void plain_calls(int one_short) {
    for (int which = 0; which < CALLS; which++) {
        struct room r;
        lengths(&r, which, one_short);
        for (int b = 0; b < BUFFERS; b++)
            if (!(r.at[b] = malloc(r.length[b] ? r.length[b] * SIZES[b] : 1))) fail("no memory");
        memcpy(r.at[TEXT], text, text_len);
        if (of_list(which)) memcpy(r.at[TABLE], table, r.length[TABLE] * 4);
        made[call(which, &r)] += 1;
        for (int b = 0; b < BUFFERS; b++) free(r.at[b]);
    }
}

/* stack: the call runs on a thread whose stack is painted before; what is not paint was used. */
enum { STACK = 1 << 20, PAINT = 0xA5 };
static uint8_t *stack;
static size_t need[CALLS];
static char needs_line[CALLS][80];

struct task {
    int which;
    struct room room;
};

static void *on_thread(void *given) {
    struct task *task = given;
    if (task->which < CALLS) made[call(task->which, &task->room)] += 1;
    return NULL;
}

static size_t stack_used(struct task *task) {
    pthread_attr_t attr;
    pthread_t thread;
    memset(stack, PAINT, STACK);
    pthread_attr_init(&attr);
    if (pthread_attr_setstack(&attr, stack, STACK) || pthread_create(&thread, &attr, on_thread, task))
        fail("no thread");
    pthread_join(thread, NULL);
    pthread_attr_destroy(&attr);
    size_t unused = 0;
    while (stack[unused] == PAINT) unused++;
    return STACK - unused;
}

static void stack_calls(void) {
    static void *at[BUFFERS];
    struct task task = {CALLS, {{0}, {0}}};
    size_t nothing = stack_used(&task);
    for (int which = 0; which < CALLS; which++) {
        task.which = which;
        lengths(&task.room, which, 0);
        for (int b = 0; b < BUFFERS; b++) {
            if (!at[b] && !(at[b] = malloc(most[b] * SIZES[b]))) fail("no memory");
            task.room.at[b] = at[b];
            task.room.length[b] = b == OUT ? most[b] : task.room.length[b];
        }
        memcpy(at[TEXT], text, text_len);
        memcpy(at[TABLE], table, task.room.length[TABLE] * 4);
        size_t used = stack_used(&task) - nothing;
        if (used > need[which]) {
            need[which] = used;
            snprintf(needs_line[which], sizeof needs_line[which], "%zu bytes, %.*s", text_len,
                     text_len < 40 ? (int)text_len : 40, (const char *)text);
        }
    }
}

/* Cases. */
static void random_case(void) {
    text_len = some(some(2) ? 40 : MOST);
    for (size_t i = 0; i < text_len; i++) text[i] = (uint8_t)some(256);
    table_len = some(some(2) ? 60 : 3 * MOST);
    count = some(some(2) ? 20 : MOST);
    others = some(ASCIIMATH_MAX);
    for (size_t i = 0; i < table_len; i++) table[i] = some(9) ? some(24) : some(UINT32_MAX);
    /* most of them ASCII, some of these with their own tokens */
    for (size_t i = 0; i < text_len && seed % 8; i++) text[i] &= 127;
    if (some(2)) tokens_of_text();
}

int main(int argc, char **argv) {
    const char *mode = argc > 1 ? argv[1] : "";
    int guard = !strcmp(mode, "guard"), measure = !strcmp(mode, "stack");
    int random_cases = argc > 2 ? atoi(argv[2]) : 0;
    size_t sizes[BUFFERS] = {MOST, 3 * MOST, ASCIIMATH_WORK_WORDS(MOST), ASCIIMATH_TREE_WORDS(MOST), MOST,
                             ASCIIMATH_PRINT_BYTES(MOST), 6};
    memcpy(most, sizes, sizeof most);
    if (guard) guard_setup();
    if (measure) {
        stack = mmap(NULL, STACK, PROT_READ | PROT_WRITE, MAP_PRIVATE | MAP_ANONYMOUS, -1, 0);
        if (stack == MAP_FAILED) fail("no memory");
    }
    size_t size = 0, cases = 0;
    for (;;) {
        ssize_t read = getline(&line, &size, stdin);
        if (read > 0) {
            line[strcspn(line, "\n")] = 0;
            case_of_line();
        } else if (random_cases-- > 0) {
            free(line);
            line = NULL;
            random_case();
        } else {
            break;
        }
        cases++;
        if (measure) {
            stack_calls();
            continue;
        }
        for (int one_short = 0; one_short < 2; one_short++)
            guard ? guard_calls(one_short) : plain_calls(one_short);
    }
    free(line);
    printf("%s: %zu cases; calls accepted %" PRIu64 ", refused", mode, cases, made[0]);
    for (int k = 1; k <= ASCIIMATH_REFUSED_SHORT_MATHML; k++) printf(" %d: %" PRIu64, k, made[k]);
    printf("\n");
    for (int which = 0; measure && which < CALLS; which++)
        printf("stack of %s: %zu bytes (%s)\n", NAMES[which], need[which], needs_line[which]);
    return 0;
}
