/* The library's answer to each line of standard input, a text in lower-case hex: its token table, the root's items
 * and the tree's words without the zeros behind them, with tabs between the three. */
#include "../../include/asciimath.h"
#include <stdio.h>

static char line[2 * ASCIIMATH_MAX + 2];
static uint8_t text[ASCIIMATH_MAX];
static uint32_t table[ASCIIMATH_TABLE_WORDS(ASCIIMATH_MAX)], work[ASCIIMATH_WORK_WORDS(ASCIIMATH_MAX)];
static uint32_t tree[ASCIIMATH_TREE_WORDS(ASCIIMATH_MAX)];

static int digit(char c) { return c <= '9' ? c - '0' : c - 'a' + 10; }

static void put(const uint32_t *words, size_t count) {
    for (size_t i = 0; i < count; i++) printf(i ? " %u" : "%u", (unsigned)words[i]);
}

int main(void) {
    while (fgets(line, sizeof line, stdin)) {
        size_t len = 0, words;
        for (const char *at = line; *at >= '0'; at += 2) text[len++] = (uint8_t)(16 * digit(at[0]) + digit(at[1]));
        words = ASCIIMATH_TREE_WORDS(len);
        uint64_t answer[4];
        uint32_t refusal = asciimath_parse(text, len, table, ASCIIMATH_TABLE_WORDS(len), work, ASCIIMATH_WORK_WORDS(len),
                                           tree, words, answer, 4);
        if (refusal) {
            fprintf(stderr, "refused=%u on %s", (unsigned)refusal, line);
            return 1;
        }
        put(table, 3 * (size_t)answer[0]);
        printf("\t%u\t", (unsigned)answer[2]);
        while (words > 0 && tree[words - 1] == 0) words--;
        put(tree, words);
        putchar('\n');
    }
    return 0;
}
