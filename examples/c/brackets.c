/* Reads a text from standard input and shows below it which brackets belong together: each and its
 * partner have the same letter.
 *
 *     cc -I include examples/c/brackets.c crates/asciimath/out/libasciimath.a -o brackets-c
 *     printf '[[1,2],[3,4]]' | ./brackets-c
 */
#include <asciimath.h>
#include <stdio.h>
#include <string.h>

static uint8_t text[ASCIIMATH_MAX + 1];
static char marks[ASCIIMATH_MAX];
static uint32_t table[ASCIIMATH_TABLE_WORDS(ASCIIMATH_MAX)];
static uint32_t closers[ASCIIMATH_CLOSERS_WORDS(ASCIIMATH_MAX)];

/* Puts a letter below every byte of a token. */
static void mark(const uint32_t *token, char letter) {
    memset(marks + token[0], letter, token[1]);
}

/* Marks the pairs of the tokens in the table, n of which are other than Space. */
static void mark_pairs(size_t tokens, size_t n) {
    static const uint32_t *others[ASCIIMATH_MAX];
    size_t count = 0, pairs = 0;
    for (size_t i = 0; i < tokens; i++)
        if (table[3 * i + 2] != ASCIIMATH_TOKEN_SPACE)
            others[count++] = table + 3 * i;
    for (size_t i = 0; i < n; i++) {
        if (closers[i] == n)
            continue;
        char letter = "abcdefghijklmnopqrstuvwxyz"[pairs++ % 26];
        mark(others[i], letter);
        mark(others[closers[i]], letter);
    }
}

int main(void) {
    size_t length = fread(text, 1, sizeof text, stdin);
    uint64_t answer[2];
    uint32_t refusal = asciimath_closers_text(text, length, table, sizeof table / sizeof *table,
                                              closers, sizeof closers / sizeof *closers, answer, 2);
    if (refusal != 0) {
        printf("refused=%u\n", (unsigned)refusal);
        return 1;
    }
    memset(marks, ' ', length);
    mark_pairs(answer[0], answer[1]);
    for (size_t i = 0; i < length; i++)
        putchar(text[i] < ' ' || text[i] == 127 ? ' ' : text[i]);
    printf("\n%.*s\n", (int)length, marks);
    return 0;
}
