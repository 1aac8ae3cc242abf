/* A case of tools/corpus.py: a text, and a token list over it as a table with a claimed count. */
#include "../../include/asciimath.h"
#include <stdlib.h>

enum { MOST = ASCIIMATH_MAX + 200 };

static uint8_t text[MOST];
static uint32_t table[3 * MOST];
static size_t text_len, table_len, count, others;
static int is_list; /* or the text alone was given */
static char *line;

/* The table is the text's own list. */
static void tokens_of_text(void) {
    uint64_t counts[2] = {0, 0};
    if (asciimath_count(text, text_len, counts, 2) == 0)
        asciimath_tokens(text, text_len, table, 3 * MOST, counts, 0);
    count = counts[0];
    others = counts[1];
    table_len = 3 * count;
}

static int digit(char c) { return c <= '9' ? c - '0' : c - 'a' + 10; }

static void case_of_line(void) {
    char *at = line;
    for (text_len = 0; *at && *at != ' ' && text_len < MOST; at += 2)
        text[text_len++] = (uint8_t)(16 * digit(at[0]) + digit(at[1]));
    tokens_of_text();
    is_list = *at == ' ';
    if (!is_list) return;
    for (table_len = others = 0; *at == ' ' && table_len + 3 <= 3 * MOST; table_len += 3) {
        for (size_t word = 0; word < 3; word++) table[table_len + word] = (uint32_t)strtoul(at + 1, &at, 10);
        others += table[table_len + 2] != ASCIIMATH_TOKEN_SPACE;
    }
    count = table_len / 3;
}
