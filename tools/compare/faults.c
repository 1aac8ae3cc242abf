// Calls with a fault planted, so that the comparison has something to find (selftest.sh).
#include "../../include/asciimath.h"
#include <string.h>

__typeof__(asciimath_lookup) right_lookup;
__typeof__(asciimath_parse) right_parse;
__typeof__(asciimath_closers) right_closers;
__typeof__(asciimath_closers_text) right_closers_text;

uint32_t asciimath_lookup(const uint8_t *text, size_t text_len, size_t at, uint64_t *answer,
                          size_t answer_len) {
    uint32_t code = right_lookup(text, text_len, at, answer, answer_len);
    int found = answer_len > 0 && answer[0] != 0;
    switch (FAULT) {
    case 19: // the row after
        if (found && answer_len > 2) answer[2] += 1;
        break;
    case 20: // a row where none fits
        if (!found && answer_len > 2) answer[2] = 0;
        break;
    }
    return code;
}

uint32_t asciimath_parse(const uint8_t *text, size_t text_len, uint32_t *table, size_t table_len,
                         uint32_t *work, size_t work_len, uint32_t *tree, size_t tree_len,
                         uint64_t *answer, size_t answer_len) {
    uint32_t code = right_parse(text, text_len, table, table_len, work, work_len, tree, tree_len,
                                answer, answer_len);
    int accepted = code == 0;
    switch (FAULT) {
    case 1: // a take too many
        if (accepted && answer_len > 1 && memchr(text, '|', text_len)) answer[1] += 1;
        break;
    case 2: // a word behind the tree
        if (accepted) tree[tree_len - 1] = 1;
        break;
    case 3: // a word behind the table
        if (accepted) table[table_len] ^= 1;
        break;
    case 4: // a matrix's right bracket
        if (accepted && tree[1] == 13 && tree[7] == 16) tree[12] -= 1;
        break;
    case 5: // work not zero
        if (accepted) work[work_len / 2] = 1;
        break;
    case 6: // an answer with a refusal
        if (!accepted && answer_len > 0) answer[0] = code;
        break;
    case 7: // a tree with a refusal
        if (code == 9 && tree_len > 0) tree[0] ^= 1;
        break;
    case 8: // another refusal
        if (code == 8) return 9;
        break;
    case 9: // a word that its node has no use for
        if (accepted && tree[0] == 0 && tree[1] == 13) tree[5] = 1;
        break;
    }
    return code;
}

// The last opener's closer; NULL if nothing opens.
static uint32_t *last_closer(uint32_t *closers, size_t n) {
    for (size_t at = n; at > 0; at--)
        if (closers[at - 1] < n) return &closers[at - 1];
    return NULL;
}

uint32_t asciimath_closers_text(const uint8_t *text, size_t text_len, uint32_t *table,
                                size_t table_len, uint32_t *closers, size_t closers_len,
                                uint64_t *answer, size_t answer_len) {
    uint64_t counts[2] = {0, 0};
    uint32_t code = right_closers_text(text, text_len, table, table_len, closers, closers_len,
                                       answer, answer_len);
    asciimath_count(text, text_len, counts, 2);
    size_t n = counts[1];
    uint32_t *last = code == 0 ? last_closer(closers, n) : NULL;
    switch (FAULT) {
    case 10: // a closer one too near
        if (last) *last -= 1;
        break;
    case 11: // a closer lost
        if (last) *last = (uint32_t)n;
        break;
    case 12: // a closer that opens
        if (last && *last + 1 < n) closers[*last] = *last + 1;
        break;
    case 13: // a word behind the closers
        if (code == 0 && closers_len > n) closers[n] = (uint32_t)n;
        break;
    case 14: // closers with a refusal
        if (code == 7 && closers_len > 0) closers[0] ^= 1;
        break;
    case 15: // 8 before 7
        if (code == 7 && closers_len < n) return 8;
        break;
    case 16: // a word too many asked for
        if (code == 0 && closers_len == n) return 8;
        break;
    }
    return code;
}

uint32_t asciimath_closers(const uint8_t *text, size_t text_len, const uint32_t *table,
                           size_t table_len, size_t count, uint32_t *closers, size_t closers_len,
                           uint64_t *answer, size_t answer_len) {
    uint32_t code = right_closers(text, text_len, table, table_len, count, closers, closers_len,
                                  answer, answer_len);
    switch (FAULT) {
    case 17: // the first closer is 0
        if (code == 0 && closers_len > 0) closers[0] = 0;
        break;
    case 18: // tokens for tokens other than Space
        if (code == 0 && answer_len > 0) answer[0] = count;
        break;
    }
    return code;
}
