// The MathML call with a fault planted, so that the comparison has something to find (selftest.sh).
#include <stddef.h>
#include <stdint.h>
#include <string.h>

uint32_t right_mathml(const uint8_t *text, size_t text_len, uint32_t *table, size_t table_len,
                      uint32_t *work, size_t work_len, uint32_t *tree, size_t tree_len,
                      uint8_t *out, size_t out_len, uint64_t *answer, size_t answer_len);

// The first place of some bytes in others; NULL if there is none.
static uint8_t *find(uint8_t *bytes, size_t len, const char *part) {
    size_t part_len = strlen(part);
    for (size_t at = 0; at + part_len <= len; at++)
        if (memcmp(bytes + at, part, part_len) == 0) return bytes + at;
    return NULL;
}

static void change(uint8_t *bytes, size_t len, const char *old, const char *new) {
    uint8_t *at = find(bytes, len, old);
    if (at) memcpy(at, new, strlen(new));
}

uint32_t asciimath_mathml(const uint8_t *text, size_t text_len, uint32_t *table, size_t table_len,
                          uint32_t *work, size_t work_len, uint32_t *tree, size_t tree_len,
                          uint8_t *out, size_t out_len, uint64_t *answer, size_t answer_len) {
    uint64_t values[3] = {0, 0, 0};
    uint32_t code = right_mathml(text, text_len, table, table_len, work, work_len, tree, tree_len,
                                 out, out_len, values, 3);
    int accepted = code == 0;
    size_t len = values[0];
    for (size_t at = 0; accepted && at < 3 && at < answer_len; at++) answer[at] = values[at];
    switch (FAULT) {
    case 1: // an end tag that doesn't fit
        if (accepted) change(out, len, "</msup>", "</msub>");
        break;
    case 2: // an end tag lost, its bytes filled
        if (accepted) change(out, len, "</mrow></mrow>", "</mrow>       ");
        break;
    case 3: // the children of a root exchanged
        if (accepted) change(out, len, "<mroot><mi>x</mi><mn>2</mn>", "<mroot><mn>2</mn><mi>x</mi>");
        break;
    case 4: // a line one column on
        if (accepted) change(out, len, "\"none solid\"", "\"solid none\"");
        break;
    case 5: // & not escaped
        if (accepted) change(out, len, "&amp;", "&&&&&");
        break;
    case 6: // the length one too many
        if (accepted && answer_len > 0) answer[0] += 1;
        break;
    case 7: // a take too many
        if (accepted && answer_len > 1) answer[1] += 1;
        break;
    case 8: // blank the other way round
        if (accepted && answer_len > 2) answer[2] ^= 1;
        break;
    case 9: // a word behind the values
        if (accepted && answer_len > 3) answer[3] = 0;
        break;
    case 10: // a byte behind the MathML
        if (accepted && out_len > len) out[len] ^= 1;
        break;
    case 11: // 12 for a buffer of just the length
        if (accepted && out_len == len) return 12;
        break;
    case 12: // some bytes before the 12
        if (code == 12 && out_len > 0) out[0] ^= 1;
        break;
    case 13: // some bytes before the 11
        if (code == 11 && out_len > 0) out[out_len - 1] ^= 1;
        break;
    case 14: // 12 before 11
        if (code == 11 && out_len < 71) return 12;
        break;
    case 15: // 11 let through
        if (code == 11) return 0;
        break;
    case 16: // 11 undoes the reading
        if (code == 11) memset(tree, 0, tree_len * sizeof *tree);
        break;
    case 17: // 12 leaves work as it was used
        if (code == 12) work[work_len - 1] = 1;
        break;
    case 18: // a word behind the table
        if (code == 11) table[table_len] ^= 1;
        break;
    case 19: // an answer with a refusal
        if (!accepted && answer_len > 0) answer[0] = code;
        break;
    case 20: // 11 before 9
        if (code == 9 && text_len > 1 && memcmp(text, "bb", 2) == 0) return 11;
        break;
    case 21: // a tree with a refusal of the reading
        if (code == 9 && tree_len > 0) tree[0] ^= 1;
        break;
    }
    return code;
}
