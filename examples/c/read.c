/* Reads a text from standard input and shows its tree.
 *
 *     cc -I include examples/c/read.c crates/asciimath/out/libasciimath.a -o read-c
 *     printf '[[1,2],[3,4]]' | ./read-c
 */
#include <asciimath.h>
#include <stdio.h>
#include <stdlib.h>

static const char *const NAMES[] = {"missing", "number", "text",  "ident", "operator", "sign",
                                    "space",   "symbol", "signed", "ssigned", "unary", "sfunc",
                                    "binary",  "simple", "func",  "group", "matrix",   "cell"};

static const uint8_t *text;
static const uint32_t *tree;

static size_t items(size_t at, uint32_t count, int depth);

static void line(int depth, const char *name, const uint32_t *span) {
    printf("%*s%s", 2 * depth, "", name);
    if (span != NULL && span[1] > 0)
        printf(" %.*s", (int)span[1], (const char *)text + span[0]);
    printf("\n");
}

/* Shows the node at a place of the tree words and those below it; the place behind them. */
static size_t node(size_t at, int depth) {
    const uint32_t *words = tree + at;
    uint32_t kind = words[0], count = words[3], below = 0;
    size_t lines = 0;
    line(depth, NAMES[kind], words + 1);
    at += 6;
    switch (kind) {
    case ASCIIMATH_NODE_SIGNED:
    case ASCIIMATH_NODE_SIMPLE_SIGNED:
    case ASCIIMATH_NODE_UNARY:
    case ASCIIMATH_NODE_SIMPLE_FUNC:
        below = 1;
        break;
    case ASCIIMATH_NODE_BINARY:
        below = 2;
        break;
    case ASCIIMATH_NODE_SIMPLE:
    case ASCIIMATH_NODE_FUNC:
        below = count == ASCIIMATH_SCRIPT_SUBSUPER ? 3 : count == ASCIIMATH_SCRIPT_NONE ? 1 : 2;
        break;
    case ASCIIMATH_NODE_MATRIX:
        below = count;
        lines = words[7];
        at += 2;
        break;
    case ASCIIMATH_NODE_GROUP:
    case ASCIIMATH_NODE_CELL:
        return items(at, count, depth + 1);
    }
    while (below-- > 0)
        at = node(at, depth + 1);
    return at + lines;
}

/* Shows a row of items; the place behind them. */
static size_t items(size_t at, uint32_t count, int depth) {
    while (count-- > 0) {
        if (tree[at] == 1) {
            line(depth, "frac", NULL);
            at = node(at + 1, depth + 1);
            at = node(at, depth + 1);
        } else {
            at = node(at + 1, depth);
        }
    }
    return at;
}

int main(void) {
    static uint8_t bytes[ASCIIMATH_MAX + 1];
    size_t length = fread(bytes, 1, sizeof bytes, stdin);
    uint64_t counts[2], answer[4];
    uint32_t refusal = asciimath_count(bytes, length, counts, 2);
    if (refusal == 0) {
        size_t table_len = ASCIIMATH_TABLE_WORDS(counts[0]);
        size_t work_len = ASCIIMATH_WORK_WORDS(counts[1]);
        size_t tree_len = ASCIIMATH_TREE_WORDS(counts[1]);
        /* one buffer for all three, so that none is empty */
        uint32_t *words = malloc((table_len + work_len + tree_len) * sizeof *words);
        if (words == NULL)
            return 2;
        uint32_t *work = words + table_len, *room = work + work_len;
        refusal = asciimath_parse(bytes, length, words, table_len, work, work_len, room, tree_len,
                                  answer, 4);
        if (refusal == 0) {
            printf("tokens %u, takes %u\n", (unsigned)answer[0], (unsigned)answer[1]);
            text = bytes;
            tree = room;
            items(0, (uint32_t)answer[2], 0);
        }
        free(words);
    }
    if (refusal != 0)
        printf("refused=%u\n", (unsigned)refusal);
    return refusal != 0;
}
