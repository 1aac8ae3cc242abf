/* The proved AsciiMath reader, for C.
 *
 * `rt lib` in crates/asciimath writes out/libasciimath.a there; it needs nothing but memset and memcpy.
 *
 *     cc -I include program.c crates/asciimath/out/libasciimath.a
 *
 * ## A call
 *
 * Every call returns 0 and puts its values first into `answer`, as many as `answer_len` has words
 * for (those behind stay as they were), or it returns the number of a refusal (below) and leaves
 * `answer` as it was. No bytes, words or lengths are wrong to pass: whatever they are, the call
 * ends with one of the two. A refusal writes nothing at all, except 10, 11 and 12, which come after a
 * reading.
 *
 * ## Buffers
 *
 * Each is a pointer and the number of its elements. A pointer must be aligned and must not be null,
 * also where the length is 0; buffers of one call must not overlap. No call keeps a pointer, and
 * what stands in the buffers before a call doesn't matter.
 *
 * Let n be the tokens other than Space; asciimath_count tells it, and a text of b bytes has at most
 * b tokens. The macros below give the lengths that are enough.
 *
 * Pass lengths for the bytes of the text, not those of whole arrays: a reading clears all words of
 * work and tree that it is lent. One letter takes 0.1 microseconds in buffers for its one byte and 5 in
 * buffers for 4,096 tokens, several times as much where those words are not in the cache. The table,
 * closers and output cost nothing more if they are longer. A table for as many tokens as the text has
 * bytes is quickest: a shorter one has the tokens counted first. (These times are of an archive that an
 * older kit built, not measured again with today's.)
 *
 * ## Threads and stack
 *
 * The library has no state: any number of threads may call it, each with its own buffers. Depth of
 * recursion is limited whatever the text, and 256 KiB of stack are enough: 178,232 bytes at most were
 * measured, by any call, and 179,920 counted for a reading from the frames of the object code
 * (tools/robust). Neither is proved.
 *
 * ## Example
 *
 *     #include <asciimath.h>
 *     #include <stdio.h>
 *     #include <string.h>
 *
 *     // room for any text
 *     static uint32_t table[ASCIIMATH_TABLE_WORDS(ASCIIMATH_MAX)];
 *     static uint32_t work[ASCIIMATH_WORK_WORDS(ASCIIMATH_MAX)];
 *     static uint32_t tree[ASCIIMATH_TREE_WORDS(ASCIIMATH_MAX)];
 *
 *     int main(void) {
 *         const char *text = "[[1,2],[3,4]]";
 *         size_t b = strlen(text) < ASCIIMATH_MAX ? strlen(text) : ASCIIMATH_MAX;
 *         uint64_t answer[4];
 *         // lent as much as a text of b bytes can need
 *         uint32_t refusal = asciimath_parse((const uint8_t *)text, strlen(text), table,
 *             ASCIIMATH_TABLE_WORDS(b), work, ASCIIMATH_WORK_WORDS(b), tree, ASCIIMATH_TREE_WORDS(b),
 *             answer, 4);
 *         if (refusal != 0)
 *             return printf("refused=%u\n", (unsigned)refusal), 1;
 *         // 13 tokens, 1 item; its first word is 0, then a simple node, then the matrix
 *         printf("tokens=%u items=%u matrix=%d\n", (unsigned)answer[0], (unsigned)answer[2],
 *             tree[7] == ASCIIMATH_NODE_MATRIX);
 *         return 0;
 *     }
 *
 * examples/c/read.c walks over the whole tree; examples/c/brackets.c marks each bracket and its
 * partner.
 */
#ifndef ASCIIMATH_H
#define ASCIIMATH_H

#include <stddef.h>
#include <stdint.h>

#ifdef __cplusplus
extern "C" {
#endif

/* The version of this header and of the Rust crate, as one number that can be compared, also by #if, and
 * its parts. MINOR goes up, from 1.0.0 on MAJOR, where a program may have to follow: a name, a number, a
 * length that is asked for or a call's meaning is another. PATCH goes up where something is only added or
 * put right. The archive does not hold it: take header and archive from one checkout. */
#define ASCIIMATH_VERSION_MAJOR 0
#define ASCIIMATH_VERSION_MINOR 1
#define ASCIIMATH_VERSION_PATCH 0
#define ASCIIMATH_VERSION \
    (10000 * ASCIIMATH_VERSION_MAJOR + 100 * ASCIIMATH_VERSION_MINOR + ASCIIMATH_VERSION_PATCH)

/* A text has at most so many bytes, and a token list so many tokens. */
#define ASCIIMATH_MAX 4096

/* Words of a token table for so many tokens, those that are Space included. */
#define ASCIIMATH_TABLE_WORDS(tokens) (3 * (size_t)(tokens))
/* Words of work and of tree for n tokens other than Space. */
#define ASCIIMATH_WORK_WORDS(n) (2 * ((size_t)(n) + 1))
#define ASCIIMATH_TREE_WORDS(n) (32 * ((size_t)(n) + 1))
/* Words of closers for n tokens other than Space. */
#define ASCIIMATH_CLOSERS_WORDS(n) ((size_t)(n))
/* Bytes that any print of n tokens other than Space fits in: a print has at most 12 bytes for each
 * word of its tree, and a first line of at most 64. (Counted, not proved: a shorter or a longer
 * buffer is safe all the same.) */
#define ASCIIMATH_PRINT_BYTES(n) (12 * ASCIIMATH_TREE_WORDS(n) + 64)

/* Bytes that are enough for the MathML of any text of so many bytes. (Proved. A shorter buffer that
 * the MathML fits in will do; one that it does not fit in is refused by 12 and stays as it was.) */
#define ASCIIMATH_MATHML_BYTES(bytes) (48 * (size_t)(bytes) + 72)

/* Refusals. The first that meets a call, in the order named at each call, is the answer. */
enum asciimath_refusal {
    ASCIIMATH_REFUSED_LONG_TEXT = 1,    /* the text is longer than 4,096 bytes */
    ASCIIMATH_REFUSED_NOT_ASCII = 2,    /* a byte of the text is 128 or more */
    ASCIIMATH_REFUSED_TOKEN_COUNT = 3,  /* over 4,096 tokens claimed, or fewer than 3 words for each */
    ASCIIMATH_REFUSED_TOKEN_KIND = 4,   /* a token's kind is above 23 */
    ASCIIMATH_REFUSED_TOKEN_SPAN = 5,   /* a token's start + length, not wrapped, passes the text's end */
    ASCIIMATH_REFUSED_DOUBLE_SPACE = 6, /* a Space token directly after a Space of length 1 or more */
    ASCIIMATH_REFUSED_SHORT_TABLE = 7,  /* the table has fewer than ASCIIMATH_TABLE_WORDS(tokens) words */
    ASCIIMATH_REFUSED_SHORT_WORK = 8,   /* work has fewer than ASCIIMATH_WORK_WORDS(n) words, or the
                                           buffer of closers fewer than ASCIIMATH_CLOSERS_WORDS(n) */
    ASCIIMATH_REFUSED_SHORT_TREE = 9,   /* tree has fewer than ASCIIMATH_TREE_WORDS(n) words */
    ASCIIMATH_REFUSED_SHORT_PRINT = 10, /* the print buffer is shorter than the whole print */
    ASCIIMATH_REFUSED_NO_MATHML = 11,   /* the tree holds id, class, color, a font command, a column line
                                           at a matrix's edge or a second at one place, or a byte below
                                           32 other than 9, 10 and 13 */
    ASCIIMATH_REFUSED_SHORT_MATHML = 12 /* the output buffer is shorter than the MathML */
};

/* Kinds of tokens. A token table has three words a token: its start and its length in the text, and
 * its kind. */
enum asciimath_token {
    ASCIIMATH_TOKEN_FRAC = 0,
    ASCIIMATH_TOKEN_SUPER = 1,
    ASCIIMATH_TOKEN_SUB = 2,
    ASCIIMATH_TOKEN_SEP = 3,
    ASCIIMATH_TOKEN_NUMBER = 4,
    ASCIIMATH_TOKEN_TEXT = 5,
    ASCIIMATH_TOKEN_IDENT = 6,
    ASCIIMATH_TOKEN_OPERATOR = 7,
    ASCIIMATH_TOKEN_SYMBOL = 8, /* and its class: 8 to 15 */
    ASCIIMATH_TOKEN_SIGN = 16,
    ASCIIMATH_TOKEN_FUNCTION = 17,
    ASCIIMATH_TOKEN_UNARY = 18,
    ASCIIMATH_TOKEN_BINARY = 19,
    ASCIIMATH_TOKEN_OPEN_BRACKET = 20,
    ASCIIMATH_TOKEN_CLOSE_BRACKET = 21,
    ASCIIMATH_TOKEN_OPEN_CLOSE_BRACKET = 22,
    ASCIIMATH_TOKEN_SPACE = 23
};

/* Classes of symbols. */
enum asciimath_class {
    ASCIIMATH_CLASS_GLYPH = 0,
    ASCIIMATH_CLASS_NAME = 1,
    ASCIIMATH_CLASS_JOINING = 2,
    ASCIIMATH_CLASS_JOINING_NAME = 3,
    ASCIIMATH_CLASS_LEADING = 4,
    ASCIIMATH_CLASS_LEADING_NAME = 5,
    ASCIIMATH_CLASS_SPACE = 6, /* written as a symbol, like quad */
    ASCIIMATH_CLASS_SEPARATOR = 7
};

/* Kinds of nodes, and the nodes below each.
 *
 * The tree's words are a preorder: a node's own words, then the nodes below it. A node has six
 * words, a matrix eight:
 *
 *     0     kind
 *     1, 2  start and length in the text of its token or left bracket, else 0
 *     3     class of a symbol; script of a simple or func; items of a group or cell; cells of a
 *           matrix
 *     4, 5  start and length of the right bracket of a group or matrix; of a cell: the words of its
 *           items, and 0
 *     6, 7  of a matrix only: its columns, and the number of its column lines
 *
 * A bracket that stands for no token is start 0, length 0. Behind a matrix's cells stand its column
 * lines, a word each: 0 is before the first column, the number of columns is after the last.
 *
 * The root is a row of items, as a group and a cell have them, without words of its own; the number
 * of its items is among the values of the call. Each item has one word in front: 1 for a fraction,
 * whose numerator and denominator follow, 0 for any other, which follows. A numerator, a
 * denominator and an item other than a fraction or a space is a simple, func or signed. */
enum asciimath_node {
    ASCIIMATH_NODE_MISSING = 0,
    ASCIIMATH_NODE_NUMBER = 1,
    ASCIIMATH_NODE_TEXT = 2,
    ASCIIMATH_NODE_IDENT = 3,
    ASCIIMATH_NODE_OPERATOR = 4,
    ASCIIMATH_NODE_SIGN = 5,
    ASCIIMATH_NODE_SPACE = 6, /* an item: blanks between two others */
    ASCIIMATH_NODE_SYMBOL = 7,
    ASCIIMATH_NODE_SIGNED = 8,        /* its operand: simple, func or signed */
    ASCIIMATH_NODE_SIMPLE_SIGNED = 9, /* its operand */
    ASCIIMATH_NODE_UNARY = 10,        /* its argument */
    ASCIIMATH_NODE_SIMPLE_FUNC = 11,  /* its argument */
    ASCIIMATH_NODE_BINARY = 12,       /* its two arguments */
    ASCIIMATH_NODE_SIMPLE = 13,       /* what it scripts, then sub, then super */
    ASCIIMATH_NODE_FUNC = 14,         /* sub, super, then its argument: simple, func or signed */
    ASCIIMATH_NODE_GROUP = 15,        /* items */
    ASCIIMATH_NODE_MATRIX = 16,       /* cells, row by row; then the column lines */
    ASCIIMATH_NODE_CELL = 17          /* items */
};

/* Scripts of a simple or func. */
enum asciimath_script {
    ASCIIMATH_SCRIPT_NONE = 0,
    ASCIIMATH_SCRIPT_SUB = 1,
    ASCIIMATH_SCRIPT_SUPER = 2,
    ASCIIMATH_SCRIPT_SUBSUPER = 3
};

/* Counts the tokens of a text.
 * Values: tokens, tokens other than Space. Refusals: 1, 2. */
uint32_t asciimath_count(const uint8_t *text, size_t text_len, uint64_t *answer, size_t answer_len);

/* Writes the token list of a text into the table; words behind it stay as they were.
 * Values: tokens. Refusals: 1, 2, 7. */
uint32_t asciimath_tokens(const uint8_t *text, size_t text_len, uint32_t *table, size_t table_len,
                          uint64_t *answer, size_t answer_len);

/* Finds the longest of the 429 spellings that begins a text at a place, for a typesetter whose display
 * forms hang on it. Its row is counted from 0 in the table sorted by bytes. Any bytes, any number of
 * them and any place will do; past the text's end no spelling fits. The row of a token is found by its
 * part of the text, text + start and its length at place 0, unless its kind is NUMBER, TEXT, IDENT,
 * OPERATOR or SPACE: those are read by no spelling. crates/lexing/specs/Spellings.antt has the rows.
 * Values: length of the spelling, its kind, its row; where none fits, a length of 0 and no others.
 * Refusals: none. */
uint32_t asciimath_lookup(const uint8_t *text, size_t text_len, size_t at, uint64_t *answer,
                          size_t answer_len);

/* Reads a text: its tokens into the table (words behind them stay as they were), its tree into the
 * tree words (those behind it are zero afterwards). Work is all zero afterwards. A take is each step
 * over one token; an answer is blank, 1, if the root has no items, else 0.
 * Values: tokens, takes, items of the root, blank. Refusals: 1, 2, 7, 8, 9. */
uint32_t asciimath_parse(const uint8_t *text, size_t text_len, uint32_t *table, size_t table_len,
                         uint32_t *work, size_t work_len, uint32_t *tree, size_t tree_len,
                         uint64_t *answer, size_t answer_len);

/* Reads a list of `count` tokens over a text, made by the caller: spans may overlap, be empty and
 * stand in any order. Writes as asciimath_parse does; the table is only read, and may be longer.
 * Values: takes, items of the root, blank. Refusals: 1, 2, 3, then token by token 4, 5, 6, then 8, 9. */
uint32_t asciimath_parse_tokens(const uint8_t *text, size_t text_len, const uint32_t *table,
                                size_t table_len, size_t count, uint32_t *work, size_t work_len,
                                uint32_t *tree, size_t tree_len, uint64_t *answer,
                                size_t answer_len);

/* Reads a text as asciimath_parse does and prints its tree, a line for each node, into `out`, with
 * no 0 byte at the end; bytes behind the print stay as they were. Refusal 10 leaves `out` and
 * `answer` as they were, and table, work and tree as after acceptance.
 * Values: length of the print, takes, blank. Refusals: 1, 2, 7, 8, 9, 10. */
uint32_t asciimath_print(const uint8_t *text, size_t text_len, uint32_t *table, size_t table_len,
                         uint32_t *work, size_t work_len, uint32_t *tree, size_t tree_len,
                         uint8_t *out, size_t out_len, uint64_t *answer, size_t answer_len);

/* Reads a text as asciimath_parse does and writes its MathML (docs/MATHML.md) into `out`, one math
 * element in UTF-8 with no 0 byte at the end; bytes behind it stay as they were. Refusals 11 and 12
 * leave `out` and `answer` as they were, and table, work and tree as after acceptance.
 * Values: length of the MathML, takes, blank. Refusals: 1, 2, 7, 8, 9, 11, 12. */
uint32_t asciimath_mathml(const uint8_t *text, size_t text_len, uint32_t *table, size_t table_len,
                          uint32_t *work, size_t work_len, uint32_t *tree, size_t tree_len,
                          uint8_t *out, size_t out_len, uint64_t *answer, size_t answer_len);

/* Finds the closers of a list of `count` tokens over a text, as asciimath_parse_tokens takes it. For
 * each token other than Space, `out` gets the place of its closer, counted from 0 among those tokens,
 * or n for none; words behind stay as they were. A token's closer is the token that ends the group,
 * matrix or matrix row that it opens in the reading. It stands behind its opener, is no other's and
 * opens nothing, and pairs never cross. The table is only read.
 * Values: n. Refusals: 1, 2, 3, then token by token 4, 5, 6, then 8. */
uint32_t asciimath_closers(const uint8_t *text, size_t text_len, const uint32_t *table,
                           size_t table_len, size_t count, uint32_t *out, size_t out_len,
                           uint64_t *answer, size_t answer_len);

/* Writes the tokens of a text into the table as asciimath_tokens does, and their closers into `out`
 * as asciimath_closers does.
 * Values: tokens, n. Refusals: 1, 2, 7, 8. */
uint32_t asciimath_closers_text(const uint8_t *text, size_t text_len, uint32_t *table,
                                size_t table_len, uint32_t *out, size_t out_len, uint64_t *answer,
                                size_t answer_len);

#ifdef __cplusplus
}
#endif

#endif
