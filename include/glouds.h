/*
 * glouds.h: the functions of libglouds.a, which packs directed graphs in the
 * GLOUDS form of Fischer and Peters, checks and unpacks the images, and answers
 * questions on them. docs/FORMAT.md describes tables, images and questions.
 *
 * Rules for all functions:
 *
 *  - A slice is a pointer and a length in elements, not in bytes.
 *  - A pointer must be good for its length and aligned for its type. One of
 *    length 0 is never followed and may point anywhere.
 *  - The slices of one call, and the tally, must lie apart: none may share a
 *    byte with another.
 *  - Contents are free: every function checks its input, ends on every input,
 *    and answers bad input with a refusal number.
 *  - Nothing is allocated and nothing is kept between calls, so any number of
 *    threads may call at once. The only symbol needed from outside is memset.
 */
#ifndef GLOUDS_H
#define GLOUDS_H

#include <stddef.h>
#include <stdint.h>

#ifdef __cplusplus
extern "C" {
#endif

/* Limits: n nodes, m edges, L trits. c roots are at most n. */
#define GLOUDS_MOST_NODES 30000
#define GLOUDS_MOST_EDGES 65535
#define GLOUDS_MOST_TRITS 125536

/* The largest table, 2 + n + m + c words, and the largest image. */
#define GLOUDS_MOST_TABLE_WORDS 125537
#define GLOUDS_MOST_IMAGE_BYTES 554936

/* Refusal numbers. 0 means done. */
enum glouds_refusal {
    GLOUDS_TABLE_ENDS = 1,         /* table ends before a word that is called for */
    GLOUDS_TABLE_TOO_LARGE = 2,    /* n above 30,000, or an operand count takes m above 65,535 */
    GLOUDS_OPERAND_OUTSIDE = 3,    /* operand outside 1 to n */
    GLOUDS_ROOT_OUTSIDE = 4,       /* root outside 1 to n */
    GLOUDS_ROOT_TWICE = 5,         /* root named before */
    GLOUDS_WORDS_AFTER_ROOTS = 6,  /* words after the roots */
    GLOUDS_WORK_TOO_SHORT = 7,     /* work shorter than 3n words of 32 bits, or order list shorter than n */
    GLOUDS_NODE_UNREACHED = 8,     /* a node that no root reaches */
    GLOUDS_IMAGE_TOO_SHORT = 9,    /* image buffer too short */
    GLOUDS_IMAGE_ENDS = 21,        /* image ends before a count or contents called for */
    GLOUDS_IMAGE_TOO_LARGE = 22,   /* L above 125,536, n above 30,000 or m above 65,535 */
    GLOUDS_TRITS_WRONG = 23,       /* section 1 breaks another rule of a proper image */
    GLOUDS_SHADOWS_WRONG = 24,     /* section 2: wrong count or entry */
    GLOUDS_INDEX_WRONG = 25,       /* sections 3 to 9: wrong count or entry */
    GLOUDS_BYTES_AFTER_IMAGE = 26, /* bytes after section 9 */
    GLOUDS_UNKNOWN_KIND = 31,      /* one question: unknown kind */
    GLOUDS_FIRST_OUTSIDE = 32,     /* one question: first number outside */
    GLOUDS_SECOND_OUTSIDE = 33,    /* one question: second number outside */
    GLOUDS_NOT_THREES = 41,        /* question words not a multiple of 3 */
    GLOUDS_ANSWERS_TOO_SHORT = 42, /* answer buffer shorter than the questions */
    GLOUDS_TALLY_FULL = 43,        /* a tally field plus the number of questions would pass 4,294,967,295 */
    GLOUDS_TABLE_TOO_SHORT = 51,   /* unpacked table does not fit */
    GLOUDS_INPUT_WRONG = 61        /* listing program: odd number of bytes, or more than 8,000 */
};

/* Kinds of question. Nodes are level numbers. */
enum glouds_kind {
    GLOUDS_TRIT = 0,     /* a: place below L; b: 0; value: the trit */
    GLOUDS_RANK = 1,     /* a: trit 0 to 2; b: place up to L; value: how often before it */
    GLOUDS_SELECT = 2,   /* a: trit 0 to 2; b: number from 1; value: its place */
    GLOUDS_OPERANDS = 3, /* a: node; b: 0; value: count of operands */
    GLOUDS_OPERAND = 4,  /* a: node; b: number from 1; value: that operand, with its sort */
    GLOUDS_USES = 5,     /* a: node; b: 0; value: count of uses */
    GLOUDS_USER = 6      /* a: node; b: number from 1; value: user at that use, with its sort */
};

/* Sorts of an edge, in the answers of kinds 4 and 6; the other kinds give 0. */
enum glouds_sort {
    GLOUDS_REAL = 1,  /* the edge by which the operand was first seen */
    GLOUDS_SHADOW = 2 /* any other edge */
};

/* The caller's own record, lent to each batch of questions. */
struct glouds_tally {
    uint32_t asked;    /* questions of all batches that ran */
    uint32_t answered; /* those with code 0 */
    uint32_t refused;  /* the others */
};

/*
 * The answer of glouds_pack and glouds_unpack is refusal * 2^32 + value. The
 * refusal is 0 where the call was done, and the value is 0 where it was not.
 */
static inline uint32_t glouds_refusal(uint64_t answer)
{
    return (uint32_t)(answer >> 32);
}

static inline uint32_t glouds_value(uint64_t answer)
{
    return (uint32_t)(answer & UINT32_MAX);
}

/*
 * Room. A table has w = 2 + n + m + c words, and n is its first word. Packing
 * needs n words of order list and 3n words of work. The image of an accepted
 * table has L = w - 1 trits and k = m + c - n shadows, and so many bytes:
 *
 *   36                        the counts of 9 sections
 *   L / 5 rounded up          1, trytes
 *   2k                        2, H
 *   8 * (n / 64 rounded up)   3, marks
 *   4(h + 1)                  4, first index of each of h marked nodes
 *   4k                        5, places of the twos
 *   8(L / 65,725 + 1)         6, samples, division rounded down
 *   4(L / 275 + 1)            7
 *   2(L / 25 + 1)             8
 *   2 * (n / 64 rounded up)   9, marks before each word
 *
 * h is known only after packing; it is at most n and at most k. Since k is
 * w - 2 - 2n, the terms with k, h and n sum to at most 6w + 2, the others to at
 * most 0.3w + 51: 56 + 7w bytes are always enough.
 */
#define GLOUDS_WORK_ROOM(nodes) (3 * (size_t)(nodes))
#define GLOUDS_IMAGE_ROOM(table_words) (56 + 7 * (size_t)(table_words))

/* Words of the table that an image unpacks to; its trits are its first 4 bytes. */
#define GLOUDS_TABLE_ROOM(trits) (1 + (size_t)(trits))

/*
 * The length of the image of n nodes, m edges, c roots and h marked nodes. With
 * n or m + c - n in the place of h, whichever is less, it is enough for any.
 */
static inline size_t glouds_image_length(size_t n, size_t m, size_t c, size_t h)
{
    size_t trits = n + m + c + 1;
    size_t shadows = m + c - n;
    size_t words = (n + 63) / 64;
    return 36 + (trits + 4) / 5 + 2 * shadows + 8 * words + 4 * (h + 1) + 4 * shadows + 8 * (trits / 65725 + 1)
        + 4 * (trits / 275 + 1) + 2 * (trits / 25 + 1) + 2 * words;
}

/*
 * Packs a table. The value is the image's length in bytes; so many bytes of
 * image and n words of order are written, order[i - 1] being the table's number
 * of the node with level number i. Refusals 1 to 9, which leave order and image
 * as they were. After 8, 9 or success the first 3n words of work are 0, and
 * after any other refusal all of work is as it was.
 */
uint64_t glouds_pack(const uint16_t *table, size_t table_length, uint16_t *order, size_t order_length, uint32_t *work,
                     size_t work_length, uint8_t *image, size_t image_length);

/* Checks an image. 0 for a proper one, else a refusal from 21 to 26. */
uint32_t glouds_check(const uint8_t *image, size_t image_length);

/*
 * Unpacks an image: writes its table, in level order. The value is the table's
 * length in words, 2 + n + m + c. Refusals 21 to 26, then 51, which leave the
 * table as it was.
 */
uint64_t glouds_unpack(const uint8_t *image, size_t image_length, uint16_t *table, size_t table_length);

/*
 * Answers a batch of questions. A question is three words: kind, a, b. An
 * answer is three: code, value, sort; code 0, or 31 to 33 with 0 and 0 after
 * it. The batch is added to the tally. 0, or a refusal: 41, 42, 43, then 21 to
 * 26, which leave answers and tally as they were. Lengths are in words.
 */
uint32_t glouds_ask(const uint8_t *image, size_t image_length, const uint32_t *questions, size_t questions_length,
                    uint32_t *answers, size_t answers_length, struct glouds_tally *tally);

#ifdef __cplusplus
}
#endif

#endif
