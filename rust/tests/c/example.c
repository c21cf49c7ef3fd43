/* Packs the drawn graph of the paper, checks, asks and unpacks its image, and prints what it finds. */
#include "glouds.h"

#include <stdio.h>
#include <stdlib.h>

static const uint16_t table[] = {8, 2, 2, 3, 1, 4, 2, 4, 5, 2, 6, 7, 2, 7, 8, 1, 8, 0, 1, 7, 1, 1};

enum { WORDS = sizeof table / sizeof table[0], NODES = 8 };

static void stop(const char *call, uint32_t refusal)
{
    fprintf(stderr, "%s: refused %u\n", call, (unsigned)refusal);
    exit(EXIT_FAILURE);
}

static void print(const char *name, const uint16_t *words, size_t length)
{
    printf("%s", name);
    for (size_t i = 0; i < length; i++)
        printf(" %u", (unsigned)words[i]);
    printf("\n");
}

/* Packs the table into image and gives the image's length. */
static size_t pack(uint8_t *image, size_t room)
{
    uint16_t order[NODES];
    uint32_t work[GLOUDS_WORK_ROOM(NODES)];
    uint64_t answer = glouds_pack(table, WORDS, order, NODES, work, GLOUDS_WORK_ROOM(NODES), image, room);
    if (glouds_refusal(answer) != 0)
        stop("pack", glouds_refusal(answer));
    print("order", order, NODES);
    printf("image of %u bytes\n", (unsigned)glouds_value(answer));
    return glouds_value(answer);
}

/*
 * Prints a node's operands or users, counted by the kind given. Each question is
 * a batch here; a rig that has many asks them in one, since the image is checked
 * once a batch.
 */
static void list(const uint8_t *image, size_t length, uint32_t node, uint32_t counted, struct glouds_tally *tally)
{
    uint32_t count[3] = {counted, node, 0};
    uint32_t answer[3];
    uint32_t refusal = glouds_ask(image, length, count, 3, answer, 3, tally);
    if (refusal != 0)
        stop("ask", refusal);
    uint32_t most = answer[1];
    for (uint32_t b = 1; b <= most; b++) {
        uint32_t question[3] = {counted + 1, node, b};
        refusal = glouds_ask(image, length, question, 3, answer, 3, tally);
        if (refusal != 0)
            stop("ask", refusal);
        printf(" %u%s", (unsigned)answer[1], answer[2] == GLOUDS_SHADOW ? "*" : "");
    }
}

/* One question of each kind about node 7, and three that are refused. */
static void ask_all(const uint8_t *image, size_t length, struct glouds_tally *tally)
{
    const uint32_t questions[] = {
        GLOUDS_TRIT, 7, 0, GLOUDS_RANK, 1, 11, GLOUDS_SELECT, 0, 4, GLOUDS_OPERANDS, 7, 0, GLOUDS_OPERAND, 8, 1,
        GLOUDS_USES, 7, 0, GLOUDS_USER, 7, 1, 7, 0, 0, GLOUDS_OPERANDS, 9, 0, GLOUDS_SELECT, 0, 10,
    };
    enum { COUNT = sizeof questions / sizeof questions[0] };
    uint32_t answers[COUNT];
    uint32_t refusal = glouds_ask(image, length, questions, COUNT, answers, COUNT, tally);
    if (refusal != 0)
        stop("ask", refusal);
    for (size_t i = 0; i < COUNT; i += 3) {
        const char *code = answers[i] == 0                       ? "done"
            : answers[i] == GLOUDS_UNKNOWN_KIND   ? "unknown kind"
            : answers[i] == GLOUDS_FIRST_OUTSIDE  ? "first outside"
            : answers[i] == GLOUDS_SECOND_OUTSIDE ? "second outside"
                                                  : "?";
        const char *sort = answers[i + 2] == GLOUDS_REAL ? ", real" : answers[i + 2] == GLOUDS_SHADOW ? ", shadow" : "";
        printf("%s %u%s\n", code, (unsigned)answers[i + 1], sort);
    }
}

/* Each refusal that an entry gives, by its name. */
static void refuse(void)
{
    static const uint16_t outside[] = {1, 1, 2}, root[] = {1, 0, 1, 2}, again[] = {1, 0, 2, 1, 1}, more[] = {0, 0, 7};
    static const uint16_t large[] = {30001}, alone[] = {1, 0, 0}, one[] = {1, 0, 1, 1};
    uint16_t order[1];
    uint32_t work[3], question[3] = {0, 0, 0}, answer[3];
    uint8_t image[100];
    struct glouds_tally full = {0, 0, UINT32_MAX};
    int named = glouds_refusal(glouds_pack(one, 0, order, 1, work, 3, image, 100)) == GLOUDS_TABLE_ENDS
        && glouds_refusal(glouds_pack(large, 1, order, 1, work, 3, image, 100)) == GLOUDS_TABLE_TOO_LARGE
        && glouds_refusal(glouds_pack(outside, 3, order, 1, work, 3, image, 100)) == GLOUDS_OPERAND_OUTSIDE
        && glouds_refusal(glouds_pack(root, 4, order, 1, work, 3, image, 100)) == GLOUDS_ROOT_OUTSIDE
        && glouds_refusal(glouds_pack(again, 5, order, 1, work, 3, image, 100)) == GLOUDS_ROOT_TWICE
        && glouds_refusal(glouds_pack(more, 3, order, 1, work, 3, image, 100)) == GLOUDS_WORDS_AFTER_ROOTS
        && glouds_refusal(glouds_pack(one, 4, order, 1, work, 2, image, 100)) == GLOUDS_WORK_TOO_SHORT
        && glouds_refusal(glouds_pack(alone, 3, order, 1, work, 3, image, 100)) == GLOUDS_NODE_UNREACHED
        && glouds_refusal(glouds_pack(one, 4, order, 1, work, 3, image, 50)) == GLOUDS_IMAGE_TOO_SHORT;
    size_t length = glouds_value(glouds_pack(one, 4, order, 1, work, 3, image, 100));
    named = named && glouds_check(image, 3) == GLOUDS_IMAGE_ENDS && glouds_check(image, length + 1) == GLOUDS_BYTES_AFTER_IMAGE
        && glouds_refusal(glouds_unpack(image, length, order, 1)) == GLOUDS_TABLE_TOO_SHORT
        && glouds_ask(image, length, question, 2, answer, 3, &full) == GLOUDS_NOT_THREES
        && glouds_ask(image, length, question, 3, answer, 2, &full) == GLOUDS_ANSWERS_TOO_SHORT
        && glouds_ask(image, length, question, 3, answer, 3, &full) == GLOUDS_TALLY_FULL;
    image[length - 1] = 1; /* section 9 */
    named = named && glouds_check(image, length) == GLOUDS_INDEX_WRONG;
    image[5] = 1; /* section 2's count */
    named = named && glouds_check(image, length) == GLOUDS_SHADOWS_WRONG;
    image[4] = 243; /* a tryte */
    named = named && glouds_check(image, length) == GLOUDS_TRITS_WRONG;
    image[2] = 2; /* L */
    named = named && glouds_check(image, length) == GLOUDS_IMAGE_TOO_LARGE;
    printf("refusals %s\n", named ? "as named" : "not as named");
}

static void unpack(const uint8_t *image, size_t length)
{
    enum { ROOM = GLOUDS_TABLE_ROOM(21) };
    uint16_t words[ROOM];
    uint64_t answer = glouds_unpack(image, length, words, ROOM);
    if (glouds_refusal(answer) != 0)
        stop("unpack", glouds_refusal(answer));
    print("table", words, glouds_value(answer));
}

int main(void)
{
    uint8_t image[GLOUDS_IMAGE_ROOM(WORDS)];
    struct glouds_tally tally = {0, 0, 0};
    size_t length = pack(image, sizeof image);
    printf("check %u, cut by a byte %u\n", (unsigned)glouds_check(image, length), (unsigned)glouds_check(image, length - 1));
    for (uint32_t node = 1; node <= NODES; node++) {
        printf("%u:", (unsigned)node);
        list(image, length, node, GLOUDS_OPERANDS, &tally);
        printf(" |");
        list(image, length, node, GLOUDS_USES, &tally);
        printf("\n");
    }
    ask_all(image, length, &tally);
    refuse();
    printf("asked %u answered %u refused %u\n", (unsigned)tally.asked, (unsigned)tally.answered, (unsigned)tally.refused);
    unpack(image, length);
    return 0;
}
