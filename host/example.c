/* A worked example for a C host: a film of 16 by 16, three dots of two inks, a window, a grid of windows, a tint patch, a ticket, and what
 * is refused. */
#include "krakvinge.h"
#include <inttypes.h>
#include <stdio.h>

#define GROUPS 4
#define PLACES 8

static uint32_t state[KRAKVINGE_STATE_WORDS] = {0, 0, 16, 16, 2, 2, 1};
static uint32_t nodes[KRAKVINGE_NODE_WORDS(GROUPS)];
static uint32_t dots[KRAKVINGE_DOT_WORDS(PLACES)];
static int32_t rects[KRAKVINGE_RECT_WORDS(PLACES)];
static uint8_t marks[KRAKVINGE_MARK_BYTES(GROUPS, PLACES)];
static uint32_t answer[KRAKVINGE_ANSWER_WORDS];

#define WORDS(row) (sizeof(row) / sizeof(row)[0])
#define TREE state, WORDS(state), nodes, WORDS(nodes), dots, WORDS(dots), rects, WORDS(rects), marks, WORDS(marks)
#define ANSWER answer, WORDS(answer)

static void insert(uint32_t id, int32_t x1, int32_t y1, int32_t x2, int32_t y2, uint32_t ink) {
    uint64_t result = krakvinge_insert(TREE, id, x1, y1, x2, y2, ink, ANSWER);
    if (result == 0)
        printf("insert %" PRIu32 ": %" PRIu32 " splits\n", id, answer[0]);
    else
        printf("insert %" PRIu32 ": refusal %" PRIu32 ": %s\n", id, KRAKVINGE_REFUSAL(result), krakvinge_refusal_text(KRAKVINGE_REFUSAL(result)));
}

static void query(uint16_t inks, size_t room) {
    uint32_t ids[PLACES] = {0};
    uint64_t result = krakvinge_query(TREE, 0, 0, 8, 8, inks, ids, room, ANSWER);
    if (result != 0) {
        printf("query: refusal %" PRIu32 ": the row is too short for %" PRIu32 " answers\n", KRAKVINGE_REFUSAL(result), KRAKVINGE_WANTED(result));
        return;
    }
    printf("query: ids [");
    for (uint32_t i = 0; i < answer[0]; i++)
        printf("%s%" PRIu32, i == 0 ? "" : ", ", ids[i]);
    printf("], %" PRIu32 " nodes opened\n", answer[1]);
}

static void grid(int32_t columns, int32_t rows) {
    uint32_t counts[4] = {0};
    uint64_t result = krakvinge_grid(TREE, 0, 0, 8, 8, columns, rows, counts, WORDS(counts), ANSWER);
    if (result != 0) {
        printf("grid: refusal %" PRIu32 ": %s\n", KRAKVINGE_REFUSAL(result), krakvinge_refusal_text(KRAKVINGE_REFUSAL(result)));
        return;
    }
    printf("grid: counts [");
    for (size_t i = 0; i < KRAKVINGE_GRID_WORDS(columns, rows); i++)
        printf("%s%" PRIu32, i == 0 ? "" : ", ", counts[i]);
    printf("], total %" PRIu64 "\n", KRAKVINGE_TOTAL(answer));
}

static uint64_t batch(void) {
    const uint32_t minus_1 = UINT32_MAX;
    const uint32_t records[] = {
        KRAKVINGE_INSERT, 5, 3, 3, 4, 4, 3, KRAKVINGE_INSERT, 6, minus_1, minus_1, 0, 0, 3,
        KRAKVINGE_REMOVE, 5, 3, 3, 4, 4, 0, KRAKVINGE_CLEANUP, 0, 0, 0, 0, 0, 0,
    };
    uint32_t answers[WORDS(records) / KRAKVINGE_RECORD_WORDS];
    uint64_t result = krakvinge_batch(TREE, records, WORDS(records), answers, WORDS(answers));
    for (size_t i = 0; result == 0 && i < WORDS(answers); i++) {
        uint32_t refusal = KRAKVINGE_RECORD_REFUSAL(answers[i]);
        printf("record %zu: %s%" PRIu32 "\n", i, refusal ? "refused " : "", refusal ? refusal : answers[i]);
    }
    return result;
}

static void patch(uint32_t tint) {
    uint64_t result = krakvinge_patch(TREE, 0, 0, 1, 1, tint, 10, ANSWER);
    if (result == 0)
        printf("patch of tint %" PRIu32 ": %" PRIu32 " dots\n", tint, answer[0]);
    else
        printf("patch of tint %" PRIu32 ": refusal %" PRIu32 ": %s\n", tint, KRAKVINGE_REFUSAL(result), krakvinge_refusal_text(KRAKVINGE_REFUSAL(result)));
}

/* Asks, places by the ticket, and once more, when the tree has changed. */
static uint64_t ticket(void) {
    uint32_t given[KRAKVINGE_TICKET_WORDS];
    uint64_t asked = krakvinge_ask(TREE, 7, 3, 3, 3, 3, 3, given, WORDS(given), ANSWER);
    printf("ask 7: %" PRIu32 " splits, after %" PRIu64 " changes\n", answer[0], KRAKVINGE_CHANGES(state));
    for (int turn = 0; asked == 0 && turn < 2; turn++) {
        uint32_t refusal = KRAKVINGE_REFUSAL(krakvinge_place(TREE, given, WORDS(given), ANSWER));
        if (refusal == 0)
            printf("place 7: %" PRIu32 " splits\n", answer[0]);
        else
            printf("place 7: refusal %" PRIu32 ": %s\n", refusal, krakvinge_refusal_text(refusal));
    }
    printf("changes: %" PRIu64 "\n", KRAKVINGE_CHANGES(state));
    return asked;
}

int main(void) {
    int32_t row[24] = {0};
    uint32_t ids[PLACES] = {0};
    uint64_t refused = krakvinge_make(TREE);
    insert(1, 1, 1, 2, 2, 0);
    insert(2, 9, 1, 10, 2, 0);
    insert(3, 7, 7, 9, 9, 3);
    insert(4, 16, 16, 18, 18, 3);
    insert(4, 1, 1, 2, 2, 16);
    query(KRAKVINGE_ALL_INKS, PLACES);
    query(1 << 3, PLACES);
    query(KRAKVINGE_ALL_INKS, 1);
    grid(2, 2);
    grid(65, 1);
    refused |= krakvinge_leaves(TREE, row, WORDS(row), ANSWER);
    printf("leaves: %" PRIu32 ", the first [%d, %d, %d, %d, %d, %d]\n", answer[0], row[0], row[1], row[2], row[3], row[4], row[5]);
    /* a dot that begins on the right edge */
    insert(8, 16, 1, 17, 2, 0);
    refused |= krakvinge_collect_ids(TREE, ids, WORDS(ids), ANSWER);
    printf("collect_ids: %" PRIu32 " ids, %" PRIu32 " nodes opened\n", answer[0], answer[1]);
    refused |= krakvinge_all(TREE, ids, WORDS(ids), ANSWER);
    printf("all: %" PRIu32 " ids\n", answer[0]);
    refused |= krakvinge_remove(TREE, 8, 16, 1, 17, 2, ANSWER);
    printf("remove 8: %s\n", answer[0] == 1 ? "true" : "false");
    refused |= krakvinge_remove(TREE, 3, 7, 7, 9, 9, ANSWER);
    printf("remove 3: %s\n", answer[0] == 1 ? "true" : "false");
    refused |= krakvinge_cleanup(TREE, ANSWER);
    printf("cleanup: %s\n", answer[0] == 1 ? "true" : "false");
    refused |= krakvinge_references(TREE, ANSWER);
    printf("references: %" PRIu32 "\n", answer[0]);
    printf("live: %" PRIu32 "\n", state[9]);
    refused |= batch();
    patch(4);
    patch(200);
    patch(257);
    refused |= ticket();
    return refused == 0 ? 0 : 1;
}
