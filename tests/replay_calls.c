/* Replays recorded calls against the host's static library: replay_calls FILE. A line is 'tree', settings, groups and places, for a fresh tree;
 * or 'recounted' and the two words of the count of changes, the low one first, which the state has from then on; or a call, '=', its result and,
 * where it was accepted, the two words of its answer and those that it listed (of an ask the ticket); or 'nodes', 'dots', 'changes' or 'freegroups',
 * '=', and the words of the memory or the free groups' numbers at this point. A recorded word '_' stands for any.
 * The numbers of a call: insert and ask id x1 y1 x2 y2 ink; place these and the two words of a count; remove id x1 y1 x2 y2;
 * query x1 y1 x2 y2 mask room; collect_ids, all and leaves room; grid x y width height columns rows room; patch x y columns rows tint first-id. */
#include "../host/krakvinge.h"
#include <inttypes.h>
#include <stdbool.h>
#include <stdio.h>
#include <stdlib.h>
#include <string.h>

#define GROUPS 64
#define PLACES 64
#define ROW 4100
#define UNWRITTEN 77777

/* A tree and the row that a call is lent. */
static size_t groups, places;
static uint32_t state[KRAKVINGE_STATE_WORDS];
static uint32_t nodes[KRAKVINGE_NODE_WORDS(GROUPS)];
static uint32_t dots[KRAKVINGE_DOT_WORDS(PLACES)];
static int32_t rects[KRAKVINGE_RECT_WORDS(PLACES)];
static uint8_t marks[KRAKVINGE_MARK_BYTES(GROUPS, PLACES)];
static uint32_t answer[KRAKVINGE_ANSWER_WORDS];
static uint32_t ids[ROW];
static int32_t numbers[ROW];
/* An answer as the recorded one is written. */
static char text[16 * ROW];

#define TREE \
    state, KRAKVINGE_STATE_WORDS, nodes, KRAKVINGE_NODE_WORDS(groups), dots, KRAKVINGE_DOT_WORDS(places), rects, KRAKVINGE_RECT_WORDS(places), \
        marks, KRAKVINGE_MARK_BYTES(groups, places)
#define ANSWER answer, KRAKVINGE_ANSWER_WORDS
#define RECT(n) (int32_t)(n)[0], (int32_t)(n)[1], (int32_t)(n)[2], (int32_t)(n)[3]

static bool make(const long long *n, int count) {
    if (count != 9 || n[7] < 0 || n[7] > GROUPS || n[8] < 0 || n[8] > PLACES)
        return false;
    for (int i = 0; i < 7; i++)
        state[i] = (uint32_t)n[i];
    groups = (size_t)n[7];
    places = (size_t)n[8];
    return krakvinge_make(TREE) == 0;
}

static bool recount(const long long *n, int count) {
    for (int i = 0; count == 2 && i < 2; i++)
        state[10 + i] = (uint32_t)n[i];
    return count == 2;
}

/* How many numbers a call of the kind has; -1 for no call. */
static int count_of(const char *kind) {
    if (strcmp(kind, "insert") == 0 || strcmp(kind, "ask") == 0 || strcmp(kind, "query") == 0 || strcmp(kind, "patch") == 0)
        return 6;
    if (strcmp(kind, "place") == 0)
        return KRAKVINGE_TICKET_WORDS;
    if (strcmp(kind, "remove") == 0)
        return 5;
    if (strcmp(kind, "grid") == 0)
        return 7;
    if (strcmp(kind, "collect_ids") == 0 || strcmp(kind, "all") == 0 || strcmp(kind, "leaves") == 0)
        return 1;
    return strcmp(kind, "cleanup") == 0 || strcmp(kind, "references") == 0 ? 0 : -1;
}

/* The words of the row that a call is lent; false for no call, another count of numbers, or a mask or row too large. */
static bool room_of(const char *kind, const long long *n, int count, size_t *room) {
    bool query = strcmp(kind, "query") == 0;
    if (count != count_of(kind) || (query && (n[4] < 0 || n[4] > KRAKVINGE_ALL_INKS)))
        return false;
    bool ask = strcmp(kind, "ask") == 0;
    *room = ask ? KRAKVINGE_TICKET_WORDS : query ? (size_t)n[5] : count == 7 ? (size_t)n[6] : count == 1 ? (size_t)n[0] : 0;
    return *room <= ROW;
}

static uint64_t place(const long long *n) {
    uint32_t ticket[KRAKVINGE_TICKET_WORDS];
    for (size_t i = 0; i < KRAKVINGE_TICKET_WORDS; i++)
        ticket[i] = (uint32_t)n[i];
    return krakvinge_place(TREE, ticket, KRAKVINGE_TICKET_WORDS, ANSWER);
}

static uint64_t call(const char *kind, const long long *n, size_t room) {
    if (strcmp(kind, "insert") == 0)
        return krakvinge_insert(TREE, (uint32_t)n[0], RECT(n + 1), (uint32_t)n[5], ANSWER);
    if (strcmp(kind, "ask") == 0)
        return krakvinge_ask(TREE, (uint32_t)n[0], RECT(n + 1), (uint32_t)n[5], ids, room, ANSWER);
    if (strcmp(kind, "place") == 0)
        return place(n);
    if (strcmp(kind, "remove") == 0)
        return krakvinge_remove(TREE, (uint32_t)n[0], RECT(n + 1), ANSWER);
    if (strcmp(kind, "cleanup") == 0)
        return krakvinge_cleanup(TREE, ANSWER);
    if (strcmp(kind, "query") == 0)
        return krakvinge_query(TREE, RECT(n), (uint16_t)n[4], ids, room, ANSWER);
    if (strcmp(kind, "collect_ids") == 0)
        return krakvinge_collect_ids(TREE, ids, room, ANSWER);
    if (strcmp(kind, "all") == 0)
        return krakvinge_all(TREE, ids, room, ANSWER);
    if (strcmp(kind, "grid") == 0)
        return krakvinge_grid(TREE, RECT(n), (int32_t)n[4], (int32_t)n[5], ids, room, ANSWER);
    if (strcmp(kind, "patch") == 0)
        return krakvinge_patch(TREE, (int32_t)n[0], (int32_t)n[1], (uint32_t)n[2], (uint32_t)n[3], (uint32_t)n[4], (uint32_t)n[5], ANSWER);
    if (strcmp(kind, "leaves") == 0)
        return krakvinge_leaves(TREE, numbers, room, ANSWER);
    return krakvinge_references(TREE, ANSWER);
}

/* The free groups' numbers, the head first. */
static size_t free_groups(uint32_t *list) {
    size_t count = 0;
    for (size_t node = state[7]; count < groups && node < KRAKVINGE_NODE_WORDS(groups) / 2; node = nodes[2 * node])
        list[count++] = (uint32_t)((node - 1) / 5);
    return count;
}

/* What the memory holds at this point; NULL for a question of no known kind. */
static const char *memory(const char *kind) {
    uint32_t list[GROUPS];
    const uint32_t *words = list;
    size_t count;
    if (strcmp(kind, "nodes") == 0) {
        words = nodes;
        count = KRAKVINGE_NODE_WORDS(groups);
    } else if (strcmp(kind, "dots") == 0) {
        words = dots;
        count = KRAKVINGE_DOT_WORDS(places);
    } else if (strcmp(kind, "changes") == 0) {
        words = state + 10;
        count = 2;
    } else if (strcmp(kind, "freegroups") == 0) {
        count = free_groups(list);
    } else {
        return NULL;
    }
    text[0] = '\0';
    for (size_t i = 0, at = 0; i < count; i++)
        at += (size_t)sprintf(text + at, i == 0 ? "%" PRIu32 : " %" PRIu32, words[i]);
    return text;
}

/* The words that an accepted call wrote to the row. */
static size_t listed_by(const char *kind, const long long *n) {
    if (strcmp(kind, "grid") == 0)
        return KRAKVINGE_GRID_WORDS(n[4], n[5]);
    if (strcmp(kind, "ask") == 0)
        return KRAKVINGE_TICKET_WORDS;
    return strcmp(kind, "leaves") == 0 ? KRAKVINGE_LEAF_WORDS(answer[0]) : answer[0];
}

/* The library's answer; NULL for a question of no known kind. */
static const char *replay(const char *kind, const long long *n, int count) {
    size_t room;
    if (!room_of(kind, n, count, &room))
        return count == 0 ? memory(kind) : NULL;
    for (size_t i = 0; i < ROW; i++) {
        ids[i] = UNWRITTEN;
        numbers[i] = UNWRITTEN;
    }
    uint64_t result = call(kind, n, room);
    int at = sprintf(text, "%" PRIu64, result);
    if (result == 0)
        at += sprintf(text + at, " %" PRIu32 " %" PRIu32, answer[0], answer[1]);
    bool leaves = strcmp(kind, "leaves") == 0;
    size_t listed = result != 0 || room == 0 ? 0 : listed_by(kind, n);
    for (size_t i = 0; i < listed && i < room; i++)
        at += leaves ? sprintf(text + at, " %" PRId32, numbers[i]) : sprintf(text + at, " %" PRIu32, ids[i]);
    for (size_t i = listed; i < ROW; i++)
        if (ids[i] != UNWRITTEN || numbers[i] != UNWRITTEN)
            return "a word past the row's answers";
    return text;
}

static bool same(const char *ours, const char *theirs) {
    for (; *theirs != '\0'; theirs++) {
        if (*theirs == '_')
            ours += strcspn(ours, " ");
        else if (*ours++ != *theirs)
            return false;
    }
    return *ours == '\0';
}

int main(int argc, char **argv) {
    static char line[16 * ROW];
    FILE *file = argc == 2 ? fopen(argv[1], "r") : NULL;
    unsigned long at = 0, trees = 0, replayed = 0;
    while (file != NULL && fgets(line, sizeof line, file) != NULL) {
        char *save = NULL, *theirs = strstr(line, " = ");
        long long n[9];
        int count = 0;
        at++;
        line[strcspn(line, "\n")] = '\0';
        if (line[0] == '#')
            continue;
        if (theirs != NULL)
            *theirs = '\0';
        char *kind = strtok_r(line, " ", &save);
        for (char *word; kind != NULL && count < 9 && (word = strtok_r(NULL, " ", &save)) != NULL; count++)
            n[count] = strtoll(word, NULL, 10);
        bool tree = kind != NULL && theirs == NULL && strcmp(kind, "tree") == 0 && make(n, count);
        bool recounted = kind != NULL && theirs == NULL && strcmp(kind, "recounted") == 0 && recount(n, count);
        const char *ours = kind != NULL && theirs != NULL ? replay(kind, n, count) : NULL;
        if (!tree && !recounted && ours == NULL) {
            printf("replay: line %lu is no tree, no count and no question with an answer\n", at);
            return 1;
        }
        if (ours != NULL && !same(ours, theirs + 3)) {
            printf("replay: DIFFERENCE at line %lu: recorded %s, the library answers %s\n", at, theirs + 3, ours);
            return 1;
        }
        trees += tree;
        replayed += ours != NULL;
    }
    printf("replay: %lu recorded calls on %lu trees, no difference\n", replayed, trees);
    return replayed == 0;
}
