/* The rows that the trials lend, and what a refused call keeps. GROUPS and PLACES are defined by the file that includes this. */
#include "../../host/krakvinge.h"
#include <inttypes.h>
#include <stdbool.h>
#include <stdio.h>
#include <string.h>

#define UNWRITTEN 77777
#define TREE(t, l) (t).state, (l).state, (t).nodes, (l).nodes, (t).dots, (l).dots, (t).rects, (l).rects, (t).marks, (l).marks
#define WORDS(row) (sizeof(row) / sizeof(row)[0])

struct tree {
    uint32_t state[KRAKVINGE_STATE_WORDS];
    uint32_t nodes[KRAKVINGE_NODE_WORDS(GROUPS)];
    uint32_t dots[KRAKVINGE_DOT_WORDS(PLACES)];
    int32_t rects[KRAKVINGE_RECT_WORDS(PLACES)];
    uint8_t marks[KRAKVINGE_MARK_BYTES(GROUPS, PLACES)];
};

/* The lengths that a call is told. */
struct lengths {
    size_t state, nodes, dots, rects, marks, answer;
};

static struct lengths lengths_of(size_t groups, size_t places) {
    return (struct lengths){KRAKVINGE_STATE_WORDS, KRAKVINGE_NODE_WORDS(groups), KRAKVINGE_DOT_WORDS(places), KRAKVINGE_RECT_WORDS(places),
                            KRAKVINGE_MARK_BYTES(groups, places), KRAKVINGE_ANSWER_WORDS};
}

/* Lengths of which the i-th is wrong, and what it is. */
static const char *const WRONG[] = {
    "a state of 11 words", "the nodes' length", "the dots' length", "the rects' length", "the marks' length", "an answer of 1 word", "an answer of 3 words",
};

static struct lengths wrong(struct lengths l, size_t i) {
    size_t *const shorter[] = {&l.state, &l.nodes, &l.dots, &l.rects, &l.marks, &l.answer};
    if (i < WORDS(shorter))
        --*shorter[i];
    else
        l.answer++;
    return l;
}

/* The rows are as they were, and the marks 0 after any result but 1, 2 and 13. */
static bool kept(struct tree *before, const struct tree *after, uint64_t result) {
    if (result != 1 && result != 2 && result != 13)
        memset(before->marks, 0, sizeof before->marks);
    return memcmp(before->state, after->state, sizeof before->state) == 0 && memcmp(before->nodes, after->nodes, sizeof before->nodes) == 0 &&
           memcmp(before->dots, after->dots, sizeof before->dots) == 0 && memcmp(before->rects, after->rects, sizeof before->rects) == 0 &&
           memcmp(before->marks, after->marks, sizeof before->marks) == 0;
}
