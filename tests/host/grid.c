/* Trials of krakvinge_grid from C: counts worked out by hand, every refusal in its order, and what each call keeps. */
#define GROUPS 4
#define PLACES 12
#include "tree.h"

#define ROW 4100
#define FAR 1073741823
#define WANTED(windows) (8 + 256 * (uint64_t)(windows))
#define RIGHT lengths_of(GROUPS, PLACES)

/* Seven dots: three squares, a point where four windows meet, a line on the edge of two, a point at 0, 0 (a free place has these words too), and a
 * square that reaches over the film's far corner. */
static const int32_t DOTS[7][4] = {
    {1, 1, 2, 2}, {9, 1, 10, 2}, {7, 7, 9, 9}, {8, 8, 8, 8}, {4, 4, 4, 12}, {0, 0, 0, 0}, {14, 14, 17, 17},
};

/* A grid, the words of the row, the result; of an accepted call the total and the counts, as far as they are written down. */
struct trial {
    int32_t grid[6];
    size_t room;
    uint64_t result;
    uint32_t total;
    size_t known;
    uint32_t counts[4];
};

static const struct trial COUNTED[] = {
    /* the film in four windows, in a row as long as needed and in a longer one */
    {{0, 0, 8, 8, 2, 2}, 4, 0, 14, 4, {5, 3, 3, 3}},
    {{0, 0, 8, 8, 2, 2}, ROW, 0, 14, 4, {5, 3, 3, 3}},
    /* more columns than rows, and more rows than columns */
    {{0, 0, 4, 16, 4, 1}, ROW, 0, 10, 4, {3, 3, 3, 1}},
    {{0, 0, 16, 4, 1, 4}, ROW, 0, 12, 4, {4, 3, 3, 2}},
    {{0, 0, 6, 9, 3, 1}, ROW, 0, 6, 3, {3, 3, 0}},
    /* one window: all, and none but the points and the line that touch it */
    {{0, 0, 17, 17, 1, 1}, 1, 0, 7, 1, {7}},
    {{2, 2, 2, 2, 1, 1}, 1, 0, 1, 1, {1}},
    {{4, 2, 3, 2, 1, 1}, 1, 0, 1, 1, {1}},
    {{8, 2, 1, 6, 1, 1}, 1, 0, 2, 1, {2}},
    {{2, 9, 2, 3, 1, 1}, 1, 0, 1, 1, {1}},
    /* off the film: nothing; where a dot reaches out or a point touches, that one */
    {{100, 100, 8, 8, 2, 2}, ROW, 0, 0, 4, {0, 0, 0, 0}},
    {{-100, -100, 8, 8, 2, 2}, ROW, 0, 0, 4, {0, 0, 0, 0}},
    {{16, 16, 1, 1, 2, 2}, ROW, 0, 1, 4, {1, 0, 0, 0}},
    {{-16, -16, 8, 8, 2, 2}, ROW, 0, 1, 4, {0, 0, 0, 1}},
    /* beyond the root on all sides */
    {{-1000, -1000, 1000, 1000, 2, 2}, ROW, 0, 10, 4, {1, 1, 1, 7}},
    {{-1000, -1000, 3000, 3000, 1, 1}, ROW, 0, 7, 1, {7}},
    /* the most windows, in as many words */
    {{0, 0, 1, 1, 64, 64}, 4096, 0, 40, 2, {1, 0}},
    {{0, 0, 1, 1, 64, 64}, ROW, 0, 40, 2, {1, 0}},
    /* corners at the ends */
    {{INT32_MIN, INT32_MIN, 1, 1, 64, 64}, ROW, 0, 0, 2, {0, 0}},
    {{INT32_MIN, INT32_MIN, INT32_MAX, INT32_MAX, 1, 1}, ROW, 0, 0, 1, {0}},
    {{INT32_MIN, INT32_MIN, 1610612735, 1610612735, 2, 2}, ROW, 0, 7, 4, {0, 0, 0, 7}},
    {{INT32_MIN + 1, INT32_MIN + 1, 1610612735, 1610612735, 2, 2}, ROW, 0, 7, 4, {0, 0, 0, 7}},
    {{INT32_MIN, INT32_MIN, 50331647, 50331647, 64, 64}, ROW, 0, 7, 2, {0, 0}},
    {{FAR - 1, FAR - 1, 1, 1, 1, 1}, 1, 0, 0, 1, {0}},
    {{FAR - 64, 0, 1, 1, 64, 1}, 64, 0, 0, 2, {0, 0}},
    {{0, 0, FAR, FAR, 1, 1}, 1, 0, 7, 1, {7}},
};

static const struct trial REFUSED[] = {
    /* a size or number that is no good, whatever the corner and the row */
    {.grid = {0, 0, 0, 8, 2, 2}, .room = ROW, .result = 11},
    {.grid = {0, 0, 8, 0, 2, 2}, .room = ROW, .result = 11},
    {.grid = {0, 0, 8, 8, 0, 2}, .room = ROW, .result = 11},
    {.grid = {0, 0, 8, 8, 2, 0}, .room = ROW, .result = 11},
    {.grid = {0, 0, -1, 8, 2, 2}, .room = ROW, .result = 11},
    {.grid = {0, 0, 8, INT32_MIN, 2, 2}, .room = ROW, .result = 11},
    {.grid = {0, 0, 8, 8, INT32_MIN, 2}, .room = ROW, .result = 11},
    {.grid = {0, 0, 8, 8, 2, -1}, .room = ROW, .result = 11},
    {.grid = {0, 0, 1, 1, 65, 1}, .room = ROW, .result = 11},
    {.grid = {0, 0, 1, 1, 1, 65}, .room = ROW, .result = 11},
    {.grid = {0, 0, 1, 1, INT32_MAX, INT32_MAX}, .room = ROW, .result = 11},
    {.grid = {FAR, FAR, 8, 8, 65, 2}, .room = ROW, .result = 11},
    {.grid = {INT32_MAX, INT32_MAX, 0, 8, 2, 2}, .room = 0, .result = 11},
    {.grid = {0, 0, -8, -8, -2, -2}, .room = 0, .result = 11},
    /* a far corner beyond the range, whatever the row */
    {.grid = {FAR, 0, 1, 1, 1, 1}, .room = ROW, .result = 12},
    {.grid = {0, FAR, 1, 1, 1, 1}, .room = ROW, .result = 12},
    {.grid = {INT32_MAX, INT32_MAX, 1, 1, 1, 1}, .room = ROW, .result = 12},
    {.grid = {0, 0, 16777216, 1, 64, 1}, .room = ROW, .result = 12},
    {.grid = {0, 0, 1, 16777216, 1, 64}, .room = ROW, .result = 12},
    {.grid = {INT32_MIN, INT32_MIN, 1610612736, 1, 2, 1}, .room = ROW, .result = 12},
    {.grid = {INT32_MIN, INT32_MIN, 1, 50331648, 1, 64}, .room = ROW, .result = 12},
    /* 4 times the width is 0 and 64 times the height is -64 in 32 bits */
    {.grid = {0, 0, 1073741824, 1, 4, 1}, .room = ROW, .result = 12},
    {.grid = {0, 0, 1, INT32_MAX, 1, 64}, .room = ROW, .result = 12},
    {.grid = {INT32_MAX, INT32_MIN, INT32_MAX, INT32_MAX, 64, 64}, .room = 0, .result = 12},
    /* a row that is too short */
    {.grid = {0, 0, 8, 8, 2, 2}, .room = 3, .result = WANTED(4)},
    {.grid = {0, 0, 8, 8, 2, 2}, .room = 0, .result = WANTED(4)},
    {.grid = {0, 0, 1, 1, 64, 64}, .room = 4095, .result = WANTED(4096)},
    {.grid = {100, 100, 1, 1, 3, 5}, .room = 14, .result = WANTED(15)},
    {.grid = {FAR - 1, FAR - 1, 1, 1, 1, 1}, .room = 0, .result = WANTED(1)},
};

/* What each call is turned down for first: a length, the settings, a memory that is no tree; here with a grid and a row that are no good either. */
static const struct trial WORST = {.grid = {FAR, FAR, 0, 0, 65, 65}, .room = 0};

static struct tree film;
static unsigned tried;

static bool make_film(void) {
    static const uint32_t settings[KRAKVINGE_STATE_WORDS] = {0, 0, 16, 16, 2, 2, 1};
    uint32_t answer[KRAKVINGE_ANSWER_WORDS];
    memcpy(film.state, settings, sizeof settings);
    uint64_t refused = krakvinge_make(TREE(film, RIGHT));
    for (uint32_t i = 0; i < WORDS(DOTS); i++) {
        const int32_t *d = DOTS[i];
        refused |= krakvinge_insert(TREE(film, RIGHT), i, d[0], d[1], d[2], d[3], i * 5 % 16, answer, KRAKVINGE_ANSWER_WORDS);
    }
    /* two more points at 0, 0 come and go */
    for (uint32_t id = 7; id < 9; id++)
        refused |= krakvinge_insert(TREE(film, RIGHT), id, 0, 0, 0, 0, 0, answer, KRAKVINGE_ANSWER_WORDS);
    for (uint32_t id = 7; id < 9; id++)
        refused |= krakvinge_remove(TREE(film, RIGHT), id, 0, 0, 0, 0, answer, KRAKVINGE_ANSWER_WORDS);
    return refused == 0;
}

/* Of an accepted call: the counts and the total. Of a refused one nothing is written. The rest of both rows is kept. */
static bool answered(const struct trial *t, const uint32_t *counts, const uint32_t *answer) {
    size_t windows = t->result == 0 ? KRAKVINGE_GRID_WORDS(t->grid[4], t->grid[5]) : 0;
    uint64_t total = 0;
    bool good = answer[2] == UNWRITTEN;
    for (size_t i = 0; i < ROW; i++) {
        if (i < windows)
            total += counts[i];
        else
            good = good && counts[i] == UNWRITTEN;
        good = good && (i >= t->known || counts[i] == t->counts[i]);
    }
    if (t->result != 0)
        return good && answer[0] == UNWRITTEN && answer[1] == UNWRITTEN;
    return good && total == t->total && KRAKVINGE_TOTAL(answer) == t->total;
}

/* The trial on a tree with marks of any kind, told these lengths. */
static bool passes(const char *name, struct tree before, struct lengths l, struct trial t) {
    uint32_t counts[ROW], answer[KRAKVINGE_ANSWER_WORDS + 1] = {UNWRITTEN, UNWRITTEN, UNWRITTEN};
    const int32_t *g = t.grid;
    for (size_t i = 0; i < ROW; i++)
        counts[i] = UNWRITTEN;
    for (size_t i = 0; i < sizeof before.marks; i++)
        before.marks[i] = (uint8_t)(i * 37 + 1);
    struct tree after = before;
    uint64_t result = krakvinge_grid(TREE(after, l), g[0], g[1], g[2], g[3], g[4], g[5], counts, t.room, answer, l.answer);
    tried++;
    if (result == t.result && answered(&t, counts, answer) && kept(&before, &after, result))
        return true;
    printf("tests/host: %s, grid %d %d %d %d %d %d in %zu words: result %" PRIu64 ", wanted %" PRIu64 "; counts %" PRIu32 " %" PRIu32 " %" PRIu32
           " %" PRIu32 ", total %" PRIu64 "\n", name, g[0], g[1], g[2], g[3], g[4], g[5], t.room, result, t.result, counts[0], counts[1], counts[2],
           counts[3], KRAKVINGE_TOTAL(answer));
    return false;
}

/* The worst trial, refused as said. */
static bool refused(const char *name, struct tree tree, struct lengths lengths, uint64_t result) {
    struct trial worst = WORST;
    worst.result = result;
    return passes(name, tree, lengths, worst);
}

static bool turned_down(void) {
    struct tree settings = film, damaged = film, both;
    settings.state[5] = 0;
    damaged.state[9]++;
    both = settings;
    both.state[9]++;
    bool good = true;
    for (size_t i = 0; good && i < WORDS(WRONG); i++)
        good = refused(WRONG[i], both, wrong(RIGHT, i), 1);
    good = good && refused("a leaf limit of 0", both, RIGHT, 2) && refused("a leaf limit of 0", settings, RIGHT, 2);
    return good && refused("no tree", damaged, RIGHT, 3) && refused("a bad grid", film, RIGHT, 11);
}

int main(void) {
    bool good = make_film() && turned_down();
    for (size_t i = 0; good && i < WORDS(COUNTED); i++)
        good = passes("counts", film, RIGHT, COUNTED[i]);
    for (size_t i = 0; good && i < WORDS(REFUSED); i++)
        good = passes("refusal", film, RIGHT, REFUSED[i]);
    if (good)
        printf("tests/host: %u grids counted and refused as worked out by hand\n", tried);
    return good ? 0 : 1;
}
