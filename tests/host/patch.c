/* Trials of krakvinge_patch from C: the dots of each patch by the rule of the table, every refusal in its order, and what each call keeps. */
#define GROUPS 64
#define PLACES 65536
#include "tree.h"

#define LAST 4294967295u

struct patch {
    int32_t x, y;
    uint32_t columns, rows, tint, first_id;
};

/* A film that lies at 0, 0 with its size and leaf limit; its groups and places; the patch, the result and the number of dots. */
struct trial {
    const char *name;
    uint32_t width, height, leaf_limit, groups, places;
    struct patch patch;
    uint64_t result;
    uint32_t laid;
};

#define MANY LAST
static const struct trial TRIALS[] = {
    {"tint 0", 16, 16, MANY, 0, 256, {0, 0, 1, 1, 0, 1}, 0, 0},
    {"tint 1", 16, 16, MANY, 0, 256, {0, 0, 1, 1, 1, 1}, 0, 1},
    {"tint 255", 16, 16, MANY, 0, 256, {0, 0, 1, 1, 255, 1}, 0, 255},
    {"tint 256", 16, 16, MANY, 0, 256, {0, 0, 1, 1, 256, 1}, 0, 256},
    {"splits", 16, 16, 4, 64, 256, {0, 0, 1, 1, 100, 7}, 0, 100},
    {"64 tiles across", 1024, 16, 16, 64, 300, {0, 0, 64, 1, 4, 9}, 0, 256},
    {"64 tiles down", 16, 1024, 16, 64, 300, {0, 0, 1, 64, 4, 9}, 0, 256},
    {"64 tiles each way, every place", 1024, 1024, MANY, 0, 65536, {0, 0, 64, 64, 16, 0}, 0, 65536},
    {"64 tiles each way, the tint 0", 1024, 1024, MANY, 0, 0, {0, 0, 64, 64, 0, 0}, 0, 0},
    {"the last id", 16, 16, MANY, 0, 256, {0, 0, 1, 1, 256, LAST - 255}, 0, 256},
    {"the film's last column and row", 15, 15, MANY, 0, 256, {0, 0, 1, 1, 256, 0}, 0, 256},
    {"a corner on the far edge", 16, 16, MANY, 0, 1, {16, 16, 1, 1, 1, 0}, 0, 1},
    {"a column without a dot beyond the film", 14, 14, MANY, 0, 64, {0, 0, 1, 1, 64, 0}, 0, 64},
    {"no dot, anywhere", 16, 16, MANY, 0, 0, {INT32_MAX, INT32_MIN, 64, 64, 0, LAST}, 0, 0},
    /* refused by the last dot: for its place, its id, its split */
    {"no place for the last", 16, 16, MANY, 0, 255, {0, 0, 1, 1, 256, 0}, 14, 0},
    {"no id for the last", 16, 16, MANY, 0, 256, {0, 0, 1, 1, 256, LAST - 254}, 14, 0},
    {"no group for the last", 16, 16, 255, 0, 256, {0, 0, 1, 1, 256, 0}, 14, 0},
    {"a group for the last", 16, 16, 255, 1, 256, {0, 0, 1, 1, 256, 0}, 0, 256},
    {"the last row off the film", 16, 14, MANY, 0, 256, {0, 0, 1, 1, 256, 0}, 14, 0},
    {"the last column off the film", 14, 16, MANY, 0, 256, {0, 0, 1, 1, 256, 0}, 14, 0},
    {"a corner off the film", 16, 16, MANY, 0, 1, {17, 0, 1, 1, 1, 0}, 14, 0},
    {"a corner before the film", 16, 16, MANY, 0, 1, {0, -1, 1, 1, 1, 0}, 14, 0},
    {"the ends of i32", 16, 16, MANY, 0, 256, {INT32_MAX, INT32_MAX, 1, 1, 256, 0}, 14, 0},
    {"the other ends of i32", 16, 16, MANY, 0, 256, {INT32_MIN, INT32_MIN, 64, 64, 256, 0}, 14, 0},
    {"more dots than places", 1024, 1024, MANY, 64, 65536, {0, 0, 64, 64, 17, 0}, 14, 0},
    {"all there can be", 1024, 1024, MANY, 64, 65536, {0, 0, 64, 64, 256, LAST}, 14, 0},
    /* another tint or number of tiles */
    {"tint 257", 16, 16, MANY, 0, 256, {0, 0, 1, 1, 257, 1}, 13, 0},
    {"the largest tint", 16, 16, MANY, 0, 256, {0, 0, 1, 1, LAST, 1}, 13, 0},
    {"no columns", 16, 16, MANY, 0, 256, {0, 0, 0, 1, 0, 1}, 13, 0},
    {"no rows", 16, 16, MANY, 0, 256, {0, 0, 1, 0, 0, 1}, 13, 0},
    {"65 columns", 16, 16, MANY, 0, 256, {0, 0, 65, 1, 1, 1}, 13, 0},
    {"65 rows", 16, 16, MANY, 0, 256, {0, 0, 1, 65, 1, 1}, 13, 0},
};

static struct tree film, before;
static unsigned tried;

static struct lengths right(const struct trial *t) {
    return lengths_of(t->groups, t->places);
}

/* The threshold at a column and a row of a matrix of this size, by the recursive rule. */
static uint32_t threshold(uint32_t size, uint32_t column, uint32_t row) {
    static const uint32_t quarter[2][2] = {{0, 2}, {3, 1}};
    uint32_t half = size / 2;
    return size == 1 ? 0 : 4 * threshold(half, column % half, row % half) + quarter[row / half][column / half];
}

/* The dots stand in the places from 0 on, in their order: ids that rise by 1, one-unit rectangles, ink 0. */
static bool stands(const struct trial *t) {
    const struct patch *p = &t->patch;
    uint32_t n = 0;
    for (uint32_t row = 0; row < 16 * p->rows; row++)
        for (uint32_t column = 0; column < 16 * p->columns; column++)
            if (threshold(16, column % 16, row % 16) < p->tint) {
                const int32_t x = p->x + (int32_t)column, y = p->y + (int32_t)row;
                const int32_t rect[4] = {x, y, x + 1, y + 1};
                if (n == t->laid || film.dots[3 * n] != p->first_id + n || film.dots[3 * n + 2] != 0 || memcmp(film.rects + 4 * n, rect, sizeof rect) != 0)
                    return false;
                n++;
            }
    return n == t->laid && film.state[9] == n && KRAKVINGE_CHANGES(film.state) == n && krakvinge_check(TREE(film, right(t))) == 0;
}

static bool makes(const struct trial *t) {
    const uint32_t settings[KRAKVINGE_STATE_WORDS] = {0, 0, t->width, t->height, 255, t->leaf_limit, 1};
    memset(&film, 0, sizeof film);
    memcpy(film.state, settings, sizeof settings);
    bool made = krakvinge_make(TREE(film, right(t))) == 0;
    for (size_t i = 0; i < right(t).marks; i++)
        film.marks[i] = (uint8_t)(i * 37 + 1);
    return made;
}

static uint64_t lays(const struct patch *p, struct lengths l, uint32_t *answer) {
    before = film;
    tried++;
    return krakvinge_patch(TREE(film, l), p->x, p->y, p->columns, p->rows, p->tint, p->first_id, answer, l.answer);
}

static bool passes(const struct trial *t) {
    uint32_t answer[KRAKVINGE_ANSWER_WORDS] = {UNWRITTEN, UNWRITTEN};
    bool good = makes(t);
    uint64_t result = lays(&t->patch, right(t), answer);
    bool said = result == 0 ? answer[0] == t->laid && answer[1] == 0 : answer[0] == UNWRITTEN && answer[1] == UNWRITTEN;
    good = good && result == t->result && said && (result == 0 ? stands(t) : kept(&before, &film, result));
    if (!good)
        printf("tests/host: a patch, %s: result %" PRIu64 ", wanted %" PRIu64 "; %" PRIu32 " dots\n", t->name, result, t->result, answer[0]);
    return good;
}

/* A patch on a film of one tile whose lengths, settings or words are no good, refused as said; with a patch that is none, as 13. */
static bool refused(const char *name, struct lengths l, uint32_t leaf_limit, uint32_t live, uint64_t wanted) {
    static const struct trial one = {"", 16, 16, 4, 64, 256, {0, 0, 1, 1, 256, LAST}, 0, 0};
    for (uint32_t tint = 256; tint <= 257; tint++) {
        uint32_t answer[KRAKVINGE_ANSWER_WORDS + 1] = {UNWRITTEN, UNWRITTEN, UNWRITTEN};
        struct patch p = one.patch;
        p.tint = tint;
        bool made = makes(&one);
        film.state[5] = leaf_limit;
        film.state[9] = live;
        uint64_t result = lays(&p, l, answer), due = tint == 257 ? 13 : wanted;
        if (!made || result != due || !kept(&before, &film, result) || answer[0] != UNWRITTEN || answer[1] != UNWRITTEN || answer[2] != UNWRITTEN) {
            printf("tests/host: a patch, %s: result %" PRIu64 ", wanted %" PRIu64 "\n", name, result, due);
            return false;
        }
    }
    return true;
}

static bool turned_down(void) {
    struct lengths l = lengths_of(64, 256);
    bool good = true;
    for (size_t i = 0; good && i < WORDS(WRONG); i++)
        good = refused(WRONG[i], wrong(l, i), 0, 1, 1);
    return good && refused("a leaf limit of 0", l, 0, 1, 2) && refused("no tree", l, 4, 1, 3) && refused("ids that run out", l, 4, 0, 14);
}

int main(void) {
    bool good = turned_down();
    for (size_t i = 0; good && i < WORDS(TRIALS); i++)
        good = passes(&TRIALS[i]);
    if (good)
        printf("tests/host: %u patches laid and refused as the rule of the table says\n", tried);
    return good ? 0 : 1;
}
