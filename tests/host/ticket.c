/* Trials of krakvinge_ask and krakvinge_place from C, and of the count of changes: after each kind of call, and at its end. */
#define GROUPS 4
#define PLACES 8
#include "tree.h"

#define LARGEST UINT64_MAX
#define REFUSED 4294967040u
#define SETTINGS 7
#define ANY 20000

/* The kinds of a batch's records come first, OTHER is no kind of one. A placing has a ticket with the state's count, or with one that is behind by 1,
 * ahead by 1, or another in its high word alone. */
enum kind { INSERT, REMOVE, CLEANUP, OTHER, ASK, PLACE, BEHIND, AHEAD, HIGH, QUERY, COLLECT, ALL, LEAVES, REFERENCES, GRID, PATCH };

/* A call with its numbers (of a patch: the first id, the corner, the tint), its result, the first word of its answer, and how far the count rises. */
struct step {
    enum kind kind;
    uint32_t id;
    int32_t rect[4];
    uint32_t ink;
    uint64_t result;
    uint32_t word;
    uint64_t rise;
};

/* After each kind of call. */
static const struct step EVERY[] = {
    {REFERENCES, 0, {0}, 0, 0, 0, 0},
    {INSERT, 1, {1, 1, 2, 2}, 3, 0, 0, 1},
    {INSERT, 2, {2, 2, 1, 1}, 0, 4, 0, 0},
    {INSERT, 2, {3, 3, 3, 3}, 16, 10, 0, 0},
    {INSERT, 2, {16, 16, 18, 18}, 0, 5, 0, 0},
    {QUERY, 0, {0, 0, 16, 16}, 0, 0, 1, 0},
    {COLLECT, 0, {0}, 0, 0, 1, 0},
    {ALL, 0, {0}, 0, 0, 1, 0},
    {LEAVES, 0, {0}, 0, 0, 1, 0},
    {REFERENCES, 0, {0}, 0, 0, 1, 0},
    {GRID, 0, {0, 0, 8, 8}, 0, 0, 1, 0},
    /* an ask, and its ticket placed when it is due and when it is not */
    {ASK, 2, {3, 3, 3, 3}, 15, 0, 2, 0},
    {BEHIND, 2, {3, 3, 3, 3}, 15, 15, 0, 0},
    {AHEAD, 2, {3, 3, 3, 3}, 15, 15, 0, 0},
    {HIGH, 2, {3, 3, 3, 3}, 15, 15, 0, 0},
    {PLACE, 2, {3, 3, 3, 3}, 15, 0, 2, 1},
    {BEHIND, 2, {3, 3, 3, 3}, 15, 15, 0, 0},
    {BEHIND, 3, {2, 2, 1, 1}, 16, 15, 0, 0},
    {ASK, 3, {2, 2, 1, 1}, 16, 4, 0, 0},
    {ASK, 3, {16, 16, 18, 18}, 16, 10, 0, 0},
    {ASK, 3, {16, 16, 18, 18}, 15, 5, 0, 0},
    {PLACE, 3, {2, 2, 1, 1}, 16, 4, 0, 0},
    {PLACE, 3, {16, 16, 18, 18}, 16, 10, 0, 0},
    {PLACE, 3, {16, 16, 18, 18}, 15, 5, 0, 0},
    /* a ticket that no ask gave; then no group is free */
    {PLACE, 3, {9, 9, 10, 10}, 0, 0, 0, 1},
    {INSERT, 4, {11, 11, 12, 12}, 0, 7, 0, 0},
    {ASK, 4, {11, 11, 12, 12}, 0, 7, 0, 0},
    {PLACE, 4, {11, 11, 12, 12}, 0, 7, 0, 0},
    /* yes and no */
    {REMOVE, 1, {9, 1, 10, 2}, 0, 0, 0, 0},
    {REMOVE, 1, {1, 1, 2, 2}, 0, 0, 1, 1},
    {CLEANUP, 0, {0}, 0, 0, 0, 0},
    {REMOVE, 2, {3, 3, 3, 3}, 0, 0, 1, 1},
    {CLEANUP, 0, {0}, 0, 0, 1, 1},
    {CLEANUP, 0, {0}, 0, 0, 0, 0},
    {REMOVE, 3, {9, 9, 10, 10}, 0, 0, 1, 1},
    {CLEANUP, 0, {0}, 0, 0, 1, 1},
    {CLEANUP, 0, {0}, 0, 0, 0, 0},
    {PATCH, 7, {0, 0}, 0, 0, 0, 0},
    {PATCH, 7, {0, 0}, 4, 0, 4, 4},
    {PATCH, 7, {0, 0}, 256, 14, 0, 0},
    {PATCH, 7, {0, 0}, 257, 13, 0, 0},
    {REFERENCES, 0, {0}, 0, 0, 4, 0},
};

/* Records of every kind and end. */
static const struct step RECORDS[] = {
    {CLEANUP, 0, {0}, 0, 0, 0, 0},
    {INSERT, 1, {1, 1, 1, 1}, 0, 0, 0, 1},
    {INSERT, 2, {2, 2, 1, 1}, 0, 4, 0, 0},
    {OTHER, 2, {1, 1, 2, 2}, 0, 9, 0, 0},
    {INSERT, 2, {15, 15, 15, 15}, 15, 0, 1, 1},
    {INSERT, 3, {14, 14, 14, 14}, 0, 7, 0, 0},
    {REMOVE, 1, {15, 15, 15, 15}, 99, 0, 0, 0},
    {REMOVE, 1, {1, 1, 1, 1}, 0, 0, 1, 1},
    {CLEANUP, 0, {0}, 0, 0, 0, 0},
    {REMOVE, 2, {15, 15, 15, 15}, 0, 0, 1, 1},
    {CLEANUP, 0, {0}, 0, 0, 1, 1},
    {CLEANUP, 0, {0}, 0, 0, 0, 0},
};

/* From the largest count less 2: the third insert that is good is refused, and what says no is not. */
static const struct step LAST_RECORDS[] = {
    {INSERT, 1, {1, 1, 1, 1}, 0, 0, 0, 1},
    {INSERT, 2, {16, 16, 18, 18}, 0, 5, 0, 0},
    {INSERT, 2, {15, 15, 15, 15}, 0, 0, 1, 1},
    {INSERT, 3, {1, 15, 1, 15}, 0, 16, 0, 0},
    {INSERT, 3, {2, 2, 1, 1}, 0, 4, 0, 0},
    {INSERT, 3, {1, 15, 1, 15}, 16, 10, 0, 0},
    {INSERT, 3, {14, 14, 14, 14}, 0, 7, 0, 0},
    {REMOVE, 3, {1, 1, 1, 1}, 0, 0, 0, 0},
    {REMOVE, 1, {1, 1, 1, 1}, 0, 16, 0, 0},
    {CLEANUP, 0, {0}, 0, 0, 0, 0},
    {OTHER, 0, {0}, 0, 9, 0, 0},
};

/* From the largest less 4: a cleanup that would say yes. */
static const struct step EMPTIED[] = {
    {INSERT, 1, {1, 1, 1, 1}, 0, 0, 0, 1},
    {INSERT, 2, {15, 15, 15, 15}, 0, 0, 1, 1},
    {REMOVE, 1, {1, 1, 1, 1}, 0, 0, 1, 1},
    {REMOVE, 2, {15, 15, 15, 15}, 0, 0, 1, 1},
    {CLEANUP, 0, {0}, 0, 16, 0, 0},
    {REMOVE, 2, {15, 15, 15, 15}, 0, 0, 0, 0},
};

/* From the largest less 1, with one group: each refusal comes before 16, and what changes nothing is accepted. */
static const struct step END[] = {
    {INSERT, 1, {1, 1, 2, 2}, 0, 0, 0, 1},
    {INSERT, 2, {2, 2, 1, 1}, 0, 4, 0, 0},
    {INSERT, 2, {16, 16, 18, 18}, 16, 10, 0, 0},
    {INSERT, 2, {16, 16, 18, 18}, 0, 5, 0, 0},
    {INSERT, 2, {3, 3, 3, 3}, 0, 7, 0, 0},
    {INSERT, 2, {9, 9, 10, 10}, 0, 16, 0, 0},
    {ASK, 2, {2, 2, 1, 1}, 0, 4, 0, 0},
    {ASK, 2, {16, 16, 18, 18}, 16, 10, 0, 0},
    {ASK, 2, {16, 16, 18, 18}, 0, 5, 0, 0},
    {ASK, 2, {3, 3, 3, 3}, 0, 7, 0, 0},
    {ASK, 2, {9, 9, 10, 10}, 0, 16, 0, 0},
    {PLACE, 2, {2, 2, 1, 1}, 0, 4, 0, 0},
    {PLACE, 2, {16, 16, 18, 18}, 16, 10, 0, 0},
    {PLACE, 2, {16, 16, 18, 18}, 0, 5, 0, 0},
    {PLACE, 2, {3, 3, 3, 3}, 0, 7, 0, 0},
    {PLACE, 2, {9, 9, 10, 10}, 0, 16, 0, 0},
    {BEHIND, 2, {9, 9, 10, 10}, 0, 15, 0, 0},
    {AHEAD, 2, {9, 9, 10, 10}, 0, 15, 0, 0},
    {HIGH, 2, {9, 9, 10, 10}, 0, 15, 0, 0},
    {REMOVE, 2, {1, 1, 2, 2}, 0, 0, 0, 0},
    {REMOVE, 1, {1, 1, 2, 2}, 0, 16, 0, 0},
    {CLEANUP, 0, {0}, 0, 0, 0, 0},
    {QUERY, 0, {0, 0, 16, 16}, 0, 0, 1, 0},
    {COLLECT, 0, {0}, 0, 0, 1, 0},
    {ALL, 0, {0}, 0, 0, 1, 0},
    {LEAVES, 0, {0}, 0, 0, 1, 0},
    {REFERENCES, 0, {0}, 0, 0, 1, 0},
    {GRID, 0, {0, 0, 8, 8}, 0, 0, 1, 0},
    {PATCH, 7, {0, 0}, 257, 13, 0, 0},
    {PATCH, 7, {0, 0}, 256, 14, 0, 0},
    {PATCH, 7, {16, 16}, 2, 14, 0, 0},
    {PATCH, UINT32_MAX, {8, 8}, 2, 14, 0, 0},
    {PATCH, UINT32_MAX, {8, 8}, 1, 16, 0, 0},
    {PATCH, 7, {0, 0}, 0, 0, 0, 0},
};

/* From the largest less 1, with one place. */
static const struct step FULL[] = {
    {INSERT, 1, {1, 1, 2, 2}, 0, 0, 0, 1},
    {INSERT, 2, {16, 16, 18, 18}, 0, 5, 0, 0},
    {INSERT, 2, {9, 9, 10, 10}, 0, 6, 0, 0},
    {ASK, 2, {9, 9, 10, 10}, 0, 6, 0, 0},
    {PLACE, 2, {9, 9, 10, 10}, 0, 6, 0, 0},
    {BEHIND, 2, {9, 9, 10, 10}, 0, 15, 0, 0},
    {PATCH, 2, {9, 9}, 1, 14, 0, 0},
};

/* From the largest less 4 and less 3: a patch of four dots that just fits, and one that passes the count by one. */
static const struct step FITS[] = {
    {PATCH, 7, {0, 0}, 4, 0, 4, 4},
    {PATCH, 7, {0, 0}, 0, 0, 0, 0},
    {PATCH, 7, {0, 0}, 256, 14, 0, 0},
};

static const struct step PASSES[] = {
    {PATCH, 7, {0, 0}, 4, 16, 0, 0},
    {PATCH, 7, {0, 0}, 3, 0, 3, 3},
    {PATCH, 7, {8, 8}, 1, 16, 0, 0},
};

/* The groups and places of a film, the count that its tree begins with, and the steps. */
struct list {
    const char *name;
    size_t groups, places;
    uint64_t count;
    const struct step *steps;
    size_t number;
};

#define LIST(name, groups, places, count, steps) {name, groups, places, count, steps, WORDS(steps)}
static const struct list LISTS[] = {
    LIST("every kind", 2, 8, 0, EVERY),
    LIST("every kind, over the end of the low word", 2, 8, 4294967293, EVERY),
    LIST("every kind, any count", 2, 8, 12345678901234567890u, EVERY),
    LIST("records", 1, 4, 0, RECORDS),
    LIST("records, over the end of the low word", 1, 4, 4294967294, RECORDS),
    LIST("records to the largest count", 1, 4, LARGEST - 5, RECORDS),
    LIST("records at the largest count", 1, 4, LARGEST - 2, LAST_RECORDS),
    LIST("a branch that is empty", 1, 4, LARGEST - 4, EMPTIED),
    LIST("the largest count", 1, 4, LARGEST - 1, END),
    LIST("the largest count, no place", 1, 1, LARGEST - 1, FULL),
    LIST("a patch that fits", 1, 8, LARGEST - 4, FITS),
    LIST("a patch that passes", 1, 8, LARGEST - 3, PASSES),
};

static struct tree film;
static unsigned tried;

static void set_count(uint64_t count) {
    film.state[10] = (uint32_t)count;
    film.state[11] = (uint32_t)(count >> 32);
}

/* A fresh film of 16 by 16 with leaf limit 1, whose count is 0 whatever stood there; and then the count. */
static bool makes(struct lengths l, int32_t left, uint64_t count) {
    const uint32_t settings[SETTINGS] = {(uint32_t)left, (uint32_t)left, 16, 16, 2, 1, 1};
    memset(&film, 0, sizeof film);
    memset(film.state, 0x5a, sizeof film.state);
    memcpy(film.state, settings, sizeof settings);
    bool made = krakvinge_make(TREE(film, l)) == 0 && film.state[9] == 0 && KRAKVINGE_CHANGES(film.state) == 0;
    set_count(count);
    return made;
}

#define RECT(s) (s)->rect[0], (s)->rect[1], (s)->rect[2], (s)->rect[3]
#define ANSWER answer, l.answer

/* The step's dot, with a count. */
static void write_ticket(const struct step *s, uint64_t count, uint32_t *ticket) {
    const uint32_t words[KRAKVINGE_TICKET_WORDS] = {s->id, (uint32_t)s->rect[0], (uint32_t)s->rect[1], (uint32_t)s->rect[2], (uint32_t)s->rect[3],
                                                    s->ink, (uint32_t)count, (uint32_t)(count >> 32)};
    memcpy(ticket, words, sizeof words);
}

/* The call of the step; an ask writes the ticket, a placing reads it. */
static uint64_t call(const struct step *s, struct lengths l, uint32_t *ticket, size_t ticket_words, uint32_t *answer) {
    uint32_t ids[PLACES];
    int32_t row[KRAKVINGE_LEAF_WORDS(16)];
    switch (s->kind) {
    case INSERT: return krakvinge_insert(TREE(film, l), s->id, RECT(s), s->ink, ANSWER);
    case REMOVE: return krakvinge_remove(TREE(film, l), s->id, RECT(s), ANSWER);
    case CLEANUP: return krakvinge_cleanup(TREE(film, l), ANSWER);
    case ASK: return krakvinge_ask(TREE(film, l), s->id, RECT(s), s->ink, ticket, ticket_words, ANSWER);
    case PLACE:
    case BEHIND:
    case AHEAD:
    case HIGH: return krakvinge_place(TREE(film, l), ticket, ticket_words, ANSWER);
    case QUERY: return krakvinge_query(TREE(film, l), RECT(s), KRAKVINGE_ALL_INKS, ids, WORDS(ids), ANSWER);
    case COLLECT: return krakvinge_collect_ids(TREE(film, l), ids, WORDS(ids), ANSWER);
    case ALL: return krakvinge_all(TREE(film, l), ids, WORDS(ids), ANSWER);
    case LEAVES: return krakvinge_leaves(TREE(film, l), row, WORDS(row), ANSWER);
    case REFERENCES: return krakvinge_references(TREE(film, l), ANSWER);
    case GRID: return krakvinge_grid(TREE(film, l), RECT(s), 2, 2, ids, WORDS(ids), ANSWER);
    case PATCH: return krakvinge_patch(TREE(film, l), s->rect[0], s->rect[1], 1, 1, s->ink, s->id, ANSWER);
    default: return 9;
    }
}

/* The count in the step's ticket, by that of the state. */
static uint64_t count_of(const struct step *s, uint64_t count) {
    return s->kind == BEHIND ? count - 1 : s->kind == AHEAD ? count + 1 : s->kind == HIGH ? count ^ (uint64_t)1 << 32 : count;
}

/* An ask answers as the insert of its dot then does; a placing does, and leaves the same words. */
static bool as_insert(const struct step *s, struct lengths l, struct tree other, uint64_t result, const uint32_t *said) {
    uint32_t answer[KRAKVINGE_ANSWER_WORDS] = {UNWRITTEN, UNWRITTEN};
    uint64_t wanted = krakvinge_insert(TREE(other, l), s->id, RECT(s), s->ink, ANSWER);
    return result == wanted && memcmp(said, answer, sizeof answer) == 0 && (s->kind == ASK || kept(&other, &film, 0));
}

static void soil(struct lengths l) {
    for (size_t i = 0; i < l.marks; i++)
        film.marks[i] = (uint8_t)(i * 37 + tried);
}

/* The step on the film: its answer, its ticket, and every word where the count does not rise. */
static bool passes(const char *name, const struct step *s, struct lengths l) {
    uint32_t answer[KRAKVINGE_ANSWER_WORDS] = {UNWRITTEN, UNWRITTEN}, ticket[KRAKVINGE_TICKET_WORDS + 1], wanted[KRAKVINGE_TICKET_WORDS + 1];
    uint64_t count = KRAKVINGE_CHANGES(film.state);
    soil(l);
    struct tree before = film;
    memset(wanted, 0x77, sizeof wanted);
    if (s->kind != ASK)
        write_ticket(s, count_of(s, count), wanted);
    memcpy(ticket, wanted, sizeof ticket);
    tried++;
    uint64_t result = s->kind == OTHER ? s->result : call(s, l, ticket, KRAKVINGE_TICKET_WORDS, answer);
    bool opens = s->kind == QUERY || s->kind == COLLECT;
    bool said = result == 0 ? answer[0] == s->word && (opens || answer[1] == 0) : answer[0] == UNWRITTEN && answer[1] == UNWRITTEN;
    bool good = result == s->result && said;
    if (s->kind == ASK && result == 0)
        write_ticket(s, count, wanted);
    good = good && memcmp(ticket, wanted, sizeof wanted) == 0;
    if (s->kind == ASK || s->kind == PLACE)
        good = good && as_insert(s, l, before, result, answer);
    if (s->rise > 0)
        good = good && memcmp(before.state, film.state, SETTINGS * sizeof *film.state) == 0 && krakvinge_check(TREE(film, l)) == 0;
    else if (s->kind != OTHER)
        good = good && kept(&before, &film, result);
    good = good && KRAKVINGE_CHANGES(film.state) == count + s->rise;
    if (!good)
        printf("tests/host: %s: kind %d, id %" PRIu32 " at %d %d %d %d: result %" PRIu64 ", wanted %" PRIu64 "; %" PRIu32 ", the count %" PRIu64
               " after %" PRIu64 "\n", name, s->kind, s->id, RECT(s), result, s->result, answer[0], KRAKVINGE_CHANGES(film.state), count);
    return good;
}

/* Steps that are all records, as one batch: their answers, and the words that they leave one by one. */
static bool as_batch(const struct list *list, struct lengths l, struct tree singly) {
    uint32_t records[WORDS(RECORDS) * KRAKVINGE_RECORD_WORDS], answers[WORDS(RECORDS)];
    for (size_t i = 0; i < list->number; i++) {
        const struct step *s = &list->steps[i];
        const uint32_t words[KRAKVINGE_RECORD_WORDS] = {s->kind, s->id, (uint32_t)s->rect[0], (uint32_t)s->rect[1], (uint32_t)s->rect[2],
                                                        (uint32_t)s->rect[3], s->ink};
        memcpy(records + i * KRAKVINGE_RECORD_WORDS, words, sizeof words);
    }
    bool good = makes(l, 0, list->count);
    soil(l);
    tried++;
    good = good && krakvinge_batch(TREE(film, l), records, list->number * KRAKVINGE_RECORD_WORDS, answers, list->number) == 0;
    for (size_t i = 0; i < list->number; i++) {
        const struct step *s = &list->steps[i];
        good = good && answers[i] == (s->result == 0 ? s->word : REFUSED + (uint32_t)s->result);
    }
    good = good && kept(&singly, &film, 0);
    if (!good)
        printf("tests/host: %s, as a batch\n", list->name);
    return good;
}

static bool runs(const struct list *list) {
    struct lengths l = lengths_of(list->groups, list->places);
    bool good = makes(l, 0, list->count), records = true;
    for (size_t i = 0; good && i < list->number; i++) {
        good = passes(list->name, &list->steps[i], l);
        records = records && list->steps[i].kind <= OTHER;
    }
    return good && (!records || as_batch(list, l, film));
}

/* An ask and a placing of a film whose lengths, settings or words are no good, with a ticket that is stale: refused as said, and all is kept. */
static bool refused(const char *name, struct lengths l, size_t ticket_words, uint32_t leaf_limit, uint32_t live, uint64_t wanted) {
    static const struct step asked[] = {{ASK, 1, {2, 2, 1, 1}, 16, 0, 0, 0}, {PLACE, 1, {2, 2, 1, 1}, 16, 0, 0, 0}};
    for (size_t i = 0; i < WORDS(asked); i++) {
        uint32_t answer[] = {UNWRITTEN, UNWRITTEN, UNWRITTEN}, ticket[KRAKVINGE_TICKET_WORDS + 1] = {0}, same[KRAKVINGE_TICKET_WORDS + 1];
        bool good = makes(lengths_of(GROUPS, PLACES), 0, LARGEST);
        film.state[5] = leaf_limit;
        film.state[9] = live;
        write_ticket(&asked[i], 7, ticket);
        memcpy(same, ticket, sizeof same);
        soil(lengths_of(GROUPS, PLACES));
        struct tree before = film;
        tried++;
        uint64_t result = call(&asked[i], l, ticket, ticket_words, answer);
        good = good && result == wanted && memcmp(ticket, same, sizeof same) == 0 && kept(&before, &film, result);
        if (!good || answer[0] != UNWRITTEN || answer[1] != UNWRITTEN || answer[2] != UNWRITTEN) {
            printf("tests/host: %s, %s: result %" PRIu64 ", wanted %" PRIu64 "\n", i == 0 ? "an ask" : "a placing", name, result, wanted);
            return false;
        }
    }
    return true;
}

static bool turned_down(void) {
    static const size_t words[] = {0, 1, 7, 9};
    struct lengths l = lengths_of(GROUPS, PLACES);
    bool good = true;
    for (size_t i = 0; good && i < WORDS(WRONG); i++)
        good = refused(WRONG[i], wrong(l, i), KRAKVINGE_TICKET_WORDS, 0, 1, 1);
    for (size_t i = 0; good && i < WORDS(words); i++)
        good = refused("a ticket's length", l, words[i], 0, 1, 1);
    return good && refused("a leaf limit of 0", l, KRAKVINGE_TICKET_WORDS, 0, 1, 2) && refused("no tree", l, KRAKVINGE_TICKET_WORDS, 1, 1, 3);
}

/* The words of a ticket, by hand: negative numbers, the largest id, a count of both words; and the dot that they place. */
static bool words(void) {
    static const uint32_t wanted[KRAKVINGE_TICKET_WORDS] = {4294967295, 4294967293, 4294967294, 4294967295, 4, 15, 5, 2};
    static const int32_t rect[] = {-3, -2, -1, 4};
    uint32_t ticket[KRAKVINGE_TICKET_WORDS], answer[KRAKVINGE_ANSWER_WORDS];
    struct lengths l = lengths_of(GROUPS, PLACES);
    bool good = makes(l, -8, 8589934597) && krakvinge_ask(TREE(film, l), UINT32_MAX, -3, -2, -1, 4, 15, ticket, WORDS(ticket), ANSWER) == 0;
    good = good && memcmp(ticket, wanted, sizeof wanted) == 0 && krakvinge_place(TREE(film, l), wanted, WORDS(wanted), ANSWER) == 0;
    good = good && film.dots[0] == UINT32_MAX && film.dots[2] == 15 && memcmp(film.rects, rect, sizeof rect) == 0;
    good = good && film.state[10] == 6 && film.state[11] == 2;
    tried += 2;
    if (!good)
        printf("tests/host: the words of a ticket with negative numbers\n");
    return good;
}

static uint32_t next_word(void) {
    static uint64_t seed = 15;
    seed = seed * 6364136223846793005u + 1442695040888963407u;
    return (uint32_t)(seed >> 33);
}

/* Tickets of any words: 15, or as the insert. */
static bool any_ticket(struct lengths l) {
    uint32_t ticket[KRAKVINGE_TICKET_WORDS], answer[KRAKVINGE_ANSWER_WORDS] = {UNWRITTEN, UNWRITTEN};
    uint64_t count = KRAKVINGE_CHANGES(film.state);
    struct step s = {PLACE, next_word(), {0}, next_word() % 18, 0, 0, 0};
    bool fresh = next_word() % 4 != 0, far = next_word() % 8 == 0;
    for (size_t i = 0; i < WORDS(s.rect); i++)
        s.rect[i] = far ? (int32_t)(2 * next_word()) : (int32_t)(i < 2 ? next_word() % 20 : (uint32_t)s.rect[i - 2] + next_word() % 4) - 1;
    write_ticket(&s, fresh ? count : next_word() % 2 == 0 ? count + 1 + next_word() % 4 : next_word(), ticket);
    fresh = ticket[6] == film.state[10] && ticket[7] == film.state[11];
    soil(l);
    struct tree before = film;
    tried++;
    uint64_t result = krakvinge_place(TREE(film, l), ticket, WORDS(ticket), ANSWER);
    if (fresh)
        return as_insert(&s, l, before, result, answer);
    return result == 15 && answer[0] == UNWRITTEN && answer[1] == UNWRITTEN && kept(&before, &film, result);
}

static bool any_tickets(void) {
    struct lengths l = lengths_of(GROUPS, PLACES);
    bool good = true;
    for (unsigned i = 0; good && i < ANY; i++)
        good = (i % 50 != 0 || makes(l, 0, next_word() % 2 == 0 ? 0 : LARGEST - next_word() % 12)) && any_ticket(l);
    if (!good)
        printf("tests/host: a ticket of any words\n");
    return good;
}

int main(void) {
    bool good = turned_down() && words() && any_tickets();
    for (size_t i = 0; good && i < WORDS(LISTS); i++)
        good = runs(&LISTS[i]);
    if (good)
        printf("tests/host: %u calls with their counts of changes and tickets as worked out by hand, or as the insert\n", tried);
    return good ? 0 : 1;
}
