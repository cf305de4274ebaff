/* Krakvinge for a C host: the proved calls on lent rows. Link target/staticlib/libkrakvinge.a (host/build_library krakvinge).
 *
 * Each row is a pointer and its length in words. The lengths, for G groups (0 to 16384) and N places (0 to 65536):
 *     state    12 words: the root's left, top, width and height; the two limits (depth, leaf) and the smallest cell; free group, free place, live;
 *              the count of changes, its low word first (KRAKVINGE_CHANGES); a negative number has 4294967296 added
 *     nodes    2 + 10 G words        dots    3 N words        rects   4 N words        marks   N + G bytes
 *     answer   2 words               ticket  8 words: id, x1, y1, x2, y2, ink, and the count of changes as in the state
 * A dot has an ink from 0 to 15, and a query a mask of inks, bit k for ink k (KRAKVINGE_ALL_INKS).
 * krakvinge_make reads the first seven words of the state and writes the others; from then on the rows belong to the calls.
 * The count of changes is 0 on a fresh tree. It rises by 1 with each accepted insert and placing, with each dot of a patch, and with each remove and
 * cleanup that says yes, and with nothing else. What would raise it past 18446744073709551615 is refused as 16, in a batch that record alone.
 *
 * What a host must see to: each row is memory of its length that the call may read (and, where the pointer is not const, write), aligned for its
 * words, and no two rows of a call overlap, nor does another thread write to them meanwhile. Then every call is defined and safe, whatever the rows
 * hold: what is wrong with them is a refusal. With rows that overlap nothing is promised: a query that writes its ids over the dots would follow
 * an id as a link.
 *
 * Each call returns 0, or its refusal (KRAKVINGE_REFUSAL, krakvinge_refusal_text); 8 has 256 times the number of answers added (KRAKVINGE_WANTED).
 * An answer of query, collect_ids, all and grid is one word of the row, an answer of leaves six (KRAKVINGE_LEAF_WORDS).
 * An accepted call writes its answer to the answer row; a refused one leaves it and the state as they were:
 *     insert, ask, place: splits, 0       remove, cleanup: 1 for yes or 0 for no, 0       query, collect_ids: hits, opened
 *     all, leaves, references: number, 0       patch: dots laid, 0       grid: the total, its low word first (KRAKVINGE_TOTAL)
 * A batch has a row of answers instead, a word for each record.
 */
#ifndef KRAKVINGE_H
#define KRAKVINGE_H
#include <stddef.h>
#include <stdint.h>

#ifdef __cplusplus
extern "C" {
#endif

#define KRAKVINGE_VERSION "0.7.0"

#define KRAKVINGE_STATE_WORDS 12
#define KRAKVINGE_ANSWER_WORDS 2
#define KRAKVINGE_RECORD_WORDS 7
#define KRAKVINGE_TICKET_WORDS 8
#define KRAKVINGE_NODE_WORDS(groups) (2 + 10 * (size_t)(groups))
#define KRAKVINGE_DOT_WORDS(places) (3 * (size_t)(places))
#define KRAKVINGE_RECT_WORDS(places) (4 * (size_t)(places))
#define KRAKVINGE_MARK_BYTES(groups, places) ((size_t)(groups) + (size_t)(places))

/* The count of changes in a state row. */
#define KRAKVINGE_CHANGES(state) ((uint64_t)(state)[11] << 32 | (state)[10])

/* The mask of a query that lists every ink. */
#define KRAKVINGE_ALL_INKS 65535

/* The words of so many leaves in the row of krakvinge_leaves. */
#define KRAKVINGE_LEAF_WORDS(leaves) (6 * (size_t)(leaves))

/* The words of a grid's counts, and the total in the answer row of krakvinge_grid. */
#define KRAKVINGE_GRID_WORDS(columns, rows) ((size_t)(columns) * (size_t)(rows))
#define KRAKVINGE_TOTAL(answer) ((uint64_t)(answer)[1] << 32 | (answer)[0])

/* The refusal in a result, and of refusal 8 the number of answers. */
#define KRAKVINGE_REFUSAL(result) ((uint32_t)((result) % 256))
#define KRAKVINGE_WANTED(result) ((uint32_t)((result) / 256))

enum krakvinge_refusal {
    KRAKVINGE_ACCEPTED = 0,
    KRAKVINGE_BAD_LENGTH = 1,
    KRAKVINGE_BAD_SETTINGS = 2,
    KRAKVINGE_NO_TREE = 3,
    KRAKVINGE_BAD_RECTANGLE = 4,
    KRAKVINGE_NOT_CONTAINED = 5,
    KRAKVINGE_NO_PLACE = 6,
    KRAKVINGE_NO_GROUP = 7,
    KRAKVINGE_ROW_TOO_SHORT = 8,
    KRAKVINGE_UNKNOWN_KIND = 9,
    KRAKVINGE_BAD_INK = 10,
    KRAKVINGE_BAD_WINDOWS = 11,
    KRAKVINGE_BAD_CORNER = 12,
    KRAKVINGE_BAD_PATCH = 13,
    KRAKVINGE_PATCH_REFUSED = 14,
    KRAKVINGE_STALE_TICKET = 15,
    KRAKVINGE_COUNT_FULL = 16,
};

static inline const char *krakvinge_refusal_text(uint32_t refusal) {
    switch (refusal) {
    case KRAKVINGE_ACCEPTED: return "accepted";
    case KRAKVINGE_BAD_LENGTH: return "a row has the wrong length";
    case KRAKVINGE_BAD_SETTINGS: return "the settings are out of range";
    case KRAKVINGE_NO_TREE: return "the rows and the state are no tree";
    case KRAKVINGE_BAD_RECTANGLE: return "the rectangle is inverted or out of range";
    case KRAKVINGE_NOT_CONTAINED: return "the root does not contain the rectangle";
    case KRAKVINGE_NO_PLACE: return "no place is free";
    case KRAKVINGE_NO_GROUP: return "the splits need more groups than are free";
    case KRAKVINGE_ROW_TOO_SHORT: return "the row is too short for the answers";
    case KRAKVINGE_UNKNOWN_KIND: return "the record is of no known kind";
    case KRAKVINGE_BAD_INK: return "the ink is above 15";
    case KRAKVINGE_BAD_WINDOWS: return "the windows' size or number is out of range";
    case KRAKVINGE_BAD_CORNER: return "the grid's far corner is out of range";
    case KRAKVINGE_BAD_PATCH: return "the patch's tint or number of tiles is out of range";
    case KRAKVINGE_PATCH_REFUSED: return "a dot of the patch would be refused, or its ids run out";
    case KRAKVINGE_STALE_TICKET: return "the ticket's count of changes is not the tree's";
    case KRAKVINGE_COUNT_FULL: return "the count of changes cannot rise further";
    default: return "no refusal of this library";
    }
}

/* The kinds of a batch's records, and the refusal in an answer word; 0 in the word of an accepted record. */
#define KRAKVINGE_INSERT 0
#define KRAKVINGE_REMOVE 1
#define KRAKVINGE_CLEANUP 2
#define KRAKVINGE_RECORD_REFUSAL(word) ((word) > 4294967040 ? (uint32_t)((word) - 4294967040) : 0)

uint64_t krakvinge_make(uint32_t *state, size_t state_words, uint32_t *nodes, size_t node_words, uint32_t *dots, size_t dot_words,
                        int32_t *rects, size_t rect_words, uint8_t *marks, size_t mark_bytes);

uint64_t krakvinge_insert(uint32_t *state, size_t state_words, uint32_t *nodes, size_t node_words, uint32_t *dots, size_t dot_words,
                          int32_t *rects, size_t rect_words, uint8_t *marks, size_t mark_bytes, uint32_t id, int32_t x1, int32_t y1,
                          int32_t x2, int32_t y2, uint32_t ink, uint32_t *answer, size_t answer_words);

/* Tells the splits that an insert of this dot would make, and writes a ticket for it: the dot and the count of changes. It changes nothing else, and
 * is refused just as the insert would be; then the ticket row is kept. A ticket row of another length is 1, here and for a placing. */
uint64_t krakvinge_ask(const uint32_t *state, size_t state_words, const uint32_t *nodes, size_t node_words, const uint32_t *dots, size_t dot_words,
                       const int32_t *rects, size_t rect_words, uint8_t *marks, size_t mark_bytes, uint32_t id, int32_t x1, int32_t y1, int32_t x2,
                       int32_t y2, uint32_t ink, uint32_t *ticket, size_t ticket_words, uint32_t *answer, size_t answer_words);

/* The insert of the ticket's dot, with the splits that the ask told; refused as 15 where the ticket's count of changes is not the state's: the tree has
 * changed since. A ticket is plain numbers: one that no ask gave is placed or refused likewise. */
uint64_t krakvinge_place(uint32_t *state, size_t state_words, uint32_t *nodes, size_t node_words, uint32_t *dots, size_t dot_words,
                         int32_t *rects, size_t rect_words, uint8_t *marks, size_t mark_bytes, const uint32_t *ticket, size_t ticket_words,
                         uint32_t *answer, size_t answer_words);

/* By its id, whatever ink the dot has. */
uint64_t krakvinge_remove(uint32_t *state, size_t state_words, uint32_t *nodes, size_t node_words, uint32_t *dots, size_t dot_words,
                          int32_t *rects, size_t rect_words, uint8_t *marks, size_t mark_bytes, uint32_t id, int32_t x1, int32_t y1,
                          int32_t x2, int32_t y2, uint32_t *answer, size_t answer_words);

uint64_t krakvinge_cleanup(uint32_t *state, size_t state_words, uint32_t *nodes, size_t node_words, const uint32_t *dots, size_t dot_words,
                           const int32_t *rects, size_t rect_words, uint8_t *marks, size_t mark_bytes, uint32_t *answer, size_t answer_words);

/* Carries out the records in order, with one check: seven words a record, kind, id, x1, y1, x2, y2, ink, a negative number with 4294967296 added. The
 * ink of a record that is no insert is not looked at. Each record has a word in a row of answers as long: splits, 1 or 0, or 4294967040 + refusal,
 * 9 for another kind. A refused record changes nothing else, and those after it go on. A refused batch (1 for rows of other lengths, 2, 3) leaves
 * the answers as they were. */
uint64_t krakvinge_batch(uint32_t *state, size_t state_words, uint32_t *nodes, size_t node_words, uint32_t *dots, size_t dot_words,
                         int32_t *rects, size_t rect_words, uint8_t *marks, size_t mark_bytes, const uint32_t *records, size_t record_words,
                         uint32_t *answers, size_t answer_words);

/* Lays a tint patch: columns times rows of tiles (1 to 64 each way) of 16 by 16 units, from the first corner x, y on. A tint from 0 to 256 lays so many
 * one-unit dots of ink 0 in each tile, where its threshold is below the tint: row after row over the whole patch, each from left to right, the first
 * with first_id and each with the next id. They are inserts: if one would be refused in its turn, or its id passed 4294967295, the patch is refused
 * as 14 and no dot is laid; so it is as 16, where the count of changes alone stands in the way. Another tint or number of tiles is refused as 13,
 * ahead of 1. */
uint64_t krakvinge_patch(uint32_t *state, size_t state_words, uint32_t *nodes, size_t node_words, uint32_t *dots, size_t dot_words,
                         int32_t *rects, size_t rect_words, uint8_t *marks, size_t mark_bytes, int32_t x, int32_t y, uint32_t columns,
                         uint32_t rows, uint32_t tint, uint32_t first_id, uint32_t *answer, size_t answer_words);

/* The dots of the inks in the mask. Their ids stand in the row's first words; a longer row keeps its tail. The nodes opened are the same for every
 * mask. */
uint64_t krakvinge_query(const uint32_t *state, size_t state_words, const uint32_t *nodes, size_t node_words, const uint32_t *dots,
                         size_t dot_words, const int32_t *rects, size_t rect_words, uint8_t *marks, size_t mark_bytes, int32_t x1, int32_t y1,
                         int32_t x2, int32_t y2, uint16_t inks, uint32_t *ids, size_t id_words, uint32_t *answer, size_t answer_words);

/* A query of all inks with the root's rectangle, as the original's collect_ids: a dot that begins on the root's right or lower edge and
 * lies outside is not listed. */
uint64_t krakvinge_collect_ids(const uint32_t *state, size_t state_words, const uint32_t *nodes, size_t node_words, const uint32_t *dots,
                               size_t dot_words, const int32_t *rects, size_t rect_words, uint8_t *marks, size_t mark_bytes, uint32_t *ids,
                               size_t id_words, uint32_t *answer, size_t answer_words);

/* Every dot, of all inks and wherever it lies, in the order in which a query of everything would list it. Their ids stand in the row's first words; a
 * longer row keeps its tail. There are as many as the state's live number. */
uint64_t krakvinge_all(const uint32_t *state, size_t state_words, const uint32_t *nodes, size_t node_words, const uint32_t *dots,
                       size_t dot_words, const int32_t *rects, size_t rect_words, uint8_t *marks, size_t mark_bytes, uint32_t *ids,
                       size_t id_words, uint32_t *answer, size_t answer_words);

/* Six words a leaf: the centre's x and y, half width and half height, depth, count. */
uint64_t krakvinge_leaves(const uint32_t *state, size_t state_words, const uint32_t *nodes, size_t node_words, const uint32_t *dots,
                          size_t dot_words, const int32_t *rects, size_t rect_words, uint8_t *marks, size_t mark_bytes, int32_t *row,
                          size_t row_words, uint32_t *answer, size_t answer_words);

uint64_t krakvinge_references(const uint32_t *state, size_t state_words, const uint32_t *nodes, size_t node_words, const uint32_t *dots,
                              size_t dot_words, const int32_t *rects, size_t rect_words, uint8_t *marks, size_t mark_bytes, uint32_t *answer,
                              size_t answer_words);

/* How many dots, of all inks, intersect each window of a grid. The first window begins at x, y; each is of that width and height (1 or more), and
 * there are 1 to 64 columns and rows of them, the far corner at most at 1073741823. The counts stand in the row's first words
 * (KRAKVINGE_GRID_WORDS), rows downward and columns rising within a row; a longer row keeps its tail. The total is the sum of the counts. */
uint64_t krakvinge_grid(const uint32_t *state, size_t state_words, const uint32_t *nodes, size_t node_words, const uint32_t *dots,
                        size_t dot_words, const int32_t *rects, size_t rect_words, uint8_t *marks, size_t mark_bytes, int32_t x, int32_t y,
                        int32_t width, int32_t height, int32_t columns, int32_t rows, uint32_t *counts, size_t count_words, uint32_t *answer,
                        size_t answer_words);

/* The check that each call begins with, alone: 0 where the rows are a tree. */
uint64_t krakvinge_check(const uint32_t *state, size_t state_words, const uint32_t *nodes, size_t node_words, const uint32_t *dots,
                         size_t dot_words, const int32_t *rects, size_t rect_words, uint8_t *marks, size_t mark_bytes);

#ifdef __cplusplus
}
#endif
#endif
