/* Replays recorded questions against the geometry's static library: replay FILE. A line is a question, '=', and the numbers of its answer. */
#include <stdbool.h>
#include <stddef.h>
#include <stdint.h>
#include <stdio.h>
#include <string.h>

#define SETTINGS int32_t l, int32_t t, int32_t w, int32_t h, uint32_t depth, uint32_t leaf, uint32_t cell
#define PATH const uint32_t *path, size_t steps
#define RECT int32_t x1, int32_t y1, int32_t x2, int32_t y2
bool geometry_intersects(RECT, int32_t u1, int32_t v1, int32_t u2, int32_t v2);
bool geometry_contains(int32_t l, int32_t t, int32_t w, int32_t h, RECT);
bool geometry_in_range(SETTINGS);
uint32_t geometry_deepest(SETTINGS);
bool geometry_accepts(SETTINGS, RECT);
int32_t geometry_cell(SETTINGS, PATH, uint32_t place);
uint32_t geometry_depth(SETTINGS, PATH);
bool geometry_may_split(SETTINGS, PATH);
uint32_t geometry_route(SETTINGS, PATH, RECT);
bool geometry_opens(SETTINGS, PATH, RECT, uint32_t child);

/* A question as read: its numbers, the path among them apart. */
struct question {
    char kind[16];
    long long n[16];
    int count;
    uint32_t path[256];
    size_t steps;
};

static bool read_question(char *text, struct question *q) {
    char *save = NULL;
    char *word = strtok_r(text, " ", &save);
    if (word == NULL || strlen(word) >= sizeof q->kind)
        return false;
    strcpy(q->kind, word);
    q->count = 0;
    q->steps = 0;
    while ((word = strtok_r(NULL, " ", &save)) != NULL) {
        if (word[0] == '/') {
            for (char *c = word + 1; *c != '\0' && q->steps < 256; c++)
                q->path[q->steps++] = (uint32_t)(*c - '0');
        } else if (q->count == 16 || sscanf(word, "%lld", &q->n[q->count++]) != 1) {
            return false;
        }
    }
    return true;
}

#define S(n) (int32_t)n[0], (int32_t)n[1], (int32_t)n[2], (int32_t)n[3], (uint32_t)n[4], (uint32_t)n[5], (uint32_t)n[6]
#define P q->path, q->steps
#define R(n) (int32_t)(n)[0], (int32_t)(n)[1], (int32_t)(n)[2], (int32_t)(n)[3]

/* The library's answer, as the recorded one is written; false for a question of no known kind. */
static bool answer(const struct question *q, char *out, size_t size) {
    const long long *n = q->n;
    bool whole = true;
    if (strcmp(q->kind, "intersects") == 0 && q->count == 8)
        snprintf(out, size, "%d", geometry_intersects(R(n), R(n + 4)));
    else if (strcmp(q->kind, "contains") == 0 && q->count == 8)
        snprintf(out, size, "%d", geometry_contains(R(n), R(n + 4)));
    else if (strcmp(q->kind, "settings") == 0 && q->count == 7)
        snprintf(out, size, "%d", geometry_in_range(S(n)));
    else if (strcmp(q->kind, "deepest") == 0 && q->count == 7)
        snprintf(out, size, "%u", geometry_deepest(S(n)));
    else if (strcmp(q->kind, "accepts") == 0 && q->count == 11)
        snprintf(out, size, "%d", geometry_accepts(S(n), R(n + 7)));
    else if (strcmp(q->kind, "node") == 0 && q->count == 7)
        snprintf(out, size, "%d %d %d %d %u %d", geometry_cell(S(n), P, 0), geometry_cell(S(n), P, 1), geometry_cell(S(n), P, 2),
                 geometry_cell(S(n), P, 3), geometry_depth(S(n), P), geometry_may_split(S(n), P));
    else if (strcmp(q->kind, "route") == 0 && q->count == 11)
        snprintf(out, size, "%u", geometry_route(S(n), P, R(n + 7)));
    else if (strcmp(q->kind, "dot") == 0 && q->count == 11)
        snprintf(out, size, "%u %d %d %d %d %d", geometry_route(S(n), P, R(n + 7)), geometry_opens(S(n), P, R(n + 7), 0),
                 geometry_opens(S(n), P, R(n + 7), 1), geometry_opens(S(n), P, R(n + 7), 2), geometry_opens(S(n), P, R(n + 7), 3),
                 geometry_opens(S(n), P, R(n + 7), 4));
    else
        whole = false;
    return whole;
}

int main(int argc, char **argv) {
    FILE *file = argc == 2 ? fopen(argv[1], "r") : NULL;
    if (file == NULL) {
        puts("replay: no recorded answers");
        return 1;
    }
    char line[1024], ours[128];
    unsigned long at = 0, replayed = 0;
    while (fgets(line, sizeof line, file) != NULL) {
        struct question q;
        at++;
        if (line[0] == '#')
            continue;
        line[strcspn(line, "\n")] = '\0';
        char *theirs = strstr(line, " = ");
        if (theirs == NULL) {
            printf("replay: line %lu is no question with an answer\n", at);
            return 1;
        }
        *theirs = '\0';
        theirs += 3;
        if (!read_question(line, &q) || !answer(&q, ours, sizeof ours)) {
            printf("replay: line %lu is of no known kind\n", at);
            return 1;
        }
        if (strcmp(ours, theirs) != 0) {
            printf("replay: DIFFERENCE at line %lu: recorded %s, the library answers %s\n", at, theirs, ours);
            return 1;
        }
        replayed++;
    }
    fclose(file);
    printf("replay: %lu recorded answers, no difference\n", replayed);
    return replayed == 0;
}
