/* The library as C sees it: the numbers of the header, pointers that are NULL, buffers that are too short, unknown
 * kinds, and every element that a call may not touch. Ends in 1 where something differs. */
#include "togbefulo.h"

#include <stdio.h>
#include <string.h>

static int checks, failures;

#define CHECK(condition)                                                    \
    do {                                                                    \
        checks++;                                                           \
        if (!(condition)) {                                                 \
            failures++;                                                     \
            fprintf(stderr, "%s:%d: %s\n", __FILE__, __LINE__, #condition); \
        }                                                                   \
    } while (0)

/* What a call is lent, more than it is told of. The sample body, a tube of three divisions along one segment, takes 7
 * words of the table, 18 floats and 18 words. */
struct lent {
    uint32_t table[20];
    float vertices[60];
    uint32_t triangles[60];
    uint32_t answers[4];
};

enum { TABLE = 7, VERTICES = 18, TRIANGLES = 18 };

static const float curve[] = {0, 0, 0, 0, 0, 1};
/* A loop that is out of the plane, and one that folds at its first vertex alone. */
static const float loop[] = {0, 0, 0, 4, 0, 0, 4, 4, 1, 0, 4, -1};
static const float folded[] = {0, 0, 0, 0, 0, 9, 9, 0, 9, 0, 0, 3};
static const uint32_t unknown[] = {0, 7, 262, 65542, 4294967295u};

/* Each byte tells its place. */
static struct lent marked(void)
{
    struct lent lent;
    unsigned char *bytes = (unsigned char *)&lent;
    size_t i;
    for (i = 0; i < sizeof lent; i++)
        bytes[i] = (unsigned char)(17 + 5 * i);
    lent.table[0] = 0;
    return lent;
}

static bool same(const struct lent *a, const struct lent *b)
{
    return memcmp(a, b, sizeof *a) == 0;
}

static uint32_t add_tube(struct lent *lent, size_t table, size_t vertices, size_t triangles)
{
    return togbefulo_add(TOGBEFULO_TUBE, 3, 0, false, 1, 0, curve, 6, lent->table, table,
                         lent->vertices, vertices, lent->triangles, triangles);
}

static uint32_t bits(float x)
{
    uint32_t word;
    memcpy(&word, &x, sizeof word);
    return word;
}

static void constants(void)
{
    static const uint32_t kinds[] = {TOGBEFULO_RIBBON, TOGBEFULO_TUBE, TOGBEFULO_CAPSULE, TOGBEFULO_TORUS,
                                     TOGBEFULO_CLOSED_CYLINDER, TOGBEFULO_SEAMLESS_TORUS};
    static const uint32_t answers[] = {
        TOGBEFULO_ACCEPTED, TOGBEFULO_DAMAGED_TABLE, TOGBEFULO_NO_ENTRY, TOGBEFULO_NO_VERTICES, TOGBEFULO_NO_TRIANGLES,
        TOGBEFULO_PAST_END, TOGBEFULO_CURVE_VERTICES, TOGBEFULO_CURVE_NOT_FINITE, TOGBEFULO_SEGMENT, TOGBEFULO_FOLD,
        TOGBEFULO_DIVISIONS, TOGBEFULO_LAYERS, TOGBEFULO_SIZE, TOGBEFULO_NOT_FINITE, TOGBEFULO_UNKNOWN_KIND};
    static const uint32_t numbers[] = {0, 1, 2, 3, 4, 5, 10, 11, 12, 13, 20, 21, 22, 23, 4294967295u};
    static const uint32_t entry[] = {TOGBEFULO_ENTRY_KIND, TOGBEFULO_ENTRY_DIVISIONS, TOGBEFULO_ENTRY_FIRST_VERTEX,
                                     TOGBEFULO_ENTRY_VERTICES, TOGBEFULO_ENTRY_FIRST_TRIANGLE,
                                     TOGBEFULO_ENTRY_TRIANGLES};
    uint32_t i;
    CHECK(sizeof(bool) == 1 && sizeof(float) == 4 && sizeof(size_t) == 8);
    for (i = 0; i < 6; i++)
        CHECK(kinds[i] == i + 1);
    CHECK(sizeof answers == sizeof numbers && memcmp(answers, numbers, sizeof numbers) == 0);
    for (i = 0; i < TOGBEFULO_ENTRY_WORDS; i++)
        CHECK(entry[i] == i);
    CHECK(TOGBEFULO_TABLE_WORDS == 1 + TOGBEFULO_ENTRY_WORDS * TOGBEFULO_MOST_BODIES);
    CHECK(TOGBEFULO_RECORD_HEAD_WORDS == 7 && TOGBEFULO_RECORD_VERTICES == 512);
}

/* Each answer that a body can get, met once: the arguments arrive where they belong. */
static void answers_of_bodies(void)
{
    static const float back[] = {0, 0, 0, 1, 0, 0, 0, 0, 0}, far[] = {3e38f, 0, 0, 3e38f, 1, 0};
    const float infinite[] = {0, 0, 0, 0, 0, togbefulo_from_word(0x7F800000u)}, point[6] = {0};
    const struct lent before = marked();
    struct lent lent = before;
#define CHECKED(divisions, size, curve, length) \
    togbefulo_check(TOGBEFULO_TUBE, divisions, 9, true, size, -1, curve, length)
    CHECK(CHECKED(3, 1, curve, 6) == 0);
    CHECK(CHECKED(3, 1, curve, 5) == 10 && CHECKED(3, 1, curve, 3) == 10);
    CHECK(CHECKED(3, 1, infinite, 6) == 11);
    CHECK(CHECKED(3, 1, point, 6) == 12);
    CHECK(CHECKED(3, 1, back, 9) == 13);
    CHECK(CHECKED(2, 1, curve, 6) == 20 && CHECKED(257, 1, curve, 6) == 20);
    CHECK(CHECKED(3, 0, curve, 6) == 22 && CHECKED(3, infinite[5], curve, 6) == 22);
    CHECK(togbefulo_check(TOGBEFULO_CAPSULE, 3, 0, false, 1, 0, curve, 6) == 21);
    CHECK(togbefulo_check(TOGBEFULO_CAPSULE, 3, 1, false, 1, 0, curve, 6) == 0);
    CHECK(togbefulo_check(TOGBEFULO_TORUS, 3, 9, true, 1, -1, folded, 12) == 0);
    CHECK(togbefulo_check(TOGBEFULO_SEAMLESS_TORUS, 3, 9, true, 1, -1, folded, 12) == 13);
    CHECK(togbefulo_check(TOGBEFULO_SEAMLESS_TORUS, 3, 9, true, 1, -1, loop, 12) == 0);
    CHECK(togbefulo_add(TOGBEFULO_TUBE, 3, 0, false, 3e38f, 0, far, 6, lent.table, 20, lent.vertices, 60,
                        lent.triangles, 60) == 23);
    CHECK(lent.vertices[0] == 0 && memcmp(lent.vertices, lent.vertices + 1, 17 * sizeof(float)) == 0);
    memcpy(lent.vertices, before.vertices, VERTICES * sizeof(float));
    CHECK(same(&lent, &before));
}

static void unknown_kinds(void)
{
    const struct lent before = marked();
    struct lent lent = before;
    uint32_t counts[2] = {7, 8};
    size_t i;
    for (i = 0; i < 5; i++) {
        CHECK(togbefulo_add(unknown[i], 3, 1, false, 1, 1, curve, 6, lent.table, 20, lent.vertices, 60,
                            lent.triangles, 60) == 4294967295u);
        CHECK(togbefulo_add(unknown[i], 3, 1, false, 1, 1, NULL, 0, NULL, 0, NULL, 0, NULL, 0) == 4294967295u);
        CHECK(togbefulo_counts(unknown[i], 3, 1, false, 1, 1, 2, counts) == 4294967295u);
        CHECK(togbefulo_check(unknown[i], 3, 1, false, 1, 1, curve, 6) == 4294967295u);
        CHECK(!togbefulo_vertices(unknown[i], 3, 1, false, 1, 1, curve, 6, lent.vertices, 60));
    }
    CHECK(same(&lent, &before));
    CHECK(counts[0] == 7 && counts[1] == 8);
}

/* NULL with length 0 for each buffer of a set in turn; nothing is written where the answer is not 0. */
static void null_buffers_of_a_set(void)
{
    const struct lent before = marked();
    struct lent lent = before;
    uint32_t kind, word[1] = {9};
    CHECK(togbefulo_clear(NULL, 0) == 1);
#define ADD(kind, curve, length, table, words, vertices, floats, triangles, numbers) \
    togbefulo_add(kind, 3, 1, false, 1, 1, curve, length, table, words, vertices, floats, triangles, numbers)
    CHECK(ADD(2, curve, 6, NULL, 0, lent.vertices, 60, lent.triangles, 60) == 1);
    CHECK(ADD(2, curve, 6, lent.table, 20, NULL, 0, lent.triangles, 60) == 3);
    CHECK(ADD(2, curve, 6, lent.table, 20, lent.vertices, 60, NULL, 0) == 4);
    CHECK(ADD(2, curve, 6, lent.table, 20, NULL, 0, NULL, 0) == 3);
    CHECK(ADD(5, NULL, 0, NULL, 0, NULL, 0, NULL, 0) == 1);
    for (kind = 1; kind <= 6; kind++)
        CHECK(kind == 5 || ADD(kind, NULL, 0, lent.table, 20, lent.vertices, 60, lent.triangles, 60) == 10);
    CHECK(togbefulo_file_word(NULL, 0, lent.vertices, 60, lent.triangles, 60, 0, word) == 1);
    CHECK(same(&lent, &before) && word[0] == 9);
    CHECK(togbefulo_file_word(lent.table, 20, NULL, 0, NULL, 0, 4, word) == 5 && word[0] == 9);
    CHECK(togbefulo_file_word(lent.table, 20, NULL, 0, NULL, 0, 0, word) == 0 && word[0] == 1);
    CHECK(ADD(5, NULL, 0, lent.table, 20, lent.vertices, 60, lent.triangles, 60) == 0 && lent.table[4] == 8);
    CHECK(togbefulo_file_word(lent.table, 20, NULL, 0, lent.triangles, 60, 0, word) == 1);
    CHECK(togbefulo_file_word(lent.table, 20, lent.vertices, 60, NULL, 0, 0, word) == 1);
}

/* One record of the sample body, and no record at all. */
static void null_buffers_of_build(void)
{
    const uint32_t records[] = {2, 3, 0, 0, bits(1), 0, 2, 0, 0, 0, 0, 0, bits(1)};
    const struct lent before = marked();
    struct lent lent = before;
    CHECK(togbefulo_build(records, 13, lent.answers, 4, NULL, 0, lent.vertices, 60, lent.triangles, 60) == 1);
    CHECK(togbefulo_build(NULL, 0, NULL, 0, lent.table, 20, NULL, 0, NULL, 0) == 0);
    CHECK(togbefulo_build(NULL, 0, lent.answers, 4, lent.table, 20, lent.vertices, 60, lent.triangles, 60) == 0);
    CHECK(togbefulo_build(NULL, 0, NULL, 0, NULL, 0, NULL, 0, NULL, 0) == 1);
    CHECK(same(&lent, &before));
    CHECK(togbefulo_build(records, 13, lent.answers, 1, lent.table, 20, NULL, 0, lent.triangles, 60) == 0);
    CHECK(lent.answers[0] == 3 && lent.table[0] == 0);
    CHECK(togbefulo_build(records, 13, lent.answers, 1, lent.table, 20, lent.vertices, 60, NULL, 0) == 0);
    CHECK(lent.answers[0] == 4 && lent.table[0] == 0);
    CHECK(togbefulo_build(records, 13, NULL, 0, lent.table, 20, lent.vertices, 60, lent.triangles, 60) == 0);
    CHECK(lent.answers[0] == 4 && lent.table[0] == 1);
    CHECK(togbefulo_build(records, 12, lent.answers, 4, lent.table, 20, lent.vertices, 60, lent.triangles, 60) == 0);
    CHECK(lent.table[0] == 0);
    CHECK(togbefulo_build(records, 13, lent.answers, 4, lent.table, 20, lent.vertices, 60, lent.triangles, 60) == 0);
    CHECK(lent.answers[0] == 0 && lent.table[0] == 1);
    CHECK(memcmp(lent.answers + 1, before.answers + 1, sizeof before.answers - 4) == 0);
}

static void null_buffers_of_bodies(void)
{
    const struct lent before = marked();
    struct lent lent = before;
    CHECK(togbefulo_check(TOGBEFULO_TUBE, 3, 1, false, 1, 1, NULL, 0) == 10);
    CHECK(togbefulo_check(TOGBEFULO_CLOSED_CYLINDER, 3, 1, false, 1, 1, NULL, 0) == 0);
    CHECK(!togbefulo_vertices(TOGBEFULO_TUBE, 3, 1, false, 1, 1, NULL, 0, lent.vertices, 60));
    CHECK(!togbefulo_vertices(TOGBEFULO_TUBE, 3, 1, false, 1, 1, curve, 6, NULL, 0));
    CHECK(!togbefulo_vertices(TOGBEFULO_CLOSED_CYLINDER, 3, 1, false, 1, 1, NULL, 0, NULL, 0));
    CHECK(!togbefulo_ribbon_triangles(1, 0, NULL, 0));
    CHECK(!togbefulo_tube_triangles(3, 1, 0, NULL, 0));
    CHECK(!togbefulo_capsule_triangles(3, 1, 1, 0, NULL, 0));
    CHECK(!togbefulo_torus_triangles(3, 3, 0, NULL, 0));
    CHECK(!togbefulo_closed_cylinder_triangles(3, 1, 0, NULL, 0));
    CHECK(togbefulo_are_finite(NULL, 0));
    CHECK(same(&lent, &before));
    CHECK(togbefulo_vertices(TOGBEFULO_CLOSED_CYLINDER, 3, 1, true, 1, 4, NULL, 0, lent.vertices, 60));
    CHECK(lent.vertices[1] == -2 && lent.vertices[22] == 2);
    CHECK(togbefulo_vertices(TOGBEFULO_CLOSED_CYLINDER, 3, 1, false, 1, 4, NULL, 0, lent.vertices, 60));
    CHECK(lent.vertices[1] == 0 && lent.vertices[22] == 4);
    CHECK(memcmp(lent.vertices + 24, before.vertices + 24, 36 * sizeof(float)) == 0);
}

/* An exact fit is accepted and writes nothing behind it; one element less of any buffer is refused. */
static void exact_fit_and_one_short(void)
{
    const struct lent before = marked();
    struct lent lent = before;
    CHECK(add_tube(&lent, TABLE - 1, VERTICES, TRIANGLES) == 2);
    CHECK(add_tube(&lent, TABLE, VERTICES - 1, TRIANGLES) == 3);
    CHECK(add_tube(&lent, TABLE, VERTICES, TRIANGLES - 1) == 4);
    CHECK(add_tube(&lent, TABLE - 1, VERTICES - 1, TRIANGLES - 1) == 2);
    CHECK(add_tube(&lent, TABLE, VERTICES - 1, TRIANGLES - 1) == 3);
    CHECK(!togbefulo_vertices(TOGBEFULO_TUBE, 3, 0, false, 1, 0, curve, 6, lent.vertices, VERTICES - 1));
    CHECK(!togbefulo_tube_triangles(3, 1, 0, lent.triangles, TRIANGLES - 1));
    CHECK(same(&lent, &before));
    CHECK(add_tube(&lent, TABLE, VERTICES, TRIANGLES) == 0);
#define SAME_BEHIND(buffer, count) \
    (memcmp(lent.buffer + count, before.buffer + count, sizeof before.buffer - 4 * count) == 0)
    CHECK(SAME_BEHIND(table, TABLE));
    CHECK(SAME_BEHIND(vertices, VERTICES));
    CHECK(SAME_BEHIND(triangles, TRIANGLES));
    CHECK(togbefulo_are_finite(lent.vertices, VERTICES));
    CHECK(lent.triangles[0] == 0 && lent.triangles[1] == 4 && lent.triangles[2] == 1);
    CHECK(togbefulo_clear(lent.table, 1) == 0 && lent.table[0] == 0 && lent.table[1] == 2);
}

static void counts_and_files(void)
{
    struct lent lent = marked();
    uint32_t counts[2], word[1], bodies;
    size_t words;
    CHECK(togbefulo_counts(TOGBEFULO_TUBE, 3, 0, false, 1, 0, 2, counts) == 0 && counts[0] == 6 && counts[1] == 6);
    CHECK(togbefulo_counts(TOGBEFULO_CLOSED_CYLINDER, 3, 2, false, 1, 0, 0, counts) == 22 && counts[0] == 6);
    CHECK(togbefulo_counts(TOGBEFULO_CLOSED_CYLINDER, 3, 2, false, 1, 1, 0, counts) == 0 && counts[0] == 11);
    CHECK(togbefulo_counts(TOGBEFULO_CLOSED_CYLINDER, 3, 2, false, 1, 1, 1, counts) == 10 && counts[1] == 18);
    for (bodies = 0; bodies <= 3; bodies++) {
        words = togbefulo_file_words(lent.table, 20);
        CHECK(words == 4 + (6 + VERTICES + TRIANGLES) * bodies);
#define WORD(place) togbefulo_file_word(lent.table, 20, lent.vertices, 60, lent.triangles, 60, place, word)
        CHECK(WORD(words - 1) == 0 && word[0] == (bodies == 0 ? 0 : lent.triangles[TRIANGLES * bodies - 1]));
        CHECK(WORD(words) == 5);
        CHECK(WORD((size_t)-1) == 5);
        CHECK(add_tube(&lent, 20, 60, 60) == (bodies < 3 ? 0 : 2));
    }
    CHECK(togbefulo_file_words(NULL, 0) == 0 && togbefulo_file_words(lent.table, 18) == 0);
    CHECK(togbefulo_file_words(lent.table, 19) == words);
    lent.table[0] = 65;
    CHECK(togbefulo_file_words(lent.table, 20) == 0 && WORD(0) == 1);
}

/* A seamless torus has the entry, counts and triangles of a torus, save its kind, and other vertices. */
static void seamless_torus(void)
{
    enum { FLOATS = 36, WORDS = 72 };
    uint32_t tables[2][TABLE], triangles[2][WORDS], counts[2], again[2], word[1];
    float vertices[2][FLOATS], alone[FLOATS];
    uint32_t i;
    for (i = 0; i < 2; i++) {
        const uint32_t kind = i == 0 ? TOGBEFULO_TORUS : TOGBEFULO_SEAMLESS_TORUS;
        CHECK(togbefulo_clear(tables[i], TABLE) == 0);
        CHECK(togbefulo_add(kind, 3, 9, true, 1, -1, loop, 12, tables[i], TABLE, vertices[i], FLOATS, triangles[i],
                            WORDS) == 0);
        CHECK(tables[i][1] == kind && togbefulo_are_finite(vertices[i], FLOATS));
        CHECK(togbefulo_file_words(tables[i], TABLE) == 10 + FLOATS + WORDS);
        CHECK(togbefulo_file_word(tables[i], TABLE, vertices[i], FLOATS, triangles[i], WORDS, 4, word) == 0);
        CHECK(word[0] == kind);
    }
    CHECK(memcmp(tables[0] + 2, tables[1] + 2, 5 * sizeof(uint32_t)) == 0);
    CHECK(memcmp(triangles[0], triangles[1], sizeof triangles[0]) == 0);
    CHECK(memcmp(vertices[0], vertices[1], sizeof vertices[0]) != 0);
    CHECK(togbefulo_counts(TOGBEFULO_TORUS, 3, 0, false, 1, 0, 4, counts) == 0 && counts[0] == 12 && counts[1] == 24);
    CHECK(togbefulo_counts(TOGBEFULO_SEAMLESS_TORUS, 3, 0, false, 1, 0, 4, again) == 0);
    CHECK(memcmp(counts, again, sizeof counts) == 0);
    CHECK(togbefulo_counts(TOGBEFULO_SEAMLESS_TORUS, 3, 0, false, 1, 0, 2, again) == 10);
    CHECK(togbefulo_vertices(TOGBEFULO_SEAMLESS_TORUS, 3, 0, false, 1, 0, loop, 12, alone, FLOATS));
    CHECK(memcmp(alone, vertices[1], sizeof alone) == 0);
    CHECK(!togbefulo_vertices(TOGBEFULO_SEAMLESS_TORUS, 3, 0, false, 1, 0, loop, 12, alone, FLOATS - 1));
}

static void arithmetic(void)
{
    static const float values[] = {1, 2, -3};
    CHECK(bits(togbefulo_root(2)) == 0x3FB504F3u);
    CHECK(togbefulo_to_word(-2.5f) == bits(-2.5f));
    CHECK(bits(togbefulo_from_word(0x3FB504F3u)) == 0x3FB504F3u);
    CHECK(togbefulo_is_finite(1) && !togbefulo_is_finite(togbefulo_from_word(0x7F800000u)));
    CHECK(togbefulo_to_word(togbefulo_from_word(0xFFFFFFFFu)) == 0x7FC00000u);
    CHECK(togbefulo_are_finite(values, 3));
    CHECK(togbefulo_turn_cos(2, 4) == -1 && togbefulo_turn_sin(1, 4) == 1);
    CHECK(togbefulo_turn_cos(4, 4) == 1 && togbefulo_turn_sin(4, 4) == 0);
}

int main(void)
{
    constants();
    answers_of_bodies();
    unknown_kinds();
    null_buffers_of_a_set();
    null_buffers_of_build();
    null_buffers_of_bodies();
    exact_fit_and_one_short();
    counts_and_files();
    seamless_torus();
    arithmetic();
    printf("face.c: %d checks, %d failed\n", checks, failures);
    return failures != 0;
}
