/* Builds a set of a post, a hose and a plug, shows what stands in it and writes its file.
 *
 *     cc -std=c99 -I include examples/set.c crates/togbefulo/out/libtogbefulo.a -o ../set
 *     ../set ../set.set
 *
 * The file goes to the path that is given, or else to standard output; what is shown goes to standard error. */
#include "togbefulo.h"

#include <stdio.h>

/* What this station lends: room for 64 bodies with 400 vertices and 800 triangles in all. */
static uint32_t table[TOGBEFULO_TABLE_WORDS];
static float vertices[3 * 400];
static uint32_t triangles[3 * 800];

#define LENGTH(buffer) (sizeof(buffer) / sizeof *(buffer))
#define SET table, LENGTH(table), vertices, LENGTH(vertices), triangles, LENGTH(triangles)

static const float hose[] = {-40, 60, 15, -20, 60, 17, 0, 62, 18, 20, 68, 15, 34, 80, 8};
static const float plug[] = {30, 76, 10, 38, 84, 6};
static const float kinked[] = {0, 0, 0, 0, 0, 50, 0, 0, 10};

/* Says of a body that it was refused, and why; the set is whole, and goes on without it. */
static void tell(const char *body, uint32_t answer)
{
    if (answer == TOGBEFULO_FOLD)
        fprintf(stderr, "%s left out: its curve turns back on itself\n", body);
    else if (answer != TOGBEFULO_ACCEPTED)
        fprintf(stderr, "%s left out: answer %lu\n", body, (unsigned long)answer);
}

/* Four bytes a word, the low one first. */
static int write_file(FILE *out)
{
    uint32_t word[1];
    size_t place, words = togbefulo_file_words(table, LENGTH(table));
    for (place = 0; place < words; place++) {
        int shift;
        if (togbefulo_file_word(SET, place, word) != TOGBEFULO_ACCEPTED)
            return 0;
        for (shift = 0; shift < 32; shift += 8)
            if (putc((int)(word[0] >> shift & 255), out) == EOF)
                return 0;
    }
    return fflush(out) == 0;
}

int main(int count, char **arguments)
{
    FILE *out;
    uint32_t b;
    if (togbefulo_clear(table, LENGTH(table)) != TOGBEFULO_ACCEPTED)
        return 1;
    tell("post", togbefulo_add(TOGBEFULO_CLOSED_CYLINDER, 16, 4, false, 12, 90, NULL, 0, SET));
    tell("hose", togbefulo_add(TOGBEFULO_TUBE, 12, 0, false, 5, 0, hose, LENGTH(hose), SET));
    tell("kinked hose", togbefulo_add(TOGBEFULO_TUBE, 12, 0, false, 5, 0, kinked, LENGTH(kinked), SET));
    tell("plug", togbefulo_add(TOGBEFULO_CAPSULE, 12, 3, false, 7, 0, plug, LENGTH(plug), SET));
    for (b = 0; b < table[0]; b++) {
        const uint32_t *body = table + 1 + TOGBEFULO_ENTRY_WORDS * b;
        fprintf(stderr, "body %d: kind %d, %d vertices, %d triangles\n", (int)b, (int)body[TOGBEFULO_ENTRY_KIND],
                (int)body[TOGBEFULO_ENTRY_VERTICES], (int)body[TOGBEFULO_ENTRY_TRIANGLES]);
    }
    out = count > 1 ? fopen(arguments[1], "wb") : stdout;
    return out == NULL || !write_file(out) || fclose(out) != 0;
}
