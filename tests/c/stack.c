/* How much stack a call takes: bodies of each kind are made on a stack that was painted before. Ends in 1 where it is
 * not below what the header says. */
#define _XOPEN_SOURCE 600
#include "togbefulo.h"

#include <stdio.h>
#include <string.h>
#include <ucontext.h>

enum { STACK = 262144, SAID = 131072, PAINT = 0xA5, CURVE = 300, VERTICES = 3 * 90000, TRIANGLES = 3 * 180000 };

static unsigned char stack[STACK];
static ucontext_t here, there;
static uint32_t table[TOGBEFULO_TABLE_WORDS], triangles[TRIANGLES], record[7 + 3 * CURVE], answer[1], kind;
static float vertices[VERTICES], curve[3 * CURVE];

#define SET table, TOGBEFULO_TABLE_WORDS, vertices, VERTICES, triangles, TRIANGLES

static void add(void)
{
    size_t length = kind == TOGBEFULO_CLOSED_CYLINDER ? 0 : 3 * CURVE;
    togbefulo_clear(table, TOGBEFULO_TABLE_WORDS);
    answer[0] = togbefulo_add(kind, 256, 5, true, 1, 1, curve, length, SET);
}

static void build(void)
{
    size_t count = kind == TOGBEFULO_CLOSED_CYLINDER ? 0 : CURVE;
    const uint32_t one = togbefulo_to_word(1), head[] = {kind, 256, 5, 1, one, one, (uint32_t)count};
    memcpy(record, head, sizeof head);
    memcpy(record + 7, curve, 3 * count * sizeof *curve);
    togbefulo_build(record, 7 + 3 * count, answer, 1, SET);
}

/* How many bytes of the painted stack are painted over. */
static size_t used(void (*call)(void))
{
    size_t left = 0;
    memset(stack, PAINT, STACK);
    answer[0] = TOGBEFULO_UNKNOWN_KIND;
    getcontext(&there);
    there.uc_stack.ss_sp = stack;
    there.uc_stack.ss_size = STACK;
    there.uc_link = &here;
    makecontext(&there, call, 0);
    swapcontext(&here, &there);
    while (left < STACK && stack[left] == PAINT)
        left++;
    return answer[0] == TOGBEFULO_ACCEPTED ? STACK - left : STACK;
}

int main(void)
{
    size_t i, added = 0, built = 0;
    for (i = 0; i < CURVE; i++) {
        curve[3 * i] = (float)i;
        curve[3 * i + 1] = (float)(i % 7);
    }
    for (kind = 1; kind <= 6; kind++) {
        size_t a = used(add), b = used(build);
        added = a > added ? a : added;
        built = b > built ? b : built;
    }
    printf("stack.c: add takes %d bytes of stack at most, build %d\n", (int)added, (int)built);
    return added >= SAID || built >= SAID;
}
