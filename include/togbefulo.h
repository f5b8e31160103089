/* Togbefulo: swept bodies along curves, packed side by side into buffers that the caller lends.
 *
 * For the static library libtogbefulo.a on x86-64 Linux, from C99 or C++11 on:
 *
 *     cc -std=c99 -I include station.c crates/togbefulo/out/libtogbefulo.a -o station
 *
 * The library allocates nothing, prints nothing, keeps nothing between two calls, takes less than
 * 128 KiB of stack and needs memset alone of the C library. It is compiled for processors of level
 * x86-64-v2 (SSE4.2, POPCNT), and does not look at which it runs on. Threads may call it at the
 * same time, each with its own buffers. It counts on the floating-point state with which a program
 * starts: rounding to nearest, no traps, subnormal numbers kept. A program that is linked with
 * -ffast-math may start otherwise, and gets other floats then.
 *
 *
 * BUFFERS
 *
 * A buffer is handed over as a pointer and, behind it, its length in elements, not in bytes. No
 * call reads or writes past the length. What a buffer holds before it is first written does not
 * matter.
 *
 *   - Where the length is 0, the pointer may be anything, NULL too.
 *   - Otherwise it points to that many elements, aligned as their type is (4 bytes for float and
 *     uint32_t).
 *   - A buffer that a call writes shares no element with another buffer of the call, and nobody
 *     else reads or writes it until the call returns.
 *   - `counts` (two words) and `word` (one word) come without a length. They are never NULL.
 *
 *
 * DESCRIPTIONS
 *
 * A description is six arguments, and a body is made of a description and a curve. An argument
 * that a kind lacks is ignored; a closed cylinder lacks a curve, and is answered 10 where one is
 * handed over.
 *
 *   kind                           divisions  steps              centred  size    length  curve
 *   TOGBEFULO_RIBBON           1                                          width           open
 *   TOGBEFULO_TUBE             2   3 to 256                               radius          open
 *   TOGBEFULO_CAPSULE          3   3 to 256   longitudes, 0..256          radius          open
 *   TOGBEFULO_TORUS            4   3 to 256                               radius          closed
 *   TOGBEFULO_CLOSED_CYLINDER  5   3 to 256   layers, 1 to 4096  yes, no  radius  length  none
 *   TOGBEFULO_SEAMLESS_TORUS   6   3 to 256                               radius          closed
 *
 * An open curve has 2 to 4096 vertices, a closed one 3 to 4096.
 *
 *   ribbon           a band: one edge is the curve, the other lies beside it, at the distance of
 *                    the width
 *   tube             a ring of vertices round each vertex of the curve, open at both ends
 *   capsule          the same, with a round cap at each end, which reaches past the curve's end by
 *                    the radius
 *   torus            a tube along a closed curve. Where the curve is not flat, the piece between
 *                    its last vertex and its first may be twisted.
 *   closed cylinder  round the axis y, flat at both ends
 *   seamless torus   a torus whose twist is spread along the curve, so that stripes run round it
 *                    without a jump. Counts and triangles are those of a torus.
 *
 *   divisions  corners of the body's cross section
 *   steps      longitude divisions of a capsule's cap, or layers of a closed cylinder. Twice the
 *              longitudes and the curve's segments together are at least 3.
 *   centred    of a closed cylinder, whose axis is y: true where its middle is at y = 0, false
 *              where its bottom is
 *   size       above 0 and finite, in the unit of the curve's coordinates
 *   length     likewise
 *   curve      x, y, z of each vertex, so three floats a vertex. A closed curve runs on from its
 *              last vertex to its first, which is not repeated. A closed cylinder has no curve:
 *              NULL with length 0.
 *
 * The rings follow a frame that is carried along the curve. Round a closed curve that is not flat
 * it comes back turned, as a rule: c0 and s0 are its dots with the first frame and with the axis
 * across that frame. A seamless torus spreads a twist of k / 4096 turn along the curve to make up
 * for it. k is one of -2047 to 2048 with the greatest
 * score: c0 times the cosine of the twist plus s0 times its sine. Which k is taken where several
 * have the greatest score is not promised yet: within one release the same arguments give the same
 * body, but two releases may draw different stripes.
 *
 *
 * THE SET
 *
 * A set of at most 64 bodies stands in three buffers, which togbefulo_clear, togbefulo_add and
 * togbefulo_build write:
 *
 *   table      word 0 is the number of bodies; then six words a body, in the order of
 *              TOGBEFULO_ENTRY_KIND to TOGBEFULO_ENTRY_TRIANGLES. For b bodies it has 1 + 6 * b
 *              words or more: TOGBEFULO_TABLE_WORDS, 385, are enough for all 64.
 *   vertices   x, y, z of each vertex, body after body: three floats a vertex
 *   triangles  three vertex numbers a triangle, counted from the set's first vertex, body after
 *              body
 *
 * Seen from outside, the triangles of all kinds but a ribbon run counter-clockwise: by the
 * right-hand rule they face outward. A ribbon's run counter-clockwise on the side from which, with
 * the curve running upward, the band lies to the right of the curve.
 * Coordinates are taken as right-handed. Where a curve bends more sharply than the radius allows,
 * a body crosses itself, and has no plain outside there.
 *
 * togbefulo_clear comes first. togbefulo_counts says how many vertices and triangles a body has;
 * one that fits exactly is accepted. A table that was changed by hand is answered 1 where it has
 * one of the faults listed for 1 below; otherwise it is taken as it stands, since divisions and
 * counts are not looked at. Whatever it says, no call reads or writes outside the buffers.
 *
 *
 * ANSWERS
 *
 * Calls of type uint32_t answer 0 where they have done what was asked, or the number of the first
 * thing that is wrong, in the order that the call names. Unless a call says otherwise, one that
 * does not answer 0 has written nothing.
 *
 *    0  TOGBEFULO_ACCEPTED          done
 *
 *   Whoever lends the buffers:
 *    1  TOGBEFULO_DAMAGED_TABLE     the table is empty, names more than 64 bodies or more than it
 *                                   has room for, has an unknown kind, a first vertex or triangle
 *                                   that is not the sum of the counts before it, or more vertices
 *                                   or triangles than 2^28 or than their buffer holds
 *    2  TOGBEFULO_NO_ENTRY          the set has 64 bodies, or its table no six words more
 *    3  TOGBEFULO_NO_VERTICES       the vertices do not fit, or the set's would be more than 2^28
 *    4  TOGBEFULO_NO_TRIANGLES      the triangles do not fit, or the set's would be more than 2^28
 *    5  TOGBEFULO_PAST_END          the file has no word at this place
 *
 *   Whoever draws the curve:
 *   10  TOGBEFULO_CURVE_VERTICES    its length is no multiple of 3, or it has too few or too many
 *                                   vertices for the kind
 *   11  TOGBEFULO_CURVE_NOT_FINITE  a coordinate is infinite or not a number
 *   12  TOGBEFULO_SEGMENT           a segment, the closing one of a closed curve too, whose
 *                                   length squared is below 2^-40 or above 2^80: it is shorter
 *                                   than about 0.00000095 or longer than about 1.1e12
 *   13  TOGBEFULO_FOLD              the curve turns back on itself: at a vertex between two
 *                                   segments 1 + the cosine of the turn is below 2^-12, which is a
 *                                   turn of more than about 178.7 degrees. The first vertex, where
 *                                   a closed curve closes, is looked at for a seamless torus, but
 *                                   not for a torus.
 *
 *   Whoever sets the sizes:
 *   20  TOGBEFULO_DIVISIONS         divisions outside 3 to 256
 *   21  TOGBEFULO_LAYERS            steps outside what is said above
 *   22  TOGBEFULO_SIZE              size or length not finite or not above 0
 *   23  TOGBEFULO_NOT_FINITE        a coordinate that was worked out is not finite, or c0, s0 or
 *                                   a score of a seamless torus is not
 *
 *   4294967295  TOGBEFULO_UNKNOWN_KIND  the kind is none of 1 to 6: nothing else was looked at
 */
#ifndef TOGBEFULO_H
#define TOGBEFULO_H

#include <stdbool.h>
#include <stddef.h>
#include <stdint.h>

#define TOGBEFULO_RIBBON 1u
#define TOGBEFULO_TUBE 2u
#define TOGBEFULO_CAPSULE 3u
#define TOGBEFULO_TORUS 4u
#define TOGBEFULO_CLOSED_CYLINDER 5u
#define TOGBEFULO_SEAMLESS_TORUS 6u

#define TOGBEFULO_ACCEPTED 0u
#define TOGBEFULO_DAMAGED_TABLE 1u
#define TOGBEFULO_NO_ENTRY 2u
#define TOGBEFULO_NO_VERTICES 3u
#define TOGBEFULO_NO_TRIANGLES 4u
#define TOGBEFULO_PAST_END 5u
#define TOGBEFULO_CURVE_VERTICES 10u
#define TOGBEFULO_CURVE_NOT_FINITE 11u
#define TOGBEFULO_SEGMENT 12u
#define TOGBEFULO_FOLD 13u
#define TOGBEFULO_DIVISIONS 20u
#define TOGBEFULO_LAYERS 21u
#define TOGBEFULO_SIZE 22u
#define TOGBEFULO_NOT_FINITE 23u
#define TOGBEFULO_UNKNOWN_KIND 4294967295u

#define TOGBEFULO_MOST_BODIES 64u
#define TOGBEFULO_ENTRY_WORDS 6u
#define TOGBEFULO_TABLE_WORDS 385u /* 1 + 6 * 64 */

/* Entry b of a table begins at word 1 + 6 * b; these are the places in it. */
#define TOGBEFULO_ENTRY_KIND 0u
#define TOGBEFULO_ENTRY_DIVISIONS 1u /* 0 for a ribbon */
#define TOGBEFULO_ENTRY_FIRST_VERTEX 2u
#define TOGBEFULO_ENTRY_VERTICES 3u
#define TOGBEFULO_ENTRY_FIRST_TRIANGLE 4u
#define TOGBEFULO_ENTRY_TRIANGLES 5u

/* The words of a record before its coordinates, and the most vertices that its curve may have. */
#define TOGBEFULO_RECORD_HEAD_WORDS 7u
#define TOGBEFULO_RECORD_VERTICES 512u

/* With `static` C compilers warn where fewer words are handed over, or NULL; C++ has no such
 * word. */
#ifdef __cplusplus
#define TOGBEFULO_AT_LEAST
extern "C" {
#else
#define TOGBEFULO_AT_LEAST static
#endif

/* ---- The set ---- */

/* Makes the set empty: word 0 of the table becomes 0, and nothing else is touched. This comes
 * first.
 * Answers 0, or 1 for a table of length 0. */
uint32_t togbefulo_clear(uint32_t *table, size_t table_len);

/* Adds a body behind those that stand in the set. It writes the body's vertices, its triangles,
 * its entry and word 0, and no other element.
 * Answers 0, 1, 10, 20, 21, 22, 11, 12, 13, 2, 3, 4 or 23, in this order, or 4294967295. 23 alone
 * leaves a trace: the floats that the body's vertices would have had are 0. Unless the answer is
 * 1, the set is as it was or has one body more, and further bodies can be added. */
uint32_t togbefulo_add(uint32_t kind, uint32_t divisions, uint32_t steps, bool centred, float size, float length,
                       const float *curve, size_t curve_len,
                       uint32_t *table, size_t table_len,
                       float *vertices, size_t vertices_len,
                       uint32_t *triangles, size_t triangles_len);

/* Counts the vertices and triangles of a body, from its description and the number of vertices
 * (not of floats) of its curve, `vertices`: counts[0] vertices, which take 3 * counts[0] floats,
 * and counts[1] triangles, which take 3 * counts[1] words.
 * Answers 0, 10, 20, 21 or 22, in this order, or 4294967295. Where it is not 0, `counts` is
 * untouched. */
uint32_t togbefulo_counts(uint32_t kind, uint32_t divisions, uint32_t steps, bool centred, float size, float length,
                          size_t vertices, uint32_t counts[TOGBEFULO_AT_LEAST 2]);

/* Puts the word at this place of the set's file, counted from 0, into `word`. The file is words of
 * 32 bits, written with the low byte first: 1, the numbers of bodies, vertices and triangles, the
 * table's entries, the bits of all floats, all vertex numbers. togbefulo_file_words says how many
 * they are.
 * A NaN, which only a set made or changed by hand can hold, reads as 7FC00000 (hexadecimal),
 * whatever its bits are.
 * Answers 0, 1 or 5. Where it is not 0, `word` is untouched. */
uint32_t togbefulo_file_word(const uint32_t *table, size_t table_len,
                             const float *vertices, size_t vertices_len,
                             const uint32_t *triangles, size_t triangles_len,
                             size_t place, uint32_t word[TOGBEFULO_AT_LEAST 1]);

/* Clears the set and adds the bodies of a whole list of records. A record is words: kind,
 * divisions, steps, centred (0 for false), the bits of size and of length, the number of curve
 * vertices, the bits of their coordinates. The list ends where the words do, at a record that they
 * cut short, or at one of more than 512 curve vertices.
 * What togbefulo_add answers for each record of a kind from 1 to 6, in order, goes to the front of
 * `answers`, as far as that reaches; it may have length 0. The rest of it is untouched, so that
 * who fills it with 4294967295 beforehand sees how many there were. Records of unknown kinds are
 * skipped and have no answer.
 * Answers 0, also where some or all records are refused, or 1 for a table of length 0, and then
 * nothing is written. */
uint32_t togbefulo_build(const uint32_t *records, size_t records_len,
                         uint32_t *answers, size_t answers_len,
                         uint32_t *table, size_t table_len,
                         float *vertices, size_t vertices_len,
                         uint32_t *triangles, size_t triangles_len);

/* Checks a description and a curve, without any buffer to write to.
 * Answers 0, 10, 20, 21, 22, 11, 12 or 13, in this order, or 4294967295. */
uint32_t togbefulo_check(uint32_t kind, uint32_t divisions, uint32_t steps, bool centred, float size, float length,
                         const float *curve, size_t curve_len);

/* How many words the file of a set has, by its table as the calls above leave it; 0 where the
 * table is empty, or names more bodies than 64 or than it has room for. */
static inline size_t togbefulo_file_words(const uint32_t *table, size_t table_len)
{
    size_t bodies, words;
    const uint32_t *last;
    if (table_len == 0 || table[0] > TOGBEFULO_MOST_BODIES)
        return 0;
    bodies = table[0];
    words = 4 + TOGBEFULO_ENTRY_WORDS * bodies;
    if (bodies == 0)
        return words;
    if (1 + TOGBEFULO_ENTRY_WORDS * bodies > table_len)
        return 0;
    last = table + 1 + TOGBEFULO_ENTRY_WORDS * (bodies - 1);
    words += 3 * ((size_t)last[TOGBEFULO_ENTRY_FIRST_VERTEX] + last[TOGBEFULO_ENTRY_VERTICES]);
    words += 3 * ((size_t)last[TOGBEFULO_ENTRY_FIRST_TRIANGLE] + last[TOGBEFULO_ENTRY_TRIANGLES]);
    return words;
}

/* ---- A body alone ---- */

/* Writes the vertices of a body to the front of `out`: 3 * counts[0] floats, and leaves the rest
 * of it untouched.
 * Answers true. Where togbefulo_counts would answer 10, 20 or 21, curve_len is no multiple of 3,
 * the kind is unknown or `out` is too short, it answers false and writes nothing. Neither sizes
 * nor coordinates are looked at: what is not finite is worked with, so that togbefulo_check comes
 * first, and togbefulo_are_finite after it. Where c0, s0 or a score of a seamless torus is not
 * finite, none of its floats is. */
bool togbefulo_vertices(uint32_t kind, uint32_t divisions, uint32_t steps, bool centred, float size, float length,
                        const float *curve, size_t curve_len,
                        float *out, size_t out_len);

/* The next five write the triangles of a body to the front of `out`: 3 * counts[1] words, the
 * vertex numbers, each with `first` added, and leave the rest of it untouched. `first` is 0 for a
 * body by itself. A seamless torus has the triangles of a torus.
 * They answer true. Where a number is outside its range, the body's last vertex would have the
 * number 2^28 or above, or `out` is too short, they answer false and write nothing. An open curve
 * has one segment fewer than vertices: segments are 1 to 4095. */
bool togbefulo_ribbon_triangles(uint16_t segments, uint32_t first, uint32_t *out, size_t out_len);
bool togbefulo_tube_triangles(uint16_t divisions, uint16_t segments, uint32_t first, uint32_t *out, size_t out_len);
bool togbefulo_capsule_triangles(uint16_t divisions, uint16_t longitudes, uint16_t segments, uint32_t first,
                                 uint32_t *out, size_t out_len);
bool togbefulo_torus_triangles(uint16_t divisions, uint16_t vertices, uint32_t first, uint32_t *out, size_t out_len);
bool togbefulo_closed_cylinder_triangles(uint16_t divisions, uint16_t layers, uint32_t first,
                                         uint32_t *out, size_t out_len);

/* Whether all values are finite; true where there are none. */
bool togbefulo_are_finite(const float *values, size_t values_len);

/* ---- Arithmetic, for every argument ---- */

/* The square root, as IEEE 754 rounds it. */
float togbefulo_root(float x);

/* Neither infinite nor a NaN. */
bool togbefulo_is_finite(float x);

/* The bits of x, 7FC00000 (hexadecimal) for every NaN; and the value with these bits. */
uint32_t togbefulo_to_word(float x);
float togbefulo_from_word(uint32_t w);

/* The cosine and the sine of k / n of a whole turn, as bodies are drawn with them. For k at or
 * above n, or n above 2^24, those of no turn: 1 and 0. */
float togbefulo_turn_cos(uint32_t k, uint32_t n);
float togbefulo_turn_sin(uint32_t k, uint32_t n);

#ifdef __cplusplus
}
#endif

#endif
