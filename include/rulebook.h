/*
 * rulebook: the public calls of the verified rule book translator.
 *
 * A slice is passed as a pointer and a length. The pointer must be valid for that
 * many bytes and, where the length is 0, any non-null address; the bytes may be
 * anything. No call keeps a pointer, allocates, prints or fails otherwise than by
 * its answer, and no call trusts an earlier one. An output must not overlap an input.
 * All numbers in images and outputs are little-endian.
 *
 * An answer with number 0 accepts: its place is 0 and its result is the call's.
 * Any other number refuses: its place says where, its result is 0, and every byte
 * of an output is as it was. On acceptance the bytes past the written part are as
 * they were.
 *
 *  number  refused because                                     place
 *  1       theory shorter than 16 bytes                        0
 *  2       A, N, R or P over its limit, see below              0
 *  4       an offset of the theory differs                     0
 *  5       length of the theory differs                        length wanted
 *  6       a node breaks its row, or its zero byte is not 0    8 * node + field, see below
 *  7       a root is not below N                               first such root's index
 *  8       output shorter than needed                          bytes needed
 *  9       reading's length is not the atom count              count wanted
 *  10      a byte over 2; for a candidate also a byte 1        first such index
 *  11      over 16 true atoms; for a listing A over 12         that number
 *  13      a node is not used, see below                       first such node
 *  15      a pair is not of two atoms below A, smaller first   first such pair's index
 *  21      program shorter than 16 bytes                       0
 *  22      A, B or K outside its limits (1,024, 3,072, 6,528)  0
 *  23      bytes 6-7 of the program neither 0 nor 1            0
 *  24      rule offset or total length field wrong, see below  0
 *  25      length of the program differs from the total        length wanted
 *  26      a rule is malformed, or bytes are left, see below   first such rule, or K
 *
 * A theory image has A atoms, N nodes, R roots and P pairs, at most 1,024, 1,024, 256 and
 * 128, and is 16 + 6N + 2R + 4P bytes long: its header, in which bytes 6-7 are P, the
 * nodes, the roots, and the pairs, two bytes for each of the two atoms. A pair stands for
 * the formula `not both`, beside the roots: for a reading and its strong negation.
 *
 * Its rows are tested in the order 1, 2, 4, 5, 6, 7, 15, 13, and before all others of a call.
 * The place of 6 divided by 8 is the first such node, and the remainder is the first of
 * its fields that is wrong: 0 the kind (over 6), 1 the zero byte, 2 left, 3 right.
 * A node is used if it is a root, the left of a node of kind 3, or the left or right of
 * one of kinds 4 to 6, whether that node is used itself or not.
 *
 * A program image has A atoms, B atoms and labels and K rules: A at most 1,024 and at most B,
 * B at most 3,072, K at most 6,528. Its header has A, B, K and the form, two bytes each, and
 * the offset 16 of the rules and the total length, four bytes each. The rules follow. A rule
 * has the numbers of its heads, positives and negatives, a byte each, a zero byte, and then
 * slots of two bytes: its atoms below B, in that order.
 *
 * In the fixed form, 0, a rule has three slots, those that it does not use zero, and so at
 * most three literals; the image is 16 + 10K bytes long, which 24 tests of the total. In the
 * packed form, 1, a rule has only the slots that it uses, eight at most; 24 tests that the
 * total is at least 16, and 25 the length. There 26 is also for a rule that runs past the end
 * of the image, and with the place K for bytes left after the last rule.
 */
#ifndef RULEBOOK_H
#define RULEBOOK_H

#include <stdbool.h>
#include <stddef.h>
#include <stdint.h>

#ifdef __cplusplus
extern "C" {
#endif

struct rulebook_answer {
    uint32_t number;
    size_t place;
    size_t result;
};

/* Checks a theory image. A theory's rows. Result: 1. */
struct rulebook_answer rulebook_check_theory(
    const uint8_t *theory, size_t theory_length);

/* Whether a reading, a byte 0, 1 or 2 for each of the A atoms, satisfies a theory. A theory's rows, 9, 10. Result: 1 or 0. */
struct rulebook_answer rulebook_evaluate_theory(
    const uint8_t *theory, size_t theory_length,
    const uint8_t *reading, size_t reading_length);

/* Writes the flat program of a theory: in the packed form if packed, at most 55,772 bytes, else in the fixed one, 16 + 10K bytes and at most 65,236. A theory's rows, 8. Result: K, the number of its rules, at most 6,522. */
struct rulebook_answer rulebook_translate(
    const uint8_t *theory, size_t theory_length,
    bool packed,
    uint8_t *out, size_t out_length);

/* Writes the A bytes of a reading and then the value of each label, B bytes in all and at most 3,070, also for a reading that does not satisfy. A theory's rows, 9, 10, 8. Result: B. */
struct rulebook_answer rulebook_extend(
    const uint8_t *theory, size_t theory_length,
    const uint8_t *reading, size_t reading_length,
    uint8_t *out, size_t out_length);

/* Whether a candidate, a byte 0 or 2 for each of the A atoms, is an answer set of a theory. A theory's rows, 9, 10, 11. Result: 1 or 0. */
struct rulebook_answer rulebook_test_theory(
    const uint8_t *theory, size_t theory_length,
    const uint8_t *candidate, size_t candidate_length);

/* Writes each answer set of a theory as a 2-byte number in which atom i weighs 2 to the i, ascending. A theory's rows, 11, 8. Result: their count. */
struct rulebook_answer rulebook_list_sets(
    const uint8_t *theory, size_t theory_length,
    uint8_t *out, size_t out_length);

/* Checks a program image. Rows 21-26. Result: 1. */
struct rulebook_answer rulebook_check_program(
    const uint8_t *program, size_t program_length);

/* Whether a reading, a byte 0, 1 or 2 for each of the B atoms and labels, satisfies a program. Rows 21-26, 9, 10. Result: 1 or 0. */
struct rulebook_answer rulebook_evaluate_program(
    const uint8_t *program, size_t program_length,
    const uint8_t *reading, size_t reading_length);

/* Whether a candidate, a byte 0 or 2 for each of the B atoms and labels, is an answer set of a program. Rows 21-26, 9, 10, 11. Result: 1 or 0. */
struct rulebook_answer rulebook_test_program(
    const uint8_t *program, size_t program_length,
    const uint8_t *candidate, size_t candidate_length);

#ifdef __cplusplus
}
#endif

#endif
