/* The proved library's C interface: crates/gighull, built by `./library` to target/staticlib/libgighull.a.
 * A slice is a pointer and a length (in elements). A pointer of length 0 is not read, and may be null. A function that
 * answers a number answers document 01's. There is no 7: it was for a LUTI4 index position at or past VL/4, which never
 * comes, and it is not used again.
 *
 * The caller owns everything that it passes: a call borrows it, keeps no pointer to it and frees nothing. The library
 * has no state of its own.
 *
 * What a caller must guarantee, since no call can test it: a pointer is aligned for its type and points to as many
 * elements as its length says (to one, where there is no length), all set, which nobody else writes until the call
 * returns; what is lent for writing (a pointer that is not const) overlaps no other argument; a `bool` is true or false. Nothing is asked of the numbers and lengths: each combination of them has an answer.
 */
#ifndef GIGHULL_H
#define GIGHULL_H

#include <stdbool.h>
#include <stddef.h>
#include <stdint.h>

#ifdef __cplusplus
extern "C" {
#endif

/* The version of this interface: of the functions, and of the numbers that go in and come out. Each change of it raises
 * the number; what stood here before there was one counts as 1. The constant is what a program was compiled against,
 * the function what it is linked with: where the two differ, the program should not go on.
 *
 * What came with each: 2 the narrowing words, as form 6; 3 PSEL, as form 2; 4 gighull_psel_index; 5 one PEXT, as form 7. */
#define GIGHULL_INTERFACE_VERSION 5
uint32_t gighull_interface_version(void);

/* W12 to W15, PC, and the access flags: V, S and T. */
struct gighull_scalars {
    uint32_t w12;
    uint32_t w13;
    uint32_t w14;
    uint32_t w15;
    uint64_t pc;
    bool v;
    bool s;
    bool t;
};

/* One word on the lent machine (8192, 512 and 64 bytes). The record is advanced where it stands. Answers 0 to 6; where
 * that is not 0, nothing has changed. */
uint32_t gighull_step(uint8_t *z, size_t z_len, uint8_t *p, size_t p_len, uint8_t *zt, size_t zt_len,
                      struct gighull_scalars *scalars, uint32_t vl, uint32_t features, uint32_t word);

/* A stretch of words on the lent machine, stepped one after the other up to the first that is refused. Answers 0; or 1,
 * 2 or 8 (more than 256 words), before any word; or 3 to 6, for the word that was refused. `*done` is set to how many
 * words were done: all where the answer is 0, none where it is 1, 2 or 8, else as many as stand before the refused one.
 * What those words did to the files stays, `*pc` has moved by 4 for each of them, and nothing else has changed: of the
 * scalars a run moves PC alone, so the others are passed as numbers. */
uint32_t gighull_run(uint8_t *z, size_t z_len, uint8_t *p, size_t p_len, uint8_t *zt, size_t zt_len, uint32_t w12,
                     uint32_t w13, uint32_t w14, uint32_t w15, uint64_t *pc, bool v, bool s, bool t, uint32_t vl,
                     uint32_t features, const uint32_t *words, size_t words_len, size_t *done);

/* The same for whoever has a record, as for a step. */
static inline uint32_t gighull_run_lent(uint8_t *z, size_t z_len, uint8_t *p, size_t p_len, uint8_t *zt, size_t zt_len,
                                        struct gighull_scalars *scalars, uint32_t vl, uint32_t features,
                                        const uint32_t *words, size_t words_len, size_t *done) {
    return gighull_run(z, z_len, p, p_len, zt, zt_len, scalars->w12, scalars->w13, scalars->w14, scalars->w15,
                       &scalars->pc, scalars->v, scalars->s, scalars->t, vl, features, words, words_len, done);
}

/* Whether two words conflict: one of them writes a register that the other reads or writes. Answers 0, 1 or 3 (of the
 * first word before the second). `*conflict` is set to 1 for yes, and to 0 for no and where the answer is not 0. */
uint32_t gighull_conflict(uint32_t vl, uint32_t features, uint32_t first, uint32_t second, uint32_t *conflict);

/* Whether `order` lists each position of the stretch `words` (from 0) once, with every two words that conflict in the
 * order that they had. Then a run of the words in that order, if the run of the stretch is accepted throughout, ends
 * alike. Answers 0, 1, 8 or 3, in this order. `*permitted` is set to 1 for yes, and to 0 for no (also for an order of
 * another length) and where the answer is not 0. */
uint32_t gighull_permitted(uint32_t vl, uint32_t features, const uint32_t *words, size_t words_len,
                           const uint32_t *order, size_t order_len, uint32_t *permitted);

/* What a word is read as. Answers 0, 1 or 3; where it is 0, `fields` holds seven numbers:
 *
 *   2 PSEL      size offset index Pn Pm Pd        6 narrowing number size shift Zn Zd 0
 *   3 LUTI4C    size i1 Zn Zd 0 0                 7 PEXT      size first portions counter Pd 0
 *   4 LUTI4S    size i1 Zn Zd 0 0
 *
 * PEXT writes the portion `first` of its counter to Pd and, where `portions` is 2 and not 1, the next portion to the next
 * register, which after P15 is P0. The number of a narrowing word is its bits 13 to 10, op:U:R:T, as one number:
 *
 *   0 SQSHRUNB       4 SHRNB       8 SQSHRNB      12 UQSHRNB
 *   1 SQSHRUNT       5 SHRNT       9 SQSHRNT      13 UQSHRNT
 *   2 SQRSHRUNB      6 RSHRNB     10 SQRSHRNB     14 UQRSHRNB
 *   3 SQRSHRUNT      7 RSHRNT     11 SQRSHRNT     15 UQRSHRNT
 *
 * (a word's name is in its line of gighull_lines). Three forms are not used any more: 0 and 1 were PEXT of one portion and
 * of two, up to version 4, and 5 was UQRSHRNB alone, in version 1. Up to version 2 the same numbers of form 2 were another
 * operation, of a draft of the manual that was withdrawn.
 * `fields` stays as it was where the answer is not 0, and where its length is not 7 (the answer is the same). */
uint32_t gighull_decode(uint32_t vl, uint32_t features, uint32_t word, uint32_t *fields, size_t fields_len);

/* The word that seven numbers are written as. Answers 0, 1, 9 or 3; where it is not 0, `*word` is 0. The forms 0, 1 and 5,
 * a form above 7, a narrowing word's number above 15 and a list of another length than 7 are 9; so are, for PEXT, portions
 * other than 1 and 2, a first above 3, and an odd first with two portions. Numbers after a form's own fields, where it has
 * four or five, are not looked at. */
uint32_t gighull_encode(uint32_t vl, uint32_t features, const uint32_t *fields, size_t fields_len, uint32_t *word);

/* PSEL's index unit, an adder of 32 bits and a mask: which element of Pm a PSEL word of this size and offset reads, where
 * its W register holds `w`. Answers 0; 1 for a bad VL; then 9 for a size other than 8, 16, 32 and 64 or an offset that is
 * not below 128/size, which no PSEL word has. `*sum` is set to the low 32 bits of w + offset (the adder wraps), `*mask` to
 * VL/size - 1, and `*index` to (w + offset) mod (VL/size), which is sum AND mask, also where the sum has wrapped. All three
 * are set to 0 where the answer is not 0. */
uint32_t gighull_psel_index(uint32_t vl, uint32_t size, uint32_t offset, uint32_t w, uint32_t *sum, uint32_t *mask,
                            uint32_t *index);

/* The VL/8 (VL/64) bytes of a Z (P) register of a vector (predicate) file, at the start of `out`; answers how many. The
 * rest of `out` stays. 0, and `out` as it was, for a register number too high, a bad VL, a file of wrong length, or an
 * `out` that is shorter than the register's bytes. */
size_t gighull_vector(const uint8_t *file, size_t file_len, uint32_t vl, uint32_t register_number, uint8_t *out,
                      size_t out_len);
size_t gighull_predicate(const uint8_t *file, size_t file_len, uint32_t vl, uint32_t register_number, uint8_t *out,
                         size_t out_len);

/* The listing of records of four bytes, at the start of `out`. Reads four bytes of `input` for each 19 that `out` has, the
 * length of the longest line, so one to three bytes left over are listed where `out` has 19 bytes for them too. Answers
 * how many bytes were read; `*written` is the length of the text. The rest of `out` stays. */
size_t gighull_lines(const uint8_t *input, size_t input_len, uint8_t *out, size_t out_len, size_t *written);

#ifdef __cplusplus
}
#endif

#endif
