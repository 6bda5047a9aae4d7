/* Hutsvida: a proved checker of FERAT and FERP certificates, for callers in C and C++.
 *
 * `command/proved ferat_c` proves the library and writes target/staticlib/libferat_c.a (x86-64 Linux). The promises are in
 * crates/ferat_c, crates/tables/specs/Checked.antt and crates/checks/specs (Runs.antt, All.antt).
 *
 * Every call takes all inputs, ends, and writes only to what it is lent for writing. What is lent for writing overlaps nothing
 * else that is lent to the same call. A pointer with length 0 is not read, but is not null: where it may be, as an empty
 * std::vector's data() may, lend what the functions at the end of this file make of it. The calls keep nothing between
 * them: calls on different tables may run side by side. The checks take at most about 2.2 MiB of stack. */
#ifndef HUTSVIDA_H
#define HUTSVIDA_H

#include <stddef.h>
#include <stdint.h>

#ifdef __cplusplus
extern "C" {
#endif

/* The seven fields of a verdict, by their place in `seven`. */
enum {
    HUTSVIDA_WORD = 0,       /* HUTSVIDA_ACCEPTED or HUTSVIDA_REFUSED */
    HUTSVIDA_NUMBER = 1,     /* 0, or the refusal's number: 1 to 15 for FERAT; 1 to 9, 11 and 14 to 17 for FERP */
    HUTSVIDA_FILE = 2,       /* 0 none, 1 formula, 2 certificate */
    HUTSVIDA_LINE = 3,       /* counted from 1; 0 where no line is meant */
    HUTSVIDA_EXPANSIONS = 4, /* FERAT: `e` lines accepted; FERP: expansions accepted */
    HUTSVIDA_ADDITIONS = 5,  /* FERAT: addition lines accepted; FERP: resolutions accepted */
    HUTSVIDA_DELETIONS = 6,  /* FERAT: deletion lines accepted; FERP: 0 */
    HUTSVIDA_FIELDS = 7
};

/* The words. Neither is 0: places that were cleared, and no check wrote to, hold no verdict. */
enum { HUTSVIDA_ACCEPTED = 1, HUTSVIDA_REFUSED = 2 };

/* The kinds of certificates, for a list of checks. */
enum { HUTSVIDA_FERAT = 1, HUTSVIDA_FERP = 2 };

/* THE CHECK of a formula (QDIMACS) and a certificate (FERAT) in six lent tables, whatever these hold. Accepted means that the
 * formula is false. Table places beyond those that the files need hold what they held. */
void hutsvida_check(const uint8_t *formula, size_t formula_length,
                    const uint8_t *certificate, size_t certificate_length,
                    int32_t *prefix, size_t prefix_length,
                    int32_t *matrix, size_t matrix_length,
                    int32_t *map, size_t map_length,
                    int32_t *proof, size_t proof_length,
                    int32_t *marks, size_t marks_length,
                    int32_t *values, size_t values_length,
                    uint32_t seven[HUTSVIDA_FIELDS]);

/* The same for a FERP certificate: mapping lines, then expansions and resolutions. Two numbers are its own: 16, bad parent (a
 * parent of a resolution is missing, or its clause is no resolvent of the two), and 17, index used (by an earlier line). */
void hutsvida_check_ferp(const uint8_t *formula, size_t formula_length,
                         const uint8_t *certificate, size_t certificate_length,
                         int32_t *prefix, size_t prefix_length,
                         int32_t *matrix, size_t matrix_length,
                         int32_t *map, size_t map_length,
                         int32_t *proof, size_t proof_length,
                         int32_t *marks, size_t marks_length,
                         int32_t *values, size_t values_length,
                         uint32_t seven[HUTSVIDA_FIELDS]);

/* THE LIST of checks, of one kind or mixed, one after the other in the same tables. The files stand one after the other in
 * `bytes`: ends[0] is the end of the first formula, ends[1] that of its certificate, and so on; an end below the one before it
 * counts as that one, an end above bytes_length as bytes_length, and an odd last end is left alone. kinds[i] is the kind of the
 * check with index i. That check writes its fields to out[7 * i] and the six places after it; fields beyond out_length are
 * dropped, and places beyond those fields keep what they hold. Each verdict is the one that a single check of its kind gives in
 * tables of zeros of the same sizes. Where kinds[i] is no kind, or i is kinds_length or more, nothing is checked and the seven
 * fields are 0: the word is neither accepted nor refused. */
void hutsvida_check_all(const uint8_t *bytes, size_t bytes_length,
                        const size_t *ends, size_t ends_length,
                        const uint32_t *kinds, size_t kinds_length,
                        int32_t *prefix, size_t prefix_length,
                        int32_t *matrix, size_t matrix_length,
                        int32_t *map, size_t map_length,
                        int32_t *proof, size_t proof_length,
                        int32_t *marks, size_t marks_length,
                        int32_t *values, size_t values_length,
                        uint32_t *out, size_t out_length);

/* A LINE of the formula (file 1) or of the certificate (any other number): where it starts and where it ends in its file,
 * byte 10 left out. Where there is no such line, both are the file's length. */
void hutsvida_line(const uint8_t *formula, size_t formula_length,
                   const uint8_t *certificate, size_t certificate_length,
                   uint32_t file, size_t line, size_t ends[2]);

/* What to lend for a pointer that may be null where its length is 0: itself, or one that is not null. */
static inline const uint8_t *hutsvida_bytes(const uint8_t *at, size_t length) {
    static const uint8_t none = 0;
    return length == 0 ? &none : at;
}

static inline const size_t *hutsvida_ends(const size_t *at, size_t length) {
    static const size_t none = 0;
    return length == 0 ? &none : at;
}

static inline const uint32_t *hutsvida_kinds(const uint32_t *at, size_t length) {
    static const uint32_t none = 0;
    return length == 0 ? &none : at;
}

static inline int32_t *hutsvida_table(int32_t *at, size_t length) {
    static int32_t none = 0;
    return length == 0 ? &none : at;
}

static inline uint32_t *hutsvida_out(uint32_t *at, size_t length) {
    static uint32_t none = 0;
    return length == 0 ? &none : at;
}

#ifdef __cplusplus
}
#endif

#endif
