/* The library's calls with nothing lent (null pointers of length 0, through the header's functions for them), lists whose results
 * have no place, and lists with kinds that name none or are missing. Compiled as C and as C++. */
#include "hutsvida.h"

#include <stdio.h>
#include <string.h>

static const uint8_t formula[] = "p cnf 0 1\n0\n";
static const uint8_t ferat[] = "e 0\n";
static const uint8_t ferp[] = "1 0 1 0\n";

/* The check of either kind. */
typedef void check(const uint8_t *, size_t, const uint8_t *, size_t, int32_t *, size_t, int32_t *, size_t, int32_t *, size_t,
                   int32_t *, size_t, int32_t *, size_t, int32_t *, size_t, uint32_t *);

static int same(const char *name, const uint32_t *found, const uint32_t *expected, size_t count) {
    if (memcmp(found, expected, count * sizeof *found) == 0) return 0;
    printf("%s: %u,%u,%u,%u ..\n", name, found[0], found[1], found[2], found[3]);
    return 1;
}

static int alone(const char *name, check *call, size_t length, const uint32_t *expected) {
    uint32_t seven[HUTSVIDA_FIELDS];
    int32_t *none = hutsvida_table(NULL, 0);
    const uint8_t *lent = hutsvida_bytes(length == 0 ? NULL : formula, length);
    memset(seven, 255, sizeof seven);
    call(lent, length, hutsvida_bytes(NULL, 0), 0, none, 0, none, 0, none, 0, none, 0, none, 0, none, 0, seven);
    return same(name, seven, expected, HUTSVIDA_FIELDS);
}

/* A list of three pairs, one with a FERAT certificate, one with a FERP certificate, one empty, with these kinds and places for so many
 * numbers; the places beyond are compared too. */
static int list(const char *name, const uint32_t *kinds, size_t count, size_t places, const uint32_t *expected) {
    uint8_t bytes[64];
    size_t ends[6], length = 0;
    int32_t tables[6][8];
    uint32_t out[21];
    const uint8_t *files[] = {formula, ferat, formula, ferp};
    for (size_t i = 0; i < 6; i++) {
        size_t size = i < 4 ? strlen((const char *)files[i]) : 0;
        if (size > 0) memcpy(bytes + length, files[i], size);
        length += size;
        ends[i] = length;
    }
    memset(out, 0, sizeof out);
    hutsvida_check_all(bytes, length, ends, 6, hutsvida_kinds(kinds, count), count, tables[0], 8, tables[1], 8, tables[2], 8,
                       tables[3], 8, tables[4], 8, tables[5], 8, hutsvida_out(places == 0 ? NULL : out, places), places);
    return same(name, out, expected, 21);
}

int main(void) {
    static const uint32_t no_formula[] = {HUTSVIDA_REFUSED, 2, 1, 0, 0, 0, 0};
    static const uint32_t no_room[] = {HUTSVIDA_REFUSED, 15, 1, 2, 0, 0, 0};
    static const uint32_t kinds[] = {HUTSVIDA_FERAT, HUTSVIDA_FERP, HUTSVIDA_FERP};
    static const uint32_t turned[] = {HUTSVIDA_FERP, HUTSVIDA_FERAT, 3};
    static const uint32_t whole[] = {HUTSVIDA_ACCEPTED, 0, 0, 0, 1, 0, 0, HUTSVIDA_ACCEPTED, 0, 0, 0, 1, 0, 0, HUTSVIDA_REFUSED, 2, 1, 0, 0, 0, 0};
    static const uint32_t two[] = {HUTSVIDA_ACCEPTED, 0, 0, 0, 1, 0, 0, HUTSVIDA_ACCEPTED, 0, 0, 0, 1, 0, 0, 0, 0, 0, 0, 0, 0, 0};
    static const uint32_t first[] = {HUTSVIDA_ACCEPTED, 0, 0, 0, 1, 0, 0, 0, 0, 0, 0, 0, 0, 0, 0, 0, 0, 0, 0, 0, 0};
    static const uint32_t wrong_kinds[] = {HUTSVIDA_REFUSED, 2, 2, 1, 0, 0, 0, HUTSVIDA_REFUSED, 2, 2, 1, 0, 0, 0, 0, 0, 0, 0, 0, 0, 0};
    static const uint32_t nothing[21] = {0};
    int32_t *none = hutsvida_table(NULL, 0);
    size_t ends[2] = {7, 7};
    int wrong = alone("no bytes", hutsvida_check, 0, no_formula);
    wrong += alone("no bytes, FERP", hutsvida_check_ferp, 0, no_formula);
    wrong += alone("no tables", hutsvida_check, sizeof formula - 1, no_room);
    wrong += alone("no tables, FERP", hutsvida_check_ferp, sizeof formula - 1, no_room);
    wrong += list("three results", kinds, 3, 21, whole);
    wrong += list("one result", kinds, 3, 7, first);
    wrong += list("no results", kinds, 3, 0, nothing);
    wrong += list("two kinds", kinds, 2, 21, two);
    wrong += list("no kinds", NULL, 0, 21, nothing);
    wrong += list("wrong kinds", turned, 3, 21, wrong_kinds);
    hutsvida_check_all(hutsvida_bytes(NULL, 0), 0, hutsvida_ends(NULL, 0), 0, hutsvida_kinds(NULL, 0), 0, none, 0, none, 0, none, 0,
                       none, 0, none, 0, none, 0, hutsvida_out(NULL, 0), 0);
    hutsvida_line(hutsvida_bytes(NULL, 0), 0, hutsvida_bytes(NULL, 0), 0, 1, 1, ends);
    if (ends[0] != 0 || ends[1] != 0) {
        printf("no line: %zu %zu\n", ends[0], ends[1]);
        wrong++;
    }
    return wrong == 0 ? 0 : 1;
}
