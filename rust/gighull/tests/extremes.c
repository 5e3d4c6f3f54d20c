/* Every function of include/gighull.h with empty slices, lengths off by one, and numbers at their extremes. Each slice
 * stands in memory of its own of just its length, so that valgrind sees a byte too many read or written:
 *
 *   cc -std=c11 -Wall -Wextra -g -I include rust/gighull/tests/extremes.c target/staticlib/libgighull.a -o /tmp/extremes
 *   valgrind --error-exitcode=9 --leak-check=full /tmp/extremes
 */
#include <stdio.h>
#include <stdlib.h>
#include <string.h>

#include "gighull.h"

static const uint32_t NUMBERS[] = {0, 1, 3, 7, 8, 15, 16, 31, 32, 64, 127, 128, 129, 256, 512, 1024, 2047, 2048, 2049, 65664, 0x7fffffff, 0x80000000, 0xffffffff};
static const uint32_t LENGTHS_OF_VL[] = {0, 1, 128, 256, 512, 1024, 2048, 65664, 0xffffffff};
static const uint32_t FEATURES[] = {0, 1, 2, 3, 12, 28, 31, 32, 287, 0xffffffff};
static const uint32_t WORDS[] = {0, 0x25207010, 0x2520741f, 0x252c4000, 0x25e04000, 0xc08a9000, 0xc08b9000, 0xc08aa3fc, 0xc09a93f3, 0x45283800, 0x457f3bff, 0x45280000, 0x45602fff, 0x457f1421, 0xffffffff};
#define COUNT(list) (sizeof(list) / sizeof(list[0]))

static unsigned long answers;
static unsigned long tally[16];

static void told(uint32_t number) {
    if (number > 9 || number == 7) {
        printf("an answer of %u\n", number);
        exit(1);
    }
    tally[number]++;
    answers++;
}

/* Memory of just this length; one byte at least is asked for, and none of it is lent where the length is 0. */
static void *bytes(size_t length, int value) {
    void *memory = malloc(length ? length : 1);
    memset(memory, value, length ? length : 1);
    return memory;
}

static void steps_and_runs(size_t zl, size_t pl, size_t ztl) {
    uint8_t *z = bytes(zl, 0x5a), *p = bytes(pl, 0xff), *zt = bytes(ztl, 0x33);
    uint32_t *words = bytes(sizeof WORDS, 0);
    memcpy(words, WORDS, sizeof WORDS);
    for (size_t v = 0; v < COUNT(LENGTHS_OF_VL); v++)
        for (size_t f = 0; f < COUNT(FEATURES); f++) {
            struct gighull_scalars s = {0xffffffff, 0, 0x80000000, 1, UINT64_MAX - 3, true, true, true};
            for (size_t w = 0; w < COUNT(WORDS); w++)
                told(gighull_step(z, zl, p, pl, zt, ztl, &s, LENGTHS_OF_VL[v], FEATURES[f], WORDS[w]));
            for (size_t n = 0; n <= COUNT(WORDS); n += 4) {
                size_t done = 99;
                told(gighull_run_lent(z, zl, p, pl, zt, ztl, &s, LENGTHS_OF_VL[v], FEATURES[f], words, n, &done));
                if (done > n)
                    exit(1);
            }
        }
    free(z);
    free(p);
    free(zt);
    free(words);
}

static void long_stretches(size_t length) {
    uint8_t *z = bytes(8192, 1), *p = bytes(512, 0xff), *zt = bytes(64, 2);
    uint32_t *words = bytes(4 * length, 0), *order = bytes(4 * length, 0);
    for (size_t i = 0; i < length; i++) {
        words[i] = 0x45283801;
        order[i] = (uint32_t)i;
    }
    struct gighull_scalars s = {0, 0, 0, 0, UINT64_MAX, true, true, true};
    size_t done = 0;
    uint32_t yes = 7;
    told(gighull_run_lent(z, 8192, p, 512, zt, 64, &s, 2048, 31, words, length, &done));
    told(gighull_permitted(128, 31, words, length, order, length, &yes));
    if (length)
        order[length - 1] = 0xffffffff;
    told(gighull_permitted(128, 31, words, length, order, length, &yes));
    told(gighull_permitted(128, 31, words, length, order, length ? length - 1 : 0, &yes));
    told(gighull_permitted(128, 31, words, length ? length - 1 : 0, order, length, &yes));
    free(z);
    free(p);
    free(zt);
    free(words);
    free(order);
}

static void numbers(void) {
    uint32_t word = 0, yes = 0;
    for (size_t v = 0; v < COUNT(LENGTHS_OF_VL); v++)
        for (size_t f = 0; f < COUNT(FEATURES); f++)
            for (size_t w = 0; w < COUNT(WORDS); w++) {
                for (size_t length = 0; length <= 8; length++) {
                    uint32_t *fields = bytes(4 * length, 0xff);
                    told(gighull_decode(LENGTHS_OF_VL[v], FEATURES[f], WORDS[w], fields, length));
                    told(gighull_encode(LENGTHS_OF_VL[v], FEATURES[f], fields, length, &word));
                    free(fields);
                }
                told(gighull_conflict(LENGTHS_OF_VL[v], FEATURES[f], WORDS[w], WORDS[COUNT(WORDS) - 1 - w], &yes));
            }
    uint32_t *fields = bytes(28, 0);
    for (uint32_t form = 0; form <= 8; form++)
        for (size_t a = 0; a < COUNT(NUMBERS); a++)
            for (size_t b = 0; b < COUNT(NUMBERS); b++) {
                for (int i = 0; i < 7; i++)
                    fields[i] = NUMBERS[i == 1 ? a : b];
                fields[0] = form;
                told(gighull_encode(128, 31, fields, 7, &word));
            }
    free(fields);
}

static void written(const uint32_t list[7], uint32_t expected) {
    uint32_t *fields = bytes(28, 0), *word = bytes(4, 0xff);
    memcpy(fields, list, 28);
    uint32_t answer = gighull_encode(2048, 31, fields, 7, word);
    told(answer);
    if (answer != expected || (answer == 0) != (*word != 0)) {
        printf("the word of");
        for (int i = 0; i < 7; i++)
            printf(" %u", list[i]);
        printf("\n");
        exit(1);
    }
    free(fields);
    free(word);
}

/* What the header says of form 7, and of the same numbers, with and without `portions`, for forms that there are not. */
static void pext(uint32_t size, uint32_t first, uint32_t portions, uint32_t counter, uint32_t pd) {
    static const uint32_t NO_FORMS[] = {0, 1, 5, 8, 263, 0x80000007, 0xffffffff};
    bool sizes = size == 8 || size == 16 || size == 32 || size == 64;
    bool range = first <= 3 && (portions == 1 || (portions == 2 && first % 2 == 0));
    bool registers = counter >= 8 && counter <= 15 && pd <= 15;
    written((const uint32_t[]){7, size, first, portions, counter, pd, 0xffffffff}, sizes && range && registers ? 0 : 9);
    for (size_t i = 0; i < COUNT(NO_FORMS); i++) {
        written((const uint32_t[]){NO_FORMS[i], size, first, portions, counter, pd, 0}, 9);
        written((const uint32_t[]){NO_FORMS[i], size, first, counter, pd, 0, 0}, 9);
    }
}

static void pexts(void) {
    static const uint32_t SIZES[] = {0, 8, 64, 264};
    static const uint32_t PORTIONS[] = {0, 1, 2, 3, 4, 256, 257, 65538, 0x80000000, 0x80000001, 0x80000002, 0xffffffff};
    static const uint32_t REGISTERS[] = {0, 7, 8, 15, 16, 0xffffffff};
    for (size_t s = 0; s < COUNT(SIZES); s++)
        for (size_t f = 0; f < COUNT(PORTIONS); f++)
            for (size_t n = 0; n < COUNT(PORTIONS); n++)
                for (size_t c = 0; c < COUNT(REGISTERS); c++)
                    for (size_t d = 0; d < COUNT(REGISTERS); d++)
                        pext(SIZES[s], PORTIONS[f], PORTIONS[n], REGISTERS[c], REGISTERS[d]);
}

static void parts_and_lines(void) {
    static const size_t FILES[] = {0, 1, 511, 512, 513, 8191, 8192, 8193};
    static const size_t OUTS[] = {0, 1, 2, 15, 16, 31, 32, 33, 255, 256, 257};
    for (size_t i = 0; i < COUNT(FILES); i++)
        for (size_t o = 0; o < COUNT(OUTS); o++) {
            uint8_t *file = bytes(FILES[i], 7), *out = bytes(OUTS[o], 0);
            for (size_t v = 0; v < COUNT(LENGTHS_OF_VL); v++)
                for (size_t n = 0; n < COUNT(NUMBERS); n++) {
                    size_t z = gighull_vector(file, FILES[i], LENGTHS_OF_VL[v], NUMBERS[n], out, OUTS[o]);
                    size_t p = gighull_predicate(file, FILES[i], LENGTHS_OF_VL[v], NUMBERS[n], out, OUTS[o]);
                    if (z > OUTS[o] || p > OUTS[o])
                        exit(1);
                    answers += 2;
                }
            size_t written = 0;
            if (gighull_lines(file, FILES[i], out, OUTS[o], &written) > FILES[i] || written > OUTS[o])
                exit(1);
            answers++;
            free(file);
            free(out);
        }
}

static bool is_one_of(uint32_t number, const uint32_t *list, size_t count) {
    for (size_t i = 0; i < count; i++)
        if (list[i] == number)
            return true;
    return false;
}

/* What the header says of PSEL's index unit, over whole numbers of 64 bits. */
static void index_unit(uint32_t vl, uint32_t size, uint32_t offset, uint32_t w) {
    static const uint32_t VLS[] = {128, 256, 512, 1024, 2048}, SIZES[] = {8, 16, 32, 64};
    uint32_t expected = 0;
    if (!is_one_of(vl, VLS, COUNT(VLS)))
        expected = 1;
    else if (!is_one_of(size, SIZES, COUNT(SIZES)) || offset >= 128 / size)
        expected = 9;
    uint64_t whole = expected ? 0 : (uint64_t)w + offset, elements = expected ? 1 : vl / size;
    uint32_t *sum = bytes(4, 0xff), *mask = bytes(4, 0xff), *index = bytes(4, 0xff);
    uint32_t answer = gighull_psel_index(vl, size, offset, w, sum, mask, index);
    told(answer);
    if (answer != expected || *sum != whole % (UINT64_C(1) << 32) || *mask != elements - 1 || *index != whole % elements) {
        printf("the index of VL %u, size %u, offset %u and W %08x\n", vl, size, offset, w);
        exit(1);
    }
    free(sum);
    free(mask);
    free(index);
}

static void index_units(void) {
    for (size_t v = 0; v < COUNT(NUMBERS); v++)
        for (size_t s = 0; s < COUNT(NUMBERS); s++)
            for (size_t o = 0; o < COUNT(NUMBERS); o++)
                for (size_t w = 0; w < COUNT(NUMBERS); w++)
                    index_unit(NUMBERS[v], NUMBERS[s], NUMBERS[o], NUMBERS[w]);
}

int main(void) {
    static const size_t Z[] = {0, 8191, 8192, 8193}, P[] = {0, 511, 512, 513}, ZT[] = {0, 63, 64, 65};
    static const size_t STRETCHES[] = {0, 1, 255, 256, 257, 300};
    if (gighull_interface_version() != GIGHULL_INTERFACE_VERSION) {
        printf("the library has version %u of the interface, not %d\n", (unsigned)gighull_interface_version(),
               GIGHULL_INTERFACE_VERSION);
        return 1;
    }
    for (size_t i = 0; i < 4; i++)
        for (size_t j = 0; j < 4; j++)
            for (size_t k = 0; k < 4; k++)
                steps_and_runs(Z[i], P[j], ZT[k]);
    for (size_t i = 0; i < COUNT(STRETCHES); i++)
        long_stretches(STRETCHES[i]);
    numbers();
    parts_and_lines();
    index_units();
    pexts();
    printf("%lu answers; by number:", answers);
    for (int i = 0; i < 10; i++)
        if (i != 7)
            printf(" %d: %lu", i, tally[i]);
    printf("\n");
    return 0;
}
