/* Says what include/gighull.h declares and what one call of each function gives,
 * as lines. tests/header.rs says the same from Rust and compares. */
#include <inttypes.h>
#include <stdio.h>
#include <string.h>

#include "gighull.h"

static uint8_t z[8192], p[512], zt[64];
static struct gighull_scalars scalars;

/* Bytes that differ from place to place. */
static void fill(uint8_t *bytes, size_t count, uint32_t seed) {
    for (size_t i = 0; i < count; i++) {
        seed = seed * 1664525 + 1013904223;
        bytes[i] = (uint8_t)(seed >> 24);
    }
}

static void fresh(void) {
    fill(z, sizeof z, 1);
    fill(p, sizeof p, 2);
    fill(zt, sizeof zt, 3);
    memset(&scalars, 0, sizeof scalars);
    scalars.w12 = 0x11111111;
    scalars.w13 = 0x22222223;
    scalars.w14 = 0x33333335;
    scalars.w15 = 0x44444447;
    scalars.pc = UINT64_C(0xfffffffffffffff8);
    scalars.v = scalars.s = scalars.t = true;
}

static uint64_t hash(const uint8_t *bytes, size_t count) {
    uint64_t h = UINT64_C(0xcbf29ce484222325);
    for (size_t i = 0; i < count; i++) {
        h = (h ^ bytes[i]) * UINT64_C(0x100000001b3);
    }
    return h;
}

static void machine(void) {
    printf(" z %016" PRIx64 " p %016" PRIx64 " zt %016" PRIx64, hash(z, sizeof z), hash(p, sizeof p),
           hash(zt, sizeof zt));
    printf(" w %08" PRIx32 " %08" PRIx32 " %08" PRIx32 " %08" PRIx32, scalars.w12, scalars.w13, scalars.w14,
           scalars.w15);
    printf(" pc %016" PRIx64 " flags %d %d %d\n", scalars.pc, scalars.v, scalars.s, scalars.t);
}

static void step(uint32_t vl, uint32_t features, uint32_t word) {
    uint32_t answer = gighull_step(z, sizeof z, p, sizeof p, zt, sizeof zt, &scalars, vl, features, word);
    printf("step %08" PRIx32 " answers %" PRIu32, word, answer);
    machine();
}

static void decode(uint32_t word) {
    uint32_t fields[7] = {9, 9, 9, 9, 9, 9, 9};
    uint32_t answer = gighull_decode(128, 31, word, fields, 7);
    printf("decode answers %" PRIu32 ":", answer);
    for (int i = 0; i < 7; i++) {
        printf(" %" PRIu32, fields[i]);
    }
    uint32_t back = 9;
    answer = gighull_encode(128, 31, fields, 7, &back);
    printf("\nencode answers %" PRIu32 ": %08" PRIx32 "\n", answer, back);
}

static void encode(const uint32_t fields[7]) {
    uint32_t word = 9;
    uint32_t answer = gighull_encode(128, 31, fields, 7, &word);
    printf("encode");
    for (int i = 0; i < 7; i++) {
        printf(" %" PRIu32, fields[i]);
    }
    printf(" answers %" PRIu32 ": %08" PRIx32 "\n", answer, word);
}

static void psel_index(uint32_t vl, uint32_t size, uint32_t offset, uint32_t w) {
    uint32_t sum = 9, mask = 9, index = 9;
    uint32_t answer = gighull_psel_index(vl, size, offset, w, &sum, &mask, &index);
    printf("index %" PRIu32 " %" PRIu32 " %" PRIu32 " %08" PRIx32 " answers %" PRIu32, vl, size, offset, w, answer);
    printf(": %08" PRIx32 " %08" PRIx32 " %" PRIu32 "\n", sum, mask, index);
}

int main(void) {
    printf("interface version %" PRIu32 ", the header's %d\n", gighull_interface_version(), GIGHULL_INTERFACE_VERSION);
    printf("record size %zu align %zu\n", sizeof(struct gighull_scalars), _Alignof(struct gighull_scalars));
    printf("offsets %zu %zu %zu %zu %zu %zu %zu %zu\n", offsetof(struct gighull_scalars, w12),
           offsetof(struct gighull_scalars, w13), offsetof(struct gighull_scalars, w14),
           offsetof(struct gighull_scalars, w15), offsetof(struct gighull_scalars, pc),
           offsetof(struct gighull_scalars, v), offsetof(struct gighull_scalars, s),
           offsetof(struct gighull_scalars, t));
    printf("field sizes %zu %zu %zu\n", sizeof scalars.w12, sizeof scalars.pc, sizeof scalars.v);

    /* PSEL by each of the four index registers, then each flag closed. */
    fresh();
    for (uint32_t m = 0; m < 4; m++) {
        step(2048, 31, UINT32_C(0x25247c23) | m << 16);
    }
    for (int flag = 0; flag < 3; flag++) {
        fresh();
        scalars.v = flag != 0;
        scalars.s = flag != 1;
        scalars.t = flag != 2;
        step(256, 31, UINT32_C(0x25207010));
        step(256, 31, UINT32_C(0xc08a9000));
        step(256, 28, UINT32_C(0x25207010));
    }
    /* Every narrowing word, on what the one before it left. */
    fresh();
    for (uint32_t number = 0; number < 16; number++) {
        step(512, 31, UINT32_C(0x45630062) | number << 10);
    }
    fresh();
    step(129, 31, 0);
    printf("step without files answers %" PRIu32 "\n",
           gighull_step(z, 0, p, 0, zt, 0, &scalars, 128, 31, UINT32_C(0x25207010)));

    decode(UINT32_C(0x25e34c85));
    decode(UINT32_C(0x45352cbe));
    /* PEXT of one portion and of two; then what is in range and what not, and the forms that it had before. */
    decode(UINT32_C(0x25e073b4));
    decode(UINT32_C(0x2520753f));
    static const uint32_t PORTIONS[] = {0, 1, 2, 3, 258};
    for (uint32_t first = 0; first < 5; first++) {
        for (size_t i = 0; i < sizeof PORTIONS / sizeof PORTIONS[0]; i++) {
            encode((const uint32_t[7]){7, 8, first, PORTIONS[i], 9, 3, 0});
        }
    }
    encode((const uint32_t[7]){0, 8, 3, 9, 3, 0, 0});
    encode((const uint32_t[7]){1, 8, 1, 9, 3, 0, 0});
    encode((const uint32_t[7]){5, 8, 8, 0, 0, 0, 0});
    encode((const uint32_t[7]){8, 8, 0, 1, 9, 3, 0});
    uint32_t word = 9;
    uint32_t answer = gighull_decode(128, 31, 0, &word, 0);
    printf("decode to nowhere answers %" PRIu32 ": %" PRIu32 "\n", answer, word);
    answer = gighull_encode(128, 31, &answer, 0, &word);
    printf("encode of nothing answers %" PRIu32 ": %08" PRIx32 "\n", answer, word);

    uint8_t out[300];
    memset(out, 0xa5, sizeof out);
    size_t count = gighull_vector(z, sizeof z, 512, 31, out, sizeof out);
    printf("vector answers %zu: %016" PRIx64 "\n", count, hash(out, sizeof out));
    memset(out, 0xa5, sizeof out);
    count = gighull_predicate(p, sizeof p, 512, 15, out, sizeof out);
    printf("predicate answers %zu: %016" PRIx64 "\n", count, hash(out, sizeof out));

    const uint8_t input[] = {0x10, 0x70, 0x20, 0x25, 0x00, 0x40, 0x20, 0x25, 0x00, 0x38, 0x28, 0x45, 0xff};
    size_t written = 9;
    memset(out, 0xa5, sizeof out);
    count = gighull_lines(input, sizeof input, out, sizeof out, &written);
    printf("lines answers %zu, %zu: %016" PRIx64 "\n", count, written, hash(out, sizeof out));

    const uint32_t words[] = {UINT32_C(0x45283801), UINT32_C(0x25207010), UINT32_C(0xc08a9000), UINT32_C(0x25257c23), 0};
    size_t done = 9;
    fresh();
    answer = gighull_run_lent(z, sizeof z, p, sizeof p, zt, sizeof zt, &scalars, 256, 31, words, 5, &done);
    printf("run answers %" PRIu32 " after %zu", answer, done);
    machine();
    answer = gighull_run(z, sizeof z, p, sizeof p, zt, sizeof zt, scalars.w12, scalars.w13, scalars.w14, scalars.w15,
                         &scalars.pc, scalars.v, scalars.s, scalars.t, 256, 31, words, 0, &done);
    printf("run of nothing answers %" PRIu32 " after %zu", answer, done);
    machine();
    uint32_t yes = 9;
    answer = gighull_conflict(128, 31, UINT32_C(0x45283801), UINT32_C(0x45283822), &yes);
    printf("conflict answers %" PRIu32 ": %" PRIu32 "\n", answer, yes);
    answer = gighull_conflict(128, 31, UINT32_C(0x45283801), UINT32_C(0x45283802), &yes);
    printf("no conflict answers %" PRIu32 ": %" PRIu32 "\n", answer, yes);
    const uint32_t stretch[] = {UINT32_C(0x45283801), UINT32_C(0x45283802), UINT32_C(0x45283823)};
    const uint32_t good[] = {1, 0, 2}, bad[] = {2, 1, 0};
    uint32_t may = 9;
    answer = gighull_permitted(128, 31, stretch, 3, good, 3, &may);
    printf("permitted answers %" PRIu32 ": %" PRIu32 "\n", answer, may);
    answer = gighull_permitted(128, 31, stretch, 3, bad, 3, &may);
    printf("not permitted answers %" PRIu32 ": %" PRIu32 "\n", answer, may);

    /* The last element and the first at each length, each size with its greatest offset, and each refusal. */
    for (uint32_t vl = 128; vl <= 2048; vl *= 2) {
        psel_index(vl, 8, 0, UINT32_C(0xffffffff));
        psel_index(vl, 16, 1, UINT32_C(0xffffffff));
    }
    for (uint32_t size = 8; size <= 64; size *= 2) {
        psel_index(256, size, 128 / size - 1, UINT32_C(0xfffffffe));
        psel_index(256, size, 128 / size, UINT32_C(0xfffffffe));
    }
    psel_index(512, 0, 0, 5);
    psel_index(512, 24, 0, 5);
    psel_index(129, 8, 0, 5);
    psel_index(0, 0, UINT32_C(0xffffffff), 5);
    return 0;
}
