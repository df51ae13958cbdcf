// Times libbson on a file of documents, one behind another, and prints MB a second. A first round is not timed.
//
// bson_validate without flags tests all levels, and each name and text for UTF-8, as mg_bson does; with its flags for UTF-8 it tests
// each text once more.
#include <bson/bson.h>
#include <stdio.h>
#include <stdlib.h>
#include <string.h>
#include <time.h>

struct documents {
    const uint8_t *bytes;
    size_t length;
};

static volatile uint64_t sink;

static double now(void) {
    struct timespec time;
    clock_gettime(CLOCK_MONOTONIC, &time);
    return (double)time.tv_sec + (double)time.tv_nsec * 1e-9;
}

static uint64_t walk(bson_iter_t *left) {
    uint64_t sum = 0;
    while (bson_iter_next(left)) {
        bson_iter_t inner;
        sum += bson_iter_type(left);
        if ((BSON_ITER_HOLDS_DOCUMENT(left) || BSON_ITER_HOLDS_ARRAY(left)) && bson_iter_recurse(left, &inner))
            sum += walk(&inner);
    }
    return sum;
}

static uint64_t walk_one(const bson_t *document) {
    bson_iter_t left;
    return bson_iter_init(&left, document) ? walk(&left) : 0;
}

static uint64_t validate_one(const bson_t *document) {
    return bson_validate(document, BSON_VALIDATE_NONE, NULL);
}

static void round_of(struct documents all, uint64_t (*one)(const bson_t *)) {
    for (size_t at = 0; at < all.length;) {
        uint32_t length;
        bson_t document;
        memcpy(&length, all.bytes + at, 4);
        if (!bson_init_static(&document, all.bytes + at, length))
            exit(1);
        sink += one(&document);
        at += length;
    }
}

static void report(const char *name, struct documents all, int rounds, double start) {
    printf("%s %.0f MB/s\n", name, (double)all.length * rounds / (now() - start) / 1e6);
}

static void time_each(const char *name, struct documents all, int rounds, uint64_t (*one)(const bson_t *)) {
    round_of(all, one);
    double start = now();
    for (int round = 0; round < rounds; round++)
        round_of(all, one);
    report(name, all, rounds, start);
}

// The buffer was written before, so that no page is touched for the first time.
static void time_memcpy(struct documents all, int rounds) {
    uint8_t *copy = malloc(all.length);
    if (!copy)
        exit(1);
    memcpy(copy, all.bytes, all.length);
    double start = now();
    for (int round = 0; round < rounds; round++) {
        memcpy(copy, all.bytes, all.length);
        sink += *(volatile uint8_t *)(copy + round % all.length);
    }
    report("memcpy", all, rounds, start);
    free(copy);
}

int main(int count, char **words) {
    if (count != 3)
        return 1;
    FILE *file = fopen(words[1], "rb");
    if (!file)
        return 1;
    fseek(file, 0, SEEK_END);
    size_t length = (size_t)ftell(file);
    rewind(file);
    uint8_t *bytes = malloc(length);
    if (!bytes || fread(bytes, 1, length, file) != length)
        return 1;
    fclose(file);
    int rounds = atoi(words[2]);
    struct documents all = {bytes, length};

    time_memcpy(all, rounds);
    time_each("validate", all, rounds, validate_one);
    time_each("walk", all, rounds, walk_one);
    return 0;
}
