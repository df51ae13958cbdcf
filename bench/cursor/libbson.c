// Times libbson on a batch: `libbson NAME.reply NAME.bson ROUNDS` goes through the array of the reply by an iterator, and through the
// same documents, one behind another, by a reader; MB a second. A first round is not timed.
#include <bson/bson.h>
#include <stdio.h>
#include <stdlib.h>
#include <string.h>
#include <time.h>

struct bytes {
    uint8_t *at;
    size_t length;
};

static volatile uint64_t sink;

static double now(void) {
    struct timespec time;
    clock_gettime(CLOCK_MONOTONIC, &time);
    return (double)time.tv_sec + (double)time.tv_nsec * 1e-9;
}

static struct bytes load(const char *path) {
    struct bytes all = {NULL, 0};
    FILE *file = fopen(path, "rb");
    if (!file)
        exit(1);
    fseek(file, 0, SEEK_END);
    all.length = (size_t)ftell(file);
    rewind(file);
    all.at = malloc(all.length);
    if (!all.at || fread(all.at, 1, all.length, file) != all.length)
        exit(1);
    fclose(file);
    return all;
}

// The documents lie one behind another.
static void read_all(struct bytes all) {
    bson_reader_t *reader = bson_reader_new_from_data(all.at, all.length);
    bool ended = false;
    for (const bson_t *document = bson_reader_read(reader, &ended); document; document = bson_reader_read(reader, &ended))
        sink += document->len;
    bson_reader_destroy(reader);
    if (!ended)
        exit(1);
}

// The documents lie in the array of a reply.
static void iterate(struct bytes all) {
    bson_t reply;
    bson_iter_t it, cursor, item;
    if (!bson_init_static(&reply, all.at, all.length) || !bson_iter_init_find(&it, &reply, "cursor") || !bson_iter_recurse(&it, &cursor)
        || !bson_iter_find(&cursor, "nextBatch") || !bson_iter_recurse(&cursor, &item))
        exit(1);
    while (bson_iter_next(&item)) {
        uint32_t length;
        const uint8_t *data;
        bson_t document;
        bson_iter_document(&item, &length, &data);
        if (!bson_init_static(&document, data, length))
            exit(1);
        sink += document.len;
    }
}

static void time_each(const char *name, struct bytes all, int rounds, void (*one)(struct bytes)) {
    one(all);
    double start = now();
    for (int round = 0; round < rounds; round++)
        one(all);
    printf("%s %.0f MB/s\n", name, (double)all.length * rounds / (now() - start) / 1e6);
}

int main(int count, char **words) {
    if (count != 4)
        return 1;
    int rounds = atoi(words[3]);
    time_each("iter", load(words[1]), rounds, iterate);
    time_each("reader", load(words[2]), rounds, read_all);
    return 0;
}
