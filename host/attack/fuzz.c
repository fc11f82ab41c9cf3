/* The calls under libFuzzer, which is told by the covered archive which parts of the port are reached. --target=NAME says what an input is made
 * into. */
#include <stdio.h>
#include <stdlib.h>
#include <string.h>

#include "calls.h"
#include "form.h"
#include "lent.h"
#include "make.h"
#include "nuvaleta.h"

int LLVMFuzzerInitialize(int *count, char ***words);
int LLVMFuzzerTestOneInput(const uint8_t *data, size_t size);

/* The next byte, 0 behind the end. */
static uint8_t next(const uint8_t **data, size_t *size) {
    if (*size == 0)
        return 0;
    --*size;
    return *(*data)++;
}

/* So much more or less than is enough; mostly just enough. */
static size_t lent(size_t enough, uint8_t by) {
    const size_t less = enough < by % 3u ? enough : by % 3u;
    return by < 128 ? enough : by < 224 ? enough + by % 64 : enough - less;
}

/* A byte for the lengths that are lent, then a text. Of what is not UTF-8 nothing is read, so by that byte in a quarter of the inputs all high bytes are made
 * low ones, and in another each is made a character of two bytes, with the byte behind it. */
static void scans(const uint8_t *data, size_t size) {
    static struct bytes text;
    const uint8_t by = next(&data, &size);
    text.length = 0;
    put(&text, data, size);
    for (size_t i = 0; by % 2 == 0 && i < size; i++) {
        if (by % 4 == 0 || i + 1 == size || text.at[i] < 128) {
            text.at[i] &= 127;
            continue;
        }
        text.at[i] = 0xc2 + text.at[i] % 30;
        i++;
        text.at[i] = 0x80 + text.at[i] % 64;
    }
    for (enum call call = DEPENDENCIES; call <= METADATA; call++)
        call_made(&(struct given){.call = call, .read = {{text.at, size}},
                                  .written = {lent(size, by), lent(NUVALETA_IMPORT_WORDS, by), lent(NUVALETA_INCLUDE_WORDS, by),
                                              lent(size + NUVALETA_PAGE_MORE, by)}});
}

/* Where the name begins in the form and how long it is, or 0 where the form tells that itself; then the form, an image and a bundle at once. */
static void finds(const uint8_t *data, size_t size) {
    const uint8_t place = next(&data, &size), told = next(&data, &size) % 140;
    const size_t at = place < size ? place : 0, start = at + (told == 0 && size != 0), length = told == 0 && size != 0 ? data[at] : told;
    const struct read name = {data + start, length <= size - start ? length : 0};
    for (enum call call = FIND_MODULE; call <= TEXT; call++)
        call_made(&(struct given){.call = call, .read = {{data, size}, name}});
}

static void graph(struct read image, struct read bundle, uint8_t by) {
    const size_t longest = form_find(TEXT, bundle, (struct read){"", 0}).longest;
    call_made(&(struct given){.call = GRAPH, .read = {image, bundle},
                              .written = {lent(NUVALETA_NODE_WORDS, by), lent(NUVALETA_EDGE_WORDS, by), lent(longest, by),
                                          lent(NUVALETA_IMPORT_WORDS, by), lent(NUVALETA_INCLUDE_WORDS, by), lent(NUVALETA_LEVEL_WORDS, by)}});
}

static struct bytes image, bundle;

static struct choices chosen(const uint8_t *data, size_t size) {
    return (struct choices){.at = size != 0 ? data : (const uint8_t *)"", .length = size};
}

/* A byte for the lengths, then choices of which a library is made that is mostly good. */
static void made(const uint8_t *data, size_t size) {
    const uint8_t by = next(&data, &size);
    struct choices from = chosen(data, size);
    make_library(&from, &image, &bundle);
    graph((struct read){image.at, image.length}, (struct read){bundle.at, bundle.length}, by);
}

/* The same with texts that do nothing but include each other. */
static void nested(const uint8_t *data, size_t size) {
    const uint8_t by = next(&data, &size);
    struct choices from = chosen(data, size);
    make_nested(&from, &image, &bundle);
    graph((struct read){image.at, image.length}, (struct read){bundle.at, bundle.length}, by);
}

/* A library around the limits of nodes, complete nodes and edges, by a byte; the rest, if any, is what is damaged in it. */
static void wide(const uint8_t *data, size_t size) {
    const uint8_t by = next(&data, &size);
    struct choices from = chosen(data, size);
    if (by < 64)
        make_again(NUVALETA_NODES_MOST - 1 + by % 3, &image, &bundle);
    else if (by < 128)
        make_wide(NUVALETA_NODES_MOST - 1 + by % 3, by, &image, &bundle);
    else
        make_wide(512 + by, NUVALETA_EDGES_MOST - 1 + by % 3, &image, &bundle);
    if (size != 0)
        damage(&from, choose(&from, 2) == 0 ? &image : &bundle);
    graph((struct read){image.at, image.length}, (struct read){bundle.at, bundle.length}, 0);
}

/* A byte for the lengths, two for the image's length, then image and bundle as they are. */
static void library(const uint8_t *data, size_t size) {
    const uint8_t by = next(&data, &size), low = next(&data, &size), high = next(&data, &size);
    const size_t length = low + 256u * high, split = length < size ? length : size;
    graph((struct read){data, split}, (struct read){data + split, size - split}, by);
}

/* Bytes as words; 255 is the largest word, and those from 240 on are large ones. */
static size_t words(const uint8_t *data, size_t size, uint32_t *out) {
    for (size_t i = 0; i < size; i++)
        out[i] = data[i] == 255 ? UINT32_MAX : data[i] < 240 ? data[i] : 1024u - 247 + data[i];
    return size;
}

/* Two bytes for lengths, two for the counts, one for how many bytes are edges; then edges, and a list. */
static void order(const uint8_t *data, size_t size) {
    static uint32_t nodes[2 * NUVALETA_NODES_MOST + 128], edges[1 << 16], list[1 << 16];
    const uint8_t by = next(&data, &size), room = next(&data, &size);
    const uint8_t count = next(&data, &size), less = next(&data, &size), part = next(&data, &size);
    const size_t edge_bytes = size * part / 255;
    uint32_t wide;
    words(&count, 1, &wide);
    const size_t n = wide, m = words(data, edge_bytes, edges), most = n > NUVALETA_NODES_MOST ? NUVALETA_NODES_MOST : n;
    const struct given g = {.call = ORDER,
                            .read = {{nodes, lent(2 * most, by)}, {edges, m}, {list, words(data + edge_bytes, size - edge_bytes, list)}},
                            .written = {lent(most, room)},
                            .counts = {n, less > 250 ? SIZE_MAX - less + 250 : less < m / 2 ? m / 2 - less : 0}};
    struct given check = g;
    call_made(&g);
    check.call = ORDER_CHECK;
    call_made(&check);
}

/* ---- seeds */

static struct bytes seed;

static void start(size_t count, const uint8_t *first) {
    seed.length = 0;
    put(&seed, first, count);
}

/* Some have one row more than there can be, some break off. */
static void seed_scans(struct choices *from) {
    static struct bytes text;
    make_text(from, &text);
    if (choose(from, 3) == 0)
        text.length = choose(from, text.length + 1);
    start(1, (const uint8_t[]){choose(from, 4)});
    for (size_t left = choose(from, 40) == 0 ? 257 : 0; left > 0; left--)
        put_words(&seed, "include s;");
    put(&seed, text.at, text.length);
}

/* A library; one of ten has so many modules that their count takes two bytes. */
static void seed_forms(struct choices *from) {
    make_library(from, &image, &bundle);
    if (choose(from, 10) == 0)
        make_wide(130, 20, &image, &bundle);
}

static void seed_finds(struct choices *from) {
    seed_forms(from);
    const struct bytes *form = choose(from, 2) == 0 ? &image : &bundle;
    start(2, (const uint8_t[]){form == &image ? 2 : 1, choose(from, 4)});
    put(&seed, form->at, form->length);
}

static void seed_any(struct choices *from) {
    start(1, (const uint8_t[]){0});
    for (size_t left = 1 + choose(from, 400); left > 0; left--)
        put(&seed, &(uint8_t){choose(from, 256)}, 1);
}

static void seed_wide(struct choices *from) { start(1, (const uint8_t[]){choose(from, 256)}); }

static void seed_library(struct choices *from) {
    seed_forms(from);
    start(3, (const uint8_t[]){0, image.length % 256, image.length / 256});
    put(&seed, image.at, image.length);
    put(&seed, bundle.at, bundle.length);
}

static void seed_order(struct choices *from) {
    const size_t n = 2 + choose(from, 20), m = choose(from, 40);
    start(5, (const uint8_t[]){0, 0, n, 0, 2 * m * 255 / (2 * m + n) + 1});
    for (size_t i = 0; i < 2 * m; i++)
        put(&seed, &(uint8_t){choose(from, n)}, 1);
    for (size_t i = 0; i < n; i++)
        put(&seed, &(uint8_t){i}, 1);
}

/* ---- targets */

static const struct target {
    const char *name;
    void (*run)(const uint8_t *, size_t);
    void (*seed)(struct choices *);
} targets[] = {{"scans", scans, seed_scans}, {"finds", finds, seed_finds}, {"made", made, seed_any},         {"nested", nested, seed_any},
               {"wide", wide, seed_wide},    {"order", order, seed_order}, {"library", library, seed_library}};

static const struct target *target;

static void report(void) { call_report(target->name); }

/* Inputs to begin with, written as files into a folder. */
static void write_seeds(const char *folder) {
    struct choices from = {.state = 1};
    for (size_t i = 0; i < 200; i++) {
        char path[4096];
        snprintf(path, sizeof path, "%s/made-%03zu", folder, i);
        FILE *file = fopen(path, "wb");
        target->seed(&from);
        if (file == NULL || fwrite(seed.at, 1, seed.length, file) != seed.length || fclose(file) != 0) {
            perror(path);
            exit(2);
        }
    }
}

/* The rest of the first word that begins so; NULL without one. */
static const char *option(int count, char **words_, const char *name) {
    for (int i = 1; i < count; i++)
        if (strncmp(words_[i], name, strlen(name)) == 0)
            return words_[i] + strlen(name);
    return NULL;
}

int LLVMFuzzerInitialize(int *count, char ***words_) {
    const char *name = option(*count, *words_, "--target="), *folder = option(*count, *words_, "--seeds=");
    const char *fault = option(*count, *words_, "--planted=");
    for (size_t k = 0; name != NULL && k < sizeof targets / sizeof targets[0]; k++)
        if (strcmp(name, targets[k].name) == 0)
            target = &targets[k];
    if (target == NULL) {
        fprintf(stderr, "fuzz: --target= scans, finds, made, nested, wide, library or order\n");
        exit(2);
    }
    if (folder != NULL) {
        write_seeds(folder);
        exit(0);
    }
    if (call_aborts)
        return 0; /* another target, in reached.c */
    call_planted = fault == NULL ? 0 : atoi(fault);
    lent_start(0);
    call_aborts = 1;
    atexit(report);
    return 0;
}

int LLVMFuzzerTestOneInput(const uint8_t *data, size_t size) {
    target->run(data, size);
    return 0;
}
