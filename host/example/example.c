/* example IMAGE BUNDLE: the names of all schemas in the order of registration, one a line; or on standard error the number of a refusal, of a ring with
 * its names. Exit status 0; 1 for a refusal; 2 for all else. */
#include <nuvaleta.h>
#include <stdio.h>
#include <stdlib.h>

/* All that a graph and an order are lent, but the store, which is as long as the bundle. */
struct lent {
    uint32_t nodes[NUVALETA_NODE_WORDS], edges[NUVALETA_EDGE_WORDS], order[NUVALETA_ORDER_WORDS];
    uint32_t imports[NUVALETA_IMPORT_WORDS], includes[NUVALETA_INCLUDE_WORDS], levels[NUVALETA_LEVEL_WORDS];
};

struct bytes {
    uint8_t *at;
    size_t length;
};

static void fail(const char *what, const char *which) {
    fprintf(stderr, "example: %s%s\n", what, which);
    exit(2);
}

static void *claim(size_t size) {
    void *at = malloc(size > 0 ? size : 1);
    if (at == NULL)
        fail("no memory", "");
    return at;
}

/* A file, or one byte more of it than it may have: the call will refuse that. */
static struct bytes read_file(const char *name, size_t most) {
    FILE *file = fopen(name, "rb");
    struct bytes all = {NULL, 0};

    if (file == NULL)
        fail("cannot open ", name);
    all.at = (uint8_t *)claim(most + 1);
    all.length = fread(all.at, 1, most + 1, file);
    if (ferror(file))
        fail("cannot read ", name);
    fclose(file);
    return all;
}

static void print_name(FILE *to, struct bytes image, const struct lent *lent, uint32_t node) {
    const uint32_t *row = lent->nodes + node * NUVALETA_NODE_ROW;
    fprintf(to, "%.*s\n", (int)row[NUVALETA_NODE_LENGTH], (const char *)image.at + row[NUVALETA_NODE_PLACE]);
}

/* The graph; its refusal is said with what the answer tells of it. */
static uint32_t draw(struct bytes image, struct bytes bundle, struct lent *lent, uint32_t *answer) {
    const size_t store_length = bundle.length < NUVALETA_GRAPH_STORE ? bundle.length : NUVALETA_GRAPH_STORE;
    uint8_t *store = (uint8_t *)claim(store_length);
    const uint32_t number = nuvaleta_graph(image.at, image.length, bundle.at, bundle.length, lent->nodes, NUVALETA_NODE_WORDS, lent->edges,
                                           NUVALETA_EDGE_WORDS, store, store_length, lent->imports, NUVALETA_IMPORT_WORDS, lent->includes,
                                           NUVALETA_INCLUDE_WORDS, lent->levels, NUVALETA_LEVEL_WORDS, answer);

    free(store);
    if (number == NUVALETA_IMAGE_BROKEN || number == NUVALETA_BUNDLE_BROKEN)
        fprintf(stderr, "refused %u at byte %u\n", (unsigned)number, (unsigned)answer[NUVALETA_GRAPH_FAULT]);
    else if (number == NUVALETA_SCAN_REFUSED)
        fprintf(stderr, "refused %u at entry %u: its scan %u keyword %u at byte %u\n", (unsigned)number, (unsigned)answer[NUVALETA_GRAPH_ENTRY],
                (unsigned)answer[NUVALETA_GRAPH_SCAN_NUMBER], (unsigned)answer[NUVALETA_GRAPH_SCAN_KEYWORD],
                (unsigned)answer[NUVALETA_GRAPH_SCAN_POSITION]);
    else if (number != 0)
        fprintf(stderr, "refused %u at entry %u\n", (unsigned)number, (unsigned)answer[NUVALETA_GRAPH_ENTRY]);
    return number;
}

/* The order on standard output, or the ring on standard error: each of its names must be registered before the next, the last before the first. */
static uint32_t print_order(struct bytes image, struct lent *lent, const uint32_t *graph) {
    uint32_t answer[NUVALETA_ORDER_ANSWER];
    const uint32_t number = nuvaleta_order(lent->nodes, NUVALETA_NODE_WORDS, graph[NUVALETA_GRAPH_NODES], lent->edges, NUVALETA_EDGE_WORDS,
                                           graph[NUVALETA_GRAPH_EDGES], lent->order, NUVALETA_ORDER_WORDS, answer);

    if (number != 0)
        fprintf(stderr, "refused %u, a ring of %u:\n", (unsigned)number, (unsigned)answer[NUVALETA_ORDER_LENGTH]);
    for (uint32_t i = 0; i < answer[NUVALETA_ORDER_LENGTH]; i++)
        print_name(number == 0 ? stdout : stderr, image, lent, lent->order[i]);
    return number;
}

int main(int words, char **word) {
    uint32_t answer[NUVALETA_GRAPH_ANSWER], number;
    struct bytes image, bundle;
    struct lent *lent;

    if (words != 3) {
        fprintf(stderr, "usage: example IMAGE BUNDLE\n");
        return 2;
    }
    image = read_file(word[1], NUVALETA_IMAGE_MOST);
    bundle = read_file(word[2], NUVALETA_BUNDLE_MOST);
    lent = (struct lent *)claim(sizeof *lent);
    number = draw(image, bundle, lent, answer);
    if (number == 0)
        number = print_order(image, lent, answer);
    free(lent);
    free(bundle.at);
    free(image.at);
    if (fflush(stdout) != 0 || ferror(stdout))
        fail("cannot write", "");
    return number == 0 ? 0 : 1;
}
