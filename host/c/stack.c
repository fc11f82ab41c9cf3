/* How much stack each call takes: it runs in a thread whose stack was painted before, and what is no longer painted was used, the thread's own needs
 * included. None may take more than the header says. Prints each call's KiB. */
#define _DEFAULT_SOURCE
#include <pthread.h>
#include <stdio.h>
#include <stdlib.h>
#include <string.h>
#include <sys/mman.h>

#include "nuvaleta.h"

#define STACK ((size_t)1 << 20)
#define PAINT 0xa5

/* Submodules s to z and then s again: includes as deep as they may go, and one deeper. */
static const char deep_image[] = "\1\1\1m\10\1s\1t\1u\1v\1w\1x\1y\1z\0\0\0";
static const char deep_bundle[] = "\11\1m\12include s;\1s\12include t;\1t\12include u;\1u\12include v;\1v\12include w;\1w\12include x;"
                                  "\1x\12include y;\1y\12include z;\1z\12include s;";
static const char text[] = "module m{namespace \"a\"+'b';prefix p;import a{prefix b;revision-date 2024-05-01;}include s;revision 2024-05-01{}}";

static uint8_t store[sizeof text], page[sizeof text + NUVALETA_PAGE_MORE];
static uint32_t imports[NUVALETA_IMPORT_WORDS], includes[NUVALETA_INCLUDE_WORDS], levels[NUVALETA_LEVEL_WORDS], nodes[NUVALETA_NODE_WORDS],
    edges[NUVALETA_EDGE_WORDS], order[NUVALETA_ORDER_WORDS], answer[NUVALETA_GRAPH_ANSWER], record[NUVALETA_RECORD_WORDS];

#define BYTES(s) (const uint8_t *)(s), sizeof(s) - 1

static uint32_t nothing(void) { return 0; }

#define TABLES imports, NUVALETA_IMPORT_WORDS, includes, NUVALETA_INCLUDE_WORDS

static uint32_t dependencies(void) { return nuvaleta_dependencies(BYTES(text), store, sizeof store, TABLES, answer); }

static uint32_t printed(void) { return nuvaleta_printed(BYTES(text), store, sizeof store, TABLES, page, sizeof page, answer); }

static uint32_t metadata(void) { return nuvaleta_metadata(BYTES(text), store, sizeof store, record, answer); }

static uint32_t dependencies_whole(void) { return nuvaleta_dependencies_whole(BYTES(text), store, sizeof store, TABLES, answer); }

static uint32_t printed_whole(void) { return nuvaleta_printed_whole(BYTES(text), store, sizeof store, TABLES, page, sizeof page, answer); }

static uint32_t metadata_whole(void) { return nuvaleta_metadata_whole(BYTES(text), store, sizeof store, record, answer); }

/* The same text up to the block of its revision: it is cut short in there. */
static uint32_t metadata_cut(void) { return nuvaleta_metadata_whole((const uint8_t *)text, sizeof text - 3, store, sizeof store, record, answer); }

static uint32_t find_module(void) { return nuvaleta_find_module(BYTES(deep_image), BYTES("m"), answer); }

static uint32_t find_submodule(void) { return nuvaleta_find_submodule(BYTES(deep_image), BYTES("z"), answer); }

static uint32_t find_import_module(void) { return nuvaleta_find_import_module(BYTES(deep_image), BYTES("i"), answer); }

static uint32_t text_under(void) { return nuvaleta_text(BYTES(deep_bundle), BYTES("z"), answer); }

static uint32_t drawn(int complete) {
    return (complete ? nuvaleta_graph_complete : nuvaleta_graph)(
        BYTES(deep_image), BYTES(deep_bundle), nodes, NUVALETA_NODE_WORDS, edges, NUVALETA_EDGE_WORDS, store, sizeof store, TABLES, levels,
        NUVALETA_LEVEL_WORDS, answer);
}

static uint32_t graph(void) { return drawn(0); }

static uint32_t graph_complete(void) { return drawn(1); }

/* All nodes in one ring, and in order. */
static uint32_t ring(void) {
    for (uint32_t i = 0; i < NUVALETA_NODES_MOST; i++) {
        edges[2 * i + NUVALETA_EDGE_FROM] = i;
        edges[2 * i + NUVALETA_EDGE_TO] = (i + 1) % NUVALETA_NODES_MOST;
    }
    return nuvaleta_order(nodes, NUVALETA_NODE_WORDS, NUVALETA_NODES_MOST, edges, NUVALETA_EDGE_WORDS, NUVALETA_NODES_MOST, order, NUVALETA_ORDER_WORDS,
                          answer);
}

static uint32_t order_check(void) {
    return nuvaleta_order_check(nodes, NUVALETA_NODE_WORDS, NUVALETA_NODES_MOST, edges, NUVALETA_EDGE_WORDS, NUVALETA_NODES_MOST - 1, order,
                                NUVALETA_ORDER_WORDS, answer);
}

struct call {
    const char *name;
    uint32_t (*call)(void);
    uint32_t due, number;
};

static void *run(void *lent) {
    struct call *x = lent;
    x->number = x->call();
    return NULL;
}

/* The bytes of stack that a call took in a thread, or 0 if there was no thread. */
static size_t used(struct call *x, unsigned char *stack) {
    pthread_attr_t how;
    pthread_t thread;
    size_t unused = 0;

    memset(stack, PAINT, STACK);
    if (pthread_attr_init(&how) != 0 || pthread_attr_setstack(&how, stack, STACK) != 0 || pthread_create(&thread, &how, run, x) != 0 ||
        pthread_join(thread, NULL) != 0)
        return 0;
    pthread_attr_destroy(&how);
    while (unused < STACK && stack[unused] == PAINT)
        unused++;
    return STACK - unused;
}

int main(void) {
    static struct call all[] = {
        {"a thread that does nothing", nothing, 0, 0}, {"dependencies", dependencies, 0, 0}, {"printed", printed, 0, 0}, {"metadata", metadata, 0, 0},
        {"dependencies_whole", dependencies_whole, 0, 0}, {"printed_whole", printed_whole, 0, 0}, {"metadata_whole", metadata_whole, 0, 0},
        {"metadata_whole of half a text", metadata_cut, NUVALETA_CUT_SHORT, 0},
        {"find_module", find_module, 0, 0}, {"find_submodule", find_submodule, 0, 0}, {"find_import_module", find_import_module, 0, 0},
        {"text", text_under, 0, 0}, {"graph", graph, NUVALETA_TOO_DEEP, 0}, {"graph_complete", graph_complete, NUVALETA_TOO_DEEP, 0},
        {"order", ring, NUVALETA_CYCLE, 0}, {"order_check", order_check, 0, 0},
    };
    unsigned char *stack = mmap(NULL, STACK, PROT_READ | PROT_WRITE, MAP_PRIVATE | MAP_ANONYMOUS, -1, 0);

    if (stack == MAP_FAILED)
        return perror("stack"), 1;
    for (size_t i = 0; i < sizeof all / sizeof all[0]; i++) {
        const size_t bytes = used(&all[i], stack);
        printf("%s %.1f\n", all[i].name, (double)bytes / 1024);
        if (bytes == 0 || bytes > NUVALETA_STACK_MOST || all[i].number != all[i].due)
            return fprintf(stderr, "stack: %s took %zu bytes and answered %lu\n", all[i].name, bytes, (unsigned long)all[i].number), 1;
    }
    return 0;
}
