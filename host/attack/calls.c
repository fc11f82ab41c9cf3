#include "calls.h"

#include <stdio.h>
#include <stdlib.h>
#include <string.h>

#include "judge.h"
#include "lent.h"
#include "make.h"
#include "nuvaleta.h"
#ifdef PLANTED
#include "planted.h"
#endif

struct shape {
    const char *name;
    size_t reads, writes;
    size_t read_size, written_size[WRITTEN_MOST]; /* of an element, in bytes */
};

static const struct shape shapes[CALLS] = {
    {"nuvaleta_dependencies", 1, 3, 1, {1, 4, 4}},
    {"nuvaleta_printed", 1, 4, 1, {1, 4, 4, 1}},
    {"nuvaleta_metadata", 1, 1, 1, {1}},
    {"nuvaleta_dependencies_whole", 1, 3, 1, {1, 4, 4}},
    {"nuvaleta_printed_whole", 1, 4, 1, {1, 4, 4, 1}},
    {"nuvaleta_metadata_whole", 1, 1, 1, {1}},
    {"nuvaleta_find_module", 2, 0, 1, {0}},
    {"nuvaleta_find_submodule", 2, 0, 1, {0}},
    {"nuvaleta_find_import_module", 2, 0, 1, {0}},
    {"nuvaleta_text", 2, 0, 1, {0}},
    {"nuvaleta_graph", 2, 6, 1, {4, 4, 1, 4, 4, 4}},
    {"nuvaleta_graph_complete", 2, 6, 1, {4, 4, 1, 4, 4, 4}},
    {"nuvaleta_order", 2, 1, 4, {4}},
    {"nuvaleta_order_check", 3, 0, 4, {0}},
};

enum { NUMBERS = 64, SHOWN = 20 };
enum wrong { FAULT, NOT_ZERO, OTHERWISE, SLOW, WRONGS };

unsigned call_milliseconds = 1000;
size_t call_filling;
int call_aborts, call_planted;
static size_t made[CALLS], refused[CALLS][NUMBERS], wrongs[WRONGS], pointless, found;

size_t call_reads(enum call call) { return shapes[call].reads; }
size_t call_writes(enum call call) { return shapes[call].writes; }
const char *call_name(enum call call) { return shapes[call].name; }
int call_draws(enum call call) { return call == GRAPH || call == GRAPH_COMPLETE; }

enum call call_old(enum call call) {
    return call >= DEPENDENCIES_WHOLE && call <= METADATA_WHOLE ? call - DEPENDENCIES_WHOLE + DEPENDENCIES : call;
}

/* Says what is wrong of which call, with its lengths. */
static void tell(enum wrong kind, const struct given *g, const char *what) {
    const struct shape *s = &shapes[g->call];
    if (wrongs[kind]++ < SHOWN) {
        fprintf(stderr, "attack: %s: %s; read", s->name, what);
        for (size_t i = 0; i < s->reads; i++)
            fprintf(stderr, " %zu", g->read[i].length);
        fprintf(stderr, ", written");
        for (size_t i = 0; i < s->writes; i++)
            fprintf(stderr, " %zu", g->written[i]);
        fprintf(stderr, ", counts %zu %zu, mask %x, inside %zu\n", g->counts[0], g->counts[1], g->mask, g->inside);
    }
    if (call_aborts)
        abort();
}

static void ask(void *with) {
    struct asked *a = with;
    const struct given *g = a->given;
    const void *const *r = a->read;
    void **w = a->written;
    const size_t *n = a->lengths, *m = g->written, *c = g->counts;
    switch (g->call) {
    case DEPENDENCIES: a->number = nuvaleta_dependencies(r[0], n[0], w[0], m[0], w[1], m[1], w[2], m[2], a->answer); break;
    case PRINTED: a->number = nuvaleta_printed(r[0], n[0], w[0], m[0], w[1], m[1], w[2], m[2], w[3], m[3], a->answer); break;
    case METADATA: a->number = nuvaleta_metadata(r[0], n[0], w[0], m[0], a->record, a->answer); break;
    case DEPENDENCIES_WHOLE: a->number = nuvaleta_dependencies_whole(r[0], n[0], w[0], m[0], w[1], m[1], w[2], m[2], a->answer); break;
    case PRINTED_WHOLE: a->number = nuvaleta_printed_whole(r[0], n[0], w[0], m[0], w[1], m[1], w[2], m[2], w[3], m[3], a->answer); break;
    case METADATA_WHOLE: a->number = nuvaleta_metadata_whole(r[0], n[0], w[0], m[0], a->record, a->answer); break;
    case FIND_MODULE: a->number = nuvaleta_find_module(r[0], n[0], r[1], n[1], a->answer); break;
    case FIND_SUBMODULE: a->number = nuvaleta_find_submodule(r[0], n[0], r[1], n[1], a->answer); break;
    case FIND_IMPORT_MODULE: a->number = nuvaleta_find_import_module(r[0], n[0], r[1], n[1], a->answer); break;
    case TEXT: a->number = nuvaleta_text(r[0], n[0], r[1], n[1], a->answer); break;
    case GRAPH:
        a->number = nuvaleta_graph(r[0], n[0], r[1], n[1], w[0], m[0], w[1], m[1], w[2], m[2], w[3], m[3], w[4], m[4], w[5], m[5], a->answer);
        break;
    case GRAPH_COMPLETE:
        a->number = nuvaleta_graph_complete(r[0], n[0], r[1], n[1], w[0], m[0], w[1], m[1], w[2], m[2], w[3], m[3], w[4], m[4], w[5], m[5], a->answer);
        break;
    case ORDER: a->number = nuvaleta_order(r[0], n[0], c[0], r[1], n[1], c[1], w[0], m[0], a->answer); break;
    default: a->number = nuvaleta_order_check(r[0], n[0], c[0], r[1], n[1], c[1], r[2], n[2], a->answer); break;
    }
}

/* The pointer of a slice that has no length. */
static void *empty(const struct given *g, size_t bit, void *at, size_t size) {
    if ((g->mask >> bit & 1) == 0)
        return at;
    return g->pointer == POINTER_NULL ? NULL : (void *)(uintptr_t)size;
}

/* All buffers of a call; slots: what is read, what is written, the record, the answer. */
static struct asked lend(const struct given *g, enum lent_way way) {
    const struct shape *s = &shapes[g->call];
    struct asked a = {.given = g};
    for (size_t i = 0; i < s->reads; i++) {
        a.lengths[i] = g->read[i].length;
        a.read[i] = lent_to_read(way, i, g->read[i].at, g->read[i].length * s->read_size);
        if (a.lengths[i] == 0)
            a.read[i] = empty(g, i, (void *)a.read[i], s->read_size);
    }
    if (g->inside != 0)
        a.read[1] = (const uint8_t *)a.read[0] + (g->inside - 1) * s->read_size;
    for (size_t i = 0; i < s->writes; i++) {
        a.sizes[i] = g->written[i] * s->written_size[i];
        a.written[i] = lent_to_write(way, READ_MOST + i, a.sizes[i]);
        if (a.sizes[i] == 0)
            a.written[i] = empty(g, s->reads + i, a.written[i], s->written_size[i]);
    }
    a.writes = s->writes;
    if (call_old(g->call) == METADATA)
        a.record = lent_to_write(way, READ_MOST + WRITTEN_MOST, NUVALETA_RECORD_WORDS * sizeof *a.record);
    a.answer = lent_to_write(way, READ_MOST + WRITTEN_MOST + 1, judge_words(g->call) * sizeof *a.answer);
    return a;
}

static void signalled(const struct given *g, enum lent_way way, int number) {
    char what[160];
    ptrdiff_t place;
    const size_t slot = lent_where(way, &place);
    if (number == LENT_SLOW) {
        snprintf(what, sizeof what, "over %u milliseconds", call_milliseconds);
        tell(SLOW, g, what);
        return;
    }
    snprintf(what, sizeof what, "signal %d, buffers lent at their %s, buffer %zu of 0 to %u, at its place %td", number,
             way == LENT_AT_END ? "end" : "start", slot, LENT_SLOTS - 1, place);
    tell(FAULT, g, what);
}

/* One call. Answers whether it came to its end. */
static int make(const struct given *g, enum lent_way way, struct asked *a) {
    *a = lend(g, way);
    const int number = lent_run(ask, a, call_draws(g->call) ? call_milliseconds : 0);
    made[g->call]++;
    pointless += g->mask != 0;
    if (number != 0) {
        signalled(g, way, number);
        return 0;
    }
    const char *what = lent_fault(way);
    if (what != NULL)
        tell(OTHERWISE, g, what);
    what = judge_zeros(a);
    if (what != NULL)
        tell(NOT_ZERO, g, what);
    else if ((what = judge(a)) != NULL)
        tell(OTHERWISE, g, what);
    if (a->number < NUMBERS)
        refused[g->call][a->number]++;
    found += g->call >= FIND_MODULE && g->call <= TEXT && a->answer[2] == 1;
    return 1;
}

/* What is kept of the last graph and the last order. */
static uint32_t nodes[NUVALETA_NODE_WORDS], edges[NUVALETA_EDGE_WORDS], list[NUVALETA_NODES_MOST];

static void keep(const struct asked *a) {
    if (call_draws(a->given->call)) {
        memcpy(nodes, a->written[G_NODES], sizeof nodes);
        memcpy(edges, a->written[G_EDGES], sizeof edges);
    }
    if (a->given->call == ORDER && a->answer[1] <= NUVALETA_NODES_MOST && a->answer[1] != 0)
        memcpy(list, a->written[0], a->answer[1] * sizeof *list);
}

static void exchange(uint32_t count, uint32_t one, uint32_t other) {
    for (uint32_t i = 0; i < count; i++)
        list[i] = list[i] == one ? other : list[i] == other ? one : list[i];
}

/* The order of the graph that is kept, the check of that order, and of one in which the two nodes of an edge are exchanged. */
static void order_graph(uint32_t n, uint32_t m) {
    const struct read tables[] = {{nodes, NUVALETA_NODE_WORDS}, {edges, NUVALETA_EDGE_WORDS}};
    const struct given order = {.call = ORDER, .read = {tables[0], tables[1]}, .written = {n}, .counts = {n, m}};
    struct given check = order;
    check.call = ORDER_CHECK;
    check.read[2] = (struct read){list, n};
    const uint32_t number = call_made(&order);
    if (number != 0 && number != NUVALETA_CYCLE)
        tell(OTHERWISE, &order, "the tables of a built graph are not ordered");
    if (number != 0)
        return;
    if (call_made(&check) != 0)
        tell(OTHERWISE, &check, "the order of a graph is not accepted");
    if (m == 0)
        return;
    exchange(n, edges[2 * (n % m)], edges[2 * (n % m) + 1]);
    if (call_made(&check) != NUVALETA_LIST_WRONG)
        tell(OTHERWISE, &check, "an order that breaks an edge is accepted");
}

/* What the last scan left: answer, record and all that was written. */
static struct bytes left;

static void leave(const struct asked *a) {
    left.length = 0;
    put(&left, a->answer, judge_words(a->given->call) * sizeof *a->answer);
    if (a->record != NULL)
        put(&left, a->record, NUVALETA_RECORD_WORDS * sizeof *a->record);
    for (size_t i = 0; i < a->writes; i++)
        put(&left, a->written[i], a->sizes[i]);
}

/* The same scan in the whole-text mode: 11 in the place of good, 4, 6, 8 and 9 alone, and else the same outcome. */
static void whole_scan(const struct given *scan, uint32_t number) {
    const uint64_t instead = 1u << 0 | 1u << 4 | 1u << 6 | 1u << 8 | 1u << 9;
    const struct bytes old = left;
    struct given whole = *scan;
    left = (struct bytes){0};
    whole.call = scan->call - DEPENDENCIES + DEPENDENCIES_WHOLE;
    const uint32_t other = call_made(&whole);
    if (other == NUVALETA_CUT_SHORT && (instead >> number & 1) == 0)
        tell(OTHERWISE, &whole, "11 in the place of another number than 0, 4, 6, 8 and 9");
    if (other != NUVALETA_CUT_SHORT && other != CALL_FAILED && (left.length != old.length || memcmp(left.at, old.at, left.length) != 0))
        tell(OTHERWISE, &whole, "not 11, and another outcome than in the old mode");
    free(old.at);
}

/* The same graph with complete nodes: but for 28 without them and 30 with them both have one number. */
static void complete_graph(const struct given *graph, uint32_t number) {
    struct given complete = *graph;
    complete.call = GRAPH_COMPLETE;
    const uint32_t other = call_made(&complete);
    const int ended = number != CALL_FAILED && other != CALL_FAILED;
    if (ended && number != other && number != NUVALETA_NO_NODE && other != NUVALETA_TOO_MANY_NODES)
        tell(OTHERWISE, &complete, "another number than without complete nodes");
}

static int same(const struct asked *a, const struct asked *b) {
    int all = a->number == b->number && memcmp(a->answer, b->answer, judge_words(a->given->call) * sizeof *a->answer) == 0;
    if (a->record != NULL)
        all = all && memcmp(a->record, b->record, NUVALETA_RECORD_WORDS * sizeof *a->record) == 0;
    for (size_t i = 0; i < a->writes; i++)
        all = all && (a->sizes[i] == 0 || memcmp(a->written[i], b->written[i], a->sizes[i]) == 0);
    return all;
}

static size_t filling_of(const struct given *g) {
    size_t sum = g->call + g->counts[0] + g->counts[1] + g->mask;
    for (size_t i = 0; i < READ_MOST; i++)
        sum += g->read[i].length;
    for (size_t i = 0; i < WRITTEN_MOST; i++)
        sum += g->written[i];
    return sum;
}

uint32_t call_made(const struct given *given) {
    struct asked a, b;
    uint32_t number = CALL_FAILED, counts[2] = {0, 0};
    lent_filled(call_filling == 0 ? filling_of(given) : call_filling - 1);
    const int first = make(given, LENT_AT_END, &a);
    const int second = make(given, LENT_AT_START, &b);
    if (first && second) {
        number = a.number;
        if (!same(&a, &b))
            tell(OTHERWISE, given, "two outcomes");
    }
    if (number == 0)
        keep(&a);
    const int built = call_draws(given->call) && number == 0, scanned = given->call <= METADATA_WHOLE && number != CALL_FAILED;
    if (built)
        memcpy(counts, a.answer + 6, sizeof counts);
    if (scanned)
        leave(&a);
    lent_back(LENT_AT_END);
    lent_back(LENT_AT_START);
    if (built)
        order_graph(counts[0], counts[1]);
    if (given->call == GRAPH)
        complete_graph(given, number);
    if (scanned && given->call <= METADATA)
        whole_scan(given, number);
    return number;
}

size_t call_report(const char *who) {
    size_t calls = 0;
    for (size_t i = 0; i < CALLS; i++) {
        calls += made[i];
        if (made[i] == 0)
            continue;
        printf("%s: %s: %zu calls;", who, shapes[i].name, made[i]);
        for (size_t k = 0; k < NUMBERS; k++)
            if (refused[i][k] != 0)
                printf(" %zu: %zu", k, refused[i][k]);
        printf("\n");
    }
    if (found != 0)
        printf("%s: %zu look-ups found something\n", who, found);
    if (pointless != 0)
        printf("%s: %zu calls with null pointers, or pointers to nowhere, for slices of length 0\n", who, pointless);
    printf("%s: %zu calls, %zu faults, %zu not zero, %zu otherwise wrong, %zu too slow\n", who, calls, wrongs[FAULT], wrongs[NOT_ZERO],
           wrongs[OTHERWISE], wrongs[SLOW]);
    return wrongs[FAULT] + wrongs[NOT_ZERO] + wrongs[OTHERWISE] + wrongs[SLOW];
}
