/* A C host: the dependencies of a text, their printed form and its metadata, the finds in an image and a bundle, graphs and orders, through
 * include/nuvaleta.h alone. */
#include <stdio.h>
#include <string.h>

#include "nuvaleta.h"

/* A slice as a call takes it, of an array or of a string without its end. */
#define LENT(array) (array), sizeof(array) / sizeof((array)[0])
#define BYTES(string) (const uint8_t *)(string), sizeof(string) - 1
#define NOTHING NULL, 0

#define POISON 0xa5

static const char text[] = "module m {\n  import base { prefix b; revision-date 2024-05-01; }\n  include m-types;\n}\n";

/* What is lent to be written, for all tests: a store for the longest text, an answer of the most words; and what another call left, to be held against it. */
static struct {
    uint8_t store[128], page[sizeof text - 1 + NUVALETA_PAGE_MORE];
    uint32_t imports[NUVALETA_IMPORT_WORDS], includes[NUVALETA_INCLUDE_WORDS], nodes[NUVALETA_NODE_WORDS], edges[NUVALETA_EDGE_WORDS],
        levels[NUVALETA_LEVEL_WORDS], order[8], record[NUVALETA_RECORD_WORDS], answer[NUVALETA_GRAPH_ANSWER];
} lent, left;

static int wrong(const char *what) {
    fprintf(stderr, "c: %s\n", what);
    return 1;
}

static int all_are(int byte, const void *at, size_t size) {
    const unsigned char *bytes = at;
    for (size_t i = 0; i < size; i++)
        if (bytes[i] != byte)
            return 0;
    return 1;
}

/* So that what a call leaves is seen to be written by it. Comes before every call. */
static void poison(void) { memset(&lent, POISON, sizeof lent); }

/* Whether a call returned the answer's number and wrote just these words. */
static int answered(uint32_t number, const uint32_t *expected, size_t words) {
    return number == expected[0] && memcmp(lent.answer, expected, words * sizeof expected[0]) == 0 &&
           all_are(POISON, lent.answer + words, sizeof lent.answer - words * sizeof expected[0]);
}

/* Whether an array of `lent` holds just these bytes and then zeros. */
#define HOLDS(array, expected, size) \
    (memcmp(lent.array, expected, size) == 0 && all_are(0, (const uint8_t *)lent.array + (size), sizeof lent.array - (size)))
#define ZERO(array) HOLDS(array, "", 0)

/* Which of the two forms of a scan is called. */
enum form { USUAL, WHOLE };

#define SCAN(form, call) ((form) == WHOLE ? call##_whole : call)

static uint32_t dependencies(enum form form, const uint8_t *bytes, size_t length) {
    poison();
    return SCAN(form, nuvaleta_dependencies)(bytes, length, LENT(lent.store), LENT(lent.imports), LENT(lent.includes), lent.answer);
}

static int dependencies_read(enum form form) {
    static const uint32_t good[NUVALETA_DEPENDENCIES_ANSWER] = {0, 0, 0, 1, 1, 22};
    static const uint32_t refused[NUVALETA_DEPENDENCIES_ANSWER] = {NUVALETA_OTHER_BYTE, NUVALETA_IMPORT, 9, 0, 0, 0};
    static const uint32_t import[NUVALETA_IMPORT_ROW] = {0, 4, 4, 1, 1, 5, 10}, include[NUVALETA_INCLUDE_ROW] = {15, 7, 0, 0, 0};

    if (!answered(dependencies(form, BYTES(text)), LENT(good)))
        return wrong("another answer");
    if (!HOLDS(store, "baseb2024-05-01m-types", 22) || !HOLDS(imports, import, sizeof import) || !HOLDS(includes, include, sizeof include))
        return wrong("another row or value");
    if (!answered(dependencies(form, BYTES("import a b")), LENT(refused)))
        return wrong("another refusal");
    if (!ZERO(store) || !ZERO(imports) || !ZERO(includes))
        return wrong("a refusal left something");
    return 0;
}

static uint32_t printed(enum form form, const uint8_t *bytes, size_t length, size_t page_length) {
    poison();
    return SCAN(form, nuvaleta_printed)(bytes, length, LENT(lent.store), LENT(lent.imports), LENT(lent.includes), lent.page, page_length, lent.answer);
}

static int page_printed(enum form form) {
    static const char page[] = "Imports (1):\n  - base (prefix: b) @ 2024-05-01\n\nIncludes (1):\n  - m-types\n";
    static const uint32_t good[NUVALETA_PRINTED_ANSWER] = {0, 0, 0, 1, 1, 22, sizeof page - 1};
    static const uint32_t refused[NUVALETA_PRINTED_ANSWER] = {NUVALETA_LENT_TOO_SHORT, 0, 0, 0, 0, 0, 0};
    const size_t last = sizeof lent.page - 1;

    if (!answered(printed(form, BYTES(text), sizeof lent.page), LENT(good)))
        return wrong("another answer with a page");
    if (!HOLDS(page, page, sizeof page - 1))
        return wrong("another page");
    if (!answered(printed(form, BYTES(text), last), LENT(refused)))
        return wrong("a short page taken");
    if (!ZERO(store) || !ZERO(imports) || !ZERO(includes) || !all_are(0, lent.page, last) || lent.page[last] != POISON)
        return wrong("a short page not cleared, or more than it");
    return 0;
}

static uint32_t metadata(enum form form, const uint8_t *bytes, size_t length) {
    poison();
    return SCAN(form, nuvaleta_metadata)(bytes, length, LENT(lent.store), lent.record, lent.answer);
}

/* Name, parent, prefix, two revisions of which the second is newer; then a text without a name. */
static int metadata_read(enum form form) {
    static const char module[] = "submodule s{belongs-to m{prefix p;} import a{prefix b;} revision 2020;revision 2021{}}";
    static const uint32_t good[NUVALETA_METADATA_ANSWER] = {0, 0, 0, 11}, refused[NUVALETA_METADATA_ANSWER] = {NUVALETA_NO_NAME, 0, 9, 0};
    static const uint32_t record[NUVALETA_RECORD_WORDS] = {1, 0, 1, 0, 0, 0, 1, 2, 1, 1, 3, 4, 1, 1, 1, 1, 7, 4};

    if (!answered(metadata(form, BYTES(module)), LENT(good)))
        return wrong("another metadata answer");
    if (!HOLDS(store, "smb20202021", 11) || !HOLDS(record, record, sizeof record))
        return wrong("another metadata record");
    if (!answered(metadata(form, BYTES("container x")), LENT(refused)))
        return wrong("a text without a name taken");
    if (!ZERO(store) || !ZERO(record))
        return wrong("a refusal of metadata left something");
    return 0;
}

/* The three scans, and how many words each answers. */
enum scan { DEPENDENCIES, PRINTED, METADATA };
static const size_t answer_words[] = {NUVALETA_DEPENDENCIES_ANSWER, NUVALETA_PRINTED_ANSWER, NUVALETA_METADATA_ANSWER};

static uint32_t scanned(enum form form, enum scan scan, const uint8_t *bytes, size_t length) {
    switch (scan) {
    case DEPENDENCIES: return dependencies(form, bytes, length);
    case PRINTED: return printed(form, bytes, length, sizeof lent.page);
    default: return metadata(form, bytes, length);
    }
}

/* Whether a scan refused with these three words and left zeros alone in all that it was lent. */
static int refused_clean(enum scan scan, uint32_t number, uint32_t due, uint32_t keyword, uint32_t position) {
    const uint32_t expected[NUVALETA_PRINTED_ANSWER] = {due, keyword, position};
    return answered(number, expected, answer_words[scan]) && ZERO(store) && (scan == METADATA ? ZERO(record) : ZERO(imports) && ZERO(includes)) &&
           (scan != PRINTED || ZERO(page));
}

/* A text, the scans that it is for, what they answer without _whole, and whether they answer NUVALETA_CUT_SHORT at the text's end with it. If not, all is the
 * same with it. */
struct reading {
    enum scan first, last;
    const char *text;
    uint32_t number, keyword, position;
    int cut;
};

static int read_in_both_forms(const struct reading *x, enum scan scan) {
    const uint8_t *bytes = (const uint8_t *)x->text;
    const size_t length = strlen(x->text);
    uint32_t number = scanned(USUAL, scan, bytes, length);

    if (x->number != 0 ? !refused_clean(scan, number, x->number, x->keyword, x->position) : number != 0)
        return 0;
    memcpy(&left, &lent, sizeof lent);
    number = scanned(WHOLE, scan, bytes, length);
    return x->cut ? refused_clean(scan, number, NUVALETA_CUT_SHORT, NUVALETA_NO_KEYWORD, (uint32_t)length)
                  : number == x->number && memcmp(&lent, &left, sizeof lent) == 0;
}

/* The readings of request 2026-07, in its order; the last two are one of request 2026-01. */
static int readings(void) {
    enum { STAYS, CUT };
    static const struct reading all[] = {
        /* 1: a statement that is passed over ends with the text, also one of no bytes */
        {METADATA, METADATA, "module m{belongs-to p", 0, 0, 0, CUT},
        {METADATA, METADATA, "module m{prefix p;prefix", 0, 0, 0, CUT},
        {METADATA, METADATA, "module m{revision 2020-01-01{", 0, 0, 0, CUT},
        {DEPENDENCIES, PRINTED, "import a{x", NUVALETA_OPEN_ENDED, NUVALETA_IMPORT, 10, CUT},
        {DEPENDENCIES, PRINTED, "import a{x/*c", NUVALETA_OPEN_ENDED, NUVALETA_IMPORT, 13, CUT},
        /* 2: a token's string never closes */
        {DEPENDENCIES, PRINTED, "x \"abc", 0, 0, 0, CUT},
        {METADATA, METADATA, "\"", NUVALETA_NO_NAME, 0, 1, CUT},
        {DEPENDENCIES, PRINTED, "\"\\\"", 0, 0, 0, CUT},
        /* 3: a part of a value never closes */
        {DEPENDENCIES, PRINTED, "import \"a", NUVALETA_NO_VALUE, NUVALETA_IMPORT, 9, CUT},
        {DEPENDENCIES, PRINTED, "import \"a\"+\"b", NUVALETA_END_OF_TEXT, NUVALETA_IMPORT, 13, CUT},
        {METADATA, METADATA, "module m{belongs-to \"p\"+\"x", 0, 0, 0, CUT},
        {METADATA, METADATA, "yang-version \"1", NUVALETA_END_OF_TEXT, NUVALETA_YANG_VERSION, 15, CUT},
        /* 4: a block ends where a statement or } is due */
        {DEPENDENCIES, PRINTED, "import a{", NUVALETA_OPEN_ENDED, NUVALETA_IMPORT, 9, STAYS},
        {DEPENDENCIES, PRINTED, "import a{x;", NUVALETA_OPEN_ENDED, NUVALETA_IMPORT, 11, STAYS},
        {DEPENDENCIES, PRINTED, "import a{/*c", NUVALETA_OPEN_ENDED, NUVALETA_IMPORT, 12, STAYS},
        /* 5: a value or a byte is missing, and no string is open */
        {DEPENDENCIES, PRINTED, "import a{prefix", NUVALETA_NO_VALUE, NUVALETA_PREFIX, 15, STAYS},
        {DEPENDENCIES, PRINTED, "include a", NUVALETA_END_OF_TEXT, NUVALETA_INCLUDE, 9, STAYS},
        {METADATA, METADATA, "module m{revision 2020-01-01", NUVALETA_END_OF_TEXT, NUVALETA_REVISION, 28, STAYS},
        /* 6: a comment between tokens, and the module's own block */
        {METADATA, METADATA, "module m{/*cut", 0, 0, 0, STAYS},
        {METADATA, METADATA, "module m{ description cut", 0, 0, 0, STAYS},
        {DEPENDENCIES, PRINTED, "//cut", 0, 0, 0, STAYS},
        /* 7: what is not read */
        {DEPENDENCIES, PRINTED, "description \"cut", 0, 0, 0, STAYS},
        /* 8: before a } */
        {METADATA, METADATA, "module m{belongs-to p}", 0, 0, 0, STAYS},
        /* 9: the order of reading, and what comes first of all */
        {DEPENDENCIES, PRINTED, "import a{} \"x", NUVALETA_NO_PREFIX, NUVALETA_IMPORT, 10, STAYS},
        {DEPENDENCIES, PRINTED, "import a b \"x", NUVALETA_OTHER_BYTE, NUVALETA_IMPORT, 9, STAYS},
        {DEPENDENCIES, METADATA, "x \"abc\200", NUVALETA_NOT_UTF8, 0, 6, STAYS},
        {DEPENDENCIES, METADATA, "x \303\251 \"cut", NUVALETA_HIGH_BYTE, 0, 2, STAYS},
        {DEPENDENCIES, PRINTED, "\"cut \303\251", 0, 0, 0, CUT},
    };

    for (size_t i = 0; i < sizeof all / sizeof all[0]; i++)
        for (int scan = (int)all[i].first; scan <= (int)all[i].last; scan++)
            if (!read_in_both_forms(&all[i], (enum scan)scan))
                return wrong(all[i].text);
    return 0;
}

/* A name of one byte looked for in an image or a bundle: the call, what is to be answered, and what is wrong otherwise. */
struct look_up {
    uint32_t (*call)(const uint8_t *, size_t, const uint8_t *, size_t, uint32_t *);
    const uint8_t *form;
    size_t length;
    uint8_t name;
    uint32_t expected[NUVALETA_FIND_ANSWER];
    const char *what;
};

/* An image of one set, module m with submodule s, import-only i of two revisions, the first with submodule t; and a bundle with an empty text. */
static int finds(void) {
    static const uint8_t image[] = {1, 1, 1, 'm', 1, 1, 's', 0, 0, 1, 1, 'i', 2, 1, 1, 't', 0};
    static const uint8_t bundle[] = {2, 1, 'm', 3, 'a', 'b', 'c', 1, 's', 0};
    static const struct look_up all[] = {
        {nuvaleta_find_module, LENT(image), 'm', {0, 0, 1, 3, 0}, "another module"},
        {nuvaleta_find_module, LENT(image), 's', {0, 0, 0, 0, 0}, "a module that is none"},
        {nuvaleta_find_submodule, LENT(image), 's', {0, 0, 1, 6, 0}, "another submodule"},
        {nuvaleta_find_submodule, LENT(image), 't', {0, 0, 0, 0, 0}, "a submodule of an import-only module"},
        {nuvaleta_find_import_module, LENT(image), 'i', {0, 0, 1, 11, 2}, "another import-only module"},
        {nuvaleta_find_module, image, sizeof image - 1, 'm', {NUVALETA_IMAGE_BROKEN, 16, 0, 0, 0}, "an image cut short taken"},
        {nuvaleta_text, LENT(bundle), 'm', {0, 0, 1, 4, 3}, "another text"},
        {nuvaleta_text, LENT(bundle), 's', {0, 0, 1, 10, 0}, "an empty text not found"},
        {nuvaleta_text, LENT(bundle), 't', {0, 0, 0, 0, 0}, "a text that is not there"},
        {nuvaleta_text, bundle, 5, 'm', {NUVALETA_BUNDLE_BROKEN, 3, 0, 0, 0}, "a bundle cut short taken"},
    };

    for (size_t i = 0; i < sizeof all / sizeof all[0]; i++) {
        const struct look_up *x = &all[i];
        poison();
        if (!answered(x->call(x->form, x->length, &x->name, 1, lent.answer), LENT(x->expected)))
            return wrong(x->what);
    }
    return 0;
}

/* Which of the two graphs is drawn. */
enum which { PLAIN, COMPLETE };

#define GRAPH(which) ((which) == COMPLETE ? nuvaleta_graph_complete : nuvaleta_graph)

static uint32_t graph(enum which which, const uint8_t *image, size_t image_length, const uint8_t *bundle, size_t bundle_length) {
    poison();
    return GRAPH(which)(image, image_length, bundle, bundle_length, LENT(lent.nodes), LENT(lent.edges), LENT(lent.store), LENT(lent.imports),
                        LENT(lent.includes), LENT(lent.levels), lent.answer);
}

static int scratch_is_zero(void) { return ZERO(store) && ZERO(imports) && ZERO(includes) && ZERO(levels); }

/* Document 01's first example of a graph, in which each name stands once, with its order. */
static int graphs(enum which which) {
    static const uint8_t image[] = {1, 2, 1, 'm', 1, 1, 's', 0, 0, 1, 'b', 0, 0, 0, 0};
    static const char texts[] = "\3\1m\35include s;import b{prefix b;}\1s\23import b{prefix b;}\1b\0";
    static const uint32_t good[NUVALETA_GRAPH_ANSWER] = {0, 0, 0, 0, 0, 0, 3, 3};
    static const uint32_t nodes[] = {3, 1, 6, 1, 10, 1}, edges[] = {2, 0, 1, 0, 2, 1}, order[] = {2, 1, 0};
    static uint32_t ordered[NUVALETA_ORDER_ANSWER];

    if (!answered(graph(which, LENT(image), BYTES(texts)), LENT(good)))
        return wrong("a graph refused");
    if (!HOLDS(nodes, nodes, sizeof nodes) || !HOLDS(edges, edges, sizeof edges))
        return wrong("another graph");
    if (!scratch_is_zero())
        return wrong("a graph left scratch");
    memset(ordered, POISON, sizeof ordered);
    if (nuvaleta_order(LENT(lent.nodes), lent.answer[NUVALETA_GRAPH_NODES], LENT(lent.edges), lent.answer[NUVALETA_GRAPH_EDGES], LENT(lent.order),
                       ordered) != 0 ||
        ordered[NUVALETA_ORDER_NUMBER] != 0 || ordered[NUVALETA_ORDER_LENGTH] != 3 || !HOLDS(order, order, sizeof order))
        return wrong("another order of a graph");
    return 0;
}

/* An image in which a name comes again, and a bundle; what each of the two graphs is to answer and how many nodes and edges it is to have, of which these are
 * the first; and what is wrong otherwise. */
struct again {
    const uint8_t *image;
    size_t image_length;
    const uint8_t *bundle;
    size_t bundle_length;
    uint32_t number[2], entry[2], node_count[2], nodes[6], edge_count[2], edges[2];
    const char *what;
};

static int left_as_due(const struct again *x, enum which which) {
    const uint32_t answer[NUVALETA_GRAPH_ANSWER] = {x->number[which], x->entry[which], 0, 0, 0, 0, x->node_count[which], x->edge_count[which]};
    const size_t nodes = x->node_count[which] * NUVALETA_NODE_ROW * sizeof x->nodes[0], edges = x->edge_count[which] * NUVALETA_EDGE_ROW * sizeof x->edges[0];

    return answered(graph(which, x->image, x->image_length, x->bundle, x->bundle_length), LENT(answer)) && HOLDS(nodes, x->nodes, nodes) &&
           HOLDS(edges, x->edges, edges) && scratch_is_zero();
}

/* Module m, and m once more with submodule s in another set, with and without a text of s; module b between them; import-only b, of whose two revisions each
 * has a submodule; module m, which includes a submodule of import-only b alone. */
static int names_again(void) {
    static const uint8_t twice[] = {2, 1, 1, 'm', 0, 0, 0, 0, 1, 1, 'm', 1, 1, 's', 0, 0, 0};
    static const uint8_t between[] = {2, 2, 1, 'm', 0, 0, 0, 1, 'b', 0, 0, 0, 0, 1, 1, 'm', 1, 1, 's', 0, 0, 0};
    static const uint8_t revisions[] = {1, 0, 1, 1, 'b', 2, 1, 1, 's', 1, 1, 't'}, only[] = {1, 1, 1, 'm', 0, 0, 0, 1, 1, 'b', 2, 0, 1, 1, 't'};
    static const char good[] = "\2\1m\12include s;\1s\0", missing[] = "\1\1m\12include s;", empty[] = "\2\1m\0\1b\0", of_b[] = "\1\1b\0";
    static const char unknown[] = "\3\1m\12include t;\1b\0\1t\0";
    static const struct again all[] = {
        {LENT(twice), BYTES(good), {NUVALETA_NO_NODE, 0}, {1, 0}, {0, 2}, {3, 1, 13, 1}, {0, 1}, {1, 0}, "a submodule of the second set"},
        {LENT(twice), BYTES(missing), {NUVALETA_NO_NODE, NUVALETA_NO_INCLUDED_TEXT}, {1, 1}, {0, 0}, {0}, {0, 0}, {0}, "one without a text"},
        {LENT(between), BYTES(empty), {0, 0}, {0, 0}, {2, 3}, {3, 1, 8, 1, 18, 1}, {0, 0}, {0}, "the place of a node"},
        {LENT(revisions), BYTES(of_b), {0, 0}, {0, 0}, {2, 3}, {4, 1, 8, 1, 11, 1}, {0, 0}, {0}, "a submodule of the second revision"},
        {LENT(only), BYTES(unknown), {NUVALETA_UNKNOWN_SUBMODULE, NUVALETA_UNKNOWN_SUBMODULE}, {1, 1}, {0, 0}, {0}, {0, 0}, {0},
         "an include of a submodule of an import-only module"},
    };

    for (size_t i = 0; i < sizeof all / sizeof all[0]; i++)
        if (!left_as_due(&all[i], PLAIN) || !left_as_due(&all[i], COMPLETE))
            return wrong(all[i].what);
    return 0;
}

/* Edges between four nodes, how many words the tables have, what is to be answered and written, and what is wrong otherwise. */
struct ordering {
    const uint32_t *edges;
    size_t edge_words, edge_count, node_words, order_len;
    uint32_t answer[NUVALETA_ORDER_ANSWER], order[5];
    const char *what;
};

/* A list, what is to be answered, and what is wrong otherwise. */
struct checking {
    uint32_t list[5];
    size_t length;
    uint32_t answer[NUVALETA_CHECK_ANSWER];
    const char *what;
};

/* Node 3 before 1, 1 before 0 and 2; the same with 2 before 3, which closes a ring; a self-edge; an edge from a number that is no node. */
static const uint32_t four[4 * NUVALETA_NODE_ROW];
static const uint32_t line[] = {3, 1, 1, 0, 1, 2}, ring[] = {3, 1, 1, 0, 1, 2, 2, 3}, self[] = {0, 2, 2, 2}, out[] = {0, 1, 4, 0};

static int orders(void) {
    static const struct ordering all[] = {
        {line, 6, 3, 8, 5, {0, 4}, {3, 1, 0, 2, 0}, "another order"},
        {line, 6, 3, 8, 4, {0, 4}, {3, 1, 0, 2}, "another order in just enough"},
        {line, 6, 0, 8, 5, {0, 4}, {0, 1, 2, 3, 0}, "edges behind the count looked at"},
        {ring, 8, 4, 8, 5, {NUVALETA_CYCLE, 3}, {1, 2, 3, 0, 0}, "another ring"},
        {self, 4, 2, 8, 5, {NUVALETA_CYCLE, 1}, {2, 0, 0, 0, 0}, "another ring of a self-edge"},
        {line, 6, 3, 8, 3, {NUVALETA_ORDER_TOO_SHORT, 0}, {0}, "a short order table taken"},
        {ring, 8, 4, 8, 3, {NUVALETA_ORDER_TOO_SHORT, 0}, {0}, "a ring before a short order table"},
        {line, 5, 3, 8, 5, {NUVALETA_TABLES_UNFIT, 0}, {0}, "a short edge table taken"},
        {line, 6, 3, 7, 5, {NUVALETA_TABLES_UNFIT, 0}, {0}, "a short node table taken"},
        {out, 4, 2, 8, 3, {NUVALETA_TABLES_UNFIT, 0}, {0}, "an edge from a number that is no node taken"},
    };

    for (size_t i = 0; i < sizeof all / sizeof all[0]; i++) {
        const struct ordering *x = &all[i];
        const size_t size = x->order_len * sizeof lent.order[0];
        poison();
        if (!answered(nuvaleta_order(four, x->node_words, 4, x->edges, x->edge_words, x->edge_count, lent.order, x->order_len, lent.answer), LENT(x->answer)) ||
            memcmp(lent.order, x->order, size) != 0)
            return wrong(x->what);
        if (!all_are(POISON, lent.order + x->order_len, sizeof lent.order - size))
            return wrong("something written behind the order table");
    }
    return 0;
}

static int lists(void) {
    static const uint32_t unfit[NUVALETA_CHECK_ANSWER] = {NUVALETA_TABLES_UNFIT, 0};
    static const struct checking all[] = {
        {{3, 1, 0, 2}, 4, {0, 0}, "an order refused"},
        {{3, 1, 2, 0}, 4, {0, 0}, "another order refused"},
        {{3, 1, 2}, 3, {NUVALETA_LIST_WRONG, 3}, "a list that is too short taken"},
        {{3, 1, 2, 0, 3}, 5, {NUVALETA_LIST_WRONG, 4}, "a list that is too long taken"},
        {{3, 4, 3, 0}, 4, {NUVALETA_LIST_WRONG, 1}, "a number that is no node taken"},
        {{3, 1, 1, 0}, 4, {NUVALETA_LIST_WRONG, 2}, "a node taken twice"},
        {{3, 0, 1, 2}, 4, {NUVALETA_LIST_WRONG, 1}, "a broken edge taken"},
    };

    for (size_t i = 0; i < sizeof all / sizeof all[0]; i++) {
        const struct checking *x = &all[i];
        poison();
        if (!answered(nuvaleta_order_check(LENT(four), 4, line, 6, 3, x->list, x->length, lent.answer), LENT(x->answer)))
            return wrong(x->what);
    }
    poison();
    if (!answered(nuvaleta_order_check(LENT(four), 4, out, 4, 2, all[0].list, 4, lent.answer), LENT(unfit)))
        return wrong("a list checked over an edge from a number that is no node");
    return 0;
}

/* Null pointers of length 0 in the place of all slices, then of those that may be empty in a good call. */
static int nothing_scanned(enum form form) {
    static const uint32_t short_lent[NUVALETA_PRINTED_ANSWER] = {NUVALETA_LENT_TOO_SHORT}, good[NUVALETA_DEPENDENCIES_ANSWER] = {0};
    static const uint32_t nameless[NUVALETA_METADATA_ANSWER] = {NUVALETA_NO_NAME};

    poison();
    if (!answered(SCAN(form, nuvaleta_dependencies)(NOTHING, NOTHING, NOTHING, NOTHING, lent.answer), short_lent, NUVALETA_DEPENDENCIES_ANSWER))
        return wrong("no tables taken");
    poison();
    if (!answered(SCAN(form, nuvaleta_dependencies)(NOTHING, NOTHING, LENT(lent.imports), LENT(lent.includes), lent.answer), LENT(good)) || !ZERO(imports) ||
        !ZERO(includes))
        return wrong("a text of nothing refused");
    poison();
    if (!answered(SCAN(form, nuvaleta_printed)(NOTHING, NOTHING, NOTHING, NOTHING, NOTHING, lent.answer), LENT(short_lent)))
        return wrong("no page taken");
    poison();
    if (SCAN(form, nuvaleta_printed)(NOTHING, NOTHING, LENT(lent.imports), LENT(lent.includes), LENT(lent.page), lent.answer) != 0 ||
        memchr(lent.page, 0, sizeof lent.page) != lent.page + lent.answer[NUVALETA_PRINTED_LENGTH])
        return wrong("a page of nothing refused");
    poison();
    if (!answered(SCAN(form, nuvaleta_metadata)(NOTHING, NOTHING, lent.record, lent.answer), LENT(nameless)) || !ZERO(record))
        return wrong("another refusal of metadata of nothing");
    return 0;
}

static int nothing_found(void) {
    static const uint8_t none[] = {0};
    static const uint32_t not_found[NUVALETA_FIND_ANSWER] = {0};
    static const struct {
        uint32_t (*call)(const uint8_t *, size_t, const uint8_t *, size_t, uint32_t *);
        uint32_t broken[NUVALETA_FIND_ANSWER];
    } all[] = {{nuvaleta_find_module, {NUVALETA_IMAGE_BROKEN}},
               {nuvaleta_find_submodule, {NUVALETA_IMAGE_BROKEN}},
               {nuvaleta_find_import_module, {NUVALETA_IMAGE_BROKEN}},
               {nuvaleta_text, {NUVALETA_BUNDLE_BROKEN}}};

    for (size_t i = 0; i < sizeof all / sizeof all[0]; i++) {
        poison();
        if (!answered(all[i].call(NOTHING, NOTHING, lent.answer), LENT(all[i].broken)))
            return wrong("something found in nothing");
        poison();
        if (!answered(all[i].call(LENT(none), NOTHING, lent.answer), LENT(not_found)))
            return wrong("nothing found somewhere");
    }
    return 0;
}

static int nothing_drawn(enum which which) {
    static const uint8_t none[] = {0};
    static const uint32_t refused[][NUVALETA_GRAPH_ANSWER] = {{NUVALETA_IMAGE_BROKEN}, {NUVALETA_BUNDLE_BROKEN}, {NUVALETA_GRAPH_LENT_TOO_SHORT}};
    static const uint32_t good[NUVALETA_GRAPH_ANSWER] = {0};

    for (size_t i = 0; i < 3; i++) {
        poison();
        if (!answered(GRAPH(which)(i > 0 ? none : NULL, i > 0, i > 1 ? none : NULL, i > 1, NOTHING, NOTHING, NOTHING, NOTHING, NOTHING, NOTHING, lent.answer),
                      LENT(refused[i])))
            return wrong("a graph with nothing lent taken");
    }
    poison();
    if (!answered(GRAPH(which)(LENT(none), LENT(none), LENT(lent.nodes), LENT(lent.edges), NOTHING, LENT(lent.imports), LENT(lent.includes),
                               LENT(lent.levels), lent.answer),
                  LENT(good)) ||
        !ZERO(nodes) || !ZERO(edges) || !ZERO(imports) || !ZERO(includes) || !ZERO(levels))
        return wrong("a graph of nothing refused");
    return 0;
}

/* A slice that is lent just as long as it must be. */
struct slice {
    void *at;
    size_t size, element;
};

#define SLICE(array) {lent.array, sizeof lent.array, sizeof lent.array[0]}

/* The lengths of slices of which one is an element too short. */
static void one_short(const struct slice *all, size_t count, size_t which, size_t *length) {
    for (size_t i = 0; i < count; i++)
        length[i] = all[i].size / all[i].element - (i == which);
}

/* Whether all that was lent is zero, and nothing behind it is touched. */
static int cleared(const struct slice *all, size_t count, const size_t *length) {
    for (size_t i = 0; i < count; i++) {
        const uint8_t *at = all[i].at;
        const size_t size = length[i] * all[i].element;
        if (!all_are(0, at, size) || !all_are(POISON, at + size, all[i].size - size))
            return 0;
    }
    return 1;
}

/* Each slice in turn is one element too short for a text, which is cut short besides. */
static int short_for_scan(enum form form) {
    static const char cut[] = "module m{belongs-to \"p";
    static const uint32_t refused[NUVALETA_PRINTED_ANSWER] = {NUVALETA_LENT_TOO_SHORT};
    const struct slice all[] = {{lent.store, sizeof cut - 1, 1}, SLICE(imports), SLICE(includes), {lent.page, sizeof cut - 1 + NUVALETA_PAGE_MORE, 1}};
    size_t length[4];

    for (size_t i = 0; i < 4; i++) {
        one_short(all, 4, i, length);
        poison();
        if (!answered(SCAN(form, nuvaleta_printed)(BYTES(cut), lent.store, length[0], lent.imports, length[1], lent.includes, length[2], lent.page, length[3],
                                                   lent.answer),
                      LENT(refused)) ||
            !cleared(all, 4, length))
            return wrong("a slice that is too short for a page taken or not cleared, or more than it");
        poison();
        if (i < 3 && (!answered(SCAN(form, nuvaleta_dependencies)(BYTES(cut), lent.store, length[0], lent.imports, length[1], lent.includes, length[2],
                                                                  lent.answer),
                                refused, NUVALETA_DEPENDENCIES_ANSWER) ||
                      !cleared(all, 3, length)))
            return wrong("a slice that is too short for a scan taken or not cleared, or more than it");
    }
    one_short(all, 1, 0, length);
    poison();
    if (!answered(SCAN(form, nuvaleta_metadata)(BYTES(cut), lent.store, length[0], lent.record, lent.answer), refused, NUVALETA_METADATA_ANSWER) ||
        !cleared(all, 1, length) || !ZERO(record))
        return wrong("a store that is too short for metadata taken or not cleared, or more than it");
    return 0;
}

/* Each slice in turn is one element too short for a graph. */
static int short_lent(enum which which) {
    static const uint8_t none[] = {0}, bundle[] = {1, 1, 'm', 2, ' ', ' '};
    static const uint32_t refused[NUVALETA_GRAPH_ANSWER] = {NUVALETA_GRAPH_LENT_TOO_SHORT};
    const struct slice all[] = {SLICE(nodes), SLICE(edges), {lent.store, 2, 1}, SLICE(imports), SLICE(includes), SLICE(levels)};
    size_t length[6];

    for (size_t i = 0; i < 6; i++) {
        one_short(all, 6, i, length);
        poison();
        if (!answered(GRAPH(which)(LENT(none), LENT(bundle), lent.nodes, length[0], lent.edges, length[1], lent.store, length[2], lent.imports, length[3],
                                   lent.includes, length[4], lent.levels, length[5], lent.answer),
                      LENT(refused)))
            return wrong("a slice that is too short taken");
        if (!cleared(all, 6, length))
            return wrong("a slice that is too short not cleared, or more than it");
    }
    return 0;
}

static int nothing_ordered(void) {
    static const uint32_t good[NUVALETA_ORDER_ANSWER] = {0}, unfit[NUVALETA_ORDER_ANSWER] = {NUVALETA_TABLES_UNFIT};

    for (size_t count = 0; count < 2; count++) {
        const uint32_t *expected = count == 0 ? good : unfit;
        poison();
        if (!answered(nuvaleta_order(NOTHING, count, NOTHING, 0, NOTHING, lent.answer), expected, NUVALETA_ORDER_ANSWER))
            return wrong("another order of nothing");
        poison();
        if (!answered(nuvaleta_order_check(NOTHING, count, NOTHING, 0, NOTHING, lent.answer), expected, NUVALETA_CHECK_ANSWER))
            return wrong("another check of nothing");
    }
    return 0;
}

int main(void) {
    for (int form = USUAL; form <= WHOLE; form++)
        if (dependencies_read((enum form)form) != 0 || page_printed((enum form)form) != 0 || metadata_read((enum form)form) != 0 ||
            nothing_scanned((enum form)form) != 0 || short_for_scan((enum form)form) != 0)
            return 1;
    if (readings() != 0 || finds() != 0 || graphs(PLAIN) != 0 || graphs(COMPLETE) != 0)
        return 1;
    if (names_again() != 0 || orders() != 0 || lists() != 0)
        return 1;
    if (nothing_found() != 0 || nothing_drawn(PLAIN) != 0 || nothing_drawn(COMPLETE) != 0 || nothing_ordered() != 0)
        return 1;
    if (short_lent(PLAIN) != 0 || short_lent(COMPLETE) != 0)
        return 1;
    printf("c: a C program is answered as the header says\n");
    return 0;
}
