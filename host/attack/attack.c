/* attack [--malloc] [--once] [--short | --full] SEED COUNT [FILE..]: all fourteen calls over guarded buffers: every length around each limit, null
 * pointers, and COUNT times generated and damaged texts, images and bundles, with the files given (texts; or FILE.image with FILE.bundle) damaged
 * likewise. With --once it ends where something is wrong. */
#include <stdio.h>
#include <stdlib.h>
#include <string.h>

#include "calls.h"
#include "form.h"
#include "lent.h"
#include "make.h"
#include "nuvaleta.h"

#define COUNT(list) (sizeof(list) / sizeof(list)[0])

/* How much is tried: a little, for valgrind; lengths of which at most two differ from the least that is enough; or all of them together. */
static enum { LEVEL_SHORT, LEVEL_PAIRS, LEVEL_ALL } level = LEVEL_PAIRS;
static struct choices random_;
static const char *unexpected;

/* What a call must answer. */
static void due(uint32_t number, uint32_t wanted, const char *what) {
    if (number != wanted)
        unexpected = what;
}

/* ---- lengths */

enum { VALUES = 5 };

/* The lengths to try for a buffer: the least that is enough first. */
struct around {
    size_t count, values[VALUES];
};

static struct around around(size_t enough) {
    struct around a = {0};
    const size_t all[VALUES] = {enough, enough - 1, enough + 1, 0, 1};
    for (size_t i = 0; i < VALUES; i++) {
        int there = i == 1 && enough == 0;
        for (size_t k = 0; k < a.count; k++)
            there = there || a.values[k] == all[i];
        if (!there)
            a.values[a.count++] = all[i];
    }
    return a;
}

/* A call with each of these lengths for what it writes. */
static void lengths(struct given g, const struct around *of) {
    const size_t writes = call_writes(g.call);
    size_t at[WRITTEN_MOST] = {0}, i = 0;
    while (i < writes || writes == 0) {
        size_t others = 0;
        for (size_t k = 0; k < writes; k++) {
            g.written[k] = of[k].values[at[k]];
            others += at[k] != 0;
        }
        if (others <= (level == LEVEL_ALL ? WRITTEN_MOST : level == LEVEL_PAIRS ? 2 : 1))
            call_made(&g);
        for (i = 0; i < writes && ++at[i] == of[i].count; i++)
            at[i] = 0;
        if (writes == 0)
            return;
    }
}

static void scan_lengths(const uint8_t *text, size_t length) {
    const struct around of[] = {around(length), around(NUVALETA_IMPORT_WORDS), around(NUVALETA_INCLUDE_WORDS), around(length + NUVALETA_PAGE_MORE)};
    for (enum call call = DEPENDENCIES; call <= METADATA; call++)
        lengths((struct given){.call = call, .read = {{text, length}}}, of);
}

/* Texts of each length around the limit: good ones, one value that is almost all of the text; such a value that breaks off, with a character above 127 at its
 * end, and with half of one. */
static void scans(void) {
    static const char *const starts[] = {"module m{import a{prefix p;}include s;", "module m{import \""};
    static const size_t most[] = {NUVALETA_TEXT_MOST - 1, NUVALETA_TEXT_MOST, NUVALETA_TEXT_MOST + 1};
    static uint8_t text[NUVALETA_TEXT_MOST + 1];
    scan_lengths(text, 0);
    for (size_t k = 0; k < COUNT(starts); k++) {
        memset(text, 'x', sizeof text);
        memcpy(text, starts[k], strlen(starts[k]));
        scan_lengths(text, 1);
        scan_lengths(text, 200);
        for (size_t i = 0; level != LEVEL_SHORT && i < COUNT(most); i++) {
            const char *end = "\"{prefix p;}}";
            memset(text, 'x', sizeof text);
            memcpy(text, starts[k], strlen(starts[k]));
            memcpy(text + most[i] - strlen(end), end, strlen(end));
            scan_lengths(text, most[i]);
        }
    }
    if (level == LEVEL_SHORT)
        return;
    memset(text, 'x', sizeof text);
    memcpy(text, starts[1], strlen(starts[1]));
    scan_lengths(text, sizeof text - 1);
    memcpy(text + sizeof text - 3, "\xc3\xa9", 2);
    scan_lengths(text, sizeof text - 1);
    scan_lengths(text, sizeof text - 2);
}

static uint32_t scanned(enum call call, const void *text, size_t length, size_t more) {
    return call_made(&(struct given){
        .call = call,
        .read = {{text, length}},
        .written = {length + more, NUVALETA_IMPORT_WORDS + more, NUVALETA_INCLUDE_WORDS + more, length + NUVALETA_PAGE_MORE + more}});
}

/* Texts that break off, and such that only seem to: the number of their dependencies, and of their metadata, in the whole-text mode. */
static void broken(void) {
    static const struct {
        const char *text;
        uint32_t dependencies, metadata;
    } all[] = {
        {"x \"abc", 11, 11},
        {"'", 11, 11},
        {"\"\\\"", 11, 11},
        {"import \"a", 11, 11},
        {"import \"a\"+\"b", 11, 11},
        {"import a{x", 11, NUVALETA_NO_NAME},
        {"include a{x/*c", 11, NUVALETA_NO_NAME},
        {"module m{belongs-to p", 0, 11},
        {"module m{belongs-to \"p\"+\"x", 11, 11},
        {"module m{prefix p;prefix", 0, 11},
        {"module m{revision 2020-01-01{", 0, 11},
        {"yang-version \"1", 11, 11},
        {"import a{/*c", NUVALETA_OPEN_ENDED, NUVALETA_NO_NAME},
        {"import a{} \"x", NUVALETA_NO_PREFIX, 11},
        {"module m{description \"x", 0, 11},
        {"module m{container \"x", 11, 0},
        {"module m{belongs-to p}/*c", 0, 0},
    };
    for (size_t i = 0; i < COUNT(all); i++)
        for (enum call call = DEPENDENCIES_WHOLE; call <= METADATA_WHOLE; call++)
            due(scanned(call, all[i].text, strlen(all[i].text), 0), call == METADATA_WHOLE ? all[i].metadata : all[i].dependencies, all[i].text);
}

/* Bytes above 127 in every place: the number of dependencies, and of metadata, in the old mode and in the whole-text mode. */
static void accents(void) {
    static const struct {
        const char *text;
        uint32_t dependencies, metadata, dependencies_whole, metadata_whole;
    } all[] = {
        {"\xc3", 12, 12, 12, 12},
        {"x \xc0\xaf", 12, 12, 12, 12},
        {"'\xed\xa0\x80'", 12, 12, 12, 12},
        {"//\xf4\x90\x80\x80", 12, 12, 12, 12},
        {"description \xe9", 12, 12, 12, 12},
        {"import \"\xc3\xa9\"{prefix '\xc3\xbc';}", 0, NUVALETA_NO_NAME, 0, NUVALETA_NO_NAME},
        {"module '\xc3\xa9'{belongs-to \"\xe2\x82\xac\"{x '\xc3\xa9';}}", 0, 0, 0, 0},
        {"import \"\xc3\xa9", NUVALETA_NO_VALUE, NUVALETA_NO_NAME, 11, 11},
        {"import \"a\"+\"\xc3\xa9", NUVALETA_END_OF_TEXT, NUVALETA_NO_NAME, 11, 11},
        {"import a{x '\xc3\xa9\\';prefix p;}", NUVALETA_OPEN_ENDED, NUVALETA_NO_NAME, 11, NUVALETA_NO_NAME},
        {"module m{/*\xc3\xa9*/import a//\xc3\xa9\n{prefix p;/*\xc3\xa9*/}}", 0, 0, 0, 0},
        {"module m{/*\xc3\xa9", 0, 0, 0, 0},
        {"module m{\xc3\xa9}", 3, 3, 3, 3},
        {"import\xc3\xa9 a{", 3, 3, 3, 3},
        {"import \xc3\xa9{", 3, 3, 3, 3},
        {"import a\xc3\xa9{", 3, 3, 3, 3},
        {"import a{x \xc3\xa9;prefix p;}", 3, 3, 3, 3},
        {"import a{prefix \xc3\xa9;}", 3, 3, 3, 3},
        {"module m{belongs-to p \xc3\xa9;}", 3, 3, 3, 3},
        {"module m{yang-version \xc3\xa9;}", 3, 3, 3, 3},
        {"import a{}\xc3\xa9", NUVALETA_NO_PREFIX, 3, NUVALETA_NO_PREFIX, 3},
        {"module m{contact \xc3\xa9;}", 0, 3, 0, 3},
        {"module m{container \xc3\xa9", 3, 0, 3, 0},
        {"\xef\xbb\xbfmodule m{}", 3, 3, 3, 3},
        {"x \xc3\xa9 \"cut", 3, 3, 3, 3},
        {"\"cut \xc3\xa9", 0, NUVALETA_NO_NAME, 11, 11},
    };
    for (size_t i = 0; i < COUNT(all); i++)
        for (enum call call = DEPENDENCIES; call <= METADATA_WHOLE; call++) {
            const int whole = call >= DEPENDENCIES_WHOLE;
            const uint32_t links = whole ? all[i].dependencies_whole : all[i].dependencies, about = whole ? all[i].metadata_whole : all[i].metadata;
            due(scanned(call, all[i].text, strlen(all[i].text), 0), call == METADATA || call == METADATA_WHOLE ? about : links, all[i].text);
        }
}

/* As many imports or includes as the tables have rows, and one more or less. */
static void rows(void) {
    static const char *const statements[] = {"import a{prefix p;}", "include s;", "import a{prefix p;revision-date r;}include s{revision-date r;}"};
    for (size_t i = 0; i < COUNT(statements) * 3; i++) {
        struct bytes text = {0};
        for (size_t k = 0; k < NUVALETA_IMPORT_WORDS / NUVALETA_IMPORT_ROW - 1 + i / 3; k++)
            put_words(&text, statements[i % 3]);
        scan_lengths(text.at, text.length);
        free(text.at);
    }
}

/* Look-ups of a name in an image or a bundle by all four calls. */
static void finds(struct read form, struct read name) {
    for (enum call call = FIND_MODULE; call <= TEXT; call++)
        call_made(&(struct given){.call = call, .read = {form, name}});
}

/* Names of each length around the limit: bytes of the form itself, and some that are nowhere. */
static void names(const struct bytes *form) {
    static const size_t most[] = {0, 1, 2, 64, 126, 127, 128, 129, 300, 60000};
    static uint8_t nowhere[60000];
    memset(nowhere, 'q', sizeof nowhere);
    const struct read whole = {form->at, form->length};
    for (size_t i = 0; i < COUNT(most); i++) {
        finds(whole, (struct read){nowhere, most[i]});
        for (size_t place = 0; place < 12 && place + most[i] <= form->length; place++) {
            const struct read name = {form->at + place, most[i]};
            finds(whole, name);
            for (enum call call = FIND_MODULE; call <= TEXT; call++)
                call_made(&(struct given){.call = call, .read = {whole, name}, .inside = place + 1});
        }
    }
}

static void graph_of(const struct bytes *image, const struct bytes *bundle, size_t store) {
    const struct around of[] = {around(NUVALETA_NODE_WORDS),    around(NUVALETA_EDGE_WORDS),    around(store),
                                around(NUVALETA_IMPORT_WORDS), around(NUVALETA_INCLUDE_WORDS), around(NUVALETA_LEVEL_WORDS)};
    lengths((struct given){.call = GRAPH, .read = {{image->at, image->length}, {bundle->at, bundle->length}}}, of);
}

/* A graph with just enough lent, or some more. */
static uint32_t graph(const struct bytes *image, const struct bytes *bundle, size_t store, size_t more) {
    const struct given g = {.call = GRAPH,
                            .read = {{image->at, image->length}, {bundle->at, bundle->length}},
                            .written = {NUVALETA_NODE_WORDS + more, NUVALETA_EDGE_WORDS + more, store, NUVALETA_IMPORT_WORDS + more,
                                        NUVALETA_INCLUDE_WORDS + more, NUVALETA_LEVEL_WORDS + more}};
    return call_made(&g);
}

/* The same with so many words of levels. */
static uint32_t graph_over(const struct bytes *image, const struct bytes *bundle, size_t store, size_t levels) {
    const struct given g = {.call = GRAPH,
                            .read = {{image->at, image->length}, {bundle->at, bundle->length}},
                            .written = {NUVALETA_NODE_WORDS, NUVALETA_EDGE_WORDS, store, NUVALETA_IMPORT_WORDS, NUVALETA_INCLUDE_WORDS, levels}};
    return call_made(&g);
}

/* Document 01's first example of a graph; the longest text has 29 bytes. */
static void example(struct bytes *image, struct bytes *bundle) {
    image->length = bundle->length = 0;
    put(image, "\1\2\1m\1\1s\0\0\1b\0\0\0\0", 15);
    put(bundle, "\3\1m\35include s;import b{prefix b;}\1s\23import b{prefix b;}\1b\0", 58);
}

/* As many names as an image has room for; and as many texts as a bundle may have, and one more. */
static void dense(struct bytes *image, struct bytes *bundle) {
    for (enum dense how = DENSE_LISTS; how <= DENSE_REVISIONS; how++)
        for (size_t texts = 600; texts < 2050; texts += texts == 600 ? 1447 : 1) {
            make_dense(how, texts, image, bundle);
            finds((struct read){image->at, image->length}, (struct read){"~~", 2});
            finds((struct read){bundle->at, bundle->length}, (struct read){"~~", 2});
            if (graph(image, bundle, 0, 0) != (texts <= 2048 ? 0 : NUVALETA_BUNDLE_BROKEN))
                unexpected = "a library with as many names as there can be is not built";
        }
}

/* Names that differ, so many. */
static void put_many(struct bytes *image, size_t count) {
    put_number(image, count);
    for (char name[24]; count > 0; count--) {
        snprintf(name, sizeof name, "n%zu", count);
        put_name(image, name);
    }
}

/* What an image or a bundle counts: one of these so many times, of all else as few as can be. */
enum counted { OF_SETS, OF_MODULES, OF_SUBMODULES, OF_AUGMENTING, OF_DEVIATIONS, OF_OTHERS, OF_REVISIONS, OF_REVISION, OF_NAME, OF_TEXT, COUNTED };

static void put_counted(struct bytes *image, enum counted of, size_t n) {
    static const char long_[] = "0123456789012345678901234567890123456789012345678901234567890123"
                                "01234567890123456789012345678901234567890123456789012345678901234";
    char name[24];
    put_number(image, of == OF_SETS ? n : 1);
    for (size_t i = 1; of == OF_SETS && i < n; i++)
        put(image, "\0\0", 2);
    const size_t modules = of == OF_MODULES ? n : 1, others = of == OF_OTHERS ? n : 1, revisions = of == OF_REVISIONS ? n : 1;
    put_number(image, modules);
    for (size_t i = 0; i < modules; i++) {
        snprintf(name, sizeof name, "m%zu", i);
        put_name(image, of == OF_NAME ? long_ + sizeof long_ - 1 - n : name);
        for (enum counted list = OF_SUBMODULES; list <= OF_DEVIATIONS; list++)
            put_many(image, of == list ? n : 0);
    }
    put_number(image, others);
    for (size_t i = 0; i < others; i++) {
        snprintf(name, sizeof name, "i%zu", i);
        put_name(image, name);
        put_number(image, revisions);
        for (size_t k = 0; k < revisions; k++)
            put_many(image, of == OF_REVISION ? n : 0);
    }
}

/* Each of them one below its most, at it and one above; judge.c knows which are good. */
static void counts(struct bytes *image, struct bytes *bundle) {
    static const size_t most[COUNTED] = {NUVALETA_SETS_MOST, NUVALETA_MODULES_MOST, NUVALETA_LIST_MOST, NUVALETA_LIST_MOST, NUVALETA_LIST_MOST,
                                         NUVALETA_MODULES_MOST, NUVALETA_REVISIONS_MOST, NUVALETA_LIST_MOST, NUVALETA_NAME_MOST, NUVALETA_NUMBER_MOST};
    static uint8_t text[NUVALETA_NUMBER_MOST + 1];
    for (size_t i = 0; i < 3 * COUNTED; i++) {
        const enum counted of = i / 3;
        const size_t n = most[of] - 1 + i % 3;
        image->length = bundle->length = 0;
        put_counted(image, of, of == OF_TEXT ? 1 : n);
        put_number(bundle, 1);
        put_name(bundle, "m0");
        put_number(bundle, of == OF_TEXT ? n : 0);
        put(bundle, text, of == OF_TEXT ? n : 0);
        finds((struct read){image->at, image->length}, (struct read){"n1", 2});
        finds((struct read){bundle->at, bundle->length}, (struct read){"m0", 2});
        for (size_t less = 0; less < 2 && less <= form_find(TEXT, (struct read){bundle->at, bundle->length}, (struct read){"", 0}).longest; less++)
            graph(image, bundle, (of == OF_TEXT ? n : 0) - less, 0);
    }
}

/* Images and bundles around their longest, names around theirs. */
static void forms(void) {
    struct bytes image = {0}, bundle = {0};
    example(&image, &bundle);
    names(&image);
    names(&bundle);
    graph_of(&image, &bundle, 29);
    for (size_t more = 0; level != LEVEL_SHORT && more < 3; more++) {
        make_long_image(NUVALETA_IMAGE_MOST - 1 + more, &image);
        names(&image);
        due(graph(&image, &bundle, 29, 0), more < 2 ? NUVALETA_NO_ENTRY_TEXT : NUVALETA_IMAGE_BROKEN, "the longest image");
        example(&image, &bundle);
        make_long_bundle(NUVALETA_BUNDLE_MOST - 1 + more, &bundle);
        const struct read whole = {bundle.at, bundle.length};
        finds(whole, (struct read){"s", 1});
        finds(whole, (struct read){"m", 1});
        finds(whole, (struct read){"q", 1});
        due(graph(&image, &bundle, 2 << 20, 0), more < 2 ? NUVALETA_SCAN_REFUSED : NUVALETA_BUNDLE_BROKEN, "the longest bundle");
        example(&image, &bundle);
    }
    for (size_t more = 0; level != LEVEL_SHORT && more < 3; more++) {
        make_wide(NUVALETA_NODES_MOST - 1 + more, 3000, &image, &bundle);
        due(graph(&image, &bundle, 1 << 20, more), more < 2 ? 0 : NUVALETA_TOO_MANY_NODES, "the most nodes");
        make_wide(1000, NUVALETA_EDGES_MOST - 1 + more, &image, &bundle);
        due(graph(&image, &bundle, 1 << 20, more), more < 2 ? 0 : NUVALETA_TOO_MANY_EDGES, "the most edges");
        make_again(NUVALETA_NODES_MOST - 1 + more, &image, &bundle);
        due(graph(&image, &bundle, 0, more), 0, "names that come again");
    }
    if (level != LEVEL_SHORT) {
        dense(&image, &bundle);
        counts(&image, &bundle);
    }
    free(image.at);
    free(bundle.at);
}

/* Texts that include each other many times, over everything that the levels could hold before. A walk that reads an included text again whenever it is
 * included takes longer than anyone waits; here a tenth of a second is too long. */
static void included(void) {
    static const struct {
        size_t submodules, wide, times;
        const char *last;
        uint32_t number;
        const char *what;
    } all[] = {
        {8, 1, 256, "", 0, "nine texts that include the next one 256 times"},
        {9, 1, 256, "", NUVALETA_TOO_DEEP, "ten texts that include the next one 256 times"},
        {8, 1, 256, "a", NUVALETA_TOO_DEEP, "nine texts, and the last one includes the second"},
        {8, 1, 256, "h", NUVALETA_TOO_DEEP, "nine texts, and the last one includes itself"},
        {8, 1, 256, "i", NUVALETA_UNKNOWN_SUBMODULE, "nine texts, and the last one includes what is no submodule"},
        {8, 8, 32, "", 0, "nine texts that include all later ones 32 times"},
        {9, 2, 128, "", NUVALETA_TOO_DEEP, "ten texts that include the next two 128 times"},
        {24, 24, 10, "", NUVALETA_TOO_DEEP, "25 texts that include all later ones 10 times"},
    };
    struct bytes image = {0}, bundle = {0};
    const unsigned milliseconds = call_milliseconds;
    call_milliseconds /= 10;
    for (call_filling = LENT_FILLINGS; call_filling > 0; call_filling--) {
        for (size_t i = 0; i < COUNT(all); i++) {
            make_rows(all[i].submodules, all[i].wide, all[i].times, all[i].last, &image, &bundle);
            due(graph(&image, &bundle, 2560, i % 2), all[i].number, all[i].what);
        }
        example(&image, &bundle);
        due(graph_over(&image, &bundle, 29, NUVALETA_LEVEL_WORDS), 0, "just enough levels");
        due(graph_over(&image, &bundle, 29, NUVALETA_LEVEL_WORDS - 1), NUVALETA_GRAPH_LENT_TOO_SHORT, "the levels one word short");
        due(graph_over(&image, &bundle, 29, 9 * 256), NUVALETA_GRAPH_LENT_TOO_SHORT, "the levels without the memory");
    }
    call_milliseconds = milliseconds;
    free(image.at);
    free(bundle.at);
}

/* ---- orders */

static uint32_t nodes[2 * NUVALETA_NODES_MOST + 4], edges[2 * NUVALETA_EDGES_MOST + 4], list[100000];

/* An order with order tables of each length around the count, and a check of lists of each. */
static void order(struct read n, size_t count, struct read m, size_t edge_count) {
    const struct around of = around(count > NUVALETA_NODES_MOST + 1 ? NUVALETA_NODES_MOST : count);
    const struct given g = {.call = ORDER, .read = {n, m}, .counts = {count, edge_count}};
    struct given c = {.call = ORDER_CHECK, .read = {n, m}, .counts = {count, edge_count}};
    lengths(g, &of);
    for (size_t i = 0; i < of.count; i++) {
        c.read[2] = (struct read){list, of.values[i]};
        call_made(&c);
    }
    if (level == LEVEL_ALL) {
        c.read[2] = (struct read){list, COUNT(list)};
        call_made(&c);
    }
}

/* All counts around the limits, and those whose double is no number of this machine, with tables of all lengths around them. */
static void orders(void) {
    const size_t n_most = NUVALETA_NODES_MOST, m_most = NUVALETA_EDGES_MOST, wide = (size_t)1 << 31, half = SIZE_MAX / 2;
    const size_t counts[] = {0,          1,    2,    n_most - 1, n_most,   n_most + 1,   m_most - 1, m_most,
                             m_most + 1, wide, half, half + 1,   half + 2, SIZE_MAX - 1, SIZE_MAX};
    for (size_t i = 0; i < COUNT(list); i++)
        list[i] = i;
    for (size_t i = 0; i < COUNT(counts) * COUNT(counts); i++) {
        const size_t n = counts[i % COUNT(counts)], m = counts[i / COUNT(counts)];
        const struct around n_words = around(n > COUNT(nodes) / 2 - 1 ? 2 : 2 * n), m_words = around(m > COUNT(edges) / 2 - 1 ? 2 : 2 * m);
        for (size_t k = 0; n != 0 && k < COUNT(edges); k += 2) {
            edges[k] = (k / 2) % (n < 512 ? n : 512);
            edges[k + 1] = n < 3 ? n - 1 : n - 1 - k / 1024 % (n < 512 ? n - 1 : 500);
        }
        for (size_t k = 0; k < n_words.count * m_words.count; k++)
            if (level != LEVEL_SHORT || k == 0)
                order((struct read){nodes, n_words.values[k % n_words.count]}, n, (struct read){edges, m_words.values[k / n_words.count]}, m);
    }
}

/* Random tables, mostly small: lines, rings and numbers that are no node. */
static void random_order(void) {
    const size_t n = 1 + choose(&random_, choose(&random_, 50) == 0 ? NUVALETA_NODES_MOST : 12), m = choose(&random_, 3 * n < 8000 ? 3 * n : 8000);
    const size_t how = choose(&random_, 4);
    for (size_t i = 0; i < m; i++) {
        const size_t one = choose(&random_, n), other = choose(&random_, n);
        edges[2 * i] = how == 0 || one < other ? one : other;
        edges[2 * i + 1] = how == 0 || one < other ? other : one == other ? (one + 1) % n : one;
    }
    if (m != 0 && choose(&random_, 20) == 0)
        edges[choose(&random_, 2 * m)] = choose(&random_, 2) == 0 ? n : UINT32_MAX;
    for (size_t i = 0; i < n; i++)
        list[i] = i;
    for (size_t i = 0; how == 1 && i < n; i++)
        list[i] = choose(&random_, n + 1);
    const struct read tables[] = {{nodes, 2 * n}, {edges, 2 * m}};
    call_made(&(struct given){.call = ORDER, .read = {tables[0], tables[1]}, .written = {n + choose(&random_, 3)}, .counts = {n, m}});
    call_made(&(struct given){.call = ORDER_CHECK, .read = {tables[0], tables[1], {list, n}}, .counts = {n, m}});
}

/* ---- no pointers */

/* Every slice of length 0 alone, and all of them together in every combination, with a null pointer and with one to nowhere: the number is that of
 * any other pointer. */
static void pointers(struct given g) {
    const size_t reads = call_reads(g.call), all = reads + call_writes(g.call);
    unsigned empty = 0;
    for (size_t i = 0; i < all; i++)
        empty |= (i < reads ? g.read[i].length : g.written[i - reads]) == 0 ? 1u << i : 0;
    const uint32_t number = call_made(&g);
    for (unsigned mask = 1; mask < 1u << all; mask++) {
        if ((mask & ~empty) != 0)
            continue;
        g.mask = mask;
        for (g.pointer = POINTER_NULL; g.pointer <= POINTER_NOWHERE; g.pointer++)
            if (call_made(&g) != number)
                unexpected = "another number with a null pointer, or one to nowhere";
    }
}

/* All lengths 0, and then whatever can be 0 where the call gives no refusal. */
static void no_pointers(void) {
    struct bytes image = {0}, bundle = {0};
    for (enum call call = 0; call < CALLS; call++)
        pointers((struct given){.call = call});
    for (enum call call = DEPENDENCIES; call <= METADATA; call++)
        pointers((struct given){.call = call, .written = {0, NUVALETA_IMPORT_WORDS, NUVALETA_INCLUDE_WORDS, NUVALETA_PAGE_MORE}});
    example(&image, &bundle);
    for (enum call call = FIND_MODULE; call <= TEXT; call++)
        pointers((struct given){.call = call, .read = {{call == TEXT ? bundle.at : image.at, call == TEXT ? bundle.length : image.length}}});
    pointers((struct given){.call = GRAPH,
                            .read = {{"\0", 1}, {"\0", 1}},
                            .written = {NUVALETA_NODE_WORDS, NUVALETA_EDGE_WORDS, 0, NUVALETA_IMPORT_WORDS, NUVALETA_INCLUDE_WORDS,
                                        NUVALETA_LEVEL_WORDS}});
    pointers((struct given){.call = GRAPH, .read = {{image.at, image.length}, {bundle.at, bundle.length}}});
    pointers((struct given){.call = ORDER, .read = {{nodes, 2}}, .written = {1}, .counts = {1, 0}});
    pointers((struct given){.call = ORDER, .counts = {1, 1}});
    pointers((struct given){.call = ORDER_CHECK, .read = {{nodes, 2}}, .counts = {1, 0}});
    free(image.at);
    free(bundle.at);
}

/* ---- random and damaged */

static void scan(const struct bytes *text) {
    const size_t more = choose(&random_, 3) * choose(&random_, 40);
    for (enum call call = DEPENDENCIES; call <= METADATA; call++)
        scanned(call, text->at, text->length, more);
}

/* The same of one of its beginnings. */
static void scan_beginning(struct bytes *text) {
    text->length = choose(&random_, text->length + 1);
    scan(text);
}

static void library(const struct bytes *image, const struct bytes *bundle) {
    const char *name = make_name(&random_);
    const size_t place = choose(&random_, image->length + 1) / 2, length = choose(&random_, image->length + 1) / 2;
    const struct read known = {name, strlen(name)}, piece = {image->at + place, length};
    /* just enough store, and one byte less */
    const size_t longest = form_find(TEXT, (struct read){bundle->at, bundle->length}, (struct read){"", 0}).longest;
    graph(image, bundle, longest, choose(&random_, 2));
    if (longest != 0 && choose(&random_, 16) == 0)
        graph(image, bundle, longest - 1, 0);
    finds((struct read){image->at, image->length}, known);
    finds((struct read){bundle->at, bundle->length}, known);
    finds((struct read){image->at, image->length}, piece);
}

static void random_calls(size_t count) {
    struct bytes text = {0}, image = {0}, bundle = {0};
    for (size_t i = 0; i < count; i++) {
        make_text(&random_, &text);
        scan(&text);
        damage(&random_, &text);
        scan(&text);
        scan_beginning(&text);
        make_library(&random_, &image, &bundle);
        library(&image, &bundle);
        damage(&random_, choose(&random_, 2) == 0 ? &image : &bundle);
        library(&image, &bundle);
        make_nested(&random_, &image, &bundle);
        graph(&image, &bundle, form_find(TEXT, (struct read){bundle.at, bundle.length}, (struct read){"", 0}).longest, choose(&random_, 2));
        random_order();
    }
    free(text.at);
    free(image.at);
    free(bundle.at);
}

/* ---- files */

static void read_file(const char *path, struct bytes *out) {
    uint8_t part[4096];
    size_t length;
    FILE *file = fopen(path, "rb");
    if (file == NULL) {
        perror(path);
        exit(2);
    }
    out->length = 0;
    while ((length = fread(part, 1, sizeof part, file)) != 0)
        put(out, part, length);
    fclose(file);
}

/* A text as it is and damaged; or an image with the bundle beside it. */
static void attack_file(const char *path, size_t count) {
    const size_t length = strlen(path), end = strlen(".image");
    struct bytes one = {0}, other = {0}, copy = {0};
    const int packed = length > end && strcmp(path + length - end, ".image") == 0;
    read_file(path, &one);
    if (packed) {
        char beside[4096];
        snprintf(beside, sizeof beside, "%.*s.bundle", (int)(length - end), path);
        read_file(beside, &other);
    }
    for (size_t i = 0; i <= count; i++) {
        copy.length = 0;
        put(&copy, one.at, one.length);
        if (i != 0)
            damage(&random_, &copy);
        if (packed) {
            library(&copy, &other);
            continue;
        }
        scan(&copy);
        scan_beginning(&copy);
    }
    free(one.at);
    free(other.at);
    free(copy.at);
}

int main(int count, char **words) {
    int at = 1, by_malloc = 0;
    for (; at < count && strncmp(words[at], "--", 2) == 0; at++) {
        by_malloc |= strcmp(words[at], "--malloc") == 0;
        call_aborts |= strcmp(words[at], "--once") == 0;
        sscanf(words[at], "--planted=%d", &call_planted);
        level = strcmp(words[at], "--short") == 0 ? LEVEL_SHORT : strcmp(words[at], "--full") == 0 ? LEVEL_ALL : level;
    }
    if (count - at < 2) {
        fprintf(stderr, "usage: attack [--malloc] [--once] [--short | --full] SEED COUNT [FILE..]\n");
        return 2;
    }
    const size_t times = strtoul(words[at + 1], NULL, 10);
    random_.state = strtoull(words[at], NULL, 10);
    call_milliseconds *= by_malloc ? 60 : 1; /* valgrind takes its time */
    lent_start(by_malloc);
    scans();
    accents();
    broken();
    rows();
    forms();
    included();
    orders();
    no_pointers();
    random_calls(times);
    for (at += 2; at < count; at++)
        attack_file(words[at], times < 100 ? times : 100);
    const size_t wrong = call_report("attack");
    if (unexpected != NULL)
        fprintf(stderr, "attack: %s\n", unexpected);
    return wrong == 0 && unexpected == NULL ? 0 : 1;
}
