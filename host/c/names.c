/* Each number that the header gives a name: every refusal and keyword comes where the header says, limits hold to the last element, and each word
 * stands at its index. Images and bundles are written as the header describes them. */
#include <stdio.h>
#include <stdlib.h>
#include <string.h>

#include "nuvaleta.h"

#define BYTES(string) (const uint8_t *)(string), sizeof(string) - 1

static uint8_t text[NUVALETA_TEXT_MOST + 1], store[NUVALETA_GRAPH_STORE], page[NUVALETA_PAGE_MOST], zeros[NUVALETA_BUNDLE_MOST + 1];
static uint32_t imports[NUVALETA_IMPORT_WORDS], includes[NUVALETA_INCLUDE_WORDS], levels[NUVALETA_LEVEL_WORDS], nodes[NUVALETA_NODE_WORDS + 2],
    edges[NUVALETA_EDGE_WORDS + 2], order[NUVALETA_ORDER_WORDS + 1], record[NUVALETA_RECORD_WORDS], answer[NUVALETA_GRAPH_ANSWER];

static void expect(int held, const char *what) {
    if (!held) {
        fprintf(stderr, "c: by the header's names: %s\n", what);
        exit(1);
    }
}

/* Whether a scan is called by its name with _whole: each test of a scan is made with either. */
static int whole;

#define SCAN(call) (whole ? call##_whole : call)

static uint32_t dependencies_over(size_t length, size_t store_len, size_t imports_len, size_t includes_len) {
    return SCAN(nuvaleta_dependencies)(text, length, store, store_len, imports, imports_len, includes, includes_len, answer);
}

static uint32_t dependencies(const uint8_t *bytes, size_t length) {
    return SCAN(nuvaleta_dependencies)(bytes, length, store, sizeof store, imports, NUVALETA_IMPORT_WORDS, includes, NUVALETA_INCLUDE_WORDS, answer);
}

static uint32_t printed(size_t page_len) {
    return SCAN(nuvaleta_printed)(text, NUVALETA_TEXT_MOST, store, sizeof store, imports, NUVALETA_IMPORT_WORDS, includes, NUVALETA_INCLUDE_WORDS, page,
                                  page_len, answer);
}

static uint32_t metadata(const uint8_t *bytes, size_t length) { return SCAN(nuvaleta_metadata)(bytes, length, store, sizeof store, record, answer); }

/* ---- scans */

/* Without _whole each text has this answer, with it too but where the text is cut short. */
static void scan_refusals(void) {
    enum { STAYS, CUT };
    static const struct {
        uint32_t (*scan)(const uint8_t *, size_t);
        const char *text;
        uint32_t number, keyword, position;
        int cut;
    } all[] = {
        {dependencies, "a\303\251", NUVALETA_HIGH_BYTE, NUVALETA_NO_KEYWORD, 1, STAYS},
        {dependencies, "import \303\251", NUVALETA_HIGH_BYTE, NUVALETA_NO_KEYWORD, 7, STAYS},
        {dependencies, "import a\303\251{", NUVALETA_HIGH_BYTE, NUVALETA_NO_KEYWORD, 8, STAYS},
        {dependencies, "import a{x \303\251;}", NUVALETA_HIGH_BYTE, NUVALETA_NO_KEYWORD, 11, STAYS},
        {metadata, "\357\273\277module m{}", NUVALETA_HIGH_BYTE, NUVALETA_NO_KEYWORD, 0, STAYS},
        {dependencies, "a\200", NUVALETA_NOT_UTF8, NUVALETA_NO_KEYWORD, 1, STAYS},
        {metadata, "container \303", NUVALETA_NOT_UTF8, NUVALETA_NO_KEYWORD, 10, STAYS},
        {dependencies, "/*\303\251", 0, NUVALETA_NO_KEYWORD, 0, STAYS},
        {dependencies, "\"\303\251", 0, NUVALETA_NO_KEYWORD, 0, CUT},
        {dependencies, "import ;", NUVALETA_NO_VALUE, NUVALETA_IMPORT, 7, STAYS},
        {dependencies, "import \"a", NUVALETA_NO_VALUE, NUVALETA_IMPORT, 9, CUT},
        {dependencies, "import a b", NUVALETA_OTHER_BYTE, NUVALETA_IMPORT, 9, STAYS},
        {dependencies, "include a", NUVALETA_END_OF_TEXT, NUVALETA_INCLUDE, 9, STAYS},
        {dependencies, "import a{prefix", NUVALETA_NO_VALUE, NUVALETA_PREFIX, 15, STAYS},
        {dependencies, "import a{revision-date;", NUVALETA_NO_VALUE, NUVALETA_REVISION_DATE, 22, STAYS},
        {dependencies, "import a{} x", NUVALETA_NO_PREFIX, NUVALETA_IMPORT, 10, STAYS},
        {dependencies, "include a{x;", NUVALETA_OPEN_ENDED, NUVALETA_INCLUDE, 12, STAYS},
        {metadata, "module {", NUVALETA_NO_VALUE, NUVALETA_MODULE, 7, STAYS},
        {metadata, "submodule s;", NUVALETA_OTHER_BYTE, NUVALETA_SUBMODULE, 11, STAYS},
        {metadata, "belongs-to {", NUVALETA_NO_VALUE, NUVALETA_BELONGS_TO, 11, STAYS},
        {metadata, "namespace \"a\" + b;", NUVALETA_OTHER_BYTE, NUVALETA_NAMESPACE, 16, STAYS},
        {metadata, "prefix p", NUVALETA_END_OF_TEXT, NUVALETA_PREFIX, 8, STAYS},
        {metadata, "yang-version {", NUVALETA_OTHER_BYTE, NUVALETA_YANG_VERSION, 13, STAYS},
        {metadata, "revision r", NUVALETA_END_OF_TEXT, NUVALETA_REVISION, 10, STAYS},
        {metadata, "x container y", NUVALETA_NO_NAME, NUVALETA_NO_KEYWORD, 11, STAYS},
        {metadata, "x  ", NUVALETA_NO_NAME, NUVALETA_NO_KEYWORD, 3, STAYS},
        {dependencies, "x \"abc", 0, NUVALETA_NO_KEYWORD, 0, CUT},
        {dependencies, "import a{x", NUVALETA_OPEN_ENDED, NUVALETA_IMPORT, 10, CUT},
        {metadata, "module m{revision r{", 0, NUVALETA_NO_KEYWORD, 0, CUT},
        {metadata, "'", NUVALETA_NO_NAME, NUVALETA_NO_KEYWORD, 1, CUT},
        {metadata, "yang-version \"1", NUVALETA_END_OF_TEXT, NUVALETA_YANG_VERSION, 15, CUT},
    };

    for (size_t i = 0; i < sizeof all / sizeof all[0]; i++) {
        const size_t length = strlen(all[i].text);
        const int cut = whole && all[i].cut;
        const uint32_t number = cut ? (uint32_t)NUVALETA_CUT_SHORT : all[i].number, keyword = cut ? (uint32_t)NUVALETA_NO_KEYWORD : all[i].keyword;
        memset(answer, 0xa5, sizeof answer);
        expect(all[i].scan((const uint8_t *)all[i].text, length) == number && answer[NUVALETA_SCAN_NUMBER] == number &&
                   answer[NUVALETA_SCAN_KEYWORD] == keyword && answer[NUVALETA_SCAN_POSITION] == (cut ? length : all[i].position),
               all[i].text);
    }
}

static void scan_limits(void) {
    const size_t one = strlen("include a;");
    size_t length = 0;

    memset(text, ' ', sizeof text);
    expect(dependencies(text, NUVALETA_TEXT_MOST) == 0, "the longest text");
    expect(dependencies(text, NUVALETA_TEXT_MOST + 1) == NUVALETA_TEXT_TOO_LONG, "a longer text");
    expect(dependencies_over(9, 8, NUVALETA_IMPORT_WORDS, NUVALETA_INCLUDE_WORDS) == NUVALETA_LENT_TOO_SHORT &&
               dependencies_over(9, 9, NUVALETA_IMPORT_WORDS - 1, NUVALETA_INCLUDE_WORDS) == NUVALETA_LENT_TOO_SHORT &&
               dependencies_over(9, 9, NUVALETA_IMPORT_WORDS, NUVALETA_INCLUDE_WORDS - 1) == NUVALETA_LENT_TOO_SHORT &&
               dependencies_over(9, 9, NUVALETA_IMPORT_WORDS, NUVALETA_INCLUDE_WORDS) == 0,
           "the lengths lent to a scan");
    expect(printed(sizeof page) == 0 && printed(sizeof page - 1) == NUVALETA_LENT_TOO_SHORT, "a page for every text");
    text[0] = '"';
    expect(printed(sizeof page) == (whole ? (uint32_t)NUVALETA_CUT_SHORT : 0u) && answer[NUVALETA_SCAN_POSITION] == (whole ? NUVALETA_TEXT_MOST : 0u) &&
               printed(sizeof page - 1) == NUVALETA_LENT_TOO_SHORT && dependencies(text, NUVALETA_TEXT_MOST + 1) == NUVALETA_TEXT_TOO_LONG,
           "the longest text, of one string that never closes");
    for (uint32_t i = 0; i <= 256; i++, length += one)
        memcpy(text + length, "include a;", one);
    expect(dependencies(text, length - one) == 0 && answer[NUVALETA_DEPENDENCIES_INCLUDES] * NUVALETA_INCLUDE_ROW == NUVALETA_INCLUDE_WORDS, "256 includes");
    expect(dependencies(text, length) == NUVALETA_TOO_MANY && answer[NUVALETA_SCAN_KEYWORD] == NUVALETA_INCLUDE &&
               answer[NUVALETA_SCAN_POSITION] == length - strlen(" a;"),
           "257 includes");
}

static int stored(uint32_t start, uint32_t length, const char *due) { return length == strlen(due) && memcmp(store + start, due, length) == 0; }

static void scan_words(void) {
    static const char deps[] = "import a{prefix pa;} import bc{prefix pre; revision-date 2020;} include d; include efg{revision-date 19;} include h;";
    const uint32_t *import = imports + NUVALETA_IMPORT_ROW, *include = includes + NUVALETA_INCLUDE_ROW;

    expect(dependencies(BYTES(deps)) == 0 && answer[NUVALETA_DEPENDENCIES_IMPORTS] == 2 && answer[NUVALETA_DEPENDENCIES_INCLUDES] == 3 &&
               answer[NUVALETA_DEPENDENCIES_STORED] == strlen("apabcpre2020defg19h"),
           "the counts of dependencies");
    expect(stored(import[NUVALETA_IMPORT_NAME_START], import[NUVALETA_IMPORT_NAME_LENGTH], "bc") &&
               stored(import[NUVALETA_IMPORT_PREFIX_START], import[NUVALETA_IMPORT_PREFIX_LENGTH], "pre") && import[NUVALETA_IMPORT_DATED] == 1 &&
               stored(import[NUVALETA_IMPORT_DATE_START], import[NUVALETA_IMPORT_DATE_LENGTH], "2020") && imports[NUVALETA_IMPORT_DATED] == 0,
           "the words of an import");
    expect(stored(include[NUVALETA_INCLUDE_NAME_START], include[NUVALETA_INCLUDE_NAME_LENGTH], "efg") && include[NUVALETA_INCLUDE_DATED] == 1 &&
               stored(include[NUVALETA_INCLUDE_DATE_START], include[NUVALETA_INCLUDE_DATE_LENGTH], "19") && includes[NUVALETA_INCLUDE_DATED] == 0,
           "the words of an include");
}

static void record_words(void) {
    static const char module[] = "submodule s{belongs-to mo{prefix x;} namespace nam; prefix pref; revision 20204; revision 202105; revision 1999;}";
    static const char *const due[] = {"s", "nam", "pref", "20204", "mo", "202105"};
    static const int value[] = {NUVALETA_VALUE_NAME,           NUVALETA_VALUE_NAMESPACE, NUVALETA_VALUE_PREFIX,
                                NUVALETA_VALUE_FIRST_REVISION, NUVALETA_VALUE_PARENT,    NUVALETA_VALUE_NEWEST_REVISION};

    expect(metadata(BYTES(module)) == 0 && answer[NUVALETA_METADATA_STORED] == strlen("smonampref202042021051999"), "the bytes stored of metadata");
    for (size_t i = 0; i < sizeof due / sizeof due[0]; i++) {
        const uint32_t *at = record + value[i] * (int)NUVALETA_VALUE_ROW;
        expect(at[NUVALETA_VALUE_PRESENT] == 1 && stored(at[NUVALETA_VALUE_START], at[NUVALETA_VALUE_LENGTH], due[i]), due[i]);
    }
    expect(6 * NUVALETA_VALUE_ROW == NUVALETA_RECORD_WORDS, "the words of a record");
}

/* ---- image and bundle, written */

struct form {
    uint8_t bytes[NUVALETA_NUMBER_MOST + 1024];
    size_t length;
};
static struct form image, bundle;

static void put_byte(struct form *form, uint32_t byte) { form->bytes[form->length++] = (uint8_t)byte; }

static void put_number(struct form *form, uint32_t n) {
    for (; n >= 128; n /= 128)
        put_byte(form, 128 + n % 128);
    put_byte(form, n);
}

/* A name for each number below 94 * 94, with so many bytes. */
static void put_name(struct form *form, uint32_t n, uint32_t length) {
    put_number(form, length);
    put_byte(form, 33 + n / 94);
    put_byte(form, 33 + n % 94);
    for (uint32_t i = 2; i < length; i++)
        put_byte(form, '~');
}

static void put_names(struct form *form, uint32_t first, uint32_t count) {
    put_number(form, count);
    for (uint32_t i = 0; i < count; i++)
        put_name(form, first + i, 2);
}

static void put_module(uint32_t name, uint32_t submodules, uint32_t first_augmenting, uint32_t augmenting, uint32_t deviations) {
    put_name(&image, name, 2);
    put_names(&image, 1024 + 64 * name, submodules);
    put_names(&image, first_augmenting, augmenting);
    put_names(&image, 0, deviations);
}

/* Sets without modules, but for the last one: modules without lists, then import-only modules with these revisions, each of so many submodules. */
static size_t broken(uint32_t sets, uint32_t modules, uint32_t import_only, uint32_t revisions, uint32_t submodules) {
    image.length = 0;
    put_number(&image, sets);
    for (uint32_t i = 1; i < sets; i++)
        put_number(&image, 0), put_number(&image, 0);
    put_number(&image, modules);
    for (uint32_t i = 0; i < modules; i++)
        put_module(i, 0, 0, 0, 0);
    put_number(&image, import_only);
    for (uint32_t i = 0; i < import_only; i++) {
        put_name(&image, i, 2);
        put_number(&image, revisions);
        for (uint32_t j = 0; j < revisions; j++)
            put_names(&image, 0, submodules);
    }
    return nuvaleta_find_module(image.bytes, image.length, BYTES("!!"), answer);
}

static void image_limits(void) {
    expect(broken(NUVALETA_SETS_MOST, 0, 0, 0, 0) == 0 && broken(NUVALETA_SETS_MOST + 1, 0, 0, 0, 0) == NUVALETA_IMAGE_BROKEN, "the most sets");
    expect(broken(1, NUVALETA_MODULES_MOST, 0, 0, 0) == 0 && broken(1, NUVALETA_MODULES_MOST + 1, 0, 0, 0) == NUVALETA_IMAGE_BROKEN, "the most modules");
    expect(broken(1, 0, NUVALETA_MODULES_MOST, 1, 0) == 0 && broken(1, 0, NUVALETA_MODULES_MOST + 1, 1, 0) == NUVALETA_IMAGE_BROKEN,
           "the most import-only modules");
    expect(broken(1, 0, 1, NUVALETA_REVISIONS_MOST, 0) == 0 && broken(1, 0, 1, NUVALETA_REVISIONS_MOST + 1, 0) == NUVALETA_IMAGE_BROKEN &&
               broken(1, 0, 1, 0, 0) == NUVALETA_IMAGE_BROKEN,
           "the most revisions, and none");
    expect(broken(1, 0, 1, 1, NUVALETA_LIST_MOST) == 0 && broken(1, 0, 1, 1, NUVALETA_LIST_MOST + 1) == NUVALETA_IMAGE_BROKEN, "the most names of a list");
    /* zeros are no sets and then bytes too many, unless they are too many to be looked at */
    expect(nuvaleta_find_module(zeros, NUVALETA_IMAGE_MOST, BYTES("m"), answer) == NUVALETA_IMAGE_BROKEN && answer[NUVALETA_FIND_FAULT] == 1 &&
               nuvaleta_find_module(zeros, NUVALETA_IMAGE_MOST + 1, BYTES("m"), answer) == NUVALETA_IMAGE_BROKEN && answer[NUVALETA_FIND_FAULT] == 0 &&
               answer[NUVALETA_FIND_NUMBER] == NUVALETA_IMAGE_BROKEN,
           "the longest image");
}

/* Empty texts under the names from 0 on. */
static void put_texts(uint32_t count) {
    bundle.length = 0;
    put_number(&bundle, count);
    for (uint32_t i = 0; i < count; i++)
        put_name(&bundle, i, 2), put_number(&bundle, 0);
}

static uint32_t looked_up(void) { return nuvaleta_text(bundle.bytes, bundle.length, BYTES("!!"), answer); }

static void bundle_limits(void) {
    put_texts(NUVALETA_TEXTS_MOST);
    expect(looked_up() == 0, "the most texts");
    put_texts(NUVALETA_TEXTS_MOST + 1);
    expect(looked_up() == NUVALETA_BUNDLE_BROKEN, "too many texts");
    for (uint32_t longer = 0; longer < 2; longer++) {
        bundle.length = 0;
        put_number(&bundle, 1);
        put_name(&bundle, 0, NUVALETA_NAME_MOST + longer);
        put_number(&bundle, 0);
        expect(looked_up() == (longer == 0 ? 0u : (uint32_t)NUVALETA_BUNDLE_BROKEN), "the longest name");
        bundle.length = 0;
        put_number(&bundle, 1);
        put_name(&bundle, 0, 2);
        put_number(&bundle, NUVALETA_NUMBER_MOST + longer);
        bundle.length += NUVALETA_NUMBER_MOST + longer;
        expect(looked_up() == (longer == 0 ? 0u : (uint32_t)NUVALETA_BUNDLE_BROKEN) && answer[NUVALETA_TEXT_FAULT] == 4 * longer &&
                   answer[NUVALETA_TEXT_FOUND] == 1 - longer && answer[NUVALETA_TEXT_START] == 7 * (1 - longer) &&
                   answer[NUVALETA_TEXT_LENGTH] == NUVALETA_NUMBER_MOST * (1 - longer),
               "the longest text of a bundle");
    }
    expect(nuvaleta_text(zeros, NUVALETA_BUNDLE_MOST, BYTES("m"), answer) == NUVALETA_BUNDLE_BROKEN && answer[NUVALETA_TEXT_FAULT] == 1 &&
               nuvaleta_text(zeros, NUVALETA_BUNDLE_MOST + 1, BYTES("m"), answer) == NUVALETA_BUNDLE_BROKEN && answer[NUVALETA_TEXT_FAULT] == 0 &&
               answer[NUVALETA_TEXT_NUMBER] == NUVALETA_BUNDLE_BROKEN,
           "the longest bundle");
}

/* ---- graphs */

/* Which of the two graphs is drawn: each test of a graph is made with either. */
static int complete;

static uint32_t drawn(const size_t *lent) {
    return (complete ? nuvaleta_graph_complete : nuvaleta_graph)(image.bytes, image.length, bundle.bytes, bundle.length, nodes, lent[0], edges, lent[1], store,
                                                                 lent[2], imports, lent[3], includes, lent[4], levels, lent[5], answer);
}

static uint32_t graph(void) {
    static const size_t all[] = {NUVALETA_NODE_WORDS, NUVALETA_EDGE_WORDS, sizeof store, NUVALETA_IMPORT_WORDS, NUVALETA_INCLUDE_WORDS, NUVALETA_LEVEL_WORDS};
    return drawn(all);
}

static void copy(struct form *form, const uint8_t *bytes, size_t length) {
    memcpy(form->bytes, bytes, length);
    form->length = length;
}

/* Modules a and m, m with submodule s; and a deviates from m. What the text of m says. A graph does not ask whether a text is cut short. */
static void graph_refusals(void) {
    static const struct {
        const char *text;
        uint32_t number, entry, scan[3];
    } all[] = {
        {"", 0, 0, {0}},
        {"x \"abc", 0, 0, {0}},
        {"import", NUVALETA_SCAN_REFUSED, 2, {NUVALETA_NO_VALUE, NUVALETA_IMPORT, 6}},
        {"import \"a", NUVALETA_SCAN_REFUSED, 2, {NUVALETA_NO_VALUE, NUVALETA_IMPORT, 9}},
        {"import s{prefix p;}", NUVALETA_UNKNOWN_MODULE, 2, {0}},
        {"include a;", NUVALETA_UNKNOWN_SUBMODULE, 2, {0}},
        {"include s;", NUVALETA_NO_INCLUDED_TEXT, 2, {0}},
    };

    copy(&image, BYTES("\1\2\1a\0\0\0\1m\1\1s\0\1\1a\0"));
    for (size_t i = 0; i < sizeof all / sizeof all[0]; i++) {
        copy(&bundle, BYTES("\2\1a\0\1m"));
        put_number(&bundle, (uint32_t)strlen(all[i].text));
        memcpy(bundle.bytes + bundle.length, all[i].text, strlen(all[i].text));
        bundle.length += strlen(all[i].text);
        expect(graph() == all[i].number && answer[NUVALETA_GRAPH_NUMBER] == all[i].number && answer[NUVALETA_GRAPH_ENTRY] == all[i].entry &&
                   answer[NUVALETA_GRAPH_SCAN_NUMBER] == all[i].scan[0] && answer[NUVALETA_GRAPH_SCAN_KEYWORD] == all[i].scan[1] &&
                   answer[NUVALETA_GRAPH_SCAN_POSITION] == all[i].scan[2] && answer[NUVALETA_GRAPH_FAULT] == 0,
               all[i].text);
        const int built = all[i].number == 0;
        expect(answer[NUVALETA_GRAPH_NODES] == (built ? 3u : 0u) && answer[NUVALETA_GRAPH_EDGES] == (built ? 1u : 0u), "the counts of a graph");
    }
    bundle.length = 1;
    expect(graph() == NUVALETA_BUNDLE_BROKEN && answer[NUVALETA_GRAPH_FAULT] == 1, "a broken bundle");
    bundle.bytes[0] = 0;
    expect(graph() == NUVALETA_NO_ENTRY_TEXT && answer[NUVALETA_GRAPH_ENTRY] == 1, "no text for an entry");
    copy(&image, BYTES("\2\1\1m\0\0\0\0\1\1m\1\1s\0\0\0"));
    copy(&bundle, BYTES("\1\1m\12include s;"));
    expect(graph() == (complete ? (uint32_t)NUVALETA_NO_INCLUDED_TEXT : (uint32_t)NUVALETA_NO_NODE), "a submodule of the second set alone");
    copy(&image, BYTES("\1\1\1m\1\1s\0\0\0"));
    copy(&bundle, BYTES("\2\1m\0\1s\12include s;"));
    expect(graph() == 0, "a text that nobody includes");
    copy(&bundle, BYTES("\2\1m\12include s;\1s\12include s;"));
    expect(graph() == NUVALETA_TOO_DEEP, "includes without end");
}

static void graph_lengths(void) {
    const size_t enough[] = {NUVALETA_NODE_WORDS, NUVALETA_EDGE_WORDS, 7, NUVALETA_IMPORT_WORDS, NUVALETA_INCLUDE_WORDS, NUVALETA_LEVEL_WORDS};
    size_t lent[6];

    copy(&image, BYTES("\0"));
    copy(&bundle, BYTES("\1\1m\7       "));
    for (size_t i = 0; i <= 6; i++) {
        memcpy(lent, enough, sizeof lent);
        if (i < 6)
            lent[i]--;
        expect(drawn(lent) == (i < 6 ? (uint32_t)NUVALETA_GRAPH_LENT_TOO_SHORT : 0u), "the lengths lent to a graph");
    }
}

/* 1,024 nodes, and one more; 8,192 edges, and one more. */
static void graph_limits(void) {
    for (uint32_t more = 0; more < 2; more++) {
        image.length = 0;
        put_number(&image, 1);
        put_number(&image, 16 + more);
        for (uint32_t i = 0; i < 16 + more; i++)
            put_module(i, i < 16 ? NUVALETA_NODES_MOST / 16 - 1 : 0, 0, 0, 0);
        put_number(&image, 0);
        put_texts(16);
        expect(graph() == (more == 0 ? 0u : (uint32_t)NUVALETA_TOO_MANY_NODES) && answer[NUVALETA_GRAPH_NODES] == NUVALETA_NODES_MOST * (1 - more),
               "the most nodes");

        image.length = 0;
        put_number(&image, 1);
        put_number(&image, 129);
        for (uint32_t i = 0; i < 129; i++)
            put_module(i, 0, i % 2 * 64, i < 128 ? NUVALETA_EDGES_MOST / 128 : 0, i < 128 ? 0 : more);
        put_number(&image, 0);
        put_texts(129);
        expect(graph() == (more == 0 ? 0u : (uint32_t)NUVALETA_TOO_MANY_EDGES) && answer[NUVALETA_GRAPH_EDGES] == NUVALETA_EDGES_MOST * (1 - more),
               "the most edges");
    }
    expect(NUVALETA_NODES_MOST * NUVALETA_NODE_ROW == NUVALETA_NODE_WORDS && NUVALETA_EDGES_MOST * NUVALETA_EDGE_ROW == NUVALETA_EDGE_WORDS,
           "the rows of nodes and edges");
}

/* 1,023 nodes, and then the first module once more in another set, with up to two submodules more. */
static void complete_limit(void) {
    for (uint32_t more = 0; more <= 2; more++) {
        const uint32_t due = NUVALETA_NODES_MOST - 1 + (complete ? more : 0);
        image.length = 0;
        put_number(&image, 2);
        put_number(&image, 16);
        for (uint32_t i = 0; i < 16; i++)
            put_module(i, i > 0 ? NUVALETA_NODES_MOST / 16 - 1 : NUVALETA_NODES_MOST / 16 - 2, 0, 0, 0);
        put_number(&image, 0);
        put_number(&image, 1);
        put_name(&image, 0, 2);
        put_names(&image, 8000, more);
        put_number(&image, 0), put_number(&image, 0), put_number(&image, 0);
        put_texts(16);
        expect(graph() == (due <= NUVALETA_NODES_MOST ? 0u : (uint32_t)NUVALETA_TOO_MANY_NODES) && answer[NUVALETA_GRAPH_ENTRY] == 0 &&
                   answer[NUVALETA_GRAPH_NODES] == (due <= NUVALETA_NODES_MOST ? due : 0),
               "the most nodes where a name comes again");
    }
}

static void order_limits(void) {
    const size_t node_words = sizeof nodes / sizeof nodes[0], edge_words = sizeof edges / sizeof edges[0], words = sizeof order / sizeof order[0];

    memset(edges, 0, sizeof edges);
    for (size_t i = 0; i < edge_words; i += NUVALETA_EDGE_ROW)
        edges[i + NUVALETA_EDGE_TO] = 1;
    expect(nuvaleta_order(nodes, node_words, NUVALETA_NODES_MOST, edges, edge_words, NUVALETA_EDGES_MOST, order, NUVALETA_ORDER_WORDS, answer) == 0 &&
               answer[NUVALETA_ORDER_NUMBER] == 0 && answer[NUVALETA_ORDER_LENGTH] == NUVALETA_NODES_MOST,
           "the order of the most nodes and edges");
    expect(nuvaleta_order_check(nodes, node_words, NUVALETA_NODES_MOST, edges, edge_words, NUVALETA_EDGES_MOST, order, NUVALETA_NODES_MOST - 1, answer) ==
                   NUVALETA_LIST_WRONG &&
               answer[NUVALETA_CHECK_NUMBER] == NUVALETA_LIST_WRONG && answer[NUVALETA_CHECK_PLACE] == NUVALETA_NODES_MOST - 1,
           "a list without its last node");
    expect(nuvaleta_order(nodes, node_words, NUVALETA_NODES_MOST, edges, edge_words, NUVALETA_EDGES_MOST, order, NUVALETA_ORDER_WORDS - 1, answer) ==
               NUVALETA_ORDER_TOO_SHORT,
           "a short order table");
    expect(nuvaleta_order(nodes, node_words, NUVALETA_NODES_MOST + 1, edges, edge_words, 0, order, words, answer) == NUVALETA_TABLES_UNFIT, "too many nodes");
    expect(nuvaleta_order(nodes, node_words, 2, edges, edge_words, NUVALETA_EDGES_MOST + 1, order, words, answer) == NUVALETA_TABLES_UNFIT, "too many edges");
}

/* An answer ends with the last word that has a name. */
static void answer_words(void) {
    expect(NUVALETA_DEPENDENCIES_ANSWER == NUVALETA_DEPENDENCIES_STORED + 1 && NUVALETA_PRINTED_ANSWER == NUVALETA_PRINTED_LENGTH + 1 &&
               NUVALETA_METADATA_ANSWER == NUVALETA_METADATA_STORED + 1 && NUVALETA_FIND_ANSWER == NUVALETA_FIND_REVISIONS + 1 &&
               NUVALETA_TEXT_ANSWER == NUVALETA_TEXT_LENGTH + 1 && NUVALETA_GRAPH_ANSWER == NUVALETA_GRAPH_EDGES + 1 &&
               NUVALETA_ORDER_ANSWER == NUVALETA_ORDER_LENGTH + 1 && NUVALETA_CHECK_ANSWER == NUVALETA_CHECK_PLACE + 1,
           "the words of an answer");
}

int main(void) {
    answer_words();
    for (whole = 0; whole < 2; whole++) {
        scan_refusals();
        scan_limits();
        scan_words();
        record_words();
    }
    image_limits();
    bundle_limits();
    for (complete = 0; complete < 2; complete++) {
        graph_refusals();
        graph_lengths();
        graph_limits();
        complete_limit();
    }
    order_limits();
    return 0;
}
