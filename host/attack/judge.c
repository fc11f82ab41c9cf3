#include "judge.h"

#include <string.h>

#include "form.h"
#include "nuvaleta.h"

#define BIT(n) (1ull << (n))
#define TO(from, to) ((BIT((to) - (from) + 1) - 1) << (from))

/* A call's answer: its words, the numbers that it may have, and which words are zero on a refusal, and where there is none. */
static const struct rule {
    size_t words;
    uint64_t numbers, zero_refused, zero_good;
} rules[CALLS] = {
    {6, TO(0, 8) | BIT(10) | BIT(12), TO(3, 5), TO(1, 2)},
    {7, TO(0, 8) | BIT(10) | BIT(12), TO(3, 6), TO(1, 2)},
    {4, TO(0, 6) | BIT(9) | BIT(12), BIT(3), TO(1, 2)},
    {6, TO(0, 8) | TO(10, 12), TO(3, 5), TO(1, 2)},
    {7, TO(0, 8) | TO(10, 12), TO(3, 6), TO(1, 2)},
    {4, TO(0, 6) | BIT(9) | TO(11, 12), BIT(3), TO(1, 2)},
    {5, BIT(0) | BIT(20), TO(2, 4), BIT(1)},
    {5, BIT(0) | BIT(20), TO(2, 4), BIT(1)},
    {5, BIT(0) | BIT(20), TO(2, 4), BIT(1)},
    {5, BIT(0) | BIT(21), TO(2, 4), BIT(1)},
    {8, BIT(0) | TO(20, 31), TO(6, 7), TO(1, 5)},
    {8, BIT(0) | (TO(20, 31) & ~BIT(28)), TO(6, 7), TO(1, 5)},
    {2, BIT(0) | BIT(40) | BIT(41) | BIT(43), 0, 0},
    {2, BIT(0) | BIT(42) | BIT(43), 0, BIT(1)},
};

size_t judge_words(enum call call) { return rules[call].words; }

/* ---- zeros */

static int is_zero(const uint8_t *at, size_t size) { return size == 0 || (at[0] == 0 && memcmp(at, at + 1, size - 1) == 0); }

/* How many bytes of a written buffer are used. */
static size_t used(const struct asked *a, size_t i) {
    const uint32_t *answer = a->answer;
    const enum call call = call_old(a->given->call);
    if (call == ORDER)
        return a->number == 0 || a->number == NUVALETA_CYCLE ? answer[1] * sizeof(uint32_t) : 0;
    if (a->number != 0)
        return 0;
    if (call == METADATA)
        return answer[3];
    if (call_draws(call))
        return i == G_NODES || i == G_EDGES ? answer[6 + i] * 2 * sizeof(uint32_t) : 0;
    const size_t scanned[] = {answer[5], answer[3] * NUVALETA_IMPORT_ROW * sizeof(uint32_t), answer[4] * NUVALETA_INCLUDE_ROW * sizeof(uint32_t),
                              call == PRINTED ? answer[6] : 0};
    return scanned[i];
}

const char *judge_zeros(const struct asked *a) {
    const struct rule *rule = &rules[a->given->call];
    const uint64_t zero = a->number == 0 ? rule->zero_good : rule->zero_refused;
    for (size_t i = 0; i < rule->words; i++)
        if ((zero >> i & 1) != 0 && a->answer[i] != 0)
            return "a word of the answer";
    for (size_t i = 0; i < a->writes; i++) {
        const size_t from = used(a, i);
        if (from <= a->sizes[i] && !is_zero((const uint8_t *)a->written[i] + from, a->sizes[i] - from))
            return a->number == 0 ? "a buffer behind what is used" : "a buffer on a refusal";
    }
    if (a->number != 0 && a->record != NULL && !is_zero((const uint8_t *)a->record, NUVALETA_RECORD_WORDS * sizeof *a->record))
        return "the record on a refusal";
    return NULL;
}

/* ---- scans */

static int is_short(const struct given *g) {
    const size_t text = g->read[0].length, *lent = g->written;
    const enum call call = call_old(g->call);
    if (lent[0] < text)
        return 1;
    if (call == METADATA)
        return 0;
    return lent[1] < NUVALETA_IMPORT_WORDS || lent[2] < NUVALETA_INCLUDE_WORDS || (call == PRINTED && lent[3] < text + NUVALETA_PAGE_MORE);
}

/* How many bytes the character here has, by the lines of RFC 3629's section 4; 0 if there is none. */
static size_t character(const uint8_t *bytes, size_t length) {
    static const struct line {
        uint8_t first[2], second[2];
        size_t size;
    } lines[] = {
        {{0x00, 0x7f}, {0, 0}, 1},       {{0xc2, 0xdf}, {0x80, 0xbf}, 2}, {{0xe0, 0xe0}, {0xa0, 0xbf}, 3},
        {{0xe1, 0xec}, {0x80, 0xbf}, 3}, {{0xed, 0xed}, {0x80, 0x9f}, 3}, {{0xee, 0xef}, {0x80, 0xbf}, 3},
        {{0xf0, 0xf0}, {0x90, 0xbf}, 4}, {{0xf1, 0xf3}, {0x80, 0xbf}, 4}, {{0xf4, 0xf4}, {0x80, 0x8f}, 4},
    };
    for (const struct line *line = lines; line < lines + sizeof lines / sizeof lines[0]; line++) {
        if (length < line->size || bytes[0] < line->first[0] || bytes[0] > line->first[1])
            continue;
        size_t good = 1;
        while (good < line->size && bytes[good] >= (good == 1 ? line->second[0] : 0x80) && bytes[good] <= (good == 1 ? line->second[1] : 0xbf))
            good++;
        if (good == line->size)
            return good;
    }
    return 0;
}

/* Where the first bytes begin that are no character's, or the end. */
static size_t wrong_from(const uint8_t *bytes, size_t length) {
    size_t at = 0;
    for (size_t size = 1; size != 0 && at < length; at += size)
        size = character(bytes + at, length - at);
    return at;
}

/* The keywords that may come with a number of 4 or more. */
static uint64_t keywords(enum call call, uint32_t number) {
    if (number == NUVALETA_CUT_SHORT || number == NUVALETA_NOT_UTF8)
        return BIT(0);
    if (call_old(call) == METADATA)
        return number == 9 ? BIT(0) : TO(1, 7) & ~(number == 4 ? BIT(6) : BIT(3));
    if (number == 7)
        return BIT(8);
    return number <= 6 ? BIT(5) | TO(8, 10) : TO(8, 9);
}

/* What the header says of the position at 4 to 8, 10 and 11: the end, or a byte below 128, since one above is 3; another byte; the end, behind a brace, behind
 * the keyword. */
static int is_placed(const struct read *text, uint32_t number, uint32_t keyword, size_t at) {
    const char *bytes = text->at, *word = keyword == NUVALETA_IMPORT ? "import" : "include";
    const size_t length = strlen(word);
    switch (number) {
    case NUVALETA_NO_VALUE: return at == text->length || (uint8_t)bytes[at] < 128;
    case NUVALETA_OTHER_BYTE: return at < text->length && (uint8_t)bytes[at] < 128;
    case NUVALETA_END_OF_TEXT:
    case NUVALETA_OPEN_ENDED:
    case NUVALETA_CUT_SHORT: return at == text->length;
    case NUVALETA_NO_PREFIX: return at != 0 && bytes[at - 1] == '}';
    case NUVALETA_TOO_MANY: return at >= length && memcmp(bytes + at - length, word, length) == 0;
    default: return 1;
    }
}

static const char *judge_refused_scan(const struct asked *a) {
    const struct given *g = a->given;
    const uint32_t *answer = a->answer;
    if (answer[2] > g->read[0].length)
        return "a position behind the text";
    if (a->number <= 2)
        return answer[1] == 0 && answer[2] == 0 ? NULL : "a keyword or a position at 1 or 2";
    if (a->number == NUVALETA_HIGH_BYTE) {
        const uint8_t *met = (const uint8_t *)g->read[0].at + answer[2];
        return answer[1] != 0 ? "a keyword at 3" : answer[2] < g->read[0].length && *met > 0xbf ? NULL : "3 where no character above 127 begins";
    }
    if (answer[1] >= 64 || (keywords(g->call, a->number) >> answer[1] & 1) == 0)
        return "a keyword that does not come with this number";
    return is_placed(&g->read[0], a->number, answer[1], answer[2]) ? NULL : "a position that does not come with this number";
}

/* 1, 2 and 12 are given exactly when they are due. */
static const char *judge_first(const struct asked *a) {
    const struct given *g = a->given;
    const size_t length = g->read[0].length, wrong = length > NUVALETA_TEXT_MOST ? length : wrong_from(g->read[0].at, length);
    const uint32_t due = length > NUVALETA_TEXT_MOST ? 1 : is_short(g) ? 2 : wrong < length ? NUVALETA_NOT_UTF8 : 0, first = a->number;
    if (due != 0 ? first != due : first == 1 || first == 2 || first == NUVALETA_NOT_UTF8)
        return "another number than 1, 2 or 12 as it is due";
    return due == NUVALETA_NOT_UTF8 && a->answer[2] != wrong ? "another place of the first wrong sequence" : NULL;
}

/* What is stored: the bytes, and how many. */
struct stored {
    const uint8_t *at;
    size_t length;
};

/* A mark, a start and a length: a missing value has 0 and 0, a present one lies in what is stored, and is UTF-8. */
static int is_span(const uint32_t *words, struct stored in) {
    if (words[0] == 0)
        return words[1] == 0 && words[2] == 0;
    return words[0] == 1 && words[1] <= in.length && words[2] <= in.length - words[1] && wrong_from(in.at + words[1], words[2]) == words[2];
}

static int are_spans(const uint32_t *table, size_t rows, size_t row, struct stored in) {
    for (size_t i = 0; i < rows; i++, table += row) {
        const uint32_t name[3] = {1, table[0], table[1]}, prefix[3] = {1, table[2], table[3]};
        if (!is_span(name, in) || !is_span(table + row - 3, in) || (row == NUVALETA_IMPORT_ROW && !is_span(prefix, in)))
            return 0;
    }
    return 1;
}

static const char *judge_scan(const struct asked *a) {
    const uint32_t *answer = a->answer;
    const char *what = judge_first(a);
    if (what != NULL || a->number != 0)
        return what != NULL ? what : judge_refused_scan(a);
    if (answer[5] > a->given->read[0].length)
        return "more stored than the text has";
    if (answer[3] * NUVALETA_IMPORT_ROW > NUVALETA_IMPORT_WORDS || answer[4] * NUVALETA_INCLUDE_ROW > NUVALETA_INCLUDE_WORDS)
        return "too many rows";
    const struct stored in = {a->written[0], answer[5]};
    if (!are_spans(a->written[1], answer[3], NUVALETA_IMPORT_ROW, in) || !are_spans(a->written[2], answer[4], NUVALETA_INCLUDE_ROW, in))
        return "a span outside what is stored, or a value that is not UTF-8";
    if (call_old(a->given->call) != PRINTED)
        return NULL;
    if (answer[6] > a->given->read[0].length + NUVALETA_PAGE_MORE)
        return "a page that is too long";
    return wrong_from(a->written[3], answer[6]) == answer[6] ? NULL : "a page that is not UTF-8";
}

static const char *judge_metadata(const struct asked *a) {
    const char *what = judge_first(a);
    if (what != NULL || a->number != 0)
        return what != NULL ? what : judge_refused_scan(a);
    if (a->answer[3] > a->given->read[0].length)
        return "more stored than the text has";
    if (a->record[3 * NUVALETA_VALUE_NAME] != 1)
        return "no name";
    for (size_t v = 0; v < NUVALETA_RECORD_WORDS; v += 3)
        if (!is_span(a->record + v, (struct stored){a->written[0], a->answer[3]}))
            return "a value outside what is stored, or one that is not UTF-8";
    return NULL;
}

/* ---- image and bundle */

static const char *judge_find(const struct asked *a) {
    const struct found due = form_find(a->given->call, a->given->read[0], a->given->read[1]);
    const uint32_t *answer = a->answer;
    if ((a->number != 0) != due.broken || answer[1] != due.fault)
        return "refused or not as is due, or another place of the fault";
    return answer[2] == (uint32_t)due.found && answer[3] == due.place && answer[4] == due.more ? NULL : "another thing found";
}

/* ---- graphs */

static const char *judge_refused_graph(const struct asked *a) {
    const uint32_t *answer = a->answer, number = a->number;
    const struct given *g = a->given;
    if ((answer[1] != 0) != (number >= 23 && number != NUVALETA_TOO_MANY_NODES))
        return "an entry before the walk, or none in it";
    const uint64_t scans = BIT(1) | TO(3, 8) | BIT(10) | BIT(12);
    if (number == NUVALETA_SCAN_REFUSED ? answer[2] >= 64 || (scans >> answer[2] & 1) == 0 : (answer[2] | answer[3] | answer[4]) != 0)
        return "a scan's answer but at 25, or there one that a scan does not give";
    if (number != NUVALETA_IMAGE_BROKEN && number != NUVALETA_BUNDLE_BROKEN)
        return answer[5] == 0 ? NULL : "a place where nothing is broken";
    return answer[5] <= g->read[number - NUVALETA_IMAGE_BROKEN].length ? NULL : "a place behind the form";
}

/* Places and lengths of names in the image, each name once. */
static const char *judge_nodes(const struct asked *a, const uint32_t *nodes, size_t count) {
    static struct rows rows;
    const struct read *image = &a->given->read[0];
    memset(&rows, 0, sizeof rows);
    for (size_t i = 0; i < count; i++) {
        const uint32_t *node = nodes + 2 * i;
        if (node[1] == 0 || node[1] > NUVALETA_NAME_MOST || node[0] > image->length || node[1] > image->length - node[0])
            return "a node outside the image";
        if (form_comes_again(image->at, node, &rows))
            return "a name that is two nodes";
    }
    return NULL;
}

/* With complete nodes these are all names, each at its first place, and 30 comes exactly when they are too many. */
static const char *judge_complete(const struct asked *a) {
    static uint32_t nodes[2 * (NUVALETA_NODES_MOST + 1)];
    const size_t count = form_nodes(a->given->read[0], nodes);
    if ((a->number == NUVALETA_TOO_MANY_NODES) != (count > NUVALETA_NODES_MOST))
        return "30 where it is not due, or another number where it is";
    if (a->number == 0 && (a->answer[6] != count || memcmp(a->written[G_NODES], nodes, count * 2 * sizeof *nodes) != 0))
        return "other nodes than the complete ones";
    return NULL;
}

/* Each edge once, between two nodes. */
static const char *judge_edges(const uint32_t *edges, size_t count, size_t nodes) {
    static uint8_t there[NUVALETA_NODES_MOST][NUVALETA_NODES_MOST / 8];
    memset(there, 0, nodes * sizeof there[0]);
    for (size_t i = 0; i < count; i++) {
        const uint32_t from = edges[2 * i], to = edges[2 * i + 1];
        if (from >= nodes || to >= nodes)
            return "an edge with a number that is no node";
        if ((there[from][to / 8] >> to % 8 & 1) != 0)
            return "an edge twice";
        there[from][to / 8] |= 1u << to % 8;
    }
    return NULL;
}

static const char *judge_graph(const struct asked *a) {
    const struct given *g = a->given;
    const uint32_t number = a->number;
    const int lent = g->written[G_NODES] >= NUVALETA_NODE_WORDS && g->written[G_EDGES] >= NUVALETA_EDGE_WORDS &&
                     g->written[G_IMPORTS] >= NUVALETA_IMPORT_WORDS && g->written[G_INCLUDES] >= NUVALETA_INCLUDE_WORDS &&
                     g->written[G_LEVELS] >= NUVALETA_LEVEL_WORDS;
    const struct found image = form_find(FIND_MODULE, g->read[0], (struct read){"", 0}), bundle = form_find(TEXT, g->read[1], (struct read){"", 0});
    const uint32_t due = image.broken ? 20 : bundle.broken ? 21 : !lent || g->written[G_STORE] < bundle.longest ? 22 : 0;
    if (due != 0 ? number != due : number >= 20 && number <= 22)
        return "another number than 20, 21 or 22 as it is due";
    if (due != 0 && a->answer[5] != (image.broken ? image.fault : bundle.broken ? bundle.fault : 0))
        return "another place of the fault";
    const char *what = due == 0 && g->call == GRAPH_COMPLETE ? judge_complete(a) : NULL;
    if (what != NULL || number != 0)
        return what != NULL ? what : judge_refused_graph(a);
    const uint32_t nodes = a->answer[6], edges = a->answer[7];
    if (nodes > NUVALETA_NODES_MOST || edges > NUVALETA_EDGES_MOST)
        return "too many nodes or edges";
    what = judge_nodes(a, a->written[G_NODES], nodes);
    return what != NULL ? what : judge_edges(a->written[G_EDGES], edges, nodes);
}

/* ---- orders */

/* Whether 43 is due. */
static int unfit(const struct given *g) {
    const size_t nodes = g->counts[0], edges = g->counts[1];
    const uint32_t *table = g->read[1].at;
    if (nodes > NUVALETA_NODES_MOST || edges > NUVALETA_EDGES_MOST || g->read[0].length < 2 * nodes || g->read[1].length < 2 * edges)
        return 1;
    for (size_t i = 0; i < 2 * edges; i++)
        if (table[i] >= nodes)
            return 1;
    return 0;
}

/* The first place of a list that is wrong, by one look at each edge; the list's end if it is too short, and nodes if it is right. */
static size_t wrong_place(const struct given *g, const uint32_t *list, size_t length) {
    static size_t places[NUVALETA_NODES_MOST];
    const size_t nodes = g->counts[0];
    const uint32_t *edges = g->read[1].at;
    size_t good = 0;
    for (size_t i = 0; i < nodes; i++)
        places[i] = SIZE_MAX;
    while (good < length && list[good] < nodes && places[list[good]] == SIZE_MAX) {
        places[list[good]] = good;
        good++;
    }
    for (size_t i = 0; i < g->counts[1]; i++) {
        const size_t from = places[edges[2 * i]], to = places[edges[2 * i + 1]];
        if (to < good && from >= to)
            good = to;
    }
    return good;
}

/* The nodes that are left over when none is free, and the lowest of them that has an edge to each. */
static void leave(const struct given *g, uint8_t *left, uint32_t *before) {
    const uint32_t *edges = g->read[1].at;
    memset(left, 1, NUVALETA_NODES_MOST);
    for (int more = 1; more != 0;) {
        memset(before, 0xff, NUVALETA_NODES_MOST * sizeof *before);
        more = 0;
        for (size_t i = 0; i < g->counts[1]; i++)
            if (left[edges[2 * i]] && edges[2 * i] < before[edges[2 * i + 1]])
                before[edges[2 * i + 1]] = edges[2 * i];
        for (size_t v = 0; v < g->counts[0]; v++)
            if (left[v] && before[v] == UINT32_MAX)
                left[v] = 0, more = 1;
    }
}

/* The ring is the one that the header fixes. */
static const char *judge_ring(const struct given *g, const uint32_t *ring, size_t length) {
    static uint8_t left[NUVALETA_NODES_MOST], met[NUVALETA_NODES_MOST];
    static uint32_t before[NUVALETA_NODES_MOST];
    size_t first = 0, v, count = 0;
    leave(g, left, before);
    while (first < g->counts[0] && !left[first])
        first++;
    if (first == g->counts[0] || length == 0)
        return "a ring where there is none";
    memset(met, 0, sizeof met);
    for (v = first; !met[v]; v = before[v])
        met[v] = 1;
    uint32_t low = v;
    for (uint32_t u = before[v]; u != v; u = before[u])
        low = u < low ? u : low;
    for (uint32_t u = low; count == 0 || u != low; u = before[u], count++)
        if (count >= length || ring[(length - count) % length] != u)
            return "another ring than the one from the lowest node left over";
    return count == length ? NULL : "a ring of another length";
}

/* A right order in which nothing lower was free: between a node and the last one before it that has an edge to it stand only lower ones. */
static const char *judge_taken(const struct given *g, const uint32_t *order) {
    static size_t places[NUVALETA_NODES_MOST], after[NUVALETA_NODES_MOST];
    const size_t nodes = g->counts[0];
    const uint32_t *edges = g->read[1].at;
    if (wrong_place(g, order, nodes) != nodes)
        return "no order";
    for (size_t i = 0; i < nodes; i++) {
        places[order[i]] = i;
        after[i] = 0;
    }
    for (size_t i = 0; i < g->counts[1]; i++) {
        const size_t behind = places[edges[2 * i]] + 1, at = places[edges[2 * i + 1]];
        if (after[at] < behind)
            after[at] = behind;
    }
    for (size_t i = 0; i < nodes; i++)
        for (size_t k = after[i]; k < i; k++)
            if (order[k] > order[i])
                return "not the lowest node that is free";
    return NULL;
}

static const char *judge_order(const struct asked *a) {
    const struct given *g = a->given;
    const uint32_t due = unfit(g) ? NUVALETA_TABLES_UNFIT : g->written[0] < g->counts[0] ? NUVALETA_ORDER_TOO_SHORT : 0;
    if (due != 0)
        return a->number == due && a->answer[1] == 0 ? NULL : "another number than 41 or 43 as it is due";
    if (a->number == NUVALETA_CYCLE)
        return judge_ring(g, a->written[0], a->answer[1]);
    return a->number == 0 && a->answer[1] == g->counts[0] ? judge_taken(g, a->written[0]) : "another number or length than due";
}

static const char *judge_check(const struct asked *a) {
    const struct given *g = a->given;
    if (unfit(g))
        return a->number == NUVALETA_TABLES_UNFIT && a->answer[1] == 0 ? NULL : "another number than 43";
    const struct read *list = &g->read[2];
    const size_t good = wrong_place(g, list->at, list->length);
    const int right = good == g->counts[0] && list->length == good;
    if (right)
        return a->number == 0 ? NULL : "a right list refused";
    return a->number == NUVALETA_LIST_WRONG && a->answer[1] == good ? NULL : "a wrong list accepted, or another place";
}

const char *judge(const struct asked *a) {
    if (a->number != a->answer[0])
        return "returned another number than answered";
    if (a->number >= 64 || (rules[a->given->call].numbers >> a->number & 1) == 0)
        return "a number that this call does not give";
    for (size_t i = 0; i < a->writes; i++)
        if (used(a, i) > a->sizes[i])
            return "more used than lent";
    switch (call_old(a->given->call)) {
    case DEPENDENCIES:
    case PRINTED: return judge_scan(a);
    case METADATA: return judge_metadata(a);
    case GRAPH:
    case GRAPH_COMPLETE: return judge_graph(a);
    case ORDER: return judge_order(a);
    case ORDER_CHECK: return judge_check(a);
    default: return judge_find(a);
    }
}
