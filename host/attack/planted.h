/* Faults put on purpose between the harness and the port, to see that each is noticed: in a build with -DPLANTED the one that --planted=N names. */
#ifndef PLANTED_H
#define PLANTED_H

enum planted {
    BEHIND_STORE = 1,   /* a byte written behind the store */
    BEFORE_TEXT,        /* a byte read before the text */
    TEXT_WRITTEN,       /* a byte written to the text, the one that is there */
    LEFT_ON_REFUSAL,    /* the last import word not zero on a refusal */
    LEFT_BEHIND,        /* the last import word not zero where there is none */
    OTHER_NUMBER,       /* another number returned than answered */
    OF_ANOTHER_CALL,    /* the number of another call's refusal */
    OUTSIDE_STORE,      /* a name's start behind what is stored */
    AS_IT_WAS,          /* a byte of the store that is what it was before */
    LEVELS_DIRTY,       /* scratch of a graph not zero */
    EDGE_TWICE,         /* an edge of a graph twice */
    ORDER_TURNED,       /* an order backwards */
    ANY_LIST,           /* a check that accepts every list */
    NULL_READ,          /* a text of length 0 read */
    DEEP_REFUSAL,       /* a byte written behind the store of a graph at 28 alone */
    PASSED_OVER,        /* the graph without complete nodes in the place of the one with them */
    NODES_TURNED,       /* the first two nodes of a graph exchanged */
    MEMORY_LEFT,        /* what is remembered of a text not zero: that one include lies below the second node's */
    MEMORY_TRUSTED,     /* a graph that takes the words it is lent for what it remembers: the text of its second node was read, so its edges are missing */
    NEVER_ENDS,         /* one graph that never ends */
    CUT_PASSED,         /* the old mode in the place of the whole-text mode */
    CUT_IN_OLD,         /* the whole-text mode in the place of the old mode */
    CUT_BEFORE,         /* 11 in the place of 7 */
    CUT_KEYWORD,        /* a keyword with 11 */
    CUT_PLACE,          /* 11 at another place than the text's end */
    CUT_LEFT,           /* the record not zero at 11 */
    WHOLE_OTHERWISE,    /* a name in the store that is another one in the whole-text mode */
    WRONG_MOVED,        /* 12 one byte behind the wrong sequence */
    WRONG_AS_HIGH,      /* 3 in the place of 12 */
    HIGH_KEYWORD,       /* a keyword with 3 */
    HIGH_AS_OTHER,      /* 5 in the place of 3 */
    HIGH_MOVED,         /* 3 at another place */
    VALUE_TORN          /* a value with half a character */
};

static volatile uint8_t planted_sink;

static uint32_t planted_dependencies(const uint8_t *text, size_t text_len, uint8_t *store, size_t store_len, uint32_t *imports, size_t imports_len,
                                     uint32_t *includes, size_t includes_len, uint32_t *answer) {
    const uint8_t was = store_len != 0 ? store[0] : 0;
    uint32_t number = (call_planted == CUT_IN_OLD ? nuvaleta_dependencies_whole : nuvaleta_dependencies)(text, text_len, store, store_len, imports, imports_len,
                                                                                                         includes, includes_len, answer);
    if (call_planted == BEHIND_STORE)
        store[store_len] = 1;
    if (call_planted == BEFORE_TEXT || (call_planted == NULL_READ && text_len == 0))
        planted_sink = text[call_planted == BEFORE_TEXT ? -1 : 0];
    if (call_planted == TEXT_WRITTEN && text_len != 0)
        ((volatile uint8_t *)text)[0] = text[0];
    if ((call_planted == LEFT_ON_REFUSAL && number != 0 && imports_len != 0) || (call_planted == LEFT_BEHIND && number == 0))
        imports[imports_len - 1] = 1;
    if (call_planted == OUTSIDE_STORE && number == 0 && answer[3] != 0)
        imports[0] = answer[5];
    if (call_planted == AS_IT_WAS && number == 0 && answer[5] != 0)
        store[0] = was;
    if (call_planted == OF_ANOTHER_CALL && number == 4)
        answer[0] = number = 9;
    if (call_planted == WRONG_MOVED && number == NUVALETA_NOT_UTF8)
        answer[2]++;
    if (call_planted == WRONG_AS_HIGH && number == NUVALETA_NOT_UTF8)
        answer[0] = number = NUVALETA_HIGH_BYTE;
    if ((call_planted == HIGH_KEYWORD || call_planted == HIGH_AS_OTHER) && number == NUVALETA_HIGH_BYTE)
        answer[1] = NUVALETA_IMPORT;
    if (call_planted == HIGH_AS_OTHER && number == NUVALETA_HIGH_BYTE)
        answer[0] = number = NUVALETA_OTHER_BYTE;
    if (call_planted == HIGH_MOVED && number == NUVALETA_HIGH_BYTE)
        answer[2]++;
    for (size_t i = 0; call_planted == VALUE_TORN && number == 0 && i < answer[5]; i++)
        store[i] |= 128;
    return call_planted == OTHER_NUMBER && number == 4 ? 5 : number;
}

static uint32_t planted_dependencies_whole(const uint8_t *text, size_t text_len, uint8_t *store, size_t store_len, uint32_t *imports, size_t imports_len,
                                           uint32_t *includes, size_t includes_len, uint32_t *answer) {
    uint32_t number = (call_planted == CUT_PASSED ? nuvaleta_dependencies : nuvaleta_dependencies_whole)(text, text_len, store, store_len, imports, imports_len,
                                                                                                         includes, includes_len, answer);
    if (call_planted == CUT_BEFORE && number == NUVALETA_NO_PREFIX) {
        answer[0] = number = NUVALETA_CUT_SHORT;
        answer[1] = NUVALETA_NO_KEYWORD;
        answer[2] = text_len;
    }
    if (call_planted == CUT_KEYWORD && number == NUVALETA_CUT_SHORT)
        answer[1] = NUVALETA_IMPORT;
    if (call_planted == CUT_PLACE && number == NUVALETA_CUT_SHORT)
        answer[2]--;
    if (call_planted == WHOLE_OTHERWISE && number == 0 && answer[5] != 0)
        store[0] ^= 1;
    return number;
}

static uint32_t planted_metadata_whole(const uint8_t *text, size_t text_len, uint8_t *store, size_t store_len, uint32_t *record, uint32_t *answer) {
    const uint32_t number = nuvaleta_metadata_whole(text, text_len, store, store_len, record, answer);
    if (call_planted == CUT_LEFT && number == NUVALETA_CUT_SHORT)
        record[NUVALETA_RECORD_WORDS - 1] = 1;
    return number;
}

typedef uint32_t graph_call(const uint8_t *, size_t, const uint8_t *, size_t, uint32_t *, size_t, uint32_t *, size_t, uint8_t *, size_t, uint32_t *, size_t,
                            uint32_t *, size_t, uint32_t *, size_t, uint32_t *);

static uint32_t planted_graph(graph_call *call, const uint8_t *image, size_t image_len, const uint8_t *bundle, size_t bundle_len, uint32_t *nodes,
                              size_t nodes_len, uint32_t *edges, size_t edges_len, uint8_t *store, size_t store_len, uint32_t *imports,
                              size_t imports_len, uint32_t *includes, size_t includes_len, uint32_t *levels, size_t levels_len, uint32_t *answer) {
    /* the memory has two words for each node: whether its text was read (2), and how many includes lie below it */
    const int read_before = levels_len >= NUVALETA_LEVEL_WORDS && levels[2] == 2;
    static volatile int once;
    const uint32_t number = call(image, image_len, bundle, bundle_len, nodes, nodes_len, edges, edges_len, store, store_len, imports, imports_len,
                                 includes, includes_len, levels, levels_len, answer);
    if (call_planted == LEVELS_DIRTY && levels_len != 0)
        levels[levels_len - 1] = 1;
    if (call_planted == MEMORY_LEFT && number == 0)
        levels[3] = 1;
    if (call_planted == MEMORY_TRUSTED && read_before && number == 0 && answer[7] != 0) {
        answer[7]--;
        memset(edges + 2 * answer[7], 0, 2 * sizeof *edges);
    }
    if (call_planted == NEVER_ENDS && number == NUVALETA_TOO_DEEP && !once)
        for (once = 1;;)
            planted_sink = 0;
    if (call_planted == EDGE_TWICE && number == 0 && answer[7] > 1)
        memcpy(edges + 2, edges, 2 * sizeof *edges);
    if (call_planted == DEEP_REFUSAL && number == NUVALETA_NO_NODE)
        store[store_len] = 1;
    for (size_t i = 0; call_planted == NODES_TURNED && number == 0 && answer[6] > 1 && i < 2; i++) {
        const uint32_t word = nodes[i];
        nodes[i] = nodes[2 + i];
        nodes[2 + i] = word;
    }
    return number;
}

static uint32_t planted_order(const uint32_t *nodes, size_t nodes_len, size_t node_count, const uint32_t *edges, size_t edges_len, size_t edge_count,
                              uint32_t *order, size_t order_len, uint32_t *answer) {
    const uint32_t number = nuvaleta_order(nodes, nodes_len, node_count, edges, edges_len, edge_count, order, order_len, answer);
    for (size_t i = 0; call_planted == ORDER_TURNED && number == 0 && i < node_count; i++)
        order[i] = node_count - 1 - i;
    return number;
}

static uint32_t planted_order_check(const uint32_t *nodes, size_t nodes_len, size_t node_count, const uint32_t *edges, size_t edges_len,
                                    size_t edge_count, const uint32_t *list, size_t list_len, uint32_t *answer) {
    const uint32_t number = nuvaleta_order_check(nodes, nodes_len, node_count, edges, edges_len, edge_count, list, list_len, answer);
    if (call_planted != ANY_LIST || number != NUVALETA_LIST_WRONG)
        return number;
    answer[0] = answer[1] = 0;
    return 0;
}

#define nuvaleta_dependencies planted_dependencies
#define nuvaleta_dependencies_whole planted_dependencies_whole
#define nuvaleta_metadata_whole planted_metadata_whole
#define nuvaleta_graph(...) planted_graph(nuvaleta_graph, __VA_ARGS__)
#define nuvaleta_graph_complete(...) planted_graph(call_planted == PASSED_OVER ? nuvaleta_graph : nuvaleta_graph_complete, __VA_ARGS__)
#define nuvaleta_order planted_order
#define nuvaleta_order_check planted_order_check

#endif
