#include "form.h"

#include <string.h>

struct reader {
    const uint8_t *bytes;
    size_t length, at;
    enum call call;
    struct read name; /* that is looked for */
    struct found found;
    uint32_t *nodes; /* NULL where they are not asked for */
    size_t count;
    struct rows *rows;
    int is_node; /* the next name */
};

/* Names that must differ: where each begins, at its length. */
struct names {
    size_t count, starts[NUVALETA_TEXTS_MOST];
};

static size_t wrong(struct reader *r, size_t place) {
    if (!r->found.broken) {
        r->found.broken = 1;
        r->found.fault = place;
    }
    return 0;
}

static size_t number(struct reader *r, size_t least, size_t most) {
    const size_t start = r->at;
    size_t value = 0;
    for (unsigned i = 0; i < 3 && r->at < r->length; i++) {
        const uint8_t byte = r->bytes[r->at++];
        value += (size_t)(byte & 127) << 7 * i;
        if (byte < 128)
            return (i > 0 && byte == 0) || value < least || value > most ? wrong(r, start) : value;
    }
    return wrong(r, start);
}

int form_comes_again(const uint8_t *image, const uint32_t *node, struct rows *rows) {
    const size_t room = sizeof rows->at / sizeof rows->at[0];
    size_t at = 0;
    for (uint32_t i = 0; i < node[1]; i++)
        at = at * 31 + image[node[0] + i];
    for (at %= room; rows->at[at] != NULL; at = (at + 1) % room)
        if (rows->at[at][1] == node[1] && memcmp(image + rows->at[at][0], image + node[0], node[1]) == 0)
            return 1;
    rows->at[at] = node;
    return 0;
}

/* The name that was passed last, of this length, is a node if it is the first of its kind. */
static void add_node(struct reader *r, size_t length) {
    if (!r->is_node || r->nodes == NULL || r->count > NUVALETA_NODES_MOST)
        return;
    uint32_t *row = r->nodes + 2 * r->count;
    row[0] = r->at - length;
    row[1] = length;
    r->count += !form_comes_again(r->bytes, row, r->rows);
}

/* Passes a name, which must be none of these if there are any; answers whether it is the one that is looked for. */
static int is_name(struct reader *r, struct names *others) {
    const size_t start = r->at, length = number(r, 1, NUVALETA_NAME_MOST);
    if (r->found.broken || length > r->length - r->at)
        return (int)wrong(r, start);
    const uint8_t *name = r->bytes + r->at;
    r->at += length;
    for (size_t i = 0; i < length; i++)
        if (name[i] < 33 || name[i] > 126)
            return (int)wrong(r, start);
    const size_t whole = r->at - start;
    for (size_t i = 0; others != NULL && i < others->count; i++)
        if (memcmp(r->bytes + others->starts[i], r->bytes + start, whole) == 0) /* an earlier one has as many bytes behind it */
            return (int)wrong(r, start);
    if (others != NULL)
        others->starts[others->count++] = start;
    add_node(r, length);
    return length == r->name.length && memcmp(name, r->name.at, length) == 0;
}

static void hit(struct reader *r, int is, enum call call, size_t place, size_t more) {
    if (!is || r->call != call || r->found.found)
        return;
    r->found.found = 1;
    r->found.place = place;
    r->found.more = more;
}

/* A list of names; hits are of this call, if it is one. Those that are submodules are nodes. */
static void list(struct reader *r, enum call call, int differ) {
    static struct names others;
    others.count = 0;
    r->is_node = call == FIND_SUBMODULE || differ;
    for (size_t left = number(r, 0, NUVALETA_LIST_MOST); left > 0 && !r->found.broken; left--) {
        const int is = is_name(r, differ ? &others : NULL);
        hit(r, is, call, r->at - r->name.length, 0);
    }
}

static void set(struct reader *r) {
    static struct names modules, others;
    modules.count = others.count = 0;
    for (size_t left = number(r, 0, NUVALETA_MODULES_MOST); left > 0 && !r->found.broken; left--) {
        r->is_node = 1;
        const int is = is_name(r, &modules);
        hit(r, is, FIND_MODULE, r->at - r->name.length, 0);
        list(r, FIND_SUBMODULE, 0);
        list(r, CALLS, 0);
        list(r, CALLS, 0);
    }
    for (size_t left = r->found.broken ? 0 : number(r, 0, NUVALETA_MODULES_MOST); left > 0 && !r->found.broken; left--) {
        r->is_node = 1;
        const int is = is_name(r, &others);
        const size_t place = r->at - r->name.length, revisions = r->found.broken ? 0 : number(r, 1, NUVALETA_REVISIONS_MOST);
        hit(r, is, FIND_IMPORT_MODULE, place, revisions);
        for (size_t i = 0; i < revisions && !r->found.broken; i++)
            list(r, CALLS, 1);
    }
}

static void text(struct reader *r, struct names *others) {
    const int is = is_name(r, others);
    const size_t start = r->at, length = r->found.broken ? 0 : number(r, 0, NUVALETA_NUMBER_MOST);
    if (length > r->length - r->at)
        wrong(r, start);
    hit(r, is, TEXT, r->at, length);
    r->at += length;
    if (r->found.longest < length)
        r->found.longest = length;
}

static void whole(struct reader *r) {
    static struct names others;
    others.count = 0;
    for (size_t left = number(r, 0, r->call == TEXT ? NUVALETA_TEXTS_MOST : NUVALETA_SETS_MOST); left > 0 && !r->found.broken; left--)
        if (r->call == TEXT)
            text(r, &others);
        else
            set(r);
    if (!r->found.broken && r->at != r->length)
        wrong(r, r->at);
}

struct found form_find(enum call call, struct read form, struct read name) {
    struct reader r = {.bytes = form.at, .length = form.length, .call = call, .name = name};
    if (form.length > (call == TEXT ? NUVALETA_BUNDLE_MOST : NUVALETA_IMAGE_MOST))
        return (struct found){.broken = 1};
    whole(&r);
    if (r.found.broken)
        return (struct found){.broken = 1, .fault = r.found.fault};
    return r.found;
}

size_t form_nodes(struct read image, uint32_t *nodes) {
    static struct rows rows;
    struct reader r = {.bytes = image.at, .length = image.length, .call = CALLS, .name = {"", 0}, .nodes = nodes, .rows = &rows};
    memset(&rows, 0, sizeof rows);
    whole(&r);
    return r.count;
}
