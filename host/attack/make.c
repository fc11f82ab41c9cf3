#include "make.h"

#include <stdio.h>
#include <stdlib.h>
#include <string.h>

#define COUNT(list) (sizeof(list) / sizeof(list)[0])

/* Two of the names have the longest length, and the longest that is told by one byte. */
#define LONG_16 "0123456789-long."
#define LONG_112 LONG_16 LONG_16 LONG_16 LONG_16 LONG_16 LONG_16 LONG_16
static const char *const modules[] = {"a", "b", "ietf-c", "d_1", "e.2", LONG_112 LONG_16};
static const char *const submodules[] = {"s", "t", "u", "v", "w", "x", "y", LONG_112 "fifteen-letters"};
static const char *const tokens[] = {
    "module",    "submodule", "belongs-to",  "namespace",    "prefix",    "yang-version", "revision",  "import",         "include",
    "container", "list",      "leaf",        "grouping",     "typedef",   "identity",     "augment",   "rpc",            "notification",
    "contact",   "reference", "description", "organization", "urn:x",     "a:b",          "'it\"s'",  "2024-05-01",     "revision-date",
    "\"open",    "'open",     "/*open",      "/*block*/",    "//line\n", "'a' +",        "'a' + 'b'", "\"a\\n\\t\\\"\"", "\"a\" + 'b'",
    "{",         "}",         ";",           "+",            "\\",       "\n",           "\x7f",      "\x80",           "\xc3\xa9",
    "\"\xc3\xa9\"", "'\xe2\x82\xac'", "\"\\\xc3\xa9", "'\xf0\x9f\x98\x80", "/*\xc3\xa9*/", "//\xef\xbb\xbf\n", "/*\xc2\x80", "x \"\xdf\xbf\";", "\xc2\xa0",
};

void put(struct bytes *out, const void *bytes, size_t length) {
    while (out->length + length > out->room) {
        out->room = out->room * 2 + 4096;
        out->at = realloc(out->at, out->room);
        if (out->at == NULL) {
            perror("make");
            exit(2);
        }
    }
    if (length != 0)
        memcpy(out->at + out->length, bytes, length);
    out->length += length;
}

void put_words(struct bytes *out, const char *words) { put(out, words, strlen(words)); }

void put_number(struct bytes *out, size_t number) {
    for (; number > 127; number /= 128)
        put(out, &(uint8_t){number % 128 + 128}, 1);
    put(out, &(uint8_t){number}, 1);
}

void put_name(struct bytes *out, const char *name) {
    put_number(out, strlen(name));
    put_words(out, name);
}

size_t choose(struct choices *from, size_t most) {
    if (from->at != NULL) {
        if (from->length == 0)
            return 0;
        size_t chosen = 0;
        for (size_t range = 1; range < most && from->length != 0; range *= 256, from->length--)
            chosen = chosen * 256 + *from->at++;
        return chosen % most;
    }
    from->state += 0x9e3779b97f4a7c15u; /* splitmix64 */
    uint64_t x = from->state;
    x = (x ^ x >> 30) * 0xbf58476d1ce4e5b9u;
    x = (x ^ x >> 27) * 0x94d049bb133111ebu;
    return (x ^ x >> 31) % most;
}

/* ---- texts */

static const char *any(struct choices *from, const char *const *list, size_t count) { return list[choose(from, count)]; }

static void put_import(struct choices *from, struct bytes *text, const char *name) {
    const size_t how = choose(from, 64);
    put_words(text, "import ");
    put_words(text, name);
    put_words(text, how == 0  ? "{}"
                    : how == 1 ? "{prefix p;"
                    : how == 2 ? "{prefix \"\xc3\xa9\";x '\xc3\xa9';/*\xc3\xa9*/}"
                    : how < 8  ? " { prefix 'p' ; revision-date 2024-05-01; x {y;} }\n"
                               : "{prefix p;}");
}

static void put_include(struct choices *from, struct bytes *text, const char *name) {
    const size_t how = choose(from, 64);
    put_words(text, "include ");
    put_words(text, name);
    put_words(text, how == 0 ? "" : how == 1 ? "{" : how < 8 ? " { revision-date \"2024\" + '-05-01'; }\n" : ";");
}

static void put_tokens(struct choices *from, struct bytes *text, size_t count) {
    while (count-- > 0) {
        put_words(text, any(from, tokens, COUNT(tokens)));
        put_words(text, choose(from, 4) == 0 ? "" : " ");
    }
}

void make_text(struct choices *from, struct bytes *text) {
    text->length = 0;
    if (choose(from, 4) != 0)
        put_words(text, "module m { namespace 'urn:m'; prefix m;\nrevision 2024-05-01 { description \"x\"; } ");
    for (size_t left = choose(from, 12); left > 0; left--) {
        const size_t what = choose(from, 8);
        if (what < 3)
            put_import(from, text, any(from, modules, COUNT(modules)));
        else if (what < 5)
            put_include(from, text, any(from, submodules, COUNT(submodules)));
        else
            put_tokens(from, text, 1 + choose(from, 6));
    }
}

/* ---- libraries */

static void put_names(struct choices *from, struct bytes *image, const char *const *list, size_t count, size_t most) {
    const size_t first = choose(from, count), names = choose(from, most);
    put_number(image, names);
    for (size_t i = 0; i < names; i++)
        put_name(image, list[(first + i) % count]);
}

static void put_set(struct choices *from, struct bytes *image) {
    const size_t count = COUNT(modules) - (choose(from, 4) == 0 ? choose(from, COUNT(modules) + 1) : 0);
    const size_t first = choose(from, 4) == 0 ? choose(from, COUNT(modules)) : 0;
    const size_t most = choose(from, 2) == 0 ? 2 : COUNT(submodules) + 1; /* few, so that some come in a later set only */
    put_number(image, count);
    for (size_t i = 0; i < count; i++) {
        put_name(image, modules[(first + i) % COUNT(modules)]);
        put_names(from, image, submodules, COUNT(submodules), most);
        put_names(from, image, modules, COUNT(modules), 3);
        put_names(from, image, modules, COUNT(modules), 3);
    }
    const size_t others = choose(from, 4), start = choose(from, COUNT(modules));
    put_number(image, others);
    for (size_t i = 0; i < others; i++) {
        put_name(image, modules[(start + i) % COUNT(modules)]);
        const size_t revisions = 1 + choose(from, 3);
        put_number(image, revisions);
        for (size_t k = 0; k < revisions; k++)
            put_names(from, image, submodules, COUNT(submodules), 4);
    }
}

const char *make_name(struct choices *from) {
    return choose(from, 2) == 0 ? any(from, modules, COUNT(modules)) : any(from, submodules, COUNT(submodules));
}

/* The text of a module, or of the submodule of this number: it mostly includes only later ones. */
static void put_linked(struct choices *from, struct bytes *bundle, size_t number, int padded) {
    const size_t last = COUNT(submodules) - 1;
    struct bytes text = {0};
    for (size_t left = choose(from, 5); left > 0; left--) {
        const size_t what = choose(from, 32), later = number + choose(from, COUNT(submodules));
        if (what < 16)
            put_import(from, &text, what == 0 ? "zz" : any(from, modules, COUNT(modules)));
        else if (what < 30)
            put_include(from, &text, what == 16 ? "zz" : submodules[what < 28 && later > last ? last : later % COUNT(submodules)]);
        else
            put_tokens(from, &text, 1 + choose(from, 3));
    }
    while (padded && text.length < 16384)
        put_words(&text, "               \n"); /* so that its length takes three bytes */
    put_number(bundle, text.length);
    put(bundle, text.at, text.length);
    free(text.at);
}

void make_library(struct choices *from, struct bytes *image, struct bytes *bundle) {
    const size_t all = COUNT(modules) + COUNT(submodules), sets = 1 + choose(from, 3);
    const size_t gone = choose(from, 4 * all), padded = choose(from, 16 * all); /* has no text, has a long one, if it is one */
    image->length = bundle->length = 0;
    put_number(image, sets);
    for (size_t i = 0; i < sets; i++)
        put_set(from, image);
    put_number(bundle, gone < all ? all - 1 : all);
    for (size_t i = 0; i < all; i++) {
        if (i == gone)
            continue;
        put_name(bundle, i < COUNT(modules) ? modules[i] : submodules[i - COUNT(modules)]);
        put_linked(from, bundle, i < COUNT(modules) ? 0 : i - COUNT(modules) + 1, i + 1 == padded);
    }
}

/* Two sets, so that a submodule may be no node, or be a module too. */
void make_nested(struct choices *from, struct bytes *image, struct bytes *bundle) {
    static const char *const names[] = {"m", "n", "o", "s", "t", "u", "v", "w", "x", "y", "z", "q", "r"};
    enum { ENTRIES = 3, ALL = COUNT(names) };
    const size_t wide = 1 + choose(from, 4), backwards = choose(from, 3) == 0 ? 12 : 0;
    image->length = bundle->length = 0;
    put_number(image, 2);
    for (size_t set = 0; set < 2; set++) {
        const size_t first = choose(from, 4) == 0 ? ENTRIES - 1 : ENTRIES, listed = set == 0 && choose(from, 8) != 0 ? ALL - first : choose(from, ALL - first);
        put_number(image, ENTRIES);
        for (size_t i = 0; i < ENTRIES; i++) {
            put_name(image, names[i]);
            put_number(image, i == 0 ? listed : 0);
            for (size_t k = 0; i == 0 && k < listed; k++)
                put_name(image, names[first + k]);
            put(image, "\0\0", 2);
        }
        put_number(image, 0);
    }
    put_number(bundle, ALL);
    for (size_t i = 0; i < ALL; i++) {
        struct bytes text = {0};
        for (size_t left = choose(from, 4); left > 0; left--) {
            const size_t start = i < ENTRIES ? ENTRIES : i + 1, back = backwards != 0 && choose(from, backwards) == 0;
            const size_t next = back ? ENTRIES - 1 + choose(from, ALL - ENTRIES + 1) : start + choose(from, i < ENTRIES ? 2 * wide : wide);
            if (next < ALL)
                put_include(from, &text, names[next]);
        }
        put_name(bundle, names[i]);
        put_number(bundle, text.length);
        put(bundle, text.at, text.length);
        free(text.at);
    }
}

void make_rows(size_t submodules, size_t wide, size_t times, const char *last, struct bytes *image, struct bytes *bundle) {
    struct bytes text = {0};
    image->length = bundle->length = 0;
    put(image, "\1\1\1m", 4);
    put_number(image, submodules);
    for (size_t i = 0; i < submodules; i++)
        put_name(image, (const char[]){'a' + i + (i >= 'm' - 'a'), 0});
    put(image, "\0\0\0", 3);
    put_number(bundle, submodules + 1);
    for (size_t i = 0; i <= submodules; i++) {
        text.length = 0;
        for (size_t k = 0; k < wide * times && i < submodules; k++)
            if (i + k / times < submodules) {
                put_words(&text, "include ");
                put(&text, &(char){'a' + i + k / times + (i + k / times >= 'm' - 'a')}, 1);
                put_words(&text, ";");
            }
        for (size_t k = 0; i == submodules && last[k] != 0; k++) {
            put_words(&text, "include ");
            put(&text, last + k, 1);
            put_words(&text, ";");
        }
        put_name(bundle, (const char[]){i == 0 ? 'm' : 'a' + i - 1 + (i - 1 >= 'm' - 'a'), 0});
        put_number(bundle, text.length);
        put(bundle, text.at, text.length);
    }
    free(text.at);
}

/* ---- at the limits */

static void put_modules(struct bytes *image, size_t from, size_t count) {
    put_number(image, count);
    for (size_t i = from; i < from + count; i++) {
        char name[24];
        snprintf(name, sizeof name, "m%04zu", i);
        put_name(image, name);
        put(image, "\0\0\0", 3);
    }
    put_number(image, 0);
}

void make_wide(size_t count, size_t edges, struct bytes *image, struct bytes *bundle) {
    const size_t each = 512, sets = (count + each - 1) / each;
    struct bytes text = {0};
    image->length = bundle->length = 0;
    put_number(image, sets);
    for (size_t i = 0; i < sets; i++)
        put_modules(image, i * each, i + 1 < sets ? each : count - i * each);
    put_number(bundle, count);
    for (size_t i = 0; i < count; i++) {
        char name[48];
        const size_t imports = edges / count + (i < edges % count ? 1 : 0);
        text.length = 0;
        for (size_t k = 1; k <= imports; k++) {
            snprintf(name, sizeof name, "import m%04zu{prefix p;}", (i + k) % count);
            put_words(&text, name);
        }
        snprintf(name, sizeof name, "m%04zu", i);
        put_name(bundle, name);
        put_number(bundle, text.length);
        put(bundle, text.at, text.length);
    }
    free(text.at);
}

static void put_numbered(struct bytes *image, size_t from, size_t count) {
    put_number(image, count);
    for (size_t i = from; i < from + count; i++) {
        char name[24];
        snprintf(name, sizeof name, "s%04zu", i);
        put_name(image, name);
    }
}

void make_again(size_t names, struct bytes *image, struct bytes *bundle) {
    const size_t sets = 16, revisions = 8, each = 8, list = 64;
    size_t put_before = revisions * each, left = names - put_before - 2;
    image->length = bundle->length = 0;
    put_number(image, sets);
    put(image, "\1\1m\0\0\0\1\1i\10", 10);
    for (size_t i = 0; i < revisions; i++)
        put_numbered(image, i * each, each);
    for (size_t i = 1; i < sets; i++) {
        const size_t count = left < list ? left : list;
        put(image, "\1\1m", 3);
        put_numbered(image, put_before, count);
        put(image, "\0\0\0", 3);
        put_before += count;
        left -= count;
    }
    put(bundle, "\2\1m\0\1i\0", 7);
}

/* Names of one byte, then of two. */
static void short_name(size_t number, char *name) {
    const size_t bytes = '~' - '!' + 1;
    name[0] = '!' + number % bytes;
    name[1] = number < bytes ? 0 : '!' + number / bytes - 1;
    name[2] = 0;
}

static void put_short(struct bytes *image, size_t count, size_t names) {
    char name[3];
    put_number(image, count);
    for (size_t i = 0; i < count; i++) {
        short_name(i % names, name);
        put_name(image, name);
    }
}

/* A module or an import-only module that is full: three lists, or eight revisions of one list, of 64 names; or without any. */
static void put_full(enum dense how, size_t number, struct bytes *image) {
    char name[3];
    short_name(number, name);
    put_name(image, name);
    if (how == DENSE_REVISIONS)
        put_number(image, 8);
    for (size_t i = 0; i < (how == DENSE_REVISIONS ? 8 : 3); i++)
        put_short(image, how == DENSE_MODULES ? 0 : 64, how == DENSE_LISTS ? 10 : 64); /* each set has ten modules with lists */
}

void make_dense(enum dense how, size_t texts, struct bytes *image, struct bytes *bundle) {
    const size_t most = 65536, each = how == DENSE_MODULES ? 6 : how == DENSE_LISTS ? 389 : 1035, sets = 16;
    const size_t fit = (most - 4 * sets - 2) / each / sets, count = fit < 512 ? fit : 512;
    image->length = bundle->length = 0;
    put_number(image, sets);
    for (size_t i = 0; i < sets; i++) {
        if (how == DENSE_REVISIONS)
            put_number(image, 0);
        put_number(image, count);
        for (size_t k = 0; k < count; k++)
            put_full(how, k, image);
        if (how != DENSE_REVISIONS)
            put_number(image, 0);
    }
    put_number(bundle, texts);
    for (size_t i = 0; i < texts; i++) {
        char name[3];
        short_name(i, name);
        put_name(bundle, name);
        put_number(bundle, 0);
    }
}

/* Between 128 and 512 modules without lists, whose names are as long as is needed. */
void make_long_image(size_t length, struct bytes *image) {
    const size_t rest = length - 4, count = rest / 131 + 1 < 128 ? 128 : rest / 131 + 1, names = rest - 4 * count;
    image->length = 0;
    put_number(image, 1);
    put_number(image, count);
    for (size_t i = 0; i < count; i++) {
        char name[128];
        const size_t long_ = names / count + (i < names % count ? 1 : 0);
        snprintf(name, sizeof name, "%0*zu", (int)long_, i);
        put_name(image, name);
        put(image, "\0\0\0", 3);
    }
    put_number(image, 0);
}

/* Nine texts of almost the same length, all of it white. */
void make_long_bundle(size_t length, struct bytes *bundle) {
    const size_t count = 9, rest = length - 1 - 5 * count;
    bundle->length = 0;
    put_number(bundle, count);
    for (size_t i = 0; i < count; i++) {
        const size_t long_ = rest / count + (i < rest % count ? 1 : 0);
        uint8_t *text = malloc(long_);
        if (text == NULL)
            exit(2);
        memset(text, ' ', long_);
        put_name(bundle, (const char[]){"stuvwxymb"[i], 0});
        put_number(bundle, long_);
        put(bundle, text, long_);
        free(text);
    }
}

/* ---- damage */

static void splice(struct bytes *bytes, size_t place, size_t gone, const void *in, size_t length) {
    struct bytes rest = {0};
    put(&rest, bytes->at + place + gone, bytes->length - place - gone);
    bytes->length = place;
    put(bytes, in, length);
    put(bytes, rest.at, rest.length);
    free(rest.at);
}

void damage(struct choices *from, struct bytes *bytes) {
    for (size_t left = 1 + choose(from, 4); left > 0 && bytes->length != 0; left--) {
        const size_t place = choose(from, bytes->length), rest = bytes->length - place, piece = 1 + choose(from, rest < 40 ? rest : 40);
        const char *token = any(from, tokens, COUNT(tokens));
        uint8_t copy[40];
        memcpy(copy, bytes->at + place, piece);
        switch (choose(from, 7)) {
        case 0: bytes->at[place] = choose(from, 256); break;
        case 1: bytes->at[place] ^= 1u << choose(from, 8); break;
        case 2: bytes->at[place] += choose(from, 2) == 0 ? 1 : 255; break;
        case 3: bytes->length = choose(from, 8) == 0 ? place : bytes->length; break;
        case 4: splice(bytes, place, 0, copy, piece); break;
        case 5: splice(bytes, place, piece, NULL, 0); break;
        default: splice(bytes, place, 0, token, strlen(token)); break;
        }
    }
}
