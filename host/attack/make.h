/* What the calls are given: texts, images and bundles in the house form, made by choices, and damage to them. */
#ifndef MAKE_H
#define MAKE_H

#include <stddef.h>
#include <stdint.h>

/* Bytes that grow. */
struct bytes {
    uint8_t *at;
    size_t length, room;
};

void put(struct bytes *out, const void *bytes, size_t length);
void put_words(struct bytes *out, const char *words);
void put_number(struct bytes *out, size_t number);
void put_name(struct bytes *out, const char *name);

/* Where choices come from: the bytes given, and 0 behind them; or without any, a seed. */
struct choices {
    const uint8_t *at;
    size_t length;
    uint64_t state;
};

/* A number below most, which is 1 or more. */
size_t choose(struct choices *from, size_t most);

/* They write anew what is given to them. */
void make_text(struct choices *from, struct bytes *text);
void make_library(struct choices *from, struct bytes *image, struct bytes *bundle);
/* One whose texts do nothing but include each other: many are included by several, some come back to themselves, some go around the deepest. */
void make_nested(struct choices *from, struct bytes *image, struct bytes *bundle);
void damage(struct choices *from, struct bytes *bytes);
/* A name that such a library may have. */
const char *make_name(struct choices *from);

/* As many modules, as many edges by imports, at most 255 each module. */
void make_wide(size_t modules, size_t edges, struct bytes *image, struct bytes *bundle);
/* So many names, from 66 to 1,026, all but ten in lists of a module that comes again and of later revisions. */
void make_again(size_t names, struct bytes *image, struct bytes *bundle);
/* As many names as an image of the longest length has room for: in the lists of modules, as modules without lists, or in the revisions of import-only
 * modules; and a bundle with so many empty texts. 600 are one for each name. */
enum dense { DENSE_LISTS, DENSE_MODULES, DENSE_REVISIONS };
void make_dense(enum dense how, size_t texts, struct bytes *image, struct bytes *bundle);
/* A module m, and submodules that are named by letters from a on, so many, up to 25: each text, that of m first, includes those of the next `wide` that there
 * are, each so many times; and the last one includes those of this row of letters. */
void make_rows(size_t submodules, size_t wide, size_t times, const char *last, struct bytes *image, struct bytes *bundle);
/* An image and a bundle of just this length: 4,000 bytes or more, 10,000,000 bytes or more. */
void make_long_image(size_t length, struct bytes *image);
void make_long_bundle(size_t length, struct bytes *bundle);

#endif
