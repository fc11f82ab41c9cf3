/* A plain reading of images and bundles, by the header's words alone: what a look-up must answer, how much store a graph must be lent, and what its
 * complete nodes are. */
#ifndef FORM_H
#define FORM_H

#include "calls.h"
#include "nuvaleta.h"

struct found {
    int broken;
    size_t fault; /* where, if it is */
    int found;
    size_t place, more; /* of the name, and its revisions; of the text, and its length */
    size_t longest;     /* text of a bundle */
};

/* What this look-up finds in an image, or TEXT in a bundle. */
struct found form_find(enum call call, struct read form, struct read name);

/* Nodes that have come, by what the bytes of their names add up to. */
struct rows {
    const uint32_t *at[2 * NUVALETA_NODES_MOST];
};

/* Whether the name of a node, a place and a length above 0, has come before; if not, it has now. */
int form_comes_again(const uint8_t *image, const uint32_t *node, struct rows *rows);

/* The complete nodes of an image that keeps its form, as a node table has them; answers how many, and of more than there can be only that: one more. */
size_t form_nodes(struct read image, uint32_t *nodes);

#endif
