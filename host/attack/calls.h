/* The fourteen calls of include/nuvaleta.h over lent buffers, each made in both ways, and all that must hold of what they answer and leave. */
#ifndef CALLS_H
#define CALLS_H

#include <stddef.h>
#include <stdint.h>

enum call {
    DEPENDENCIES,
    PRINTED,
    METADATA,
    DEPENDENCIES_WHOLE,
    PRINTED_WHOLE,
    METADATA_WHOLE,
    FIND_MODULE,
    FIND_SUBMODULE,
    FIND_IMPORT_MODULE,
    TEXT,
    GRAPH,
    GRAPH_COMPLETE,
    ORDER,
    ORDER_CHECK,
    CALLS
};

/* What is read of a call, and what is written, in the order of its parameters; without the answer and without a record. */
enum { READ_MOST = 3, WRITTEN_MOST = 6 };

/* Where the buffers of a graph stand among these. */
enum { G_NODES, G_EDGES, G_STORE, G_IMPORTS, G_INCLUDES, G_LEVELS };

struct read {
    const void *at;
    size_t length; /* in bytes or words, as the call counts it */
};

/* A slice of length 0 has a pointer to where it would stand; or, if its bit is set (what is read first), a null one, or one to nowhere. */
enum pointer { POINTER_NULL, POINTER_NOWHERE };

struct given {
    enum call call;
    struct read read[READ_MOST];
    size_t written[WRITTEN_MOST]; /* lengths */
    size_t counts[2];             /* of nodes and edges, for an order and a check */
    unsigned mask;
    enum pointer pointer;
    size_t inside; /* the second slice that is read is part of the first, from this place on, less 1; 0: they stand apart */
};

/* What a call is, for those who go through all lengths. */
size_t call_reads(enum call call);
size_t call_writes(enum call call);
const char *call_name(enum call call);
/* Whether it draws a graph. */
int call_draws(enum call call);
/* Of a scan in the whole-text mode the one in the old mode; any other call itself. */
enum call call_old(enum call call);

/* Makes the call in both ways and looks at everything. Of a scan also the one in the whole-text mode. Of a graph also the one with complete nodes. Of one
 * that is built also its order, and the check of that. Answers the call's number, or CALL_FAILED where it has none: it was ended by a signal or by time. */
#define CALL_FAILED UINT32_MAX
uint32_t call_made(const struct given *given);

/* The milliseconds of processor time that a graph may take; then it is left, and that is wrong. */
extern unsigned call_milliseconds;
/* With which filling of lent.h buffers are lent, from 1 on; 0: by the lengths of the call, so that the same call always has the same one. */
extern size_t call_filling;
/* Whether the program ends itself where something is wrong, as a fuzzer wants it. */
extern int call_aborts;
/* Which of the faults of planted.h is to be made; 0 for none. */
extern int call_planted;

/* Prints what was counted, and answers how much was wrong. */
size_t call_report(const char *who);

#endif
