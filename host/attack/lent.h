/* Buffers that are lent to a call so that nothing outside them, and nothing that is only read, can be touched unseen. */
#ifndef LENT_H
#define LENT_H

#include <stddef.h>
#include <stdint.h>

/* Each call is made in both ways: every buffer ends before a page that nobody may touch, then every buffer begins behind one. What is written is
 * filled before, in each way with other words. */
enum lent_way { LENT_AT_END, LENT_AT_START, LENT_WAYS };

#define LENT_SLOTS 11u         /* buffers of one call */
#define LENT_MOST (17u << 20) /* bytes of a buffer */

/* With by_malloc each buffer is its own block of just its length instead, for valgrind to watch. */
void lent_start(int by_malloc);

/* What the buffers that are written hold before, from now on: one of these fillings, in each way two other words in turn. A walk could take them for its own
 * memory of each text: that it was not read (0), is being read (1) or was read (2), each with none and with some includes below it. */
#define LENT_FILLINGS 5u
void lent_filled(size_t filling);

/* A copy that can be read but not written. */
const void *lent_to_read(enum lent_way way, size_t slot, const void *bytes, size_t length);
void *lent_to_write(enum lent_way way, size_t slot, size_t length);

/* What became of the buffers lent in this way: NULL if all is well, or what is wrong. They can be read until lent_back. */
const char *lent_fault(enum lent_way way);
void lent_back(enum lent_way way);

/* Runs a call; answers 0, the signal that ended it, or LENT_SLOW where it took more milliseconds of processor time than allowed (0: any). */
#define LENT_SLOW (-1)
int lent_run(void (*call)(void *), void *with, unsigned milliseconds);

/* Where the last signal came from: the slot, LENT_SLOTS for none of them, and the place from the buffer's start on. */
size_t lent_where(enum lent_way way, ptrdiff_t *place);

#endif
