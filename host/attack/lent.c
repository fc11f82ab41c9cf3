#define _GNU_SOURCE
#include "lent.h"

#include <setjmp.h>
#include <signal.h>
#include <stdio.h>
#include <stdlib.h>
#include <string.h>
#include <sys/mman.h>
#include <sys/time.h>
#include <unistd.h>

#ifdef WITH_VALGRIND
#include <valgrind/memcheck.h>
#define UNDEFINED(at, length) VALGRIND_MAKE_MEM_UNDEFINED(at, length)
#define IS_DEFINED(at, length) (VALGRIND_CHECK_MEM_IS_DEFINED(at, length) == 0)
#else
#define UNDEFINED(at, length) ((void)0)
#define IS_DEFINED(at, length) 1
#endif

#define GUARD (1u << 16) /* on each side, a multiple of every page size */
#define MARGIN 64u       /* bytes on the side without a guard that are looked at after the call */

/* For each way and slot two places with guards around them: one that is only read, with a second address through which it is filled, and one that
 * is written. */
struct region {
    uint8_t *read, *read_as_written, *write;
};

struct loan {
    uint8_t *at; /* NULL: not lent */
    size_t length;
    int read;            /* only that */
    const void *copy_of; /* what is read */
};

/* Two words that come in turn over a whole buffer: a graph remembers of each text whether it was read, and how many includes lie below it. A walk that takes
 * them for its own goes differently in the two ways. */
static const struct filling {
    uint32_t read, below;
} fillings[LENT_FILLINGS][LENT_WAYS] = {
    {{0xa5a5a5a5, 0xa5a5a5a5}, {0x5a5a5a5a, 0x5a5a5a5a}},
    {{1, 1}, {2, 2}},
    {{2, 0}, {0, 9}},
    {{2, 9}, {0, 0}},
    {{UINT32_MAX, UINT32_MAX}, {1, 0}},
};
static const struct filling (*filling)[LENT_WAYS] = &fillings[0];
static const uint8_t beside[LENT_WAYS] = {0xa5, 0x5a};
static struct region regions[LENT_WAYS][LENT_SLOTS];
static struct loan loans[LENT_WAYS][LENT_SLOTS];
static int malloced;
static sigjmp_buf back;
static volatile sig_atomic_t caught; /* the signal, or LENT_SLOW */
static volatile sig_atomic_t running;
static uint8_t *volatile touched;

static void die(const char *what) {
    perror(what);
    exit(2);
}

/* A place between two guards, of the file given or of nothing. */
static uint8_t *guarded(int file, int protection) {
    uint8_t *all = mmap(NULL, LENT_MOST + 2 * GUARD, PROT_NONE, MAP_PRIVATE | MAP_ANONYMOUS | MAP_NORESERVE, -1, 0);
    const int how = MAP_FIXED | MAP_NORESERVE | (file < 0 ? MAP_PRIVATE | MAP_ANONYMOUS : MAP_SHARED);
    if (all == MAP_FAILED || mmap(all + GUARD, LENT_MOST, protection, how, file, 0) == MAP_FAILED)
        die("lent: mmap");
    return all + GUARD;
}

static void map(struct region *r) {
    const int file = memfd_create("lent", 0);
    if (file < 0 || ftruncate(file, LENT_MOST) != 0)
        die("lent: memfd");
    r->read = guarded(file, PROT_READ);
    r->read_as_written = guarded(file, PROT_READ | PROT_WRITE);
    r->write = guarded(-1, PROT_READ | PROT_WRITE);
    close(file);
}

static void on_signal(int number, siginfo_t *info, void *context) {
    (void)context;
    if (!running && number == SIGVTALRM)
        return; /* too late */
    if (!running) {
        signal(number, SIG_DFL);
        return; /* it comes again, and ends the program */
    }
    touched = info->si_addr;
    caught = number == SIGVTALRM ? LENT_SLOW : number;
    siglongjmp(back, 1);
}

static void catch(void) {
    static const int numbers[] = {SIGSEGV, SIGBUS, SIGILL, SIGTRAP, SIGFPE, SIGVTALRM};
    const size_t size = 1u << 16;
    const stack_t stack = {.ss_sp = malloc(size), .ss_size = size};
    struct sigaction action = {.sa_sigaction = on_signal, .sa_flags = SA_SIGINFO | SA_ONSTACK | SA_NODEFER};
    if (stack.ss_sp == NULL || sigaltstack(&stack, NULL) != 0)
        die("lent: sigaltstack");
    for (size_t i = 0; i < sizeof numbers / sizeof numbers[0]; i++)
        if (sigaction(numbers[i], &action, NULL) != 0)
            die("lent: sigaction");
}

void lent_start(int by_malloc) {
    malloced = by_malloc;
    catch();
    for (size_t i = 0; !malloced && i < LENT_WAYS * LENT_SLOTS; i++)
        map(&regions[i / LENT_SLOTS][i % LENT_SLOTS]);
}

/* Where a buffer stands in its place. */
static size_t offset(enum lent_way way, size_t length) {
    if (length > LENT_MOST - MARGIN) {
        fprintf(stderr, "lent: %zu bytes\n", length);
        exit(2);
    }
    return way == LENT_AT_END ? LENT_MOST - length : 0;
}

static uint8_t *lend(enum lent_way way, size_t slot, uint8_t *place, struct loan loan) {
    loan.at = malloced ? malloc(loan.length) : place + offset(way, loan.length);
    if (loan.at == NULL)
        die("lent: malloc");
    loans[way][slot] = loan;
    return loan.at;
}

const void *lent_to_read(enum lent_way way, size_t slot, const void *bytes, size_t length) {
    uint8_t *at = lend(way, slot, regions[way][slot].read, (struct loan){.length = length, .read = 1, .copy_of = bytes});
    if (length != 0)
        memcpy(malloced ? at : regions[way][slot].read_as_written + offset(way, length), bytes, length);
    return at;
}

/* The bytes beside a buffer on its side without a guard. */
static uint8_t *margin(enum lent_way way, const struct loan *loan) {
    return way == LENT_AT_END ? loan->at - MARGIN : loan->at + loan->length;
}

void lent_filled(size_t number) { filling = &fillings[number % LENT_FILLINGS]; }

/* Both words over and over; each copy is as long as all that is there. */
static void spread(uint8_t *at, size_t length, const struct filling *words) {
    size_t done = length < sizeof *words ? length : sizeof *words;
    memcpy(at, words, done);
    for (size_t more; done < length; done += more) {
        more = length - done < done ? length - done : done;
        memcpy(at + done, at, more);
    }
}

void *lent_to_write(enum lent_way way, size_t slot, size_t length) {
    uint8_t *at = lend(way, slot, regions[way][slot].write, (struct loan){.length = length});
    spread(at, length, &(*filling)[way]);
    if (malloced)
        UNDEFINED(at, length);
    else
        memset(margin(way, &loans[way][slot]), beside[way], MARGIN);
    return at;
}

static const char *written(enum lent_way way, const struct loan *loan) {
    uint8_t filled[MARGIN];
    memset(filled, beside[way], MARGIN);
    if (!malloced && memcmp(margin(way, loan), filled, MARGIN) != 0)
        return "something written beside a buffer";
    return malloced && !IS_DEFINED(loan->at, loan->length) ? "something left undefined" : NULL;
}

const char *lent_fault(enum lent_way way) {
    const char *fault = NULL;
    for (size_t i = 0; i < LENT_SLOTS && fault == NULL; i++) {
        const struct loan *loan = &loans[way][i];
        if (loan->at != NULL && !loan->read)
            fault = written(way, loan);
        else if (loan->at != NULL && malloced && loan->length != 0 && memcmp(loan->at, loan->copy_of, loan->length) != 0)
            fault = "something written that is only to be read";
    }
    return fault;
}

void lent_back(enum lent_way way) {
    for (size_t i = 0; i < LENT_SLOTS; i++) {
        if (malloced)
            free(loans[way][i].at);
        loans[way][i].at = NULL;
    }
}

/* The time is that of this process alone, so a busy machine makes nothing slow. */
static void allow(unsigned milliseconds) {
    const struct itimerval after = {.it_value = {.tv_sec = milliseconds / 1000, .tv_usec = milliseconds % 1000 * 1000}};
    setitimer(ITIMER_VIRTUAL, &after, NULL);
}

int lent_run(void (*call)(void *), void *with, unsigned milliseconds) {
    caught = 0;
    if (sigsetjmp(back, 0) == 0) {
        running = 1;
        if (milliseconds != 0)
            allow(milliseconds);
        call(with);
    }
    running = 0;
    if (milliseconds != 0)
        allow(0);
    return caught;
}

size_t lent_where(enum lent_way way, ptrdiff_t *place) {
    for (size_t i = 0; i < LENT_SLOTS; i++) {
        const struct loan *loan = &loans[way][i];
        const uint8_t *start = loan->read ? regions[way][i].read : regions[way][i].write;
        if (loan->at == NULL || touched < start - GUARD || touched >= start + LENT_MOST + GUARD)
            continue;
        *place = touched - loan->at;
        return i;
    }
    *place = 0;
    return LENT_SLOTS;
}
