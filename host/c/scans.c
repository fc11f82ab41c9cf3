/* scans [--again]: how often a graph scans each text. Each text has pages of its own that nobody may touch, two of them with one between: whenever the first is
 * touched it is opened, counted and the other one closed, and the other way round. So each pass over a text counts once, in the archive as it is. How many
 * passes a scan makes is seen first, on a text alone. A text must be scanned once if the plain walk reads it, however often that is, and else not at all.
 * With --again for an archive from before request 2026-10, whose walk scans a text as often as the plain walk reads it. */
#define _GNU_SOURCE
#include <signal.h>
#include <stdio.h>
#include <stdlib.h>
#include <string.h>
#include <sys/mman.h>
#include <unistd.h>

#include "nuvaleta.h"

enum { TEXTS = 75, INCLUDES = 60, PAGES = 4, DEEPEST = 8 };

/* A library: modules first, then submodules, all of which the first module lists. */
static struct text {
    size_t count, includes[INCLUDES]; /* by numbers */
    int missing, refused;
    uint8_t *first, *last; /* the two pages */
    size_t seen;           /* passes over it */
    size_t due;            /* how often the plain walk reads it */
} texts[TEXTS];
static size_t modules, all;

static uint8_t *bundle, *opened, image[NUVALETA_IMAGE_MOST], store[NUVALETA_GRAPH_STORE];
static size_t page, image_len, bundle_len;
static uint32_t nodes[NUVALETA_NODE_WORDS], edges[NUVALETA_EDGE_WORDS], imports[NUVALETA_IMPORT_WORDS], includes[NUVALETA_INCLUDE_WORDS],
    levels[NUVALETA_LEVEL_WORDS], answer[NUVALETA_GRAPH_ANSWER];

static void fail(const char *what) {
    fprintf(stderr, "scans: %s\n", what);
    exit(1);
}

/* ---- the watch */

static void guard(uint8_t *at, int how) {
    static const char said[] = "scans: the pages of a text cannot be opened or closed (mprotect)\n";
    if (mprotect(at, page, how) != 0)
        _exit(write(2, said, sizeof said - 1) < 0 ? 3 : 2); /* no more than this is allowed in a signal */
}

static void touched(int number, siginfo_t *info, void *context) {
    uint8_t *at = info->si_addr;
    (void)context;
    for (size_t i = 0; i < all; i++) {
        uint8_t *pages[] = {texts[i].first, texts[i].last};
        for (size_t k = 0; k < 2; k++)
            if (pages[k] != NULL && at >= pages[k] && at < pages[k] + page) {
                if (opened != NULL)
                    guard(opened, PROT_NONE);
                guard(pages[k], PROT_READ);
                opened = pages[k];
                texts[i].seen += k == 0;
                return;
            }
    }
    signal(number, SIG_DFL); /* it comes again, and ends the program */
}

static void watch(int on) {
    opened = NULL;
    for (size_t i = 0; i < all; i++)
        for (size_t k = 0; k < 2 && texts[i].first != NULL; k++)
            guard(k == 0 ? texts[i].first : texts[i].last, on ? PROT_NONE : PROT_READ | PROT_WRITE);
}

/* ---- image and bundle */

static size_t number(uint8_t *out, size_t n) {
    size_t length = 0;
    for (; n > 127; n /= 128)
        out[length++] = n % 128 + 128;
    out[length++] = n;
    return length;
}

static size_t name(uint8_t *out, size_t i) {
    return sprintf((char *)out, "\3%c%02u", i < modules ? 'm' : 's', (unsigned)i);
}

static void write_image(void) {
    uint8_t *out = image;
    *out++ = 1;
    out += number(out, modules);
    for (size_t i = 0; i < modules; i++) {
        out += name(out, i);
        out += number(out, i == 0 ? all - modules : 0);
        for (size_t k = modules; i == 0 && k < all; k++)
            out += name(out, k);
        *out++ = 0;
        *out++ = 0;
    }
    *out++ = 0;
    image_len = out - image;
}

/* A text begins somewhere in its first page, which is always open, and ends with its fourth. Behind its statements it is white. */
static void write_bundle(void) {
    size_t there = 0;
    for (size_t i = 0; i < all; i++)
        there += !texts[i].missing;
    uint8_t *out = bundle + number(bundle, there), *end = bundle;
    for (size_t i = 0; i < all; i++) {
        texts[i].first = texts[i].last = NULL;
        if (texts[i].missing)
            continue;
        uint8_t length[4];
        size_t digits = 1;
        out += name(out, i);
        end += PAGES * page;
        while (number(length, end - out - digits) != digits)
            digits++;
        out += number(out, end - out - digits);
        memset(out, ' ', end - out);
        if (texts[i].refused)
            memcpy(out, "import ;", 8);
        for (size_t k = 0; k < texts[i].count; k++) {
            memcpy(out, "include ", 8);
            name(out + 7, texts[i].includes[k]);
            out[7] = ' ';
            out[11] = ';';
            out += 12;
        }
        texts[i].first = end - 3 * page;
        texts[i].last = end - page;
        out = end;
    }
    bundle_len = out - bundle;
}

/* ---- the plain walk */

/* 0, or the refusal. */
static uint32_t plain(size_t i, size_t depth) {
    if (texts[i].missing)
        return depth == 0 ? NUVALETA_NO_ENTRY_TEXT : NUVALETA_NO_INCLUDED_TEXT;
    texts[i].due++;
    if (texts[i].refused)
        return NUVALETA_SCAN_REFUSED;
    for (size_t k = 0; k < texts[i].count; k++) {
        const uint32_t refused = depth == DEEPEST ? NUVALETA_TOO_DEEP : plain(texts[i].includes[k], depth + 1);
        if (refused != 0)
            return refused;
    }
    return 0;
}

/* ---- one library */

static uint32_t graph(int complete) {
    return (complete ? nuvaleta_graph_complete : nuvaleta_graph)(image, image_len, bundle, bundle_len, nodes, NUVALETA_NODE_WORDS, edges, NUVALETA_EDGE_WORDS,
                                                                 store, sizeof store, imports, NUVALETA_IMPORT_WORDS, includes, NUVALETA_INCLUDE_WORDS, levels,
                                                                 NUVALETA_LEVEL_WORDS, answer);
}

static size_t passes, passes_refused; /* of one scan, seen on a text alone */
static size_t scans_seen, scans_plain; /* of all libraries */

static void draw(int complete, uint32_t due) {
    for (size_t i = 0; i < all; i++)
        texts[i].seen = 0;
    watch(1);
    const uint32_t told = graph(complete);
    watch(0);
    if (told != due)
        fail("a graph has another number than the plain walk");
}

/* Draws it by both calls and holds what was seen against the plain walk. */
static void library(int again) {
    uint32_t due = 0;
    write_image();
    write_bundle();
    for (size_t i = 0; i < all; i++)
        texts[i].due = 0;
    for (size_t i = 0; i < modules && due == 0; i++)
        due = plain(i, 0);
    for (int complete = 0; complete < 2; complete++) {
        draw(complete, due);
        for (size_t i = 0; i < all; i++) {
            const size_t often = again ? texts[i].due : texts[i].due != 0, by = texts[i].refused ? passes_refused : passes;
            if (texts[i].seen != often * by) {
                fprintf(stderr, "scans: text %zu: %zu passes, %zu a scan; the plain walk reads it %zu times\n", i, texts[i].seen, by, texts[i].due);
                exit(1);
            }
            scans_seen += texts[i].seen / by;
            scans_plain += texts[i].due;
        }
    }
}

/* How many passes over a text one scan of it makes. */
static size_t alone(int refused) {
    memset(texts, 0, sizeof texts);
    modules = all = 1;
    texts[0].refused = refused;
    write_image();
    write_bundle();
    draw(0, refused ? NUVALETA_SCAN_REFUSED : 0);
    if (texts[0].seen == 0)
        fail("a scan is not seen");
    return texts[0].seen;
}

/* That the watch counts each scan: three of one text, one right behind the other. */
static void counts(void) {
    size_t seen[2];
    for (size_t k = 0; k < 2; k++) {
        alone(0);
        texts[0].seen = 0;
        uint8_t *const text = texts[0].first - 8;
        watch(1);
        for (size_t left = k == 0 ? 1 : 3; left > 0; left--)
            if (nuvaleta_dependencies(text, texts[0].last + page - text, store, sizeof store, imports, NUVALETA_IMPORT_WORDS, includes, NUVALETA_INCLUDE_WORDS,
                                      answer) != 0)
                fail("a white text is refused");
        watch(0);
        seen[k] = texts[0].seen;
    }
    if (seen[0] == 0 || seen[1] != 3 * seen[0])
        fail("three scans are not counted as three");
}

/* ---- libraries */

/* Sixty modules that include the same fifteen submodules. */
static void tree(int again) {
    memset(texts, 0, sizeof texts);
    modules = 60;
    all = 75;
    for (size_t i = 0; i < modules; i++)
        for (texts[i].count = 0; texts[i].count < 15; texts[i].count++)
            texts[i].includes[texts[i].count] = modules + texts[i].count;
    scans_seen = scans_plain = 0;
    library(again);
    if (scans_seen != 2 * (again ? 960 : 75) || scans_plain != 2 * 960)
        fail("other scans than 75 where the plain walk makes 960");
}

static uint32_t below(uint32_t most) {
    static uint64_t state = 1;
    state = state * 6364136223846793005u + 1442695040888963407u;
    return (uint32_t)(state >> 33) % most;
}

/* Up to four modules and ten submodules that mostly include later ones: shared by many, deep, some in circles, some missing or refused. */
static void drawn(void) {
    memset(texts, 0, sizeof texts);
    modules = 1 + below(4);
    all = modules + 2 + below(9);
    const size_t far = 1 + below(4), circles = below(3) == 0 ? 15 : 1000;
    for (size_t i = 0; i < all; i++) {
        texts[i].missing = below(60) == 0;
        texts[i].refused = below(60) == 0;
        for (size_t left = texts[i].refused ? 0 : below(4); left > 0; left--) {
            const size_t next = i < modules ? modules + below(all - modules) : i + 1 + below(far);
            const size_t other = below(circles) == 0 ? modules + below(all - modules) : next;
            if (other < all)
                texts[i].includes[texts[i].count++] = other;
        }
    }
}

int main(int count, char **words) {
    const int again = count == 2 && strcmp(words[1], "--again") == 0;
    const struct sigaction action = {.sa_sigaction = touched, .sa_flags = SA_SIGINFO | SA_NODEFER};
    page = sysconf(_SC_PAGESIZE);
    if (TEXTS * PAGES * page > NUVALETA_BUNDLE_MOST) {
        printf("scans: SKIPPED, how often a text is scanned was not counted: %d texts of %d pages of %zu bytes are more than a bundle holds\n", TEXTS, PAGES,
               page);
        return 0;
    }
    bundle = mmap(NULL, TEXTS * PAGES * page, PROT_READ | PROT_WRITE, MAP_PRIVATE | MAP_ANONYMOUS, -1, 0);
    if (bundle == MAP_FAILED || sigaction(SIGSEGV, &action, NULL) != 0)
        return perror("scans"), 2;
    counts();
    passes = alone(0);
    passes_refused = alone(1);
    tree(again);
    scans_seen = scans_plain = 0;
    for (size_t i = 0; i < 400; i++) {
        drawn();
        library(again);
    }
    printf("scans: the tree of 60 modules and 15 submodules %d, where the plain walk makes 960; 400 libraries drawn by chance %zu and %zu, no text %s\n",
           again ? 960 : 75, scans_seen, scans_plain, again ? "more often than that" : "twice in a graph");
    return 0;
}
