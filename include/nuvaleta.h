/* Nuvaleta: which YANG schema must be registered before which. For C99 and newer and for C++, on 64-bit processors.
 *
 *     nuvaleta_dependencies         the imports and includes of a YANG text
 *     nuvaleta_printed              the same, with lines for a person to read
 *     nuvaleta_metadata             name, namespace, prefix, revisions and parent of a YANG text
 *     nuvaleta_dependencies_whole   these three for a text that may be cut off: if what is read of it breaks off, it is refused
 *     nuvaleta_printed_whole
 *     nuvaleta_metadata_whole
 *     nuvaleta_find_module          a module of a library image by its name
 *     nuvaleta_find_submodule       a submodule
 *     nuvaleta_find_import_module   an import-only module
 *     nuvaleta_text                 the text under a name of a bundle
 *     nuvaleta_graph                from an image and a bundle: which schema must be registered before which
 *     nuvaleta_graph_complete       the same, for a router that lists a module more than once, with other submodules each time
 *     nuvaleta_order                from a graph: the order of registration, or a ring of schemas that wait for each other
 *     nuvaleta_order_check          whether a list is such an order
 *
 * The main job is nuvaleta_graph and then nuvaleta_order. `nuvaleta pack` makes an image and a bundle; their form is described below.
 *
 * RESULT. Each function returns 0, or the number of a refusal. The same number is answer[0]; what else `answer` holds is named by an enum.
 *
 * LENT. Nothing is allocated, nothing is kept between calls, nothing is read or written outside what was lent, and every call ends. A length is in
 * elements: bytes of uint8_t, words of uint32_t. A slice of length 0 may have any pointer, a null one too; `answer` and `record`, whose lengths are
 * fixed, are never null. Slices may be longer than is asked for.
 *
 * ZERO. A slice that is written holds what its function says and then zeros up to the length lent, whatever was there before. On a refusal it holds
 * zeros alone, one that was too short too. There are two exceptions: `answer` has the words of the refusal, and at NUVALETA_CYCLE the order table holds
 * a ring and then zeros. Words of `answer` that do not apply are 0.
 *
 * OVERLAP. A slice that is written, `answer` and `record` too, overlaps with no other slice of the same call. Those that are only read may overlap.
 * Nobody else writes what was lent before the call returns.
 *
 * THREADS. There is no state: any number of calls may run at once in any number of threads, each with its own slices to write. Slices that are only
 * read may be shared.
 *
 * STACK. NUVALETA_STACK_MOST bytes are enough for a thread that makes any of these calls and little else. So much was a thread seen to use, in KiB, its
 * own needs included (x86-64: linked statically, by an emulator):
 *
 *               nothing   a scan   a find   text   graph   order   order_check
 *     x86-64          4        5       18     36     367      28             8
 *     aarch64         7        7       21     38     369      31            10
 *
 * nuvaleta_graph_complete took as much as nuvaleta_graph, and a scan with _whole as much as the one without (x86-64).
 *
 * TIME. In a graph each text of the bundle is scanned at most once, however often it is included. Beyond the scans there is a look-up for each import and
 * include that they read, and for each name of the image: a router's library takes milliseconds. Names that were chosen so that the look-ups take long are
 * the slowest that is known inside all limits: some seconds.
 *
 * LINKING. -lnuvaleta, or what `pkg-config --cflags --libs nuvaleta` says. Of the C library only memcpy and memset are needed.
 *
 * EXAMPLES. Each is the body of a function: it runs as it stands in int main(void) { .. }, below <assert.h>, <string.h> and this header.
 */
#ifndef NUVALETA_H
#define NUVALETA_H

#include <stddef.h>
#include <stdint.h>

#ifdef __cplusplus
extern "C" {
#endif

#define NUVALETA_STACK_MOST 425984u

/* ---- Scans: one YANG text
 *
 * A value in a text is a name, a quoted string, or several strings joined by +. In double quotes \n is byte 10, \t is byte 9, and a backslash before another
 * byte is dropped. The values that are read are put into the store one behind the other, without quotes, those that a later one replaces too, but of metadata
 * no yang-version and no prefix behind the first; rows and records have the start of a value in the store and its length.
 *
 * UTF-8. A text is UTF-8 (RFC 3629), all of it, read or not. Bytes above 127 may stand in comments and behind the opening quote of a string, closed or not.
 * They are copied as they are, so values and the page are UTF-8 too. Elsewhere such a byte is part of no name and no keyword, ends none, is not white, and is
 * refused where the scan meets it. A byte order mark is such a byte. Places and lengths count bytes.
 *
 * WHOLE TEXTS. A text whose download broke off may be scanned as if it were whole, since a string, and a statement that is passed over, may end with the text.
 * The calls with _whole refuse that with NUVALETA_CUT_SHORT, with no keyword and the text's end as position, in the place of an answer or of refusal 4, 6, 8 or
 * 9. In all else they answer and leave what the calls without _whole do. Passed over are, in the block of an import or include, all statements but prefix and
 * revision-date; by metadata what stands behind the value of belongs-to, the block of a revision, and each prefix behind the first.
 *
 * That such a call answers says that nothing that was read broke off. It does not say that the file is whole: what the scan does not read is not looked at,
 * and neither the end inside a comment between statements nor a module's block that never closes is refused. Where a value, a byte or a } is missing at the
 * end and no string is open, refusals 4, 6 and 8 tell it, as ever.
 */

/* The longest text that is scanned, in bytes. The store must be at least as long as the text. */
#define NUVALETA_TEXT_MOST 1048576u

/* The words of the import table and of the include table: room for 256 rows each. */
#define NUVALETA_IMPORT_WORDS 1792u
#define NUVALETA_INCLUDE_WORDS 1280u

/* How many bytes more than the text the page must have, and a page that is long enough for every text. */
#define NUVALETA_PAGE_MORE 6944u
#define NUVALETA_PAGE_MOST (NUVALETA_TEXT_MOST + NUVALETA_PAGE_MORE)

/* Row i of the import table starts at imports[i * NUVALETA_IMPORT_ROW], row i of the include table at includes[i * NUVALETA_INCLUDE_ROW]. */
#define NUVALETA_IMPORT_ROW 7u
#define NUVALETA_INCLUDE_ROW 5u

enum nuvaleta_import_word {
    NUVALETA_IMPORT_NAME_START = 0,
    NUVALETA_IMPORT_NAME_LENGTH = 1,
    NUVALETA_IMPORT_PREFIX_START = 2,
    NUVALETA_IMPORT_PREFIX_LENGTH = 3,
    NUVALETA_IMPORT_DATED = 4, /* 1 if there is a revision-date, else 0, and then the next two are 0 */
    NUVALETA_IMPORT_DATE_START = 5,
    NUVALETA_IMPORT_DATE_LENGTH = 6
};

enum nuvaleta_include_word {
    NUVALETA_INCLUDE_NAME_START = 0,
    NUVALETA_INCLUDE_NAME_LENGTH = 1,
    NUVALETA_INCLUDE_DATED = 2, /* as above */
    NUVALETA_INCLUDE_DATE_START = 3,
    NUVALETA_INCLUDE_DATE_LENGTH = 4
};

/* The answer of a scan: the first three words are the same for all scans. */
#define NUVALETA_DEPENDENCIES_ANSWER 6u
#define NUVALETA_PRINTED_ANSWER 7u
#define NUVALETA_METADATA_ANSWER 4u

enum nuvaleta_scan_word {
    NUVALETA_SCAN_NUMBER = 0,
    NUVALETA_SCAN_KEYWORD = 1,           /* an enum nuvaleta_keyword, at refusals 4 to 8 and 10 */
    NUVALETA_SCAN_POSITION = 2,          /* the place of the refusal in the text, from 0 on; 0 at 1 and 2 */
    NUVALETA_DEPENDENCIES_IMPORTS = 3,   /* rows of the import table */
    NUVALETA_DEPENDENCIES_INCLUDES = 4,  /* rows of the include table */
    NUVALETA_DEPENDENCIES_STORED = 5,    /* bytes of the store */
    NUVALETA_PRINTED_LENGTH = 6,         /* bytes of the page */
    NUVALETA_METADATA_STORED = 3         /* bytes of the store */
};

/* Refusals of a scan: 1, 2 and 12 are looked for first, in this order, the others as the text is read. "After it": after the keyword and its value. 11 is of
 * the calls with _whole alone. */
enum nuvaleta_scan_refusal {
    NUVALETA_TEXT_TOO_LONG = 1,   /* text over NUVALETA_TEXT_MOST bytes */
    NUVALETA_LENT_TOO_SHORT = 2,  /* store, table or page too short */
    NUVALETA_HIGH_BYTE = 3,       /* a byte above 127 outside of strings and comments; instead of 4 and 5 at that byte; position: that byte */
    NUVALETA_NO_VALUE = 4,        /* no value after the keyword; position: where it would begin, or the text's end for a quote that never closes */
    NUVALETA_OTHER_BYTE = 5,      /* another byte than the one required after it; position: that other byte */
    NUVALETA_END_OF_TEXT = 6,     /* the end instead of that byte; position: the text's end */
    NUVALETA_NO_PREFIX = 7,       /* an import closed without prefix; position: behind its closing brace */
    NUVALETA_OPEN_ENDED = 8,      /* the end inside the block of an import or include; position: the text's end */
    NUVALETA_NO_NAME = 9,         /* metadata without a name; position: behind the word that ended the scan, or the text's end */
    NUVALETA_TOO_MANY = 10,       /* a 257th import or a 257th include; position: behind that keyword */
    NUVALETA_CUT_SHORT = 11,      /* the end inside a string, or inside a statement that is passed over; before 4, 6, 8 and 9; position: the text's end */
    NUVALETA_NOT_UTF8 = 12        /* bytes that are not UTF-8; position: where the first wrong sequence begins */
};

enum nuvaleta_keyword {
    NUVALETA_NO_KEYWORD = 0,
    NUVALETA_MODULE = 1,
    NUVALETA_SUBMODULE = 2,
    NUVALETA_BELONGS_TO = 3,
    NUVALETA_NAMESPACE = 4,
    NUVALETA_PREFIX = 5,
    NUVALETA_YANG_VERSION = 6,
    NUVALETA_REVISION = 7,
    NUVALETA_IMPORT = 8,
    NUVALETA_INCLUDE = 9,
    NUVALETA_REVISION_DATE = 10
};

/* The imports and includes of a text, up to its first organization, contact, description or reference, or its end. Of several prefixes or
 * revision-dates in one block the last one holds. Refusals: 1 to 8, 10 and 12.
 *
 * answer[NUVALETA_DEPENDENCIES_ANSWER]
 *
 * Example:
 *     static const char text[] = "module m { import base { prefix b; revision-date 2024-05-01; } include m-types; }";
 *     static uint8_t store[sizeof text];
 *     static uint32_t imports[NUVALETA_IMPORT_WORDS], includes[NUVALETA_INCLUDE_WORDS];
 *     uint32_t answer[NUVALETA_DEPENDENCIES_ANSWER];
 *     uint32_t number = nuvaleta_dependencies((const uint8_t *)text, strlen(text), store, sizeof store, imports, NUVALETA_IMPORT_WORDS,
 *                                             includes, NUVALETA_INCLUDE_WORDS, answer);
 *     assert(number == 0 && answer[NUVALETA_DEPENDENCIES_IMPORTS] == 1 && answer[NUVALETA_DEPENDENCIES_INCLUDES] == 1);
 *     const uint32_t *row = imports; // the first one
 *     assert(row[NUVALETA_IMPORT_NAME_LENGTH] == 4 && memcmp(store + row[NUVALETA_IMPORT_NAME_START], "base", 4) == 0);
 *     assert(row[NUVALETA_IMPORT_PREFIX_LENGTH] == 1 && store[row[NUVALETA_IMPORT_PREFIX_START]] == 'b');
 *     assert(row[NUVALETA_IMPORT_DATED] == 1 && memcmp(store + row[NUVALETA_IMPORT_DATE_START], "2024-05-01", 10) == 0);
 *     assert(includes[NUVALETA_INCLUDE_NAME_LENGTH] == 7 && memcmp(store + includes[NUVALETA_INCLUDE_NAME_START], "m-types", 7) == 0);
 *     assert(includes[NUVALETA_INCLUDE_DATED] == 0);
 *
 *     number = nuvaleta_dependencies((const uint8_t *)"import a b", 10, store, sizeof store, imports, NUVALETA_IMPORT_WORDS,
 *                                    includes, NUVALETA_INCLUDE_WORDS, answer);
 *     assert(number == NUVALETA_OTHER_BYTE && answer[NUVALETA_SCAN_KEYWORD] == NUVALETA_IMPORT && answer[NUVALETA_SCAN_POSITION] == 9);
 *
 *     number = nuvaleta_dependencies((const uint8_t *)"include 'caf\303\251';", 16, store, sizeof store, imports, NUVALETA_IMPORT_WORDS,
 *                                    includes, NUVALETA_INCLUDE_WORDS, answer);
 *     assert(number == 0 && includes[NUVALETA_INCLUDE_NAME_LENGTH] == 5 && memcmp(store, "caf\303\251", 5) == 0);
 *     number = nuvaleta_dependencies((const uint8_t *)"include caf\303\251;", 14, store, sizeof store, imports, NUVALETA_IMPORT_WORDS,
 *                                    includes, NUVALETA_INCLUDE_WORDS, answer);
 *     assert(number == NUVALETA_HIGH_BYTE && answer[NUVALETA_SCAN_KEYWORD] == NUVALETA_NO_KEYWORD && answer[NUVALETA_SCAN_POSITION] == 11);
 *     number = nuvaleta_dependencies((const uint8_t *)"include 'caf\351';", 15, store, sizeof store, imports, NUVALETA_IMPORT_WORDS,
 *                                    includes, NUVALETA_INCLUDE_WORDS, answer);
 *     assert(number == NUVALETA_NOT_UTF8 && answer[NUVALETA_SCAN_POSITION] == 12); // as ISO 8859-1 has it
 */
uint32_t nuvaleta_dependencies(const uint8_t *text, size_t text_len, uint8_t *store, size_t store_len, uint32_t *imports, size_t imports_len,
                               uint32_t *includes, size_t includes_len, uint32_t *answer);

/* The same, and in the page what was read as lines for a person. Refusals: the same.
 *
 * answer[NUVALETA_PRINTED_ANSWER]
 *
 * Example:
 *     static const char text[] = "module m { import base { prefix b; revision-date 2024-05-01; } include m-types; }";
 *     static const char due[] = "Imports (1):\n  - base (prefix: b) @ 2024-05-01\n\nIncludes (1):\n  - m-types\n";
 *     static uint8_t store[sizeof text], page[sizeof text + NUVALETA_PAGE_MORE];
 *     static uint32_t imports[NUVALETA_IMPORT_WORDS], includes[NUVALETA_INCLUDE_WORDS];
 *     uint32_t answer[NUVALETA_PRINTED_ANSWER];
 *     uint32_t number = nuvaleta_printed((const uint8_t *)text, strlen(text), store, sizeof store, imports, NUVALETA_IMPORT_WORDS,
 *                                        includes, NUVALETA_INCLUDE_WORDS, page, sizeof page, answer);
 *     assert(number == 0 && answer[NUVALETA_PRINTED_LENGTH] == strlen(due) && memcmp(page, due, strlen(due)) == 0);
 */
uint32_t nuvaleta_printed(const uint8_t *text, size_t text_len, uint8_t *store, size_t store_len, uint32_t *imports, size_t imports_len,
                          uint32_t *includes, size_t includes_len, uint8_t *page, size_t page_len, uint32_t *answer);

/* A metadata record: three words for each of six values. Value v stands at record[v * NUVALETA_VALUE_ROW]. */
#define NUVALETA_RECORD_WORDS 18u
#define NUVALETA_VALUE_ROW 3u

enum nuvaleta_value {
    NUVALETA_VALUE_NAME = 0,           /* of the module or submodule; the last one read */
    NUVALETA_VALUE_NAMESPACE = 1,      /* the last one read */
    NUVALETA_VALUE_PREFIX = 2,         /* the first one read; of a submodule that of its first import, since the one inside belongs-to is passed over */
    NUVALETA_VALUE_FIRST_REVISION = 3, /* the first one read */
    NUVALETA_VALUE_PARENT = 4,         /* the module that a submodule belongs to; the last one read */
    NUVALETA_VALUE_NEWEST_REVISION = 5 /* the greatest in byte order; of equals the first */
};

enum nuvaleta_value_word {
    NUVALETA_VALUE_PRESENT = 0, /* 1, or 0 for a missing value, and then the next two are 0; a present one may be empty */
    NUVALETA_VALUE_START = 1,
    NUVALETA_VALUE_LENGTH = 2
};

/* The metadata of a text, up to its first container, list, leaf, grouping, typedef, identity, augment, rpc or notification, or its end. Refusals: 1 to 6,
 * 9 and 12.
 *
 * record[NUVALETA_RECORD_WORDS], answer[NUVALETA_METADATA_ANSWER]
 *
 * Example:
 *     static const char text[] = "module m { namespace \"urn:m\"; prefix m; revision 2024-05-01; revision 2020-01-01 { } }";
 *     static uint8_t store[sizeof text];
 *     uint32_t record[NUVALETA_RECORD_WORDS], answer[NUVALETA_METADATA_ANSWER];
 *     uint32_t number = nuvaleta_metadata((const uint8_t *)text, strlen(text), store, sizeof store, record, answer);
 *     assert(number == 0);
 *     const uint32_t *value = record + NUVALETA_VALUE_NAMESPACE * NUVALETA_VALUE_ROW;
 *     assert(value[NUVALETA_VALUE_PRESENT] == 1 && value[NUVALETA_VALUE_LENGTH] == 5 && memcmp(store + value[NUVALETA_VALUE_START], "urn:m", 5) == 0);
 *     value = record + NUVALETA_VALUE_NEWEST_REVISION * NUVALETA_VALUE_ROW;
 *     assert(value[NUVALETA_VALUE_LENGTH] == 10 && memcmp(store + value[NUVALETA_VALUE_START], "2024-05-01", 10) == 0);
 *     assert(record[NUVALETA_VALUE_PARENT * NUVALETA_VALUE_ROW + NUVALETA_VALUE_PRESENT] == 0);
 */
uint32_t nuvaleta_metadata(const uint8_t *text, size_t text_len, uint8_t *store, size_t store_len, uint32_t *record, uint32_t *answer);

/* The imports and includes of a text of which nothing that is read may break off. Refusals: 1 to 8 and 10 to 12.
 *
 * answer[NUVALETA_DEPENDENCIES_ANSWER]
 *
 * Example:
 *     static const char text[] = "module m { namespace \"urn:m\"; import base { prefix b; } }";
 *     static uint8_t store[sizeof text];
 *     static uint32_t imports[NUVALETA_IMPORT_WORDS], includes[NUVALETA_INCLUDE_WORDS];
 *     uint32_t answer[NUVALETA_DEPENDENCIES_ANSWER];
 *     // Cut inside the namespace: without _whole it is a text that imports nothing.
 *     uint32_t number = nuvaleta_dependencies((const uint8_t *)text, 24, store, sizeof store, imports, NUVALETA_IMPORT_WORDS,
 *                                             includes, NUVALETA_INCLUDE_WORDS, answer);
 *     assert(number == 0 && answer[NUVALETA_DEPENDENCIES_IMPORTS] == 0);
 *     number = nuvaleta_dependencies_whole((const uint8_t *)text, 24, store, sizeof store, imports, NUVALETA_IMPORT_WORDS,
 *                                          includes, NUVALETA_INCLUDE_WORDS, answer);
 *     assert(number == NUVALETA_CUT_SHORT && answer[NUVALETA_SCAN_KEYWORD] == NUVALETA_NO_KEYWORD && answer[NUVALETA_SCAN_POSITION] == 24);
 *     number = nuvaleta_dependencies_whole((const uint8_t *)text, strlen(text), store, sizeof store, imports, NUVALETA_IMPORT_WORDS,
 *                                          includes, NUVALETA_INCLUDE_WORDS, answer);
 *     assert(number == 0 && answer[NUVALETA_DEPENDENCIES_IMPORTS] == 1);
 *     number = nuvaleta_dependencies_whole((const uint8_t *)text, 30, store, sizeof store, imports, NUVALETA_IMPORT_WORDS,
 *                                          includes, NUVALETA_INCLUDE_WORDS, answer);
 *     assert(number == 0 && answer[NUVALETA_DEPENDENCIES_IMPORTS] == 0); // cut between two statements: not seen
 */
uint32_t nuvaleta_dependencies_whole(const uint8_t *text, size_t text_len, uint8_t *store, size_t store_len, uint32_t *imports, size_t imports_len,
                                     uint32_t *includes, size_t includes_len, uint32_t *answer);

/* The same, and in the page what was read as lines for a person. Refusals: the same.
 *
 * answer[NUVALETA_PRINTED_ANSWER]
 *
 * Example:
 *     static const char cut[] = "module m { include m-types; import base { prefix b; reference \"RFC 79";
 *     static uint8_t store[sizeof cut], page[sizeof cut + NUVALETA_PAGE_MORE];
 *     static uint32_t imports[NUVALETA_IMPORT_WORDS], includes[NUVALETA_INCLUDE_WORDS];
 *     uint32_t answer[NUVALETA_PRINTED_ANSWER];
 *     uint32_t number = nuvaleta_printed((const uint8_t *)cut, strlen(cut), store, sizeof store, imports, NUVALETA_IMPORT_WORDS,
 *                                        includes, NUVALETA_INCLUDE_WORDS, page, sizeof page, answer);
 *     assert(number == NUVALETA_OPEN_ENDED && answer[NUVALETA_SCAN_KEYWORD] == NUVALETA_IMPORT);
 *     number = nuvaleta_printed_whole((const uint8_t *)cut, strlen(cut), store, sizeof store, imports, NUVALETA_IMPORT_WORDS,
 *                                     includes, NUVALETA_INCLUDE_WORDS, page, sizeof page, answer);
 *     assert(number == NUVALETA_CUT_SHORT && answer[NUVALETA_SCAN_POSITION] == strlen(cut) && answer[NUVALETA_PRINTED_LENGTH] == 0);
 */
uint32_t nuvaleta_printed_whole(const uint8_t *text, size_t text_len, uint8_t *store, size_t store_len, uint32_t *imports, size_t imports_len,
                                uint32_t *includes, size_t includes_len, uint8_t *page, size_t page_len, uint32_t *answer);

/* The metadata of a text of which nothing that is read may break off. Refusals: 1 to 6, 9, 11 and 12.
 *
 * record[NUVALETA_RECORD_WORDS], answer[NUVALETA_METADATA_ANSWER]
 *
 * Example:
 *     static const char cut[] = "module m { prefix m; revision 2024-05-01 { description \"The la";
 *     static uint8_t store[sizeof cut];
 *     uint32_t record[NUVALETA_RECORD_WORDS], answer[NUVALETA_METADATA_ANSWER];
 *     uint32_t number = nuvaleta_metadata((const uint8_t *)cut, strlen(cut), store, sizeof store, record, answer);
 *     assert(number == 0 && record[NUVALETA_VALUE_NEWEST_REVISION * NUVALETA_VALUE_ROW + NUVALETA_VALUE_PRESENT] == 1);
 *     number = nuvaleta_metadata_whole((const uint8_t *)cut, strlen(cut), store, sizeof store, record, answer);
 *     assert(number == NUVALETA_CUT_SHORT && answer[NUVALETA_SCAN_POSITION] == strlen(cut));
 */
uint32_t nuvaleta_metadata_whole(const uint8_t *text, size_t text_len, uint8_t *store, size_t store_len, uint32_t *record, uint32_t *answer);

/* ---- Image and bundle
 *
 * An image says which modules a router has, a bundle has their texts. Both are nothing but this, from the first byte to the last:
 *
 *     number        groups of seven bits, the low group first, in each byte the low seven bits, the top bit set in all bytes but the last; as few bytes
 *                   as can be, three at the most: 5 is 05, 200 is C8 01, 2097151 is FF FF 7F
 *     name          a number from 1 to 128, and as many bytes from 33 to 126
 *     list          a number, and as many of what it is a list of
 *
 *     image         a list of sets, 0 to 16
 *     set           a list of modules, 0 to 512, and a list of import-only modules, 0 to 512
 *     module        a name; lists of its submodules, of the modules that augment it and of those that deviate from it: names, 0 to 64 each
 *     import-only   a name, and a list of revisions, 1 to 8; a revision is a list of its submodules: names, 0 to 64
 *
 *     bundle        a list of texts, 0 to 2048
 *     text          a name, a number, and as many bytes of text
 *
 * In one set the names of modules differ, and so do those of import-only modules; in one revision of an import-only module those of submodules; in a
 * bundle all. Other names may come again.
 */
#define NUVALETA_IMAGE_MOST 65536u
#define NUVALETA_BUNDLE_MOST 16777216u
#define NUVALETA_NUMBER_MOST 2097151u
#define NUVALETA_NAME_MOST 128u
#define NUVALETA_SETS_MOST 16u
#define NUVALETA_MODULES_MOST 512u
#define NUVALETA_LIST_MOST 64u
#define NUVALETA_REVISIONS_MOST 8u
#define NUVALETA_TEXTS_MOST 2048u

/* Refusals of what breaks this form. The place is told: where the first wrong or missing number or name starts (a name starts at its length; one that
 * must differ is wrong where it comes again; a text cut short is wrong at its length), or the first byte too many; 0 for what is longer than
 * NUVALETA_IMAGE_MOST or NUVALETA_BUNDLE_MOST. */
enum nuvaleta_form_refusal {
    NUVALETA_IMAGE_BROKEN = 20,
    NUVALETA_BUNDLE_BROKEN = 21
};

#define NUVALETA_FIND_ANSWER 5u

enum nuvaleta_find_word {
    NUVALETA_FIND_NUMBER = 0,
    NUVALETA_FIND_FAULT = 1,    /* at refusal 20 its place */
    NUVALETA_FIND_FOUND = 2,    /* 1 or 0 */
    NUVALETA_FIND_PLACE = 3,    /* in the image: the first byte of the name that was found */
    NUVALETA_FIND_REVISIONS = 4 /* of the import-only module that was found; else 0 */
};

/* A module, a submodule of a module, or an import-only module by its name: the first one in the order of the image. A name that no image can hold is not
 * found, which is no refusal. Submodules of import-only modules are not looked for. Refusal: 20, wherever the image is broken.
 *
 * answer[NUVALETA_FIND_ANSWER]
 *
 * Example:
 *     // One set: module m with submodule s, no augmenting modules, no deviations; import-only module i with two revisions, none with submodules.
 *     static const uint8_t image[] = {1, 1, 1, 'm', 1, 1, 's', 0, 0, 1, 1, 'i', 2, 0, 0};
 *     uint32_t answer[NUVALETA_FIND_ANSWER];
 *     uint32_t number = nuvaleta_find_module(image, sizeof image, (const uint8_t *)"m", 1, answer);
 *     assert(number == 0 && answer[NUVALETA_FIND_FOUND] == 1 && answer[NUVALETA_FIND_PLACE] == 3);
 *     number = nuvaleta_find_submodule(image, sizeof image, (const uint8_t *)"m", 1, answer);
 *     assert(number == 0 && answer[NUVALETA_FIND_FOUND] == 0);
 *     number = nuvaleta_find_import_module(image, sizeof image, (const uint8_t *)"i", 1, answer);
 *     assert(number == 0 && answer[NUVALETA_FIND_FOUND] == 1 && answer[NUVALETA_FIND_PLACE] == 11 && answer[NUVALETA_FIND_REVISIONS] == 2);
 *     number = nuvaleta_find_module(image, 9, (const uint8_t *)"m", 1, answer); // cut short
 *     assert(number == NUVALETA_IMAGE_BROKEN && answer[NUVALETA_FIND_FAULT] == 9);
 */
uint32_t nuvaleta_find_module(const uint8_t *image, size_t image_len, const uint8_t *name, size_t name_len, uint32_t *answer);
uint32_t nuvaleta_find_submodule(const uint8_t *image, size_t image_len, const uint8_t *name, size_t name_len, uint32_t *answer);
uint32_t nuvaleta_find_import_module(const uint8_t *image, size_t image_len, const uint8_t *name, size_t name_len, uint32_t *answer);

#define NUVALETA_TEXT_ANSWER 5u

enum nuvaleta_text_word {
    NUVALETA_TEXT_NUMBER = 0,
    NUVALETA_TEXT_FAULT = 1, /* at refusal 21 its place */
    NUVALETA_TEXT_FOUND = 2, /* 1 or 0; an empty text is found too */
    NUVALETA_TEXT_START = 3, /* in the bundle: the first byte of the text */
    NUVALETA_TEXT_LENGTH = 4
};

/* The text under a name of a bundle: where its bytes stand in the bundle. Refusal: 21, wherever the bundle is broken.
 *
 * answer[NUVALETA_TEXT_ANSWER]
 *
 * Example:
 *     static const uint8_t bundle[] = {1, 1, 'm', 10, 'i', 'n', 'c', 'l', 'u', 'd', 'e', ' ', 's', ';'};
 *     uint32_t answer[NUVALETA_TEXT_ANSWER];
 *     uint32_t number = nuvaleta_text(bundle, sizeof bundle, (const uint8_t *)"m", 1, answer);
 *     assert(number == 0 && answer[NUVALETA_TEXT_FOUND] == 1 && answer[NUVALETA_TEXT_LENGTH] == 10);
 *     assert(memcmp(bundle + answer[NUVALETA_TEXT_START], "include s;", 10) == 0);
 *     number = nuvaleta_text(bundle, sizeof bundle, (const uint8_t *)"s", 1, answer);
 *     assert(number == 0 && answer[NUVALETA_TEXT_FOUND] == 0);
 */
uint32_t nuvaleta_text(const uint8_t *bundle, size_t bundle_len, const uint8_t *name, size_t name_len, uint32_t *answer);

/* ---- Graph
 *
 * Nodes are names, numbered from 0 on: set by set each module and then its submodules, then each revision of each import-only module and then its
 * submodules. A name that is a node already is not added again. nuvaleta_graph passes a module or revision of such a name over with its submodules;
 * nuvaleta_graph_complete goes through its submodules all the same.
 *
 * WHICH OF THE TWO. nuvaleta_graph gives the graph of NetGauze's Rust. If a router lists a module in two sets, with a submodule in the second alone, that
 * submodule is no node there, and an include of it is refused (28); and a submodule that only a later revision of an import-only module has is no node
 * either. For such a router take nuvaleta_graph_complete, which has complete nodes: the names of all modules and submodules. Where each name stands once
 * and each import-only module has one revision, both answer and leave the same; else a node may have another number, and so the order may be another one.
 *
 * An edge from u to v says that u must be registered before v. The entries, set by set each module and then each import-only module, are walked: the text
 * of an entry v gives an edge from each module that it imports to v, then from each submodule that it includes, whose own text is walked likewise before
 * the next include. Then a module gives an edge to each module that augments it, and to each that deviates from it. An edge that is there is not added
 * again; a name may have one to itself.
 */

/* The most nodes and edges. */
#define NUVALETA_NODES_MOST 1024u
#define NUVALETA_EDGES_MOST 8192u

/* The words of the node table, of the edge table and of the levels. The tables of a scan are lent too. The levels are first the walk's
 * memory, two words for each of 1,024 nodes: whether its text was read, and how many includes lie below it; then nine levels of 256 words, one for each
 * include of a text that is being walked. */
#define NUVALETA_NODE_WORDS 2048u
#define NUVALETA_EDGE_WORDS 16384u
#define NUVALETA_LEVEL_WORDS 4352u

/* The bytes of store that are enough for every bundle. As many as its longest text has are asked for, so as many as the bundle has are enough too. (A text
 * of more than NUVALETA_TEXT_MOST bytes may stand in a bundle, but if it is walked its scan refuses it.) */
#define NUVALETA_GRAPH_STORE NUVALETA_NUMBER_MOST

/* Row i of the node table starts at nodes[i * NUVALETA_NODE_ROW], row i of the edge table at edges[i * NUVALETA_EDGE_ROW]. */
#define NUVALETA_NODE_ROW 2u
#define NUVALETA_EDGE_ROW 2u

enum nuvaleta_node_word {
    NUVALETA_NODE_PLACE = 0, /* in the image: the first byte of the name, where it was added */
    NUVALETA_NODE_LENGTH = 1 /* of the name */
};

enum nuvaleta_edge_word {
    NUVALETA_EDGE_FROM = 0, /* the number of the node that is registered before .. */
    NUVALETA_EDGE_TO = 1    /* .. this one */
};

#define NUVALETA_GRAPH_ANSWER 8u

enum nuvaleta_graph_word {
    NUVALETA_GRAPH_NUMBER = 0,
    NUVALETA_GRAPH_ENTRY = 1,         /* in whose walk the refusal came, from 1 on in the order above; 0 at 20, 21, 22 and 30 */
    NUVALETA_GRAPH_SCAN_NUMBER = 2,   /* at 25 the three words of the scan: an enum nuvaleta_scan_refusal, never 11, .. */
    NUVALETA_GRAPH_SCAN_KEYWORD = 3,
    NUVALETA_GRAPH_SCAN_POSITION = 4,
    NUVALETA_GRAPH_FAULT = 5,         /* at 20 the place in the image, at 21 in the bundle */
    NUVALETA_GRAPH_NODES = 6,         /* rows of the node table */
    NUVALETA_GRAPH_EDGES = 7          /* rows of the edge table */
};

/* Refusals of a graph: 20, 21, 22 and 30 are looked for first, in this order, the others as the entries are walked. */
enum nuvaleta_graph_refusal {
    NUVALETA_GRAPH_LENT_TOO_SHORT = 22, /* a table, the store or the levels too short */
    NUVALETA_NO_ENTRY_TEXT = 23,        /* no text under the name of an entry */
    NUVALETA_NO_INCLUDED_TEXT = 24,     /* no text under the name of an included submodule */
    NUVALETA_SCAN_REFUSED = 25,         /* the scan of a text refused, which is that of nuvaleta_dependencies, so not with 11 */
    NUVALETA_UNKNOWN_MODULE = 26,       /* an import, augmenting module or deviation that is no module and no import-only module */
    NUVALETA_UNKNOWN_SUBMODULE = 27,    /* an include that is no submodule of a module */
    NUVALETA_NO_NODE = 28,              /* an include that is one, but is no node, since its module was passed over; not by nuvaleta_graph_complete */
    NUVALETA_TOO_DEEP = 29,             /* a text due at depth 9: an entry's text is at 0, those that it includes at 1 */
    NUVALETA_TOO_MANY_NODES = 30,       /* a 1,025th node */
    NUVALETA_TOO_MANY_EDGES = 31        /* an 8,193rd edge */
};

/* The graph of an image and a bundle, in the node table and the edge table. Store, imports, includes and levels are scratch, zero after every call.
 * Refusals: 20 to 31.
 *
 * answer[NUVALETA_GRAPH_ANSWER]
 *
 * Example:
 *     // One set: module m with submodule s, and module b; neither has more. The text of m has 29 bytes, that of s 19, that of b none.
 *     static const uint8_t image[] = {1, 2, 1, 'm', 1, 1, 's', 0, 0, 1, 'b', 0, 0, 0, 0};
 *     static const char bundle[] = "\3" "\1m" "\35" "include s;import b{prefix b;}" "\1s" "\23" "import b{prefix b;}" "\1b" "\0";
 *     static uint32_t nodes[NUVALETA_NODE_WORDS], edges[NUVALETA_EDGE_WORDS];
 *     static uint32_t imports[NUVALETA_IMPORT_WORDS], includes[NUVALETA_INCLUDE_WORDS], levels[NUVALETA_LEVEL_WORDS];
 *     static uint8_t store[sizeof bundle];
 *     uint32_t answer[NUVALETA_GRAPH_ANSWER];
 *     uint32_t number = nuvaleta_graph(image, sizeof image, (const uint8_t *)bundle, sizeof bundle - 1, nodes, NUVALETA_NODE_WORDS,
 *                                      edges, NUVALETA_EDGE_WORDS, store, sizeof store, imports, NUVALETA_IMPORT_WORDS,
 *                                      includes, NUVALETA_INCLUDE_WORDS, levels, NUVALETA_LEVEL_WORDS, answer);
 *     assert(number == 0 && answer[NUVALETA_GRAPH_NODES] == 3 && answer[NUVALETA_GRAPH_EDGES] == 3);
 *     char before[] = "? before ?\n", all[40] = "";
 *     for (uint32_t i = 0; i < answer[NUVALETA_GRAPH_EDGES]; i++) {
 *         const uint32_t *edge = edges + i * NUVALETA_EDGE_ROW;
 *         before[0] = (char)image[nodes[edge[NUVALETA_EDGE_FROM] * NUVALETA_NODE_ROW + NUVALETA_NODE_PLACE]]; // names of one byte
 *         before[9] = (char)image[nodes[edge[NUVALETA_EDGE_TO] * NUVALETA_NODE_ROW + NUVALETA_NODE_PLACE]];
 *         strcat(all, before);
 *     }
 *     assert(strcmp(all, "b before m\ns before m\nb before s\n") == 0);
 */
uint32_t nuvaleta_graph(const uint8_t *image, size_t image_len, const uint8_t *bundle, size_t bundle_len, uint32_t *nodes, size_t nodes_len,
                        uint32_t *edges, size_t edges_len, uint8_t *store, size_t store_len, uint32_t *imports, size_t imports_len, uint32_t *includes,
                        size_t includes_len, uint32_t *levels, size_t levels_len, uint32_t *answer);

/* The same with all submodules as nodes. All else is as for nuvaleta_graph: the slices, the answer, the entries, the edges between the same names. 28 does
 * not come, and 30 goes by these nodes. An include of what is a submodule of import-only modules alone is 27 for both. Refusals: 20 to 27 and 29 to 31.
 *
 * answer[NUVALETA_GRAPH_ANSWER]
 *
 * Example:
 *     // Two sets: module m without submodules, and m once more, with submodule s. The text of m has 10 bytes, that of s none.
 *     static const uint8_t image[] = {2, 1, 1, 'm', 0, 0, 0, 0, 1, 1, 'm', 1, 1, 's', 0, 0, 0};
 *     static const char bundle[] = "\2" "\1m" "\12" "include s;" "\1s" "\0";
 *     static uint32_t nodes[NUVALETA_NODE_WORDS], edges[NUVALETA_EDGE_WORDS];
 *     static uint32_t imports[NUVALETA_IMPORT_WORDS], includes[NUVALETA_INCLUDE_WORDS], levels[NUVALETA_LEVEL_WORDS];
 *     static uint8_t store[sizeof bundle];
 *     uint32_t answer[NUVALETA_GRAPH_ANSWER];
 *     uint32_t number = nuvaleta_graph(image, sizeof image, (const uint8_t *)bundle, sizeof bundle - 1, nodes, NUVALETA_NODE_WORDS,
 *                                      edges, NUVALETA_EDGE_WORDS, store, sizeof store, imports, NUVALETA_IMPORT_WORDS,
 *                                      includes, NUVALETA_INCLUDE_WORDS, levels, NUVALETA_LEVEL_WORDS, answer);
 *     assert(number == NUVALETA_NO_NODE && answer[NUVALETA_GRAPH_ENTRY] == 1);
 *     number = nuvaleta_graph_complete(image, sizeof image, (const uint8_t *)bundle, sizeof bundle - 1, nodes, NUVALETA_NODE_WORDS,
 *                                      edges, NUVALETA_EDGE_WORDS, store, sizeof store, imports, NUVALETA_IMPORT_WORDS,
 *                                      includes, NUVALETA_INCLUDE_WORDS, levels, NUVALETA_LEVEL_WORDS, answer);
 *     assert(number == 0 && answer[NUVALETA_GRAPH_NODES] == 2 && answer[NUVALETA_GRAPH_EDGES] == 1);
 *     assert(image[nodes[NUVALETA_NODE_PLACE]] == 'm' && image[nodes[NUVALETA_NODE_ROW + NUVALETA_NODE_PLACE]] == 's');
 *     assert(edges[NUVALETA_EDGE_FROM] == 1 && edges[NUVALETA_EDGE_TO] == 0); // s before m
 */
uint32_t nuvaleta_graph_complete(const uint8_t *image, size_t image_len, const uint8_t *bundle, size_t bundle_len, uint32_t *nodes, size_t nodes_len,
                                 uint32_t *edges, size_t edges_len, uint8_t *store, size_t store_len, uint32_t *imports, size_t imports_len,
                                 uint32_t *includes, size_t includes_len, uint32_t *levels, size_t levels_len, uint32_t *answer);

/* ---- Order
 *
 * `nodes` and `edges` are the tables of a graph, or a caller's own; node_count and edge_count say how many rows of them are used, the lengths are
 * in words as ever. Of the node table only the length is looked at.
 */

/* The words of an order table that is long enough for every graph. As many as there are nodes are asked for. */
#define NUVALETA_ORDER_WORDS NUVALETA_NODES_MOST

#define NUVALETA_ORDER_ANSWER 2u
#define NUVALETA_CHECK_ANSWER 2u

enum nuvaleta_order_word {
    NUVALETA_ORDER_NUMBER = 0,
    NUVALETA_ORDER_LENGTH = 1 /* of the order, which is node_count, or at 40 of the ring */
};

enum nuvaleta_check_word {
    NUVALETA_CHECK_NUMBER = 0,
    NUVALETA_CHECK_PLACE = 1 /* at 42 the first wrong place of the list, from 0 on */
};

/* Refusals of an order: 43, then 41, then 40; of a list: 43, then 42. */
enum nuvaleta_order_refusal {
    NUVALETA_CYCLE = 40,           /* a chain of edges comes back to its start, or a node has an edge to itself */
    NUVALETA_ORDER_TOO_SHORT = 41, /* an order table of fewer words than there are nodes */
    NUVALETA_LIST_WRONG = 42,      /* a list that does not hold each node once, or breaks an edge */
    NUVALETA_TABLES_UNFIT = 43     /* more than NUVALETA_NODES_MOST nodes or NUVALETA_EDGES_MOST edges, a table shorter than its count, or an edge with a
                                    * number that is no node; never for tables and counts as a graph left them */
};

/* The order of registration: the numbers of all nodes in the order table, each behind all that have an edge to it, always the lowest number that is free.
 *
 * At NUVALETA_CYCLE the order table holds a ring instead: each node has an edge to the next, the last one to the first. It is found so: of the nodes that
 * are left over when none is free, from the lowest one go each time to the lowest that has an edge to it, until one comes twice. It is written from its
 * lowest node on, along the edges. Refusals: 40, 41, 43.
 *
 * answer[NUVALETA_ORDER_ANSWER]
 *
 * Example:
 *     static const uint32_t nodes[3 * NUVALETA_NODE_ROW] = {0}, edges[] = {2, 0, 1, 0, 2, 1}; // 2 before 0, 1 before 0, 2 before 1
 *     static const uint32_t both[] = {0, 1, 1, 0};                                            // 0 before 1, 1 before 0
 *     uint32_t order[3], answer[NUVALETA_ORDER_ANSWER];
 *     uint32_t number = nuvaleta_order(nodes, 3 * NUVALETA_NODE_ROW, 3, edges, 3 * NUVALETA_EDGE_ROW, 3, order, 3, answer);
 *     assert(number == 0 && answer[NUVALETA_ORDER_LENGTH] == 3 && order[0] == 2 && order[1] == 1 && order[2] == 0);
 *     number = nuvaleta_order(nodes, 3 * NUVALETA_NODE_ROW, 3, both, 2 * NUVALETA_EDGE_ROW, 2, order, 3, answer);
 *     assert(number == NUVALETA_CYCLE && answer[NUVALETA_ORDER_LENGTH] == 2 && order[0] == 0 && order[1] == 1);
 */
uint32_t nuvaleta_order(const uint32_t *nodes, size_t nodes_len, size_t node_count, const uint32_t *edges, size_t edges_len, size_t edge_count,
                        uint32_t *order, size_t order_len, uint32_t *answer);

/* Whether a list of node numbers is an order of registration, not only the one above: it holds each node once and breaks no edge. The wrong place is the
 * first whose number is no node, is there already, or has an edge from a node not earlier in the list, itself too; or the list's end if it is too short.
 * Refusals: 42, 43.
 *
 * answer[NUVALETA_CHECK_ANSWER]
 *
 * Example:
 *     static const uint32_t nodes[3 * NUVALETA_NODE_ROW] = {0}, edges[] = {2, 0, 2, 1}; // 2 before 0, 2 before 1
 *     static const uint32_t good[] = {2, 1, 0}, wrong[] = {2, 0, 0};
 *     uint32_t answer[NUVALETA_CHECK_ANSWER];
 *     uint32_t number = nuvaleta_order_check(nodes, 3 * NUVALETA_NODE_ROW, 3, edges, 2 * NUVALETA_EDGE_ROW, 2, good, 3, answer);
 *     assert(number == 0);
 *     number = nuvaleta_order_check(nodes, 3 * NUVALETA_NODE_ROW, 3, edges, 2 * NUVALETA_EDGE_ROW, 2, wrong, 3, answer);
 *     assert(number == NUVALETA_LIST_WRONG && answer[NUVALETA_CHECK_PLACE] == 2);
 */
uint32_t nuvaleta_order_check(const uint32_t *nodes, size_t nodes_len, size_t node_count, const uint32_t *edges, size_t edges_len, size_t edge_count,
                              const uint32_t *list, size_t list_len, uint32_t *answer);

#ifdef __cplusplus
}
#endif

#endif
