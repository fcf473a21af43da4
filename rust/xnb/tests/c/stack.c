/* Prints how much stack each entry takes at most over the files that standard input names, one to a line.

   Each call runs in a thread whose stack is painted before; the bytes from the lowest that is changed are its own. */
#include "xnb.h"

#include <pthread.h>
#include <stdio.h>
#include <stdlib.h>
#include <string.h>
#include <sys/mman.h>

#define STACK (1 << 20)
#define PAINT 0xA5
#define LONGEST (1 << 20)

static uint8_t *stack;
static uint8_t file[LONGEST], out[8 * LONGEST], path[] = "Fonts\\Door";
static size_t length;
static uint32_t words[XNB_WORDS_PER_ROW * XNB_MOST_ROWS], columns[XNB_WORDS_PER_ROW * XNB_MOST_ROWS];
static uint64_t table[XNB_WORDS_PER_PACK_FILE * XNB_MOST_PACK_FILES], list[XNB_WORDS_PER_STRETCH * XNB_MOST_STRETCHES];
static uint64_t report[XNB_WORDS_PER_REPORT], other[XNB_WORDS_PER_REPORT];
static uint32_t readers, shared, padding, ticks;
static uint64_t at, more;
static int64_t value, seconds;
static size_t first, count;
/* So many enum types that the largest table of marks is made for them. */
#define ENTRIES 2100
static uint8_t enums[8 * ENTRIES];
static size_t listed;

#define WORDS (sizeof words / sizeof *words)
#define TABLE (sizeof table / sizeof *table)
#define LIST (sizeof list / sizeof *list)

#define EACH_ENTRY(X) \
    X(xnb_version, xnb_version()) \
    X(xnb_load, xnb_load(file, length)) \
    X(xnb_load_rows, xnb_load_rows(file, length, enums, listed, words, WORDS, &readers, &shared, &padding)) \
    X(xnb_part, xnb_part(file, length, words, WORDS, 0, &first, &count)) \
    X(xnb_text, xnb_text(file, length, words, WORDS, 0, &first, &count)) \
    X(xnb_signed, xnb_signed(file, length, words, WORDS, 0, &value)) \
    X(xnb_time, xnb_time(file, length, words, WORDS, 0, &seconds, &ticks)) \
    X(xnb_next, xnb_next(words, WORDS, 0)) \
    X(xnb_load_columns, xnb_load_columns(file, length, enums, listed, columns, WORDS, &readers, &shared, &padding)) \
    X(xnb_columns_part, xnb_columns_part(file, length, columns, WORDS, 0, &first, &count)) \
    X(xnb_columns_text, xnb_columns_text(file, length, columns, WORDS, 0, &first, &count)) \
    X(xnb_columns_signed, xnb_columns_signed(file, length, columns, WORDS, 0, &value)) \
    X(xnb_columns_time, xnb_columns_time(file, length, columns, WORDS, 0, &seconds, &ticks)) \
    X(xnb_columns_next, xnb_columns_next(columns, WORDS, 0)) \
    X(xnb_load_driver, xnb_load_driver(file, length, enums, listed, words, WORDS, &readers, &shared, &padding)) \
    X(xnb_rewrite, xnb_rewrite(file, length, enums, listed, words, WORDS, out, sizeof out)) \
    X(xnb_export_xml, xnb_export_xml(file, length, enums, listed, words, WORDS, out, sizeof out)) \
    X(xnb_import_xml, xnb_import_xml(file, length, out, sizeof out, &at)) \
    X(xnb_pack_read, xnb_pack_read(file, length, table, TABLE, &at)) \
    X(xnb_pack_find, xnb_pack_find(file, length, table, TABLE, path, sizeof path - 1, &at, &more)) \
    X(xnb_marked_read, xnb_marked_read(file, length, table, TABLE, &at)) \
    X(xnb_pack_mark, xnb_pack_mark(file, length, out, sizeof out, &at)) \
    X(xnb_pack_unmark, xnb_pack_unmark(file, length, out, sizeof out, &at)) \
    X(xnb_pack_salvage, xnb_pack_salvage(file, length, out, sizeof out, list, LIST, &at, &more)) \
    X(xnb_report_add, xnb_report_add(file, length, enums, listed, table, TABLE, words, WORDS, report, &at)) \
    X(xnb_report_sum, xnb_report_sum(other, report))

/* Writes the list of enum types: each has a name of six bytes and the size 1. */
static void list_enums(void) {
    size_t entry;
    for (entry = 0; entry < ENTRIES; entry++) {
        uint8_t *at = enums + listed;
        at[0] = 6;
        memcpy(at + 1, "E.0000", 6);
        at[3] = (uint8_t)('0' + entry / 1000);
        at[4] = (uint8_t)('0' + entry / 100 % 10);
        at[5] = (uint8_t)('0' + entry / 10 % 10);
        at[6] = (uint8_t)('0' + entry % 10);
        at[7] = 1;
        listed += 8;
    }
}

static void *nothing(void *unused) { return unused; }
#define RUN(entry, call) \
    static void *run_##entry(void *unused) { \
        (void)call; \
        return unused; \
    }
EACH_ENTRY(RUN)

/* The bytes of stack that a thread with this work writes to. */
static size_t used(void *(*work)(void *)) {
    pthread_attr_t attributes;
    pthread_t thread;
    size_t lowest = 0;
    if (pthread_attr_init(&attributes) || pthread_attr_setstack(&attributes, stack, STACK)
        || pthread_create(&thread, &attributes, work, NULL) || pthread_join(thread, NULL))
        exit(2);
    pthread_attr_destroy(&attributes);
    while (lowest < STACK && stack[lowest] == PAINT)
        lowest++;
    memset(stack + lowest, PAINT, STACK - lowest);
    return STACK - lowest;
}

static size_t most[64];

static void measure(size_t before) {
    size_t entry = 0, now;
#define MEASURE(name, call) \
    now = used(run_##name); \
    if (now > before && now - before > most[entry]) \
        most[entry] = now - before; \
    entry++;
    EACH_ENTRY(MEASURE)
}

int main(void) {
    char name[4096];
    size_t entry = 0, before;
    stack = mmap(NULL, STACK, PROT_READ | PROT_WRITE, MAP_PRIVATE | MAP_ANONYMOUS, -1, 0);
    if (stack == MAP_FAILED)
        return 2;
    list_enums();
    memset(stack, PAINT, STACK);
    used(nothing);
    before = used(nothing);
    while (fgets(name, sizeof name, stdin)) {
        FILE *input;
        name[strcspn(name, "\n")] = 0;
        input = fopen(name, "rb");
        if (!input)
            return 2;
        length = fread(file, 1, sizeof file, input);
        fclose(input);
        measure(before);
    }
#define PRINT(name, call) printf("%s %zu\n", #name, most[entry++]);
    EACH_ENTRY(PRINT)
    return 0;
}
