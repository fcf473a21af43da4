/* Prints the rows of an XNB file from standard input, or why it is refused; as C and as C++.

       cc -I crates/builder rust/xnb/examples/c/rows.c target/staticlib/libbuilder.a -o rows
       ./rows < corpus/kinds/ok-kind-13-string.xnb */
#include "xnb.h"

#include <stdio.h>

static uint8_t file[XNB_LONGEST_FILE + 1];
static uint32_t words[XNB_WORDS_PER_ROW * XNB_MOST_ROWS];
static const uint8_t no_enums[1] = {0};

static void print_row(uint32_t row, size_t file_length) {
    const uint32_t *it = words + (size_t)XNB_WORDS_PER_ROW * row;
    size_t first, length;
    printf("row %u, %u bytes at %u: %s", (unsigned)row, (unsigned)it[XNB_WORD_LENGTH],
           (unsigned)it[XNB_WORD_FIRST], xnb_kind_text(it[XNB_WORD_KIND]));
    if (it[XNB_WORD_KIND] == XNB_KIND_STRING
        && xnb_text(file, file_length, words, sizeof words / sizeof *words, row, &first, &length) == XNB_NO_REFUSAL)
        printf(" \"%.*s\"", (int)length, (const char *)file + first);
    printf("\n");
}

int main(void) {
    size_t file_length = fread(file, 1, sizeof file, stdin);
    uint32_t readers, shared, padding, row;
    uint64_t answer = xnb_load_rows(file, file_length, no_enums, 0, words, sizeof words / sizeof *words, &readers, &shared,
                                    &padding);
    uint32_t refusal = (uint32_t)(answer >> 32), place_or_rows = (uint32_t)answer;
    if (refusal != XNB_NO_REFUSAL) {
        printf("refused %u at %u: %s\n", (unsigned)refusal, (unsigned)place_or_rows, xnb_refusal_text(refusal));
        return 1;
    }
    for (row = 0; row < place_or_rows; row++)
        print_row(row, file_length);
    return 0;
}
