/* A label of eight optional parts against an empty code. Hall and site are of one class for the reason a1. One call lists what must still
 * become "", each of these is joined with it, and the call is made again. */
#include "../labels.h"
#include <stdio.h>
#include <stdlib.h>

static labels_memory memory;
static labels_store store;

static void must(uint32_t refusal) {
    if (refusal != LABELS_ACCEPTED) {
        fprintf(stderr, "refused: %s\n", labels_refusal_text(refusal));
        exit(1);
    }
}

/* Prints how many variables are listed, and their names. */
static void print_listed(void) {
    uint32_t i, k;
    printf("%u:", (unsigned)store.answer[LABELS_PARTS_COUNT]);
    for (i = 0; i < store.answer[LABELS_PARTS_COUNT]; i++) {
        const uint32_t *record = store.terms + LABELS_TERM_PLACE(store.list[i], 0);
        putchar(' ');
        for (k = 0; k < record[LABELS_TERM_SECOND]; k++)
            putchar((int)store.chars[record[LABELS_TERM_FIRST] + k]);
    }
    printf("\n");
}

int main(void) {
    static const char *const names[8] = {"site", "hall", "aisle", "shelf", "bin", "batch", "serial", "check"};
    uint32_t label[8], count, empty, i;
    labels_store_over(&store, &memory);
    for (i = 0; i < 8; i++)
        must(labels_store_variable(&store, names[i], &label[i]));
    must(labels_store_join(&store, label[1], label[0], LABELS_ASSERTED, 1, NULL));

    /* manual: */
    must(labels_store_empty_parts(&store, NULL, 0, LABELS_LEND(label)));
    print_listed(); /* 7: site aisle shelf bin batch serial check; hall is of the class of site and follows it */
    count = store.answer[LABELS_PARTS_COUNT];
    empty = store.answer[LABELS_PARTS_EMPTY];
    for (i = 0; i < count; i++) /* i9 stands for the equation */
        must(labels_store_join(&store, store.list[i], empty, LABELS_INTERFACE, 9, NULL));
    must(labels_store_empty_parts(&store, NULL, 0, LABELS_LEND(label)));
    print_listed(); /* 0: every part is "" now */
    /* :manual */
    return 0;
}
