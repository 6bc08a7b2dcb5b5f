/* A label against a code: `site ++ batch ++ serial = "A7-0042"`. The site is "A7" for the reason a1 and the batch "-0042" for i5, so nothing
 * is left for the serial. Under a mark the serial is taken to be "43" for a3: a conflict, and it names a3. Gone back, the first answer is
 * given again. */
#include "../bindings/labels.h"
#include <stdio.h>
#include <stdlib.h>

static labels_memory memory;
static labels_store store;

static void must(uint32_t refusal) {
    if (refusal != LABELS_ACCEPTED) {
        fprintf(stderr, "refused: %s\n", labels_refusal_text(refusal));
        exit(1);
    }
}

/* Prints the characters of a constant or the name of a variable; both have the place of their characters and their count as first and second
 * word. */
static void print_text(uint32_t term) {
    const uint32_t *record = store.terms + LABELS_TERM_PLACE(term, 0);
    uint32_t i;
    for (i = 0; i < record[LABELS_TERM_SECOND]; i++)
        putchar((int)store.chars[record[LABELS_TERM_FIRST] + i]);
}

/* Asks the equation, and prints the answer with the reasons that it rests on. */
static void ask(const uint32_t *known, size_t known_len, uint32_t equation) {
    uint32_t i, kind, number;
    must(labels_ask(&store, known, known_len, equation, 1));
    printf("%s", labels_case_text(labels_answer_case(&store)));
    if (labels_answer_case(&store) == LABELS_PROPAGATE) {
        putchar(' ');
        print_text(store.answer[LABELS_ANSWER_VARIABLE]);
        printf(" = \"");
        print_text(store.answer[LABELS_ANSWER_WORD]);
        putchar('"');
    }
    printf(" because of");
    for (i = 0; i < labels_reason_count(&store); i++) {
        labels_reason(&store, i, &kind, &number);
        printf(" %c%u", kind == LABELS_ASSERTED ? 'a' : 'i', (unsigned)number);
    }
    printf("\n");
}

int main(void) {
    uint32_t parts[3], known[8], label, equation, mark;
    labels_store_over(&store, &memory);
    must(labels_store_variable(&store, "site", &parts[0]));
    must(labels_store_variable(&store, "batch", &parts[1]));
    must(labels_store_variable(&store, "serial", &parts[2]));
    must(labels_store_make_concatenation(&store, LABELS_LEND(parts), &label));
    known[0] = parts[0];
    known[1] = parts[1];
    known[2] = parts[2];
    known[3] = label;
    must(labels_store_constant(&store, "A7-0042", &known[4]));
    must(labels_store_constant(&store, "A7", &known[5]));
    must(labels_store_constant(&store, "-0042", &known[6]));
    must(labels_store_constant(&store, "43", &known[7]));
    must(labels_store_make_equation(&store, label, known[4], &equation));

    must(labels_store_join(&store, parts[0], known[5], LABELS_ASSERTED, 1, NULL));
    must(labels_store_join(&store, parts[1], known[6], LABELS_INTERFACE, 5, NULL));
    ask(LABELS_LEND(known), equation);

    must(labels_store_set_mark(&store, &mark));
    must(labels_store_join(&store, parts[2], known[7], LABELS_ASSERTED, 3, NULL));
    ask(LABELS_LEND(known), equation);

    must(labels_store_go_back(&store, mark));
    ask(LABELS_LEND(known), equation);
    return 0;
}
