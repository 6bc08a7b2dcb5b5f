/* The undone merge of the manual: site and "B" are joined for the reason a3, `site ++ batch = "A7"` is asked, the join is undone, and it is
 * asked again. By the plain calls; `examples/label.c` has the store and its calls. */
#include "../labels.h"
#include <stdio.h>
#include <stdlib.h>

#define LEND(words) LABELS_LEND(words)
#define STORE LEND(state), LEND(terms), LEND(cells), LEND(chars), LEND(reasons), LEND(keys)

static uint32_t state[LABELS_STATE_WORDS], terms[LABELS_TERM_WORDS], cells[LABELS_CELL_WORDS], chars[LABELS_CHAR_WORDS];
static uint32_t reasons[LABELS_REASON_WORDS], keys[LABELS_KEY_WORDS], marks[LABELS_MARK_WORDS];
static uint32_t list[LABELS_LIST_WORDS], answer[LABELS_ANSWER_WORDS];

static void must(uint32_t refusal) {
    if (refusal != 0) {
        printf("refused: %s\n", labels_refusal_text(refusal));
        exit(1);
    }
}

/* Asks a question with no reasons handed in, and prints the answer's case with the reasons that it names. */
static void ask(const uint32_t *known, size_t known_len, uint32_t equation) {
    state[LABELS_COUNT_REASONS] = 0;
    must(labels_step(STORE, known, known_len, equation, 1, LEND(list), LEND(answer)));
    printf(answer[0] == LABELS_CONFLICT ? "conflict" : "no conflict");
    for (uint32_t i = 0; i < state[LABELS_COUNT_REASONS]; i++)
        printf(" %c%u", reasons[2 * i] == LABELS_ASSERTED ? 'a' : 'i', reasons[2 * i + 1]);
    printf("\n");
}

int main(void) {
    const uint32_t site_name[] = {'s', 'i', 't', 'e'}, batch_name[] = {'b', 'a', 't', 'c', 'h'}, b_text[] = {'B'}, code_text[] = {'A', '7'};
    uint32_t known[5];
    must(labels_make_variable(STORE, LEND(site_name), LEND(answer)));
    known[0] = answer[0];
    must(labels_make_variable(STORE, LEND(batch_name), LEND(answer)));
    known[1] = answer[0];
    must(labels_make_constant(STORE, LEND(b_text), LEND(answer)));
    known[2] = answer[0];
    must(labels_make_constant(STORE, LEND(code_text), LEND(answer)));
    known[3] = answer[0];
    must(labels_make_concatenation(STORE, known, 2, LEND(answer)));
    known[4] = answer[0];
    must(labels_make_equation(STORE, known[4], known[3], LEND(answer)));
    uint32_t equation = answer[0], site = known[0], b = known[2];

    /* manual: */
    must(labels_set_mark(STORE, LEND(marks), LEND(answer)));
    uint32_t mark = answer[0];
    must(labels_join(STORE, LEND(marks), site, b, 1, 3, LEND(answer)));
    ask(LEND(known), equation); /* conflict a3: keep the rule 'not a3' with the dropped branch */
    must(labels_go_back(STORE, LEND(marks), mark));
    ask(LEND(known), equation); /* no conflict: the rule named a3, so it went with the join */
    /* :manual */
    return 0;
}
