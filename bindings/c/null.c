/* A null pointer with length 0, for every slice of every call: each call is made with null and with a pointer to a word, both of length 0,
 * and answers the same. Prints for each call how many slices were tried and how many of these calls were refused, as too short a slice is. */
#include "../labels.h"
#include <stdio.h>
#include <stdlib.h>
#include <string.h>

static labels_memory memory;
static labels_store full;
static uint32_t x, whole, equation, name[2] = {'n', 'm'}, terms[3];

/* The slices of a call by their place in its arguments; the one that is tried becomes empty. */
struct slice {
    uint32_t *at;
    size_t len;
};
enum { STATE, TERMS, CELLS, CHARS, REASONS, KEYS, FIRST, SECOND, THIRD, SLICES };
static struct slice lent[SLICES];
#define S(i) lent[i].at, lent[i].len
#define STORE S(STATE), S(TERMS), S(CELLS), S(CHARS), S(REASONS), S(KEYS)

static void lend(int i, uint32_t *at, size_t len) {
    lent[i].at = at;
    lent[i].len = len;
}

static uint32_t call(int which) {
    switch (which) {
    case 0:
        return labels_audit(STORE);
    case 1:
        return labels_make_constant(STORE, S(FIRST), S(SECOND));
    case 2:
        return labels_make_variable(STORE, S(FIRST), S(SECOND));
    case 3:
        return labels_make_concatenation(STORE, S(FIRST), S(SECOND));
    case 4:
        return labels_make_length(STORE, x, S(FIRST));
    case 5:
        return labels_make_equation(STORE, x, whole, S(FIRST));
    case 6:
        return labels_find(STORE, x, S(FIRST));
    case 7:
        return labels_explain(STORE, x, x);
    case 8:
        return labels_normal_form(STORE, S(FIRST), whole, S(SECOND), S(THIRD));
    case 9:
        return labels_deep_normal_form(STORE, S(FIRST), whole, S(SECOND), S(THIRD));
    case 10:
        return labels_step(STORE, S(FIRST), equation, 1, S(SECOND), S(THIRD));
    case 11:
        return labels_nf_equal(STORE, S(FIRST), S(SECOND), S(THIRD));
    case 12:
        return labels_nf_equal_explain(STORE, S(FIRST), S(SECOND));
    case 13:
        return labels_join(STORE, S(FIRST), x, whole, LABELS_ASSERTED, 3, S(SECOND));
    case 14:
        return labels_set_mark(STORE, S(FIRST), S(SECOND));
    case 15:
        return labels_go_back(STORE, S(FIRST), 1);
    case 16: /* its list is tried by the next; so for the two after it */
        return labels_resolve_equation(STORE, S(FIRST), S(SECOND), 1, full.list, full.list_len, S(THIRD));
    case 17:
        return labels_resolve_equation(STORE, terms, 2, terms, 2, 1, S(FIRST), S(SECOND));
    case 18:
        return labels_empty_parts(STORE, S(FIRST), S(SECOND), full.list, full.list_len, S(THIRD));
    case 19:
        return labels_empty_parts(STORE, terms, 0, terms, 2, S(FIRST), S(SECOND));
    default:
        return labels_forced_length(STORE, S(FIRST), S(SECOND), S(THIRD));
    }
}

static const char *const names[] = {"audit", "make_constant", "make_variable", "make_concatenation", "make_length", "make_equation", "find",
                                    "explain", "normal_form", "deep_normal_form", "step", "nf_equal", "nf_equal_explain", "join",
                                    "set_mark", "go_back", "resolve_equation", "resolve_equation", "empty_parts", "empty_parts",
                                    "forced_length"};

/* A store of the terms x, y, x ++ y, "ab", x ++ y = "ab", with one mark. */
static void fresh(int which) {
    static uint32_t ab;
    uint32_t y, mark;
    memset(&memory, 0, sizeof memory);
    labels_store_over(&full, &memory);
    if (labels_store_variable(&full, "x", &x) || labels_store_variable(&full, "y", &y))
        exit(1);
    terms[0] = x;
    terms[1] = y;
    if (labels_store_make_concatenation(&full, terms, 2, &whole) || labels_store_constant(&full, "ab", &ab) ||
        labels_store_make_equation(&full, whole, ab, &equation) || labels_store_set_mark(&full, &mark))
        exit(1);
    lend(STATE, full.state, LABELS_STATE_WORDS);
    lend(TERMS, full.terms, full.terms_len);
    lend(CELLS, full.cells, full.cells_len);
    lend(CHARS, full.chars, full.chars_len);
    lend(REASONS, full.reasons, full.reasons_len);
    lend(KEYS, full.keys, full.keys_len);
    lend(FIRST, terms, 2);
    lend(SECOND, terms, 2);
    lend(THIRD, full.answer, LABELS_ANSWER_WORDS);
    if (which == 1 || which == 2)
        lend(FIRST, name, 2);
    if (which <= 3)
        lend(SECOND, full.answer, LABELS_ANSWER_WORDS);
    if (which >= 4 && which <= 6)
        lend(FIRST, full.answer, LABELS_ANSWER_WORDS);
    if (which >= 8 && which <= 10)
        lend(SECOND, full.list, full.list_len);
    if (which >= 13 && which <= 15)
        lend(FIRST, full.marks, full.marks_len);
    if (which == 13 || which == 14 || which == 17 || which == 19)
        lend(SECOND, full.answer, LABELS_ANSWER_WORDS);
    if (which == 17 || which == 19)
        lend(FIRST, full.list, full.list_len);
    if (which == 20) { /* x against "ab" */
        lend(FIRST, terms, 1);
        lend(SECOND, &ab, 1);
    }
}

int main(void) {
    static const int slices[] = {6, 8, 8, 8, 7, 7, 7, 6, 9, 9, 9, 9, 8, 8, 8, 7, 9, 8, 9, 8, 9};
    static labels_memory memory_kept;
    static labels_store store_kept;
    uint32_t word = 0, refusal[2];
    int which, i, refused;
    for (which = 0; which < (int)(sizeof slices / sizeof *slices); which++) {
        fresh(which);
        if (call(which) != LABELS_ACCEPTED) {
            printf("%s: refused with nothing empty\n", names[which]);
            return 1;
        }
        for (refused = 0, i = 0; i < slices[which]; i++) {
            fresh(which);
            lend(i, NULL, 0);
            refusal[0] = call(which);
            memory_kept = memory;
            store_kept = full;
            fresh(which);
            lend(i, &word, 0);
            refusal[1] = call(which);
            if (refusal[0] != refusal[1] || word != 0 || memcmp(&memory, &memory_kept, sizeof memory) != 0 ||
                memcmp(full.state, store_kept.state, sizeof full.state) != 0 ||
                memcmp(full.answer, store_kept.answer, sizeof full.answer) != 0) {
                printf("%s: slice %d differs\n", names[which], i);
                return 1;
            }
            refused += refusal[0] != LABELS_ACCEPTED;
        }
        printf("%s: %d slices, %d refused\n", names[which], slices[which], refused);
    }
    return 0;
}
